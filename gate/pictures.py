#!/usr/bin/env python3
"""Draws the pictures of docs/MODEL.md and docs/ARCHITECTURE.md into docs/pictures/.

    gate/pictures.py [--check]

The passes come from examples/frames/deferred.json; the crates beside the steps of the pipeline have to stand in crates.txt. With
--check nothing is written, and the status is 1 where a picture is not what would be drawn.
"""

import json
import re
import sys
from pathlib import Path
from xml.sax.saxutils import escape

sys.path.insert(0, str(Path(__file__).resolve().parent.parent / "tools/lib"))
from arguments import Arguments
from repository import FRAMES, TOP, own_crates
from tally import Tally

FOLDER = TOP / "docs/pictures"

INK, PALE, LINE = "#1c2430", "#8a93a3", "#5b6678"
FILLS = {"plain": "#eef2f7", "blue": "#dbe8fb", "green": "#dff2e1", "amber": "#fdeccb", "rose": "#fbdfdf", "none": "#ffffff"}


class Picture:
    def __init__(self, width, height):
        self.width, self.height, self.parts = width, height, []

    def box(self, x, y, width, height, lines, fill="plain", dashed=False):
        dash = ' stroke-dasharray="5 4"' if dashed else ""
        ink = PALE if dashed else INK
        self.parts.append(f'<rect x="{x}" y="{y}" width="{width}" height="{height}" rx="5" fill="{FILLS[fill]}" stroke="{LINE}"{dash}/>')
        first = y + height / 2 - 8 * (len(lines) - 1) + 4.5
        for k, line in enumerate(lines):
            self.text(x + width / 2, first + 16 * k, line, ink=ink)

    def text(self, x, y, line, size=13, anchor="middle", ink=INK, weight="normal"):
        self.parts.append(f'<text x="{x:g}" y="{y:g}" font-size="{size}" text-anchor="{anchor}" fill="{ink}" font-weight="{weight}">{escape(line)}</text>')

    def line(self, points, dashed=False, head=True, ink=LINE):
        path = "M" + " L".join(f"{x:g} {y:g}" for x, y in points)
        self.path(path, dashed, head, ink)

    def path(self, path, dashed=False, head=True, ink=LINE):
        dash = ' stroke-dasharray="5 4"' if dashed else ""
        mark = ' marker-end="url(#head)"' if head else ""
        self.parts.append(f'<path d="{path}" fill="none" stroke="{ink}"{dash}{mark}/>')

    def svg(self):
        head = (
            f'<svg xmlns="http://www.w3.org/2000/svg" width="{self.width}" height="{self.height}" viewBox="0 0 {self.width} {self.height}"'
            ' font-family="Helvetica, Arial, sans-serif">\n'
            '<defs><marker id="head" markerWidth="9" markerHeight="8" refX="8" refY="4" orient="auto">'
            f'<path d="M0 0 L9 4 L0 8 z" fill="{LINE}"/></marker></defs>\n'
            f'<rect width="{self.width}" height="{self.height}" fill="#ffffff"/>\n'
        )
        return head + "\n".join(self.parts) + "\n</svg>\n"


def reached(edges, start):
    """What is reached from a name by one step or more."""
    found, left = set(), list(edges.get(start, ()))
    while left:
        name = left.pop()
        if name not in found:
            found.add(name)
            left += edges.get(name, ())
    return found


# Row by row: a colour, what goes in, and each step with its crates and the commands that end there.
ROWS = [
    ("blue", "frame file", [
        (["JSON, the first", "fault of its form"], ["file_json", "file_frame"], ""),
        (["the first broken", "rule, numbers"], ["frame"], "migrate; meaning: frame_meaning"),
        (["passes that", "somebody sees"], ["frame_cull"], "cull"),
        (["commands, uses", "in groups"], ["compile_groups"], "auto: compile_queues"),
        (["what may lie in", "the same bytes"], ["compile_lifetimes"], ""),
    ]),
    ("amber", "", [
        (["offsets in", "one heap"], ["compile_heap"], "place; bound: compile_bound"),
        (["barriers, layouts,", "transfers"], ["compile_barriers"], ""),
        (["items and needs", "in one list"], ["compile_record"], ""),
        (["batches, waits,", "signals"], ["compile_timeline"], ""),
        (["a sound program,", "perhaps tight"], ["compile", "check_tighten"], "compile"),
    ]),
    ("rose", "submission file", [
        (["JSON, the first", "fault of its form"], ["file_json", "file_program"], ""),
        (["the first broken", "rule, nodes"], ["program"], ""),
        (["accesses, order,", "happens-before"], ["check_access", "check_order"], ""),
        (["H2 to H4;", "H5 to H9"], ["check_sync", "check_state"], ""),
        (["a sound program,", "or a hazard"], ["check_program"], "check"),
    ]),
    ("green", "", [
        (["workers, or", "one thread"], ["device_workers", "device_drive"], ""),
        (["events on a device", "with caches"], ["device", "device_cache"], "audit: device_audit"),
        (["the bytes of", "a command"], ["kernel_simd", "kernel"], ""),
        (["what the host", "reads"], ["device_run"], ""),
        (["the text, and", "the status"], ["report", "top"], "run, exec, flight: flight_file"),
    ]),
]


def pipeline():
    """The way of a file through the crates: a frame to a program, a submission to a program, a program to what is printed."""
    known = own_crates()
    left, wide, high, column, row = 132, 216, 78, 248, 128
    picture = Picture(left + 4 * column + wide + 40, 4 * row + 6)
    edge = picture.width - 14
    for r, (fill, source, steps) in enumerate(ROWS):
        y = 16 + r * row
        if source:
            picture.box(12, y + 20, 96, 38, source.split(), "none")
            picture.line([(108, y + 39), (left - 2, y + 39)])
        for k, (words, crates, ends) in enumerate(steps):
            missing = [crate for crate in crates + re.findall(r": (\w+)", ends) if crate not in known]
            if missing:
                sys.exit(f"no crate {', '.join(missing)}")
            x = left + k * column
            picture.parts.append(f'<rect x="{x}" y="{y}" width="{wide}" height="{high}" rx="5" fill="{FILLS[fill]}" stroke="{LINE}"/>')
            for j, word in enumerate(words):
                picture.text(x + wide / 2, y + 21 + 16 * j, word)
            picture.text(x + wide / 2, y + 64, ", ".join(crates), size=12, weight="bold")
            if ends:
                picture.text(x + wide / 2, y + high + 16, ends, size=12, ink=LINE)
            if k:
                picture.line([(x - column + wide, y + 39), (x - 2, y + 39)])
    last = left + 4 * column + wide
    for r in (0, 2):
        y = 16 + r * row
        end = y + row - 20
        middle = left - 22
        picture.line([(last, y + 39), (edge, y + 39), (edge, end), (middle, end), (middle, y + row + 39), (left - 2, y + row + 39)])
    picture.line([(last, 16 + row + 39), (edge, 16 + row + 39), (edge, 16 + 2 * row + 37)])
    picture.text(12, 16 + 3 * row + 34, "Below a step:", size=12, anchor="start", ink=LINE)
    picture.text(12, 16 + 3 * row + 50, "the commands", size=12, anchor="start", ink=LINE)
    picture.text(12, 16 + 3 * row + 66, "that end there", size=12, anchor="start", ink=LINE)
    return picture


def passes():
    """The passes of the deferred frame by queue, what each reads of another, and which are culled."""
    frame = json.loads((FRAMES / "deferred.json").read_text(encoding="utf-8"))
    maker, edges, depth = {}, {}, {}
    for one in frame["passes"]:
        edges[one["name"]] = sorted({maker[name] for name in one.get("reads", [])})
        depth[one["name"]] = 1 + max((depth[name] for name in edges[one["name"]]), default=-1)
        for write in one["writes"]:
            maker[write["new"]] = one["name"]
    seen = {maker[name] for name in frame["exports"]}
    for name in list(seen):
        seen |= reached(edges, name)
    lanes = [queue["name"] for queue in frame["queues"]]
    columns = {}
    for one in frame["passes"]:
        columns.setdefault((depth[one["name"]], one["queue"]), []).append(one["name"])
    tall = {lane: max([len(names) for (_, queue), names in columns.items() if queue == lane], default=1) for lane in lanes}
    wide, high, column, row = 62, 26, 92, 36
    top, tops = 16, {}
    for lane in lanes:
        tops[lane] = top
        top += tall[lane] * row + 26
    picture = Picture(110 + (1 + max(depth.values())) * column + 20, top + 20)
    spots = {}
    for (level, lane), names in columns.items():
        for k, name in enumerate(names):
            spots[name] = 110 + level * column, tops[lane] + 8 + k * row
    families = {queue["name"]: queue["family"] for queue in frame["queues"]}
    for lane in lanes:
        picture.parts.append(f'<rect x="8" y="{tops[lane]}" width="{picture.width - 16}" height="{tall[lane] * row + 16}" rx="6" fill="#f7f9fc" stroke="#d5dbe4"/>')
        picture.text(18, tops[lane] + (tall[lane] * row + 16) / 2 + 4, f"{families[lane]}", anchor="start", weight="bold")
    for name, below in edges.items():
        x, y = spots[name]
        for source in below:
            from_x, from_y = spots[source]
            start, end, turn = from_x + wide, x - 2, max(14, (x - from_x - wide) / 2)
            picture.path(f"M{start:g} {from_y + high / 2:g} C{start + turn:g} {from_y + high / 2:g} {end - turn:g} {y + high / 2:g} {end:g} {y + high / 2:g}", name not in seen, ink=PALE)
    for name, (x, y) in spots.items():
        picture.box(x, y, wide, high, [name], "green" if name in seen else "none", name not in seen)
    picture.text(18, picture.height - 10, "from a maker to its reader; dashed: culled, since no export needs it", anchor="start", size=12)
    return picture


def passed():
    """What a store needs before a load finds its bytes, and the hazard where a link is not there."""
    picture = Picture(980, 260)
    boxes = [
        (20, "rose", ["store", "of a draw, by its agent:", "COLOR_ATTACHMENT_WRITE"]),
        (266, "amber", ["made available", "by a barrier's source", "stages and accesses"]),
        (514, "amber", ["made visible", "by a barrier's destination", "stages and accesses"]),
        (762, "green", ["load", "of a blur, by its agent:", "SHADER_SAMPLED_READ"]),
    ]
    for x, fill, lines in boxes:
        picture.box(x, 16, 198, 70, lines, fill)
    for x in (218, 464, 712):
        picture.line([(x, 51), (x + 48, 51)])
    picture.box(20, 132, 198, 40, ["the draw's cache"], "none")
    picture.box(266, 132, 446, 40, ["memory"], "none")
    picture.box(762, 132, 198, 40, ["the sampler's cache"], "none")
    for x in (119, 365, 613, 861):
        picture.line([(x, 86), (x, 130)], dashed=True)
    for x in (218, 712):
        picture.line([(x, 152), (x + 48, 152)])
    picture.text(242, 122, "written", size=12)
    picture.text(737, 122, "read", size=12)
    for x, words in ((242, ["no barrier: H2", "no source access: H3"]), (737, ["another stage: H2", "another destination access: H4"])):
        for k, word in enumerate(words):
            picture.text(x, 200 + 18 * k, word, size=12)
    picture.text(490, 246, "Each arrow above is an edge: the stages of both ends meet. A transition is available from its own node on, and finds memory by itself.", size=12)
    return picture


def transfer():
    """A transfer of ownership between two queues."""
    picture = Picture(940, 330)
    for y, word in ((52, "compute queue"), (176, "graphics queue")):
        picture.parts.append(f'<rect x="8" y="{y}" width="924" height="84" rx="6" fill="#f7f9fc" stroke="#d5dbe4"/>')
        picture.text(20, y + 20, word, anchor="start", weight="bold")
    nodes = [
        (140, 80, "plain", ["transition"]),
        (264, 80, "green", ["ramp stores"]),
        (388, 80, "amber", ["release"]),
        (512, 80, "plain", ["signal 1"]),
        (540, 204, "plain", ["wait for 1"]),
        (664, 204, "amber", ["acquire"]),
        (788, 204, "green", ["box3 loads"]),
    ]
    for x, y, fill, lines in nodes:
        picture.box(x, y, 104, 38, lines, fill)
    for x in (244, 368, 492):
        picture.line([(x, 99), (x + 18, 99)])
    for x in (644, 768):
        picture.line([(x, 223), (x + 18, 223)])
    picture.line([(570, 118), (586, 202)])
    picture.path("M440 118 C440 165 690 150 712 202", dashed=True)
    picture.text(430, 158, "two halves of one transfer:", size=12, anchor="end")
    picture.text(430, 172, "the same families and layouts", size=12, anchor="end")
    rows = [
        (30, "owner", [(140, "compute, which touches it first"), (412, "nobody"), (688, "graphics")]),
        (290, "layout", [(140, "GENERAL"), (640, "SHADER_READ_ONLY_OPTIMAL, by the acquire")]),
        (314, "hazards", [(140, "no release or no acquire: H7"), (400, "neither: H6"), (640, "no wait: H2")]),
    ]
    for y, word, notes in rows:
        picture.text(20, y, word, anchor="start", weight="bold")
        for x, note in notes:
            picture.text(x, y, note, anchor="start", size=12)
    return picture


def byte():
    """The life of one byte: which of three places has it after each event."""
    picture = Picture(1010, 342)
    events = ["before", "End of the fill", "WriteBack, or none", "Sync of the barrier", "Begin of the map", "End of the map"]
    left, wide, step = 150, 128, 144
    for k, event in enumerate(events):
        picture.text(left + k * step + wide / 2, 26, event, size=12, weight="bold")
    rows = [
        ("the fill's cache", ["no line", "7, dirty", "7, dirty or clean", "7, clean", "7, clean", "7, clean"]),
        ("memory", ["5", "5", "5 or 7", "7", "7", "7"]),
        ("the map's cache", ["5, clean", "5, clean", "5, clean", "no line", "no line", "8, dirty"]),
    ]
    for r, (name, cells) in enumerate(rows):
        y = 44 + 64 * r
        picture.text(12, y + 25, name, anchor="start", weight="bold")
        for k, cell in enumerate(cells):
            fill = "rose" if "dirty" in cell and "clean" not in cell else "amber" if " or " in cell else "green" if cell.startswith("7") else "none" if cell.startswith("5") or cell.startswith("no") else "blue"
            picture.box(left + k * step, y, wide, 42, [cell], fill)
    x = left + 3 * step + wide / 2
    picture.line([(x - step + 70, 65), (x - step + 80, 90), (x - 66, 118)])
    picture.line([(x + 66, 129), (x + step - 66, 168)], dashed=True)
    picture.text(x + step + 4, 150, "loads 7", size=12, anchor="start")
    notes = [
        "The Sync makes the fill's stores available: a line that is still dirty goes to memory. It makes memory visible to the map: its old line goes away.",
        "Without the barrier's source access memory still has 5 where no cache wrote back in time; without its destination access the map sees its own old 5.",
        "A cache may write back, fetch or drop clean lines between any two events: in a sound program no load can tell.",
    ]
    for k, note in enumerate(notes):
        picture.text(12, 270 + 22 * k, note, anchor="start", size=12)
    return picture


def stages():
    """A draw whose two stages two barriers hold apart: no way leads through it."""
    picture = Picture(1010, 216)
    picture.box(14, 62, 130, 56, ["copy to T"], "rose")
    picture.box(186, 57, 168, 66, ["barrier", "COPY to", "FRAGMENT_SHADER"], "amber")
    picture.box(400, 20, 210, 140, ["", "", "", "", "", "", "", "a draw"], "none")
    picture.box(412, 32, 186, 42, ["vertex stage: loads V"], "green")
    picture.box(412, 88, 186, 42, ["fragment stage: loads T"], "green")
    picture.box(656, 57, 168, 66, ["barrier", "VERTEX_SHADER", "to COPY"], "amber")
    picture.box(866, 62, 130, 56, ["copy to V"], "rose")
    picture.line([(144, 90), (184, 90)])
    picture.line([(354, 96), (410, 109)])
    picture.line([(598, 53), (654, 78)])
    picture.line([(824, 90), (864, 90)])
    notes = [
        "The copy to T is before what the fragment stage does, and what the vertex stage does is before the copy to V.",
        "The two copies are in no order: the draw joins nothing, as on a device, where its vertex stage need not wait.",
    ]
    for k, note in enumerate(notes):
        picture.text(12, 186 + 20 * k, note, anchor="start", size=12)
    return picture


PICTURES = {"byte": byte, "deferred": passes, "passed": passed, "pipeline": pipeline, "stages": stages, "transfer": transfer}


def main():
    parser = Arguments(__doc__, program=None)
    parser.add_argument("--check", action="store_true")
    check = parser.parse_args().check
    FOLDER.mkdir(exist_ok=True)
    with Tally("pictures", "pictures") as tally:
        for name, draw in PICTURES.items():
            path, text = FOLDER / f"{name}.svg", draw().svg()
            if not check:
                path.write_text(text, encoding="utf-8")
            elif not path.exists() or path.read_text(encoding="utf-8") != text:
                tally.tell(f"{path.relative_to(TOP)} is not what gate/pictures.py draws")
            tally.look()


if __name__ == "__main__":
    main()
