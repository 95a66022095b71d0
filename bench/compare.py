#!/usr/bin/env python3
"""Times the program and another one that knows the same words, in turn, on the same frames.

    bench/compare.py --other OTHER [--program PROGRAM] [--runs 15] [--case NAME ..]

First whole commands: `run`, with one worker and with four, `meaning`, `cull`, `place` and `compile` of the deferred frame of
examples/frames/, `run` of that frame with one more rectangle in each of its draws, so that no image is of one number, `cull` of
nearly 16 MiB of imports and of 256 passes that read and change each of 256 buffers, `place`, `bound`, `auto`, `compile` and `run`
of a frame of 256 passes none of which is culled (the other program makes it, by its word `gen`, and each pass is given a side
effect; one that has no such word is left out), the summary of that frame as it is made, and `check` of submissions with as many
nodes as there can be: barriers alone; fills of one buffer with a full barrier between each two; one fill and its many readers;
fills of many buffers that share memory. Then each operation: a frame applies it again and again to images of 1920 by 1080 texels and
exports one texel, so that little is printed; a frame that applies it a few times is timed too, and its time is taken off, so that
memory that is met for the first time does not count. Each is timed by `meaning`, which takes the plain way, and by `run` with one
worker, whose device computes by lanes and bands; those that go by bands in the other program have one more line, ours in `run`
beside the other's in `run` on one processor, where it has no second one for a band. For each case one line: the least processor
time in both programs in milliseconds, of the command or of one operation, their ratio, the ratio of the least times by the clock,
and that of the most memory that the programs took. (The least of many runs is what the programs take by themselves; a median moves
with whatever else the machine does.) The texts of both have to be the same.
"""

import json
import os
import sys
import tempfile
from pathlib import Path

sys.path.insert(0, str(Path(__file__).resolve().parent.parent / "tools/lib"))
from arguments import Arguments
from makers import BARRIER, copied, fill, generated, submission
from repository import FRAMES
from timed import is_wanted, timed, written

WIDTH, HEIGHT = 1920, 1080

# How often an operation is applied before it is timed, and how often it is timed.
FIRST = 3
TIMES = 60

# Operations that go by bands of rows in the other program.
BANDED = ("convert", "box3", "halve")


def image(name, texel, width=WIDTH, height=HEIGHT):
    return {"name": name, "image": [width, height], "texel": texel}


def frame(texel, ops, resources, final):
    """Sources a, b and mask m are ramps; `final` is the image that the exported texel comes from."""
    sources = [image(name, texel) for name in "abm"]
    spot = {"name": "spot", "image": [1, 1], "texel": final[1]}
    make = [
        {"op": "ramp", "dst": "a", "base": 1, "dx": 3, "dy": 77777},
        {"op": "ramp", "dst": "b", "base": 5, "dx": 999999, "dy": 7},
        {"op": "ramp", "dst": "m", "base": 0, "dx": 1, "dy": 1},
        {"op": "ramp", "dst": final[0], "base": 0, "dx": 1, "dy": 1},
    ]
    if final[1] is None:
        spot = {"name": "spot", "buffer": 1024}
        make[3] = {"op": "fill_buffer", "dst": final[0], "offset": 0, "size": 1024, "word": 0}
        last = {"op": "copy_buffer", "src": final[0], "dst": "spot", "src_offset": 0, "dst_offset": 0, "size": 1024}
    else:
        last = {"op": "copy_image", "src": final[0], "dst": "spot", "src_x": 0, "src_y": 0, "dst_x": 0, "dst_y": 0, "width": 1, "height": 1}
    names = ["a", "b", "m", final[0]]
    return {
        "format": 1,
        "queues": [{"name": "g", "family": "graphics"}],
        "resources": sources + resources + [spot],
        "passes": [
            {"name": "make", "queue": "g", "writes": [{"new": name} for name in names], "ops": make},
            {"name": "work", "queue": "g", "reads": ["a", "b", "m"], "writes": [{"change": final[0]}], "ops": ops},
            {"name": "take", "queue": "g", "reads": [final[0]], "writes": [{"new": "spot"}], "ops": [last]},
        ],
        "exports": ["spot"],
    }


def cases():
    """Name, texel of the sources, the operation, the resource that it stores to and that one's texel."""
    for texel in ("r32", "r8"):
        out, full = image("out", texel), ("out", texel)
        other = "r8" if texel == "r32" else "r32"
        area = {"src_x": 0, "src_y": 0, "dst_x": 7, "dst_y": 3, "width": 1900, "height": 1070}
        rect = {"x": 10, "y": 10, "width": 1900, "height": 1060, "mix": "xor", "value": 77}
        yield f"clear_image {texel}", texel, {"op": "clear_image", "dst": "out", "value": 9}, out, full
        yield f"ramp {texel}", texel, {"op": "ramp", "dst": "out", "base": 1, "dx": 2, "dy": 3}, out, full
        yield f"copy_image {texel}", texel, {"op": "copy_image", "src": "a", "dst": "out", **area}, out, full
        for fun in ("add", "mul", "min", "shr"):
            yield f"map {fun} {texel}", texel, {"op": "map", "src": "a", "dst": "out", "fun": fun, "value": 5}, out, full
        for fun in ("sub", "max", "xor", "shl"):
            yield f"combine {fun} {texel}", texel, {"op": "combine", "a": "a", "b": "b", "dst": "out", "fun": fun}, out, full
        yield f"select {texel}", texel, {"op": "select", "mask": "m", "a": "a", "b": "b", "dst": "out"}, out, full
        yield f"convert {texel} to {other}", texel, {"op": "convert", "src": "a", "dst": "out"}, image("out", other), ("out", other)
        yield f"box3 {texel}", texel, {"op": "box3", "src": "a", "dst": "out"}, out, full
        yield f"halve {texel}", texel, {"op": "halve", "src": "a", "dst": "out"}, image("out", texel, WIDTH // 2, HEIGHT // 2), full
        yield f"draw {texel}", texel, {"op": "draw", "dst": "out", "clear": 3, "rects": [rect]}, out, full
    table = {"name": "out", "buffer": 1024}
    yield "histogram", "r8", {"op": "histogram", "src": "a", "dst": "out"}, table, ("out", None)


def wide():
    """As many passes and buffers as there can be, each pass with each buffer."""
    names = [f"b{k}" for k in range(256)]
    one = {"queue": "g", "reads": names, "writes": [{"change": name} for name in names]}
    return {
        "format": 1,
        "queues": [{"name": "g", "family": "graphics"}],
        "resources": [{"name": name, "buffer": 4, "import": "00000000"} for name in names],
        "passes": [{"name": f"p{k}", **one} for k in range(256)],
        "exports": ["b0"],
    }


def large():
    """Nearly 16 MiB of text: 250 imports of 32,000 bytes each, and as many passes that copy one."""
    names = [f"import{k}" for k in range(250)]
    imports = [{"name": name, "buffer": 32_000, "import": f"{k:02x}6a3d9f" * 8_000} for k, name in enumerate(names)]
    copies = [{"op": "copy_buffer", "src": name, "dst": "out", "src_offset": 0, "dst_offset": 0, "size": 32_000} for name in names]
    return {
        "format": 1,
        "queues": [{"name": "t", "family": "transfer"}],
        "resources": imports + [{"name": "out", "buffer": 32_000}],
        "passes": [{"name": f"p{k}", "queue": "t", "reads": [names[k]], "writes": [{"new": "out"}], "ops": [copies[k]]} for k in range(250)],
        "exports": ["out"],
    }


def drawn(path):
    """A frame each of whose draws has one more rectangle, over half of it: no image is of one number."""
    made = json.loads(path.read_text())
    for one in made["passes"]:
        for op in one["ops"]:
            if op["op"] == "draw":
                op["rects"].append({"x": 0, "y": 0, "width": WIDTH, "height": HEIGHT // 2, "value": 9})
    return made


def submissions():
    """Name and program."""
    yield "check 19,996 barriers", submission([fill(0, 1)] + [BARRIER] * 19_995)
    yield "check 9,900 fills", submission([item for k in range(9_900) for item in (fill(0, k), BARRIER)])
    readers = [item for k in range(6_000) for item in (copied(1 + k % 500), BARRIER)]
    yield "check 6,000 readers", submission([fill(0, 1), BARRIER] + readers, 501, 501)
    shared = [item for k in range(9_900) for item in (fill(k % 512, k), BARRIER)]
    yield "check 512 shared pieces", submission(shared + [fill(0, 1), BARRIER], 512, 1)


def on_one_processor():
    os.sched_setaffinity(0, {max(os.sched_getaffinity(0))})


def measured(starts, words, runs, path):
    """Of each program, started after what stands beside it, the least milliseconds of processor time and by the clock, and its most memory."""
    took = [[] for _ in starts]
    for _ in range(runs):
        for own, (program, start) in zip(took, starts):
            own.append(timed([program, *words], path, preexec_fn=start))
    ends = {(one.status, one.text) for own in took for one in own}
    if len(ends) > 1:
        sys.exit(f"{path}: the programs differ: {sorted(ends)!r}"[:400])
    return [[1e3 * min(one.processor for one in own), 1e3 * min(one.clock for one in own)] for own in took], [max(one.most for one in own) for own in took]


def row(name, own, other, most):
    (cpu, clock), (other_cpu, other_clock) = own, other
    ratios = f"{cpu / other_cpu:6.2f} {clock / other_clock:6.2f} {most[0] / most[1]:6.2f}"
    print(f"{name:32} {cpu:8.2f} {other_cpu:8.2f} {ratios}", flush=True)


ONE, FOUR = (["run", "--workers", count] for count in "14")


def commands(folder, other):
    """Name, words and file."""
    deferred = FRAMES / "deferred.json"
    yield "run deferred, 1", ONE, deferred
    yield "run deferred, 4", FOUR, deferred
    full = written(folder, "drawn.json", drawn(deferred))
    yield "run drawn, 1", ONE, full
    yield "run drawn, 4", FOUR, full
    for word in ("meaning", "cull", "place", "compile"):
        yield f"{word} deferred", [word], deferred
    made = generated(other)
    if made:
        path = written(folder, "made.json", made)
        for word in ("place", "bound", "auto", "compile"):
            yield f"{word} 256 passes", [word], path
        yield "run 256 passes, 1", ONE, path
        yield "run 256 passes, 4", FOUR, path
        yield "gen 256 --summary", ["gen", "--number", "7", "--passes", "256", "--summary"], os.devnull
    yield "cull 16 MiB", ["cull"], written(folder, "large.json", large())
    yield "cull 256 passes", ["cull"], written(folder, "wide.json", wide())
    for name, program in submissions():
        yield name, ["check"], written(folder, "program.json", program)


def operations(folder):
    """Name, words, and the files of a frame that has the operation a few times and of one that has it many times more."""
    for name, texel, op, out, final in cases():
        idle = written(folder, "idle.json", frame(texel, [op] * FIRST, [out], final))
        busy = written(folder, "busy.json", frame(texel, [op] * (FIRST + TIMES), [out], final))
        yield name, ["meaning"], idle, busy
        yield f"{name}, run", ONE, idle, busy


def main():
    parser = Arguments(__doc__, other="must", runs=15)
    parser.add_argument("--case", nargs="*", default=[])
    options = parser.parse_args()
    programs = [(options.program, None), (options.other, None)]
    print(f"{'case':32} {'ms':>8} {'other':>8} {'ratio':>6} {'clock':>6} {'memory':>6}")
    with tempfile.TemporaryDirectory() as folder:
        for name, words, path in commands(folder, options.other):
            if is_wanted(name, options.case):
                (own, other), most = measured(programs, words, options.runs, path)
                row(name, own, other, most)
        for name, words, idle_path, busy_path in operations(folder):
            if is_wanted(name, options.case):
                banded = words == ONE and name.startswith(BANDED)
                starts = [*programs, (options.other, on_one_processor)] if banded else programs
                idle, _ = measured(starts, words, options.runs, idle_path)
                busy, most = measured(starts, words, options.runs, busy_path)
                own, *others = [[max(b - i, 0.001) / TIMES for b, i in zip(*times)] for times in zip(busy, idle)]
                row(name, own, others[0], most)
                if banded:
                    row(f"{name}, on one", own, others[1], [most[0], most[2]])


if __name__ == "__main__":
    main()
