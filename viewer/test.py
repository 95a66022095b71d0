#!/usr/bin/env python3
"""Opens the viewer in a headless Chromium, and holds what is drawn against what the program prints.

    viewer/test.py [--program PROGRAM] [--browser CHROMIUM] [--pictures FOLDER]

Every submission of examples/ is dropped on viewer/index.html, and every frame, a frame of 256 passes, a trace, a hazard and a fault
are opened as pages of `./framec view`. The numbers of the boxes, marks, arrows and rectangles, the names, the marked pair and the
bound have to be those that this script finds in what `compile` prints, and `check`, `place`, `bound` and `cull` with --json. Broken
files have to be told in words. Keys, the mouse, search, tables and both themes are tried. Of 20,000 and 65,536 nodes each that is in
view has to be drawn at each zoom; the times that the page's thread takes for it are printed. No page may write an error to its console,
or ask any host for anything. Screenshots go to a folder, out/viewer where none is told.

The status is 1 where one does not hold, and 77 where there is no browser: that is no pass.
"""

import json
import subprocess
import sys
import tempfile
from pathlib import Path

sys.path.insert(0, str(Path(__file__).resolve().parent))
sys.path.insert(0, str(Path(__file__).resolve().parent.parent / "tools/lib"))
import browser
import made
import view
from arguments import Arguments, path_of
from repository import FRAMES, PROFILE, SUBMISSIONS, TOP
from sides import answer
from tally import Tally, left_out

HERE = Path(__file__).resolve().parent

# All that is drawn, screen by screen at a zoom at which everything is there.
COLLECT = """(() => {
  const { picture } = Viewer.page;
  const { view } = picture;
  const before = [view.k, view.x, view.y];
  const sets = {};
  const across = view.width - view.left;
  for (let y = 0; y === 0 || y < view.wholeHeight; y += view.height - 20) {
    for (let x = 0; x === 0 || x < view.wholeWidth; x += across) {
      [view.k, view.x, view.y] = [1, x, y];
      picture.draw();
      const { drawn } = picture;
      for (const [key, value] of Object.entries(drawn)) {
        if (!Array.isArray(value)) continue;
        sets[key] ??= new Map();
        for (const one of value) sets[key].set(JSON.stringify(one), one);
      }
      sets.bound ??= new Map();
      if (drawn.bound !== null) sets.bound.set("", drawn.bound);
      if (drawn.merged) throw new Error("nodes were merged");
    }
  }
  [view.k, view.x, view.y] = before;
  picture.draw();
  return Object.fromEntries(Object.entries(sets).map(([key, all]) => [key, [...all.values()]]));
})()"""

# Pictures that follow each other at a zoom, each shown on the screen; how many nodes are in view of the last one, and not drawn in it.
SCREENS = 20
SWEEP = f"""(async () => {{
  const {{ picture }} = Viewer.page;
  const {{ view }} = picture;
  const {{ begins, ends }} = picture.scene.times;
  view.k = ZOOM;
  view.x = view.wholeWidth / 3;
  view.keepInside();
  for (let k = 0; k < {SCREENS}; k++) {{
    view.move(9, 0);
    picture.draw();
    await new Promise(requestAnimationFrame);
  }}
  const [left, right] = [view.toTime(view.left), view.toTime(view.right)];
  const inView = begins.reduce((sum, begin, n) => sum + (ends[n] > left && begin < right), 0);
  return inView - picture.drawn.boxes.length - picture.drawn.marks.length - picture.drawn.merged;
}})()"""

# The rectangles of all pieces: the memory, times and bytes of each.
RECTS = """Viewer.page.picture.scene.heap.bands.flatMap(({ memory, rects }) =>
  rects.filter((one) => one.isUsed).map(({ piece, life }) => {
    const { offset, bytes, name } = Viewer.page.picture.scene.program.pieces[piece];
    return { memory: memory.number, begin: life.begin, end: life.end, offset, bytes, name };
  }))"""


class Wanted:
    """What a picture of a submission has to have, found here once more."""

    def __init__(self, program):
        self.kinds, self.items = [], []
        self.queues = []
        for queue in program["queues"]:
            own = []
            for batch in queue["batches"]:
                own += [self.add("wait", wait) for wait in batch.get("waits", [])]
                own += [self.add(item["item"], item) for item in batch.get("items", [])]
                own += [self.add("signal", batch["signal"])] if "signal" in batch else []
            self.queues.append(own)
        for piece in program["readbacks"]:
            self.add("readback", {"piece": piece})
        for entry in program["pieces"]:
            for _ in range(entry.get("layers", 1) if "final" in entry else 0):
                self.add("handover", {})
        self.batches = [[q, b] for q, queue in enumerate(program["queues"]) for b, batch in enumerate(queue["batches"]) if batch.get("waits") or batch.get("items") or "signal" in batch]
        self.pieces = sum(entry.get("layers", 1) for entry in program["pieces"])
        self.meets = {n: self.signal(item) for n, (kind, item) in enumerate(zip(self.kinds, self.items)) if kind == "wait"}
        self.arrows = sorted([signal, wait] for wait, signal in self.meets.items() if signal is not None)
        self.transfers = self.halves()

    def add(self, kind, item):
        self.kinds.append(kind)
        self.items.append(item)
        return len(self.kinds) - 1

    def of(self, *kinds):
        return [n for n, kind in enumerate(self.kinds) if kind in kinds]

    def boxes(self):
        return self.of("command", "readback", "handover")

    def marks(self):
        return sorted(set(range(len(self.kinds))) - set(self.boxes()))

    def signal(self, wait):
        """The first signal that reaches the value of a wait."""
        own = [n for n in self.queues[wait["queue"]] if self.kinds[n] == "signal" and self.items[n]["value"] >= wait["value"]]
        return own[0] if own else None

    def drained(self):
        """The nodes in their order as far as the queues go."""
        left, order = [list(reversed(own)) for own in self.queues], {}
        while True:
            ready = [own for own in left if own and (own[-1] not in self.meets or self.meets[own[-1]] in order)]
            if not ready:
                return [*order, *(n for own in left for n in reversed(own))]
            order[ready[0].pop()] = True

    def halves(self):
        """Releases with their acquires."""
        released, found = {}, []
        for n in self.drained():
            item = self.items[n]
            if self.kinds[n] in ("release", "acquire"):
                own = released.setdefault((item["piece"], item["from_family"], item["to_family"]), [])
                if self.kinds[n] == "release":
                    own.append(n)
                elif own:
                    found.append([own.pop(0), n])
        return sorted(found)


def marked_of(answer):
    """The nodes that `check --json` names of a hazard."""
    if not answer or answer["verdict"] != "hazard":
        return []
    return answer["nodes"] if "nodes" in answer else [answer["node"]]


def told_of(answer):
    """What the page has to tell of an answer of `check --json`, at its top."""
    if not answer:
        return "not checked"
    return f"sound, {answer['nodes']} nodes" if answer["verdict"] == "sound" else f"hazard {answer['hazard']}: node"


def count(program):
    """How many nodes a submission has."""
    batches = [batch for queue in program["queues"] for batch in queue["batches"]]
    return sum(len(batch.get("waits", [])) + len(batch.get("items", [])) + ("signal" in batch) for batch in batches) + len(program["readbacks"])


class Looks(Tally):
    """The pages that are looked at, and what of them is wrong."""

    def __init__(self, program, chromium, folder, room):
        super().__init__("viewer", "facts")
        self.program, self.chromium, self.folder, self.room = program, chromium, folder, Path(room)
        self.folder.mkdir(parents=True, exist_ok=True)

    def is_so(self, what, got, wanted):
        self.look()
        self.expect(what, got, wanted)

    def holds(self, what, it_holds):
        self.look()
        if not it_holds:
            self.tell(f"it is not so: {what}")

    def printed(self, words, text):
        return answer(self.program, words, text)[1].decode()

    def told(self, word, text):
        """What a command answers with --json."""
        return json.loads(self.printed(f"{word} --json", text))

    def written(self, name, data):
        path = self.room / name
        path.write_bytes(data if isinstance(data, bytes) else json.dumps(data).encode())
        return path

    def made(self, name, *words, data=None, status=0):
        """The page that ./framec view makes."""
        path = self.room / f"{name}.html"
        with open(path, "wb") as page:
            done = subprocess.run([HERE / "view.py", self.program, *words], stdout=page, input=data, stderr=subprocess.DEVNULL)
        self.is_so(f"status of view {name}", done.returncode, status)
        return path

    def opened(self, path, **size):
        page = self.chromium.page(path.as_uri(), **size)
        page.settle()
        return page

    def ended(self, name, page):
        """Nothing went wrong in a page, and it asked nobody."""
        self.is_so(f"{name}: problems", page.problems(), [])
        self.is_so(f"{name}: hosts", [url for url in page.asked() if not url.startswith(("file:", "data:"))], [])
        page.close()

    def dropped(self, page, *paths):
        """Drops files on a page, and waits until they are taken."""
        page.evaluate("Viewer.before = [Viewer.page.picture.scene, document.getElementById('fault').textContent], document.getElementById('fault').textContent = 'wait', 0")
        page.drop(*paths)
        page.wait("Viewer.page.picture.scene !== Viewer.before[0] || document.getElementById('fault').textContent !== 'wait'")
        page.settle()

    def has(self, name, page, submission, check):
        """The picture has what the submission has, and what `check` says of it."""
        wanted, drawn = Wanted(submission), page.evaluate(COLLECT)
        self.is_so(f"{name}: boxes", sorted(drawn["boxes"]), wanted.boxes())
        self.is_so(f"{name}: marks", sorted(drawn["marks"]), wanted.marks())
        self.is_so(f"{name}: batches", sorted(drawn["batches"]), wanted.batches)
        self.is_so(f"{name}: arrows", sorted(drawn["arrows"]), wanted.arrows)
        self.is_so(f"{name}: transfers", sorted(drawn["transfers"]), wanted.transfers)
        self.is_so(f"{name}: pieces", sorted(drawn["pieces"]), list(range(wanted.pieces)))
        self.is_so(f"{name}: marked", sorted(drawn["marked"]), sorted(marked_of(check)))
        self.holds(f"{name}: {told_of(check)} is told", told_of(check) in page.evaluate("document.getElementById('verdict').textContent"))
        return drawn

    def submission(self, page, path):
        text = path.read_bytes()
        check = self.told("check", text)
        self.dropped(page, path, self.written("check.json", check))
        self.has(path.name, page, json.loads(text), check)
        if check["verdict"] == "hazard":
            told = page.evaluate("document.getElementById('hazard').textContent")
            self.holds(f"{path.name}: the hazard is told", f"Hazard {check['hazard']}" in told and "Missing: " in told)
            paths = page.evaluate("Viewer.page.picture.scene.facts.hazard.sides.map((side) => side.lines[0])")
            self.holds(f"{path.name}: both sides are told with their paths", paths and all(one in told for one in paths))
            self.holds(f"{path.name}: what is missing stands in the picture", page.evaluate("Viewer.page.picture.drawn.note.length") > 0)

    def submissions(self):
        page = self.opened(HERE / "index.html")
        for path in sorted([*SUBMISSIONS.glob("*.json"), *PROFILE.glob("*.json")]):
            self.submission(page, path)
        self.dropped(page, SUBMISSIONS / "missing_barrier.json", self.written("check.json", {"verdict": "hazard", "hazard": "H2", "nodes": [2, 3]}))
        page.key("0")
        page.screenshot(self.folder / "hazard.png")
        # Answers that are none, or not of this submission.
        for value, words in [
            ({"verdict": "hazard", "hazard": "H2"}, "$.nodes: a list is missing"),
            ({"verdict": "good"}, "$.verdict: one of the words"),
            ({"bound": 1, "heap": 2}, "$.units: a list is missing"),
        ]:
            self.dropped(page, self.written("answer.json", value))
            told = page.evaluate("document.getElementById('fault').textContent")
            self.holds(f"{words!r} is told, and not {told!r}", told.startswith("answer.json: This is nothing that ") and words in told)
        self.dropped(page, SUBMISSIONS / "missing_barrier.json", self.written("check.json", {"verdict": "hazard", "hazard": "H8", "node": 2, "piece": 9}))
        self.holds("a strange verdict is told", "not of this submission" in page.evaluate("document.getElementById('hazard').textContent"))
        self.ended("submissions", page)

    def frame(self, name, text, shot=None):
        """The page of a frame: its submission's boxes and arrows, its passes' and units' names, its heap and its bound."""
        path = self.made(name, data=text)
        page = self.opened(path)
        compiled = json.loads(self.printed("compile", text))
        drawn = self.has(name, page, compiled, self.told("check", json.dumps(compiled).encode()))
        kept = [one["name"] for one in self.told("cull", text)["passes"] if one["kept"]]
        frame = json.loads(text)
        named = page.evaluate("Viewer.page.picture.scene.program.nodes.filter((node) => node.kind === 'command').map((node) => node.name)")
        operations = [one["name"] for one in frame["passes"] if one["name"] in kept for _ in one.get("ops", [])]
        self.is_so(f"{name}: names of commands", sorted(one for one in named if not one.endswith(".readback")), sorted(operations))
        self.is_so(f"{name}: copies of exports", sum(one.endswith(".readback") for one in named), len(compiled["readbacks"]))
        self.is_so(f"{name}: passes without their whole name in a box", sorted(set(operations) - set(drawn["names"])), [])
        rects = page.evaluate(RECTS)
        place = self.told("place", text)
        placed = sorted((one["offset"], one["size"], one["unit"]) for one in place["units"])
        self.is_so(f"{name}: the heap", sorted((one["offset"], one["bytes"], one["name"]) for one in rects if one["memory"] == 0), placed)
        self.is_so(f"{name}: rectangles over each other", self.overlaps(rects), [])
        self.is_so(f"{name}: the bound", drawn["bound"], [self.told("bound", text)["bound"]])
        self.holds(f"{name}: bytes of the heap are told", f"{place['heap']:,} B" in page.evaluate("document.getElementById('chosen').textContent"))
        if shot:
            page.key("0")
            page.screenshot(self.folder / f"{shot}.png")
        self.ended(name, page)

    @staticmethod
    def overlaps(rects):
        """The pairs of pieces that have some byte at one time."""
        meets = lambda a, b: a["memory"] == b["memory"] and a["begin"] < b["end"] and b["begin"] < a["end"] and a["offset"] < b["offset"] + b["bytes"] and b["offset"] < a["offset"] + a["bytes"]
        return [(a["name"], b["name"]) for k, a in enumerate(rects) for b in rects[:k] if meets(a, b)]

    def frames(self):
        for path in sorted(FRAMES.glob("*.json")):
            self.frame(path.stem, path.read_bytes(), shot="frame" if path.stem == "deferred" else None)
        self.frame("passes", self.printed("gen --number 7 --passes 256", b"").encode())
        seen = json.loads(self.printed("gen --number 7 --passes 256", b""))
        for one in seen["passes"]:
            one["side_effect"] = True
        self.frame("seen", json.dumps(seen).encode(), shot="passes")

    def trace(self):
        """Time by the events of a trace."""
        text = (FRAMES / "ramp_and_map.json").read_bytes()
        page = self.opened(self.made("trace", "--trace", str(FRAMES / "ramp_and_map.json")))
        told = page.evaluate("Viewer.page.picture.scene.facts.trace.events")
        times = page.evaluate("(({ begins, ends }) => [[...begins], [...ends]])(Viewer.page.picture.scene.times)")
        at = [times[1 if one["word"] == "end" else 0][one["node"]] for one in told]
        self.holds("time is the order of events", at == sorted(at) and len(at) > 10)
        self.has("trace", page, json.loads(self.printed("compile", text)), {"verdict": "sound", "nodes": 13})
        page.screenshot(self.folder / "trace.png")
        page.key("r")
        self.is_so("time by order again", page.evaluate("document.getElementById('time').textContent"), "Time: order")
        # A trace that is dropped beside its submission.
        compiled = self.printed("compile", text).encode()
        other = self.opened(HERE / "index.html")
        self.dropped(other, self.written("s.json", compiled), self.written("trace.txt", self.printed("exec --trace --tend 3", compiled).encode()))
        self.is_so("a trace is taken", other.evaluate("Viewer.page.picture.scene.facts.trace.moves"), 256)
        self.ended("trace", page)
        self.ended("dropped trace", other)

    def wide(self):
        """Format 3: actions, names, joined barriers, hand-overs, what is external."""
        page = self.opened(HERE / "index.html")
        self.dropped(page, self.written("wide.json", made.wide()))
        drawn = self.has("wide", page, made.wide(), None)
        self.holds("wide: names", {"draw the scene", "tone map", "present", "screen"} <= set(drawn["names"]))
        self.is_so("wide: memories", page.evaluate("Viewer.page.picture.scene.program.memories.map((memory) => memory.sort)"), ["external", "heap", "external"])
        self.is_so("wide: joined", page.evaluate("Viewer.page.picture.scene.program.nodes.filter((node) => node.joined).map((node) => node.number)"), [1, 4])
        page.key("0")
        page.screenshot(self.folder / "wide.png")
        self.ended("wide", page)

    def broken(self):
        """A file that is none is told in words, and what was there stays."""
        page = self.opened(HERE / "index.html")
        good = SUBMISSIONS / "wrong_owner_mended.json"
        self.dropped(page, good)
        value = json.loads(good.read_bytes())
        cases = {
            "torn.json": (good.read_bytes()[:300], "no JSON"),
            "picture.png": (bytes(range(256)) * 9, "no JSON"),
            "empty.json": (b"", "no JSON"),
            "list.json": (b"[]", "no object"),
            "other.json": (b'{"version": 3}', "$.format: one of the words 1, 2, 3 is missing"),
            "queues.json": ({**value, "queues": {}}, "$.queues: a list has to stand here"),
            "stage.json": (good.read_bytes().replace(b'"src_stage"', b'"stage"', 1), "$.queues[0].batches[0].items[0].src_stage: a text is missing"),
            "piece.json": (good.read_bytes().replace(b'"dst": 1', b'"dst": 9'), "there is no piece with the number 9"),
            "deep.json": (b"[" * 100000, "no JSON"),
            "frame.json": ((FRAMES / "one_fill.json").read_bytes(), "This is a frame"),
        }
        for name, (data, words) in cases.items():
            self.dropped(page, self.written(name, data))
            told = page.evaluate("document.getElementById('fault').textContent")
            self.holds(f"{name}: {words!r} is told, and not {told!r}", told.startswith(name) and words in told and page.evaluate("!document.getElementById('fault').hidden"))
            self.is_so(f"{name}: the picture stays", page.evaluate("Viewer.page.picture.drawn.boxes.length"), 2)
            if name == "stage.json":
                page.screenshot(self.folder / "broken.png")
        page.pick("#files", good)
        page.wait("document.getElementById('fault').hidden")
        self.dropped(page, good, SUBMISSIONS / "wrong_owner.json")
        self.holds("of two submissions one is refused", "this is a second submission" in page.evaluate("document.getElementById('fault').textContent"))
        self.ended("broken", page)
        self.named()
        # What the program says of a file with a fault.
        faulty = json.loads(good.read_bytes())
        faulty["queues"][0]["batches"][0]["items"][1]["dst"] = 7
        page = self.opened(self.made("faulty", data=json.dumps(faulty).encode(), status=2))
        told = page.evaluate("document.getElementById('fault').textContent")
        self.holds(f"a fault is told in words, and not {told!r}", "fault G3 $.queues[0].batches[0].items[1]" in told and "not declared" in told)
        self.ended("faulty", page)
        page = self.opened(self.made("faulty frame", data=b'{"passes": 3}', status=2))
        self.holds("a frame's fault is told in words", "fault F2 $.format" in page.evaluate("document.getElementById('fault').textContent"))
        self.ended("faulty frame", page)
        self.made("nowhere", str(self.room / "nowhere"), status=4)
        self.made("words", "--nothing", status=3)

    def named(self):
        """A submission has the names of the frame that is dropped beside it, and keeps them where another frame is dropped."""
        text = (FRAMES / "ramp_and_map.json").read_bytes()
        page = self.opened(HERE / "index.html")
        self.dropped(page, self.written("s.json", self.printed("compile", text).encode()), FRAMES / "ramp_and_map.json")
        names = "Viewer.page.picture.scene.program.nodes.map((node) => node.name).filter((name) => name)"
        self.is_so("names of a frame beside its submission", page.evaluate(names), ["s", "out.readback", "w", "out"])
        for name, data, words in [
            ("other.json", (FRAMES / "one_fill.json").read_bytes(), "the submission here is not compiled of it"),
            ("torn.json", b'{"passes": 3, "queues": [], "resources": [], "exports": []}', "$.passes: a list has to stand here"),
        ]:
            self.dropped(page, self.written(name, data))
            told = page.evaluate("document.getElementById('fault').textContent")
            self.holds(f"{name}: {words!r} is told, and not {told!r}", told.startswith(name) and words in told)
            self.is_so(f"{name}: the names stay", len(page.evaluate(names)), 4)
        self.ended("named", page)

    def strange(self):
        """Names are shown letter by letter, whatever stands in them."""
        strange = '</script><img src=x onerror="Viewer.hit = 1"> & \\u003c'
        value = made.wide()
        for entry in (value["pieces"][1], value["memories"][1], value["queues"][0], value["queues"][0]["batches"][0]["items"][2], value):
            entry["name"] = strange
        page = self.opened(self.written("strange.html", view.page(strange, {"submission": json.dumps(value)}).encode()))
        page.key("t")
        page.key("ArrowRight")
        page.evaluate("Viewer.page.picture.choose({ node: 2 }), 0")
        self.is_so("strange: elements and scripts of a name", page.evaluate("[document.images.length, Viewer.hit ?? 0]"), [0, 0])
        self.is_so("strange: the name of the file", page.evaluate("document.getElementById('name').textContent"), strange)
        self.holds("strange: the table has it", page.evaluate("document.getElementById('tables').textContent").count(strange) > 3)
        self.ended("strange", page)

    def handled(self):
        """Keys, the mouse, the search, tables, unfolding, both themes."""
        page = self.opened(self.made("handled", str(FRAMES / "deferred.json")))
        chosen = lambda: page.evaluate("document.querySelector('#chosen h2').textContent")
        compiled = json.loads(self.printed("compile", (FRAMES / "deferred.json").read_bytes()))
        wanted = Wanted(compiled)
        page.key("ArrowRight")
        page.key("ArrowRight")
        self.is_so("the second node is chosen by keys", chosen(), "Node 1: depth")
        page.key("ArrowDown")
        self.holds("a node of the lane below is chosen", "Node" in chosen() and page.evaluate("Viewer.page.picture.scene.program.nodes[Viewer.page.picture.scene.chosen.node].queue") == 1)
        page.key("0")
        least = page.evaluate("Viewer.page.picture.view.k")
        page.key("+")
        self.holds("a key zooms", page.evaluate("Viewer.page.picture.view.k") > least)
        page.wheel(500, 200, 0, -300, ctrl=True)
        self.holds("the wheel zooms", page.evaluate("Viewer.page.picture.view.k") > 1.5 * least)
        before = page.evaluate("Viewer.page.picture.view.x")
        page.wheel(500, 200, 200, 0)
        self.holds("the wheel moves", page.evaluate("Viewer.page.picture.view.x") > before)
        page.key("0")
        # A click on the third box that is drawn.
        spot = page.evaluate("(() => { const at = document.getElementById('picture').getBoundingClientRect(); const hit = Viewer.page.picture.scene.hits.filter((one) => one.node !== undefined)[4]; return [at.x + hit.x + hit.width / 2, at.y + hit.y + hit.height / 2, hit.node]; })()")
        page.click(spot[0], spot[1])
        self.holds("a click chooses", chosen().startswith(f"Node {spot[2]}"))
        # The arrows of a chosen node stand out, and those that hand over its pieces.
        release, acquire = wanted.transfers[0]
        for node in (release, next(n for n in wanted.of("command") if wanted.items[n]["dst"] == wanted.items[release]["piece"])):
            own = page.evaluate(f"(() => {{ const {{ picture }} = Viewer.page; picture.view.fit(); picture.choose({{ node: {node} }}); picture.draw(); return picture.drawn.own; }})()")
            self.holds(f"the arrows of node {node} stand out: {own}", [release, acquire] in own and len(own) < len(wanted.transfers))
        # Each mark unfolds to its stages, accesses and layouts.
        page.key("u")
        drawn = page.evaluate(COLLECT)
        self.is_so("all marks unfold", sorted(drawn["unfolded"]), wanted.marks())
        lines = page.evaluate("Viewer.page.picture.scene.program.nodes.filter((node) => node.isMark).map((node) => [node.number, Viewer.times.unfolded(Viewer.page.picture.scene.program, node).join(' ')])")
        for number, text in lines:
            item = wanted.items[number]
            told = [item[key] for key in ("stage", "src_stage", "src_access", "dst_stage", "dst_access", "from", "to") if item.get(key)]
            self.holds(f"node {number} unfolds to {told}", all(one in text for one in told))
        page.screenshot(self.folder / "unfolded.png")
        page.key("u")
        self.is_so("and fold again", page.evaluate(COLLECT)["unfolded"], [])
        # Search.
        page.key("/")
        page.write("albedo")
        self.is_so("search", page.evaluate("document.getElementById('count').textContent"), f"{self.found(page, 'albedo')} nodes, 1 piece")
        page.key("Enter")
        self.holds("the first one found is chosen", "Node" in chosen())
        page.key("Escape")
        # Tables.
        page.key("t")
        rows = "document.querySelectorAll('#tables table')[0].tBodies[0].rows.length"
        self.is_so("the table has what was found", page.evaluate(rows), self.found(page, "albedo"))
        page.screenshot(self.folder / "table.png")
        page.evaluate("document.getElementById('search').value = '', document.getElementById('search').dispatchEvent(new Event('input')), 0")
        self.is_so("the table has every node", page.evaluate(rows), len(wanted.kinds))
        self.is_so("and every piece", page.evaluate("document.querySelectorAll('#tables table')[1].tBodies[0].rows.length"), wanted.pieces)
        page.key("t")
        # Both themes, with inks that can be read on each ground.
        for theme in ("dark", "light"):
            if page.evaluate("document.documentElement.dataset.theme") != theme:
                page.key("d")
            self.is_so("the theme changes", page.evaluate("document.documentElement.dataset.theme"), theme)
            self.contrasts(theme, page.evaluate("Viewer.page.picture.colours"))
            page.screenshot(self.folder / f"{theme}.png")
        page.size(700, 600)
        page.settle()
        page.screenshot(self.folder / "narrow.png")
        self.ended("handled", page)

    @staticmethod
    def found(page, text):
        return page.evaluate(f"Viewer.page.picture.scene.program.nodes.filter((node) => (node.name + ' ' + Viewer.naming.about(Viewer.page.picture.scene.program, node)).includes('{text}')).length")

    def contrasts(self, theme, colours):
        """Texts have a contrast of 4.5 to their grounds, and lines of 3, by the Web Content Accessibility Guidelines."""

        def light(colour):
            parts = [int(colour[k : k + 2], 16) / 255 for k in (1, 3, 5)]
            parts = [part / 12.92 if part <= 0.04045 else ((part + 0.055) / 1.055) ** 2.4 for part in parts]
            return 0.2126 * parts[0] + 0.7152 * parts[1] + 0.0722 * parts[2]

        def contrast(a, b):
            low, high = sorted((light(a), light(b)))
            return (high + 0.05) / (low + 0.05)

        for sort, fill in colours["fill"].items():
            for ink in ("ink", "pale"):
                self.holds(f"{theme}: {ink} can be read on {sort}", contrast(colours[ink], fill) >= 4.5)
            self.holds(f"{theme}: the edge of {sort} is seen", contrast(colours["stroke"][sort], colours["lane"]) >= 3)
        for ink in ("ink", "pale", "hazard", "bound"):
            self.holds(f"{theme}: {ink} can be read", contrast(colours[ink], colours["ground"]) >= 4.5)
        self.holds(f"{theme}: flags can be read", contrast(colours["on-hazard"], colours["hazard"]) >= 4.5)
        for ink in ("wait", "transfer-arrow", "mark-ink", "found", "chosen"):
            self.holds(f"{theme}: {ink} is seen", contrast(colours[ink], colours["lane"]) >= 3)

    def large(self, nodes, format):
        """So many nodes are drawn at each zoom: each that is in view, as itself or in a column of pixels. The times are told."""
        value = made.large(nodes, format=format)
        page = self.opened(self.written(f"large{nodes}.html", view.page("large", {"submission": json.dumps(value)}).encode()))
        took, clock = page.seconds(), page.evaluate("Viewer.firstPicture") / 1000
        self.is_so("nodes", page.evaluate("Viewer.page.picture.scene.program.nodes.length"), count(value))
        told = [f"{nodes} nodes: first picture after {took:.2f} s of the page's thread, {clock:.2f} s by the clock"]
        for zoom in ("least", 0.02, 0.1, 0.75, 2):
            before = page.seconds()
            missing = page.evaluate(SWEEP.replace("ZOOM", "view.least" if zoom == "least" else str(zoom)))
            told.append(f"{1000 * (page.seconds() - before) / SCREENS:.1f} ms a picture at zoom {zoom}")
            self.is_so(f"{nodes} nodes at zoom {zoom}: nodes in view that are not drawn", missing, 0)
        page.key("0")
        page.screenshot(self.folder / f"large{nodes}.png")
        print("; ".join(told), file=sys.stderr)
        self.ended(f"{nodes} nodes", page)


PARTS = ("submissions", "frames", "trace", "wide", "strange", "broken", "handled", "large")


def main():
    parser = Arguments(__doc__)
    parser.add_argument("--browser", type=path_of)
    parser.add_argument("--pictures", type=Path, default=TOP / "out/viewer")
    parser.add_argument("--only", choices=PARTS, action="append")
    options = parser.parse_args()
    chromium = options.browser or browser.found()
    if not chromium:
        left_out("the viewer, for want of a browser: Debian's package chromium has one")
        sys.exit(browser.NO_BROWSER)
    with tempfile.TemporaryDirectory() as room, browser.Browser(chromium) as opened, Looks(options.program, opened, options.pictures, room) as looks:
        for part in options.only or PARTS:
            if part == "large":
                looks.large(20000, 2)
                looks.large(65536, 3)
            else:
                getattr(looks, part)()


if __name__ == "__main__":
    main()
