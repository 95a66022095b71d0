#!/usr/bin/env python3
"""Times frames in flight: 16 frames of the deferred kind with an image that persists, in windows of several depths,
beside 16 runs of `run`.

    bench/windows.py [--program PROGRAM] [--runs 5] [--frames 16] [--shrink 3]

The frame is that of examples/frames/, with images so many times smaller on each side (1, 2, 3 or 6). It takes its last image from a
buffer `history`, mixes it with its own, and leaves the result there. For each depth one line: the median of the processor time in
milliseconds, and that of the time by the clock. The exports have to be the same at each depth.
"""

import json
import sys
import tempfile
from pathlib import Path

sys.path.insert(0, str(Path(__file__).resolve().parent.parent / "tools/lib"))
from arguments import Arguments
from repository import FRAMES
from timed import medians, well, written


def frame(shrink):
    """The deferred frame with a history."""
    made = json.loads((FRAMES / "deferred.json").read_text(encoding="utf-8"))
    for one in made["resources"]:
        if "image" in one:
            one["image"] = [side // shrink for side in one["image"]]
    rects = [rect for one in made["passes"] for op in one["ops"] for rect in op.get("rects", [])]
    for rect in rects:
        rect.update({side: rect[side] // shrink for side in ("x", "y")}, **{side: max(1, rect[side] // shrink) for side in ("width", "height")})
    wide, high = next(one["image"] for one in made["resources"] if one["name"] == "ldr")
    made["resources"] += [
        {"name": "history", "buffer": wide * high, "import": "00" * (wide * high)},
        {"name": "last", "image": [wide, high], "texel": "r8"},
        {"name": "mixed", "image": [wide, high], "texel": "r8"},
    ]
    made["passes"] += [
        {"name": "last", "queue": "t", "reads": ["history"], "writes": [{"new": "last"}], "ops": [{"op": "buffer_to_image", "src": "history", "dst": "last", "offset": 0}]},
        {"name": "mix", "queue": "c", "reads": ["last", "ldr"], "writes": [{"new": "mixed"}], "ops": [{"op": "combine", "a": "last", "b": "ldr", "dst": "mixed", "fun": "add"}]},
        {"name": "keep", "queue": "t", "reads": ["mixed"], "writes": [{"change": "history"}], "ops": [{"op": "image_to_buffer", "src": "mixed", "dst": "history", "offset": 0}]},
    ]
    return made


def told(what, runs, measure):
    """Prints the medians of the processor time and of the time by the clock."""
    spent, passed = medians(runs, [measure])[0]
    print(f"{what}: {spent * 1000:.0f} ms of processor time, {passed * 1000:.0f} ms", flush=True)


def main():
    options = Arguments(__doc__, runs=5, frames=16, shrink=3).parse_args()
    line = json.dumps(frame(options.shrink)).encode()
    texts = set()

    def flown(path, depth):
        took = well([options.program, "flight", "--persist", "history", "--depth", depth], path)
        texts.add(took.text)
        return took.processor, took.clock

    def run(path):
        each = [well([options.program, "run"], path) for _ in range(options.frames)]
        return sum(one.processor for one in each), sum(one.clock for one in each)

    with tempfile.TemporaryDirectory() as folder:
        single, several = written(folder, "frame.json", line), written(folder, "frames.json", b"\n".join([line] * options.frames))
        for depth in "124":
            told(f"flight, windows of {depth}", options.runs, lambda: flown(several, depth))
        told(f"{options.frames} times run", options.runs, lambda: run(single))
    if len(texts) != 1:
        sys.exit("the text depends on the depth")


if __name__ == "__main__":
    main()
