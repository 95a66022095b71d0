#!/usr/bin/env python3
"""Compiles random frames, and has the program check what it compiled.

    fuzz/compiled.py [--program PROGRAM] [--frames 3000] [--seed 1] [--passes 24] [--jobs 4]

The frames have one to four queues of all families, buffers, images and layers of images, exclusive and concurrent, imports, passes
that nobody sees, whole and partial writes, and operations of each role. Each compiled text has to be accepted by `check`. Told at the
end: how many frames were good, how many nodes the largest has, and of how many the heap is smaller than separate memory. The status is
1 at the first text that is not accepted. (`fuzz/fuzz.py` holds such texts against those of another program.)
"""

import random
import sys
from pathlib import Path

sys.path.insert(0, str(Path(__file__).resolve().parent.parent / "tools/lib"))
from arguments import Arguments
from makers import Frame
from sides import Side
from tally import Tally


def compiled(side, options, number):
    """How many nodes a good frame is compiled to, and whether its heap is smaller than separate memory."""
    text = Frame(random.Random(f"{options.seed}/{number}"), options.passes).text()
    status, submission = side.ask(["compile"], text)
    if status == 2:
        return None
    side.expect(status == 0, f"status {status}", ["compile"], text)
    status, verdict = side.ask(["check"], submission)
    side.expect(status == 0, f"what it is compiled to is not accepted: {verdict!r}", ["compile"], text)
    heap = side.ask(["place"], text)[1].split()
    return int(verdict.split()[1]), int(heap[1]) < int(heap[3])


def main():
    options = Arguments(__doc__, frames=3000, seed=1, passes=24, jobs=4).parse_args()
    side = Side(options.program)
    with Tally("compiled", "frames") as tally:
        found = tally.each(lambda number: compiled(side, options, number), range(options.frames), options.jobs)
        nodes, shared = zip(*filter(None, found))
        print(f"{len(nodes)} good frames, at most {max(nodes)} nodes; {sum(shared)} with shared memory")


if __name__ == "__main__":
    main()
