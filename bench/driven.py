#!/usr/bin/env python3
"""Times how long a device takes to be driven, in the built program measure, by the number of its nodes.

    bench/driven.py [--runs 3] [--program PROGRAM] [--case NAME ..]

Three kinds of submissions on one queue, each a fill and a barrier again and again: of one buffer; of 500 buffers in turn, each
in a memory of its own, with barriers of all memory; and with barriers of the one buffer. At 20,000 nodes they have 9,999 commands, as many barriers, a signal and a host read. The program reads
a submission, checks it, makes a device, and drives it on one thread without cache moves. The time is the processor time of the
user in such a run, less that of a run that ends with the device made: medians of several runs, all in turn. For each number
of nodes one line: what came before, the driving in milliseconds, and for each node in microseconds; then how many times as
long the driving takes where the nodes are twice as many.
"""

import sys
import tempfile
from pathlib import Path

sys.path.insert(0, str(Path(__file__).resolve().parent.parent / "tools/lib"))
from arguments import Arguments
from makers import ALL, BARRIER, fill, submission
from timed import measure, medians, well, written

NODES = (5_000, 10_000, 20_000)
# How many buffers, and whether each barrier is of one buffer alone.
CASES = {"one buffer": (1, False), "500 buffers": (500, False), "500 by one": (500, True)}


def repeated(nodes, buffers, alone):
    """So many nodes; the last barrier, the signal and the host read are among them."""

    def barrier(piece):
        return {"item": "buffer", "piece": piece, **ALL} if alone else BARRIER

    items = [item for k in range(nodes // 2 - 1) for item in (fill(k % buffers, k), barrier(k % buffers))]
    return submission(items[:-1], buffers, buffers)


def driven(program, path):
    """Milliseconds of the user until the device is made, and of the driving."""
    before, all_of_it = (1e3 * well([program, word], path).user for word in ("device", "drive"))
    return before, all_of_it - before


def measured(program, paths, runs):
    """For each number of nodes the medians of what comes before, and of the driving."""
    return dict(zip(paths, medians(runs, [lambda path=path: driven(program, path) for path in paths.values()])))


def main():
    parser = Arguments(__doc__, program=measure, runs=3)
    parser.add_argument("--case", nargs="*", default=list(CASES), choices=list(CASES))
    options = parser.parse_args()
    with tempfile.TemporaryDirectory() as folder:
        for name in options.case:
            paths = {nodes: written(folder, f"{nodes}.json", repeated(nodes, *CASES[name])) for nodes in NODES}
            took = measured(options.program, paths, options.runs)
            print(f"{name:16} {'before, ms':>11} {'driving, ms':>12} {'µs a node':>10} {'of half':>8}")
            for nodes, (before, driving) in took.items():
                half = took.get(nodes // 2)
                ratio = f"{driving / max(half[1], 0.001):8.2f}" if half else ""
                print(f"{nodes:10} nodes {before:11.1f} {driving:12.1f} {driving / nodes * 1e3:10.2f} {ratio}", flush=True)


if __name__ == "__main__":
    main()
