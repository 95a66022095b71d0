#!/usr/bin/env python3
"""Runs random frames half of whose images are of one number, which the device keeps as that number.

    fuzz/clears.py [--program PROGRAM] [--frames 500] [--seed 1]

`run` with 1 and with 4 workers has to print the culled passes and what `meaning` prints, which goes the plain way. The status is 1
where anything differs.
"""

import random
import sys
from pathlib import Path

sys.path.insert(0, str(Path(__file__).resolve().parent.parent / "tools/lib"))
from arguments import Arguments
from cleared import Cleared
from makers import packed
from sides import answer
from tally import Tally
from traces import plain_run


def main():
    options = Arguments(__doc__, frames=500, seed=1).parse_args()
    rng = random.Random(options.seed)
    with Tally("clears", "runs") as tally:
        for number in range(options.frames):
            text = packed(Cleared(rng).value())
            wanted = 0, plain_run(options.program, text)
            for workers in "14":
                tally.expect(f"frame {number}, run --workers {workers}", answer(options.program, f"run --workers {workers}", text), wanted)
                tally.look()


if __name__ == "__main__":
    main()
