#!/usr/bin/env python3
"""Runs random frames and submissions on the device with several workers and seeds, and judges what is printed.

    fuzz/runs.py [--program PROGRAM] [--frames 500] [--seed 1] [--passes 16]

Each frame is run with 1, 2, 4 and 16 workers, without a seed and with one: what stands before the trace has to be the culled passes
and what `meaning` prints, and the trace a run of what `compile` prints (`tools/lib/traces.py`). Each compiled submission, and one of which
a wait, item or signal was taken out and that `check` still accepts, is executed in the same way: its read-backs have to be the same
each time. The status is 1 where anything differs.
"""

import json
import random
import sys
from pathlib import Path

sys.path.insert(0, str(Path(__file__).resolve().parent.parent / "tools/lib"))
from arguments import Arguments
from makers import compiled, packed, thinner
from sides import answer
from tally import Tally
from traces import Judge, parted, plain_run

WORKERS = (1, 2, 4, 16)


class Runs(Tally):
    def __init__(self, program):
        super().__init__("runs", "runs")
        self.program = program

    def run(self, name, words, text, wanted, judge, seed):
        status, printed = answer(self.program, words, text)
        self.look()
        head, lines = parted(printed)
        if status or head != wanted:
            self.tell(f"{name}: {words}: status {status}, another text")
        elif lines is None:
            self.tell(f"{name}: {words}: another count of events")
        elif (bad := judge.wrong(lines, seed)) is not None:
            self.tell(f"{name}: {words}: {bad}")

    def all_workers(self, name, command, text, wanted, judge, seed):
        for workers in WORKERS:
            words = f"{command} --workers {workers} --trace"
            self.run(name, words, text, wanted, judge, None)
            self.run(name, f"{words} --tend {seed}", text, wanted, judge, seed)


def main():
    options = Arguments(__doc__, frames=500, seed=1, passes=16).parse_args()
    rng = random.Random(options.seed)
    submissions = 0
    with Runs(options.program) as runs:
        for number in range(1, options.frames + 1):
            text, submission = compiled(options.program, rng, options.passes)
            program = json.loads(submission)
            runs.all_workers(f"frame {number}", "run", text, plain_run(options.program, text), Judge(program), rng.randrange(2**32))
            for other in filter(None, (program, thinner(options.program, program, rng))):
                submissions += 1
                file = packed(other)
                wanted = answer(options.program, "exec --workers 1", file)[1]
                runs.all_workers(f"submission {submissions}", "exec", file, wanted, Judge(other), rng.randrange(2**32))
        print(f"{options.frames} frames, {submissions} submissions")


if __name__ == "__main__":
    main()
