#!/usr/bin/env python3
"""Runs a small frame on the device again and again with many workers, and looks for a run that went astray.

    fuzz/workers.py [--runs 10000] [--workers 16] [--jobs 4] [--limit 60] [--frame FRAME ..] [--program PROGRAM] [--checked N]

Run i has the seed i, and every second run none. Each run has to end within the limit, in seconds (one that does not stands
still), with status 0, the culled passes and the bytes that `meaning` prints (a race of the kernels over memory would change them
now and then), and a trace that `tools/lib/traces.py` judges to be a run of the compiled submission to its end: no event lost, made
twice or too early, and the moves of the seed. Told at the end: how many runs there were, how many different traces, and in how
many of them two commands were begun at one time; and each run that went astray. The status is 0 where none did.

With --checked N runs the program is run under valgrind's helgrind as well, which looks for memory that threads touch without
an order between them; it is slow, and left out where there is no valgrind.
"""

import hashlib
import json
import re
import shutil
import sys
from concurrent.futures import ThreadPoolExecutor
from pathlib import Path

sys.path.insert(0, str(Path(__file__).resolve().parent.parent / "tools/lib"))
from arguments import Arguments
from repository import FRAMES
from sides import answer, ran
from tally import Tally, left_out
from traces import Judge, parted, plain_run

SMALL = [FRAMES / "concurrent.json", FRAMES / "ramp_and_map.json"]


def nested(lines):
    """Whether two commands were begun at one time."""
    begun = 0
    for line in lines:
        begun += line.startswith("begin") - line.startswith("end")
        if begun > 1:
            return True
    return False


class Case:
    def __init__(self, program, path):
        self.program, self.path = program, path
        self.text = path.read_bytes()
        self.wanted = plain_run(program, self.text)
        self.judge = Judge(json.loads(answer(program, "compile", self.text)[1]))

    def words(self, workers, seed):
        return f"run --trace --workers {workers}" + ("" if seed is None else f" --tend {seed}")

    def run(self, workers, seed, limit):
        """The trace, and what went astray, or None."""
        status, printed = answer(self.program, self.words(workers, seed), self.text, timeout=limit)
        if status is None:
            return [], f"no end within {limit} s"
        if status != 0:
            return [], f"status {status}"
        text, trace = parted(printed)
        if trace is None:
            return [], "the count of events is wrong"
        if text != self.wanted:
            return trace, "other bytes"
        return trace, self.judge.wrong(trace, seed)

    def checked(self, workers, seed):
        words = ["--tool=helgrind", "--error-exitcode=99", self.program, *self.words(workers, seed).split()]
        status, _, told = ran("valgrind", words, self.text)
        return None if status == 0 else re.sub(r"==\d+== ?", "", told.decode())[:2000]


def seed_of(i):
    return i if i % 2 else None


def tried(tally, case, options):
    """Prints what came of the runs of one frame."""
    traces, side_by_side, before = set(), 0, tally.wrong
    with ThreadPoolExecutor(options.jobs) as pool:
        ends = pool.map(lambda i: (i, *case.run(options.workers, seed_of(i), options.limit)), range(options.runs))
        for i, trace, wrong in ends:
            traces.add(hashlib.sha256("\n".join(trace).encode()).digest())
            side_by_side += nested(trace)
            tally.look()
            if wrong:
                tally.tell(f"{case.path.name}, run {i}, seed {seed_of(i)}: {wrong}")
    print(f"{case.path.name}: {options.runs} runs with {options.workers} workers, {len(traces)} different traces, ", end="")
    print(f"{side_by_side} with two commands begun at one time, {tally.wrong - before} astray", flush=True)


def raced(tally, case, options):
    """Prints in how many runs helgrind found something."""
    found = [wrong for i in range(options.checked) if (wrong := case.checked(options.workers, seed_of(i)))]
    tally.look(options.checked)
    print(f"{case.path.name}: {options.checked} runs under helgrind, {len(found)} with a finding", flush=True)
    for wrong in found:
        tally.tell(wrong)


def main():
    parser = Arguments(__doc__, runs=10_000, workers=16, jobs=4, limit=60.0, checked=0)
    parser.add_argument("--frame", type=Path, nargs="*", default=SMALL)
    options = parser.parse_args()
    if options.checked and not shutil.which("valgrind"):
        left_out("valgrind (runs under helgrind)")
        options.checked = 0
    with Tally("workers", "runs") as tally:
        for path in options.frame:
            case = Case(options.program, path)
            tried(tally, case, options)
            if options.checked:
                raced(tally, case, options)


if __name__ == "__main__":
    main()
