#!/usr/bin/env python3
"""Has traces judged by `audit`, as they were printed and with one line changed, dropped, doubled or moved.

    fuzz/audits.py [--program PROGRAM] [--frames 100] [--seed 1] [--passes 8] [--changes 40]

Each random frame is compiled, and its submission executed with 1 and 4 workers, without a seed and with one; so is one of which a
wait, item or signal was taken out and that `check` still accepts; and the frame is run. What is printed of that has to be a run, with
the same read-backs. Of each trace so many changed ones are judged too; the verdict has to be the one that `tools/lib/traces.py` tells,
from docs/MODEL.md and docs/FORMATS.md. Told at the end: how many verdicts there were of each kind. The status is 1 where anything differs.
"""

import collections
import json
import random
import sys
from pathlib import Path

sys.path.insert(0, str(Path(__file__).resolve().parent.parent / "tools/lib"))
from arguments import Arguments
from makers import compiled, packed, thinner
from sides import answer, kind
from tally import Tally
from traces import WORDS, Judge, behind, parted


def told(judge, count, lines, readbacks):
    """What `audit` has to say of the lines of a trace before which this count stands."""
    if count != len(lines):
        return 2, f"fault A1 {min(count, len(lines)) + 1}\n".encode()
    hazard = judge.verdict(lines)
    return (1, f"{hazard}\n".encode()) if hazard else (0, f"run {count} events\n".encode() + readbacks)


def changed(lines, rng):
    """The lines with one that is changed, dropped, doubled or moved."""
    lines, at = list(lines), rng.randrange(len(lines))
    how = rng.choice(("change", "word", "drop", "double", "move"))
    if how == "change":
        word, *numbers = lines[at].split()
        k = rng.randrange(len(numbers))
        numbers[k] = str(max(0, int(numbers[k]) + rng.choice((-1, 1, 7, 4096))))
        lines[at] = " ".join((word, *numbers))
    elif how == "word":
        word, *numbers = lines[at].split()
        lines[at] = " ".join((rng.choice(WORDS if word in WORDS else ("begin", "end", "sync", "host")), *numbers))
    elif how == "drop":
        del lines[at]
    elif how == "double":
        lines.insert(at, lines[at])
    else:
        line = lines.pop(at)
        lines.insert(rng.randrange(len(lines) + 1), line)
    return lines


class Audits(Tally):
    def __init__(self, options):
        super().__init__("audits", "traces")
        self.program, self.changes = options.program, options.changes
        self.kinds = collections.Counter()

    def audit(self, name, submission, lines, count, wanted):
        got = answer(self.program, "audit", behind(submission, lines, count))
        self.look()
        self.kinds[kind(*got)] += 1
        self.expect(name, got, wanted)

    def trace(self, name, words, text, submission, judge, readbacks, rng):
        """The trace of a run by these words of this text, and changed ones."""
        status, printed = answer(self.program, f"{words} --trace", text)
        lines = parted(printed)[1]
        if status != 0 or lines is None:
            self.tell(f"{name}: {words}: status {status}, or another count of events")
            return
        self.audit(f"{name}: {words}", submission, lines, len(lines), (0, f"run {len(lines)} events\n".encode() + readbacks))
        for _ in range(self.changes if lines else 0):
            other = changed(lines, rng)
            count = len(lines) if rng.random() < 0.2 else len(other)
            self.audit(f"{name}: {words}, changed", submission, other, count, told(judge, count, other, readbacks))

    def executed(self, name, options, submission, rng):
        """The traces of a submission. Its judge and its read-backs are handed back."""
        judge, readbacks = Judge(json.loads(submission)), answer(self.program, "exec", submission)[1]
        for words in options:
            self.trace(name, f"exec {words}", submission, submission, judge, readbacks, rng)
        return judge, readbacks


def main():
    options = Arguments(__doc__, frames=100, seed=1, passes=8, changes=40).parse_args()
    rng = random.Random(options.seed)
    with Audits(options) as audits:
        for number in range(1, options.frames + 1):
            text, submission = compiled(options.program, rng, options.passes)
            name, tended = f"frame {number}", f"--workers 4 --tend {rng.randrange(2**32)}"
            judge, readbacks = audits.executed(name, ("--workers 1", "--workers 4", tended), submission, rng)
            audits.trace(name, f"run {tended}", text, submission, judge, readbacks, rng)
            fewer = thinner(options.program, json.loads(submission), rng)
            if fewer:
                audits.executed(f"{name} with less", ("--workers 4", tended), packed(fewer), rng)
        print(f"{options.frames} frames: " + ", ".join(f"{count} of {sort}" for sort, count in sorted(audits.kinds.items())))


if __name__ == "__main__":
    main()
