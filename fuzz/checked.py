#!/usr/bin/env python3
"""Runs the program under valgrind's memcheck: on every file of examples/, on broken ones, and on frames of rising size.

    fuzz/checked.py [--program PROGRAM] [--only WORD] [--jobs 1]

Each run has to be without an error (an invalid read or write, a jump on bytes that nobody stored), to end with the status and the text of a run
by itself, and to lose no memory; what is still reachable at the end is told, and must not grow with the input: generated frames of 2, 8 and
32 passes, and lists of 1, 4 and 16 frames, leave the same. The status is 1 where any of this fails. Without valgrind nothing is run.
"""

import json
import re
import shutil
import sys
import tempfile
from pathlib import Path

sys.path.insert(0, str(Path(__file__).resolve().parent.parent / "tools/lib"))
from arguments import Arguments
from makers import PERSISTS, packed
from repository import FRAMES, PROFILE, SUBMISSIONS
from sides import answer
from tally import Tally, by_threads, left_out
from traces import recorded

LIMIT = 900
FRAME_WORDS = ("run", "run --workers 4 --tend 1 --trace", "run --tight", "cull", "place", "bound", "compile", "compile --tight", "meaning", "migrate", "auto")
SUBMISSION_WORDS = ("check", "exec", "exec --workers 4 --tend 1")
FIELDS = ("definitely lost", "indirectly lost", "possibly lost", "still reachable")


def cases(program):
    """A group, whose runs leave the same, words and input."""
    for path in sorted(FRAMES.iterdir()):
        text = path.read_bytes()
        for words in FRAME_WORDS:
            # Images of two million texels take minutes under memcheck.
            if path.name != "deferred.json" or words in ("cull", "place", "bound", "compile", "migrate", "auto"):
                yield None, words, text
    for path in [*sorted(SUBMISSIONS.iterdir()), *sorted(PROFILE.iterdir())]:
        for words in SUBMISSION_WORDS:
            yield None, words, path.read_bytes()
    one = (FRAMES / "one_fill.json").read_bytes()
    compiled = answer(program, "compile", one)[1]
    judged = recorded(program, compiled)
    for text in (judged, judged.replace(b"sync 1\n", b""), judged[:-1], compiled.strip() + b"\n" + b"events 1\nbegin 0\n"):
        yield None, "audit", text
    for broken in (b"", one[:-9], b"[" * 4000, b"{" * 4000, packed({**json.loads(one), "more": 1}), one + b"\xff"):
        for words in ("run", "migrate", "check", "audit", "flight"):
            yield None, words, broken
    yield None, "", b""
    for passes in (2, 8, 32):
        yield "gen", f"gen --number 7 --passes {passes}", b""
        yield "summary", f"gen --number 7 --passes {passes} --summary", b""
        made = answer(program, f"gen --number 7 --passes {passes}")[1]
        for words in ("cull", "compile", "meaning", "migrate", "auto", "run --workers 1", "run --workers 4"):
            yield words, words, made
    for count in (1, 4, 16):
        yield "flight", "flight --persist b --depth 3", (packed(PERSISTS) + b"\n") * count


class Checked(Tally):
    def __init__(self, program):
        super().__init__("checked", "runs")
        self.program, self.reachable = program, {}

    def fails(self, words, text, what):
        self.tell(f"{words} on {len(text)} bytes: {what}")

    def case(self, case):
        group, words, text = case
        wanted = answer(self.program, words, text, timeout=LIMIT)
        if wanted[0] == 3 and words:
            return
        with tempfile.NamedTemporaryFile() as log:
            memcheck = ["-q", "--leak-check=full", "--track-origins=no", "-v", f"--log-file={log.name}", self.program, *words.split()]
            found = answer("valgrind", memcheck, text, timeout=LIMIT)
            told = Path(log.name).read_text(errors="replace")
        self.look()
        # The order of events in a trace is that of the machine.
        same = found[1].partition(b"events")[0] == wanted[1].partition(b"events")[0] if "--trace" in words else found[1] == wanted[1]
        if found[0] != wanted[0] or not same:
            self.fails(words, text, f"status {found[0]}, {found[1][:80]!r}; by itself {wanted[0]}")
        errors = re.search(r"ERROR SUMMARY: (\d+) errors", told)
        if errors is None or errors[1] != "0":
            self.fails(words, text, f"memcheck: {told[-1500:]}")
        left = {field: int(m[1].replace(",", "")) if (m := re.search(field + r": ([\d,]+) bytes", told)) else 0 for field in FIELDS}
        if any(left[field] for field in FIELDS[:3]):
            self.fails(words, text, f"lost: {left}")
        self.reachable.setdefault(group or f"of {words or 'no words'}", set()).add(left["still reachable"])


def main():
    parser = Arguments(__doc__, jobs=1)
    parser.add_argument("--only", default="")
    options = parser.parse_args()
    if not shutil.which("valgrind"):
        return left_out("valgrind")
    with Checked(options.program) as checked:
        by_threads(checked.case, (case for case in cases(options.program) if case[1].startswith(options.only)), options.jobs)
        for group, left in sorted(checked.reachable.items()):
            if not group.startswith("of ") and len(left) > 1:
                checked.fails(group, b"", f"what is reachable at the end grows: {sorted(left)}")
        print(f"reachable at the end: {sorted(set().union(*checked.reachable.values()))}")


if __name__ == "__main__":
    main()
