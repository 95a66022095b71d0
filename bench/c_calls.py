#!/usr/bin/env python3
"""Times calls of the library for C, beside the program as a process and beside another library in its own process.

    bench/c_calls.py [--program PROGRAM] [--other OTHER] [--library LIBRARY] [--runs 5] [--case NAME ..]

`check` and `compile` of a small file, of the deferred frame of examples/frames/, and of a frame of 256 passes none of which is culled (the
program makes it, by its word `gen`; with a program that has no such word it is left out). OTHER is a program that calls a library of its own: `OTHER
COMMAND FILE COUNT` prints the seconds of processor time that so many calls take. For each case one line: microseconds of processor time of a
call of ours, of a process, and of a call of the other's, medians of several runs in turn; the ratio of the two calls; and that ratio without
what it takes to read the file's JSON, which the same file with 3 as its format tells, since its examination ends right behind the
reading. Behind our time stand the kB that a call holds at most at a time.
"""

import json
import os
import sys
import tempfile
from pathlib import Path

sys.path.insert(0, str(Path(__file__).resolve().parent.parent / "tools/lib"))
import c_library
from arguments import Arguments
from makers import generated
from repository import FRAMES, SUBMISSIONS
from sides import answer
from timed import is_wanted, medians, well, written

SMALL_FRAME = FRAMES / "one_fill.json"
SMALL_SUBMISSION = SUBMISSIONS / "missing_barrier_mended.json"
DEFERRED = FRAMES / "deferred.json"


def in_process(program, word, path, count):
    """Microseconds of a call."""
    return float(well([str(program), word, path, str(count)]).text.split()[0]) / count * 1e6


def kilobytes(program, word, path):
    """The most that a call holds at a time."""
    return int(well([str(program), word, path, "1"]).text.split()[1]) / 1000


def as_process(program, word, path, count):
    """Microseconds of processor time of a process."""
    took = 0.0
    for _ in range(count):
        opened = [(os.POSIX_SPAWN_OPEN, 0, path, os.O_RDONLY, 0), (os.POSIX_SPAWN_OPEN, 1, os.devnull, os.O_WRONLY, 0)]
        child = os.posix_spawn(program, [program, word], os.environ, file_actions=opened)
        _, _, usage = os.wait4(child, 0)
        took += usage.ru_utime + usage.ru_stime
    return took / count * 1e6


def read_alone(folder, path):
    """The same file with another format."""
    value = json.loads(Path(path).read_bytes())
    return written(folder, "format3.json", json.dumps({**value, "format": 3}, separators=(",", ":")).encode())


def cases(folder, program):
    """Name, command, file and how many calls."""
    yield "check small", "check", str(SMALL_SUBMISSION), 1000
    yield "compile small", "compile", str(SMALL_FRAME), 1000
    deferred = DEFERRED.read_bytes()
    yield "check deferred", "check", written(folder, "deferred_program.json", answer(program, "compile", deferred)[1]), 50
    yield "compile deferred", "compile", str(DEFERRED), 50
    made = generated(program)
    if made:
        frame = json.dumps(made).encode()
        yield "check 256 passes", "check", written(folder, "made_program.json", answer(program, "compile", frame)[1]), 10
        yield "compile 256 passes", "compile", written(folder, "made.json", frame), 10


def main():
    parser = Arguments(__doc__, other="may", runs=5)
    parser.add_argument("--library", type=Path, default=c_library.LIBRARY)
    parser.add_argument("--case", nargs="*", default=[])
    options = parser.parse_args()
    library = options.library.absolute()
    lacking = c_library.missing(library)
    if lacking:
        sys.exit(lacking)
    print(f"{'case':20} {'µs':>9} {'kB':>7} {'process':>9} {'other':>9} {'ratio':>6} {'reading aside':>13}")
    with tempfile.TemporaryDirectory() as folder:
        ours = c_library.calls(folder, library)
        for name, word, path, count in cases(folder, options.program):
            if not is_wanted(name, options.case):
                continue
            calls = [(ours, path)]
            if options.other:
                read = read_alone(folder, path)
                calls += [(options.other, path), (ours, read), (options.other, read)]
            measures = [lambda: [as_process(options.program, word, path, max(count // 10, 5))]]
            measures += [lambda program=program, path=path: [in_process(program, word, path, count)] for program, path in calls]
            process, call, *rest = (median for median, in medians(options.runs, measures))
            line = f"{name:20} {call:9.1f} {kilobytes(ours, word, path):7.0f} {process:9.1f}"
            if rest:
                other, own_reading, other_reading = rest
                line += f" {other:9.1f} {call / other:6.2f} {(call - own_reading) / (other - other_reading):13.2f}"
            print(line, flush=True)


if __name__ == "__main__":
    main()
