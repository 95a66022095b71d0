"""Times of commands, and of the processes of this machine."""

import collections
import json
import os
import statistics
import subprocess
import sys
import time
from pathlib import Path

from repository import TOP

TICKS = os.sysconf("SC_CLK_TCK")

# Seconds of processor time, of the user alone and of the system as well; seconds by the clock; most memory in KiB; status and text.
Took = collections.namedtuple("Took", "user processor clock most status text")

Process = collections.namedtuple("Process", "parent session seconds")


def measure():
    """The program measure, where it is built."""
    path = TOP / "crates/measure/out/measure"
    if not path.exists():
        sys.exit("the program measure is not built: `rt run` in crates/measure")
    return str(path)


def timed(words, path=os.devnull, **how):
    """What a command takes whose standard input is this file."""
    with open(path, "rb") as text:
        began = time.perf_counter()
        child = subprocess.Popen(words, stdin=text, stdout=subprocess.PIPE, **how)
        printed = child.stdout.read()
        child.stdout.close()
        _, status, usage = os.wait4(child.pid, 0)
        clock = time.perf_counter() - began
    child.returncode = os.waitstatus_to_exitcode(status)
    return Took(usage.ru_utime, usage.ru_utime + usage.ru_stime, clock, usage.ru_maxrss, child.returncode, printed)


def well(words, path=os.devnull, **how):
    """The same of one that has to end with status 0."""
    took = timed(words, path, **how)
    if took.status != 0:
        sys.exit(f"{' '.join(words)} ended with status {took.status}: {took.text[:200]!r}")
    return took


def medians(runs, measures):
    """The medians of the numbers that each measure gives, all of them in turn."""
    found = [[] for _ in measures]
    for _ in range(runs):
        for rows, measure in zip(found, measures):
            rows.append(measure())
    return [[statistics.median(column) for column in zip(*rows)] for rows in found]


def written(folder, name, value):
    """The path of a file with this text, or with the text of this JSON value."""
    path = Path(folder) / name
    path.write_bytes(value if isinstance(value, bytes) else json.dumps(value).encode())
    return str(path)


def is_wanted(name, cases):
    """Whether a case is one of those whose names begin so; all are where none is named."""
    return not cases or name.startswith(tuple(cases))


def processes():
    """Each process by its number: its parent, its session, and its processor seconds with those of the children that it has waited for."""
    found = {}
    for path in Path("/proc").glob("[0-9]*/stat"):
        try:
            text = path.read_text(encoding="utf-8", errors="replace")
        except OSError:
            continue
        # After the name in parentheses: state, parent, group, session, and from the twelfth on the four times.
        fields = text.rpartition(")")[2].split()
        found[int(path.parent.name)] = Process(int(fields[1]), int(fields[3]), sum(int(field) for field in fields[11:15]) / TICKS)
    return found
