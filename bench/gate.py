#!/usr/bin/env python3
"""Measures the gate: its seconds by the clock, and for each crate the processor minutes of its proof, its tests and its edits.

    bench/gate.py [--processors 2] [--kept] [--log FILE]

Runs `rt ci --anew` in a clone of what is committed, pinned to so many processors and with one job for each, and looks at its
processes twice a second. With --kept, what earlier runs on this machine passed is not done again. The last lines are a table
for HACKING.md, dearest crates first. Times depend on the machine and on what else it does.
"""

import os
import re
import subprocess
import sys
import time
from collections import defaultdict
from pathlib import Path

sys.path.insert(0, str(Path(__file__).resolve().parent.parent / "tools/lib"))
from arguments import Arguments
from repository import cloned
from timed import processes

KINDS = ("proof", "tests", "edits")


def work_of(process):
    """The crate that a process of the prover is at, and whether it is its proof, that of its tests, or an edit."""
    try:
        words = Path(f"/proc/{process}/cmdline").read_bytes().decode(errors="replace").split("\0")
        folder = os.readlink(f"/proc/{process}/cwd")
    except OSError:
        return None
    if not words[0].endswith("/rattle") or words[1:2] not in (["build"], ["check"]) or "--crate-name" not in words:
        return None
    crate = words[words.index("--crate-name") + 1]
    kind = "edits" if re.search(r"/rt-edit-", folder) else "tests" if "--test" in words else "proof"
    return crate, kind


class Sampler:
    """What the processes below one have taken so far."""

    def __init__(self, root):
        self.root, self.known, self.spent = root, {}, {}

    def look(self):
        found = processes()
        below = defaultdict(list)
        for process, one in found.items():
            below[one.parent].append(process)
        todo = [self.root]
        while todo:
            process = todo.pop()
            if process not in self.known:
                self.known[process] = work_of(process)
            if self.known[process]:
                self.spent[process] = max(self.spent.get(process, 0), self.whole(process, found, below))
                continue
            # (a process becomes the prover only once it has started it)
            del self.known[process]
            todo += below[process]

    def whole(self, process, found, below):
        own = found[process].seconds if process in found else 0
        return own + sum(self.whole(other, found, below) for other in below[process])

    def table(self):
        """Minutes by crate and kind."""
        minutes = defaultdict(lambda: dict.fromkeys(KINDS, 0.0))
        for process, seconds in self.spent.items():
            crate, kind = self.known[process]
            minutes[crate][kind] += seconds / 60
        return minutes


def printed(minutes):
    rows = sorted(minutes.items(), key=lambda it: -sum(it[1].values()))
    told = lambda it: f"{it:.1f}" if it else "none"
    print("| crate | proof | tests | edit |\n|---|---|---|---|")
    for crate, kinds in rows:
        print(f"| {crate} | {' | '.join(told(kinds[kind]) for kind in KINDS)} |")
    sums = [sum(it[kind] for it in minutes.values()) for kind in KINDS]
    print(f"| all | {' | '.join(f'{it:.0f}' for it in sums)} |")


def main():
    parser = Arguments(__doc__, program=None, processors=2)
    parser.add_argument("--kept", action="store_true")
    parser.add_argument("--log", default=os.devnull)
    given = parser.parse_args()
    with cloned() as clone, open(given.log, "wb") as log:
        # What this starts runs where this may run.
        os.sched_setaffinity(0, sorted(os.sched_getaffinity(0))[: given.processors])
        began = time.monotonic()
        command = ["rt", "ci", *([] if given.kept else ["--anew"])]
        child = subprocess.Popen(command, cwd=clone, stdin=subprocess.DEVNULL, stdout=log, stderr=log, env={**os.environ, "RT_JOBS": str(given.processors)})
        sampler = Sampler(child.pid)
        while child.poll() is None:
            sampler.look()
            time.sleep(0.5)
        seconds = time.monotonic() - began
    printed(sampler.table())
    print(f"\n{given.processors} processors, {seconds:,.0f} s by the clock, status {child.returncode}")
    sys.exit(child.returncode)


if __name__ == "__main__":
    main()
