#!/usr/bin/env python3
"""Lists the functions of a crate by the time that their proofs take, dearest first.

    tools/dear.py CRATE [--test] [--most 25]

Checks the crate from nothing with one job, on a copy of the repository, and takes the time between the lines that `rt check
--progress` prints as each proof ends. So a function's time is that of its proof with the lemmas that no earlier one read. It is
processor time of the check's processes, so what else the machine does changes it little.
"""

import re
import shutil
import subprocess
import sys
from pathlib import Path

sys.path.insert(0, str(Path(__file__).resolve().parent.parent / "tools/lib"))
from arguments import Arguments
from repository import copied
from timed import processes

LINE = re.compile(r"checked (.+), \d+ of \d+")


def unbuilt(folder, names):
    """What a copy does not need."""
    return [name for name in names if name == ".git" or (Path(folder).name == "out" and name != "rlib")]


def renamed(top, crate):
    """The folder of the crate in a copy, in which it has another name, so that nothing is taken from what earlier checks kept of it.
    The libraries that are built go with it."""
    shutil.rmtree(top / "crates" / crate / "out", ignore_errors=True)
    folder = (top / "crates" / crate).rename(top / "crates" / f"timed_{crate}")
    for path, before in [(top / "crates.txt", r"\b"), *((path, r"\bRattle\.") for end in ("rt", "antt") for path in folder.rglob(f"*.{end}"))]:
        text = path.read_text(encoding="utf-8")
        path.write_text(re.sub(rf"({before}){crate}\b", rf"\1timed_{crate}", text), encoding="utf-8")
    return folder


def spent(session):
    """Processor seconds of the processes of a session, and of those that they have waited for."""
    return sum(one.seconds for one in processes().values() if one.session == session)


def timed(folder, flags):
    """Seconds and name of each proof."""
    child = subprocess.Popen(["rt", "check", "--jobs", "1", "--progress", *flags], cwd=folder, stdout=subprocess.PIPE, stderr=subprocess.STDOUT, text=True, start_new_session=True)
    last, found, tail = None, [], []
    for line in child.stdout:
        tail = [*tail[-19:], line]
        now = spent(child.pid)
        ended = LINE.search(line)
        if ended and last is not None:
            found.append((now - last, ended.group(1).removeprefix("timed_")))
        if ended or last is not None or "ahead of the check" in line:
            last = now
    if child.wait() != 0:
        print("the check did not pass:", *tail, sep="\n", file=sys.stderr)
    return found


def main():
    parser = Arguments(__doc__, program=None, most=25)
    parser.add_argument("crate", metavar="CRATE")
    parser.add_argument("--test", action="store_true")
    options = parser.parse_args()
    with copied(unbuilt) as top:
        found = timed(renamed(top, options.crate), ["--test"] if options.test else [])
    print(f"{len(found)} proofs, {sum(seconds for seconds, _ in found):.0f} s")
    for seconds, name in sorted(found, reverse=True)[: options.most]:
        print(f"{seconds:8.1f}  {name}")


if __name__ == "__main__":
    main()
