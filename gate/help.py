#!/usr/bin/env python3
"""Holds the help texts of ./framec against the docs.

    gate/help.py

Each command of README.md's table has a help text, which begins with its usage and tells just the options that the table of
options in docs/FORMATS.md gives it, in the usage and in a line each; so has `view`, which is the script's own; `--help` names each
command; and what is no such line is left to the program. The status is 1 where one does not hold.
"""

import re
import sys
from pathlib import Path

sys.path.insert(0, str(Path(__file__).resolve().parent.parent / "tools/lib"))
from arguments import Arguments
from repository import TOP
from sides import answer
from tally import Tally


def helped(*words):
    """What the script that answers prints, or None where it does not answer."""
    status, text = answer(TOP / "tools/help.sh", words)
    return text.decode() if status == 0 else None


def commands():
    """The commands of README.md's table."""
    part = (TOP / "README.md").read_text(encoding="utf-8").split("## Commands\n", 1)[1].split("\n## ", 1)[0]
    return sorted(set(re.findall(r"^\| `(\w+)", part, re.M)))


def options():
    """The options of each command, by docs/FORMATS.md."""
    text = (TOP / "docs/FORMATS.md").read_text(encoding="utf-8")
    found, last = {}, []
    for option, of in re.findall(r"^\| `(--\w+)[^|]*\| ([^|]*)\|", text, re.M):
        last = last if of.strip() == "the same" else re.findall(r"`(\w+)", of)
        for command in last:
            found.setdefault(command, set()).add(option)
    return found


def look_at(tally, command, wanted, whole):
    """The help text of a command, which has these options."""
    text = helped(command, "--help") or ""
    usage = text.splitlines()[0] if text else ""
    for what, holds in {
        "has a usage": usage.startswith(f"usage: framec {command}"),
        "has its options in the usage": set(re.findall(r"--\w+", usage)) == wanted,
        "has a line for each option": set(re.findall(r"^  (--\w+)", text, re.M)) == wanted,
        "is named by --help": re.search(rf"^  {command} ", whole, re.M) is not None,
    }.items():
        tally.look()
        if not holds:
            tally.tell(f"help of {command}: it is not so that it {what}")


def main():
    Arguments(__doc__, program=None).parse_args()
    with Tally("help", "facts") as tally:
        known, whole = options(), helped("--help") or ""
        for command in commands():
            look_at(tally, command, known.get(command, set()), whole)
        look_at(tally, "view", {"--trace"}, whole)
        for words in (["--help", "check"], ["nothing", "--help"], ["check", "--version"], ["all", "--help"]):
            tally.look()
            if helped(*words) is not None:
                tally.tell(f"{' '.join(words)} is answered")


if __name__ == "__main__":
    main()
