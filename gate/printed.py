#!/usr/bin/env python3
"""Runs each command line that the README and the docs print, and compares what comes with what stands there.

    gate/printed.py [--program PROGRAM]

A fenced block marked `console` has command lines that begin with `$ `, each with its whole text below it: standard output and
standard error. A line `...` stands for any lines, and `$ echo $?` prints the status of the line before. The lines are run at
the top of the repository, with the built program in place of `./framec`; one whose program is not there is left out, and told. No
other block may have a line that begins with `$ `.
"""

import shutil
import subprocess
import sys
from pathlib import Path

sys.path.insert(0, str(Path(__file__).resolve().parent.parent / "tools/lib"))
from arguments import Arguments
from repository import TOP
from tally import Tally, left_out


def pages():
    return sorted([*TOP.glob("*.md"), *TOP.glob("docs/*.md"), *TOP.glob("crates/*/*.md")])


def blocks(path):
    """Number of the first line, mark and lines of each fenced block."""
    start, mark, inside = None, "", []
    for number, line in enumerate(path.read_text(encoding="utf-8").splitlines(), 1):
        if line.startswith("```"):
            if start is None:
                start, mark, inside = number + 1, line[3:].strip(), []
            else:
                yield start, mark, inside
                start = None
        elif start is not None:
            inside.append(line)


def commands(start, lines):
    """Number of the line, command and text of each command line of a block."""
    found = []
    for number, line in enumerate(lines, start):
        if line.startswith("$ "):
            found.append((number, line[2:], []))
        elif found:
            found[-1][2].append(line)
        else:
            sys.exit(f"a block begins with {line!r}, which is no command line")
    return found


def is_as_printed(got, wanted):
    """Whether the lines are those that were wanted, where `...` stands for any lines."""
    if not wanted:
        return not got
    if wanted[0] == "...":
        return any(is_as_printed(got[k:], wanted[1:]) for k in range(len(got) + 1))
    return bool(got) and got[0] == wanted[0] and is_as_printed(got[1:], wanted[1:])


def can_run(command):
    """Whether the program of a command line is there."""
    return command.startswith(("./framec", "echo")) or shutil.which(command.split()[0]) is not None


def printed(command, program, status):
    """The lines that a command line prints, and its status."""
    if command == "echo $?":
        return [str(status)], 0
    command = command.replace("./framec", f"'{program}'")
    done = subprocess.run(["bash", "-c", command], cwd=TOP, stdout=subprocess.PIPE, stderr=subprocess.STDOUT)
    return done.stdout.decode(errors="replace").splitlines(), done.returncode


def look_at(tally, name, start, lines, program):
    """The command lines of a block."""
    status = 0
    for number, command, wanted in commands(start, lines):
        if not can_run(command):
            left_out(f"{command.split()[0]} ({name}:{number})")
            continue
        got, status = printed(command, program, status)
        tally.look()
        if not is_as_printed(got, wanted):
            tally.tell(f"{name}:{number}: {command} prints\n" + "\n".join(got[:40]))


def main():
    program = Arguments(__doc__).parse_args().program
    with Tally("printed", "command lines") as tally:
        for path in pages():
            name = path.relative_to(TOP)
            for start, mark, lines in blocks(path):
                if mark == "console":
                    look_at(tally, name, start, lines, program)
                    continue
                for line in lines:
                    if line.startswith("$ "):
                        tally.tell(f"{name}:{start}: a command line in a block that is not marked")


if __name__ == "__main__":
    main()
