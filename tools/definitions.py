#!/usr/bin/env python3
"""Lists the files of definitions that contracts stand on, each with the first sentence of its opening comment.

    tools/definitions.py [--check]

They are the files in specs/ of each crate, in the order of crates.txt, without Lib.antt and Internal.antt, which name modules alone. What
specs/Internal/ has is left out: it serves the code, and no public clause reaches it. With --check nothing is listed. The status is 1 where
a file does not begin with a comment; it is told with the names that it defines.
"""

import re
import signal
import sys
from pathlib import Path

sys.path.insert(0, str(Path(__file__).resolve().parent / "lib"))
from arguments import Arguments
from repository import TOP, crates
from tally import Tally

DEFINED = re.compile(r"^(?:abbrev |unfoldable )?pub (?:record |data |pattern )?(\S+)", re.M)


def files():
    """The files of definitions."""
    for crate in crates():
        for path in sorted((TOP / "crates" / crate / "specs").glob("*.antt")):
            if path.stem not in ("Lib", "Internal"):
                yield path


def opening(text):
    """The first sentence of the comment that a file begins with, or nothing."""
    comment = re.match(r"(?:-- .*\n)*", text)[0].replace("-- ", "").strip()
    return re.split(r"(?<=\.)\s+(?=[A-Z`])", comment, maxsplit=1)[0].replace("\n", " ")


def main():
    parser = Arguments(__doc__, program=None)
    parser.add_argument("--check", action="store_true")
    is_check = parser.parse_args().check
    # who reads the list may stop before its end
    signal.signal(signal.SIGPIPE, signal.SIG_DFL)
    with Tally("definitions", "files") as tally:
        for path in files():
            tally.look()
            text = path.read_text(encoding="utf-8")
            said = opening(text)
            if not said:
                tally.tell(f"{path.relative_to(TOP)}: no comment opens it; it defines {', '.join(DEFINED.findall(text))}")
            elif not is_check:
                print(f"{path.relative_to(TOP / 'crates')}: {said}")


if __name__ == "__main__":
    main()
