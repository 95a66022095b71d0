#!/usr/bin/env python3
"""Tries the edits that do not stand in the gate.

    tools/edits.py [NAME ..]

The gate tries one edit a crate, crates/NAME/must-fail. The others stand in edits/NAME, in the same form. They are put in that place in a
copy of the repository, and `rt must-fail NAME` tries them there; without a name those of all crates. The status is 1 where it fails for
a crate.
"""

import shutil
import subprocess
import sys
from pathlib import Path

sys.path.insert(0, str(Path(__file__).resolve().parent.parent / "tools/lib"))
from arguments import Arguments
from repository import TOP, copied
from tally import Tally

EDITS = TOP / "edits"


def tried(top, name):
    """The status of the edits of a crate, which stand in the place of the gate's own."""
    place = top / "crates" / name / "must-fail"
    shutil.rmtree(place, ignore_errors=True)
    shutil.copytree(EDITS / name, place)
    return subprocess.call(["rt", "must-fail", name], cwd=top)


def main():
    parser = Arguments(__doc__, program=None)
    parser.add_argument("names", metavar="NAME", nargs="*")
    names = parser.parse_args().names or sorted(folder.name for folder in EDITS.iterdir())
    unknown = [name for name in names if not (EDITS / name).is_dir()]
    if unknown:
        sys.exit(f"edits: no edits of {', '.join(unknown)}")
    with copied() as top, Tally("edits", "crates") as tally:
        for name in names:
            status = tried(top, name)
            tally.look()
            if status != 0:
                tally.tell(f"edits of {name}: status {status}")


if __name__ == "__main__":
    main()
