#!/usr/bin/env python3
"""Installs what ./prove --install has proved, and calls at its end: the program, and the library for C with its header.

    tools/install.py PREFIX

The status is 125, and nothing is installed, where program or library is not proved or older than a source; or where a file cannot be
written.
"""

import argparse
import subprocess
import sys
from pathlib import Path

sys.path.insert(0, str(Path(__file__).resolve().parent / "lib"))
import c_library
from installing import install
from repository import TOP, is_current

PROGRAM = TOP / "crates/framec/out/framec"


def failed(why):
    print(f"install: {why}", file=sys.stderr)
    sys.exit(125)


def main():
    parser = argparse.ArgumentParser(description=__doc__, formatter_class=argparse.RawDescriptionHelpFormatter)
    parser.add_argument("prefix", type=Path)
    prefix = parser.parse_args().prefix.absolute()
    for built in (PROGRAM, c_library.LIBRARY):
        if not is_current(built):
            failed(f"{built.relative_to(TOP)} is not proved, or older than a source: ./prove --install {prefix}")
    try:
        toolchain = subprocess.run(["rt", "version"], check=True, capture_output=True, text=True).stdout.strip()
        install(prefix, PROGRAM, c_library.LIBRARY, f"program and library are proved, by {toolchain}")
    except (OSError, subprocess.CalledProcessError) as why:
        failed(why)
    print(f"install: {prefix} has the program and the library, both proved", file=sys.stderr)


if __name__ == "__main__":
    main()
