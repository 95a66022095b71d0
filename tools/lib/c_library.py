"""The compiler as a static library: where it is, and what is built on it."""

import shutil
import subprocess
import sys
from pathlib import Path

from repository import TOP, is_current

CRATE = TOP / "crates/framec_c"
LIBRARY = CRATE / "out/libframec_c.a"
UNPROVED = TOP / "out/unproved/libframec_c.a"
WARNINGS = ["-std=c99", "-pedantic", "-Wall", "-Wextra", "-Werror"]


def heap():
    """The toolchain's archive over malloc, realloc and free."""
    tool = shutil.which("rt")
    return Path(tool).resolve().parent.parent / "c/liblibc_c.a" if tool else None


def missing(library):
    """What is not there that a program in C needs, or None."""
    if not shutil.which("cc"):
        return "a C compiler, cc, is not there"
    if not heap() or not heap().exists():
        return "the toolchain's archive liblibc_c.a is not there"
    if not library.exists():
        return f"{library} is not built: `rt lib` in crates/framec_c"
    if library == LIBRARY and not is_current(library):
        return f"{library} is older than its sources: `rt lib` in crates/framec_c"
    return None


def current():
    """The library: the one that is proved, or else one without proofs, which is built where neither is current. None where it is not."""
    if is_current(LIBRARY):
        return LIBRARY
    return UNPROVED if subprocess.run([TOP / "tools/unproved.py", "library"]).returncode == 0 else None


def calls(folder, library):
    """The program of gate/calls.c on this library."""
    program = Path(folder) / "calls"
    words = ["cc", "-O2", *WARNINGS, f"-I{TOP / 'include'}", TOP / "gate/calls.c", library, heap(), "-pthread", *(f"-Wl,--wrap={name}" for name in ("malloc", "realloc", "free")), "-o", program]
    if subprocess.run(words).returncode != 0:
        sys.exit("gate/calls.c is not built")
    return program
