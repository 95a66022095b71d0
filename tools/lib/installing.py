"""An install folder: the program, and the library for C with its header as CMake and pkg-config find them."""

import os
import re
import shutil
import subprocess
from pathlib import Path

import c_library
from repository import TOP

PARTS = TOP / "tools/installed"
HEADER = TOP / "include/framec.h"
# Each file of the folder that is a copy.
COPIES = {
    "bin/framec": PARTS / "framec",
    "include/framec.h": HEADER,
    "lib/cmake/Framec/FramecConfig.cmake": PARTS / "FramecConfig.cmake",
    "share/framec/help.sh": TOP / "tools/help.sh",
    "share/framec/help.txt": TOP / "tools/help.txt",
    "share/framec/FORMATS.md": TOP / "docs/FORMATS.md",
    "share/framec/LICENSE": TOP / "LICENSE",
}
COPIES |= {f"share/framec/viewer/{path.name}": path for path in TOP.glob("viewer/*") if path.suffix in (".js", ".css", ".html") or path.name == "view.py"}
# And each whose text gets the version.
VERSIONED = {"lib/cmake/Framec/FramecConfigVersion.cmake": PARTS / "FramecConfigVersion.cmake", "lib/pkgconfig/framec.pc": PARTS / "framec.pc"}


def version():
    """The version that the header tells."""
    return re.search(r'^#define FRAMEC_VERSION "(.+)"$', HEADER.read_text(encoding="utf-8"), re.M)[1]


def put(path, fill, mode=0o644):
    """Puts a file that is filled beside it in its place, in which a program may run it or read it meanwhile."""
    path.parent.mkdir(parents=True, exist_ok=True)
    new = path.with_name(f"{path.name}.new")
    new.unlink(missing_ok=True)
    fill(new)
    new.chmod(mode)
    os.replace(new, path)


def joined(library, to):
    """One archive of the library and of what it calls of the toolchain."""
    subprocess.run([c_library.heap().parent.parent / "toolchain/bin/llvm-ar", "qcsL", to, library, c_library.heap()], check=True)


def install(prefix, program, library, how):
    """Fills the folder. What --version prints ends with how program and library were built."""
    told = subprocess.run([TOP / "tools/help.sh", "--version"], check=True, capture_output=True, text=True).stdout.splitlines()[:2]
    for name, path in COPIES.items():
        put(prefix / name, lambda new: shutil.copyfile(path, new), path.stat().st_mode & 0o111 | 0o644)
    for name, path in VERSIONED.items():
        put(prefix / name, lambda new: new.write_text(path.read_text(encoding="utf-8").replace("@VERSION@", version()), encoding="utf-8"))
    put(prefix / "share/framec/version", lambda new: new.write_text("\n".join([*told, how, ""]), encoding="utf-8"))
    put(prefix / "lib/libframec.a", lambda new: joined(library, new))
    put(prefix / "libexec/framec", lambda new: shutil.copyfile(program, new), 0o755)
