"""The repository: where it is, its crates, what is current in it, and copies of it that last for a while."""

import contextlib
import shutil
import subprocess
import tempfile
from pathlib import Path

TOP = Path(__file__).resolve().parent.parent.parent
FRAMES, SUBMISSIONS, PROFILE, FLIGHTS = (TOP / "examples" / name for name in ("frames", "submissions", "profile", "flights"))


def crates(top=TOP):
    """What each crate of crates.txt stands on, in the repository and in the toolchain."""
    lines = (line.split("#")[0].split(":", 1) for line in (top / "crates.txt").read_text(encoding="utf-8").splitlines())
    return {line[0].split()[0]: line[1].split() for line in lines if len(line) == 2}


def own_crates():
    """The crates of the repository that each of them stands on."""
    below = crates()
    return {name: [other for other in others if other in below] for name, others in below.items()}


def product():
    """The crates that the program and the library for C are made of, in the order of crates.txt."""
    below = own_crates()
    found, left = set(), {"framec", "framec_c"}
    while left:
        found |= left
        left = {other for name in left for other in below[name]} - found
    return [name for name in below if name in found]


def is_current(built):
    """Whether it is there, and no source is newer."""
    if not built.exists():
        return False
    sources = [TOP / "crates.txt", *TOP.glob("crates/*/src/**/*"), *TOP.glob("crates/*/specs/**/*")]
    return all(path.stat().st_mtime <= built.stat().st_mtime for path in sources if path.is_file())


def program():
    """The path that tools/program.sh prints: of the program that is proved, or of one that is built without proofs, which it
    builds where neither is current. None where it cannot."""
    done = subprocess.run([TOP / "tools/program.sh"], stdin=subprocess.DEVNULL, stdout=subprocess.PIPE, text=True)
    return done.stdout.strip() if done.returncode == 0 else None


@contextlib.contextmanager
def cloned():
    """A clone of what is committed."""
    with tempfile.TemporaryDirectory() as room:
        clone = Path(room) / "repository"
        subprocess.run(["git", "clone", "-q", TOP, clone], check=True)
        yield clone


@contextlib.contextmanager
def copied(ignore=shutil.ignore_patterns(".git")):
    """A copy of the checkout as it stands, with what was built in it."""
    with tempfile.TemporaryDirectory() as room:
        copy = Path(room) / "repository"
        shutil.copytree(TOP, copy, symlinks=True, ignore=ignore)
        yield copy
