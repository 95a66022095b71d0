#!/usr/bin/env python3
"""Makes an install folder, and builds the examples on it from outside the checkout, by CMake and by pkg-config.

    gate/installed.py [--program PROGRAM] [--library LIBRARY] [--prefix PREFIX] [--threads 8] [--calls 20]

Without --prefix, which names a folder that ./prove --install has filled, one is filled with the program and the library at hand, and then moved.
Its --version has to tell where these are not proved. No file of it may name the checkout or a place where it was. bin/framec has to give the program's answers, help and page.
All versions have to be the header's; CMake has to refuse others, and a folder without its archive.

Copies of examples/c and examples/cpp are built with CMAKE_PREFIX_PATH, and by the words of pkg-config. Status and text have to be the program's;
of the calls of so many threads at once each has to give the same answer, under valgrind without an invalid access or lost memory, and built with
-fsanitize=thread without a race. What lacks a tool is left out, and told.
"""

import contextlib
import os
import re
import shlex
import shutil
import subprocess
import sys
import tempfile
from pathlib import Path

sys.path.insert(0, str(Path(__file__).resolve().parent.parent / "tools/lib"))
import c_library
from arguments import Arguments
from installing import COPIES, VERSIONED, install, version
from repository import FRAMES, SUBMISSIONS, TOP
from sides import ran
from tally import Tally, left_out

UNSOUND, SOUND, FRAME = SUBMISSIONS / "wrong_owner.json", SUBMISSIONS / "wrong_owner_mended.json", FRAMES / "deferred.json"
GRIND = ["valgrind", "-q", "--error-exitcode=97", "--leak-check=full", "--show-leak-kinds=all", "--errors-for-leak-kinds=all"]
PROVED = "program and library are proved"
# The sources of each example, the compiler's words for them, and what else pkg-config and the examples need.
EXAMPLES = {
    "check_submission": ("c", ["cc", "-std=c99", "check_submission.c", "answer.c"], []),
    "compile_frame": ("c", ["cc", "-std=c99", "compile_frame.c", "answer.c"], ["libcjson"]),
    "ask_at_once": ("cpp", ["c++", "-std=c++17", "-pthread", "ask_at_once.cpp"], []),
}


class Installed(Tally):
    """An install folder, and a folder outside of the checkout in which things are built on it."""

    def __init__(self, program, prefix, outside):
        super().__init__("installed", "facts")
        self.program, self.prefix, self.outside = program, prefix, outside

    def has(self, what, got, wanted):
        self.look()
        self.expect(what, got, wanted)

    def done(self, *words, **how):
        """The status of a command outside of the checkout, and all that it prints."""
        how["env"] = {**os.environ, **how.pop("env", {}), "PKG_CONFIG_PATH": os.pathsep.join(filter(None, [str(self.prefix / "lib/pkgconfig"), os.environ.get("PKG_CONFIG_PATH")]))}
        done = subprocess.run([str(word) for word in words], cwd=self.outside, stdout=subprocess.PIPE, stderr=subprocess.STDOUT, text=True, **how)
        return done.returncode, done.stdout

    def succeeds(self, what, *words, **how):
        status, said = self.done(*words, **how)
        self.has(what, (status, said if status else ""), (0, ""))
        return status == 0


def library_at_hand(given):
    """The library, and whether it is proved."""
    library = given.absolute() if given else c_library.current() or sys.exit("the library for C is not built")
    return library, library == c_library.LIBRARY


@contextlib.contextmanager
def folder(options):
    """The install folder and the places where it was, and a folder outside."""
    with tempfile.TemporaryDirectory() as room:
        outside = Path(room) / "outside"
        outside.mkdir()
        if options.prefix:
            yield options.prefix.absolute(), [], outside
            return
        library, is_proved = library_at_hand(options.library)
        is_proved = is_proved and Path(options.program) == TOP / "crates/framec/out/framec"
        made = Path(room) / "made"
        install(made, options.program, library, PROVED if is_proved else "for trials: program and library are not both proved")
        yield made.rename(Path(room) / "moved"), [made], outside


def look_at_files(installed, places):
    """The names of all files, and what no file may name."""
    found = {str(path.relative_to(installed.prefix)): path.read_bytes() for path in installed.prefix.rglob("*") if path.is_file()}
    installed.has("files", sorted(found), sorted([*COPIES, *VERSIONED, "share/framec/version", "lib/libframec.a", "libexec/framec"]))
    for place in (TOP, *places):
        installed.has(f"files that name {place}", [name for name, text in found.items() if bytes(place) in text], [])


def look_at_program(installed):
    """The installed program beside the one that it was made of."""
    own = installed.prefix / "bin/framec"
    for words in (["check", UNSOUND], ["check", SOUND], ["compile", FRAME], ["no"]):
        installed.has(f"framec {words[0]}", ran(own, words), ran(installed.program, words))
    for words in (["--help"], ["check", "--help"]):
        installed.has(f"framec {' '.join(words)}", ran(own, words), ran(TOP / "tools/help.sh", words))
    installed.has("framec view", ran(own, ["view", UNSOUND]), ran(TOP / "viewer/view.py", [installed.program, UNSOUND]))


def look_at_versions(installed, is_ours):
    """One version, whoever is asked."""
    wanted = version()
    header = (installed.prefix / "include/framec.h").read_text(encoding="utf-8")
    installed.has("version by its numbers", ".".join(re.findall(r"^#define FRAMEC_VERSION_(?:MAJOR|MINOR|PATCH) (\d+)$", header, re.M)), wanted)
    told = ran(installed.prefix / "bin/framec", ["--version"])[1].decode()
    installed.has("version of the program", told.split(",")[0], f"framec {wanted}")
    if not is_ours:
        installed.has("an install folder says that it is proved", PROVED in told, True)


def by_cmake(installed):
    """The folder of each example's program, as CMake builds it."""
    for name in ("c", "cpp"):
        if name == "cpp" and not shutil.which("c++"):
            left_out("c++ (examples/cpp on an install folder)")
            continue
        made = installed.outside / f"cmake-{name}"
        words = ["cmake", "-S", installed.outside / name, "-B", made, f"-DCMAKE_PREFIX_PATH={installed.prefix};{os.environ.get('CMAKE_PREFIX_PATH', '').replace(os.pathsep, ';')}"]
        if installed.succeeds(f"examples/{name} by cmake", *words) and installed.succeeds(f"examples/{name} by cmake --build", "cmake", "--build", made):
            cache = (made / "CMakeCache.txt").read_text(encoding="utf-8")
            installed.has(f"what cmake found for examples/{name}", re.findall(r"^Framec_DIR:PATH=(.*)$", cache, re.M), [str(installed.prefix / "lib/cmake/Framec")])
    return {name: installed.outside / f"cmake-{folder}" / name for name, (folder, _, _) in EXAMPLES.items()}


def versions_by_cmake(installed):
    """Which versions CMake takes, and that it takes none without the archive. What is taken ends without a reason."""
    major, minor, _ = version().split(".")
    cases = [(installed.prefix, words, None) for words in ("", version(), f"{version()} EXACT", f"{major}.{minor}")]
    cases += [(installed.prefix, words, "compatible with requested version") for words in (f"{major}.{int(minor) + 1}", f"{major}.{minor}.999", f"{int(major) + 1}")]
    without = installed.outside / "without"
    for name in ("lib/cmake", "include"):
        shutil.copytree(installed.prefix / name, without / name)
    cases.append((without, "", "libframec.a is not there"))
    for number, (prefix, words, reason) in enumerate(cases):
        source = installed.outside / f"version-{number}"
        source.mkdir()
        (source / "CMakeLists.txt").write_text(f"cmake_minimum_required(VERSION 3.13)\nproject(version C)\nfind_package(Framec {words} CONFIG REQUIRED NO_DEFAULT_PATH PATHS {prefix})\n", encoding="utf-8")
        status, said = installed.done("cmake", "-S", source, "-B", source / "made")
        said = " ".join(said.split())
        installed.has(f"find_package(Framec {words}) in {prefix.name}: {said}", status == 0 if reason is None else status != 0 and reason in said, True)


def compiled(installed, name, to, *more):
    """Whether an example is built by the words of pkg-config."""
    folder, words, needs = EXAMPLES[name]
    status, said = installed.done("pkg-config", "--cflags", "--libs", "framec", *needs)
    installed.has(f"pkg-config of {name}", (status, said if status else ""), (0, ""))
    sources = [word if not word.endswith((".c", ".cpp")) else installed.outside / folder / word for word in words]
    return status == 0 and installed.succeeds(f"{name} by pkg-config", *sources, *more, *shlex.split(said), "-o", to)


def by_pkg_config(installed):
    """Each example's program, as the words of pkg-config build it."""
    installed.has("version by pkg-config", installed.done("pkg-config", "--modversion", "framec"), (0, f"{version()}\n"))
    made = {}
    for name, (_, words, needs) in EXAMPLES.items():
        if needs and installed.done("pkg-config", *needs)[0] != 0:
            left_out(f"{needs[0]} ({name} by pkg-config)")
        elif shutil.which(words[0]):
            made[name] = installed.outside / f"pkg-{name}"
            compiled(installed, name, made[name])
    return made


def run_examples(installed, how, made, options):
    """What the built programs answer."""
    if made.get("check_submission", Path()).is_file():
        for path in (SOUND, UNSOUND):
            status, text, _ = ran(installed.program, ["check", path])
            got = ran(made["check_submission"], [path])
            installed.has(f"check_submission {path.name} by {how}", (got[0], got[1].splitlines()[:1]), (status, text.splitlines()))
    if made.get("compile_frame", Path()).is_file():
        got = ran(made["compile_frame"], [FRAME])
        barriers = len(re.findall(rb'"item":"(?!command)', ran(installed.program, ["compile", FRAME])[1]))
        installed.has(f"compile_frame {FRAME.name} by {how}", (got[0], got[1].count(b"Barrier2){")), (0, barriers))
    if made.get("ask_at_once", Path()).is_file():
        at_once(installed, f"by {how}", [made["ask_at_once"]], options.threads, options.calls * 10)


def at_once(installed, how, words, threads, calls):
    wanted = b"".join(ran(installed.program, [word, path])[1] for word, path in (("check", UNSOUND), ("compile", FRAME)))
    tail = f"{threads} threads, {calls} calls of each: 0 other answers\n".encode()
    installed.has(f"ask_at_once {how}", ran(str(words[0]), [*words[1:], UNSOUND, FRAME, str(threads), str(calls)]), (0, wanted + tail, b""))


def look_at_threads(installed, made, options):
    """Calls from several threads at once, whose memory and races are watched."""
    if not made.get("ask_at_once", Path()).is_file():
        return
    if shutil.which("valgrind"):
        at_once(installed, "under valgrind", [*GRIND, made["ask_at_once"]], options.threads, options.calls)
    else:
        left_out("valgrind (calls from several threads)")
    probe, watched = installed.outside / "probe.cpp", installed.outside / "watched"
    probe.write_text("#include <thread>\nint main() { std::thread([] {}).join(); }\n", encoding="utf-8")
    words = ["-fsanitize=thread", "-g"]
    if installed.done("c++", "-std=c++17", "-pthread", *words, probe, "-o", watched)[0] or installed.done(watched)[0]:
        left_out("a C++ compiler with -fsanitize=thread (calls from several threads)")
    elif compiled(installed, "ask_at_once", watched, *words):
        at_once(installed, "with -fsanitize=thread", [watched], options.threads, options.calls)


def main():
    parser = Arguments(__doc__, threads=8, calls=20)
    parser.add_argument("--library", type=Path)
    parser.add_argument("--prefix", type=Path)
    options = parser.parse_args()
    if not shutil.which("cc"):
        return left_out("cc (the examples on an install folder)")
    with folder(options) as (prefix, places, outside), Installed(options.program, prefix, outside) as installed:
        for name in ("c", "cpp"):
            shutil.copytree(TOP / "examples" / name, outside / name)
        look_at_files(installed, places)
        look_at_program(installed)
        look_at_versions(installed, bool(places))
        if shutil.which("cmake"):
            run_examples(installed, "cmake", by_cmake(installed), options)
            versions_by_cmake(installed)
        else:
            left_out("cmake (the examples on an install folder)")
        if shutil.which("pkg-config"):
            made = by_pkg_config(installed)
            run_examples(installed, "pkg-config", made, options)
            look_at_threads(installed, made, options)
        else:
            left_out("pkg-config (the examples on an install folder)")


if __name__ == "__main__":
    main()
