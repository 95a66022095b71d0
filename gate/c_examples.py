#!/usr/bin/env python3
"""Builds the examples in C and holds them, and each function of the library, against the program.

    gate/c_examples.py [--program PROGRAM] [--library LIBRARY] [--files 500] [--seed 1] [--calls 1000]

include/framec.h has to declare just the functions that crates/framec_c exports, as C and, where there is a compiler, as C++. examples/c is
built by its CMakeLists.txt, and examples/cpp by its own: check_submission has to print the text of `check` for each submission of examples/, with a line behind it at
a hazard; compile_frame has to print as many barriers as `compile` has for each frame (it is left out where cJSON is not there). Then so
many random files, most of them wrong somewhere, go to each function: status and text have to be the program's, whatever the room, and each call
has to free all that it takes. Eight threads that make so many calls at one time have to get the text of the first call each time; where there is
valgrind, its memcheck must find no invalid access and no lost memory in so many calls of eight threads together, and its helgrind no race. A tool
that is not there is told; the status is 1 at a difference, or where the library is not built.
"""

import json
import random
import re
import shutil
import subprocess
import sys
import tempfile
from pathlib import Path

sys.path.insert(0, str(Path(__file__).resolve().parent.parent / "tools/lib"))
import c_library
import changes
from arguments import Arguments
from makers import Frame, packed
from repository import FRAMES, PROFILE, SUBMISSIONS, TOP
from sides import answer
from tally import Tally, left_out

WORDS = ("check", "compile", "cull", "place", "bound", "auto", "meaning", "migrate")


class Runs(Tally):
    def __init__(self, program):
        super().__init__("examples in C", "runs")
        self.program = program

    def ran(self, program, *words, text=b""):
        self.look()
        return answer(str(program), [str(word) for word in words], text)

    def asked(self, word, text):
        return self.ran(self.program, word, text=text)


def declared(runs, folder):
    """The header against the exports."""
    header = TOP / "include/framec.h"
    exported = re.findall(r'extern "C" fn (\w+)', (c_library.CRATE / "src/exports.rt").read_text(encoding="utf-8"))
    runs.expect("functions of framec.h", sorted(re.findall(r"^int32_t (\w+)\(", header.read_text(encoding="utf-8"), re.M)), sorted(exported))
    runs.expect("functions that are called here", sorted(f"framec_{word}" for word in WORDS), sorted(exported))
    if not shutil.which("c++"):
        left_out("c++ (the header in C++)")
    else:
        source = Path(folder) / "header.cc"
        source.write_text("#include <framec.h>\n", encoding="utf-8")
        runs.expect("framec.h in C++", runs.ran("c++", "-Wall", "-Wextra", "-Werror", "-fsyntax-only", f"-I{TOP / 'include'}", source)[0], 0)


def built(name, folder, library):
    """The folder in which cmake builds a folder of examples/, and what it prints."""
    # Those of the repository are the ones that the README speaks of.
    made = TOP / "out" / name if library in (c_library.LIBRARY, c_library.UNPROVED) else Path(folder) / name
    said = ""
    for words in (["cmake", "-S", TOP / "examples" / name, "-B", made, f"-DFramec_LIBRARY={library}"], ["cmake", "--build", made]):
        done = subprocess.run([str(word) for word in words], capture_output=True, text=True)
        said += done.stdout + done.stderr
        if done.returncode != 0:
            sys.exit(f"examples/{name} is not built\n{said}")
    return made, said


def examples(runs, folder, library):
    """The programs of examples/c and examples/cpp, by cmake."""
    if not shutil.which("cmake"):
        left_out("cmake (the examples in C)")
        return
    if shutil.which("c++"):
        at_once = built("cpp", folder, library)[0] / "ask_at_once"
        runs.expect("ask_at_once", runs.ran(at_once, SUBMISSIONS / "wrong_owner.json", FRAMES / "one_fill.json")[0], 0)
    made, said = built("c", folder, library)
    if "left out" in said:
        left_out("libcjson-dev (compile_frame of the examples in C)")
    for path in sorted([*SUBMISSIONS.glob("*.json"), *PROFILE.glob("*.json")]):
        status, text = runs.asked("check", path.read_bytes())
        got = runs.ran(made / "check_submission", path)
        lines = got[1].splitlines(keepends=True)
        runs.expect(f"check_submission {path.name}", (got[0], lines[0], len(lines)), (status, text, 1 + status))
    for path in sorted(FRAMES.glob("*.json")):
        if (made / "compile_frame").exists():
            status, text = runs.ran(made / "compile_frame", path)
            program = json.loads(runs.asked("compile", path.read_bytes())[1])
            items = [item for queue in program["queues"] for batch in queue["batches"] for item in batch["items"] if item["item"] != "command"]
            runs.expect(f"compile_frame {path.name}", (status, text.count(b"Barrier2){")), (0, len(items)))


def random_text(runs, rng):
    """A frame or a submission, changed in one place or two, or as it is."""
    value = Frame(rng, 10).value()
    if rng.random() < 0.5:
        status, text = runs.asked("compile", packed(value))
        value = json.loads(text) if status == 0 else value
    for _ in range(rng.choice((0, 1, 1, 2))):
        value = changes.changed(rng, value)
    text = changes.written(rng, value)
    return changes.cut(rng, text) if rng.random() < 0.05 else text


def answers(runs, folder, calls, files, seed):
    """Each function on random files."""
    rng = random.Random(seed)
    path = Path(folder) / "file.json"
    for number in range(files):
        text = random_text(runs, rng)
        path.write_bytes(text)
        for word in WORDS:
            runs.expect(f"framec_{word} on file {number} of seed {seed}", runs.ran(calls, word, path), runs.asked(word, text))


def many_calls(runs, calls, count):
    """Many calls of eight threads, and of eight under valgrind together."""
    memory = ["--leak-check=full", "--show-leak-kinds=all", "--errors-for-leak-kinds=all"]
    grinds = {"memcheck": (memory, count // 8 + 1), "helgrind": ([], 2)} if shutil.which("valgrind") else {}
    if not grinds:
        left_out("valgrind (calls from C)")
    frame, program = FRAMES / "ramp_and_map.json", SUBMISSIONS / "wrong_owner.json"
    for word, path in [("check", program), *((word, frame) for word in WORDS)]:
        runs.expect(f"{count} calls of framec_{word} on each of eight threads", runs.ran(calls, word, path, count, 8)[0], 0)
        for tool, (words, few) in grinds.items():
            grind = ["valgrind", "-q", f"--tool={tool}", "--error-exitcode=97", *words]
            runs.expect(f"calls of framec_{word} on eight threads under {tool}", runs.ran(*grind, calls, word, path, few, 8)[0], 0)


def main():
    parser = Arguments(__doc__, files=500, seed=1, calls=1000)
    parser.add_argument("--library", type=Path)
    options = parser.parse_args()
    if not shutil.which("cc"):
        return left_out("cc (the examples in C)")
    library = options.library.absolute() if options.library else c_library.current() or sys.exit("the library for C is not built")
    lacking = c_library.missing(library)
    if lacking:
        sys.exit(f"{lacking}: the examples in C are not built")
    with Runs(options.program) as runs, tempfile.TemporaryDirectory() as folder:
        declared(runs, folder)
        examples(runs, folder, library)
        calls = c_library.calls(folder, library)
        answers(runs, folder, calls, options.files, options.seed)
        many_calls(runs, calls, options.calls)


if __name__ == "__main__":
    main()
