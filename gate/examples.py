#!/usr/bin/env python3
"""Runs the program on every file of examples/ and compares what it prints with the tables of docs/EXAMPLES.md.

    gate/examples.py [--program PROGRAM]

A submission has to print its hazard with status 1, of `check` and of `exec`, and its twin the other text with status 0; those of
examples/profile/ are accepted. A submission that is run has to print what the table says, whatever the number of workers and the
seed. A frame's `cull` has to begin
with the line of the table, and so has its `place`; `run` has to print the former line, the culled passes and then what `meaning`
prints; the frame's canonical text has to be its own canonical text, and to run as the frame does; and what the frame is compiled to has to
leave the bytes of the exports on the device. A list of frames has to print the same at each depth. Each file of the folders needs a row, and each
hazard H1 to H9 a file. The stored run of the program, which the gate repeats, is on the example that the README names.
"""

import re
import sys
from pathlib import Path

sys.path.insert(0, str(Path(__file__).resolve().parent.parent / "tools/lib"))
from arguments import Arguments
from repository import FLIGHTS, FRAMES, PROFILE, SUBMISSIONS, TOP
from sides import answer
from tally import Tally
from traces import run_text


def rows(heading):
    """The cells of the table under a heading of docs/EXAMPLES.md, without its first two lines."""
    text = (TOP / "docs/EXAMPLES.md").read_text(encoding="utf-8")
    part = text.split(f"## {heading}\n", 1)[1].split("\n## ", 1)[0]
    lines = [line for line in part.splitlines() if line.startswith("|")]
    return [[cell.strip() for cell in line.strip("|").split("|")] for line in lines[2:]]


def code(cell):
    """The text of a cell that is one piece of code."""
    found = re.fullmatch(r"`([^`]+)`", cell)
    return found.group(1) if found else sys.exit(f"docs/EXAMPLES.md: {cell} is no code")


def nameless(text):
    """The lines of exports or read-backs without their names."""
    return re.sub(rb"^(export|readback) \S+ ", b"", text, flags=re.MULTILINE)


class Runs(Tally):
    def __init__(self, program):
        super().__init__("examples", "runs")
        self.program = program

    def run(self, words, text):
        self.look()
        return answer(self.program, words, text)

    def submission(self, path, line, status):
        self.expect(f"check < {path.name}", self.run("check", path.read_bytes()), (status, f"{line}\n".encode()))
        executed, text = self.run("exec", path.read_bytes())
        self.expect(f"status of exec < {path.name}", executed, status)
        if status:
            self.expect(f"exec < {path.name}", text, f"{line}\n".encode())

    def execution(self, path, lines):
        wanted = (0, "".join(f"{line}\n" for line in lines).encode())
        for options in ("", "--workers 1", "--workers 4", "--tend 1", "--tend 2 --workers 3"):
            self.expect(f"exec {options} < {path.name}", self.run(f"exec {options}", path.read_bytes()), wanted)

    def flight(self, path, words):
        wanted = self.run(f"{words} --depth 1", path.read_bytes())
        self.expect(f"status of {words} < {path.name}", wanted[0], 0)
        for options in (*(f"--depth {depth}" for depth in range(2, 9)), "--workers 4 --tend 1"):
            self.expect(f"{words} {options} < {path.name}", self.run(f"{words} {options}", path.read_bytes()), wanted)

    def frame(self, path, first, heap):
        text = path.read_bytes()
        status, placed = self.run("place", text)
        self.expect(f"place < {path.name}", (status, placed.decode().splitlines()[:1]), (0, [heap]))
        status, culled = self.run("cull", text)
        self.expect(f"cull < {path.name}", (status, culled.decode().splitlines()[:1]), (0, [first]))
        _, exports = self.run("meaning", text)
        ran = self.run("run", text)
        self.expect(f"run < {path.name}", ran, (0, run_text(culled, exports)))
        _, canonical = self.run("migrate", text)
        self.expect(f"migrate < {path.name}, twice", self.run("migrate", canonical), (0, canonical))
        self.expect(f"run of the canonical text of {path.name}", self.run("run", canonical), ran)
        _, compiled = self.run("compile", text)
        status, executed = self.run("exec", compiled)
        self.expect(f"exec of what {path.name} is compiled to", (status, nameless(executed)), (0, nameless(exports)))


def look_at(runs):
    """Every row of the tables, and whether each file has one."""
    submissions = {code(row[0]): row for row in rows("Submissions that are wrong")}
    for name, row in submissions.items():
        runs.submission(SUBMISSIONS / name, code(row[2]), 1)
        runs.submission(SUBMISSIONS / name.replace(".json", "_mended.json"), code(row[4]), 0)
    twins = {name.replace(".json", "_mended.json") for name in submissions}
    runs.expect("files of examples/submissions", {path.name for path in SUBMISSIONS.iterdir()}, twins | set(submissions))
    shown = {code(row[2]).split()[1] for row in submissions.values()}
    runs.expect("hazards that are shown", shown, {f"H{number}" for number in range(1, 10)})
    profile = {code(row[0]): code(row[2]) for row in rows("Submissions that are accepted where Vulkan asks more")}
    for name, line in profile.items():
        runs.submission(PROFILE / name, line, 0)
    runs.expect("files of examples/profile", {path.name for path in PROFILE.iterdir()}, set(profile))
    for row in rows("Submissions that are run"):
        runs.execution(SUBMISSIONS / code(row[0]), code(row[2]).split(" / "))
    frames = {code(row[0]): (code(row[2]), code(row[3])) for row in rows("Frames")}
    for name, (first, heap) in frames.items():
        runs.frame(FRAMES / name, first, heap)
    runs.expect("files of examples/frames", {path.name for path in FRAMES.iterdir()}, set(frames))
    flights = {code(row[0]): row for row in rows("Frames in flight")}
    for name, row in flights.items():
        runs.flight(FLIGHTS / name, code(row[2]))
    runs.expect("files of examples/flights", {path.name for path in FLIGHTS.iterdir()}, set(flights))
    stored = (TOP / "crates/framec/stdin").read_bytes()
    runs.expect("stored run of the program", stored, (FRAMES / "one_fill.json").read_bytes())


def main():
    with Runs(Arguments(__doc__).parse_args().program) as runs:
        look_at(runs)


if __name__ == "__main__":
    main()
