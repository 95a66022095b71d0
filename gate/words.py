#!/usr/bin/env python3
"""Gives the program its command lines: files in the place of standard input, words that are none, and a terminal as standard error.

    gate/words.py [--program PROGRAM]

Each command has to print the same of a file, of `-` and of standard input. Several files of `check` are told one after another, as
lines and as one JSON object, with the greatest status. Words that are no command line have their answer, and one line on standard
error. A file that is not there, a folder and a file that may not be read are read faults, of which standard error has a line. On a
terminal a command that runs for more than a second shows how far it is, and wipes it; on a pipe, and of a shorter one, nothing is
shown. The status is 1 where one does not hold.
"""

import json
import os
import pty
import re
import select
import subprocess
import sys
import tempfile
import threading
import time
from pathlib import Path

sys.path.insert(0, str(Path(__file__).resolve().parent.parent / "tools/lib"))
from arguments import Arguments
from makers import packed
from repository import FLIGHTS, FRAMES, SUBMISSIONS
from sides import LIMIT, answer, ran
from tally import Tally

FRAME, FLIGHT = FRAMES / "one_fill.json", FLIGHTS / "fading_trail.json"
UNSOUND, SOUND = SUBMISSIONS / "missing_barrier.json", SUBMISSIONS / "missing_barrier_mended.json"

# Command lines that read, with a file for each.
READ = [(line, FRAME) for line in ("cull", "place", "bound", "compile", "compile --tight", "auto", "auto --cost", "run --workers 1", "meaning", "migrate")]
READ += [("flight --persist history", FLIGHT), ("check", SOUND), ("check", UNSOUND), ("exec --workers 1", SOUND)]
READ += [(f"{line} --json", file) for line, file in (("cull", FRAME), ("place", FRAME), ("bound", FRAME), ("auto --cost", FRAME), ("check", SOUND), ("check", UNSOUND))]

NO_LINES = ("", "no", "a b", "cull a b", "run - -", "audit a b", "gen", "gen --number 1 a", "gen --number 1 --summary -", "check -a", "check --workers 2 a")
NO_LINES += ("--json", "run --json", "auto --json", "compile --json a", "check --json --json a", "cull --json=true", "--help", "check --help a", "--version")

SHOWN = re.compile(rb"\r\x1b\[Kframec: \d+ s(, file \d+ of \d+)?(, \d+ commands done)?")
WIPED = b"\r\x1b[K"


def terminal(program, words, text=b""):
    """Status, text, and what a terminal as standard error was sent."""
    ours, theirs = pty.openpty()
    sent = []

    def listen():
        try:
            while part := os.read(ours, 4096):
                sent.append(part)
        except OSError:
            pass

    listener = threading.Thread(target=listen)
    listener.start()
    done = subprocess.run([program, *words.split()], input=text, stdout=subprocess.PIPE, stderr=theirs, timeout=LIMIT)
    os.close(theirs)
    listener.join()
    os.close(ours)
    return done.returncode, done.stdout, b"".join(sent)


class Words(Tally):
    def __init__(self, program, folder):
        super().__init__("words", "command lines")
        self.program, self.folder = program, folder

    def is_so(self, words, text, status, printed, told=b""):
        """What a line comes to, and what is said on standard error, which is all of this pattern."""
        self.look()
        found = ran(self.program, words, text)
        if found[:2] != (status, printed) or not re.fullmatch(told, found[2]):
            self.tell(f"{words}: {found!r}, wanted {(status, printed, told)!r}"[:900])

    def made(self, name, text):
        path = self.folder / name
        path.write_bytes(text)
        return path

    def files(self):
        """A file, `-` and no file are one."""
        for line, file in READ:
            text = file.read_bytes()
            status, printed = answer(self.program, line, text)
            for words, given in ((f"{line} {file}", b""), (f"{line} -", text), (f"{line} -- {file}", b"")):
                self.is_so(words.split(), given, status, printed)
        recorded = self.folder / "recorded"
        program = answer(self.program, "compile", FRAME.read_bytes())[1]
        trace = answer(self.program, "exec --trace --workers 1", program)[1]
        recorded.write_bytes(program + trace[trace.index(b"events ") :])
        status, printed = answer(self.program, "audit", recorded.read_bytes())
        self.is_so(["audit", str(recorded)], b"", status, printed)
        self.expect("audit", status, 0)

    def several(self):
        """Several files of `check`, with one that is not there, and names that JSON escapes."""
        odd = self.made('a "b" \\ \n \u00e9', UNSOUND.read_bytes())
        faulty, gone = self.made("faulty", b"{}"), self.folder / "gone"
        files = [SOUND, odd, faulty, gone]
        alone = [answer(self.program, ["check", str(file)]) for file in files]
        self.expect("statuses", [status for status, _ in alone], [0, 1, 2, 4])
        for some in (files[:2], files[:3], files, [gone, gone], files * 3):
            found = [alone[files.index(file)] for file in some]
            unread = b"".join(re.escape(f"framec: {file} cannot be read\n".encode()) for file in some if file == gone)
            lines = b"".join(f"{file}: ".encode() + text for file, (_, text) in zip(some, found) if text)
            self.is_so(["check", *map(str, some)], b"", max(status for status, _ in found), lines, unread)
            self.as_object(some, [status for status, _ in found], unread)
        text = UNSOUND.read_bytes()
        self.is_so(["check", "-", str(SOUND)], text, 1, f"-: {alone[1][1].decode()}{SOUND}: {alone[0][1].decode()}".encode())

    def as_object(self, files, statuses, unread):
        entries = []
        for file, status in zip(files, statuses):
            told = answer(self.program, ["check", "--json", str(file)])[1]
            entries.append({"file": str(file), "status": status, **({"answer": json.loads(told)} if told else {})})
        wanted = json.dumps({"files": entries}, separators=(",", ":"), ensure_ascii=False) + "\n"
        self.is_so(["check", "--json", *map(str, files)], b"", max(statuses), wanted.replace("\\n", "\\u000a").encode(), unread)

    def no_lines(self):
        for line in NO_LINES:
            self.is_so(line.split(), b"", 3, b"words\n", rb"framec: [^\n]*--help[^\n]*\n")
        self.is_so([b"cull", b"\xff"], b"", 3, b"words\n", rb"framec: [^\n]*--help[^\n]*\n")

    def unread(self):
        """A file that is not there, a folder, one that may not be read, and an empty name."""
        shut = self.made("shut", FRAME.read_bytes())
        shut.chmod(0)
        names = [self.folder / "gone", self.folder, self.folder / "recorded/below", ""] + ([] if os.access(shut, os.R_OK) else [shut])
        for line, _ in READ:
            for name in map(str, names):
                self.is_so([*line.split(), name], b"", 4, b"", re.escape(f"framec: {name} cannot be read\n".encode()))

    def sizes(self):
        """No byte, and more than may be read."""
        empty, large = self.made("empty", b""), self.made("large", b" " * (33 << 20))
        for line, file in READ:
            for path in (empty, large):
                self.is_so([*line.split(), str(path)], b"", *answer(self.program, line, path.read_bytes()))

    def shown(self, words, on_terminal, text=b"", shows=True):
        """Whether the terminal was shown how far a command is, and it is wiped; the text is as on a pipe."""
        self.look()
        status, printed, told = ran(self.program, words, text)
        lines = SHOWN.sub(b"", on_terminal[2])
        if told or on_terminal[:2] != (status, printed):
            self.tell(f"{words}: {(status, printed[:80], told)!r} on a pipe, {on_terminal!r} on a terminal"[:900])
        elif shows != bool(SHOWN.search(on_terminal[2])) or lines != (WIPED if shows else b""):
            self.tell(f"{words}: a terminal is sent {on_terminal[2]!r}"[:900])

    def progress(self):
        for line in ("run --workers 1", "flight --workers 1"):
            self.shows_at_last(line)
        for words, text in (("cull", FRAME.read_bytes()), (f"check {SOUND} {SOUND}", b"")):
            self.shown(words, terminal(self.program, words, text), text, shows=False)
        self.waits()

    def shows_at_last(self, line):
        """Frames that take a device longer and longer, until something is shown: how fast the machine is, is not looked at."""
        for blurs in (4, 16, 64, 250):
            words = f"{line} {self.made('long', packed(blurred(blurs)) + bytes([10]))}"
            on_terminal = terminal(self.program, words)
            if on_terminal[2]:
                break
        self.shown(words, on_terminal)

    def waits(self):
        """Nothing is shown while standard input is waited for."""
        self.look()
        ours, theirs = pty.openpty()
        asked = subprocess.Popen([self.program, "cull"], stdin=subprocess.PIPE, stdout=subprocess.DEVNULL, stderr=theirs)
        os.close(theirs)
        time.sleep(1.5)
        shown = select.select([ours], [], [], 0)[0]
        asked.communicate(FRAME.read_bytes())
        os.close(ours)
        if shown:
            self.tell("a terminal is shown something while standard input is waited for")


def blurred(count):
    """A frame in which a large image is blurred so often."""
    images = [{"name": name, "image": [4096, 4096], "texel": "r8"} for name in "ab"]
    first = {"name": "ramp", "queue": "g", "writes": [{"new": "a"}], "ops": [{"op": "ramp", "dst": "a", "base": 1, "dx": 1, "dy": 1}]}
    second = {"name": "blur", "queue": "g", "reads": ["a"], "writes": [{"new": "b"}], "ops": [{"op": "box3", "src": "a", "dst": "b"}] * count, "side_effect": True}
    return {"format": 2, "queues": [{"name": "g", "family": "graphics"}], "resources": images, "passes": [first, second], "exports": []}


def main():
    options = Arguments(__doc__).parse_args()
    with tempfile.TemporaryDirectory() as folder, Words(options.program, Path(folder)) as words:
        words.files()
        words.several()
        words.no_lines()
        words.unread()
        words.sizes()
        words.progress()


if __name__ == "__main__":
    main()
