#!/usr/bin/env python3
"""Gives two programs the same files, most of them wrong somewhere, and stops at the first answer that differs.

    fuzz/fuzz.py --other OTHER [--program PROGRAM] [--minutes 10] [--cases N] [--first 0] [--seed 1] [--passes 10] [--jobs 4]

Made at random: frames, of both formats and all operations, some with many images of one number; submissions, by compiling frames, some of
them tight, some with a wait, item or signal fewer; traces that the program printed, behind their submissions; lists of frames, some of whose
windows break a limit; numbers of generated frames; and command lines. A file is good, or changed in one place
(a number, a text, a list, an object; or a byte), or cut, or its front spliced to the end of another one, or a part of another one grafted
into it. Each is given to the commands that read such a file, with random options, and now and then to another one. A command line is one
that is known with a word changed, dropped, doubled or moved. Status and text have to be the same. A command that one of the programs does
not know is left out, and told. `--seed` and the number of a case make the case again (`--cases 1 --first NUMBER`), but for the order of the
events in a trace. Told at the end: how many cases there were of each kind of file and change, and how many answers of each kind
each command gave. The status is 1 at the first difference, whose input is kept.
"""

import collections
import itertools
import json
import random
import sys
import time
from pathlib import Path

sys.path.insert(0, str(Path(__file__).resolve().parent.parent / "tools/lib"))
import changes
from arguments import Arguments
from cleared import Cleared
from kernels import further
from makers import Frame, packed, some_flight, thinner
from sides import Sides
from tally import Tally, left_out
from traces import parted

# 256 bytes, and more than 4,096, from which on a command costs more than 1.
SIDES = ((8,), (8,), (8, 16, 64), (8, 40, 64, 96))
FRAME_WORDS = ("cull", "place", "compile", "meaning", "migrate", "run", "bound", "auto")
SUBMISSION_WORDS = ("check", "check", "exec")
# Without `--trace`, since the order of events is the machine's.
OPTIONS = {"run": ("workers", "tend", "tight"), "exec": ("workers", "tend"), "compile": ("tight",), "auto": ("cost",), "flight": ("workers", "tend")}
WAYS = ("good", *["changed"] * 5, *["changed twice"] * 2, "grafted", "grafted", "byte", "cut", "spliced")
KINDS = ("frame", "frame", "frame", "submission", "submission", "audit", "flight", "gen", "line")
LINES = ("run --workers 3 --tend 7", "run --tight --trace", "exec --workers 16 --tend 4294967295", "compile --tight", "auto --cost", "cull", "audit", "check")
LINES += ("flight --persist u0,u1 --depth 8 --workers 2 --tend 1", "gen --number 7 --passes 2", "gen --number 7 --passes 2 --summary --workers 4 --tend 0")
NUMBERS = ["0", "1", "2", "8", "9", "16", "17", "256", "257", "4294967295", "4294967296", "01", "0000000001", "00000000001", "-1", "+1", "1.0", "", " 1", "x"]
VALUED = tuple(f"--{name}" for name in ("workers", "tend", "number", "passes", "depth", "persist"))
ODD = ["--", "-", "--trace", "--tight", "--cost", "--summary", "--help", "--version", "-w", "run", "exec", "gen", "", "é", "--workers=2", "--tend=3", "u0", "a,b", "a,a"]


def other_line(rng):
    """The words of a known command line, of which one or two are changed, dropped, doubled, moved or put in."""
    words = rng.choice(LINES).split(" ")
    for _ in range(rng.choice((1, 1, 2))):
        if not words:
            break
        at, to = rng.randrange(len(words)), rng.randrange(len(words))
        way = rng.randrange(7)
        if way == 0:
            words.pop(at)
        elif way == 1:
            words.insert(to, words[at])
        elif way == 2:
            words.insert(to, words.pop(at))
        elif way == 3:
            words.insert(at, rng.choice([*ODD, *NUMBERS]))
        elif way == 4 and words[at].isdigit():
            words[at] = rng.choice(NUMBERS)
        elif way == 5 and at + 1 < len(words) and words[at].startswith("--"):
            words[at : at + 2] = [words[at] + "=" + words[at + 1]]
        else:
            words[at] = rng.choice([words[at][:-1], words[at].upper(), words[at] + rng.choice("s =-0"), words[at][1:], rng.choice(ODD)])
    return words


def is_newer(words):
    """Whether a line has a file, or an option that another program need not know."""
    plain, words = [], iter(words)
    for word in words:
        if word == "--":
            plain += words
        elif word in VALUED:
            next(words, None)
        elif word == "-" or not word.startswith("-"):
            plain.append(word)
        elif word.startswith("--json"):
            return True
    return len(plain) > 1


def options_of(rng, word, known):
    """Random options of a command, of those that both programs know."""
    values = {"workers": [rng.choice("1234")], "tend": [str(rng.randrange(2**32))], "tight": [], "cost": []}
    chosen = [name for name in OPTIONS.get(word, ()) if (word, name) in known and rng.random() < 0.4]
    return [part for name in chosen for part in (f"--{name}", *values[name])]


class Fuzz:
    def __init__(self, sides, options):
        self.sides, self.options = sides, options
        self.files = collections.Counter()
        words = {*FRAME_WORDS, *SUBMISSION_WORDS, "audit", "flight"}
        self.words = {word for word in words if sides.knows(word)}
        self.words |= {"gen"} if sides.knows("gen", "--number", "1", "--passes", "1") else set()
        self.left_out = sorted(words - self.words)
        self.known = {(word, name) for word, names in OPTIONS.items() for name in names if word in self.words and self.knows(word, name)}
        self.left_out += sorted(f"{word} --{name}" for word, names in OPTIONS.items() for name in names if (word, name) not in self.known)

    def knows(self, word, name):
        return self.sides.knows(word, f"--{name}", *(["1"] if name in ("workers", "tend") else []))

    def frame(self, rng):
        if rng.random() < 0.1:
            return Cleared(rng).value()
        frame = Frame(rng, self.options.passes, sides=rng.choice(SIDES)).value()
        if rng.random() < 0.5:
            frame = further(rng, frame, rng.randint(1, 3))
        if rng.random() < 0.2 and not any("layers" in one or "sharing" in one for one in frame["resources"]):
            frame["format"] = 1
        return frame

    def submission(self, rng):
        """What a frame is compiled to, or a little less than that; the frame itself where it has a fault."""
        frame = self.frame(rng)
        tight = ["--tight"] if ("compile", "tight") in self.known and rng.random() < 0.2 else []
        status, text = self.sides.ask(["compile", *tight], packed(frame))
        if status != 0:
            return frame
        program = json.loads(text)
        fewer = thinner(self.options.program, program, rng) if rng.random() < 0.1 else None
        return fewer or program

    def good(self, rng, kind):
        """The words, the values that stand one on each line, and the lines of a trace behind them."""
        if kind == "frame":
            return None, [self.frame(rng)], []
        if kind == "flight":
            words, frames = some_flight(rng, self.options.passes * rng.choice([1] * 9 + [4]))
            return [*words, "--depth", str(rng.randint(1, 8)), *options_of(rng, "flight", self.known)], frames, []
        program = self.submission(rng)
        if kind == "submission":
            return None, [program], []
        device = options_of(rng, "exec", self.known)
        status, printed = self.sides.ask(["exec", "--trace", *device], packed(program))
        lines = parted(printed)[1] if status == 0 else None
        return ["audit"], [program], [f"events {len(lines)}", *lines] if lines is not None else ["events 0"]

    def text(self, rng, values, lines):
        joined = b"\n".join(changes.written(rng, value) for value in values)
        return joined + b"\n" + changes.trace_text(rng, lines) if lines or rng.random() < 0.8 else joined

    def made(self, rng, kind):
        """Words, input, and the name of what was done to it."""
        words, values, lines = self.good(rng, kind)
        way = rng.choice(WAYS)
        if way.startswith("changed"):
            for _ in way.split():
                at = rng.randrange(len(values) + (kind == "audit"))
                if at == len(values):
                    lines = changes.other_trace(rng, lines) or lines
                else:
                    values[at] = changes.changed(rng, values[at])
        elif way == "grafted":
            donor = self.good(rng, kind)[1][0]
            at = rng.randrange(len(values))
            values[at] = changes.grafted(rng, values[at], donor)
        text = self.text(rng, values, lines)
        if way == "byte":
            text = changes.bytes_changed(rng, text)
        elif way == "cut":
            text = changes.cut(rng, text)
        elif way == "spliced":
            text = changes.spliced(rng, text, self.text(rng, *self.good(rng, rng.choice((kind, kind, *KINDS)))[1:]))
        return words, text, way

    def generated(self, rng):
        """A frame from a number, or its summary."""
        passes = rng.choice([1, 2, 5, 17, rng.randint(1, 40)])
        words = ["gen", "--number", str(rng.choice([rng.randrange(2**32), rng.randrange(70_000)])), "--passes", str(passes)]
        summary = ["--summary", "--workers", rng.choice("1234")] if rng.random() < 0.3 else []
        self.sides.agree([*words, *summary], b"")

    def line(self, rng):
        """A command line, on a file that has a fault where the text could depend on the order of events."""
        words = other_line(rng)
        if is_newer(words) or any(word not in self.words and word in FRAME_WORDS + ("audit", "flight", "gen") for word in words):
            return
        text = b"" if any("trace" in word for word in words) else packed(self.frame(rng))
        self.sides.agree(words, text, "a line")

    def case(self, number):
        rng = random.Random(f"{self.options.seed}/{number}")
        kind = rng.choice([kind for kind in KINDS if kind in ("frame", "submission", "line") or kind in self.words])
        if kind in ("gen", "line"):
            with self.sides.lock:
                self.files[kind, "good" if kind == "gen" else "changed"] += 1
            return self.generated(rng) if kind == "gen" else self.line(rng)
        words, text, way = self.made(rng, kind)
        with self.sides.lock:
            self.files[kind, way] += 1
        if words is not None:
            self.sides.agree(words, text)
        else:
            known = [word for word in (FRAME_WORDS if kind == "frame" else SUBMISSION_WORDS) if word in self.words]
            for word in dict.fromkeys((rng.choice(known), rng.choice(known))):
                self.sides.agree([word, *options_of(rng, word, self.known)], text)
        if rng.random() < 0.02:
            self.sides.agree([rng.choice(sorted(self.words - {"gen"}))], text)
        return None


def main():
    parser = Arguments(__doc__, other="must", minutes=10.0, first=0, seed=1, passes=10, jobs=4)
    parser.add_argument("--cases", type=int)
    options = parser.parse_args()
    fuzz = Fuzz(Sides(options.program, options.other), options)
    if fuzz.left_out:
        left_out("what one program does not know: " + ", ".join(fuzz.left_out))
    until = time.monotonic() + 60 * options.minutes
    numbers = itertools.takewhile(lambda number: not options.cases or number < options.first + options.cases, itertools.count(options.first))
    with Tally("fuzz", "cases") as tally:
        while time.monotonic() < until and (some := list(itertools.islice(numbers, 200))):
            tally.each(fuzz.case, some, options.jobs)
        for kind in dict.fromkeys(KINDS):
            print(f"{kind}: " + ", ".join(f"{count} {way}" for (name, way), count in sorted(fuzz.files.items()) if name == kind))
        fuzz.sides.told()
        print(f"from case {options.first} on, seed {options.seed}")


if __name__ == "__main__":
    main()
