"""A program that is asked, or two that know the same words, side by side."""

import collections
import subprocess
import sys
import threading

from tally import Differs

LIMIT = 300

# How the program ends where nothing stops it.
STATUSES = range(7)


def ran(program, words, text=b"", **how):
    """Status, text, and what was said on standard error. A program that does not end has the status None."""
    words = words.split() if isinstance(words, str) else words
    try:
        done = subprocess.run([program, *words], **{"input": text, "capture_output": True, "timeout": LIMIT, **how})
    except subprocess.TimeoutExpired:
        return None, b"", b""
    return done.returncode, done.stdout, done.stderr


def answer(program, words, text=b"", **how):
    """Status and text."""
    return ran(program, words, text, **how)[:2]


def kind(status, printed):
    """The kind of an answer: for one that is no success the words up to the first number or path."""
    if status == 0:
        return "0"
    words = [word for word in printed.decode(errors="replace").split()[:5] if not word.isdigit() and not word.startswith("$")]
    if words[:1] == ["frame"]:
        words = words[1:]
    return " ".join([str(status), *words[:2]])


def shown(given):
    status, printed = given
    return f"status {status}, {printed[:400]!r}" + (f" and {len(printed) - 400} bytes more" if len(printed) > 400 else "")


class Side:
    """A program whose answers are held against each other."""

    def __init__(self, program):
        self.programs = [program]

    def ask(self, words, text):
        """Our status and text."""
        ours = answer(self.programs[0], words, text)
        self.expect(ours[0] in STATUSES, shown(ours), words, text)
        return ours

    def expect(self, holds, what, words, text):
        if not holds:
            raise Differs(what, words, text)

    def knows(self, *words):
        """Whether these words are a command line, of each program."""
        return all(answer(program, words)[0] != 3 for program in self.programs)

    def needs(self, *lines):
        """Ends the script where the program does not know one of the command lines."""
        for line in lines:
            if not self.knows(*line.split()):
                sys.exit(f"the program does not know the words {line}")


class Sides(Side):
    """A program and another one, which have to give the same answers."""

    def __init__(self, program, other):
        super().__init__(program)
        self.programs.append(other)
        self.counts = collections.Counter()
        self.lock = threading.Lock()

    def agree(self, words, text, name=None):
        """The status and the text of both programs, which have to be the same. They are counted under the first word, or this name."""
        ours, other = self.ask(words, text), answer(self.programs[1], words, text)
        self.expect(ours == other, f"ours: {shown(ours)}\nother: {shown(other)}", words, text)
        with self.lock:
            self.counts[name or words[0], kind(*ours)] += 1
        return ours

    def told(self):
        """The counts of answers, one line for each command."""
        for command in sorted({command for command, _ in self.counts}):
            own = sorted((sort, count) for (name, sort), count in self.counts.items() if name == command)
            print(f"{command}: " + ", ".join(f"{count} of {sort}" for sort, count in own))
