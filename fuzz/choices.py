#!/usr/bin/env python3
"""Holds the lower bound of memory and the choice of queues of random frames against what other commands say of them.

    fuzz/choices.py [--program PROGRAM] [--frames 1000] [--seed 1] [--passes 24] [--jobs 4]

The bound is at most the heap, which is that of `place`; the chosen frame has the exports of the given one by `meaning`, and the same
passes by `cull`; its cost is the one that was found, and no more than the given one. The status is 1 at the first difference. Told at
the end: how many frames were good, of how many the heap is the bound, and of how many the cost is less.
"""

import random
import sys
from pathlib import Path

sys.path.insert(0, str(Path(__file__).resolve().parent.parent / "tools/lib"))
from arguments import Arguments
from makers import Frame
from sides import Side
from tally import Tally

# 256 bytes, and more than 4,096, from which on a command costs more than 1.
SIDES = (8, 40, 64, 96)


def numbers(text):
    return [int(word) for word in text.splitlines()[0].split() if word.isdigit()]


def asked(side, options, number):
    """Whether a frame is good, its heap the bound, and its cost made less."""
    text = Frame(random.Random(f"{options.seed}/{number}"), options.passes, sides=SIDES).text()
    bound, auto, cost = [side.ask(words, text) for words in (["bound"], ["auto"], ["auto", "--cost"])]
    if auto[0] != 0:
        return False, False, False
    low, heap = numbers(bound[1].decode())
    placed = numbers(side.ask(["place"], text)[1].decode())[0]
    side.expect(low <= heap == placed, f"bound {low}, heap {heap}, placed {placed}", ["bound"], text)
    for word in ("meaning", "cull"):
        same = side.ask([word], text) == side.ask([word], auto[1])
        side.expect(same, f"another text of {word}", ["auto"], text)
    given, found = numbers(cost[1].decode())
    chosen = numbers(side.ask(["auto", "--cost"], auto[1])[1].decode())[0]
    side.expect(found == chosen and found <= given, f"cost {given}, {found}, of the chosen frame {chosen}", ["auto", "--cost"], text)
    return True, low == heap, found < given


def main():
    options = Arguments(__doc__, frames=1000, seed=1, passes=24, jobs=4).parse_args()
    side = Side(options.program)
    side.needs("bound", "auto")
    with Tally("choices", "frames") as tally:
        found = tally.each(lambda number: asked(side, options, number), range(options.frames), options.jobs)
        good, tight, less = [sum(column) for column in zip(*found)]
        print(f"{good} good frames; of {tight} the heap is the bound, of {less} the cost is made less")


if __name__ == "__main__":
    main()
