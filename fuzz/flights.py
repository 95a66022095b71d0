#!/usr/bin/env python3
"""Flies random lists of frames, some of whose imports persist.

    fuzz/flights.py [--program PROGRAM] [--lists 300] [--seed 1] [--passes 8] [--jobs 4]

Each list is flown with every depth from 1 to 8. The text of a flight does not depend on the depth, unless a window breaks a limit. Nor
does it on workers and cache moves, with which each list is flown once more. The first frame prints what `meaning` prints of it, and each
does where no name persists. The status is 1 at the first difference. Told at the end: how many lists were flown at some depth.
"""

import random
import sys
from pathlib import Path

sys.path.insert(0, str(Path(__file__).resolve().parent.parent / "tools/lib"))
from arguments import Arguments
from makers import packed, some_flight
from sides import Side
from tally import Tally


def flown(side, options, number):
    """Whether a list has a flight."""
    rng = random.Random(f"{options.seed}/{number}")
    # Now and then windows that may break a limit.
    words, frames = some_flight(rng, options.passes * (1 if rng.random() < 0.9 else 4))
    lines = [packed(frame) for frame in frames]
    text = b"\n".join(lines) + rng.choice([b"", b"\n"])
    answers = [side.ask([*words, "--depth", str(depth)], text) for depth in range(1, 9)]
    texts = {printed for status, printed in answers if status == 0}
    side.expect(len(texts) <= 1, "the text depends on the depth", words, text)
    if not texts:
        return False
    printed = texts.pop()
    depth = [depth for depth, (status, _) in enumerate(answers, 1) if status == 0]
    device = ["--workers", rng.choice("1348"), "--tend", str(rng.randrange(2**32)), "--depth", str(rng.choice(depth))]
    side.expect(side.ask([*words, *device], text) == (0, printed), "the text depends on workers or moves", [*words, *device], text)
    alone = [b"frame %d\n" % place + side.ask(["meaning"], line)[1] for place, line in enumerate(lines)]
    side.expect(printed.startswith(alone[0]), "the first frame has other exports than alone", words, text)
    if "--persist" not in words:
        side.expect(printed == b"".join(alone), "a frame has other exports than alone", words, text)
    return True


def main():
    options = Arguments(__doc__, lists=300, seed=1, passes=8, jobs=4).parse_args()
    side = Side(options.program)
    side.needs("flight")
    with Tally("flights", "lists of frames") as tally:
        flights = sum(tally.each(lambda number: flown(side, options, number), range(options.lists), options.jobs))
        print(f"{flights} lists flown at some depth: one text whatever the depth")


if __name__ == "__main__":
    main()
