#!/usr/bin/env python3
"""Tries to leave out what `compile --tight` has left of the waits of random frames.

    fuzz/tightened.py [--program PROGRAM] [--frames 300] [--seed 1] [--passes 12] [--jobs 4]

Of each frame the tightened text is what `check` accepts, and its waits are some of those that `compile` prints. Each wait is then left out
by itself, and of each wait with several stages each stage: `check` has to refuse every such text. `run --tight` has to print what
`run` prints. The status is 1 at the first text for which this does not hold.
"""

import copy
import json
import random
import sys
from pathlib import Path

sys.path.insert(0, str(Path(__file__).resolve().parent.parent / "tools/lib"))
from arguments import Arguments
from makers import Frame, packed
from sides import Side
from tally import Tally


def waits_of(program):
    """The queue, batch and number of each wait, with the wait."""
    for q, queue in enumerate(program["queues"]):
        for b, batch in enumerate(queue["batches"]):
            for k, wait in enumerate(batch["waits"]):
                yield (q, b, k), wait


def without(program, place):
    q, b, k = place
    left = copy.deepcopy(program)
    del left["queues"][q]["batches"][b]["waits"][k]
    return left


def without_stage(program, place, stage):
    q, b, k = place
    left = copy.deepcopy(program)
    wait = left["queues"][q]["batches"][b]["waits"][k]
    wait["stage"] = "|".join(own for own in wait["stage"].split("|") if own != stage)
    return left


def less(program):
    """The texts with a wait less, or a stage of a wait that has several."""
    for place, wait in waits_of(program):
        yield without(program, place)
        stages = wait["stage"].split("|")
        if len(stages) > 1:
            yield from (without_stage(program, place, stage) for stage in stages)


def asked(side, options, number):
    """How many waits the compiled and the tightened program have, and how many texts with less were refused."""
    text = Frame(random.Random(f"{options.seed}/{number}"), options.passes).text()
    status, compiled = side.ask(["compile"], text)
    if status != 0:
        return 0, 0, 0
    status, tight = side.ask(["compile", "--tight"], text)
    side.expect(status == 0, f"status {status}", ["compile", "--tight"], text)
    side.expect(side.ask(["check"], tight)[0] == 0, "not accepted", ["check"], tight)
    same = side.ask(["run", "--tight"], text) == side.ask(["run"], text)
    side.expect(same, "another text than that of run", ["run", "--tight"], text)
    program = json.loads(tight)
    refused = 0
    for candidate in map(packed, less(program)):
        status, printed = side.ask(["check"], candidate)
        side.expect(status in (1, 2), f"accepted: {printed!r}", ["check"], candidate)
        refused += 1
    return len(list(waits_of(json.loads(compiled)))), len(list(waits_of(program))), refused


def main():
    options = Arguments(__doc__, frames=300, seed=1, passes=12, jobs=4).parse_args()
    side = Side(options.program)
    side.needs("compile --tight")
    with Tally("tightened", "frames") as tally:
        found = tally.each(lambda number: asked(side, options, number), range(options.frames), options.jobs)
        given, left, refused = [sum(column) for column in zip(*found)]
        print(f"{left} of {given} waits are left; {refused} texts with a wait or a stage less, all refused")


if __name__ == "__main__":
    main()
