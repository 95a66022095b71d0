"""Frame rates of programs, by runs that alternate: without the capture layer, with it and nothing asked for, with every frame recorded."""

import os
import re
import resource
import statistics
import time
from dataclasses import dataclass

from catalogue import RATE_SECONDS


@dataclass
class Run:
    """What a program printed, the seconds that it took, and those that processors gave it."""
    printed: str
    seconds: float
    processor: float


class Watch:
    """The seconds that pass, and those that processors give to programs that are started here and end."""

    def __init__(self):
        self.start, self.before = time.monotonic(), self.given()

    @staticmethod
    def given():
        usage = resource.getrusage(resource.RUSAGE_CHILDREN)
        return usage.ru_utime + usage.ru_stime

    def seconds(self):
        return time.monotonic() - self.start

    def processor(self):
        return self.given() - self.before


@dataclass
class Rate:
    """Frames in a second, and in a second of a processor's time."""
    frames: float
    of_processor: float


def rate_of(tree, application, layers, capture):
    ends = application.rate_frames is not None or application.ends
    run = tree.run(application, layers, capture, command=application.rate_command, seconds=None if ends else RATE_SECONDS)
    if application.rate_frames is not None:
        return Rate(application.rate_frames / run.seconds, application.rate_frames / run.processor)
    found = re.search(application.rate, run.printed)
    frames = float(found.group(1)) if found else 0.0
    return Rate(frames, frames * RATE_SECONDS / run.processor)


class Rates:
    """The rates of one program by the kind of run; each round of runs begins with another kind."""

    def __init__(self, tree, application, layer, never, runs):
        kinds = [("without", (), {}), ("not asked", (layer,), {}), ("recorded", (layer,), {"FRAMEC_CAPTURE": f"4000000000,1,{never}"})]
        self.name = application.name
        self.found = {kind: [] for kind, _, _ in kinds}
        for k in range(runs):
            for kind, layers, capture in kinds[k % len(kinds) :] + kinds[: k % len(kinds)]:
                self.found[kind].append(rate_of(tree, application, layers, capture))
        self.load = os.getloadavg()[0]

    def middle(self, kind, what):
        return statistics.median(getattr(rate, what) for rate in self.found[kind])

    def share(self, kind, what="frames"):
        """The median of one kind of runs, as a share of that without the layer."""
        plain = self.middle("without", what)
        return self.middle(kind, what) / plain if plain else 0.0

    def row(self):
        cells = [f"{self.middle('without', 'frames'):.1f}"]
        for kind in ("not asked", "recorded"):
            cells += [f"{self.share(kind):.2f}", f"{self.share(kind, 'of_processor'):.2f}"]
        return f"| {self.name} | {' | '.join(cells)} |"


def print_rates(rates):
    if not rates:
        return
    runs = len(rates[0].found["without"])
    load = f"load {min(one.load for one in rates):.0f} to {max(one.load for one in rates):.0f}"
    print(f"\nMedians of {runs} runs of each kind that alternate, on {len(os.sched_getaffinity(0))} processors, {load}.\n")
    print("| program | frames a second without the layer | not asked, as a share | by processor time | recorded, as a share | "
          "by processor time |")
    print("|---|---|---|---|---|---|")
    for one in rates:
        print(one.row())
