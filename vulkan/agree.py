#!/usr/bin/env python3
"""Compares `check` and `exec` with Vulkan's software device under Khronos' synchronization validation.

    vulkan/agree.py --program FRAMEC [--wide PROGRAM] [--build out/vulkan] [--tree TREE] [--frames 300] [--unsound 500] [--actions 300]
    vulkan/agree.py --program FRAMEC [--wide PROGRAM] [--build out/vulkan] [--tree TREE] --files FILE...

Each file of examples/submissions and examples/profile, the submissions of examples/frames, of random frames and of frames of
`gen`, and random submissions of format 3 are replayed in two orders of submission, the lowest queue first and the highest one.
Where `check` accepts them the layer has to give no message at all, its other checks included, and where no action is in the file
the bytes have to be those of `exec`. What `check` refuses is replayed under synchronization validation alone, but for hazards on
which the other checks have rules. Every difference gets a cause that is computed from the file; the script prints them with their
counts. Its status is 1 where a difference has none, where bytes differ, or where fewer than half of the random programs with H2
to H4 are flagged by both. With `--tree` the replay runs in a tree of another distribution, by chroot. Status 5: something is not
installed or not built, and the script says what.
"""

import argparse
import collections
import json
import random
import shutil
import sys
from concurrent.futures import ThreadPoolExecutor
from pathlib import Path

import causes
from actions import Writer
from device import Device, Missing
from programs import Compiler, text_of, unsound
from submission import Submission

TOP = Path(__file__).resolve().parent.parent
MISSING = 5
ORDERS = ((), ("--reverse",))
STUCK, NOT_TOGETHER = 6, 8
# Hazards on which the layer's other checks have rules: layouts, and acquires without a release.
OTHER_CHECKS = ("hazard H5", "hazard H7")
# Hazards of two accesses, which are what synchronization validation looks for.
UNORDERED = ("H2", "H3", "H4")
STAGES = ("examples", "frames", "unsound", "actions")
# Groups of files with names, which are told one by one.
NAMED = ("examples", "given files")

# What is known of one submission: its name, what `check` says, and what the replays of both orders came to.
Outcome = collections.namedtuple("Outcome", "name text verdict answers core")


class Tables:
    """Counts of what came out for each group of files, of the differences by their causes, and of what went wrong."""

    def __init__(self, kept):
        self.groups = collections.defaultdict(collections.Counter)
        self.causes, self.vuids = collections.defaultdict(collections.Counter), collections.Counter()
        self.wrong = 0
        self.kept = kept

    def fail(self, outcome, what):
        self.wrong += 1
        file = self.kept / f"difference_{outcome.name.replace('/', '_').replace(' ', '_')}.json"
        file.write_bytes(outcome.text)
        print(f"{outcome.name}: {what}; the file is {file}", file=sys.stderr)

    def differ(self, outcome, cause, said, layer):
        """Counts what `check` said and what the layer did by its cause."""
        if cause is None:
            self.fail(outcome, f"{said}, {layer}, and no cause is found")
        else:
            self.causes[(cause, layer)][said] += 1


def flagged(answers):
    return any(answer.hazards() for answer in answers)


def tell(tables, outcome, group):
    """Sorts one outcome into the tables."""
    counts = tables.groups[group]
    counts["programs"] += 1
    hazard = outcome.verdict.split()[1] if outcome.verdict.startswith("hazard") else None
    if hazard is None and not outcome.verdict.startswith("accepted"):
        tables.fail(outcome, f"check says {outcome.verdict!r}")
        return
    statuses = {answer.status for answer in outcome.answers}
    if statuses == {NOT_TOGETHER}:
        counts["not together"] += 1
        return
    if hazard == "H1" or STUCK in statuses:
        if hazard == "H1" and statuses == {STUCK}:
            counts["stuck"] += 1
        else:
            tables.fail(outcome, f"{outcome.verdict}, but the replays ended with {statuses}")
        return
    if not statuses <= {0, 1}:
        tables.fail(outcome, f"a replay ended with {statuses}: {outcome.answers[0].notes}")
        return
    submission = Submission(json.loads(outcome.text))
    if hazard is None:
        accepted(tables, outcome, counts, submission)
    else:
        refused(tables, outcome, counts, submission, hazard)


def accepted(tables, outcome, counts, submission):
    counts["accepted"] += 1
    if flagged(outcome.answers):
        tables.differ(outcome, causes.of_message(submission, outcome.verdict), "accepted", "flagged")
    others = sorted({name for answer in outcome.core for name, _ in answer.others()})
    for name in others:
        tables.vuids[name] += 1
        if not causes.asks_less(submission, name):
            tables.fail(outcome, f"accepted, and the layer names {name}")
    if not flagged(outcome.answers) and not others:
        counts["no message"] += 1


def refused(tables, outcome, counts, submission, hazard):
    seen = flagged(outcome.answers)
    counts["unordered" if hazard in UNORDERED else "other hazards"] += 1
    if hazard in UNORDERED:
        if seen:
            counts["flagged"] += 1
        else:
            tables.differ(outcome, causes.of_silence(submission, outcome.verdict), hazard, "silent")
    elif any(answer.others() for answer in outcome.core):
        counts["other checks"] += 1
    elif seen:
        tables.differ(outcome, causes.of_message(submission, outcome.verdict), hazard, "flagged")
    else:
        tables.differ(outcome, causes.of_silence(submission, outcome.verdict), hazard, "silent")


def print_row(outcome):
    """What `check` and the layer say of one file; by its other checks where it is asked for them."""
    hazards = {name.removeprefix("SYNC-HAZARD-") for answer in outcome.answers for name, _ in answer.hazards()}
    others = {name for answer in outcome.core for name, _ in answer.others()}
    if hazards or others or not outcome.verdict.startswith("accepted"):
        # `accepted`, or a hazard's letter
        verdict = outcome.verdict.removeprefix("hazard ").split()[0]
        print(f"| {outcome.name} | {verdict} | {', '.join(sorted(hazards | others))} |")


class Trial:
    """Asks `check` and the device of submissions."""

    def __init__(self, options, device):
        self.options, self.device = options, device
        self.narrow, self.wide = Compiler(options.program), Compiler(options.wide or options.program)
        self.tables = Tables(options.kept)

    def outcome(self, name, text, verdict=None):
        verdict = verdict or self.compiler_of(text).check(text)
        core = []
        if verdict.startswith(("accepted", *OTHER_CHECKS)):
            core = self.replays(text, "--core")
        # A call that breaks a rule of the other checks may be left out of synchronization validation.
        silent = core and not any(answer.others() for answer in core)
        return Outcome(name, text, verdict, core if silent else self.replays(text), core)

    def compiler_of(self, text):
        return self.wide if json.loads(text)["format"] == 3 else self.narrow

    def replays(self, text, *more):
        return [self.device.replay(text, "--syncval", *more, *order) for order in ORDERS]

    def each(self, group, make, count):
        """Makes and tells so many outcomes, several at a time."""
        if group in NAMED:
            print("\n| file | `check` | the layer |\n|---|---|---|")
        with ThreadPoolExecutor(self.options.jobs) as pool:
            for outcome in pool.map(make, range(count)):
                tell(self.tables, outcome, group)
                if group in NAMED:
                    print_row(outcome)
                if outcome.verdict.startswith("accepted"):
                    self.bytes_equal(outcome, group)
        print(f"done: {group}: {dict(self.tables.groups[group])}", file=sys.stderr, flush=True)

    def bytes_equal(self, outcome, group):
        """Where nothing is an action, the read-backs are those of `exec`."""
        if b'"action"' in outcome.text:
            return
        _, printed = self.compiler_of(outcome.text).ask(["exec"], outcome.text)
        if all(answer.readbacks == printed for answer in outcome.answers):
            self.tables.groups[group]["bytes"] += 1
        else:
            self.tables.fail(outcome, "other bytes than exec's")

    def rng(self, *words):
        return random.Random("/".join(map(str, (self.options.seed, *words))))

    def files(self, group, files):
        """Submission files, and frame files, which are compiled."""

        def read(k):
            name, text = f"{files[k].parent.name}/{files[k].stem}", files[k].read_bytes()
            return self.outcome(name, self.narrow.ask(["compile"], text)[1].encode() if "passes" in json.loads(text) else text)

        self.each(group, read, len(files))

    def examples(self):
        folders = ("submissions", "profile", "frames")
        self.files("examples", sorted(one for folder in folders for one in (TOP / "examples" / folder).glob("*.json")))

    def frames(self):
        half = self.options.frames // 2

        def random_frame(k):
            return self.outcome(f"frame {k}", self.narrow.compiled(self.rng("frame", k), 10))

        def generated(k):
            return self.outcome(f"gen {k}", self.narrow.generated(k, 1 + k % 24))

        self.each("random frames", random_frame, self.options.frames - half)
        self.each("frames of gen", generated, half)

    def unsound(self):
        def make(k):
            rng = self.rng("unsound", k)
            text, verdict = unsound(rng, self.narrow, lambda: self.narrow.compiled(rng, 8))
            return self.outcome(f"unsound {k}", text, verdict)

        self.each("unsound programs", make, self.options.unsound)

    def takes_actions(self):
        empty = {"format": 3, "memories": [], "pieces": [], "queues": [{"family": "graphics", "batches": []}], "readbacks": []}
        return self.wide.check(text_of(empty)).startswith("accepted")

    def actions(self):
        if not self.takes_actions():
            print("programs with actions: none is tried, since no program here takes format 3 (--wide)")
            return

        def program(rng):
            return text_of(Writer(rng, 8).program())

        def as_written(k):
            return self.outcome(f"action {k}", program(self.rng("action", k)))

        def make_unsound(k):
            rng = self.rng("unsound action", k)
            text, verdict = unsound(rng, self.wide, lambda: program(rng))
            return self.outcome(f"unsound action {k}", text, verdict)

        self.each("actions", as_written, self.options.actions)
        self.each("unsound actions", make_unsound, self.options.actions)


def is_json(file):
    try:
        json.loads(file.read_bytes())
    except (OSError, ValueError):
        return False
    return True


# What is counted of a group, as the head of its column. One without any count is not printed.
COLUMNS = {
    "programs": "files",
    "accepted": "accepted",
    "no message": "without message",
    "bytes": "bytes of `exec`",
    "unordered": "H2 to H4",
    "flagged": "flagged by both",
    "other hazards": "H5 to H9",
    "other checks": "by other checks",
    "stuck": "stuck",
    "not together": "uses that Vulkan cannot make together",
}


def print_tables(tables):
    shown = [key for key in COLUMNS if any(counts[key] for counts in tables.groups.values())]
    print(f"\n| | {' | '.join(COLUMNS[key] for key in shown)} |\n|{'---|' * (1 + len(shown))}")
    for group, counts in tables.groups.items():
        print(f"| {group} | {' | '.join(str(counts[key] or '') for key in shown)} |")
    print("\n| `check` | cause | where the standard says it | right | programs |\n|---|---|---|---|---|")
    for (cause, layer), counts in sorted(tables.causes.items(), key=lambda one: -one[1].total()):
        said = ", ".join(sorted(counts)) + ("" if layer == "silent" else f"; {layer}")
        print(f"| {said} | {cause.name}: {cause.text} | {cause.where} | {cause.right} | {counts.total()} |")
    for name, count in sorted(tables.vuids.items()):
        print(f"| accepted, other message | {causes.ASKED.get(name, '')} | {name} | layer | {count} |")


def flagged_by_both(tables):
    """Whether both refuse at least half of the random programs with H2 to H4, in each group."""
    return all(group in NAMED or 2 * counts["flagged"] >= counts["unordered"] for group, counts in tables.groups.items())


def main():
    parser = argparse.ArgumentParser(description=__doc__, formatter_class=argparse.RawDescriptionHelpFormatter)
    parser.add_argument("--program", required=True, help="a framec, for formats 1 and 2")
    parser.add_argument("--wide", help="one whose check takes format 3, where PROGRAM does not")
    parser.add_argument("--build", default=TOP / "out/vulkan")
    parser.add_argument("--tree")
    parser.add_argument("--frames", type=int, default=300)
    parser.add_argument("--unsound", type=int, default=500)
    parser.add_argument("--actions", type=int, default=300)
    parser.add_argument("--seed", type=int, default=1)
    parser.add_argument("--jobs", type=int, default=2)
    parser.add_argument("--stages", nargs="+", choices=STAGES, default=STAGES)
    parser.add_argument("--files", type=Path, nargs="+", default=[], help="compare these submission files, and nothing else")
    parser.add_argument("--kept", type=Path, default=Path("/tmp"), help="where files with an unexplained difference are kept")
    options = parser.parse_args()
    for file in options.files:
        if not is_json(file):
            parser.error(f"{file} is no file with a JSON value")
    try:
        for program in (options.program, options.wide or options.program):
            if not shutil.which(program):
                raise Missing(f"{program} (no program)")
        device = Device(options.build, options.tree)
    except Missing as missing:
        print(f"missing:\n{missing}", file=sys.stderr)
        sys.exit(MISSING)
    trial = Trial(options, device)
    print(f"validation layer {device.layer_version()}", flush=True)
    if options.files:
        trial.files("given files", options.files)
    else:
        for stage in options.stages:
            getattr(trial, stage)()
    print_tables(trial.tables)
    enough = flagged_by_both(trial.tables)
    print(f"\n{trial.tables.wrong} without a cause or with other bytes")
    sys.exit(0 if enough and not trial.tables.wrong else 1)


if __name__ == "__main__":
    main()
