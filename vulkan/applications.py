#!/usr/bin/env python3
"""Captures frames of programs of the distribution, checks them, and prints the tables of docs/VULKAN.md.

    vulkan/applications.py TREE --check PROGRAM [--out DIR] [--only NAME ..] [--runs 3] [--display 91] [--seconds 60]
                           [--without captures|rates|replay|syncval|left-out ..]

TREE is what vulkan/tree.sh has set up, and PROGRAM a `framec` whose `check` takes format 3. The layers and the replay are built inside
the tree. Each program runs on Mesa's software device, with Xvfb or without a window system, and is captured; its file is checked. Where
that finds a hazard its cause is looked up in the file; a hazard without a known cause is told, and the script ends with status 1. Where the
file is accepted each of its dependencies is left out of a copy in turn; one that matters is then left out by the capture layer
itself (FRAMEC_CAPTURE_LEAVE_OUT), which `check` has to find. Khronos' validation layer runs below the capture layer with
synchronization validation alone, and its distinct messages are told, each with how often it comes between the first and the last
captured frame and in the whole run. Each file is replayed under that layer, which has to give a message where `check` names a hazard,
and none elsewhere. Frame rates are medians of runs that alternate: without the layer, with the layer and nothing asked for, with every
frame recorded.

Ends with status 0 where all is as told, 1 where something was not captured, not explained or not found, where `check` and the replay
part, or where a program that is recorded has less than half its rate, 2 where something is missing.
"""

import argparse
import json
import os
import re
import shutil
import subprocess
import sys
import time
from collections import Counter
from dataclasses import dataclass, field
from pathlib import Path

TOP = Path(__file__).resolve().parent
sys.path.insert(0, str(TOP / "capture"))

import captured  # noqa: E402  (stands beside the layer)
from catalogue import APPLICATIONS, CAUSES, Application  # noqa: E402
from rates import Rates, Run, Watch, print_rates  # noqa: E402

WORK = "opt/framec"
LAYER = "VK_LAYER_FRAMEC_capture"
VALIDATION = "VK_LAYER_KHRONOS_validation"
DEVICE = "/usr/share/vulkan/icd.d/lvp_icd.json"
# What the capture layer prints when the file is whole.
WROTE = "framec capture: wrote"


class Missing(Exception):
    """Something that the script needs is not there."""


class Tree:
    """The tree with the programs, and what runs in it."""

    def __init__(self, path, display, seconds):
        self.path = path
        self.display = display
        self.seconds = seconds

    def prepare(self):
        if not (self.path / ".ready").exists():
            raise Missing(f"{self.path} is no tree that vulkan/tree.sh has set up")
        if not os.path.ismount(self.path / "proc"):
            raise Missing(f"{self.path}/proc is not mounted: run vulkan/tree.sh again")
        source = self.path / WORK / "source"
        shutil.rmtree(source, ignore_errors=True)
        shutil.copytree(TOP, source, ignore=shutil.ignore_patterns("__pycache__"))
        self.build()

    def build(self):
        for command in (["cmake", "-S", f"/{WORK}/source", "-B", f"/{WORK}/build", "-DCMAKE_BUILD_TYPE=Release"],
                        ["cmake", "--build", f"/{WORK}/build", "-j", "2"]):
            done = subprocess.run(["chroot", self.path, *command], capture_output=True, text=True)
            if done.returncode != 0:
                raise Missing(f"the layers and the replay do not build in the tree:\n{done.stdout[-2000:]}{done.stderr[-2000:]}")

    def start_display(self):
        server = subprocess.Popen(["chroot", self.path, "Xvfb", f":{self.display}", "-screen", "0", "1280x1024x24"],
                                  stdout=subprocess.DEVNULL, stderr=subprocess.DEVNULL)
        time.sleep(2)
        if server.poll() is not None:
            raise Missing(f"Xvfb does not start on display {self.display}: choose another one by --display")
        return server

    def environment(self, application, layers, capture):
        own = {"PATH": "/usr/local/bin:/usr/bin:/bin:/usr/games", "HOME": "/root", "LANG": "C.UTF-8", "XDG_RUNTIME_DIR": "/tmp",
               "DISPLAY": f":{self.display}", "VK_ICD_FILENAMES": DEVICE}
        layers = (*layers, *application.layers)
        if layers:
            own |= {"VK_ADD_LAYER_PATH": f"/{WORK}/build/capture:/{WORK}/build/families", "VK_INSTANCE_LAYERS": ":".join(layers),
                    "VK_LAYER_SETTINGS_PATH": f"/{WORK}/source/vk_layer_settings.txt"}
        return own | application.environment | capture

    def run(self, application, layers=(), capture=None, command=None, until=None, seconds=None):
        """Runs a program to its end, or until it has printed something, or for so many seconds."""
        variables = self.environment(application, layers, capture or {})
        words = ["chroot", self.path, "env", "-i", *(f"{name}={value}" for name, value in variables.items()), *(command or application.command)]
        log = self.path / WORK / "log"
        watch = Watch()
        limit = time.monotonic() + (seconds or self.seconds)
        with log.open("wb") as out:
            process = subprocess.Popen(words, stdout=out, stderr=subprocess.STDOUT)
            while process.poll() is None and time.monotonic() < limit:
                if until and until in log.read_text(errors="replace"):
                    break
                time.sleep(0.02)
            if process.poll() is None:
                process.terminate()
            try:
                process.wait(timeout=10)
            except subprocess.TimeoutExpired:
                process.kill()
                process.wait()
        return Run(log.read_text(errors="replace"), watch.seconds(), watch.processor())


@dataclass
class Result:
    """What came out for one program."""
    application: Application
    file: Path
    program: dict = None
    verdict: str = "not captured"
    seconds: float = 0.0
    told: list = field(default_factory=list)
    explanation: captured.Explanation = None
    # What `check` says of a copy that shows what else is wrong, and what is taken otherwise there.
    behind: str = ""
    taken: str = ""
    # What the validation layer says in the captured frames and in the whole run, and where the file is replayed.
    messages: str = ""
    replayed: str = ""
    # Numbers of dependencies; those without which `check` finds a hazard, with its verdict; and what it says where the layer
    # leaves the first of those out.
    numbers: list = field(default_factory=list)
    mattering: list = field(default_factory=list)
    left_out: str = ""

    @property
    def accepted(self):
        return self.verdict.startswith("accepted")


class Trial:
    """The whole of it."""

    def __init__(self, tree, check, out, without):
        self.tree = tree
        self.check_program = check
        self.out = out
        self.without = without
        self.wrong = []

    def check(self, text):
        start = time.monotonic()
        done = subprocess.run([self.check_program, "check"], input=text, capture_output=True, text=True)
        return (done.stdout or done.stderr).strip(), time.monotonic() - start

    def captured_text(self, application, layers=(LAYER,), more=None, to_the_end=False):
        """Captures once: what the program printed, and the file. The program is ended behind it where it has no end or needs none."""
        inside = f"/{WORK}/capture.json"
        file = self.tree.path / WORK / "capture.json"
        file.unlink(missing_ok=True)
        variables = {"FRAMEC_CAPTURE": application.spec(inside)} | (more or {})
        printed = self.tree.run(application, layers, variables, until=None if to_the_end and application.ends else WROTE).printed
        return printed, file.read_text() if file.exists() else None

    def try_one(self, application):
        result = Result(application, self.out / (re.sub(r"\W+", "-", application.name) + ".json"))
        printed, text = self.captured_text(application)
        if text is None:
            self.wrong.append(f"{application.name}: not captured:\n{printed[-500:]}")
            return result
        result.file.write_text(text)
        result.program = json.loads(text)
        result.told = re.findall(r"framec capture: cannot say: (.*)", printed)
        result.verdict, result.seconds = self.check(text)
        self.judge(result)
        if "syncval" not in self.without:
            self.ask_validation(result)
        if "replay" not in self.without:
            self.replay(result)
        if result.accepted and "left-out" not in self.without:
            self.leave_out(result)
        return result

    def judge(self, result):
        if result.accepted:
            return
        result.explanation = captured.explain(result.program, result.verdict)
        if result.explanation is None or result.explanation.cause not in CAUSES:
            self.wrong.append(f"{result.application.name}: {result.verdict} has no known cause")
            return
        if result.explanation.cause in captured.MENDED:
            taken, mend = captured.MENDED[result.explanation.cause]
            mended = mend(result.program)
            verdict, _ = self.check(json.dumps(mended))
            behind = captured.explain(mended, verdict)
            result.taken = taken
            result.behind = f"{verdict}: {behind.cause} ({behind.text})" if behind else verdict

    def ask_validation(self, result):
        printed, text = self.captured_text(result.application, (LAYER, VALIDATION), to_the_end=True)
        if text is None:
            result.messages = "did not run"
            self.wrong.append(f"{result.application.name}: did not run under the validation layer")
            return
        inside = re.search(r"framec capture: begins.*?framec capture: ends", printed, re.DOTALL)
        own = names_of_messages(inside.group(0)) if inside else []
        every = names_of_messages(printed)
        result.messages = counted(every, own)

    def replay(self, result):
        """What the validation layer says where the file itself is replayed."""
        (self.tree.path / WORK / "replay.json").write_text(result.file.read_text())
        words = ["chroot", self.tree.path, "env", f"VK_ICD_FILENAMES={DEVICE}", f"/{WORK}/build/replay/framec-replay", "--families",
                 "--syncval", f"/{WORK}/replay.json"]
        done = subprocess.run(words, capture_output=True, text=True)
        if done.returncode not in (0, 1):
            last = (done.stderr.strip().splitlines() or [""])[-1]
            self.wrong.append(f"{result.application.name}: the replay ended with status {done.returncode}: {last}")
            return
        result.replayed = counted(re.findall(r"^message \d+ (\S+)", done.stdout, re.MULTILINE))
        if bool(result.replayed) == result.accepted:
            self.wrong.append(f"{result.application.name}: {result.verdict}, but replayed it gives: {result.replayed or 'no message'}")

    def leave_out(self, result):
        """Finds which dependencies matter, and has the layer leave out the first of them."""
        result.numbers = captured.dependencies_of(result.program)
        for number in result.numbers:
            verdict, _ = self.check(json.dumps(captured.without_dependency(result.program, number)))
            if verdict.startswith("hazard"):
                result.mattering.append((number, verdict))
        if not result.mattering:
            return
        number, wanted = result.mattering[0]
        _, text = self.captured_text(result.application, more={"FRAMEC_CAPTURE_LEAVE_OUT": str(number)})
        result.left_out = self.check(text)[0] if text else "not captured"
        if result.left_out.split()[:2] != wanted.split()[:2]:
            self.wrong.append(f"{result.application.name}: number {number} left out gives {result.left_out}, not {wanted}")


def names_of_messages(printed):
    return re.findall(r"\[ ((?:SYNC-HAZARD|VUID)[\w-]+) \]", printed)


def counted(messages, some=None):
    """Distinct messages with their numbers, and how many of them are some that are told apart; nothing where there is none."""

    def number(name):
        return messages.count(name) if some is None else f"{some.count(name)} of {messages.count(name)}"

    return ", ".join(f"{name.removeprefix('SYNC-HAZARD-')} ({number(name)})" for name in sorted(set(messages)))


def short(verdict):
    """What `check` says, in a cell: `accepted`, or a hazard's letter; all of another answer."""
    return verdict.removeprefix("hazard ").split()[0] if verdict.startswith(("accepted", "hazard ")) else verdict


def left_out(result):
    """How many dependencies matter, of how many; and what `check` says without the first of them."""
    if not result.numbers:
        return ""
    found = f"{len(result.mattering)} of {len(result.numbers)}"
    return f"{found}; {result.mattering[0][0]}: {short(result.left_out)}" if result.mattering else found


def print_verdicts(results):
    print("| program | frames | queues/pieces/nodes | bytes | check s | `check` | the layer, in these frames of the whole run | "
          "dependencies that matter; one left out |")
    print("|---|---|---|---|---|---|---|---|")
    for result in results:
        if result.program is None:
            print(f"| {result.application.name} | {result.application.taken()} | | | | not captured | | |")
            continue
        size = result.file.stat().st_size
        parts = f"{len(result.program['queues'])}/{len(result.program['pieces'])}/{len(captured.nodes_of(result.program))}"
        print(f"| {result.application.name} | {result.application.taken()} | {parts} | {size:,} | {result.seconds:.3f} | "
              f"{short(result.verdict)} | {result.messages} | {left_out(result)} |")


def print_replays(results):
    """Of how many files the layer says something where they are replayed, and what."""
    for words, accepted in (("accepted", True), ("with a hazard", False)):
        replayed = [result.replayed for result in results if result.program and result.accepted == accepted]
        told = Counter(name for text in replayed for name in re.findall(r"[\w-]+(?= \()", text))
        names = ", ".join(f"{name} of {count}" for name, count in sorted(told.items()))
        print(f"\nReplayed, {sum(map(bool, replayed))} of {len(replayed)} files {words} give a message" + (f": {names}." if names else "."))


def print_hazards(results):
    """The hazards by their causes; programs that show the same stand in one row."""
    rows = {}
    for result in results:
        if result.explanation:
            rows.setdefault((result.explanation.cause, result.explanation.text), []).append(result.application.name)
    print("\n| program | cause | the two nodes |\n|---|---|---|")
    for (cause, text), names in rows.items():
        print(f"| {'; '.join(names)} | {cause} | {text} |")
    for result in results:
        if result.behind:
            print(f"| {result.application.name}, {result.taken} | {result.behind} | |")
    whose = Counter(CAUSES.get(result.explanation.cause, "nobody's that is known") for result in results if result.explanation)
    print("\nHazards: " + (", ".join(f"{count} {owner}" for owner, count in whose.items()) or "none") + ".")


def print_told(results):
    lines = [f"- {result.application.name}: {line}" for result in results for line in result.told]
    print("\n" + "\n".join(["What the file cannot say:", "", *lines] if lines else ["No program used what the file cannot say."]))


def measure(trial, application, runs):
    print(f"{application.name}: rates ...", file=sys.stderr, flush=True)
    rates = Rates(trial.tree, application, LAYER, f"/{WORK}/never.json", runs)
    if rates.share("recorded") < 0.5:
        trial.wrong.append(f"{application.name}: less than half its rate while it is recorded")
    return rates


def main():
    parser = argparse.ArgumentParser(description=__doc__.splitlines()[0])
    parser.add_argument("tree", type=Path)
    parser.add_argument("--check", required=True, type=Path, help="a framec whose check takes format 3")
    parser.add_argument("--out", type=Path, default=Path("out/captures"))
    parser.add_argument("--only", nargs="*", default=[])
    parser.add_argument("--runs", type=int, default=3)
    parser.add_argument("--display", type=int, default=91)
    parser.add_argument("--seconds", type=int, default=60, help="how long a program may run; more on a busy machine")
    parser.add_argument("--without", nargs="*", default=[], choices=["captures", "rates", "replay", "syncval", "left-out"])
    args = parser.parse_args()
    args.out.mkdir(parents=True, exist_ok=True)
    chosen = [application for application in APPLICATIONS if not args.only or any(word in application.name for word in args.only)]
    tree = Tree(args.tree.resolve(), args.display, args.seconds)
    trial = Trial(tree, args.check.resolve(), args.out, args.without)
    server, results, rates = None, [], []
    try:
        tree.prepare()
        server = tree.start_display()
        for application in chosen if "captures" not in args.without else []:
            print(f"{application.name} ...", file=sys.stderr, flush=True)
            results.append(trial.try_one(application))
        for application in chosen if "rates" not in args.without else []:
            if application.has_rate:
                rates.append(measure(trial, application, args.runs))
    except Missing as missing:
        print(f"applications.py: {missing}", file=sys.stderr)
        return 2
    finally:
        if server is not None:
            server.terminate()
            server.wait()
    for show in (print_verdicts, print_replays, print_hazards, print_told):
        show(results)
    print_rates(rates)
    for line in trial.wrong:
        print(f"applications.py: {line}", file=sys.stderr)
    return 1 if trial.wrong else 0


if __name__ == "__main__":
    sys.exit(main())
