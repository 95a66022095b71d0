#!/usr/bin/env python3
"""Captures small cases whose verdicts are known, and checks them; and looks at what the layer does to a program that captures nothing.

    vulkan/capture/test/run.py BUILD --check PROGRAM

BUILD is the folder that vulkan/ was built in, and PROGRAM a `framec` whose `check` takes format 3. The first device is taken;
VK_ICD_FILENAMES chooses it. The cases see it through the layer that shows three queue families. Status 0: all is as it should be;
1: something is not; 2: something is missing.
"""

import argparse
import os
import shutil
import subprocess
import sys
import tempfile
from pathlib import Path
from xml.etree import ElementTree

CAPTURE, FAMILIES = "VK_LAYER_FRAMEC_capture", "VK_LAYER_FRAMEC_families"
LIBRARY = "libVkLayer_FRAMEC_capture.so"
REGISTRY = Path("/usr/share/vulkan/registry/vk.xml")

# The verdict of each case, and what the layer has to tell that the file cannot say.
CASES = {
    "ordered": ("accepted", None),
    "unordered": ("hazard H2", None),
    "secondary": ("accepted", None),
    "halves": ("accepted", None),
    "twins": ("accepted", None),
    "twins-unordered": ("hazard H2", None),
    "submissions-unordered": ("hazard H2", None),
    "fence": ("accepted", None),
    "idle": ("accepted", None),
    "timeline": ("accepted", None),
    "event": ("hazard H2", "waits for events"),
    "subpasses": ("accepted", None),
    "subpasses-unordered": ("hazard H2", None),
    "layout": ("accepted", None),
    "layout-wrong": ("hazard H5", None),
    "transfer": ("accepted", None),
    "transfer-unordered": ("hazard H2", None),
    "transfer-foreign-stage": ("hazard H2", "stages that the queue's family does not have"),
    "transfer-without-acquire": ("hazard H7", None),
    "transfer-without-release": ("hazard H7", None),
    "transfer-forgotten": ("hazard H6", None),
    "transfer-image": ("accepted", None),
    "transfer-image-layouts": ("hazard H7", None),
    "transfer-back": ("accepted", None),
    "transfer-back-forgotten": ("hazard H6", None),
}

# A capture whose first frame never comes, so that every call is recorded.
NEVER = "4000000000,1,/dev/null"
COST_RUNS = 3

# What the layer takes of a device where nothing is captured: it has to know when a device ends.
OWN_FUNCTIONS = {"vkGetDeviceProcAddr", "vkDestroyDevice"}


class Runner:
    """Runs programs under the layers of a build."""

    def __init__(self, build, check):
        self.build, self.check = build, check

    def run(self, words, layers, capture=None, told=""):
        environment = os.environ | {"VK_ADD_LAYER_PATH": f"{self.build}/capture:{self.build}/families"}
        environment.pop("FRAMEC_CAPTURE", None)
        if layers:
            environment["VK_INSTANCE_LAYERS"] = ":".join(layers)
        if capture:
            environment["FRAMEC_CAPTURE"] = capture
        return subprocess.run(words, env=environment, input=told, capture_output=True, text=True)

    def calls(self, case, *more):
        return self.run([self.build / "capture/capture-calls", case], *more)

    def judge(self, case, folder):
        """What is wrong with a case, or nothing."""
        file = Path(folder) / f"{case}.json"
        done = self.calls(case, (CAPTURE, FAMILIES), f"0,100,{file},submissions")
        if done.returncode != 0 or not file.exists():
            return f"status {done.returncode}, {done.stderr.strip()}"
        verdict = subprocess.run([self.check, "check"], stdin=file.open(), capture_output=True, text=True).stdout.strip()
        wanted, remark = CASES[case]
        if not verdict.startswith(wanted):
            return f"{verdict}, not {wanted}"
        if remark is not None and remark not in done.stderr:
            return f"does not tell: {remark}"
        return None

    def functions(self, capture):
        """The device's commands, and those of them that lead into the layer."""
        names = "\n".join(node.text for node in ElementTree.parse(REGISTRY).iterfind("commands/command/proto/name"))
        lines = [line.split() for line in self.calls("functions", (CAPTURE,), capture, names).stdout.splitlines()]
        return len(lines), {name for name, file in lines if Path(file).name == LIBRARY}

    def costs(self, *more):
        """Nanoseconds that some calls take."""
        return {name: int(cost) for name, cost in (line.split() for line in self.calls("costs", *more).stdout.splitlines())}

    def print_costs(self):
        """A table of what calls cost without the layer, with it and nothing asked for, and recorded: the least of several runs."""
        kinds = (((),), ((CAPTURE,),), ((CAPTURE,), NEVER))
        runs = [[self.costs(*kind) for kind in kinds] for _ in range(COST_RUNS)]
        print("\n| nanoseconds of a call | without the layer | not asked | recorded |\n|---|---|---|---|")
        for name in runs[0][0]:
            least = [min(run[kind][name] for run in runs) for kind in range(len(kinds))]
            print(f"| {name} | {' | '.join(map(str, least))} |")

    def device_tells(self, layers):
        """What vulkaninfo finds, without how much memory is free now."""
        lines = self.run(["vulkaninfo"], layers).stdout.splitlines()
        return [line for line in lines if line.split("=")[0].strip() not in ("budget", "usage")]

    def not_asked(self):
        """What is wrong with a program that captures nothing, or nothing."""
        count, own = self.functions(None)
        _, recorded = self.functions(NEVER)
        print(f"of {count} commands of the device {len(own)} lead into the layer where nothing is captured, {len(recorded)} where frames are")
        if count == 0 or not own <= OWN_FUNCTIONS or not recorded - OWN_FUNCTIONS:
            return f"the layer has {sorted(own)}, and {len(recorded)} while it captures"
        plain, under = (self.device_tells(layers) for layers in ((), (CAPTURE,)))
        print(f"vulkaninfo: {len(plain)} lines")
        return None if plain and plain == under else "vulkaninfo tells other things under the layer"


def main():
    parser = argparse.ArgumentParser(description=__doc__.splitlines()[0])
    parser.add_argument("build", type=Path)
    parser.add_argument("--check", required=True, type=Path)
    args = parser.parse_args()
    build = args.build.resolve()
    needed = [build / "capture/capture-calls", build / "capture/VkLayer_FRAMEC_capture.json", build / "families/VkLayer_framec_families.json",
              args.check, REGISTRY, Path(shutil.which("vulkaninfo") or "vulkaninfo")]
    missing = [one for one in needed if not one.exists()]
    if missing:
        print(f"run.py: {missing[0]} is missing", file=sys.stderr)
        return 2
    runner = Runner(build, args.check.resolve())
    wrong = 0
    with tempfile.TemporaryDirectory() as folder:
        for case in CASES:
            fault = runner.judge(case, folder)
            wrong += fault is not None
            print(f"{case}: {fault or 'as it should be'}", flush=True)
    fault = runner.not_asked()
    print(f"nothing captured: {fault or 'as it should be'}")
    runner.print_costs()
    return 1 if wrong or fault else 0


if __name__ == "__main__":
    sys.exit(main())
