#!/usr/bin/env python3
"""Starts the replay on inputs that end it in each of its ways, and compares the status and what it says.

    vulkan/endings.py [--build out/vulkan] [--tree TREE]

The status is 1 where one of them ends otherwise, and 5 where something is not installed or not built.
"""

import argparse
import json
import subprocess
import sys
from pathlib import Path

from device import Device, Missing

TOP = Path(__file__).resolve().parent.parent
EXAMPLES = TOP / "examples/submissions"
MISSING = 5


def action(uses, pieces):
    """A file of format 3 with one action."""
    memories = [{"size": 4096} for _ in pieces]
    entries = [{**piece, "memory": k, "offset": 0} for k, piece in enumerate(pieces)]
    items = [{"item": "command", "op": "action", "code": 0, "uses": uses}]
    program = {"format": 3, "memories": memories, "pieces": entries, "readbacks": []}
    return json.dumps({**program, "queues": [{"family": "graphics", "batches": [{"items": items}]}]}).encode()


def changed(name, old, new):
    """An example with one text in place of another."""
    text = (EXAMPLES / f"{name}.json").read_text()
    assert old in text
    return text.replace(old, new, 1).encode()


def example(name):
    return (EXAMPLES / f"{name}.json").read_bytes()


# The options, the input, the status, and a part of what is said on standard error or printed.
def cases():
    host = "no_barrier_for_the_host_mended"
    texture, buffer = {"texture": 64}, {"buffer": 64}
    return [
        ((), example(host), 0, "readback 0 256\n0700"),
        (("--reverse",), example("wrong_owner_mended"), 0, ""),
        (("--syncval",), example("wrong_stage"), 1, "message 1 SYNC-HAZARD-READ-AFTER-WRITE"),
        (("--syncval", "--core"), example("no_transition"), 1, "VUID-"),
        ((), b"{", 2, "$: no JSON value"),
        ((), b'{"format": 4}', 2, "$.format: not from 1 to 3"),
        ((), changed(host, '"readbacks"', '"readback"'), 2, "$.readbacks: is absent"),
        ((), changed(host, '"item": "buffer"', '"item": "buffers"'), 2, ".item: no item"),
        ((), changed(host, '"HOST"', '"HOSTS"'), 2, ".dst_stage: no mask of stages"),
        ((), changed(host, '"word": 7', '"word": 7, "words": 7'), 2, ".words: is unknown here"),
        ((), changed(host, '"dst": 0', '"dst": 9'), 2, ".dst: there is no piece 9"),
        ((), action([{"piece": 0, "as": "uniform", "stage": "VERTEX_SHADER"}], [texture]), 2, "piece 0 is an image, which has no such use"),
        ((), action([{"piece": 0, "as": "color"}], [buffer]), 2, "piece 0 is a buffer, which has no such use"),
        (("--help",), b"", 0, "usage: framec-replay"),
        (("--sync",), example(host), 3, "usage: framec-replay"),
        (("--core",), example(host), 3, "usage: framec-replay"),
        (("/nowhere/file.json",), b"", 4, "/nowhere/file.json: cannot be read"),
        ((), example("wait_never_met"), 6, "queue 1 is stuck before batch 0"),
        (("--layers", "/nowhere"), example(host), 7, "there is no layer VK_LAYER_FRAMEC_families"),
        ((), action([{"piece": 0, "as": "indirect"}], [{"buffer": 4}]), 8, "an indirect buffer has fewer bytes"),
        (
            (),
            action([{"piece": 0, "as": "depth_read"}, {"piece": 0, "as": "resolve_read"}], [texture]),
            8,
            "piece 0 is used as a depth attachment and as colours",
        ),
    ]


def main():
    parser = argparse.ArgumentParser(description=__doc__, formatter_class=argparse.RawDescriptionHelpFormatter)
    parser.add_argument("--build", default=TOP / "out/vulkan")
    parser.add_argument("--tree")
    options = parser.parse_args()
    try:
        device = Device(options.build, options.tree)
    except Missing as missing:
        print(f"missing:\n{missing}", file=sys.stderr)
        sys.exit(MISSING)
    wrong, count = 0, 0
    for words, text, status, said in cases():
        done = subprocess.run([*device.words, *words], input=text, capture_output=True)
        told = (done.stdout + done.stderr).decode()
        count += 1
        if done.returncode != status or said not in told:
            wrong += 1
            print(f"{words}: status {done.returncode} for {status}, said {told!r} for {said!r}", file=sys.stderr)
    with open("/dev/full", "wb") as full:
        done = subprocess.run(device.words, input=example("no_barrier_for_the_host_mended"), stdout=full, stderr=subprocess.DEVNULL)
    count += 1
    if done.returncode != 5:
        wrong += 1
        print(f"a full device: status {done.returncode} for 5", file=sys.stderr)
    print(f"{count} endings, {wrong} wrong")
    sys.exit(1 if wrong else 0)


if __name__ == "__main__":
    main()
