"""Random submissions: compiled from frames, written with actions, and weakened until they may be unsound."""

import copy
import json
import pathlib
import subprocess
import sys

sys.path.insert(0, str(pathlib.Path(__file__).resolve().parent.parent / "tools/lib"))

from makers import Frame  # noqa: E402

from device import LIMIT  # noqa: E402

MASKS = ("src_stage", "src_access", "dst_stage", "dst_access")


class Compiler:
    """The program whose `check`, `compile` and `exec` are asked."""

    def __init__(self, program):
        self.program = program

    def ask(self, words, text):
        done = subprocess.run([self.program, *words], input=text, stdout=subprocess.PIPE, stderr=subprocess.DEVNULL, timeout=LIMIT)
        return done.returncode, done.stdout.decode()

    def check(self, text):
        """`accepted`, `hazard H2 0 1` or a fault."""
        return self.ask(["check"], text)[1].strip()

    def compiled(self, rng, passes):
        """The submission that a random frame is compiled to."""
        while True:
            status, submission = self.ask(["compile"], Frame(rng, passes).text())
            if status == 0 and '"op"' in submission:
                return submission.encode()

    def generated(self, number, passes):
        """The submission of a frame of `gen`."""
        _, frame = self.ask(["gen", "--number", str(number), "--passes", str(passes)], b"")
        return self.ask(["compile"], frame.encode())[1].encode()


def text_of(program):
    return json.dumps(program, separators=(",", ":"), sort_keys=True).encode()


def places(program):
    """Each batch with each item that is no command."""
    for queue in program["queues"]:
        for batch in queue["batches"]:
            for k, item in enumerate(batch.get("items", [])):
                if item["item"] != "command":
                    yield batch, k


def with_fewer(rng, text):
    """A mask with a name less."""
    names = text.split("|")
    names.pop(rng.randrange(len(names)))
    return "|".join(names)


def drop_barrier(rng, program):
    """Leaves a barrier out, or, where it makes a transition, its masks."""
    found = list(places(program))
    if not found:
        return
    batch, k = rng.choice(found)
    item = batch["items"][k]
    if item["item"] in ("global", "buffer"):
        following = batch["items"][k + 1 : k + 2]
        if following and following[0].get("joined") and not item.get("joined"):
            del following[0]["joined"]
        batch["items"].pop(k)
    elif item["item"] == "image":
        which = rng.choice(["src", "dst", "both"])
        for side in ("src", "dst"):
            if which in (side, "both"):
                item[f"{side}_access"] = ""
                item[f"{side}_stage"] = rng.choice(["COPY", "CLEAR", item[f"{side}_stage"] or "COPY"])


def narrow_barrier(rng, program):
    """Takes a name, or all names, out of one mask of a barrier."""
    found = list(places(program))
    if not found:
        return
    batch, k = rng.choice(found)
    item, member = batch["items"][k], rng.choice(MASKS)
    if member.endswith("access"):
        item[member] = "" if rng.random() < 0.7 else with_fewer(rng, item[member])
    elif "|" in item[member]:
        item[member] = with_fewer(rng, item[member])
    else:
        item[member] = rng.choice(["COPY", "CLEAR", "COMPUTE_SHADER", "COLOR_ATTACHMENT_OUTPUT"])
        item[member.replace("stage", "access")] = ""


def drop_wait(rng, program):
    """Leaves a wait out, or lets it hold back other stages, or wait for an earlier value."""
    waits = [(batch, k) for queue in program["queues"] for batch in queue["batches"] for k in range(len(batch.get("waits", [])))]
    if not waits:
        return
    batch, k = rng.choice(waits)
    way = rng.randrange(3)
    if way == 0:
        batch["waits"].pop(k)
    elif way == 1:
        batch["waits"][k]["stage"] = rng.choice(["COPY", "CLEAR", "COPY|CLEAR"])
    elif batch["waits"][k]["value"] > 1:
        batch["waits"][k]["value"] -= 1


def narrow_signal(rng, program):
    signals = [batch["signal"] for queue in program["queues"] for batch in queue["batches"] if batch.get("signal")]
    if signals:
        rng.choice(signals)["stage"] = rng.choice(["COPY", "CLEAR", "COPY|CLEAR"])


def move_item(rng, program):
    """Two neighbours of a batch change places."""
    batches = [batch for queue in program["queues"] for batch in queue["batches"] if len(batch.get("items", [])) > 1]
    if batches:
        items = rng.choice(batches)["items"]
        k = rng.randrange(len(items) - 1)
        if not any(item.get("joined") for item in items[k : k + 3]):
            items[k], items[k + 1] = items[k + 1], items[k]


WAYS = [drop_barrier, drop_barrier, narrow_barrier, narrow_barrier, narrow_barrier, drop_wait, narrow_signal, move_item]


def weakened(rng, program):
    """The program with one or two of its dependencies weaker."""
    other = copy.deepcopy(program)
    for _ in range(rng.choice([1, 1, 2])):
        rng.choice(WAYS)(rng, other)
    return other


def unsound(rng, compiler, make):
    """A random program that `check` finds a hazard in, and the hazard."""
    while True:
        program = json.loads(make())
        for _ in range(20):
            text = text_of(weakened(rng, program))
            verdict = compiler.check(text)
            if verdict.startswith("hazard"):
                return text, verdict
