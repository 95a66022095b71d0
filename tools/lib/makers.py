"""Random frames, lists of frames for a flight, and submissions."""

import copy
import json

from sides import answer
from tally import Differs

SIDE = 8
FUNS = ["add", "sub", "mul", "and", "or", "xor", "min", "max", "shl", "shr"]

# A buffer that persists, and what is exported from it.
PERSISTS = {
    "format": 1,
    "queues": [{"name": "g", "family": "graphics"}],
    "resources": [{"name": "b", "buffer": 4, "import": "01000000"}, {"name": "c", "buffer": 4}],
    "passes": [
        {
            "name": "p",
            "queue": "g",
            "writes": [{"new": "c"}, {"change": "b"}],
            "ops": [
                {"op": "map", "src": "b", "dst": "c", "fun": "add", "value": 1},
                {"op": "copy_buffer", "src": "c", "dst": "b", "src_offset": 0, "dst_offset": 0, "size": 4},
            ],
        }
    ],
    "exports": ["c"],
}

# What stands between any two commands, and before a read by the host.
ALL = {"src_stage": "ALL_COMMANDS", "src_access": "MEMORY_WRITE", "dst_stage": "ALL_COMMANDS", "dst_access": "MEMORY_READ|MEMORY_WRITE"}
BARRIER = {"item": "global", **ALL}
FOR_HOST = {"item": "global", **ALL, "dst_stage": "HOST", "dst_access": "HOST_READ"}


def packed(value):
    """The text of a JSON value without spaces."""
    return json.dumps(value, separators=(",", ":")).encode()


def fill(piece, word):
    return {"item": "command", "op": "fill_buffer", "dst": piece, "offset": 0, "size": 256, "word": word}


def copied(piece):
    return {"item": "command", "op": "copy_buffer", "src": 0, "dst": piece, "src_offset": 0, "dst_offset": 0, "size": 256}


def submission(items, pieces=1, memories=1):
    """One queue with these items; the pieces lie in turn in the memories, all at their start."""
    return {
        "format": 1,
        "memories": [{"size": 256}] * memories,
        "pieces": [{"buffer": 256, "memory": k % memories, "offset": 0} for k in range(pieces)],
        "queues": [{"family": "graphics", "batches": [{"items": items + [FOR_HOST], "signal": {"value": 1, "stage": "ALL_COMMANDS"}}]}],
        "readbacks": [0],
    }


def generated(program):
    """A frame of 256 passes that the program makes by its word `gen`, each with a side effect; none if it makes none."""
    status, text = answer(program, "gen --number 7 --passes 256")
    made = json.loads(text) if status == 0 else None
    for one in made["passes"] if made else ():
        one["side_effect"] = True
    return made


def some_families(rng):
    return [rng.choice(["graphics", "graphics", "compute", "transfer"]) for _ in range(rng.choice([1, 1, 2, 2, 3, 4]))]


def imported(rng, name, size):
    return {"name": name, "buffer": size, "import": rng.randbytes(size).hex()}


class Frame:
    """A frame of at most so many passes. Its images have one of these sides; `families` are those of its queues, if they are given, and
    `more` resources that it has besides its own."""

    def __init__(self, rng, passes, sides=(SIDE,), families=None, more=()):
        self.rng, self.sides = rng, sides
        self.families = some_families(rng) if families is None else families
        self.resources = [*more, *(self.resource(k) for k in range(rng.randint(2, 12)))]
        # The units that hold something so far.
        self.held = {unit for one in self.resources if "import" in one for unit in self.spots(one)}
        self.late = []
        self.units = {unit: one for one in self.resources for unit in self.spots(one)}
        self.passes = [self.one_pass(k) for k in range(rng.randint(1, passes))]
        ends = [one["name"] for one in self.resources if all(unit in self.held for unit in self.spots(one))]
        self.exports = rng.sample(ends, rng.randint(0, min(3, len(ends))))

    def resource(self, k):
        rng = self.rng
        side = rng.choice(self.sides) if len(self.sides) > 1 else self.sides[0]
        one = {"name": f"u{k}"}
        if rng.random() < 0.45:
            one["buffer"] = 4 * side * side
            if rng.random() < 0.3:
                one = imported(rng, one["name"], one["buffer"])
        else:
            one["image"] = [side, side]
            one["texel"] = "r32"
            if rng.random() < 0.25:
                one["layers"] = rng.randint(2, 3)
        if rng.random() < 0.3:
            one["sharing"] = "concurrent"
        return one

    def spots(self, one):
        layers = one.get("layers", 1)
        return [f"{one['name']}/{k}" for k in range(layers)] if layers > 1 else [one["name"]]

    def is_image(self, unit):
        return "image" in self.units[unit]

    def bytes_of(self, unit):
        one = self.units[unit]
        return one["buffer"] if "buffer" in one else 4 * one["image"][0] ** 2

    def some(self, image, units):
        return [unit for unit in units if self.is_image(unit) == image]

    # An operation, its sources, its destination, and whether it stores all of that.
    def operation(self, family, written):
        rng = self.rng
        free = [unit for unit in self.units if unit not in written]
        fresh = [unit for unit in free if unit not in self.held]
        if not free:
            return None
        dst = rng.choice(fresh if fresh and rng.random() < 0.7 else free)
        # Mostly of what was written last, so that units live shortly.
        late = sorted(self.held) if rng.random() < 0.2 else self.late[-3:]
        size = self.bytes_of(dst)
        sources = [unit for unit in late if unit not in written and unit != dst and self.bytes_of(unit) == size]
        image = self.is_image(dst)
        equal, other = self.some(image, sources), self.some(not image, sources)
        part = rng.random() < 0.3
        kinds = []
        if not image:
            kinds.append("fill_buffer")
        if equal:
            kinds += ["copy", "copy"]
        if other:
            kinds.append("across")
        if family != "transfer":
            kinds += ["ramp"] + (["clear_image"] if image else []) + (["map", "combine"] if equal else [])
        if family == "graphics" and image:
            kinds.append("draw")
        if not kinds:
            return None
        kind = rng.choice(kinds)
        if kind == "fill_buffer":
            filled = size // 2 if part else size
            return {"op": kind, "dst": dst, "offset": 0, "size": filled, "word": rng.randrange(2**32)}, [], dst, not part
        if kind == "clear_image":
            return {"op": kind, "dst": dst, "value": rng.randrange(2**32)}, [], dst, True
        if kind == "ramp":
            return {"op": kind, "dst": dst, "base": rng.randrange(99), "dx": 1, "dy": SIDE}, [], dst, True
        if kind == "draw":
            rects = [{"x": 0, "y": 1, "width": 2, "height": 2, "mix": "xor", "value": rng.randrange(2**32)}]
            clear = {} if part else {"clear": rng.randrange(2**32)}
            return {"op": kind, "dst": dst, **clear, "rects": rects}, [], dst, not part
        if kind == "across":
            src = rng.choice(other)
            return {"op": "buffer_to_image" if image else "image_to_buffer", "src": src, "dst": dst, "offset": 0}, [src], dst, True
        src = rng.choice(equal)
        if kind == "map":
            return {"op": kind, "src": src, "dst": dst, "fun": rng.choice(FUNS), "value": rng.randrange(99)}, [src], dst, True
        if kind == "combine":
            two = rng.choice(equal)
            return {"op": kind, "a": src, "b": two, "dst": dst, "fun": rng.choice(FUNS)}, [src, two], dst, True
        if image:
            side = self.units[dst]["image"][0]
            height = side // 2 if part else side
            corner = {"src_x": 0, "src_y": 0, "dst_x": 0, "dst_y": 0}
            return {"op": "copy_image", "src": src, "dst": dst, **corner, "width": side, "height": height}, [src], dst, not part
        copied = size // 2 if part else size
        return {"op": "copy_buffer", "src": src, "dst": dst, "src_offset": 0, "dst_offset": 0, "size": copied}, [src], dst, not part

    def one_pass(self, k):
        rng = self.rng
        queue = rng.randrange(len(self.families))
        reads, writes, ops = [], {}, []
        for _ in range(rng.randint(1, 3)):
            made = self.operation(self.families[queue], set(writes) | set(reads))
            if made is None:
                continue
            op, sources, dst, whole = made
            if not whole and dst not in self.held:
                continue
            writes[dst] = "new" if whole and (dst not in self.held or rng.random() < 0.8) else "change"
            reads += [unit for unit in dict.fromkeys(sources) if unit not in reads]
            ops.append(op)
        self.held |= set(writes)
        self.late = [unit for unit in self.late if unit not in writes] + list(writes)
        return {
            "name": f"p{k}",
            "queue": f"q{queue}",
            "reads": reads,
            "writes": [{kind: unit} for unit, kind in writes.items()],
            "ops": ops,
            "side_effect": rng.random() < 0.2,
        }

    def value(self):
        queues = [{"name": f"q{k}", "family": family} for k, family in enumerate(self.families)]
        return {"format": 2, "queues": queues, "resources": self.resources, "passes": self.passes, "exports": self.exports}

    def text(self):
        return json.dumps(self.value()).encode()


def some_flight(rng, passes):
    """The words and the frames of a flight: some of the frames have imports of names that persist. Now and then one has other queues, or
    a persisting name for a resource that is no import or has another size."""
    families = some_families(rng)
    names = [f"h{k}" for k in range(rng.randint(0, 3))]
    frames = []
    for _ in range(rng.choice([1, 2, 2, 3, 3, 4, 5, 6, 9])):
        own = families[:-1] + ["transfer"] if rng.random() < 0.02 else families
        sizes = {name: 4 * SIDE**2 + (4 if rng.random() < 0.02 else 0) for name in names if rng.random() < 0.8}
        frames.append(Frame(rng, passes, families=own, more=[imported(rng, name, size) for name, size in sizes.items()]).value())
    if rng.random() < 0.05:
        names.append("u0")
    words = ["flight", *(["--persist", ",".join(rng.sample(names, len(names)))] if names else [])]
    return words, frames


def compiled(program, rng, passes):
    """The text of a frame without a fault, and the submission that the program compiles it to."""
    while True:
        text = Frame(rng, passes).text()
        status, submission = answer(program, "compile", text)
        if status == 0:
            return text, submission
        if status != 2:
            raise Differs(f"status {status}", ["compile"], text)


def thinner(program, submission, rng):
    """The submission with one wait, item or signal fewer, if one of some that are tried is still accepted by the program."""
    for _ in range(12):
        other = copy.deepcopy(submission)
        batches = [batch for queue in other["queues"] for batch in queue["batches"]]
        if not batches:
            return None
        batch, member = rng.choice(batches), rng.choice(("waits", "items", "items", "signal"))
        if member == "signal":
            batch.pop("signal", None)
        elif batch.get(member):
            batch[member].pop(rng.randrange(len(batch[member])))
        if other != submission and answer(program, "check", packed(other))[0] == 0:
            return other
    return None
