"""Random frames half of whose images are of one number: they are cleared, drawn over, and read by operations of each kind."""

from kernels import image, number, ramp, rectangle
from makers import FUNS

SIDES = [(6, 4), (3, 2), (12, 8)]
SCALES = [1, 1, 1, 1, 16]
TEXELS = ["r8", "r32"]
KINDS = "clear clear draw draw over map combine select convert box3 halve copy histogram ramp".split()


def whole(rng, sides):
    """A rectangle over all of an image, or nearly so."""
    one = rectangle(rng, *sides)
    one.update(x=0, y=0, width=sides[0], height=sides[1])
    if rng.random() < 0.8:
        one.pop("mix", None)
    if rng.random() < 0.2:
        one["width"] -= 1
    return one


def rectangles(rng, sides):
    return [whole(rng, sides) if rng.random() < 0.6 else rectangle(rng, *sides) for _ in range(rng.choice([0, 0, 1, 1, 1, 2]))]


class Cleared:
    """A frame: one pass an operation, and an image or buffer for each result."""

    def __init__(self, rng):
        self.rng = rng
        self.queues = [{"name": f"q{k}", "family": "graphics"} for k in range(rng.choice([1, 2, 3]))]
        scale = rng.choice(SCALES)
        self.sides = [(scale * width, scale * height) for width, height in SIDES]
        self.images, self.buffers, self.passes = [], [], []
        for _ in range(rng.randint(3, 24)):
            self.add()

    def alike(self, sides, texel=None):
        return [one for one in self.images if one[1] == sides and texel in (None, one[2])]

    def put(self, op, sources, dst, kind="new"):
        queue = self.rng.choice(self.queues)["name"]
        reads = list(dict.fromkeys(sources))
        self.passes.append({"name": f"p{len(self.passes)}", "queue": queue, "reads": reads, "writes": [{kind: dst}], "ops": [op]})

    def add(self):
        rng = self.rng
        kind = rng.choice(KINDS)
        sides, texel = rng.choice(self.sides), rng.choice(TEXELS)
        if kind == "over":
            return self.draw_over()
        if kind == "histogram":
            return self.count()
        out = f"i{len(self.images)}"
        made = self.operation(kind, out, sides, texel)
        if made is not None:
            op, sources = made
            self.images.append((out, sides, texel))
            self.put({**op, "dst": out}, sources, out)

    def operation(self, kind, out, sides, texel):
        """The operation without its destination, and its sources."""
        rng = self.rng
        if kind == "clear":
            return {"op": "clear_image", "value": number(rng)}, []
        if kind == "ramp":
            return ramp(rng, out), []
        if kind == "draw":
            return {"op": "draw", "clear": number(rng), "rects": rectangles(rng, sides)}, []
        from_sides = (2 * sides[0], 2 * sides[1]) if kind == "halve" else sides
        near = self.alike(from_sides, None if kind == "convert" else texel)
        if not near:
            return None
        one, two, three = (rng.choice(near)[0] for _ in range(3))
        if kind == "map":
            return {"op": "map", "src": one, "fun": rng.choice(FUNS), "value": number(rng)}, [one]
        if kind == "combine":
            return {"op": "combine", "a": one, "b": two, "fun": rng.choice(FUNS)}, [one, two]
        if kind == "select":
            return {"op": "select", "mask": one, "a": two, "b": three}, [one, two, three]
        if kind == "copy":
            corner = {"src_x": 0, "src_y": 0, "dst_x": 0, "dst_y": 0}
            return {"op": "copy_image", "src": one, **corner, "width": sides[0], "height": sides[1]}, [one]
        return {"op": kind, "src": one}, [one]

    def draw_over(self):
        if self.images:
            name, sides, _ = self.rng.choice(self.images)
            clear = {"clear": number(self.rng)} if self.rng.random() < 0.2 else {}
            self.put({"op": "draw", "dst": name, **clear, "rects": rectangles(self.rng, sides)}, [], name, "change")

    def count(self):
        bytes_only = [one for one in self.images if one[2] == "r8"]
        if bytes_only:
            name = f"b{len(self.buffers)}"
            self.buffers.append(name)
            src = self.rng.choice(bytes_only)[0]
            self.put({"op": "histogram", "src": src, "dst": name}, [src], name)

    def value(self):
        resources = [image(*one) for one in self.images] + [{"name": name, "buffer": 1024} for name in self.buffers]
        names = [one["name"] for one in resources]
        exports = self.rng.sample(names, min(len(names), 12))
        return {"format": 1, "queues": self.queues, "resources": resources, "passes": self.passes, "exports": exports}
