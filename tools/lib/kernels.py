"""Passes of the operations that random frames have seldom or never: of one byte a texel, of odd sides, with masks, offsets and rectangles."""

from makers import FUNS

GRAIN = {"r8": 1, "r32": 4}
MIXES = ["set", "and", "or", "xor"]


def image(name, sides, texel):
    return {"name": name, "image": list(sides), "texel": texel}


def number(rng):
    return rng.choice([0, 1, 7, 31, 32, 255, 256, 2**31, 2**32 - 1, rng.randrange(2**32)])


def ramp(rng, name):
    return {"op": "ramp", "dst": name, "base": number(rng), "dx": number(rng), "dy": number(rng)}


def rectangle(rng, width, height):
    x, y = rng.randrange(width), rng.randrange(height)
    mix = {"mix": rng.choice(MIXES)} if rng.random() < 0.8 else {}
    return {"x": x, "y": y, "width": rng.randint(1, width - x), "height": rng.randint(1, height - y), **mix, "value": number(rng)}


def operation(rng, name, width, height, texel):
    """Resources with their first operations, and one more operation that stores to the last of them."""
    own = [image(f"{name}s{k}", (width, height), texel) for k in range(3)]
    first, second, third = (one["name"] for one in own)
    out = image(f"{name}d", (width, height), texel)
    dst, bytes_in = out["name"], width * height * GRAIN[texel]
    kind = rng.choice(["select", "map", "combine", "convert", "box3", "halve", "histogram", "draw", "copy_image", "across", "clear_image", "fill"])
    if kind == "select":
        op = {"op": kind, "mask": first, "a": second, "b": third, "dst": dst}
    elif kind == "map":
        op = {"op": kind, "src": first, "dst": dst, "fun": rng.choice(FUNS), "value": number(rng)}
    elif kind == "combine":
        op = {"op": kind, "a": first, "b": rng.choice([first, second]), "dst": dst, "fun": rng.choice(FUNS)}
    elif kind == "convert":
        out["texel"] = rng.choice(["r8", "r32"])
        op = {"op": kind, "src": first, "dst": dst}
    elif kind == "box3":
        op = {"op": kind, "src": first, "dst": dst}
    elif kind == "halve":
        own[0]["image"] = [2 * width, 2 * height]
        op = {"op": kind, "src": first, "dst": dst}
    elif kind == "histogram":
        own[0]["texel"] = "r8"
        out = {"name": dst, "buffer": 1024}
        op = {"op": kind, "src": first, "dst": dst}
    elif kind == "draw":
        op = {"op": kind, "dst": dst, "clear": number(rng), "rects": [rectangle(rng, width, height) for _ in range(rng.randrange(4))]}
    elif kind == "copy_image":
        part = rectangle(rng, width, height)
        to = {"dst_x": rng.randint(0, width - part["width"]), "dst_y": rng.randint(0, height - part["height"])}
        op = {"op": kind, "src": first, "dst": dst, "src_x": part["x"], "src_y": part["y"], **to, "width": part["width"], "height": part["height"]}
    elif kind == "across":
        offset = 4 * rng.randrange(3)
        buffer = {"name": f"{name}b", "buffer": bytes_in + offset + rng.randrange(9)}
        whole = {"op": "image_to_buffer", "src": first, "dst": buffer["name"], "offset": offset}
        zeros = {"op": "fill_buffer", "dst": buffer["name"], "offset": 0, "size": buffer["buffer"], "word": number(rng)}
        buffer["buffer"] = zeros["size"] = (buffer["buffer"] + 3) // 4 * 4
        back = {"op": "buffer_to_image", "src": buffer["name"], "dst": dst, "offset": offset}
        return [own[0], buffer, out], [ramp(rng, first), zeros, whole], back
    elif kind == "clear_image":
        op = {"op": kind, "dst": dst, "value": number(rng)}
    else:
        out = {"name": dst, "buffer": 4 * width * height}
        op = {"op": "fill_buffer", "dst": dst, "offset": 0, "size": 4 * width * height, "word": number(rng)}
    used = [one for one in own if one["name"] in op.values()]
    before = [ramp(rng, one["name"]) for one in used]
    # What stores part of an image changes what stands there.
    before += [ramp(rng, dst)] if kind == "copy_image" else []
    return [*used, out], before, op


def further(rng, frame, count):
    """The frame with so many more passes, each on a queue of its own choice that may not run it, and each exported or not."""
    for k in range(count):
        name = f"k{k}"
        resources, before, op = operation(rng, name, rng.choice([1, 2, 3, 7, 8, 33]), rng.choice([1, 2, 5, 8]), rng.choice(["r8", "r32"]))
        queues = [one["name"] for one in frame["queues"] if one["family"] == "graphics"] or [frame["queues"][0]["name"]]
        if rng.random() < 0.1:
            queues = [one["name"] for one in frame["queues"]]
        frame["resources"] += resources
        one = {"name": name, "queue": rng.choice(queues), "writes": [{"new": one["name"]} for one in resources], "ops": [*before, op]}
        frame["passes"].insert(rng.randint(0, len(frame["passes"])), one)
        if len(frame["exports"]) < 32 and rng.random() < 0.7:
            frame["exports"].append(op["dst"])
    return frame
