"""Texts that are changed in one place, cut and spliced."""

import copy
import json

NUMBERS = [0, 1, 2, 3, 7, 255, 256, 257, 4095, 4096, 4097, 16_777_216, 16_777_217, 2**32 - 1, 2**32, 2**64 - 1, 2**64]
WORDS = ["", "u0", "q0", "g", "r8", "r32", "GENERAL", "UNDEFINED", "COPY", "ALL_COMMANDS", "HOST", "TRANSFER_WRITE", "a/0", "é", "x" * 33]
STRANGE = [None, True, -1, 1.0, 1e3, "1", [], {}, [0], {"a": 0}]


def spots(value):
    """Each list or object in a value, with each of its positions or keys."""
    todo, found = [value], []
    while todo:
        one = todo.pop()
        keys = range(len(one)) if isinstance(one, list) else one if isinstance(one, dict) else ()
        found += [(one, key) for key in keys]
        todo += [one[key] for key in keys]
    return found


def other_number(rng, number):
    return rng.choice([number + 1, max(number - 1, 0), 2 * number, number + 256, rng.choice(NUMBERS), rng.randrange(2**32)])


def other_text(rng, text, peers):
    """Another text: a mask with a name fewer or more, or one of some words."""
    names = text.split("|")
    if text.isupper() and rng.random() < 0.8:
        return rng.choice(["|".join(names[1:]), "|".join(names[:-1]), "|".join([*names, rng.choice(peers)])])
    return rng.choice([rng.choice(WORDS), text[:-1], text.lower(), text + rng.choice("x/|0 ")])


def other_list(rng, items):
    items = list(items)
    if not items:
        return [0]
    at, to = rng.randrange(len(items)), rng.randrange(len(items))
    way = rng.randrange(5)
    if way == 0:
        items.insert(to, copy.deepcopy(items[at]))
    elif way == 1:
        items.insert(to, items.pop(at))
    elif way == 2:
        items[at:] = []
    else:
        items.pop(at)
    return items


def other_object(rng, members):
    members = dict(members)
    way = rng.randrange(4)
    name = rng.choice(list(members) or ["a"])
    if way == 0:
        members[rng.choice(["more", "layers", "sharing", "import", "clear", "signal", "é"])] = rng.choice([1, 2, "concurrent", "00000000"])
    elif way == 1 and name in members:
        members[name + "s"] = members.pop(name)
    else:
        members.pop(name, None)
    return members


def other_value(rng, value, peers):
    """Mostly another value of the same kind, or one of its peers."""
    if rng.random() < 0.04:
        return copy.deepcopy(rng.choice(STRANGE))
    if rng.random() < 0.5:
        return copy.deepcopy(rng.choice(peers))
    if isinstance(value, bool):
        return not value
    if isinstance(value, int):
        return other_number(rng, value)
    if isinstance(value, str):
        return other_text(rng, value, peers)
    if isinstance(value, list):
        return other_list(rng, value)
    if isinstance(value, dict):
        return other_object(rng, value)
    return 0


def changed(rng, value):
    """The JSON value with another value in one place, mostly one that stands under the same key elsewhere; or two places exchanged."""
    value = copy.deepcopy(value)
    found = spots(value)
    if not found:
        return other_value(rng, value, WORDS)
    parent, key = rng.choice(found)
    alike = [(other, place) for other, place in found if type(other[place]) is type(parent[key]) and (place == key or isinstance(key, int))]
    if rng.random() < 0.1:
        other, place = rng.choice(alike)
        parent[key], other[place] = copy.deepcopy(other[place]), copy.deepcopy(parent[key])
    else:
        parent[key] = other_value(rng, parent[key], [other[place] for other, place in alike])
    return value


def grafted(rng, value, donor):
    """The JSON value with one of its lists or objects in place of which stands one of another value, mostly of the same key."""
    value = copy.deepcopy(value)
    found = [(parent, key) for parent, key in spots(value) if isinstance(parent[key], (list, dict))]
    if not found:
        return donor
    parent, key = rng.choice(found)
    givers = [(other, place) for other, place in spots(donor) if isinstance(other[place], type(parent[key]))]
    alike = [giver for giver in givers if giver[1] == key or isinstance(key, int) and isinstance(giver[1], int)]
    if alike or givers:
        other, place = rng.choice(alike or givers)
        parent[key] = copy.deepcopy(other[place])
    return value


def written(rng, value):
    """The text of a value, with or without spaces, in one line."""
    separators = rng.choice([(",", ":"), (", ", ": "), (" , ", " : ")])
    return json.dumps(value, separators=separators, ensure_ascii=rng.random() < 0.8, sort_keys=rng.random() < 0.3).encode()


def bytes_changed(rng, text):
    """One byte changed, dropped or put in."""
    at = rng.randrange(len(text) + 1)
    byte = bytes([rng.choice([rng.randrange(256), *b'{}[]",:0 -.e\\\n'])])
    return rng.choice([text[:at] + byte + text[at + 1 :], text[:at] + text[at + 1 :], text[:at] + byte + text[at:]])


def cut(rng, text):
    return text[: rng.randrange(len(text) + 1)]


def spliced(rng, text, other):
    """The front of a text and the end of another one."""
    return cut(rng, text) + other[rng.randrange(len(other) + 1) :]


EVENTS = ["begin", "end", "sync", "host", "writeback", "fill", "drop", "events"]


def other_line(rng, line):
    """A line of a trace with another word, number or space."""
    words = line.split(" ")
    at = rng.randrange(1, len(words)) if len(words) > 1 else 0
    number = int(words[at]) if words[at].isdigit() else 0
    way = rng.randrange(12)
    if way < 3:
        words[0] = rng.choice(EVENTS)
    elif way < 7:
        words[at] = str(other_number(rng, number))
    elif way == 7:
        words[at] = rng.choice(["0", "+", "-"]) + words[at]
    elif way == 8:
        words.insert(at, rng.choice(["", "0", "1"]))
    elif way == 9:
        words.pop(at)
    elif way == 10:
        words[-1] += rng.choice([" ", "\r", "\t", "x", "é"])
    else:
        words = [" ".join(words).capitalize()]
    return " ".join(words)


def other_trace(rng, lines):
    """The lines of a trace, `events N` before them, with one of them changed, dropped, doubled or moved. Mostly it is no cache move, and
    the count is mostly right."""
    nodes = [k for k, line in enumerate(lines) if k == 0 or line.split(" ")[0] in EVENTS[:4]]
    at = rng.choice(nodes) if rng.random() < 0.8 else rng.randrange(len(lines))
    lines = list(lines)
    way = rng.randrange(4)
    if way == 0:
        lines[at] = other_line(rng, lines[at])
        return lines
    if way == 1:
        lines.pop(at)
    elif way == 2:
        lines.insert(at, lines[at])
    else:
        lines.insert(rng.choice([max(at - 1, 0), at + 1, rng.randrange(len(lines))]), lines.pop(at))
    if rng.random() < 0.7 and lines and lines[0].startswith("events "):
        lines[0] = f"events {len(lines) - 1}"
    return lines


def trace_text(rng, lines):
    """Mostly each line has a line end."""
    text = "".join(f"{line}\n" for line in lines).encode()
    return text[:-1] if rng.random() < 0.05 else text
