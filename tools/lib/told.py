"""What an answer as JSON says, in the words of the text that the program prints without --json."""

import json


def compact(value):
    """The JSON text of a value, without spaces, with its members in their order."""
    return json.dumps(value, separators=(",", ":"), ensure_ascii=False)


def path(steps):
    """A place in a file."""
    return "$" + "".join(f".{step}" if isinstance(step, str) else f"[{step}]" for step in steps)


def fields(hazard):
    """What a hazard has behind its number, one after another."""
    _, _, *rest = hazard.values()
    return [one for value in rest for one in (value if isinstance(value, list) else [value])]


def verdict(told):
    if told["verdict"] == "sound":
        return f"accepted {told['nodes']} nodes\n"
    if told["verdict"] == "hazard":
        return " ".join(["hazard", told["hazard"], *map(str, fields(told))]) + "\n"
    limit = f" {told['limit']}" if "limit" in told else ""
    return f"fault {told['fault']}{limit} {path(told['path'])}\n"


def cull(told):
    passes = "".join(f"pass {one['name']} {'kept' if one['kept'] else 'culled'}\n" for one in told["passes"])
    return f"kept {told['kept']} culled {told['culled']}\n{passes}"


def place(told):
    units = "".join(f"{one['offset']} {one['size']} {one['unit']}\n" for one in told["units"])
    return f"heap {told['heap']} separate {told['separate']}\n{units}"


def bound(told):
    return f"bound {told['bound']} heap {told['heap']}\n" + "".join(f"{unit}\n" for unit in told["units"])


def cost(told):
    return f"cost {told['given']} {told['chosen']}\n"


def files(told):
    return "".join(f"{one['file']}: {verdict(one['answer'])}" for one in told["files"] if "answer" in one)


# The command line of each answer to one file, by the name of its schema.
WORDS = {"cull": "cull", "place": "place", "bound": "bound", "cost": "auto --cost", "check": "check"}
TEXTS = {"cull": cull, "place": place, "bound": bound, "cost": cost, "check": verdict, "files": files}


def text_of(kind, told):
    """The text that says the same."""
    return verdict(told) if "verdict" in told else TEXTS[kind](told)
