#!/usr/bin/env python3
"""Holds the JSON schemas of docs/schema against the examples and the program.

    gate/schemas.py [--program PROGRAM]

Each file of examples/ and each text that the program makes of one (`migrate`, `compile`, `auto`) has to be valid by its schema. Each file
with one member taken away, given twice another kind, or added has to be valid exactly where the program tells no fault of the form (F2,
F3, G11). What the commands answer with --json, to the examples, to one file with each fault that is found so, and to several files, has to be
valid and compact, with the members in the order of the schema, and to say what the text without --json says, with the same status. It wants
Python's package jsonschema, and says so where that is missing. The status is 1 where one does not hold.
"""

import copy
import json
import re
import sys
from pathlib import Path

sys.path.insert(0, str(Path(__file__).resolve().parent.parent / "tools/lib"))
from arguments import Arguments
from makers import packed
from repository import FLIGHTS, FRAMES, PROFILE, SUBMISSIONS, TOP
from sides import answer
from tally import Tally, left_out
from told import TEXTS, WORDS, compact, text_of

# What is put in the place of each member and entry.
OTHERS = (None, True, -1, 0.5, 4294967296, "", "x/9", [], {}, [0], {"unknown": 1})

# Files that are no frame and no submission, with keys that a text does not print as they are.
STRANGE = ("", "null", '{"a\\"b\\\\c":0,"format":2}', '{"\\u00e9\\n":0,"format":1}')

# Small files that have nearly every member, of both formats.
CHANGED = (("frame", "cull", "frames/layers.json"), ("frame", "cull", "frames/one_fill.json"), ("submission", "check", "submissions/wrong_owner_mended.json"))


def places(value, path=()):
    """The path of each member and entry, the file itself first."""
    yield path
    entries = value.items() if isinstance(value, dict) else enumerate(value) if isinstance(value, list) else ()
    for key, inner in entries:
        yield from places(inner, (*path, key))


def without(value, path):
    """The value without the member or entry."""
    changed = copy.deepcopy(value)
    inner = changed
    for key in path[:-1]:
        inner = inner[key]
    del inner[path[-1]]
    return changed


def with_other(value, path, other):
    """The value with another one in that place."""
    changed = [copy.deepcopy(value)]
    inner, keys = changed, (0, *path)
    for key in keys[:-1]:
        inner = inner[key]
    inner[keys[-1]] = copy.deepcopy(other)
    return changed[0]


def changed(value):
    """The file with each change in one place."""
    for path in places(value):
        if path:
            yield without(value, path)
        for other in OTHERS:
            yield with_other(value, path, other)


def objects(value):
    """Each object in a value."""
    if isinstance(value, dict):
        yield value
    for inner in value.values() if isinstance(value, dict) else value if isinstance(value, list) else ():
        yield from objects(inner)


class Holds(Tally):
    def __init__(self, program, validators, answers):
        super().__init__("schemas", "files")
        self.program, self.validators = program, validators
        self.answers = {kind: validators["answers"].evolve(schema={"$ref": f"#/$defs/{kind}", "$defs": answers["$defs"]}) for kind in TEXTS}
        self.orders = [list(schema["properties"]) for schema in objects(answers) if schema.get("type") == "object"]
        self.told = set()

    def ran(self, word, text):
        return answer(self.program, word, text)[1]

    def is_valid(self, what, kind, text):
        self.look()
        error = next(self.validators[kind].iter_errors(json.loads(text)), None)
        if error:
            self.tell(f"{what}: {error.message}"[:300])

    def is_ordered(self, value):
        """Whether the members of each object stand in the order of one of the schema."""
        return all(any(list(one) == [member for member in order if member in one] for order in self.orders) for one in objects(value))

    def says_the_same(self, what, kind, words, text=b""):
        """The answer as JSON is valid and canonical, and says what the text says."""
        self.look()
        plain, (status, printed) = answer(self.program, words, text), answer(self.program, [*words, "--json"], text)
        told = json.loads(printed)
        error = next(self.answers[kind].iter_errors(told), None)
        if error:
            self.tell(f"{what}: {error.message}"[:300])
        elif printed.decode() != compact(told) + "\n" or not self.is_ordered(told):
            self.tell(f"{what}: this is not canonical: {printed.decode()}"[:300])
        elif plain != (status, text_of(kind, told).encode()):
            self.tell(f"{what}: {plain} and {(status, printed)}"[:600])

    def tells_the_same(self, what, kind, text, line):
        """The same of a file with a fault, once for each line that is told."""
        if line.startswith(b"fault ") and (kind, line) not in self.told:
            self.told.add((kind, line))
            self.says_the_same(what, kind, [kind], text)

    def is_as_read(self, what, kind, word, value):
        """Valid exactly where the program tells no fault of the form."""
        self.look()
        line = self.ran(word, packed(value))
        self.tells_the_same(f"{word} < {what}, changed", word, packed(value), line)
        told = re.match(rb"fault (F2|F3|G11) ", line)
        if self.validators[kind].is_valid(value) == bool(told):
            self.tell(f"{what}: the program tells {told and told[0].decode()}, and the schema otherwise: {json.dumps(value)}"[:600])


def look_at(holds):
    """The examples, what the program makes of them, and changed ones."""
    frames = sorted(FRAMES.glob("*.json"))
    submissions = sorted([*SUBMISSIONS.glob("*.json"), *PROFILE.glob("*.json")])
    for path in frames:
        text = path.read_bytes()
        for word, kind in (("migrate", "frame"), ("auto", "frame"), ("compile", "submission")):
            holds.is_valid(f"{word} < {path.name}", kind, holds.ran(word, text))
    lines = [line for path in sorted(FLIGHTS.glob("*.json")) for line in path.read_bytes().splitlines()]
    for kind, texts in (("frame", [*(path.read_bytes() for path in frames), *lines]), ("submission", [path.read_bytes() for path in submissions])):
        for text in texts:
            holds.is_valid("an example", kind, text)
    for kind, line in WORDS.items():
        for path in submissions if kind == "check" else frames:
            holds.says_the_same(f"{kind} < {path.name}", kind, line.split(), path.read_bytes())
        for text in STRANGE:
            holds.says_the_same(f"{kind} < {text}", kind, line.split(), text.encode())
    for files in (submissions, [*frames, *submissions], [submissions[0], TOP / "examples", Path('no\u00e9"\\.json')]):
        holds.says_the_same("check of several files", "files", ["check", *map(str, files)])
    for kind, word, name in CHANGED:
        for value in changed(json.loads((TOP / "examples" / name).read_bytes())):
            holds.is_as_read(name, kind, word, value)


def main():
    program = Arguments(__doc__).parse_args().program
    try:
        import jsonschema
    except ImportError:
        return left_out("python3-jsonschema (the schemas)")
    schemas = {kind: json.loads((TOP / f"docs/schema/{kind}.schema.json").read_text(encoding="utf-8")) for kind in ("frame", "submission", "answers")}
    with Holds(program, {kind: jsonschema.Draft202012Validator(schema) for kind, schema in schemas.items()}, schemas["answers"]) as holds:
        look_at(holds)


if __name__ == "__main__":
    main()
