#!/usr/bin/env python3
"""Writes the tables of docs/PROMISES.md: each public call of the product, what it promises, and its clauses.

    tools/promises.py [--check]

A public call is a function, or a function of a type or trait, that the lib.rt of its crate hands out by `pub use`; or an
export for C. For each stand the first sentence of its doc comment, those behind it that name one of its clauses, and the names of
its `ensures` clauses. The crates stand as in crates.txt: those that the program and the library for C are made of.

The tables stand between two marker lines; what stands above the first one is written by hand. With --check nothing is
written, and the status is 1 where a line of the tables is stale.
"""

import difflib
import re
import sys
from pathlib import Path

sys.path.insert(0, str(Path(__file__).resolve().parent.parent / "tools/lib"))
from arguments import Arguments
from repository import TOP, product
from tally import Tally

PAGE = TOP / "docs/PROMISES.md"
FIRST, LAST = "<!-- tools/promises.py: begin -->", "<!-- tools/promises.py: end -->"

ITEM = re.compile(r"( *)(pub )?(?:unsafe )?(?:extern \"C\" )?fn (\w+)")
CLAUSE = re.compile(r"ensures (?:(\w+) )?\{")


def plain(text):
    """A type or an impl's head without what stands in angle brackets."""
    while re.search(r"<[^<>]*>", text):
        text = re.sub(r"<[^<>]*>", "", text)
    return text


def sentences(comment):
    """Each up to a stop behind which a sentence begins, or nothing does; a stop within brackets ends none."""
    begin, depth = 0, 0
    for at, letter in enumerate(comment):
        depth += (letter == "(") - (letter == ")")
        if letter == "." and not depth and re.match(r" [A-Z`]|$", comment[at + 1 :]):
            yield comment[begin : at + 1].strip()
            begin = at + 1
    if comment[begin:].strip():
        yield comment[begin:].strip()


def clauses_of(lines, at, indent):
    """The clauses of the function whose first line is at this place: their names, "" for one without."""
    found = []
    for line in lines[at:]:
        own = len(line) - len(line.lstrip())
        if line.strip() and own <= indent and line is not lines[at] and not re.match(r" *(\)|where$)", line):
            break
        clause = CLAUSE.match(line.strip())
        if clause and own == indent + 4:
            found.append(clause[1] or "")
        # a body that begins at the end of the head has no clause before it
        if own <= indent and line.endswith("{"):
            break
    return found


class Call:
    """A function that a file defines: of which type or trait, whether by a trait's implementation, and what is said of it."""

    def __init__(self, owner, trait, name, comment, clauses):
        self.owner, self.trait, self.name, self.comment, self.clauses = owner, trait, name, comment, clauses


def calls_in(text):
    """The functions of a file that may be handed out."""
    lines = text.splitlines()
    owner, trait, is_open, comment = None, None, False, []
    for at, line in enumerate(lines):
        if line.startswith(("impl", "pub trait ")):
            head = plain(" ".join(lines[at : at + 4]).split("{")[0])
            if line.startswith("impl"):
                owner, trait = head.removeprefix("impl").split(" for ")[-1].split()[0], head.split()[1] if " for " in head else None
            else:
                owner, trait = re.match(r"pub trait (\w+)", head)[1], None
            # functions of a trait, and of one that is implemented, have no word that hands them out
            is_open = line.startswith("pub trait") or trait is not None
        elif line.startswith("}"):
            owner, trait, is_open = None, None, False
        item = ITEM.match(line)
        if item and (item[2] or owner and is_open) and len(item[1]) == (4 if owner else 0):
            yield Call(owner, trait, item[3], " ".join(comment), clauses_of(lines, at, len(item[1])))
        if line.strip().startswith("///"):
            comment.append(line.strip().removeprefix("///").strip())
        elif not line.strip().startswith("#["):
            comment = []


def crate_calls(crate):
    """The public calls of a crate, in the order in which its lib.rt hands them out."""
    src = TOP / "crates" / crate / "src"
    files = sorted(src.rglob("*.rt"), key=lambda path: (path.relative_to(src).with_suffix("").parts, path))
    texts = [path.read_text(encoding="utf-8") for path in files]
    lib = src / "lib.rt"
    uses = re.findall(r"^pub use ([^;]+);", lib.read_text(encoding="utf-8"), re.M) if lib.exists() else []
    handed = [name for use in uses for name in re.findall(r"\w+", use.split("::", 1)[-1] if "{" in use else use.split("::")[-1])]
    exports = [name for text in texts for name in re.findall(r"#\[unsafe\(no_mangle\)\]\npub extern \"C\" fn (\w+)", text)]
    calls = [call for text in texts for call in calls_in(text)]
    for name in handed + exports:
        for call in calls:
            if call.owner == name and (call.trait is None or call.clauses) or call.owner is None and call.name == name:
                yield call


def clause_cell(call):
    if not call.clauses:
        return "none"
    names = [f"`{name}`" for name in call.clauses if name]
    without = call.clauses.count("")
    if without:
        names.append("unnamed" if without == 1 else f"{without} unnamed")
    return ", ".join(names)


def row(call):
    name = f"{call.owner}::{call.name}" if call.owner else call.name
    parts = list(sentences(call.comment))
    told = parts[:1] + [part for part in parts[1:] if any(f"`{clause}`" in part for clause in call.clauses)]
    said = " ".join(told).replace("|", "\\|") or (f"As `{call.trait}::{call.name}`." if call.trait else "")
    return f"| `{name}` | {said} | {clause_cell(call)} |"


def tables():
    """The lines between the markers, and how many calls they have."""
    lines, count = [], 0
    for crate in product():
        rows = [row(call) for call in crate_calls(crate)]
        if rows:
            lines += ["", f"### {crate}", "", "| call | what it promises | clauses |", "|---|---|---|", *rows]
        count += len(rows)
    return [*lines, ""], count


def look_at(tally, old, new):
    """Tells each line that is not as it would be written."""
    for sign, line in ((line[0], line[1:]) for line in list(difflib.unified_diff(old, new, n=0, lineterm=""))[2:]):
        if sign != "@":
            tally.tell(f"{PAGE.relative_to(TOP)}: {sign}{line}")


def main():
    parser = Arguments(__doc__, program=None)
    parser.add_argument("--check", action="store_true")
    is_check = parser.parse_args().check
    page = PAGE.read_text(encoding="utf-8").splitlines()
    if page.count(FIRST) != 1 or page.count(LAST) != 1:
        sys.exit(f"{PAGE.relative_to(TOP)} does not have the two lines {FIRST} and {LAST}")
    begin, end = page.index(FIRST) + 1, page.index(LAST)
    with Tally("promises", "calls") as tally:
        lines, count = tables()
        tally.look(count)
        if is_check:
            look_at(tally, page[begin:end], lines)
        else:
            PAGE.write_text("\n".join([*page[:begin], *lines, *page[end:]]) + "\n", encoding="utf-8")


if __name__ == "__main__":
    main()
