#!/usr/bin/env python3
"""Looks whether what the docs name is there: files, items, clauses, crates.

    gate/names.py [--count]

Looked at are README.md, HACKING.md, docs/ and the README.md of each crate, outside of fenced blocks.

- A file that is named has to be there; a file of a crate that is named alone, in a crate that its line names, or else the line
  before it in the same section, or in the page's own.
- A name in backticks has to be a word of the sources, or a file or folder at the top.
- In the tables of docs/PROMISES.md each call has to be a function of its crate, and each clause one of that crate's; each function
  that a crate of the product hands out has to be named there. In the page's text a clause, or a field of one, has to be there.
- A sentence of README.md that says "proved" has to name a clause of docs/PROMISES.md.
- The tables of docs/ARCHITECTURE.md have to have one row for each crate of crates.txt: the crate, and what it does.
- The files of docs/MODEL.md's reading lists have to be there, with as many lines as it says, without imports. The sum of each list, in
  tens, stands in its list of these, and that of all in README.md. --count writes the lines, and prints the sums. (tools/definitions.py
  lists all files of definitions.)
"""

import re
import sys
from pathlib import Path

sys.path.insert(0, str(Path(__file__).resolve().parent.parent / "tools/lib"))
from arguments import Arguments
from repository import TOP, crates, product
from tally import Tally

PAGES = [TOP / "README.md", TOP / "HACKING.md", *sorted(TOP.glob("docs/*.md")), *sorted(TOP.glob("crates/*/README.md"))]
SOURCES = [path for end in ("rt", "antt", "edit") for path in sorted(TOP.glob(f"crates/*/**/*.{end}")) if "out" not in path.parts]
# What a build leaves is there once it was built.
BUILT = re.compile(r"(?:^|/)out/")
FILE = re.compile(r"[\w./*-]+\.(?:rt|antt|py|json|md|edit|svg|txt)|\b(?:docs|gate|bench|fuzz|tools|edits|examples|crates|specs|src|proofs)/[\w./*-]*")
# Names of the toolchain, of its library and of other programs, which stand in no source of the repository.
FOREIGN = set("rt ci cmake diff fmt plant tidy compile console RT_JOBS IntoIterator forget bufferImageGranularity minImageTransferGranularity maxTimelineSemaphoreValueDifference VkMemoryRequirements VK_PIPELINE_STAGE_2_NONE VkSubmitInfo2 _mended NAME PROGRAM OTHER CRATE COMMAND FILE UNIT BYTES LAYER K C N".split())

tally = Tally("names", "pages")


def problem(path, number, text):
    tally.tell(f"{path.relative_to(TOP)}:{number}: {text}")


CRATES = set(crates())
TEXTS = {path: path.read_text(encoding="utf-8") for path in SOURCES}
WORDS = set(re.findall(r"\w+", "\n".join(TEXTS.values()))) | set(re.findall(r"\w+", (TOP / "crates.txt").read_text(encoding="utf-8"))) | FOREIGN
WORDS |= {path.name for path in TOP.iterdir()}
for source in (*TOP.glob("vulkan/**/*"), *TOP.glob("viewer/*"), *TOP.glob("include/*"), *TOP.glob("examples/c*/*")):
    if source.suffix in (".h", ".cpp", ".hpp", ".cmake", ".py", ".sh", ".js", ".html"):
        WORDS |= set(re.findall(r"\w+", source.read_text(encoding="utf-8")))
for example in TOP.glob("examples/*/*.json"):
    WORDS |= set(re.findall(r"\w+", example.read_text(encoding="utf-8")))
FILES = {path.name for path in SOURCES}


def crate_of(path):
    parts = path.relative_to(TOP).parts
    return parts[1] if parts[0] == "crates" else None


FUNCTIONS, CLAUSES, FIELDS = {}, {}, set()
for path, text in TEXTS.items():
    if path.suffix == ".antt" and "specs" in path.parts:
        FIELDS |= set(re.findall(r"^\s*pub (\w+) :", text, re.M))
    if path.suffix == ".rt":
        FUNCTIONS.setdefault(crate_of(path), set()).update(re.findall(r"\bfn (\w+)", text))
        CLAUSES.setdefault(crate_of(path), set()).update(re.findall(r"\bensures (\w+)", text) + re.findall(r"\bghost (\w+)", text))


def lines_of(path):
    """The lines outside of fenced blocks, with their numbers."""
    fenced = False
    for number, line in enumerate(path.read_text(encoding="utf-8").splitlines(), 1):
        if line.startswith("```"):
            fenced = not fenced
        elif not fenced:
            yield number, line


def crates_in(line):
    """The crates that a line names: in backticks, alone or before what of them is meant."""
    return [word for word in re.findall(r"`(?:crates/)?(\w+)(?=`|/|::)", line) if word in CRATES]


def is_file(name, crates, page):
    """Whether a file is there by its path from the top, from crates/, from a crate or from the page, or by its name in one of these crates."""
    if "*" in name or "NAME" in name or BUILT.search(name) or name in ("specs/", "specs/Internal/", "src/", "proofs/"):
        return True
    if any((top / name).exists() for top in (TOP, TOP / "crates", page.parent, *(TOP / "crates" / crate for crate in crates))):
        return True
    if "/" in name:
        return any(f"/{path.relative_to(TOP)}".endswith(f"/{name}") for path in SOURCES if not crates or crate_of(path) in crates)
    if name.split(".")[-1] not in ("rt", "antt", "edit"):
        return any(TOP.glob(f"examples/*/{name}")) or any(TOP.glob(f"*/{name}")) or (TOP / "tools/lib" / name).exists()
    return any(path.name == name for path in SOURCES if not crates or crate_of(path) in crates)


def look_at(path):
    own = {crate_of(path)} - {None}
    last = set()
    for number, line in lines_of(path):
        last = set() if line.startswith("#") else last
        named = set(crates_in(line))
        last = named or last
        crates = own | (named or last)
        for name in FILE.findall(line):
            name = name.rstrip(".")
            if not is_file(name, crates, path):
                problem(path, number, f"no file {name}")
        for code in re.findall(r"`([^`]+)`", line):
            if FILE.search(code) or BUILT.search(code) or not re.fullmatch(r"[\w:{}, ./]+", code) or re.search(r"\d", code) and not re.search(r"[a-z_]{3}", code):
                continue
            for word in re.findall(r"[A-Za-z_]\w*", code):
                if word not in WORDS:
                    problem(path, number, f"no word {word} in the sources")


def rows(path):
    for number, line in lines_of(path):
        if line.startswith("|"):
            yield number, [cell.strip() for cell in re.split(r"(?<!\\)\|", line.strip().strip("|"))]


def calls_told(path):
    """The rows that tools/promises.py writes: the crate of the table, the call, and its clauses."""
    crate = None
    for number, line in lines_of(path):
        heading = re.match(r"### (\w+)$", line)
        crate = heading[1] if heading and heading[1] in CRATES else None if line.startswith("#") else crate
        found = re.match(r"\| `([\w:]+)` \|.*\| ([^|]*) \|$", line)
        if crate and found:
            yield number, crate, found[1].split("::")[-1], re.findall(r"`(\w+)`", found[2])


def look_at_promises():
    path = TOP / "docs/PROMISES.md"
    clauses = set()
    for number, crate, call, named in calls_told(path):
        clauses |= set(named)
        if call not in FUNCTIONS.get(crate, ()):
            problem(path, number, f"no {call} in {crate}")
        for clause in named:
            if clause not in CLAUSES.get(crate, ()):
                problem(path, number, f"no clause {clause} in {crate}")
    of_top = False
    for number, line in lines_of(path):
        # by hand: clauses in brackets, and the first two columns of the top call's table
        of_top = line.startswith("|") and (of_top or line.startswith("| clause | field |"))
        told = re.findall(r"\(clauses? ([^)]*)\)", line) + (line.split("|")[1:3] if of_top else [])
        for clause in re.findall(r"`(\w+)`", " ".join(told)):
            clauses.add(clause)
            if clause not in FIELDS and not any(clause in known for known in CLAUSES.values()):
                problem(path, number, f"no clause {clause}")
    return clauses


def look_at_calls():
    path = TOP / "docs/PROMISES.md"
    named = {(crate, call) for _, crate, call, _ in calls_told(path)}
    for crate in product():
        own = [text for source, text in TEXTS.items() if source.parent == TOP / "crates" / crate / "src" and source.suffix == ".rt"]
        handed = set(re.findall(r"\w+", " ".join(use for text in own for use in re.findall(r"^pub use ([^;]+);", text, re.M))))
        for line in "\n".join(own).splitlines():
            if line.startswith("impl"):
                plain = re.sub(r"<[^<>]*>", "", re.sub(r"<[^<>]*>", "", line))
                owner = plain.removeprefix("impl").split(" for ")[-1].split()[0]
            found = re.match(r"( *)pub fn (\w+)", line)
            if found and (owner if found[1] else found[2]) in handed and (crate, found[2]) not in named:
                problem(path, 1, f"no {found[2]} of {crate}")


def look_at_readme(clauses):
    path = TOP / "README.md"
    for number, line in lines_of(path):
        for sentence in re.split(r"(?<=[.:;!?])\s", line):
            if re.search(r"\bproved\b", sentence) and not line.startswith(("#", "|")) and not clauses & set(re.findall(r"`(\w+)`", line)):
                problem(path, number, f"no clause is named beside: {sentence}")


def look_at_architecture():
    path = TOP / "docs/ARCHITECTURE.md"
    found = set()
    for number, cells in rows(path):
        crate = cells[0].strip("`")
        if crate not in CRATES:
            continue
        if crate in found or len(cells) != 2:
            problem(path, number, f"a row for {crate} besides its one row, or with more than what it does")
        found.add(crate)
    for crate in sorted(set(CRATES) - found):
        problem(path, 1, f"no row for {crate}")
    for crate in CRATES:
        if not (TOP / "crates" / crate / "README.md").exists():
            problem(path, 1, f"crates/{crate} has no README.md")


# A file of a reading list, with its lines.
READING = re.compile(r"`(\w+/specs/[\w/]+\.antt)` \((\d+)\)")


def length(name):
    """How many lines a file of definitions has, without imports and empty lines."""
    lines = (TOP / "crates" / name).read_text(encoding="utf-8").splitlines()
    return sum(1 for line in lines if line.strip() and not line.startswith("use "))


def look_at_reading():
    path = TOP / "docs/MODEL.md"
    totals, heading = {}, ""
    for number, line in lines_of(path):
        heading = line if line.startswith("#") else heading
        for name, told in READING.findall(line):
            # (one that is not there is told already)
            lines = length(name) if (TOP / "crates" / name).exists() else 0
            totals[heading] = totals.get(heading, 0) + lines
            if lines and lines != int(told):
                problem(path, number, f"{name} has {lines} lines")
    tens = [f"{heading.removeprefix('### For ')} ({(total + 5) // 10 * 10})" for heading, total in totals.items()]
    if re.findall(r"^- (.+? \(\d+\))", path.read_text(encoding="utf-8").split("## An afternoon's reading\n", 1)[-1].split("\n## ", 1)[0], re.M) != tens:
        problem(path, 1, f"the reading lists have these lines: {'; '.join(tens)}")
    whole = f"{(sum(totals.values()) + 5) // 10 * 10:,}"
    if f"some {whole} lines" not in (TOP / "README.md").read_text(encoding="utf-8"):
        problem(TOP / "README.md", 1, f"the reading lists together have some {whole} lines")


def count():
    """Writes the lengths of the reading lists' files, and prints the sum of each list."""
    path = TOP / "docs/MODEL.md"
    totals, lines = {}, []
    heading = ""

    def counted(found):
        lines = length(found[1])
        totals[heading] = totals.get(heading, 0) + lines
        return f"`{found[1]}` ({lines})"

    for line in path.read_text(encoding="utf-8").splitlines():
        heading = line if line.startswith("#") else heading
        lines.append(READING.sub(counted, line))
    path.write_text("\n".join(lines) + "\n", encoding="utf-8")
    for heading, total in totals.items():
        print(f"{heading.strip('# ')}: {total} lines")


def main():
    parser = Arguments(__doc__, program=None)
    parser.add_argument("--count", action="store_true")
    if parser.parse_args().count:
        count()
    with tally:
        for path in PAGES:
            look_at(path)
            tally.look()
        look_at_readme(look_at_promises())
        look_at_calls()
        look_at_architecture()
        look_at_reading()


if __name__ == "__main__":
    main()
