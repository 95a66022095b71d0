#!/usr/bin/env python3
"""Changes one small thing in each function of a crate, and lists the changes that no contract refuses.

    tools/mutate.py CRATE.. [--changes 3] [--seed 1] [--jobs 2]

Each round puts one change into each of some functions (another comparison, another constant, a line left out, two arguments
exchanged) and checks the crate once: the prover judges a function by the contracts of those that it calls, so it judges each
change by itself. It waits for a callee that is not proved, so no function of a round reaches another one by calls; there are
rounds until each function had so many changes. One that does not compile is taken back, and another one tried. All is done
on a copy of the repository with what was built there, so `rt all check` beforehand saves time. What is listed is for a
reader: a change may be right, and where it says "not judged", the prover did not look.
"""

import random
import re
import subprocess
import sys
from pathlib import Path

sys.path.insert(0, str(Path(__file__).resolve().parent.parent / "tools/lib"))
from arguments import Arguments
from repository import copied

HEAD = re.compile(r"^([ \t]*)(?:pub(?:\([a-z ]+\))?\s+)?(?:const\s+)?fn\s+(\w+)", re.M)

OTHERS = [
    (" < ", " <= "), (" <= ", " < "), (" > ", " >= "), (" >= ", " > "), (" == ", " != "), (" != ", " == "),
    (" && ", " || "), (" || ", " && "), (" + ", " - "), (" - ", " + "), (" * ", " + "), (" / ", " * "), (" % ", " / "),
    (" & ", " | "), (" ^ ", " | "), (" << ", " >> "), (" >> ", " << "), (".min(", ".max("), (".max(", ".min("),
    (".any(", ".all("), (".all(", ".any("), (".first()", ".last()"), (".last()", ".first()"), ("0..", "1.."),
    ("is_some()", "is_none()"), ("is_none()", "is_some()"), ("true", "false"), ("false", "true"),
]  # fmt: skip

# A pattern, and what stands in its place.
REWRITES = [
    (r"(?<![\w.])(\d+)(?![\w.]*\.\.)(?=\W)", lambda m: str(int(m[1]) + 1)),
    (r"(?<=[ (])!(?=[\w(])", lambda m: ""),
    (r"\b(if|while) (?!let)([^\n{]+) \{", lambda m: f"{m[1]} !({m[2]}) {{"),
    (r"(?<=\()(\w+), (\w+)(?=[,)])", lambda m: f"{m[2]}, {m[1]}"),
    (r"(?<=, )(\w+), (\w+)(?=\))", lambda m: f"{m[2]}, {m[1]}"),
    (r"\bSome\((?:[^()]|\([^()]*\))+\)(?! =>| =|\))", lambda m: "None"),
]

# The same for whole lines and for texts in quotes.
LINES = [
    (r"^[ \t]+[\w.&*:<>]+\([^\n]*\)\??;\n", lambda m: ""),
    (r"^[ \t]+(?!let\b)[\w.\[\]*]+ [-+|]?= [^\n]*;\n", lambda m: ""),
    (r"^([ \t]+let [^\n]*\?;\n)([ \t]+let [^\n]*\?;\n)", lambda m: m[2] + m[1]),
    (r"^([ \t]+[^\n]* => )([^\n{]*)(,\n)([ \t]+[^\n]* => )([^\n{]*)(,\n)", lambda m: m[1] + m[5] + m[3] + m[4] + m[2] + m[6]),
    (r'"([a-z_]+)"', lambda m: f'"{m[1]}s"'),
]


class Function:
    def __init__(self, file, name, start, end, body):
        self.file, self.name, self.start, self.end, self.body = file, name, start, end, body
        self.changes = changes(body)
        random.shuffle(self.changes)
        self.change, self.tried = None, 0

    def next(self):
        self.change = self.changes.pop() if self.changes else None

    def text(self):
        if self.change is None:
            return self.body
        start, end, new = self.change
        return self.body[:start] + new + self.body[end:]

    def told(self):
        start, end, new = self.change
        return f"{' '.join(self.body[start:end].split())!r} -> {' '.join(new.split())!r}"


def reached(all_functions):
    """For each function's name the names of those that it calls, and those that these call."""
    names = {f.name for f in all_functions}
    calls = {name: set() for name in names}
    for f in all_functions:
        calls[f.name] |= names & set(re.findall(r"\b(\w+)(?:::<[^()]*>)?\(", f.body))
    found = {name: set() for name in names}
    for name in names:
        left = [name]
        while left:
            new = calls[left.pop()] - found[name]
            found[name] |= new
            left += new
    return found


def changes(body):
    clauses = r"^[ \t]*(?:requires|ensures|invariant|decreases)\b[^\n]*"
    quiet = [m.span() for m in re.finditer(rf'"(?:[^"\\]|\\.)*"|//[^\n]*|{clauses}', body, re.M)]
    spoken = lambda at: not any(start <= at < end for start, end in quiet)
    found = [(m.start(), m.end(), new) for old, new in OTHERS for m in re.finditer(re.escape(old), body) if spoken(m.start())]
    found += [(m.start(), m.end(), new(m)) for old, new in REWRITES for m in re.finditer(old, body) if spoken(m.start())]
    found += [(m.start(), m.end(), new(m)) for old, new in LINES for m in re.finditer(old, body, re.M)]
    return [change for change in found if body[change[0] : change[1]] != change[2] and "alloc" not in change[2].split(",")[0]]


def functions(file):
    text = file.read_text()
    heads = list(HEAD.finditer(text))
    for head, following in zip(heads, heads[1:] + [None]):
        end = text.find(f"\n{head[1]}}}\n", head.end())
        if end < 0 or following and end > following.start():
            continue  # a trait's method without a body
        opened = re.compile(rf"^{head[1]}\{{\n", re.M).search(text, head.end(), end) or re.compile(r"\{\n").search(text, head.end(), end)
        if opened:
            yield Function(file, head[2], opened.end(), end + 1, text[opened.end() : end + 1])


def write(files, all_functions):
    """Writes each file with its changes, and gives where each function's body now stands."""
    spans = []
    for file, text in files.items():
        out, at = "", 0
        for f in (f for f in all_functions if f.file == file):
            out += text[at : f.start]
            spans.append((f, file, out.count("\n") + 1, out.count("\n") + 1 + f.text().count("\n")))
            out, at = out + f.text(), f.end
        file.write_text(out + text[at:])
    return spans


def checked(crate, jobs):
    done = subprocess.run(["rt", "check", "--allow-holes", "--jobs", str(jobs)], cwd=crate, capture_output=True, text=True)
    text = done.stdout + done.stderr
    return text, re.findall(r"^fn (\S+): (.*)$", text, re.M)


def compiled(crate, files, all_functions, jobs):
    """What the prover says of each function, once all changes that do not compile have made room for others."""
    for _ in range(99):
        spans = write(files, all_functions)
        text, said = checked(crate, jobs)
        if said:
            return said
        at = {(crate / name, int(line)) for name, line in re.findall(r"(src/[\w/]+\.rt):(\d+)", text)}
        wrong = [f for f, file, first, last in spans if f.change and any(file == g and first <= n <= last for g, n in at)]
        if not wrong:
            raise SystemExit(f"{crate.name} is not checked:\n{text[-2000:]}")
        for f in wrong:
            f.next()
    raise SystemExit(f"{crate.name}: too many changes that do not compile")


def verdict(said, module, name):
    """Refused where a goal of the function itself, or of a closure in it, is left without a proof."""
    own = [text for path, text in said if path.startswith(f"{module}::") and (path.split("::")[-1] == name or f"fn::{name}::" in path)]
    marks = ("did not prove", "expected", f".{name}.")
    if any(text == "not proved" or any(mark in text for mark in marks) for text in own):
        return "refused"
    return "not refused" if own and all(text == "no holes" for text in own) else "not judged"


def sources(crate):
    """The files of a crate that are not for tests alone."""
    tests = set(re.findall(r"#\[cfg\(test\)\]\s*mod (\w+);", (crate / "src/lib.rt").read_text()))
    return [f for f in sorted(crate.glob("src/**/*.rt")) if f.stem not in tests | {"lib"}]


def changed(all_functions, below, most):
    """Gives a change to each of some functions, no one of which reaches another, and says whether there are any."""
    chosen = []
    for f in sorted(all_functions, key=lambda f: f.tried):
        f.change = None
        if f.tried < most and f.changes and not any(g.name in below[f.name] or f.name in below[g.name] for g in chosen):
            f.next()
            f.tried += 1
            chosen.append(f)
    return bool(chosen)


def mutated(crate, most, jobs):
    files = {f: f.read_text() for f in sources(crate)}
    all_functions = [f for file in files for f in functions(file)]
    below = reached(all_functions)
    counts = {"refused": 0, "not refused": 0, "not judged": 0}
    while changed(all_functions, below, most):
        said = compiled(crate, files, all_functions, jobs)
        for f in (f for f in all_functions if f.change):
            name = f.file.relative_to(crate / "src").with_suffix("")
            word = verdict(said, "::".join([crate.name, *name.parts]), f.name)
            counts[word] += 1
            if word != "refused":
                line = files[f.file].count("\n", 0, f.start + f.change[0]) + 1
                print(f"{crate.name}/src/{name}.rt:{line}: {f.name}, {word}: {f.told()}", flush=True)
    for file, text in files.items():
        file.write_text(text)
    print(f"{crate.name}: {len(all_functions)} functions, " + ", ".join(f"{count} {word}" for word, count in counts.items()), flush=True)


def main():
    parser = Arguments(__doc__, program=None, changes=3, seed=1, jobs=2)
    parser.add_argument("crates", metavar="CRATE", nargs="+")
    options = parser.parse_args()
    with copied() as top:
        for name in options.crates:
            random.seed(options.seed)
            mutated(top / "crates" / name, options.changes, options.jobs)


if __name__ == "__main__":
    main()
