#!/usr/bin/env python3
"""Makes one page of a frame or a submission: the viewer, with the file and what the program says of it.

    viewer/view.py PROGRAM [--trace] [FILE]

The page goes to standard output. Without FILE, or with -, the file comes from standard input. A frame is compiled, checked, placed
and bounded, a submission is checked; with --trace what it compiles to, or it itself, is run, and the events of the device are the
page's time. The status is 0 where the page has a picture, of a hazard too; 2 where the file has a fault, which the page tells; 4
where the file is not read, 5 where the page is not written, and 3 where the words are no command line.
"""

import json
import re
import subprocess
import sys
from pathlib import Path

HERE = Path(__file__).resolve().parent


def asked(program, words, text):
    """The status and the text of the program, which has to end with an answer."""
    done = subprocess.run([program, *words], input=text, stdout=subprocess.PIPE)
    if done.returncode not in (0, 1, 2):
        print(f"view: {' '.join(words)} ended with status {done.returncode}", file=sys.stderr)
        sys.exit(done.returncode if done.returncode > 0 else 6)
    return done.returncode, done.stdout.decode(errors="replace")


def is_frame(text):
    """Whether a file is meant as a frame: what has passes or resources is."""
    try:
        value = json.loads(text)
    except (ValueError, RecursionError):
        return False
    return isinstance(value, dict) and ("passes" in value or "resources" in value) and "memories" not in value


def verdict(texts):
    return json.loads(texts["check"])["verdict"]


def texts_of(program, text, traced):
    """What the page is given: the file, and what the program says of it."""
    given = {}
    submission = text
    if is_frame(text):
        given["frame"] = text.decode(errors="replace")
        status, compiled = asked(program, ["compile"], text)
        if status:
            # A fault, which is told as an answer of every command is.
            return {**given, "check": asked(program, ["place", "--json"], text)[1]}
        submission = compiled.encode()
        given.update((word, asked(program, [word, "--json"], text)[1]) for word in ("cull", "place", "bound"))
    given["submission"] = submission.decode(errors="replace")
    given["check"] = asked(program, ["check", "--json"], submission)[1]
    if traced and verdict(given) == "sound":
        given["trace"] = asked(program, ["exec", "--trace"], submission)[1]
    return given


def element(name, texts):
    """The data of the page as JSON, in which `<` is written so that no element can begin or end in it."""
    data = json.dumps({"name": name, "texts": texts}).replace("<", "\\u003c")
    return f'<script type="application/json" id="data">{data}</script>\n'


def page(name, texts):
    """The page with its scripts, its style sheet and the data in it."""
    html = (HERE / "index.html").read_text(encoding="utf-8")
    inside = lambda found: (HERE / found[1]).read_text(encoding="utf-8")
    html = re.sub(r'<link rel="stylesheet" href="([\w.]+)">', lambda found: f"<style>\n{inside(found)}</style>", html)
    html = re.sub(r'<script src="([\w.]+)"></script>', lambda found: f"<script>\n{inside(found)}</script>", html)
    return html.replace("<!-- data -->\n", element(name, texts))


def main():
    words = sys.argv[1:]
    traced = "--trace" in words
    program, *files = [word for word in words if word != "--trace"] or [None]
    if program is None or len(files) > 1 or any(file.startswith("-") and file != "-" for file in files):
        print("words")
        sys.exit(3)
    name = files[0] if files else "-"
    try:
        text = sys.stdin.buffer.read() if name == "-" else Path(name).read_bytes()
    except OSError as error:
        print(f"view: {error}", file=sys.stderr)
        sys.exit(4)
    texts = texts_of(program, text, traced)
    try:
        sys.stdout.buffer.write(page("standard input" if name == "-" else Path(name).name, texts).encode())
        sys.stdout.buffer.flush()
    except OSError as error:
        print(f"view: {error}", file=sys.stderr)
        sys.exit(5)
    sys.exit(2 if verdict(texts) == "fault" else 0)


if __name__ == "__main__":
    main()
