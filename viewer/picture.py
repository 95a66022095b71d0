#!/usr/bin/env python3
"""Takes the picture of docs/VIEWER.md and README.md: examples/frames/deferred.json, as `./framec view` shows it.

    viewer/picture.py [--program PROGRAM] [--browser CHROMIUM]

It goes to docs/pictures/schedule.png. The status is 77 where there is no browser.
"""

import subprocess
import sys
import tempfile
from pathlib import Path

sys.path.insert(0, str(Path(__file__).resolve().parent.parent / "tools/lib"))
import browser
from arguments import Arguments, path_of
from repository import FRAMES, TOP

WIDTH, HEIGHT = 1900, 760


def main():
    parser = Arguments(__doc__)
    parser.add_argument("--browser", type=path_of)
    options = parser.parse_args()
    chromium = options.browser or browser.found()
    if not chromium:
        print("there is no browser: Debian's package chromium has one", file=sys.stderr)
        sys.exit(browser.NO_BROWSER)
    with tempfile.TemporaryDirectory() as room, browser.Browser(chromium) as opened:
        path = Path(room) / "page.html"
        with open(path, "wb") as page:
            subprocess.run([TOP / "viewer/view.py", options.program, FRAMES / "deferred.json"], stdout=page, check=True)
        page = opened.page(path.as_uri(), WIDTH, HEIGHT)
        page.settle()
        page.key("p")
        page.key("0")
        page.screenshot(TOP / "docs/pictures/schedule.png")


if __name__ == "__main__":
    main()
