"""What a script has looked at, and what of it is wrong."""

import os
import sys
import tempfile
import threading
from concurrent.futures import ThreadPoolExecutor


def left_out(what):
    """Tells what a script does not look at, for want of a tool or of a word that a program knows."""
    print(f"left out: {what}", file=sys.stderr, flush=True)


def by_threads(work, things, jobs):
    """The results of the work on each thing, by so many threads. What one of them raises ends all."""
    with ThreadPoolExecutor(jobs) as pool:
        try:
            return list(pool.map(work, things))
        except BaseException:
            pool.shutdown(wait=False, cancel_futures=True)
            raise


class Differs(Exception):
    """What is wrong, with the words and the input. The script ends with it."""

    def __init__(self, what, words, text):
        super().__init__(what)
        self.what, self.words, self.text = what, words, text

    def told(self):
        """What is wrong, and where the input is kept."""
        file, name = tempfile.mkstemp(prefix="difference_")
        with os.fdopen(file, "wb") as kept:
            kept.write(self.text)
        return f"{' '.join(self.words)} < {name}\n{self.what}"


class Tally:
    """Counts what is looked at, and tells what is wrong. `with` it a script ends with the line `WHAT: N things, M wrong`, and
    with status 1 where something is. Threads may share it."""

    def __init__(self, what, things):
        self.what, self.things = what, things
        self.looked, self.wrong = 0, 0
        self.lock = threading.Lock()

    def look(self, count=1):
        with self.lock:
            self.looked += count

    def tell(self, what):
        """One thing is wrong."""
        with self.lock:
            self.wrong += 1
            print(what, file=sys.stderr, flush=True)

    def expect(self, what, got, wanted):
        if got != wanted:
            self.tell(f"{what}: got {got!r}, wanted {wanted!r}"[:900])

    def each(self, work, things, jobs):
        """The results of the work on each thing, which is then looked at, by so many threads. The first difference ends all."""

        def done(thing):
            result = work(thing)
            self.look()
            return result

        return by_threads(done, things, jobs)

    def __enter__(self):
        return self

    def __exit__(self, kind, raised, _):
        if isinstance(raised, Differs):
            self.look()
            self.tell(raised.told())
        elif kind:
            return
        print(f"{self.what}: {self.looked} {self.things}, {self.wrong} wrong")
        sys.exit(1 if self.wrong else 0)
