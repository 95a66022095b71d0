#!/usr/bin/env python3
"""Times the calls of the table of caches against a copy of the same bytes, in the built program measure.

    bench/segments.py [--runs 5] [--program PROGRAM]

First on a whole image of 1920 by 1080 texels of four bytes (8,294,400 bytes), which is one segment, then on ranges between
two of 512 random places at which the table is cut. The program does a call as often as its words say. The time of a call is
the processor time of the user in a run with so many calls, less that of a run with none, divided by their number: the median
of several runs, all calls in turn. What a call does besides is taken off: of `put` the time in which the buffer that it
takes is made and let go, of a write-back of fresh lines that of `put`. To make a buffer of an image takes about as long as
the copy, a hundred times what these two may take, so on images their rows are noise, and can be below 0. They are bounded on
pieces of 256 bytes instead: the program makes 20,000 buffers, then puts them all, and a run that makes the buffers and lets
them go is taken off. A put touches no byte of what it stores, so its time is that on an image, but for giving back the buffer
whose place it takes. For each call one line: microseconds, the same as part of the copy of an image, and the most that it
may be. The status is 1 where one is more.
"""

import os
import sys
from pathlib import Path

sys.path.insert(0, str(Path(__file__).resolve().parent.parent / "tools/lib"))
from arguments import Arguments
from timed import measure, medians, well

# How often each is done. A table has room for 20,000 stores.
TIMES = {"copy": 400, "load": 400, "make": 2_000, "put": 2_000, "put-write": 2_000, "write": 200_000, "fill": 200_000}
RANDOM_TIMES = {"copy": 1_500, "load": 1_500, "make": 2_000, "put": 2_000, "put-write": 2_000, "write": 20_000, "fill": 20_000}

# Each large buffer comes fresh from the system, and goes back to it: else `make` would fill the same bytes again and again,
# which a cache holds, and `put`, whose buffers live longer, others each time.
FRESH = {"MALLOC_MMAP_THRESHOLD_": "65536", "GLIBC_TUNABLES": "glibc.malloc.mmap_threshold=65536"}

# What is printed, the word that is timed, the word whose time is taken off, and the most that it may be of a copy.
ROWS = [
    ("copy", "copy", None, None),
    ("load", "load", None, 1.2),
    ("put", "put", "make", None),
    ("write-back of fresh lines", "put-write", "put", None),
    ("write-back of clean lines", "write", None, 0.01),
    ("drop and fill", "fill", None, 0.01),
]

# On pieces of 256 bytes: so many rounds, each with so many buffers.
ROUNDS = 50
BUFFERS = 20_000
SMALL = ("small-make", "small-put", "small-put-write")
SMALL_ROWS = [
    ("put, buffers made before", "small-put", "small-make", 0.01),
    ("write-back of fresh lines", "small-put-write", "small-put", 0.01),
]


def once(program, word, times):
    """Processor time of the user in seconds."""
    return well([program, word, str(times)], env={**os.environ, **FRESH}).user


def measured(program, prefix, times, runs):
    """Microseconds of one call of each word."""

    def call(word, count):
        idle = once(program, prefix + word, 0)
        return [(once(program, prefix + word, count) - idle) / count * 1e6]

    found = medians(runs, [lambda word=word, count=count: call(word, count) for word, count in times.items()])
    return {word: median for word, (median,) in zip(times, found)}


def shown(title, rows, took, copy, bounded=True):
    """Prints the rows, and tells whether one is over its bound."""
    over = False
    print(f"{title:28} {'µs':>10} {'of copy':>9} {'at most':>8}")
    for name, word, less, most in rows:
        one = took[word] - (took[less] if less else 0)
        ratio = one / copy
        bound = f"{most:8.2f}" if bounded and most else ""
        print(f"{name:28} {one:10.2f} {ratio:9.5f} {bound}", flush=True)
        over = over or bool(bounded and most and ratio > most)
    return over


def main():
    options = Arguments(__doc__, program=measure, runs=5).parse_args()
    whole = measured(options.program, "", TIMES, options.runs)
    over = shown("whole image", ROWS, whole, whole["copy"])
    rounds = measured(options.program, "", dict.fromkeys(SMALL, ROUNDS), options.runs)
    small = {word: took / BUFFERS for word, took in rounds.items()}
    over = shown("256 bytes", SMALL_ROWS, small, whole["copy"]) or over
    random = measured(options.program, "random-", RANDOM_TIMES, options.runs)
    shown("random ranges", ROWS, random, random["copy"], bounded=False)
    sys.exit(1 if over else 0)


if __name__ == "__main__":
    main()
