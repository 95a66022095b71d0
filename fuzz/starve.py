#!/usr/bin/env python3
"""Lets each request for memory of the program fail in turn, and each of its first reads, writes and threads.

    fuzz/starve.py [--program PROGRAM] [--most 4000] [--calls 40] [--only WORD] [--ends | --memory] [--jobs 1]

A library that is loaded before the C library counts the requests for memory, the reads of standard input, the writes to standard output
and the threads that are started, and lets the one with a given number fail, or this one and all after it. Reads and writes are of one byte
where an end fails. For each case the program runs once as it is, and then twice for each request (at most so many): it has to end with
status 6 and print nothing, or to end and print as the first run did. It runs once for each of its first reads: status 4, nothing is printed,
and it reads no more. And for each of its first writes: status 5, printed is the front of the text, and it writes no more. A thread that is
not started changes nothing. One line for each case; the status is 0 where all did.
"""

import json
import os
import shutil
import subprocess
import sys
import tempfile
from pathlib import Path

sys.path.insert(0, str(Path(__file__).resolve().parent.parent / "tools/lib"))
from arguments import Arguments
from makers import BARRIER, PERSISTS, fill, packed, submission
from repository import FRAMES, SUBMISSIONS
from sides import answer, ran
from tally import Tally, by_threads, left_out
from traces import recorded

LIBRARY = r"""
#define _GNU_SOURCE
#include <dlfcn.h>
#include <errno.h>
#include <pthread.h>
#include <stdio.h>
#include <stdlib.h>
#include <sys/syscall.h>
#include <sys/types.h>
#include <unistd.h>

static long requests, reads, writes, threads;

static int fails(long *made, const char *name) {
    const char *number = getenv(name), *more = getenv("STARVE_ON");
    long call = __atomic_add_fetch(made, 1, __ATOMIC_SEQ_CST);
    return number && (call == atol(number) || (more && call > atol(number)));
}

#define REAL(type, name, ...) static type (*real)(__VA_ARGS__); if (!real) real = dlsym(RTLD_NEXT, name)

void *malloc(size_t size) {
    REAL(void *, "malloc", size_t);
    if (fails(&requests, "STARVE_AT")) { errno = ENOMEM; return NULL; }
    return real(size);
}

void *realloc(void *old, size_t size) {
    REAL(void *, "realloc", void *, size_t);
    if (fails(&requests, "STARVE_AT")) { errno = ENOMEM; return NULL; }
    return real(old, size);
}

int posix_memalign(void **to, size_t align, size_t size) {
    REAL(int, "posix_memalign", void **, size_t, size_t);
    if (fails(&requests, "STARVE_AT")) return ENOMEM;
    return real(to, align, size);
}

void *aligned_alloc(size_t align, size_t size) {
    REAL(void *, "aligned_alloc", size_t, size_t);
    if (fails(&requests, "STARVE_AT")) { errno = ENOMEM; return NULL; }
    return real(align, size);
}

ssize_t read(int file, void *into, size_t size) {
    if (file == 0) {
        if (fails(&reads, "STARVE_READ")) { errno = EIO; return -1; }
        if (size > 1 && getenv("STARVE_ONE")) size = 1;
    }
    return syscall(SYS_read, file, into, size);
}

ssize_t write(int file, const void *from, size_t size) {
    if (file == 1) {
        if (fails(&writes, "STARVE_WRITE")) { errno = EIO; return -1; }
        if (size > 1 && getenv("STARVE_ONE")) size = 1;
    }
    return syscall(SYS_write, file, from, size);
}

int pthread_create(pthread_t *one, const pthread_attr_t *how, void *(*work)(void *), void *with) {
    REAL(int, "pthread_create", pthread_t *, const pthread_attr_t *, void *(*)(void *), void *);
    if (fails(&threads, "STARVE_THREAD")) return EAGAIN;
    return real(one, how, work, with);
}

static void count(void) {
    if (getenv("STARVE_COUNT")) dprintf(2, "\n%ld %ld %ld %ld", requests, reads, writes, threads);
}

__attribute__((destructor)) static void ends(void) {
    count();
}

/* A program with threads leaves this way, and no destructor runs. */
void _exit(int status) {
    count();
    syscall(SYS_exit_group, status);
    __builtin_unreachable();
}
"""

WORDS = ("run", "run --tight", "meaning", "cull", "place", "bound", "compile", "compile --tight", "migrate", "auto", "auto --cost")


def two_lives():
    """Two buffers that share memory, one after another."""
    names = ("x", "m"), ("y", "n")
    return {
        "format": 1,
        "queues": [{"name": "g", "family": "graphics"}],
        "resources": [{"name": name, "buffer": size} for name, size in (("x", 512), ("y", 512), ("m", 4), ("n", 4))],
        "passes": [
            {
                "name": large,
                "queue": "g",
                "writes": [{"new": large}, {"new": small}],
                "ops": [
                    {"op": "fill_buffer", "dst": large, "offset": 0, "size": 512, "word": 1},
                    {"op": "copy_buffer", "src": large, "dst": small, "src_offset": 0, "dst_offset": 0, "size": 4},
                ],
            }
            for large, small in names
        ],
        "exports": ["m", "n"],
    }


def cases(program):
    """Words and input."""
    one = (FRAMES / "one_fill.json").read_bytes()
    two = (FRAMES / "ramp_and_map.json").read_bytes()
    for words in WORDS:
        for text in (one, two, packed(two_lives())):
            yield words, text
    yield "run --workers 4 --tend 3", two
    yield "run --trace", one
    for words in ("cull", "place", "bound", "migrate", "auto --cost"):
        yield words, (FRAMES / "deferred.json").read_bytes()
    yield "run", packed({**json.loads(one), "more": 7})
    yield "run", one.rstrip()[:-1]
    yield "gen --number 7 --passes 3", b""
    yield "gen --number 7 --passes 3 --summary", b""
    sound = packed(submission([fill(0, 1), BARRIER, fill(0, 2)]))
    for text in (sound, packed(submission([fill(0, 1), fill(0, 2)])), packed(submission([fill(1, 1)]))):
        for words in ("check", "exec", "exec --workers 4 --tend 3", "exec --trace"):
            yield words, text
    judged = recorded(program, sound)
    yield "audit", judged
    yield "audit", judged.replace(b"begin 0\n", b"", 1)
    yield "audit", judged.replace(b"begin 0\n", b"sync 1\n", 1)
    yield "audit", sound
    line = packed(PERSISTS) + b"\n"
    for depth in ("1", "2", "3"):
        yield f"flight --persist b --depth {depth}", line * 3
    yield "flight", line * 2
    yield "flight --persist c", line
    yield "flight", line + b"{}"
    yield "flight", b""
    yield "", b""
    yield "run a b", b""
    yield f"cull {FRAMES / 'one_fill.json'}", b""
    yield f"check {SUBMISSIONS / 'missing_barrier.json'} {SUBMISSIONS / 'missing_barrier_mended.json'}", b""
    yield f"check --json {SUBMISSIONS / 'missing_barrier.json'} {FRAMES} no_file", b""


class Starved(Tally):
    def __init__(self, program, library, options):
        super().__init__("starve", "runs")
        self.program, self.library, self.options = program, library, options

    def ended(self, words, data, **more):
        """Status, text, the numbers of requests, reads, writes and threads, and what else was said."""
        status, text, told = ran(self.program, words, data, env={"LD_PRELOAD": self.library, "STARVE_COUNT": "1", **more})
        said, _, counts = told.decode(errors="replace").rpartition("\n")
        self.look()
        return status, text, [int(number) for number in counts.split()] or [0] * 4, said

    def fails(self, words, what, found):
        self.tell(f"{what} of {words}: status {found[0]}, {found[1][:60]!r}, {found[2]}, {found[3][:200]!r}")

    def numbered(self, work, count):
        return by_threads(work, range(1, count + 1), self.options.jobs)

    def memory(self, words, data):
        status, text, (requests, _, _, threads), said = self.ended(words, data)

        def at(number, **more):
            found = self.ended(words, data, STARVE_AT=str(number), **more)
            if found[0] == 6 and found[1] == b"" and said.startswith(found[3]):
                return 1
            if (found[0], found[1], found[3]) != (status, text, said):
                self.fails(words, f"request {number}{' and all after it' if more else ''}", found)
            return 0

        most = min(requests, self.options.most)
        without = sum(self.numbered(at, most)) + sum(self.numbered(lambda number: at(number, STARVE_ON="1"), most))
        for number in range(1, min(threads, 16) + 1):
            found = self.ended(words, data, STARVE_THREAD=str(number))
            if (found[0], found[1], found[3]) not in ((status, text, said), (6, b"", "")):
                self.fails(words, f"thread {number}", found)
        return f"{requests} requests, {without} runs without memory, {threads} threads"

    def ends(self, words, data):
        one = {"STARVE_ONE": "1"}
        status, text, (_, reads, writes, _), said = self.ended(words, data, **one)

        def read(number):
            found = self.ended(words, data, STARVE_READ=str(number), **one)
            if (found[0], found[1], found[2][1], found[3]) != (4, b"", number, ""):
                self.fails(words, f"read {number}", found)

        def write(number):
            found = self.ended(words, data, STARVE_WRITE=str(number), **one)
            if (found[0], found[1], found[2][2]) != (5, text[: number - 1], number) or not said.startswith(found[3]):
                self.fails(words, f"write {number}", found)

        self.numbered(read, min(reads, self.options.calls))
        self.numbered(write, min(writes, self.options.calls))
        return f"{reads} reads, {writes} writes"

    def case(self, words, data):
        before, status = self.wrong, self.ended(words, data)[0]
        told = [] if self.options.ends else [self.memory(words, data)]
        told += [] if self.options.memory else [self.ends(words, data)]
        print(f"{words:34} {len(data):6} bytes, status {status}: {', '.join(told)}, {self.wrong - before} wrong", flush=True)


def main():
    parser = Arguments(__doc__, most=4000, calls=40, jobs=1)
    parser.add_argument("--only", default="")
    parser.add_argument("--ends", action="store_true")
    parser.add_argument("--memory", action="store_true")
    options = parser.parse_args()
    if not shutil.which("cc"):
        return left_out("cc (the library that lets calls fail)")
    with tempfile.TemporaryDirectory() as folder:
        library = os.path.join(folder, "starve.so")
        subprocess.run(["cc", "-O1", "-shared", "-fPIC", "-xc", "-", "-o", library, "-ldl"], input=LIBRARY, text=True, check=True)
        with Starved(options.program, library, options) as starved:
            for words, data in cases(options.program):
                if words.startswith(options.only) and (not words or words.startswith("run a b") or answer(options.program, words)[0] != 3):
                    starved.case(words, data)


if __name__ == "__main__":
    main()
