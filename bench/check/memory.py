#!/usr/bin/env python3
"""Refuses one growth of memory after another, and looks at how each run ends.

usage: memory.py [PROGRAM [TESTS]] [NAME=PROGRAM ..]

PROGRAM is run on small pages, over real files and streams, with its first request for memory refused, then with its
second one, and so on until a run asks less often. Each run has to end with its whole answer, or with status 5, `potrace:
out of memory` as its last message, and only whole documents, the first ones, written. TESTS is the program of the
tests, crates/potrace_tests/out/potrace_tests_tests, which `rt test` leaves there; its test `memory_refused` does the same over
files and documents in memory, and has to pass each time. A library that stands before the C library's malloc, calloc
and realloc counts and refuses. NAME is another program, `point_fill` or `mkbitmap`, which read standard input and write a document,
and PROGRAM where it stands: with status 5 it may write nothing. It needs python3 and a C compiler, cc, on Linux with glibc.
"""
import os
import shutil
import subprocess
import sys
import tempfile

REFUSES = r"""
#include <errno.h>
#include <fcntl.h>
#include <stdatomic.h>
#include <stdlib.h>
#include <sys/mman.h>
#include <unistd.h>

void *__libc_malloc(size_t);
void *__libc_calloc(size_t, size_t);
void *__libc_realloc(void *, size_t);

static atomic_long none, *calls = &none;
static long refused;

__attribute__((constructor)) static void begin(void) {
  const char *name = getenv("CALLS"), *n = getenv("REFUSED");
  int file = name ? open(name, O_RDWR) : -1;
  void *at = mmap(NULL, sizeof none, PROT_READ | PROT_WRITE, MAP_SHARED, file, 0);
  if (at == MAP_FAILED || !n) abort();
  close(file);
  refused = atol(n);
  calls = at;
}

static int is_refused(void) {
  int is = atomic_fetch_add(calls, 1) + 1 == refused;
  if (is) errno = ENOMEM;
  return is;
}

void *malloc(size_t n) { return is_refused() ? NULL : __libc_malloc(n); }
void *calloc(size_t n, size_t m) { return is_refused() ? NULL : __libc_calloc(n, m); }
void *realloc(void *p, size_t n) { return is_refused() ? NULL : __libc_realloc(p, n); }
"""

PIXEL = b"P1 1 1 1\n"
RINGS = b"P1 5 5 11111 10001 10101 10001 11111\n"
# Longer than the first blocks that are read, so that the reader asks for more room; where it gets none, the answer is whole.
LONG = b"P4 512 512\n" + b"\x80" + bytes(32767)
FILES = {"a.pbm": b"P1 1 1 1\nP1 1 1 0\nxyz", "b.pbm": b"P1 2 1 01\nP1 1 1 1\n"}
ROWS = [
    ("-b points -z left -t 0", PIXEL),
    ("-b polygons -z left -t 0", PIXEL),
    ("-b polygons -t 0", RINGS),
    ("-s -t 0", PIXEL),
    ("-e -t 0", RINGS),
    ("-b ps -t 0", PIXEL + RINGS),
    ("-b dxf -a 0 -t 0", PIXEL),
    ("-b geojson -t 0", RINGS),
    ("-b points -t 0", LONG),
    ("--demo 3", b""),
    ("-h", b""),
    ("-q", b""),
    ("-b points -t 0 --workers 1 a.pbm b.pbm", b""),
    ("-b points -t 0 --workers 4 a.pbm b.pbm", b""),
]
# Of another program, texts that it reads, with words or without one.
SMALL = {
    "point_fill": [("", b"points 2 2 2\n+ 1 0,2 0,1 1,1 1,2\n+ 1 1,1 1,0 2,0 2,1\n"), ("", b"points"), ("-h", b"")],
    "mkbitmap": [
        ("", b"P2 2 2 9 0 9 9 0\n"), ("--box 64 --times 8 --level 0.5", b"P5 9 9 255\n" + bytes(81)), ("", b"P5 2 3 255\n" + bytes(5)),
        ("", b"P4"), ("-h", b""), ("-q", b""),
    ],
}
# Of the two files: their documents, in order, and the note that is said behind so many of them.
DOCUMENTS = ["a.points", "a-2.points", "b.points", "b-2.points"]
OUT_OF_MEMORY = b"potrace: out of memory\n"


def run(library, n, words, data=b"", folder=None):
    """What a run wrote, said and ended with where its n-th request is refused, and how often it asked."""
    calls = os.path.join(os.path.dirname(library), "calls")
    with open(calls, "wb") as it:
        it.write(bytes(8))
    env = {**os.environ, "LD_PRELOAD": library, "REFUSED": str(n), "CALLS": calls}
    ran = subprocess.run(words, input=data, capture_output=True, cwd=folder, env=env, timeout=60)
    with open(calls, "rb") as it:
        return ran, int.from_bytes(it.read(), sys.byteorder)


def documents(folder):
    """The documents in a folder, by their names, which are taken away."""
    found = {}
    for name in sorted(os.listdir(folder)):
        if name.endswith(".points"):
            with open(os.path.join(folder, name), "rb") as it:
                found[name] = it.read()
            os.remove(os.path.join(folder, name))
    return found


def is_first(ran, found, whole, wanted):
    """The run ended for want of memory, with some first documents, all of them whole, and the notes up to there."""
    count = len(found)
    notes = [b"", whole.stderr] if count == 2 else [whole.stderr if count > 2 else b""]
    return (
        ran.returncode == 5
        and ran.stdout in (b"", whole.stdout)
        and [*found.items()] == [(name, wanted[name]) for name in sorted(DOCUMENTS[:count])]
        and ran.stderr in [note + OUT_OF_MEMORY for note in notes]
    )


def sweep(library, program, words, data, folder):
    """How often the run asks, how many refusals it ended with status 5, and those after which it did wrong."""
    line = [program, *words.split()]
    whole, calls = run(library, 0, line, data, folder)
    wanted = documents(folder)
    n, ended, wrong = 1, 0, []
    while True:
        ran, calls = run(library, n, line, data, folder)
        found = documents(folder)
        is_whole = (ran.returncode, ran.stdout, ran.stderr, found) == (whole.returncode, whole.stdout, whole.stderr, wanted)
        ended += ran.returncode == 5
        if not is_whole and not is_first(ran, found, whole, wanted):
            wrong.append(n)
        if calls < n:
            return calls, ended, wrong
        n += 1


def sweep_small(library, name, program, word, data):
    line, said = [program, *word.split()], b"%s: out of memory\n" % name.encode()
    whole, _ = run(library, 0, line, data)
    n, wrong = 1, []
    while True:
        ran, calls = run(library, n, line, data)
        came = (ran.returncode, ran.stdout, ran.stderr)
        if came not in ((whole.returncode, whole.stdout, whole.stderr), (5, b"", said)):
            wrong.append(n)
        if calls < n:
            return calls, wrong
        n += 1


def sweep_test(library, tests, name):
    n, wrong = 1, []
    while True:
        ran, calls = run(library, n, [tests, name])
        if ran.returncode != 0:
            wrong.append(n)
        if calls < n:
            return calls, wrong
        n += 1


def main():
    others = dict(word.split("=", 1) for word in sys.argv[1:] if "=" in word)
    words = [word for word in sys.argv[1:] if "=" not in word]
    if len(words) > 2 or not words and not others or not {*others} <= {*SMALL}:
        sys.exit(__doc__)
    if not shutil.which("cc"):
        sys.exit("memory: cc is missing")
    failed = 0
    with tempfile.TemporaryDirectory() as place:
        library = os.path.join(place, "refuses.so")
        subprocess.run(["cc", "-O2", "-shared", "-fPIC", "-xc", "-", "-o", library], input=REFUSES.encode(), check=True)
        folder = os.path.join(place, "pages")
        os.mkdir(folder)
        for name, data in FILES.items():
            with open(os.path.join(folder, name), "wb") as it:
                it.write(data)
        for line, data in ROWS if words else ():
            calls, ended, wrong = sweep(library, os.path.abspath(words[0]), line, data, folder)
            failed += len(wrong)
            print(f"{line}: asks {calls} times, {ended} refusals end with status 5, wrong after {wrong or 'none'}", flush=True)
        for name, program in others.items():
            for word, data in SMALL[name]:
                calls, wrong = sweep_small(library, name, os.path.abspath(program), word, data)
                failed += len(wrong)
                print(f"{name} {word}, {len(data)} bytes: asks {calls} times, wrong after {wrong or 'none'}", flush=True)
        if len(words) == 2:
            calls, wrong = sweep_test(library, os.path.abspath(words[1]), "tests::memory::memory_refused")
            failed += len(wrong)
            print(f"memory_refused: asks {calls} times, fails after {wrong or 'none'}", flush=True)
    print(f"{failed} failed")
    sys.exit(failed > 0)


if __name__ == "__main__":
    main()
