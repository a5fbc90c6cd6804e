#!/usr/bin/env python3
"""Runs the built program with words that aren't text, and with no standard error.

usage: streams.py PROGRAM

A stored run has words of text and open streams; the tests of crates have other words and streams in place of the system's.
It says what came where that is wrong, and else nothing; the status is 1 where a case is wrong. It needs python3 alone.
"""
import os
import shutil
import subprocess
import sys
import tempfile

PAGE, TEXT = b"P1 2 1 11\n", b"polygons 2 1 1\n+ 2 6 3 294: 0 2 4\n"
NOTED, REFUSED = PAGE + b"xyz", PAGE + PAGE[:5]
WORDS = [b"-b", b"polygons", b"-t", b"0"]
BAD_WORDS = b"potrace: bad arguments, see potrace -h\n"
NOTE = b"potrace: noted.pbm: trailing bytes after page 1\n"
CUT = b"potrace: refused.pbm: page 2: truncated\n"
NO_TEXT = b"\xff\xfe.pbm"
# A case: its words, whether there is a standard error, the status, what is written to both streams, and the documents.
CASES = [
    ([NO_TEXT], True, 1, b"", BAD_WORDS, {}),
    ([*WORDS, b"noted.pbm", NO_TEXT], True, 1, b"", BAD_WORDS, {}),
    ([*WORDS, b"noted.pbm"], True, 0, b"", NOTE, {"noted.polygons": TEXT}),
    ([*WORDS, b"refused.pbm"], True, 2, b"", CUT, {"refused.polygons": TEXT}),
    ([b"-q"], False, 1, b"", b"", {}),
    (WORDS, False, 0, TEXT, b"", {}),
    ([*WORDS, b"noted.pbm"], False, 0, b"", b"", {"noted.polygons": TEXT}),
    ([*WORDS, b"refused.pbm", b"noted.pbm"], False, 2, b"", b"", {"refused.polygons": TEXT}),
]


def came(program, words, has_errors):
    """What comes of a run in a folder with two files: the status, what it wrote to both streams, and the files there."""
    with tempfile.TemporaryDirectory() as folder:
        files = {"noted.pbm": NOTED, "refused.pbm": REFUSED}
        for name, data in files.items():
            with open(f"{folder}/{name}", "wb") as file:
                file.write(data)
        close = None if has_errors else lambda: os.close(2)
        ran = subprocess.run([program, *words], input=NOTED, capture_output=True, cwd=folder, preexec_fn=close, timeout=60)
        found = {}
        for name in os.listdir(folder):
            with open(f"{folder}/{name}", "rb") as file:
                found[name] = file.read()
        # (a file that was read may not be written into either)
        return ran.returncode, ran.stdout, ran.stderr, {name: data for name, data in found.items() if files.get(name) != data}


def main():
    if len(sys.argv) != 2 or not shutil.which(sys.argv[1]):
        sys.exit(__doc__)
    program, wrong = os.path.abspath(sys.argv[1]), 0
    for words, has_errors, *wanted in CASES:
        found = came(program, words, has_errors)
        if found != tuple(wanted):
            wrong += 1
            print(f"streams: {words}{'' if has_errors else ' with no standard error'}: {found}, not {wanted}", file=sys.stderr)
    sys.exit(wrong > 0)


main()
