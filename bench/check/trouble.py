#!/usr/bin/env python3
"""Runs the built programs where devices fail, memory is short and input never ends.

usage: trouble.py [POTRACE] [NAME=PROGRAM ..]

NAME is another program, `point_fill`, `outline_check` or `mkbitmap`, and PROGRAM where it stands. Each line says what
came: the status, the message and how many bytes of documents. A case fails where none of the answers that
docs/FORMATS.md allows there came, and the status is then 1. It needs python3, two processors or more for the workers'
case, and 4 GB of memory for the longest texts. As root it tries the folder that may not be written in as the user 65534.
"""
import collections
import functools
import io
import os
import resource
import shutil
import signal
import subprocess
import sys
import tempfile
import threading

sys.path.insert(0, os.path.dirname(os.path.dirname(os.path.realpath(__file__))))
from pages import write as write_page

LIMIT = 120  # seconds for a run

Ran = collections.namedtuple("Ran", "status out said")


def black(width, height):
    """A black page, raw, and its polygons text."""
    page = io.BytesIO()
    write_page(page, width, height, [b"\xff" * (-(-width // 8))] * height)
    around = (width * height, 2 * (width + height), height, width + height, 2 * height + width)
    return page.getvalue(), b"polygons %d %d 1\n+ %d %d 4 0: 0 %d %d %d\n" % (width, height, *around)


POLYGONS = ["-b", "polygons", "-t", "0"]
PAGE, TEXT = black(100, 60)
PIXEL = b"P1 1 1 1\n"
OUT_OF_MEMORY = b"potrace: out of memory\n"


def fault(name, text, page=1):
    return b"potrace: %s: page %d: %s\n" % (name, page, text)


class Trouble:
    def __init__(self, program, folder):
        self.program = program
        self.folder = folder
        self.failed = 0

    def file(self, name, data):
        with open(os.path.join(self.folder, name), "wb") as it:
            it.write(data)

    def text(self, name):
        with open(os.path.join(self.folder, name), "rb") as it:
            return it.read()

    def start(self, words, **how):
        how = {"stdin": subprocess.PIPE, "stdout": subprocess.PIPE, "stderr": subprocess.PIPE, **how}
        return subprocess.Popen([self.program, *words], cwd=self.folder, **how)

    def run(self, words, data=b"", **how):
        process = self.start(words, **how)
        try:
            out, said = process.communicate(data, timeout=LIMIT)
        except subprocess.TimeoutExpired:
            process.kill()
            process.communicate()
            return Ran("no end", b"", b"")
        return Ran(process.returncode, out or b"", said or b"")

    def expect(self, what, ran, *allowed):
        """One of the allowed answers came: a status, the documents at standard output, and the messages."""
        came = tuple(ran) in allowed
        self.failed += not came
        said = ran.said.decode(errors="replace").strip().replace("\n", " | ")
        said = said if len(said) < 100 else said[:20] + " .. " + said[-20:]
        print(f"{'ok  ' if came else 'FAIL'} {what}: {ran.status}, {len(ran.out)} bytes, {said or 'no message'}", flush=True)

    def is_same(self, what, found, wanted):
        self.expect(what, Ran("the document", b"", b"" if found == wanted else b"differs"), ("the document", b"", b""))


def outputs(it):
    """Full disks, closed pipes and folders that aren't to be written in."""
    it.file("a.pbm", PAGE)
    with open("/dev/full", "wb") as full:
        it.expect("a full standard output", it.run(POLYGONS, PAGE, stdout=full), (4, b"", b"potrace: -: write fault\n"))
        it.expect("a full standard error", it.run(["-q"], stderr=full), (1, b"", b""))
    words = [*POLYGONS, "-o", "/dev/full", "a.pbm"]
    it.expect("a full disk", it.run(words), (4, b"", b"potrace: /dev/full: write fault\n"))
    it.expect("no such folder", it.run([*POLYGONS, "-o", "b/a", "a.pbm"]), (4, b"", b"potrace: b/a: write fault\n"))
    it.expect("a folder's name", it.run([*POLYGONS, "-o", ".", "a.pbm"]), (4, b"", b"potrace: .: write fault\n"))
    ends = os.pipe()
    os.close(ends[0])
    it.expect("a closed pipe", it.run(POLYGONS, PAGE, stdout=ends[1]), (4, b"", b"potrace: -: write fault\n"))
    it.expect("a closed pipe for messages", it.run(["-q"], stderr=ends[1]), (1, b"", b""))
    os.close(ends[1])
    closed = lambda: os.close(1)
    it.expect("no standard output", it.run(POLYGONS, PAGE, preexec_fn=closed), (4, b"", b"potrace: -: write fault\n"))
    closed = lambda: os.close(2)
    it.expect("no standard error", it.run(POLYGONS, PAGE + b"xyz", preexec_fn=closed), (0, TEXT, b""))
    it.expect("a note and no standard error", it.run([*POLYGONS, "a.pbm"], preexec_fn=closed), (0, b"", b""))
    it.is_same("its document", it.text("a.polygons"), TEXT)
    os.mkdir(os.path.join(it.folder, "mine"), 0o555)
    other = (lambda: os.setuid(65534)) if os.geteuid() == 0 else None
    ran = it.run([*POLYGONS, "-o", "mine/a", "-"], PAGE, preexec_fn=other)
    it.expect("a folder not to be written in", ran, (4, b"", b"potrace: mine/a: write fault\n"))


def inputs(it):
    """Folders, and files that grow, shrink or vanish."""
    closed = lambda: os.close(0)
    it.expect("no standard input", it.run(POLYGONS, stdin=subprocess.DEVNULL, preexec_fn=closed),
              (3, b"", fault(b"-", b"read fault")), (3, b"", b"potrace: -: cannot be opened\n"))
    os.mkdir(os.path.join(it.folder, "pages"))
    it.expect("a folder for a file", it.run([*POLYGONS, "pages"]),
              (3, b"", fault(b"pages", b"read fault")), (3, b"", b"potrace: pages: cannot be opened\n"))
    it.expect("a file below a file", it.run([*POLYGONS, "a.pbm/b"]), (3, b"", b"potrace: a.pbm/b: cannot be opened\n"))
    words = [os.fsencode(word) for word in POLYGONS]
    bad_words = (1, b"", b"potrace: bad arguments, see potrace -h\n")
    it.expect("a name that isn't UTF-8", it.run([*words, b"\xff\xfe.pbm"]), bad_words)
    it.expect("a name of 5,000 bytes", it.run([*POLYGONS, "a" * 5000]), (3, b"", b"potrace: %s: cannot be opened\n" % (b"a" * 5000)))

    def meanwhile(what, change, *allowed):
        """The change is made while the program waits for standard input, the first of its files."""
        it.file("b.pbm", PAGE[:100])
        process = it.start([*POLYGONS, "-o", "-", "-", "b.pbm"])
        process.stdin.write(PAGE)
        process.stdin.flush()
        change(os.path.join(it.folder, "b.pbm"))
        out, said = process.communicate(timeout=LIMIT)
        it.expect(what, Ran(process.returncode, out, said), *allowed)

    meanwhile("a file that has vanished", os.remove, (3, TEXT, b"potrace: b.pbm: cannot be opened\n"))
    meanwhile("a file that has grown", lambda name: it.file("b.pbm", PAGE), (0, TEXT + TEXT, b""))
    meanwhile("a file that has shrunk", lambda name: os.truncate(name, 20), (2, TEXT, fault(b"b.pbm", b"truncated")))
    page, text = black(16384, 16384)
    cut = [(2, b"", fault(b"c.pbm", reason)) for reason in (b"truncated", b"unknown format")]
    for what, change, allowed in (
        ("vanishes", os.remove, [(0, text, b"")]),
        ("shrinks", lambda name: os.truncate(name, 0), [(0, text, b""), *cut]),
        ("grows", lambda name: append(name, PAGE), [(0, text, b""), (0, text + TEXT, b"")]),
    ):
        it.file("c.pbm", page)
        process = it.start([*POLYGONS, "-o", "-", "c.pbm"])
        while process.poll() is None and not is_open(process.pid, "c.pbm"):
            pass
        process.send_signal(signal.SIGSTOP)
        change(os.path.join(it.folder, "c.pbm"))
        process.send_signal(signal.SIGCONT)
        out, said = process.communicate(timeout=LIMIT)
        it.expect(f"a file that {what} while it is read", Ran(process.returncode, out, said), *allowed)


def append(name, data):
    with open(name, "ab") as it:
        it.write(data)


def is_open(process, name):
    """Whether the process has this file open."""
    folder = f"/proc/{process}/fd"
    try:
        return any(os.readlink(os.path.join(folder, it)).endswith("/" + name) for it in os.listdir(folder))
    except OSError:
        return False


def endless(it):
    """Input that never ends."""
    page, text = black(256, 256)
    unknown, long, bad = (fault(b"-", text) for text in (b"unknown format", b"gap too long", b"bad raster"))
    note = b"potrace: -: trailing bytes after page 1\n"
    for front, byte, answer in (
        *((b"", byte, (2, b"", unknown)) for byte in (b"\0", b"#", b"0", b"1", b"a", b"P", b"B", b"\x7f", b"\xff")),
        *((b"", byte, (2, b"", long)) for byte in (b" ", b"\t", b"\n", b"\r", b"\x0b", b"\x0c")),
        *((b"P1 ", byte, (2, b"", long)) for byte in (b" ", b"#", b"0", b"9")),
        *((b"P1 ", byte, (2, b"", fault(b"-", b"bad header"))) for byte in (b"a", b"P", b"\0", b"\xff")),
        *((b"P1 8 8 ", byte, (2, b"", long)) for byte in (b" ", b"#")),
        *((b"P1 8 8 ", byte, (2, b"", bad)) for byte in (b"2", b"a", b"P", b"\0", b"\xff")),
        *((b"P2 8 8 9 ", byte, (2, b"", long)) for byte in (b" ", b"#", b"7")),
        *((b"P2 8 8 9 ", byte, (2, b"", bad)) for byte in (b"a", b"P", b"\0", b"\xff")),
        (b"P1 256 256 ", b"1", (0, text, note)),
        (b"P4 256 256 ", b"\xff", (0, text, note)),
        (b"P5 256 256 9 ", b"\0", (0, text, note)),
        (page, b" ", (2, text, fault(b"-", b"gap too long", 2))),
        (page, b"#", (0, text, note)),
        (b"BM", b"\0", (2, b"", fault(b"-", b"unsupported BMP kind"))),
        (b"BM", b"\xff", (2, b"", fault(b"-", b"unsupported BMP kind"))),
    ):
        it.expect(f"{front[:14]!r} and then {byte!r} without end", run_endless(it, POLYGONS, front, byte), answer)


def run_endless(it, words, front, byte):
    """What comes of some bytes with one behind them again and again."""
    process = it.start(words)
    writer = threading.Thread(target=feed, args=(process.stdin, front, byte * 65536))
    writer.start()
    kill = threading.Timer(LIMIT, process.kill)
    kill.start()
    out, said = process.stdout.read(), process.stderr.read()
    status = process.wait()
    kill.cancel()
    writer.join()
    return Ran(status, out, said)


def feed(pipe, front, piece):
    try:
        pipe.write(front)
        while True:
            pipe.write(piece)
    except OSError:
        pass
    try:
        pipe.close()
    except OSError:
        pass


def memory(it):
    """Ten limits of the address space, in MB, over eight pages, and one that the greatest page doesn't fit."""
    page, text = black(2048, 2048)
    allowed = [(0, 8 * text, b""), *((5, count * text, OUT_OF_MEMORY) for count in range(9)), ("not started", b"", b"")]
    for limit in (2, 3, 4, 6, 8, 12, 16, 24, 48, 256):
        bound = lambda: resource.setrlimit(resource.RLIMIT_AS, (limit << 20, limit << 20))
        ran = it.run([*POLYGONS, "--workers", "4"], 8 * page, preexec_fn=bound)
        if ran.status == 127 and b"error while loading" in ran.said:
            ran = Ran("not started", b"", b"")
        it.expect(f"{limit} MB of memory", ran, *allowed)
    bound = lambda: resource.setrlimit(resource.RLIMIT_AS, (128 << 20, 128 << 20))
    ran = it.run([*POLYGONS, "--workers", "1"], b"P4 32767 32767\n", preexec_fn=bound)
    it.expect("the greatest page's header in 128 MB", ran, (5, b"", OUT_OF_MEMORY))


def workers(it):
    """The greatest page, and more workers than processors."""
    page, text = black(32767, 32767)
    for number in ("1", "64"):
        it.expect(f"the greatest page by {number}", it.run([*POLYGONS, "--workers", number], page), (0, text, b""))
    pages, texts = (b"".join(parts) for parts in zip(*(black(width, 9 + width % 7) for width in range(9, 1009))))
    page, text = PIXEL * 65537, b"points 1 1 0\n" * 65536
    said = fault(b"-", b"too many pages", 65537)
    for number in ("1", "2", "7", "64"):
        it.expect(f"one page too many by {number}", it.run(["-b", "points", "--workers", number], page), (2, text, said))
    few = lambda: os.sched_setaffinity(0, sorted(os.sched_getaffinity(0))[:2])
    it.expect("1,000 pages, 64 workers and 2 processors", it.run([*POLYGONS, "--workers", "64"], pages, preexec_fn=few), (0, texts, b""))


# A program that reads all of standard input: a text and its document, what is said of a text that is none, and texts that
# are none.
Small = collections.namedtuple("Small", "text document bad hostile")

DIAGONAL = b"points 2 2 2\n+ 1 0,2 0,1 1,1 1,2\n+ 1 1,1 1,0 2,0 2,1\n"
CERTIFIED = b"proofs 1 1 1\npath 0,1 0,0 1,0 1,1\nat 0 1 2 3\nlabels 4:0 3:0 2:0 1:0 0:0\n"
SMALL = {
    "point_fill": Small(DIAGONAL, b"P4\n2 2\n\x80\x40", b"bad points", (
        b"points " + b"9" * 1000000 + b" 1 0\n",
        b"points " + b"0" * 1000000 + b"1 1 0\n",
        b"points 1 1 1\n+ " + b"9" * 1000000 + b" 0,1 0,0 1,0 1,1\n",
        b"points 32767 32767 4294967295\n",
        b"points 32767 32767 1\n+ 1" + b" 0,0 0,1" * 1000000,
        DIAGONAL.replace(b"\n", b"\r\n"),
    )),
    "outline_check": Small(CERTIFIED, b"right 1\n", b"bad proofs", (
        b"proofs " + b"9" * 1000000 + b" 1 0\n",
        b"proofs " + b"0" * 1000000 + b"1 1 0\n",
        b"proofs 1 1 1\npath " + b"9" * 1000000 + b",1 0,0 1,0 1,1\n",
        CERTIFIED.replace(b"0:0", b"0:" + b"9" * 1000000),
        CERTIFIED.replace(b"at 0", b"at " + b"0" * 1000000),
        b"proofs 32767 32767 4294967295\n",
        b"proofs 32767 32767 1\npath" + b" 0,0 0,1" * 1000000,
        b"proofs 32767 32767 1\npath 0,0\nat 0\nlabels" + b" 4294967295:18446744073709551615" * 1000000,
        CERTIFIED.replace(b"\n", b"\r\n"),
        CERTIFIED.replace(b" 1:0", b"  1:0"),
    )),
}


def small(it, name):
    """A program that reads all of standard input."""
    text, document, bad, hostile = SMALL[name]
    said = lambda what: b"%s: %s\n" % (name.encode(), what)
    refused, long = (2, b"", said(b"-: " + bad)), (2, b"", said(b"-: text too long"))
    it.expect(f"{name}: a text", it.run([], text), (0, document, b""))
    for words in (["-h"], [""], [b"\xff\xfe"], ["a" * 5000]):
        it.expect(f"{name}: a word", it.run(words, text), (1, b"", said(b"bad arguments")))
    cut = [it.run([], text[:at]) for at in range(len(text))]
    it.expect(f"{name}: the text cut anywhere", max(cut), refused)
    it.expect(f"{name}: and anywhere else", min(cut), refused)
    for at, it_is in enumerate(hostile):
        it.expect(f"{name}: hostile text {at}", it.run([], it_is), refused)
    it.expect(f"{name}: 2^30 bytes", it.run([], text + b" " * (2 ** 30 - len(text))), refused)
    it.expect(f"{name}: one byte more", it.run([], text + b" " * (2 ** 30 + 1 - len(text))), long)
    with open("/dev/zero", "rb") as zero:
        it.expect(f"{name}: zeros without end", it.run([], stdin=zero), long)
    bound = lambda: resource.setrlimit(resource.RLIMIT_AS, (256 << 20, 256 << 20))
    with open("/dev/zero", "rb") as zero:
        it.expect(f"{name}: the same in 256 MB", it.run([], stdin=zero, preexec_fn=bound), (5, b"", said(b"out of memory")))
    unread, unwritten = (3, b"", said(b"-: read fault")), (4, b"", said(b"-: write fault"))
    it.expect(f"{name}: nothing", it.run([], b""), refused)
    place = os.open(it.folder, os.O_RDONLY)
    it.expect(f"{name}: a folder for standard input", it.run([], stdin=place), unread)
    os.close(place)
    it.expect(f"{name}: no standard input", it.run([], stdin=subprocess.DEVNULL, preexec_fn=lambda: os.close(0)), unread)
    with open("/dev/full", "wb") as full:
        it.expect(f"{name}: a full standard output", it.run([], text, stdout=full), unwritten)
        it.expect(f"{name}: a full standard error", it.run(["-q"], stderr=full), (1, b"", b""))
    ends = os.pipe()
    os.close(ends[0])
    it.expect(f"{name}: a closed pipe", it.run([], text, stdout=ends[1]), unwritten)
    os.close(ends[1])


# A gray page whose dark pixels these words make black, and the bits of its rows.
AS_IT_IS = ["--box", "0", "--times", "1", "--level", "0.5"]
BITS = b"\x80\x41\x3c\xff"
HEAD = b"P5\n8 4\n255\n"
GRAY = HEAD + bytes(0 if byte >> bit & 1 else 255 for byte in BITS for bit in range(7, -1, -1))
USAGE = b"usage: mkbitmap [--box R] [--times N] [--level D]\n"


def rows_of(count):
    """The document with so many of its rows."""
    return b"P4\n8 4\n" + BITS[:count]


def filter_words(it):
    """What the words of mkbitmap ask for."""
    said = lambda what: b"mkbitmap: %s\n" % what
    it.expect("mkbitmap: a page", it.run(AS_IT_IS, GRAY), (0, rows_of(4), b""))
    for words in (["-h"], ["--help"], ["--box", "3", "-h"]):
        it.expect(f"mkbitmap: {' '.join(words)}", it.run(words), (0, USAGE, b""))
    refused = (1, b"", said(b"bad arguments, see mkbitmap -h"))
    for words in ("x", "-q", "-v", "--box 65", "--box", "--times 0", "--times 9", "--level 1.1", "--level -0.1", "--level 1e0",
                  "--box 4 --box 4", "a" * 5000):
        it.expect(f"mkbitmap: {words[:40]}", it.run(words.split(), GRAY), refused)
    it.expect("mkbitmap: an empty word", it.run([""], GRAY), refused)
    it.expect("mkbitmap: a word that isn't UTF-8", it.run([b"\xff\xfe"], GRAY), refused)


def filter_pages(it):
    """Pages that mkbitmap refuses or that never end, and the rows that are written before."""
    page = lambda what: b"mkbitmap: -: page 1: %s\n" % what
    shown = (0, 6, len(HEAD), len(GRAY) - 9, len(GRAY) - 1)
    for at in range(len(GRAY)):
        whole = (at - len(HEAD)) // 8
        out = b"" if whole < 0 else rows_of(max(0, whole - 1))
        allowed = [(2, out, page(reason)) for reason in (b"truncated", b"unknown format")[:1 if at > 1 else 2]]
        came = it.run(AS_IT_IS, GRAY[:at])
        if at in shown or tuple(came) not in allowed:
            it.expect(f"mkbitmap: a page cut behind {at} bytes", came, *allowed)
    for text, out, reason in (
        *((text, b"", b"unknown format") for text in (b"P4 8 8 ", b"P1 1 1 1", b"P3 1 1 9 1 2 3", b"P6 1 1 9 abc", b"BM")),
        *((text, b"", b"bad header") for text in (b"P2 1 1 0 0", b"P2 1 1 65536 0", b"P2 x")),
        (b"P2 0 1 9 ", b"", b"zero side"),
        (b"P5 32768 1 9 ", b"", b"side too large"),
        (b"P5 16384 1 9 ", b"", b"result too large"),
        (b"P2 1 1 9 -1", b"P4\n2 2\n", b"bad raster"),
    ):
        it.expect(f"mkbitmap: {text!r}", it.run([], text), (2, out, page(reason)))
    long = (2, rows_of(0), page(b"gap too long"))
    it.expect("mkbitmap: a sample without end", run_endless(it, AS_IT_IS, b"P2 8 4 9 ", b"7"), long)
    it.expect("mkbitmap: a gap without end", run_endless(it, AS_IT_IS, b"P2 8 4 9 9", b" "), long)
    for byte, reason in ((b"\0", b"unknown format"), (b"#", b"unknown format"), (b" ", b"gap too long")):
        it.expect(f"mkbitmap: {byte!r} without end", run_endless(it, [], b"", byte), (2, b"", page(reason)))
    for byte in (b"\0", b" "):
        it.expect(f"mkbitmap: a page, and then {byte!r} without end", run_endless(it, AS_IT_IS, GRAY, byte), (0, rows_of(4), b""))
    it.expect("mkbitmap: the widest page", it.run(["--times", "1"], b"P5 32767 2000 255\n" + bytes(32767 * 2000)),
              (0, b"P4\n32767 2000\n" + bytes(4096 * 2000), b""))
    it.expect("mkbitmap: a bitmap of 32,760 pixels a side", it.run(["--times", "8"], b"P5 4095 4095 255\n" + bytes(4095 * 4095)),
              (0, b"P4\n32760 32760\n" + bytes(4095 * 32760), b""))


def filter_devices(it):
    """Streams that fail mkbitmap, and little memory."""
    said = lambda what: b"mkbitmap: %s\n" % what
    unread, unwritten = said(b"-: page 1: read fault"), said(b"-: write fault")
    place = os.open(it.folder, os.O_RDONLY)
    it.expect("mkbitmap: a folder for standard input", it.run([], stdin=place), (3, b"", unread))
    os.close(place)
    ran = it.run([], stdin=subprocess.DEVNULL, preexec_fn=lambda: os.close(0))
    it.expect("mkbitmap: no standard input", ran, (3, b"", unread), (3, b"", said(b"-: cannot be opened")))
    with open("/dev/full", "wb") as full:
        it.expect("mkbitmap: a full standard output", it.run([], GRAY, stdout=full), (4, b"", unwritten))
        it.expect("mkbitmap: the same for help", it.run(["-h"], stdout=full), (4, b"", unwritten))
        it.expect("mkbitmap: a full standard error", it.run(["-q"], stderr=full), (1, b"", b""))
        it.expect("mkbitmap: a full standard error and a page cut short", it.run(AS_IT_IS, GRAY[:-1], stderr=full), (2, rows_of(2), b""))
    ends = os.pipe()
    os.close(ends[0])
    it.expect("mkbitmap: a closed pipe", it.run([], GRAY, stdout=ends[1]), (4, b"", unwritten))
    os.close(ends[1])
    it.expect("mkbitmap: no standard output", it.run([], GRAY, preexec_fn=lambda: os.close(1)), (4, b"", unwritten))
    wide = b"P5 32767 8 255\n" + bytes(32767 * 8)
    whole = (0, b"P4\n32767 8\n" + bytes(4096 * 8), b"")
    for limit in (2, 3, 4, 5, 6, 8, 12, 16):
        bound = lambda: resource.setrlimit(resource.RLIMIT_AS, (limit << 20, limit << 20))
        ran = it.run(["--times", "1", "--box", "64"], wide, preexec_fn=bound)
        if ran.status == 127 and b"error while loading" in ran.said:
            ran = Ran("not started", b"", b"")
        it.expect(f"mkbitmap: {limit} MB of memory", ran, whole, (5, b"", said(b"out of memory")), ("not started", b"", b""))


# Of each program, what is tried with it.
PARTS = {
    "potrace": (outputs, inputs, endless, memory, workers),
    **{name: (functools.partial(small, name=name),) for name in SMALL},
    "mkbitmap": (filter_words, filter_pages, filter_devices),
}


def main():
    programs = dict(word.split("=", 1) if "=" in word else ("potrace", word) for word in sys.argv[1:])
    if not programs or len(programs) != len(sys.argv) - 1 or not {*programs} <= {*PARTS}:
        sys.exit(__doc__)
    failed = 0
    for name, path in programs.items():
        if not os.access(path, os.X_OK):
            sys.exit(f"trouble: {path} is no program")
        with tempfile.TemporaryDirectory() as folder:
            os.chmod(folder, 0o755)
            program = os.path.join(folder, name)
            shutil.copy(path, program)
            it = Trouble(program, folder)
            for part in PARTS[name]:
                part(it)
            failed += it.failed
    print(f"{failed} failed")
    sys.exit(failed > 0)


if __name__ == "__main__":
    main()
