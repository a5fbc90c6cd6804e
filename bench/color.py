#!/usr/bin/env python3
"""Prints a raw PBM page of text in ink of its own on tinted paper, as a raw PPM, a BMP of 24 bits, or a raw PGM in gray.

usage: color.py ppm|bmp|pgm <page.pbm >page

Black pixels are of a dark blue ink that varies a little, white ones of a light paper that does. At the level of one
half the page is the one that was read. It needs python3 alone.
"""
import struct
import sys

INKS = [(24, 30, 96), (40, 44, 120), (16, 20, 70), (60, 52, 130)]
PAPERS = [(250, 244, 226), (255, 250, 235), (244, 238, 220), (252, 246, 240)]


def samples(byte, kind):
    """The samples of the eight pixels of a byte, 24 of them, or 8 in gray."""
    out = bytearray()
    for k in range(8):
        r, g, b = (INKS if byte >> (7 - k) & 1 else PAPERS)[(byte * 7 + k) % 4]
        out += bytes({"ppm": (r, g, b), "bmp": (b, g, r), "pgm": ((r + g + b) // 3,)}[kind])
    return bytes(out)


def painted(source, sink, kind):
    """Writes a raw PBM page as a file of this kind."""
    magic, width, height, *_ = source.readline().split() + source.readline().split()
    if magic != b"P4":
        sys.exit("color: not a raw PBM")
    width, height = int(width), int(height)
    table = [samples(byte, kind) for byte in range(256)]
    row_bytes, row_samples = (width + 7) // 8, width if kind == "pgm" else 3 * width
    data = source.read(row_bytes * height)
    rows = [b"".join(table[byte] for byte in data[y * row_bytes:(y + 1) * row_bytes])[:row_samples] for y in range(height)]
    if kind == "bmp":
        padding = b"\0" * (-row_samples % 4)
        size = (row_samples + len(padding)) * height
        sink.write(struct.pack("<2sIIIIiiHHIIiiII", b"BM", 54 + size, 0, 54, 40, width, height, 1, 24, 0, size, 0, 0, 0, 0))
        rows = [row + padding for row in reversed(rows)]
    else:
        sink.write(b"P%d\n%d %d\n255\n" % (5 if kind == "pgm" else 6, width, height))
    sink.write(b"".join(rows))


def main():
    if sys.argv[1:] not in (["ppm"], ["bmp"], ["pgm"]):
        sys.exit(__doc__)
    painted(sys.stdin.buffer, sys.stdout.buffer, sys.argv[1])


if __name__ == "__main__":
    main()
