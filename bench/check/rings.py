#!/usr/bin/env python3
"""Looks which way the rings of GeoJSON documents run, on all pages of some small size, or on one that is drawn.

usage: rings.py WIDTH HEIGHT [POTRACE [OPTION ..]]
       rings.py bend LEG [POTRACE [OPTION ..]]
       rings.py bow RADIUS [POTRACE [OPTION ..]]

RFC 7946 wants the outer ring of a polygon to run against the clock, and the rings of its holes with it. Each page of WIDTH
by HEIGHT pixels (at most 20 together) is traced with no speckle left out and the given options, and the signed area of
each ring is summed up. The line says how many rings there were, how many ran the other way or had no area, and the least
area with the page that has it, as a row of pixels from the top. The status is 1 where a ring ran the other way. It needs
python3 alone.

Two pages are drawn, whose rings may run the other way. Both have one line, a pixel thick. A bend is an L with legs of LEG
pixels, and has three pixels in its inner corner. A bow is five sixths of a circle, and has 16 spurs on its inner side, each
three pixels long.
"""
import json
import math
import subprocess
import sys

PAGES = 65536  # that a run accepts


def area(ring):
    """The signed area of a ring: above 0 where it runs against the clock."""
    return sum(x * v - u * y for (x, y), (u, v) in zip(ring, ring[1:])) / 2


def documents(text):
    """The JSON texts that stand one behind another."""
    decoder = json.JSONDecoder()
    at = 0
    while at < len(text):
        value, at = decoder.raw_decode(text, at)
        while at < len(text) and text[at].isspace():
            at += 1
        yield value


def bend(leg):
    """The pixels of an L, counted from its corner, with three more in its inner corner."""
    return {(k, 0) for k in range(leg)} | {(0, k) for k in range(leg)} | {(1, 1), (2, 1), (1, 2)}


def bow(radius):
    """The pixels of a circle that is open on its left, counted from its middle, with spurs on its inner side."""
    def at(distance, angle):
        return round(distance * math.cos(angle)), round(distance * math.sin(angle))

    span = math.radians(300)
    steps = 15 * radius
    line = {at(radius, span * (k / steps - 0.5)) for k in range(steps + 1)}
    return line | {at(radius - depth, span * ((k + 0.5) / 16 - 0.5)) for k in range(16) for depth in (1, 2, 3)}


def drawn(black):
    """The width, the height and the pixels, from the top, of the least page that has these black ones."""
    left, low = min(x for x, y in black), min(y for x, y in black)
    width, height = max(x for x, y in black) - left + 1, max(y for x, y in black) - low + 1
    return width, height, "".join("01"[(left + x, low + y) in black] for y in reversed(range(height)) for x in range(width))


def rings_of(text, program, options):
    """For each document that comes of the pages, the signed areas of its rings, those of holes turned round."""
    run = subprocess.run([program, "-b", "geojson", "-t", "0", *options], input=text.encode(), stdout=subprocess.PIPE, check=True)
    for document in documents(run.stdout.decode()):
        rings = [(number, ring) for feature in document["features"] for number, ring in enumerate(feature["geometry"]["coordinates"])]
        yield [-area(ring) if number else area(ring) for number, ring in rings]


def main():
    program = sys.argv[3] if len(sys.argv) > 3 else "potrace"
    options = sys.argv[4:]
    if sys.argv[1] in ("bend", "bow"):
        black = (bend if sys.argv[1] == "bend" else bow)(int(sys.argv[2]))
        width, height, page = drawn(black)
        sizes = next(rings_of(f"P1 {width} {height} {page}\n", program, options))
        print(f"{sys.argv[1]} {sys.argv[2]}, {width} by {height}, {len(black)} black pixels {' '.join(options)}: areas of {', '.join(f'{size:.3f}' for size in sizes)}")
        return 1 if min(sizes) <= 0 else 0
    width, height = int(sys.argv[1]), int(sys.argv[2])
    pixels = width * height
    rings = wrong = 0
    least = None
    for begin in range(0, 1 << pixels, PAGES):
        pages = [format(page, f"0{pixels}b") for page in range(begin, min(1 << pixels, begin + PAGES))]
        text = "".join(f"P1 {width} {height} {page}\n" for page in pages)
        for page, sizes in zip(pages, rings_of(text, program, options), strict=True):
            for size in sizes:
                rings += 1
                wrong += size <= 0
                least = min(least or (size, page), (size, page))
    print(f"{width} by {height} {' '.join(options)}: {rings} rings, {wrong} the other way; the least area is {least[0]:.3f}, of {least[1]}")
    return 1 if wrong else 0


if __name__ == "__main__":
    sys.exit(main())
