#!/usr/bin/env python3
"""Measures how far the chords of DXF and GeoJSON are from the curves that they stand for.

usage: chords.py [PROGRAM]

Pages of bench/pages.py are traced under several words, as SVG in units of 1/1000 pixel, as DXF and as GeoJSON. Outline by
outline and piece by piece, each curve of the SVG is taken at 9 places of each of its eight chords, and the greatest
distance of these from the chord that DXF and GeoJSON have there is printed, in pixels as the crow flies; for discs also
that from the circle; and the bytes of the DXF beside those of the default. What rounding adds is below 0.002 pixels.

The words that docs/GUIDE.md has for a cutter's file have to keep a disc of a radius of 1000 pixels nearer than 0.2 to
its circle and its chords nearer than 0.2 to their curves: else the status is 1. It needs python3 alone.
"""
import json
import math
import os
import re
import subprocess
import sys

HERE = os.path.dirname(os.path.realpath(__file__))
TOP = os.path.dirname(os.path.dirname(HERE))
PROGRAM = sys.argv[1] if len(sys.argv) > 1 else f"{TOP}/potrace"
CHORDS, PLACES, MOST = 8, 8, 0.2
PAGES = [f"disc {radius}" for radius in (30, 100, 300, 1000, 3000)] + [
    "logo 1024", "logo 4096", "text 40", "map 1200 900 120"]
WORDS = ["", "-O 0.5", "-n"]


def traced(page, kind, words):
    """A document of the page, as text."""
    return subprocess.run([PROGRAM, "-b", kind, *words.split()], input=page, stdout=subprocess.PIPE, check=True).stdout.decode()


def pieces_of(svg):
    """The outlines of an SVG in units of 1/1000 pixel: each the pieces from its start, corners of two points and curves of three."""
    outlines, at = [], (0, 0)
    for letter, numbers in re.findall("([Mlc])([^Mlcz]*)", " ".join(re.findall(' d="([^"]*)"', svg))):
        found = [int(number) / 1000 for number in numbers.split()]
        points = list(zip(found[::2], found[1::2]))
        if letter == "M":
            at = points[0]
            outlines.append((at, []))
            continue
        points = [(x + at[0], y + at[1]) for x, y in points]
        pieces = outlines[-1][1]
        if letter == "l" and pieces and len(pieces[-1]) == 2:
            pieces[-1].append(points[0])        # the end of a corner
        elif letter == "l":
            pieces.append([at, points[0]])
        else:
            pieces.append([at, *points])
        at = points[-1]
    return outlines


def rings_of_dxf(dxf):
    lines = dxf.split("\n")
    rings, point = [], {}
    for code, value in zip(lines[::2], lines[1::2]):
        if value == "POLYLINE":
            rings.append([])
        elif code in ("10", "20"):
            point[code] = float(value)
            if code == "20":
                rings[-1].append((point["10"], point["20"]))
    return [ring + ring[:1] for ring in rings]


def rings_of_geojson(text):
    """The rings in the order of the shapes, each from its outline's start on."""
    return [[tuple(it) for it in (ring[::-1] if number else ring)]
            for feature in json.loads(text)["features"] for number, ring in enumerate(feature["geometry"]["coordinates"])]


def place_on(curve, t):
    s = 1 - t
    weights = (s ** 3, 3 * t * s * s, 3 * t * t * s, t ** 3)
    return tuple(sum(w * point[axis] for w, point in zip(weights, curve)) for axis in (0, 1))


def distance(point, a, b):
    """That of a point from the way between two others."""
    dx, dy = b[0] - a[0], b[1] - a[1]
    along = (point[0] - a[0]) * dx + (point[1] - a[1]) * dy
    t = min(1.0, max(0.0, along / (dx * dx + dy * dy))) if dx or dy else 0.0
    return math.hypot(point[0] - a[0] - t * dx, point[1] - a[1] - t * dy)


def off(outlines, rings):
    """The greatest distance of a place of a curve from its chord."""
    most = 0.0
    for (start, pieces), ring in zip(outlines, rings, strict=True):
        if math.dist(ring[0], start) > 0.002:
            sys.exit("chords: a ring begins elsewhere than its outline")
        number = 0
        for piece in pieces:
            if len(piece) == 3:
                number += 2
                continue
            for chord in range(CHORDS):
                a, b = ring[number], ring[number + 1]
                number += 1
                for place in range(PLACES + 1):
                    most = max(most, distance(place_on(piece, (chord + place / PLACES) / CHORDS), a, b))
        if number + 1 != len(ring):
            sys.exit("chords: a ring hasn't the points of its outline")
    return most


def off_circle(ring, middle, radius):
    """The greatest distance of a place of the ring from the circle."""
    return max(abs(math.dist(middle, (a[0] + (b[0] - a[0]) * t / 8, a[1] + (b[1] - a[1]) * t / 8)) - radius)
               for a, b in zip(ring, ring[1:]) for t in range(9))


def measured(name, words):
    """The distances of DXF's and GeoJSON's chords from their curves and, of a disc, from its circle, and DXF's bytes."""
    page = subprocess.run([f"{TOP}/bench/pages.py", *name.split()], stdout=subprocess.PIPE, check=True).stdout
    flat = pieces_of(traced(page, "svg", f"-u 1000 --flat {words}"))
    shapes = pieces_of(traced(page, "svg", f"-u 1000 {words}"))
    dxf, geojson = traced(page, "dxf", words), traced(page, "geojson", words)
    both = off(flat, rings_of_dxf(dxf)), off(shapes, rings_of_geojson(geojson))
    circle = None
    if name.startswith("disc"):
        width, height = (int(it) for it in page.split(b"\n")[1].split())
        circle = off_circle(rings_of_dxf(dxf)[0], (width / 2, height / 2), int(name.split()[1]))
    return max(both), circle, len(dxf)


def words_of_guide():
    """The options that the guide gives for a cutter's file."""
    with open(f"{TOP}/docs/GUIDE.md", encoding="utf-8") as file:
        found = re.findall(r"^potrace -b dxf (.*?) \S+\.pbm$", file.read(), re.M)
    if not found:
        sys.exit("chords: docs/GUIDE.md has no words for a cutter's file")
    return found[0]


def main():
    print(f"{'page':16} {'words':10} {'chords off':>10} {'circle off':>10} {'DXF by that of the default':>27}")
    for name in PAGES:
        first = None
        for words in WORDS:
            far, circle, size = measured(name, words)
            first = first or size
            print(f"{name:16} {words or '(default)':10} {far:10.3f} {'' if circle is None else f'{circle:.3f}':>10} {size / first:27.2f}")
    words = words_of_guide()
    far, circle, _ = measured("disc 1000", words)
    print(f"disc of 1000 by the guide's words, {words}: chords off by {far:.3f}, and {circle:.3f} from the circle")
    sys.exit(max(far, circle) >= MOST)


if __name__ == "__main__":
    main()
