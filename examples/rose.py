#!/usr/bin/env python3
"""Draws a corner of an old sea chart as a camera sees it under one lamp, as a raw PGM page on standard output.

usage: rose.py > rose.pgm

The chart has a wind rose, lines that swell and shrink, and lettering by a fine pen, all with soft rims. The lamp stands at
the upper left: the paper there is nearly white, and at the lower right it is darker than one half.
"""
import math
import os
import random
import sys

sys.dont_write_bytecode = True
sys.path.insert(0, os.path.join(os.path.dirname(os.path.dirname(os.path.realpath(__file__))), "bench"))
from pages import LETTERS, from_stroke

WIDTH, HEIGHT = 240, 150            # of the page, in pixels
MIDDLE = (62, 76)                   # of the rose
RINGS = [(54, 0.6), (50.5, 1.2)]    # a radius, and half of the line's thickness
POINTS = [(48, 5), (34, 4)]         # how far a point of the rose reaches, and half of its width, by turns
FINE = 0.55                         # half of a fine line
SOFT = 1.8                          # pixels from black to white at a rim
INK = 0.3                           # of the paper's brightness
TITLES = [("TIDES", 136.3, 26.4, 20, 1.5), ("AT ALL", 136.4, 62.4, 10, 0.6), ("COASTS", 136.4, 80.3, 10, 0.6)]
WAVES = [(135, 222, 105 + 11 * row, 0.5 + 0.25 * row) for row in range(4)]


def from_line(x, y, half, places):
    return from_stroke(x, y, places) - half


def from_point(x, y, turn, reach, half):
    """The distance from a point of the rose, of which one side is filled and the other one drawn by a fine line."""
    along = (x - MIDDLE[0]) * math.cos(turn) + (y - MIDDLE[1]) * math.sin(turn)
    across = (y - MIDDLE[1]) * math.cos(turn) - (x - MIDDLE[0]) * math.sin(turn)
    rim = from_line(along, across, FINE, (0, 0, half, half, reach, 0, half, -half, 0, 0))
    if 0 < across < along and across * (reach - half) < half * (reach - along):
        return -1
    return rim


def from_rose(x, y):
    around = math.hypot(x - MIDDLE[0], y - MIDDLE[1])
    if around > 58:
        return 9
    distances = [abs(around - radius) - half for radius, half in RINGS]
    distances += [from_point(x, y, math.tau * k / 8, *POINTS[k % 2]) for k in range(8)]
    return min(distances)


def from_title(x, y, text, left, top, size, half):
    scale, step = size / 10, size * 0.9
    at = int((x - left + step * 0.15) // step)
    if not 0 <= at < len(text) or not top - 3 < y < top + size + 3:
        return 9
    place = (x - left - at * step) / scale, (y - top) / scale
    return min((from_stroke(*place, stroke) * scale - half for stroke in LETTERS.get(text[at], [])), default=9)


def from_wave(x, y, left, right, middle, half):
    if not left < x < right:
        return 9
    part = (x - left) / (right - left)
    return abs(y - middle - 3 * math.sin(part * 22)) * 0.8 - half * math.sin(math.pi * part) * (1.2 + math.cos(part * 22))


def light(x, y):
    """How bright the paper is."""
    return 0.3 + 0.66 * math.exp(-((x - 30) ** 2 + (y - 5) ** 2) / 180 ** 2)


def main():
    grain = random.Random(1)
    page = bytearray()
    for row in range(HEIGHT):
        for column in range(WIDTH):
            x, y = column + 0.5, row + 0.5
            near = min(from_rose(x, y), *(from_title(x, y, *it) for it in TITLES), *(from_wave(x, y, *it) for it in WAVES))
            inked = min(1, max(0, 0.5 - near / SOFT))
            page.append(round(255 * light(x, y) * (1 - (1 - INK) * inked) + grain.uniform(-2.5, 2.5)))
    sys.stdout.buffer.write(b"P5\n# A corner of a sea chart under one lamp, drawn by rose.py.\n%d %d\n255\n" % (WIDTH, HEIGHT) + page)


main()
