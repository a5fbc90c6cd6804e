#!/usr/bin/env python3
"""Draws an old key as a scanner sees it, as a plain PGM page on standard output.

usage: key.py > key.pgm

The key has curves, straight sides, corners and a hole, and soft rims. A faint scratch runs beside it, a cord of single
pixels that meet at their corners hangs from it, and dust lies about.
"""
WIDTH, HEIGHT = 72, 44      # of the page, in pixels
WHITE = 15
SOFT = 3.0                  # pixels from black to white at a rim

BOXES = [                   # left, top, right and lower side, in pixels
    (27, 15.5, 66, 20.5),   # the shaft,
    (31, 13.5, 34, 22.5),   # its collar,
    (52, 20, 56, 30.5),     # and the two bits
    (60, 20, 66, 28.5),
]
MIDDLE, RADIUS, HALF = (17, 18), 10, 3.2        # of the bow, a ring
SCRATCH = (30, 33, 46, 34.4)
CORD = [(8 + step, 40 - step) for step in range(7)] + [(9 + step, 34 + step) for step in range(7)]
DUST = [(5, 4), (40, 6), (41, 6), (60, 6), (61, 6), (60, 7), (61, 7), (66, 38), (46, 39), (47, 39), (46, 40), (47, 40),
        (48, 40), (48, 39), (47, 41), (30, 4)]


def from_box(x, y, box):
    """The distance from a box, below 0 inside."""
    left, top, right, low = box
    across, down = max(left - x, x - right), max(top - y, y - low)
    return max(across, down) if across < 0 or down < 0 else (across ** 2 + down ** 2) ** 0.5


def from_key(x, y):
    ring = abs(((x - MIDDLE[0]) ** 2 + (y - MIDDLE[1]) ** 2) ** 0.5 - RADIUS) - HALF
    return min(ring, *(from_box(x, y, box) for box in BOXES))


def gray(column, row):
    """The pixel's brightness, from 0 to 1."""
    if (column, row) in CORD or (column, row) in DUST:
        return 0.1
    x, y = column + 0.5, row + 0.5
    key = 0.5 + from_key(x, y) / SOFT
    scratch = 0.62 + max(0, from_box(x, y, SCRATCH)) / SOFT
    return min(1, max(0, min(key, scratch)))


def main():
    print(f"P2\n# An old key, drawn by key.py.\n{WIDTH} {HEIGHT}\n{WHITE}")
    for row in range(HEIGHT):
        print(" ".join(str(round(WHITE * gray(column, row))) for column in range(WIDTH)))


main()
