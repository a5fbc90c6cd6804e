#!/usr/bin/env python3
"""Draws an ampersand, written with a broad nib, as a plain PBM page on standard output.

usage: ampersand.py > ampersand.pbm

The middle of the nib goes along cubic curves. The nib is a short edge that keeps its direction, so a
stroke along the edge is thin and one across it is thick. A pixel is black where its middle is under the
nib at one of the places.
"""
WIDTH, HEIGHT = 88, 84      # of the page, in pixels
SCALE = 0.74                # pixels for a unit of the strokes
LEFT, BELOW = 6.7, 5.2      # where the strokes' origin lies on the page, in pixels
NIB = (0.88, 0.475)         # the direction of the nib's edge
HALF_WIDTH = 4.5            # of the nib, in pixels
RADIUS = 0.85               # of its rounding
STEPS = 160                 # places of the nib along a curve

# Each stroke is a list of points, x to the right and y upwards: the first one, and then three for each
# curve, which are its two controls and its end.
STROKES = [
    [
        (101, 9), (93, -1), (80, 0), (70, 12),          # the tail,
        (58, 27), (38, 50), (30, 64),                   # up the long diagonal,
        (22, 78), (25, 98), (43, 98),                   # round the upper bowl,
        (58, 98), (62, 84), (57, 74),
        (51, 63), (37, 56), (25, 49),                   # across,
        (12, 41), (5, 32), (5, 22),                     # round the lower bowl,
        (5, 8), (18, 1), (33, 1),
        (56, 1), (74, 22), (80, 52),                    # and up to the arm
    ],
    [(69, 55), (75, 55), (88, 55), (95, 55)],           # the bar on the arm
]


def places(stroke):
    """The places of the nib's middle along a stroke, in pixels."""
    for first in range(0, len(stroke) - 1, 3):
        a, b, c, d = stroke[first:first + 4]
        for step in range(STEPS + 1):
            t = step / STEPS
            u = 1 - t
            yield tuple(
                shift + SCALE * (u * u * u * a[i] + 3 * u * u * t * b[i] + 3 * u * t * t * c[i] + t * t * t * d[i])
                for i, shift in enumerate((LEFT, BELOW))
            )


def is_under(x, y):
    """Whether the nib with its middle at the origin covers this place."""
    along = max(-HALF_WIDTH, min(HALF_WIDTH, x * NIB[0] + y * NIB[1]))
    return (x - along * NIB[0]) ** 2 + (y - along * NIB[1]) ** 2 <= RADIUS ** 2


def main():
    page = [[0] * WIDTH for _ in range(HEIGHT)]
    far = int(HALF_WIDTH + RADIUS) + 2
    for stroke in STROKES:
        for x, y in places(stroke):
            for row in range(max(0, int(y) - far), min(HEIGHT, int(y) + far)):
                for column in range(max(0, int(x) - far), min(WIDTH, int(x) + far)):
                    if is_under(column + 0.5 - x, row + 0.5 - y):
                        page[row][column] = 1
    print(f"P1\n# An ampersand, drawn by ampersand.py.\n{WIDTH} {HEIGHT}")
    for row in reversed(page):
        print("".join(map(str, row)))


main()
