#!/usr/bin/env python3
"""Draws an SVG outline over the pixels of the page that it was traced from.

usage: overlay.py PAGE.pbm < TRACE.svg > PICTURE.svg

PAGE.pbm is plain. On the left the pixels are gray and the outline is a line over them, with a dot where a
piece of it ends and a square at each corner. On the right stands the drawing itself, in three sizes.
"""
import re
import sys

SIZES = (0.42, 0.21, 0.105)     # of the drawings on the right
GAP = 5                         # before the drawings and between them, in pixels
SCALE = 7                       # of the picture for a pixel
GRAY, LINE, CORNER = "#d2d2d2", "#0b57a4", "#c8321e"


def page_of(name):
    """The sides of a plain PBM page, and its rows from the top, each a string of 0 and 1."""
    with open(name, encoding="ascii") as file:
        magic, width, height, *bits = re.sub("#.*", "", file.read()).split()
    if magic != "P1":
        sys.exit(f"overlay.py: {name} is no plain PBM page")
    width, height, bits = int(width), int(height), "".join(bits)
    return width, height, [bits[row * width:(row + 1) * width] for row in range(height)]


def runs_of(rows):
    """One rectangle for each run of black pixels in a row."""
    return "".join(
        f"M{run.start()} {y}h{len(run.group())}v1h-{len(run.group())}z"
        for y, row in enumerate(rows) for run in re.finditer("1+", row)
    )


def grid_of(width, height):
    """The lines between the pixels."""
    return "".join(f"M{x} 0v{height}" for x in range(1, width)) + "".join(f"M0 {y}h{width}" for y in range(1, height))


def marks_of(outlines):
    """Where the pieces of the outlines end, and their corners, in units of the drawing.

    A piece is a curve, or two lines that meet at a corner.
    """
    ends, corners, x, y, to_corner = [], [], 0, 0, False
    for letter, numbers in re.findall("([Mlc])([^Mlcz]*)", outlines):
        *_, across, up = (int(number) for number in numbers.split())
        x, y = (across, up) if letter == "M" else (x + across, y + up)
        to_corner = letter == "l" and not to_corner
        if to_corner:
            corners.append((x, y))
        elif letter != "M":
            ends.append((x, y))
    return ends, corners


def main():
    if len(sys.argv) != 2:
        sys.exit(__doc__)
    width, height, rows = page_of(sys.argv[1])
    drawing = sys.stdin.read()
    unit = int(re.search(r'viewBox="0 0 (\d+)', drawing).group(1)) // width
    outlines = " ".join(re.findall(r' d="([^"]*)"', drawing))
    ends, corners = marks_of(outlines)
    wide = width + GAP + SIZES[0] * width

    def path(left, below, size, style):
        part = f"{size / unit:g}"
        print(f'<path transform="translate({left:g},{below:g}) scale({part},-{part})" d="{outlines}" {style}/>')

    print(f'<svg xmlns="http://www.w3.org/2000/svg" width="{round(SCALE * wide)}" height="{SCALE * height}" viewBox="0 0 {wide:g} {height}">')
    print(f'<rect width="{wide:g}" height="{height}" fill="#fff"/>')
    print(f'<path d="{runs_of(rows)}" fill="{GRAY}"/>')
    print(f'<path d="{grid_of(width, height)}" stroke="#fff" stroke-width="0.1"/>')
    path(0, height, 1, f'fill="none" stroke="{LINE}" stroke-width="{0.3 * unit:g}" stroke-linejoin="round"')
    for x, y in ends:
        print(f'<circle cx="{x / unit:g}" cy="{height - y / unit:g}" r="0.4" fill="#fff" stroke="{LINE}" stroke-width="0.22"/>')
    for x, y in corners:
        print(f'<rect x="{x / unit - 0.5:g}" y="{height - y / unit - 0.5:g}" width="1" height="1" fill="{CORNER}"/>')
    below = GAP
    for size in SIZES:
        below += size * height
        path(width + GAP, below, size, 'fill="#000" fill-rule="evenodd"')
        below += GAP
    print("</svg>")


if __name__ == "__main__":
    main()
