#!/usr/bin/env python3
"""Draws a page's points and best polygons as SVG, from the program's own two texts.

usage: draw.py PAGE.points PAGE.polygons > PAGE.svg

The paths are thin lines along the pixels' edges, each polygon is a thick line with a dot at each vertex.
A hole's lines are broken.
"""
import sys

SCALE = 40      # of the picture for a pixel


def lines(name):
    with open(name, encoding="ascii") as file:
        head, *rest = file.read().splitlines()
    return head.split(), [row.split() for row in rest]


def main():
    if len(sys.argv) != 3:
        sys.exit(__doc__)
    head, paths = lines(sys.argv[1])
    _, polygons = lines(sys.argv[2])
    width, height = int(head[1]), int(head[2])

    def place(point):
        x, y = (int(number) for number in point.split(","))
        return f"{x * SCALE},{(height - y) * SCALE}"

    wide, high = width * SCALE + 40, height * SCALE + 40
    print(f'<svg xmlns="http://www.w3.org/2000/svg" width="{wide}" height="{high}" viewBox="-20 -20 {wide} {high}">')
    print(f'<rect x="0" y="0" width="{width * SCALE}" height="{height * SCALE}" fill="#ffffff" stroke="#cccccc"/>')
    shape = " ".join("M" + " L".join(place(p) for p in points) + " Z" for _, _, *points in paths)
    print(f'<path d="{shape}" fill="#dddddd" fill-rule="evenodd" stroke="#888888" stroke-width="2"/>')
    for (sign, _, *points), (_, _, _, _, _, *at) in zip(paths, polygons):
        corners = [place(points[int(i)]) for i in at]
        dashes = ' stroke-dasharray="10 6"' if sign == "-" else ""
        print(f'<polygon points="{" ".join(corners)}" fill="none" stroke="#c03020" stroke-width="5"{dashes}/>')
        for corner in corners:
            x, y = corner.split(",")
            print(f'<circle cx="{x}" cy="{y}" r="7" fill="#c03020"/>')
    print("</svg>")


if __name__ == "__main__":
    main()
