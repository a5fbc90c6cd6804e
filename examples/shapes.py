#!/usr/bin/env python3
"""Draws the shapes of a GeoJSON document as SVG, each in a colour of its own with its holes left out.

usage: shapes.py PAGE.geojson WIDTH HEIGHT > PAGE.svg

WIDTH and HEIGHT are the page's sides in pixels. Each vertex of a ring is a dot: a curve has eight.
"""
import json
import sys

SCALE = 10      # of the picture for a pixel
COLOURS = ["#c9d8a6", "#e8c98f", "#a8c8d8", "#d9b3c0", "#c4b8e0", "#b5d9c4"]


def main():
    if len(sys.argv) != 4:
        sys.exit(__doc__)
    with open(sys.argv[1], encoding="ascii") as file:
        features = json.load(file)["features"]
    width, height = int(sys.argv[2]), int(sys.argv[3])

    def place(position):
        x, y = position
        return f"{x * SCALE:.1f},{(height - y) * SCALE:.1f}"

    wide, high = width * SCALE + 40, height * SCALE + 40
    print(f'<svg xmlns="http://www.w3.org/2000/svg" width="{wide}" height="{high}" viewBox="-20 -20 {wide} {high}">')
    print(f'<rect x="0" y="0" width="{width * SCALE}" height="{height * SCALE}" fill="#ffffff" stroke="#cccccc"/>')
    for number, feature in enumerate(features):
        rings = feature["geometry"]["coordinates"]
        shape = " ".join("M" + " L".join(place(p) for p in ring[:-1]) + " Z" for ring in rings)
        colour = COLOURS[number % len(COLOURS)]
        print(f'<path d="{shape}" fill="{colour}" fill-rule="evenodd" stroke="#555555" stroke-width="1.5"/>')
        for ring in rings:
            for position in ring[:-1]:
                x, y = place(position).split(",")
                print(f'<circle cx="{x}" cy="{y}" r="2.2" fill="#555555"/>')
    print("</svg>")


if __name__ == "__main__":
    main()
