#!/usr/bin/env python3
"""Puts drawings beside each other, each with its words below, as SVG.

usage: beside.py [--marks] [--part X,Y,WIDTH,HEIGHT] [--columns N] [--page PAGE.pgm] TRACE.svg=WORDS .. > PICTURE.svg

Each TRACE.svg is the program's. With --marks, a dot stands where a piece of an outline ends, and a square at each
corner. With --part, only that part of each drawing is shown, in pixels from the upper left. With --columns, so many
drawings stand in a row, and are larger. With --page, the pixels of a PGM page come first, plain, or raw
with 255 for white; a trace of it that was made larger is shown at the page's size.
"""
import argparse
import base64
import re
import struct
import sys
import zlib
from xml.sax.saxutils import escape

sys.dont_write_bytecode = True
from overlay import marks_of

WIDTHS = (230, 150)  # of a drawing in the picture, among up to four and among more
LARGE = 360          # of one in columns
GAP, TEXT = 14, 22
INK, LINE, CORNER = "#222", "#0b57a4", "#c8321e"


def stored(data):
    """The data as zlib's format has it, but not compressed: so it has the same bytes everywhere."""
    pieces = [data[at:at + 65535] for at in range(0, len(data), 65535)]
    blocks = [struct.pack("<BHH", number == len(pieces), len(it), 65535 - len(it)) + it for number, it in enumerate(pieces, 1)]
    return b"\x78\x01" + b"".join(blocks) + struct.pack(">I", zlib.adler32(data))


def image_of(name):
    """The sides of a raw PGM page, and its samples as an image (PNG)."""
    with open(name, "rb") as file:
        page = file.read()
    head = re.match(rb"P5\s+(?:#.*\n)?(\d+) (\d+)\s255\s", page)
    width, height, samples = int(head.group(1)), int(head.group(2)), page[head.end():]

    def chunk(kind, data):
        return struct.pack(">I", len(data)) + kind + data + struct.pack(">I", zlib.crc32(kind + data))

    rows = b"".join(b"\0" + samples[at:at + width] for at in range(0, width * height, width))
    png = b"\x89PNG\r\n\x1a\n" + chunk(b"IHDR", struct.pack(">IIBBBBB", width, height, 8, 0, 0, 0, 0))
    png += chunk(b"IDAT", stored(rows)) + chunk(b"IEND", b"")
    return width, height, f'<image width="{width}" height="{height}" href="data:image/png;base64,{base64.b64encode(png).decode()}"/>'


def pixels_of(name):
    """The sides of a plain PGM page, and a path for each gray; or those of a raw one, and its image."""
    with open(name, "rb") as file:
        if file.read(2) == b"P5":
            return image_of(name)
    with open(name, encoding="ascii") as file:
        _, width, height, white, *values = re.sub("#.*", "", file.read()).split()
    width, white, runs = int(width), int(white), {}
    rows = [values[at:at + width] for at in range(0, len(values), width)]
    for y, row in enumerate(rows):
        x = 0
        while x < width:
            end = next((at for at in range(x, width) if row[at] != row[x]), width)
            if int(row[x]) < white:
                runs.setdefault(int(row[x]), []).append(f"M{x} {y}h{end - x}v1h{x - end}z")
            x = end
    return width, int(height), "".join(
        f'<path fill="#{gray * 255 // white:02x}{gray * 255 // white:02x}{gray * 255 // white:02x}" d="{"".join(run)}"/>'
        for gray, run in sorted(runs.items())
    )


def drawing_of(name, is_marked):
    """The sides of a traced page in pixels, and its outlines."""
    with open(name, encoding="ascii") as file:
        text = file.read()
    width, height = (int(it) for it in re.search(r'width="(\d+)pt" height="(\d+)pt"', text).groups())
    unit = int(re.search(r'viewBox="0 0 (\d+)', text).group(1)) // width
    outlines = " ".join(re.findall(r' d="([^"]*)"', text))
    fill = '#cfd6dd" stroke="' + LINE + f'" stroke-width="{0.25 * unit:g}' if is_marked else INK
    shown = f'<path transform="translate(0,{height}) scale({1 / unit:g},-{1 / unit:g})" fill-rule="evenodd" fill="{fill}" d="{outlines}"/>'
    if is_marked:
        ends, corners = marks_of(outlines)
        dots = "".join(f"M{x / unit:g} {height - y / unit:g}h0" for x, y in ends)
        squares = "".join(f"M{x / unit - 0.35:g} {height - y / unit - 0.35:g}h.7v.7h-.7z" for x, y in corners)
        shown += f'<path d="{dots}" stroke="{LINE}" stroke-width="0.9" stroke-linecap="round"/><path d="{squares}" fill="{CORNER}"/>'
    return width, height, shown


def main():
    words = argparse.ArgumentParser()
    words.add_argument("--marks", action="store_true")
    words.add_argument("--part")
    words.add_argument("--columns", type=int)
    words.add_argument("--page")
    words.add_argument("traces", nargs="+")
    asked = words.parse_args()
    panels = [("the page", pixels_of(asked.page))] if asked.page else []
    for trace in asked.traces:
        name, _, label = trace.partition("=")
        panels.append((label, drawing_of(name, asked.marks)))

    width, height, _ = panels[0][1]
    shown_wide = LARGE if asked.columns else WIDTHS[len(panels) > 4]
    columns = asked.columns or len(panels)
    left, top, wide, high = (float(it) for it in asked.part.split(",")) if asked.part else (0, 0, width, height)
    tall = round(shown_wide * high / wide)
    line = tall + GAP + TEXT
    whole = columns * (shown_wide + GAP) + GAP, -(-len(panels) // columns) * line
    print(f'<svg xmlns="http://www.w3.org/2000/svg" width="{whole[0]}" height="{whole[1]}" viewBox="0 0 {whole[0]} {whole[1]}">')
    print(f'<rect width="{whole[0]}" height="{whole[1]}" fill="#fff"/>')
    for number, (label, (own_width, _, shown)) in enumerate(panels):
        x, y = GAP + number % columns * (shown_wide + GAP), GAP + number // columns * line
        if own_width != width:
            shown = f'<g transform="scale({width / own_width:g})">{shown}</g>'
        print(f'<svg x="{x}" y="{y}" width="{shown_wide}" height="{tall}" viewBox="{left:g} {top:g} {wide:g} {high:g}">{shown}</svg>')
        print(f'<rect x="{x}" y="{y}" width="{shown_wide}" height="{tall}" fill="none" stroke="#bbb"/>')
        print(f'<text x="{x + shown_wide / 2:g}" y="{tall + y + 16}" font-family="monospace" font-size="13" text-anchor="middle">{escape(label)}</text>')
    print("</svg>")


main()
