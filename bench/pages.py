#!/usr/bin/env python3
"""Draws pages of many kinds, each as a raw PBM on standard output.

usage: pages.py KIND [NUMBER ..]

    scan [WIDTH HEIGHT [SEED]]      a page of text as a scanner sees it, with ragged rims and dust: an A4 sheet at 300 dpi
    map [WIDTH HEIGHT SCALE [SEED]] shores, islands and lakes; SCALE is about how many pixels an island is wide
    text SIZE                       a page of 1240 by 1754 pixels, with letters SIZE pixels high
    logo SIZE                       a star in a ring between two leaves
    engraving SIZE                  lines that swell and shrink
    photo SIZE                      a ball before a ground, dithered by error diffusion
    screen SIZE                     the same ball, printed by round dots ten pixels apart, in rows at 45 degrees
    board FIELD                     a board of 1024 by 1024 pixels, with fields of FIELD pixels
    stairs [SIDE]                   what lies under a line: SIDE pixels wide, a quarter of it high
    spiral, squares [SIDE [WALL]]   one path, or a nest of rings, between walls of WALL pixels, eight unless it is said
    comb [SIDE]                     teeth of eight pixels
    disc RADIUS                     a disc
    white, checkerboard, dither WIDTH HEIGHT   hard on the search for paths: nothing, single pixels, two waves of gray
    bar, dust WIDTH HEIGHT          one black bar across, a third as high as the page; one pixel in 1,024 black by chance
    tiles PAGE WIDTH HEIGHT         a page of this module's, whose width goes into bytes, side by side until it fills a larger one

Rows are written as they are drawn, so that a page may be as large as one likes.

The same words give the same page. It needs python3 alone.
"""
import math
import random
import sys


def packed(row):
    """A row of pixels, 1 where black, as bytes with the most significant bit first; bytes are such a row already."""
    if isinstance(row, bytes):
        return row
    bits = bytes(row).translate(bytes.maketrans(b"\0\1", b"01")) + b"0" * (-len(row) % 8)
    return int(bits, 2).to_bytes(len(bits) // 8, "big")


def write(out, width, height, rows):
    """The page of these rows, the top one first, as a raw PBM."""
    out.write(b"P4\n%d %d\n" % (width, height))
    for row in rows:
        out.write(packed(row))


# The scan.

GLYPHS = {
    "A": "7e1111117e", "B": "7f49494936", "C": "3e41414122", "D": "7f4141221c", "E": "7f49494941",
    "F": "7f09090901", "G": "3e4149497a", "H": "7f0808087f", "I": "00417f4100", "J": "2040413f01",
    "K": "7f08142241", "L": "7f40404040", "M": "7f020c027f", "N": "7f0408107f", "O": "3e4141413e",
    "P": "7f09090906", "Q": "3e4151215e", "R": "7f09192946", "S": "4649494931", "T": "01017f0101",
    "U": "3f4040403f", "V": "1f2040201f", "W": "3f4038403f", "X": "6314081463", "Y": "0708700807",
    "Z": "6151494543", "0": "3e5149453e", "1": "00427f4000", "2": "4261514946", "3": "2141454b31",
    "4": "1814127f10", "5": "2745454539", "8": "3649494936", ".": "0060600000", ",": "0050300000",
}
SCANNED = ("A TRACER FOLLOWS THE BOUNDARY OF EACH BLACK SHAPE, PIXEL EDGE BY PIXEL EDGE, UNTIL IT IS BACK. "
           "BLACK LIES ON ITS LEFT. INSIDE AND OUTSIDE ARE TOLD BY COUNTING CROSSINGS. 0123458 ")
CELL = 5            # pixels between cells of a glyph
RADIUS = 3.2        # of a cell's disc, in pixels


def discs():
    """The pixels of a cell's disc, and those of its rim, around the cell's middle."""
    full, rim = [], []
    for dy in range(-4, 5):
        for dx in range(-4, 5):
            d = dx * dx + dy * dy
            if d <= (RADIUS - 0.7) ** 2:
                full.append((dx, dy))
            elif d <= (RADIUS + 0.3) ** 2:
                rim.append((dx, dy))
    return full, rim


def cells(width, height):
    """The middles of all cells of all letters of the page."""
    margin, line, step, at = width // 20, CELL * 11, CELL * 6, 0
    for top in range(margin, height - margin - CELL * 7, line):
        for left in range(margin, width - margin - step, step):
            glyph = GLYPHS.get(SCANNED[at % len(SCANNED)])
            at += 1
            for column in range(5 if glyph else 0):
                bits = int(glyph[2 * column:2 * column + 2], 16)
                yield from ((left + column * CELL, top + row * CELL) for row in range(7) if bits >> row & 1)


def scan(width=2480, height=3508, seed=1):
    page = [bytearray(width) for _ in range(height)]
    state = seed

    def draw(n):
        nonlocal state
        state = (state * 1103515245 + 12345) % 2147483648
        return (state >> 8) % n

    def dot(x, y):
        if 0 <= x < width and 0 <= y < height:
            page[y][x] = 1

    full, rim = discs()
    for x, y in cells(width, height):
        for dx, dy in full:
            dot(x + dx, y + dy)
        for dx, dy in rim:
            if draw(8) < 5:
                dot(x + dx, y + dy)
    for _ in range(width * height // 4000):
        dot(draw(width), draw(height))
    return width, height, page


# The map: land is where smooth noise is high.

def smooth(t):
    return t * t * (3 - 2 * t)


def noise_row(grid, scale, y, width):
    """One row of values between the grid's, eased so that no grid line shows."""
    v, ty = divmod(y / scale, 1)
    v, ty = int(v), smooth(ty)
    mixed = [a + (b - a) * ty for a, b in zip(grid[v], grid[v + 1])]
    row = []
    for x in range(width):
        u, tx = divmod(x / scale, 1)
        u = int(u)
        row.append(mixed[u] + (mixed[u + 1] - mixed[u]) * smooth(tx))
    return row


def map_rows(width, height, octaves):
    for y in range(height):
        rows = [(weight, noise_row(grid, size, y, width)) for size, weight, grid in octaves]
        yield bytearray(sum(weight * row[x] for weight, row in rows) > 0.7 for x in range(width))


def land(width=1200, height=900, scale=120, seed=1):
    numbers = random.Random(seed)
    # Two octaves: the shapes, and the ragged shores on them.
    octaves = []
    for size, weight in ((scale, 1.0), (max(2, scale // 3), 0.4)):
        columns, rows = width // size + 2, height // size + 2
        octaves.append((size, weight, [[numbers.random() for _ in range(columns)] for _ in range(rows)]))
    return width, height, map_rows(width, height, octaves)


# Text of a round pen's strokes, on a field of 6 by 10 with y downwards: places from one to the next.

LETTERS = {
    "A": [(0, 10, 3, 0, 6, 10), (1.2, 6.5, 4.8, 6.5)], "C": [(6, 2, 4.5, 0, 2, 0, 0, 2.5, 0, 7.5, 2, 10, 4.5, 10, 6, 8)],
    "D": [(0, 0, 0, 10, 3.5, 10, 6, 7.5, 6, 2.5, 3.5, 0, 0, 0)], "E": [(6, 0, 0, 0, 0, 10, 6, 10), (0, 5, 4, 5)], "I": [(3, 0, 3, 10)], "L": [(0, 0, 0, 10, 6, 10)],
    "N": [(0, 10, 0, 0, 6, 10, 6, 0)], "O": [(2, 0, 4, 0, 6, 2.5, 6, 7.5, 4, 10, 2, 10, 0, 7.5, 0, 2.5, 2, 0)],
    "R": [(0, 10, 0, 0, 4, 0, 6, 1.5, 6, 3.5, 4, 5, 0, 5), (3, 5, 6, 10)], "T": [(0, 0, 6, 0), (3, 0, 3, 10)],
    "S": [(6, 1.5, 4, 0, 2, 0, 0, 1.5, 0, 3.5, 6, 6.5, 6, 8.5, 4, 10, 2, 10, 0, 8.5)], ".": [(0.5, 9.5, 0.8, 9.5)],
}
WRITTEN = "A LINE IS TRACED. SCAN IT ONCE. NO LETTER IS LOST IN A STRAIT. CLEAR TOOLS. "


def from_stroke(x, y, places):
    """The distance of a place from a stroke."""
    least = 99.0
    for at in range(0, len(places) - 2, 2):
        ax, ay, bx, by = places[at:at + 4]
        dx, dy = bx - ax, by - ay
        part = max(0, min(1, ((x - ax) * dx + (y - ay) * dy) / (dx * dx + dy * dy)))
        least = min(least, math.hypot(x - ax - part * dx, y - ay - part * dy))
    return least


def letter(strokes, size):
    """The letter's rows, each the columns of its black pixels."""
    scale, pen = 10 / size, 0.75
    side = int(size * 0.8) + 2
    return [
        [x for x in range(side) if any(from_stroke((x - 1) * scale, (y - 1) * scale, it) < pen for it in strokes)]
        for y in range(-1, size + 3)
    ]


def text(size):
    width, height = 1240, 1754
    page = [bytearray(width) for _ in range(height)]
    drawn = {name: letter(strokes, size) for name, strokes in LETTERS.items()}
    at = 0
    for top in range(100, height - 100 - 2 * size, size * 2):
        for left in range(100, width - 100 - size, round(size * 0.9)):
            for y, row in enumerate(drawn.get(WRITTEN[at % len(WRITTEN)], [])):
                for x in row:
                    page[top + y][left + x] = 1
            at += 1
    return width, height, page


# The logo.

def filled(polygons, width, height):
    """The page on which a pixel is black whose middle lies in an odd number of the polygons."""
    crossings = [[] for _ in range(height)]
    for polygon in polygons:
        for (ax, ay), (bx, by) in zip(polygon, polygon[1:] + polygon[:1]):
            low, high = min(ay, by), max(ay, by)
            for y in range(max(0, math.ceil(low - 0.5)), min(height, math.ceil(high - 0.5))):
                crossings[y].append(ax + (y + 0.5 - ay) * (bx - ax) / (by - ay))
    page = []
    for row in crossings:
        pixels = bytearray(width)
        ends = [min(width, max(0, math.ceil(x - 0.5))) for x in sorted(row)]
        for start, end in zip(ends[::2], ends[1::2]):
            pixels[start:end] = b"\1" * (end - start)
        page.append(pixels)
    return width, height, page


def circle(x, y, radius):
    steps = max(24, round(radius * 3))
    return [(x + radius * math.cos(math.tau * k / steps), y + radius * math.sin(math.tau * k / steps)) for k in range(steps)]


def leaf(size, side):
    """A curve out and another one back, left or right of the ring."""
    turn = [(t / 100, math.sin(math.pi * t / 100)) for t in range(101)]
    out = [(0.5 + side * (0.2 + 0.24 * bend), 0.97 - 0.85 * t) for t, bend in turn]
    back = [(0.5 + side * (0.2 + 0.13 * bend), 0.97 - 0.85 * t) for t, bend in reversed(turn)]
    return [(x * size, y * size) for x, y in out + back]


def logo(size):
    middle = size * 0.5
    star = [
        (middle + math.sin(math.tau * k / 10) * r * size, middle - math.cos(math.tau * k / 10) * r * size)
        for k, r in enumerate([0.2, 0.085] * 5)
    ]
    return filled([circle(middle, middle, size * 0.27), circle(middle, middle, size * 0.23), star, leaf(size, -1), leaf(size, 1)], size, size)


# Grays: as lines, or dithered.

def shade(u, v):
    """How dark the ball and its ground are at a place, from 0 to 1; u and v run from -1 to 1."""
    across, down, radius = u + 0.1, v + 0.1, 0.6
    inside = radius * radius - across * across - down * down
    if inside > 0:
        light = (-across * 0.5 - down * 0.6 + math.sqrt(inside) * 0.62) / radius
        return min(0.95, max(0.05, 1 - light))
    shadow = math.exp(-((u - 0.35) ** 2 * 3 + (v - 0.62) ** 2 * 30))
    return min(0.95, 0.12 + 0.25 * (v + 1) / 2 + 0.5 * shadow)


def engraving(size):
    page, step = [bytearray(size) for _ in range(size)], 12
    for number in range(-2, size // step + 2):
        for x in range(size):
            y = number * step + 9 * math.sin(x / size * 7 + number / 9)
            half = shade(2 * x / size - 1, 2 * y / size - 1) * step * 0.47
            for row in range(max(0, math.ceil(y - half)), min(size, math.floor(y + half) + 1)):
                page[row][x] = 1
    return size, size, page


def diffused(width, height, value):
    """Rows of 0 and 1 for values between, by Floyd and Steinberg's error diffusion."""
    errors = [0.0] * (width + 2)
    for y in range(height):
        pixels, below, right = bytearray(width), [0.0] * (width + 2), 0.0
        for x in range(width):
            wanted = value(x, y) + errors[x + 1] + right
            pixels[x] = wanted >= 0.5
            error = wanted - pixels[x]
            right = error * 7 / 16
            below[x] += error * 3 / 16
            below[x + 1] += error * 5 / 16
            below[x + 2] += error / 16
        yield pixels
        errors = below


def photo(size):
    return size, size, diffused(size, size, lambda x, y: shade(2 * x / size - 1, 2 * y / size - 1))


def dot(x, y):
    """How dark it has to be that a screen's pixel is black: least in the middle of a dot, and most between dots."""
    return 0.5 - 0.25 * (math.cos(math.tau * (x + y) / 14.14) + math.cos(math.tau * (x - y) / 14.14))


def screen(size):
    def row(y):
        return bytearray(dot(x, y) < shade(2 * x / size - 1, 2 * y / size - 1) for x in range(size))

    return size, size, map(row, range(size))


def dither(width, height):
    light = diffused(width, height, lambda x, y: 0.5 + 0.25 * math.sin(x / 97) + 0.25 * math.sin(y / 131))
    return width, height, (row.translate(bytes.maketrans(b"\0\1", b"\1\0")) for row in light)


# Straight runs and corners.

WALL = 8


def ring(x, y, side, wall):
    """The number of the wall in which the pixel lies, counted from the page's edge."""
    return min(x, y, side - 1 - x, side - 1 - y) // wall


def is_spiral(x, y, side, wall):
    """The squares, where a step at the left of each leads on to the next one."""
    around = ring(x, y, side, wall)
    if x // wall == around and y // wall == around + 1 and 2 * (around + 1) * wall < side:
        return around % 2 == 1
    return around % 2 == 0


def where(width, height, is_black):
    return width, height, (bytearray(is_black(x, y) for x in range(width)) for y in range(height))


def stairs(side=2048):
    return where(side, side // 4, lambda x, y: x * (side // 4) <= y * side)


def spiral(side=2048, wall=WALL):
    return where(side, side, lambda x, y: is_spiral(x, y, side, wall))


def squares(side=2048, wall=WALL):
    return where(side, side, lambda x, y: ring(x, y, side, wall) % 2 == 0)


def comb(side=2048):
    return where(side, side, lambda x, y: y < WALL or x // WALL % 2 == 0)


def board(field):
    return where(1024, 1024, lambda x, y: (x // field + y // field) % 2)


def checkerboard(width, height):
    rows = [bytearray((x + y) % 2 == 0 for x in range(width)) for y in range(2)]
    return width, height, (rows[y % 2] for y in range(height))


def white(width, height):
    row = bytearray(width)
    return width, height, (row for _ in range(height))


def bar(width, height):
    rows = [bytearray(width), bytearray(b"\1") * width]
    return width, height, (rows[height // 3 <= y < height - height // 3] for y in range(height))


def disc_row(radius, y):
    middle = radius + 0.5
    half = math.sqrt(max(0, radius ** 2 - (y - middle) ** 2))
    left, right = math.ceil(middle - half), math.floor(middle + half)
    return bytearray(left) + bytearray(b"\1") * (right + 1 - left) + bytearray(2 * radius + 1 - right)


def disc(radius):
    side = 2 * radius + 2
    return side, side, (disc_row(radius, y) for y in range(side))


# Pages whose rows are bytes already.

def dust_rows(width, height):
    numbers = random.Random(1)
    size = (width + 7) // 8
    for _ in range(height):
        row = numbers.getrandbits(8 * size)
        for _ in range(9):
            row &= numbers.getrandbits(8 * size)
        yield row.to_bytes(size, "big")


def dust(width, height):
    return width, height, dust_rows(width, height)


def tile_rows(bits, step, width, height):
    size = (width + 7) // 8
    for y in range(height):
        at = y * step % len(bits)
        yield (bits[at:at + step] * (size // step + 1))[:size]


def tiles(page, width, height):
    with open(page, "rb") as file:
        magic, side, rows, bits = file.read().split(maxsplit=3)
    step = int(side) // 8
    if magic != b"P4" or int(side) % 8 or len(bits) != step * int(rows):
        raise ValueError(page)
    return width, height, tile_rows(bits, step, width, height)


KINDS = {
    "scan": scan, "map": land, "text": text, "logo": logo, "engraving": engraving, "photo": photo, "screen": screen,
    "board": board, "stairs": stairs, "spiral": spiral, "squares": squares, "comb": comb, "white": white, "checkerboard": checkerboard, "dither": dither, "bar": bar, "disc": disc, "dust": dust, "tiles": tiles,
}


def draw(name, kind, *numbers):
    """Writes a page into the file of this name."""
    with open(name, "wb") as file:
        write(file, *KINDS[kind](*numbers))


def main():
    if len(sys.argv) < 2 or sys.argv[1] not in KINDS:
        sys.exit(__doc__)
    try:
        page = KINDS[sys.argv[1]](*(int(word) if word.isdigit() else word for word in sys.argv[2:]))
    except (TypeError, ValueError):
        sys.exit(__doc__)
    write(sys.stdout.buffer, *page)


if __name__ == "__main__":
    main()
