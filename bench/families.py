#!/usr/bin/env python3
"""Draws pages that are dear to trace, each a family of all sides, as raw PBM on standard output.

usage: families.py FAMILY SIDE
       families.py --list

A page is SIDE pixels wide and high. Beside each family stands what it is hard on. It needs python3 alone.
"""
import functools
import math
import random
import sys

import pages


def by_rows(side, key, row):
    """A page whose rows are the same where their keys are."""
    drawn = functools.lru_cache(maxsize=64)(lambda it: bytearray(row(it)))
    return side, side, (drawn(key(y)) for y in range(side))


def lines(side, height):
    """Lines that are 2 pixels black and 2 white, each `height(x)` pixels higher at column x."""
    heights = [math.floor(height(x)) for x in range(side)]
    return by_rows(side, lambda y: y % 4, lambda y: [(it + y) % 4 < 2 for it in heights])


# How far segments reach.

def diagonal(side):
    """hatching: stripes at 45 degrees, 2 pixels black and 2 white, cut off by the page's edge"""
    return lines(side, lambda x: x)


def diagonal3(side):
    """every third diagonal, a pixel broad"""
    return by_rows(side, lambda y: y % 3, lambda y: [(x + y) % 3 == 0 for x in range(side)])


def diagonal8(side):
    """hatching of 8 pixels black and 8 white"""
    return by_rows(side, lambda y: y % 16, lambda y: [(x + y) % 16 < 8 for x in range(side)])


def diagonal1(side):
    """one stripe of hatching, from corner to corner"""
    return side, side, (bytearray(max(0, side - 1 - y)) + bytearray(b"\1\1"[:1 + (y > 0)]) + bytearray(max(0, y - 1)) for y in range(side))


def diamonds(side):
    """diamonds in diamonds, 2 pixels black and 2 white"""
    middle = side // 2
    return by_rows(side, lambda y: abs(y - middle) % 4, lambda d: [(abs(x - middle) + d) % 4 < 2 for x in range(side)])


def slope2(side):
    """stripes of slope 2"""
    return by_rows(side, lambda y: y % 8, lambda y: [(2 * x + y) % 8 < 4 for x in range(side)])


def slope32(side):
    """stripes of slope 2/3"""
    return by_rows(side, lambda y: 3 * y % 12, lambda y: [(2 * x + y) % 12 < 6 for x in range(side)])


def golden(side):
    """stripes of slope 0.618"""
    return lines(side, lambda x: 0.6180339887 * x)


# Wide windows: the search for the best polygon, certificates, cyclic polygons.

def arcs(side):
    """lines that bend by three pixels over the page"""
    return lines(side, lambda x: 0.3 * x + 12 * x * (side - x) / side ** 2)


def sags(side):
    """lines that bend by 1.6 pixels"""
    return lines(side, lambda x: 0.3 * x + 6.4 * x * (side - x) / side ** 2)


def cubics(side):
    """lines of slope 0.4946 that bend by a third of a pixel, as a cubic"""
    return lines(side, lambda x: 0.4946 * x + 0.2983 * (2 * x / side - 1) ** 3 + 0.538)


def bends(side):
    """lines as of cubics, of which no two bend alike: by 0.2 to 0.4 pixel"""
    flat = [0.4946 * x + 0.538 for x in range(side)]
    cubes = [(2 * x / side - 1) ** 3 for x in range(side)]
    rows = [bytearray(side) for _ in range(side)]
    for number in range(2 * side // 4):
        bend = 0.2 + number * 0.6180339887 % 1 / 5
        for x in range(side):
            y = 4 * number - math.floor(flat[x] + bend * cubes[x])
            for row in rows[max(0, y):max(0, y + 2)]:
                row[x] = 1
    return side, side, rows


def steep(side):
    """lines of slope 0.9907 that bend by 1.4 pixels, by climbing over slopes and bends"""
    return lines(side, lambda x: 0.99067 * x + 5.6626 * x * (side - x) / side ** 2 + 0.1119)


def bows(side):
    """lines of slope 0.9823 that bend by 1.8 pixels: dear where pages are small, by climbing too"""
    return lines(side, lambda x: 0.98228 * x + 7.2029 * x * (side - x) / side ** 2 + 0.5758)


def rings(side):
    """rings round one middle, 2 pixels black and 2 white"""
    middle, most = side / 2 - 0.5, side / 2 - 2
    radii = (lambda x, y: math.hypot(x - middle, y - middle))
    return pages.where(side, side, lambda x, y: radii(x, y) % 4 < 2 and radii(x, y) < most)


def stadium_bent(side):
    """rings round a line, half a page long, that bends by a pixel: no corner, and long sides"""
    middle, half, across, up = side / 2, side / 4, math.cos(0.46), math.sin(0.46)

    def radius(x, y):
        along = (x - middle) * across + (y - middle) * up
        beside = (y - middle) * across - (x - middle) * up + (along / half) ** 3
        return math.hypot(max(0, abs(along) - half), beside)

    return pages.where(side, side, lambda x, y: (r := radius(x, y)) % 4 < 2 and r < side / 4 - 4)


# Paths in paths.

def framed(side, field, row):
    """Frames in frames, 1 pixel black and 1 white; within `field` pixels of the middle is what `row` gives."""
    middle = (side - 1) / 2
    frames = bytearray((int(abs(x - middle)) - field) % 2 == 0 for x in range(side))
    for y in range(side):
        around = int(abs(y - middle))
        within = max(around + 1, field)
        low, high = max(0, math.floor(middle - within) + 1), min(side, math.ceil(middle + within))
        pixels = bytearray(frames)
        pixels[low:high] = row(y, low, high) if around < field else bytes([(around - field) % 2 == 0]) * (high - low)
        yield pixels


def nest(side):
    """square frames in frames"""
    return side, side, framed(side, 0, None)


def holes(side):
    """frames in frames, a sixth of the side broad, round a field of small holes"""
    full, holed = b"\1" * side, bytes(x % 4 == 0 for x in range(side))
    return side, side, framed(side, side // 3, lambda y, low, high: (full if y % 2 == 0 else holed)[low:high])


def checker(side):
    """fields of one pixel"""
    return pages.checkerboard(side, side)


# Texts.

def dots(side):
    """single pixels, as many as there can be that don't touch"""
    return by_rows(side, lambda y: y % 2, lambda y: [y == 0 and x % 2 == 0 for x in range(side)])


def noise(side):
    """each pixel black or white by chance"""
    numbers = random.Random(1)
    return side, side, (numbers.getrandbits(8 * ((side + 7) // 8)).to_bytes((side + 7) // 8, "big") for _ in range(side))


FAMILIES = {it.__name__: it for it in (
    diagonal, diagonal3, diagonal8, diagonal1, diamonds, slope2, slope32, golden, arcs, sags, cubics, bends, steep, bows, rings, stadium_bent, nest, holes, checker,
    dots, noise)}


def draw(name, family, side):
    """Writes the page of this family and side into the file of this name."""
    with open(name, "wb") as file:
        pages.write(file, *FAMILIES[family](side))


def main():
    if sys.argv[1:] == ["--list"]:
        for name, family in FAMILIES.items():
            print(f"{name:13} {family.__doc__}")
    elif len(sys.argv) == 3 and sys.argv[1] in FAMILIES and sys.argv[2].isdigit() and int(sys.argv[2]) > 3:
        pages.write(sys.stdout.buffer, *FAMILIES[sys.argv[1]](int(sys.argv[2])))
    else:
        sys.exit(__doc__)


if __name__ == "__main__":
    main()
