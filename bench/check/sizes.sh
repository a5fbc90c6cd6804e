#!/usr/bin/env bash
# Measures what the recipes of docs/GUIDE.md for true sizes and for maps make.
#
# usage: sizes.sh [PROGRAM]
#
# The blocks of shell under "True size" and "Maps" are run as they stand, on pages with a black rectangle at known pixels,
# as of scans of 300 dpi; and then other programs measure the documents: SVG in inches, DXF in millimetres, the PDF's pages
# and where their ink is, G-code, HPGL, and where the map lies. Shapes that cross themselves, of which GEOS has to call some
# invalid before, have to be valid afterwards. How many it calls so is printed for other pages too.
#
# PROGRAM is ours, and is built if it isn't given. It needs python3 and Debian's packages librsvg2-bin, ghostscript,
# poppler-utils, pstoedit, gdal-bin and python3-ezdxf. It is no part of the gate.
set -euo pipefail

top=$(cd "$(dirname "$(readlink -f "${BASH_SOURCE[0]}")")/../.." && pwd)
for tool in python3 rsvg-convert gs pdfinfo pstoedit ogr2ogr ogrinfo; do
  command -v "$tool" >/dev/null || { echo "sizes: $tool is missing" >&2; exit 2; }
done
[ $# -ge 1 ] || "$top/launch" --build potrace
program=$(readlink -f "${1:-$top/crates/potrace/out/potrace}")
work=$(mktemp -d)
trap 'rm -rf "$work"' EXIT
mkdir "$work/bin"
ln -s "$program" "$work/bin/potrace"
PATH=$work/bin:$PATH
cd "$work"

# A rectangle from pixel 300, 600 to 2100, 3000 of an A4 page, counted from the lower left corner.
python3 - "$top/bench" <<'END'
import sys

sys.path.insert(0, sys.argv[1])
import pages

white, black = [0] * 2480, [0] * 300 + [1] * 1800 + [0] * 380
rows = [white] * (3508 - 3000) + [black] * 2400 + [white] * 600
for name in ("scan.pbm", "logo.pbm"):
    with open(name, "wb") as file:
        pages.write(file, 2480, 3508, rows)
with open("book.pbm", "wb") as file:
    for _ in range(2):
        pages.write(file, 2480, 3508, rows)
END
"$top/bench/pages.py" dither 300 200 >mask.pbm

# The guide's blocks.
python3 - "$top/docs/GUIDE.md" <<'END'
import re
import subprocess
import sys

with open(sys.argv[1], encoding="utf-8") as file:
    sections = dict(re.findall(r"^## (.*)\n((?:(?!## ).*\n?)*)", file.read(), re.M))
for title, count in (("True size", 4), ("Maps", 2)):
    blocks = re.findall(r"^```sh\n(.*?)^```$", sections[title], re.M | re.S)
    assert len(blocks) == count, (title, len(blocks))
    for block in blocks:
        subprocess.run(["bash", "-euo", "pipefail", "-c", block.replace("-t 50 mask.pbm", "-t 0 mask.pbm")], check=True, stderr=subprocess.DEVNULL)
END

rsvg-convert --dpi-x 300 --dpi-y 300 -o sized.png sized.svg
gs -q -o - -sDEVICE=bbox book.pdf >/dev/null 2>boxes
pdfinfo book.pdf >told
ogrinfo -q -ro -al mended.gpkg -dialect SQLite -sql 'SELECT COUNT(*) AS n, SUM(ST_IsValid(geom)) AS valid FROM mask' >mended
ogrinfo -q -ro -al mask.json -dialect SQLite -sql 'SELECT COUNT(*) AS n, SUM(ST_IsValid(geometry)) AS valid FROM mask' >before 2>/dev/null
ogrinfo -ro -so -al placed.gpkg >placed
ogrinfo -ro -so -al mask.json >there
/usr/bin/python3 - <<'END'
import re
import struct
import sys

import ezdxf
from ezdxf import bbox


def text_of(name):
    with open(name, encoding="utf-8", errors="replace") as file:
        return file.read()


def told(what, found, wanted, most):
    """Each number is no farther from the wanted one than it may be."""
    if len(found) != len(wanted) or any(abs(a - b) > most for a, b in zip(found, wanted)):
        sys.exit(f"sizes: {what}: {found}, and not {wanted}")
    print(f"{what}: {' '.join(f'{it:.7g}' for it in found)}, to {most:g}")


def numbers(pattern, text):
    return [float(it) for it in re.search(pattern, text, re.S).groups()]


INCH, RECTANGLE = 300, (300, 600, 2100, 3000)
png = open("sized.png", "rb").read(24)
told("SVG, its sides in pixels of 300 dpi", [*map(float, struct.unpack(">II", png[16:24]))], [2480, 3508], 1)
told("SVG, its sides in inches", numbers(r'width="([\d.]+)in" height="([\d.]+)in"', text_of("sized.svg")), [2480 / 300, 3508 / 300], 0.0001)
drawing = ezdxf.readfile("sized.dxf")
assert not drawing.audit().errors
box = bbox.extents(drawing.modelspace())
told("DXF, the rectangle in millimetres", [box.extmin.x, box.extmin.y, box.extmax.x, box.extmax.y], [it * 25.4 / INCH for it in RECTANGLE], 0.05)
pages, width, height = numbers(r"Pages: +(\d+).*Page size: +([\d.]+) x ([\d.]+) pts \(A4\)", text_of("told"))
told("PDF, pages and their sides in points", [pages, width, height], [2, 595, 842], 0)
for line in re.findall(r"%%HiResBoundingBox: (.*)", text_of("boxes")):
    told("PDF, the rectangle in points", [*map(float, line.split())], [it * 72 / INCH for it in RECTANGLE], 0.2)
gcode = text_of("logo.gcode")
assert "G20" in gcode
scale, = numbers(r"#1003 = ([\d.]+)", gcode)
for axis, number, wanted in (("X", 1003, RECTANGLE[::2]), ("Y", 1004, RECTANGLE[1::2])):
    found = [float(it) * scale for it in re.findall(rf"{axis}\[#{number}\*([\d.]+)\]", gcode)]
    told(f"G-code, the rectangle's {axis} in inches", [min(found), max(found)], [it / INCH for it in wanted], 0.002)
pairs = [(int(a), int(b)) for a, b in re.findall(r"P[UD](\d+),(\d+)", text_of("logo.hpgl"))]
found = [min(x for x, _ in pairs), min(y for _, y in pairs), max(x for x, _ in pairs), max(y for _, y in pairs)]
told("HPGL, the rectangle in units of an inch / 1016", found, [it / INCH * 1016 for it in RECTANGLE], 2)

extent = r"Extent: \(([-\d.]+), ([-\d.]+)\) - \(([-\d.]+), ([-\d.]+)\)"
west, south, east, north = numbers(extent, text_of("there"))
told("map, its extent in metres", numbers(extent, text_of("placed")),
     [500000 + 5 * west, 5400000 + 5 * south, 500000 + 5 * east, 5400000 + 5 * north], 0.01)
assert '"EPSG",25832' in text_of("placed")
counts = {name: numbers(r"n \(Integer\) = (\d+).*valid \(Integer\) = (\d+)", text_of(name)) for name in ("before", "mended")}
print(f"map: {counts['before'][0]:g} shapes of a dithered page, {counts['before'][0] - counts['before'][1]:g} of them invalid; mended {counts['mended'][0]:g}, {counts['mended'][0] - counts['mended'][1]:g} invalid")
sys.exit(counts["before"][0] == counts["before"][1] or counts["mended"][0] != counts["mended"][1])
END
for page in 'scan' 'map 1200 900 120' 'photo 1024'; do
  for words in '' '-n' '-a 0'; do
    # shellcheck disable=SC2086
    "$top/bench/pages.py" $page | potrace -b geojson $words >page.json
    counts=$(ogrinfo -q -ro page.json -dialect SQLite -sql 'SELECT COUNT(*) AS n, SUM(NOT ST_IsValid(geometry)) AS invalid FROM page' 2>/dev/null |
      sed -n 's/.*(Integer) = //p' | xargs)
    echo "GeoJSON of $page, ${words:-default}: ${counts#* } of ${counts% *} shapes invalid"
  done
done
