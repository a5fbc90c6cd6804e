#!/usr/bin/env bash
# Traces a scan, a map and a page of small shapes into each format, and has the programs that people use for
# these formats read the documents.
#
# usage: bench/check/documents.sh [FOLDER]
#
# Each document must be read without an error or a warning: SVG by xmllint and rsvg-convert, EPS by Ghostscript,
# DXF and GeoJSON by GDAL, and GeoJSON by jq too. The drawings of SVG, EPS and GeoJSON must be the same but for
# pixels at their edges, so that holes are where holes are. How many of GeoJSON's shapes GDAL calls invalid is
# printed: curves may touch or cross where shapes do, and potrace does not forbid it. All pages in one PostScript
# document must be as many for Ghostscript, and each must be drawn as the page's EPS document.
#
# With a FOLDER, the pages PAGE.pbm in it and their documents PAGE.svg, PAGE.eps, PAGE.dxf and PAGE.geojson are
# read instead, and nothing is traced.
#
# It needs Debian's packages libxml2-utils, librsvg2-bin, ghostscript, gdal-bin and jq, and python3.
# It is no part of the gate.
set -euo pipefail

top=$(cd "$(dirname "$(readlink -f "${BASH_SOURCE[0]}")")/../.." && pwd)
for tool in xmllint rsvg-convert gs ogrinfo gdal_rasterize gdal_translate jq python3; do
  command -v "$tool" >/dev/null || { echo "documents: $tool is missing" >&2; exit 2; }
done
work=$(mktemp -d)
trap 'rm -rf "$work"' EXIT

fail() {
  echo "documents: $*" >&2
  exit 1
}

# quiet NAME COMMAND..: the command must succeed, and must say nothing on standard error.
quiet() {
  local name=$1
  shift
  "$@" 2>"$work/said" || { cat "$work/said" >&2; fail "$name"; }
  [ ! -s "$work/said" ] || { cat "$work/said" >&2; fail "$name"; }
}

# sides FILE: the width and the height that a raw PBM names.
sides() {
  head -c 100 "$1" | tr '\n' ' ' | sed 's/#[^ ]*//g' | awk '{ print $2, $3 }'
}

# trace PAGE: the page's four documents.
trace() {
  local format
  for format in svg eps dxf geojson; do
    "$top/potrace" -b "$format" -z minority -t 2 <"$1.pbm" >"$1.$format"
  done
}

# same NAME A B: two drawings, as raw PGM files, are the same but for edges: where A is black all about a pixel, B
# is black, and where A is white, B is white.
same() {
  python3 - "$@" <<'END'
import sys


def picture(name):
    """The width and the bytes of the gray pixels, row by row."""
    with open(name, "rb") as file:
        data = file.read()
    words, at = [], 0
    while len(words) < 4:
        end = min(i for i in (data.find(b" ", at), data.find(b"\n", at)) if i >= 0)
        if data[at : at + 1] == b"#":
            end = data.find(b"\n", at)
        elif end > at:
            words.append(data[at:end])
        at = end + 1
    assert words[0] == b"P5" and words[3] == b"255", name
    return int(words[1]), data[at:]


def rows(width, data, test):
    """Each row as a number, a byte for each pixel: 1 where the gray passes the test."""
    table = bytes(1 if test(gray) else 0 for gray in range(256))
    return [int.from_bytes(data[at : at + width].translate(table), "big") for at in range(0, len(data), width)]


def all_about(marks):
    """Where the pixels about one are marked too."""
    beside = [row & row << 8 & row >> 8 for row in marks]
    return [low & row & high for low, row, high in zip(beside, beside[1:], beside[2:])]


name, first, second = sys.argv[1:]
(width, a), (other, b) = picture(first), picture(second)
if width != other or len(a) != len(b):
    sys.exit(f"documents: {name}: the drawings are not of one size")
black = all_about(rows(width, a, lambda gray: gray < 64))
white = all_about(rows(width, a, lambda gray: gray >= 192))
drawn = rows(width, b, lambda gray: gray < 128)[1:-1]
left = sum(bin(yes & ~row | no & row).count("1") for yes, no, row in zip(black, white, drawn))
if left:
    sys.exit(f"documents: {name}: {left} pixels away from an edge differ")
END
}

# read_page PAGE: its documents are read and compared.
read_page() {
  local page=$1 name width height shapes paths invalid
  name=$(basename "$page")
  read -r width height < <(sides "$page.pbm")

  quiet "$name.svg" xmllint --noout "$page.svg"
  quiet "$name.svg" rsvg-convert --dpi-x 72 --dpi-y 72 --background-color white --width "$width" --height "$height" --output "$work/svg.png" "$page.svg"
  gdal_translate -q -of PNM -b 1 "$work/svg.png" "$work/svg.pgm"

  quiet "$name.eps" gs -q -dSAFER -dBATCH -dNOPAUSE -dEPSCrop -r72 -dGraphicsAlphaBits=4 -sDEVICE=pgmraw "-sOutputFile=$work/eps.pgm" "$page.eps"
  same "$name.eps" "$work/svg.pgm" "$work/eps.pgm"

  quiet "$name.dxf" ogrinfo -ro -so -al "$page.dxf" >"$work/dxf"
  paths=$(sed -n 's/^Feature Count: //p' "$work/dxf")

  quiet "$name.geojson" jq empty "$page.geojson"
  shapes=$(jq '.features | length' "$page.geojson")
  quiet "$name.geojson" jq -e '[.features[].geometry.coordinates[] | .[0] == .[-1] and length > 3] | all' "$page.geojson" >"$work/closed"
  [ "$(jq '[.features[].geometry.coordinates[]] | length' "$page.geojson")" = "$paths" ] || fail "$name: DXF has $paths paths, and GeoJSON another number of rings"
  quiet "$name.geojson" ogrinfo -ro -so -al "$page.geojson" >"$work/geojson"
  [ "$(sed -n 's/^Feature Count: //p' "$work/geojson")" = "$shapes" ] || fail "$name.geojson: GDAL reads another number of shapes"
  quiet "$name.geojson" gdal_rasterize -q -of GTiff -ot Byte -init 255 -burn 0 -te 0 0 "$width" "$height" -ts "$width" "$height" "$page.geojson" "$work/geojson.tif"
  quiet "$name.geojson" gdal_translate -q -of PNM "$work/geojson.tif" "$work/geojson.pgm"
  same "$name.geojson" "$work/svg.pgm" "$work/geojson.pgm"
  invalid=$(ogrinfo -q -ro "$page.geojson" -dialect SQLite -sql "SELECT COUNT(*) AS n FROM \"$name\" WHERE NOT ST_IsValid(geometry)" | sed -n 's/^  n (Integer) = //p')

  echo "$name: $width by $height pixels, $paths paths, $shapes shapes, $invalid of them invalid for GDAL; all documents read, and one drawing"
}

# read_book PAGE..: their pages, in one file, are traced into one PostScript document. Ghostscript counts as many pages,
# and draws each as the page's EPS document.
read_book() {
  local page name width height n=0
  for page in "$@"; do
    cat "$page.pbm"
  done >"$work/book.pbm"
  "$top/potrace" -b ps -z minority -t 2 <"$work/book.pbm" >"$work/book.ps"
  for page in "$@"; do
    n=$((n + 1))
    name=$(basename "$page")
    read -r width height < <(sides "$page.pbm")
    quiet "$name.eps" gs -q -dSAFER -dBATCH -dNOPAUSE -dEPSCrop -r72 -dGraphicsAlphaBits=4 -sDEVICE=pgmraw "-sOutputFile=$work/eps.pgm" "$page.eps"
    rm -f "$work"/book-*.pgm
    quiet book.ps gs -q -dSAFER -dBATCH -dNOPAUSE "-g${width}x$height" -r72 -dGraphicsAlphaBits=4 -sDEVICE=pgmraw "-sOutputFile=$work/book-%d.pgm" "$work/book.ps"
    [ "$(find "$work" -name 'book-*.pgm' | wc -l)" -eq $# ] || fail "book.ps: Ghostscript counts another number of pages"
    cmp "$work/eps.pgm" "$work/book-$n.pgm" || fail "book.ps: page $n isn't drawn as its EPS document"
  done
  echo "book: $# pages in one document, each drawn as its EPS document"
}

if [ $# -gt 0 ]; then
  for page in "$1"/*.pbm; do
    read_page "${page%.pbm}"
  done
  exit 0
fi

python3 "$top/bench/pages.py" scan >"$work/scan.pbm"
python3 "$top/bench/pages.py" map 1200 900 120 >"$work/map.pbm"
python3 "$top/bench/pages.py" map 900 700 6 >"$work/shapes.pbm"
for page in scan map shapes; do
  trace "$work/$page"
  read_page "$work/$page"
done
read_book "$work/scan" "$work/map" "$work/shapes"
