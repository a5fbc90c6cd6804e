#!/usr/bin/env bash
# Has other programs write PPM, and looks whether each page is traced as the same page in another format.
#
# usage: colors.sh [PROGRAM]
#
# pnmtopnm and ImageMagick write a page of text in colours, plainly and raw, with samples of one byte and of two, and
# pdftoppm the pages of a PDF; the points of each have to be those of a BMP of 24 bits with the same pixels, at three
# levels and inverted. Gray pixels as PPM have to be traced as they are as PGM.
#
# It needs python3 and Debian's packages netpbm, imagemagick, ghostscript and poppler-utils.
set -euo pipefail

here=$(cd "$(dirname "$(readlink -f "${BASH_SOURCE[0]}")")" && pwd)
program=${1:-$here/../../potrace}
for tool in python3 pnmtopnm pamdepth pgmtoppm convert gs pdftoppm; do
  [ -n "$(type -P "$tool")" ] || { echo "colors: $tool is missing" >&2; exit 2; }
done
work=$(mktemp -d)
trap 'rm -rf "$work"' EXIT
failed=
export LC_ALL=C

# same NAME FILE OTHER: both are traced to the same points, and to some.
same() {
  local words
  for words in "-k 0.2" "-k 0.85" "-i" ""; do
    # shellcheck disable=SC2086
    "$program" -b points $words <"$2" >"$work/a.points" && "$program" -b points $words <"$3" >"$work/b.points" &&
      cmp -s "$work/a.points" "$work/b.points" || { echo "$1: not the same ($words)"; failed=yes; return; }
  done
  echo "$1: $(head -1 "$work/a.points")"
}

# magic FILE: its first two bytes.
magic() { head -c 2 "$1"; }

python3 "$here/../pages.py" scan 620 877 >"$work/page.pbm"
python3 "$here/../color.py" ppm <"$work/page.pbm" >"$work/page.ppm"
python3 "$here/../color.py" bmp <"$work/page.pbm" >"$work/page.bmp"

pnmtopnm "$work/page.ppm" >"$work/raw.ppm"
pnmtopnm -plain "$work/page.ppm" >"$work/plain.ppm"
pamdepth -quiet 65535 "$work/page.ppm" | pnmtopnm >"$work/wide.ppm"
pamdepth -quiet 65535 "$work/page.ppm" | pnmtopnm -plain >"$work/wide-plain.ppm"
convert "$work/page.bmp" "$work/magick.ppm"
convert "$work/page.bmp" -compress none "$work/magick-plain.ppm"
convert "$work/page.bmp" -depth 16 "$work/magick-wide.ppm"
for name in raw plain wide wide-plain magick magick-plain magick-wide; do
  same "$name ($(magic "$work/$name.ppm"))" "$work/$name.ppm" "$work/page.bmp"
done

# A PDF with letters and tinted shapes, drawn in colours.
cat >"$work/page.ps" <<'PS'
%!PS
/Helvetica-Bold findfont 60 scalefont setfont
0.9 0.8 0.2 setrgbcolor 0 0 300 200 rectfill
0.1 0.2 0.6 setrgbcolor 30 120 moveto (Colours) show
0.8 0.1 0.1 setrgbcolor 150 60 40 0 360 arc fill
showpage
PS
gs -q -dSAFER -dBATCH -dNOPAUSE -sDEVICE=pdfwrite -dDEVICEWIDTHPOINTS=300 -dDEVICEHEIGHTPOINTS=200 "-sOutputFile=$work/page.pdf" "$work/page.ps"
pdftoppm -r 100 "$work/page.pdf" >"$work/pdf.ppm"
convert "ppm:$work/pdf.ppm" -type TrueColor "bmp3:$work/pdf.bmp"
same "pdftoppm ($(magic "$work/pdf.ppm"))" "$work/pdf.ppm" "$work/pdf.bmp"

# Gray pixels, one sample or three of them.
pdftoppm -gray -r 100 "$work/page.pdf" >"$work/gray.pgm"
pgmtoppm rgbi:1/1/1 "$work/gray.pgm" >"$work/gray.ppm"
same "gray pixels ($(magic "$work/gray.ppm"))" "$work/gray.ppm" "$work/gray.pgm"

[ -z "$failed" ]
