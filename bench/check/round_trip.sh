#!/usr/bin/env bash
# Traces pages into points and fills them again: each has to come back byte for byte, under all turn policies.
#
# usage: bench/check/round_trip.sh [FOLDER]
#
# The pages are those of examples/ and one of each kind that bench/pages.py draws; with a FOLDER its *.pbm too. A page
# that isn't raw PBM is compared with the raw PBM of its pixels, black up to half of white, which this script makes by
# itself. The programs are ours, and are built if need be. It needs python3, and some minutes. It is no part of the gate.
set -euo pipefail

top=$(cd "$(dirname "$(readlink -f "${BASH_SOURCE[0]}")")/../.." && pwd)
work=$(mktemp -d)
trap 'rm -rf "$work"' EXIT
"$top/launch" --build potrace
"$top/launch" --build point_fill

draw() {
  local name=$1
  shift
  python3 "$top/bench/pages.py" "$@" >"$work/$name.pbm"
}
draw scan scan
draw map map 1200 900 40
draw text text 12
draw logo logo 900
draw engraving engraving 900
draw photo photo 700
draw board board 16
draw stairs stairs 2048
draw spiral spiral 1024
draw squares squares 1024
draw comb comb 1024
draw white white 1000 1000
draw checkerboard checkerboard 512 512
draw dither dither 2480 3508
draw bar bar 32767 8
draw dust dust 3000 3000
draw column bar 1 32767
pages=("$work"/*.pbm "$top"/examples/*.p[bgp]m)
[ $# -eq 0 ] || pages+=("$1"/*.pbm)

# A page of bits, gray samples or colours, plain or raw with samples of one byte, as raw PBM.
cat >"$work/raw.py" <<'END'
import re
import sys

import pages

data, words, at = sys.stdin.buffer.read(), [], 0
kind = data[:2].decode()
plain, samples = kind in ("P1", "P2", "P3"), 3 if kind in ("P3", "P6") else 1
at = 2
while len(words) < (2 if kind in ("P1", "P4") else 3):
    word = re.compile(rb"(?:\s|#[^\n\r]*[\n\r])*(\d+)").match(data, at)
    words.append(int(word[1]))
    at = word.end()
width, height, white = words[0], words[1], (words + [1])[2]
rest = data[at:]
if kind == "P1":
    bits = [c == 49 for c in re.sub(rb"#[^\n\r]*[\n\r]|\s", b"", rest)]
else:
    values = [int(v) for v in re.sub(rb"#[^\n\r]*[\n\r]", b" ", rest).split()] if plain else list(rest[1:])
    bits = [2 * sum(values[k:k + samples]) <= samples * white for k in range(0, width * height * samples, samples)]
pages.write(sys.stdout.buffer, width, height, (bits[row * width:(row + 1) * width] for row in range(height)))
END

count=0
for page in "${pages[@]}"; do
  want=$page
  if [ "$(head -c 2 "$page")" != P4 ]; then
    PYTHONPATH=$top/bench python3 "$work/raw.py" <"$page" >"$work/want"
    want=$work/want
  fi
  for policy in black white left right minority majority; do
    "$top/potrace" -b points -t 0 -z "$policy" <"$page" | "$top/point_fill" >"$work/back"
    cmp "$want" "$work/back" || { echo "round_trip: $page under $policy doesn't come back" >&2; exit 1; }
    count=$((count + 1))
  done
done
echo "$count round trips of ${#pages[@]} pages: each came back byte for byte"
