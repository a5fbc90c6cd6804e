#!/usr/bin/env bash
# Tries the manual page's examples for a folder of scans: no sound page may be lost beside broken ones.
#
# usage: folder.sh [PROGRAM]
#
# Of 48 pages four are broken, and names have blanks, quotes, a newline, letters beyond ASCII, a dash in front and what a
# shell or parallel would take for its own. The examples are taken from docs/potrace.1. By xargs each sound page has to have
# its document; by parallel it is cut off in mid-run, and called again it has to go on there, to try the failed ones again
# and no other, and to end with the same documents.
#
# PROGRAM is ours, and is built if it isn't given. It needs python3 and Debian's package parallel. It is no part of the gate.
set -euo pipefail

top=$(cd "$(dirname "$(readlink -f "${BASH_SOURCE[0]}")")/../.." && pwd)
[ $# -ge 1 ] || "$top/launch" --build potrace
program=$(readlink -f "${1:-$top/crates/potrace/out/potrace}")
work=$(mktemp -d)
trap 'rm -rf "$work"' EXIT
fail() {
  echo "folder: $*" >&2
  exit 1
}

# The program, which takes its time, so that a run can be cut off.
mkdir "$work/bin"
printf '#!/bin/sh\necho >>"%s"\nsleep 0.1\nexec "%s" "$@"\n' "$work/calls" "$program" >"$work/bin/potrace"
chmod +x "$work/bin/potrace"
PATH=$work/bin:$PATH

# example WORD: the example of the manual page that begins with a word, with quotes as \(aq.
example() {
  sed -n "s/\\\\(aq/'/g; s/\\\\e\$/\\\\/; s/^\\.Dl //; /^$1/,/^\\./ { /^\\./d; p }" "$top/docs/potrace.1"
}
by_xargs=$(example 'find scans' | head -1)
by_parallel=$(example '\[ -f pages \]')
[ -n "$by_xargs" ] && [ -n "$by_parallel" ] || fail "docs/potrace.1 has no such examples"

mkdir -p "$work/at/scans/a folder" "$work/at/scans/-dash"
cd "$work/at"
number=0
for name in 'two words' "it's" '"quoted"' '$HOME' '{}' '{.} {#}' 'back\slash' '-s' 'ÄÖ é' '日本' $'new\nline' 'semi;colon' '*[a]?' 'tab	tab' '#1' '~' '%' '&& false' '`id`' 'trailing '; do
  "$top/bench/pages.py" scan 300 200 "$number" >"scans/$name.pbm"
  number=$((number + 1))
done
for number in $(seq 20 47); do "$top/bench/pages.py" scan 300 200 "$number" >"scans/a folder/$number.pbm"; done
mv scans/-s.pbm scans/-dash
head -c 100 'scans/a folder/21.pbm' >"scans/it's.pbm"
head -c 100 'scans/a folder/21.pbm' >'scans/a folder/25.pbm'
: >'scans/a folder/33.pbm'
echo P9 >'scans/a folder/47.pbm'
cp -r scans "$work/kept"

documents() { find scans -name '*.svg' -print0 | tr -dc '\0' | wc -c; }
status=0
bash -c "$by_xargs" >"$work/said" 2>&1 || status=$?
echo "by xargs: $(find scans -name '*.pbm' -print0 | tr -dc '\0' | wc -c) pages, $(documents) documents, status $status"
[ "$(documents)" -eq 44 ] || { cat "$work/said" >&2; fail "a sound page has no document"; }
mv scans "$work/by-xargs"

cp -r "$work/kept" scans
setsid bash -c "$by_parallel" >"$work/said" 2>&1 </dev/null &
first=$!
until [ "$(documents)" -ge 12 ]; do sleep 0.1; done
kill -KILL -- "-$first"
wait "$first" 2>/dev/null || true
before=$(documents)
: >"$work/calls"
status=0
bash -c "$by_parallel" >"$work/said" 2>&1 </dev/null || status=$?
echo "by parallel: cut off with $before documents; then $(wc -l <"$work/calls") calls, status $status, $(documents) documents"
diff -r "$work/by-xargs" scans || fail "other documents"
[ "$(wc -l <"$work/calls")" -le $((48 - before + 4 + 8)) ] || fail "it began anew"
: >"$work/calls"
status=0
bash -c "$by_parallel" >"$work/said" 2>&1 </dev/null || status=$?
echo "and once more: $(wc -l <"$work/calls") calls, status $status"
[ "$(wc -l <"$work/calls")" -eq 4 ] || fail "not the four broken pages alone are tried again"
