#!/usr/bin/env bash
# Looks whether the programs that load the C library are the same to the byte, whoever built them where.
#
# usage: same.sh [CLONE ..]
#
# Each CLONE is a clone of the same sources in which the programs stand, by `./build` or by a whole `rt ci`, which leave
# them at the same place. With none, or with one, this clone's sources are copied to a folder of another length and built
# there, which takes as long as a first build. The sha256 of each program is printed, and has to be one. Beside it stands
# that of what each clone's programs are made of, its list of crates with their sources, definitions and proofs.
#
# It needs sha256sum, and git and what ./build needs where it builds. It is no part of the gate.
set -euo pipefail

top=$(cd "$(dirname "$(readlink -f "${BASH_SOURCE[0]}")")/../.." && pwd)
clones=("$@")
if [ $# -lt 2 ]; then
  [ $# -eq 1 ] || { "$top/build"; clones=("$top"); }
  work=$(mktemp -d)
  trap 'rm -rf "$work"' EXIT
  copy=$work/a/folder/of/another/length
  mkdir -p "$copy"
  git -C "$top" ls-files -z -co --exclude-standard | (cd "$top" && xargs -0 cp --parents -t "$copy")
  "$copy/build"
  clones+=("$copy")
fi
# sources_of CLONE: a checksum of what its programs are made of.
sources_of() {
  (cd "$1" && find crates.txt crates/*/{src,specs,proofs} -type f -print0 | LC_ALL=C sort -z | xargs -0 sha256sum | sha256sum)
}

# program_of CLONE CRATE: its program as the gate links it, which `./build` leaves beside that with the C library in it.
program_of() {
  local program=$1/crates/$2/out/$2
  if [ -s "$program.dynamic" ]; then program+=.dynamic; fi
  echo "$program"
}

sums=$(for clone in "${clones[@]}"; do sources_of "$clone"; done | sort -u)
sed 's/ *-$/  what they are made of/' <<<"$sums"
[ "$(wc -l <<<"$sums")" -eq 1 ] || echo "same: they are made of different sources" >&2
differ=0
while IFS=': ' read -r name crate; do
  for clone in "${clones[@]}"; do
    [ -s "$(program_of "$clone" "$crate")" ] || { echo "same: $clone has no program $name" >&2; exit 1; }
  done
  sums=$(for clone in "${clones[@]}"; do sha256sum <"$(program_of "$clone" "$crate")"; done | sort -u)
  [ "$(wc -l <<<"$sums")" -eq 1 ] || differ=1
  sed "s/ *-$/  $name/" <<<"$sums"
done < <(grep -v '^#' "$top/programs.txt")
[ "$differ" -eq 0 ] || { echo "same: they differ between ${clones[*]}" >&2; exit 1; }
echo "the same in ${#clones[@]} clones"
