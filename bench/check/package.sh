#!/usr/bin/env bash
# Tries the Debian package and the tarball that packaging/make makes.
#
# usage: package.sh
#
# They are made twice and have to be the same each time. lintian may say nothing but that there is no notice of a
# copyright. The package is installed and removed by dpkg in a copy of this system in memory, which is gone afterwards:
# beside nothing, and in place of Debian's own potrace. What it installs has to work, and what it removes to be gone.
#
# It needs root, what packaging/make needs, and Debian's package lintian, man-db and a network that has Debian's
# packages; where the last three are missing it says what wasn't tried.
set -euo pipefail

top=$(cd "$(dirname "$(readlink -f "${BASH_SOURCE[0]}")")/../.." && pwd)
[ $# -eq 0 ] || { echo "usage: package.sh" >&2; exit 2; }
[ "$(id -u)" -eq 0 ] || { echo "package: only root installs packages" >&2; exit 2; }
work=$(mktemp -d)
trap 'rm -rf "$work"' EXIT

fail() {
  echo "package: $*" >&2
  exit 1
}

"$top/packaging/make" "$work/made" >/dev/null
"$top/packaging/make" "$work/again" >/dev/null
diff -r "$work/made" "$work/again" || fail "made twice, they differ"
package=$(echo "$work"/made/*.deb)
tarball=$(echo "$work"/made/*.tar.gz)
(cd "$work/made" && wc -c -- *) | head -2
dpkg-deb --info "$package" | sed -n '/^ Package/,$p'

if command -v lintian >/dev/null; then
  lintian --allow-root --fail-on error,warning --suppress-tags copyright-without-copyright-notice "$package" || fail "lintian says so"
  echo "lintian: nothing but that there is no notice of a copyright"
else
  echo "lintian: not tried, it isn't there"
fi

# The tarball, in a folder of its own.
mkdir "$work/prefix"
tar -xzf "$tarball" -C "$work/prefix"
"$work/prefix/bin/potrace" -s <"$top/examples/gray.pgm" | cmp - "$top/examples/gray.svg"
for file in README GUIDE.md FORMATS.md $(grep -oh 'pictures/[a-z]*\.svg' "$top"/docs/{GUIDE,FORMATS}.md | sort -u); do
  [ -s "$work/prefix/share/doc/potrace-proved/$file" ] || fail "the tarball lacks the document $file"
done
echo "tarball: $(find "$work/prefix" -type f | wc -l) files, with documents and pictures; the program traces as it should"

# The copy of this system: what is written there goes to memory.
cp "$top/examples/gray.pgm" "$top/examples/gray.svg" "$package" "$work/prefix"
cat >"$work/prefix/inside" <<'INSIDE'
set -euo pipefail
export DEBIAN_FRONTEND=noninteractive PATH=/usr/sbin:/usr/bin:/sbin:/bin LC_ALL=C.UTF-8
installed() { dpkg-query -W -f '${db:Status-Status}' "$1" 2>/dev/null || echo not-installed; }
if [ "$(installed potrace)" = installed ]; then dpkg -r potrace >/dev/null; fi
try() {
  dpkg -i /try/*.deb
  mapfile -t files < <(dpkg -L potrace-proved | while read -r it; do [ -d "$it" ] || echo "$it"; done)
  dpkg -V potrace-proved
  [ "$(command -v potrace)" = /usr/bin/potrace ]
  potrace -s </try/gray.pgm | cmp - /try/gray.svg
  if command -v man >/dev/null; then man -w potrace; else echo "man: not tried, it isn't there"; fi
  dpkg -r potrace-proved
  for file in "${files[@]}"; do [ ! -e "$file" ] || { echo "left: $file"; exit 1; }; done
  echo "dpkg: ${#files[@]} files installed, found right, and removed"
}
try
if apt-get install -y -qq --no-install-recommends potrace >/dev/null 2>&1; then
  potrace -v | head -1
  try
  [ "$(installed potrace)" != installed ]
  echo "dpkg: Debian's potrace made room"
else
  echo "dpkg: in place of Debian's potrace: not tried, it can't be had"
fi
INSIDE
mkdir "$work/memory"
unshare -m bash -euc '
  mount -t tmpfs none "$1/memory"
  cd "$1/memory"
  mkdir upper work root
  mount -t overlay overlay -o lowerdir=/,upperdir=upper,workdir=work root
  mkdir -p root/try
  for it in dev proc; do mount --rbind "/$it" "root/$it"; done
  cp "$1"/prefix/{gray.pgm,gray.svg,inside,*.deb} root/try
  chroot root bash /try/inside' - "$work" 2>&1 | sed "s|$work|FOLDER|g"
