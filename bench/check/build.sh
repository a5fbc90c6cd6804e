#!/usr/bin/env bash
# Tries how `build`, `launch` and `install` tell what is due: by what files hold, and not by their times.
#
# usage: build.sh
#
# In a repository of its own, two crates and a program of the kit's templates, it builds, runs, touches, changes and
# changes back, and looks each time which crates were proved. The manual page and completions of that program are empty.
#
# It needs python3, git and the kit's command rt, and takes some minutes.
set -euo pipefail

top=$(cd "$(dirname "$(readlink -f "${BASH_SOURCE[0]}")")/../.." && pwd)
for tool in python3 git rt; do
  command -v "$tool" >/dev/null || { echo "build: $tool is missing" >&2; exit 2; }
done
work=$(mktemp -d)
trap 'rm -rf "$work"' EXIT

fail() {
  echo "build: $*" >&2
  [ ! -s "$work/said" ] || cat "$work/said" >&2
  exit 1
}

# due WHAT CRATE.. -- COMMAND..: the command succeeds, and has these crates proved and no other.
due() {
  local what=$1 proved=() said
  shift
  while [ "$1" != -- ]; do proved+=("$1"); shift; done
  shift
  "$@" >"$work/out" 2>"$work/said" </dev/null || fail "$what: $*: status $?"
  said=$(sed -n 's/.*: crate [0-9]* of [0-9]*: //p' "$work/said" | LC_ALL=C sort | xargs)
  [ "$said" = "${proved[*]}" ] || fail "$what: $*: proved '$said', not '${proved[*]}'"
  [ ${#proved[@]} -gt 0 ] || [ ! -s "$work/said" ] || fail "$what: says something"
  echo "$what: ${proved[*]:-nothing}"
}

mkdir "$work/clone"
cd "$work/clone"
cp "$top"/{build,launch,install,.gitignore} .
touch crates.txt HANDLES
for crate in 'low start_lib' 'other start_lib' 'potrace start_io'; do
  # shellcheck disable=SC2086
  rt new crates/$crate >/dev/null 2>&1
done
printf 'other:\nlow:\npotrace: low\n' >crates.txt
echo 'hello: potrace' >programs.txt
: >seconds.txt
sed 's/launch" potrace/launch" hello/' "$top/potrace" >hello
chmod +x hello
mkdir docs completions
touch docs/hello.1 completions/{hello.bash,_hello}
git init -q -b new .
git config user.name nobody
git config user.email nobody@example.com
git add .
git commit -qm 'A program'

due 'a first build' low potrace -- ./build
due 'run behind it' -- ./hello
due 'installed behind it' -- ./install "$work/installed"
printf 'tea 95\n' | ./hello | grep -qx 'tea 1:35' || fail "the program doesn't run"
find . -name '*.rt' -exec touch {} +
touch crates.txt
due 'sources and the list touched' -- ./hello
due 'and again' -- ./build hello
git checkout -q -b old
echo '// A line.' >>crates/low/src/lib.rt
git commit -qam 'An old branch'
git checkout -q new
due 'an old branch and back' -- ./hello
echo 'further: low' >>crates.txt
sed -i 's/^other:/other: low/' crates.txt
due "another crate's line, and one more" -- ./hello
git checkout -q crates.txt
echo '// A line.' >>crates/potrace/src/clock.rt
due 'the program changed' potrace -- ./hello
echo '// A line.' >>crates/low/src/lib.rt
due 'the crate below it changed' low potrace -- ./hello
touch crates/potrace/args
due 'a file more' potrace -- ./build
rm crates/potrace/args
sed -i 's/^potrace:.*/potrace: low other/' crates.txt
due "the program's line changed" other potrace -- ./hello
echo 'egg 420' >crates/potrace/stdin
! ./hello >/dev/null 2>"$work/said" </dev/null || fail "a stored run that fails is passed"
grep -q "the crate potrace isn't built" "$work/said" || fail "a stored run that fails: says something else"
echo 'egg 7:00' >crates/potrace/stdout
due 'the stored run changed' potrace -- ./hello
mkdir "$work/path"
for tool in bash env sed readlink dirname find sort sha256sum; do ln -s "$(command -v "$tool")" "$work/path"; done
ln -s "$(python3 -c 'import sys; print(sys.executable)')" "$work/path/python3"
due 'without the kit' -- env "PATH=$work/path" ./hello
due 'with it again' -- ./hello
start=$(date +%s%N)
for _ in 1 2 3 4 5 6 7 8 9 10; do ./hello </dev/null; done
echo "started ten times in $((($(date +%s%N) - start) / 1000000)) ms"
