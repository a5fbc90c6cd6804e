#!/usr/bin/env bash
# Runs every command of README, the guide, the manual pages and the examples as it stands there, and fails where one does.
#
# usage: examples.sh
#
# The commands are taken from the documents: blocks of shell, what stands behind a $ in blocks of text, whose output has to
# be the one that is shown, and in a line of text what begins with one of our programs or a converter and has more than options;
# of the manual pages, which have to be well-formed, the examples and what stands literally. They run one after another, in
# a copy of this clone in which what is built here stands, in a folder with the pages that they name; the documents that
# come have to be read by a parser. What isn't run is named below, with the reason. The batch queue, and the host that ssh
# reaches, are played by the shell. And `examples/redraw` has to change nothing.
#
# It needs what ./build needs where a program isn't built yet, python3, git and Debian's packages mandoc, man-db,
# imagemagick, poppler-utils, ghostscript, pstoedit, gdal-bin, parallel and rsync. It is no part of the gate.
set -euo pipefail

top=$(cd "$(dirname "$(readlink -f "${BASH_SOURCE[0]}")")/../.." && pwd)
for tool in python3 git mandoc man convert pdftoppm ps2pdf gs pstoedit ogr2ogr find xargs parallel rsync; do
  command -v "$tool" >/dev/null || { echo "examples: $tool is missing" >&2; exit 2; }
done
documents=(README.md docs/GUIDE.md docs/FORMATS.md CONTRIBUTING.md examples/README.md examples/library/README.md docs/{potrace,point_fill,outline_check,mkbitmap}.1)
work=$(mktemp -d)
trap 'rm -rf "$work"' EXIT

# Commands that aren't run, and why.
cat >"$work/not" <<'END'
rt ci: it is the gate, and takes an hour
.ci/run: it is the gate
rt ci CRATE: a part of the gate
rt must-fail CRATE: a part of the gate
bench/try_wrong_bodies CRATE: it proves the crate again for each wrong body
rt try --test: it wants the folder of a crate that is at work
rt check: it wants the folder of a crate that is at work
rt plant: it wants the folder of a crate that is at work
rt tidy: it wants the folder of a crate that is at work
rt doc: it says where the kit's guides are
packaging/make FOLDER: bench/check/package.sh tries it
./build ring: bench/check/library.sh tries it
./launch ring: bench/check/library.sh tries it
END

fail() {
  echo "examples: $*" >&2
  exit 1
}

# The copy, with what is built.
while read -r name; do "$top/launch" --build "$name"; done < <(sed -n 's/^\([a-z_]*\):.*/\1/p' "$top/programs.txt")
mkdir -p "$work/clone" "$work/home/host" "$work/bin"
git -C "$top" ls-files -z -co --exclude-standard | (cd "$top" && xargs -0 cp --parents -t "$work/clone")
cd "$work/clone"
git init -q
git add .
while IFS=': ' read -r name crate; do
  mkdir -p "crates/$crate/out"
  cp "$top/crates/$crate/out"/{"$crate",built} "crates/$crate/out"
  ln -s "$work/clone/crates/$crate/out/$crate" "$work/bin/$name"
done < <(grep -v '^#' programs.txt)
ln -s "$top/crates/potrace/out/libraries" "$top/crates/potrace/out/logs" crates/potrace/out
while read -r name; do ./launch --build "$name"; done < <(sed -n 's/^\([a-z_]*\):.*/\1/p' programs.txt)

for manual in docs/*.1; do
  mandoc -T lint "$manual" >"$work/said" 2>&1 || true
  man --warnings -E UTF-8 -l "$manual" >/dev/null 2>>"$work/said"
  [ ! -s "$work/said" ] || { cat "$work/said" >&2; fail "$manual isn't well-formed"; }
done

# The pages and pictures of the examples are what makes them again.
examples/redraw
git diff --exit-code --stat || fail "examples/redraw changes something"
echo "examples/redraw: changes nothing"

# The pages that the documents name.
bench/pages.py scan 400 300 >scan.pbm
bench/pages.py map 300 200 40 >mask.pbm
cp examples/ampersand.pbm logo.pbm
cat scan.pbm mask.pbm >book.pbm
cp examples/gray.pgm .
cp examples/rose.pgm note.pgm
mkdir scans
cp scan.pbm 'scans/first page.pbm'
cp scan.pbm scans/second.pbm
cp scan.pbm a.pbm
cp mask.pbm e.pbm
cp scan.pbm page.pbm
cp scan.pbm name
cp mask.pbm third.pbm
cp logo.pbm 'fourth page.pbm'
printf 'third.pbm\nfourth page.pbm\n' >pages.txt
convert gray.pgm -transparent white -resize 400% photo.png
cp photo.png page.png
cp photo.png small.png
convert scan.pbm mask.pbm -compress Group4 letter.tif
cp letter.tif fax.tif
# A PDF of two pages, each with a black bar.
python3 - >letter.pdf <<'END'
bar = b"30 40 %d 20 re f"
parts = [b"<</Type/Catalog/Pages 2 0 R>>", b"<</Type/Pages/Kids[3 0 R 5 0 R]/Count 2>>"]
for number in (3, 5):
    text = bar % (number * 10)
    parts.append(b"<</Type/Page/Parent 2 0 R/MediaBox[0 0 144 144]/Resources<<>>/Contents %d 0 R>>" % (number + 1))
    parts.append(b"<</Length %d>>stream\n%s\nendstream" % (len(text), text))
pdf, places = b"%PDF-1.4\n", []
for number, part in enumerate(parts, 1):
    places.append(len(pdf))
    pdf += b"%d 0 obj\n%s\nendobj\n" % (number, part)
table = b"".join(b"%010d 00000 n \n" % place for place in places)
end = b"xref\n0 7\n0000000000 65535 f \n%strailer\n<</Size 7/Root 1 0 R>>\nstartxref\n%d\n%%%%EOF\n" % (table, len(pdf))
open(1, "wb").write(pdf + end)
END
cp letter.pdf color.pdf

# The host that ssh reaches: behind its name stands a command, for a shell in its home.
cat >"$work/bin/ssh" <<END
#!/bin/sh
until [ "\$1" = scanner ]; do shift; done
shift
[ "\$1" != -- ] || shift
cd "$work/home/host" && exec sh -c "\$*"
END
# --array=FIRST-LAST --wrap COMMAND, one task after another, once the documents of the example before it are gone.
cat >"$work/bin/sbatch" <<'END'
#!/bin/sh
rm third.svg 'fourth page.svg' third.pbm.status 'fourth page.pbm.status' || exit
range=${1#--array=}
for task in $(seq "${range%-*}" "${range#*-}"); do SLURM_ARRAY_TASK_ID=$task sh -c "$3" || exit; done
END
chmod +x "$work/bin/ssh" "$work/bin/sbatch"

python3 - "$work" "${documents[@]}" <<'END'
import json
import os
import re
import subprocess
import sys
import xml.etree.ElementTree

WORK, *DOCUMENTS = sys.argv[1:]
PROGRAMS = ("potrace mkbitmap point_fill outline_check ./potrace ./mkbitmap ./point_fill ./outline_check ./install ./build ./launch rt .ci/run packaging/make "
            "convert pdftoppm pdfimages ps2pdf epstopdf gs ogr2ogr pstoedit parallel find awk examples/many/over_hosts").split()
NOT, MET = {}, set()
with open(f"{WORK}/not", encoding="utf-8") as file:
    for line in file:
        command, _, why = line.strip().rpartition(": ")
        NOT[command] = why


def is_command(text):
    words = text.split()
    return words[0] in PROGRAMS and not all(word.startswith("-") for word in words[1:])


def of_markdown(text):
    """Commands, each with its output where that is shown."""
    for block in re.finditer(r"^( *)```(\w*)\n(.*?)^ *```$|`([^`\n]+)`", text, re.M | re.S):
        indent, language, code, inline = block.groups()
        if inline:
            if is_command(inline):
                yield inline, None
        elif language == "sh":
            yield re.sub(f"^{indent}", "", code, flags=re.M).rstrip("\n"), None
        else:
            for command, output in re.findall(r"^\$ (.*)\n((?:(?!\$ ).*\n)*)", code, re.M):
                yield command, output


def of_manual(text):
    for line, block in re.findall(r"^\.(?:Dl|It Li|Ql) (.*)$|^\.Bd .*\n((?:.*\n)*?)\.Ed$", text, re.M):
        code = (re.sub(" [.,:;]$", "", line) or block).replace("\\(aq", "'").replace("\\e", "\\").rstrip("\n")
        assert "\\(" not in code, code
        if is_command(code) or block:
            yield code, None


def lines_of(command):
    """A block of lines that each stand alone, as commands of their own, without comments behind them."""
    command = re.sub("  +# .*$", "", command, flags=re.M)
    lines = command.split("\n")
    alone = not any(line.endswith(("\\", "|", "do")) or line.startswith(" ") for line in lines) and command.count("'") % 2 == 0
    return lines if alone and len(lines) > 1 else [command]


def run(document, command, output):
    """Runs it, and says whether that was done."""
    if command in NOT:
        MET.add(command)
        print(f"{document}: not run: {command} ({NOT[command]})")
        return False
    before = status_of_clone()
    with open("scan.pbm", "rb") as page:
        done = subprocess.run(["bash", "-euo", "pipefail", "-c", command], stdin=page, capture_output=True)
    said, wrote = done.stderr.decode(errors="replace"), done.stdout.decode(errors="replace")
    if "--bar" in command or "over_hosts" in command or "-f hpgl" in command:
        said = ""           # a bar, how many pages are done, and what pstoedit thinks of its own work
    if command.startswith("./install"):
        said = "".join(line for line in said.splitlines(True) if not line.startswith("note: "))
    if done.returncode or said or output not in (None, wrote):
        sys.exit(f"examples: {document}: this command fails, with status {done.returncode}: {command}\n{said}{wrote[:2000]}")
    if command.startswith("./") and status_of_clone() != before:
        sys.exit(f"examples: {document}: this command leaves a trace in the clone: {command}")
    return True


def status_of_clone():
    return subprocess.run(["git", "status", "--porcelain"], capture_output=True, text=True, check=True).stdout


def shapes_of(name):
    """How many shapes a document has, as a parser reads it."""
    if name.endswith(".svg"):
        return len(xml.etree.ElementTree.parse(name).getroot().findall(".//{*}path"))
    if name.endswith(".json"):
        with open(name, encoding="utf-8") as file:
            return len(json.load(file)["features"])
    if name.endswith(".dxf"):
        with open(name, encoding="ascii") as file:
            lines = file.read().split("\n")
        assert lines[-3:] == ["0", "EOF", ""], name
        return lines.count("POLYLINE")
    return os.path.getsize(name)


def main():
    os.environ.update(HOME=f"{WORK}/home", PATH=f"{WORK}/bin:{os.environ['PATH']}")
    before = {*os.listdir(".")}
    for document in DOCUMENTS:
        with open("hosts", "w", encoding="utf-8") as file:
            file.write("2/scanner\n")
        with open(document, encoding="utf-8") as file:
            text = file.read()
        found = of_manual(text) if document.endswith(".1") else of_markdown(text)
        ran = sum(run(document, line, output) for command, output in found for line in lines_of(command))
        print(f"{document}: {ran} commands run")
    if NOT.keys() - MET:
        sys.exit(f"examples: in no document: {', '.join(sorted(NOT.keys() - MET))}")
    made = sorted({*os.listdir(".")} - before)
    for name in made:
        if name.endswith((".svg", ".json", ".dxf", ".pdf", ".gpkg", ".gcode", ".hpgl", ".ps", ".eps")) and not shapes_of(name):
            sys.exit(f"examples: {name} has no shape")
    print("made:", *made)


main()
END
grep -q '^right ' verdict || fail "the certificates aren't right"
cmp scan.pbm back.pbm || fail "the page doesn't come back"
