#!/usr/bin/env bash
# Presses Tab in real shells: the completions of bash and zsh have to offer what fits.
#
# usage: bench/check/completions.sh
#
# bash is asked for what its completion function offers for a line; zsh runs on a terminal of its own, and what it
# shows is read. It needs Debian's packages bash and zsh, and python3. It is no part of the gate.
set -euo pipefail

top=$(cd "$(dirname "$(readlink -f "${BASH_SOURCE[0]}")")/../.." && pwd)
for tool in bash zsh python3; do
  command -v "$tool" >/dev/null || { echo "completions: $tool is missing" >&2; exit 2; }
done
work=$(mktemp -d)
trap 'rm -rf "$work" 2>/dev/null || true' EXIT
cd "$work"
mkdir sub
touch 'a scan.pbm' gray.PGM color.ppm photo.bmp notes.txt drawing.svg sub/page.pbm

python3 - "$top/completions" <<'END'
import os
import pty
import re
import select
import subprocess
import sys
import time

FOLDER = sys.argv[1]

# A line, what has to be offered for its last word, and what must not be.
CASES = [
    ("potrace -b ", "svg eps dxf geojson points polygons proofs", "pdf --svg"),
    ("potrace -b p", "points polygons proofs", "svg"),
    ("potrace --backend=g", "geojson", "points"),
    ("potrace -z m", "minority majority", "black"),
    ("potrace --turnpolicy ", "black white left right minority majority", "random"),
    ("potrace -t ", "2 10", "--turdsize"),
    ("potrace -k ", "0.5", "gray.PGM"),
    ("potrace --workers ", "1 4 64", "128"),
    ("potrace --demo ", "1 8 64", "gray.PGM"),
    ("potrace --l", "--longcurve", "--level"),
    ("potrace --c", "--cleartext --cyclic", "--curve"),
    ("potrace --", "--svg --eps --output --opttolerance --workers --demo --flat --help", "--turd "),
    ("potrace -s g", "gray.PGM", "notes.txt"),
    ("potrace ", "scan.pbm gray.PGM color.ppm photo.bmp sub", "notes.txt drawing.svg"),
    ("potrace -s a", "scan.pbm", "gray.PGM"),
    ("potrace sub/", "page.pbm", "gray.PGM"),
    ("potrace -s -- g", "gray.PGM", "--svg"),
    ("potrace -o d", "drawing.svg", "gray.PGM"),
    ("mkbitmap --", "--box --times --level --help", "--turdsize"),
    ("mkbitmap --t", "--times", "--box"),
    ("mkbitmap --box ", "0 2 4 8 16 32 64", "--times"),
    ("mkbitmap --times ", "1 2 3 4 8", "--box"),
    ("mkbitmap --level=0.4", "0.4 0.45 0.48", "0.35"),
]

# Readline's own splitting of a line, and the function's answer.
ASK_BASH = r"""
. "$1/${2%% *}.bash"
compopt() { :; }
line=${2//=/ = }
read -ra COMP_WORDS <<<"$line"
[[ $line != *" " ]] || COMP_WORDS+=("")
COMP_CWORD=$((${#COMP_WORDS[@]} - 1))
"_${2%% *}"
printf '%s\n' "${COMPREPLY[@]}"
"""


def offered_by_bash(line):
    said = subprocess.run(["bash", "-c", ASK_BASH, "bash", FOLDER, line], capture_output=True, text=True, check=True)
    if said.stderr:
        sys.exit(f"completions: bash says on {line!r}: {said.stderr}")
    return said.stdout


def read_screen(screen, until=None, seconds=5.0):
    """What comes until a text is there or, without one, until nothing more comes."""
    found, end = b"", time.monotonic() + seconds
    while time.monotonic() < end:
        if select.select([screen], [], [], 0.4 if until is None else 0.1)[0]:
            found += os.read(screen, 65536)
            if until and until in found:
                break
        elif until is None:
            break
    return re.sub(r"\x1b\[[0-9;?]*[A-Za-z]|\x1b[=>]|\r|\x07", "", found.decode(errors="replace"))


def on_terminal(words):
    """A shell on a terminal of its own; it is ready once its prompt is there."""
    child, screen = pty.fork()
    if child == 0:
        os.environ.update(TERM="xterm", PS1="ready> ", COLUMNS="200", LINES="60", HOME=os.getcwd())
        os.execvp(words[0], words)
    read_screen(screen, b"ready> ")
    return screen


def offered_on(screen, line, keys):
    os.write(screen, line.encode() + keys)
    said = read_screen(screen)
    os.write(screen, b"\x03")
    read_screen(screen, b"ready> ")
    return said.replace(line, "", 1)


def check(shell, line, offered, wanted, unwanted):
    have = offered.split()
    lacks = [it for it in wanted.split() if not any(it in word for word in have)]
    extra = [it for it in unwanted.split() if it in have]
    if lacks or extra:
        sys.exit(f"completions: {shell}, {line!r}: offers {have}, lacks {lacks}, and has {extra}")


for line, wanted, unwanted in CASES:
    check("bash", line, offered_by_bash(line), wanted, unwanted)
print(f"bash: {len(CASES)} lines completed")

bash = on_terminal(["bash", "--norc", "--noprofile", "-i"])
os.write(bash, f"PS1='ready> '; . '{FOLDER}/potrace.bash'; . '{FOLDER}/mkbitmap.bash'; bind 'set show-all-if-ambiguous on'; bind 'set page-completions off'\n".encode())
read_screen(bash)
for line, wanted, unwanted in CASES:
    check("bash on a terminal", line, offered_on(bash, line, b"\t"), wanted if " " in wanted else wanted[-3:], unwanted)
print(f"bash on a terminal: {len(CASES)} lines completed")

for name in ("point_fill", "outline_check"):
    said = subprocess.run(["bash", "-c", f". '{FOLDER}/{name}.bash'; complete -p {name}"], capture_output=True, text=True, check=True)
    if said.stdout != f"complete -W '' {name}\n":
        sys.exit(f"completions: bash offers for {name}: {said.stdout}")
    print(f"bash: {name} is offered no word")

zsh = on_terminal(["zsh", "-f", "-i"])
setup = f"PS1='ready> '; fpath=('{FOLDER}' $fpath); autoload -U compinit; compinit -u -d ./dump; setopt no_beep no_list_ambiguous; zstyle ':completion:*' menu no\n"
os.write(zsh, setup.encode())
time.sleep(2)
read_screen(zsh)
for line, wanted, unwanted in CASES:
    check("zsh", line, offered_on(zsh, line, b"\t"), wanted if " " in wanted else wanted[-3:], unwanted)
print(f"zsh: {len(CASES)} lines completed")
END
