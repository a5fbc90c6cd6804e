#!/usr/bin/env bash
# Builds the program of examples/library, and one of all use examples at the heads of crates, in a clone, and runs them.
#
# usage: library.sh
#
# The source of `ring` and its lines of crates.txt and programs.txt are taken from examples/library/README.md; what it
# writes has to be what potrace makes of the same page. `uses` has a function for each block of Rust at the head of a
# crate's lib.rt, in which what is asserted has to be so; a block that names a page that it doesn't make gets one. Both
# are proved and built over the libraries that stand in this clone, which `./build potrace` makes if they aren't there.
#
# It needs python3, git and the kit's command rt. It is no part of the gate.
set -euo pipefail

top=$(cd "$(dirname "$(readlink -f "${BASH_SOURCE[0]}")")/../.." && pwd)
for tool in python3 git rt; do
  command -v "$tool" >/dev/null || { echo "library: $tool is missing" >&2; exit 2; }
done
work=$(mktemp -d)
trap 'rm -rf "$work"' EXIT
cd "$work"

"$top/launch" --build potrace
mkdir clone
git -C "$top" ls-files -z -co --exclude-standard | (cd "$top" && xargs -0 cp --parents -t "$work/clone")
mkdir -p clone/crates/potrace/out/logs
cp "$top"/crates/potrace/out/logs/*.done "$top/crates/potrace/out/logs/kit" clone/crates/potrace/out/logs
cp -rs "$top/crates/potrace/out/libraries" clone/crates/potrace/out/libraries

# The page of `ring` by other means, as plain PBM with its rows from the top.
python3 - >ring.pbm <<'END'
rows = ["".join(str(int(256 <= (x - 32) ** 2 + (y - 32) ** 2 <= 784)) for x in range(64)) for y in range(63, -1, -1)]
print("P1\n64 64", *rows, sep="\n")
END
"$top/potrace" -s <ring.pbm >ring.svg

# The sources, the lines of the lists, and the stored runs.
python3 - clone <<'END'
import glob
import os
import re
import shutil
import sys

TOP = sys.argv[1]


def blocks(text, language):
    return re.findall(rf"^ *```{language}\n(.*?)^ *```$", text, re.M | re.S)


def add(name, source, line, wanted):
    os.makedirs(f"{TOP}/crates/{name}/src")
    for path, text in ((f"crates/{name}/src/main.rt", source), (f"crates/{name}/stdout", wanted)):
        with open(f"{TOP}/{path}", "w", encoding="utf-8") as file:
            file.write(text)
    for path, row in (("crates.txt", line), ("programs.txt", f"{name}: {name}")):
        with open(f"{TOP}/{path}", "a", encoding="utf-8") as file:
            file.write(row + "\n")


def read(path):
    with open(path, encoding="utf-8") as file:
        return file.read()


def ring():
    text = read(f"{TOP}/examples/library/README.md")
    source, = blocks(text, "rust")
    line, program = (row.strip() for row in blocks(text, "text"))
    assert program == "ring: ring", program
    add("ring", source, line, read("ring.svg"))


def equation(found):
    """The equation that an assertion of two values asserts: its first comma outside of brackets stands between them."""
    text, depth = found[1], 0
    for at, letter in enumerate(text):
        depth += (letter in "([{") - (letter in ")]}")
        if letter == "," and not depth:
            return f"holds = holds && {text[:at]} == {text[at + 1:].strip()};"
    sys.exit(f"library: no two values in {text}")


def use_of(crate, block):
    """A function of a crate's use example, that answers whether what it asserts is so."""
    lines = [line for line in block.splitlines() if not line.startswith("use ")]
    code = "\n".join("    " + line if line else "" for line in lines).strip("\n")
    code, asserted = re.subn(r"assert_eq!\(rt; (.*)\);", equation, code)
    page = "" if "let mut page" in code or "&page" not in code else "    let page = Bitmap::new(alloc, 3, 2)?;\n"
    mutable = "mut " if asserted else ""
    return (f"fn {crate}_use(alloc: Global) -> Result<bool, NoMemory> {{\n    let {mutable}holds = true;\n{page}{code}\n    Ok(holds)\n}}\n")


def uses():
    imports, functions, crates = {"Bitmap": "bit_image", "NoMemory": "pt_core"}, [], []
    for path in sorted(glob.glob(f"{TOP}/crates/*/src/lib.rt")):
        crate = path.split("/")[-3]
        head = "\n".join(line[4:] for line in read(path).splitlines() if line.startswith("//!"))
        for block in blocks(head, "rust"):
            for where, names in re.findall(r"^use (\w+)::\{?([^;}]*)\}?;", block, re.M):
                imports.update({name: where for name in names.split(", ")})
            functions.append(use_of(crate, block))
            crates.append(crate)
    named = sorted({*imports.values()})
    head = "//! What stands as use at the heads of crates.\n#![tactic(auto)]\n\n"
    head += "".join(f"use {where}::{{{', '.join(sorted(it for it in imports if imports[it] == where))}}};\n" for where in named)
    head += "use std::alloc::Global;\nuse std::io;\n\n"
    calls = "".join(f'    println!(rt; "{crate} {{}}", {crate}_use(rt.alloc()) == Ok(true))?;\n' for crate in crates)
    main = f"fn main(rt: HostRuntime) -> io::Result<()> {{\n{calls}    Ok(())\n}}\n"
    wanted = "".join(f"{crate} true\n" for crate in crates)
    add("uses", head + "\n".join(functions) + "\n" + main, f"uses: {' '.join(named)}", wanted)


ring()
uses()
shutil.rmtree(f"{TOP}/examples")
END

for name in ring uses; do
  start=$(date +%s)
  clone/build "$name" 2>"$work/said" || { cat "$work/said" >&2; exit 1; }
  clone/launch "$name" </dev/null >said
  cmp said "clone/crates/$name/stdout"
  echo "$name: $(grep -c . "clone/crates/$name/src/main.rt") lines, proved, built and run in $(($(date +%s) - start)) s"
done
[ -s ring.svg ]
sed 's/^/uses: /' clone/crates/uses/stdout
