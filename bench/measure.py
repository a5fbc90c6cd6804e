"""One timer for all measurements, and one statistic: the median of several runs of all programs in turn.

A run gives the seconds that pass and the processor seconds, of user and system together. Each is kept as a line of a raw
file, `ROW: WHO: 0.046712 s, processor 0.045831 s`. Memory is that of one run more, asked of Debian's `time`: a process counts
the memory of the one that it was split off from, and `time` is small. It needs python3.
"""
import collections
import os
import re
import shutil
import statistics
import subprocess
import sys
import time

TOP = os.path.dirname(os.path.dirname(os.path.realpath(__file__)))
Taken = collections.namedtuple("Taken", "time processor")       # in seconds


def need(*tools):
    for tool in tools:
        if not shutil.which(tool):
            sys.exit(f"{os.path.basename(sys.argv[0])}: {tool} is missing")


def built(program=None):
    """The program that is named, or ours, which is built first where that is due."""
    if not program:
        subprocess.run([f"{TOP}/potrace", "-v"], check=True, stdout=subprocess.DEVNULL)
        program = f"{TOP}/crates/potrace/out/potrace"
    return os.path.abspath(program)


def built_other(name, program=None):
    """The program that is given, or ours of this name, which is built first where that is due."""
    if not program:
        subprocess.run([f"{TOP}/launch", "--build", name], check=True)
        with open(f"{TOP}/programs.txt", encoding="utf-8") as file:
            crate = next(line.split()[1] for line in file if line.startswith(f"{name}:"))
        program = f"{TOP}/crates/{crate}/out/{crate}"
    return os.path.abspath(program)


def timed(words, page=os.devnull, document=os.devnull, watch=None):
    """What one run takes, from a page to a document.

    `watch` is called with the process's number a hundred times a second; where it is left out nothing looks on.
    """
    # The program is found before: to look for its name in one folder after another would be a part of its time.
    called = [shutil.which(words[0]), *words[1:]]
    with open(page, "rb") as source, open(document, "wb") as sink:
        start = time.monotonic()
        process = subprocess.Popen(called, stdin=source, stdout=sink)
        ended, status, usage = os.wait4(process.pid, os.WNOHANG if watch else 0)
        while not ended:
            watch(process.pid)
            time.sleep(0.01)
            ended, status, usage = os.wait4(process.pid, os.WNOHANG)
        seconds = time.monotonic() - start
    process.returncode = os.waitstatus_to_exitcode(status)
    if process.returncode:
        sys.exit(f"{os.path.basename(sys.argv[0])}: {' '.join(words)} < {page} ended with {process.returncode}")
    return Taken(seconds, usage.ru_utime + usage.ru_stime)


def memory_of(words, page=os.devnull):
    """The greatest memory of a run, in megabytes."""
    with open(page, "rb") as source:
        said = subprocess.run(
            ["time", "-f", "%M", *words], stdin=source, stdout=subprocess.DEVNULL, stderr=subprocess.PIPE, check=True)
    return int(said.stderr.split()[-1]) * 1024 / 1e6


def in_turn(row, programs, runs, raw, page=os.devnull, documents=None, after=lambda name: None):
    """The medians of each program; each run is a line of `raw`, and `after` is called behind it.

    What a program writes goes to the file that `documents` names for it, and is thrown away where that is left out.
    """
    taken = {name: [] for name in programs}
    for _ in range(runs):
        for name, words in programs.items():
            run = timed(words, page, documents[name] if documents else os.devnull)
            taken[name].append(run)
            raw.append(f"{row}: {name}: {run.time:.6f} s, processor {run.processor:.6f} s")
            after(name)
    return {name: Taken(*map(statistics.median, zip(*all_runs))) for name, all_runs in taken.items()}


LINE = re.compile(r"(.+): ([^:]+): (.+)")
FIGURE = re.compile(r"(?:(\w+) )?([\d.]+) (s|MB)")


def medians(lines):
    """Of raw lines: for each row and program the median of each figure, and of how many runs."""
    found = collections.defaultdict(lambda: collections.defaultdict(list))
    for row, who, figures in (LINE.fullmatch(line).groups() for line in lines):
        for name, figure, _ in FIGURE.findall(figures):
            found[row, who][name or "time"].append(float(figure))
    return {key: {name: (statistics.median(all_runs), len(all_runs)) for name, all_runs in figures.items()} for key, figures in found.items()}


def shown(name, figure):
    return f"{figure:.1f}".removesuffix(".0") if name == "memory" else f"{figure:.3f}"


def table(lines):
    """The medians of raw lines as a table in Markdown: ours and theirs in one row, or else a row for each program."""
    found = medians(lines)
    names = [name for name in ("time", "processor", "user", "memory") if any(name in figures for figures in found.values())]
    heads = [f"{name}, {'MB' if name == 'memory' else 's'}" for name in names]
    text = ["| | " + " | ".join(heads) + " |", "|---|" + "---|" * len(heads)]
    pairs = {who for _, who in found} <= {"ours", "theirs"}
    rows = collections.defaultdict(list)
    for (row, who), figures in found.items():
        rows[row if pairs else f"{row}, {'the C program' if who == 'theirs' else who}"].append(figures)
    for row, several in rows.items():
        cells = [" / ".join(shown(name, figures[name][0]) for figures in several if name in figures) for name in names]
        text.append(f"| {f'`{row}`' if row.startswith('-') else row} | " + " | ".join(cells) + " |")
    return "\n".join(text) + "\n"


def runs_of(lines):
    """How many runs each program had in each row."""
    return max(count for figures in medians(lines).values() for name, (_, count) in figures.items() if name != "memory")
