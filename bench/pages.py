"""Keeps the figures of engines.py in pictures/step-times.tsv, and writes the tables of README.md and docs/PERFORMANCE.md from there.

A generated part of a page lies between two comments: `<!-- SCRIPT writes: NAME -->` and `<!-- so far -->`.
"""

import datetime
import os
import re
import subprocess
import textwrap
from typing import NamedTuple

from other_engines import all_engines

ROOT = os.path.dirname(os.path.dirname(os.path.realpath(__file__)))
KEPT = f"{ROOT}/pictures/step-times.tsv"
BOXES = {"cubes": "a cube", "tight": "one that fits the cells"}


class Row(NamedTuple):
    """Nanoseconds per interacting pair of an engine: wall time, and CPU time of all processors."""

    atoms: int
    box: str
    acting: int
    workers: int
    engine: str
    clock: float
    processor: float


def of_now(repeats, commit=None):
    """Date, commit, cores, load and repeats of a run that begins now."""
    words = ["git", "-C", ROOT, "rev-parse", "--short", "HEAD"]
    head = subprocess.run(words, stdout=subprocess.PIPE, check=False, text=True).stdout.strip()
    load = f"{os.getloadavg()[0]:.1f}"
    return {"date": str(datetime.date.today()), "commit": commit or head, "cores": os.cpu_count(), "load before": load, "repeats": repeats}


def which_run(said):
    """Commit, date, cores and repeats of the run, as a sentence."""
    day = datetime.date.fromisoformat(said["date"])
    return f"Commit `{said['commit']}`, {day:%-d %B %Y}, {said['cores']} cores, the minimum of {said['repeats']} runs."


def which_load(said):
    return f"The load of the machine before the run was {said['load before']}."


def keep(said, rows):
    """Keeps rows, below lines on the run that measured them."""
    with open(KEPT, "w", encoding="utf-8") as file:
        for name, value in said.items():
            print(f"# {name}: {value}", file=file)
        print(*Row._fields, sep="\t", file=file)
        for row in rows:
            print(*row[:-2], f"{row.clock:.1f}", f"{row.processor:.1f}", sep="\t", file=file)


def kept():
    """The lines on the run, and the rows, that were kept."""
    with open(KEPT, encoding="utf-8") as file:
        lines = file.read().splitlines()
    said = dict(line[2:].split(": ", 1) for line in lines if line.startswith("# "))
    rows = [line.split("\t") for line in lines if not line.startswith("# ")][1:]
    return said, [Row(int(it[0]), it[1], *map(int, it[2:4]), it[4], *map(float, it[5:])) for it in rows]


# ---- pages

def table(head, rows):
    """A table's lines."""
    lines = ["|" + "".join(f" {cell} |".replace("  ", " ") for cell in row) for row in (head, *rows)]
    return [lines[0], "|" + "---|" * len(head), *lines[1:]]


def open_table(head, rows):
    """A table's lines, without bars at both ends."""
    return [" | ".join(map(str, head)), "|".join(["---"] * len(head)), *(" | ".join(map(str, row)) for row in rows)]


def paragraph(*sentences):
    """A paragraph's lines."""
    return textwrap.wrap(" ".join(sentences), 120, break_long_words=False, break_on_hyphens=False)


def put(page, script, name, lines):
    """Replaces the part of a page that a script writes under this name."""
    with open(f"{ROOT}/{page}", encoding="utf-8") as file:
        text = file.read()
    between = re.compile(f"(<!-- {script} writes: {name} -->\n).*?(<!-- so far -->\n)", re.DOTALL)
    if not between.search(text):
        raise SystemExit(f"{page} has no markers for {name} of {script}")
    with open(f"{ROOT}/{page}", "w", encoding="utf-8") as file:
        file.write(between.sub(lambda it: it[1] + "\n" + "\n".join(lines) + "\n\n" + it[2], text))


# ---- what engines.py writes

class Figures:
    """The figures that were kept, in the form of the pages."""

    def __init__(self):
        self.said, self.rows = kept()
        self.at = {(row.atoms, row.box, row.workers, row.engine): row for row in self.rows}
        self.systems = list(dict.fromkeys((row.atoms, row.box) for row in self.rows))
        self.workers = sorted({row.workers for row in self.rows})
        self.ends = sorted({self.workers[0], self.workers[-1]})
        self.engines = list(dict.fromkeys(row.engine for row in self.rows))

    def both(self, system, workers, engine):
        """A cell: wall time / CPU time."""
        row = self.at[(*system, workers, engine)]
        return f"{row.clock:.0f} / {row.processor:.0f}"

    def times(self, engine, workers, figure):
        """The ratio of pairmd's time to another engine's, its least and its greatest over the systems."""
        ratios = [getattr(self.at[(*it, workers, "pairmd")], figure) / getattr(self.at[(*it, workers, engine)], figure) for it in self.systems]
        least, most = (f"{it:.2f}" for it in (min(ratios), max(ratios)))
        return least if least == most else f"{least} to {most}"


def systems_table(figures, engines, heads, counts):
    """A row for each system and number of workers."""
    rows = []
    for atoms, box in figures.systems:
        for workers in counts:
            said = f"{atoms:,}, {BOXES[box]}" if workers == counts[0] else ""
            rows.append([said, workers, *(figures.both((atoms, box), workers, it) for it in engines)])
    return table(["Atoms, box", "Workers", *heads], rows)


def compared(figures, engine, named):
    """The ratio of pairmd's time to another engine's, with the least and with the greatest number of workers."""
    if engine not in figures.engines:
        return ""
    counts = [f"{count} worker{'s' * (count > 1)}" for count in figures.ends]
    parts = " and ".join(f"{figures.times(engine, workers, 'processor')} ({it})" for workers, it in zip(figures.ends, counts))
    clock = " and ".join(figures.times(engine, workers, "clock") for workers in figures.ends)
    return f"pairmd takes {parts} of the CPU time of {named}, and {clock} of its wall time."


def instead_block(figures):
    """README: other engines, and what each computes."""
    system, counts = figures.systems[0], figures.ends
    own = {"pairmd": ("pairmd", "the formula, in integers")}
    others = {it.name: (f"{it.engine} {figures.said.get(it.engine)}", it.computes) for it in all_engines("")}
    rows = []
    for name, (engine, computes) in {**own, **others}.items():
        if name in figures.engines:
            rows.append([engine, computes, *(figures.both(system, workers, name) for workers in counts)])
    head = f"Nanoseconds per interacting pair and step, wall time / CPU time, {system[0]:,} atoms of liquid argon in {BOXES[system[1]]}."
    return [*paragraph(head, which_run(figures.said)), "", *table(["Engine", "What it computes", f"{counts[0]} thread", *counts[1:]], rows)]


def pairs_block(figures):
    """PERFORMANCE: pairmd and all other engines, for each system, with the least and the greatest number of workers."""
    others = [it.name for it in all_engines("")]
    shown = [it for it in figures.engines if it == "pairmd" or it in others]
    versions = ", ".join(f"{name} {figures.said[name]}" for name in ("OpenMM", "LAMMPS", "GROMACS") if name in figures.said)
    head = paragraph(which_run(figures.said), which_load(figures.said), f"Versions: {versions}." if versions else "")
    rows = systems_table(figures, shown, shown, figures.ends)
    return [*head, "", *rows, "", *paragraph(compared(figures, "OpenMM text", "OpenMM with the same formula"))]


def write():
    """Writes the tables of all pages."""
    figures = Figures()
    put("README.md", "bench/engines.py", "instead", instead_block(figures))
    put("docs/PERFORMANCE.md", "bench/engines.py", "pairs", pairs_block(figures))
