#!/usr/bin/env python3
"""Draws step-times.svg from step-times.tsv: milliseconds per step for pairmd and other engines.

step-times.tsv has the figures that bench/engines.py --write kept: nanoseconds per interacting pair, wall time and CPU
time, and the number of interacting pairs of each system. The picture has the wall times of the systems in a cube, by
atoms and workers. bench/engines.py --write also draws it.
"""

import liquid

# The engines' names in the table, with their names and colours in the picture.
ENGINES = {
    "pairmd": ("pairmd", liquid.BLUE),
    "OpenMM text": ("OpenMM, same text", liquid.ORANGE),
    "LAMMPS table": ("LAMMPS, table", liquid.GREEN),
    "LAMMPS lj/cut": ("LAMMPS, built in", "#8cc63f"),
    "GROMACS": ("GROMACS, built in", liquid.INK),
}
SYSTEM = "melted argon in a cube, Lennard-Jones cut off at 0.9 nm"
GROUP = 0.86  # the width of a group of bars; groups are 1 apart


def draw_size(axes, rows, engines):
    """Draws the bars of one number of atoms."""
    counts = sorted({int(row["workers"]) for row in rows})
    width = GROUP / len(engines)
    for place, name in enumerate(engines):
        label, color = ENGINES[name]
        own = {int(row["workers"]): float(row["clock"]) * int(row["acting"]) / 1e6 for row in rows if row["engine"] == name}
        at = [k + (place + 0.5) * width - GROUP / 2 for k in range(len(counts))]
        bars = axes.bar(at, [own[count] for count in counts], 0.9 * width, color=color, label=label)
        axes.bar_label(bars, [f"{own[count]:.{int(own[count] < 9.95)}f}" for count in counts], padding=1, color=color, fontsize=7)
    axes.set_xticks(range(len(counts)), counts)
    axes.set_xlabel("workers, threads or processes")
    axes.margins(y=0.1)


def draw():
    rows = [row for row in liquid.read_table("step-times") if row["box"] == "cubes"]
    sizes = sorted({int(row["atoms"]) for row in rows})
    engines = [name for name in ENGINES if any(row["engine"] == name for row in rows)]
    made, panels = liquid.figure(7.2, 3.4, ncols=len(sizes), squeeze=False)
    for atoms, axes in zip(sizes, panels[0]):
        draw_size(axes, [row for row in rows if int(row["atoms"]) == atoms], engines)
        axes.set_title(f"{atoms:,} atoms", fontsize=10)
    panels[0][0].set_ylabel("milliseconds per step")
    tight = {"handlelength": 1.2, "labelspacing": 0.3, "borderaxespad": 0}
    panels[0][-1].legend(frameon=False, labelcolor="linecolor", fontsize=9, **tight)
    made.suptitle(SYSTEM, fontsize=10)
    liquid.save(made, "step-times.svg")


if __name__ == "__main__":
    draw()
