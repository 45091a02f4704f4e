#!/usr/bin/env python3
"""Draws echo.svg: the distance from the start at the end of an echo, over the size of the change at its turn.

  PAIRMD=./pairmd pictures/echo.py        runs the program, 36,000 steps, and draws
  pictures/echo.py --draw                 draws the table of an earlier run

Both print the figures. 500 atoms of liquid argon run 1,000 steps of 2 fs forward; one coordinate is changed, and they
run back (bench/grid.py). A distance is the root of the sum of squares over all coordinates.
"""

import os
import sys

import liquid

sys.path.insert(1, os.path.join(os.path.dirname(liquid.HERE), "bench"))
import grid  # noqa: E402

PLACE = grid.SIDE / liquid.PLACES  # nm


def run():
    rows = [[by, *(f"{by * times * PLACE:.6e}" for times in grown)] for by, grown in grid.echoes()]
    liquid.write_table("echo", ["places", *(f"nm{number}" for number in range(1, len(grid.CHANGES) + 1))], rows)


def draw():
    rows = [[float(it) for it in row.values()] for row in liquid.read_table("echo")]
    sizes, ends = [row[0] * PLACE for row in rows], [row[1:] for row in rows]
    means = [grid.geometric_mean(it) for it in ends]
    for size, mean, end in zip(sizes, means, ends):
        grown = f"{mean / size:,.1f} times, from {min(end) / size:,.1f} to {max(end) / size:,.1f}"
        print(f"{size:.1e} nm: {grown}; {mean:.1e} nm")
    made, axes = liquid.figure(7.2, 3.2)
    factor = means[-1] / sizes[-1]
    axes.plot(sizes, [factor * size for size in sizes], color=liquid.INK, linewidth=1, linestyle=":")
    least, most = [min(it) for it in ends], [max(it) for it in ends]
    axes.fill_between(sizes, least, most, color=liquid.BLUE, alpha=0.25, linewidth=0)
    axes.plot(sizes, means, color=liquid.BLUE, linewidth=1.5, marker="o", markersize=4)
    axes.set_xscale("log")
    axes.set_yscale("log")
    beside = {"textcoords": "offset points"}
    axes.annotate(f"{factor:.0f} times the change", (sizes[2], factor * sizes[2]), (8, -10), va="top", **beside)
    axes.annotate("rounding to the grid", (sizes[0], most[0]), (0, 8), **beside)
    axes.set_xlabel("change of one coordinate at the turn, nm")
    axes.set_ylabel("distance from the\nstart at the end, nm")
    liquid.save(made, "echo.svg")


if __name__ == "__main__":
    if liquid.wants_run():
        run()
    draw()
