#!/usr/bin/env python3
"""Draws spellings.svg: argon's Lennard-Jones energy, and bounds on its slope's error for three spellings.

  PAIRMD=./pairmd pictures/spellings.py        runs the program and draws
  pictures/spellings.py --draw                 draws the table of an earlier run

Both print the greatest bounds and errors. Bounds are those of `pairmd curve` at 32 fraction bits, errors those of the
slopes that it prints, against exact fractions of the formula at the distances that it prints. A bound holds for all
distances up to the next row's, and for constants and distances before they are rounded. Dotted lines are the resolution
of forces on the grid of examples/argon.gro (docs/ACCURACY.md).
"""

import os
import sys
from fractions import Fraction

import liquid
from liquid import pairmd

sys.path.insert(1, os.path.join(os.path.dirname(liquid.HERE), "bench"))
import grid  # noqa: E402
import spelling  # noqa: E402

SPELLINGS = {spelling.LENNARD_JONES: liquid.BLUE, "a*(1/r)^12-b*(1/r)^6": liquid.GREEN, "a*r^-12-b*r^-6": liquid.ORANGE}
STEPS = (2, 10)  # fs, of the grid's resolution of forces


def curve(energy):
    """The rows that the program prints for a spelling, and the error of each slope."""
    (found,) = pairmd.curve(pairmd.Job.parse(spelling.job(energy, 32, spelling.NUMBERS)))
    derivative = spelling.derivative_of(energy, spelling.NUMBERS, Fraction)
    return found.rows, [float(abs(Fraction(row.slope) - derivative(Fraction(row.r)))) for row in found.rows]


def run():
    columns, head = [], ["nm", "energy", "slope"]
    for number, energy in enumerate(SPELLINGS, 1):
        rows, errors = curve(energy)
        if number == 1:
            columns += [[f"{getattr(row, name):f}" for row in rows] for name in ("r", "energy", "slope")]
        bounds = [row.slope_error for row in rows]
        columns += [["-" if it is None else f"{it:.2e}".replace("+", "") for it in bounds], [f"{it:.2e}" for it in errors]]
        head += [f"bound{number}", f"error{number}"]
    liquid.write_table("spellings", head, zip(*columns))


def draw():
    rows = liquid.read_table("spellings")
    r = [float(row["nm"]) for row in rows]
    made, (upper, lower) = liquid.figure(7.2, 4.4, nrows=2, sharex=True, height_ratios=(2, 3))
    upper.plot(r, [float(row["energy"]) for row in rows], color=liquid.INK, linewidth=1.5)
    upper.set_ylim(-1.2, 2.4)
    upper.set_ylabel("energy, kJ/mol")
    for step in STEPS:
        force = liquid.MASS * grid.SIDE / liquid.PLACES / (step / 1000) ** 2
        lower.axhline(force, color=liquid.INK, linewidth=1, linestyle=":")
        lower.annotate(f"grid, {step} fs", (0.9, force), (0, 3), textcoords="offset points", ha="right")
    for number, (energy, color) in enumerate(SPELLINGS.items(), 1):
        bounds = [float("nan" if row[f"bound{number}"] == "-" else row[f"bound{number}"]) for row in rows]
        errors = [float(row[f"error{number}"]) for row in rows]
        found = [it for it in bounds if it == it]
        none = f"rows without a bound {len(r) - len(found)}"
        print(f"{energy}: errors up to {max(errors):.1e}, bounds up to {max(found):.1e}, {none}")
        lower.plot(r, bounds, color=color, linewidth=1.5, label=energy.replace("*", "\N{DOT OPERATOR}"))
        lower.plot(r, errors, color=color, linestyle="", marker=".", markersize=2.5)
    lower.set_yscale("log")
    lower.set_ylim(1e-11, 1e2)
    lower.set_xlim(0.3, 0.9)
    lower.set_xlabel("distance, nm")
    lower.set_ylabel("error of the slope,\nkJ/mol/nm")
    lower.legend(frameon=False, loc="upper right", labelcolor="linecolor")
    liquid.save(made, "spellings.svg")


if __name__ == "__main__":
    if liquid.wants_run():
        run()
    draw()
