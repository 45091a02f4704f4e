#!/usr/bin/env python3
"""Accuracy and cost of an energy from a table: pieces by examples/pieces.py, beside the formula of the table's values.

  bench/pieces.py [--repeats R]      PAIRMD names the program

Liquid argon under Lennard-Jones from 0.3 to 0.9 nm, as a formula and as a table in 8, 30, 60 and 120 stretches, of
energies only and with slopes:

- the energy of examples/argon.gro;
- the greatest error of the force between two atoms, against exact fractions of the formula, at 500 distances, and at
  those above 0.34 nm: 0.3 nm + k * 0.0012 nm, for k from 0 to 499, each rounded up to a multiple of 2^-23 nm;
- the CPU time of a step with one worker, less reading, verifying and writing, over that of the formula; the least of
  --repeats runs counts (three).
"""

import argparse
import itertools
import os
import subprocess
import sys
import tempfile
from fractions import Fraction

from running import Steps, pairmd, program, write
from spelling import LENNARD_JONES, NUMBERS, derivative_of, distances, errors, job

ROOT = os.path.dirname(os.path.dirname(os.path.realpath(__file__)))
FIRST, LAST = 0.3, 0.9  # nm
FORMULA = "4*0.996*(x^2-x); x=(0.34/r)^6"


def energy_at(r):
    x = (0.34 / r) ** 6
    return 4 * 0.996 * (x * x - x)


def slope_at(r):
    x = (0.34 / r) ** 6
    return 24 * 0.996 * (x - 2 * x * x) / r


def pieces(room, stretches, slopes):
    """The energy for a table in this many stretches, with a column of slopes or without, and the errors that the script
    estimates.
    """
    rows = [FIRST + (LAST - FIRST) * at / stretches for at in range(stretches + 1)]
    lines = [f"{r:.9f} {energy_at(r):.9f}" + f" {slope_at(r):.9f}" * slopes for r in rows]
    table = write(room, "table", "\n".join(lines) + "\n")
    words = [sys.executable, f"{ROOT}/examples/pieces.py", table]
    energy, errors, *_ = subprocess.run(words, check=True, stdout=subprocess.PIPE, text=True).stdout.splitlines()
    return energy.removeprefix("energy "), errors.rpartition(": ")[2]


def main():
    parser = argparse.ArgumentParser(description=__doc__, formatter_class=argparse.RawDescriptionHelpFormatter)
    parser.add_argument("--repeats", type=int, default=3)
    given = parser.parse_args()
    at = distances(500)
    derivative = derivative_of(LENNARD_JONES, NUMBERS, Fraction)
    exact = [derivative(r) for r in at]
    with tempfile.TemporaryDirectory() as room:
        runs = {}
        for slopes, stretches in ((0, 0), *itertools.product((0, 1), (8, 30, 60, 120))):
            name = f"{stretches} stretches" + " with slopes" * slopes if stretches else "formula"
            energy, estimate = pieces(room, stretches, slopes) if stretches else (FORMULA, "")
            path = write(room, f"{name}.job", job(energy))
            state = write(room, "state", pairmd.start(path, f"{ROOT}/examples/argon.gro").text())
            runs[name] = job(energy), path, estimate, Steps(1, 200)
        for _ in range(given.repeats):
            for _, path, _, steps in runs.values():
                steps.take([program(), "run", path, state])
        for name, (text, path, estimate, steps) in runs.items():
            energy = float(pairmd.energy(path, state))
            off = errors(text, at, exact)
            outer = max(it for r, it in zip(at, off) if r > Fraction("0.34"))
            times = steps.processor() / runs["formula"][-1].processor()
            print(f"{name:>25}: {energy:12.4f} kJ/mol, force off by at most {max(off):.1e} kJ/mol/nm,", end=" ")
            print(f"{outer:.1e} above 0.34 nm, {times:5.1f} times the formula's time;", end=" ")
            print(pairmd.call("check", path).strip(), f"({estimate})" * bool(estimate), flush=True)


if __name__ == "__main__":
    main()
