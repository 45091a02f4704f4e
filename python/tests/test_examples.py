"""Tests of scripts in examples/: the fit of divergence.py, and the formulas of pieces.py."""

import importlib.util
import math
import os
import random
import re
import subprocess
import sys
import tempfile
import unittest
from fractions import Fraction

import pairmd

from . import example, needs_program

ATOMS = 500


def script(name):
    """A script of examples/ as a module."""
    spec = importlib.util.spec_from_file_location(name, example(f"{name}.py"))
    module = importlib.util.module_from_spec(spec)
    spec.loader.exec_module(module)
    return module


class Divergence(unittest.TestCase):
    script = script("divergence")

    def line(self, size, end, every=0.2, rate=1.7):
        """The last line for twins that begin to grow after 1 ps, and saturate at 6e9 grid units like liquid argon's."""
        times = [at * every for at in range(round(end / every) + 1)]
        grown = [size * max(math.exp(rate * (time - 0.9)), 0.8) for time in times]
        rows = [[factor / (1 / it + 1 / 6e9) for it in grown] for factor in (0.8, 0.9, 1.0, 1.1, 1.25)]
        return self.script.exponent(times, rows, size, ATOMS)

    def test_rate(self):
        for size in (1_000, 100_000):
            for end, every in ((5, 0.2), (12, 0.2), (12, 1.0), (20, 0.4)):
                rate = float(re.search(r"grows by ([0-9.]+) per ps", self.line(size, end, every))[1])
                self.assertAlmostEqual(rate, 1.7, delta=0.03)
        self.assertTrue(self.line(100_000, 20).startswith("from 1.60 to 5.4"), self.line(100_000, 20))

    def test_no_rate(self):
        self.assertEqual(self.line(100_000, 1.6), "no exponent: 1 rows between transient and saturation; take more --steps")
        few = self.line(100_000, 20, every=2.0)
        self.assertEqual(few, "no exponent: 2 rows between transient and saturation; take a smaller --every or --places")

    def test_noise(self):
        """A small change counts only from the distance on that rounding doesn't reach."""
        self.assertEqual(round(self.script.noise(ATOMS)), 9487)
        self.assertEqual(self.script.window([1, 1000, 28_000, 29_000, 10**8, 3 * 10**8], 1, ATOMS), range(3, 5))


def lennard_jones(intervals, first=0.3):
    """A table of Lennard-Jones argon with slopes, up to 0.9 nm."""
    at = [first + (0.9 - first) * k / intervals for k in range(intervals + 1)]
    powers = [(r, (0.34 / r) ** 6) for r in at]
    return "".join(f"{r:.9f} {3.984 * (x * x - x):.9f} {23.904 * (x - 2 * x * x) / r:.9f}\n" for r, x in powers)


class Pieces(unittest.TestCase):
    def energy(self, table):
        """The line that the script prints for a table."""
        with tempfile.TemporaryDirectory() as folder:
            path = os.path.join(folder, "table")
            with open(path, "w", encoding="ascii") as file:
                file.write(table)
            words = [sys.executable, example("pieces.py"), path]
            return subprocess.run(words, check=True, capture_output=True, text=True).stdout.splitlines()[0]

    def test_cubics(self):
        """The formula has the values of the cubic through both ends of each interval."""
        table = lennard_jones(20)
        rows = [[Fraction(word) for word in line.split()] for line in table.splitlines()]
        body, x = self.energy(table).removeprefix("energy ").split("; x=")
        names = {"step": lambda a: a >= 0, "select": lambda choice, a, b: a if choice else b, "F": Fraction}
        formula, position = (compile(re.sub(r"\d+\.?\d*", r"F('\g<0>')", it), "", "eval") for it in (body, x))
        numbers = random.Random(4)
        for _ in range(200):
            at, u = numbers.randrange(20), Fraction(numbers.randrange(1, 100), 100)
            (r, value, slope), (end, then, slope_then) = rows[at : at + 2]
            width, rise = end - r, then - value
            b, c = 3 * rise - (2 * slope + slope_then) * width, (slope + slope_then) * width - 2 * rise
            wanted = value + u * (slope * width + u * (b + u * c))
            got = eval(formula, {**names, "x": eval(position, {**names, "r": r + u * width})})
            self.assertAlmostEqual(float(got), float(wanted), delta=1e-8)

    @needs_program
    def test_bounds(self):
        """The bounds of `curve` are those of roundings, not of jumps, also with a steep start and at 40 bits."""
        for first, bits, most in ((0.3, 32, 1e-6), (0.2, 40, 1e-6)):
            energy = self.energy(lennard_jones(30, first))
            lines = ["pairmd job 1", energy, f"core {first}", "cutoff 0.9", "dt 2", f"bits {bits}", "type AR 40"]
            (curve,) = pairmd.curve(pairmd.Job.parse("\n".join([*lines, ""])), points=30)
            self.assertLess(max(row.energy_error for row in curve.rows), most)


if __name__ == "__main__":
    unittest.main()
