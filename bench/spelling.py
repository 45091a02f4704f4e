#!/usr/bin/env python3
"""Errors of derivatives and forces, for several spellings of one formula and 24, 32 and 40 fraction bits.

  bench/spelling.py      PAIRMD names the program

It prints figures of docs/ACCURACY.md, in kJ/mol/nm:

1. Argon's Lennard-Jones derivative: the greatest and the mean error at 2,000 distances. A distance is rounded down to
   a multiple of 2^-bits nm too; the last figure is the change of the derivative over 2^-bits nm.
2. The greatest error of other spellings of that energy, or the error that rejects the job.
3. Forces on the 500 atoms of examples/argon.gro: the greatest error of a component, for jobs of examples/, against
   double precision of the formula as the job spells it, not of a true exp.

Derivatives are the forces that `pairmd forces` prints for pairs of atoms along x, compared with exact fractions. The
distances are 0.3 nm + k * 0.0003 nm, for k from 0 to 1,999, each rounded up to a multiple of 2^-23 nm: they are exact
at any number of fraction bits. The module is also that of bench/pieces.py.
"""
import argparse
import itertools
import math
import os
import re
from fractions import Fraction

from argon import MASS, state
from running import pairmd

ROOT = os.path.dirname(os.path.dirname(os.path.realpath(__file__)))
FIRST, LAST = Fraction("0.3"), Fraction("0.9")  # nm: core and cutoff
FINEST = 2**23  # distances are multiples of 1 nm over this
SIDE = 2  # nm, along x: a grid unit is 2^-31 nm
# a is 4 epsilon sigma^12, b is 4 epsilon sigma^6
NUMBERS = {"sigma": "0.34", "epsilon": "0.996", "a": "9.507500003833e-6", "b": "6.154500793344e-3"}
LENNARD_JONES = "4*epsilon*((sigma/r)^12-(sigma/r)^6)"
OTHERS = ("a*(1/r)^12-b*(1/r)^6", "4*epsilon*(x^2-x); x=sigma^6/r^6", "a*r^-12-b*r^-6", "a/r^12-b/r^6")
JOBS = ("buckingham", "switched", "yukawa", "morse")


class Dual:
    """A value and its derivative with respect to the distance, as floats or fractions."""

    def __init__(self, value, slope=0):
        self.value, self.slope = value, slope

    def __add__(self, other):
        return Dual(self.value + other.value, self.slope + other.slope)

    def __sub__(self, other):
        return Dual(self.value - other.value, self.slope - other.slope)

    def __mul__(self, other):
        return Dual(self.value * other.value, self.slope * other.value + self.value * other.slope)

    def __truediv__(self, other):
        quotient = self.value / other.value
        return Dual(quotient, (self.slope - quotient * other.slope) / other.value)

    def __pow__(self, exponent):
        return Dual(self.value**exponent, exponent * self.value ** (exponent - 1) * self.slope)


FUNCTIONS = {
    "Dual": Dual,
    "step": lambda x: Dual(1 if x.value >= 0 else 0),
    "select": lambda x, yes, no: yes if x.value else no,
}


def derivative_of(energy, numbers, kind):
    """The function from r to dU/dr of an energy text, in fractions or floats: `kind` is Fraction or float."""

    def python(found):
        return found[0].replace("^", "**") if found[0][0] == "^" else f"Dual(kind('{found[0]}'))"

    body, *definitions = energy.split(";")
    code = []
    for line in [*reversed(definitions), f"body={body}"]:
        name, formula = line.strip().split("=")
        formula = re.sub(r"\^-?\d+|(?<![\w.])\d[\d.]*(e-?\d+)?", python, formula)
        code.append((name, compile(formula, energy, "eval")))
    known = {"kind": kind, **FUNCTIONS, **{name: Dual(kind(text)) for name, text in numbers.items()}}

    def derivative(r):
        names = {**known, "r": Dual(r, 1)}
        for name, formula in code:
            names[name] = eval(formula, names)
        return names["body"].slope

    return derivative


def distances(count):
    """Distances from 0.3 nm to just below 0.9 nm, evenly spaced."""
    return [Fraction(math.ceil((FIRST + (LAST - FIRST) * k / count) * FINEST), FINEST) for k in range(count)]


def job(energy, bits=32, numbers=()):
    """A job of argon from 0.3 to 0.9 nm."""
    lines = [f"energy {energy}", f"core {float(FIRST)}", f"cutoff {float(LAST)}", "dt 2", f"bits {bits}"]
    lines += [f"global {name} {text}" for name, text in dict(numbers).items()]
    return "\n".join(["pairmd job 1", *lines, f"type AR {MASS}"]) + "\n"


def derivatives(text, at, bits=32):
    """dU/dr as the program computes it at these distances; or, for a rejected job, the program's error as a text."""
    rows = math.ceil(math.sqrt(len(at)))  # of pairs along x, which are 1 nm apart along y and z
    places = []
    for number, r in enumerate(at):
        y, z = (count * 2**32 // rows for count in divmod(number, rows))
        places += [(0, y, z), (int(r * 2**32 / SIDE), y, z)]
    sides = [10**5 * side for side in (SIDE, rows, rows)]
    try:
        found = pairmd.forces(pairmd.Job.parse(text), pairmd.State.parse(state(sides, places, bits)))
    except pairmd.Refusal as error:
        return f"pairmd: {error.line}"
    return [Fraction(x, 2**bits) for x, _, _ in found.raw[::2]]


def errors(text, at, exact, bits=32):
    """The error of each derivative; or, for a rejected job, the program's error as a text."""
    computed = derivatives(text, at, bits)
    return computed if isinstance(computed, str) else [float(abs(x - y)) for x, y in zip(computed, exact)]


def numbers_of(read):
    """The numbers that the names of a job stand for between two atoms of the first type, AR."""
    numbers = {name: str(value) for name, value in read.globals.items()}
    for name, value in zip(read.parameters, read.types[0].values):
        numbers |= {f"{name}1": str(value), f"{name}2": str(value)}
    return numbers


def forces_of(found, derivative):
    """The force on each atom of a state, in double precision; all jobs here have one cutoff."""
    forces = [[0.0] * 3 for _ in found.current]
    for (i, p), (k, q) in itertools.combinations(enumerate(found.current), 2):
        apart = [by / 2**32 * side for by, side in zip(pairmd.moves(q, p), found.sides)]
        r = math.hypot(*apart)
        if r < LAST:
            share = derivative(r) / r
            for axis, x in enumerate(apart):
                forces[i][axis] -= share * x
                forces[k][axis] += share * x
    return forces


def liquid(name, respelled=()):
    """The greatest error of a force component on the atoms of argon.gro; `respelled` has texts to replace."""
    with open(f"{ROOT}/examples/{name}.job", encoding="ascii") as file:
        text = file.read()
    for old, new in respelled:
        text = text.replace(old, new)
    read = pairmd.Job.parse(text)
    start = pairmd.start(read, f"{ROOT}/examples/argon.gro")
    forces = forces_of(start, derivative_of(read.energy, numbers_of(read), float))
    return max(abs(x - y) for xs, ys in zip(pairmd.forces(read, start).values(), forces) for x, y in zip(xs, ys))


def main():
    argparse.ArgumentParser(description=__doc__, formatter_class=argparse.RawDescriptionHelpFormatter).parse_args()
    at = distances(2_000)
    derivative = derivative_of(LENNARD_JONES, NUMBERS, Fraction)
    exact = [derivative(r) for r in at]
    print(f"{LENNARD_JONES}: the derivative is up to {float(max(map(abs, exact))):.0f}")
    for bits in (24, 32, 40):
        off = errors(job(LENNARD_JONES, bits, NUMBERS), at, exact, bits)
        nearer = float(max(abs(derivative(r - Fraction(1, 2**bits)) - it) for r, it in zip(at, exact)))
        print(f"  {bits} bits: at most {max(off):.1e} off, mean {sum(off) / len(off):.1e};", end=" ")
        print(f"a distance that is 2^-{bits} nm shorter adds at most {nearer:.1e}")
    for energy in OTHERS:
        print(energy)
        for bits in (24, 32, 40):
            off = errors(job(energy, bits, NUMBERS), at, exact, bits)
            print(f"  {bits} bits:", off if isinstance(off, str) else f"at most {max(off):.1e} off")
    print("forces on the atoms of argon.gro, 32 bits")
    for name in JOBS:
        print(f"  {name}.job: at most {liquid(name):.1e} off", flush=True)
    for attraction in ("c*(1/r)^6", "c/r^6"):
        off = liquid("buckingham", (("(s/r)^6", attraction), ("global s 0.4286129431", "global c 0.0062")))
        print(f"  buckingham.job with {attraction}: at most {off:.1e} off", flush=True)


if __name__ == "__main__":
    main()
