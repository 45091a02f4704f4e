#!/usr/bin/env python3
"""Measures approximations to exp(-x) for energies, which have no exp: errors of values and derivatives, and cost.

  examples/exponentials.py          PAIRMD names the program

For each recipe, the script takes 2,049 numbers x from 0 to 64, in the arithmetic of 32 bits. It prints the largest
errors of the value and of the derivative along x, the relative error of the value at some x, and the number of
instructions of the derivative's code. The values are computed here, according to the operations of docs/FORMATS.md, and
compared with `pairmd energy` at some x. The derivatives come from the listing that `pairmd code` prints. Then, for each
job of this directory with such a recipe, the script prints the error of its energy against the formula with a true exp
(JOBS), from `pairmd energy` at 101 distances from core to cutoff.
"""
import functools
import math
import os
import re
import sys

HERE = os.path.dirname(os.path.realpath(__file__))
sys.path.insert(1, os.path.join(HERE, "..", "python"))
import pairmd  # noqa: E402

ONE = 1 << 32

RECIPES = [
    "((1-x/64)^32)^2",
    "((1-z)/(1+z))^32; z=x/64",
    "((1-z*(1-z/2))^32)^2; z=x/64",
    "((1-z*(1-z/2))^32)^32; z=x/1024",
    "(1-z*(1-z/2*(1-z/3*(1-z/4))))^32; z=x/32",
    "((1-z*(1-z/2*(1-z/3*(1-z/4))))^32)^2; z=x/64",
    "(1-z*(1-z/2*(1-z/3*(1-z/4*(1-z/5)))))^24; z=x/24",
]
SHOWN = (-4, 1, 4, 8, 12)  # x of the relative errors

# The energies of the jobs with a true exp, for two atoms of the first type.
JOBS = {
    "buckingham": lambda r: 1e6 * math.exp(-36.6 * r) - 0.0062 / r**6,
    "morse": lambda r: 1.19 * (math.exp(-2 * 16.8 * (r - 0.376)) - 2 * math.exp(-16.8 * (r - 0.376))),
    "yukawa": lambda r: 138.935456 / 78.3 * math.exp(-r / 0.304) / r,
    "gaussian": lambda r: 5 * math.exp(-((r / 0.3) ** 2)),
}


class Number:
    """A number with 32 fraction bits. The result of each operation is rounded down."""

    def __init__(self, raw):
        if not -(1 << 63) <= raw < 1 << 63:
            raise OverflowError
        self.raw = raw

    def __add__(self, other):
        return Number(self.raw + other.raw)

    def __sub__(self, other):
        return Number(self.raw - other.raw)

    def __neg__(self):
        return Number(-self.raw)

    def __mul__(self, other):
        return Number(self.raw * other.raw >> 32)

    def __truediv__(self, other):
        return Number((self.raw << 32) // other.raw)

    def __pow__(self, exponent):
        if exponent == 1:
            return self
        root = self ** (exponent // 2)
        return root * root * self if exponent % 2 else root * root

    def __float__(self):
        return self.raw / ONE


@functools.cache
def formulas(recipe):
    """The formulas of a recipe for Python, the last definition first. Python's operators have the same precedence."""
    body, *definitions = recipe.split(";")
    made = []
    for text in [*reversed(definitions), f"body={body}"]:
        name, formula = text.strip().split("=")
        formula = re.sub(r"(?<![\w^])\d+", lambda it: f"Number({int(it[0]) * ONE})", formula)
        made.append((name, compile(formula.replace("^", "**"), recipe, "eval")))
    return made


def value(recipe, x):
    """The value of a recipe at x."""
    names = {"x": x, "Number": Number}
    for name, formula in formulas(recipe):
        names[name] = eval(formula, names)
    return names["body"]


def run(listing, inputs):
    """The value of code without jumps for these inputs."""
    stack, kept = [], {}
    for word, *operand in map(str.split, listing):
        if word == "push":
            stack.append(Number(int(operand[0])))
        elif word == "input":
            stack.append(inputs[int(operand[0])])
        elif word == "keep":
            kept[operand[0]] = stack.pop()
        elif word == "get":
            stack.append(kept[operand[0]])
        elif word in ("neg", "sq"):
            a = stack.pop()
            stack.append(-a if word == "neg" else a * a)
        else:
            b, a = stack.pop(), stack.pop()
            stack.append({"add": a.__add__, "sub": a.__sub__, "mul": a.__mul__, "div": a.__truediv__}[word](b))
    return stack.pop()


def energy(job, raw):
    """The energy in 2^-32 kJ/mol of two atoms of the type AR at this distance, on a side of 2 nm."""
    places = [(0, 0, 0), (raw // 2, 0, 0)]
    atoms = [pairmd.Atom(1, "AR", "AR")] * 2
    state = pairmd.State("two atoms", 0, (200_000,) * 3, atoms, places, places)
    return int(pairmd.energy(job, state) * ONE)


def share(error):
    """A relative error in the form of the table."""
    size = abs(error)
    return f"{size:.1e}" if size < 2e-3 else f"{100 * size:.{0 if size > 9.5e-3 else 1}f} %"


def tried(recipe):
    """A row of the table of recipes."""
    job = pairmd.Job.parse(f"pairmd job 1\nenergy {recipe}; x=b*r\ncore 0\ncutoff 0.99\ndt 2\nglobal b 64\ntype AR 40\n")
    listing = pairmd.code(job).splitlines()[1:]
    values, slopes = [], []
    for count in range(2_049):  # x is count / 32, and r is x / 64
        x, r = Number(count * ONE // 32), Number(count * ONE // 2_048)
        exact = math.exp(-count / 32)
        values.append(abs(float(value(recipe, x)) - exact))
        slopes.append(abs(float(run(listing, [r, Number(64 * ONE)])) / 64 + exact))
        if count % 256 == 0 and count < 2_016:
            assert energy(job, r.raw) == value(recipe, x).raw, (recipe, count)
    relative = [float(value(recipe, Number(x * ONE))) / math.exp(-x) - 1 for x in SHOWN]
    return [f"`{recipe}`", str(len(listing)), f"{max(values):.1e}", f"{max(slopes):.1e}", *map(share, relative)]


def of_a_job(name, formula):
    """A sentence: the error of the energy of a job, and its distance."""
    job = pairmd.Job.read(f"{HERE}/{name}.job")
    core, cutoff = float(job.core), float(job.cutoff)
    off = []
    for count in range(101):
        raw = int((core + (cutoff - core) * count / 101) * ONE) // 2 * 2
        r = max(raw / ONE, core)
        if r > 0:
            off.append((abs(energy(job, raw) / ONE - formula(r)), abs(formula(r)), r))
    (worst, there, at), inner = max(off), max(it[0] for it in off if it[1] < 20)
    return f"{name}.job: at most {worst:.1e} kJ/mol off, at {at:.3f} nm where it is {there:.4g}; below 20 at most {inner:.1e}"


def main():
    head = ["Value off by at most", "Slope off by at most", f"Value, of itself, at x = {SHOWN[0]}", *map(str, SHOWN[1:])]
    print("| For `exp(-x)` | Instructions |", " | ".join(head), "|")
    for recipe in RECIPES:
        print("|", " | ".join(tried(recipe)), "|", flush=True)
    for name, formula in JOBS.items():
        print(of_a_job(name, formula), flush=True)


if __name__ == "__main__":
    main()
