#!/usr/bin/env python3
"""Compares the error bounds that `pairmd curve` prints with the greatest errors at random distances.

  bench/curves.py [--distances N] [--bits B ..] [--points N] [--workers W] [JOB ..]

JOB is a job of examples/ (`argon`), a case of curve_cases.py, or a file; all jobs and cases by default. PAIRMD names the
program. Each job is tried at 24, 32 and 40 fraction bits. Each exact distance is random, with digits below a unit of
2^-bits nm; the program's distance is the exact one rounded down. Energy and slope are computed by second_reader/ in
fixed point, and exactly with 90 digits, from the decimals that the job has; both ends of the distance's unit are tried
too. A quarter of the distances is anywhere, and a quarter each near the core, in the rows
with the greatest bounds, and near distances at which a comparison or a floor changes.

The script prints a line for each job, number of bits and pair of types: the greatest bound, the greatest error and
their ratio, of the energy (kJ/mol) and of the slope (kJ/mol/nm). `-` means that no row has a bound; errors at distances
without a bound don't count. A ratio above 4, of a held-out case above 8, is marked. Tables with the rows of an earlier
table of the job are left out. The exit status is 1 if an error exceeds its bound, or if the table's values aren't those
of second_reader/.
"""
import argparse
import glob
import itertools
import os
import random
import sys
import tempfile
from bisect import bisect_right
from decimal import Decimal, getcontext
from multiprocessing import get_context

from curve_cases import HELD_OUT, SPELLINGS, Case
from exact import ROOT, Formula, keep_numerals
from pieces import pieces
from running import pairmd, program, write

# of second_reader/, which `exact` puts on the path
from arithmetic import bits_of
from run_specification import job_says
from read import with_deep_stack
from slope import slope_of
from value import value_of

DIGITS = 90
FINER = 24  # random bits of a distance below a unit of 2^-bits nm
MOST, MOST_HELD_OUT = 4, 8  # the greatest ratios that aren't marked


# ---- jobs and tables


def read(path):
    with open(path, encoding="ascii") as file:
        return file.read()


def all_jobs():
    """The texts of all jobs by name."""
    paths = sorted(glob.glob(f"{ROOT}/examples/*.job"))
    jobs = {os.path.basename(path).removesuffix(".job"): read(path) for path in paths}
    with tempfile.TemporaryDirectory() as room:
        cases = {**SPELLINGS, "pieces": Case(pieces(room, 8, False)[0], "0.3"), **HELD_OUT}
    return jobs | {name: case.job() for name, case in cases.items()}


def at_bits(text, bits):
    """The job with this number of fraction bits."""
    lines = [line for line in text.splitlines() if line.split()[:1] != ["bits"]]
    return "\n".join([*lines, f"bits {bits}"]) + "\n"


def curve(text, points):
    """The output of the command. Raises pairmd.Refusal if the job is rejected."""
    more = [] if points is None else ["--points", str(points)]
    with tempfile.TemporaryDirectory() as room:
        return pairmd.call("curve", write(room, "job", text), *more)


def bound_of(word):
    return None if word == "-" else Decimal(word)


class Column:
    """The values and bounds of a table for energies or for slopes, and the greatest error that was found."""

    def __init__(self, name, most, values, bounds):
        self.name, self.most = name, most
        self.values = [Decimal(word) for word in values]
        self.bounds = [bound_of(word) for word in bounds]
        self.error = Decimal(0)
        self.at = self.worst = None

    def rows(self, count):
        """The rows with the greatest bounds, at most this many."""
        rows = [row for row, bound in enumerate(self.bounds) if bound is not None]
        return sorted(rows, key=self.bounds.__getitem__)[-count:]

    def take(self, row, distance, computed, exact):
        """Takes the error at a distance, unless there is no bound or no exact value. A missing computed value is an
        error beyond all bounds.
        """
        bound = self.bounds[row]
        if bound is None or exact is None:
            return
        error = Decimal("inf") if computed is None else abs(computed - exact)
        if self.at is None or error > self.error:
            self.error, self.at = error, distance
        if error > bound and (self.worst is None or error - bound > self.worst[1] - self.worst[2]):
            self.worst = distance, error, bound

    def ratio(self):
        """The greatest bound over the greatest error; None without a bound, or if both are 0."""
        rows = self.rows(1)
        if not rows or self.bounds[rows[0]] == 0:
            return None
        return float(self.bounds[rows[0]]) / float(self.error) if self.error else float("inf")

    def is_above(self):
        ratio = self.ratio()
        return ratio is not None and ratio > self.most

    def text(self):
        """Bound, error and ratio."""
        rows, ratio = self.rows(1), self.ratio()
        bound = f"{float(self.bounds[rows[0]]):.2e}" if rows else "-"
        error = "-" if self.at is None else f"{float(self.error):.2e}"
        return f"{self.name} {bound:>8} {error:>8} {'-' if ratio is None else f'{ratio:.2f}':>6}"


class Table:
    """The table of a pair of types, the first if it has two: the distances of its rows in units, and its columns."""

    def __init__(self, block, job, most):
        lines = block.strip().splitlines()
        self.types = lines[0].removeprefix("# ")
        self.lines = [line for line in lines if not line.startswith("#")]
        rows = [line.partition("#")[0].split() for line in self.lines]
        shown, energies, energy_bounds, slopes, slope_bounds = zip(*rows)
        self.shown = [Decimal(word) for word in shown]
        last = len(rows) - 1
        self.distances = [job.core + (job.cutoff - 1 - job.core) * row // last for row in range(last + 1)]
        self.end = job.cutoff
        self.columns = [Column("energy", most, energies, energy_bounds), Column("slope", most, slopes, slope_bounds)]

    def row(self, r):
        """The row that is about a distance."""
        return bisect_right(self.distances, r) - 1


# ---- a pair of types


def number(function, r):
    """The value of a function, or None if it has none."""
    try:
        return function(r)
    except ArithmeticError:
        return None


def half_of_last(x):
    """Half of the unit of a decimal's last digit."""
    return Decimal((0, (5,), x.as_tuple().exponent - 1))


class Pair:
    """The potential of a pair of types, computed and exact. A distance is an integer, in units of 2^-(bits + FINER)."""

    def __init__(self, job, tree, types):
        first, second = (next(it for it in job.types if it.name == name) for name in types.encode().split())
        self.bits, self.tree = bits_of(job.frac), tree
        constants = (*first.values, *second.values, *(it.value for it in job.globals))
        self.others = [c.value for c in constants]
        self.exact = Formula(tree, [None, *constants])

    def computed(self, r):
        """Energy and slope as the program computes them, each a number or None."""
        inputs = (r, *self.others)
        raws = [function(self.bits, inputs)(self.tree) for function in (value_of, slope_of)]
        return [None if raw is None else Decimal(raw) / 2**self.bits for raw in raws]

    def nm(self, x):
        """A distance in nm. It is exact, since 2^-64 has 64 digits."""
        return Decimal(x) / 2 ** (self.bits + FINER)

    def take(self, table, x):
        """Takes the errors at a distance, and at both ends of its unit: there the program computes the same numbers."""
        r = x >> FINER
        row, computed = table.row(r), self.computed(r)
        for at in (x, r << FINER, (r + 1 << FINER) - 1):
            distance = self.nm(at)
            exact = [number(function, distance) for function in (self.exact.energy, self.exact.slope)]
            for column, *values in zip(table.columns, computed, exact):
                column.take(row, distance, *values)

    def differences(self, table):
        """The rows whose distances and values aren't those of the second reading."""
        for row, r in enumerate(table.distances):
            shown = [table.shown[row], *(column.values[row] for column in table.columns)]
            own = [Decimal(r) / 2**self.bits, *self.computed(r)]
            if any(y is None or abs(x - y) > half_of_last(x) for x, y in zip(shown, own)):
                yield row

    def jumps(self, start, end, parts=1000):
        """Distances at which a comparison or a floor changes, at most one in each part of the range."""
        ends = [start + (end - start) * part // parts for part in range(parts + 1)]
        outcomes = [self.exact.outcomes(self.nm(x)) for x in ends]
        found = []
        for low, high, before, after in zip(ends, ends[1:], outcomes, outcomes[1:]):
            while before != after and high - low > 1:
                middle = (low + high) // 2
                if self.exact.outcomes(self.nm(middle)) == before:
                    low = middle
                else:
                    high = middle
            if before != after:
                found.append(high)
        return found


# ---- distances


class Draws:
    """Random distances from the core up to the cutoff."""

    def __init__(self, table, jumps):
        self.numbers = random.Random(20261127)
        self.start, self.end = (r << FINER for r in (table.distances[0], table.end))
        self.jumps = jumps
        rows = [row for column in table.columns for row in column.rows(3)]
        ends = [r << FINER for r in (*table.distances, table.end)]
        self.greatest = [(ends[row], max(ends[row], ends[row + 1] - 1)) for row in rows]

    def near_core(self, power):
        """A distance near the core, the nearer the higher the power."""
        part = self.numbers.random() ** power
        return self.start + int((self.end - self.start) * part) + self.numbers.randrange(1 << FINER)

    def near_jump(self, number):
        """A distance near a jump, from the least distance away to 256 units, on all scales alike."""
        away = int(2 ** self.numbers.uniform(0, FINER + 8))
        return self.jumps[number % len(self.jumps)] + self.numbers.choice((-away, away))

    def draw(self, number):
        """The distance with this number."""
        which, turn = number % 4, number // 4
        if which == 1:
            return self.near_core(4)
        if which == 2 and self.greatest:
            return self.numbers.randint(*self.greatest[turn % len(self.greatest)])
        if which == 3:
            return self.near_jump(turn) if self.jumps else self.near_core(12)
        return self.numbers.randrange(self.start, self.end)

    def distances(self, count):
        """This many distances."""
        return [min(max(self.draw(number), self.start), self.end - 1) for number in range(count)]


# ---- the comparison


class Count:
    """Lines to print; tables that were compared, ratios above their limit, and failures: bounds exceeded, or other values."""

    def __init__(self):
        self.lines = []
        self.tables = self.above = self.failures = 0

    def fail(self, text):
        self.failures += 1
        self.lines.append(text)

    def add(self, other):
        """Prints the lines of another count, and adds its numbers."""
        print("".join(f"{line}\n" for line in other.lines), end="", flush=True)
        self.tables += other.tables
        self.above += other.above
        self.failures += other.failures


def notes_of(table):
    """Ratios above the limit, and rows without a bound."""
    for column in table.columns:
        if column.is_above():
            row = column.rows(1)[0]
            yield f"above {column.most}: {column.name}, bound at {table.shown[row]:.4f}, error at {column.at:.4f}"
        lacking = column.bounds.count(None)
        if lacking:
            yield f"{lacking} of {len(column.bounds)} rows have no {column.name} bound"


def compare(what, table, pair, distances, count):
    """Compares a table with errors at this many distances, and adds a line."""
    jumps = pair.jumps(table.distances[0] << FINER, table.end << FINER)
    for x in Draws(table, jumps).distances(distances):
        pair.take(table, x)
    line = [f"{what:<30}", *(column.text() for column in table.columns), "; ".join(notes_of(table))]
    count.lines.append(" ".join(line).rstrip())
    count.tables += 1
    for column in table.columns:
        count.above += column.is_above()
        if column.worst:
            at, error, bound = column.worst
            count.fail(f"EXCEEDED {what}: {column.name} at {at} nm, error {float(error):.4e}, bound {float(bound):.2e}")
    for row in pair.differences(table):
        count.fail(f"DIFFERENT {what}: the row of {table.shown[row]} nm has other values than second_reader/")


def compared(name, text, most, given):
    """The count of a job's tables."""
    getcontext().prec = DIGITS  # of this thread
    count, seen = Count(), []
    try:
        output = curve(text, given.points)
    except pairmd.Refusal as error:
        if error.status not in (1, 3):
            raise
        count.lines.append(f"{name}: skipped, pairmd: {error.line}")
        return count
    job, tree = job_says(text.encode())
    for block in output.split("\n\n\n"):
        table = Table(block, job, most)
        if table.lines not in seen:
            seen.append(table.lines)
            compare(f"{name} {table.types}", table, Pair(job, tree, table.types), given.distances, count)
    return count


def in_worker(words):
    """The result of `compared`, in a process of its own."""
    return with_deep_stack(lambda: compared(*words))


def compare_all(given, jobs):
    """Compares all jobs. Returns the exit status."""
    keep_numerals()
    words = [
        (f"{name} {bits}", at_bits(jobs[name], bits), MOST_HELD_OUT if name in HELD_OUT else MOST, given)
        for name, bits in itertools.product(jobs, given.bits)
    ]
    count = Count()
    with get_context("fork").Pool(given.workers) as pool:
        for found in pool.imap(in_worker, words):
            count.add(found)
    print(f"{count.tables} tables: {count.failures} failures, {count.above} ratios above the limit")
    return 1 if count.failures or not count.tables else 0


def main():
    parser = argparse.ArgumentParser(description=__doc__, formatter_class=argparse.RawDescriptionHelpFormatter)
    parser.add_argument("--distances", type=int, default=1000, help="for each pair of types; 1,000 by default")
    parser.add_argument("--bits", type=int, nargs="+", default=(24, 32, 40), choices=(24, 32, 40))
    parser.add_argument("--points", type=int, help="of the command; its own default if not given")
    parser.add_argument("--workers", type=int, default=os.cpu_count(), help="processes; by default as many as processors")
    parser.add_argument("jobs", nargs="*", metavar="JOB")
    given = parser.parse_args()
    known = all_jobs()
    other = [name for name in given.jobs if name not in known and not os.path.isfile(name)]
    if other:
        sys.exit(f"no job {', '.join(other)}; there are {', '.join(known)}")
    jobs = {name: known[name] if name in known else read(name) for name in given.jobs or known}
    program()
    return compare_all(given, jobs)


if __name__ == "__main__":
    sys.exit(main())
