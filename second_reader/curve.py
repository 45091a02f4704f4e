#!/usr/bin/env python3
"""Prints the tables of a job's potential with bounds on errors, computed only from docs/BOUNDS.md and the energy's tree.

  curve.py JOB [--points N] [--energy] [--slope] [--grid] [--types A B]

These are the arguments of `pairmd curve`, and the text is the one that it prints if it accepts the job's code. The exit
status is 1 if the job's text or its energy is malformed, or if a row has no value.
"""
import argparse
import sys

from arithmetic import bits_of, nearest_of
from bounds import ENERGY, FINER, SLOPE, Formula, Range, as_read, halved_row, up_over
from derived import Derivatives
from read import bytes_of, with_deep_stack
from run_specification import NoText, program_says
from slope import slope_of
from value import value_of

UNITS = ("energy/(kJ/mol)", "slope/(kJ/mol/nm)")
ERRORS = ("energy-error", "slope-error")
GRID = "slope-grid"


# ---- numbers


def decimals(places, n):
    """The number n, in units of the last of these places, as a decimal."""
    front, part = divmod(abs(n), 10**places)
    return f"{'-' * (n < 0)}{front}.{part:0{places}}"


class Texts:
    """The texts of numbers at a number of fraction bits."""

    def __init__(self, bits):
        self.bits = bits
        self.places = 14 if bits == 40 else 12

    def value(self, z):
        """A raw value as the nearest decimal."""
        return decimals(self.places, nearest_of(z * 10**self.places, 2**self.bits))

    def bound(self, bound):
        """A bound in error units, rounded up to three digits."""
        if bound is None:
            return "-"
        if bound == 0:
            return "0"
        n, d, k = bound * 10**17, FINER * 2**self.bits, -17
        while n > 999 * d:
            d, k = 10 * d, k + 1
        return f"{decimals(2, up_over(n, d))}e{k + 2}"


# ---- tables


def is_large(value, bound):
    """The bound is above a thousandth of the value's magnitude."""
    return bound is not None and 1000 * bound > FINER * abs(value)


def word_of(row, column, value, whole):
    """The word that marks a column of a row, if its bound is large."""
    if not is_large(value, row.bound(column)):
        return None
    return "jump" if row.jumps(column, whole) else "large"


class Table:
    """The table of a pair of types, by its rows: a distance; each of energy and slope, values, bounds and marks; and the
    change of the slope over a unit, if `derived` is the slope's formula.
    """

    def __init__(self, job, tree, formulas, first, second, points):
        self.names = (first.name.decode(), second.name.decode())
        self.texts = Texts(bits_of(job.frac))
        constants = [*first.values, *second.values, *(it.value for it in job.globals)]
        self.others = [as_read(it) for it in constants]
        self.raw = [it.value for it in constants]
        self.tree = tree
        self.formula, self.derived = formulas
        self.whole = Range(job.core, job.cutoff - 1)
        ends = [job.core + (job.cutoff - 1 - job.core) * i // points for i in range(points + 1)]
        self.rows = [self.row(r, after) for r, after in zip(ends, [*ends[1:], ends[-1]])]

    def row(self, r, after):
        """The row at a distance, with the next row's distance."""
        bits = self.texts.bits
        values = [function(bits, (r, *self.raw))(self.tree) for function in (value_of, slope_of)]
        if None in values:
            raise NoText("values")
        row = halved_row(self.formula, self.others, Range(r, max(r, after - 1)))
        found = [row.bound(column) for column in (ENERGY, SLOPE)]
        words = [word_of(row, column, values[column], self.whole) for column in (ENERGY, SLOPE)]
        grid = None if self.derived is None else self.derived.change(self.others, r)
        return r, values, found, words, grid

    def line(self, row, columns):
        """The line of a row."""
        r, values, found, words, grid = row
        texts = [self.texts.value(r)]
        for column in columns:
            texts += [self.texts.value(values[column]), self.texts.bound(found[column])]
        if self.derived is not None:
            texts.append(self.texts.bound(grid))
        for word in ("jump", "large"):
            marked = [ERRORS[column] for column in columns if words[column] == word]
            texts += ["#", word, *marked] if marked else []
        return " ".join(texts)

    def lacking(self, columns):
        """The lines for bounds that are missing."""
        return [
            f"# no {ERRORS[column]} from {self.texts.value(r)}"
            for r, _, found, *_ in self.rows
            for column in columns
            if found[column] is None
        ]

    def greatest(self, column):
        """The greatest bound of a column, the distance of the first row that has it, and the number of rows without."""
        found = [(of[column], r) for r, _, of, *_ in self.rows if of[column] is not None]
        without = len(self.rows) - len(found)
        words = [ERRORS[column], "-"]
        if found:
            bound, r = max(found, key=lambda it: it[0])
            words = [ERRORS[column], self.texts.bound(bound), "at", self.texts.value(r)]
        if without:
            words.append(f"({without} row{'s' * (without > 1)} without)")
        return " ".join(words)

    def body(self, columns):
        """The lines of the rows, of missing bounds and of the greatest bounds."""
        last = "# greatest " + ", ".join(self.greatest(column) for column in columns)
        return lines_of([*(self.line(row, columns) for row in self.rows), *self.lacking(columns), last])


def lines_of(lines):
    """The text of these lines."""
    return "".join(f"{line}\n" for line in lines)


def head_of(columns, grid):
    """The line of the names and units of the columns."""
    words = [word for column in columns for word in (UNITS[column], ERRORS[column])]
    return " ".join(["# r/nm", *words, *([GRID] if grid else [])])


def table_text(names, head, body):
    """The text of a table with the names of these pairs of types."""
    return lines_of([*("# " + " ".join(pair) for pair in names), head]) + body


def texts_of_both(first, second, head, columns):
    """The texts of the tables of two types in both orders: one text if both tables have the same body."""
    bodies = [it.body(columns) for it in (first, second)]
    if bodies[0] == bodies[1]:
        return [table_text([first.names, second.names], head, bodies[0])]
    return [table_text([it.names], head, body) for it, body in zip((first, second), bodies)]


def formulas_of(bits, tree, definitions, grid):
    """The formula of an energy, and with `--grid` the formula of its slope."""
    derived = Formula(bits, Derivatives(bits).of(tree), ()) if grid else None
    return Formula(bits, tree, definitions), derived


def curve(text, points=100, columns=(ENERGY, SLOPE), names=None, grid=False):
    """The text that `pairmd curve` prints for a job's text."""
    job, tree, definitions = program_says(text)
    formulas = formulas_of(bits_of(job.frac), tree, definitions, grid)
    head = head_of(columns, grid)
    named = {it.name: it for it in job.types}

    def table(first, second):
        return Table(job, tree, formulas, first, second, points)

    def alone(first, second):
        it = table(first, second)
        return table_text([it.names], head, it.body(columns))

    if names is not None:
        return alone(*(named[name] for name in names))
    texts = []
    for number, first in enumerate(job.types):
        texts.append(alone(first, first))
        for second in job.types[number + 1 :]:
            texts += texts_of_both(table(first, second), table(second, first), head, columns)
    return "\n\n".join(texts)


def arguments(words):
    """The arguments of the command: the job's path and the options."""
    parser = argparse.ArgumentParser(description=__doc__, formatter_class=argparse.RawDescriptionHelpFormatter)
    parser.add_argument("job")
    parser.add_argument("--points", type=int, default=100)
    parser.add_argument("--energy", action="store_true")
    parser.add_argument("--slope", action="store_true")
    parser.add_argument("--grid", action="store_true")
    parser.add_argument("--types", nargs=2)
    return parser.parse_args(words)


def text_for(given, job):
    """The text that these arguments print for a job's text."""
    shown = [column for column, option in ((ENERGY, given.energy), (SLOPE, given.slope)) if option]
    names = None if given.types is None else [name.encode() for name in given.types]
    return curve(job, given.points, shown or (ENERGY, SLOPE), names, given.grid)


def printed(given):
    """Prints the text, or why there is none. The result is the exit status."""
    try:
        sys.stdout.write(text_for(given, bytes_of(given.job)))
    except NoText as it:
        print("none:", it, file=sys.stderr)
        return 1
    return 0


def main():
    given = arguments(sys.argv[1:])
    return with_deep_stack(lambda: printed(given))


if __name__ == "__main__":
    sys.exit(main())
