#!/usr/bin/env python3
"""Converts a table of energies to the `energy` line of a job: a cubic for each interval of r, chosen by halving.

  examples/pieces.py TABLE          prints the line `energy ..` for a job, and comment lines with estimated errors

TABLE has two or three numbers per line: r in nm, in equal intervals; the energy in kJ/mol; and the slope dU/dr, minus
the force, in kJ/mol/nm. Lines that begin with # are skipped. The job's core must be at least the first r, and its
cutoff at most the last. Each cubic has the table's values and slopes at both ends of its interval, so neither energy
nor force jumps. Without a third column a slope is that of a parabola through three neighbouring values, which is less
accurate, above all at the first r. An energy of at most 4,096 tokens has room for about 140 intervals (more give `E10`).

All cubics are polynomials of one x, from 0 at the first r to 4 at the last. A position within the interval would jump at
its ends, and `pairmd curve` would bound the jump. With a greater x rounding errors grow, with a smaller one coefficients.

The comment lines estimate the errors of the cubics from neighbouring rows. `pairmd curve` bounds the rounding errors,
tightly with as many `--points` as intervals.
"""
import math
import sys
from fractions import Fraction

SPAN = 4  # x at the last r


def table(path):
    """The first r of a table, the width of its intervals, its energies, and its slopes or None, all exact."""
    with open(path, encoding="ascii") as it:
        rows = [[Fraction(word) for word in line.split()] for line in it if line.strip() and not line.startswith("#")]
    if len(rows) < 5 or {len(row) for row in rows} not in ({2}, {3}):
        sys.exit("a table needs five lines or more, all of two or all of three numbers")
    start, width = rows[0][0], (rows[-1][0] - rows[0][0]) / (len(rows) - 1)
    if any(abs(row[0] - start - at * width) > 1e-6 for at, row in enumerate(rows)):
        sys.exit("the intervals of r aren't equal")
    return start, width, [row[1] for row in rows], [row[2] for row in rows] if len(rows[0]) == 3 else None


def parabolas(values):
    """The derivative at each value, for intervals of 1: of the parabola through it and its neighbours, or at an end
    through the last three values.
    """
    inner = [(after - before) / 2 for before, after in zip(values, values[2:])]
    first = (4 * values[1] - 3 * values[0] - values[2]) / 2
    last = (3 * values[-1] - 4 * values[-2] + values[-3]) / 2
    return [first, *inner, last]


def with_ends(inner):
    """Magnitudes with one more at each end, along the line through the nearest two, but none below the nearest."""
    first, second, *_ = inner
    *_, before, last = inner
    return [max(first, 2 * first - second), *inner, max(last, 2 * last - before)]


def errors_of_parabolas(values):
    """Of each cubic with slopes of parabolas: an estimate of its error, and of its derivative's, for intervals of 1.

    The third difference of four values is the third derivative t. A parabola's slope is off by t/6, at an end by t/3.
    If a cubic's slopes at both ends are off by s, the cubic is off by about s/4 in its middle.
    """
    thirds = with_ends([abs(d - a + 3 * (b - c)) for a, b, c, d in zip(values, values[1:], values[2:], values[3:])])
    rows = [thirds[0] / 3, *((a + b) / 12 for a, b in zip(thirds, thirds[1:])), thirds[-1] / 3]
    return [((a + b) / 8, max(a, b)) for a, b in zip(rows, rows[1:])]


def errors_of_cubics(values, slopes):
    """Of each cubic with exact slopes: an estimate of its error, and of its derivative's, for intervals of 1.

    A cubic through the rows before and after a row misses that row by 16 times the error of a cubic of half its width.
    A cubic that is off by e in its middle has a derivative that is off by up to 16 e / sqrt(27).
    """
    sides = zip(values, values[1:], values[2:], slopes, slopes[2:])
    rows = with_ends([abs((a + b) / 2 + (slope - then) / 4 - middle) / 16 for a, middle, b, slope, then in sides])
    return [(max(ends), 16 / math.sqrt(27) * max(ends)) for ends in zip(rows, rows[1:])]


def numeral(value):
    """The numeral of a magnitude, with 18 digits at most."""
    if abs(value) >= 2**31:
        sys.exit("the table is too steep: begin it at a larger r, where the energy is lower")
    digits = min(12, 18 - len(str(int(abs(value)))))
    whole, rest = divmod(round(abs(value) * 10**digits), 10**digits)
    return f"{whole}.{rest:0{digits}}".rstrip("0").rstrip(".")


def cubic(at, count, ends):
    """The coefficients in powers of x of the cubic of an interval, which is number `at` of `count` from x = 0 to SPAN.
    ends: value and slope at either end, for intervals of 1.
    """
    (value, slope), (then, slope_then) = ends
    rise = then - value
    inner = [value, slope, 3 * rise - 2 * slope - slope_then, slope + slope_then - 2 * rise]  # in powers of x count/SPAN - at
    powers = [(k, range(k, 4)) for k in range(4)]
    return [Fraction(count, SPAN) ** k * sum(inner[power] * math.comb(power, k) * (-at) ** (power - k) for power in of) for k, of in powers]


def formula(coefficients):
    """The formula a + x (b + x (c + x d)), with few tokens: the last summand of each sum has its sign as an operator."""
    a, b, c, d = coefficients
    if d < 0 <= c:
        inner = f"{numeral(c)}-x*{numeral(d)}"
    else:
        inner = f"{'-' if d < 0 else ''}x*{numeral(d)}{signed(c)}"
    return f"x*(x*({inner}){signed(b)}){signed(a)}"


def signed(value):
    return ("-" if value < 0 else "+") + numeral(value)


def chosen(cubics, first, count):
    """The formula that selects one of the cubics, numbered from `first`, by halving. step(x-b) is 1 from the interval on
    that begins at b.
    """
    if len(cubics) == 1:
        return cubics[0]
    half = len(cubics) // 2
    border = numeral(Fraction(SPAN * (first + half), count))
    return f"select(step(x-{border}),{chosen(cubics[half:], first + half, count)},{chosen(cubics[:half], first, count)})"


def main():
    if len(sys.argv) != 2:
        sys.exit("usage: pieces.py TABLE")
    start, width, values, given = table(sys.argv[1])
    slopes = [slope * width for slope in given] if given else parabolas(values)
    ends, count = list(zip(values, slopes)), len(values) - 1
    cubics = [formula(cubic(at, count, both)) for at, both in enumerate(zip(ends, ends[1:]))]
    print(f"energy {chosen(cubics, 0, count)}; x=(r-{numeral(start)})*{numeral(SPAN / (width * count))}")
    errors = errors_of_cubics(values, slopes) if given else errors_of_parabolas(values)
    (energy, slope), at = max((error, at) for at, error in enumerate(errors))
    there = f"{float(start + at * width):.6g} to {float(start + (at + 1) * width):.6g} nm"
    print(f"# estimated errors, greatest from {there}: energy {float(energy):.1e} kJ/mol, slope {float(slope / width):.1e} kJ/mol/nm")
    if not given:
        print("# a third column, with slopes dU/dr, makes both smaller")


if __name__ == "__main__":
    main()
