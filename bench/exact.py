"""Energies of jobs over exact numbers, in decimals; a module of curves.py.

The second reading of jobs (second_reader/) gives the tree of an energy and its numbers as the program reads them. Here
each number also keeps the numeral that the job has, and the tree becomes functions of the distance. The caller sets the
number of digits (decimal.getcontext).
"""
import operator
import os
import sys
from dataclasses import dataclass
from decimal import ROUND_CEILING, ROUND_FLOOR, Decimal

ROOT = os.path.dirname(os.path.dirname(os.path.realpath(__file__)))
sys.path.insert(1, f"{ROOT}/second_reader")
import job_lines  # noqa: E402
import numerals  # noqa: E402
from operations import FlatFunction, Function, Operator  # noqa: E402
from trees import Applied, Binary, Input, Negated, Number, Power, is_free_of_distance, remembered  # noqa: E402

# ---- numbers as they are written


@dataclass(frozen=True)
class Written(numerals.Constant):
    """A number as the program reads it, with its error of reading, and as it is written."""

    written: Decimal


def keep_numerals():
    """From here on the second reading keeps numerals."""
    constant_of, negated = numerals.constant_of, numerals.negated

    def kept(bits, mantissa, power):
        c = constant_of(bits, mantissa, power)
        return Written(c.value, c.low, c.high, Decimal(mantissa).scaleb(power))

    def kept_negated(c):
        opposite = negated(c)
        return Written(opposite.value, opposite.low, opposite.high, -c.written)

    numerals.constant_of = kept
    job_lines.negated = kept_negated


# ---- formulas as functions of the distance


def constant(number):
    return lambda r: number


ZERO = constant(Decimal(0))


def once(f):
    """The function, which keeps its last result: it runs once for each distance."""
    at = result = None

    def kept(r):
        nonlocal at, result
        if r is not at:
            at, result = r, f(r)
        return result

    return kept


def sign(x):
    return (x > 0) - (x < 0)


def floor(x):
    return x.to_integral_value(rounding=ROUND_FLOOR)


def ceiling(x):
    return x.to_integral_value(rounding=ROUND_CEILING)


ARITHMETIC = {
    Operator.Add: operator.add,
    Operator.Subtract: operator.sub,
    Operator.Multiply: operator.mul,
    Operator.Divide: operator.truediv,
}
# What decides the value of a function, and the value.
DECIDED = {
    Function.Absolute: (sign, abs),
    FlatFunction.Step: (lambda x: x >= 0, lambda x: Decimal(x >= 0)),
    FlatFunction.Delta: (sign, lambda x: Decimal(x == 0)),
    FlatFunction.Floor: (floor, floor),
    FlatFunction.Ceiling: (ceiling, ceiling),
}


class Formula:
    """An energy over exact numbers: `energy` and `slope` are functions of the distance. They raise ArithmeticError if
    there is no value. The inputs are the numbers of the energy's variables; the distance is the first.
    """

    def __init__(self, tree, inputs):
        self.inputs = inputs
        self.decided = []
        self.value_of = remembered(self.new_value)
        self.slope_of = remembered(self.new_slope)
        self.energy, self.slope = self.value_of(tree), self.slope_of(tree)

    def outcomes(self, r):
        """What comparisons and roundings decide at a distance, for the energy."""
        self.decided.clear()
        try:
            self.energy(r)
        except ArithmeticError:
            pass
        return tuple(self.decided)

    def new_value(self, tree):
        """The value of a part as a function; a part without the distance is computed here, if it has a value."""
        value = self.computed(tree)
        if not is_free_of_distance(tree):
            return once(value)
        try:
            return constant(value(None))
        except ArithmeticError:
            return value

    def computed(self, tree):
        if isinstance(tree, Number):
            return constant(tree.value.written)
        if isinstance(tree, Input):
            n = tree.number
            return (lambda r: r) if n == 0 else constant(self.inputs[n].written)
        if isinstance(tree, Negated):
            a = self.value_of(tree.a)
            return lambda r: -a(r)
        if isinstance(tree, Binary):
            return self.binary(tree.operator, self.value_of(tree.a), self.value_of(tree.b))
        if isinstance(tree, Applied):
            return self.applied(tree.function, self.value_of(tree.a))
        if isinstance(tree, Power):
            return power(self.value_of(tree.a), tree.exponent)
        return self.chosen(self.value_of(tree.x), lambda x: x != 0, self.value_of(tree.a), self.value_of(tree.b))

    def binary(self, which, a, b):
        if which in ARITHMETIC:
            result = ARITHMETIC[which]
            return lambda r: result(a(r), b(r))
        first, second = (a, b) if which is Operator.Minimum else (b, a)
        return self.chosen(lambda r: second(r) - first(r), lambda x: x >= 0, a, b)

    def applied(self, function, a):
        if function is Function.SquareRoot:
            return lambda r: a(r).sqrt()
        outcome, result = DECIDED[function]

        def value(r):
            x = a(r)
            self.decided.append(outcome(x))
            return result(x)

        return value

    def chosen(self, x, test, a, b):
        """The value of `a` if `x` passes a test, else of `b`; only that one is computed."""

        def value(r):
            by = x(r)
            self.decided.append(sign(by))
            return a(r) if test(by) else b(r)

        return value

    # -- the slope, by the rules of dual numbers; `du` is the slope of `u`

    def new_slope(self, tree):
        """The slope of a part as a function; it is 0 without the distance."""
        if is_free_of_distance(tree):
            return ZERO
        if isinstance(tree, Input):
            return constant(Decimal(1))
        return once(self.derived(tree))

    def derived(self, tree):
        if isinstance(tree, Negated):
            du = self.slope_of(tree.a)
            return lambda r: -du(r)
        if isinstance(tree, Binary):
            parts = (tree.a, tree.b)
            return self.binary_slope(tree.operator, *map(self.value_of, parts), *map(self.slope_of, parts))
        if isinstance(tree, Applied):
            return self.applied_slope(tree.function, self.value_of(tree.a), self.slope_of(tree.a))
        if isinstance(tree, Power):
            return power_slope(self.value_of(tree.a), tree.exponent, self.slope_of(tree.a))
        return self.chosen(self.value_of(tree.x), lambda x: x != 0, self.slope_of(tree.a), self.slope_of(tree.b))

    def binary_slope(self, which, u, v, du, dv):
        if which in (Operator.Add, Operator.Subtract):
            result = ARITHMETIC[which]
            return lambda r: result(du(r), dv(r))
        if which is Operator.Multiply:
            return product_slope(u, v, du, dv)
        if which is Operator.Divide:
            return quotient_slope(u, v, du, dv)
        first, second = (u, v) if which is Operator.Minimum else (v, u)
        return self.chosen(lambda r: second(r) - first(r), lambda x: x >= 0, du, dv)

    def applied_slope(self, function, u, du):
        if function is Function.SquareRoot:
            return lambda r: du(r) / (2 * u(r).sqrt())
        if function is Function.Absolute:
            return self.chosen(u, lambda x: x >= 0, du, lambda r: -du(r))
        return ZERO


def power(a, n):
    if n > 0:
        return lambda r: a(r) ** n
    return lambda r: 1 / a(r) ** -n


def product_slope(u, v, du, dv):
    if du is ZERO:
        return lambda r: u(r) * dv(r)
    if dv is ZERO:
        return lambda r: du(r) * v(r)
    return lambda r: du(r) * v(r) + u(r) * dv(r)


def quotient_slope(u, v, du, dv):
    if dv is ZERO:
        return lambda r: du(r) / v(r)
    return lambda r: (du(r) - u(r) / v(r) * dv(r)) / v(r)


def power_slope(u, n, du):
    if n == 1:
        return du
    if n > 0:
        return lambda r: n * u(r) ** (n - 1) * du(r)
    return lambda r: n * du(r) / u(r) ** (1 - n)
