"""Bounds on the errors of a potential, from docs/BOUNDS.md alone: approximations, operations, derivatives, and rows.

An approximation or a bound that is missing is None. Trees and fixed-point operations are those of the second reading.
"""
from math import isqrt
from typing import Callable, NamedTuple, Optional

import arithmetic
from arithmetic import Fault
from operations import FlatFunction, Function, Operator, function_value, operator_value
from trees import Applied, Binary, Input, Negated, Number, Power, Select, is_free_of_distance, parts_of

FINER = 256  # error units in a unit of 2^-bits
MOST_ERROR = 2**62
MOST_PRODUCT = 2**116
MOST_HALVINGS = 256
NEAR = 1024  # distances to each side of a jump
MOST_DISTANCES = 16  # of a part whose walk is divided at undecided choices
MOST_DIVISIONS = 3  # of a walk
ENERGY, SLOPE = 0, 1


# ---- ranges


class Range(NamedTuple):
    """The integers from low to high."""

    low: int
    high: int


def around(*numbers):
    """The smallest range that has these numbers."""
    return Range(min(numbers), max(numbers))


def hull(x, y):
    return Range(min(x.low, y.low), max(x.high, y.high))


def plus(x, y):
    return Range(x.low + y.low, x.high + y.high)


def less(x, y):
    return Range(x.low - y.high, x.high - y.low)


def negated(x):
    return Range(-x.high, -x.low)


def scaled(x, factor):
    """The range times a positive integer."""
    return Range(x.low * factor, x.high * factor)


def times(x, y):
    return around(x.low * y.low, x.low * y.high, x.high * y.low, x.high * y.high)


def up_over(n, d):
    """The ceiling of n / d."""
    return -(-n // d)


def over(x, y):
    """The quotients, from the least floor to the greatest ceiling."""
    ends = [(n, d) for n in set(x) for d in set(y)]
    return Range(min(n // d for n, d in ends), max(up_over(n, d) for n, d in ends))


def has_zero(x):
    return x.low <= 0 <= x.high


def magnitude(x):
    return max(abs(x.low), abs(x.high))


def ends_and_zero(x):
    """Both ends of a range, and 0 if the range has it."""
    return {x.low, 0, x.high} if has_zero(x) else {x.low, x.high}


# ---- approximations


class Approximation(NamedTuple):
    """The numbers that the program may compute, in units of 2^-bits, and their errors, in error units."""

    computed: Range
    error: Range

    def exact(self):
        """The exact numbers, in error units."""
        return less(scaled(self.computed, FINER), self.error)


def exactly(z):
    return Approximation(Range(z, z), Range(0, 0))


def as_read(c):
    """The approximation of a constant."""
    return Approximation(Range(c.value, c.value), Range(c.low, c.high))


def distances(r):
    """The approximation of the distance in a range."""
    return Approximation(r, Range(-FINER, 0))


def approximated(computed, error):
    """The approximation with these ranges, unless one is missing or an error is too great."""
    if computed is None or error is None or magnitude(error) > MOST_ERROR:
        return None
    return Approximation(computed, error)


def around_results(results):
    """The smallest range that has these results; None if one is a fault."""
    return None if any(isinstance(result, Fault) for result in results) else around(*results)


def lowered(error):
    """The errors after the program rounds down."""
    return Range(error.low - FINER, error.high)


def apart(computed, exact):
    """The errors, if each of these numbers may be computed for each of these exact numbers."""
    return less(scaled(computed, FINER), exact)


# ---- choices


def is_not_zero(x):
    return not has_zero(x.computed) and not has_zero(x.exact())


def is_undecided(x):
    """A choice with this condition needs both of its branches."""
    return x is not None and not is_not_zero(x) and x != exactly(0)


def selected(x, y, z):
    """The approximation of select(x, y, z)."""
    if x is None:
        return None
    if is_not_zero(x):
        return y
    if x == exactly(0):
        return z
    if y is None or z is None:
        return None
    computed = hull(y.computed, z.computed)
    return approximated(computed, apart(computed, hull(y.exact(), z.exact())))


def is_below(x, y):
    return x.computed.high <= y.computed.low and x.exact().high <= y.exact().low


def error_of_one(is_first, is_second, x, y):
    """The errors of the operand that is the result; of both, if it may be either."""
    return x.error if is_first else y.error if is_second else hull(x.error, y.error)


def absolute_error(x):
    if min(x.computed.low, x.exact().low) >= 0:
        return x.error
    if max(x.computed.high, x.exact().high) < 0:
        return negated(x.error)
    return hull(x.error, negated(x.error))


# ---- operations


class Operations:
    """The operations on approximations at a number of fraction bits. Operands may be missing."""

    def __init__(self, bits):
        self.bits = bits
        self.one = 2**bits
        self.scale = FINER * self.one

    def whole(self, n):
        """An integer of the table of derivatives."""
        return exactly(n * self.one)

    # -- two operands

    def on_two(self, operator, x, y):
        """The approximation of an operator's results."""
        if x is None or y is None or (operator is Operator.Divide and has_zero(y.computed)):
            return None
        ends = [(a, b) for a in set(x.computed) for b in set(y.computed)]
        computed = around_results([operator_value(self.bits, operator, a, b) for a, b in ends])
        return None if computed is None else approximated(computed, self.error_of_two(operator, x, y, computed))

    def error_of_two(self, operator, x, y, computed):
        if operator is Operator.Add:
            return plus(x.error, y.error)
        if operator is Operator.Subtract:
            return less(x.error, y.error)
        if operator is Operator.Multiply:
            return self.error_of_product(x, y)
        if operator is Operator.Divide:
            return self.error_of_quotient(x, y, computed)
        if operator is Operator.Minimum:
            return error_of_one(is_below(x, y), is_below(y, x), x, y)
        return error_of_one(is_below(y, x), is_below(x, y), x, y)

    def is_whole(self, x):
        return x.low == x.high and x.low % self.one == 0

    def error_of_product(self, x, y):
        products = ((x.computed, y.error), (y.computed, x.error), (x.error, y.error))
        if any(magnitude(a) * magnitude(b) > MOST_PRODUCT for a, b in products):
            return None
        numerator = plus(scaled(times(x.computed, y.error), FINER), times(y.exact(), x.error))
        error = over(numerator, Range(self.scale, self.scale))
        return error if self.is_whole(x.computed) or self.is_whole(y.computed) else lowered(error)

    def error_of_quotient(self, x, y, computed):
        quotients = Range(computed.low, computed.high + 1)
        if has_zero(y.exact()) or magnitude(quotients) * magnitude(y.error) > MOST_PRODUCT:
            return None
        numerator = less(scaled(x.error, self.one), times(quotients, y.error))
        return lowered(over(scaled(numerator, FINER), y.exact()))

    # -- one operand

    def on_one(self, x, value, error):
        """The approximation of a function's results: `value` computes one, `error` is their errors."""
        if x is None:
            return None
        computed = around_results([value(z) for z in ends_and_zero(x.computed)])
        return None if computed is None else approximated(computed, error(computed))

    def negative(self, x):
        return self.on_one(x, arithmetic.negative_of, lambda computed: negated(x.error))

    def square(self, x):
        return self.on_one(x, lambda z: arithmetic.square_of(self.bits, z), lambda computed: self.error_of_product(x, x))

    def applied(self, function, x):
        def value(z):
            return function_value(self.bits, function, z)

        return self.on_one(x, value, lambda computed: self.error_of_function(function, x, computed))

    def error_of_function(self, function, x, computed):
        if function is Function.SquareRoot:
            return self.error_of_root(x, computed)
        if function is Function.Absolute:
            return absolute_error(x)
        return apart(computed, around(*(self.flat(function, n) for n in ends_and_zero(x.exact()))))

    def flat(self, function, n):
        """The exact value of a flat function at an exact number; both are in error units."""
        if function is FlatFunction.Step:
            return self.scale if n >= 0 else 0
        if function is FlatFunction.Delta:
            return self.scale if n == 0 else 0
        if function is FlatFunction.Floor:
            return n // self.scale * self.scale
        assert function is FlatFunction.Ceiling
        return up_over(n, self.scale) * self.scale

    def error_of_root(self, x, computed):
        least = max(0, x.exact().low)
        roots = computed.low + isqrt(least * self.one // FINER)
        return lowered(Range(-self.spread(-x.error.low, roots), self.spread(x.error.high, roots)))

    def spread(self, error, roots):
        """The greatest distance of two roots whose squares are apart by at most an error."""
        error = max(0, error)
        spread = isqrt(self.scale * error) + 1
        return spread if roots == 0 else min(spread, up_over(self.one * error, roots))

    def power(self, x, n):
        if n < 0:
            return self.on_two(Operator.Divide, self.whole(1), self.power(x, -n))
        if n == 1:
            return x
        even = self.square(self.power(x, n // 2))
        return even if n % 2 == 0 else self.on_two(Operator.Multiply, even, x)


class Slopes(Operations):
    """The table of derivatives, in these operations: `u` and `v` are values, `du` and `dv` their derivatives."""

    def product(self, x, y):
        return self.on_two(Operator.Multiply, x, y)

    def quotient(self, x, y):
        return self.on_two(Operator.Divide, x, y)

    def slope_of_product(self, free_u, free_v, u, v, du, dv):
        if free_u:
            return self.product(u, dv)
        if free_v:
            return self.product(du, v)
        return self.on_two(Operator.Add, self.product(du, v), self.product(u, dv))

    def slope_of_quotient(self, free_u, free_v, u, v, du, dv):
        if free_v:
            return self.quotient(du, v)
        if free_u:
            return self.quotient(self.negative(self.product(u, dv)), self.square(v))
        difference = self.on_two(Operator.Subtract, self.product(du, v), self.product(u, dv))
        return self.quotient(difference, self.square(v))

    def slope_of_two(self, operator, free_u, free_v, u, v, du, dv):
        if operator in (Operator.Add, Operator.Subtract):
            return self.on_two(operator, du, dv)
        if operator is Operator.Multiply:
            return self.slope_of_product(free_u, free_v, u, v, du, dv)
        if operator is Operator.Divide:
            return self.slope_of_quotient(free_u, free_v, u, v, du, dv)
        return selected(self.condition_of_two(operator, u, v), du, dv)

    def condition_of_two(self, operator, u, v):
        """The condition of a minimum or a maximum: not 0 if u is the result, 0 if v is."""
        first, second = (v, u) if operator is Operator.Minimum else (u, v)
        return self.applied(FlatFunction.Step, self.on_two(Operator.Subtract, first, second))

    def slope_of_function(self, function, u, du):
        if function is Function.SquareRoot:
            return self.quotient(du, self.product(self.whole(2), self.applied(function, u)))
        if function is Function.Absolute:
            return selected(self.applied(FlatFunction.Step, u), du, self.negative(du))
        return self.whole(0)

    def slope_of_power(self, u, n, du):
        if n == 1:
            return du
        if n > 0:
            return self.product(self.product(self.whole(n), self.power(u, n - 1)), du)
        return self.negative(self.quotient(self.product(self.whole(-n), du), self.power(u, 1 - n)))


# ---- formulas


class Part(NamedTuple):
    """The approximations of a part's value and of its derivative."""

    value: Optional[Approximation]
    slope: Optional[Approximation]


class Step(NamedTuple):
    """How a part is approximated: the numbers of its own parts, and functions of them. The choice gives the condition and
    both branches; it is None if the part is no choice, or is free of the distance.
    """

    numbers: list
    value: Callable
    slope: Callable
    choice: Optional[Callable]


class Walk:
    """The parts that were approximated, and at how many choices the walk may still divide."""

    def __init__(self, known, left):
        self.known, self.left = known, left

    def with_branch(self, part):
        """The walk that goes on with this branch of a choice."""
        return Walk([*self.known, part], self.left - 1)


class Formula:
    """The parts of an energy in the order in which they are approximated: the definitions from the last to the first, then
    the formula. A definition is one part, wherever it is used. The trees of the definitions are those in the formula's.
    """

    def __init__(self, bits, tree, definitions):
        self.on = Slopes(bits)
        self.numbers = {}  # of parts, by the identities of their trees
        self.steps = []
        for it in reversed(definitions):
            self.append(it)
        self.whole = self.append(tree)
        self.trees = (tree, definitions)  # keeps the identities

    def append(self, tree):
        """Appends a part, after its own parts. The result is its number."""
        if id(tree) not in self.numbers:
            parts = [self.append(part) for part in parts_of(tree)]
            self.steps.append(Step(parts, self.value_of(tree), self.slope_of(tree), self.choice_of(tree)))
            self.numbers[id(tree)] = len(self.steps) - 1
        return self.numbers[id(tree)]

    def value_of(self, tree):
        """The value of a part, as a function of the inputs and of its parts."""
        on = self.on
        if isinstance(tree, Number):
            return lambda inputs: as_read(tree.value)
        if isinstance(tree, Input):
            return lambda inputs: inputs[tree.number]
        if isinstance(tree, Negated):
            return lambda inputs, u: on.negative(u.value)
        if isinstance(tree, Binary):
            return lambda inputs, u, v: on.on_two(tree.operator, u.value, v.value)
        if isinstance(tree, Applied):
            return lambda inputs, u: on.applied(tree.function, u.value)
        if isinstance(tree, Power):
            return lambda inputs, u: on.power(u.value, tree.exponent)
        return lambda inputs, x, u, v: selected(x.value, u.value, v.value)

    def slope_of(self, tree):
        """The derivative of a part, as a function of its parts."""
        on = self.on
        if is_free_of_distance(tree):
            return lambda *parts: on.whole(0)
        if isinstance(tree, Input):
            return lambda: on.whole(1)
        if isinstance(tree, Negated):
            return lambda u: on.negative(u.slope)
        if isinstance(tree, Binary):
            free = [is_free_of_distance(part) for part in parts_of(tree)]
            return lambda u, v: on.slope_of_two(tree.operator, *free, u.value, v.value, u.slope, v.slope)
        if isinstance(tree, Applied):
            return lambda u: on.slope_of_function(tree.function, u.value, u.slope)
        if isinstance(tree, Power):
            return lambda u: on.slope_of_power(u.value, tree.exponent, u.slope)
        return lambda x, u, v: selected(x.value, u.slope, v.slope)

    def choice_of(self, tree):
        """The condition and the branches of a choice, as a function of its parts."""
        on = self.on
        if is_free_of_distance(tree):
            return None
        if isinstance(tree, Select):
            return lambda x, u, v: (x.value, u, v)
        if isinstance(tree, Binary) and tree.operator in (Operator.Minimum, Operator.Maximum):
            return lambda u, v: (on.condition_of_two(tree.operator, u.value, v.value), u, v)
        if isinstance(tree, Applied) and tree.function is Function.Absolute:
            return lambda u: (
                None if on.applied(tree.function, u.value) is None else on.applied(FlatFunction.Step, u.value),
                u,
                Part(on.negative(u.value), on.negative(u.slope)),
            )
        return None

    def after(self, step, walk, inputs):
        """The walks after a step of a walk: two, if it divides."""
        parts = [walk.known[number] for number in step.numbers]
        if step.choice is not None and walk.left > 0:
            condition, *branches = step.choice(*parts)
            if is_undecided(condition):
                return [walk.with_branch(branch) for branch in branches]
        walk.known.append(Part(step.value(inputs, *parts), step.slope(*parts)))
        return [walk]

    def approximations(self, inputs, divisions):
        """The approximations of the formula: one for each walk, each of which divides at most so often."""
        walks = [Walk([], divisions)]
        for step in self.steps:
            walks = [after for walk in walks for after in self.after(step, walk, inputs)]
        return [walk.known[self.whole] for walk in walks]

    def bounds(self, others, r):
        """The bounds of a range of distances, of the energy and of the slope. `others` approximates the other inputs."""
        inputs = [distances(r), *others]
        [plain] = self.approximations(inputs, 0)
        found = [None if it is None else magnitude(it.error) for it in plain]
        if r.high - r.low >= MOST_DISTANCES:
            return found
        divided = self.approximations(inputs, MOST_DIVISIONS)
        if len(divided) == 1:
            return found
        return [lesser(bound, joined_bound([part[quantity] for part in divided])) for quantity, bound in enumerate(found)]

    def change(self, others, z):
        """The most that this formula changes from a distance to one unit above it, in error units."""
        [part] = self.approximations([distances(Range(z, z)), *others], 0)
        if part.slope is None:
            return None
        return up_over(FINER * magnitude(part.slope.computed) + magnitude(part.slope.error), self.on.one)


def joined_bound(approximations):
    """The bound, if each of these numbers may be computed for each of these exact numbers."""
    if None in approximations:
        return None
    computed = around(*(end for it in approximations for end in it.computed))
    exact = around(*(end for it in approximations for end in it.exact()))
    bound = magnitude(apart(computed, exact))
    return bound if bound <= MOST_ERROR else None


def lesser(x, y):
    """The lesser of two bounds, or the one that isn't missing."""
    return x if y is None else y if x is None else min(x, y)


# ---- rows


def greatest(bounds):
    """The greatest of some bounds; None if one is missing."""
    return None if None in bounds else max(bounds)


class Row:
    """A range of distances, cut into parts: their ranges in order, their bounds, and the bounds at tried distances."""

    def __init__(self, formula, others, r):
        self.formula, self.others = formula, others
        self.ranges = [r]
        self.parts = [self.bounds(r)]
        self.tried = [self.bounds(Range(end, end)) for end in r]

    def bounds(self, r):
        return self.formula.bounds(self.others, r)

    def bound(self, quantity):
        """The greatest bound of the parts."""
        return greatest([part[quantity] for part in self.parts])

    def worst(self, quantity):
        """The number of the first part with the greatest bound, or without a bound if there is such a part."""
        return [part[quantity] for part in self.parts].index(self.bound(quantity))

    def is_local(self, piece, quantity, whole):
        """The bound of a piece of a part is above four times those 1024 distances to both sides, in the range `whole`."""
        ends = max(whole.low, piece.low - NEAR), min(whole.high, piece.high + NEAR)
        beside = greatest([self.bounds(Range(z, z))[quantity] for z in ends])
        bound = self.bounds(piece)[quantity]
        return None not in (bound, beside) and bound > 4 * beside

    def jumps(self, quantity, whole):
        """The quantity's bound is a jump: one of the pieces at the ends of its worst part has a local bound."""
        r = self.ranges[self.worst(quantity)]
        low = Range(r.low, min(r.high, r.low + MOST_DISTANCES - 1))
        high = Range(max(r.low, r.high - MOST_DISTANCES + 1), r.high)
        return any(self.is_local(piece, quantity, whole) for piece in (low, high))

    def is_close(self, quantity):
        bound, tried = self.bound(quantity), greatest([at[quantity] for at in self.tried])
        return tried is None or (bound is not None and bound // 17 <= tried // 16)

    def is_done(self, quantity):
        r = self.ranges[self.worst(quantity)]
        return r.low == r.high or self.is_close(quantity)

    def halve(self, number):
        """Halves the part with this number, and tries the last distance of its lower half."""
        r = self.ranges[number]
        middle = (r.low + r.high) // 2
        halves = [Range(r.low, middle), Range(middle + 1, r.high)]
        self.ranges[number : number + 1] = halves
        self.parts[number : number + 1] = map(self.bounds, halves)
        self.tried.append(self.bounds(Range(middle, middle)))

    def halve_all(self):
        """Makes all halvings."""
        for halvings in range(MOST_HALVINGS):
            turns = (ENERGY, SLOPE) if halvings % 2 == 0 else (SLOPE, ENERGY)
            left = [quantity for quantity in turns if not self.is_done(quantity)]
            if not left:
                return
            self.halve(self.worst(left[0]))


def halved_row(formula, others, r):
    """A row with this range, after all halvings."""
    row = Row(formula, others, r)
    row.halve_all()
    return row
