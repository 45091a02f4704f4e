"""Fixed-point arithmetic: fixed/specs/Fractions, Arithmetic, Rounding and Roots.

A number is an integer z from -2^63 to 2^63 - 1, and represents z / 2^bits. Each operation returns a number, or the
fault because of which there is none.
"""
from enum import Enum
from math import isqrt


class Frac(Enum):
    """fixed/specs/declared/frac/Frac: Frac, the number of bits after the point."""

    F24 = 24
    F32 = 32
    F40 = 40


class Fault(Enum):
    """fixed/specs/declared/faults/Fault: Fault, the reason why an operation has no value."""

    Overflow = "F1"
    ZeroDivisor = "F2"
    NegativeRoot = "F3"


def bits_of(frac):
    """fixed/specs/Fractions: bits_of"""
    return frac.value


# ---- ranges and rounding


def in_range(z):
    """fixed/specs/Arithmetic: in_range"""
    return -(2**63) <= z <= 2**63 - 1


def number_or_overflow(z):
    """fixed/specs/Arithmetic: number_or_overflow"""
    return z if in_range(z) else Fault.Overflow


def then_apply(result, operation):
    """fixed/specs/Arithmetic: then_apply, an operation on the result of another; a fault stays."""
    return result if isinstance(result, Fault) else operation(result)


def floor_over(n, d):
    """fixed/specs/Arithmetic: floor_over, the floor of n / d for positive d, as in Python."""
    return n // d


def floor_of(n, d):
    """fixed/specs/Arithmetic: floor_of, the floor of n / d for any d except 0."""
    return floor_over(n, d) if d > 0 else floor_over(-n, -d)


def nearest_of(a, b):
    """fixed/specs/Rounding: nearest_of, the integer nearest to a / b for positive b, halves upward."""
    return floor_of(2 * a + b, 2 * b)


def root(n):
    """fixed/specs/Roots: root, the greatest integer whose square is at most n (IsSquareRoot)."""
    return isqrt(n)


# ---- the operations


def one(bits):
    """fixed/specs/Arithmetic: one"""
    return 2**bits


def sum_of(a, b):
    """fixed/specs/Arithmetic: sum_of"""
    return number_or_overflow(a + b)


def difference_of(a, b):
    """fixed/specs/Arithmetic: difference_of"""
    return number_or_overflow(a - b)


def negative_of(a):
    """fixed/specs/Arithmetic: negative_of"""
    return number_or_overflow(-a)


def absolute_of(a):
    """fixed/specs/Arithmetic: absolute_of"""
    return number_or_overflow(abs(a))


def product_of(bits, a, b):
    """fixed/specs/Arithmetic: product_of"""
    return number_or_overflow(floor_over(a * b, 2**bits))


def square_of(bits, a):
    """fixed/specs/Arithmetic: square_of"""
    return product_of(bits, a, a)


def quotient_of(bits, a, b):
    """fixed/specs/Arithmetic: quotient_of and is_zero"""
    if b == 0:
        return Fault.ZeroDivisor
    return number_or_overflow(floor_of(a * one(bits), b))


def square_root_of(bits, a):
    """fixed/specs/Arithmetic: square_root_of"""
    if a < 0:
        return Fault.NegativeRoot
    return number_or_overflow(root(a * 2**bits))


def step_of(bits, a):
    """fixed/specs/Arithmetic: step_of, 0 for negative numbers, else one."""
    return one(bits) if a >= 0 else 0


def delta_of(bits, a):
    """fixed/specs/Arithmetic: delta_of, one at 0, else 0."""
    return one(bits) if a == 0 else 0


def whole_of(bits, a):
    """fixed/specs/Arithmetic: whole_of, the greatest multiple of one that is at most a."""
    return floor_over(a, 2**bits) * one(bits)


def ceiling_of(bits, a):
    """fixed/specs/Arithmetic: ceiling_of, the least multiple of one that is at least a."""
    return number_or_overflow(-whole_of(bits, -a))


def power_of(bits, x, n):
    """fixed/specs/Arithmetic: power_of and power_within, for n of at least 1, by squaring: x for 1, the square of the
    power k for 2k, and the product of the power 2k and x for 2k + 1.
    """
    if n <= 1:
        return x
    even = then_apply(power_of(bits, x, n // 2), lambda y: square_of(bits, y))
    if n % 2 == 0:
        return even
    return then_apply(even, lambda y: product_of(bits, y, x))


def signed_power_of(bits, x, n):
    """fixed/specs/Arithmetic: signed_power_of, for n except 0; a negative power is the reciprocal."""
    if n > 0:
        return power_of(bits, x, n)
    return then_apply(power_of(bits, x, -n), lambda y: quotient_of(bits, one(bits), y))
