"""Units of pairmd's files, exact numbers in them, and decimals.

Files have lengths in nm, times in fs, masses in u and energies in kJ/mol. The module uses ps for times and nm/ps for
velocities, since 1 kJ/mol = 1 u nm^2/ps^2. A grid coordinate x along a side of L nm means x L / PLACES.
"""

from __future__ import annotations

import re
from decimal import Decimal, InvalidOperation
from fractions import Fraction
from typing import Any, Union

PLACES = 1 << 32
"""Grid units along each side of the box."""
HALF = PLACES >> 1
SIDE_UNITS = 100_000
"""Sides of the box are in nm over this number."""
ANGSTROM = 10
"""Angstrom in a nm."""
MASS_UNITS = 100_000
"""Exact masses are in u over this number."""
BOLTZMANN = Fraction("0.00831446261815324")
"""Boltzmann's constant in kJ/mol/K (SI 2019)."""
BAR = Fraction(10**10, 602_214_076)
"""1 kJ/mol/nm^3 in bar."""
BITS = (24, 32, 40)
"""Numbers of fraction bits that a job may have."""

Three = tuple[int, int, int]
"""Three integers, along x, y and z."""
Exact = Union[int, float, str, Decimal, Fraction]
"""A number that `exact` accepts."""


def exact(number: Exact) -> Fraction:
    """Returns a number as a fraction; a float as the decimal that Python prints for it, so 0.34 is 34/100. Raises
    ValueError for a text that is no number, for infinity, and for an exponent of more than three digits.
    """
    text = float.__repr__(number) if isinstance(number, float) else number
    is_far = abs(text.adjusted()) > 999 if isinstance(text, Decimal) else re.search(r"[eE][+-]?0*[1-9][0-9_]{3}", str(text))
    if is_far:
        raise ValueError(f"{number} is out of range: an exponent has at most three digits")
    try:
        return Fraction(text)
    except (ValueError, OverflowError, ZeroDivisionError):
        raise ValueError(f"{number} isn't a number") from None


def decimal(number: Exact) -> Decimal:
    """Returns a number as a decimal, exactly; a float as the decimal that Python prints for it. Raises ValueError if the
    number has no decimal, such as 1/3 or infinity.
    """
    text = float.__repr__(number) if isinstance(number, float) else number
    try:
        made = Decimal(text.numerator) / Decimal(text.denominator) if isinstance(text, Fraction) else Decimal(text)
    except InvalidOperation:
        raise ValueError(f"{number} isn't a number") from None
    if not made.is_finite() or isinstance(text, Fraction) and Fraction(made) != text:
        raise ValueError(f"{number} isn't a decimal")
    return made


def integer(number: Any, name: str) -> int:
    """Returns an integral number, such as 1000 or 1e3, as an integer. Raises ValueError, with the number's name, if it
    isn't integral.
    """
    try:
        whole = int(number)
    except (TypeError, ValueError, OverflowError):
        whole = None
    if whole is None or isinstance(number, str) or whole != number:
        raise ValueError(f"{name} must be an integer, and {number!r} isn't one")
    return whole


def move(before: int, after: int) -> int:
    """Returns the displacement from one grid coordinate to another in grid units: the shorter way round the ring, from
    -2^31 to 2^31 - 1. It is exact if the atom moved less than half a side.
    """
    return (after - before + HALF) % PLACES - HALF


def moves(before: Three, after: Three) -> Three:
    """Returns the displacement along x, y and z in grid units; see `move`."""
    (a, b, c), (x, y, z) = before, after
    return (x - a + HALF) % PLACES - HALF, (y - b + HALF) % PLACES - HALF, (z - c + HALF) % PLACES - HALF


def nearest(dividend: int, divisor: int) -> int:
    """Returns the integer nearest to a quotient; halves are rounded up. The divisor is positive."""
    return (2 * dividend + divisor) // (2 * divisor)


def rounded(number: Fraction) -> int:
    """Returns the integer nearest to a fraction; halves are rounded up."""
    return nearest(number.numerator, number.denominator)


def decimal_text(number: int, digits: int, width: int = 0) -> str:
    """Returns an integer, in units of 10^-digits, as a decimal with this many digits after the point."""
    whole, rest = divmod(abs(number), 10**digits)
    return f"{'-' if number < 0 else ''}{whole}.{rest:0{digits}}".rjust(width)


def decimal_of(number: Fraction, digits: int) -> str:
    """Returns the decimal with this many digits that is nearest to a fraction; halves are rounded up."""
    return decimal_text(rounded(number * 10**digits), digits)
