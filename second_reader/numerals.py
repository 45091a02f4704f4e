"""Numerals, their fixed-point numbers and the errors of these: fixed/specs/Numerals and Constants."""
from dataclasses import dataclass
from enum import Enum
from typing import Optional

from arithmetic import floor_over, in_range, nearest_of
from library import all_ascii_digits, digits_value, is_ascii_digit, prefix_len


class NumFault(Enum):
    """fixed/specs/declared/faults/NumFault: NumFault, the reason why a text is read as no number."""

    BadNumber = "malformed"
    NumberRange = "out of range"


@dataclass(frozen=True)
class Exponent:
    """fixed/specs/Numerals: Exponent and Sign, a letter, an optional sign (`+`, `-` or no byte), and digits."""

    letter: bytes
    sign: bytes
    digits: bytes


@dataclass(frozen=True)
class Numeral:
    """fixed/specs/Numerals: Numeral and Fraction. The fraction is the digits after a point, or None without a point;
    the exponent is None if there is none.
    """

    whole: bytes
    fraction: Optional[bytes]
    exponent: Optional[Exponent]


def fraction_digits(fraction):
    """fixed/specs/Numerals: fraction_digits"""
    return b"" if fraction is None else fraction


def exponent_digits(exponent):
    """fixed/specs/Numerals: exponent_digits"""
    return b"" if exponent is None else exponent.digits


def fraction_text(fraction):
    """fixed/specs/Numerals: fraction_text"""
    return b"" if fraction is None else b"." + fraction


def exponent_text(exponent):
    """fixed/specs/Numerals: exponent_text and sign_text"""
    return b"" if exponent is None else exponent.letter + exponent.sign + exponent.digits


def numeral_text(n):
    """fixed/specs/Numerals: numeral_text"""
    return n.whole + fraction_text(n.fraction) + exponent_text(n.exponent)


def is_exponent(exponent):
    """fixed/specs/Numerals: IsExponent and is_letter, an exponent part has a digit after an `e` or `E`."""
    if exponent is None:
        return True
    return exponent.letter in (b"e", b"E") and all_ascii_digits(exponent.digits) and len(exponent.digits) > 0


def is_form(n):
    """fixed/specs/Numerals: IsForm"""
    return all_ascii_digits(n.whole) and all_ascii_digits(fraction_digits(n.fraction)) and is_exponent(n.exponent)


def digit_count(n):
    """fixed/specs/Numerals: digit_count, the number of digits before the exponent part."""
    return len(n.whole) + len(fraction_digits(n.fraction))


def is_numeral(n):
    """fixed/specs/Numerals: IsNumeral, 1 to 18 digits before the exponent part, and an exponent of at most 99."""
    return is_form(n) and 0 < digit_count(n) <= 18 and digits_value(exponent_digits(n.exponent)) <= 99


# ---- the value


def mantissa_of(n):
    """fixed/specs/Numerals: mantissa_of"""
    return digits_value(n.whole + fraction_digits(n.fraction))


def exponent_value(exponent):
    """fixed/specs/Numerals: exponent_value and signed"""
    if exponent is None:
        return 0
    value = digits_value(exponent.digits)
    return -value if exponent.sign == b"-" else value


def power_of_ten(n):
    """fixed/specs/Numerals: power_of_ten"""
    return exponent_value(n.exponent) - len(fraction_digits(n.fraction))


def nearest_fixed(bits, mantissa, power):
    """fixed/specs/Numerals: nearest_fixed, the integer nearest to m 10^p 2^bits, halves upward."""
    if power >= 0:
        return mantissa * 2**bits * 10**power
    return nearest_of(mantissa * 2**bits, 10**-power)


@dataclass(frozen=True)
class Constant:
    """fixed/specs/declared/constants/Constant: Constant; fixed/specs/Constants: constant. A number as it was read, and its
    error rounded down and up: the number less the decimal, in units of 2^-(bits + 8).
    """

    value: int
    low: int
    high: int


def exactly(z):
    """fixed/specs/Constants: exactly, a number without an error."""
    return Constant(z, 0, 0)


def negated(c):
    """fixed/specs/Constants: negated"""
    return Constant(-c.value, -c.high, -c.low)


def error_times(bits, mantissa, places, z):
    """fixed/specs/Constants: error_times and error, the error of z for the decimal m / 10^k, times 10^k."""
    return 256 * (z * 10**places - mantissa * 2**bits)


def constant_of(bits, mantissa, power):
    """fixed/specs/Constants: IsConstantOf; fixed/specs/Rounding: IsFloor. The decimal m 10^p as it is read."""
    z = nearest_fixed(bits, mantissa, power)
    if power >= 0:
        return exactly(z)
    error = error_times(bits, mantissa, -power, z)
    return Constant(z, floor_over(error, 10**-power), -floor_over(-error, 10**-power))


def value_of(bits, n):
    """fixed/specs/Numerals: value_of, fixed_of and number_or_range, with the error of reading."""
    c = constant_of(bits, mantissa_of(n), power_of_ten(n))
    return c if in_range(c.value) else NumFault.NumberRange


# ---- a text that is a numeral


def front_digits(text):
    """The digits at the front of a text."""
    return text[: prefix_len(is_ascii_digit, text)]


def numeral_of(text):
    """The numeral whose text this is, or None: the n with IsNumeral n and numeral_text n = text.

    There is at most one, as the bytes determine the parts of a form. The parts are taken from the left, and the
    definitions then decide whether they are a numeral.
    """
    whole = front_digits(text)
    rest = text[len(whole) :]
    fraction = None
    if rest[:1] == b".":
        fraction = front_digits(rest[1:])
        rest = rest[1 + len(fraction) :]
    exponent = None
    if rest:
        sign = rest[1:2] if rest[1:2] in (b"+", b"-") else b""
        exponent = Exponent(rest[:1], sign, rest[1 + len(sign) :])
    n = Numeral(whole, fraction, exponent)
    return n if is_numeral(n) and numeral_text(n) == text else None


# ---- the end of a numeral at the front of a text


def writes_exponent(text):
    """fixed/specs/Numerals: writes_exponent, after_sign and begins_digit: the text begins with a digit, or with a sign
    and a digit.
    """
    digits = text[1:] if text[:1] in (b"+", b"-") else text
    return len(digits) > 0 and is_ascii_digit(digits[0])


def lengthens(pointed, lettered, rest):
    """fixed/specs/Numerals: lengthens. The rest would make the numeral longer, with a digit, its first point, or an
    exponent part.
    """
    if not rest:
        return False
    if is_ascii_digit(rest[0]):
        return True
    if rest[:1] == b".":
        return not pointed and not lettered
    return rest[:1] in (b"e", b"E") and not lettered and writes_exponent(rest[1:])


def spoils(pointed, rest):
    """fixed/specs/Numerals: spoils. The rest makes the numeral malformed, with a second point, or with an exponent's
    letter without digits.
    """
    if rest[:1] == b".":
        return pointed
    return rest[:1] in (b"e", b"E") and not writes_exponent(rest[1:])


def ends_before(n, rest):
    """fixed/specs/Numerals: EndsBefore, has_point and has_exponent. The numeral ends before the rest."""
    pointed = n.fraction is not None
    lettered = n.exponent is not None
    return not lengthens(pointed, lettered, rest) and not spoils(pointed, rest)
