"""The lines of a job and their values: job/specs/Words, Forms, Values and JobLines."""
from dataclasses import dataclass
from enum import Enum
from typing import Any, Tuple

from arithmetic import Frac, bits_of
from library import all_ascii_digits, digits_value
from numerals import Constant, NumFault, negated, numeral_of, value_of
from texts import after_word, is_identifier, without_blanks, words

# ---- lines

# job/specs/JobLines: header, the first line.
HEADER = b"pairmd job 1"


def without_return(line):
    """job/specs/Words: without_return. One carriage return at the end of a line belongs to its line feed."""
    return line[:-1] if line[-1:] == b"\r" else line


def lines_of(text):
    """job/specs/Words: lines_of and bare_lines. The last part has no line feed, and keeps its carriage return."""
    parts = text.split(b"\n")
    return [without_return(line) for line in parts[:-1]] + parts[-1:]


# ---- numbers: a word writes at most one number; None if it writes none


def number(frac, word):
    """job/specs/JobLines: IsNumber. The whole word is a numeral, and its value, rounded to these fraction bits, is
    below 2^63.
    """
    c = constant(frac, word)
    return None if c is None else c.value


def constant(frac, word):
    """job/specs/JobLines: IsConstant. The whole word is a numeral, whose number is below 2^63, with its error."""
    n = numeral_of(word)
    c = None if n is None else value_of(bits_of(frac), n)
    return None if c is NumFault.NumberRange else c


def signed_constant(frac, word):
    """job/specs/JobLines: IsSignedConstant, a numeral, or a minus and a numeral. No numeral begins with a minus."""
    if word[:1] == b"-":
        magnitude = constant(frac, word[1:])
        return None if magnitude is None else negated(magnitude)
    return constant(frac, word)


def is_digits(text):
    """line_text/specs/Written: IsDigits, at least one digit."""
    return len(text) > 0 and all_ascii_digits(text)


def whole(word):
    """line_text/specs/Written: WritesWhole, digits; leading zeros are allowed."""
    return digits_value(word) if is_digits(word) else None


def decimal(places, word):
    """line_text/specs/Written: WritesDecimal, digits, a point and this many digits, as a multiple of the last digit's
    unit.
    """
    front, point, part = word.partition(b".")
    if not point or not is_digits(front) or not all_ascii_digits(part) or len(part) != places:
        return None
    return digits_value(front) * 10**places + digits_value(part)


def mass_of(word):
    """job/specs/JobLines: IsMass, a mass in u, written in digits, or in digits, a point and one to five digits. The
    result is in 10^-5 u.
    """
    n = whole(word)
    if n is not None:
        return n * 100000
    for places in range(1, 6):
        n = decimal(places, word)
        if n is not None:
            return n * 10 ** (5 - places)
    return None


def is_type_name(text):
    """job/specs/Forms: is_type_name and is_graphic, one to five bytes from 33 to 126."""
    return 1 <= len(text) <= 5 and all(33 <= byte <= 126 for byte in text)


# ---- values


@dataclass
class GlobalValue:
    """job/specs/Values: GlobalValue"""

    name: bytes
    value: Constant


@dataclass
class TypeValue:
    """job/specs/Values: TypeValue, the mass in 10^-5 u, and a value for each parameter."""

    name: bytes
    mass: int
    values: Tuple[Constant, ...]


class Says(Enum):
    """job/specs/JobLines: LineValue, its cases: nothing, or the key of a line."""

    NOTHING = b""
    ENERGY = b"energy"
    CORE = b"core"
    CUTOFF = b"cutoff"
    TIME_STEP = b"dt"
    SLICES = b"slices"
    BITS = b"bits"
    PARAMETER = b"parameter"
    GLOBAL = b"global"
    TYPE = b"type"


@dataclass
class LineValue:
    """job/specs/JobLines: LineValue, the value of a line, with its key."""

    says: Says
    value: Any = None


# ---- the value of a line: each function returns the value of a line with its key, or None


def is_silent(line):
    """job/specs/JobLines: IsSilent, a comment, whose first byte is `#`, or a line without words."""
    return line[:1] == b"#" or words(line) == []


def behind(line, key):
    """The words after the key, if the line's first word is the key."""
    ws = words(line)
    return ws[1:] if ws[:1] == [key.value] else None


def energy(line):
    """job/specs/JobLines: IsEnergyLine, the key, then a text, which begins at its first byte that isn't blank."""
    if behind(line, Says.ENERGY) is None:
        return None
    text = without_blanks(after_word(line))
    return text if len(text) > 0 else None


def one(line, key):
    """job/specs/JobLines: HasOneWord, the only word after the key."""
    ws = behind(line, key)
    return ws[0] if ws is not None and len(ws) == 1 else None


def within(least, n, most):
    """The number if it is in its range, else None."""
    return n if n is not None and least <= n <= most else None


def numeral(frac, line, key):
    """The number of the only word after the key."""
    word = one(line, key)
    return None if word is None else number(frac, word)


def digits(line, key):
    """The integer of the only word after the key."""
    word = one(line, key)
    return None if word is None else whole(word)


def fraction_bits(line):
    """The fraction bits of a `bits` line."""
    n = digits(line, Says.BITS)
    return next((frac for frac in Frac if bits_of(frac) == n), None)


def parameter(line):
    """The name on a `parameter` line."""
    name = one(line, Says.PARAMETER)
    return name if name is not None and is_identifier(name) else None


def global_value(frac, line):
    """job/specs/JobLines: IsGlobalLine, the key, the name of a global and its value."""
    ws = behind(line, Says.GLOBAL)
    if ws is None or len(ws) != 2 or not is_identifier(ws[0]):
        return None
    value = signed_constant(frac, ws[1])
    return None if value is None else GlobalValue(ws[0], value)


def type_value(frac, line):
    """job/specs/JobLines: IsTypeLine, the key, the name of a type, its mass from 0.00001 to 1000 u, and its values."""
    ws = behind(line, Says.TYPE)
    if ws is None or len(ws) < 2 or not is_type_name(ws[0]):
        return None
    mass = within(1, mass_of(ws[1]), 100000000)
    values = tuple(signed_constant(frac, word) for word in ws[2:])
    return None if mass is None or None in values else TypeValue(ws[0], mass, values)


def line_values(frac, line):
    """job/specs/JobLines: LineSays, all values of the line, its numerals read at these fraction bits: a core; a cutoff
    above 0 and up to 80 nm; a time step from 1 to 1000 fs; 1 to 65,536 slices; 24, 32 or 40 fraction bits; the name of
    a parameter; and the lines above.
    """
    values = {
        Says.ENERGY: energy(line),
        Says.CORE: numeral(frac, line, Says.CORE),
        Says.CUTOFF: within(1, numeral(frac, line, Says.CUTOFF), 80 * 2 ** bits_of(frac)),
        Says.TIME_STEP: within(1, digits(line, Says.TIME_STEP), 1000),
        Says.SLICES: within(1, digits(line, Says.SLICES), 65536),
        Says.BITS: fraction_bits(line),
        Says.PARAMETER: parameter(line),
        Says.GLOBAL: global_value(frac, line),
        Says.TYPE: type_value(frac, line),
    }
    silent = [LineValue(Says.NOTHING)] if is_silent(line) else []
    return silent + [LineValue(says, value) for says, value in values.items() if value is not None]


def said(values, says):
    """job/specs/JobLines: said_energy, said_core, said_cutoff, said_time_step, said_slices, said_bits, said_parameter,
    said_global and said_type, the values of the lines with a key, in order.
    """
    return [it.value for it in values if it.says is says]
