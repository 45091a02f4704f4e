"""Jobs: the energy of a pair, core, cutoff, time step and atom types. docs/FORMATS.md, Job, defines the text.

The energy stays a text: the program parses it. Numbers are `decimal.Decimal`, exactly as the job writes them.
"""

from __future__ import annotations

import os
import re
from collections.abc import Iterable
from dataclasses import dataclass, field, replace
from decimal import Decimal
from fractions import Fraction
from typing import IO, Any, NoReturn

from .texts import Lines, Source, digits, lines_of, put
from .units import BITS, MASS_UNITS, Exact, decimal, decimal_text, exact, integer, rounded

ONCE = ("energy", "core", "cutoff", "dt", "bits", "slices")
MOST = {"parameter": 8, "global": 16, "type": 64}
NUMERAL = re.compile(r"(?=[0-9.]*[0-9])([0-9]*\.?[0-9]*)(?:[eE][+-]?([0-9]+))?")
NAME = re.compile(r"[A-Za-z_][A-Za-z0-9_]*")


@dataclass(frozen=True, init=False)
class AtomType:
    """A type of atoms.

    name: the name of its atoms.
    mass: in u, with at most five decimals.
    values: a value for each parameter of the job.

    Mass and values may be given as floats, integers or texts; a float is the decimal that Python prints for it.
    """

    name: str
    mass: Decimal
    values: tuple[Decimal, ...]

    def __init__(self, name: str, mass: Exact, values: Iterable[Exact] = ()) -> None:
        """Raises ValueError if the mass has more than five decimals, or a number has no decimal."""
        object.__setattr__(self, "name", name)
        object.__setattr__(self, "mass", decimal(mass))
        object.__setattr__(self, "values", tuple(map(decimal, values)))
        if (exact(self.mass) * MASS_UNITS).denominator != 1:
            raise ValueError(f"a mass has at most five decimals: round the {self.mass} u of type {name}")

    @property
    def mass_units(self) -> int:
        """The mass in 10^-5 u, exactly."""
        return int(exact(self.mass) * MASS_UNITS)

    def text(self) -> str:
        """Returns the line `type` of a job."""
        mass = decimal_text(self.mass_units, 5).rstrip("0").rstrip(".")
        return " ".join(["type", self.name, mass, *map(numeral_text, self.values)])


@dataclass
class Job:
    """A job.

    energy: the energy of a pair in kJ/mol, a formula of the distance r in nm.
    core, cutoff: distances in nm.
    dt: the time step in fs.
    types: the atom types.
    parameters: the names of the values that each type has.
    globals: the values of globals by name.
    bits: the number of fraction bits.
    slices: the number of parts in which distances are verified.
    """

    energy: str
    core: Decimal
    cutoff: Decimal
    dt: int
    types: list[AtomType] = field(default_factory=list)
    parameters: list[str] = field(default_factory=list)
    globals: dict[str, Decimal] = field(default_factory=dict)
    bits: int = 32
    slices: int = 64

    @classmethod
    def read(cls, source: Source) -> Job:
        """Reads a job (a path, an open file, or lines). Comments aren't kept. Raises FormatError."""
        with Lines(source) as lines:
            return Draft(lines).job()

    @classmethod
    def parse(cls, text: str) -> Job:
        """Reads a job from its text. Raises FormatError."""
        return cls.read(lines_of(text))

    def text(self) -> str:
        """Returns a text of the job, without comments."""
        core, cutoff = numeral_text(self.core), numeral_text(self.cutoff)
        dt, bits, slices = (integer(getattr(self, name), name) for name in ("dt", "bits", "slices"))
        lines = ["pairmd job 1", f"energy {self.energy}", f"core {core}", f"cutoff {cutoff}", f"dt {dt}"]
        lines += [f"bits {bits}"] * (bits != 32) + [f"slices {slices}"] * (slices != 64)
        lines += [f"parameter {name}" for name in self.parameters]
        lines += [f"global {name} {numeral_text(value)}" for name, value in self.globals.items()]
        lines += [it.text() for it in self.types]
        return "\n".join([*lines, ""])

    def write(self, file: str | os.PathLike[str] | IO[str]) -> None:
        """Writes the job to a path, or to an open text file."""
        put(file, [self.text()])

    def replaced(self, **changes: Any) -> Job:
        """Returns a copy with other values of some fields; see `dataclasses.replace`."""
        return replace(self, **changes)

    @property
    def time_step(self) -> float:
        """The time step in ps."""
        return self.dt / 1000

    def type_of(self, name: str) -> AtomType:
        """Returns the type of this name. Raises KeyError."""
        known = {it.name: it for it in self.types}
        return known[name] if name in known else no_type(name)

    def masses(self, names: list[str]) -> list[int]:
        """Returns the mass of each atom in 10^-5 u, from the atoms' names. Raises KeyError for an unknown type."""
        known = {it.name: it.mass_units for it in self.types}
        return [known[name] if name in known else no_type(name) for name in names]


def no_type(name: str) -> NoReturn:
    """Raises KeyError for a type that the job doesn't have."""
    raise KeyError(f"the job has no type {name}")


def numeral(word: str) -> Decimal | None:
    """Returns the number that a numeral writes (docs/FORMATS.md, Energy text), or None."""
    found = NUMERAL.fullmatch(word)
    exponent = digits(found[2] or "0") if found else None
    if not found or exponent is None or len(found[1].replace(".", "")) > 18 or exponent > 99:
        return None
    return Decimal(word)


def numeral_text(number: Exact) -> str:
    """Returns the numeral of a number, with a minus if it is negative. Raises ValueError if it needs over 18 digits."""
    made = decimal(number)
    if abs(made.adjusted()) <= 99 and sum(map(str.isdigit, plain := format(made, "f"))) <= 18:
        return plain
    sign, figures, exponent = made.as_tuple()
    if len(figures) > 18 or not isinstance(exponent, int) or abs(exponent) > 99:
        raise ValueError(f"{number} isn't a number of at most 18 digits")
    return f"{'-' * sign}{''.join(map(str, figures))}e{exponent}"


def signed(word: str) -> Decimal | None:
    """Returns the number that a numeral with an optional minus writes, or None."""
    number = numeral(word.removeprefix("-"))
    return number if number is None or not word.startswith("-") else -number


def raw(number: Decimal, bits: int) -> int:
    """Returns a number as the program reads it: the nearest integer in units of 2^-bits."""
    size = rounded(Fraction(abs(number)) * 2**bits)
    return -size if number < 0 else size


class Draft:
    """The lines of a job that are being read."""

    def __init__(self, lines: Lines) -> None:
        self.lines = lines
        self.once: dict[str, Any] = {}
        self.parameters: list[str] = []
        self.globals: dict[str, Decimal] = {}
        self.types: list[AtomType] = []
        self.type_lines: list[int] = []
        self.bits = 32

    def job(self) -> Job:
        """Takes all lines, and returns the job."""
        texts = [re.sub(r"\r?\n\Z", "", line) for line in iter(self.lines.take, None)]
        if texts[:1] != ["pairmd job 1"]:
            raise self.lines.error("the first line of a job is `pairmd job 1`", "J1", 1)
        # numbers are read with the bits of the first valid line `bits`, wherever it is
        valid = (re.fullmatch(r"[ \t]*bits[ \t]+0*(24|32|40)[ \t]*", text) for text in texts)
        self.bits = next((int(found[1]) for found in valid if found), 32)
        for self.lines.number, text in enumerate(texts[1:], 2):
            if not text.startswith("#") and text.strip(" \t"):
                self.take(text)
        return self.finished()

    def take(self, line: str) -> None:
        """Takes a line with a key."""
        key, *words = re.split(r"[ \t]+", line.strip(" \t"))
        if key == "energy" and words:
            self.keep(key, line.lstrip(" \t")[len("energy") :].lstrip(" \t"))
        elif key in ("core", "cutoff") and len(words) == 1 and (number := numeral(words[0])) is not None:
            self.keep(key, number)
            self.check(key, number)
        elif key in ("dt", "bits", "slices") and len(words) == 1 and (count := digits(words[0])) is not None:
            self.keep(key, count)
            self.check_count(key, count)
        elif key == "parameter" and len(words) == 1 and NAME.fullmatch(words[0]):
            self.fresh(key, words[0], self.parameters)
            self.parameters.append(words[0])
        elif key == "global" and len(words) == 2 and NAME.fullmatch(words[0]) and (value := signed(words[1])) is not None:
            self.fresh(key, words[0], self.globals)
            self.check(key, value)
            self.globals[words[0]] = value
        elif key == "type" and (made := type_of(words)):
            self.new_type(made)
        else:
            raise self.lines.error("expected a key of a job and its values", "J1")

    def keep(self, key: str, value: Any) -> None:
        """Keeps the value of a key that occurs once."""
        if key in self.once:
            raise self.lines.error(f"a second line `{key}`", "J3")
        self.once[key] = value

    def fresh(self, key: str, name: str, known: Any) -> None:
        """Checks that a parameter or global is new, and that there is room for it."""
        if name in known:
            raise self.lines.error(f"a second {key} {name}", "J3")
        if len(known) == MOST[key]:
            raise self.lines.error(f"a job has at most {MOST[key]} lines `{key}`", "J4")

    def check(self, key: str, number: Decimal) -> None:
        """Checks the range of a number, as the program rounds it."""
        units = raw(number, self.bits)
        if not -(2**63) < units < 2**63 or key == "cutoff" and not 1 <= units <= 80 << self.bits:
            raise self.lines.error(f"the number of `{key}` is out of range", "J4")

    def check_count(self, key: str, count: int) -> None:
        """Checks the range of a number in digits."""
        proper = count in BITS if key == "bits" else 1 <= count <= (1000 if key == "dt" else 65_536)
        if not proper:
            raise self.lines.error(f"the number of `{key}` is out of range", "J4")

    def new_type(self, made: AtomType) -> None:
        """Keeps a type."""
        if any(it.name == made.name for it in self.types):
            raise self.lines.error(f"a second type {made.name}", "J5")
        if not 1 <= made.mass_units <= 1000 * MASS_UNITS:
            raise self.lines.error("a mass is from 0.00001 to 1000 u", "J4")
        for value in made.values:
            self.check("type", value)
        if len(self.types) == MOST["type"]:
            raise self.lines.error(f"a job has at most {MOST['type']} types", "J4")
        self.types.append(made)
        self.type_lines.append(self.lines.number)

    def finished(self) -> Job:
        """Returns the job of all lines."""
        for key in ONCE[:4]:
            if key not in self.once:
                raise self.lines.error(f"the job has no line `{key}`", "J2", 0)
        if raw(self.once["core"], self.bits) >= raw(self.once["cutoff"], self.bits):
            raise self.lines.error("the cutoff isn't greater than the core", "J4", 0)
        for line, it in zip(self.type_lines, self.types):
            if len(it.values) != len(self.parameters):
                raise self.lines.error(f"type {it.name} needs a value for each of {len(self.parameters)} parameters", "J1", line)
        return Job(types=self.types, parameters=self.parameters, globals=self.globals, **self.once)


def type_of(words: list[str]) -> AtomType | None:
    """Returns the type that the words after `type` describe, or None."""
    if len(words) < 2 or not re.fullmatch(r"[!-~]{1,5}", words[0]) or not re.fullmatch(r"[0-9]+(\.[0-9]{1,5})?", words[1]):
        return None
    values = [signed(word) for word in words[2:]]
    return None if None in values else AtomType(words[0], Decimal(words[1]), tuple(it for it in values if it is not None))
