"""Tables that the program prints: rows of `observe`, forces, velocities, and potentials of `curve`.

docs/FORMATS.md defines them in Table, Forces, Velocities and Potential. Numbers are exact: integers, or decimals as printed.
"""

from __future__ import annotations

from collections.abc import Iterator, Sequence
from dataclasses import dataclass
from decimal import Decimal, InvalidOperation
from fractions import Fraction
from typing import Any

from .job import Job
from .libraries import Array, np
from .state import Atom, Atoms, atom_of
from .texts import Lines, Source, lines_of, whole
from .triples import Triples
from .units import BAR, BOLTZMANN, PLACES, Three, decimal_of

COLUMNS = (
    "step time/ps potential/(kJ/mol) kinetic/(kJ/mol) total/(kJ/mol) temperature/K pressure/bar"
    " momentum-x/(u.nm/ps) momentum-y momentum-z nearest/nm core-pairs"
).split()
"""The columns of a table of decimals."""
TENSOR = "pressure-xx/bar pressure-yy pressure-zz pressure-xy pressure-xz pressure-yz".split()
"""The columns that `--tensor` adds to a table of decimals."""
FORCE = 2**63

Number = "int | Decimal | None"


@dataclass
class Table:
    """A table of `pairmd observe`, in decimals or with `--exact`.

    columns: the names in its head line, such as `temperature/K`.
    rows: the numbers of each row, integers or decimals; None for a `-`.
    """

    columns: list[str]
    rows: list[list[Any]]

    def __len__(self) -> int:
        return len(self.rows)

    def __repr__(self) -> str:
        return f"<Table: {len(self)} rows of {' '.join(self.columns)}>"

    @classmethod
    def read(cls, source: Source) -> Table:
        """Reads a table (a path, an open file, or lines). Raises FormatError."""
        with Lines(source) as lines:
            head = (lines.take() or "").split()
            if head[:2] != ["#", "step"]:
                raise lines.error("a table begins with `# step`", line=1)
            table = cls(head[1:], [])
            while (line := lines.take()) is not None:
                table.rows.append([cell(word, lines) for word in line.split()])
                if len(table.rows[-1]) != len(table.columns):
                    raise lines.error(f"the row doesn't have {len(table.columns)} columns")
        return table

    @classmethod
    def parse(cls, text: str) -> Table:
        """Reads a table from its text. Raises FormatError."""
        return cls.read(lines_of(text))

    def text(self) -> str:
        """Returns the table as the program prints it."""
        rows = [" ".join("-" if it is None else format(it, "d" if isinstance(it, int) else "f") for it in row) for row in self.rows]
        return "\n".join(["# " + " ".join(self.columns), *rows, ""])

    @property
    def is_exact(self) -> bool:
        """Whether the table was printed with `--exact`."""
        return "time/fs" in self.columns

    @property
    def has_tensor(self) -> bool:
        """Whether the table was printed with `--tensor`."""
        return any(it.partition("/")[0] in ("pressure-xx", "products-xy") for it in self.columns)

    def exact_column(self, name: str) -> list[Any]:
        """Returns a column's numbers, integers or decimals, None for `-`; with or without the unit in its name."""
        found = [at for at, column in enumerate(self.columns) if name in (column, column.partition("/")[0])]
        if not found:
            raise KeyError(f"no column {name}; there are {' '.join(self.columns)}")
        return [row[found[0]] for row in self.rows]

    def __getitem__(self, name: str) -> Array:
        """Returns a column's numbers as an array of floats, NaN for `-`; `table["temperature"]` or `table["temperature/K"]`."""
        column = self.exact_column(name)
        return np.array(column, dtype=np.float64)  # None is NaN

    def decimals(self, job: Job, box: Three, atoms: int) -> Table:
        """Returns the table of decimals of a table of integers: the bytes that the program prints without `--exact`.

        job: the table's job; box: the sides in 10^-5 nm; atoms: the number of atoms.
        """
        heads = [*COLUMNS, *TENSOR] if self.has_tensor else list(COLUMNS)
        names = [it.partition("/")[0] for it in self.columns]
        return Table(heads, [decimal_row(dict(zip(names, row)), job, box, atoms) for row in self.rows])


def cell(word: str, lines: Lines) -> Any:
    """Returns the number of a word of a row; None for `-`."""
    if word == "-":
        return None
    try:
        return Decimal(word) if "." in word else int(word)
    except (ValueError, InvalidOperation):
        raise lines.error(f"{word} isn't a number") from None


def decimal_row(row: dict[str, Any], job: Job, box: Three, atoms: int) -> list[Any]:
    """Returns the decimals of a row of integers, which has them by the names of their columns; see `Table.decimals`."""
    squares, virials, momenta = ([row[f"{it}-{axis}"] for axis in "xyz"] for it in ("squares", "virial", "momentum"))
    kinetic = Fraction(sum(side**2 * it for side, it in zip(box, squares)), 4 * 10**9 * PLACES**2 * job.dt**2)
    virial = Fraction(sum(side * it for side, it in zip(box, virials)), 10**5 * PLACES * 2**job.bits)
    energy, volume = Fraction(row["potential"], 2**job.bits), Fraction(box[0] * box[1] * box[2], 10**15)
    kelvin = 2 * kinetic / ((3 * atoms - 3) * BOLTZMANN) if atoms > 1 else None
    numbers = [(Fraction(row["time"], 1000), 3), (energy, 6), (kinetic, 6), (energy + kinetic, 6), (kelvin, 3)]
    numbers.append(((2 * kinetic + virial) / (3 * volume) * BAR, 3))
    numbers += [(Fraction(side * it, 10**7 * PLACES * job.dt), 6) for side, it in zip(box, momenta)]
    numbers.append((None if row["nearest"] is None else Fraction(row["nearest"], 2**job.bits), 6))
    decimals = [None if it is None else Decimal(decimal_of(it, digits)) for it, digits in numbers]
    tensor = pressures(row, job, box) if "products-xy" in row else []
    return [row["step"], *decimals, row["core-pairs"], *tensor]


def pressures(row: dict[str, Any], job: Job, box: Three) -> list[Decimal]:
    """Returns the components of the pressure tensor from the integers of a row; see `Table.decimals`."""
    kinetic, unit = 4 * 10**9 * PLACES**2 * job.dt**2, 10**5 * PLACES * 2**job.bits
    parts = [(a, a, row[f"squares-{a}"], row[f"virial-{a}"], row[f"virial-{a}"]) for a in "xyz"]
    parts += [(a, b, row[f"products-{a}{b}"], row[f"virial-{a}{b}"], row[f"virial-{b}{a}"]) for a, b in (("x", "y"), ("x", "z"), ("y", "z"))]
    side, volume, found = dict(zip("xyz", box)), Fraction(box[0] * box[1] * box[2], 10**15), []
    for a, b, products, one, other in parts:
        virial = Fraction(one * side[b] + other * side[a], 2 * unit)
        found.append((2 * Fraction(products * side[a] * side[b], kinetic) + virial) / volume * BAR)
    return [Decimal(decimal_of(it, 3)) for it in found]


@dataclass
class Forces:
    """The force on each atom, as `pairmd forces` prints it.

    atoms: the names of each atom.
    raw: the components of each force in 2^-bits kJ/mol/nm, which `numpy.asarray` reads as int64. They add up to 0.
    bits: the number of fraction bits of job and state.
    """

    atoms: Sequence[Atom]
    raw: Sequence[Three]
    bits: int = 32

    def __post_init__(self) -> None:
        self.atoms, self.raw = Atoms(self.atoms), Triples(self.raw, "q", "force")

    def __len__(self) -> int:
        return len(self.raw)

    def __repr__(self) -> str:
        return f"<Forces: {len(self)} atoms, {self.bits} bits>"

    @classmethod
    def read(cls, source: Source, bits: int = 32) -> Forces:
        """Reads forces (a path, an open file, or lines) of a job with these fraction bits. Raises FormatError."""
        atoms, raw = [], []
        with Lines(source) as lines:
            while (line := lines.take()) is not None:
                atom, words = atom_of(line[:15]), line[15:].rstrip("\n").split(" ")
                x, y, z = [whole(word, -FORCE, FORCE - 1) for word in words[1:]] if len(words) == 4 else (None, None, None)
                if atom is None or words[0] or x is None or y is None or z is None:
                    raise lines.error("expected an atom's 15 columns and three integers of 64 bits")
                atoms.append(atom)
                raw.append((x, y, z))
        return cls(atoms, raw, bits)

    @classmethod
    def parse(cls, text: str, bits: int = 32) -> Forces:
        """Reads forces from their text. Raises FormatError."""
        return cls.read(lines_of(text), bits)

    def values(self) -> Array:
        """Returns the forces in kJ/mol/nm: an array of three columns."""
        return np.asarray(self.raw) * 2.0**-self.bits


@dataclass
class Velocities:
    """The velocity of each atom in the last time step, as `pairmd velocities` prints it.

    atoms: the names of each atom.
    moves: the displacement of each atom from the previous to the current frame, in grid units; `numpy.asarray` reads them
    as int32.
    values: the velocity of each atom in nm/ps, as printed, with six decimals.
    """

    atoms: Sequence[Atom]
    moves: Sequence[Three]
    values: list[tuple[Decimal, Decimal, Decimal]]

    def __post_init__(self) -> None:
        self.atoms, self.moves = Atoms(self.atoms), Triples(self.moves, "i", "displacement")

    def __len__(self) -> int:
        return len(self.moves)

    def __repr__(self) -> str:
        return f"<Velocities: {len(self)} atoms>"

    @classmethod
    def read(cls, source: Source) -> Velocities:
        """Reads velocities (a path, an open file, or lines). Raises FormatError."""
        atoms, moves, values = [], [], []
        with Lines(source) as lines:
            while (line := lines.take()) is not None:
                atom, words = atom_of(line[:15]), line[15:].rstrip("\n").split(" ")
                numbers = [cell(word, lines) for word in words[1:]]
                if atom is None or words[0] or [type(it) for it in numbers] != [int] * 3 + [Decimal] * 3:
                    raise lines.error("expected an atom's 15 columns, three integers and three decimals")
                atoms.append(atom)
                moves.append((numbers[0], numbers[1], numbers[2]))
                values.append((numbers[3], numbers[4], numbers[5]))
        return cls(atoms, moves, values)

    @classmethod
    def parse(cls, text: str) -> Velocities:
        """Reads velocities from their text. Raises FormatError."""
        return cls.read(lines_of(text))


def read_steps(source: Source) -> Iterator[tuple[int, str]]:
    """Yields the step and the lines behind each line `step N` of what `--each` prints (a path, an open file, or lines).
    Raises FormatError.
    """
    with Lines(source) as lines:
        step: int | None = None
        text: list[str] = []
        while (line := lines.take()) is not None:
            words = line.split(" ")
            if words[0] != "step":
                text.append(line)
                continue
            if step is not None:
                yield step, "".join(text)
            step, text = whole(words[1].rstrip("\n"), -FORCE, FORCE - 1) if len(words) == 2 else None, []
            if step is None:
                raise lines.error("expected `step` and an integer of 64 bits")
        if step is not None:
            yield step, "".join(text)


@dataclass(frozen=True)
class CurveRow:
    """A row of a potential: the distance in nm, energy in kJ/mol and slope dU/dr in kJ/mol/nm as printed, and the
    bounds on their errors as printed; with `--grid` also a bound on the part of the slope's error that comes from
    rounding the distance. A bound is None if the program found none, and a column that isn't printed is None.
    """

    r: Decimal
    energy: Decimal | None = None
    energy_error: Decimal | None = None
    slope: Decimal | None = None
    slope_error: Decimal | None = None
    slope_grid: Decimal | None = None


# the fields of CurveRow by the names of the columns
CURVE_COLUMNS = {
    "r/nm": "r",
    "energy/(kJ/mol)": "energy",
    "energy-error": "energy_error",
    "slope/(kJ/mol/nm)": "slope",
    "slope-error": "slope_error",
    "slope-grid": "slope_grid",
}


@dataclass
class Curve:
    """The potential of a pair of types, as `pairmd curve` prints it.

    types: the types of the atom with the lower and of the one with the higher index.
    rows: its rows, from the core to the last distance below the cutoff.
    """

    types: tuple[str, str]
    rows: list[CurveRow]

    def __repr__(self) -> str:
        return f"<Curve: {' '.join(self.types)}, {len(self.rows)} rows>"

    def column(self, name: str) -> Array:
        """Returns a column as an array of floats, by its name in CurveRow; NaN without a bound, or where the column isn't
        printed.
        """
        return np.array([getattr(row, name) for row in self.rows], dtype=np.float64)  # None is NaN


def read_curves(source: Source) -> Iterator[Curve]:
    """Yields the tables of `pairmd curve` (a path, an open file, or lines): of a table with the names of two pairs of types
    one for each pair. Raises FormatError.
    """
    with Lines(source) as lines:
        pairs: list[tuple[str, str]] = []
        rows: list[CurveRow] = []
        columns: list[str] = []
        while (line := lines.take()) is not None:
            words = line.split()
            if words[:1] == ["#"] and len(words) == 3:
                if columns:
                    yield from (Curve(pair, list(rows)) for pair in pairs)
                    pairs, rows, columns = [], [], []
                pairs.append((words[1], words[2]))
            elif words[:2] == ["#", "r/nm"]:
                columns = [CURVE_COLUMNS.get(word, "") for word in words[1:]]
            elif words and words[0] != "#":
                words = words[: words.index("#")] if "#" in words else words
                if not pairs or len(words) != len(columns) or "" in columns:
                    raise lines.error("expected a row of the columns")
                rows.append(curve_row(dict(zip(columns, words)), lines))
        yield from (Curve(pair, list(rows)) for pair in pairs)


def curve_row(words: dict[str, str], lines: Lines) -> CurveRow:
    """Returns a row from its words by field. Only a bound may be `-`."""
    numbers = {name: cell(word, lines) for name, word in words.items()}
    if any(number is None and not name.endswith(("_error", "_grid")) for name, number in numbers.items()):
        raise lines.error("expected a number, not `-`")
    return CurveRow(**numbers)
