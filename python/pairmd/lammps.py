"""States as data files and dumps of LAMMPS, and the other way. Reading needs numpy.

LAMMPS manual: read_data, write_data, dump, units. Numbers have as many digits as floats need, so a state that is written and
read has the same positions and displacements. Residues aren't kept: atoms are read with residues from 1. Velocities count as
those half a step before the positions, as in states; LAMMPS's own belong to the time of the positions.

What a state can't hold raises NotHeld: `TriclinicBox`, `NotPeriodic`, `NoVelocities`, `UnknownType`, `OtherUnits`,
`NoColumn`, and the names of `grids`.
"""

from __future__ import annotations

import contextlib
import math
import os
import re
from collections.abc import Callable, Iterable, Iterator, Mapping, Sequence
from dataclasses import dataclass, field
from typing import IO, Any

from .ase_atoms import species_of
from .errors import FormatError, NotHeld
from .job import Job
from .libraries import Array, np
from .state import State
from .texts import Lines, Source, put
from .units import MASS_UNITS

STYLES = {"atomic": (1, 2), "charge": (1, 3), "bond": (2, 3), "angle": (2, 3), "molecular": (2, 3), "full": (2, 4), "sphere": (1, 4)}
"""The columns of type and x in a line of the section Atoms, by atom style."""
POSITIONS = (("x", 0, 0), ("xu", 0, 1), ("xs", 1, 0), ("xsu", 1, 1))
"""The columns of a dump that have positions: the name along x, whether in sides of the box, whether unwrapped."""
WRITTEN = re.compile(r"LAMMPS data file of pairmd, timestep = (-?[0-9]+), units = (\w+): (.*)")
FOREIGN = re.compile(r"(?:.*timestep = (-?[0-9]+))?(?:.*units = (\w+))?")


@dataclass(frozen=True)
class LammpsUnits:
    """A style of units of LAMMPS.

    name: the style. length: its unit in nm. velocity: its unit in nm/ps. mass: its unit in u.
    """

    name: str
    length: float
    velocity: float
    mass: float = 1.0

    @classmethod
    def lj(cls, sigma: float, epsilon: float, mass: float) -> LammpsUnits:
        """Returns the reduced units of a Lennard-Jones fluid: sigma in nm, epsilon in kJ/mol, mass in u."""
        return cls("lj", sigma, math.sqrt(epsilon / mass), mass)


REAL = LammpsUnits("real", 0.1, 100.0)
"""Angstrom and fs."""
METAL = LammpsUnits("metal", 0.1, 0.1)
"""Angstrom and ps."""


def lammps_data(state: State, job: Job, units: LammpsUnits = REAL) -> str:
    """Returns a data file of atom style `atomic`, with a comment for the name of each type."""
    numbers = {it.name: number for number, it in enumerate(job.types, 1)}
    job.masses(state.names)  # raises KeyError for an unknown type
    head = f"LAMMPS data file of pairmd, timestep = {state.step}, units = {units.name}: {state.title}"
    lines = [head, "", f"{len(state)} atoms", f"{len(numbers)} atom types", ""]
    lines += [f"0 {side / units.length!r} {axis}lo {axis}hi" for axis, side in zip("xyz", state.sides)]
    lines += ["", "Masses", "", *(f"{numbers[it.name]} {it.mass_units / MASS_UNITS / units.mass!r}  # {it.name}" for it in job.types)]
    places, speeds = (state.positions() / units.length).tolist(), (state.velocities(job.dt) / units.velocity).tolist()
    lines += ["", "Atoms  # atomic", ""]
    lines += [f"{number} {numbers[name]} {x!r} {y!r} {z!r}" for number, (name, (x, y, z)) in enumerate(zip(state.names, places), 1)]
    lines += ["", "Velocities", "", *(f"{number} {x!r} {y!r} {z!r}" for number, (x, y, z) in enumerate(speeds, 1)), ""]
    return "\n".join(lines)


def write_lammps_data(state: State, file: str | os.PathLike[str] | IO[str], job: Job, units: LammpsUnits = REAL) -> None:
    """Writes a data file to a path, or to an open text file; see `lammps_data`."""
    put(file, [lammps_data(state, job, units)])


def write_lammps_dump(
    states: Iterable[State], file: str | os.PathLike[str] | IO[str], job: Job, units: LammpsUnits = REAL
) -> None:
    """Writes states as a dump to a path, or to an open text file; see `lammps_dump`."""
    put(file, (lammps_dump(state, job, units) for state in states))


def lammps_dump(state: State, job: Job, units: LammpsUnits = REAL) -> str:
    """Returns a state as a snapshot of a dump, with the chemical symbols of the types that are elements."""
    numbers = {it.name: number for number, it in enumerate(job.types, 1)}
    job.masses(state.names)
    lines = ["ITEM: TIMESTEP", str(state.step), "ITEM: NUMBER OF ATOMS", str(len(state))]
    lines += ["ITEM: BOX BOUNDS pp pp pp", *(f"0.0 {side / units.length!r}" for side in state.sides)]
    lines.append("ITEM: ATOMS id type typelabel element x y z vx vy vz")
    rows = np.hstack((state.positions() / units.length, state.velocities(job.dt) / units.velocity)).tolist()
    for number, (name, row) in enumerate(zip(state.names, rows), 1):
        lines.append(" ".join([f"{number} {numbers[name]} {name} {species_of(name)}", *map(repr, row)]))
    return "\n".join([*lines, ""])


@dataclass
class Found:
    """What a data file or a snapshot has.

    title, step: of the state. low, high: the ends of the box. sections: the words of each line of a section of a data file.
    style: the atom style that the file names. labels: the names in comments and of type labels, by type number.
    """

    title: str = ""
    step: int = 0
    low: list[float] = field(default_factory=lambda: [0.0] * 3)
    high: list[float] = field(default_factory=lambda: [0.0] * 3)
    sections: dict[str, list[list[str]]] = field(default_factory=dict)
    style: str | None = None
    labels: dict[str, str] = field(default_factory=dict)


@dataclass(frozen=True)
class How:
    """How `read_lammps_data` and `read_lammps_dump` make states: their arguments."""

    job: Job
    units: LammpsUnits
    names: Mapping[int, str] | None
    at_rest: bool
    wrap: bool
    rescale: bool

    def check_units(self, name: str | None) -> None:
        """Raises NotHeld if the file names other units."""
        if name not in (None, self.units.name):
            raise NotHeld("OtherUnits", f"the file has the units {name}, and units={self.units.name} was given")

    def state(self, found: Found, types: Sequence[str], places: Array, speeds: Array | None, wrap: bool) -> State:
        """Returns the state of atoms in order of their numbers. Raises NotHeld."""
        if speeds is None and not self.at_rest:
            raise NotHeld("NoVelocities", "the file has no velocities: at_rest=True starts at rest")
        low = np.array(found.low)
        sides = (np.array(found.high) - low) * self.units.length
        motion = np.zeros_like(places) if speeds is None else speeds * self.units.velocity
        at = (places - low) * self.units.length
        names, dt = self.names_of(types, found), self.job.dt
        how: dict[str, Any] = {"title": found.title, "step": found.step, "bits": self.job.bits}
        how |= {"wrap": self.wrap or wrap, "rescale": self.rescale}
        return State.from_arrays(at, motion, sides, names, dt, **how)

    def names_of(self, types: Sequence[str], found: Found) -> list[str]:
        """Returns the name of each atom from its type's number or label. Raises NotHeld for a type without a name."""
        known, names = {it.name for it in self.job.types}, {}
        for it in {*types}:
            given = self.names.get(int(it)) if self.names and it.isdigit() else None
            label = found.labels.get(it) if found.labels.get(it) in known else None
            names[it] = given or label or self.name_by_mass(it, found) or it
            if {*types} == {it} == {"1"} and len(known) == 1:
                names[it] = given or self.job.types[0].name
            if names[it] not in known:
                raise NotHeld("UnknownType", f"type {it} has no name of the job: give names={{{it}: ..}}, of {', '.join(sorted(known))}")
        return [names[it] for it in types]

    def name_by_mass(self, number: str, found: Found) -> str | None:
        """Returns the name of the job's only type with the mass of a type, or None."""
        masses = {words[0]: float(words[1]) * self.units.mass for words in found.sections.get("Masses", [])}
        near = [it.name for it in self.job.types if math.isclose(float(it.mass), masses.get(number, 0), rel_tol=1e-3)]
        return near[0] if len(near) == 1 else None


def read_lammps_data(
    source: Source,
    job: Job,
    *,
    units: LammpsUnits = REAL,
    style: str | None = None,
    names: Mapping[int, str] | None = None,
    at_rest: bool = False,
    wrap: bool = False,
    rescale: bool = False,
) -> State:
    """Returns the state of a data file (a path, an open file, or lines) for a job, with the atoms in order of their ids.

    units: those of the file. style: the atom style, one of STYLES, if the file doesn't name it. names: the job's types by the
    file's type numbers; by default those of type labels, of comments in Masses, else the job's only type of that mass, or
    its only type.
    at_rest: whether a file without velocities starts at rest. wrap, rescale: as for `State.from_arrays`. Raises NotHeld and
    FormatError.
    """
    how = How(job, units, names, at_rest, wrap, rescale)
    with Lines(source) as lines, numbers_checked(lines):
        found = data_of(lines, how)
        kind = style or found.style or "atomic"
        if kind not in STYLES:
            raise NotHeld("NoColumn", f"the atom style {kind} isn't known: style is one of {', '.join(STYLES)}")
        at, x = STYLES[kind]
        rows = in_order(found.sections.get("Atoms", []), lines, x + 3)
        speeds = in_order(found.sections["Velocities"], lines, 4) if "Velocities" in found.sections else None
        if speeds and [row[0] for row in speeds] != [row[0] for row in rows]:
            raise lines.error("the atoms of Velocities aren't those of Atoms")
        places, motion = numbers_of(rows, x), numbers_of(speeds, 1) if speeds is not None else None
        return how.state(found, [row[at] for row in rows], places, motion, False)


@contextlib.contextmanager
def numbers_checked(lines: Lines) -> Iterator[None]:
    """Raises FormatError at the last line for a word that isn't the number it should be."""
    try:
        yield
    except (NotHeld, FormatError):
        raise
    except (ValueError, IndexError) as error:
        raise lines.error(f"a number is missing or malformed: {error}") from None


def numbers_of(rows: Sequence[Sequence[str]], at: int) -> Array:
    """Returns three columns of words as an array of floats."""
    return np.array([row[at : at + 3] for row in rows], dtype=np.float64).reshape(-1, 3)


def in_order(rows: list[list[str]], lines: Lines, count: int) -> list[list[str]]:
    """Returns rows in order of their first word, a number. Raises FormatError if a row has fewer words, or no number."""
    if any(len(row) < count or not row[0].isdigit() for row in rows):
        raise lines.error(f"an atom's line has fewer than {count} words, or no id")
    return sorted(rows, key=lambda row: int(row[0]))


def data_of(lines: Lines, how: How) -> Found:
    """Takes the lines of a data file. Raises NotHeld and FormatError."""
    found, section, atoms = Found(), None, None
    first = (lines.take() or "").rstrip("\r\n")
    own, other = WRITTEN.fullmatch(first), FOREIGN.match(first)
    groups: tuple[Any, ...] = own.groups() if own else (*other.groups(), first) if other else (None, None, first)
    step, unit, found.title = groups
    found.step = int(step or 0)
    how.check_units(unit)
    while (line := lines.take()) is not None:
        text, _, comment = (it.strip() for it in line.partition("#"))
        words = text.split()
        if not words:
            continue
        if words[0][0].isalpha():
            section, found.style = text, (comment.split()[0] if text == "Atoms" and comment else found.style)
            found.sections[section] = []
        elif section is None:
            atoms = int(words[0]) if words[1:] == ["atoms"] else atoms
            bounds_of(words, found)
        else:
            found.sections[section].append(words)
            if section == "Masses" and comment:
                found.labels[words[0]] = comment
    found.labels |= {words[0]: words[1] for words in found.sections.get("Atom Type Labels", []) if len(words) > 1}
    if atoms is None or len(found.sections.get("Atoms", [])) != atoms:
        raise lines.error("the number of lines of the section Atoms isn't that of the head")
    return found


def bounds_of(words: list[str], found: Found) -> None:
    """Takes a line of the head into the box. Raises NotHeld for a tilted one."""
    if words[2:] in ([f"{axis}lo", f"{axis}hi"] for axis in "xyz"):
        axis = "xyz".index(words[2][0])
        found.low[axis], found.high[axis] = float(words[0]), float(words[1])
    if words[3:] == ["xy", "xz", "yz"]:
        check_tilts(words[:3])


def check_tilts(tilts: Iterable[str]) -> None:
    """Raises NotHeld if a box isn't rectangular."""
    if any(float(it) for it in tilts):
        raise NotHeld("TriclinicBox", f"the box has the tilts {' '.join(tilts)}: a state's box is rectangular")


def read_lammps_dump(
    source: Source,
    job: Job,
    *,
    units: LammpsUnits = REAL,
    names: Mapping[int, str] | None = None,
    at_rest: bool = False,
    wrap: bool = False,
    rescale: bool = False,
) -> Iterator[State]:
    """Yields the states of a dump in text (a path, an open file, or lines), with one in memory at a time, and with the atoms
    in order of their ids. The time steps are the step counters.

    Names are those of a column `typelabel` or `element`, else by the numbers of `type`. Positions are x, xu, xs or xsu;
    unwrapped ones count modulo the sides. The other arguments are those of `read_lammps_data`. Raises NotHeld and
    FormatError.
    """
    how = How(job, units, names, at_rest, wrap, rescale)
    with Lines(source) as lines:
        while (line := lines.take()) is not None:
            lines.give(line)
            with numbers_checked(lines):
                state = next_snapshot(lines, how)
            yield state


def next_snapshot(lines: Lines, how: How) -> State:
    """Takes the items of a snapshot up to its atoms. Raises NotHeld and FormatError."""
    found, count = Found(), 0
    while (line := lines.take()) is not None:
        item = line.removeprefix("ITEM: ").split()
        if not line.startswith("ITEM: "):
            raise lines.error("expected a line `ITEM: ..`")
        if item[:2] == ["BOX", "BOUNDS"]:
            take_box(lines, item[2:], found)
        elif item[0] == "ATOMS":
            return snapshot(lines, item[1:], found, how, count)
        else:
            (word,) = (lines.take() or "").split()
            if item == ["UNITS"]:
                how.check_units(word)
            elif item == ["TIMESTEP"]:
                found.step = int(word)
            elif item == ["NUMBER", "OF", "ATOMS"]:
                count = int(word)
    raise lines.error("the dump is cut off: a snapshot has no atoms")


def take_box(lines: Lines, words: list[str], found: Found) -> None:
    """Takes the three lines of a box. Raises NotHeld if it isn't periodic or not rectangular."""
    if other := [it for it in words if len(it) == 2 and it != "pp" and set(it) <= {*"pfsm"}]:
        raise NotHeld("NotPeriodic", f"the box has the boundary {other[0]}: a state's box is periodic, pp")
    if "abc" in words:
        raise NotHeld("TriclinicBox", "the box is a general triclinic one: a state's box is rectangular")
    rows = [line.split() for line in lines.block(3)]
    if len(rows) != 3 or any(len(row) < 2 for row in rows):
        raise lines.error("expected three lines with the ends of the box")
    check_tilts([row[2] for row in rows if len(row) > 2])
    for axis, row in enumerate(rows):
        found.low[axis], found.high[axis] = float(row[0]), float(row[1])


def snapshot(lines: Lines, columns: list[str], found: Found, how: How, count: int) -> State:
    """Takes the atoms of a snapshot with these columns. Raises NotHeld and FormatError."""
    rows = [line.split() for line in lines.block(count)]
    if len(rows) != count or any(len(row) != len(columns) for row in rows):
        raise lines.error(f"expected {count} lines with {len(columns)} words each")
    at = {name: number for number, name in enumerate(columns)}
    found_at = next((it for it in POSITIONS if it[0] in at), None)
    if found_at is None or "id" not in at or not {"type", "element"} & {*at}:
        raise NotHeld("NoColumn", f"a dump needs id, type or element, and x, y, z, vx, vy, vz: it has {' '.join(columns)}")
    rows.sort(key=lambda row: int(row[at["id"]]))
    column: Callable[[str], list[float]] = lambda name: [float(row[at[name]]) for row in rows]  # noqa: E731
    name, is_scaled, is_unwrapped = found_at
    places = np.array([column(axis + name[1:]) for axis in "xyz"]).T.reshape(-1, 3)
    if is_scaled:
        places = np.array(found.low) + places * (np.array(found.high) - found.low)
    has_motion = {"vx", "vy", "vz"} <= {*at}
    speeds = np.array([column(f"v{axis}") for axis in "xyz"]).T.reshape(-1, 3) if has_motion else None
    return how.state(found, type_words(rows, at, how), places, speeds, bool(is_unwrapped))


def type_words(rows: Sequence[Sequence[str]], at: Mapping[str, int], how: How) -> list[str]:
    """Returns the type of each atom: the job's of the first column of labels or elements whose words are all names or
    symbols of it, else the number.
    """
    names = {it.name: it.name for it in how.job.types}
    symbols = {species_of(it): it for it in reversed(names)} if len({*map(species_of, names)}) == len(names) else {}
    for column, known in (("typelabel", names), ("element", names), ("element", symbols)):
        if column in at and {row[at[column]] for row in rows} <= known.keys():
            return [known[row[at[column]]] for row in rows]
    return [row[at["type" if "type" in at else "element"]] for row in rows]
