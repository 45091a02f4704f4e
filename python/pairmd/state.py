"""States: two frames, one time step apart, as `pairmd start`, `run`, `back` and `states` print them.

`State.read` reads one state; `read_states` reads the states of a file one after the other, with one in memory at a
time. docs/FORMATS.md, State, defines the text.
"""

from __future__ import annotations

import os
import re
from array import array
from collections.abc import Iterable, Iterator
from dataclasses import dataclass, field, replace
from functools import cached_property
from typing import IO, TYPE_CHECKING, Any, NamedTuple, Union

from .grids import COLUMNS, LONGEST_SIDE, MOST_ATOMS, NUMBERS, block_of, frames_of
from .libraries import Array, has_numpy, np
from .texts import Lines, Source, lines_of, put, whole
from .triples import Triples
from .units import BITS, HALF, PLACES, SIDE_UNITS, Three, integer

Rows = Union[Iterable[Three], Array]
"""Rows of three integers, or an array of numpy with three columns."""
NAMES = "names have at most five printable characters, residues -9999 to 99999"
COORDINATES = re.compile(r"(?: (?:0|[1-9][0-9]{0,9})){6}")


class Atom(NamedTuple):
    """The names of an atom: residue number and name, and its own name, which is its type in the job."""

    residue: int
    residue_name: str
    name: str

    def columns(self) -> str:
        """Returns the first 15 columns of the atom's line, the same in states and GRO files."""
        return f"{self.residue:5}{self.residue_name:<5}{self.name:>5}"


class Atoms(tuple[Atom, ...]):
    """The names of a state's atoms, in order. States of one stream share them."""

    @cached_property
    def names(self) -> tuple[str, ...]:
        """The name of each atom."""
        return tuple(atom.name for atom in self)

    @cached_property
    def template(self) -> str:
        """The lines of the atoms, with `%d` for each grid coordinate. Raises ValueError for an atom that no state has."""
        if wide := next((atom for atom in self if len(atom.columns()) != COLUMNS), None):
            raise ValueError(f"no state has an atom {wide}: {NAMES}")
        return "".join(f"{atom.columns().replace('%', '%%')}{' %d' * NUMBERS}\n" for atom in self)


class Arrays(NamedTuple):
    """A state as arrays of numpy with an entry or a row for each atom.

    previous, current: grid coordinates, uint32 with three columns; read-only. residues: int32. residue_names, names: text.
    """

    previous: Array
    current: Array
    residues: Array
    residue_names: Array
    names: Array


@dataclass
class State:
    """A state of a run.

    title: any text without LF.
    step: the step counter of the current frame.
    box: the sides in 10^-5 nm.
    atoms: the names of each atom, kept as `Atoms`.
    previous, current: the grid coordinates of each atom in both frames, from 0 to 2^32 - 1 along each side: rows of three
    integers, or arrays of numpy; kept as `Triples`, which `numpy.asarray` reads as arrays.
    bits: the number of fraction bits of its job. Grid coordinates have 32 bits whatever these are.

    Raises ValueError if a coordinate isn't a grid coordinate.
    """

    title: str
    step: int
    box: Three
    atoms: Atoms
    previous: Triples
    current: Triples
    bits: int = 32
    _moves: Triples | None = field(default=None, repr=False, compare=False)

    if TYPE_CHECKING:

        def __init__(
            self, title: str, step: int, box: Three, atoms: Iterable[Atom], previous: Rows, current: Rows, bits: int = 32
        ) -> None: ...

    def __post_init__(self) -> None:
        self.atoms = self.atoms if isinstance(self.atoms, Atoms) else Atoms(self.atoms)
        self.previous = Triples(self.previous, name="previous coordinate")
        self.current = Triples(self.current, name="current coordinate")

    def __len__(self) -> int:
        return len(self.current)

    def __repr__(self) -> str:
        x, y, z = self.sides
        return f"<State {self.title!r}: {len(self)} atoms, {self.bits} bits, step {self.step}, box {x:g} x {y:g} x {z:g} nm>"

    @classmethod
    def read(cls, source: Source) -> State:
        """Reads the only state of a file (a path, an open file, or lines). Raises FormatError."""
        with Lines(source) as lines:
            state = next_state(lines)
            if state is None:
                raise lines.error("the file is empty", "S2", 1)
            if lines.take() is not None:
                raise lines.error("text after the last atom", "S3")
        return state

    @classmethod
    def parse(cls, text: str) -> State:
        """Reads a state from its text. Raises FormatError."""
        return cls.read(lines_of(text))

    @classmethod
    def from_arrays(
        cls,
        positions: Any,
        velocities: Any,
        sides: Any,
        names: Iterable[str],
        dt: float,
        *,
        title: str = "",
        step: int = 0,
        bits: int = 32,
        residues: Iterable[int] | None = None,
        residue_names: Iterable[str] | None = None,
        wrap: bool = False,
        rescale: bool = False,
    ) -> State:
        """Returns the state nearest to positions and velocities in floats: within half a grid unit. Needs numpy.

        positions: of the current frame in nm, a row for each atom. velocities: in nm/ps, half a step before it, as in GRO
        files; zeros for a start at rest. sides: of the box in nm, three or one; multiples of 10^-5 nm, else `rescale` takes
        the nearest ones and scales the rest with them. names: of the atoms, which are types of the job, or one for all.
        dt: the job's time step in fs. residues, residue_names: by default numbers from 1, and the names. wrap: whether
        positions count modulo the sides. Raises NotHeld (`python/pairmd/grids.py` has its names), and ValueError for names
        that no state has.
        `State.from_arrays(s.positions(), s.velocities(dt), s.sides, s.names, dt)` has the frames of the state s.
        """
        box, previous, current = frames_of(positions, velocities, sides, dt, wrap, rescale)
        return cls(title, step, box, atoms_named(names, residues, residue_names, len(current)), previous, current, bits)

    def arrays(self) -> Arrays:
        """Returns the state's columns as arrays of numpy."""
        residues, residue_names, names = zip(*self.atoms) if self.atoms else ((), (), ())
        texts = (np.array(it, dtype="U5") for it in (residue_names, names))
        return Arrays(np.asarray(self.previous), np.asarray(self.current), np.array(residues, dtype=np.int32), *texts)

    def text(self) -> str:
        """Returns the state's only text. Raises ValueError if the numbers of atoms and positions differ, if a number isn't
        the integer that the text needs, or if the title or a name doesn't fit.
        """
        check_frames(self)
        if "\n" in self.title or self.title.endswith("\r"):
            raise ValueError(f"a title has one line, and {self.title!r} has more")
        step, bits, *box = (integer(it, name) for it, name in zip((self.step, self.bits, *self.box), ("step", "bits", *["box"] * 3)))
        head = [f"pairmd state {1 if bits == 32 else 2}", f"title {self.title}", f"step {step}"]
        head += [f"bits {bits}"] * (bits != 32)
        head += [f"atoms {len(self)}", "box %d %d %d" % tuple(box)]
        numbers = [0] * (NUMBERS * len(self))
        for offset, frame in ((0, self.previous), (3, self.current)):
            for axis in range(3):
                numbers[offset + axis :: NUMBERS] = frame.flat[axis::3]
        return "\n".join([*head, self.atoms.template % tuple(numbers)])

    def write(self, file: str | os.PathLike[str] | IO[str]) -> None:
        """Writes the state to a path, or to an open text file."""
        put(file, [self.text()])

    def replaced(self, **changes: Any) -> State:
        """Returns a copy with other values of some fields; see `dataclasses.replace`."""
        return replace(self, _moves=None, **changes)

    @property
    def names(self) -> list[str]:
        """The name of each atom, which is its type."""
        return [*self.atoms.names]

    @property
    def sides(self) -> tuple[float, float, float]:
        """The sides of the box in nm."""
        x, y, z = (side / SIDE_UNITS for side in self.box)
        return x, y, z

    @property
    def volume(self) -> float:
        """The volume of the box in nm^3."""
        x, y, z = self.box
        return x * y * z / SIDE_UNITS**3

    def positions(self) -> Array:
        """Returns each atom's position in the current frame in nm, from 0 to below the side: an array of three columns."""
        positions: Array = np.asarray(self.current) * (np.array(self.sides) / PLACES)
        return positions

    def moves(self) -> Triples:
        """Returns each atom's displacement from the previous to the current frame in grid units, exactly: the shorter
        way round the box, from -2^31 to 2^31 - 1.
        """
        if self._moves is None:
            check_frames(self)
            both = zip(self.previous.flat, self.current.flat)
            self._moves = Triples.of_flat(array("i", [(after - before + HALF) % PLACES - HALF for before, after in both]))
        return self._moves

    def velocities(self, dt: float) -> Array:
        """Returns each atom's velocity in nm/ps, half a step before the current frame: an array of three columns. dt is the
        job's step in fs.
        """
        velocities: Array = np.asarray(self.moves()) * (np.array(self.sides) / PLACES * 1000 / dt)
        return velocities

    def reversed(self) -> State:
        """Returns the state with its frames exchanged, which runs through its past; the step counter stays."""
        return self.replaced(previous=self.current, current=self.previous)

    def shifted(self, atom: int, axis: int, places: int) -> State:
        """Returns the state with one coordinate of an atom moved by this many grid units in both frames, which keeps
        its velocity. The axis is 0, 1 or 2.
        """
        frames = [list(self.previous), list(self.current)]
        for frame in frames:
            place = list(frame[atom])
            place[axis] = (place[axis] + places) % PLACES
            frame[atom] = (place[0], place[1], place[2])
        return self.replaced(previous=frames[0], current=frames[1])

    def with_moves(self, scaled_moves: Iterable[Three]) -> State:
        """Returns the state with the same current frame, and with these displacements in grid units from the previous
        frame to it. Raises ValueError if one is half a side or more.
        """
        made = Triples(scaled_moves, "i", "displacement")
        if len(made) != len(self) or made and min(made.flat) == -HALF:
            raise ValueError("an atom would move by half a side or more in one step, or has no displacement")
        before = array("I", [(at - by) % PLACES for at, by in zip(self.current.flat, made.flat)])
        return self.replaced(previous=Triples.of_flat(before))


def check_frames(state: State) -> None:
    """Raises ValueError if a state's numbers of atoms and positions differ."""
    counts = (len(state.atoms), len(state.previous), len(state.current))
    if len({*counts}) > 1:
        raise ValueError("the state has %d atoms, %d previous and %d current positions: give each atom both" % counts)


def atoms_named(
    names: Iterable[str], residues: Iterable[int] | None, residue_names: Iterable[str] | None, count: int
) -> Atoms:
    """Returns this many atoms of these names. Raises ValueError if there are more or fewer, or if no state has a name."""
    kept = [names] * count if isinstance(names, str) else [str(it) for it in names]
    numbers = [at % 99_999 + 1 for at in range(len(kept))] if residues is None else [int(it) for it in residues]
    others = kept if residue_names is None else [str(it) for it in residue_names]
    if not len(kept) == len(numbers) == len(others) == count:
        raise ValueError(f"there are {count} positions, {len(kept)} names, {len(numbers)} residues and {len(others)} residue names")
    atoms = Atoms(map(Atom, numbers, others, kept))
    for atom in {*atoms}:
        if len(atom.columns()) != COLUMNS or atom_of(atom.columns()) != atom:
            raise ValueError(f"no state has an atom {atom}: {NAMES}")
    return atoms


def read_states(source: Source) -> Iterator[State]:
    """Yields the states of a file (a path, an open file or pipe, or lines), with one in memory at a time. Line numbers
    of errors are those of the whole file. Raises FormatError.
    """
    with Lines(source) as lines:
        while (state := next_state(lines)) is not None:
            yield state


def write_states(states: Iterable[State], file: str | os.PathLike[str] | IO[str]) -> None:
    """Writes states one after the other, as `pairmd states` prints them."""
    put(file, (state.text() for state in states))


def next_state(lines: Lines) -> State | None:
    """Reads the next state, or returns None at the end of the file."""
    first = lines.take()
    if first is None:
        return None
    if not first.endswith("\n"):
        raise lines.error("the state is cut off", "S2")
    if first not in ("pairmd state 1\n", "pairmd state 2\n"):
        raise lines.error("a state begins with `pairmd state 1` or `pairmd state 2`", "S1")
    title = following(lines)
    if not title.startswith("title ") or title.endswith("\r"):
        raise lines.error("the second line is `title `, then the title, which doesn't end in CR", "S1")
    (step,) = keyed(lines, "step", 1, -(2**63), 2**63 - 1)
    bits = 32
    if first == "pairmd state 2\n":
        (bits,) = keyed(lines, "bits", 1, *BITS[::2])
        if bits == 32:
            raise lines.error("a state of version 2 has 24 or 40 bits", "S1")
    (count,) = keyed(lines, "atoms", 1, 0, MOST_ATOMS)
    x, y, z = keyed(lines, "box", 3, 1, LONGEST_SIDE)
    atoms, previous, current = read_atoms(lines, count)
    return State(title[len("title ") :], step, (x, y, z), atoms, previous, current, bits)


def read_atoms(lines: Lines, count: int) -> tuple[Atoms, Triples, Triples]:
    """Takes the lines of this many atoms, with numpy if it is installed. Raises FormatError."""
    if count and has_numpy():
        block = lines.block(count)
        if (found := block_of(block, count)) and (atoms := named_in(found[0], lines.seen)):
            return atoms, Triples(found[1][:, :3]), Triples(found[1][:, 3:])
        for line in reversed(block):  # a line by line finds the fault
            lines.give(line)
    kept, numbers = [], array("I")
    for _ in range(count):
        atom, places = read_atom(lines, lines.seen)
        kept.append(atom)
        numbers.extend(places)
    previous, current = array("I", [0]) * (3 * count), array("I", [0]) * (3 * count)
    for axis in range(3):
        previous[axis::3], current[axis::3] = numbers[axis::NUMBERS], numbers[3 + axis :: NUMBERS]
    return Atoms(kept), Triples.of_flat(previous), Triples.of_flat(current)


def named_in(block: bytes, seen: dict[str, Any]) -> Atoms | None:
    """Returns the atoms of the first 15 columns of their lines, or None if one isn't in its only form. `seen` keeps the
    atoms of the last state, and those of columns that were read before.
    """
    if seen.get("block") != block:
        text = block.decode("ascii")
        columns = [text[at : at + 15] for at in range(0, len(text), 15)]
        seen |= {it: atom_of(it) for it in {*columns} - seen.keys()}
        atoms = [seen[it] for it in columns]
        if None in atoms:
            return None
        seen |= {"block": block, "atoms": Atoms(atoms)}
    kept: Atoms = seen["atoms"]
    return kept


def following(lines: Lines) -> str:
    """Takes a line of a state, and returns it without its LF."""
    line = lines.take()
    if line is None or not line.endswith("\n"):
        raise lines.error("the state is cut off", "S2", lines.number + (line is None))
    return line[:-1]


def keyed(lines: Lines, key: str, count: int, least: int, most: int) -> list[int]:
    """Takes a line with a key and this many integers, and returns the integers."""
    words = following(lines).split(" ")
    numbers = [whole(word, least, most) for word in words[1:]]
    if words[0] != key or len(numbers) != count or None in numbers:
        raise lines.error(f"expected `{key}` and {'an integer' if count == 1 else 'three integers'} from {least} to {most}", "S1")
    if key == "bits" and numbers[0] not in BITS:
        raise lines.error("bits are 24 or 40", "S1")
    return [number for number in numbers if number is not None]


def read_atom(lines: Lines, seen: dict[str, Any]) -> tuple[Atom, list[int]]:
    """Takes the line of an atom, and returns its names and six grid coordinates. `seen` has the atoms of columns that were
    read before.
    """
    line = following(lines)
    columns, places = line[:15], line[15:]
    if seen.get(columns) is None:
        seen[columns] = atom_of(columns)
        if seen[columns] is None:
            raise lines.error("the first 15 columns aren't residue number, residue name and atom name", "S1")
    numbers = [*map(int, places.split())] if COORDINATES.fullmatch(places) else [PLACES]
    if max(numbers) >= PLACES:
        raise lines.error("expected six grid coordinates from 0 to 4294967295, each after one space", "S1")
    return seen[columns], numbers


def atom_of(columns: str) -> Atom | None:
    """Returns the atom of 15 columns in the only form that states have, or None."""
    residue = whole(columns[:5].lstrip(" "), -9999, 99999)
    if residue is None or not columns.isascii() or not columns.isprintable():
        return None
    atom = Atom(residue, columns[5:10].rstrip(" "), columns[10:15].lstrip(" "))
    has_spaces = atom.residue_name[:1] == " " or atom.name[-1:] == " "
    return None if has_spaces or atom.columns() != columns else atom
