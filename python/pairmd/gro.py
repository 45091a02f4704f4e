"""GRO files, as `pairmd start` reads and `pairmd frame` and `trajectory` print them, and with more decimals.

docs/FORMATS.md, GRO file, defines the format, with three decimals of positions. `GroFrame.of_state` makes frames with more,
from which `GroFrame.state` gives the state back. Numbers are kept as the integers that their decimals write.
"""

from __future__ import annotations

import os
import re
from collections.abc import Iterable, Iterator
from dataclasses import dataclass
from itertools import count
from typing import IO, Any

from .grids import MOST_ATOMS
from .state import Atom, State
from .texts import Lines, Source, digits, lines_of, put
from .units import PLACES, SIDE_UNITS, Three, decimal_text, nearest

TIME = re.compile(r" t= +(-?[0-9]+\.[0-9]+)(?: step= *(-?[0-9]{1,19}(?![0-9])))?")


@dataclass
class GroFrame:
    """A frame of a GRO file.

    title: any text without LF.
    atoms: the names of each atom.
    positions: in picometres (10^-3 nm); with more decimals in 10^-decimals nm.
    velocities: in 10^-4 nm/ps, or None if no atom has any; with more decimals one more than positions have.
    box: the sides in 10^-5 nm.
    decimals: of positions. The program reads and prints three.
    """

    title: str
    atoms: list[Atom]
    positions: list[Three]
    velocities: list[Three] | None
    box: Three
    decimals: int = 3

    def __len__(self) -> int:
        return len(self.atoms)

    def __repr__(self) -> str:
        x, y, z = self.sides
        kept = "with" if self.velocities else "without"
        return f"<GroFrame {self.title!r}: {len(self)} atoms {kept} velocities, box {x:g} x {y:g} x {z:g} nm>"

    @classmethod
    def parse(cls, text: str) -> GroFrame:
        """Reads the first frame of a text. Raises FormatError."""
        return next(read_gro(lines_of(text)))

    @classmethod
    def of_state(cls, state: State, dt: int, decimals: int | None = None) -> GroFrame:
        """Returns the current frame of a state, with velocities half a step before it, each number rounded to nearest.

        dt: the job's time step in fs. decimals: of positions; by default as many as a grid unit needs, so that `state` gives
        the frames back exactly.
        """
        if decimals is None:
            decimals = next(it for it in count(3) if min(state.box) * 10**it >= PLACES * SIDE_UNITS)
        unit, below = 10**decimals, SIDE_UNITS * PLACES
        places, moves = ([tuple(it) for it in rows] for rows in (state.current, state.moves()))
        positions = [tuple(nearest(x * side * unit, below) for x, side in zip(at, state.box)) for at in places]
        velocities = [tuple(nearest(x * side * unit * 10_000, below * dt) for x, side in zip(by, state.box)) for by in moves]
        return cls(state.title, [*state.atoms], positions, velocities, state.box, decimals)  # type: ignore[arg-type]

    def state(self, dt: int, *, bits: int = 32, step: int = 0) -> State:
        """Returns the state that starts with the frame, as `pairmd start` makes it from three decimals: each number rounded
        to nearest, positions modulo the box, and without velocities at rest.

        dt: the time step of the job in fs. bits: its fraction bits. step: the state's step counter.
        """
        unit, scaled = 10**self.decimals, SIDE_UNITS * PLACES
        places = [[nearest(x * scaled, side * unit) for x, side in zip(at, self.box)] for at in self.positions]
        speeds = [(0, 0, 0)] * len(self) if self.velocities is None else self.velocities
        moves = [[nearest(v * dt * scaled, side * unit * 10_000) for v, side in zip(it, self.box)] for it in speeds]
        before = [[(x - by) % PLACES for x, by in zip(*both)] for both in zip(places, moves, strict=True)]
        now = [[x % PLACES for x in at] for at in places]
        return State(self.title, step, self.box, self.atoms, before, now, bits)  # type: ignore[arg-type]

    @property
    def sides(self) -> tuple[float, float, float]:
        """The sides of the box in nm."""
        x, y, z = (side / SIDE_UNITS for side in self.box)
        return x, y, z

    @property
    def time(self) -> float | None:
        """The time in ps that the title of a trajectory's frame has, or None."""
        found = TIME.search(self.title)
        return float(found[1]) if found else None

    @property
    def step(self) -> int | None:
        """The step counter that the title of a trajectory's frame has, or None."""
        found = TIME.search(self.title)
        return int(found[2]) if found and found[2] else None

    def text(self) -> str:
        """Returns the frame as `pairmd frame` writes it, with velocities if it has any; with more decimals in wider columns.
        Raises ValueError if a number doesn't fit its columns.
        """
        lines = [self.title, f"{len(self):5}"]
        velocities: list[Any] = [()] * len(self) if self.velocities is None else self.velocities
        if not len(self) == len(self.positions) == len(velocities):
            raise ValueError(f"the frame has {len(self)} atoms, {len(self.positions)} positions and {len(velocities)} velocities")
        width, places = self.decimals + 5, self.decimals
        for number, (atom, at, velocity) in enumerate(zip(self.atoms, self.positions, velocities, strict=True), 1):
            columns = [decimal_text(x, places, width) for x in at] + [decimal_text(v, places + 1, width) for v in velocity]
            if any(len(column) > width for column in columns):
                raise ValueError(f"atom {number}: a position or a velocity doesn't fit {width} columns")
            lines.append(f"{atom.columns()}{number % 100_000:5}{''.join(columns)}")
        return "\n".join([*lines, "".join(decimal_text(side, 5, 10) for side in self.box), ""])


def write_gro(frames: Iterable[GroFrame], file: str | os.PathLike[str] | IO[str]) -> None:
    """Writes frames one after the other to a path, or to an open text file."""
    put(file, (frame.text() for frame in frames))


def read_gro(source: Source, *, any_decimals: bool = False) -> Iterator[GroFrame]:
    """Yields the frames of a GRO file (a path, an open file, or lines), with one in memory at a time. Raises
    FormatError, unless `any_decimals` is set also for other than three decimals.
    """
    with Lines(source) as lines:
        first = True
        while first or not is_at_end(lines):
            yield next_frame(lines, None if any_decimals else 3)
            first = False


def is_at_end(lines: Lines) -> bool:
    """Returns whether only blank lines are left. Otherwise the next line is a title, even if it is blank."""
    blank = []
    while (line := lines.take()) is not None and not line.strip(" \r\n"):
        blank.append(line)
    if line is not None:
        for it in [line, *reversed(blank)]:
            lines.give(it)
    return line is None


def bare(lines: Lines) -> tuple[str, bool]:
    """Takes a line, and returns it without LF and the CRs before it, and whether it ends with LF."""
    line = lines.take()
    if line is None:
        raise lines.error("the GRO file is cut off", "G1", lines.number + 1)
    return line.removesuffix("\n").rstrip("\r"), line.endswith("\n")


def next_frame(lines: Lines, decimals: int | None = 3) -> GroFrame:
    """Takes a frame with so many decimals of positions; None for as many as its first atom has."""
    title = bare(lines)[0]
    atoms = digits(bare(lines)[0].strip(" "))
    if atoms is None:
        raise lines.error("the second line of a frame isn't a number of atoms", "G2")
    if atoms > MOST_ATOMS:
        raise lines.error(f"a frame has at most {MOST_ATOMS:,} atoms", "G7")
    frame, seen = GroFrame(title, [], [], [], (0, 0, 0)), False
    for _ in range(atoms):
        line, is_ended = bare(lines)
        decimals = decimals or decimals_of(line)
        atom, at, velocity, has_velocity = atom_line(line, is_ended, lines, decimals)
        frame.atoms.append(atom)
        frame.positions.append(at)
        assert frame.velocities is not None
        frame.velocities.append(velocity)
        seen |= has_velocity
    if not seen:
        frame.velocities = None
    frame.box, frame.decimals = box_line(*bare(lines), lines), decimals or 3
    return frame


def decimals_of(line: str) -> int:
    """Returns the number of decimals of an atom's position: the distance of the first two points less five, as GROMACS
    takes it; three if that is no number of decimals.
    """
    points = [at for at, character in enumerate(line) if character == "." and at >= 20]
    return max(points[1] - points[0] - 5, 0) or 3 if len(points) > 1 else 3


def fixed(field: str, places: int) -> int | None:
    """Returns the number of a field in units of 10^-places, or None if it isn't a decimal with this many digits."""
    found = re.fullmatch(rf" *(-?[0-9]+)\.([0-9]{{{places}}})", field)
    return int(found[1] + found[2]) if found else None


def three(text: str, places: int, width: int) -> Three | None:
    """Returns the decimals of three fields of this width, or None."""
    x, y, z = (fixed(text[at : at + width], places) for at in (0, width, 2 * width))
    return None if x is None or y is None or z is None else (x, y, z)


def residue_of(field: str) -> int | None:
    """Returns the residue number of a field of 5 columns, or None; leading zeros are allowed."""
    found = re.fullmatch(r"-?[0-9]+", field.strip(" "))
    return int(found[0]) if found and -9999 <= int(found[0]) <= 99999 else None


def atom_line(line: str, is_ended: bool, lines: Lines, decimals: int) -> tuple[Atom, Three, Three, bool]:
    """Returns the names, position and velocity of an atom's line, and whether it has a velocity."""
    width = decimals + 5
    end = 20 + 3 * width
    if len(line) < end and not is_ended:
        raise lines.error("the GRO file is cut off", "G1")
    points = [at for at, character in enumerate(line) if character == "." and at >= 20]
    if len(points) < 2 or not all(" " <= character <= "~" for character in line):
        raise lines.error("an atom's line has bytes of 32 to 126, and positions with points from column 20 on", "G3")
    if points[1] - points[0] != width:
        count, columns = ("three", "eight") if decimals == 3 else (decimals, width)
        raise lines.error(f"positions need {count} decimals, in columns of {columns}", "G4")
    tail = line[end:]
    has_velocity = bool(tail.strip(" "))
    velocity: Three | None = (0, 0, 0)
    if has_velocity:
        velocity = three(tail, decimals + 1, width) if len(tail) >= 3 * width else None
    residue, at = residue_of(line[:5]), three(line[20:end], decimals, width)
    if residue is None or at is None or velocity is None or tail[3 * width :].strip(" "):
        raise lines.error("residue number, position or velocity of the atom is malformed", "G3")
    return Atom(residue, line[5:10].strip(" "), line[10:15].strip(" ")), at, velocity, has_velocity


def box_line(line: str, is_ended: bool, lines: Lines) -> Three:
    """Returns the sides of a box line in 10^-5 nm."""
    words = [word for word in re.split(r"[ \t]", line) if word]
    if len(words) < 3 and not is_ended:
        raise lines.error("the GRO file is cut off", "G1")
    found = [re.fullmatch(r"(-?[0-9]{1,12})(?:\.([0-9]{1,5}))?", word) for word in words]
    if not 3 <= len(found) <= 9 or None in found:
        raise lines.error("a box has 3 to 9 decimals with at most five digits after the point", "G5")
    values = [int(it[1] + (it[2] or "").ljust(5, "0")) for it in found if it]
    if any(values[3:]):
        raise lines.error("the box isn't rectangular", "G6")
    return values[0], values[1], values[2]
