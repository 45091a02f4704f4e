"""Positions and velocities in floats as grid coordinates, and lines of atoms at numpy's speed. All of it needs numpy.

What a state can't hold raises NotHeld, with one of these names: `WrongShape`, `NotFinite`, `SideOutOfRange`, `SideOffGrid`,
`AtomOutside`, `NoVelocities`, `TooFast`, `TooManyAtoms`.
"""

from __future__ import annotations

import functools
from typing import Any

from .errors import NotHeld
from .libraries import Array, np
from .units import HALF, PLACES, SIDE_UNITS, Three

MOST_ATOMS = 65_536
LONGEST_SIDE = 16_000_000  # in 10^-5 nm
SLACK = 1e-6
"""A side may be off by so much of 10^-5 nm, as floats that come from Angstrom are."""
COLUMNS, NUMBERS, DIGITS = 15, 6, 10
"""The columns of an atom's names, the numbers after them, and the most digits of a number."""
LF, SPACE, ZERO = 10, 32, 48
SLICE = 1000
"""The lines that are parsed at once. The system gives larger arrays new pages each time, which takes as long as parsing."""


def rows_of(values: Any, what: str) -> Array:
    """Returns an array of floats with a row for each atom and three columns. Raises NotHeld."""
    rows = np.asarray(values, dtype=np.float64)
    if rows.ndim != 2 or rows.shape[1] != 3:
        raise NotHeld("WrongShape", f"the {what} have the shape {rows.shape}: give a row for each atom, with x, y and z")
    if len(rows) > MOST_ATOMS:
        raise NotHeld("TooManyAtoms", f"a state has at most {MOST_ATOMS:,} atoms, and here are {len(rows):,}")
    if not np.isfinite(rows).all():
        raise NotHeld("NotFinite", f"atom {1 + int(np.argmin(np.isfinite(rows).all(axis=1)))} has {what} that aren't finite")
    return rows


def box_of(sides: Any, rescale: bool) -> Three:
    """Returns the sides of a box in 10^-5 nm, from those in nm. Raises NotHeld, for a side between two multiples only if
    `rescale` isn't set.
    """
    box = []
    for axis, side in zip("xyz", np.broadcast_to(np.asarray(sides, dtype=np.float64), 3).tolist(), strict=True):
        units = side * SIDE_UNITS
        if not 1 - SLACK <= units <= LONGEST_SIDE + SLACK:
            raise NotHeld("SideOutOfRange", f"a side is from 0.00001 to 160 nm, and along {axis} it is {side} nm")
        box.append(round(units))
        if abs(units - box[-1]) > SLACK and not rescale:
            advice = "rescale=True takes the nearest one, and scales positions and velocities with it"
            raise NotHeld("SideOffGrid", f"the side along {axis}, {side} nm, is no multiple of 10^-5 nm: {advice}")
    return box[0], box[1], box[2]


def places_of(positions: Array, sides: Array, wrap: bool) -> Array:
    """Returns the grid coordinates nearest to positions in nm in a box, as uint32. Raises NotHeld for an atom outside
    unless `wrap` is set, which takes positions modulo the sides.
    """
    parts = positions / sides
    places: Array = np.rint((parts - np.floor(parts) if wrap else parts) * PLACES)
    outside = ((places < 0) | (places > PLACES)).any(axis=1)
    if outside.any():
        atom = int(np.argmax(outside))
        where = ", ".join(f"{x:.9g}" for x in positions[atom])
        raise NotHeld("AtomOutside", f"atom {atom + 1} is at {where} nm, outside the box: wrap=True takes positions modulo the sides")
    grid: Array = places.astype(np.int64).astype(np.uint32)
    return grid


def moves_of(velocities: Array, sides: Array, dt: float) -> Array:
    """Returns the displacements in a time step of dt fs nearest to velocities in nm/ps, in grid units. Raises NotHeld if an
    atom moves by half a side or more.
    """
    moves: Array = np.rint(velocities * (dt / 1000) / sides * PLACES)
    fast = (abs(moves) >= HALF).any(axis=1)
    if fast.any():
        raise NotHeld("TooFast", f"atom {1 + int(np.argmax(fast))} moves by half a side or more in a step of {dt} fs")
    return moves.astype(np.int64)


def frames_of(positions: Any, velocities: Any, sides: Any, dt: float, wrap: bool, rescale: bool) -> tuple[Three, Array, Array]:
    """Returns the box in 10^-5 nm, and the grid coordinates of the previous and of the current frame; see
    `State.from_arrays`. Raises NotHeld.
    """
    if velocities is None:
        raise NotHeld("NoVelocities", "there are no velocities: give zeros for a start at rest")
    at, speeds = rows_of(positions, "positions"), rows_of(velocities, "velocities")
    if len(at) != len(speeds):
        raise NotHeld("WrongShape", f"there are {len(at)} positions and {len(speeds)} velocities")
    box = box_of(sides, rescale)
    # the sides that positions belong to: the given ones, if the box differs from them by more than a rounded float
    given = np.broadcast_to(np.asarray(sides, dtype=np.float64), 3)
    exact = np.asarray(box) / SIDE_UNITS
    within = np.where(abs(given - exact) * SIDE_UNITS > SLACK, given, exact)
    current = places_of(at, within, wrap)
    previous = (current.astype(np.int64) - moves_of(speeds, within, dt)) % PLACES
    return box, previous.astype(np.uint32), current


def block_of(lines: list[str], count: int) -> tuple[bytes, Array] | None:
    """Returns the first 15 columns of this many atoms' lines of a state, and an array of their six grid coordinates; None
    if a line isn't in its only form, or if there are fewer lines.
    """
    if len(lines) != count:
        return None
    names, numbers = list[bytes](), list[Array]()
    for at in range(0, count, SLICE):
        part = slice_of(lines[at : at + SLICE])
        if part is None:
            return None
        names.append(part[0])
        numbers.append(part[1])
    return b"".join(names), np.concatenate(numbers)


def slice_of(lines: list[str]) -> tuple[bytes, Array] | None:
    """Returns the result of `block_of` for some of its lines."""
    text = "".join(lines)
    if not text.isascii():
        return None
    figures = np.frombuffer(bytearray(text, "ascii"), np.uint8)
    ends = np.flatnonzero(figures == LF)
    if len(ends) != len(lines) or ends[-1] != len(text) - 1:
        return None
    starts: Array = np.append(0, ends[:-1] + 1)
    if (ends - starts < COLUMNS + 2 * NUMBERS).any():
        return None
    columns = np.ndarray(len(text) - COLUMNS + 1, f"V{COLUMNS}", figures, strides=(1,))  # from each byte on
    names = columns[starts].tobytes()
    columns[starts] = np.void(b"0" * COLUMNS)  # now whatever is no digit is a gap between numbers
    numbers = numbers_of(figures, ends)
    return None if numbers is None else (names, numbers)


def numbers_of(figures: Array, ends: Array) -> Array | None:
    """Returns the six grid coordinates of lines that begin with 15 digits and end at these bytes; None if one isn't in its
    only form, or comes after anything but one space.
    """
    gaps = np.flatnonzero(figures - np.uint8(ZERO) > 9)  # below 0 they wrap
    if len(gaps) != len(ends) * (NUMBERS + 1) or (gaps[NUMBERS :: NUMBERS + 1] != ends).any():
        return None
    if np.count_nonzero(figures == SPACE) != len(ends) * NUMBERS:
        return None
    lengths = np.diff(gaps, prepend=-1) - 1
    rows = lengths.reshape(-1, NUMBERS + 1)
    if lengths.min() < 1 or (rows[:, 0] != COLUMNS).any() or rows[:, 1:].max() > DIGITS:
        return None
    numbers = integers_before(gaps, lengths, figures)
    if (numbers < masks()[2][lengths]).any() or numbers.max() >= PLACES:
        return None
    grid: Array = numbers.astype(np.uint32).reshape(rows.shape)[:, 1:]
    return grid


def integers_before(stops: Array, lengths: Array, figures: Array) -> Array:
    """Returns the integers of these lengths that end before these bytes; a longer one than ten digits has only zeros. The
    last eight digits are the bytes of one word, so three steps add them: to pairs, fours and eights.
    """
    last, first, _ = masks()
    numbers = np.ndarray(len(figures) - 7, "<u8", figures, strides=(1,))[stops - 8] & last[lengths]
    for bits, base, mask in ((8, 10, 0x00FF00FF00FF00FF), (16, 100, 0x0000FFFF0000FFFF), (32, 10_000, 0x00000000FFFFFFFF)):
        numbers = (numbers * base + (numbers >> bits)) & mask
    pairs = np.ndarray(len(figures) - 1, "<u2", figures, strides=(1,))[stops - DIGITS] & first[lengths]
    integers: Array = numbers + ((pairs * 10 + (pairs >> 8)) & 0xFF) * 10**8
    return integers


@functools.cache
def masks() -> tuple[Array, Array, Array]:
    """Returns three arrays with an entry for each number of digits: the bits of the digits' values in the last eight bytes,
    those in the two bytes before, and the least integer with so many digits.
    """
    counts = range(COLUMNS + 1)
    last = [0x0F0F0F0F0F0F0F0F >> bits << bits for bits in (8 * max(8 - it, 0) for it in counts)]
    first = [0x0F0F >> bits << bits for bits in (8 * min(max(DIGITS - it, 0), 2) for it in counts)]
    least = [10 ** (it - 1) if 2 <= it <= DIGITS else 0 for it in counts]
    return np.array(last, np.uint64), np.array(first, np.uint64), np.array(least, np.uint64)
