"""States and their texts: state/specs/StateText."""
from dataclasses import dataclass
from enum import Enum
from typing import List, Tuple

from arithmetic import Frac, bits_of
from library import signed_decimal
from places import Place3, are_places
from texts import ended, is_name, is_title, left_in, right_in, word


@dataclass
class AtomView:
    """state/specs/StateText: AtomView, an atom with its coordinates in two frames."""

    residue_number: int
    residue: bytes
    name: bytes
    previous: Place3
    current: Place3


@dataclass
class StateView:
    """state/specs/StateText: StateView. Its sides x, y and z are in 10^-5 nm."""

    title: bytes
    step: int
    frac: Frac
    sides: Tuple[int, ...]
    atoms: List[AtomView]


class Version(Enum):
    """state/specs/declared/versions/Version: Version, with the first lines of state/specs/StateText: head_line."""

    First = b"pairmd state 1"
    Second = b"pairmd state 2"


# ---- the text


def version_of(frac):
    """state/specs/StateText: version_of. A state with 32 bits has the first version, which doesn't mention bits."""
    return Version.First if frac is Frac.F32 else Version.Second


def bits_in(version, frac):
    """state/specs/StateText: bits_in and bits_line, the line of the bits, only in the second version."""
    return b"" if version is Version.First else ended(b"bits" + word(bits_of(frac)))


def numbers_of(place):
    """state/specs/StateText: numbers_of, the grid coordinates as numbers on an atom's line."""
    return (place.x, place.y, place.z)


def flat_words(numbers):
    """std/specs/List: flat_map, with line_text/specs/Parts: word"""
    return b"".join(word(n) for n in numbers)


def columns_of(atom):
    """state/specs/StateText: columns_of, residue number, residue name and atom name in columns"""
    return right_in(5, signed_decimal(atom.residue_number)) + left_in(5, atom.residue) + right_in(5, atom.name)


def atom_line(atom):
    """state/specs/StateText: atom_line, the columns, then the coordinates of two frames"""
    return columns_of(atom) + flat_words(numbers_of(atom.previous)) + flat_words(numbers_of(atom.current))


def state_text(s):
    """state/specs/StateText: state_text, title_line, step_line, count_line, box_line and atom_lines"""
    version = version_of(s.frac)
    return (
        ended(version.value)
        + ended(b"title " + s.title)
        + ended(b"step " + signed_decimal(s.step))
        + bits_in(version, s.frac)
        + ended(b"atoms" + word(len(s.atoms)))
        + ended(b"box" + flat_words(s.sides))
        + b"".join(ended(atom_line(atom)) for atom in s.atoms)
    )


# ---- states that have a text


def is_side(x):
    """state/specs/StateText: IsSide, in 10^-5 nm"""
    return 0 < x <= 16000000


def is_atom(atom):
    """state/specs/StateText: IsAtom"""
    return (
        -9999 <= atom.residue_number <= 99999
        and is_name(atom.residue)
        and is_name(atom.name)
        and are_places(atom.previous)
        and are_places(atom.current)
    )


def is_state(s):
    """state/specs/StateText: IsState. The counter is a signed integer of 64 bits, and there are three sides
    (line_text/specs/Parts: AreThree).
    """
    return (
        is_title(s.title)
        and -(2**63) <= s.step < 2**63
        and len(s.sides) == 3
        and all(is_side(x) for x in s.sides)
        and len(s.atoms) <= 65536
        and all(is_atom(atom) for atom in s.atoms)
    )


# ---- the state of a text


def numbers_in(line, front):
    """The numbers after the front of a line, each after one space."""
    if not line.startswith(front + b" "):
        raise ValueError(line)
    return tuple(int(part) for part in line[len(front) + 1 :].split(b" "))


def atom_from(line):
    """The atom that a line would describe."""
    x = numbers_in(line[15:], b"")
    return AtomView(
        residue_number=int(line[:5]),
        residue=line[5:10].rstrip(b" "),
        name=line[10:15].lstrip(b" "),
        previous=Place3(*x[:3]),
        current=Place3(*x[3:]),
    )


def candidate(text):
    """The only state whose text this can be. Each part is taken from its position in `state_text`."""
    lines = text.split(b"\n")
    is_first = lines[0] == Version.First.value
    frac = Frac.F32 if is_first else Frac(numbers_in(lines[3], b"bits")[0])
    rest = lines[3:] if is_first else lines[4:]
    return StateView(
        title=lines[1][len(b"title ") :],
        step=numbers_in(lines[2], b"step")[0],
        frac=frac,
        sides=numbers_in(rest[1], b"box"),
        atoms=[atom_from(line) for line in rest[2:-1]],
    )


def state_of(text):
    """engine/specs/RunSpecification: IsTextOf, the state whose text this is, or None. The definitions decide whether the
    candidate is a state, and whether its text is this one.
    """
    try:
        s = candidate(text)
    except (IndexError, TypeError, ValueError):
        return None
    return s if is_state(s) and state_text(s) == text else None
