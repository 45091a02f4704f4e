"""Rows of three integers, such as the grid coordinates of atoms."""

from __future__ import annotations

from array import array
from collections.abc import Iterable, Iterator, Sequence
from itertools import chain
from typing import Any, Union, overload

from .units import Three

KINDS = {"I": (0, 2**32 - 1), "i": (-(2**31), 2**31 - 1), "q": (-(2**63), 2**63 - 1)}
"""The least and the greatest integer of each kind, the type codes of `array`: uint32, int32 and int64 of numpy."""
WORDS = {"I": "grid coordinates", "i": "displacements", "q": "forces"}
ADVICE = {"I": "take it modulo 2^32, the side in grid units", "i": "an atom moves by less than half a side, 2^31 grid units"}
"""What to do about an integer out of range."""


class Triples(Sequence[Three]):
    """Rows of three integers, along x, y and z, that don't change.

    A row is a tuple of Python's integers. `numpy.asarray` of the whole is an array with a row for each, of type uint32
    for grid coordinates, int32 for displacements and int64 for forces: it shares the memory and is read-only. A list with
    the same rows is equal.
    """

    __slots__ = ("_flat",)
    _flat: array[int]

    def __init__(self, rows: Iterable[Any], kind: str = "I", name: str = "") -> None:
        """Takes rows of integers, an array of numpy with three columns, or other Triples.

        kind: the integers' range, of KINDS. name: of a number, for errors. Raises ValueError for a number that is no
        integer or out of range, and for a row without three numbers.
        """
        if isinstance(rows, Triples) and rows._flat.typecode == kind:
            self._flat = rows._flat
        elif hasattr(rows, "dtype"):
            self._flat = _of_array(rows, kind, name)
        else:
            self._flat = _of_rows(rows, kind, name)

    @classmethod
    def of_flat(cls, numbers: array[int]) -> Triples:
        """Takes the numbers of all rows one after the other, in an `array` whose type code is the kind."""
        made = cls.__new__(cls)
        made._flat = numbers
        return made

    @property
    def flat(self) -> Sequence[int]:
        """The numbers of all rows, one after the other. Don't change them."""
        return self._flat

    def __len__(self) -> int:
        return len(self._flat) // 3

    @overload
    def __getitem__(self, at: int) -> Three: ...

    @overload
    def __getitem__(self, at: slice) -> Triples: ...

    def __getitem__(self, at: Union[int, slice]) -> Union[Three, Triples]:
        if isinstance(at, slice):
            return Triples([*self][at], self._flat.typecode)
        row = range(len(self))[at]
        x, y, z = self._flat[3 * row : 3 * row + 3]
        return x, y, z

    def __iter__(self) -> Iterator[Three]:
        numbers = iter(self._flat)
        return zip(numbers, numbers, numbers)

    def __eq__(self, other: object) -> bool:
        if isinstance(other, Triples):
            return self._flat == other._flat
        if isinstance(other, (list, tuple)):
            return [*self] == [tuple(row) for row in other]
        return NotImplemented

    def __hash__(self) -> int:
        return hash(self._flat.tobytes())

    def __repr__(self) -> str:
        shown = ", ".join(map(str, [*self][:2]))
        return f"<Triples: {len(self)} rows, {shown}{', ..' if len(self) > 2 else ''}>"

    def __array__(self, dtype: Any = None, copy: Any = None) -> Any:
        """Returns the array of numpy: a view, unless another type or a copy is wanted."""
        import numpy

        view = numpy.asarray(self._flat).reshape(len(self), 3)
        view.flags.writeable = False
        return view.astype(dtype) if copy or dtype is not None and dtype != view.dtype else view


def _of_rows(rows: Iterable[Any], kind: str, name: str) -> array[int]:
    """The numbers of rows of integers, one after the other."""
    kept: list[tuple[int, ...]] = [tuple(row) for row in rows]
    try:
        flat: array[int] = array(kind, chain.from_iterable(kept))
    except (TypeError, OverflowError):
        raise ValueError(_fault(kept, kind, name)) from None
    if any(len(row) != 3 for row in kept):
        raise ValueError(f"each atom has three numbers{', its ' + name if name else ''}: along x, y and z")
    return flat


def _fault(rows: Iterable[Any], kind: str, name: str) -> str:
    """What is wrong with the first number that isn't an integer in range."""
    least, most = KINDS[kind]
    for number, row in enumerate(rows, 1):
        for it in row:
            if isinstance(it, float) or not hasattr(it, "__index__"):
                return f"atom {number} has the {name} {it!r}: {WORDS[kind]} are integers, so round it"
            if not least <= it <= most:
                return f"atom {number} has the {name} {it}: {ADVICE.get(kind, 'it is out of range')}"
    return f"a {name} isn't an integer from {least} to {most}"


def _of_array(rows: Any, kind: str, name: str) -> array[int]:
    """The numbers of an array of numpy, one after the other."""
    least, most = KINDS[kind]
    if rows.ndim != 2 or rows.shape[1] != 3:
        raise ValueError(f"the array of each {name} has the shape {rows.shape}: give it three columns, x, y and z")
    if rows.dtype.kind not in "iu" or rows.size and not least <= int(rows.min()) <= int(rows.max()) <= most:
        return _of_rows(rows.tolist(), kind, name)
    flat: array[int] = array(kind)
    flat.frombytes(rows.astype(kind).tobytes())
    return flat
