"""Means of series, with errors. They need numpy."""

from __future__ import annotations

import math
from collections.abc import Sequence
from dataclasses import dataclass, fields
from typing import Any

from .libraries import np


class OfArrays:
    """A base of records with arrays, which are equal if all their values are."""

    def __eq__(self, other: object) -> bool:
        if type(self) is not type(other):
            return NotImplemented
        return all(np.array_equal(getattr(self, it.name), getattr(other, it.name)) for it in fields(self))

    __hash__ = None  # type: ignore[assignment]


@dataclass(frozen=True)
class Mean:
    """A mean, its standard error, and the number of blocks of which the error was estimated."""

    value: float
    error: float
    blocks: int

    def __str__(self) -> str:
        """The mean with the error of its last digits in parentheses, such as 93.73(12)."""
        if not 0 < self.error < math.inf:
            return f"{self.value:.6g}"
        digits = max(0, 1 - math.floor(math.log10(self.error)))
        return f"{self.value:.{digits}f}({round(self.error * 10**digits)})" if digits else f"{self.value:.0f}({self.error:.0f})"


def block_mean(values: Any, blocks: int = 20) -> Mean:
    """Returns the mean of a series, and its standard error from the means of this many blocks of equal length.

    Values at the start that fill no block are left out. The error is right if a block is longer than the correlation
    time: compare several numbers of blocks, or see `block_errors`.
    """
    series = np.asarray(values, dtype=np.float64)
    length = len(series) // blocks if blocks > 1 else 0
    if length < 1:
        raise ValueError(f"{len(series)} values don't make {blocks} blocks; two or more blocks are needed")
    means = series[len(series) - blocks * length :].reshape(blocks, length).mean(axis=1)
    return Mean(float(means.mean()), float(means.std(ddof=1)) / math.sqrt(blocks), blocks)


def block_errors(values: Sequence[float]) -> list[tuple[int, Mean]]:
    """Returns the mean with its error for blocks of 1, 2, 4, .. values, while there are at least 8 blocks
    (H. Flyvbjerg and H. G. Petersen, J. Chem. Phys. 91, 461, 1989). The error is where these errors no longer grow.
    """
    lengths = [2**power for power in range(len(values).bit_length()) if len(values) >> power >= 8]
    return [(length, block_mean(values, len(values) // length)) for length in lengths]
