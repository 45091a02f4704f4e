"""Where atoms are: the distribution of their distances, and the structure factor. They need numpy and scipy."""

from __future__ import annotations

import math
from collections.abc import Iterable, Sequence
from dataclasses import dataclass
from typing import Union

from .averages import OfArrays
from .libraries import Array, np, spatial
from .state import State
from .units import PLACES, Three

Names = Union[str, Iterable[str], None]
"""The name of a type, names of types, or None for all types."""
Vector = tuple[float, float, float]
BLOCK = 500
"""The atoms whose neighbours are counted at once, which bounds the memory."""


@dataclass(frozen=True, eq=False)
class Radial(OfArrays):
    """A distribution of distances, by shells of equal width.

    r: the middle of each shell in nm.
    g: the density of atoms in the shell around an atom, over the mean density.
    number: the mean number of atoms up to the shell's outer end.
    states: the number of states.
    """

    r: Array
    g: Array
    number: Array
    states: int

    def __repr__(self) -> str:
        return f"<Radial: {len(self.r)} shells, {self.states} states>"


def radial_distribution(
    states: Iterable[State], width: float = 0.005, limit: float | None = None, names: str | Sequence[str] | None = None
) -> Radial:
    """Returns g(r) over states with one box, by minimum images.

    width: of a shell in nm. limit: the end of the last shell, at most (by default) half the shortest side.
    names: the types of the atom in the middle and of its neighbours, or one name for both; all by default.
    Raises ValueError if an argument is out of range, if the boxes differ, or if no pair has these names.
    """
    middle, neighbours = pair_of_names(names)
    box, seen = None, 0
    for state in states:
        if box is None:
            box, volume, most = state.box, state.volume, shells_up_to(state, width, limit)
            first, second, counts = atoms_of(state, middle), atoms_of(state, neighbours), np.zeros(most, dtype=np.int64)
        if state.box != box:
            raise ValueError("the states have different boxes: take g(r) of those with one box")
        counts += count_distances(state, first, second, width, most)
        seen += 1
    if box is None:
        raise ValueError("there are no states")
    return radial_of(counts, width, len(first) * seen, neighbours_of(first, second) / volume, seen)


def pair_of_names(names: str | Sequence[str] | None) -> tuple[Names, Names]:
    """Returns the names of the atom in the middle and of its neighbours, None for all."""
    if names is None or isinstance(names, str):
        return names, names
    if len(names) != 2:
        raise ValueError(f"names are two, of the atom in the middle and of its neighbours, and here are {len(names)}")
    return names[0], names[1]


def atoms_of(state: State, names: Names) -> Array:
    """Returns the indices of the atoms of some types. Raises ValueError for a name that no atom has."""
    known = state.names
    if names is None:
        return np.arange(len(known))
    chosen = {names} if isinstance(names, str) else {*names}
    if unknown := sorted(chosen - {*known}):
        raise ValueError(f"no atom is named {', '.join(unknown)}: the state's names are {', '.join(sorted({*known}))}")
    return np.array([at for at, name in enumerate(known) if name in chosen])


def shells_up_to(state: State, width: float, limit: float | None) -> int:
    """Returns the number of shells of g(r). Raises ValueError if the limit is beyond half the shortest side."""
    most = min(state.sides) / 2
    end = most if limit is None else limit
    if not 0 < width <= end:
        raise ValueError(f"the width of a shell is above 0 and at most the limit: width={width}, limit={end}")
    if end > most * (1 + 1e-12):
        raise ValueError(f"limit={limit} nm is beyond half the shortest side: the greatest that works is {most} nm")
    return math.floor(end / width + 1e-9)


def neighbours_of(first: Array, second: Array) -> float:
    """Returns the mean number of atoms of `second` around one of `first`, itself excepted. Raises ValueError if it is 0."""
    pairs = len(first) * len(second) - len(np.intersect1d(first, second))
    if not pairs:
        raise ValueError("no pair of atoms has these names in the states")
    return pairs / len(first)


def radial_of(counts: Array, width: float, middles: int, density: float, seen: int) -> Radial:
    """Returns g(r) from the counts of its shells around `middles` atoms of `seen` states, in a mean density."""
    edges = np.arange(len(counts) + 1) * width
    volumes = 4 / 3 * math.pi * np.diff(edges**3)
    return Radial((edges[1:] + edges[:-1]) / 2, counts / middles / (volumes * density), np.cumsum(counts) / middles, seen)


def count_distances(state: State, first: Array, second: Array, width: float, most: int) -> Array:
    """Returns for each of `most` shells the number of pairs of an atom of `first` and another of `second`."""
    positions, counts = state.positions(), np.zeros(most, dtype=np.int64)
    is_same = np.array_equal(first, second)
    everyone = None if is_same else spatial.cKDTree(positions[second], boxsize=state.sides)
    for at in range(0, len(first), BLOCK):
        block = first[at : at + BLOCK]
        tree, later = spatial.cKDTree(positions[block], boxsize=state.sides), first[at + BLOCK :]
        if everyone is not None:
            counts += shells_between(tree, everyone, block, second, width, most)
            continue
        counts += shells_between(tree, tree, block, block, width, most)
        if len(later):  # each pair is found once and counts twice
            rest = spatial.cKDTree(positions[later], boxsize=state.sides)
            counts += 2 * shells_between(tree, rest, block, later, width, most)
    return counts


def shells_between(tree: spatial.cKDTree, other: spatial.cKDTree, first: Array, second: Array, width: float, most: int) -> Array:
    """Returns the counts of the shells of the distances from atoms of one tree to those of the other, without those of an
    atom to itself. first, second: the indices of the trees' atoms.
    """
    found = tree.sparse_distance_matrix(other, most * width, output_type="ndarray")
    distances = found["v"]
    if np.intersect1d(first, second).size:
        distances = distances[first[found["i"]] != second[found["j"]]]
    shells: Array = np.bincount((distances / width).astype(np.intp), minlength=most)[:most]
    return shells


@dataclass(frozen=True, eq=False)
class StructureFactor(OfArrays):
    """A structure factor by wave number.

    q: the mean length of the wave vectors of each shell in nm^-1. s: the mean over them. vectors: their number, of a vector
    and its negative only one. states: the number of states.
    """

    q: Array
    s: Array
    vectors: Array
    states: int

    def __repr__(self) -> str:
        return f"<StructureFactor: {len(self.q)} shells, {self.states} states>"


def structure_factor(
    states: Iterable[State], limit: float = 30.0, width: float | None = None, names: str | Sequence[str] | None = None
) -> StructureFactor:
    """Returns S(q) over states with one box, from all wave vectors that fit the box: the mean of |rho_q|^2 / N, of two types
    that of rho_a rho_b* / (N_a N_b)^(1/2) (N. W. Ashcroft and D. C. Langreth, Phys. Rev. 156, 685, 1967).

    limit: the greatest wave number in nm^-1. width: of a shell, by default that of the least wave vector, 2 pi over the
    longest side. names: one type or two; all atoms by default. Raises ValueError if an argument is out of range, if the
    boxes differ, or if no atom has a name.
    """
    one, other = pair_of_names(names)
    box, seen = None, 0
    for state in states:
        if box is None:
            box, first, second = state.box, atoms_of(state, one), atoms_of(state, other)
            shells = WaveShells(state.sides, limit, width or 2 * math.pi / max(state.sides))
            total = np.zeros(len(shells.counts))
        if state.box != box:
            raise ValueError("the states have different boxes: take S(q) of those with one box")
        places = np.asarray(state.current)
        total += shells.sums(places[first], places[second] if one != other else None)
        seen += 1
    if box is None:
        raise ValueError("there are no states")
    kept = shells.counts > 0
    means = total[kept] / shells.counts[kept] / (seen * math.sqrt(len(first) * len(second)))
    return StructureFactor(shells.lengths[kept], means, shells.counts[kept], seen)


class WaveShells:
    """The wave vectors that fit a box, up to a length, by shells; of a vector and its negative only one.

    counts: the number of vectors of each shell. lengths: their mean length in nm^-1.
    """

    def __init__(self, sides: Vector, limit: float, width: float) -> None:
        """Raises ValueError if no vector is below the limit."""
        least = 2 * math.pi / np.array(sides)
        self.most = np.floor(limit / least * (1 + 1e-9)).astype(int)
        if not 0 < width <= limit or not self.most.any():
            raise ValueError(f"limit={limit} per nm is below the box's least wave number, {least.min():.4g}, or below width={width}")
        x, y, z = np.meshgrid(*self.periods(), indexing="ij")
        length = np.sqrt((x * least[0]) ** 2 + (y * least[1]) ** 2 + (z * least[2]) ** 2)
        half = (x > 0) | (y > 0) | (y == 0) & (z > 0)
        self.shell = np.where(half & (length <= limit * (1 + 1e-9)), (length / width + 1e-9).astype(int) + 1, 0).ravel()
        self.counts = self._binned(None)
        self.lengths = self._binned(length.ravel()) / np.maximum(self.counts, 1)

    def periods(self) -> list[Array]:
        """The numbers of periods along each side: along x from 0 on, since a vector's negative has the same factor."""
        return [np.arange(0 if axis == 0 else -most, most + 1) for axis, most in enumerate(self.most)]

    def _binned(self, weights: Array | None) -> Array:
        """The sum of the weights of each shell's vectors, or their number."""
        return np.bincount(self.shell, weights)[1:]

    def sums(self, places: Array, others: Array | None) -> Array:
        """Returns for each shell the sum of the real part of rho_q of some atoms times the conjugate of that of others (by
        default the same).
        """
        rows = [self.densities(places)] if others is None else [self.densities(places), self.densities(others)]
        return self._binned((rows[0] * rows[-1].conj()).real.ravel())

    def densities(self, places: Array) -> Array:
        """Returns rho_q, the sum over atoms of exp(-i q r), for all numbers of periods. Phases are exact; the sums are products
        of matrices.
        """
        x, y, z = (self._waves(places[:, axis], counts) for axis, counts in enumerate(self.periods()))
        return np.array([(wave * y) @ z.T for wave in x])

    @staticmethod
    def _waves(places: Array, counts: Array) -> Array:
        """The waves with these numbers of periods along a side, at grid coordinates along it."""
        turns = counts.astype(np.uint32)[:, None] * places[None, :]  # wraps at a whole period
        waves: Array = np.exp(turns * (-2j * math.pi / PLACES))
        return waves


def wave_vectors(sides: Vector, q: float, count: int) -> tuple[list[Three], float]:
    """Returns the numbers of periods along the sides of the wave vectors whose lengths are nearest to q in nm^-1, and their
    mean length. Raises ValueError if q isn't above 0.
    """
    if not q > 0 or count < 1:
        raise ValueError(f"a wave number is above 0 and at least one vector is needed: q={q}, vectors={count}")
    shells = WaveShells(sides, max(q, 2 * math.pi / min(sides)) * 1.1 + 2 * math.pi / min(sides), 2 * math.pi / max(sides))
    grid = np.stack(np.meshgrid(*shells.periods(), indexing="ij"), axis=-1).reshape(-1, 3)[shells.shell > 0]
    lengths = np.sqrt(((grid * (2 * math.pi / np.array(sides))) ** 2).sum(axis=1))
    nearest = np.argsort(abs(lengths - q), kind="stable")[:count]
    return [(int(x), int(y), int(z)) for x, y, z in grid[nearest]], float(lengths[nearest].mean())
