"""How atoms move: displacements, velocity correlation, self-intermediate scattering, non-Gaussian parameter, diffusion.

The functions take iterables of states of one run, and need numpy and scipy. Times come from the step counters. Differences
of grid coordinates are exact 32-bit minimum images; floats come after that. Of states that are equally far apart, each one
is an origin, and correlations are computed by Fourier transforms in time (V. Calandrini et al., Collection SFN 12, 201,
2011). Of others, such as those of `states(.., at=..)`, each pair of states counts at the time between them.
"""

from __future__ import annotations

import math
import statistics
from collections.abc import Callable, Iterable, Iterator, Sequence
from dataclasses import dataclass, field
from fractions import Fraction
from typing import Any

from .averages import OfArrays
from .libraries import Array, fft, np
from .state import State
from .structure import Names, atoms_of, wave_vectors
from .times import logarithmic, spacing_of, ticks_of
from .units import PLACES

BLOCK = 2**21
"""Numbers that a Fourier transform takes at once."""


class Unwrapper:
    """Coordinates of atoms followed from state to state, unwrapped from the first state on: exact sums of 32-bit
    differences. No atom may move half a side or more between two states.
    """

    def __init__(self) -> None:
        self._total: Any = None
        self._last: Any = None

    def add(self, state: State) -> Array:
        """Goes on to a state, and returns the unwrapped coordinates in grid units: int64, with a row for each atom."""
        places = np.asarray(state.current)
        if self._total is None:
            self._total = places.astype(np.int64)
        else:
            self._total = self._total + (places - self._last).astype(np.int32)  # differences wrap as the ring does
        self._last = places
        total: Array = self._total
        return total


def unwrapped(states: Iterable[State]) -> Iterator[Array]:
    """Yields each state's coordinates in grid units, unwrapped from the first state on; see `Unwrapper`."""
    return map(Unwrapper().add, states)


def unwrapped_positions(states: Iterable[State]) -> Iterator[Array]:
    """Yields each state's positions in nm, unwrapped from the first state on; see `Unwrapper`."""
    path = Unwrapper()
    return (path.add(state) * (np.array(state.sides) / PLACES) for state in states)


@dataclass(frozen=True, eq=False)
class Series(OfArrays):
    """A function of time.

    times: in ps.
    values: its values.
    """

    times: Array
    values: Array

    def __repr__(self) -> str:
        ends = f" from {self.times[0]:g} to {self.times[-1]:g} ps" if len(self.times) else ""
        return f"<{type(self).__name__}: {len(self.times)} values{ends}>"


@dataclass(frozen=True, eq=False, repr=False)
class Scattering(Series):
    """A function of time at one wave number.

    q: the mean length of the wave vectors in nm^-1. vectors: their number.
    """

    q: float = field(default=math.nan)
    vectors: int = 0


@dataclass(frozen=True)
class Lags:
    """The pairs of states by the time between them.

    pairs: the pairs of numbers of states, by ticks between them. tick: in ps. even: the number of the first lags that the
    Fourier transform of all states gives, or 0.
    """

    pairs: dict[int, list[tuple[int, int]]]
    tick: Fraction
    even: int

    @property
    def times(self) -> Array:
        """The times in ps."""
        return np.array([float(ticks * self.tick) for ticks in self.pairs])

    def means(self, value: Callable[[int, int], Any]) -> Array:
        """Returns for each time the mean of a function of the two states' numbers."""
        return np.array([sum(value(*both) for both in pairs) / len(pairs) for pairs in self.pairs.values()])


def lags_of(steps: Sequence[int], dt: Any, interval: Any, most: int | None, every: int, sparse: bool = False) -> Lags:
    """Returns the lags of states with these step counters; see `mean_square_displacement`.

    sparse: whether 20 a decade are enough. Raises ValueError.
    """
    if not steps:
        raise ValueError("there are no states")
    ticks, tick = ticks_of(steps, dt, interval)
    spacing = spacing_of(ticks)
    last = len(steps) - 1 if most is not None or spacing is None else (len(steps) - 1) // 2
    last = last if most is None else most
    if not 0 <= last < len(steps) or every < 1:
        raise ValueError(f"{len(steps)} states have at most {len(steps) - 1} intervals: most={last}, every={every}")
    kept = logarithmic(last, 20) if sparse and spacing and last else range(last + 1)
    pairs: dict[int, list[tuple[int, int]]] = {}
    for apart in kept:
        for at in range(0, len(steps) - apart, every):
            pairs.setdefault(ticks[at + apart] - ticks[at], []).append((at, at + apart))
    return Lags(dict(sorted(pairs.items())), tick, last + 1 if spacing and every == 1 and not sparse else 0)


@dataclass
class Paths:
    """The paths of atoms of some types through states of one box.

    steps: the states' step counters. rows: for each state its value for each atom.
    """

    steps: list[int]
    rows: Array

    @classmethod
    def of(cls, states: Iterable[State], names: Names, value: Callable[[State], Array]) -> Paths:
        """Follows a value of atoms, an array with a row for each. Raises ValueError if the states differ in box or atoms."""
        steps: list[int] = []
        rows: list[Array] = []
        for state in states:
            if not steps:
                first, chosen = state, atoms_of(state, names)
            if state.box != first.box or state.atoms != first.atoms:
                raise ValueError("the states have different boxes or atoms: give the states of one run")
            steps.append(state.step)
            rows.append(value(state)[chosen])
        return cls(steps, np.array(rows))


def sums_over_origins(rows: Array, count: int) -> Array:
    """Returns for each lag below `count` the sum over origins t, and over all columns, of a(t) times a(t + lag), of complex
    numbers the conjugate: by Fourier transforms with enough zeros behind the rows.
    """
    columns = rows.reshape(len(rows), -1)
    is_real = not np.iscomplexobj(columns)
    size = fft.next_fast_len(2 * len(rows), is_real)
    width, power = max(BLOCK // size, 1), 0.0
    for at in range(0, columns.shape[1], width):
        wave = (fft.rfft if is_real else fft.fft)(columns[:, at : at + width], size, axis=0)
        power = power + (wave.real**2 + wave.imag**2).sum(axis=1)
    sums: Array = (fft.irfft(power, size) if is_real else fft.ifft(power).real)[:count]
    return sums


def correlation(rows: Array, lags: Lags) -> Array:
    """Returns for each time the mean of a(t) a(t + time), of complex numbers with the conjugate, over origins and columns,
    times the number of columns for each atom.
    """
    if not lags.even:
        return lags.means(lambda at, then: (rows[at].conj() * rows[then]).real.sum() / rows.shape[1])
    means: Array = sums_over_origins(rows, lags.even) / (len(rows) - np.arange(lags.even)) / rows.shape[1]
    return means


def mean_square_displacement(
    states: Iterable[State],
    interval: float | None = None,
    most: int | None = None,
    every: int = 1,
    names: Names = None,
    *,
    dt: float | None = None,
) -> Series:
    """Returns the mean square displacement in nm^2 by time.

    dt: the job's time step in fs; with the states' step counters it gives the times. interval: the time between two states
    in ps, only for states whose counters don't advance. most: the greatest number of intervals between two states, by
    default half of them, or all if the states aren't equally far apart. every: the number of states from one origin to the
    next. names: the types that count, or one; all by default. Raises ValueError if interval, dt and the counters contradict
    one another, or if no atom has a name.
    """
    paths = displaced(states, names)
    lags = lags_of(paths.steps, dt, interval, most, every)
    rows = paths.rows
    if not lags.even:
        return Series(lags.times, lags.means(lambda at, then: ((rows[then] - rows[at]) ** 2).sum() / rows.shape[1]))
    squares = np.concatenate(([0.0], np.cumsum((rows**2).sum(axis=(1, 2)))))
    lag = np.arange(lags.even)
    ends = squares[len(rows) - lag] + squares[-1] - squares[lag]
    values = (ends - 2 * sums_over_origins(rows, lags.even)) / (len(rows) - lag) / rows.shape[1]
    values[0] = 0
    return Series(lags.times, values)


def displaced(states: Iterable[State], names: Names) -> Paths:
    """Returns the displacements of atoms from the first state in nm."""
    path = Unwrapper()
    scaled: Callable[[State], Any] = lambda state: path.add(state) * (np.array(state.sides) / PLACES)  # noqa: E731
    paths = Paths.of(states, names, scaled)
    return Paths(paths.steps, paths.rows - paths.rows[:1])


def velocity_autocorrelation(
    states: Iterable[State], dt: float, interval: float | None = None, most: int | None = None, every: int = 1, names: Names = None
) -> Series:
    """Returns the mean of v(0) v(t) over atoms in nm^2/ps^2, by time.

    dt: the job's time step in fs. interval, most, every, names: as for `mean_square_displacement`. The integral over
    time, over 3, is the diffusion coefficient in nm^2/ps.
    """
    paths = Paths.of(states, names, lambda state: state.velocities(dt))
    lags = lags_of(paths.steps, dt, interval, most, every)
    return Series(lags.times, correlation(paths.rows, lags))


def self_intermediate_scattering(
    states: Iterable[State],
    q: float,
    interval: float | None = None,
    most: int | None = None,
    every: int = 1,
    names: Names = None,
    *,
    dt: float | None = None,
    vectors: int = 12,
) -> Scattering:
    """Returns F_s(q, t), the mean of cos(q dr) over atoms and wave vectors (J.-P. Hansen and I. R. McDonald, Theory of Simple
    Liquids, 7.4).

    q: the wave number in nm^-1; `vectors` wave vectors that fit the box and whose lengths are nearest to it are taken.
    interval, most, every, names, dt: as for `mean_square_displacement`. Phases are exact, as grid coordinates are.
    """
    kept = list(states)
    paths = Paths.of(kept, names, lambda state: np.asarray(state.current))
    lags = lags_of(paths.steps, dt, interval, most, every)
    waves, length = wave_vectors(kept[0].sides, q, vectors)
    values = np.mean([correlation(np.exp(1j * phases(paths.rows, wave)), lags) for wave in waves], axis=0)
    return Scattering(lags.times, values, length, len(waves))


def phases(places: Array, wave: Sequence[int]) -> Array:
    """Returns the phases, in radians, of a wave with these numbers of periods along the sides, at grid coordinates. The sum
    of the products wraps at 2^32, a whole period, so it is exact.
    """
    x, y, z = (places[..., axis] * np.uint32(count % PLACES) for axis, count in enumerate(wave))
    angles: Array = (x + y + z) * (2 * math.pi / PLACES)
    return angles


def non_gaussian_parameter(
    states: Iterable[State],
    interval: float | None = None,
    most: int | None = None,
    every: int = 1,
    names: Names = None,
    *,
    dt: float | None = None,
) -> Series:
    """Returns alpha_2(t) = 3 <dr^4> / (5 <dr^2>^2) - 1 (A. Rahman, Phys. Rev. 136, A405, 1964), from the first time at
    which an atom moved, at about 20 times a decade.

    interval, most, every, names, dt: as for `mean_square_displacement`.
    """
    paths = displaced(states, names)
    lags = lags_of(paths.steps, dt, interval, most, every, sparse=True)

    def powers(at: int, then: int) -> Array:
        """The means of dr^2 and dr^4 from one state to another."""
        squares = ((paths.rows[then] - paths.rows[at]) ** 2).sum(axis=1)
        return np.array([squares.mean(), (squares**2).mean()])

    second, fourth = lags.means(powers).T
    moved = second > 0
    return Series(lags.times[moved], 3 * fourth[moved] / (5 * second[moved] ** 2) - 1)


def diffusion(displacement: Series, first: float, last: float) -> float:
    """Returns the diffusion coefficient in nm^2/ps (10^-2 cm^2/s): a sixth of the least-squares slope of a mean square
    displacement from the time `first` to `last` in ps. Raises ValueError if the series ends before `last`, or has fewer
    than two times in between.
    """
    times, values = (np.asarray(it, dtype=np.float64) for it in (displacement.times, displacement.values))
    end = times.max(initial=0.0)
    if last > end * (1 + 1e-9):
        raise ValueError(f"the series ends at {end:g} ps, before {last} ps: fit up to {end:g}, or follow the atoms longer")
    fitted = (first <= times) & (times <= last * (1 + 1e-9))
    if fitted.sum() < 2:
        raise ValueError(f"the series has {fitted.sum()} times from {first} to {last} ps: a line needs two or more")
    return statistics.linear_regression(times[fitted].tolist(), values[fitted].tolist()).slope / 6
