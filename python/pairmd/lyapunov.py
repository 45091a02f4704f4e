"""The growth of small differences between runs: distances of states, echoes, and the greatest Lyapunov exponent.

The exponent is computed as Benettin does (G. Benettin, L. Galgani and J.-M. Strelcyn, Phys. Rev. A 14, 2338, 1976): a
state and a twin run side by side, and after each stretch the twin is brought back to a small distance, in the direction
that it then has. So the growth neither saturates nor is lost in the rounding to the grid.
"""

from __future__ import annotations

import math
from concurrent.futures import ThreadPoolExecutor
from dataclasses import dataclass
from itertools import chain

from . import program as commands
from .averages import Mean, block_mean
from .job import Job
from .state import State
from .units import HALF, PLACES, Three, integer, moves, nearest


def distance(one: State, other: State) -> float:
    """Returns the distance of the current frames of two states in grid units: the root of the sum of the squares of all
    coordinates' differences, by minimum images.
    """
    both = zip(one.current, other.current, strict=True)
    return math.sqrt(sum(by * by for by in chain.from_iterable(moves(*pair) for pair in both)))


def brought_near(state: State, twin: State, size: int) -> State:
    """Returns the twin at a distance of `size` grid units from a state, within rounding: the differences of both frames
    are multiplied by the same factor. Raises ValueError if the two have the same positions.
    """
    apart = math.floor(distance(state, twin))
    if not apart:
        raise ValueError("the twin has the positions of the state, so it has no direction")
    pairs = (zip(state.previous, twin.previous, strict=True), zip(state.current, twin.current, strict=True))
    previous, current = ([_between(*both, size, apart) for both in frame] for frame in pairs)
    return twin.replaced(previous=previous, current=current)


def _between(at: Three, other: Three, size: int, apart: int) -> Three:
    """The coordinates that are size/apart of the way from one atom to the other."""
    x, y, z = ((p + nearest(((q - p + HALF) % PLACES - HALF) * size, apart)) % PLACES for p, q in zip(at, other))
    return x, y, z


@dataclass(frozen=True)
class Echo:
    """A run forward, a small change, and the run back.

    turned: the state at which the run turned, without the change. end: the state at the end of the run back.
    distance: of the end from the start in grid units; 0 without a change. growth: the distance over the change.
    """

    turned: State
    end: State
    distance: float
    growth: float


def echo(
    job: Job,
    state: State,
    steps: float,
    *,
    atom: int = 0,
    axis: int = 0,
    size: int = 100_000,
    workers: int = 1,
    program: commands.Named = None,
) -> Echo:
    """Returns the echo of a run of this many steps, in which an atom is moved along an axis (0, 1 or 2) by `size` grid units
    before the run back. The run back retraces the run forward exactly, so the whole distance comes from the change.
    """
    turned = commands.run(job, state, steps, workers=workers, program=program)
    end = commands.back(job, turned.shifted(atom, axis, size), steps, workers=workers, program=program)
    apart = distance(state, end)
    return Echo(turned, end, apart, apart / size if size else 0.0)


def lyapunov_rates(
    job: Job, state: State, steps: float, rounds: int, *, size: int = 1_000_000, workers: int = 1, program: commands.Named = None
) -> list[float]:
    """Returns the growth rate in 1/ps of the distance to a twin in each of some stretches of a run.

    steps: of a stretch; a distance should grow by 2 to 100 in it. rounds: the number of stretches. size: the distance in
    grid units at the start of each: far above the square root of the number of atoms, which rounding adds per step, and
    far below the distance of neighbours. The mean of the rates estimates the greatest Lyapunov exponent. Leave out the
    first few, in which the twin turns into the direction that grows fastest; `lyapunov_exponent` does so. Both runs of a
    stretch are made at once.
    """
    count, rates = integer(steps, "steps"), []
    twin = state.shifted(0, 0, size)
    with ThreadPoolExecutor(2) as pool:
        for _ in range(rounds):
            before = distance(state, twin)
            state, twin = pool.map(lambda it: commands.run(job, it, count, workers=workers, program=program), (state, twin))
            rates.append(math.log(distance(state, twin) / before) / (count * job.time_step))
            twin = brought_near(state, twin, size)
    return rates


def lyapunov_exponent(
    job: Job,
    state: State,
    steps: float,
    rounds: int,
    *,
    discard: int = 5,
    size: int = 1_000_000,
    workers: int = 1,
    program: commands.Named = None,
) -> Mean:
    """Returns the greatest Lyapunov exponent in 1/ps, with its standard error: the mean of `lyapunov_rates` without the
    first `discard` stretches, of blocks of equal length, at most 20. Raises ValueError for fewer than two other stretches.
    """
    if rounds - discard < 2:
        raise ValueError(f"{rounds} stretches without the first {discard} are too few for an error: two or more are needed")
    rates = lyapunov_rates(job, state, steps, rounds, size=size, workers=workers, program=program)[discard:]
    return block_mean(rates, min(len(rates), 20))
