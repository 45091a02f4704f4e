"""The times of states, from their step counters."""

from __future__ import annotations

import math
from collections.abc import Sequence
from fractions import Fraction

from .units import Exact, exact


def ticks_of(steps: Sequence[int], dt: Exact | None, interval: Exact | None) -> tuple[list[int], Fraction]:
    """Returns for each state how far it is from the first one, in ticks, and the tick in ps: the time step, or
    `interval` if the step counters don't advance.

    steps: the states' step counters. dt: the job's time step in fs, or None. interval: the time between two states that
    the caller states in ps, or None. Raises ValueError if the counters both rise and fall, if the caller's time contradicts
    them, and if dt is missing although they advance.
    """
    apart = {after - before for before, after in zip(steps, steps[1:])}
    if apart <= {0} and interval is not None:
        return [*range(len(steps))], exact(interval)
    if apart == {0}:
        raise ValueError("the states' step counters don't advance: give interval, the time between two states in ps")
    if min(apart, default=1) <= 0 <= max(apart, default=1):
        raise ValueError("the states' step counters rise and fall: give the states of one run, forwards or back")
    if dt is None:
        counts = ", ".join(str(it) for it in sorted(abs(it) for it in apart)) or "0"
        raise ValueError(f"the states are {counts} steps apart: give dt, the job's time step in fs, so that the time is known")
    tick = exact(dt) / 1000
    if interval is not None:
        check_interval(sorted(abs(it) for it in apart), float(tick), dt, float(exact(interval)))
    return [abs(step - steps[0]) for step in steps], tick


def check_interval(apart: Sequence[int], tick: float, dt: Exact, interval: float) -> None:
    """Raises ValueError if states whose counters differ by these numbers of steps aren't all `interval` ps apart."""
    if not all(math.isclose(interval, count * tick, rel_tol=1e-6) for count in apart):
        real = f"{apart[0]} steps of {dt} fs are {float(exact(dt) * apart[0] / 1000)} ps"
        raise ValueError(f"interval={interval} ps contradicts the step counters: {real}; leave interval out")


def spacing_of(ticks: Sequence[int]) -> int | None:
    """Returns the number of ticks from each state to the next; None if it differs from state to state."""
    apart = {after - before for before, after in zip(ticks, ticks[1:])} or {1}
    return apart.pop() if len(apart) == 1 else None


def interval_of(steps: Sequence[int], dt: Exact | None, interval: Exact | None) -> float:
    """Returns the time from each state to the next in ps. Raises ValueError as `ticks_of`, and if it differs from state to
    state.
    """
    ticks, tick = ticks_of(steps, dt, interval)
    spacing = spacing_of(ticks)
    if spacing is None:
        counts = sorted({after - before for before, after in zip(ticks, ticks[1:])})
        raise ValueError(f"the states aren't equally far apart: their step counters differ by {', '.join(map(str, counts))}")
    return float(tick * spacing)


def logarithmic(last: int, count: int = 10) -> list[int]:
    """Returns the whole numbers 0, 1, .. up to `last` that are nearest to a geometric series with `count` numbers a decade,
    each once: steps for `states(.., at=..)`.
    """
    if last < 1 or count < 1:
        raise ValueError(f"the last step and the count are at least 1: last={last}, count={count}")
    powers = range(math.ceil(count * math.log10(last)))
    return sorted({0, last, *(it for power in powers if (it := round(10 ** (power / count))) < last)})
