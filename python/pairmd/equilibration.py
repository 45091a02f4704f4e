"""Equilibration: runs with the velocities scaled to a temperature between them.

The program has no thermostat. Each scaling starts a new run: no step back leads past it. All arithmetic is on
integers, so the same program gives the same bytes on every machine.
"""

from __future__ import annotations

from collections.abc import Callable
from dataclasses import dataclass
from fractions import Fraction
from typing import Any

from . import program as commands
from .job import Job
from .state import State
from .units import Exact, exact
from .temperatures import at_temperature, kinetic_sum, temperature


@dataclass(frozen=True)
class Schedule:
    """What `equilibrate` does.

    rounds: the number of runs with a scaling after each. steps: the steps of each such run.
    settling: the number of runs without scaling that follow; then comes a scaling by their mean. settling_steps: the
    steps of each.
    trials: how often such runs may follow again, to see whether the mean is now the wanted temperature within a
    percent. If it isn't, the state is scaled by it once more.
    """

    rounds: int = 100
    steps: int = 50
    settling: int = 100
    settling_steps: int = 20
    trials: int = 3


@dataclass(frozen=True)
class Settling:
    """Runs without scaling: the state after them, and the sum that gives their mean temperature.

    kelvin: the mean temperature. kinetic: the mean of the states' sums of mass times squared displacement.
    """

    end: State
    kelvin: float
    kinetic: int


def silent(_: str) -> None:
    """Prints nothing."""


def equilibrate(
    job: Job,
    state: State,
    kelvin: Exact,
    schedule: Schedule = Schedule(),
    *,
    workers: int = 1,
    say: Callable[[str], Any] = silent,
    program: commands.Named = None,
) -> State:
    """Returns a state near a temperature in K, with the momentum near 0; its step counter goes on from the state's.

    say: a function that gets a line on each tenth of the rounds and on each settling. The temperatures in these lines
    are those of the velocities half a step before the current frame. The last line is about the runs that follow the
    returned state, or says that their mean wasn't within a percent of the temperature and that the state was scaled again.
    """
    wanted = exact(kelvin)
    for number in range(1, schedule.rounds + 1):
        state = commands.run(job, state, schedule.steps, workers=workers, program=program)
        if number % max(schedule.rounds // 10, 1) == 0:
            say(f"round {number} of {schedule.rounds}: {float(temperature(state, job)):.2f} K, scaled to {float(wanted):.2f} K")
        state = at_temperature(state, job, wanted)
    return settled(job, state, wanted, schedule, workers=workers, say=say, program=program)


def settled(
    job: Job, state: State, kelvin: Fraction, schedule: Schedule, *, workers: int, say: Callable[[str], Any], program: commands.Named
) -> State:
    """Returns the state after runs without scaling, scaled by their mean temperature, until the runs that follow have
    the wanted one within a percent.
    """
    if schedule.settling < 1:
        return state
    runs = unscaled(job, state, schedule, workers=workers, say=say, program=program)
    for _ in range(schedule.trials):
        state = at_temperature(runs.end, job, kelvin, runs.kinetic)
        runs = unscaled(job, state, schedule, workers=workers, say=say, program=program)
        if abs(runs.kelvin - float(kelvin)) <= float(kelvin) / 100:
            return state
    say(f"not within 1 % of {float(kelvin):.2f} K: scaled once more, and not run again")
    return at_temperature(runs.end, job, kelvin, runs.kinetic)


def unscaled(
    job: Job, state: State, schedule: Schedule, *, workers: int, say: Callable[[str], Any], program: commands.Named
) -> Settling:
    """Runs without scaling, and says their mean temperature with the least and the greatest."""
    sums, temperatures = [], []
    for _ in range(schedule.settling):
        state = commands.run(job, state, schedule.settling_steps, workers=workers, program=program)
        sums.append(kinetic_sum(state, job))
        temperatures.append(float(temperature(state, job)))
    mean = sum(temperatures) / len(temperatures)
    steps = schedule.settling * schedule.settling_steps
    say(f"{steps:,} steps without scaling: {mean:.2f} K, from {min(temperatures):.1f} to {max(temperatures):.1f} K")
    return Settling(state, mean, sum(sums) // len(sums))
