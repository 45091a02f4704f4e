#!/usr/bin/env python3
"""Prints how fast runs diverge that begin nearly alike, and how far an echo ends from its start.

  examples/divergence.py [--echo] [--places D] [--steps n] [--every k] JOB STATE

PAIRMD names the program.

The script moves one coordinate of an atom by D grid units (100,000 by default) in both frames of the state, so its
velocity stays. It runs the state and five such twins n steps (7 ps) with `pairmd states`, and prints every k steps
(0.2 ps) the distance of the twins over D: geometric mean, least and greatest. A distance is the root of the sum of
squares over all coordinates.

The last line has the growth rate of the logarithm, an estimate of the greatest Lyapunov exponent: the slope of the
least-squares line through the mean, and the least and greatest slope of a twin. The rows of the fit are those with a
mean distance
- of at least three changes, since the change first turns into the direction that grows,
- of at least three times what rounding adds (a change below that is reported),
- of at most 2 % of the distance between neighbours, per atom: beyond it the growth saturates.

--echo runs the state n steps forward, moves the coordinate there, and runs back. The last row is then the distance of
the echo's end from the start.

`pairmd.lyapunov_rates` estimates the exponent from a run of any length.
"""
import argparse
import math
import os
import statistics
import sys

sys.path.insert(1, os.path.join(os.path.dirname(os.path.realpath(__file__)), "..", "python"))
import pairmd  # noqa: E402

TWINS = 5
TURNED = 3
"""The growth, from the change or from what rounding adds, from which on the growth is exponential."""
NOISE = 600
"""The distance that rounding adds in a run, over what it adds in a step: measured in liquid argon."""
SATURATED = 0.02
"""The distance of an atom's twins, over that of neighbours, from which on the growth is no longer exponential."""


def noise(atoms):
    """The distance in grid units that rounding adds: in a step each coordinate of both runs is off by up to a half."""
    return NOISE * math.sqrt(3 * atoms / 6)


def saturation(atoms):
    """The distance in grid units from which on the growth saturates."""
    return SATURATED * pairmd.PLACES / atoms ** (1 / 3) * math.sqrt(atoms)


def twins_of(job, state, size, how):
    """The distances from a state's run to those of its twins, one row per twin, each with a distance per state."""
    own = list(pairmd.states(job, state, **how))
    for number in range(TWINS):
        changed = state.shifted(number * len(state) // TWINS, number % 3, size)
        yield [pairmd.distance(*both) for both in zip(own, pairmd.states(job, changed, **how))]


def window(means, size, atoms):
    """The numbers of the rows between the transient and saturation, from the mean distances."""
    begin, end = TURNED * max(size, noise(atoms)), saturation(atoms)
    first = next((at for at, it in enumerate(means) if it >= begin), len(means))
    last = next((at for at, it in enumerate(means) if it > end), len(means))
    return range(first, last)


def exponent(times, rows, size, atoms):
    """The line on the growth rate, from the times in ps and the distances of each twin."""
    means = [math.prod(column) ** (1 / len(column)) for column in zip(*rows)]
    fitted = window(means, size, atoms)
    if len(fitted) < 3:
        few = f"no exponent: {len(fitted)} rows between transient and saturation"
        return f"{few}; take more --steps" if max(means) < saturation(atoms) else f"{few}; take a smaller --every or --places"
    at = [times[number] for number in fitted]
    lines = (statistics.linear_regression(at, [math.log(row[it]) for it in fitted]) for row in (means, *rows))
    mean, *each = (line.slope for line in lines)
    ends = f"from {times[fitted[0]]:.2f} to {times[fitted[-1]]:.2f} ps"
    return f"{ends} the logarithm grows by {mean:.2f} per ps ({min(each):.2f} to {max(each):.2f} in {len(each)} runs)"


def main():
    parser = argparse.ArgumentParser(description=__doc__, formatter_class=argparse.RawDescriptionHelpFormatter)
    parser.add_argument("--echo", action="store_true")
    parser.add_argument("--places", type=int, default=100_000)
    parser.add_argument("--steps", type=int)
    parser.add_argument("--every", type=int)
    parser.add_argument("job")
    parser.add_argument("state")
    given = parser.parse_args()
    if given.places < 1:
        parser.error("--places is at least 1")
    job, state = pairmd.Job.read(given.job), pairmd.State.read(given.state)
    every = given.every or max(200 // job.dt, 1)
    how = {"steps": given.steps or 35 * every, "every": every, "back": given.echo}
    if given.echo:
        state = pairmd.run(job, state, how["steps"])
    rows = list(twins_of(job, state, given.places, how))
    times = [at * every * job.time_step for at in range(len(rows[0]))]
    for time, *column in zip(times, *([it / given.places for it in row] for row in rows)):
        print("%6.2f ps: %10.2f times, from %.2f to %.2f" % (time, math.prod(column) ** (1 / TWINS), min(column), max(column)))
    if given.places < noise(len(state)):
        print(f"a change of {given.places} grid units is below {noise(len(state)):,.0f}: rounding adds more to these distances")
    print(exponent(times, rows, given.places, len(state)))


if __name__ == "__main__":
    main()
