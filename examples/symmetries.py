#!/usr/bin/env python3
"""Tests on a state which symmetries a run keeps exactly.

  examples/symmetries.py JOB STATE [--steps n]

PAIRMD names the program. The script changes a state, runs both states n steps (500 by default),
and compares the end of the changed run with the changed end of the other:

- third law: the exact sums of the forces on all atoms, in 2^-bits kJ/mol/nm;
- translation: all atoms are shifted by the same vector of grid units, round the box;
- drift: all atoms get the same additional velocity, a vector of grid units per step;
- axes: x, y and z of coordinates and sides are permuted;
- reversal: the run back, from exchanged frames, and with `back`;
- mirror image: all x become -x;
- exchange: the atoms in the opposite order, which may change the types;
- momentum: the greatest change of the total momentum in a step, in grid units times 10^-5 u per step, and half the sum
  of the masses, which no step can exceed.

The first five and the last are proved for every accepted job and state. Mirror image and exchange aren't kept. Each
component of a force is rounded down, and the force of a pair is computed for the atom with the lower number.
"""
import argparse
import itertools
import os
import sys

sys.path.insert(1, os.path.join(os.path.dirname(os.path.realpath(__file__)), "..", "python"))
import pairmd  # noqa: E402
from pairmd import PLACES  # noqa: E402


def changed(state, place=lambda p: p, order=None, sides=lambda box: box):
    """The state with each atom's coordinates changed, its atoms in another order, or its box with other sides."""
    order = order or range(len(state))
    previous, current = ([tuple(place(frame[at])) for at in order] for frame in (state.previous, state.current))
    return state.replaced(atoms=[state.atoms[at] for at in order], previous=previous, current=current, box=tuple(sides(state.box)))


def shifted(state, was, now):
    """The state with its two frames shifted by these numbers of grid units, round the box."""
    shifts = [(state.previous, was), (state.current, now)]
    previous, current = ([tuple((x + move) % PLACES for x, move in zip(place, by)) for place in frame] for frame, by in shifts)
    return state.replaced(previous=previous, current=current)


def turned(order):
    """A function that permutes three components."""
    return lambda three: [three[at] for at in order]


def verdict(kept):
    return "kept" if kept else "not kept"


def main():
    parser = argparse.ArgumentParser(usage="symmetries.py JOB STATE [--steps n]")
    parser.add_argument("job")
    parser.add_argument("state")
    parser.add_argument("--steps", type=int, default=500)
    given = parser.parse_args()
    job, state, steps = pairmd.Job.read(given.job), pairmd.State.read(given.state), given.steps
    end = pairmd.run(job, state, steps)

    def keeps(**change):
        return pairmd.run(job, changed(state, **change), steps) == changed(end, **change)

    print("third law    sums", *map(sum, zip(*pairmd.forces(job, state).raw)))
    shift, drift = (1, PLACES // 2, PLACES - 12345), (7, 100_000, PLACES // 3)
    print("translation ", verdict(pairmd.run(job, shifted(state, shift, shift), steps) == shifted(end, shift, shift)))
    begun, ended = [[t * by for by in drift] for t in (0, 1)], [[t * by for by in drift] for t in (steps, steps + 1)]
    print("drift       ", verdict(pairmd.run(job, shifted(state, *begun), steps) == shifted(end, *ended)))
    orders = list(itertools.permutations(range(3)))[1:]
    print("axes        ", verdict(all(keeps(place=turned(it), sides=turned(it)) for it in orders)))
    print("reversal    ", verdict(pairmd.back(job, end, steps) == state and exchanged_comes_back(job, state, end, steps)))
    print("mirror image", verdict(keeps(place=lambda p: [-p[0] % PLACES, *p[1:]])))
    print("exchange    ", verdict(keeps(order=range(len(state))[::-1])))
    masses = job.masses(state.names)
    moves = (it.moves() for it in pairmd.states(job, state, steps, 1))
    sums = [[sum(m * by for m, by in zip(masses, axis)) for axis in zip(*it)] for it in moves]
    most = max(abs(new - old) for one, other in zip(sums, sums[1:]) for old, new in zip(one, other))
    print(f"momentum     {most} of at most {sum(masses) // 2}")


def exchanged_comes_back(job, state, end, steps):
    """Whether the last two frames, exchanged, lead to the first two, exchanged."""
    there = pairmd.run(job, end.reversed(), steps)
    return (there.previous, there.current) == (state.current, state.previous)


if __name__ == "__main__":
    main()
