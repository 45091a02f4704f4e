#!/usr/bin/env python3
"""Makes examples/argon.gro: 500 atoms of liquid argon, equilibrated by the program.

  examples/equilibrate.py > argon.gro          PAIRMD names the program

The atoms start on 500 of the 512 sites of a lattice, with velocities from a fixed seed. After each of 100 runs of 50
steps, the velocities (the differences of a state's two frames) are scaled to a temperature of 94 K. Then come 2,000
steps without scaling, and one scaling by their mean. All arithmetic is on integers, so the output has the same bytes on
every machine.

`python -m pairmd lattice` and `equilibrate` do the same for any job. The lattice here is another one, since it was
written before, and argon.gro must not change.
"""
import os
import sys

HERE = os.path.dirname(os.path.realpath(__file__))
sys.path.insert(1, os.path.join(HERE, "..", "python"))
import pairmd  # noqa: E402
from pairmd.lattice import Numbers  # noqa: E402
from pairmd.temperatures import position_decimals, velocity_decimals  # noqa: E402

ATOMS, GRID = 500, 8
SIDE = 287_700  # in 10^-5 nm: 21 atoms per cubic nanometre
NAMES = [pairmd.Atom(number, "AR", "AR") for number in range(1, ATOMS + 1)]


def lattice():
    """A GRO frame of 500 of the 512 sites of a lattice, without drift. The velocities belong to nearly twice the
    temperature.
    """
    numbers = Numbers(20261125)
    sites = [(x, y, z) for x in range(GRID) for y in range(GRID) for z in range(GRID)]
    while len(sites) > ATOMS:
        sites.pop(numbers.below(len(sites)))
    positions = [tuple((2 * count + 1) * SIDE // (2 * GRID * 100) for count in site) for site in sites]
    # the sum of 12 even numbers is nearly Gaussian, here 0.198 nm/ps wide
    velocities = [[numbers.bell() * 99 // 100 for _ in range(3)] for _ in sites]
    drift = [sum(axis) // ATOMS for axis in zip(*velocities)]
    velocities = [tuple(v - mean for v, mean in zip(it, drift)) for it in velocities]
    return pairmd.GroFrame("argon on a grid", NAMES, positions, velocities, (SIDE, SIDE, SIDE))


def main():
    job = pairmd.Job.read(f"{HERE}/argon.job")
    # no further trials: argon.gro is older than they are
    schedule = pairmd.Schedule(trials=0)
    state = pairmd.equilibrate(job, pairmd.start(job, lattice()), 94, schedule, workers=2, say=lambda line: print(line, file=sys.stderr))
    decimals = position_decimals(state), velocity_decimals(state, job)
    pairmd.write_gro([pairmd.GroFrame("Liquid argon, 94 K", NAMES, *decimals, state.box)], sys.stdout)


if __name__ == "__main__":
    main()
