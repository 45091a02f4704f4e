#!/usr/bin/env python3
"""Sets the temperature of a state: prints the state with its velocities scaled from the temperature of a table.

  pairmd observe JOB STATE --steps 0 --every 1 | examples/temperature.py STATE KELVIN > new_state

The table is the output of `pairmd observe`. If it has several rows, such as those of a run to STATE, their mean
temperature counts. Each velocity is multiplied by the root of KELVIN over that mean: the script moves each atom's
previous coordinates, to the nearest grid unit (halves upward). It uses only fractions and integers, so the output has
the same bytes on every machine.

Kept: all current coordinates, box, title, step counter, names and the order of atoms; the momentum, if it is 0. Not
kept: the way back. A table's temperature is the mean over half a step before and half a step after a frame. Only the
step before can be set, so the next table is near KELVIN, not at it. The temperature of a liquid out of equilibrium also
drifts: set it again about every 50 steps, as `python -m pairmd equilibrate` does.
"""
import os
import sys
from fractions import Fraction

sys.path.insert(1, os.path.join(os.path.dirname(os.path.realpath(__file__)), "..", "python"))
import pairmd  # noqa: E402
from pairmd.temperatures import mean_kelvin, root  # noqa: E402


def main():
    if len(sys.argv) != 3:
        sys.exit("usage: temperature.py STATE KELVIN < TABLE")
    state, wanted = pairmd.State.read(sys.argv[1]), Fraction(sys.argv[2])
    seen = mean_kelvin(map(Fraction, pairmd.Table.read(sys.stdin).exact_column("temperature")))
    if seen <= 0 or wanted < 0:
        sys.exit("a state at rest can't be scaled, and KELVIN must be at least 0")
    scaled = pairmd.scaled_by(state, root(wanted / seen))
    print(f"{float(seen):.2f} K, scaled to {float(wanted):.2f} K", file=sys.stderr)
    scaled.write(sys.stdout)


if __name__ == "__main__":
    main()
