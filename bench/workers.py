#!/usr/bin/env python3
"""Measures steps of pairmd with several numbers of workers, and how their time grows with the number of atoms.

The system is liquid argon on a lattice, slightly displaced, with Lennard-Jones and its mixing rules. A figure is the
time of a run minus that of a shorter run, so reading, verifying and writing drop out; the minimum of several runs, in
which the numbers of workers take turns. The script needs only Python and the program, which PAIRMD names: `make
pairmd`, then `PAIRMD=./pairmd bench/workers.py`.

--there-and-back measures nothing. It runs forward and back, and prints whether the starting bytes came back, and
whether each number of workers gave the same bytes. The exit status is 1 if not.
"""

import argparse
import os
import sys
import tempfile

from argon import CUTOFF, LENNARD_JONES, SHAPES, TIGHT, acting_pairs, argon, asked_pairs, job, least_cutoff, state
from running import Steps, least_memory, program, run, write

ATOM_STEPS = 200_000  # atom-steps of the longer run, about, unless --steps is given


class Liquid:
    """Argon in a box: its files, and the numbers of its pairs of each kind."""

    def __init__(self, atoms, shape, room):
        sides, places = argon(atoms, SHAPES[shape][atoms])
        short = least_cutoff(sides, CUTOFF)
        self.atoms = atoms
        self.state = write(room, f"{atoms}.state", state(sides, places))
        self.job = write(room, f"{atoms}.job", job(LENNARD_JONES, CUTOFF))
        self.short_job = write(room, f"{atoms}.short.job", job(LENNARD_JONES, short))
        self.places, self.sides, self.short = places, sides, short

    def count(self):
        """Counts the candidate pairs, the interacting pairs, and those that interact under the short job."""
        self.asked = asked_pairs(self.sides, self.places, CUTOFF)
        self.acting = acting_pairs(self.sides, self.places, CUTOFF)
        self.few = acting_pairs(self.sides, self.places, self.short)


# ---- figures

HEAD = ["atoms", "workers", "asked/acting", "ms/step", "ns/acting", "ns/atom-step", "times", "busy", "atomic ns", "share %", "MB"]


def measure(path, liquid, workers, steps, repeats):
    """The cost of a step, and of one under the short job, with each number of workers."""
    taken = {count: (Steps(*steps), Steps(*steps)) for count in workers}
    for _ in range(repeats):
        for count, (whole, short) in taken.items():
            whole.take([path, "run", liquid.job, liquid.state, "--workers", str(count)])
            short.take([path, "run", liquid.short_job, liquid.state, "--workers", str(count)])
    return taken


def row(liquid, count, taken, first):
    """The cells of a row, in the order of HEAD."""
    whole, short = taken[count]
    wall, processor = whole.wall(), whole.processor()
    cells = [liquid.atoms, count, liquid.asked / liquid.acting, wall * 1e3, wall / liquid.acting * 1e9, wall / liquid.atoms * 1e9]
    cells += [taken[first][0].wall() / wall, processor / wall]
    if count == 1 or 1 not in taken:
        cells += ["-", "-"]
    else:
        # the CPU time of a step beyond one worker's, and its share that is proportional to interacting pairs
        more, more_short = processor - taken[1][0].processor(), short.processor() - taken[1][1].processor()
        atomic = (more - more_short) / (liquid.acting - liquid.few)
        cells += [atomic * 1e9, atomic * liquid.acting / processor * 100]
    return cells + [whole.memory()]


def shown(cells):
    return "".join(f"{it:13,.1f}" if isinstance(it, float) else f"{it:>13,}" if isinstance(it, int) else f"{it:>13}" for it in cells)


def table(given, room):
    print(f"{given.shape}; times are wall times; memory below {least_memory():.1f} MB can't be measured")
    print("".join(f"{it:>13}" for it in HEAD))
    walls = {}
    for atoms in given.atoms:
        liquid = Liquid(atoms, given.shape, room)
        liquid.count()
        steps = given.steps or (1, 1 + max(4, ATOM_STEPS // atoms))
        taken = measure(program(), liquid, given.workers, steps, given.repeats)
        for count in given.workers:
            print(shown(row(liquid, count, taken, given.workers[0])))
            walls[atoms, count] = taken[count][0].wall()
        sys.stdout.flush()
    for less, more in zip(given.atoms, given.atoms[1:]):
        for count in given.workers:
            grown = walls[more, count] / walls[less, count]
            sizes = f"from {less:,} to {more:,} atoms, a factor of {more / less:.2f}, workers {count}"
            print(f"{sizes}: a step takes {grown:.2f} times as long")


# ---- there and back

def bytes_of(path):
    with open(path, "rb") as file:
        return file.read()


def come_back(given, room):
    """Whether all runs came back to their starting bytes, through the same bytes for each number of workers."""
    well = True
    for atoms in given.atoms:
        liquid = Liquid(atoms, given.shape, room)
        start, ends = bytes_of(liquid.state), []
        for count in given.workers:
            words = ["--steps", str(given.there_and_back), "--workers", str(count)]
            end_path, back_path = os.path.join(room, "end"), os.path.join(room, "back")
            took = run([program(), "run", liquid.job, liquid.state, *words], end_path).wall
            took += run([program(), "back", liquid.job, end_path, *words], back_path).wall
            ends.append(bytes_of(end_path))
            back, same = bytes_of(back_path) == start, ends[-1] == ends[0]
            moved = given.there_and_back == 0 or ends[-1] != start
            well = well and back and same and moved
            print(
                f"{atoms:,} atoms, {given.there_and_back:,} steps forward and back, workers {count}, {took:.1f} s: "
                + ("the starting bytes came back" if back else "OTHER BYTES CAME BACK")
                + ("" if moved else ", NOTHING MOVED")
                + ("" if same else f", AND THE STATE IN BETWEEN DIFFERS FROM THAT OF {given.workers[0]} WORKERS")
            )
            sys.stdout.flush()
    return well


def main():
    parser = argparse.ArgumentParser(description=__doc__, formatter_class=argparse.RawDescriptionHelpFormatter)
    parser.add_argument("--atoms", type=int, nargs="+", default=[4000, 16000, 65536], choices=sorted(TIGHT))
    parser.add_argument("--workers", type=int, nargs="+", default=[1, 2, 4])
    parser.add_argument("--shape", choices=sorted(SHAPES), default="tight", help="boxes whose cells fit the cutoff, or cubes")
    parser.add_argument("--steps", type=int, nargs=2, metavar=("FEW", "MANY"), help="of the two runs")
    parser.add_argument("--repeats", type=int, default=3)
    parser.add_argument("--there-and-back", type=int, metavar="STEPS", help="measure nothing; run forward and back")
    given = parser.parse_args()
    with tempfile.TemporaryDirectory() as room:
        if given.there_and_back is None:
            table(given, room)
        elif not come_back(given, room):
            sys.exit(1)


if __name__ == "__main__":
    main()
