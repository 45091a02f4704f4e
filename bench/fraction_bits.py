#!/usr/bin/env python3
"""Measures a step of pairmd at 24, 32 and 40 fraction bits, with one worker.

The system is liquid argon on a lattice, slightly displaced, with Lennard-Jones and its mixing rules. A figure is the
CPU time of a run minus that of a shorter run, so reading, verifying and writing drop out; the minimum of several runs,
in which the three take turns. --before OTHER also measures another program at 32 bits. The script needs only Python and
the program, which PAIRMD names: `make pairmd`, then `PAIRMD=./pairmd bench/fraction_bits.py`.
"""

import argparse
import tempfile

from argon import CUTOFF, LENNARD_JONES, TIGHT, acting_pairs, argon, job, state
from running import Steps, program, write


def main():
    parser = argparse.ArgumentParser(description=__doc__, formatter_class=argparse.RawDescriptionHelpFormatter)
    parser.add_argument("--before", metavar="OTHER", help="a program of an earlier commit, whose run at 32 bits is measured too")
    parser.add_argument("--atoms", type=int, default=1000, choices=TIGHT, help="at most 1,000 at 40 bits (A3)")
    parser.add_argument("--steps", type=int, nargs=2, default=(1, 100))
    parser.add_argument("--repeats", type=int, default=5)
    given = parser.parse_args()
    sides, places = argon(given.atoms, TIGHT[given.atoms])
    acting = acting_pairs(sides, places, CUTOFF)
    with tempfile.TemporaryDirectory() as room:
        runs = {}
        for bits in (24, 32, 40):
            files = [write(room, f"{bits}.job", job(LENNARD_JONES, CUTOFF, bits)), write(room, f"{bits}.state", state(sides, places, bits))]
            runs[str(bits)] = ([program(), "run", *files], Steps(*given.steps))
        if given.before:
            runs["32 before"] = ([given.before, *runs["32"][0][1:]], Steps(*given.steps))
        for _ in range(given.repeats):
            for words, steps in runs.values():
                steps.take(words)
    print(f"{given.atoms} atoms, {acting} interacting pairs")
    whole = runs["32"][1].processor()
    for name, (_, steps) in runs.items():
        seconds = steps.processor()
        each = f"{seconds * 1e3:8.3f} ms per step {seconds * 1e9 / acting:7.0f} ns per interacting pair"
        print(f"{name:>10} bits {each} {seconds / whole:6.2f} of the time at 32")


if __name__ == "__main__":
    main()
