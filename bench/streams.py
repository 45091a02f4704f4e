#!/usr/bin/env python3
"""Measures the CPU time in which the Python module reads and writes a stream of states. It needs numpy, not the program.

  bench/streams.py [--states n] [--atoms n] [--repeats n]
"""
import argparse
import os
import random
import sys
import tempfile
import time

sys.path.insert(1, os.path.join(os.path.dirname(os.path.realpath(__file__)), "..", "python"))
import pairmd  # noqa: E402


def gas(atoms, step):
    """A state of atoms anywhere in a box."""
    numbers = random.Random(step)
    frames = [[tuple(numbers.getrandbits(32) for _ in range(3)) for _ in range(atoms)] for _ in range(2)]
    return pairmd.State("gas", step, (600_000,) * 3, [pairmd.state.Atom(it % 99_999 + 1, "AR", "AR") for it in range(atoms)], *frames)


def least(repeats, call):
    """The least CPU time of some calls."""
    taken = []
    for _ in range(repeats):
        before = time.process_time()
        call()
        taken.append(time.process_time() - before)
    return min(taken)


def main():
    parser = argparse.ArgumentParser(description=__doc__, formatter_class=argparse.RawDescriptionHelpFormatter)
    for name, default in (("states", 100), ("atoms", 4000), ("repeats", 10)):
        parser.add_argument(f"--{name}", type=int, default=default, metavar="N")
    given = parser.parse_args()
    states = [gas(given.atoms, step) for step in range(given.states)]
    with tempfile.TemporaryDirectory() as folder:
        path = os.path.join(folder, "states")
        written = least(given.repeats, lambda: pairmd.write_states(states, path))
        read = least(given.repeats, lambda: sum(1 for _ in pairmd.read_states(path)))
    print(f"{given.states:,} states of {given.atoms:,} atoms: read in {read:.2f} s, written in {written:.2f} s of CPU time")


if __name__ == "__main__":
    main()
