#!/usr/bin/env python3
"""Measures a row of `pairmd observe` in steps: liquid argon, one worker.

  bench/rows.py [--atoms N ..] [--repeats R]      PAIRMD names the program

A step is the CPU time of a run minus that of a shorter run. A row is the CPU time of a table with a row per step minus
that of a table with two rows. The minimum of --repeats runs counts (three by default).
"""
import argparse
import tempfile

import argon
import running

GRIDS = {500: (8, 8, 8), **argon.CUBES}
ATOM_STEPS = 600_000  # atom-steps of a run, about


def least(words, repeats):
    """The least CPU time of some runs, in seconds."""
    return min(running.run(words).processor for _ in range(repeats))


def main():
    parser = argparse.ArgumentParser(description=__doc__, formatter_class=argparse.RawDescriptionHelpFormatter)
    parser.add_argument("--atoms", type=int, nargs="+", default=[500, 4000], choices=GRIDS)
    parser.add_argument("--repeats", type=int, default=3)
    given = parser.parse_args()
    program = running.program()
    with tempfile.TemporaryDirectory() as room:
        job = running.write(room, "job", argon.job(argon.LENNARD_JONES, argon.CUTOFF))
        for atoms in given.atoms:
            still = running.write(room, "still", argon.state(*argon.argon(atoms, GRIDS[atoms])))
            state, steps = f"{room}/state", max(20, ATOM_STEPS // atoms)
            running.run([program, "run", job, still, "--steps", "200"], out=state)
            run = [program, "run", job, state, "--steps"]
            short, long = (least([*run, str(n)], given.repeats) for n in (1, steps + 1))
            table = [program, "observe", job, state, "--steps", str(steps), "--every"]
            few, many = (least([*table, str(every)], given.repeats) for every in (steps, 1))
            step, row = (long - short) / steps, (many - few) / (steps - 1)
            print(f"{atoms:,} atoms: a step {step * 1000:.2f} ms, a row {row * 1000:.2f} ms, {row / step:.2f} steps", flush=True)


if __name__ == "__main__":
    main()
