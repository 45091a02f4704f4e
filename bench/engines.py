#!/usr/bin/env python3
"""Measures a step of pairmd and of other engines side by side: nanoseconds per interacting pair, wall and CPU time.

The system is liquid argon, melted by the program, with Lennard-Jones as the user's formula, in cubes and in boxes whose
cells fit the cutoff. A figure is the time of a run minus that of a shorter run, or the step time that the engine
reports; the minimum of several runs. The engines take turns, one run each, over all systems and numbers of workers, so
that other load on the machine slows all of them.

  --examples               only programs of pairmd, with the six example energies and 4,000 atoms in a cube
  --beside NAME=PROGRAM    a program with the arguments of `pairmd run`, such as an earlier commit's; may be repeated
  --python PYTHON          an interpreter with OpenMM, and with matplotlib for --write, if this one lacks them
  --write                  keeps the figures in pictures/step-times.tsv, draws them, and writes the tables of README.md
                           and docs/PERFORMANCE.md
  --kept                   measures nothing: draws and writes the figures that were kept

OpenMM, LAMMPS and GROMACS are skipped, with a message, if they aren't installed. The script needs only Python and the
program, which PAIRMD names: `make pairmd`, then `PAIRMD=./pairmd bench/engines.py`.
"""

import argparse
import subprocess
import sys
import tempfile
import time

import pages
from argon import CUTOFF, EXAMPLES, LENNARD_JONES, SHAPES, TIGHT, acting_pairs, example_job, job
from melted import Melted
from other_engines import all_engines, less_a_short_run
from running import program, write

ATOM_STEPS = 200_000  # atom-steps of a run, about, times the engine's `pace`


class Program:
    """A program that accepts the arguments of `pairmd run`. Its runs are long enough for lists of pairs, which it makes
    after 16 steps where the cells fit the cutoff."""

    pace = 8

    def __init__(self, name, path):
        self.name, self.path = name, path

    def timing(self, system, workers, steps, room):
        words = [self.path, "run", write(room, "job", system.job), write(room, "state", system.liquid.state()), "--workers", str(workers)]
        return less_a_short_run(words, steps)


class System:
    """Melted argon with an energy, in a named box, and the number of its interacting pairs."""

    def __init__(self, liquid, box, energy):
        self.liquid, self.box, self.job, self.atoms = liquid, box, energy, len(liquid.places)
        self.acting = acting_pairs(liquid.sides, liquid.places, CUTOFF)


def systems(given, room):
    if given.examples:
        liquid = Melted(program(), 4000, SHAPES["cubes"][4000], room)
        for name in EXAMPLES:
            yield System(liquid, name, example_job(name))
        return
    for box in given.shapes:
        for atoms in given.atoms:
            yield System(Melted(program(), atoms, SHAPES[box][atoms], room), box, job(LENNARD_JONES, CUTOFF))


def measured(given, engines, room):
    """Yields a row for each system, number of workers and engine."""
    timings = []
    for system in systems(given, room):
        for workers in given.workers:
            for engine in engines:
                steps = max(4, ATOM_STEPS * engine.pace // system.atoms)
                timings.append((system, workers, engine, *engine.timing(system, workers, steps, tempfile.mkdtemp(dir=room))))
    for repeat in range(given.repeats):
        began = time.perf_counter()
        for *_, take, _ in timings:
            take()
        seconds = time.perf_counter() - began
        print(f"repeat {repeat + 1} of {given.repeats}: {seconds:.0f} s", file=sys.stderr, flush=True)
    for system, workers, engine, _, told in timings:
        clock, processor = (seconds / system.acting * 1e9 for seconds in told())
        yield pages.Row(system.atoms, system.box, system.acting, workers, engine.name, clock, processor)


def shown(rows):
    """The rows as lines, each with its ratio to the first engine."""
    yield f"{'atoms':>6} {'box':<17}{'workers':>7}  {'engine':<18}{'ns/acting':>10}{'processors':>11}{'ns/atom-step':>13}{'of pairmd':>10}"
    first = {}
    for row in rows:
        one = first.setdefault((row.atoms, row.box, row.workers), row)
        figures = f"{row.clock:10.1f}{row.processor:11.1f}{row.clock * row.acting / row.atoms:13,.0f}{row.clock / one.clock:10.2f}"
        yield f"{row.atoms:6} {row.box:<17}{row.workers:>7}  {row.engine:<18}{figures}"


def there(given):
    """The other engines that are installed, and their versions."""
    kept, versions = [], {}
    for engine in all_engines(given.python):
        version = engine.version()
        if version:
            kept.append(engine)
            versions[engine.engine] = version
        else:
            print(f"{engine.name} isn't installed: skipped", file=sys.stderr)
    return kept, versions


def measure(given):
    """Measures, prints, and with --write keeps the figures."""
    others, versions = ([], {}) if given.examples else there(given)
    said = {**pages.of_now(given.repeats, given.commit), **versions}
    if float(said["load before"]) > 1:
        load = f"the load of the machine is {said['load before']}"
        print(f"{load}: engines whose threads wait for each other in a loop slow down most", file=sys.stderr)
    with tempfile.TemporaryDirectory() as room:
        rows = list(measured(given, [Program("pairmd", program()), *given.beside, *others], room))
    print(*(f"{name} {value}" for name, value in said.items()), sep=", ")
    print(*shown(rows), sep="\n", flush=True)
    if given.write:
        pages.keep(said, rows)


def named(word):
    name, is_named, path = word.partition("=")
    if not is_named:
        raise argparse.ArgumentTypeError(f"{word} is not NAME=PROGRAM")
    return Program(name, path)


def arguments():
    parser = argparse.ArgumentParser(description=__doc__, formatter_class=argparse.RawDescriptionHelpFormatter)
    parser.add_argument("--beside", type=named, action="append", default=[], metavar="NAME=PROGRAM")
    parser.add_argument("--python", default=sys.executable, metavar="PYTHON")
    parser.add_argument("--atoms", type=int, nargs="+", default=[4000, 16000], choices=sorted(TIGHT))
    parser.add_argument("--shapes", nargs="+", default=["cubes", "tight"], choices=sorted(SHAPES))
    parser.add_argument("--workers", type=int, nargs="+", default=[1, 2, 4])
    parser.add_argument("--examples", action="store_true")
    parser.add_argument("--repeats", type=int, default=4)
    parser.add_argument("--commit", help="the commit of the program, if it isn't HEAD")
    parser.add_argument("--write", action="store_true")
    parser.add_argument("--kept", action="store_true")
    given = parser.parse_args()
    if given.write and given.examples:
        parser.error("--write doesn't keep figures of --examples")
    trial = [given.python, "-c", "import matplotlib"]
    draws = given.write or given.kept
    if draws and subprocess.run(trial, stderr=subprocess.DEVNULL, check=False).returncode:
        parser.error(f"{given.python} has no matplotlib to draw with; --python names another")
    return given


def main():
    given = arguments()
    if not given.kept:
        measure(given)
    if given.write or given.kept:
        subprocess.run([given.python, f"{pages.ROOT}/pictures/step_times.py"], check=True)
        pages.write()


if __name__ == "__main__":
    main()
