#!/usr/bin/env python3
"""Measures single commands of pairmd: CPU time and peak memory, and steps of mixtures beside one type.

  bench/commands.py [--write] [--without-long] [--repeats N]      PAIRMD names the program

A figure is the minimum of --repeats runs (five by default); a run of more than ten seconds is made once. Memory includes
that of the C library. A mixture has the same numbers for each of its types, so that its atoms move as atoms of one type
do, and only the reading of tables differs. --write puts the tables into docs/PERFORMANCE.md; --without-long leaves out
commands that take a minute and more.
"""
import argparse
import tempfile
from typing import NamedTuple

import argon
import pages
import running
from melted import Melted
from running import pairmd

SHORT = 10  # seconds; longer runs are made once
ATOMS = 65_536
STEPS = 400
PAGE = "docs/PERFORMANCE.md"
# 1 / (r - r + 9 2^-32): intervals decide it only where a slice has fewer than nine distances.
LISTING = "pairmd code 1\npush 4294967296\ninput 0\ninput 0\nsub\npush 9\nadd\ndiv\n"
LENNARD_JONES = argon.job(argon.LENNARD_JONES, argon.CUTOFF)


class Command(NamedTuple):
    """A command, as a page describes it, with the arguments behind the program."""

    says: str
    words: list[str]
    is_long: bool = False


def with_types(count, slices=None):
    """Lennard-Jones with this many types of different numbers."""
    lines = LENNARD_JONES.splitlines()
    types = [f"type T{k} {argon.MASS} {argon.SIGMA - k / 1000:.3f} {argon.EPSILON + k / 100:.3f}" for k in range(count)]
    more = [f"slices {slices}"] if slices else []
    return "\n".join([*(it for it in lines if not it.startswith("type ")), *types, *more]) + "\n"


def gro_text(sides, places):
    """A GRO file of argon with velocities, all 0.1 nm/ps along x."""
    lines = ["liquid argon", f"{len(places)}"]
    for number, at in enumerate(places, 1):
        nm = "".join(f"{x / argon.PLACES * side / 100_000:8.3f}" for x, side in zip(at, sides))
        lines.append(f"{number % 100_000:5}{'AR':<5}{'AR':>5}{number % 100_000:5}{nm}{0.1:8.4f}{0:8.4f}{0:8.4f}")
    return "\n".join([*lines, "".join(f"{side / 100_000:10.5f}" for side in sides)]) + "\n"


def commands(room):
    """The commands that are measured, over files in a directory."""
    sides, places = argon.argon(ATOMS, argon.CUBES[ATOMS])
    job = running.write(room, "job", LENNARD_JONES)
    gro = running.write(room, "gro", gro_text(sides, places))
    state = running.write(room, "state", argon.state(sides, places))
    root = running.write(room, "root", argon.job("sqrt(r-r+1e-7)", argon.CUTOFF))
    listing = running.write(room, "listing", LISTING)
    jobs = {count: running.write(room, f"types{count}", with_types(count)) for count in (1, 4, 16, 64)}
    finest = running.write(room, "finest", with_types(16, 65_536))
    yield Command(f"`start` of {ATOMS:,} atoms with velocities", ["start", job, gro])
    yield Command(f"`frame` of {ATOMS:,} atoms", ["frame", state])
    yield Command(f"`energy` of {ATOMS:,} atoms", ["energy", job, state])
    yield Command(f"`forces` of {ATOMS:,} atoms", ["forces", job, state])
    for count, path in jobs.items():
        yield Command(f"`check` of Lennard-Jones with {count} type{'s' * (count > 1)}", ["check", path])
    yield Command("`check` of `sqrt(r-r+1e-7)`", ["check", root])
    yield Command("`curve` of one type, 100 points", ["curve", jobs[1]])
    yield Command("`curve` of one type, 10,000 points", ["curve", jobs[1], "--points", "10000"])
    yield Command("`curve` of 16 types, 100 points", ["curve", jobs[16]])
    yield Command("`check` of 16 types with 65,536 slices", ["check", finest], True)
    yield Command("`check` of a listing that divides by r - r + 9 2^-32", ["check", job, "--code", listing], True)


def least(words, repeats):
    """The least CPU time in seconds and the greatest peak memory in MB of some runs."""
    runs = [running.run(words)]
    while len(runs) < repeats and runs[0].processor < SHORT:
        runs.append(running.run(words))
    return min(it.processor for it in runs), max(it.memory for it in runs)


def memory_text(megabytes):
    """A peak memory, unless it is too small to be measured."""
    least_measured = running.least_memory() + 0.5
    return f"{megabytes:.0f} MB" if megabytes > least_measured else f"below {least_measured:.0f} MB"


def seconds_text(seconds):
    """A time in seconds or minutes, with about two digits."""
    if seconds < 0.01:
        return "below 0.01 s"
    if seconds >= 120:
        return f"{seconds / 60:.1f} minutes"
    return f"{seconds:.2f} s" if seconds < 10 else f"{seconds:.0f} s"


def table_of_commands(program, given, room):
    """The lines of the table of commands."""
    rows = []
    for command in commands(room):
        if command.is_long and given.without_long:
            continue
        seconds, memory = least([program, *command.words], given.repeats)
        rows.append([command.says, seconds_text(seconds), memory_text(memory)])
        print(*rows[-1], sep="; ", flush=True)
    return pages.table(["Command", "CPU time", "Peak memory"], rows)


def mixed(job, state, count):
    """The job with this many types of the same numbers, and the state with its atoms given to the types in turn."""
    names = [f"T{k}" for k in range(count)]
    one = job.types[0]
    types = [pairmd.AtomType(name, one.mass, one.values) for name in names]
    atoms = [atom._replace(name=names[k % count]) for k, atom in enumerate(state.atoms)]
    return job.replaced(types=types), state.replaced(atoms=atoms)


def table_of_mixtures(program, given, room):
    """The lines of the table of mixtures: the CPU time of a step with several types, one worker."""
    liquid = Melted(program, 4000, argon.SHAPES["cubes"][4000], room)
    job, state = pairmd.Job.parse(LENNARD_JONES), pairmd.State.parse(liquid.state())
    runs = {}
    for count in (1, 2, 4, 16):
        job_of, state_of = mixed(job, state, count)
        files = [running.write(room, f"mixed{count}.job", job_of.text()), running.write(room, f"mixed{count}.state", state_of.text())]
        runs[count] = ([program, "run", *files], running.Steps(1, 1 + STEPS))
    for _ in range(given.repeats):
        for words, steps in runs.values():
            steps.take(words)
    one = runs[1][1].processor()
    rows = [[count, f"{steps.processor() * 1000:.2f} ms", f"{steps.processor() / one:.2f}"] for count, (_, steps) in runs.items()]
    print(*rows, sep="\n", flush=True)
    return pages.table(["Types", "A step of 4,000 atoms", "Of one type's"], rows)


def main():
    parser = argparse.ArgumentParser(description=__doc__, formatter_class=argparse.RawDescriptionHelpFormatter)
    parser.add_argument("--write", action="store_true")
    parser.add_argument("--without-long", action="store_true")
    parser.add_argument("--repeats", type=int, default=5)
    parser.add_argument("--commit", help="the commit of the program, if it isn't HEAD")
    given = parser.parse_args()
    said = pages.of_now(given.repeats, given.commit)
    head = pages.paragraph(pages.which_run(said), pages.which_load(said))
    with tempfile.TemporaryDirectory() as room:
        mixtures = table_of_mixtures(running.program(), given, room)
        lines = table_of_commands(running.program(), given, room)
    if given.write:
        pages.put(PAGE, "bench/commands.py", "mixtures", [*head, "", *mixtures])
        pages.put(PAGE, "bench/commands.py", "commands", [*head, "", *lines])


if __name__ == "__main__":
    main()
