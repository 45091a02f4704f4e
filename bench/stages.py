#!/usr/bin/env python3
"""Measures the stages of a step: CPU time in nanoseconds and instructions per interacting pair, with one worker.

The system is melted argon in a cube, with Lennard-Jones as the user's formula. The CPU time is that of a run minus that
of a run of one step; the minimum of several runs, in which the programs take turns. The samples of perf divide the time
among the program's functions. The instructions are callgrind's for three steps minus those for one. A stage is the sum
over its functions without the calls of other stages (STAGES); inlined code counts where it was inlined.

  --beside NAME=PROGRAM    another program, such as an earlier commit's; may be repeated
  --write                  writes the tables of docs/PERFORMANCE.md

The script needs perf and valgrind (Debian: linux-perf, valgrind) and the program, which PAIRMD names: `make pairmd`,
then `PAIRMD=./pairmd bench/stages.py`.
"""

import argparse
import collections
import os
import re
import shutil
import subprocess
import tempfile

import pages
from argon import CUTOFF, LENNARD_JONES, SHAPES, TIGHT, acting_pairs, example_job, job
from melted import Melted
from running import Steps, program, write

TIMED, SAMPLED = 20, 200  # the steps that are timed, and those that perf samples

# A function belongs to the first stage whose pattern is in its name. Inlining merges stages.
STAGES = [
    ("slopes", r"potential|kernel_lanes|kernel_machine"),
    ("arguments of lanes, forces", r"next_adds|ask_all|SafeSystem::add|ActingPair::force|FoundPair::add"),
    ("finding the pairs, separations, roots", r"FramePairs::find|find_batch|SafeSystem::prepare|pair_lists|cell_tiles|ring_box|fixed::roots"),
    ("additions", r"Course::run|Forces::add_all|rounds::"),
    ("the rest of the step", ""),
]


def stage_of(function):
    return next(name for name, pattern in STAGES if re.search(pattern, function))


def samples(words, room):
    """The number of perf's samples in each function."""
    data = os.path.join(room, "perf.data")
    record = ["perf", "record", "-q", "-e", "cpu-clock:u", "-F", "4000", "-o", data, "--", *words]
    subprocess.run(record, check=True, stdout=subprocess.DEVNULL, stderr=subprocess.DEVNULL)
    listed = ["perf", "script", "-i", data, "-F", "ip,sym"]
    text = subprocess.run(listed, check=True, stdout=subprocess.PIPE, stderr=subprocess.DEVNULL, text=True).stdout
    return collections.Counter(line.split(None, 1)[1] for line in text.splitlines() if line.strip())


def instructions(words, room):
    """The number of instructions of each function, counted by callgrind, without those of the functions that it calls.
    """
    out = os.path.join(room, "callgrind.out")
    run = ["valgrind", "--tool=callgrind", f"--callgrind-out-file={out}", *words]
    subprocess.run(run, check=True, stdout=subprocess.DEVNULL, stderr=subprocess.DEVNULL)
    names, counted, function, is_call = {}, collections.Counter(), None, False
    with open(out, encoding="utf-8") as file:
        for line in file:
            named = re.match(r"(c?)fn=\((\d+)\)(?: (.*))?", line)
            if named:
                name = names.setdefault(named[2], named[3])
                function = function if named[1] else name
            elif line.startswith("calls="):
                is_call = True
            elif re.match(r"[+\-*\d]", line):
                # the line after a call has the count of the called function
                counted[function] += 0 if is_call else int(line.split()[1])
                is_call = False
    return counted


def by_stage(counted):
    total = collections.Counter()
    for function, count in counted.items():
        total[stage_of(function)] += count
    return total


def of_two_steps(words, room, group):
    """The instructions of steps 2 and 3, per step."""
    long, short = (group(instructions([*words, "--steps", count], room)) for count in ("3", "1"))
    long.subtract(short)
    return collections.Counter({it: count / 2 for it, count in long.items()})


class Liquid:
    """Melted argon in a box: the file of its state, and the number of its interacting pairs."""

    def __init__(self, program, atoms, box, room):
        self.melted = Melted(program, atoms, SHAPES[box][atoms], room)
        self.state = write(room, f"{box}.state", self.melted.state())
        self.acting = acting_pairs(self.melted.sides, self.melted.places, CUTOFF)


# ---- stages

def timed(liquid, programs, repeats, room):
    """For each program its arguments, and the CPU time of a step in seconds."""
    job_file = write(room, "job", job(LENNARD_JONES, CUTOFF))
    runs = {name: ([path, "run", job_file, liquid.state], Steps(1, 1 + TIMED)) for name, path in programs.items()}
    for _ in range(repeats):
        for words, steps in runs.values():
            steps.take(words)
    return {name: (words, steps.processor()) for name, (words, steps) in runs.items()}


def stage_rows(liquid, programs, repeats, group, room):
    """Yields a row for each stage: nanoseconds and instructions per interacting pair, for each program."""
    columns = []
    for words, whole in timed(liquid, programs, repeats, room).values():
        share, counted = group(samples([*words, "--steps", str(SAMPLED)], room)), of_two_steps(words, room, group)
        nanoseconds = {it: whole * 1e9 / liquid.acting * count / share.total() for it, count in share.items()}
        columns.append({it: (nanoseconds.get(it, 0), counted[it] / liquid.acting) for it in {**nanoseconds, **counted}})
    stages = sorted({it for column in columns for it in column}, key=lambda it: (it == STAGES[-1][0], -columns[0].get(it, (0, 0))[0]))
    for stage in stages:
        figures = [column.get(stage, (0, 0)) for column in columns]
        if any(nanoseconds > 0.05 for nanoseconds, _ in figures):
            yield [stage, *(f"{it:.{digits}f}" for both in figures for it, digits in zip(both, (1, 0)))]
    whole = [(sum(it[k] for it in column.values())) for column in columns for k in (0, 1)]
    yield ["all", *(f"{it:.{1 - k % 2}f}" for k, it in enumerate(whole))]


# ---- instructions

def instruction_rows(liquids, programs, room):
    """Yields a row for each energy: instructions per interacting pair in each box, for each program."""
    for said, energy in (("Lennard-Jones", job(LENNARD_JONES, CUTOFF)), ("`examples/switched.job`, whose code jumps", example_job("switched"))):
        job_file = write(room, "job", energy)
        words = [([path, "run", job_file, liquid.state], liquid.acting) for path in programs.values() for liquid in liquids]
        yield [said, *(f"{of_two_steps(it, room, collections.Counter).total() / acting:,.0f}" for it, acting in words)]


def shown(title, head, rows):
    print(title)
    for row in [head, *rows]:
        print(f"  {row[0]:<44}" + "".join(f"{it:>24}" for it in row[1:]))


def arguments():
    parser = argparse.ArgumentParser(description=__doc__, formatter_class=argparse.RawDescriptionHelpFormatter)
    parser.add_argument("--beside", action="append", default=[], metavar="NAME=PROGRAM")
    parser.add_argument("--atoms", type=int, default=4000, choices=sorted(TIGHT))
    parser.add_argument("--repeats", type=int, default=8)
    parser.add_argument("--commit", help="the commit of the program, if it isn't HEAD")
    parser.add_argument("--functions", action="store_true", help="shows each function instead of the stages")
    parser.add_argument("--write", action="store_true")
    given = parser.parse_args()
    missing = [it for it in ("perf", "valgrind") if not shutil.which(it)]
    if missing:
        parser.error(f"not installed: {', '.join(missing)}")
    return given


def main():
    given = arguments()
    said = pages.of_now(given.repeats, given.commit)
    programs = {**dict(it.split("=", 1) for it in given.beside), "pairmd": program()}
    with tempfile.TemporaryDirectory() as room:
        liquids = [Liquid(program(), given.atoms, box, room) for box in ("cubes", "tight")]
        group = collections.Counter if given.functions else by_stage
        stages = list(stage_rows(liquids[0], programs, given.repeats, group, room))
        energies = [] if given.functions else list(instruction_rows(liquids, programs, room))
    stages_head = ["Stage", *(it for name in programs for it in (f"{name}: ns", "instructions"))]
    energies_head = ["Energy", *(it for name in programs for it in (f"{name}: a cube", "fits the cells"))]
    shown("stages", stages_head, stages)
    shown("instructions", energies_head, energies)
    if given.write:
        which = pages.paragraph(pages.which_run(said), pages.which_load(said))
        pages.put("docs/PERFORMANCE.md", "bench/stages.py", "stages", [*which, "", *pages.table(stages_head, stages)])
        pages.put("docs/PERFORMANCE.md", "bench/stages.py", "instructions", pages.table(energies_head, energies))


if __name__ == "__main__":
    main()
