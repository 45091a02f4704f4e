#!/usr/bin/env python3
"""Compares pairmd with published values and with other engines, and prints the tables of docs/VALIDATION.md.

  bench/validation.py fluid               the Lennard-Jones fluid beside NIST's reference values
  bench/validation.py short               runs of 40 ps from a lattice that wasn't melted first
  /usr/bin/python3 bench/validation.py engines    one state of argon in OpenMM, LAMMPS and GROMACS
  /usr/bin/python3 bench/validation.py mixture    the Kob-Andersen mixture beside OpenMM, and back to its first byte

  --runs N --steps N      of `fluid`: runs per density, and their steps; by default 2 of 80,000
  --keep FOLDER           of `fluid` and `short`: keeps starts and tables of runs, and makes only those not yet there

PAIRMD names the program. An engine that isn't installed is skipped, with a line that says so. Debian:
python3-simtk lammps gromacs. `fluid` takes half an hour on one core.
"""

import argparse
import os
import subprocess
import sys
import tempfile

import argon
import same_state
from fluid import fluid, short
from pages import ROOT, open_table
from running import pairmd


def label(engine):
    """The engine's name, version and kind, empty if it isn't installed; then a line says so."""
    version = engine.version()
    if not version:
        print(f"{engine.name}, {engine.kind}: not installed, so not compared")
    return f"{engine.name} {version}, {engine.kind}" if version else ""


def farthest(some, others):
    """The greatest difference of a component of two lists of forces, such as 9.9e-9."""
    both = zip(some, others, strict=True)
    off = max(abs(x - y) for one, other in both for x, y in zip(one, other, strict=True))
    return f"{off:.1e}".replace("e-0", "e-")


# ---- engines

FIGURES = {
    "potential": ("Potential/(kJ/mol)", 6),
    "kinetic, half": ("Kinetic/(kJ/mol), half steps", 6),
    "kinetic, mean": ("Kinetic/(kJ/mol), mean velocity", 6),
    "temperature, half": ("Temperature/K, half steps", 3),
    "temperature, mean": ("Temperature/K, mean velocity", 3),
    "pressure, half": ("Pressure/bar, half steps", 3),
    "pressure, mean": ("Pressure/bar, mean velocity", 3),
}


def engines(_):
    """Prints what each engine reports for one state: argon, cut off at 0.9 nm, after 200 steps of 2 fs."""
    job = pairmd.Job.parse(argon.job(argon.LENNARD_JONES, argon.CUTOFF, bits=40))
    state = pairmd.run(job, pairmd.start(job, f"{ROOT}/examples/argon.gro"), 200)
    snapshot = same_state.Snapshot(job, state)
    own, forces = snapshot.measured()
    names, columns, off = ["pairmd, 40 bits"], [own], ["-"]
    for engine in same_state.engines():
        if not (name := label(engine)):
            continue
        with tempfile.TemporaryDirectory() as room:
            figures, found = engine.measured(snapshot, room)
        names.append(name)
        columns.append(figures)
        off.append(farthest(forces, found))
    rows = []
    for name, (words, digits) in FIGURES.items():
        rows.append([words, *(f"{it[name]:.{digits}f}" if name in it else "-" for it in columns)])
    print("\n".join(open_table(["Quantity", *names], [*rows, ["Forces differ by/(kJ/mol/nm)", *off]])))
    print(f"sum of F^2 dt^2 / 8m: {snapshot.kick(forces):.6f} kJ/mol;", end=" ")
    print(f"the kinetic energies of pairmd differ by {own['kinetic, half'] - own['kinetic, mean']:.6f}")


# ---- mixture

# W. Kob and H. C. Andersen, Phys. Rev. E 51, 4626 (1995). A type's only parameter tells the two apart.
KOB_ANDERSEN = """pairmd job 1
energy select(step(2.5*sigma-r),lj-shift,0); lj=4*epsilon*(x^2-x); x=(sigma/r)^6; \
shift=4*epsilon*(y^2-y); y=(1/2.5)^6; \
sigma=size*select(b1*b2,0.88,select(b1+b2,0.8,1)); epsilon=well*select(b1*b2,0.5,select(b1+b2,1.5,1))
core 0.2
cutoff 0.85
dt 5
parameter b
global size 0.34
global well 0.996
type A 39.948 0
type B 39.948 1
"""
MIXTURE_ATOMS, MIXTURE_DENSITY, MIXTURE_TEMPERATURE = 1000, 1.2, 1  # reduced by the size and well of A


def mixture(_):
    """Prints energies and forces beside OpenMM's for three states of a run, and whether the way back is exact."""
    job = pairmd.Job.parse(KOB_ANDERSEN)
    types = [pairmd.Component(it.name, part, it.mass) for it, part in zip(job.types, ("0.8", "0.2"))]
    kelvin = MIXTURE_TEMPERATURE * argon.EPSILON / float(pairmd.BOLTZMANN)
    frame = pairmd.fcc_lattice(MIXTURE_ATOMS, MIXTURE_DENSITY / argon.SIGMA**3, types, 4 * kelvin)
    hot = pairmd.equilibrate(job, pairmd.start(job, frame), 2 * kelvin, pairmd.Schedule(20, 50, 0))
    begun = pairmd.equilibrate(job, hot, kelvin, pairmd.Schedule(40, 50, 40, 50, 0))
    engine, steps, every = same_state.OpenMM(), 2000, 1000
    name, rows = label(engine), []
    for state in pairmd.states(job, begun, steps, every):
        snapshot = same_state.Snapshot(job, state)
        own, forces = snapshot.measured()
        row = [f"{(state.step - begun.step) * job.time_step:.1f}", f"{own['potential']:.6f}"]
        if name:
            figures, found = engine.measured(snapshot, "")
            row += [f"{figures['potential']:.6f}", farthest(forces, found)]
        rows.append(row)
    heads = ["ps", "Potential/(kJ/mol): pairmd, 32 bits", name, "Forces differ by/(kJ/mol/nm)"]
    print("\n".join(open_table(heads[: len(rows[0])], rows)))
    same = pairmd.back(job, state, steps, workers=2).text() == begun.text()
    print(f"{steps:,} steps and, with two workers, {steps:,} steps back: {'the same bytes' if same else 'OTHER BYTES'}")
    return 0 if same else 1


def of_run():
    """The commit and the machine, as a sentence."""
    words = ["git", "-C", ROOT, "rev-parse", "--short", "HEAD"]
    head = subprocess.run(words, stdout=subprocess.PIPE, check=False, text=True).stdout.strip()
    return f"Commit `{head}`, {pairmd.version()}, {os.cpu_count()} cores."


def main():
    parser = argparse.ArgumentParser(description=__doc__, formatter_class=argparse.RawDescriptionHelpFormatter)
    parts = {"fluid": fluid, "short": short, "engines": engines, "mixture": mixture}
    parser.add_argument("part", choices=parts)
    parser.add_argument("--runs", type=int, default=2)
    parser.add_argument("--steps", type=int, default=80_000)
    parser.add_argument("--keep")
    given = parser.parse_args()
    if given.keep:
        os.makedirs(given.keep, exist_ok=True)
    print(of_run())
    return parts[given.part](given)


if __name__ == "__main__":
    sys.exit(main())
