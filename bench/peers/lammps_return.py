#!/usr/bin/env python3
"""Reverses LAMMPS: N velocity Verlet steps of lj/cut, velocities reversed, N steps.

  bench/peers/lammps_return.py [--steps N ..] [--threads T ..] [--gro FILE]

It also compares positions between numbers of processes. Debian: lammps. Plain Lennard-Jones, cut off at 0.9 nm, in
doubles.
"""

import os
import subprocess
import tempfile

import peer

INPUT = """units real
atom_style atomic
read_data {folder}/data
pair_style lj/cut 9.0
pair_coeff 1 1 0.23805 3.4
timestep 2.0
neighbor 2.0 bin
neigh_modify every 1 delay 0 check yes
fix 1 all nve
run 0
write_dump all custom {folder}/start id xu yu zu modify sort id format float %.17g
run {steps}
write_dump all custom {folder}/there id xu yu zu modify sort id format float %.17g
variable a atom -vx
variable b atom -vy
variable c atom -vz
velocity all set v_a v_b v_c
run {steps}
write_dump all custom {folder}/back id xu yu zu modify sort id format float %.17g
"""


def data(liquid):
    """The liquid as LAMMPS reads it, in Angstrom and fs."""
    lines = ["argon", "", f"{len(liquid.positions)} atoms", "1 atom types", ""]
    lines += [f"0 {10 * side:.6f} {axis}lo {axis}hi" for side, axis in zip(liquid.sides, "xyz")]
    lines += ["", "Masses", "", f"1 {peer.MASS}", "", "Atoms # atomic", ""]
    lines += [f"{number} 1 " + " ".join(f"{10 * x:.4f}" for x in at) for number, at in enumerate(liquid.positions, 1)]
    lines += ["", "Velocities", ""]
    lines += [f"{number} " + " ".join(f"{v / 100:.9f}" for v in velocity) for number, velocity in enumerate(liquid.velocities, 1)]
    return "\n".join(lines) + "\n"


def dump(path):
    """The positions of a dump, in nm."""
    with open(path, encoding="ascii") as it:
        return [[float(word) / 10 for word in line.split()[1:4]] for line in it.read().splitlines()[9:]]


def run(liquid, steps, processes):
    """The positions at the start, after the steps, and after the same number of steps back."""
    with tempfile.TemporaryDirectory() as folder:
        for name, text in (("data", data(liquid)), ("in", INPUT.format(folder=folder, steps=steps))):
            with open(f"{folder}/{name}", "w", encoding="ascii") as it:
                it.write(text)
        words = ["mpirun", "--bind-to", "none", "--oversubscribe", "-np", str(processes), "lmp", "-in", f"{folder}/in", "-log", "none", "-screen", "none"]
        as_root = {"OMPI_ALLOW_RUN_AS_ROOT": "1", "OMPI_ALLOW_RUN_AS_ROOT_CONFIRM": "1"}
        subprocess.run(words, check=True, stdout=subprocess.DEVNULL, env={**os.environ, **as_root})
        return [dump(f"{folder}/{name}") for name in ("start", "there", "back")]


def main():
    given = peer.arguments(__doc__)
    liquid = peer.Liquid(given.gro)
    version = subprocess.run(["lmp", "-h"], stdout=subprocess.PIPE, text=True).stdout.split(" - ")[1].split("\n")[0]
    print(f"LAMMPS {version}, {len(liquid.positions)} atoms")
    for steps in given.steps:
        start, _, back = run(liquid, steps, 1)
        print(f"lj/cut, {steps} steps and back: {peer.returned(start, back, liquid.sides)}", flush=True)
    for processes in given.threads:
        _, there, _ = run(liquid, given.steps[0], processes)
        sum_there = peer.digest(there)
        print(f"lj/cut, {processes} processes, positions after {given.steps[0]} steps: {sum_there}", flush=True)


if __name__ == "__main__":
    main()
