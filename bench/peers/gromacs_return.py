#!/usr/bin/env python3
"""Reverses GROMACS: N steps of its velocity Verlet (md-vv), velocities reversed, N steps.

  bench/peers/gromacs_return.py [--steps N ..] [--threads T ..] [--gro FILE]

It also compares positions between numbers of threads, with the leap-frog (md -reprod). Debian: gromacs, in mixed
precision. Plain Lennard-Jones, cut off at 0.9 nm. The way back starts from a GRO file with 12 decimals, which hold a
float exactly.
"""

import os
import struct
import subprocess
import tempfile

import peer

RUN = """integrator = {integrator}
dt = 0.002
nsteps = {steps}
cutoff-scheme = Verlet
nstlist = 10
verlet-buffer-tolerance = -1
rlist = 1.0
rcoulomb = 0.9
rvdw = 0.9
vdw-modifier = none
continuation = yes
comm-mode = none
nstxout = {steps}
nstvout = {steps}
"""
TOPOLOGY = """[ defaults ]
1 2 no 1.0 1.0
[ atomtypes ]
AR 18 39.948 0.0 A 0.34 0.996
[ moleculetype ]
AR 1
[ atoms ]
1 AR 1 AR AR 1 0.0 39.948
[ system ]
argon
[ molecules ]
AR {count}
"""


def parts(path):
    """The frames of a TRR file: box, positions, velocities and forces, in the file's units; floats or doubles."""
    with open(path, "rb") as it:
        data = it.read()
    at, found = 0, []
    while at < len(data):
        (length,) = struct.unpack_from(">i", data, at + 8)
        at += 12 + (length + 3) // 4 * 4
        sizes = struct.unpack_from(">13i", data, at)
        number, kind = (8, "d") if sizes[2] == 72 else (4, "f")
        at += 52 + 2 * number
        rows = []
        for size in (sizes[2], sizes[7], sizes[8], sizes[9]):
            numbers = struct.unpack_from(f">{size // number}{kind}", data, at)
            rows.append([numbers[k : k + 3] for k in range(0, len(numbers), 3)])
            at += size
        found.append(rows)
    return found


def frames(path):
    """The frames of a TRR file: sides, positions and velocities, in the file's units."""
    return [([box[axis][axis] for axis in range(3)], positions, velocities) for box, positions, velocities, _ in parts(path)]


def gro(sides, positions, velocities):
    """A GRO frame with 12 decimals of positions and 13 of velocities."""
    lines = ["argon", str(len(positions))]
    for number, (at, velocity) in enumerate(zip(positions, velocities), 1):
        lines.append(f"{number:5}{'AR':<5}{'AR':>5}{number:5}" + "".join(f"{x:17.12f}" for x in at) + "".join(f"{v:17.13f}" for v in velocity))
    return "\n".join([*lines, " ".join(f"{side:.9f}" for side in sides)]) + "\n"


def run(start, count, integrator, steps, threads, *more):
    """The first and the last frame of a run that starts from the text of a GRO file."""
    with tempfile.TemporaryDirectory() as folder:
        for name, text in (("start.gro", start), ("run.mdp", RUN.format(integrator=integrator, steps=steps)), ("argon.top", TOPOLOGY.format(count=count))):
            with open(f"{folder}/{name}", "w", encoding="ascii") as it:
                it.write(text)
        how = {"cwd": folder, "check": True, "stdout": subprocess.DEVNULL, "stderr": subprocess.DEVNULL, "env": {**os.environ, "OMP_NUM_THREADS": str(threads)}}
        subprocess.run("gmx grompp -f run.mdp -c start.gro -p argon.top -o run.tpr -maxwarn 5".split(), **how)
        words = f"gmx mdrun -s run.tpr -deffnm run -ntmpi 1 -ntomp {threads} -nb cpu -pin off".split()
        subprocess.run([*words, *more], **how)
        found = frames(f"{folder}/run.trr")
    return found[0], found[-1]


def main():
    given = peer.arguments(__doc__)
    with open(given.gro, encoding="ascii") as it:
        start = it.read()
    count = int(start.splitlines()[1])
    said = subprocess.run(["gmx", "--version"], stdout=subprocess.PIPE, stderr=subprocess.DEVNULL, text=True).stdout
    version = next(line.split(":")[1].strip() for line in said.splitlines() if line.startswith("GROMACS version"))
    print(f"GROMACS {version}, {count} atoms")
    for steps in given.steps:
        (sides, begun, _), (_, there, velocities) = run(start, count, "md-vv", steps, 1)
        turned = gro(sides, there, [[-v for v in it] for it in velocities])
        _, (_, back, _) = run(turned, count, "md-vv", steps, 1)
        print(f"md-vv, {steps} steps and back: {peer.returned(begun, back, sides)}", flush=True)
    for threads in given.threads:
        _, (_, there, _) = run(start, count, "md", given.steps[0], threads, "-reprod")
        sum_there = peer.digest(there)
        print(f"md -reprod, {threads} threads, positions after {given.steps[0]} steps: {sum_there}", flush=True)


if __name__ == "__main__":
    main()
