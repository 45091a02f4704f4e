"""Runs OpenMM, LAMMPS and GROMACS, if they are installed, on the melted argon of melted.py; engines.py times them.

Each engine has a name, the description of its computation, and a version, which is empty if the engine isn't installed.
`timing` returns two functions: one runs a system once more, in a directory of its own; the other returns the seconds of
a step, wall time and CPU time, each the minimum of all runs. `pace` multiplies the number of steps, so that runs of
fast engines, and of those that don't report their times, are long enough to be timed.
"""

import json
import os
import re
import shutil
import subprocess

from argon import CUTOFF, EPSILON, LENNARD_JONES, MASS, SIGMA
from melted import STEP
from running import Steps, write

HERE = os.path.dirname(os.path.realpath(__file__))
CALORIE = 4.184  # kJ per kcal; LAMMPS's `real` units are Angstrom, fs and kcal/mol


def told_by_itself(take):
    """For an engine that reports the seconds of a step: a function that runs it once more, and one that returns the
    minima.
    """
    runs = []
    return lambda: runs.append(take()), lambda: tuple(map(min, zip(*runs)))


def less_a_short_run(words, steps, option="--steps", err=None):
    """For a program that doesn't: a function that runs it once more, for one step and for this many more, and one that
    returns the seconds of a step from the difference.
    """
    taken = Steps(1, 1 + steps)
    return lambda: taken.take(words, option, err), lambda: (taken.wall(), taken.processor())


def printed(*words):
    """The output of a command, empty if the command isn't installed or fails."""
    if not shutil.which(words[0]):
        return ""
    done = subprocess.run(words, stdout=subprocess.PIPE, stderr=subprocess.DEVNULL, check=False, text=True)
    return done.stdout if done.returncode == 0 else ""


def found(pattern, text):
    """The groups of the pattern's first match in the text, or None."""
    at = re.search(pattern, text)
    return at.groups() if at else None


# ---- OpenMM

class OpenMM:
    """OpenMM's CPU platform, in an interpreter of its own."""

    engine = "OpenMM"

    def __init__(self, python):
        self.python = python

    def version(self):
        return printed(self.python, f"{HERE}/openmm_steps.py", "--version").strip()

    def timing(self, system, threads, steps, room):
        liquid = system.liquid
        values = {"box": liquid.box(), "positions": liquid.positions(), "velocities": liquid.velocities()}
        values |= {"step": STEP / 1000, "mass": MASS, "cutoff": float(CUTOFF)}
        values |= {"energy": LENNARD_JONES, "sigma": SIGMA, "epsilon": EPSILON}
        path = write(room, "openmm.json", json.dumps(values))
        words = [self.python, f"{HERE}/openmm_steps.py", self.force, path, str(threads), str(steps)]
        return told_by_itself(lambda: tuple(map(float, subprocess.run(words, stdout=subprocess.PIPE, check=True, text=True).stdout.split())))


class OpenMMText(OpenMM):
    name, force, pace = "OpenMM text", "text", 1
    computes = "the formula (`CustomNonbondedForce`), single precision"


class OpenMMBuiltIn(OpenMM):
    name, force, pace = "OpenMM built in", "built-in", 4
    computes = "Lennard-Jones (`NonbondedForce`), single precision"


# ---- LAMMPS

LAMMPS_INPUT = """units real
atom_style atomic
read_data {data}
{pair}
timestep {step}
neighbor 2.0 bin
neigh_modify every 1 delay 0 check yes
thermo {steps}
fix 1 all nve
run {steps}
"""


class LAMMPS:
    """LAMMPS with processes, since Debian's has no threads. It reports the time of its loop and its CPU use."""

    engine = "LAMMPS"

    def version(self):
        groups = found(r"Simulator - (\d+ \w+ \d+)", printed("lmp", "-h"))
        return groups[0] if groups else ""

    def data(self, liquid):
        """The liquid as LAMMPS reads it, in Angstrom and fs."""
        lines = ["argon", "", f"{len(liquid.places)} atoms", "1 atom types", ""]
        lines += [f"0 {10 * side:.6f} {axis}lo {axis}hi" for side, axis in zip(liquid.box(), "xyz")]
        lines += ["", "Masses", "", f"1 {MASS}", "", "Atoms # atomic", ""]
        lines += [f"{number} 1 " + " ".join(f"{10 * x:.9f}" for x in at) for number, at in enumerate(liquid.positions(), 1)]
        lines += ["", "Velocities", ""]
        lines += [f"{number} " + " ".join(f"{v / 100:.9f}" for v in velocity) for number, velocity in enumerate(liquid.velocities(), 1)]
        return "\n".join(lines) + "\n"

    def timing(self, system, processes, steps, room):
        data, log = write(room, "lammps.data", self.data(system.liquid)), os.path.join(room, "lammps.log")
        script = write(room, "lammps.in", LAMMPS_INPUT.format(data=data, pair=self.pair(room), step=STEP, steps=steps))
        words = ["lmp", "-in", script, "-log", log, "-screen", "none"]
        if processes > 1:
            words = ["mpirun", "--bind-to", "none", "--oversubscribe", "-np", str(processes), *words]
        as_root = {"OMPI_ALLOW_RUN_AS_ROOT": "1", "OMPI_ALLOW_RUN_AS_ROOT_CONFIRM": "1", "OMP_NUM_THREADS": "1"}

        def take():
            subprocess.run(words, check=True, stdout=subprocess.DEVNULL, env={**os.environ, **as_root})
            with open(log, encoding="utf-8") as it:
                text = it.read()
            clock = float(found(r"Loop time of (\S+)", text)[0]) / steps
            return clock, clock * float(found(r"(\S+)% CPU use", text)[0]) / 100 * processes

        return told_by_itself(take)


class LAMMPSTable(LAMMPS):
    name, pace = "LAMMPS table", 4
    computes = "a table of the formula (`pair_style table`, splines), double precision"
    rows, least = 4000, 2.0  # Angstrom

    def pair(self, room):
        reach, lines = 10 * float(CUTOFF), []
        for row in range(self.rows):
            r = self.least + (reach - self.least) * row / (self.rows - 1)
            y = (10 * SIGMA / r) ** 6
            lines.append(f"{row + 1} {r:.10f} {4 * EPSILON / CALORIE * (y * y - y):.12g} {24 * EPSILON / CALORIE * (2 * y * y - y) / r:.12g}")
        table = write(room, "lammps.table", f"# argon\n\nARGON\nN {self.rows} R {self.least} {reach}\n\n" + "\n".join(lines) + "\n")
        return f"pair_style table spline 4096\npair_coeff 1 1 {table} ARGON {reach}"


class LAMMPSBuiltIn(LAMMPS):
    name, pace = "LAMMPS lj/cut", 4
    computes = "Lennard-Jones (`pair_style lj/cut`), double precision"

    def pair(self, room):
        return f"pair_style lj/cut {10 * float(CUTOFF)}\npair_coeff 1 1 {EPSILON / CALORIE:.9f} {10 * SIGMA}"


# ---- GROMACS

GROMACS_RUN = """integrator = md
dt = {step}
nsteps = {steps}
cutoff-scheme = Verlet
nstlist = 10
verlet-buffer-tolerance = -1
rlist = 1.0
rcoulomb = {cutoff}
rvdw = {cutoff}
vdw-modifier = none
continuation = yes
comm-mode = none
nstcalcenergy = 100
nstenergy = 0
nstlog = 0
"""
GROMACS_TOPOLOGY = """[ defaults ]
1 2 no 1.0 1.0
[ atomtypes ]
AR 18 {mass} 0.0 A {sigma} {epsilon}
[ moleculetype ]
AR 1
[ atoms ]
1 AR 1 AR AR 1 0.0 {mass}
[ system ]
argon
[ molecules ]
AR {atoms}
"""


class GROMACS:
    """GROMACS with threads. Its time is that of a run minus that of a short one."""

    name, engine, pace = "GROMACS", "GROMACS", 16
    computes = "Lennard-Jones, mixed precision"

    def version(self):
        groups = found(r"GROMACS version: *([^\s-]*)", printed("gmx", "--version"))
        return groups[0] if groups else ""

    def frame(self, liquid):
        """A GRO frame with nine decimals."""
        lines = ["argon", str(len(liquid.places))]
        for number, (at, velocity) in enumerate(zip(liquid.positions(), liquid.velocities()), 1):
            start = f"{number % 100_000:5}{'AR':<5}{'AR':>5}{number % 100_000:5}"
            lines.append(start + "".join(f"{x:14.9f}" for x in at) + "".join(f"{v:14.10f}" for v in velocity))
        return "\n".join([*lines, " ".join(f"{side:.9f}" for side in liquid.box())]) + "\n"

    def timing(self, system, threads, steps, room):
        write(room, "run.mdp", GROMACS_RUN.format(step=STEP / 1000, steps=steps, cutoff=CUTOFF))
        write(room, "argon.top", GROMACS_TOPOLOGY.format(mass=MASS, sigma=SIGMA, epsilon=EPSILON, atoms=system.atoms))
        write(room, "start.gro", self.frame(system.liquid))
        env = shutil.which("env")
        gmx = [env, "GMX_MAXBACKUP=-1", f"OMP_NUM_THREADS={threads}", "gmx", "-quiet"]
        files = f"-f {room}/run.mdp -c {room}/start.gro -p {room}/argon.top -o {room}/run.tpr -po {room}/out.mdp"
        subprocess.run([*gmx, "grompp", *files.split(), "-maxwarn", "5"], check=True, stdout=subprocess.DEVNULL, stderr=subprocess.DEVNULL)
        words = [*gmx, *f"mdrun -s {room}/run.tpr -deffnm {room}/run -ntmpi 1 -ntomp {threads} -nb cpu -pin off -noconfout".split()]
        return less_a_short_run(words, steps, "-nsteps", subprocess.DEVNULL)


def all_engines(python):
    return [OpenMMText(python), LAMMPSTable(), LAMMPSBuiltIn(), OpenMMBuiltIn(python), GROMACS()]
