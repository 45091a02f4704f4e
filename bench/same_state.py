"""One state of argon in OpenMM, LAMMPS and GROMACS, if they are installed; a module of validation.py.

`measured` of an engine returns what the engine itself reports: its energies, temperature and pressure as a dictionary,
and the force on each atom. Two conventions of the kinetic energy differ. `half` is the mean of the kinetic energies
half a step before and half a step after the state; `mean` is the kinetic energy of the mean of both velocities.
"""

import os
import subprocess
import sys

from argon import CUTOFF, EPSILON, MASS, SIGMA
from other_engines import GROMACS_TOPOLOGY, found, printed
from running import pairmd, write

sys.path.insert(1, os.path.join(os.path.dirname(os.path.realpath(__file__)), "peers"))
from gromacs_return import gro, parts  # noqa: E402

BAR, BOLTZMANN = float(pairmd.BAR), float(pairmd.BOLTZMANN)


class Snapshot:
    """A state and the one a step later, in nm, ps and u. `before` and `middle` are velocities: half a step before the
    positions, and the mean of those half a step before and after.
    """

    def __init__(self, job, state):
        self.job, self.state = job, state
        after = pairmd.run(job, state, 1)
        units = [side / pairmd.PLACES for side in state.sides]
        rows = list(zip(state.current, state.moves(), after.moves()))
        self.positions = [[x * unit for x, unit in zip(at, units)] for at, _, _ in rows]
        self.before = [[by * unit / job.time_step for by, unit in zip(move, units)] for _, move, _ in rows]
        sums = ([by + then for by, then in zip(move, later)] for _, move, later in rows)
        self.middle = [[by * unit / 2 / job.time_step for by, unit in zip(both, units)] for both in sums]
        self.masses = [mass / 100_000 for mass in job.masses(state.names)]

    def measured(self):
        """What pairmd reports, and the figures of the mean velocities, which the script computes."""
        table, forces = pairmd.observe(self.job, self.state), pairmd.forces(self.job, self.state).values()
        half, pressure = table["kinetic"][0], table["pressure"][0]
        mean = sum(mass * v * v for mass, at in zip(self.masses, self.middle) for v in at) / 2
        figures = {"potential": table["potential"][0], "kinetic, half": half, "kinetic, mean": mean}
        figures |= {"temperature, half": table["temperature"][0], "temperature, mean": self.kelvin(mean)}
        figures["pressure, half"] = pressure
        figures["pressure, mean"] = pressure + 2 * (mean - half) / 3 / self.state.volume * BAR
        return figures, forces

    def kelvin(self, kinetic):
        """The temperature of a kinetic energy, with 3N - 3 degrees of freedom."""
        return 2 * kinetic / (3 * len(self.state) - 3) / BOLTZMANN

    def kick(self, forces):
        """The sum of F^2 dt^2 / 8m over atoms: by this sum `half` exceeds `mean`."""
        squares = (sum(f * f for f in force) / mass for force, mass in zip(forces, self.masses))
        return sum(squares) * self.job.time_step**2 / 8


def engines():
    """All engines, whether they are installed or not."""
    return [OpenMM(), LAMMPS(), GROMACS("gmx_d", "double"), GROMACS("gmx", "mixed")]


# ---- OpenMM


class OpenMM:
    """OpenMM's Reference platform, in doubles, with the text of the job's energy. It has no pressure: the script takes
    the derivative of OpenMM's potential energy by the volume, with positions and cutoff scaled like the box.
    """

    name, kind, scaling = "OpenMM", "Reference", 1e-5

    def version(self):
        try:
            return self.module().Platform.getOpenMMVersion()
        except ImportError:
            return ""

    @staticmethod
    def module():
        try:
            import openmm
        except ImportError:
            from simtk import openmm
        return openmm

    def context(self, snapshot, scale=1.0):
        """The snapshot in a box scaled along each side."""
        openmm, job, state = self.module(), snapshot.job, snapshot.state
        force, system = openmm.CustomNonbondedForce(job.energy), openmm.System()
        for name, value in job.globals.items():
            force.addGlobalParameter(name, float(value))
        for name in job.parameters:
            force.addPerParticleParameter(name)
        for name, mass in zip(state.names, snapshot.masses):
            system.addParticle(mass)
            force.addParticle(list(map(float, job.type_of(name).values)))
        force.setNonbondedMethod(force.CutoffPeriodic)
        force.setCutoffDistance(float(job.cutoff) * scale)
        force.setUseLongRangeCorrection(False)
        sides = enumerate(state.sides)
        system.setDefaultPeriodicBoxVectors(*([side * scale * (axis == at) for at in range(3)] for axis, side in sides))
        system.addForce(force)
        platform = openmm.Platform.getPlatformByName("Reference")
        made = openmm.Context(system, openmm.VerletIntegrator(job.time_step), platform)
        made.setPositions([tuple(x * scale for x in at) for at in snapshot.positions])
        return made

    def potential(self, snapshot, scale):
        return self.context(snapshot, scale).getState(getEnergy=True).getPotentialEnergy()._value

    def measured(self, snapshot, _):
        context = self.context(snapshot)
        # its velocities are those half a step before; it reports the kinetic energy of the mean
        context.setVelocities([tuple(v) for v in snapshot.before])
        seen = context.getState(getEnergy=True, getForces=True)
        kinetic, forces = seen.getKineticEnergy()._value, [tuple(it._value) for it in seen.getForces()]
        volume, (low, high) = snapshot.state.volume, (1 - self.scaling, 1 + self.scaling)
        virial = -(self.potential(snapshot, high) - self.potential(snapshot, low)) / (high**3 - low**3) / volume
        pressure = (2 * kinetic / 3 / volume + virial) * BAR
        figures = {"potential": seen.getPotentialEnergy()._value, "kinetic, mean": kinetic, "pressure, mean": pressure}
        return figures, forces


# ---- LAMMPS

LAMMPS_INPUT = """units lj
atom_style atomic
read_data {room}/data
pair_style lj/cut {cutoff}
pair_coeff 1 1 {epsilon} {sigma}
timestep {step}
fix 1 all nve
thermo_style custom pe ke temp press
thermo_modify norm no
run 0
print "$(pe:%.15g) $(ke:%.15g) $(temp:%.15g) $(press:%.15g)" file {room}/figures
write_dump all custom {room}/forces id fx fy fz modify sort id format float %.17g
"""


class LAMMPS:
    """LAMMPS, in doubles, with `pair_style lj/cut`. Its `lj` units are any consistent ones: here nm, ps, u and kJ/mol,
    so no constant of LAMMPS enters. Its velocities belong to the time of the positions.
    """

    name, kind = "LAMMPS", "lj/cut"

    def version(self):
        groups = found(r"Simulator - (\d+ \w+ \d+)", printed("lmp", "-h"))
        return groups[0] if groups else ""

    def data(self, snapshot):
        lines = ["argon", "", f"{len(snapshot.positions)} atoms", "1 atom types", ""]
        lines += [f"0 {side!r} {axis}lo {axis}hi" for side, axis in zip(snapshot.state.sides, "xyz")]
        lines += ["", "Masses", "", f"1 {MASS}", "", "Atoms # atomic", ""]
        lines += [f"{number} 1 {x!r} {y!r} {z!r}" for number, (x, y, z) in enumerate(snapshot.positions, 1)]
        lines += ["", "Velocities", ""]
        lines += [f"{number} {x!r} {y!r} {z!r}" for number, (x, y, z) in enumerate(snapshot.middle, 1)]
        return "\n".join(lines) + "\n"

    def measured(self, snapshot, room):
        write(room, "data", self.data(snapshot))
        values = {"cutoff": CUTOFF, "epsilon": EPSILON, "sigma": SIGMA, "step": snapshot.job.time_step}
        script = write(room, "in", LAMMPS_INPUT.format(room=room, **values))
        subprocess.run(["lmp", "-in", script, "-log", "none", "-screen", "none"], check=True, stdout=subprocess.DEVNULL)
        with open(f"{room}/figures", encoding="ascii") as file:
            potential, kinetic, temperature, pressure = map(float, file.read().split())
        with open(f"{room}/forces", encoding="ascii") as file:
            forces = [tuple(map(float, line.split()[1:4])) for line in file.read().splitlines()[9:]]
        figures = {"potential": potential, "kinetic, mean": kinetic, "temperature, mean": temperature / BOLTZMANN}
        return figures | {"pressure, mean": pressure * BAR}, forces


# ---- GROMACS

GROMACS_RUN = """integrator = md
dt = {step}
nsteps = 0
cutoff-scheme = Verlet
nstlist = 10
verlet-buffer-tolerance = -1
rlist = 1.0
rcoulomb = {cutoff}
rvdw = {cutoff}
vdw-modifier = none
DispCorr = no
continuation = yes
comm-mode = linear
nstcalcenergy = 1
nstenergy = 1
nstfout = 1
"""
TERMS = {"Potential": "potential", "Kinetic En.": "kinetic, half"}
TERMS |= {"Temperature": "temperature, half", "Pressure": "pressure, half"}


class GROMACS:
    """GROMACS's leap-frog, in the precision of the program `gmx` or `gmx_d`."""

    def __init__(self, program, precision):
        self.program, self.name, self.kind = program, "GROMACS", precision

    def version(self):
        groups = found(r"GROMACS version: *([^\s-]*)", printed(self.program, "--version"))
        return groups[0] if groups else ""

    def gmx(self, room, words, given=None):
        environment = {**os.environ, "GMX_MAXBACKUP": "-1", "OMP_NUM_THREADS": "1"}
        how = {"cwd": room, "check": True, "stdout": subprocess.PIPE, "stderr": subprocess.DEVNULL, "text": True}
        return subprocess.run([self.program, "-quiet", *words.split()], input=given, env=environment, **how).stdout

    def measured(self, snapshot, room):
        write(room, "run.mdp", GROMACS_RUN.format(step=snapshot.job.time_step, cutoff=CUTOFF))
        values = {"mass": MASS, "sigma": SIGMA, "epsilon": EPSILON, "atoms": len(snapshot.positions)}
        write(room, "argon.top", GROMACS_TOPOLOGY.format(**values))
        write(room, "start.gro", gro(snapshot.state.sides, snapshot.positions, snapshot.before))
        self.gmx(room, "grompp -f run.mdp -c start.gro -p argon.top -o run.tpr -maxwarn 5")
        self.gmx(room, "mdrun -s run.tpr -deffnm run -ntmpi 1 -ntomp 1 -nb cpu -pin off")
        self.gmx(room, "energy -f run.edr -dp -o terms.xvg", "\n".join(it.replace(" ", "-") for it in TERMS) + "\n\n")
        with open(f"{room}/terms.xvg", encoding="utf-8") as file:
            lines = file.read().splitlines()
        names = [it[0] for line in lines if (it := found(r'@ s\d+ legend "(.*)"', line))]
        numbers = next(line for line in lines if line[0] not in "#@").split()[1:]
        figures = {TERMS[name]: float(number) for name, number in zip(names, numbers)}
        return figures, parts(f"{room}/run.trr")[0][3]
