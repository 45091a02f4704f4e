#!/usr/bin/env python3
"""Measures the effects of the integer grid on liquid argon: the 500 atoms of examples/argon.gro.

  bench/grid.py places                    the grid unit, and the force that moves an argon atom by one in some steps
  bench/grid.py energy                    the random walk of the total energy, from the table of pictures/energies.py
  bench/grid.py time_step                 the change of the total energy by examples/time_step.py
  bench/grid.py growth                    the growth of a small change of the start
  bench/grid.py echo                      the growth on the way back, from a change at the turn to the end
  /usr/bin/python3 bench/grid.py openmm   displacements of one step and the energy beside OpenMM's Reference platform;
                                          and the distance between the two programs' runs from one state
  /usr/bin/python3 bench/grid.py observed the output of `pairmd observe` and `forces` for states of a run, beside OpenMM

PAIRMD names the program. `time_step` needs numpy, `openmm` and `observed` need Debian's python3-simtk.
"""
import argparse
import math
import os
import sys

ROOT = os.path.dirname(os.path.dirname(os.path.realpath(__file__)))
sys.path.insert(1, f"{ROOT}/pictures")
import liquid  # noqa: E402
from liquid import pairmd  # noqa: E402

SIDE = 2.877  # nm


def force_of_a_place(step):
    """The force, in kJ/mol/nm, that moves an argon atom by one grid unit in a step of this many fs: F = m D / dt^2."""
    return liquid.MASS * SIDE / liquid.PLACES / (step / 1000) ** 2


def places():
    print(f"a grid unit is {SIDE / liquid.PLACES:.3e} nm on a side of {SIDE} nm")
    for step in (1, 2, 5, 10, 1000):
        print(f"{step:5} fs: a force of {force_of_a_place(step):.2e} kJ/mol/nm moves an argon atom by one grid unit")


def predicted(step, kinetic):
    """The growth of the mean square change of the energy, in (kJ/mol)^2 per ps. Each step rounds the velocity of each
    coordinate by up to half a grid unit per step, evenly, with a variance of 1/12. A change dv of the velocity changes
    the energy by m v dv.
    """
    kick = SIDE / liquid.PLACES / (step / 1000)
    return 1000 / step * liquid.MASS * 2 * kinetic * kick**2 / 12


def slope(xs, ys):
    """The slope of the least-squares line through points."""
    middle, mean = sum(xs) / len(xs), sum(ys) / len(ys)
    return sum((x - middle) * (y - mean) for x, y in zip(xs, ys)) / sum((x - middle) ** 2 for x in xs)


def energy():
    """Prints the random walk of the total energy in pictures/energies.tsv, 20 ps in samples of 0.2 ps, which
    pictures/energies.py measured. The mean square change of a random walk grows in proportion to time; other effects
    add a constant.
    """
    rows = liquid.read_table("energies")
    for step in (1, 2):
        seen, kinetic = ([float(row[name]) for row in rows if int(row["fs"]) == step] for name in ("total", "kinetic"))
        lags = range(5, 51, 5)  # 1 to 10 ps
        squares = [sum((b - a) ** 2 for a, b in zip(seen, seen[lag:])) / (len(seen) - lag) for lag in lags]
        grows, foretold = slope([lag / 5 for lag in lags], squares), predicted(step, sum(kinetic) / len(kinetic))
        print(f"{step} fs: the square of the change grows by {grows:.1e} (kJ/mol)^2 per ps, predicted {foretold:.1e},")
        print(f"      which is {math.sqrt(foretold * 20):.4f} kJ/mol in 20 ps; its square root over 1, 2, 5 and 10 ps:", end=" ")
        print(*(f"{math.sqrt(squares[at]):.4f}" for at in (0, 1, 4, 9)))


def apart(one, other):
    """The distance of two states in grid units: the root of the sum of squares over all coordinates."""
    return math.sqrt(sum(by * by for both in zip(one.current, other.current) for by in pairmd.moves(*both)))


CHANGES = [(0, 0), (100, 1), (200, 2), (300, 0), (400, 1)]  # the atom and the axis of the change in each run


def growth():
    """Prints the growth of a change of one coordinate by 10^5 grid units at the start: the distance of the two runs
    over the change, and the growth of its logarithm per ps.
    """
    step, by, every, samples = 2, 100_000, 100, 25
    own = liquid.Path(step)
    others = [liquid.Path(step) for _ in CHANGES]
    for path, (atom, axis) in zip(others, CHANGES):
        path.state = own.state.shifted(atom, axis, by)
    times, logs = [], []
    for sample in range(1, samples + 1):
        own.go(every)
        grown = [apart(own.state, path.go(every)) / by for path in others]
        times.append(sample * every * step / 1000)
        logs.append(sum(math.log(it) for it in grown) / len(grown))
        print(f"{times[-1]:.1f} ps: {math.exp(logs[-1]):10.1f} times, from {min(grown):.1f} to {max(grown):.1f}", flush=True)
    taken = [at for at, time in enumerate(times) if 1 <= time <= 4]
    rate = slope([times[at] for at in taken], [logs[at] for at in taken])
    print(f"from 1 to 4 ps: the logarithm grows by {rate:.2f} per ps, so tenfold every {math.log(10) / rate:.2f} ps")


def echoes(steps=1000):
    """Runs forward by steps of 2 fs, changes a coordinate, and runs back. Yields for each size of the change, in grid
    units, the distances from the start at the end, over the change, for the five coordinates of CHANGES.
    """
    own = liquid.Path(2)
    start, there = own.state, own.go(steps)
    other = liquid.Path(2)
    for by in (1, 10, 100, 1_000, 10_000, 100_000, 1_000_000):
        grown = []
        for atom, axis in CHANGES:
            other.state = there.shifted(atom, axis, by)
            grown.append(apart(start, other.go(steps, back=True)) / by)
        yield by, grown


def geometric_mean(numbers):
    return math.exp(sum(math.log(it) for it in numbers) / len(numbers))


def echo():
    for by, grown in echoes():
        mean, nm = geometric_mean(grown), by * SIDE / liquid.PLACES
        spread = f"from {min(grown):,.1f} to {max(grown):,.1f}"
        print(f"{by:8} grid units ({nm:.1e} nm): {mean:12,.1f} times, {spread}", flush=True)


def total(path):
    """The total energy of a path's state in kJ/mol."""
    return pairmd.observe(path.job, path.state)["total"][0]


def time_step():
    """Prints the change of the total energy when states are converted to other time steps: five states of a run at 2
    fs.
    """
    own, steps = liquid.Path(2), (1, 5, 10)
    others = [liquid.Path(step) for step in steps]
    sizes = ", ".join(f"{step} fs" for step in steps)
    print("total energy minus the one at 2 fs, kJ/mol, at", sizes, "without NEXT, and with it")
    for _ in range(5):
        own.go(400)
        was, off = total(own), []
        for following in (None, own.ahead(1)):
            for step, other in zip(steps, others):
                other.state = pairmd.at_time_step(own.state, 2, step, following)
                off.append(total(other) - was)
        print(f"{2 * own.state.step / 1000:.1f} ps:", ", ".join(f"{it:+.3f}" for it in off), flush=True)


class OpenMM:
    """Argon at a state's positions in OpenMM's Reference platform, in doubles, with the formula of examples/argon.job.
    """

    def __init__(self, state, step):
        sys.path.insert(1, f"{ROOT}/bench/peers")
        import peer

        try:
            import openmm
        except ImportError:
            from simtk import openmm
        text, values = peer.energy()
        force, system = openmm.CustomNonbondedForce(text), openmm.System()
        for name, value in values.items():
            force.addGlobalParameter(name, value)
        for _ in state.atoms:
            system.addParticle(liquid.MASS)
            force.addParticle([])
        system.setDefaultPeriodicBoxVectors((SIDE, 0, 0), (0, SIDE, 0), (0, 0, SIDE))
        force.setNonbondedMethod(openmm.CustomNonbondedForce.CutoffPeriodic)
        force.setCutoffDistance(peer.CUTOFF)
        system.addForce(force)
        self.integrator = openmm.VerletIntegrator(step / 1000)
        self.context = openmm.Context(system, self.integrator, openmm.Platform.getPlatformByName("Reference"))
        self.step = step / 1000
        self.put(state)

    def put(self, state):
        """Sets the positions and velocities of a state. In both programs the velocities are half a step before the
        positions.
        """
        place = SIDE / liquid.PLACES
        self.context.setPositions([tuple(x * place for x in at) for at in state.current])
        self.context.setVelocities([tuple(by * place / self.step for by in move) for move in state.moves()])
        self.look()

    def look(self):
        """Reads forces and energies from OpenMM."""
        seen = self.context.getState(getForces=True, getEnergy=True)
        self.forces = [tuple(it._value) for it in seen.getForces()]
        self.energy, self.kinetic = seen.getPotentialEnergy()._value, seen.getKineticEnergy()._value

    def spread(self):
        """The sum of F^2 dt^2 / 8 m. OpenMM reports the kinetic energy of the mean velocity; the mean of the kinetic
        energies half a step before and after is greater by this sum.
        """
        return sum(f * f for force in self.forces for f in force) * self.step**2 / (8 * liquid.MASS)

    def apart(self, state):
        """The greatest difference of a coordinate from a state's, in nm."""
        at = [tuple(it._value) for it in self.context.getState(getPositions=True).getPositions()]
        off = [x - p * SIDE / liquid.PLACES for xs, ps in zip(at, state.current) for x, p in zip(xs, ps)]
        return max(abs(it - SIDE * round(it / SIDE)) for it in off)


def displacement(path):
    """The displacement of each coordinate in a step, in grid units: n - 2c + p, minimum image."""
    before, after = path.state.moves(), path.ahead(1).moves()
    return [[then - was for was, then in zip(*both)] for both in zip(before, after)]


def openmm():
    for bits in (32, 40):
        for step in (2, 10, 1000):
            path = liquid.Path(step, bits)
            other, place = OpenMM(path.state, step), force_of_a_place(step)
            off = []
            for move, force in zip(displacement(path), other.forces):
                for by, size in zip(move, force):
                    wanted = size / place
                    near = round(wanted)
                    turns = (by - near + liquid.PLACES // 2) % liquid.PLACES - liquid.PLACES // 2
                    off.append((turns + near - wanted) * place)
            own = float(pairmd.energy(path.job, path.state))
            most, mean = max(map(abs, off)), math.sqrt(sum(it * it for it in off) / len(off))
            print(f"{bits} bits, {step} fs: errors of displacements, as forces: at most {most:.1e} kJ/mol/nm,", end=" ")
            print(f"root mean square {mean:.1e}; energy {abs(own - other.energy):.1e} kJ/mol off", flush=True)
    for bits in (32, 40):
        path = liquid.Path(2, bits)
        other = OpenMM(path.state, 2)
        for picosecond in range(1, 5):
            path.go(500)
            other.integrator.step(500)
            print(f"{bits} bits, 2 fs, after {picosecond} ps: the farthest coordinate is {other.apart(path.state):.1e} nm off", flush=True)


def whole_numbers(path, steps, every):
    """The rows of `observe --exact`, each with its state."""
    rows = pairmd.observe(path.job, path.state, steps, every, exact=True).rows
    return zip(rows, pairmd.states(path.job, path.state, steps, every))


def observed():
    """Prints the greatest differences from OpenMM over each 100th state of 1,000 steps of 2 fs, at 24, 32 and 40 bits.
    """
    step = 2
    for bits in (24, 32, 40):
        path, other, off = liquid.Path(step, bits), None, []
        for row, state in whole_numbers(path, 1000, 100):
            other = other or OpenMM(state, step)
            other.put(state)
            # FORMATS.md, Table: squares of moves in grid units, times masses in 10^-5 u
            kinetic = sum(row[3:6]) * (SIDE / liquid.PLACES / (step / 1000)) ** 2 / 4 / 10**5
            own = pairmd.forces(path.job, state).values()
            force = max(abs(x - y) for xs, ys in zip(own, other.forces) for x, y in zip(xs, ys))
            spread = other.spread()
            off.append([abs(row[2] / 2**bits - other.energy), abs(kinetic - other.kinetic - spread), force, spread])
        energy, kinetic, force, spread = map(max, zip(*off))
        print(f"{bits} bits, {len(off)} states: potential {energy:.1e} kJ/mol off at most, kinetic {kinetic:.1e},", end=" ")
        print(f"a force {force:.1e} kJ/mol/nm; OpenMM's own kinetic energy is less by up to {spread:.3f}", flush=True)


def main():
    parser = argparse.ArgumentParser(description=__doc__, formatter_class=argparse.RawDescriptionHelpFormatter)
    measures = {"places": places, "energy": energy, "time_step": time_step, "growth": growth, "echo": echo, "openmm": openmm, "observed": observed}
    parser.add_argument("what", choices=measures)
    measures[parser.parse_args().what]()


if __name__ == "__main__":
    main()
