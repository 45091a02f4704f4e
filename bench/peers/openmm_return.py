#!/usr/bin/env python3
"""Reverses OpenMM: N leap-frog steps, velocities reversed, N steps; and compares positions between numbers of threads.

  /usr/bin/python3 bench/peers/openmm_return.py [--steps N ..] [--threads T ..] [--gro FILE]

Debian: python3-simtk libopenmm-plugins. The energy is the formula of examples/argon.job, unchanged.
"""

import peer

try:
    import openmm
except ImportError:
    from simtk import openmm


class Run:
    """A run of the liquid on a platform."""

    def __init__(self, liquid, platform, threads):
        text, values = peer.energy()
        force, system = openmm.CustomNonbondedForce(text), openmm.System()
        for name, value in values.items():
            force.addGlobalParameter(name, value)
        for _ in liquid.positions:
            system.addParticle(peer.MASS)
            force.addParticle([])
        x, y, z = liquid.sides
        system.setDefaultPeriodicBoxVectors((x, 0, 0), (0, y, 0), (0, 0, z))
        force.setNonbondedMethod(openmm.CustomNonbondedForce.CutoffPeriodic)
        force.setCutoffDistance(peer.CUTOFF)
        system.addForce(force)
        self.integrator = openmm.VerletIntegrator(peer.STEP)
        properties = {"Threads": str(threads)} if platform == "CPU" else {}
        self.context = openmm.Context(system, self.integrator, openmm.Platform.getPlatformByName(platform), properties)
        self.context.setPositions(liquid.positions)
        self.context.setVelocities(liquid.velocities)

    def positions(self):
        return [tuple(it._value) for it in self.context.getState(getPositions=True).getPositions()]

    def turn(self):
        """Reverses the velocities at the current positions. OpenMM keeps the velocities half a step before the
        positions; the reversed ones must be those half a step after.
        """
        here = self.context.getState(getPositions=True).getPositions()
        self.integrator.step(1)
        velocities = self.context.getState(getVelocities=True).getVelocities(asNumpy=True)
        self.context.setPositions(here)
        self.context.setVelocities(-velocities)


def main():
    given = peer.arguments(__doc__)
    liquid = peer.Liquid(given.gro)
    print(f"OpenMM {openmm.Platform.getOpenMMVersion()}, {len(liquid.positions)} atoms")
    for platform in ("Reference", "CPU"):
        for steps in given.steps:
            run = Run(liquid, platform, 1)
            start = run.positions()
            run.integrator.step(steps)
            run.turn()
            run.integrator.step(steps)
            print(f"{platform}, {steps} steps and back: {peer.returned(start, run.positions(), liquid.sides)}", flush=True)
    for threads in [*given.threads, given.threads[-1]]:
        run = Run(liquid, "CPU", threads)
        run.integrator.step(given.steps[0])
        sum_there = peer.digest(run.positions())
        print(f"CPU, {threads} threads, positions after {given.steps[0]} steps: {sum_there}", flush=True)


if __name__ == "__main__":
    main()
