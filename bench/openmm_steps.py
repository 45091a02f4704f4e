#!/usr/bin/env python3
"""Prints the seconds of a step of OpenMM's CPU platform, wall time and CPU time, for the system in a JSON file.

  openmm_steps.py text FILE THREADS STEPS       with the energy as a formula (CustomNonbondedForce)
  openmm_steps.py built-in FILE THREADS STEPS   with OpenMM's own Lennard-Jones (NonbondedForce)
  openmm_steps.py --version                     prints OpenMM's version, if it and its CPU platform are installed

other_engines.py runs this script in an interpreter that has OpenMM, and needs none itself.
"""

import json
import sys
import time


def openmm():
    try:
        import openmm as found
    except ImportError:
        from simtk import openmm as found
    return found


def text_force(mm, given):
    force = mm.CustomNonbondedForce(given["energy"])
    for name in ("sigma", "epsilon"):
        force.addPerParticleParameter(name)
    for _ in given["positions"]:
        force.addParticle([given["sigma"], given["epsilon"]])
    force.setUseLongRangeCorrection(False)
    return force


def built_in_force(mm, given):
    force = mm.NonbondedForce()
    for _ in given["positions"]:
        force.addParticle(0, given["sigma"], given["epsilon"])
    force.setUseDispersionCorrection(False)
    return force


def context(mm, given, force, threads):
    system = mm.System()
    sides = enumerate(given["box"])
    system.setDefaultPeriodicBoxVectors(*(mm.Vec3(*(side * (axis == at) for at in range(3))) for axis, side in sides))
    for _ in given["positions"]:
        system.addParticle(given["mass"])
    force.setNonbondedMethod(force.CutoffPeriodic)
    force.setCutoffDistance(given["cutoff"])
    system.addForce(force)
    platform = mm.Platform.getPlatformByName("CPU")
    made = mm.Context(system, mm.VerletIntegrator(given["step"]), platform, {"Threads": threads})
    made.setPositions([mm.Vec3(*at) for at in given["positions"]])
    made.setVelocities([mm.Vec3(*v) for v in given["velocities"]])
    return made


def main():
    if sys.argv[1:] == ["--version"]:
        openmm().Platform.getPlatformByName("CPU")
        print(openmm().Platform.getOpenMMVersion())
        return
    kind, path, threads, steps = *sys.argv[1:4], int(sys.argv[4])
    with open(path, encoding="ascii") as file:
        given = json.load(file)
    mm = openmm()
    made = context(mm, given, text_force(mm, given) if kind == "text" else built_in_force(mm, given), threads)
    integrator = made.getIntegrator()
    # the first steps compile the energy and find the neighbours
    integrator.step(2)
    made.getState(getEnergy=True)
    clock, processor = time.perf_counter(), time.process_time()
    integrator.step(steps)
    made.getState(getPositions=True)
    print((time.perf_counter() - clock) / steps, (time.process_time() - processor) / steps)


if __name__ == "__main__":
    main()
