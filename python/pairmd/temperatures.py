"""Velocities of states: temperature, scaling, and conversion to another time step, in exact integers.

A state's velocities are the displacements from its previous to its current frame over the job's time step, so they
belong to half a step before the current frame. All functions keep current coordinates, names, box and step counter,
and print the same numbers on every machine. A state whose displacements change can't be stepped back into its past.
"""

from __future__ import annotations

from collections.abc import Iterable
from fractions import Fraction
from math import floor, isqrt

from .job import Job
from .state import State
from .table import Forces
from .units import BOLTZMANN, MASS_UNITS, PLACES, SIDE_UNITS, Exact, Three, exact, nearest, rounded


def kinetic_sum(state: State, job: Job) -> int:
    """Returns the sum over atoms and sides of m L^2 d^2: m in 10^-5 u, L in 10^-5 nm, d the displacement of the last
    step in grid units.
    """
    squares = [side**2 for side in state.box]
    weighted = zip(job.masses(state.names), state.moves())
    return sum(mass * sum(square * by * by for square, by in zip(squares, move)) for mass, move in weighted)


def unit_of_sum(job: Job) -> Fraction:
    """Returns the unit of `kinetic_sum` in u nm^2/ps^2, twice a kinetic energy in kJ/mol."""
    return Fraction(1000**2, MASS_UNITS * SIDE_UNITS**2 * PLACES**2 * job.dt**2)


def sum_at(kelvin: Fraction, atoms: int, job: Job) -> Fraction:
    """Returns the sum that `kinetic_sum` has at a temperature, with 3N - 3 degrees of freedom."""
    return 3 * max(atoms - 1, 1) * BOLTZMANN * kelvin / unit_of_sum(job)


def temperature(state: State, job: Job) -> Fraction:
    """Returns the temperature in K of the velocities of the last step, with 3N - 3 degrees of freedom. A table of
    `observe` has the mean of the kinetic energies of this step and the next one.
    """
    return kinetic_sum(state, job) * unit_of_sum(job) / (3 * max(len(state) - 1, 1) * BOLTZMANN)


def drift(state: State, job: Job) -> Three:
    """Returns the velocity of the centre of mass along each side, in grid units per step, rounded down."""
    masses = job.masses(state.names)
    x, y, z = (sum(m * by for m, by in zip(masses, axis)) // sum(masses) for axis in zip(*state.moves()))
    return x, y, z


def at_temperature(state: State, job: Job, kelvin: Exact, seen: int | None = None) -> State:
    """Returns the state without the drift of its centre of mass, and with its velocities scaled to a temperature in K.

    seen: the `kinetic_sum` that counts as the current one, by default the state's own. Displacements are rounded down
    to grid units. Raises ValueError for a state at rest.
    """
    now = kinetic_sum(state, job) if seen is None else seen
    if now <= 0 or exact(kelvin) < 0:
        raise ValueError("a state at rest can't be scaled, and a temperature is at least 0")
    factor = isqrt((floor(sum_at(exact(kelvin), len(state), job)) << 64) // now)
    mean = drift(state, job)
    return state.with_moves(tuple((x - by) * factor >> 32 for x, by in zip(move, mean)) for move in state.moves())  # type: ignore[misc]


def scaled_by(state: State, factor: Fraction) -> State:
    """Returns the state with its velocities multiplied by a factor, to the nearest grid unit per step; drift included."""
    top, bottom = factor.numerator, factor.denominator
    return state.with_moves(tuple(nearest(by * top, bottom) for by in move) for move in state.moves())  # type: ignore[misc]


def root(number: Fraction) -> Fraction:
    """Returns the root of a number, rounded down to a multiple of 2^-32."""
    return Fraction(isqrt(floor(number * PLACES**2)), PLACES)


def at_time_step(state: State, old: int, new: int, following: State | None = None) -> State:
    """Returns the state for a job with another time step: with the same velocities, within half a grid unit per new
    step.

    old, new: the time steps in fs. following: the state one old step later; with it the velocities also move to the
    new time, half a new step before the current frame, along the parabola through the three frames.
    """
    if following is None:
        return scaled_by(state, Fraction(new, old))
    if following.previous != state.current:
        raise ValueError("`following` isn't the state one step later: its previous frame isn't the current one")
    both = zip(state.moves(), following.moves())
    return state.with_moves(tuple(_bent(m, n, old, new) for m, n in zip(*two)) for two in both)  # type: ignore[misc]


def _bent(last: int, then: int, old: int, new: int) -> int:
    """The displacement of a new step from those of the last old step and the next: (m+n) f/2 - (n-m) f^2/2 with
    f = new / old, to the nearest integer.
    """
    return nearest((last + then) * new * old - (then - last) * new**2, 2 * old**2)


def at_half_step(state: State, job: Job, forces: Forces) -> State:
    """Returns the state of velocities that belong to the time of the current frame, as those of LAMMPS and ASE do: moves
    them to half a step before it, by half the acceleration of the forces on that frame, to the nearest grid unit per step.

    forces: of the state, as `pairmd.forces(job, state)` returns them.
    """
    return _kicked(state, job, forces, -1)


def at_full_step(state: State, job: Job, forces: Forces) -> State:
    """Returns a state with velocities at the time of its current frame, to be written for LAMMPS or ASE, not to be run: the
    inverse of `at_half_step`, exactly.
    """
    return _kicked(state, job, forces, 1)


def _kicked(state: State, job: Job, forces: Forces, sign: int) -> State:
    """The state with its velocities changed by half a step of the forces."""
    top, bottom = PLACES * SIDE_UNITS * MASS_UNITS * job.dt**2, 2 * 1000**2 * 2**forces.bits
    rows = zip(state.moves(), forces.raw, job.masses(state.names), strict=True)
    changes = (
        [by + sign * nearest(force * top, bottom * mass * side) for by, force, side in zip(move, acting, state.box)]
        for move, acting, mass in rows
    )
    return state.with_moves(tuple(it) for it in changes)  # type: ignore[misc]


def mean_kelvin(rows: Iterable[Fraction]) -> Fraction:
    """Returns the mean of temperatures."""
    listed = list(rows)
    return sum(listed, Fraction(0)) / len(listed)


def velocity_decimals(state: State, job: Job) -> list[Three]:
    """Returns each atom's velocity in 10^-4 nm/ps, to the nearest one: those of a GRO file."""
    units = [Fraction(side * 10**7, SIDE_UNITS * PLACES * job.dt) for side in state.box]
    return [tuple(rounded(by * unit) for by, unit in zip(move, units)) for move in state.moves()]  # type: ignore[misc]


def position_decimals(state: State) -> list[Three]:
    """Returns each atom's position in picometres, to the nearest one: those of a GRO file."""
    x, y, z = (Fraction(side, 100 * PLACES) for side in state.box)
    return [(rounded(a * x), rounded(b * y), rounded(c * z)) for a, b, c in state.current]
