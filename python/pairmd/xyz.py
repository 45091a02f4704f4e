"""Output for other programs: extended XYZ, and objects of MDAnalysis if it is installed.

Extended XYZ has lengths in Angstrom; ASE, OVITO and VMD read it. Its numbers are decimals rounded to nine digits after
the point, the same on every machine. Velocities are half a step before the positions, as in the states.
"""

from __future__ import annotations

import os
from collections.abc import Iterable, Mapping, Sequence
from typing import IO, Any

from .ase_atoms import species_of
from .job import Job
from .libraries import mdanalysis, np
from .state import State
from .texts import put
from .times import interval_of
from .units import ANGSTROM, MASS_UNITS, PLACES, SIDE_UNITS, Three, decimal_text, nearest

DIGITS = 9
ASE_PICOSECOND = 9_822_694_788_464_063
"""1 ps in ASE's unit of time, Angstrom (u/eV)^(1/2), by 10^14: the decimal of `1000 * ase.units.fs` (CODATA 2014)."""
WITH_JOB = ":velo:R:3:masses:R:1:momenta:R:3"
"""The columns that need a job."""


def xyz_text(state: State, job: Job | None = None, species: Mapping[str, str] | None = None) -> str:
    """Returns a state as a frame of extended XYZ: species and positions in Angstrom. With a job also the time in ps,
    velocities in Angstrom/ps (column `velo`, which OVITO reads), masses in u, and momenta in ASE's units: ASE's
    `get_velocities` divides them by the masses.
    """
    a, b, c = (decimal_text(side, 4) for side in state.box)  # 10^-5 nm is 10^-4 Angstrom
    head = f'Lattice="{a} 0 0 0 {b} 0 0 0 {c}" Properties=species:S:1:pos:R:3{WITH_JOB if job else ""}'
    head += f' step={state.step} pbc="T T T"'
    if job:
        head += f" Time={decimal_text(state.step * job.dt, 3)}"
    unit = 10**DIGITS * ANGSTROM
    masses = job.masses(state.names) if job else [0] * len(state)
    lines = [str(len(state)), head]
    for name, mass, place, move in zip(state.names, masses, state.current, state.moves(), strict=True):
        row = [nearest(x * side * unit, SIDE_UNITS * PLACES) for x, side in zip(place, state.box)]
        words = [decimal_text(number, DIGITS) for number in row] + (motion(move, mass, state.box, job.dt) if job else [])
        lines.append(" ".join([species_of(name, species), *words]))
    return "\n".join([*lines, ""])


def motion(move: Three, mass: int, box: Three, dt: int) -> list[str]:
    """Returns the words of an atom's velocity, mass and momentum, from its displacement in the last step in grid units,
    its mass in 10^-5 u, the sides in 10^-5 nm, and the time step in fs.
    """
    unit = 1000 * ANGSTROM * 10**DIGITS
    parts = [(x * side * unit, SIDE_UNITS * PLACES * dt) for x, side in zip(move, box)]
    velocity = [nearest(above, below) for above, below in parts]
    momentum = [nearest(above * mass * 10**14, below * MASS_UNITS * ASE_PICOSECOND) for above, below in parts]
    numbers = [decimal_text(number, DIGITS) for number in (*velocity, *momentum)]
    return [*numbers[:3], decimal_text(mass, 5), *numbers[3:]]


def write_xyz(
    states: Iterable[State], file: str | os.PathLike[str] | IO[str], job: Job | None = None, species: Mapping[str, str] | None = None
) -> None:
    """Writes states as frames of extended XYZ to a path or an open text file; see `xyz_text`."""
    put(file, (xyz_text(state, job, species) for state in states))


def to_mdanalysis(states: Iterable[State], job: Job, interval: float | None = None) -> Any:
    """Returns an `MDAnalysis.Universe` with all states in memory: positions in Angstrom, in the box; velocities in
    Angstrom/ps, half a step before the positions; times in ps; names, types, masses and residues.

    interval: the time between two states in ps, only for states whose step counters don't advance; the first then has
    the time 0. Otherwise times come from the counters, and fall in states of a run back. Raises ValueError if there are
    no states, or if the counters aren't equally far apart or contradict the interval.
    """
    kept = list(states)
    if not kept:
        raise ValueError("there are no states")
    first = kept[0]
    begin, time = times_of(kept, job, interval)
    residues = len(first)
    universe = mdanalysis.Universe.empty(residues, residues, atom_resindex=range(residues), trajectory=True)
    masses = [mass / MASS_UNITS for mass in job.masses(first.names)]
    topology = {"names": first.names, "types": first.names, "masses": masses}
    topology |= {"resnames": [it.residue_name for it in first.atoms], "resids": [it.residue for it in first.atoms]}
    for name, values in topology.items():
        universe.add_TopologyAttr(name, values)
    places = np.array([state.positions() * ANGSTROM for state in kept], dtype=np.float32)
    velocities = np.array([state.velocities(job.dt) * ANGSTROM for state in kept], dtype=np.float32)
    boxes = np.array([[side * ANGSTROM for side in state.sides] + [90.0] * 3 for state in kept], dtype=np.float32)
    universe.load_new(places, order="fac", dimensions=boxes, velocities=velocities, dt=time, time_offset=begin)
    return universe


def times_of(states: Sequence[State], job: Job, interval: float | None) -> tuple[float, float]:
    """Returns the time of the first state in ps, and the time from each state to the next, below 0 in a run back."""
    steps = [state.step for state in states]
    if len(steps) == 1 and interval is None:
        return steps[0] * job.dt / 1000, job.time_step
    time = interval_of(steps, job.dt, interval)
    if len({*steps}) == 1:
        return 0.0, time
    return steps[0] * job.dt / 1000, time if steps[0] < steps[-1] else -time
