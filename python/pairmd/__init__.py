"""Reads, writes, runs and analyses pairmd's jobs and states. Files and runs need only Python, analysis numpy and scipy.

  import pairmd

  job = pairmd.Job.read("argon.job")
  state = pairmd.start(job, "argon.gro")
  table = pairmd.observe(job, state, steps=1000, every=10, workers=4)
  print(pairmd.block_mean(table["temperature"]))
  g = pairmd.radial_distribution(pairmd.states(job, state, steps=1000, every=50))

Lengths are in nm, time steps of jobs in fs, other times in ps, velocities in nm/ps, masses in u, energies in kJ/mol,
pressures in bar. Grid coordinates are integers: x along a side of L nm means x L / 2^32. Commands take a job or a state
as an object (`Job`, `State`) or as the path of a file.

- `job`, `state`, `gro`, `table`: the files, with checks of their formats.
- `program`: each command of the program as a function, except `replay`.
- `temperatures`, `equilibration`, `lattice`: starts of runs, in exact integers.
- `averages`, `tails`: averages with errors, tail corrections.
- `structure`, `motion`, `stress`: g(r), S(q); displacements, F_s(q, t), velocity and stress correlation, viscosity.
- `lyapunov`: distances of runs, echoes, and the greatest Lyapunov exponent.
- `grids`, `ase_atoms`, `lammps`, `xyz`: arrays, ASE, LAMMPS, extended XYZ, MDAnalysis.
- `replays`, `replicas`, `spread`, `archive`: checks of stored runs, and many runs, over any map; archives.

`python -m pairmd --help` lists the module's own commands. The module is tested, not proved: no part of the program's
promise depends on it. docs/FORMATS.md defines the files.
"""

__version__ = "1.8.1"
"""The version, equal to that of the program it was tested with. `pyproject.toml` reads it here."""

from .archive import Run, write_archive
from .ase_atoms import from_ase, to_ase
from .averages import Mean, block_errors, block_mean
from .equilibration import Schedule, equilibrate
from .errors import AnswerError, FormatError, LibraryMissing, NotHeld, ProgramNotFound, Refusal
from .gro import GroFrame, read_gro, write_gro
from .job import AtomType, Job
from .lammps import (
    METAL,
    REAL,
    LammpsUnits,
    lammps_data,
    lammps_dump,
    read_lammps_data,
    read_lammps_dump,
    write_lammps_data,
    write_lammps_dump,
)
from .lattice import Component, fcc_lattice
from .lyapunov import Echo, brought_near, distance, echo, lyapunov_exponent, lyapunov_rates
from .motion import (
    Scattering,
    Series,
    Unwrapper,
    diffusion,
    mean_square_displacement,
    non_gaussian_parameter,
    self_intermediate_scattering,
    unwrapped,
    unwrapped_positions,
    velocity_autocorrelation,
)
from .program import (
    Verdict,
    back,
    call,
    check,
    code,
    curve,
    energy,
    energy_each,
    explain,
    find_program,
    forces,
    forces_each,
    frame,
    frame_each,
    observe,
    observe_each,
    run,
    start,
    states,
    trajectory,
    velocities,
    velocities_each,
    version,
)
from .replays import Replay, Segment, replay
from .replicas import Outcome, Task, runs
from .spread import restarting
from .state import Arrays, Atom, State, read_states, write_states
from .stress import stress_autocorrelation, viscosity
from .structure import Radial, StructureFactor, radial_distribution, structure_factor
from .table import Curve, CurveRow, Forces, Table, Velocities, read_curves, read_steps
from .tails import Tail, lennard_jones_tail, power_tail
from .times import logarithmic
from .triples import Triples
from .units import BAR, BOLTZMANN, PLACES, move, moves
from .temperatures import at_full_step, at_half_step, at_temperature, at_time_step, scaled_by, temperature
from .xyz import to_mdanalysis, write_xyz, xyz_text

__all__ = [
    "AnswerError",
    "Arrays",
    "at_full_step",
    "at_half_step",
    "at_temperature",
    "at_time_step",
    "Atom",
    "AtomType",
    "back",
    "BAR",
    "block_errors",
    "block_mean",
    "BOLTZMANN",
    "brought_near",
    "call",
    "check",
    "code",
    "Component",
    "Curve",
    "curve",
    "CurveRow",
    "diffusion",
    "distance",
    "Echo",
    "echo",
    "energy",
    "energy_each",
    "equilibrate",
    "explain",
    "fcc_lattice",
    "find_program",
    "Forces",
    "forces",
    "forces_each",
    "FormatError",
    "frame",
    "frame_each",
    "from_ase",
    "GroFrame",
    "Job",
    "lammps_data",
    "lammps_dump",
    "LammpsUnits",
    "lennard_jones_tail",
    "LibraryMissing",
    "logarithmic",
    "lyapunov_exponent",
    "lyapunov_rates",
    "Mean",
    "mean_square_displacement",
    "METAL",
    "move",
    "moves",
    "non_gaussian_parameter",
    "NotHeld",
    "observe",
    "observe_each",
    "Outcome",
    "PLACES",
    "power_tail",
    "ProgramNotFound",
    "Radial",
    "radial_distribution",
    "read_curves",
    "read_gro",
    "read_lammps_data",
    "read_lammps_dump",
    "read_states",
    "read_steps",
    "REAL",
    "Refusal",
    "Replay",
    "replay",
    "restarting",
    "Run",
    "run",
    "runs",
    "scaled_by",
    "Scattering",
    "Schedule",
    "Segment",
    "self_intermediate_scattering",
    "Series",
    "start",
    "State",
    "states",
    "stress_autocorrelation",
    "structure_factor",
    "StructureFactor",
    "Table",
    "Tail",
    "Task",
    "temperature",
    "to_ase",
    "to_mdanalysis",
    "trajectory",
    "Triples",
    "unwrapped",
    "unwrapped_positions",
    "Unwrapper",
    "Velocities",
    "velocities",
    "velocities_each",
    "velocity_autocorrelation",
    "Verdict",
    "version",
    "viscosity",
    "write_archive",
    "write_gro",
    "write_lammps_data",
    "write_lammps_dump",
    "write_states",
    "write_xyz",
    "xyz_text",
]
