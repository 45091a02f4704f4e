"""States as `ase.Atoms`, and the other way. Both need numpy and ASE.

Names and residues are kept in the arrays that ASE's reader of GRO files uses: `atomtypes`, `residuenames`,
`residuenumbers`. What a state can't hold raises NotHeld: `NotPeriodic`, `TriclinicBox`, `NoVelocities`, `UnknownType`, and
the names of `grids`.
"""

from __future__ import annotations

from collections.abc import Mapping, Sequence
from typing import Any

from .errors import NotHeld
from .job import Job
from .libraries import ase, ase_units, np
from .state import State
from .units import ANGSTROM, MASS_UNITS

ELEMENTS = frozenset(
    "H He Li Be B C N O F Ne Na Mg Al Si P S Cl Ar K Ca Sc Ti V Cr Mn Fe Co Ni Cu Zn Ga Ge As Se Br Kr Rb Sr Y Zr Nb Mo Tc Ru Rh"
    " Pd Ag Cd In Sn Sb Te I Xe Cs Ba La Ce Pr Nd Pm Sm Eu Gd Tb Dy Ho Er Tm Yb Lu Hf Ta W Re Os Ir Pt Au Hg Tl Pb Bi Po At Rn".split()
)


def species_of(name: str, species: Mapping[str, str] | None = None) -> str:
    """Returns the chemical symbol for a type: the mapping's, else the name in the symbol's capitals if it is an element,
    else the name.
    """
    if species and name in species:
        return species[name]
    return name.capitalize() if name.capitalize() in ELEMENTS else name


def velocity_unit() -> float:
    """Returns 1 nm/ps in ASE's unit of velocity, (eV/u)^(1/2)."""
    return float(ANGSTROM / (1000 * ase_units.fs))


def to_ase(state: State, job: Job | None = None, species: Mapping[str, str] | None = None) -> Any:
    """Returns the `ase.Atoms` of a state: positions and cell in Angstrom, periodic. With a job also its masses, and
    velocities half a step before the positions. A type that is no element needs a symbol in `species`, or counts as X.
    """
    symbols = [species_of(name, species) for name in state.names]
    known = [it if it in ELEMENTS else "X" for it in symbols]
    cell = np.array(state.sides) * ANGSTROM
    atoms = ase.Atoms(known, positions=state.positions() * ANGSTROM, cell=cell, pbc=True, info={"title": state.title, "step": state.step})
    columns = state.arrays()
    for name, values in (("atomtypes", columns.names), ("residuenames", columns.residue_names), ("residuenumbers", columns.residues)):
        atoms.set_array(name, values)
    if job:
        atoms.set_masses([mass / MASS_UNITS for mass in job.masses(state.names)])
        atoms.set_velocities(state.velocities(job.dt) * velocity_unit())
    return atoms


def from_ase(
    atoms: Any, job: Job, species: Mapping[str, str] | None = None, *, step: int | None = None, wrap: bool = False, rescale: bool = False
) -> State:
    """Returns the state of an `ase.Atoms` for a job. ASE's velocities count as those half a step before the positions.

    species: the symbols of types, as for `to_ase`. step: the step counter, by default that of a state which `to_ase` took,
    else 0. wrap, rescale: as for `State.from_arrays`. Raises NotHeld.
    """
    cell = np.asarray(atoms.cell)
    if not np.all(atoms.pbc):
        raise NotHeld("NotPeriodic", f"the atoms are periodic along {atoms.pbc.tolist()}: set atoms.pbc = True")
    if abs(cell - np.diag(np.diag(cell))).max() > 1e-9:
        raise NotHeld("TriclinicBox", "the cell isn't rectangular, with its sides along x, y and z")
    if not atoms.has("momenta"):
        raise NotHeld("NoVelocities", "the atoms have no momenta: set_velocities, also for a start at rest")
    residues = atoms.arrays.get("residuenumbers")
    return State.from_arrays(
        atoms.positions / ANGSTROM,
        atoms.get_velocities() / velocity_unit(),
        np.diag(cell) / ANGSTROM,
        types_of(atoms, job, species),
        job.dt,
        title=str(atoms.info.get("title", "")),
        step=int(atoms.info.get("step", 0)) if step is None else step,
        bits=job.bits,
        residues=None if residues is None else residues.tolist(),
        residue_names=atoms.arrays.get("residuenames"),
        wrap=wrap,
        rescale=rescale,
    )


def types_of(atoms: Any, job: Job, species: Mapping[str, str] | None) -> Sequence[str]:
    """Returns the type of each atom: of the array `atomtypes` if there is one, else the job's only type with its symbol.
    Raises NotHeld.
    """
    known = [it.name for it in job.types]
    if "atomtypes" in atoms.arrays:
        names = [str(it) for it in atoms.arrays["atomtypes"]]
        if unknown := sorted({*names} - {*known}):
            raise NotHeld("UnknownType", f"the job has no type {', '.join(unknown)}: it has {', '.join(known)}")
        return names
    symbols = atoms.get_chemical_symbols()
    found = {symbol: [name for name in known if species_of(name, species) == symbol] for symbol in {*symbols}}
    for symbol, names in sorted(found.items()):
        if len(names) != 1:
            count = f"the types {', '.join(names)}" if names else "no type"
            raise NotHeld("UnknownType", f"the job has {count} for {symbol}: name the symbols of types in species, or set atomtypes")
    return [found[symbol][0] for symbol in symbols]
