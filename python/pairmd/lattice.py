"""Starts of runs: atoms on a cubic lattice, with shuffled types and velocities of a temperature.

All arithmetic that decides a byte of the output is on integers and fractions, with a generator of its own, so the same
arguments give the same bytes on every machine.
"""

from __future__ import annotations

from collections.abc import Sequence
from dataclasses import dataclass
from fractions import Fraction
from math import floor, isqrt

from .grids import LONGEST_SIDE, MOST_ATOMS
from .gro import GroFrame
from .state import Atom
from .units import BOLTZMANN, MASS_UNITS, SIDE_UNITS, Exact, Three, exact, nearest, rounded

FCC = ((0, 0, 0), (0, 1, 1), (1, 0, 1), (1, 1, 0))
"""The atoms of a face-centred cubic cell, in halves of its side."""
VELOCITY = 10_000
"""Velocities of a GRO file are in nm/ps over this number."""


class Numbers:
    """Random integers: Knuth's linear congruential generator (MMIX), its upper 31 bits."""

    def __init__(self, seed: int) -> None:
        self.at = seed % 2**64

    def below(self, most: int) -> int:
        """Returns an integer from 0 to below `most`."""
        self.at = (self.at * 6364136223846793005 + 1442695040888963407) % 2**64
        return (self.at >> 33) % most

    def bell(self) -> int:
        """Returns the sum of 12 integers from -1000 to 1000, nearly Gaussian, with a standard deviation of 2,001."""
        return sum(self.below(2001) - 1000 for _ in range(12))

    def shuffle(self, items: list[str]) -> None:
        """Permutes a list (Fisher and Yates)."""
        for last in range(len(items) - 1, 0, -1):
            other = self.below(last + 1)
            items[last], items[other] = items[other], items[last]


@dataclass(frozen=True)
class Component:
    """A type of atoms in a mixture: its name, its part of all atoms (parts are relative to their sum), and its mass in
    u, which only velocities need.
    """

    name: str
    part: Exact = 1
    mass: Exact | None = None

    @property
    def mass_units(self) -> int:
        """The mass in 10^-5 u, to the nearest one. Raises ValueError if there is none, or no job may have it."""
        if self.mass is None:
            raise ValueError(f"velocities need the mass of {self.name}")
        units = rounded(exact(self.mass) * MASS_UNITS)
        if not 1 <= units <= 1000 * MASS_UNITS:
            raise ValueError(f"the mass of {self.name} is from 0.00001 to 1000 u, not {self.mass}")
        return units


def cube_root(number: Fraction) -> int:
    """Returns the integer nearest to the cube root of a fraction."""
    eightfold, low, high = floor(8 * number), 0, 1
    while high**3 <= eightfold:
        high *= 2
    while high - low > 1:
        middle = (low + high) // 2
        low, high = (middle, high) if middle**3 <= eightfold else (low, middle)
    return (low + 1) // 2


def side_of(atoms: int, density: Fraction) -> int:
    """Returns the side of a cube in 10^-5 nm, for a density in nm^-3. Raises ValueError if it is out of range."""
    if density <= 0:
        raise ValueError("the density must be above 0")
    side = cube_root(atoms * SIDE_UNITS**3 / density)
    if not 1 <= side <= LONGEST_SIDE:
        raise ValueError(f"the side is from 0.00001 to 160 nm, and this density needs {side / SIDE_UNITS:.6g} nm")
    return side


def sites(atoms: int, side: int) -> list[Three]:
    """Returns positions in picometres: sites of the smallest face-centred cubic lattice that has enough, in order. If
    the lattice has more sites than atoms, the empty ones are spread evenly.
    """
    cells = next(count for count in range(1, MOST_ATOMS) if 4 * count**3 >= atoms)
    places = [(x, y, z) for x in range(cells) for y in range(cells) for z in range(cells)]
    whole = [(2 * x + a, 2 * y + b, 2 * z + c) for x, y, z in places for a, b, c in FCC]
    kept = [whole[at * len(whole) // atoms] for at in range(atoms)]
    # half a picometre-rounded step from the walls, in quarters of a cell's side
    x, y, z = ([nearest((2 * count + 1) * side, 400 * cells) for count in axis] for axis in zip(*kept))
    return list(zip(x, y, z))


def names_of(atoms: int, mixture: Sequence[Component], numbers: Numbers) -> list[str]:
    """Returns the type of each atom: each type as often as its part says, the remaining atoms to the greatest
    remainders; shuffled.
    """
    parts = [exact(it.part) for it in mixture]
    total = sum(parts)
    if total <= 0 or min(parts) < 0:
        raise ValueError("the parts of types are at least 0, and not all of them 0")
    counts = [floor(atoms * part / total) for part in parts]
    rest = [atoms * part / total - count for part, count in zip(parts, counts)]
    for at in sorted(range(len(mixture)), key=lambda at: (-rest[at], at))[: atoms - sum(counts)]:
        counts[at] += 1
    names = [it.name for it, count in zip(mixture, counts) for _ in range(count)]
    if len(mixture) > 1:
        numbers.shuffle(names)
    return names


def velocities_at(kelvin: Fraction, masses: Sequence[int], numbers: Numbers) -> list[Three]:
    """Returns random velocities in 10^-4 nm/ps for masses in 10^-5 u: with the temperature in K, for 3N - 3 degrees of
    freedom, and a momentum as near to 0 as these decimals allow.
    """
    if kelvin < 0:
        raise ValueError(f"a temperature is at least 0 K, not {float(kelvin)}")
    if kelvin == 0 or len(masses) < 2:
        return [(0, 0, 0)] * len(masses)
    heaviest = max(masses)
    # a velocity has a variance in inverse proportion to the mass
    factors = [isqrt((heaviest << 64) // mass) for mass in masses]
    drawn = [[numbers.bell() * factor >> 16 for factor in factors] for _ in range(3)]
    axes = [without_drift(axis, masses) for axis in drawn]
    now = sum(mass * v * v for axis in axes for mass, v in zip(masses, axis))
    wanted = 3 * (len(masses) - 1) * BOLTZMANN * kelvin * MASS_UNITS * VELOCITY**2
    scale = isqrt((floor(wanted) << 128) // now)
    x, y, z = (balanced([nearest(v * scale, 1 << 64) for v in axis], masses) for axis in axes)
    return list(zip(x, y, z))


def without_drift(velocities: Sequence[int], masses: Sequence[int]) -> list[int]:
    """Returns velocities along an axis less the velocity of the centre of mass."""
    mean = nearest(sum(mass * v for mass, v in zip(masses, velocities)), sum(masses))
    return [v - mean for v in velocities]


def balanced(velocities: list[int], masses: Sequence[int]) -> list[int]:
    """Returns velocities along an axis, some of them changed by a unit, so that the momentum is near 0: at most half
    the least mass, in general much less.
    """
    light, heavy = min(masses), max(masses)
    momentum = sum(mass * v for mass, v in zip(masses, velocities))
    near = nearest(-momentum, heavy)
    trials = [(near + by, nearest(-momentum - (near + by) * heavy, light)) for by in range(-50, 51)] if light < heavy else [(near, 0)]
    changes = min(trials, key=lambda it: (abs(momentum + it[0] * heavy + it[1] * light), abs(it[0]) + abs(it[1]), it))
    for mass, change in zip((heavy, light), changes):
        atoms = [at for at, it in enumerate(masses) if it == mass]
        share, rest = divmod(abs(change), len(atoms))
        for number, at in enumerate(atoms):
            velocities[at] += (share + (number < rest)) * (1 if change > 0 else -1)
    return velocities


def kelvin_of(velocities: Sequence[Three], masses: Sequence[int]) -> Fraction:
    """Returns the temperature of velocities in 10^-4 nm/ps and masses in 10^-5 u, for 3N - 3 degrees of freedom."""
    total = sum(mass * v * v for velocity, mass in zip(velocities, masses) for v in velocity)
    return total / (3 * max(len(masses) - 1, 1) * BOLTZMANN * MASS_UNITS * VELOCITY**2)


def fcc_lattice(atoms: int, density: Exact, mixture: Sequence[Component], kelvin: Exact | None = None, seed: int = 1) -> GroFrame:
    """Returns a frame of atoms on a lattice in a cube.

    density: in nm^-3. kelvin: the temperature of the velocities in K; without it the frame has none. seed: of the
    generator. Raises ValueError if an argument is out of range, or if a mass is missing for velocities.
    """
    if not 1 <= atoms <= MOST_ATOMS:
        raise ValueError(f"a frame has 1 to {MOST_ATOMS:,} atoms")
    numbers, side = Numbers(seed), side_of(atoms, exact(density))
    names = names_of(atoms, mixture, numbers)
    velocities = None
    if kelvin is not None:
        known = {it.name: it.mass_units for it in mixture}
        velocities = velocities_at(exact(kelvin), [known[name] for name in names], numbers)
    residues = [Atom((number - 1) % 99_999 + 1, name, name) for number, name in enumerate(names, 1)]
    counts = ", ".join(f"{names.count(it.name)} {it.name}" for it in mixture)
    return GroFrame(f"Lattice: {counts}", residues, sites(atoms, side), velocities, (side, side, side))
