"""Liquid argon as jobs and states of pairmd, with the numbers of its interacting and candidate pairs; a module.

The atoms are on a lattice, each displaced at random. If the lattice has more sites than atoms, random sites stay empty.
All states are generated here, and the same arguments give the same bytes.
"""

import itertools
import os
import random
from collections import Counter
from decimal import Decimal
from fractions import Fraction

from running import pairmd

PLACES = pairmd.PLACES
DENSITY = 21.0  # atoms per cubic nanometre: liquid argon near its boiling point
MASS, SIGMA, EPSILON = 39.948, 0.34, 0.996  # u, nm, kJ/mol
CORE = "0.25"  # nm, below every distance of the lattice; at 0.2 the forces of 16,000 atoms might not fit 64 bits (A3)
CUTOFF = "0.9"  # nm
SHAKE = 0.02  # nm, the greatest displacement from a site along each axis

LENNARD_JONES = "4*epsilon*((sigma/r)^12-(sigma/r)^6); sigma=0.5*(sigma1+sigma2); epsilon=sqrt(epsilon1*epsilon2)"

# Boxes whose cells are hardly longer than the cutoff: candidate pairs per atom don't depend on the number of atoms.
TIGHT = {1000: (10, 10, 10), 4000: (10, 20, 20), 16000: (20, 20, 40), 65536: (40, 40, 41)}
# Nearly cubic boxes, the usual ones. How well their cells fit the cutoff depends on the size.
CUBES = {1000: (10, 10, 10), 4000: (16, 16, 16), 16000: (25, 25, 26), 65536: (40, 40, 41)}
SHAPES = {"tight": TIGHT, "cubes": CUBES}


def job(energy, cutoff, bits=32, step=2):
    """The text of a job of argon with this energy, this cutoff in nm, these fraction bits, and a time step in fs."""
    return (
        f"pairmd job 1\nenergy {energy}\ncore {CORE}\ncutoff {cutoff}\ndt {step}\n"
        f"parameter sigma\nparameter epsilon\ntype AR {MASS} {SIGMA} {EPSILON}\n"
        + f"bits {bits}\n" * (bits != 32)
    )


EXAMPLES = ("lennard-jones", "buckingham", "reaction-field", "soft-core", "square-shoulder", "switched")


def example_job(name):
    """The text of a job of examples/, with the core and the cutoff of this module."""
    folder = os.path.join(os.path.dirname(os.path.dirname(os.path.realpath(__file__))), "examples")
    return pairmd.Job.read(os.path.join(folder, f"{name}.job")).replaced(core=Decimal(CORE), cutoff=Decimal(CUTOFF)).text()


def argon(atoms, grid, seed=1):
    """The sides in 10^-5 nm, and the grid coordinates of each atom."""
    sites = list(itertools.product(*map(range, grid)))
    spacing = (DENSITY * len(sites) / atoms) ** (-1 / 3)
    sides = [round(count * spacing * 100_000) for count in grid]
    numbers = random.Random(seed)
    places = []
    for site in sites:
        at = [(count + 0.5) * spacing + numbers.uniform(-SHAKE, SHAKE) for count in site]
        places.append([round(x * 100_000 / side * PLACES) % PLACES for x, side in zip(at, sides)])
    kept = sorted(random.Random(seed).sample(range(len(sites)), atoms)) if atoms < len(sites) else range(atoms)
    return sides, [places[k] for k in kept]


def state(sides, places, bits=32, before=None):
    """The text of a state with these grid coordinates. `before` has those of one step earlier; by default the atoms are
    at rest.
    """
    atoms = [pairmd.Atom(number % 100_000, "AR", "AR") for number in range(len(places))]
    frames = ([tuple(place) for place in frame] for frame in (before or places, places))
    return pairmd.State("liquid argon", 0, tuple(sides), atoms, *frames, bits).text()


def acting_pairs(sides, places, cutoff):
    """The number of interacting pairs, closer than the cutoff. It is counted with cells of this script, not the
    program's.
    """
    reach = float(cutoff)
    lengths = [side / 100_000 for side in sides]
    counts = [int(length / reach) for length in lengths]
    cells = {}
    for at in places:
        cell = tuple(x * count // PLACES for x, count in zip(at, counts))
        cells.setdefault(cell, []).append([x / PLACES * length for x, length in zip(at, lengths)])
    limit = reach**2
    near = 0
    for cell, members in cells.items():
        for (x, y, z), (u, v, w) in itertools.combinations(members, 2):
            near += (x - u) ** 2 + (y - v) ** 2 + (z - w) ** 2 < limit
        for step in HALF:
            turns, other = zip(*(divmod(c + s, count) for c, s, count in zip(cell, step, counts)))
            far_x, far_y, far_z = (turn * length for turn, length in zip(turns, lengths))
            for u, v, w in cells.get(other, ()):
                u, v, w = u + far_x, v + far_y, w + far_z
                near += sum([(x - u) ** 2 + (y - v) ** 2 + (z - w) ** 2 < limit for x, y, z in members])
    return near


# Half of the 26 steps to neighbouring cells: one of each two opposite ones.
HALF = [step for step in itertools.product((-1, 0, 1), repeat=3) if step > (0, 0, 0)]


def cell_bits(sides, cutoff):
    """The exponents b with which the program cuts each side into 2^b cells: the greatest b from 1 to 4 such that no
    cell is shorter than the cutoff.
    """
    need = 100_000 * int(Fraction(cutoff) * PLACES + Fraction(1, 2))
    return [max(b for b in (1, 2, 3, 4) if need * 2**b <= side * PLACES) for side in sides]


def asked_pairs(sides, places, cutoff):
    """The number of candidate pairs that the program visits: pairs of atoms in one cell or in neighbouring cells."""
    bits = cell_bits(sides, cutoff)
    atoms = Counter(tuple(x >> (32 - b) for x, b in zip(at, bits)) for at in places)
    twice = 0
    for cell, count in atoms.items():
        steps = itertools.product((-1, 0, 1), repeat=3)
        around = {tuple((c + s) % 2**b for c, s, b in zip(cell, step, bits)) for step in steps} - {cell}
        twice += count * (count - 1) + count * sum(atoms[other] for other in around)
    return twice // 2


def least_cutoff(sides, cutoff):
    """The least cutoff, in steps of 0.001 nm, that gives the same cells. The candidate pairs are the same, and fewer
    interact.
    """
    bits = cell_bits(sides, cutoff)
    shorter = (f"0.{thousandths:03}" for thousandths in range(260, 1000))
    return next(it for it in shorter if cell_bits(sides, it) == bits)
