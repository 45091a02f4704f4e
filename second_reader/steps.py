"""The step of one coordinate, and the exact sums of forces: integrator/specs/Displacement and Forces."""
from enum import Enum

from arithmetic import bits_of, nearest_of
from places import NO_FORCE, Force, place_at


class Direction(Enum):
    """integrator/specs/declared/direction/Direction: Direction"""

    Forward = "forward"
    Back = "back"


def displacement_of(frac, force, time_step, mass, side):
    """integrator/specs/Displacement: displacement_of, the displacement in grid units: the integer nearest to F dt^2
    10^4 2^32 / (m L 2^bits), with the time step dt in fs, the mass m in 10^-5 u and the side L in 10^-5 nm.
    """
    return nearest_of(force * time_step * time_step * 10000 * 2**32, mass * side * 2 ** bits_of(frac))


def next_place_of(previous, current, displacement):
    """integrator/specs/Displacement: next_place_of, 2 c - p + d modulo 2^32."""
    return place_at(2 * current - previous + displacement)


def plus(f, g):
    """integrator/specs/Forces: plus"""
    return Force(f.x + g.x, f.y + g.y, f.z + g.z)


def negative(f):
    """integrator/specs/Forces: negative"""
    return Force(-f.x, -f.y, -f.z)


def pairs_of(count):
    """integrator/specs/Forces: pairs_of, pairs_from and pairs_with, each pair of this many atoms, the lower first."""
    return [(i, k) for i in range(count) for k in range(i + 1, count)]


def sums_of_shares(forces, count):
    """integrator/specs/Forces: sum_of_shares and share_of, for all atoms at once. `forces` has the force of each pair
    on its lower atom; the other atom feels the negative force.
    """
    sums = [NO_FORCE] * count
    for (lower, upper), force in forces.items():
        sums[lower] = plus(sums[lower], force)
        sums[upper] = plus(sums[upper], negative(force))
    return sums
