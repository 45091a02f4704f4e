"""Grid coordinates, distances and forces of pairs in a periodic box: ring_box/specs/Places, Distances and Forces."""
from dataclasses import dataclass

from arithmetic import Frac, floor_of, root


@dataclass(frozen=True)
class Place3:
    """ring_box/specs/declared/vectors/Place3: Place3, a grid coordinate from 0 to 2^32 - 1 along each side."""

    x: int
    y: int
    z: int


@dataclass(frozen=True)
class Force:
    """ring_box/specs/declared/vectors/Force: Force"""

    x: int
    y: int
    z: int


@dataclass(frozen=True)
class RingBox:
    """ring_box/specs/declared/boxes/RingBox: RingBox, its three sides in 10^-5 nm."""

    x: int
    y: int
    z: int


# ---- grid coordinates


def place_at(z):
    """ring_box/specs/Places: place_at, z modulo 2^32"""
    return z % 2**32


def signed(n):
    """ring_box/specs/Places: signed, n below 2^32, read as a signed integer of 32 bits."""
    return n if n < 2**31 else n - 2**32


def difference(x, y):
    """ring_box/specs/Places: difference, the minimum image of x - y: the one of all x - y + 2^32 k that is from -2^31
    to 2^31 - 1.
    """
    return signed((x + (2**32 - y)) % 2**32)


def are_places(p):
    """ring_box/specs/Places: ArePlaces"""
    return 0 <= p.x < 2**32 and 0 <= p.y < 2**32 and 0 <= p.z < 2**32


# ---- distances, on each axis in units of 10^-5 nm over 2^32


def axis_separation(side, x, y):
    """ring_box/specs/Distances: axis_separation"""
    return difference(x, y) * side


def separations(b, p, q):
    """ring_box/specs/Distances: x_separation, y_separation and z_separation"""
    return (axis_separation(b.x, p.x, q.x), axis_separation(b.y, p.y, q.y), axis_separation(b.z, p.z, q.z))


def square_of(b, p, q):
    """ring_box/specs/Distances: square_of and square, the square of the distance, in the square of that unit."""
    x, y, z = separations(b, p, q)
    return x * x + y * y + z * z


# ring_box/specs/Distances: unit_of.
UNITS = {Frac.F24: 25600000, Frac.F32: 100000, Frac.F40: 100000}
# ring_box/specs/Distances: widening_of.
WIDENINGS = {Frac.F24: 1, Frac.F32: 1, Frac.F40: 65536}


def distance_at(frac, s):
    """ring_box/specs/Distances: distance_at, the distance whose square is s, in 2^-bits nm, rounded down: the greatest
    q with (u q)^2 <= w s.
    """
    return root(WIDENINGS[frac] * s) // UNITS[frac]


def acting_distance_of(frac, b, core, cutoff, p, q):
    """ring_box/specs/Forces: acting_distance_of and taken_distance_of; ring_box/specs/Distances: is_near. A pair
    interacts if its distance is below the cutoff. The result is its distance or the core, whichever is greater; None if
    it doesn't interact.
    """
    distance = distance_at(frac, square_of(b, p, q))
    return max(distance, core) if distance < cutoff else None


# ---- forces


# ring_box/specs/Forces: no_force.
NO_FORCE = Force(0, 0, 0)


def component_of(g, a, d):
    """ring_box/specs/Forces: component_of, the component of a force of size g for the component a of a line of length
    d, rounded down.
    """
    return floor_of(g * a, d)


def force_along_of(b, g, p, q):
    """ring_box/specs/Forces: force_along_of and line_force_of, a force of size g along the line from q to p. Two atoms
    at one point have no line, and no force.
    """
    s = square_of(b, p, q)
    if s == 0:
        return NO_FORCE
    x, y, z = separations(b, p, q)
    d = root(s)
    return Force(component_of(g, x, d), component_of(g, y, d), component_of(g, z, d))
