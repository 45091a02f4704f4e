"""Corrections for the pairs beyond the cutoff."""

from __future__ import annotations

import math
from dataclasses import dataclass

from .units import BAR


@dataclass(frozen=True)
class Tail:
    """Corrections for the pairs beyond the cutoff: energy in kJ/mol per atom, and pressure in bar."""

    energy: float
    pressure: float

    def __add__(self, other: Tail) -> Tail:
        return Tail(self.energy + other.energy, self.pressure + other.pressure)


def power_tail(coefficient: float, exponent: int, cutoff: float, density: float) -> Tail:
    """Returns the corrections for an energy c / r^n cut off without a shift, if g(r) = 1 beyond the cutoff.

    coefficient: c in kJ/mol nm^n. exponent: n, at least 4. cutoff: in nm. density: in nm^-3. The integral of
    2 pi density c r^(2-n) gives the energy of an atom; -2/3 pi density^2 times the integral of r^3 dU/dr the pressure.
    """
    if exponent < 4:
        raise ValueError("the correction is finite for exponents from 4 on")
    energy = 2 * math.pi * density * coefficient * cutoff ** (3 - exponent) / (exponent - 3)
    return Tail(energy, energy * density * exponent / 3 * float(BAR))


def lennard_jones_tail(sigma: float, epsilon: float, cutoff: float, density: float) -> Tail:
    """Returns the corrections for Lennard-Jones, cut off without a shift: sigma and cutoff in nm, epsilon in kJ/mol,
    density in nm^-3.
    """
    parts = [power_tail(sign * 4 * epsilon * sigma**n, n, cutoff, density) for sign, n in ((1, 12), (-1, 6))]
    return parts[0] + parts[1]
