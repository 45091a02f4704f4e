"""Stress: its autocorrelation and the viscosity, from tables of `observe` with the pressure tensor. They need numpy and
scipy.
"""

from __future__ import annotations

from .libraries import Array, np
from .motion import Series, correlation, lags_of
from .table import Table
from .units import BAR, BOLTZMANN

MILLIPASCAL_SECOND = 1e-4
"""1 bar ps in mPa s."""


def deviators(table: Table) -> Array:
    """Returns the components of the traceless pressure tensor in bar: a row for each table row, with xx, yy, zz and the
    three off the diagonal times 2^(1/2), so that the sum of squares is that of all nine.
    """
    diagonal = np.stack([table[f"pressure-{it}"] for it in ("xx", "yy", "zz")], axis=1)
    others = np.stack([table[f"pressure-{it}"] for it in ("xy", "xz", "yz")], axis=1)
    return np.hstack((diagonal - diagonal.mean(axis=1, keepdims=True), others * np.sqrt(2)))


def stress_autocorrelation(table: Table, most: int | None = None, *, dt: float) -> Series:
    """Returns the mean of P_ab(0) P_ab(t) in bar^2 by time, of the traceless pressure tensor: a tenth of the sum over all
    nine components, which in a liquid is the mean for xy (P. J. Daivis and D. J. Evans, J. Chem. Phys. 100, 541, 1994).

    table: of `observe` with `tensor=True`. dt: the job's time step in fs. most: the greatest number of rows between two, by
    default half of them. Raises ValueError for a table without the tensor, or with rows that aren't in order.
    """
    if not table.has_tensor or table.is_exact:
        raise ValueError("the table lacks the pressure tensor in bar: print it with `--tensor`, and without `--exact`")
    lags = lags_of(table.exact_column("step"), dt, None, most, 1)
    # a row with one "atom" of six components
    return Series(lags.times, correlation(deviators(table)[:, None, :], lags) / 10)


def viscosity(stress: Series, volume: float, kelvin: float) -> Series:
    """Returns the shear viscosity in mPa s, by the time up to which the stress autocorrelation is integrated: V / kT times
    the integral (M. S. Green 1954, R. Kubo 1957). Read it on the plateau.

    stress: of `stress_autocorrelation`. volume: of the box in nm^3. kelvin: the temperature in K.
    """
    steps = np.diff(stress.times) * (stress.values[1:] + stress.values[:-1]) / 2
    factor = volume / (kelvin * float(BOLTZMANN * BAR)) * MILLIPASCAL_SECOND
    return Series(stress.times, np.concatenate(([0.0], np.cumsum(steps))) * factor)
