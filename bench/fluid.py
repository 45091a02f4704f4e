"""The Lennard-Jones fluid at T* = 0.85 beside NIST's reference values; a module of validation.py.

Each run starts from a lattice of its own seed, is melted at T* = 2, cooled, and settles. Numbers with a star are
reduced by size and well depth. Tails beyond 3 sigma are added, as in NIST's values.

- **Temperature.** A run keeps its energy, so its mean T* is near 0.85. Each row's energy and pressure are corrected
  with the slopes between NIST's values at T* = 0.85 and 0.9.
- **Momentum.** It is 0, not thermal: rho* T* / N is added to the pressure.
- **Truncation.** NIST's Monte Carlo cuts the energy without a shift. Forces, cut, sample the shifted energy. The two
  differ by u(3 sigma) for each of the n interacting pairs; `truncations` estimates the effect. To count the pairs, the
  energy has 10,000 kJ/mol more for each of them; forces and states don't change.
"""

import math
import os
import tempfile
from typing import NamedTuple

from argon import EPSILON, MASS, SIGMA
from pages import open_table
from running import pairmd

ATOMS, CUTOFF = 500, 3 * SIGMA
BLOCKS, EVERY, STEP = 20, 20, 5  # steps from row to row; fs
SHORT = 8000  # steps of a short run or stretch, 40 ps
FAR = 2.4  # errors; of 20 blocks, a Gaussian variable exceeds them in 2.7 %
NAMES = {"energy": "U*", "pressure": "p*"}
MARK = 10_000  # kJ/mol, of each interacting pair; the true potential energy must be less
KELVIN = EPSILON / float(pairmd.BOLTZMANN)  # of T* = 1
PRESSURE = EPSILON / SIGMA**3 * float(pairmd.BAR)  # bar, of p* = 1
JOB = f"""pairmd job 1
energy 4*epsilon*((sigma/r)^12-(sigma/r)^6)+mark
core 0.25
cutoff {CUTOFF:g}
dt {STEP}
global sigma {SIGMA}
global epsilon {EPSILON}
global mark {MARK}
type AR {MASS}
"""
T, WARM = 0.85, 0.9


class Point(NamedTuple):
    """A density, with NIST's energy and pressure at T* = 0.85 and 0.9."""

    density: float
    energy: float
    pressure: float
    warm_energy: float
    warm_pressure: float


# NIST Standard Reference Simulation Website, Lennard-Jones fluid, Monte Carlo with tails beyond 3 sigma.
NIST = [
    Point(0.776, -5.5121, 0.0068, -5.4689, 0.24056),
    Point(0.82, -5.7947, 0.5536, -5.7456, 0.82386),
    Point(0.86, -6.0305, 1.2660, -5.9753, 1.5781),
    Point(0.9, -6.2391, 2.2314, -6.1773, 2.5848),
]


# ---- runs


def lattice(density, kelvin, seed):
    return pairmd.fcc_lattice(ATOMS, density / SIGMA**3, [pairmd.Component("AR", 1, str(MASS))], kelvin, seed)


def melted(job, density, seed):
    """States of the last 10 ps before a run: melted at T* = 2, then at T* = 0.85 for 40 ps."""
    cold = pairmd.start(job, lattice(density, 4 * KELVIN, seed))
    hot = pairmd.equilibrate(job, cold, 2 * KELVIN, pairmd.Schedule(20, 100, 0))
    state = pairmd.equilibrate(job, hot, T * KELVIN, pairmd.Schedule(40, 50, 100, 40, 0))
    return pairmd.states(job, state, 2000, 200)


def not_melted(job, density, seed):
    """The state that 100 short runs with scaling, and one scaling after 2,000 steps, make from the lattice in 35 ps."""
    cold = pairmd.start(job, lattice(density, 2 * T * KELVIN, seed))
    return [pairmd.equilibrate(job, cold, T * KELVIN, pairmd.Schedule(trials=0))]


class Run:
    """A run at a density: its rows, and the states before it, the last of which is its start. Both are kept in files,
    and made only if these aren't there.

    kelvin: T* of each row. energy, pressure: U* and p* of each row at T* = 0.85, with tails; `raw_..` at its own T*.
    pairs: interacting pairs.
    """

    def __init__(self, point, path, before, steps):
        job, self.states = pairmd.Job.parse(JOB), f"{path}.states"
        if not os.path.exists(f"{path}.table"):
            pairmd.write_states(before(job), self.states)
            *_, start = pairmd.read_states(self.states)
            text = pairmd.observe(job, start, steps, EVERY).text()
            with open(f"{path}.table", "w", encoding="ascii") as file:
                file.write(text)
        self.take(point, pairmd.Table.read(f"{path}.table"))

    def take(self, point, rows):
        tail = pairmd.lennard_jones_tail(SIGMA, EPSILON, CUTOFF, point.density / SIGMA**3)
        by_energy, by_pressure = slopes(point)
        kelvins, potentials, pressures = (rows[name][1:] for name in ("temperature", "potential", "pressure"))
        self.kelvin = [it / KELVIN for it in kelvins]
        self.pairs = [round(it / MARK) for it in potentials]
        own = [(it - MARK * n) / ATOMS + tail.energy for it, n in zip(potentials, self.pairs)]
        self.raw_energy = [it / EPSILON for it in own]
        drift = point.density / ATOMS
        self.raw_pressure = [(it + tail.pressure) / PRESSURE + drift * t for it, t in zip(pressures, self.kelvin)]
        self.energy = [it - by_energy * (t - T) for it, t in zip(self.raw_energy, self.kelvin)]
        self.pressure = [it - by_pressure * (t - T) for it, t in zip(self.raw_pressure, self.kelvin)]

    def diffusion(self):
        """The diffusion coefficient in 10^-5 cm^2/s in the 10 ps before the run: a crystal has none."""
        moved = pairmd.mean_square_displacement(pairmd.read_states(self.states), dt=STEP)
        return pairmd.diffusion(moved, 2, 5) * 1000


def slopes(point):
    """The derivatives of NIST's energy and pressure by T*."""
    return (point.warm_energy - point.energy) / (WARM - T), (point.warm_pressure - point.pressure) / (WARM - T)


# ---- statistics


def mean(values):
    return math.fsum(values) / len(values)


def together(means):
    """The mean of independent means of equal weight, with its error from theirs."""
    error = math.hypot(*(it.error for it in means)) / len(means)
    return pairmd.Mean(mean([it.value for it in means]), error, sum(it.blocks for it in means))


def of_runs(runs, name):
    return together([pairmd.block_mean(getattr(run, name), BLOCKS) for run in runs])


def scatter(all_runs, name):
    """How far runs are from the mean of their density, in their block errors (root mean square over the degrees of
    freedom), and these degrees.
    """
    squares = 0.0
    for runs in all_runs:
        means = [pairmd.block_mean(getattr(run, name), BLOCKS) for run in runs]
        middle = together(means).value
        squares += math.fsum(((it.value - middle) / it.error) ** 2 for it in means)
    freedom = sum(len(runs) - 1 for runs in all_runs)
    return math.sqrt(squares / freedom) if freedom else math.nan, freedom


def stretches(runs, name, raw):
    """The difference of each stretch of 40 ps from the mean of all runs, in the stretch's own error of 20 blocks; with
    `raw`, of stretches without the correction to T* = 0.85.
    """
    middle, rows = of_runs(runs, name).value, SHORT // EVERY
    for run in runs:
        values = getattr(run, "raw_" * raw + name)
        parts = (pairmd.block_mean(values[at : at + rows], BLOCKS) for at in range(0, len(values) - rows + 1, rows))
        yield [(it.value - middle) / it.error for it in parts]


def root_mean_square(values):
    return math.sqrt(mean([it * it for it in values]))


# ---- truncation


class Truncation(NamedTuple):
    """What NIST's ensemble adds to the energy and pressure of ours, from one run per density."""

    energy: float
    pressure: float


def truncations(runs):
    """The effect of u(3 sigma) for each interacting pair, to first order, at each density of NIST; one run for each.

    Energy: -u/T times its covariance with the number of pairs n. Pressure: the free energy u n/N of an atom adds
    rho^2 u d(n/N)/d rho to the thermodynamic pressure; the jump at the cutoff, which NIST's virial leaves out, is
    2 pi/3 rho^2 rc^3 u g(rc) of it.
    """
    step = 4 * (3**-12 - 3**-6)
    densities = [point.density for point in NIST]
    counts = [mean(run.pairs) / ATOMS for run in runs]
    for density, count, run in zip(densities, counts, runs):
        common = mean([(n - ATOMS * count) * it for n, it in zip(run.pairs, run.energy)])
        sphere = 2 * math.pi / 3 * 27 * contact(run) * (ATOMS - 1) / ATOMS
        yield Truncation(-step / T * common, density**2 * step * (parabola_slope(densities, counts, density) - sphere))


def contact(run):
    """g at the cutoff, from the shells just inside and outside it."""
    width = 0.1 * SIGMA
    g = pairmd.radial_distribution(pairmd.read_states(run.states), width, CUTOFF + 1.5 * width).g
    return (g[29] + g[30]) / 2


def parabola_slope(xs, ys, at):
    """The slope, at a place, of the parabola nearest to the points."""
    middle = mean(xs)
    first = [x - middle for x in xs]
    linear = sum(a * y for a, y in zip(first, ys)) / sum(a * a for a in first)
    # orthogonal to constants and to `first`
    squares, skew = mean([a * a for a in first]), sum(a**3 for a in first) / sum(a * a for a in first)
    second = [a * a - skew * a - squares for a in first]
    bent = sum(a * y for a, y in zip(second, ys)) / sum(a * a for a in second)
    return linear + bent * (2 * (at - middle) - skew)


def spread(values):
    """The mean of independent values, with its error from their scatter."""
    return pairmd.block_mean(values, len(values)) if len(values) > 1 else pairmd.Mean(values[0], 0, 1)


# ---- tables


def both(runs, effects, name):
    """Energy or pressure of the runs, and the same as NIST cuts off the energy."""
    own, effect = of_runs(runs, name), spread([getattr(it, name) for it in effects])
    return own, pairmd.Mean(own.value + effect.value, math.hypot(own.error, effect.error), own.blocks)


def distances(all_runs, all_effects):
    """Lines on the distance from NIST's values."""
    for name, star in NAMES.items():
        ours = [both(*it, name)[1] for it in zip(all_runs, all_effects)]
        off = [abs(it.value - getattr(point, name)) / it.error for it, point in zip(ours, NIST)]
        yield f"{star}, cut as NIST's: {', '.join(f'{it:.1f}' for it in off)} of its errors from NIST's value"


def reduced(point, runs, effects):
    """A row of the table: energy and pressure, each of the runs, as NIST cuts off the energy, and NIST's."""
    row = [f"{point.density:g}"]
    for name in NAMES:
        row += [*both(runs, effects, name), f"{getattr(point, name):.4f}"]
    return row


def thermal(all_runs):
    """A line on temperature and diffusion."""
    kelvins = [mean(run.kelvin) for runs in all_runs for run in runs]
    least = min(run.diffusion() for runs in all_runs for run in runs)
    return f"T* of runs is {min(kelvins):.4f} to {max(kelvins):.4f}, diffusion at least {least:.1f}e-5 cm^2/s"


def block_lengths(all_runs):
    """Lines on the error of a run's mean by the length of its blocks, over the error from 20 blocks."""
    rows = len(all_runs[0][0].energy)
    for length in (1, 10, 50, rows // BLOCKS, rows // 8):
        ratios = [error_with(all_runs, name, rows // length) / error_with(all_runs, name, BLOCKS) for name in NAMES]
        said = " and ".join(f"{it:.2f}" for it in ratios)
        time = length * EVERY * STEP / 1000
        yield f"blocks of {time:g} ps: errors of U* and p* are {said} times those of {BLOCKS} blocks"


def error_with(all_runs, name, blocks):
    """The root mean square over all runs of the error of a run's mean, from this many blocks."""
    return root_mean_square([pairmd.block_mean(getattr(run, name), blocks).error for runs in all_runs for run in runs])


def consistency(all_runs):
    """Lines on whether the block errors explain the scatter of runs and of stretches of 40 ps."""
    for name, star in NAMES.items():
        apart, freedom = scatter(all_runs, name)
        yield f"{star}: runs of a density differ by {apart:.1f} of their errors ({freedom} degrees of freedom)"
        for raw, which in ((False, ""), (True, ", not corrected to T*,")):
            parts = [part for runs in all_runs for part in stretches(runs, name, raw)]
            everyone, first = [it for part in parts for it in part], [part[0] for part in parts]
            far = sum(abs(it) > FAR for it in everyone)
            spreads = f"{root_mean_square(everyone):.2f}, of the first ones {root_mean_square(first):.2f}"
            yield (
                f"{star}: {len(everyone)} stretches of 40 ps{which} in errors of their own {BLOCKS} blocks: "
                f"root mean square {spreads}; {far} are beyond {FAR}"
            )


HEADS = ["rho*"] + [f"{it}{what}" for it in NAMES.values() for what in ("", ", cut as NIST's", ", NIST")]


def fluid(given):
    """Prints the table of the fluid, and whether its errors are right."""
    with tempfile.TemporaryDirectory() as room:
        folder = given.keep or room

        def run(point, seed):
            path = f"{folder}/{point.density}-{seed}"
            return Run(point, path, lambda job: melted(job, point.density, seed), given.steps)

        by_seed = [[run(point, seed) for point in NIST] for seed in range(1, given.runs + 1)]
        effects = list(zip(*(list(truncations(runs)) for runs in by_seed)))
        all_runs = list(zip(*by_seed))
        print("\n".join(open_table(HEADS, [reduced(*it) for it in zip(NIST, all_runs, effects)])))
        print(thermal(all_runs))
    print("\n".join([*distances(all_runs, effects), *consistency(all_runs), *block_lengths(all_runs)]))


def short(given):
    """Prints runs of 40 ps from a lattice that wasn't melted, at rho* = 0.82, and their distance from NIST's values."""
    point, rows = NIST[1], []
    with tempfile.TemporaryDirectory() as room:
        for seed in range(1, given.runs + 1):
            path = f"{given.keep or room}/lattice-{point.density}-{seed}"
            run = Run(point, path, lambda job: not_melted(job, point.density, seed), SHORT)
            row = [seed, f"{mean(run.kelvin):.4f}"]
            for name in NAMES:
                it = pairmd.block_mean(getattr(run, name), BLOCKS)
                row += [it, f"{(it.value - getattr(point, name)) / it.error:+.1f}"]
            rows.append(row)
    heads = [f"{it}{what}" for it in NAMES.values() for what in ("", ": from NIST, in errors")]
    print("\n".join(open_table(["Seed", "T*", *heads], rows)))
