"""Tests of averages, distances, displacements and tails."""

import math
import random
import unittest

import pairmd
from pairmd import times

from . import example, needs


def state_of(places, box=(200_000, 300_000, 400_000), before=None, names=None):
    """A state of atoms at grid coordinates."""
    atoms = [pairmd.Atom(1, name, name) for name in names or ["AR"] * len(places)]
    return pairmd.State("made", 0, box, atoms, places if before is None else before, places)


@needs("numpy", "scipy")
class Averages(unittest.TestCase):
    def test_block_mean(self):
        mean = pairmd.block_mean([1.0, 3.0, 2.0, 4.0, 6.0, 8.0], 3)
        self.assertEqual((mean.value, mean.blocks), (4.0, 3))
        self.assertAlmostEqual(mean.error, math.sqrt((4 + 1 + 9) / 6))
        self.assertEqual(pairmd.block_mean([99.0, 1.0, 3.0], 2).value, 2.0)  # the first value fills no block
        with self.assertRaises(ValueError):
            pairmd.block_mean([1.0, 2.0], 3)

    def test_errors_grow_with_blocks_of_a_correlated_series(self):
        numbers, at, series = random.Random(1), 0.0, []
        for _ in range(4096):
            at = 0.9 * at + numbers.gauss(0, 1)
            series.append(at)
        errors = pairmd.block_errors(series)
        self.assertEqual([length for length, _ in errors], [2**k for k in range(10)])
        # the series has a variance of 1 / (1 - 0.81), and 19 times as many correlated values
        exact = math.sqrt(1 / (1 - 0.81) * 19 / 4096)
        self.assertLess(errors[0][1].error, 0.4 * exact)
        self.assertAlmostEqual(errors[6][1].error / exact, 1, delta=0.3)

    def test_digits(self):
        self.assertEqual(str(pairmd.Mean(93.7312, 0.0123, 20)), "93.731(12)")
        self.assertEqual(str(pairmd.Mean(585.3, 12.2, 20)), "585(12)")
        self.assertEqual(str(pairmd.Mean(2.0, 0.0, 20)), "2")


@needs("numpy", "scipy")
class Distances(unittest.TestCase):
    def test_gas_on_the_ring(self):
        states = [state_of([(2**32 - 2**30, 0, 0), (2**30 // 2, 0, 0)])]  # 0.75 nm apart over the border
        g = pairmd.radial_distribution(states, width=0.1)
        self.assertEqual([k for k, it in enumerate(g.g) if it], [7])
        self.assertEqual((g.number[-1], len(g.r), g.states), (1.0, 10, 1))
        shell = 4 / 3 * math.pi * (0.8**3 - 0.7**3)
        self.assertAlmostEqual(g.g[7], 24 / shell)

    def test_names(self):
        states = [state_of([(0, 0, 0), (2**30, 0, 0), (2**31, 0, 0)], names=["AR", "KR", "KR"])]
        self.assertEqual(pairmd.radial_distribution(states, 0.25, names=("KR", "AR")).number.tolist(), [0.0, 0.0, 0.5, 0.5])
        with self.assertRaises(ValueError):
            pairmd.radial_distribution(states, names=("AR", "AR"))
        same = pairmd.radial_distribution(states, 0.25, names="KR")
        self.assertEqual(same, pairmd.radial_distribution(states, 0.25, names=("KR", "KR")))
        with self.assertRaisesRegex(ValueError, "no atom is named XE: the state's names are AR, KR"):
            pairmd.radial_distribution(states, names=("AR", "XE"))
        with self.assertRaisesRegex(ValueError, "names are two"):
            pairmd.radial_distribution(states, names=("AR",))

    def test_limit(self):
        states = [state_of([(0, 0, 0), (2**30, 0, 0)])]  # sides of 2, 3 and 4 nm
        self.assertEqual(len(pairmd.radial_distribution(states, 0.25, limit=1.0).r), 4)
        with self.assertRaisesRegex(ValueError, "limit=9.9 nm is beyond half the shortest side: the greatest that works is 1.0 nm"):
            pairmd.radial_distribution(states, limit=9.9)
        for width, limit in ((0, None), (-0.1, None), (0.1, 0), (0.5, 0.25)):
            with self.assertRaisesRegex(ValueError, "the width of a shell"):
                pairmd.radial_distribution(states, width, limit)

    def test_states_that_make_no_distribution(self):
        with self.assertRaisesRegex(ValueError, "no states"):
            pairmd.radial_distribution([])
        boxes = [state_of([(0, 0, 0), (1, 1, 1)], box) for box in ((200_000,) * 3, (300_000,) * 3)]
        with self.assertRaisesRegex(ValueError, "different boxes"):
            pairmd.radial_distribution(boxes)

    def test_ideal_gas(self):
        numbers = random.Random(3)
        states = [state_of([tuple(numbers.randrange(2**32) for _ in range(3)) for _ in range(100)]) for _ in range(5)]
        g = pairmd.radial_distribution(states, width=0.25)
        self.assertAlmostEqual(g.g[-1], 1, delta=0.1)


@needs("numpy", "scipy")
class Motion(unittest.TestCase):
    def flight(self, count=9, move=2**31 - 5):
        """An atom that moves along x by this many grid units from state to state, and one at rest."""
        frames = [[((at * move) % 2**32, 0, 0), (5, 5, 5)] for at in range(-1, count)]
        return [state_of(now, before=was) for was, now in zip(frames, frames[1:])]

    def test_unwrapped(self):
        rows = list(pairmd.unwrapped(self.flight()))
        self.assertEqual([row[0][0] for row in rows], [at * (2**31 - 5) for at in range(9)])
        self.assertEqual(rows[-1][1].tolist(), [5, 5, 5])

    def test_displacement(self):
        series = pairmd.mean_square_displacement(self.flight(), interval=0.5)
        nm = (2**31 - 5) / 2**32 * 2
        self.assertEqual(series.times.tolist(), [0.0, 0.5, 1.0, 1.5, 2.0])
        for lag, value in enumerate(series.values):
            self.assertAlmostEqual(value, (lag * nm) ** 2 / 2)
        line = pairmd.Series([0.0, 1.0, 2.0], [0.1, 6.1, 12.1])
        self.assertAlmostEqual(pairmd.diffusion(line, 0, 2), 1)

    def test_velocities(self):
        series = pairmd.velocity_autocorrelation(self.flight(), dt=1000, interval=1.0, every=2)
        speed = (2**31 - 5) / 2**32 * 2
        for value in series.values:
            self.assertAlmostEqual(value, speed**2 / 2)

    def test_names(self):
        states = [pairmd.State.read(example("mixture.state"))] * 3
        self.assertEqual(pairmd.mean_square_displacement(states, 1, names=["KR"]).values.tolist(), [0.0, 0.0])
        for call, words in ((pairmd.mean_square_displacement, (1,)), (pairmd.velocity_autocorrelation, (2, 1))):
            self.assertEqual(call(states, *words, names="KR"), call(states, *words, names=["KR"]))
            for names in ("K", "XE", ["AR", "XE"]):
                with self.assertRaisesRegex(ValueError, "no atom is named .*: the state's names are AR, KR"):
                    call(states, *words, names=names)
        krypton = [sum(v * v for v in it) for it in states[0].velocities(2)[3:]]
        series = pairmd.velocity_autocorrelation(states, 2, 1, names=["KR"])
        self.assertAlmostEqual(series.values[1], sum(krypton) / 3)


@needs("numpy", "scipy")
class Times(unittest.TestCase):
    """The time between states: from their step counters, and never against them."""

    def states(self, *steps):
        """An atom that moves along x by a grid unit a step, at these steps."""
        return [state_of([(at, 0, 0)]).replaced(step=at) for at in steps]

    def test_counters(self):
        states = self.states(0, 50, 100, 150, 200)
        self.assertEqual(pairmd.mean_square_displacement(states, dt=2).times.tolist(), [0.0, 0.1, 0.2])
        self.assertEqual(pairmd.mean_square_displacement(states[::-1], 0.1, dt=2).times.tolist(), [0.0, 0.1, 0.2])
        self.assertEqual(pairmd.velocity_autocorrelation(states, 2).times.tolist(), [0.0, 0.1, 0.2])

    def test_contradictions(self):
        states = self.states(0, 50, 100, 150, 200)
        with self.assertRaisesRegex(ValueError, "interval=2.5 ps contradicts the step counters: 50 steps of 2 fs are 0.1 ps"):
            pairmd.mean_square_displacement(states, 2.5, dt=2)
        with self.assertRaisesRegex(ValueError, "interval=0.2 ps contradicts the step counters"):
            pairmd.velocity_autocorrelation(states, 2, 0.2)
        with self.assertRaisesRegex(ValueError, "the states are 50 steps apart: give dt"):
            pairmd.mean_square_displacement(states, 2.5)
        with self.assertRaisesRegex(ValueError, "counters don't advance: give interval"):
            pairmd.mean_square_displacement(self.states(7, 7), dt=2)
        with self.assertRaisesRegex(ValueError, "aren't equally far apart: their step counters differ by 50, 100"):
            times.interval_of([0, 50, 150], 2, None)
        with self.assertRaisesRegex(ValueError, "step counters rise and fall"):
            pairmd.mean_square_displacement(self.states(0, 50, 0), dt=2)

    def test_beyond_the_run(self):
        states = self.states(0, 50, 100)
        self.assertEqual(len(pairmd.mean_square_displacement(states, dt=2, most=2).values), 3)
        with self.assertRaisesRegex(ValueError, "3 states have at most 2 intervals"):
            pairmd.mean_square_displacement(states, dt=2, most=3)
        with self.assertRaisesRegex(ValueError, "no states"):
            pairmd.mean_square_displacement([], dt=2)

    def test_beyond_the_series(self):
        series = pairmd.Series([0.0, 0.1, 0.2, 0.30000000000000004], [0.0, 0.6, 1.2, 1.8])
        self.assertAlmostEqual(pairmd.diffusion(series, 0.1, 0.3), 1)
        with self.assertRaisesRegex(ValueError, "the series ends at 0.3 ps, before 2 ps"):
            pairmd.diffusion(series, 1, 2)
        with self.assertRaisesRegex(ValueError, "the series has 1 times from 0.15 to 0.25 ps"):
            pairmd.diffusion(series, 0.15, 0.25)
        self.assertEqual(repr(series), "<Series: 4 values from 0 to 0.3 ps>")


class Tails(unittest.TestCase):
    def test_reduced_lennard_jones(self):
        """The known corrections in reduced units (Allen and Tildesley): sigma and epsilon are 1."""
        rho, rc = 0.8, 3.0
        tail = pairmd.lennard_jones_tail(1, 1, rc, rho)
        self.assertAlmostEqual(tail.energy, 8 / 9 * math.pi * rho * rc**-9 - 8 / 3 * math.pi * rho * rc**-3)
        pressure = 32 / 9 * math.pi * rho**2 * rc**-9 - 16 / 3 * math.pi * rho**2 * rc**-3
        self.assertAlmostEqual(tail.pressure / float(pairmd.BAR), pressure)

    def test_coulomb_has_none(self):
        with self.assertRaises(ValueError):
            pairmd.power_tail(1, 1, 1, 1)


if __name__ == "__main__":
    unittest.main()
