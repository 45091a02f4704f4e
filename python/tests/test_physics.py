"""Tests of analysis against numpy and MDAnalysis, and of states at chosen steps, echoes, exponents and the commands."""

import io
import math
import os
import random
import tempfile
import time
import unittest
import unittest.mock
import warnings

import pairmd
from pairmd import grids, structure, times

from . import example, needs, needs_program
from .test_analysis import state_of
from .test_starts import command

try:
    import numpy as np
except ImportError:
    np = None

SIDES = (2.0, 2.5, 3.0)
BOX = (200_000, 250_000, 300_000)


def gas(atoms, seed=1, names=None):
    """A state of atoms anywhere in a box."""
    places = np.random.default_rng(seed).integers(0, 2**32, (atoms, 3), dtype=np.uint32)
    return state_of(places, BOX, names=names or ["AR"] * atoms)


def walk(atoms, count, steps=None, seed=2):
    """States of atoms that walk at random, some of them over the border, at these steps."""
    numbers = np.random.default_rng(seed)
    at, before, states = numbers.integers(0, 2**32, (atoms, 3)), 0, []
    for step in steps or range(0, 10 * count, 10):
        move = numbers.normal(0, 1e8, (atoms, 3)).astype(np.int64) * math.sqrt(max(step - before, 1))
        before, was, at = step, at, (at + move.astype(np.int64)) % 2**32
        states.append(state_of(at.astype(np.uint32), BOX, was.astype(np.uint32), ["AR", "KR"] * (atoms // 2)).replaced(step=step))
    return states


def positions(states):
    """Unwrapped positions in nm by plain sums: times, atoms, axes."""
    rows = np.array([state.current for state in states], dtype=np.int64)
    moves = (np.diff(rows, axis=0) + 2**31) % 2**32 - 2**31
    return np.concatenate((rows[:1], rows[:1] + np.cumsum(moves, axis=0))) * (np.array(SIDES) / 2**32)


@needs("numpy", "scipy")
class Structure(unittest.TestCase):
    def test_shells(self):
        """The counts are those of all pairs, one by one, of the same atoms, of others, and of some in common."""
        state = gas(700, names=["AR", "KR"] * 350)
        units = np.array(SIDES) / 2**32
        for first, second in (("AR", "AR"), ("AR", "KR"), (None, None), (None, "KR")):
            one, other = structure.atoms_of(state, first), structure.atoms_of(state, second)
            places = np.array(state.current, dtype=np.int64)
            off = ((places[one][:, None] - places[other][None] + 2**31) % 2**32 - 2**31) * units
            distances = np.sqrt((off**2).sum(axis=2))[one[:, None] != other[None]]
            wanted = np.bincount((distances / 0.025).astype(int), minlength=40)[:40]
            self.assertEqual(structure.count_distances(state, one, other, 0.025, 40).tolist(), wanted.tolist(), (first, second))

    @needs("MDAnalysis")
    def test_as_mdanalysis(self):
        with warnings.catch_warnings():
            warnings.simplefilter("ignore")
            import MDAnalysis.analysis.rdf

        job = pairmd.Job.read(example("lennard-jones.job"))
        # positions that floats of 32 bits hold exactly, as MDAnalysis keeps them
        states = [gas(300, seed).replaced(step=seed) for seed in range(4)]
        states = [it.replaced(current=np.asarray(it.current) >> 16 << 16) for it in states]
        atoms = pairmd.to_mdanalysis(states, job).atoms
        rdf = MDAnalysis.analysis.rdf.InterRDF(atoms, atoms, nbins=100, range=(0.0, 10.0), exclusion_block=(1, 1)).run()
        own = pairmd.radial_distribution(states, width=0.01)
        self.assertTrue(np.allclose(own.r * 10, rdf.results.bins))
        self.assertTrue(np.allclose(np.diff(own.number, prepend=0) * 4 * 300, rdf.results.count))
        self.assertTrue(np.allclose(own.g, rdf.results.rdf, rtol=1e-6))

    def test_structure_factor(self):
        state = gas(60, names=["AR", "KR"] * 30)
        found = pairmd.structure_factor([state], limit=9.0, width=0.5)
        vectors = [(x, y, z) for x in range(-4, 5) for y in range(-4, 5) for z in range(-5, 6) if (x, y, z) > (0, 0, 0)]
        waves = 2 * np.pi * np.array(vectors) / SIDES
        rho = {kind: np.exp(-1j * state.positions()[structure.atoms_of(state, kind)] @ waves.T).sum(axis=0) for kind in (None, "AR", "KR")}
        lengths = np.sqrt((waves**2).sum(axis=1))
        shell = np.where(lengths <= 9, lengths / 0.5, 99).astype(int)
        kept = [at for at in range(18) if (shell == at).any()]
        self.assertEqual(found.vectors.tolist(), [(shell == at).sum() for at in kept])
        self.assertTrue(np.allclose(found.q, [lengths[shell == at].mean() for at in kept]))
        self.assertTrue(np.allclose(found.s, [(abs(rho[None][shell == at]) ** 2).mean() / 60 for at in kept]))
        both = pairmd.structure_factor([state] * 2, limit=9.0, width=0.5, names=("AR", "KR"))
        mixed = (rho["AR"] * rho["KR"].conj()).real / 30
        self.assertTrue(np.allclose(both.s, [mixed[shell == at].mean() for at in kept]))
        self.assertEqual(repr(both), f"<StructureFactor: {len(kept)} shells, 2 states>")

    def test_crystal(self):
        """The first peak of a simple cubic lattice of 4 atoms a side, whose factor is N, and 0 below."""
        places = [(x << 30, y << 30, z << 30) for x in range(4) for y in range(4) for z in range(4)]
        found = pairmd.structure_factor([state_of(places, (200_000,) * 3)], limit=2 * math.pi * 4.01 / 2, width=0.1)
        peak = found.q > 2 * math.pi * 4 / 2 - 0.05
        self.assertLess(abs(found.s[~peak]).max(), 1e-20)
        self.assertAlmostEqual(found.s[peak][0] / 64 / 3 * found.vectors[peak][0], 1)

    def test_arguments(self):
        for how in ({"limit": 1.0}, {"width": 100.0}, {"names": "XE"}):
            with self.assertRaises(ValueError):
                pairmd.structure_factor([gas(4)], **how)
        with self.assertRaisesRegex(ValueError, "no states"):
            pairmd.structure_factor([])
        with self.assertRaisesRegex(ValueError, "a wave number is above 0"):
            structure.wave_vectors(SIDES, 0, 1)
        vectors, length = structure.wave_vectors(SIDES, 2 * math.pi / 3, 1)
        self.assertEqual((vectors, round(length, 9)), ([(0, 0, 1)], round(2 * math.pi / 3, 9)))


@needs("numpy", "scipy")
class Motion(unittest.TestCase):
    states = walk(20, 30) if np else []

    def direct(self, value, lags, every=1):
        """The mean over origins of a function of two numbers of states."""
        return [np.mean([value(at, at + lag) for at in range(0, len(self.states) - lag, every)]) for lag in lags]

    def test_displacement(self):
        rows = positions(self.states)
        off = lambda at, then: ((rows[then] - rows[at]) ** 2).sum(axis=1).mean()  # noqa: E731
        series = pairmd.mean_square_displacement(self.states, dt=2)
        self.assertTrue(np.allclose(series.values, self.direct(off, range(15)), rtol=1e-11, atol=1e-13))
        self.assertTrue(np.allclose(series.times, np.arange(15) * 0.02))
        sparse = pairmd.mean_square_displacement(self.states, dt=2, every=3, most=29)
        self.assertTrue(np.allclose(sparse.values, self.direct(off, range(30), 3), rtol=1e-12))
        back = pairmd.mean_square_displacement(self.states[::-1], dt=2)
        self.assertTrue(np.allclose(back.values, series.values, rtol=1e-11, atol=1e-13))

    @needs("MDAnalysis")
    def test_displacement_as_mdanalysis(self):
        with warnings.catch_warnings():
            warnings.simplefilter("ignore")
            import MDAnalysis
            import MDAnalysis.analysis.msd

        rows = (positions(self.states) * 10).astype(np.float32)
        universe = MDAnalysis.Universe.empty(20, trajectory=True)
        universe.load_new(rows, order="fac")
        own = pairmd.mean_square_displacement(self.states, dt=2, most=29)
        other = MDAnalysis.analysis.msd.EinsteinMSD(universe, fft=False).run()
        self.assertTrue(np.allclose(own.values * 100, other.results.timeseries, rtol=1e-5))

    def test_velocities(self):
        rows = np.array([state.velocities(2) for state in self.states])
        dots = lambda at, then: (rows[at] * rows[then]).sum(axis=1).mean()  # noqa: E731
        series = pairmd.velocity_autocorrelation(self.states, 2)
        scale = series.values[0]
        self.assertTrue(np.allclose(series.values / scale, np.array(self.direct(dots, range(15))) / scale, atol=1e-13))
        some = pairmd.velocity_autocorrelation(self.states, 2, names="KR", every=2)
        kept = rows[:, 1::2]
        dots = lambda at, then: (kept[at] * kept[then]).sum(axis=1).mean()  # noqa: E731
        self.assertTrue(np.allclose(some.values, self.direct(dots, range(15), 2), rtol=1e-12))

    def test_scattering(self):
        rows = positions(self.states)
        found = pairmd.self_intermediate_scattering(self.states, 6.0, dt=2, vectors=5)
        vectors, length = structure.wave_vectors(SIDES, 6.0, 5)
        waves = 2 * np.pi * np.array(vectors) / SIDES
        self.assertEqual((found.q, found.vectors), (length, 5))
        self.assertAlmostEqual(length, 6.0, delta=0.3)
        cosines = lambda at, then: np.cos((rows[then] - rows[at]) @ waves.T).mean()  # noqa: E731
        self.assertTrue(np.allclose(found.values, self.direct(cosines, range(15)), atol=1e-12))
        self.assertAlmostEqual(float(found.values[0]), 1)

    def test_non_gaussian(self):
        rows = positions(self.states)
        found = pairmd.non_gaussian_parameter(self.states, dt=2, most=20)
        lags = np.round(found.times / 0.02).astype(int)
        self.assertEqual((lags[0], lags[-1]), (1, 20))
        second = self.direct(lambda at, then: ((rows[then] - rows[at]) ** 2).sum(axis=1).mean(), lags)
        fourth = self.direct(lambda at, then: (((rows[then] - rows[at]) ** 2).sum(axis=1) ** 2).mean(), lags)
        self.assertTrue(np.allclose(found.values, 3 * np.array(fourth) / (5 * np.array(second) ** 2) - 1))
        # displacements with a Gaussian distribution have 0
        self.assertLess(abs(pairmd.non_gaussian_parameter(walk(4000, 2), dt=2, most=1).values[0]), 0.1)

    def test_times_that_arent_equally_far_apart(self):
        """Each pair of states counts at the time between them."""
        steps = [0, 1, 2, 4, 8, 16]
        states = walk(10, 0, steps)
        rows = positions(states)
        off = {}
        for at, one in enumerate(steps):
            for then, other in enumerate(steps[at:], at):
                off.setdefault(other - one, []).append(((rows[then] - rows[at]) ** 2).sum(axis=1).mean())
        series = pairmd.mean_square_displacement(states, dt=5)
        self.assertTrue(np.allclose(series.times, np.array(sorted(off)) * 0.005))
        self.assertTrue(np.allclose(series.values, [np.mean(off[it]) for it in sorted(off)]))
        fs = pairmd.self_intermediate_scattering(states, 6.0, dt=5)
        self.assertEqual(len(fs.times), len(off))

    def test_other_atoms(self):
        with self.assertRaisesRegex(ValueError, "different boxes or atoms"):
            pairmd.mean_square_displacement([gas(4), gas(4, names=["KR"] * 4).replaced(step=1)], dt=2)


@needs("numpy", "scipy")
class Stress(unittest.TestCase):
    def table(self, rows):
        """A table with the pressure tensor of xx, yy, zz, xy, xz, yz in each row."""
        heads = [*pairmd.table.COLUMNS, *pairmd.table.TENSOR]
        return pairmd.Table(heads, [[5 * at, *[0] * 11, *row] for at, row in enumerate(rows)])

    def test_correlation(self):
        rows = np.random.default_rng(3).normal(0, 100, (40, 6))
        found = pairmd.stress_autocorrelation(self.table(rows), dt=2)
        tensors = rows[:, [0, 3, 4, 3, 1, 5, 4, 5, 2]].reshape(-1, 3, 3)
        tensors = tensors - np.eye(3) * np.trace(tensors, axis1=1, axis2=2)[:, None, None] / 3
        wanted = [np.mean([(tensors[at] * tensors[at + lag]).sum() / 10 for at in range(40 - lag)]) for lag in range(20)]
        self.assertTrue(np.allclose(found.values, wanted, atol=1e-9))
        self.assertTrue(np.allclose(found.times, np.arange(20) * 0.01))

    def test_viscosity(self):
        """An exponential of 1 bar^2 and a decay in 2 ps: V tau / kT."""
        at = np.linspace(0, 40, 4001)
        found = pairmd.viscosity(pairmd.Series(at, np.exp(-at / 2)), 8.0, 100.0)
        pascal = 1e5
        wanted = 8e-27 / (1.380649e-23 * 100) * pascal**2 * 2e-12 * 1e3
        self.assertAlmostEqual(found.values[-1] / wanted, 1, places=4)

    def test_tables_without_it(self):
        heads = [*pairmd.table.COLUMNS]
        with self.assertRaisesRegex(ValueError, "lacks the pressure tensor"):
            pairmd.stress_autocorrelation(pairmd.Table(heads, [[0] * 12] * 3), dt=2)


class ChosenSteps(unittest.TestCase):
    def test_logarithmic(self):
        self.assertEqual(pairmd.logarithmic(100, 3), [0, 1, 2, 5, 10, 22, 46, 100])
        self.assertEqual((pairmd.logarithmic(1), pairmd.logarithmic(3)), ([0, 1], [0, 1, 2, 3]))
        with self.assertRaises(ValueError):
            pairmd.logarithmic(0)

    def test_clock(self):
        self.assertEqual(times.ticks_of([7, 5, 0], 2, None)[0], [0, 2, 7])
        self.assertEqual([times.spacing_of(it) for it in ([0, 2, 4], [0, 2, 3], [0])], [2, None, 1])

    @needs_program
    def test_states(self):
        job, state = pairmd.Job.read(example("lennard-jones.job")), pairmd.State.read(example("mixture.state"))
        every = [*pairmd.states(job, state, 12, 1)]
        for at in ([0, 1, 2, 4, 8, 12], [3], [1, 2, 3, 5, 7, 12], [0], []):
            self.assertEqual([*pairmd.states(job, state, at=at)], [every[it] for it in at])
        past = [*pairmd.states(job, every[-1], at=[0, 2, 3], back=True)]
        self.assertEqual(past, [every[12], every[10], every[9]])
        for how in ({"at": [2, 2]}, {"at": [-1]}, {"at": [3, 1]}, {"at": [1], "steps": 4, "every": 1}, {"steps": 4}, {"at": [0.5]}):
            with self.assertRaises(ValueError):
                [*pairmd.states(job, state, **how)]

    @needs_program
    def test_echo(self):
        job, state = pairmd.Job.read(example("lennard-jones.job")), pairmd.State.read(example("mixture.state"))
        exact = pairmd.echo(job, state, 100, size=0)
        self.assertEqual((exact.distance, exact.growth, exact.end), (0.0, 0.0, state))
        found = pairmd.echo(job, state, 1e2, atom=3, axis=1, size=1000)
        self.assertEqual((found.turned.step, found.end.step), (100, 0))
        self.assertEqual(found.distance, pairmd.distance(state, found.end))
        self.assertTrue(0.1 < found.growth < 100)

    @needs("numpy")
    @needs_program
    def test_exponent(self):
        job = pairmd.Job.read(example("argon.job")).replaced(dt=20)
        found = pairmd.lyapunov_exponent(job, pairmd.start(job, example("argon.gro")), steps=40, rounds=6, discard=2)
        self.assertEqual(found.blocks, 4)
        self.assertAlmostEqual(found.value, 1.7, delta=0.4)
        with self.assertRaisesRegex(ValueError, "too few"):
            pairmd.lyapunov_exponent(job, None, steps=40, rounds=6)


@needs("numpy", "scipy")
class Commands(unittest.TestCase):
    def setUp(self):
        self.folder = self.enterContext(tempfile.TemporaryDirectory())
        self.states = walk(20, 12)
        self.path = os.path.join(self.folder, "states")
        pairmd.write_states(self.states, self.path)
        self.job = example("lennard-jones.job")

    def columns(self, *words):
        """The columns that a command prints below its head."""
        status, output, errors = command(*words)
        self.assertEqual((status, errors, output[:2]), (0, "", "# "))
        return np.loadtxt(io.StringIO(output), ndmin=2).T

    def test_states(self):
        g = pairmd.radial_distribution(self.states, 0.05, names=("AR", "KR"))
        found = self.columns("rdf", self.path, "--width", "0.05", "--name", "AR", "--name", "KR")
        self.assertTrue(np.allclose(found, (g.r, g.g, g.number), rtol=1e-8))
        s = pairmd.structure_factor(self.states, 12)
        self.assertTrue(np.allclose(self.columns("sq", self.path, "--limit", "12"), (s.q, s.s, s.vectors), rtol=1e-8))
        cases = {
            ("msd",): pairmd.mean_square_displacement(self.states, dt=2),
            ("msd", "--most", "9", "--name", "KR"): pairmd.mean_square_displacement(self.states, dt=2, most=9, names="KR"),
            ("vacf",): pairmd.velocity_autocorrelation(self.states, 2),
            ("fsq", "--q", "7"): pairmd.self_intermediate_scattering(self.states, 7, dt=2),
            ("alpha2",): pairmd.non_gaussian_parameter(self.states, dt=2),
        }
        for (name, *options), series in cases.items():
            for time_of in (["--job", self.job], ["--dt", "2"]):
                found = self.columns(name, self.path, *time_of, *options)
                self.assertTrue(np.allclose(found, (series.times, series.values), rtol=1e-8, atol=1e-12), name)

    def test_wave_number(self):
        """The last line says which wave vectors fit the box."""
        found = pairmd.self_intermediate_scattering(self.states, 7, dt=2, vectors=4)
        output = command("fsq", self.path, "--dt", "2", "--q", "7", "--vectors", "4")[1]
        self.assertEqual(output.splitlines()[-1], f"# q {found.q:.6g} nm^-1, the mean of 4 wave vectors")

    def test_pieces(self):
        """The last state of a file, again at the start of the next, counts once."""
        paths = [os.path.join(self.folder, it) for it in ("one", "two")]
        pairmd.write_states(self.states[:7], paths[0])
        pairmd.write_states(self.states[6:], paths[1])
        self.assertEqual(command("msd", *paths, "--dt", "2"), command("msd", self.path, "--dt", "2"))

    @needs_program
    def test_tables(self):
        job, state = pairmd.Job.read(self.job), pairmd.State.read(example("mixture.state"))
        table = pairmd.observe(job, state, 200, 5, tensor=True)
        path = os.path.join(self.folder, "table")
        with open(path, "w", encoding="utf-8") as file:
            file.write(table.text())
        status, output, _ = command("average", path, "--column", "temperature", "--column", "pressure-xy", "--blocks", "10")
        means = [pairmd.block_mean(table[name], 10) for name in ("temperature", "pressure-xy")]
        self.assertEqual([line.split()[-1] for line in output.splitlines()], [str(it) for it in means])
        found = self.columns("stress", path, "--dt", "2", "--volume", "9.6", "--most", "8")
        stress = pairmd.stress_autocorrelation(table, 8, dt=2)
        eta = pairmd.viscosity(stress, 9.6, np.mean(table["temperature"]))
        self.assertTrue(np.allclose(found, (stress.times, stress.values, eta.values), rtol=1e-8))

    @needs("matplotlib")
    def test_picture(self):
        import matplotlib.font_manager  # noqa: F401: the first import on a machine makes a cache, and says so

        text = command("rdf", self.path, "--width", "0.05")[1]
        path, picture = os.path.join(self.folder, "rdf"), os.path.join(self.folder, "rdf.png")
        with open(path, "w", encoding="utf-8") as file:
            file.write(text)
        for words in ((path,), (path, path, "--column", "g", "--column", "number", "--log", "xy", "--x", "r")):
            self.assertEqual(command("plot", *words, "--output", picture), (0, "", ""))
            with open(picture, "rb") as file:
                self.assertEqual(file.read(8), b"\x89PNG\r\n\x1a\n")
        self.assertEqual(command("plot", path, "--column", "h", "--output", picture)[0], 1)
        status, _, errors = command("plot", self.path, "--output", picture)
        self.assertEqual(status, 1)
        self.assertIn("has states, not a table", errors)
        with unittest.mock.patch("sys.stdin", io.StringIO(text)):
            self.assertEqual(command("plot", "-", "--output", picture), (0, "", ""))

    def test_faults(self):
        self.assertEqual(command("msd", self.path)[0], 2)
        self.assertEqual(command("rdf", "no such file")[:2], (1, ""))
        status, output, errors = command("msd", self.path, "--dt", "2", "--name", "XE")
        self.assertEqual((status, output), (1, ""))
        self.assertIn("no atom is named XE", errors)


@needs("numpy")
class Speed(unittest.TestCase):
    """Streams are read and written at numpy's speed: within a small multiple of the time in which it reads the numbers alone."""

    def least(self, call):
        """The least CPU time of some calls."""
        taken = []
        for _ in range(5):
            before = time.process_time()
            call()
            taken.append(time.process_time() - before)
        return min(taken)

    def test_streams(self):
        states = [gas(4000, seed) for seed in range(10)]
        text = "".join(state.text() for state in states)
        self.assertEqual([*pairmd.read_states(io.StringIO(text))], states)
        digits = " ".join(str(it) for state in states for it in np.hstack((state.previous, state.current)).ravel().tolist())
        alone = self.least(lambda: np.fromstring(digits, dtype=np.int64, sep=" "))
        self.assertLess(self.least(lambda: [*pairmd.read_states(io.StringIO(text))]), 12 * alone)
        self.assertLess(self.least(lambda: [state.text() for state in states]), 20 * alone)

    def test_faults_are_found_with_their_line(self):
        """The block reader finds no fault itself, and leaves none."""
        text = gas(60).text()
        lines = text.splitlines(keepends=True)
        for at in (5, 30, 64):
            line = lines[at]
            wrongs = [line[:-1] + " \n", line[:-1] + " 1\n", line[:16] + "0" + line[16:], line[:15] + line[16:], line[:-2] + "x\n"]
            wrongs += [line[:16] + line[line.index(" ", 16) :], line[:15] + " 4294967296" + line[line.index(" ", 16) :]]
            wrongs += [line.replace("AR ", "A\u00c4 ", 1), line[1:]]
            for wrong in wrongs:
                changed = "".join([*lines[:at], wrong, *lines[at + 1 :]])
                with self.subTest(wrong), self.assertRaises(pairmd.FormatError) as caught:
                    pairmd.State.parse(changed)
                self.assertEqual((caught.exception.code, caught.exception.line), ("S1", at + 1))
        with self.assertRaises(pairmd.FormatError) as caught:
            pairmd.State.parse("".join(lines[:-1]))
        self.assertEqual(caught.exception.code, "S2")

    def test_any_changed_byte_is_read_as_without_numpy(self):
        """Blocks and single lines lead to the same states and errors, also at the ends of the slices that are parsed at once."""

        def outcome(text):
            try:
                return pairmd.State.parse(text)
            except pairmd.FormatError as error:
                return str(error)

        numbers = random.Random(69)
        lines = gas(grids.SLICE + 2).text().splitlines(keepends=True)
        for number in [5, 5 + grids.SLICE - 1, 5 + grids.SLICE, 5 + grids.SLICE + 1] * 25:
            at, new = numbers.randrange(len(lines[number])), numbers.choice(["", "0", "00", "9", " ", "\n", "-", "A", "\0", "98765"])
            changed = "".join([*lines[:number], lines[number][:at] + new + lines[number][at + 1 :], *lines[number + 1 :]])
            with unittest.mock.patch("pairmd.state.has_numpy", lambda: False):
                expected = outcome(changed)
            self.assertEqual(outcome(changed), expected, (at, new))

    @needs("scipy")
    def test_neighbours(self):
        """A frame of 4,000 atoms to half the side takes seconds in plain Python, and 0.3 s here on an idle machine."""
        state = gas(4000)
        self.assertLess(self.least(lambda: pairmd.radial_distribution([state])), 2.0)


if __name__ == "__main__":
    unittest.main()
