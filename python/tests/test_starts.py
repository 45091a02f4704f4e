"""Tests of lattices, equilibration, output for other programs, and the module's commands."""

import contextlib
import hashlib
import io
import math
import os
import subprocess
import sys
import tempfile
import unittest
from fractions import Fraction
from unittest import mock

import pairmd
from pairmd import __main__, lattice, progress, xyz

from . import example, needs, needs_program

MIXTURE = [pairmd.Component("AR", Fraction(4), Fraction("39.948")), pairmd.Component("KR", Fraction(1), Fraction("83.798"))]


def momentum(frame, masses):
    """The momentum of a frame along each side in 10^-9 u nm/ps."""
    return [sum(masses[atom.name] * v for atom, v in zip(frame.atoms, axis)) for axis in zip(*frame.velocities)]


class Lattice(unittest.TestCase):
    def test_bytes(self):
        """The same bytes on any machine. If the method changes on purpose, so does the checksum."""
        text = pairmd.fcc_lattice(500, Fraction(21), MIXTURE, Fraction(94), seed=7).text()
        self.assertEqual(hashlib.sha256(text.encode()).hexdigest()[:16], "61908d79b964d9de")
        self.assertEqual(pairmd.GroFrame.parse(text).text(), text)
        self.assertNotEqual(pairmd.fcc_lattice(500, Fraction(21), MIXTURE, Fraction(94), seed=8).text(), text)
        floats = [pairmd.Component("AR", 0.8, 39.948), pairmd.Component("KR", 0.2, "83.798")]
        self.assertEqual(pairmd.fcc_lattice(500, 21.0, floats, 94, seed=7).text(), text)

    def test_sites(self):
        for atoms, nearest in ((4, 0.707), (32, 0.353), (33, 0.235), (500, 0.141)):
            frame = pairmd.fcc_lattice(atoms, Fraction(atoms), MIXTURE)  # a cube of 1 nm
            self.assertEqual((len(frame), frame.box, frame.velocities), (atoms, (100_000,) * 3, None))
            places = frame.positions
            squares = (sum(min((x - y) % 1000, (y - x) % 1000) ** 2 for x, y in zip(p, q)) for p in places for q in places[:4] if p is not q)
            self.assertAlmostEqual(min(squares) ** 0.5 / 1000, nearest, delta=0.002)
            self.assertTrue(all(0 <= x < 1000 for place in places for x in place))

    def test_density(self):
        self.assertEqual(lattice.side_of(500, Fraction(21)), round((500 / 21) ** (1 / 3) * 100_000))
        with self.assertRaises(ValueError):
            lattice.side_of(5, Fraction(1, 10**9))
        self.assertEqual([lattice.cube_root(Fraction(it)) for it in (0, 1, 3, 4, 26, 27)], [0, 1, 1, 2, 3, 3])

    def test_types(self):
        names = lattice.names_of(7, MIXTURE, lattice.Numbers(1))
        self.assertEqual((names.count("AR"), names.count("KR")), (6, 1))

    def test_velocities(self):
        masses = {"AR": 3_994_800, "KR": 8_379_800}
        for seed in range(5):
            frame = pairmd.fcc_lattice(300, Fraction(20), MIXTURE, Fraction(120), seed)
            self.assertLess(max(map(abs, momentum(frame, masses))), 3_994_800 // 20)
            kelvin = lattice.kelvin_of(frame.velocities, [masses[atom.name] for atom in frame.atoms])
            self.assertAlmostEqual(float(kelvin), 120, places=1)
        argon = pairmd.fcc_lattice(300, Fraction(20), MIXTURE[:1], Fraction(120))
        self.assertEqual(momentum(argon, masses), [0, 0, 0])

    def test_equipartition(self):
        masses = [3_994_800] * 1000 + [8_379_800] * 1000
        velocities = lattice.velocities_at(Fraction(100), masses, lattice.Numbers(3))
        light, heavy = (lattice.kelvin_of(velocities[at : at + 1000], masses[at : at + 1000]) for at in (0, 1000))
        self.assertAlmostEqual(float(light / heavy), 1, delta=0.08)

    def test_arguments_out_of_range(self):
        for arguments in ((0, Fraction(1)), (65_537, Fraction(1)), (5, Fraction(0))):
            with self.assertRaises(ValueError):
                pairmd.fcc_lattice(*arguments, MIXTURE)
        for kelvin, mass in ((94, None), (94, 0), (-5, 40)):
            with self.assertRaises(ValueError):
                pairmd.fcc_lattice(5, Fraction(20), [pairmd.Component("AR", 1, mass)], kelvin)

    def test_masses_far_apart(self):
        """Light atoms take up a heavy atom's momentum at once, whatever the ratio of masses."""
        half = 5 * 10**14
        *light, heavy = lattice.balanced([half, 0, 0, 0, 0], [1, 1, 1, 1, 2 * half])
        self.assertEqual((sum(light) + 2 * half * heavy, light[1:]), (0, [light[1]] * 3))
        self.assertEqual(lattice.balanced([3, 1], [7, 7]), [1, -1])


def command(*words):
    """The status and output of `python -m pairmd` with these arguments, and its standard error."""
    output, errors = io.TextIOWrapper(io.BytesIO(), encoding="utf-8", newline="\n"), io.StringIO()
    with mock.patch.object(sys, "argv", ["pairmd", *words]), contextlib.redirect_stdout(output), contextlib.redirect_stderr(errors):
        try:
            status = __main__.main()
        except SystemExit as end:
            status = end.code
    output.flush()
    return status, output.buffer.getvalue().decode(), errors.getvalue()


class Commands(unittest.TestCase):
    def test_lattice(self):
        words = "lattice --atoms 500 --density 21 --type AR:0.8 --type KR:0.2 --temperature 94 --seed 7 --job".split()
        status, output, errors = command(*words, example("lennard-jones.job"))
        self.assertEqual((status, errors), (0, "94.00 K\n"))
        self.assertEqual(output, pairmd.fcc_lattice(500, Fraction(21), MIXTURE, Fraction(94), 7).text())
        reduced = command(*"lattice --atoms 256 --density 0.8 --sigma 0.34 --type AR".split())[1]
        self.assertEqual(pairmd.GroFrame.parse(reduced).box[0], round((256 / 0.8) ** (1 / 3) * 34_000))

    def test_arguments_that_make_no_lattice(self):
        cases = [
            ("--type A:1:0 --temperature 100", "the mass of A is from 0.00001 to 1000 u, not 0"),
            ("--type A:1:1e9", "the mass of A is from"),
            ("--type A --temperature 94", "velocities need the mass of A"),
            ("--type A:0", "the parts of types"),
            ("--type A:-1", "-1 is below 0"),
            ("--type A --sigma 0", "0 isn't above 0"),
            ("--type A --density 0", "0 isn't above 0"),
            ("--type A:1:40 --temperature -5", "-5 is below 0"),
            ("--type A --density 1e99999999", "1e99999999 is out of range"),
            ("--type A --density 1e-99999999", "1e-99999999 is out of range"),
            ("--type A --density 1e999", "the side is from 0.00001 to 160 nm"),
            ("--type A --density 1/0", "1/0 isn't a number"),
            ("--type A:1:40 --temperature 1e300", "doesn't fit 8 columns"),
            ("--type A --atoms 65537", "a frame has 1 to 65,536 atoms"),
        ]
        for words, reason in cases:
            with self.subTest(words):
                status, output, errors = command(*"lattice --atoms 5 --density 1".split(), *words.split())
                self.assertEqual((status, output), (2, ""))
                self.assertIn(reason, errors)
                self.assertTrue(errors.startswith("usage: python -m pairmd lattice"))

    def test_errors(self):
        self.assertEqual(command("lattice", "--atoms", "5", "--density", "1", "--type", "ARGONS")[0], 2)
        status, _, errors = command("equilibrate", example("mixture.gro"), example("mixture.gro"), "--temperature", "94")
        self.assertEqual(status, 1)
        self.assertIn("line 1: the first line of a job is `pairmd job 1` (J1)", errors)

    @needs_program
    def test_equilibrate(self):
        words = "--temperature 80 --rounds 10 --steps 20 --settle 3".split()
        status, output, errors = command("equilibrate", example("lennard-jones.job"), example("mixture.gro"), *words)
        settlings = errors.count("steps without scaling: ")
        self.assertEqual((status, 2 <= settlings <= 4), (0, True))
        state = pairmd.State.parse(output)
        # the last settling is left out if it had the temperature; after four the state is scaled behind the last
        mean = float(errors.rpartition("scaling: ")[2].partition(" K")[0])
        self.assertEqual(state.step, 10 * 20 + (settlings - (abs(mean - 80) <= 0.8)) * 3 * 20)
        once = command("equilibrate", example("lennard-jones.job"), example("mixture.gro"), *words, "--trials", "0")
        self.assertEqual((once[0], len(once[2].splitlines()), pairmd.State.parse(once[1]).step), (0, 12, 10 * 20 + 3 * 20))
        self.assertTrue(once[2].endswith("\nnot within 1 % of 80.00 K: scaled once more, and not run again\n"))
        job = pairmd.Job.read(example("lennard-jones.job"))
        again = pairmd.equilibrate(job, pairmd.State.read(example("mixture.state")), 80, pairmd.Schedule(10, 20, 3), workers=2)
        self.assertEqual(again, state)


class Twins(unittest.TestCase):
    state = pairmd.State.read(example("mixture.state"))

    def test_distance(self):
        twin = self.state.shifted(1, 2, 3).shifted(4, 0, -4)
        self.assertEqual(pairmd.distance(self.state, twin), 5.0)
        across = self.state.replaced(current=[((x + 2**32 - 7) % 2**32, y, z) for x, y, z in self.state.current])
        self.assertAlmostEqual(pairmd.distance(self.state, across), math.sqrt(6) * 7)

    def test_brought_near(self):
        twin = self.state.shifted(1, 2, 30_000_000).shifted(4, 0, -40_000_000)
        near = pairmd.brought_near(self.state, twin, 100)
        self.assertEqual(near, self.state.shifted(1, 2, 60).shifted(4, 0, -80))
        with self.assertRaisesRegex(ValueError, "no direction"):
            pairmd.brought_near(self.state, self.state, 100)

    @needs_program
    def test_rates(self):
        """The rate of liquid argon, from a run of 4 ps; examples/divergence.py has 1.7 per ps, from other runs."""
        job = pairmd.Job.read(example("argon.job")).replaced(dt=20)
        rates = pairmd.lyapunov_rates(job, pairmd.start(job, example("argon.gro")), steps=4e1, rounds=5)
        self.assertAlmostEqual(sum(rates[1:]) / 4, 1.7, delta=0.3)


class Progress(unittest.TestCase):
    def shown(self, *moments):
        """What is shown of reports of 100, 200, .. of 400 steps that come at these seconds, and of a line behind them."""
        reports = [f"pairmd: {100 * (number + 1)} of 400 steps\n" for number in range(len(moments))]
        return list(progress.rates([*reports, "pairmd: O2 CannotWrite\n"], iter([0.0, *moments]).__next__))

    def test_rates(self):
        end = "pairmd: O2 CannotWrite"
        self.assertEqual(self.shown(0.5, 2, 2.5, 3), [
            "pairmd: 200 of 400 steps, 100 steps/s, 0:00:02 left",
            "pairmd: 400 of 400 steps, 133 steps/s, 0:00:00 left",
            end,
        ])  # fmt: skip
        # a report that was held back appears before what stopped the run
        self.assertEqual(self.shown(0.5), ["pairmd: 100 of 400 steps, 200 steps/s, 0:00:02 left", end])
        self.assertEqual(self.shown(3600), ["pairmd: 100 of 400 steps, 0 steps/s, 3:00:00 left", end])
        self.assertEqual(list(progress.rates(["pairmd: 1 of 2 parts\n"], lambda: 0.0)), ["pairmd: 1 of 2 parts"])

    def test_segments(self):
        """Each segment of a replay has rates of its own, and not each its last report."""
        reports = ["pairmd: 1 of 2 steps\n", "pairmd: 2 of 2 steps\n", "pairmd: 1 of 2 steps\n", "pairmd: 2 of 2 steps\n"]
        self.assertEqual(list(progress.rates([*reports, "pairmd: 4 of 8 steps\n"], iter([0.0, 1, 1.5, 2, 6, 10]).__next__)), [
            "pairmd: 1 of 2 steps, 1 steps/s, 0:00:01 left",
            "pairmd: 1 of 2 steps, 2 steps/s, 0:00:00 left",
            "pairmd: 2 of 2 steps, 0 steps/s, 0:00:00 left",
            "pairmd: 4 of 8 steps, 1 steps/s, 0:00:04 left",
        ])  # fmt: skip

    @needs_program
    def test_command(self):
        words = ["run", example("lennard-jones.job"), example("mixture.state"), "--steps", "200", "--progress"]
        reports = subprocess.run([pairmd.find_program(), *words], capture_output=True, text=True, check=True).stderr
        with mock.patch("sys.stdin", io.StringIO(reports)):
            status, output, errors = command("progress")
        self.assertEqual((status, errors), (0, ""))
        self.assertRegex(output.splitlines()[-1], r"^pairmd: 200 of 200 steps, [0-9,]+ steps/s, 0:00:00 left$")


class Outputs(unittest.TestCase):
    job, state = pairmd.Job.read(example("lennard-jones.job")), pairmd.State.read(example("mixture.state"))

    @needs("numpy")
    def test_xyz(self):
        first, head, *atoms = xyz.xyz_text(self.state, self.job).splitlines()
        self.assertEqual(first, "6")
        columns = "species:S:1:pos:R:3:velo:R:3:masses:R:1:momenta:R:3"
        self.assertEqual(head, f'Lattice="20.0000 0 0 0 20.0000 0 0 0 24.0000" Properties={columns} step=0 pbc="T T T" Time=0.000')
        self.assertEqual([line.split()[0] for line in atoms], ["Ar"] * 3 + ["Kr"] * 3)
        numbers = [float(word) for word in atoms[3].split()[1:]]
        velocity = [10 * v for v in self.state.velocities(2)[3]]
        # ASE's unit of time, from 1 eV = 96.485332 kJ/mol: Angstrom (u/eV)^(1/2) in ps
        unit = 0.1 / math.sqrt(96.485332)
        wanted = [*(10 * x for x in self.state.positions()[3]), *velocity, 83.798, *(83.798 * v * unit for v in velocity)]
        for number, other in zip(numbers, wanted, strict=True):
            self.assertAlmostEqual(number, other, places=7)

    @needs("numpy", "ase")
    def test_ase_reads_velocities(self):
        import ase.io
        import ase.units

        text = xyz.xyz_text(self.state, self.job)
        read = ase.io.read(io.StringIO(text), format="extxyz")
        for own, other in zip(self.state.velocities(2), read.get_velocities() * 1000 * ase.units.fs / 10, strict=True):
            for one, that in zip(own, other, strict=True):
                self.assertAlmostEqual(one, float(that), places=8)
        self.assertAlmostEqual(float(abs(read.get_momenta() - pairmd.to_ase(self.state, self.job).get_momenta()).max()), 0, places=8)

    def test_write(self):
        with tempfile.TemporaryDirectory() as folder:
            path = os.path.join(folder, "run.xyz")
            pairmd.write_xyz([self.state] * 2, path, species={"AR": "X"})
            with open(path, encoding="utf-8") as file:
                text = file.read()
        self.assertEqual(text, xyz.xyz_text(self.state, species={"AR": "X"}) * 2)
        self.assertEqual(xyz.species_of("Q"), "Q")

    @needs("numpy", "ase")
    def test_ase(self):
        import ase.units

        atoms = pairmd.to_ase(self.state, self.job)
        self.assertEqual(atoms.get_chemical_symbols(), ["Ar"] * 3 + ["Kr"] * 3)
        self.assertAlmostEqual(atoms.get_distance(0, 1, mic=True), 10 * math.dist((0.4, 0.5, 0.6), (0.79, 0.51, 0.62)), places=6)
        kelvin = atoms.get_kinetic_energy() / (1.5 * 5 * ase.units.kB)
        self.assertAlmostEqual(kelvin, float(pairmd.temperature(self.state, self.job)), delta=0.01)

    @needs("MDAnalysis")
    def test_mdanalysis(self):
        later = self.state.replaced(step=50)
        universe = pairmd.to_mdanalysis([self.state, later], self.job)
        self.assertEqual((len(universe.trajectory), universe.trajectory.dt), (2, 0.1))
        self.assertEqual(list(universe.atoms.names), self.state.names)
        self.assertAlmostEqual(float(universe.atoms.positions[0][0]), 10 * self.state.positions()[0][0], places=4)
        self.assertAlmostEqual(float(universe.dimensions[2]), 24.0, places=4)
        for frame in universe.trajectory:
            for own, read in zip(self.state.velocities(2), frame.velocities, strict=True):
                for one, other in zip(own, read, strict=True):
                    self.assertAlmostEqual(10 * one, float(other), places=5)

    def test_times_of_mdanalysis(self):
        at = [self.state.replaced(step=step) for step in (1000, 1050, 1100)]
        self.assertEqual(xyz.times_of(at, self.job, None), (2.0, 0.1))
        self.assertEqual(xyz.times_of(at[::-1], self.job, 0.1), (2.2, -0.1))
        self.assertEqual(xyz.times_of([self.state] * 3, self.job, 0.5), (0.0, 0.5))
        with self.assertRaisesRegex(ValueError, "interval=0.2 ps contradicts the step counters"):
            xyz.times_of(at, self.job, 0.2)

    @needs("MDAnalysis")
    def test_times_in_mdanalysis(self):
        at = [self.state.replaced(step=step) for step in (1000, 1050, 1100)]
        universe = pairmd.to_mdanalysis(at, self.job)
        self.assertEqual([round(frame.time, 9) for frame in universe.trajectory], [2.0, 2.1, 2.2])


if __name__ == "__main__":
    unittest.main()
