"""Tests of the program's commands as functions, and of its errors beside the module's."""

import contextlib
import math
import os
import pydoc
import re
import tempfile
import unittest
from unittest import mock

import pairmd

from . import example, needs, needs_program, text_of
from .test_files import GRO, GRO_FAULTS, JOB, JOB_FAULTS
from .test_states import FAULTS, ONE

JOB_FILE, STATE_FILE = example("lennard-jones.job"), example("mixture.state")


@contextlib.contextmanager
def working_directory(folder):
    """Makes a directory the working directory, with the same program."""
    before, program = os.getcwd(), os.path.abspath(pairmd.find_program())
    os.chdir(folder)
    try:
        with mock.patch.dict(os.environ, {"PAIRMD": program}):
            yield
    finally:
        os.chdir(before)


class Package(unittest.TestCase):
    def test_help_shows_what_the_module_offers(self):
        for name in pairmd.__all__:
            self.assertTrue(hasattr(pairmd, name), name)
        functions = pydoc.plain(pydoc.render_doc(pairmd)).partition("\nFUNCTIONS\n")[2]
        shown = re.findall(r"^    (\w+)\(", functions, re.MULTILINE)
        self.assertLess({"run", "observe", "radial_distribution", "at_temperature"}, {*shown})

    def test_types_are_declared(self):
        self.assertTrue(os.path.exists(os.path.join(os.path.dirname(pairmd.__file__), "py.typed")))


@needs_program
class Program(unittest.TestCase):
    job, state = pairmd.Job.read(JOB_FILE), pairmd.State.read(STATE_FILE)

    def test_there_and_back(self):
        later = pairmd.run(self.job, self.state, 200, workers=2)
        self.assertEqual(later.step, 200)
        self.assertEqual(pairmd.back(JOB_FILE, later, 200), self.state)

    def test_start_and_frame(self):
        self.assertEqual(pairmd.start(self.job, example("mixture.gro")), self.state)
        self.assertEqual(pairmd.start(self.job, pairmd.GroFrame.parse(text_of("mixture.gro"))), self.state)
        self.assertEqual(pairmd.frame(STATE_FILE).positions, [(400, 500, 600), *pairmd.frame(self.state).positions[1:]])

    def test_states_are_streamed(self):
        states = pairmd.states(self.job, self.state, 10**9, 1)
        self.assertEqual([next(states).step for _ in range(3)], [0, 1, 2])
        states.close()  # ends the program
        steps = [it.step for it in pairmd.states(self.job, self.state, 20, 10, back=True)]
        self.assertEqual(steps, [0, -10, -20])

    def test_trajectory(self):
        frames = list(pairmd.trajectory(self.job, self.state, 20, 10))
        self.assertEqual([(it.step, it.time) for it in frames], [(0, 0.0), (10, 0.02), (20, 0.04)])

    def test_tables(self):
        table, exact = (pairmd.observe(self.job, self.state, 40, 10, exact=it) for it in (False, True))
        self.assertEqual(exact.decimals(self.job, self.state.box, len(self.state)), table)
        tensor, whole = (pairmd.observe(self.job, self.state, 20, 10, exact=it, tensor=True) for it in (False, True))
        self.assertEqual(whole.decimals(self.job, self.state.box, len(self.state)), tensor)
        plain = pairmd.observe(self.job, self.state, 20, 10)
        self.assertEqual([row[: len(plain.columns)] for row in tensor.rows], plain.rows)
        self.assertEqual(exact.exact_column("potential")[0], pairmd.energy(self.job, self.state) * 2**32)

    def test_forces(self):
        forces = pairmd.forces(self.job, self.state)
        self.assertEqual([sum(axis) for axis in zip(*forces.raw)], [0, 0, 0])
        self.assertEqual([it.name for it in forces.atoms], self.state.names)

    def test_velocities(self):
        velocities = pairmd.velocities(self.job, self.state)
        self.assertEqual((velocities.moves, velocities.atoms), (self.state.moves(), self.state.atoms))

    @needs("numpy")
    def test_velocities_in_floats(self):
        velocities = pairmd.velocities(self.job, self.state)
        for exact, printed in zip(self.state.velocities(self.job.dt), velocities.values):
            for one, other in zip(exact, printed):
                self.assertLessEqual(abs(one - float(other)), 5.1e-7)

    def test_streams(self):
        states = list(pairmd.states(self.job, self.state, 40, 10))
        table = pairmd.observe(self.job, self.state, 40, 10)
        self.assertEqual(pairmd.observe_each(self.job, states), table)
        self.assertEqual(list(pairmd.frame_each(self.job, states)), list(pairmd.trajectory(self.job, self.state, 40, 10)))
        energies = list(pairmd.energy_each(self.job, iter(states)))
        self.assertEqual(energies, [(it.step, pairmd.energy(self.job, it)) for it in states])
        self.assertEqual(list(pairmd.forces_each(JOB_FILE, states)), [(it.step, pairmd.forces(self.job, it)) for it in states])
        self.assertEqual([it for _, it in pairmd.velocities_each(self.job, states)], [pairmd.velocities(self.job, it) for it in states])
        with self.assertRaises(pairmd.Refusal) as caught:
            pairmd.observe_each(self.job, [self.state, self.state.replaced(bits=24)])
        self.assertEqual((caught.exception.code, caught.exception.line), ("A6", "A6 BitsDiffer in state 2"))

    def test_potential(self):
        curves = pairmd.curve(self.job, points=4)
        self.assertEqual([it.types for it in curves], [("AR", "AR"), ("AR", "KR"), ("KR", "AR"), ("KR", "KR")])
        self.assertEqual(len(curves[0].rows), 5)
        self.assertEqual(pairmd.curve(self.job, points=4, types=("KR", "AR")), [curves[2]])
        self.assertGreater(pairmd.check(self.job).bound, 0)
        self.assertTrue(pairmd.code(self.job).startswith("pairmd code 1\n"))
        self.assertNotEqual(pairmd.code(self.job, energy=True), pairmd.code(self.job))

    def test_other_bits(self):
        job = self.job.replaced(bits=40)
        state = pairmd.start(job, example("mixture.gro"))
        self.assertEqual((state.bits, pairmd.State.parse(state.text())), (40, state))
        self.assertAlmostEqual(float(pairmd.energy(job, state)), float(pairmd.energy(self.job, self.state)), places=4)

    def test_masses_of_floats(self):
        """The program accepts the job of a script that gives masses as floats."""
        types = [pairmd.AtomType(it.name, float(it.mass), map(float, it.values)) for it in self.job.types]
        self.assertEqual(pairmd.run(self.job.replaced(types=types, dt=2.0), self.state, 5), pairmd.run(self.job, self.state, 5))

    def test_integral_floats(self):
        self.assertEqual(pairmd.run(self.job, self.state, steps=1e2, workers=2.0), pairmd.run(self.job, self.state, 100))
        self.assertEqual([it.step for it in pairmd.states(self.job, self.state, 2e1, 1e1)], [0, 10, 20])
        for steps in (2.5, math.nan, math.inf, None):
            with self.assertRaisesRegex(ValueError, "steps must be an integer"):
                pairmd.run(self.job, self.state, steps=steps)

    def test_paths_that_look_like_options(self):
        with tempfile.TemporaryDirectory() as folder, working_directory(folder):
            for name, text in (("-h", self.job.text()), ("-", self.state.text()), ("--steps", pairmd.code(self.job))):
                with open(os.path.join(folder, name), "w", encoding="utf-8", newline="\n") as file:
                    file.write(text)
            self.assertEqual(pairmd.run("-h", "-", 10), pairmd.run(self.job, self.state, 10))
            self.assertEqual(pairmd.check("-h", code="--steps"), pairmd.check(self.job))

    def test_version(self):
        self.assertEqual(pairmd.__version__, pairmd.version())

    def test_long_titles_keep_their_bytes(self):
        state = self.state.replaced(title="a\rb\udcff")
        self.assertEqual(pairmd.run(self.job, state, 0), state)


@needs_program
class Refusals(unittest.TestCase):
    def refusal(self, call, *words, **options):
        with self.assertRaises(pairmd.Refusal) as caught:
            call(*words, **options)
        return caught.exception

    def test_verdict(self):
        job = pairmd.Job.read(JOB_FILE).replaced(core=0)
        error = self.refusal(pairmd.run, job, STATE_FILE, 10)
        self.assertEqual((error.status, error.code), (3, "V2"))
        self.assertTrue(error.line.startswith("V2 Fault AR AR r 0 pc "))
        self.assertEqual(error.explanation, pairmd.explain("V2"))
        self.assertIn("What to do", str(error))

    def test_iterators(self):
        job = pairmd.Job.read(JOB_FILE).replaced(cutoff=2)
        for call in (pairmd.states, pairmd.trajectory):
            error = self.refusal(lambda command: list(command(job, STATE_FILE, 10, 5)), call)
            self.assertEqual((error.status, error.code), (1, "A2"))

    def test_files_and_arguments(self):
        self.assertEqual(self.refusal(pairmd.check, "no such file").code, "O1")
        error = self.refusal(pairmd.run, JOB_FILE, STATE_FILE, -1)
        self.assertEqual((error.status, error.code), (2, None))
        self.assertIn("--steps", error.explanation)

    def test_no_program(self):
        with mock.patch.dict(os.environ, {"PAIRMD": "/no/such/program"}), self.assertRaises(pairmd.ProgramNotFound):
            pairmd.version()

    def test_the_module_finds_the_faults_of_the_program(self):
        cases = [(ONE, FAULTS, ("frame",)), (GRO, GRO_FAULTS, ("start", JOB_FILE)), (JOB, JOB_FAULTS, ("check",))]
        with tempfile.TemporaryDirectory() as folder:
            path = os.path.join(folder, "file")
            for text, faults, words in cases:
                for (old, new), code, line in faults:
                    with open(path, "w", encoding="utf-8", newline="\n") as file:
                        file.write(text.replace(old, new, 1))
                    error = self.refusal(pairmd.call, *words, path)
                    number = error.line.split()[-1]
                    self.assertEqual(error.code, code, new)
                    if number.isdigit():
                        self.assertEqual(int(number), line, new)


if __name__ == "__main__":
    unittest.main()
