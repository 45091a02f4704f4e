"""Tests of states: reading, writing, errors, positions, velocities."""

import io
import unittest
from fractions import Fraction

import pairmd
from pairmd.temperatures import kinetic_sum, sum_at

from . import example, needs, text_of

ONE = "pairmd state 1\ntitle one\nstep -3\natoms 1\nbox 200000 300000 400000\n    1AR      AR 4294967295 0 7 3 0 4294967291\n"
# the text after an edit (old, new), the error's code and its line
FAULTS = [
    (("state 1", "state 3"), "S1", 1),
    (("title", "titel"), "S1", 2),
    (("one\n", "one\r\n"), "S1", 2),
    (("step -3", "step -03"), "S1", 3),
    (("step -3", "step 9223372036854775808"), "S1", 3),
    (("atoms 1", "atoms 65537"), "S1", 4),
    (("atoms 1", "atoms 2"), "S2", 7),
    (("atoms 1", "atoms 0"), "S3", 6),
    (("box 200000", "box 0"), "S1", 5),
    (("box 200000", "box 16000001"), "S1", 5),
    (("    1AR", "   01AR"), "S1", 6),
    ((" 7 3", " 7  3"), "S1", 6),
    (("4294967295", "4294967296"), "S1", 6),
    (("4294967291\n", "4294967291"), "S2", 6),
    (("state 1\n", "state 2\n"), "S1", 4),
    (("AR 4294967295", "\N{LATIN SMALL LETTER E WITH ACUTE}R 4294967295"), "S1", 6),
]


class States(unittest.TestCase):
    def test_text_comes_back(self):
        text = text_of("mixture.state")
        state = pairmd.State.read(example("mixture.state"))
        self.assertEqual(state.text(), text)
        self.assertEqual(pairmd.State.parse(text), state)
        self.assertEqual((len(state), state.step, state.names), (6, 0, ["AR"] * 3 + ["KR"] * 3))

    def test_version_2(self):
        text = ONE.replace("state 1", "state 2").replace("atoms", "bits 24\natoms")
        state = pairmd.State.parse(text)
        self.assertEqual((state.bits, state.text()), (24, text))

    def test_title_keeps_its_bytes(self):
        for title in ("", "a\x85b\u2028c", "a\rb", "\udcff\udc80"):
            text = ONE.replace("title one", f"title {title}")
            self.assertEqual(pairmd.State.parse(text).title, title)
            self.assertEqual(pairmd.State.parse(text).text(), text)

    def test_faults(self):
        for (old, new), code, line in FAULTS:
            with self.subTest(new=new), self.assertRaises(pairmd.FormatError) as caught:
                pairmd.State.parse(ONE.replace(old, new, 1))
            self.assertEqual((caught.exception.code, caught.exception.line), (code, line), new)

    def test_error_names_file_and_line(self):
        file = io.StringIO(ONE.replace("step", "stop"))
        file.name = "broken"
        with self.assertRaisesRegex(pairmd.FormatError, r"^broken, line 3: expected `step` .*\(S1\)$"):
            pairmd.State.read(file)

    def test_many_states_one_at_a_time(self):
        lines = iter((ONE + ONE.replace("step -3", "step 5") + ONE.replace("atoms", "atom")).splitlines(keepends=True))
        states = pairmd.read_states(lines)
        self.assertEqual([next(states).step, next(states).step], [-3, 5])
        self.assertEqual(next(lines)[:14], "pairmd state 1")
        with self.assertRaises(pairmd.FormatError):
            next(states)

    def test_fault_counts_lines_of_the_whole_file(self):
        with self.assertRaises(pairmd.FormatError) as caught:
            list(pairmd.read_states((ONE + ONE.replace("box", "bix")).splitlines(keepends=True)))
        self.assertEqual(caught.exception.line, 11)

    def test_moves_go_the_shorter_way(self):
        state = pairmd.State.parse(ONE)
        self.assertEqual(state.moves(), [(4, 0, -12)])
        self.assertEqual([pairmd.move(0, it) for it in (2**31 - 1, 2**31)], [2**31 - 1, -(2**31)])

    @needs("numpy")
    def test_units(self):
        state = pairmd.State.parse(ONE.replace("3 0 4294967291", "1073741824 0 4294967291"))
        self.assertEqual(state.sides, (2.0, 3.0, 4.0))
        self.assertEqual(state.positions()[0].tolist()[:2], [0.5, 0.0])
        self.assertAlmostEqual(state.velocities(2)[0][0], 0.5 / 0.002, places=6)
        self.assertEqual(state.volume, 24.0)

    def test_changes(self):
        state = pairmd.State.parse(ONE)
        self.assertEqual(state.reversed().moves(), [(-4, 0, 12)])
        self.assertEqual(state.shifted(0, 0, 2).current[0][0], 5)
        self.assertEqual(state.shifted(0, 0, 2).moves(), state.moves())
        with self.assertRaises(ValueError):
            state.with_moves([(2**31, 0, 0)])


class Written(unittest.TestCase):
    """States that a script made, and that have no text."""

    state = pairmd.State.read(example("mixture.state"))

    def rejected(self, **changes):
        """What a changed state says instead of its text."""
        with self.assertRaises(ValueError) as caught:
            self.state.replaced(**changes).text()
        return str(caught.exception)

    def test_counts(self):
        reason = "the state has 6 atoms, 6 previous and 5 current positions: give each atom both"
        self.assertEqual(self.rejected(current=self.state.current[:5]), reason)
        self.assertIn("5 previous", self.rejected(previous=self.state.previous[:5]))
        self.assertIn("2 atoms", self.rejected(atoms=self.state.atoms[:2]))
        with self.assertRaisesRegex(ValueError, reason):
            self.state.replaced(current=self.state.current[:5]).moves()

    def test_grid_coordinates(self):
        x, *others = self.state.current
        cases = ((0.75, "0.75: grid coordinates are integers"), (3.0, "3.0: grid"), (-1, "-1: take"), (2**32, "4294967296: take"))
        for number, reason in cases:
            self.assertIn(f"atom 1 has the current coordinate {reason}", self.rejected(current=[(5, number, 7), *others]))
        with self.assertRaisesRegex(ValueError, "atom 1 has the displacement 1.5: displacements are integers"):
            self.state.with_moves([(1.5, 0.0, 0.0)] * 6)

    def test_numbers_of_the_head(self):
        self.assertEqual(self.state.replaced(step=1e3, box=(2e5, 2e5, 2.4e5)).text(), self.state.replaced(step=1000).text())
        self.assertEqual(self.rejected(box=(200_000.5, 200_000, 240_000)), "box must be an integer, and 200000.5 isn't one")
        self.assertEqual(self.rejected(step=0.5), "step must be an integer, and 0.5 isn't one")

    def test_names_and_titles(self):
        first, *others = self.state.atoms
        for name in ("ARGON1", ""):
            atoms = [first._replace(name=name, residue_name="A%B"), *others]
            if name:
                self.assertIn("no state has an atom", self.rejected(atoms=atoms))
            else:
                self.assertEqual(pairmd.State.parse(self.state.replaced(atoms=atoms).text()).atoms[0], atoms[0])
        for title in ("two\nlines", "one\r"):
            self.assertIn("a title has one line", self.rejected(title=title))

    def test_short_repr(self):
        self.assertEqual(repr(self.state), "<State 'Argon and krypton': 6 atoms, 32 bits, step 0, box 2 x 2 x 2.4 nm>")


class Velocities(unittest.TestCase):
    job, state = pairmd.Job.read(example("lennard-jones.job")), pairmd.State.read(example("mixture.state"))

    @needs("numpy")
    def test_temperature_of_the_mean_square(self):
        velocities = self.state.velocities(self.job.dt)
        masses = [float(self.job.type_of(name).mass) for name in self.state.names]
        doubled = sum(m * sum(v * v for v in it) for m, it in zip(masses, velocities))
        self.assertAlmostEqual(float(pairmd.temperature(self.state, self.job)), doubled / (15 * 0.00831446261815324), places=6)

    def test_scaling(self):
        warm = pairmd.at_temperature(self.state, self.job, Fraction(94))
        self.assertAlmostEqual(kinetic_sum(warm, self.job) / float(sum_at(Fraction(94), 6, self.job)), 1, places=1)
        self.assertEqual((warm.current, warm.box, warm.step), (self.state.current, self.state.box, self.state.step))
        self.assertEqual(pairmd.scaled_by(self.state, Fraction(2)).moves()[0], tuple(2 * by for by in self.state.moves()[0]))

    def test_rest_is_rejected(self):
        rest = self.state.replaced(previous=self.state.current)
        with self.assertRaises(ValueError):
            pairmd.at_temperature(rest, self.job, Fraction(94))

    def test_time_step(self):
        longer = pairmd.at_time_step(self.state, 2, 10)
        self.assertEqual(longer.moves()[0], tuple(5 * by for by in self.state.moves()[0]))
        self.assertEqual(pairmd.at_time_step(longer, 10, 2), self.state)


if __name__ == "__main__":
    unittest.main()
