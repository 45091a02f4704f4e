"""Tests of jobs, GRO files and tables."""

import glob
import math
import unittest
from decimal import Decimal
from fractions import Fraction

import pairmd
from pairmd.table import COLUMNS

from . import EXAMPLES, needs, text_of

JOB = "pairmd job 1\n# a comment\nenergy q1*q2/r\n core 0.2\ncutoff 9E-1 \ndt 2\nparameter q\nglobal s -.5\ntype AR 39.948 1e-3\n"
# an edit (old, new), the error's code and its line
JOB_FAULTS = [
    (("job 1", "job 2"), "J1", 1),
    (("energy q1*q2/r", "energy"), "J1", 3),
    (("core 0.2", "core 0,2"), "J1", 4),
    (("core 0.2", "core 0.2 nm"), "J1", 4),
    (("core 0.2\n", "\n"), "J2", None),
    (("core 0.2", "core 0.9"), "J4", None),
    (("core 0.2", "core .2\ncore .2"), "J3", 5),
    (("9E-1", "80.1"), "J4", 5),
    (("9E-1", "0.0000000000001"), "J4", 5),
    (("9E-1", "1234567890123456789"), "J1", 5),
    (("dt 2", "dt 1001"), "J4", 6),
    (("dt 2", "dt 2.0"), "J1", 6),
    (("dt 2", "dt " + "0" * 5000), "J4", 6),
    (("dt 2", "dt " + "1" * 5000), "J4", 6),
    (("9E-1", "9E" + "1" * 5000), "J1", 5),
    (("dt 2", "dt 2\nbits 33"), "J4", 7),
    (("parameter q", "parameter q\nparameter q"), "J3", 8),
    (("type AR", "type ARGONS"), "J1", 9),
    (("39.948", "39.9480001"), "J1", 9),
    (("39.948", "1000.1"), "J4", 9),
    ((" 1e-3", ""), "J1", 9),
    (("1e-3\n", "1e-3\ntype AR 1 1\n"), "J5", 10),
]
GRO = (
    "gas t=   1.50000 step= 750\n    1\n    1AR      AR    1   0.400  -0.500   0.600  0.1503 -0.2101  0.0310\n"
    "   2.00000   2.00000   2.40000\n"
)
GRO_FAULTS = [
    (("    1\n", "   -1\n"), "G2", 2),
    (("    1\n", "    2\n"), "G3", 4),
    (("    1\n", "65537\n"), "G7", 2),
    (("    1\n", "1" * 5000 + "\n"), "G7", 2),
    (("   0.400", "  0.4000"), "G4", 3),
    (("   0.400", "    .400"), "G3", 3),
    (("  0.0310", ""), "G3", 3),
    (("   2.40000", "   2.400000"), "G5", 4),
    (("   2.40000", "   2.40000 0 0 0.1"), "G6", 4),
    (("   2.00000   2.00000   2.40000\n", ""), "G1", 4),
]


class Jobs(unittest.TestCase):
    def test_examples(self):
        for path in glob.glob(f"{EXAMPLES}/*.job"):
            job = pairmd.Job.read(path)
            self.assertEqual(pairmd.Job.parse(job.text()), job, path)

    def test_values(self):
        job = pairmd.Job.parse(JOB)
        self.assertEqual((job.energy, job.core, job.cutoff, job.dt), ("q1*q2/r", Decimal("0.2"), Decimal("0.9"), 2))
        self.assertEqual((job.globals, job.bits, job.time_step), ({"s": Decimal("-0.5")}, 32, 0.002))
        self.assertEqual(job.types, [pairmd.AtomType("AR", Decimal("39.948"), (Decimal("0.001"),))])
        self.assertEqual(job.masses(["AR"]), [3_994_800])
        self.assertEqual(job.replaced(dt=5).text(), job.text().replace("dt 2", "dt 5"))
        with self.assertRaises(KeyError):
            job.masses(["KR"])

    def test_numerals(self):
        """A numeral has at most 18 digits, leading zeros included."""
        job = pairmd.Job.parse(JOB.replace("-.5", "9.507500003833e-6"))
        self.assertIn("global s 9507500003833e-18\n", job.text())
        self.assertEqual(pairmd.Job.parse(job.text()), job)
        self.assertIn("core 0.25\n", job.replaced(core=0.25).text())
        with self.assertRaises(ValueError):
            job.replaced(core=Decimal(1) / 3).text()

    def test_masses(self):
        """A mass is written as its shortest exact decimal, however it is given."""
        for mass, text in ((39.948, "39.948"), (40, "40"), ("83.79800", "83.798"), (Decimal("1e2"), "100"), (Fraction(1, 8), "0.125")):
            it = pairmd.AtomType("AR", mass, [])
            self.assertEqual((it.text(), it.mass_units), (f"type AR {text}", Fraction(text) * 100_000))
        self.assertEqual(pairmd.AtomType("AR", 0.29).mass_units, 29_000)
        self.assertEqual(pairmd.AtomType("AR", 39.948, [1e-3]), pairmd.Job.parse(JOB).types[0])
        for mass in (39.9480001, 0.1 + 0.2, "x", math.inf, math.nan, Fraction(1, 3)):
            with self.assertRaises(ValueError, msg=mass):
                pairmd.AtomType("AR", mass)
        with self.assertRaisesRegex(ValueError, "at most five decimals: round the 39.9480001 u of type AR"):
            pairmd.AtomType("AR", 39.9480001)

    def test_integral_floats(self):
        job = pairmd.Job.parse(JOB)
        self.assertEqual(job.replaced(dt=5.0, bits=40.0, slices=128.0).text(), job.replaced(dt=5, bits=40, slices=128).text())
        with self.assertRaisesRegex(ValueError, "dt must be an integer, and 0.5 isn't one"):
            job.replaced(dt=0.5).text()

    def test_leading_zeros(self):
        zeros = "0" * 5000
        text = JOB.replace("dt 2", f"dt {zeros}2").replace("9E-1", f"9E-{zeros}1")
        self.assertEqual(pairmd.Job.parse(text), pairmd.Job.parse(JOB))
        self.assertEqual(pairmd.GroFrame.parse(GRO.replace("    1\n", f"{zeros}1\n")), pairmd.GroFrame.parse(GRO))
        self.assertIsNone(pairmd.GroFrame.parse(GRO.replace("750", "7" * 5000)).step)

    def test_faults(self):
        for (old, new), code, line in JOB_FAULTS:
            with self.subTest(new=new), self.assertRaises(pairmd.FormatError) as caught:
                pairmd.Job.parse(JOB.replace(old, new, 1))
            self.assertEqual((caught.exception.code, caught.exception.line or None), (code, line), new)

    def test_line_ends(self):
        self.assertEqual(pairmd.Job.parse(JOB.replace("\n", "\r\n")[:-2]), pairmd.Job.parse(JOB))


class Gro(unittest.TestCase):
    def test_text_comes_back(self):
        for text in (GRO, text_of("mixture.gro")):
            self.assertEqual(pairmd.GroFrame.parse(text).text(), text)

    def test_values(self):
        frame = pairmd.GroFrame.parse(GRO)
        self.assertEqual((frame.positions, frame.velocities), ([(400, -500, 600)], [(1503, -2101, 310)]))
        self.assertEqual((frame.time, frame.step, frame.sides), (1.5, 750, (2.0, 2.0, 2.4)))

    def test_frames_follow_one_another(self):
        still = GRO.replace("  0.1503 -0.2101  0.0310", "").replace("gas", "")
        frames = list(pairmd.read_gro((GRO + still + "\n\r\n ").splitlines(keepends=True)))
        self.assertEqual([it.velocities for it in frames], [[(1503, -2101, 310)], None])
        with self.assertRaises(pairmd.FormatError) as caught:
            list(pairmd.read_gro((GRO + "\n\n1\n").splitlines(keepends=True)))
        self.assertEqual((caught.exception.code, caught.exception.line), ("G2", 6))

    def test_faults(self):
        for (old, new), code, line in GRO_FAULTS:
            with self.subTest(new=new), self.assertRaises(pairmd.FormatError) as caught:
                pairmd.GroFrame.parse(GRO.replace(old, new, 1))
            self.assertEqual((caught.exception.code, caught.exception.line), (code, line), new)

    def test_short_repr(self):
        frame = pairmd.GroFrame.parse(text_of("mixture.gro"))
        self.assertEqual(repr(frame), "<GroFrame 'Argon and krypton': 6 atoms with velocities, box 2 x 2 x 2.4 nm>")
        self.assertEqual(repr(pairmd.Table.parse(TABLE))[:20], "<Table: 2 rows of st")
        self.assertEqual([repr(it) for it in pairmd.read_curves(CURVE.splitlines(keepends=True))], ["<Curve: AR KR, 1 rows>"])

    def test_columns_hold_numbers(self):
        frame = pairmd.GroFrame.parse(GRO)
        frame.velocities = [(10**8, 0, 0)]
        with self.assertRaises(ValueError):
            frame.text()


TABLE = (
    f"# {' '.join(COLUMNS)}\n"
    "0 0.000 -1.500000 0.000000 -1.500000 - -0.123 0.000000 0.000000 0.000000 - 0\n"
    "5 0.010 -1.400000 0.100000 -1.300000 12.028 1.100 0.000000 -0.000001 0.000000 0.199302 1\n"
)
CURVE = (
    "# AR KR\n# r/nm energy/(kJ/mol) energy-error slope/(kJ/mol/nm) slope-error\n0.25 2.5 1.00e-2 -9.5 - # large energy-error\n"
    "# no slope-error from 0.25\n# greatest energy-error 1.00e-2 at 0.25, slope-error - (1 row without)\n"
)


class Tables(unittest.TestCase):
    def test_table(self):
        table = pairmd.Table.parse(TABLE)
        self.assertEqual(table.text(), TABLE)
        self.assertEqual(table.exact_column("temperature/K"), [None, Decimal("12.028")])
        self.assertFalse(table.is_exact)
        with self.assertRaises(KeyError):
            table["entropy"]

    @needs("numpy")
    def test_columns_are_arrays(self):
        table = pairmd.Table.parse(TABLE)
        columns = [table[name].tolist() for name in ("step", "potential", "momentum-y")]
        self.assertEqual(columns, [[0, 5], [-1.5, -1.4], [0, -1e-6]])
        self.assertNotEqual(table["nearest"][0], table["nearest"][0])  # NaN

    def test_table_faults(self):
        for text, line in ((TABLE[2:], 1), (TABLE.replace(" - 0\n", " -\n"), 2), (TABLE.replace("12.028", "warm"), 3)):
            with self.assertRaises(pairmd.FormatError) as caught:
                pairmd.Table.parse(text)
            self.assertEqual(caught.exception.line, line)

    def test_forces(self):
        text = "    1AR      AR -17179869184 0 0\n99999ABCDEFGHIJ 17179869184 0 0\n"
        forces = pairmd.Forces.parse(text)
        self.assertEqual(forces.raw, [(-17179869184, 0, 0), (17179869184, 0, 0)])
        self.assertEqual(forces.atoms[1], pairmd.Atom(99999, "ABCDE", "FGHIJ"))
        with self.assertRaises(pairmd.FormatError):
            pairmd.Forces.parse(text.replace(" 0 0", " 0", 1))

    @needs("numpy")
    def test_forces_are_arrays(self):
        forces = pairmd.Forces.parse("    1AR      AR -17179869184 0 0\n    2AR      AR 17179869184 0 0\n")
        self.assertEqual(forces.values().tolist(), [[-4.0, 0.0, 0.0], [4.0, 0.0, 0.0]])
        (curve,) = pairmd.read_curves(CURVE.splitlines(keepends=True))
        self.assertEqual(curve.column("slope").tolist(), [-9.5])

    def test_curve(self):
        (curve,) = pairmd.read_curves(CURVE.splitlines(keepends=True))
        self.assertEqual((curve.types, curve.rows[0].slope), (("AR", "KR"), Decimal("-9.5")))
        self.assertEqual((curve.rows[0].energy_error, curve.rows[0].slope_error), (Decimal("1.00e-2"), None))

    def test_marks_are_skipped(self):
        marked = CURVE.replace("# large energy-error", "# jump slope-error # large energy-error")
        (plain,), (curve,) = (pairmd.read_curves(text.splitlines(keepends=True)) for text in (CURVE, marked))
        self.assertEqual(curve.rows, plain.rows)

    def test_curve_of_two_pairs(self):
        text = CURVE + "\n\n" + CURVE.replace("# AR KR\n", "# KR XE\n# XE KR\n")
        curves = list(pairmd.read_curves(text.splitlines(keepends=True)))
        self.assertEqual([it.types for it in curves], [("AR", "KR"), ("KR", "XE"), ("XE", "KR")])
        self.assertEqual([it.rows for it in curves], 3 * [curves[0].rows])
        with self.assertRaises(pairmd.FormatError):
            list(pairmd.read_curves(["# AR KR\n", "# KR AR\n", "0.25 2.5 1.00e-2\n"]))

    def test_curve_with_the_grid(self):
        text = "# AR KR\n# r/nm slope/(kJ/mol/nm) slope-error slope-grid\n0.25 -9.5 1.00e-2 9.99e-3\n0.5 2.5 3.00e-2 - # large slope-error\n"
        (curve,) = pairmd.read_curves(text.splitlines(keepends=True))
        self.assertEqual([row.slope_grid for row in curve.rows], [Decimal("9.99e-3"), None])

    def test_curve_of_one_quantity(self):
        text = "# r/nm AR\n# r/nm slope/(kJ/mol/nm) slope-error\n0.200000000000 -9.500000000000 -\n"
        text += "# no slope-error from 0.200000000000\n# greatest slope-error - (1 row without)\n"
        (curve,) = pairmd.read_curves(text.splitlines(keepends=True))
        self.assertEqual((curve.types, curve.rows[0].slope), (("r/nm", "AR"), Decimal("-9.5")))
        self.assertEqual((curve.rows[0].energy, curve.rows[0].slope_error), (None, None))
        with self.assertRaises(pairmd.FormatError):
            list(pairmd.read_curves(text.replace("-9.500000000000", "-").splitlines(keepends=True)))


if __name__ == "__main__":
    unittest.main()
