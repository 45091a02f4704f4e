"""Tests of states as arrays, and of ASE, LAMMPS and GRO files with more decimals: there and back, and what is refused."""

import io
import os
import shutil
import subprocess
import tempfile
import unittest

import pairmd

from . import example, needs, needs_program, text_of

try:
    import numpy as np
except ImportError:
    np = None

JOB = pairmd.Job.read(example("lennard-jones.job"))
STATE = pairmd.State.read(example("mixture.state")).replaced(step=-7, bits=32)


def frames(state):
    """What each converter keeps of a state."""
    return state.box, state.names, state.previous, state.current, state.step, state.title


class Refused(unittest.TestCase):
    """A base of tests of what is refused."""

    def refused(self, name, call, *words, **how):
        """Checks that a call raises NotHeld with a name, and returns the reason."""
        with self.assertRaises(pairmd.NotHeld) as caught:
            call(*words, **how)
        self.assertEqual(caught.exception.name, name)
        self.assertTrue(str(caught.exception).startswith(f"{name}: "))
        return caught.exception.reason


class Rows(unittest.TestCase):
    def test_rows_are_tuples(self):
        rows = pairmd.Triples([(1, 2, 3), (4, 5, 2**32 - 1)])
        self.assertEqual((rows[1], rows[-2], len(rows), rows[:1]), ((4, 5, 2**32 - 1), (1, 2, 3), 2, [(1, 2, 3)]))
        self.assertEqual(([*rows], rows), ([(1, 2, 3), (4, 5, 2**32 - 1)], pairmd.Triples(rows)))
        self.assertNotEqual(rows, [(1, 2, 3)])
        self.assertEqual(len({rows, pairmd.Triples([*rows])}), 1)
        self.assertEqual(repr(rows), "<Triples: 2 rows, (1, 2, 3), (4, 5, 4294967295)>")
        with self.assertRaises(IndexError):
            rows[2]
        with self.assertRaises(TypeError):
            rows[0] = (1, 1, 1)

    def test_numbers_out_of_range(self):
        for rows, kind, reason in (
            ([(0, 0, 2**32)], "I", "take it modulo 2\\^32"),
            ([(0, 0, 2**31)], "i", "less than half a side"),
            ([(0, 0.5, 0)], "q", "forces are integers"),
            ([(0, 0, 0, 0), (0, 0)], "I", "three numbers"),
        ):
            with self.assertRaisesRegex(ValueError, reason):
                pairmd.Triples(rows, kind, "number")

    @needs("numpy")
    def test_arrays_share_the_memory(self):
        rows = np.asarray(STATE.current)
        self.assertEqual((rows.dtype, rows.shape), (np.uint32, (6, 3)))
        self.assertTrue(np.shares_memory(rows, np.asarray(STATE.current)))
        with self.assertRaises(ValueError):
            rows[0, 0] = 1
        self.assertEqual(np.asarray(STATE.moves()).dtype, np.int32)
        self.assertEqual(np.array(STATE.current, dtype=float)[3].tolist(), [*STATE.current[3]])
        self.assertEqual(np.asarray(pairmd.Triples([])).shape, (0, 3))

    @needs("numpy")
    def test_states_take_arrays(self):
        again = STATE.replaced(previous=np.array(STATE.previous), current=np.array(STATE.current, dtype=np.int64))
        self.assertEqual(again, STATE)
        self.assertEqual(STATE.with_moves(np.asarray(STATE.moves())), STATE)
        for rows, reason in ((np.zeros(6), "three columns"), (np.full((6, 3), -1), "-1: take it"), (np.full((6, 3), 0.5), "integers")):
            with self.assertRaisesRegex(ValueError, reason):
                STATE.replaced(current=rows)
        columns = STATE.arrays()
        self.assertEqual((columns.names.tolist(), columns.residues.tolist()), (STATE.names, [it.residue for it in STATE.atoms]))


@needs("numpy")
class Arrays(Refused):
    def made(self, **changes):
        """The state of the arrays of STATE, with some changed."""
        columns = {"positions": STATE.positions(), "velocities": STATE.velocities(2), "sides": STATE.sides}
        columns |= {"names": STATE.names, "dt": 2}
        return pairmd.State.from_arrays(**{**columns, "title": STATE.title, "step": STATE.step, **changes})

    def test_there_and_back(self):
        numbers = np.random.default_rng(1)
        columns = STATE.arrays()
        self.assertEqual(self.made(residues=columns.residues, residue_names=columns.residue_names), STATE)
        for bits, box in ((32, (287_700, 311_111, 16_000_000)), (40, (1, 99_999, 300_001))):
            current = numbers.integers(0, 2**32, (50, 3), dtype=np.uint32)
            moves = numbers.integers(-(2**31) + 1, 2**31, (50, 3), dtype=np.int64)
            atoms = [pairmd.Atom(at + 1, "A", "A") for at in range(50)]
            state = pairmd.State("", 0, box, atoms, current - moves.astype(np.uint32), current, bits)
            self.assertEqual(pairmd.State.from_arrays(state.positions(), state.velocities(7), state.sides, ["A"] * 50, 7, bits=bits), state)

    def test_rounding(self):
        unit = 2.0 / 2**32
        state = self.made(positions=np.full((6, 3), 10.4 * unit) * [1, 1, 1.2], velocities=np.zeros((6, 3)))
        self.assertEqual((state.current[0], state.previous[0]), ((10, 10, 10), (10, 10, 10)))
        below = self.made(positions=np.full((6, 3), -0.4 * unit), velocities=np.zeros((6, 3)))
        self.assertEqual(below.current[0], (0, 0, 0))

    def test_one_name(self):
        self.assertEqual(self.made(names="KR").names, ["KR"] * 6)

    def test_sides(self):
        self.assertEqual(self.made(sides=2.4, wrap=True).box, (240_000,) * 3)
        longer = [side * (1 + 1e-6) for side in STATE.sides]
        reason = self.refused("SideOffGrid", self.made, sides=longer)
        self.assertIn("along x, 2.000002 nm, is no multiple of 10^-5 nm: rescale=True", reason)
        positions, velocities = STATE.positions() * (1 + 1e-6), STATE.velocities(2) * (1 + 1e-6)
        scaled = self.made(sides=longer, positions=positions, velocities=velocities, rescale=True)
        self.assertEqual((scaled.box, scaled.previous, scaled.current), (STATE.box, STATE.previous, STATE.current))

    def test_refusals(self):
        far = STATE.positions() + [0, 0, 2.4]
        self.assertIn("atom 1 is at", self.refused("AtomOutside", self.made, positions=far))
        self.assertEqual(self.made(positions=far, wrap=True).current, STATE.current)
        self.refused("NoVelocities", self.made, velocities=None)
        self.refused("TooFast", self.made, velocities=STATE.velocities(2) + 600)
        self.refused("NotFinite", self.made, positions=STATE.positions() * np.nan)
        self.refused("WrongShape", self.made, positions=STATE.positions()[:, :2])
        self.refused("WrongShape", self.made, velocities=STATE.velocities(2)[:5])
        for sides in (0, -2, 161, np.nan):
            self.refused("SideOutOfRange", self.made, sides=sides)
        self.refused("TooManyAtoms", self.made, positions=np.zeros((65_537, 3)))
        for changes in ({"names": ["AR"] * 5}, {"names": ["ARGON1"] * 6}, {"residues": [100_000] * 6}, {"names": ["A "] * 6}):
            with self.assertRaises(ValueError):
                self.made(**changes)


class Gro(unittest.TestCase):
    def test_there_and_back(self):
        for state in (STATE, STATE.replaced(box=(287_700, 1000, 16_000_000))):
            frame = pairmd.GroFrame.of_state(state, 2)
            (again,) = pairmd.read_gro(frame.text().splitlines(keepends=True), any_decimals=True)
            self.assertEqual(again, frame)
            self.assertEqual(again.state(2, step=state.step), state)

    def test_as_the_program_starts(self):
        """Three decimals give the state that `start` prints, and other numbers of decimals are refused unless asked for."""
        frame = pairmd.GroFrame.parse(text_of("mixture.gro"))
        self.assertEqual(frame.state(2), pairmd.State.read(example("mixture.state")))
        still = pairmd.GroFrame(frame.title, frame.atoms, frame.positions, None, frame.box)
        self.assertEqual(still.state(2).moves(), [(0, 0, 0)] * 6)
        with self.assertRaisesRegex(pairmd.FormatError, "three decimals"):
            pairmd.GroFrame.parse(pairmd.GroFrame.of_state(STATE, 2, 4).text())
        four = pairmd.GroFrame.of_state(STATE, 2, 4).text().replace("0.4000", "0.40000", 1)
        with self.assertRaises(pairmd.FormatError):
            [*pairmd.read_gro(four.splitlines(keepends=True), any_decimals=True)]

    @needs("MDAnalysis")
    def test_mdanalysis_reads_it(self):
        import MDAnalysis

        stream = MDAnalysis.lib.util.NamedStream(io.StringIO(pairmd.GroFrame.of_state(STATE, 2).text()), "more.gro")
        read = MDAnalysis.Universe(stream)
        self.assertLess(abs(read.atoms.positions / 10 - STATE.positions()).max(), 1e-6)
        self.assertLess(abs(read.atoms.velocities / 10 - STATE.velocities(2)).max(), 1e-5)


@needs("numpy", "ase")
class Ase(Refused):
    def test_there_and_back(self):
        self.assertEqual(pairmd.from_ase(pairmd.to_ase(STATE, JOB), JOB), STATE)

    def test_elements(self):
        """Atoms that ASE made have no types: those of the job with their symbols."""
        import ase

        atoms = ase.Atoms("Ar2Kr", positions=[(1, 2, 3), (4, 5, 6), (7, 8, 9)], cell=[20, 20, 24], pbc=True)
        self.refused("NoVelocities", pairmd.from_ase, atoms, JOB)
        atoms.set_velocities([(0.001, 0, 0)] * 3)
        state = pairmd.from_ase(atoms, JOB)
        self.assertEqual((state.names, state.box, state.step), (["AR", "AR", "KR"], (200_000, 200_000, 240_000), 0))
        self.assertAlmostEqual(float(state.positions()[2, 1]), 0.8)
        self.assertAlmostEqual(float(state.velocities(2)[0, 0]), 0.001 * 9.82269479, places=6)
        atoms.symbols[0] = "Xe"
        self.assertIn("no type for Xe", self.refused("UnknownType", pairmd.from_ase, atoms, JOB))
        atoms.symbols = "XeKrKr"
        self.assertEqual(pairmd.from_ase(atoms, JOB, {"AR": "Xe"}).names, ["AR", "KR", "KR"])

    def test_refusals(self):
        atoms = pairmd.to_ase(STATE, JOB)
        atoms.pbc = (True, True, False)
        self.refused("NotPeriodic", pairmd.from_ase, atoms, JOB)
        atoms.pbc = True
        atoms.cell[1, 0] = 0.5
        self.refused("TriclinicBox", pairmd.from_ase, atoms, JOB)
        atoms.cell[1, 0] = 0
        atoms.positions[2] += (20, 0, 0)
        self.refused("AtomOutside", pairmd.from_ase, atoms, JOB)
        self.assertEqual(pairmd.from_ase(atoms, JOB, wrap=True), STATE)
        atoms.arrays["atomtypes"][0] = "XE"
        self.refused("UnknownType", pairmd.from_ase, atoms, JOB, wrap=True)


DATA = """LAMMPS data file via write_data, version 29 Sep 2021, timestep = 500

2 atoms
1 atom types

-1 19 xlo xhi
0 20 ylo yhi
0 20 zlo zhi

Masses

1 83.798

Pair Coeffs # lj/cut

1 0.1 3.6

Atoms # full

2 1 1 0.5 4 5 6 0 0 0
1 1 1 0.0 1 2 3 0 0 1

Velocities

1 0.001 0 0
2 0 0 -0.002
"""


LAMMPS = """units {units}
read_data {data}
pair_style zero 9.0
pair_coeff * *
write_data {data_out}
read_dump {dump} 8 x y z vx vy vz box yes
write_dump all custom {dump_out} id type element xs ys zs vx vy vz modify element Ar Kr format float %.17g
"""


@needs("numpy")
class Lammps(Refused):
    units = (pairmd.REAL, pairmd.METAL, pairmd.LammpsUnits.lj(0.34, 0.996, 39.948))

    def lines(self, text):
        return text.splitlines(keepends=True)

    def test_data_there_and_back(self):
        for units in self.units:
            again = pairmd.read_lammps_data(self.lines(pairmd.lammps_data(STATE, JOB, units)), JOB, units=units)
            self.assertEqual(frames(again), frames(STATE))

    def test_dump_there_and_back(self):
        for units in self.units:
            text = pairmd.lammps_dump(STATE, JOB, units) + pairmd.lammps_dump(STATE.replaced(step=8), JOB, units)
            first, second = pairmd.read_lammps_dump(self.lines(text), JOB, units=units)
            self.assertEqual(frames(first), frames(STATE.replaced(title="")))
            self.assertEqual(frames(second), frames(STATE.replaced(title="", step=8)))

    def test_data_of_lammps(self):
        """Atoms in another order, with a molecule, a charge and image flags; the type is that of the mass."""
        state = pairmd.read_lammps_data(self.lines(DATA), JOB)
        self.assertEqual((state.names, state.step, state.box), (["KR", "KR"], 500, (200_000,) * 3))
        self.assertTrue(np.allclose(state.positions(), [(0.2, 0.2, 0.3), (0.5, 0.5, 0.6)], atol=1e-9))
        self.assertTrue(np.allclose(state.velocities(2), [(0.1, 0, 0), (0, 0, -0.2)], atol=1e-6))
        named = pairmd.read_lammps_data(self.lines(DATA), JOB, names={1: "AR"})
        self.assertEqual(named.names, ["AR", "AR"])

    def test_data_that_a_state_cant_hold(self):
        cases = [
            ("TriclinicBox", ("zlo zhi\n", "zlo zhi\n0.5 0 0 xy xz yz\n")),
            ("NoVelocities", (DATA[DATA.index("\nVelocities") :], "\n")),
            ("UnknownType", ("83.798", "12")),
            ("AtomOutside", ("4 5 6", "4 5 26")),
            ("OtherUnits", ("timestep = 500", "timestep = 500, units = metal")),
            ("NoColumn", ("# full", "# ellipsoid")),
            ("SideOffGrid", ("0 20 ylo", "0 20.00001 ylo")),
        ]
        for name, (old, new) in cases:
            self.refused(name, pairmd.read_lammps_data, self.lines(DATA.replace(old, new, 1)), JOB)
        still = self.lines(DATA[: DATA.index("\nVelocities")])
        self.assertEqual(pairmd.read_lammps_data(still, JOB, at_rest=True).moves(), [(0, 0, 0)] * 2)

    def test_data_faults(self):
        for old, new in (("2 atoms", "3 atoms"), ("4 5 6 0 0 0", "4 5"), ("4 5 6", "4 5 x"), ("2 0 0 -0.002\n", ""), ("-1 19", "-1 1y")):
            with self.subTest(new), self.assertRaises(pairmd.FormatError):
                pairmd.read_lammps_data(self.lines(DATA.replace(old, new, 1)), JOB)

    def dump(self, columns="id type x y z vx vy vz", bounds="pp pp pp", rows=("2 1 4 5 6 0 0 0", "1 1 1 2 3 0 0 0")):
        """The lines of a dump of a box of 20 Angstrom."""
        head = ["ITEM: TIMESTEP", "12", "ITEM: NUMBER OF ATOMS", str(len(rows)), f"ITEM: BOX BOUNDS {bounds}"]
        return [f"{it}\n" for it in [*head, *["0 20"] * 3, f"ITEM: ATOMS {columns}", *rows]]

    def read(self, lines, **how):
        """The state of a dump of krypton."""
        (state,) = pairmd.read_lammps_dump(lines, JOB, names={1: "KR"}, **how)
        return state

    def test_columns_of_a_dump(self):
        plain = self.read(self.dump())
        self.assertEqual((plain.step, plain.names), (12, ["KR", "KR"]))
        self.assertTrue(np.allclose(plain.positions(), [(0.1, 0.2, 0.3), (0.4, 0.5, 0.6)]))
        scaled = self.dump("id type xs ys zs vx vy vz", rows=("2 1 0.2 0.25 0.3 0 0 0", "1 1 0.05 0.1 0.15 0 0 0"))
        self.assertEqual(self.read(scaled).current, plain.current)
        unwrapped = self.dump("id type xu yu zu vx vy vz", rows=("2 1 24 5 -14 0 0 0", "1 1 1 22 3 0 0 0"))
        self.assertEqual(self.read(unwrapped).current, plain.current)
        for one, other in (("AR", "KR"), ("Ar", "Kr")):
            named = self.dump("id element x y z", rows=(f"2 {one} 4 5 6", f"1 {other} 1 2 3"))
            self.assertEqual(self.read(named, at_rest=True).names, ["KR", "AR"])

    def test_dumps_that_a_state_cant_hold(self):
        self.refused("NotPeriodic", self.read, self.dump(bounds="pp pp ff"))
        self.refused("NoColumn", self.read, self.dump("type x y z vx vy vz", rows=("1 4 5 6 0 0 0",)))
        self.refused("NoVelocities", self.read, self.dump("id type x y z", rows=("1 1 4 5 6",)))
        tilted = [line.replace("0 20", "0 20 1.5") for line in self.dump(bounds="xy xz yz pp pp pp")]
        self.refused("TriclinicBox", self.read, tilted)
        self.refused("TriclinicBox", self.read, self.dump(bounds="abc origin pp pp pp"))
        self.refused("OtherUnits", self.read, ["ITEM: UNITS\n", "metal\n", *self.dump()])
        self.assertEqual(self.read(["ITEM: UNITS\n", "real\n", *self.dump()]), self.read(self.dump()))
        self.refused("UnknownType", lambda: [*pairmd.read_lammps_dump(self.dump(), JOB)])
        for lines in (self.dump()[:-1], self.dump()[:5], ["TIMESTEP\n"], self.dump(rows=("1 1 a 5 6 0 0 0",))):
            with self.assertRaises(pairmd.FormatError):
                self.read(lines)

    @needs("ase")
    def test_ase_reads_them(self):
        import ase.io

        for text, form in ((pairmd.lammps_data(STATE, JOB), "lammps-data"), (pairmd.lammps_dump(STATE, JOB), "lammps-dump-text")):
            how = {"style": "atomic", "units": "real"} if form == "lammps-data" else {"units": "real"}
            read = ase.io.read(io.StringIO(text), format=form, **how)
            self.assertTrue(np.allclose(read.positions, STATE.positions() * 10, atol=1e-12), form)

    @unittest.skipUnless(shutil.which("lmp"), "no LAMMPS")
    def test_lammps_reads_them(self):
        """A state comes back from what LAMMPS writes after it read the state's data file, then its dump."""
        for units in self.units[:2]:
            with tempfile.TemporaryDirectory() as folder:
                files = {name: os.path.join(folder, name) for name in ("script", "data", "dump", "data_out", "dump_out")}
                pairmd.write_lammps_data(STATE.shifted(0, 0, 1), files["data"], JOB, units)
                pairmd.write_lammps_dump([STATE.replaced(step=8)], files["dump"], JOB, units)
                with open(files["script"], "w", encoding="ascii") as file:
                    file.write(LAMMPS.format(units=units.name, **files))
                subprocess.run(["lmp", "-in", files["script"], "-log", "none", "-screen", "none"], check=True, cwd=folder)
                data = pairmd.read_lammps_data(files["data_out"], JOB, units=units)
                self.assertEqual(frames(data)[:4], frames(STATE.shifted(0, 0, 1))[:4])
                (dump,) = pairmd.read_lammps_dump(files["dump_out"], JOB, units=units)
                self.assertEqual(frames(dump), frames(STATE.replaced(step=8, title="")))

    @needs("MDAnalysis")
    def test_mdanalysis_reads_them(self):
        import MDAnalysis

        data, dump = (MDAnalysis.lib.util.NamedStream(io.StringIO(text), name) for text, name in (
            (pairmd.lammps_data(STATE, JOB), "a.data"), (pairmd.lammps_dump(STATE, JOB), "a.lammpsdump")))  # fmt: skip
        universe = MDAnalysis.Universe(data, atom_style="id type x y z", format="DATA")
        self.assertLess(abs(universe.atoms.positions / 10 - STATE.positions()).max(), 1e-6)
        universe.load_new(dump, format="LAMMPSDUMP", lammps_coordinate_convention="unscaled")
        self.assertLess(abs(universe.atoms.positions / 10 - STATE.positions()).max(), 1e-6)


@needs("numpy")
class HalfStep(unittest.TestCase):
    @needs_program
    def test_velocities_of_the_frame(self):
        """The mean of the velocities before and after a frame, half a step back, is that before it."""
        state = pairmd.start(JOB, example("mixture.gro"))
        after = pairmd.run(JOB, state, 1)
        both = (np.asarray(state.moves()) + np.asarray(after.moves(), dtype=np.int64)) // 2
        forces = pairmd.forces(JOB, state)
        back = pairmd.at_half_step(state.with_moves(both), JOB, forces)
        self.assertEqual(pairmd.at_full_step(back, JOB, forces), state.with_moves(both))
        self.assertLessEqual(abs(np.asarray(back.moves(), dtype=np.int64) - np.asarray(state.moves())).max(), 1)


if __name__ == "__main__":
    unittest.main()
