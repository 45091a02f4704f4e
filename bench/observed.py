#!/usr/bin/env python3
"""Compares each digit of `pairmd observe` and each number of `pairmd forces` with exact fractions.

  bench/observed.py [CASE ..]      PAIRMD names the program

The fractions are Python's, of unbounded integers. Job, energy, derivative, forces and the next frame are computed by
second_reader/, and the columns here, according to docs/FORMATS.md (Table, Forces), not by the module in python/. Heads and
numbers of decimals are read from that page. From the program come only the texts of the states. Each case is a job and a
state: a run forward, and one back from its end, with several numbers of workers, in decimals and with --exact. The script
prints the number of lines and columns that were compared, and each difference. The exit status is 1 if there is one, or if
nothing was compared. All cases take some minutes, mostly in Python; CASE selects some.
"""
import os
import random
import subprocess
import sys
import tempfile
from fractions import Fraction
from math import floor

ROOT = os.path.dirname(os.path.dirname(os.path.realpath(__file__)))
EXAMPLES = f"{ROOT}/examples"
sys.path[1:1] = [f"{ROOT}/second_reader", f"{ROOT}/tools"]
import running  # noqa: E402
from arithmetic import bits_of  # noqa: E402
from columns import stated_tables  # noqa: E402
from run_specification import Rule, job_says, types_of  # noqa: E402
from places import acting_distance_of, difference, distance_at, square_of  # noqa: E402
from read import with_deep_stack  # noqa: E402
from state import atom_line, state_of  # noqa: E402
from steps import pairs_of, sums_of_shares  # noqa: E402
from value import value_of  # noqa: E402

BOLTZMANN = Fraction("0.00831446261815324")  # kJ/mol/K
BAR = Fraction(10**10, 602214076)  # of 1 kJ/mol/nm^3
AXES = (0, 1, 2)
OFF = ((0, 1), (0, 2), (1, 2))  # the components of the tensor off its diagonal
DECIMALS, TENSOR, INTEGERS, TENSOR_INTEGERS = stated_tables()
DECIMALS_AND_TENSOR, INTEGERS_AND_TENSOR = [*DECIMALS, *TENSOR], [*INTEGERS, *TENSOR_INTEGERS]


def program(*words):
    """The standard output of the program. The script exits if the status isn't 0 or if standard error isn't empty."""
    done = subprocess.run([running.program(), *map(str, words)], stdout=subprocess.PIPE, stderr=subprocess.PIPE)
    if done.returncode or done.stderr:
        sys.exit(f"{' '.join(map(str, words))}: status {done.returncode}, {done.stderr.decode(errors='replace')}")
    return done.stdout


# ---- observables of a state


def xyz(it):
    return (it.x, it.y, it.z)


def moves(before, after):
    """The move of each coordinate from one frame to the other in grid units, minimum image."""
    return [[difference(now, was) for was, now in zip(xyz(p), xyz(q))] for p, q in zip(before, after)]


def pairs_near(frame, sides, cutoff):
    """The pairs whose atoms are in one cell or in neighbouring cells. No cell is shorter than the cutoff, so other
    pairs don't interact. The cutoff is in 10^-5 nm, as the sides are.
    """
    cells = [floor(Fraction(side) / cutoff) for side in sides]
    if min(cells) < 3:
        return pairs_of(len(frame))
    members = {}
    for atom, place in enumerate(frame):
        members.setdefault(tuple(x * n // 2**32 for x, n in zip(xyz(place), cells)), []).append(atom)
    pairs = []
    for cell, atoms in members.items():
        beside = [[(at + way) % n for way in (-1, 0, 1)] for at, n in zip(cell, cells)]
        others = [k for x in beside[0] for y in beside[1] for z in beside[2] for k in members.get((x, y, z), [])]
        pairs += [(i, k) for i in atoms for k in others if i < k]
    return pairs


class Observed:
    """The integers of the columns of --exact, and the force on each atom."""

    def __init__(self, job, text):
        j, tree = job_says(job)
        state = state_of(text)
        self.state, self.step, self.sides = state, state.step, state.sides
        self.dt, self.bits = j.time_step, bits_of(j.frac)
        rule = Rule(j, tree, state.sides, types_of(j, state.atoms))
        before, now = [atom.previous for atom in state.atoms], [atom.current for atom in state.atoms]
        self.atoms, self.potential, self.tensor, self.nearest = len(now), 0, [[0] * 3 for _ in AXES], None
        self.core_pairs = 0
        forces = {}
        for pair in pairs_near(now, state.sides, Fraction(10**5 * j.cutoff, 2**self.bits)):
            p, q = now[pair[0]], now[pair[1]]
            r = acting_distance_of(j.frac, rule.box, j.core, j.cutoff, p, q)
            if r is None:
                continue
            distance = distance_at(j.frac, square_of(rule.box, p, q))
            self.nearest = distance if self.nearest is None else min(distance, self.nearest)
            self.core_pairs += distance < j.core
            self.potential += value_of(self.bits, rule.inputs(pair, r))(tree)
            forces[pair] = rule.pair_force(pair, p, q)
            for a, force in enumerate(xyz(forces[pair])):
                for b in AXES:
                    self.tensor[a][b] += force * difference(xyz(p)[b], xyz(q)[b])
        self.virial = [self.tensor[k][k] for k in AXES]
        self.forces = sums_of_shares(forces, len(now))
        masses = [it.mass for it in rule.types]
        after = [rule.next_of(masses[i], before[i], now[i], self.forces[i]) for i in range(len(now))]
        last, following = moves(before, now), moves(now, after)
        self.products = [[sum(m * (v[a] * v[b] + w[a] * w[b]) for m, v, w in zip(masses, last, following)) for b in AXES] for a in AXES]
        self.squares = [self.products[k][k] for k in AXES]
        self.momentum = [sum(m * v[k] for m, v in zip(masses, last)) for k in AXES]

    def exact(self):
        """The values of the columns of --exact, integers; None is printed as `-`."""
        sums = [*self.squares, *self.virial, *self.momentum]
        return [self.step, self.step * self.dt, self.potential, *sums, self.nearest, self.core_pairs]

    def exact_tensor(self):
        """The values of the columns that --tensor adds to them."""
        return [*(self.products[a][b] for a, b in OFF), *(it for a, b in OFF for it in (self.tensor[a][b], self.tensor[b][a]))]

    def pressures(self):
        """The exact values of the components of the pressure tensor, in the order of the columns."""
        place = [Fraction(side, 10**5 * 2**32) for side in self.sides]
        dt, mass = Fraction(self.dt, 1000), Fraction(1, 10**5)
        volume = Fraction(self.sides[0] * self.sides[1] * self.sides[2], 10**15)

        def pressure(a, b):
            twice_kinetic = mass * self.products[a][b] * (place[a] / dt) * (place[b] / dt) / 2
            virial = Fraction(self.tensor[a][b], 2**self.bits) * place[b] + Fraction(self.tensor[b][a], 2**self.bits) * place[a]
            return (twice_kinetic + virial / 2) / volume * BAR

        return [*(pressure(k, k) for k in AXES), *(pressure(a, b) for a, b in OFF)]

    def values(self):
        """The exact values of the columns. Masses are in 10^-5 u, sides in 10^-5 nm, the time step in 10^-3 ps."""
        place = [Fraction(side, 10**5 * 2**32) for side in self.sides]
        dt, mass = Fraction(self.dt, 1000), Fraction(1, 10**5)
        potential = Fraction(self.potential, 2**self.bits)
        kinetic = sum(mass * self.squares[k] * (place[k] / dt) ** 2 / 2 for k in AXES) / 2
        virial = sum(Fraction(self.virial[k], 2**self.bits) * place[k] for k in AXES)
        volume = Fraction(self.sides[0] * self.sides[1] * self.sides[2], 10**15)
        temperature = None if self.atoms < 2 else 2 * kinetic / ((3 * self.atoms - 3) * BOLTZMANN)
        row = [self.step, self.step * dt, potential, kinetic, potential + kinetic, temperature]
        row += [(2 * kinetic + virial) / (3 * volume) * BAR, *(mass * self.momentum[k] * place[k] / dt for k in AXES)]
        return [*row, None if self.nearest is None else Fraction(self.nearest, 2**self.bits), self.core_pairs]

    def force_lines(self):
        """The lines of `pairmd forces`."""
        fronts = [atom_line(atom)[:15].decode("latin-1") for atom in self.state.atoms]
        return [f"{front} {force.x} {force.y} {force.z}" for front, force in zip(fronts, self.forces)]


def decimal(number, digits):
    """The decimal with this many digits that is nearest to a fraction, halves upward."""
    count = floor(number * 10**digits + Fraction(1, 2))
    whole, rest = divmod(abs(count), 10**digits)
    return f"{'-' if count < 0 else ''}{whole}.{rest:0{digits}}"


def shown(value, digits):
    """The text of a value in a column with this many decimals, `-` for None. A column without decimals has integers."""
    if value is None:
        return "-"
    return decimal(value, digits) if digits else str(value)


def table(columns, rows):
    """The lines of a table of these columns, from the values of each row."""
    lines = [" ".join(shown(value, it.decimals) for value, it in zip(row, columns, strict=True)) for row in rows]
    return ["# " + " ".join(it.head for it in columns), *lines]


# ---- comparing


class Count:
    """The numbers of lines and columns compared, and of differences."""

    def __init__(self):
        self.columns, self.rows, self.other = 0, 0, 0

    def compare(self, said, printed, wanted):
        """Compares the lines that the program printed with the expected ones."""
        if len(printed) != len(wanted):
            self.tell(f"{said}: {len(printed)} lines, wanted {len(wanted)}")
        for number, (line, other) in enumerate(zip(printed, wanted), 1):
            columns, others = line.split(" "), other.split(" ")
            self.rows, self.columns = self.rows + 1, self.columns + len(others)
            if line != other:
                found = [f"column {at}: {x}, wanted {y}" for at, (x, y) in enumerate(zip(columns, others), 1) if x != y]
                self.tell(f"{said}: line {number}: {'; '.join(found) or f'{line!r}, wanted {other!r}'}")

    def tell(self, what):
        """Prints and counts a difference."""
        self.other += 1
        print(what, flush=True)


def lines_of(text):
    """The lines of a text. If the last line lacks its LF, a mark follows, which differs from any expected line."""
    lines = text.decode("latin-1").split("\n")
    return lines[:-1] if lines[-1] == "" else lines + ["(no LF)"]


def states_of(text):
    """The states of a run, split at their first lines."""
    parts = (b"\n" + text)[:-1].split(b"\npairmd state ")[1:]
    return [b"pairmd state " + part + b"\n" for part in parts]


class Case:
    """A job and a state, with the number of steps, the steps per row, and the numbers of workers."""

    def __init__(self, name, job, state, steps, every, workers=(1, 3)):
        self.name, self.job, self.state, self.steps, self.every, self.workers = name, job, state, steps, every, workers

    def put(self, folder, name, text):
        path = f"{folder}/{name}"
        with open(path, "wb") as it:
            it.write(text)
        return path

    def play(self, folder, count):
        """Runs a case in a directory, and compares tables and forces."""
        job = self.put(folder, "job", self.job)
        start = self.put(folder, "start", self.state(job) if callable(self.state) else self.state)
        how = ["--steps", self.steps, "--every", self.every]
        there = states_of(program("states", job, start, *how))
        end = self.put(folder, "end", there[-1])
        back = states_of(program("states", job, end, "--back", *how))
        seen = {text: Observed(self.job, text) for text in dict.fromkeys(there + back)}
        for ways, state, texts in (([], start, there), (["--back"], end, back)):
            rows = table(DECIMALS, [seen[text].values() for text in texts])
            exact = table(INTEGERS, [seen[text].exact() for text in texts])
            tensor = table(DECIMALS_AND_TENSOR, [[*seen[text].values(), *seen[text].pressures()] for text in texts])
            whole = table(INTEGERS_AND_TENSOR, [[*seen[text].exact(), *seen[text].exact_tensor()] for text in texts])
            for workers in self.workers:
                for more, wanted in (([], rows), (["--exact"], exact), (["--tensor"], tensor), (["--exact", "--tensor"], whole)):
                    words = ["observe", job, state, *how, "--workers", workers, *ways, *more]
                    said = " ".join([self.name, *ways, f"by {workers}", *more])
                    count.compare(said, lines_of(program(*words)), wanted)
        for which, state, text in (("start", start, there[0]), ("end", end, there[-1])):
            printed = lines_of(program("forces", job, state))
            count.compare(f"{self.name}: forces at the {which}", printed, seen[text].force_lines())


# ---- cases


def example(name):
    with open(f"{EXAMPLES}/{name}", "rb") as it:
        return it.read()


def argon_job(bits=32, dt=2):
    return example("argon.job").replace(b"dt 2\n", b"dt %d\nbits %d\n" % (dt, bits))


def liquid(job):
    """500 atoms of liquid argon, started by the program."""
    return program("start", job, f"{EXAMPLES}/argon.gro")


def made(sides, places, step=0, name="AR"):
    """The text of a state. Each atom has its previous and its current coordinates; atoms take the names in turn."""
    rows = [f"pairmd state 1\ntitle made\nstep {step}\natoms {len(places)}\nbox {sides[0]} {sides[1]} {sides[2]}\n"]
    names = name.split()
    for number, (before, now) in enumerate(places):
        it = names[number % len(names)]
        rows.append(f"{number % 100_000:5}{it:<5}{it:>5}" + "".join(f" {x % 2**32}" for x in (*before, *now)) + "\n")
    return "".join(rows).encode("ascii")


def strewn(count, most):
    """Random positions from a fixed seed, each with a random move of at most this many grid units along each axis."""
    numbers = random.Random(20261127)
    now = [[numbers.randrange(2**32) for _ in AXES] for _ in range(count)]
    return [([x - numbers.randint(-most, most) for x in at], at) for at in now]


def lattice(counts, most):
    """A lattice with these numbers of sites along the sides; displacements and moves are at most this many grid units.
    """
    numbers = random.Random(20261127)
    sites = [(x, y, z) for x in range(counts[0]) for y in range(counts[1]) for z in range(counts[2])]
    places = []
    for site in sites:
        now = [at * (2**32 // n) + numbers.randint(-most, most) for at, n in zip(site, counts)]
        places.append(([x - numbers.randint(-most, most) for x in now], now))
    return places


def cases():
    here = ([7, 2**32 - 9, 2**31], [0, 2**32 - 1, 2**31])
    near = [(at, at) for at in ([2**32 - 10**8, 5, 0], [7 * 10**8, 9, 2**32 - 10**8])]
    mixed = example("lennard-jones.job")
    short = argon_job().replace(b"cutoff 0.9\n", b"cutoff 0.4\n")
    wide = argon_job().replace(b"core 0.25\n", b"core 0.35\n")
    return [
        Case("liquid", argon_job(), liquid, 1000, 100, (1, 2, 3, 64)),
        Case("24 bits", argon_job(24), liquid, 20, 10),
        Case("40 bits", argon_job(40), liquid, 20, 10),
        Case("dt 1000", argon_job(dt=1000), liquid, 4, 2),
        Case("no atom", argon_job(), made((200_000, 300_000, 180_000), []), 6, 2),
        Case("one atom", argon_job(), made((200_000, 300_000, 180_000), [here], -3), 6, 2),
        Case("two atoms", argon_job(), made((200_000, 300_000, 180_000), near, -(2**40)), 6, 2),
        Case("one place", argon_job(), made((200_000, 300_000, 180_000), [here] * 30), 4, 1),
        Case("greatest moves", argon_job(dt=1), made((16_000_000,) * 3, strewn(20, 2**31 - 1), 2**62), 3, 1),
        Case("three sides, two types", mixed, made((190_000, 250_001, 333_337), strewn(60, 10**6), 5, "AR KR"), 6, 2),
        Case("core of 0.35 nm", wide, liquid, 20, 10),
        Case("mixture", mixed, example("mixture.state"), 500, 100),
        # 0.36 nm apart, so that each atom interacts with its six nearest neighbours
        Case("65,536 atoms", short, made((2_304_000, 1_152_000, 1_152_000), lattice((64, 32, 32), 4 * 10**6)), 1, 1),
    ]


def main():
    known = {it.name: it for it in cases()}
    other = [name for name in sys.argv[1:] if name not in known]
    if other:
        print(f"no case {', '.join(other)}; there are {', '.join(known)}", file=sys.stderr)
        return 2
    count = Count()
    for name in sys.argv[1:] or known:
        before = count.rows, count.columns, count.other
        with tempfile.TemporaryDirectory() as folder:
            known[name].play(folder, count)
        rows, columns, differ = (now - was for now, was in zip((count.rows, count.columns, count.other), before))
        print(f"{name}: {rows} lines, {columns} columns, {differ} differ", flush=True)
    print(f"{count.rows} lines, {count.columns} columns compared, {count.other} differ")
    return 1 if count.other or not count.rows else 0


if __name__ == "__main__":
    sys.exit(with_deep_stack(main))
