#!/usr/bin/env python3
"""Compares the tables of `pairmd curve` with those of curve.py, byte for byte.

  tables.py PROGRAM [COUNT]     200 random formulas by default

The jobs are those of examples/, and random ones with 24, 32 or 40 fraction bits. A random job has two types with a
parameter each, two globals, and a formula with all operators and functions; few rows of it are compared, of one pair of
types or of all. Jobs that the program rejects, or doesn't decide within a minute, don't count. The exit status is 1 if a table differs.
"""
import random
import subprocess
import sys
import tempfile
from pathlib import Path

from curve import arguments, curve, text_for
from read import with_deep_stack

EXAMPLES = Path(__file__).resolve().parent.parent / "examples"
COLUMNS = ((), ("--grid",), ("--grid",), ("--energy",), ("--slope",), ("--slope", "--grid"))
MOST_SECONDS = 60  # of the program for one job

# ---- random jobs

NUMERALS = ("0", "1", "2", "3", "0.5", "0.25", "1.5", "12", "0.34", "0.9", "0.1", "1.7e-2", "0.999", "138.935456", "3e-5")
VALUES = ("1", "2", "0", "-1", "0.5", "-0.75", "0.34", "0.996", "-0.3", "1.42", "4.7")
LEAVES = ("r", "r", "r", "r", "p1", "p2", "g", "h")
# Each {} is a random formula of the next level.
FORMS = (
    "({}+{})", "({}-{})", "({}-{})", "({}*{})", "({}*{})", "(-{})", "({}/r)", "({}/({}))", "({}/(1+abs({})))", "({}/{})",
    "({})^2", "({})^3", "({})^-1", "(g/r)^6", "(0.34/r)^12", "({})^7", "(1+{}/64)^32", "r^-4", "sqrt({})", "sqrt(abs({}))",
    "sqrt(r^2+({})^2)", "abs({})", "min({},{})", "max({},{})", "max(0,min(1,{}))", "min(r-0.3,{})", "step({})", "delta({})",
    "floor(4*{})", "ceil({})", "step(r-{})*{}", "select({},{},{})", "select(p1-p2,{},{})", "select(step({}),{},{})",
    "delta(p1-p2)*{}", "select(delta(p1+p2-3),{},{})",
)  # fmt: skip
OF_Y = ("y", "y*{}", "(y-{})", "y^3")
OF_X = ("x", "x*{}", "(x-y)", "4*h*(x^2-x)")


class Draft:
    """A random job, by its seed."""

    def __init__(self, seed):
        self.draw = random.Random(seed)
        bits = self.draw.choice((24, 32, 40))
        core = round(self.draw.uniform(0.15, 0.4), 3)
        width = round(10 ** self.draw.uniform(-3.5, -0.3), 4)
        values = [self.draw.choice(VALUES) for _ in range(4)]
        self.job = (
            f"pairmd job 1\nenergy {self.energy()}\ncore {core}\ncutoff {round(core + width, 5)}\ndt 1\nbits {bits}\n"
            f"slices {self.draw.choice((1, 4, 16))}\nparameter p\nglobal g {values[0]}\nglobal h {values[1]}\n"
            f"type A 1 {values[2]}\ntype B 1 {values[3]}\n"
        )
        self.points = self.draw.choice((1, 2, 3))
        self.types = self.draw.choice((["--types", self.draw.choice("AB"), self.draw.choice("AB")], []))
        self.options = self.draw.choice(COLUMNS)

    def formula(self, forms, level):
        """A random formula of these forms, with at most this many of them inside one another."""
        if level == 0 or self.draw.random() < 0.1:
            return self.draw.choice(LEAVES if self.draw.random() < 0.7 else NUMERALS)
        form = self.draw.choice(forms)
        return form.format(*(self.formula(forms, level - 1) for _ in range(form.count("{}"))))

    def energy(self):
        """A formula with the definitions x and y; x may use y."""
        forms = (FORMS + 2 * OF_X + 2 * OF_Y, FORMS + 2 * OF_Y, FORMS)
        return "{}; x={}; y={}".format(*(self.formula(of, level) for of, level in zip(forms, (4, 3, 2))))

    def words(self):
        """The options of `curve`."""
        return ["--points", str(self.points), *self.options, *self.types]

    def own(self):
        """The table of the second reading."""
        return text_for(arguments(["job", *self.words()]), self.job.encode())


# ---- the comparison


def printed(program, job, options):
    """The text that the program prints for a job; None if it rejects the job's code, or takes too long."""
    with tempfile.TemporaryDirectory() as folder:
        path = Path(folder) / "job"
        path.write_text(job)
        words = [program, "curve", path, *options]
        try:
            ended = subprocess.run(words, capture_output=True, text=True, timeout=MOST_SECONDS)
        except subprocess.TimeoutExpired:
            return None
    if ended.returncode not in (0, 3):
        raise RuntimeError(f"{ended.stderr}{job}")
    return ended.stdout if ended.returncode == 0 else None


def differences(theirs, own):
    """The first line that differs, or None."""
    pairs = zip([*theirs.split("\n"), None], [*own.split("\n"), None])
    return next((f"{x!r}, not {y!r}" for x, y in pairs if x != y), None)


class Count:
    """Tables that were compared, jobs that were rejected, and tables that differ."""

    tables = rejected = differ = 0

    def take(self, what, theirs, own):
        """Compares a table, and prints the first line that differs."""
        self.tables += 1
        line = differences(theirs, own)
        if line is not None:
            self.differ += 1
            print(f"{what}: the program has {line}")


def main():
    program, count = Path(sys.argv[1]).resolve(), int(sys.argv[2]) if len(sys.argv) > 2 else 200
    examples, formulas = Count(), Count()
    for path in sorted(EXAMPLES.glob("*.job")):
        job = path.read_text()
        examples.take(path.name, printed(program, job, ("--grid",)), curve(job.encode(), grid=True))
    seed = 0
    while formulas.tables < count:
        draft = Draft(seed)
        theirs = printed(program, draft.job, draft.words())
        if theirs is None:
            formulas.rejected += 1
        else:
            formulas.take(f"formula {seed}: {draft.job}", theirs, draft.own())
        seed += 1
    print(f"{examples.tables} jobs of examples/ and {formulas.tables} random formulas ({formulas.rejected} were rejected):", end=" ")
    print(f"{examples.differ + formulas.differ} differ")
    return 1 if examples.differ + formulas.differ else 0


if __name__ == "__main__":
    sys.exit(with_deep_stack(main))
