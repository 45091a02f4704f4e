#!/usr/bin/env python3
"""Compares the verdicts of `pairmd check --code` on random listings with runs of the machine at every distance.

  verdicts.py PROGRAM [COUNT]     300 listings by default

The machine is that of kernel_code/specs/Machine, in plain Python, over the arithmetic of this directory. Each job has
two types with a parameter each, a global, and so few distances that the program decides each of them. For each listing
the program must name the first fault in the order of the types and distances (V2), or accept the listing, with a bound
of at least each value's magnitude and with the number of instructions on the longest path, which no run exceeds. The
exit status is 1 if a verdict differs, or if fewer than a fifth of the listings are accepted, or rejected.
"""
import random
import subprocess
import sys
import tempfile
from dataclasses import dataclass, field
from decimal import Decimal
from pathlib import Path

import arithmetic
from arithmetic import Fault

BITS = 32
UNARY = {
    "neg": lambda a: arithmetic.negative_of(a),
    "sq": lambda a: arithmetic.square_of(BITS, a),
    "sqrt": lambda a: arithmetic.square_root_of(BITS, a),
    "abs": lambda a: arithmetic.absolute_of(a),
    "step": lambda a: arithmetic.step_of(BITS, a),
    "delta": lambda a: arithmetic.delta_of(BITS, a),
    "floor": lambda a: arithmetic.whole_of(BITS, a),
    "ceil": lambda a: arithmetic.ceiling_of(BITS, a),
}
BINARY = {
    "add": lambda a, b: arithmetic.sum_of(a, b),
    "sub": lambda a, b: arithmetic.difference_of(a, b),
    "mul": lambda a, b: arithmetic.product_of(BITS, a, b),
    "div": lambda a, b: arithmetic.quotient_of(BITS, a, b),
    "min": lambda a, b: min(a, b),
    "max": lambda a, b: max(a, b),
}
CONSTANTS = (0, 1, -1, 2**32, -(2**32), 2**62, -(2**62), 2**40)


# ---- the machine


@dataclass
class Ended:
    """The value of a run or the fault of its last instruction, the index of that instruction, and the run's length."""

    outcome: object
    pc: int
    steps: int


def run(code, inputs):
    """kernel_code/specs/Machine: Ends, the run of well-formed code on these inputs."""
    stack, local, pc, steps = [], {}, 0, 0
    while pc < len(code):
        word, operand = code[pc]
        after, steps = pc + 1, steps + 1
        if word == "push":
            stack.append(operand)
        elif word == "input":
            stack.append(inputs[operand])
        elif word == "keep":
            local[operand] = stack.pop()
        elif word == "get":
            stack.append(local[operand])
        elif word == "jump" or (word == "jumpifzero" and stack.pop() == 0):
            after = operand
        elif word in UNARY:
            stack.append(UNARY[word](stack.pop()))
        elif word in BINARY:
            b, a = stack.pop(), stack.pop()
            stack.append(BINARY[word](a, b))
        if stack and isinstance(stack[-1], Fault):
            return Ended(stack[-1], pc, steps)
        pc = after
    return Ended(stack[-1], pc, steps)


# ---- random jobs and listings


def constant(draw):
    """A raw value that sometimes leads to faults at distances of a few thousand raw units."""
    return draw.choice(CONSTANTS) if draw.random() < 0.65 else draw.randrange(2000)


@dataclass
class Draft:
    """A listing that is being written: its lines, the height of the stack, and the locals that are set on each path."""

    draw: random.Random
    code: list = field(default_factory=list)
    height: int = 0
    known: set = field(default_factory=set)

    def put(self, word, operand=None, change=0):
        self.code.append((word, operand))
        self.height += change

    def operand(self):
        if self.draw.random() < 0.5:
            self.put("push", constant(self.draw), 1)
        else:
            self.put("input", self.draw.choice((0, 0, 0, 1, 2, 3)), 1)

    def local(self):
        number = self.draw.randrange(4)
        if number in self.known:
            self.put("get", number, 1)
        elif self.height >= 2:
            self.known.add(number)
            self.put("keep", number, -1)

    def stretch(self, height):
        """Appends lines without jumps, after which the stack has this height, which is at least 1."""
        for _ in range(self.draw.randrange(8)):
            kind = self.draw.randrange(8)
            if kind < 2:
                self.local()
            elif kind < 4 and self.height >= 1:
                self.put(self.draw.choice(sorted(UNARY)))
            elif kind < 7 and self.height >= 2:
                self.put(self.draw.choice(sorted(BINARY)), None, -1)
            elif self.height < 8:
                self.operand()
        while self.height > height:
            self.put(self.draw.choice(sorted(BINARY)), None, -1)
        while self.height < height:
            self.operand()

    def fork(self):
        """Appends two branches that end at one height, and the jump that chooses between them."""
        self.operand()
        self.put(self.draw.choice(sorted(UNARY)))
        at, before, end = len(self.code), set(self.known), self.height
        self.put("jumpifzero", None, -1)
        self.stretch(end)
        leave, first, self.known = len(self.code), self.known, before
        self.put("jump", None)
        self.code[at] = ("jumpifzero", len(self.code))
        self.height = end - 1
        self.stretch(end)
        self.code[leave] = ("jump", len(self.code))
        self.known &= first


def drafted(draw):
    draft = Draft(draw)
    for _ in range(draw.randrange(4)):
        draft.stretch(draw.randrange(1, 4))
        draft.fork()
    draft.stretch(1)
    return draft.code


def numeral(raw):
    """A numeral of at most 18 digits that is read as this raw value, a whole number or one below 1."""
    return str(raw // 2**BITS) if raw % 2**BITS == 0 else f"{Decimal(raw) / 2**BITS:.14f}"


@dataclass
class Case:
    """A listing, and the job under which it is verified: distances, types and a global as raw values."""

    code: list
    core: int
    width: int
    slices: int
    types: tuple
    shared: int

    def job(self):
        return (
            f"pairmd job 1\nenergy r\ncore {numeral(self.core)}\ncutoff {numeral(self.core + self.width)}\ndt 1\n"
            f"slices {self.slices}\nparameter p\nglobal g {numeral(self.shared)}\n"
            f"type A 1 {numeral(self.types[0])}\ntype B 1 {numeral(self.types[1])}\n"
        )

    def listing(self):
        lines = (word if operand is None else f"{word} {operand}" for word, operand in self.code)
        return "pairmd code 1\n" + "".join(f"{line}\n" for line in lines)


def drawn(seed):
    draw = random.Random(seed)
    core, width = draw.randrange(2000), draw.randrange(1, 120)
    values = (constant(draw), constant(draw))
    return Case(drafted(draw), core, width, draw.randrange(1, 4), values, constant(draw))


# ---- verdicts


def surveyed(case):
    """The line that rejects the code, if a run faults; otherwise the greatest magnitude and length of all runs."""
    greatest = longest = 0
    for a, first in enumerate("AB"):
        for b, second in enumerate("AB"):
            for r in range(case.core, case.core + case.width):
                ended = run(case.code, (r, case.types[a], case.types[b], case.shared))
                if isinstance(ended.outcome, Fault):
                    code, name = ended.outcome.value, ended.outcome.name
                    return f"pairmd: V2 Fault {first} {second} r {r} pc {ended.pc} {code} {name}\n", 0, 0
                greatest, longest = max(greatest, abs(ended.outcome)), max(longest, ended.steps)
    return None, greatest, longest


def longest_path(code):
    """The number of instructions on the longest path."""
    length = [0] * (len(code) + 1)
    for pc in reversed(range(len(code))):
        word, operand = code[pc]
        ahead = {"jump": (operand,), "jumpifzero": (pc + 1, operand)}.get(word, (pc + 1,))
        length[pc] = 1 + max(length[it] for it in ahead)
    return length[0]


def compared(program, folder, case):
    """Whether the code is accepted, or a text that says how the verdict differs."""
    (folder / "job").write_text(case.job())
    (folder / "listing").write_text(case.listing())
    words = [program, "check", folder / "job", "--code", folder / "listing"]
    ended = subprocess.run(words, capture_output=True, text=True)
    line, greatest, longest = surveyed(case)
    if line is not None:
        return False if (ended.returncode, ended.stderr) == (3, line) else f"{line!r}, not {ended.stderr!r}"
    steps = longest_path(case.code)
    head = f"accepted: steps {steps}, bound "
    accepted = ended.returncode == 0 and ended.stdout.startswith(head) and longest <= steps
    if accepted and greatest <= int(ended.stdout.removeprefix(head)):
        return True
    return f"{head}{greatest} or more, not {ended.stdout!r} {ended.stderr!r}"


def main():
    program, count = Path(sys.argv[1]).resolve(), int(sys.argv[2]) if len(sys.argv) > 2 else 300
    verdicts = []
    with tempfile.TemporaryDirectory() as folder:
        for seed in range(count):
            verdict = compared(program, Path(folder), drawn(seed))
            if isinstance(verdict, str):
                print(f"listing {seed}: {verdict}")
            verdicts.append(verdict)
    accepted, rejected = verdicts.count(True), verdicts.count(False)
    print(f"{count} listings: {accepted} accepted, {rejected} rejected, {count - accepted - rejected} differ")
    return accepted + rejected < count or 5 * accepted < count or 5 * rejected < count


if __name__ == "__main__":
    sys.exit(main())
