#!/usr/bin/env python3
"""Tests the program where no contract or test case does: the system's files and streams, the greatest sizes.

  tools/edges.py [CASE ..]

It also shows the laws of motion on a liquid. The program is the environment's PAIRMD, or ./pairmd. Each case is a
function below whose name begins with `try_`; CASE is such a name without that. The input texts are made in a temporary
directory, the same ones each time. The expected output is known without the program: no steps, or n steps forward and n
back, give the starting bytes; errors are those of docs/FORMATS.md; each number of workers prints the same. Status,
standard output and standard error are compared, and each difference is printed. After each command the directory must
have the files that it had before. The exit status is 1 if there is a difference, or if nothing was compared.
"""
import argparse
import errno
import itertools
import os
import random
import re
import resource
import select
import signal
import subprocess
import sys
import tempfile
import time
from typing import NamedTuple

import threads

ROOT = os.path.dirname(os.path.dirname(os.path.realpath(__file__)))
LIMIT = 300  # seconds that a command may take
LONG = 12_000_000  # bytes of a long text
ENERGY = "4*0.996*((0.34/r)^12-(0.34/r)^6)"
WRITTEN = "pairmd: O2 CannotWrite\n"

# Spacing of atoms on a lattice, in 10^-5 nm. A box with the most atoms that a state may have has 16 cells along each
# side.
SPACING = 36_200
MOST = (40, 40, 41), 65_536
MANY = (20, 20, 20), 8_000


def job(energy=ENERGY, core="0.25", more=""):
    return f"pairmd job 1\nenergy {energy}\ncore {core}\ncutoff 0.9\ndt 2\n{more}type AR 39.948\n"


def state(counts, atoms, title="edges"):
    """The text of a state: atoms on a lattice, each displaced at random from its site, and again between the frames."""
    numbers, lines = random.Random(1), []
    lines += ["pairmd state 1", f"title {title}", "step 0", f"atoms {atoms}", "box " + " ".join(str(SPACING * it) for it in counts)]
    for number, site in enumerate(itertools.islice(itertools.product(*map(range, counts)), atoms)):
        before = [(2**32 * (2 * at + 1) // (2 * count) + numbers.randint(-2_000_000, 2_000_000)) for at, count in zip(site, counts)]
        after = [at + numbers.randint(-100_000, 100_000) for at in before]
        lines.append(f"{number:5}AR      AR " + " ".join(map(str, before + after)))
    return "\n".join(lines) + "\n"


class Ran(NamedTuple):
    """The exit status of a run, its standard output and its standard error."""

    status: int
    out: str
    err: str


UNSTARTED = Ran(-1, "", "the system doesn't start the program")


class Room:
    """A directory with input files in which the program runs, and the counts of comparisons."""

    def __init__(self, program, folder):
        self.program, self.folder, self.same, self.other = program, folder, 0, 0

    def write(self, name, text):
        with open(f"{self.folder}/{name}", "w", encoding="ascii") as file:
            file.write(text)

    def run(self, *words, given="", out=subprocess.PIPE, err=subprocess.PIPE, limits=(), more=None):
        """Runs the program with these arguments, with a text on its standard input, within limits of the system, and with
        more variables in its environment. Expects that no file is left, lost or changed, except the one of its output.
        """

        def limited():
            signal.signal(signal.SIGXFSZ, signal.SIG_IGN)
            for limit, most in limits:
                resource.setrlimit(limit, (most, most))

        how = {"input": given.encode(), "stdout": out, "stderr": err, "preexec_fn": limited if limits else None, "timeout": LIMIT}
        files = self.files(out)
        try:
            ran = subprocess.run([self.program, *words], cwd=self.folder, env={**os.environ, **(more or {})}, **how)
        except OSError as fault:
            if fault.errno != errno.ENOMEM:
                raise
            return UNSTARTED
        self.expect(f"the files after {' '.join(map(str, words))[:80]}", self.files(out), files)
        return Ran(ran.returncode, (ran.stdout or b"").decode(), (ran.stderr or b"").decode())

    def files(self, out=None):
        """The directory's files except that of an output: by name the node, its mode, its size and the time of its last
        change, in ns.
        """
        written = os.path.basename(str(getattr(out, "name", "")))
        found = {it.name: it.stat(follow_symlinks=False) for it in os.scandir(self.folder) if it.name != written}
        return {name: (it.st_ino, it.st_mode, it.st_size, it.st_mtime_ns) for name, it in sorted(found.items())}

    def expect(self, what, ran, wanted):
        """Counts whether a run, or a part of one, is as wanted, and prints it if it isn't."""
        self.same, self.other = self.same + (ran == wanted), self.other + (ran != wanted)
        if ran != wanted:
            print(f"{what}:\n  was    {shown(ran)}\n  wanted {shown(wanted)}", flush=True)

    def prints(self, what, words, out, err="", **how):
        """Expects that the command succeeds and prints this text."""
        self.expect(what, self.run(*words, **how), Ran(0, out, err))

    def goes_back(self, what, job_name, start, steps, workers):
        """Expects that the steps succeed, and that the same number of steps back gives the starting bytes. Returns the
        state in between.
        """
        words = ["--steps", str(steps), "--workers", str(workers)]
        there = self.run("run", job_name, start, *words)
        self.expect(f"{what}, there", there[::2], (0, ""))
        self.write("there", there.out)
        with open(f"{self.folder}/{start}", encoding="ascii") as file:
            self.prints(f"{what}, back", ["back", job_name, "there", *words], file.read())
        return there.out


def shown(value):
    """A value for a message: of a long text the length and the end."""
    if isinstance(value, tuple):
        return "(" + ", ".join(map(shown, value)) + ")"
    return repr(value) if not isinstance(value, str) or len(value) < 300 else f"{len(value)} bytes, to {value[-80:]!r}"


def try_many_atoms(room):
    """The most atoms that a state may have, in 4,096 cells: read, written, and one step with 1, 4 and 64 workers."""
    text = state(*MOST)
    room.write("job", job())
    room.write("state", text)
    for words in (["run", "--steps", "0"], ["run", "--steps", "0", "--workers", "4"], ["states", "--steps", "9", "--every", "10"]):
        room.prints(f"65,536 atoms, {' '.join(words)}", [*words, "job", "state"], text)
    one = room.goes_back("65,536 atoms with one worker", "job", "state", 1, 1)
    four = room.goes_back("65,536 atoms with four workers", "job", "state", 1, 4)
    room.expect("65,536 atoms, one worker and four", one == four, True)
    room.prints("65,536 atoms with 64 workers", ["run", "job", "state", "--steps", "1", "--workers", "64"], one)
    room.prints("65,536 atoms, states", ["states", "job", "state", "--steps", "1", "--every", "1", "--workers", "4"], text + one)
    frame = room.run("frame", "state")
    room.expect("65,536 atoms, frame", (frame.status, frame.out.count("\n"), frame.err), (0, 65_539, ""))
    table = room.run("observe", "job", "state", "--steps", "1", "--every", "1")
    room.expect("65,536 atoms, observe", (table.status, table.out.count("\n"), table.err), (0, 3, ""))
    forces = room.run("forces", "job", "state")
    sums = [sum(map(int, column)) for column in zip(*(line.split()[-3:] for line in forces.out.splitlines()))]
    room.expect("65,536 atoms, forces", (forces.status, forces.out.count("\n"), sums, forces.err), (0, 65_536, [0, 0, 0], ""))


def try_many_steps(room):
    """100,000 steps of a small state, forward and back, with one worker and with two."""
    room.write("job", job())
    room.write("small", state((5, 5, 5), 3))
    one = room.goes_back("100,000 steps with one worker", "job", "small", 100_000, 1)
    room.prints("100,000 steps with two workers", ["run", "job", "small", "--steps", "100000", "--workers", "2"], one)
    frames = room.run("trajectory", "job", "small", "--steps", "100000", "--every", "10")
    room.expect("10,001 frames", (frames.status, frames.out.count("\n"), frames.err), (0, 60_006, ""))
    room.write("frames", frames.out)
    last = room.run("start", "job", "frames", "--frame", "10001")
    room.expect("the last of 10,001 frames", (last.status, last.out.count("\n"), last.err), (0, 8, ""))


def try_long_files(room):
    """Files of more than ten million bytes, read from the disk and from a pipe, and long lines."""
    text, comments = state((5, 5, 5), 2), f"# {'-' * 97}\n" * (LONG // 100)
    room.write("job", job())
    room.write("state", text)
    long = "pairmd job 1\n" + comments + job().partition("\n")[2]
    room.write("long", long)
    room.prints("a job of 12 MB", ["run", "long", "state", "--steps", "0"], text)
    room.prints("a job of 12 MB from a pipe", ["run", "/dev/stdin", "state", "--steps", "0"], text, given=long)
    room.write("late", job() + comments + "type AR 1\n")
    room.expect("the last line of 12 MB", room.run("check", "late"), Ran(1, "", "pairmd: J5 RepeatedType AR\n"))
    text = state((5, 5, 5), 2, title="t" * LONG)
    room.write("titled", text)
    room.prints("a title of 12 MB", ["run", "job", "titled", "--steps", "0"], text)
    room.prints("a title of 12 MB from a pipe", ["run", "job", "/dev/stdin", "--steps", "0"], text, given=text)
    room.prints("a title of 12 MB from standard input", ["run", "job", "-", "-n", "0"], text, given=text)
    room.expect("standard input a second time", room.run("run", "-", "-", "-n", "0", given=job()), Ran(1, "", "pairmd: S2 Truncated\n"))
    room.write("-", text)
    room.prints("a file named as standard input", ["run", "job", "./-", "-n", "0"], text)
    room.write("blank", job(energy=ENERGY.replace("-", " " * 300_000 + "-")))
    room.expect("an energy of 300,000 bytes", room.run("check", "blank"), room.run("check", "job"))
    listing = "pairmd code 1\n" + "".join(f"push {it}\nkeep {it}\n" for it in range(256)) + "get 255\n"
    room.write("listing", listing)
    room.prints("256 locals", ["check", "job", "--code", "listing"], "accepted: steps 513, bound 255\n")


def try_statuses(room):
    """Each exit status, with both streams."""
    text = state((5, 5, 5), 2)
    room.write("job", job())
    room.write("core", job(energy="1/r", core="0"))
    room.write("energy", job(energy="1/s"))
    room.write("keyless", job().replace("dt 2\n", ""))
    room.write("state", text)
    room.write("cut", text[:-1])
    room.prints("status 0", ["run", "job", "state", "--steps", "0"], text)
    for status, words, line in [
        (1, ["run", "keyless", "state", "--steps", "1"], "J2 Missing dt"),
        (1, ["back", "job", "cut", "--steps", "1"], "S2 Truncated"),
        (3, ["run", "core", "state", "--steps", "1"], "V2 Fault AR AR r 0 pc 8 F2 ZeroDivisor"),
        (3, ["observe", "core", "state", "--steps", "1", "--every", "1"], "V2 Fault AR AR r 0 pc 8 F2 ZeroDivisor"),
        (3, [*"observe --exact --progress --back --workers 2 --every 2 --steps 4 --".split(), "core", "state"], "V2 Fault AR AR r 0 pc 8 F2 ZeroDivisor"),
        (3, ["check", "energy"], "E04 UnknownName s"),
        (5, ["frame", ""], "O1 CannotRead "),
        (5, ["frame", "absent"], "O1 CannotRead absent"),
        (5, ["run", "job", ".", "--steps", "1"], "O1 CannotRead ."),
    ]:
        room.expect(f"status {status}", room.run(*words), Ran(status, "", f"pairmd: {line}\n"))
    misuse = room.run("run", "job", "state")
    room.expect("status 2", (misuse.status, misuse.out, misuse.err.partition("\n")[0]), (2, "", "error: the following required arguments were not provided:"))
    room.expect("no text", room.run("frame", b"\xff"), Ran(2, "", "error: a word of the command line is not UTF-8 text\n"))
    room.write("titled", state((5, 5, 5), 2, title="t" * LONG))
    room.expect("status 4", room.run("frame", "titled", limits=[(resource.RLIMIT_AS, LONG)]), Ran(4, "", "pairmd: Memory\n"))


def try_great_energies(room):
    """Rows of `observe` with large potential energies of each sign: each has the energy that `energy` prints."""
    room.write("state", state((5, 5, 5), 100))
    for height in ("5e3", "-5e5", "1e6", "1e8", "-2e8"):
        room.write("job", job(energy=f"{height}+0.001*r"))
        printed = room.run("energy", "job", "state")
        room.expect(f"energy {height}", printed[::2], (0, ""))
        table = room.run("observe", "job", "state", "--steps", "0", "--every", "1", "--exact")
        row = table.out.splitlines()[-1].split()
        room.expect(f"the row of {height}", (table.status, row[2], table.err), (0, printed.out.split()[1], ""))


def try_words(room):
    """All options of `observe` at once, each with an effect, in two orders."""
    room.write("job", job())
    room.write("state", state((5, 5, 5), 3))
    options = ["--progress", "--back", "--workers", "2", "--every", "2", "--steps", "4", "--exact"]
    behind, before = room.run("observe", "job", "state", *options), room.run("observe", *options[::-1][:1], *options[:-1], "--", "job", "state")
    progress = "".join(f"pairmd: {step} of 4 steps\n" for step in range(1, 5))
    shape = behind.out[:14], [line.split()[0] for line in behind.out.splitlines()[1:]]
    wanted = (0, "# step time/fs", ["0", "-2", "-4"], progress)
    room.expect("all options of observe", (behind.status, *shape, behind.err), wanted)
    room.expect("the files after the options", before, behind)


def try_streams(room):
    """Standard output to files and pipes, failing at once or midway, and a standard error that fails."""
    text = state(*MANY)
    room.write("job", job())
    room.write("state", text)
    words = ["run", "job", "state", "--steps", "0"]
    with open(f"{room.folder}/out", "wb") as file:
        room.expect("a file", room.run(*words, out=file), Ran(0, "", ""))
    room.expect("the contents of the file", read(f"{room.folder}/out") == text, True)
    with open(f"{room.folder}/out", "wb") as file:
        ran = room.run(*words, out=file, limits=[(resource.RLIMIT_FSIZE, 100_000)])
        room.expect("a file that reaches its limit", ran, Ran(5, "", WRITTEN))
    room.expect("the contents of that file", read(f"{room.folder}/out") == text[:100_000], True)
    with open("/dev/full", "wb") as full:
        room.expect("a full device", room.run(*words, out=full), Ran(5, "", WRITTEN))
        room.expect("an error on a full device", room.run("frame", "absent", err=full), Ran(5, "", ""))
        room.expect("progress on a full device", room.run(*words, "--progress", err=full), Ran(0, text, ""))
    closed, end = os.pipe()
    os.close(closed)
    room.expect("a pipe without a reader", room.run(*words, out=end), Ran(5, "", WRITTEN))
    room.expect("an error without a reader", room.run("frame", "absent", err=end), Ran(5, "", ""))
    os.close(end)
    room.expect("a pipe that is read slowly", slowly_read(room, words), (0, text))


def read(path):
    with open(path, encoding="ascii") as file:
        return file.read()


def slowly_read(room, words):
    """The status and the output of a command whose reader takes a few bytes at a time, and pauses."""
    started = subprocess.Popen([room.program, *words], cwd=room.folder, stdout=subprocess.PIPE, bufsize=0)
    parts = []
    with started.stdout as pipe:
        while part := pipe.read(4_001):
            parts.append(part)
            time.sleep(0.0002)
    return started.wait(), b"".join(parts).decode()


def try_state_streams(room):
    """Streams of states from files and pipes: each state is shown before the next is written, in the memory of one."""
    room.write("job", job())
    room.write("state", state((10, 10, 10), 1000))
    along = ["--steps", "4", "--every", "2"]
    states, table, frames = (room.run(name, "job", "state", *along) for name in ("states", "observe", "trajectory"))
    room.write("states", states.out)
    for path in ("states", "/dev/stdin", "-"):
        given = "" if path == "states" else states.out
        room.prints(f"a table of {path}", ["observe", "job", path, "--each"], table.out, given=given)
        room.prints(f"frames of {path}", ["frame", path, "--each", "job"], frames.out, given=given)
    room.prints("a stream of one state", ["observe", "job", "state", "--each"], room.run("observe", "job", "state").out)
    status, lines, reads = one_by_one(room, states.out)
    room.expect("states that come slowly", (status, lines), (0, [f"step {step}" for step in (0, 2, 4)]))
    room.expect(f"{reads} reads of {len(states.out)} bytes from a pipe: at least 1,000 bytes in each", 1_000 * reads < len(states.out), True)
    long = states.out * 200
    limits = [(resource.RLIMIT_AS, len(long) // 2)]
    ran = room.run("frame", "-", "--each", "job", given=long, limits=limits)
    room.expect("a stream longer than the memory", ran, Ran(0, frames.out * 200, ""))
    ran = room.run("energy", "job", "-", "--each", given=states.out[:-1])
    room.expect("a stream that is cut off", (ran.status, ran.out.count("energy"), ran.err), (1, 2, "pairmd: S2 Truncated in state 3\n"))
    room.expect("a directory as a stream", room.run("energy", "job", ".", "--each"), Ran(5, "", "pairmd: O1 CannotRead .\n"))


def one_by_one(room, states):
    """The status of `energy --each`, its lines of steps, and the number of its reads, where each state is written only
    after the energy of the one before has been read.
    """
    words = [room.program, "energy", "job", "-", "--each"]
    started = subprocess.Popen(words, cwd=room.folder, stdin=subprocess.PIPE, stdout=subprocess.PIPE, bufsize=0)
    printed, texts = "", re.split("(?m)^(?=pairmd state)", states)[1:]
    with started.stdin as pipe, started.stdout as output:
        for number, text in enumerate(texts, 1):
            pipe.write(text.encode())
            # a line with the step and one with the energy
            while printed.count("\n") < 2 * number and select.select([output], [], [], LIMIT)[0]:
                part = output.read(1_000)
                printed += part.decode() if part else "ended early\n"
        reads = int(read(f"/proc/{started.pid}/io").split()[5])
        pipe.close()
        return started.wait(), printed.splitlines()[::2], reads


def try_workers(room):
    """In each command that makes steps, the workers that its option gives draw tiles: in each round of forces all but the
    program's own thread are started, and they take more than a quarter of the CPU time. Without the option, and in other
    commands, no thread is started.
    """
    room.write("job", job())
    room.write("state", state(*MANY))
    steps, workers = 12, 6
    runs = [[name, "--steps", str(steps)] for name in ("run", "back")]
    visits = [[name, "--steps", str(steps), "--every", every] for name in ("trajectory", "states", "observe") for every in ("1", "4")]
    for words in [*runs, *visits, [*runs[0], "--progress"], [*visits[1], "--back"]]:
        # the program's own thread sums the pairs of a row, with their energies
        rows = len(range(0, steps, int(words[4]))) if words[0] == "observe" else 0
        ran = threads.watched(room.program, room.folder, [*words, "--workers", str(workers), "job", "state"])
        what = f"{' '.join(words)} with {workers} workers"
        room.expect(f"{what}: status, threads started", (ran.status, len(ran.started)), (0, (steps - rows) * (workers - 1)))
        if rows < steps:
            room.expect(f"{what}: their CPU time {sum(ran.started)} beside {ran.own}", 3 * sum(ran.started) > ran.own, True)
    for words in [runs[0], [*visits[-1], "--workers", "1"], ["observe", "--each"], ["forces"]]:
        ran = threads.watched(room.program, room.folder, [*words, "job", "state"])
        room.expect(f"{' '.join(words)}: status, threads started", (ran.status, len(ran.started)), (0, 0))


# Limits on memory in KB: of the address space, from less than the system needs to start the program, and of the stack.
SPACES = range(1_000, 8_000, 20)
STACKS = 256, 384, 512, 1_024, 2_048
BESIDE = 60_000  # bytes of environment, which the system keeps on the stack
SHORT = re.compile(r"pairmd: Memory( after \d+ steps)?\n")


def try_little_memory(room):
    """Little address space and small stacks: a command does all of its work, or it ends with status 4."""
    text, most = state((5, 5, 5), 100), " + ".join(["r"] * 2048)
    room.write("job", job())
    room.write("long", job(energy=most))
    room.write("state", text)
    steps = ["--steps", "3"]
    closely = [["--version"], ["run", "job", "state", *steps], ["check", "job"], ["observe", "job", "state", *steps], ["curve", "job", "--points", "2"]]
    commands = [["run", "job", "state", *steps, "--workers", "3"], ["energy", "job", "state"], ["energy", "job", "state", "--each"], ["check", "long"]]
    commands += [["curve", "long", "--points", "1"], ["states", "job", "state", *steps, "--every", "1"], ["forces", "job", "state"]]
    commands += [["trajectory", "job", "state", *steps, "--every", "1"], ["observe", "long", "state", *steps, "--every", "1"]]
    for words, spaces in [*((it, SPACES) for it in closely), *((it, SPACES[::4]) for it in commands)]:
        whole = room.run(*words)
        room.expect(" ".join(words), whole[::2], (0, ""))
        little_space(room, words, spaces, whole)
        for size in STACKS:
            ran = room.run(*words, limits=[(resource.RLIMIT_STACK, 1024 * size)])
            room.expect(f"{' '.join(words)} with {size} KB of stack", is_short_or_whole(ran, whole), "yes")
        beside = [(resource.RLIMIT_STACK, 1024 * STACKS[0] + BESIDE)]
        ran = room.run(*words, limits=beside, more={"BESIDE": "-" * BESIDE})
        room.expect(f"{' '.join(words)} with {STACKS[0]} KB of stack beside the environment", ran, whole)
    least = (resource.RLIMIT_STACK, 1024 * STACKS[0])
    for operator in "*/":
        room.write("refused", job(energy=operator.join(["r"] * 2048)))
        ran = room.run("check", "refused", limits=[least])
        room.expect(f"2,048 distances joined by {operator}, on the smallest stack", ran, (3, "", "pairmd: E10 TooLarge\n"))


def little_space(room, words, spaces, whole):
    """Runs a command within each of these limits in KB of the address space. Under the smaller ones the system doesn't
    start the program, or the dynamic loader gives up, with status 127. Expects that the command is short or whole under
    all limits above these.
    """
    runs = [room.run(*words, limits=[(resource.RLIMIT_AS, 1024 * size)]) for size in spaces]
    started = max((at for at, ran in enumerate(runs, 1) if ran.status == 127), default=0)
    room.expect(f"{' '.join(words)}, limits below and above the loader's", (started > 0, len(runs) - started > len(runs) // 2), (True, True))
    for size, ran in list(zip(spaces, runs))[started:]:
        room.expect(f"{' '.join(words)} within {size} KB", is_short_or_whole(ran, whole), "yes")


def is_short_or_whole(ran, whole):
    """Whether a run printed all, or ended for want of memory with whole lines of it and one line of error: "yes", or
    else the run.
    """
    some = ran.status == 4 and SHORT.fullmatch(ran.err) and whole.out.startswith(ran.out) and ran.out[-1:] in ("", "\n")
    return "yes" if ran == whole or some else ran


KEPT = ["third law    sums 0 0 0", "translation  kept", "drift        kept", "axes         kept", "reversal     kept"]
LIGHT_JOB = "pairmd job 1\nenergy 0.001*r\ncore 0\ncutoff 0.4\ndt 100\ntype A 0.001\ntype B 0.002\n"
LIGHT_STATE = """pairmd state 1
title Light atoms
step 0
atoms 3
box 100000 110000 120000
    1A        A 10 20 30 10 20 30
    2A        A 700000000 500000000 300000000 700000000 500000000 300000000
    3B        B 300000000 900000000 600000000 300000000 900000000 600000000
"""


def try_symmetries(room):
    """The symmetries that a run keeps exactly, on 500 argon atoms, and those that it doesn't, on three light ones."""
    argon = f"{ROOT}/examples/argon.job"
    room.write("start", room.run("start", argon, f"{ROOT}/examples/argon.gro").out)
    lines = symmetries(room, argon, "start", 100)
    changed, most = (int(lines[-1].split()[at]) for at in (1, -1))
    room.expect("500 argon atoms, 100 steps", (lines[:5], changed <= most), (KEPT, True))
    room.write("job", LIGHT_JOB)
    room.write("state", LIGHT_STATE)
    lines = symmetries(room, "job", "state", 1)
    room.expect("three light atoms, a step", lines[:7], [*KEPT, "mirror image not kept", "exchange     not kept"])


def symmetries(room, job_name, start, steps):
    """The lines that `examples/symmetries.py` prints."""
    words = [sys.executable, "-B", f"{ROOT}/examples/symmetries.py", job_name, start, "--steps", str(steps)]
    environment = {**os.environ, "PAIRMD": room.program}
    return subprocess.run(words, cwd=room.folder, env=environment, check=True, stdout=subprocess.PIPE, encoding="ascii").stdout.splitlines()


CASES = {name[len("try_") :]: it for name, it in globals().items() if name.startswith("try_")}


def main():
    parser = argparse.ArgumentParser(description=__doc__, formatter_class=argparse.RawDescriptionHelpFormatter)
    parser.add_argument("cases", nargs="*", metavar="CASE", help=f"{', '.join(CASES)}; all by default")
    given = parser.parse_args()
    program, same, other = os.path.realpath(os.environ.get("PAIRMD") or f"{ROOT}/pairmd"), 0, 0
    if not os.access(program, os.X_OK):
        sys.exit(f"no program at {program}: `make pairmd` leaves it at ./pairmd; PAIRMD names another")
    for name in given.cases or CASES:
        if name not in CASES:
            sys.exit(f"no case {name}: {', '.join(CASES)}")
        began = time.monotonic()
        with tempfile.TemporaryDirectory(prefix="edges-") as folder:
            room = Room(program, folder)
            CASES[name](room)
        print(f"{name}: {room.same} as wanted, {room.other} not, {time.monotonic() - began:.1f} s", flush=True)
        same, other = same + room.same, other + room.other
    print(f"{same} as wanted, {other} not")
    return 1 if other or not same else 0


if __name__ == "__main__":
    sys.exit(main())
