"""Runs the program: each command as a function.

The program is the one that an argument `program` names, else the environment's PAIRMD, else `pairmd` on PATH, else
`./pairmd`. A job or a state is an object of this module, or the path of a file. A status other than 0 raises Refusal,
with the text of `pairmd explain`.
"""

from __future__ import annotations

import contextlib
import io
import os
import shutil
import subprocess
import tempfile
from collections.abc import Iterable, Iterator
from dataclasses import dataclass
from fractions import Fraction
from itertools import groupby
from typing import IO, Any, Union

from .errors import FormatError, ProgramNotFound, Refusal
from .gro import GroFrame, read_gro
from .job import Job
from .state import State, read_states, write_states
from .table import Curve, Forces, Table, Velocities, read_curves, read_steps
from .texts import ENCODING, damage_named, is_compressed, lines_of, opened
from .units import integer

JobInput = Union[Job, str, "os.PathLike[str]"]
"""A job, or the path of its file."""
StateInput = Union[State, str, "os.PathLike[str]"]
"""A state, or the path of its file."""
StatesInput = Union[Iterable[State], str, "os.PathLike[str]"]
"""States, or the path of a file with their texts one after the other, as `states` prints them."""
GroInput = Union[GroFrame, str, "os.PathLike[str]"]
"""A frame, or the path of a GRO file."""
Count = Union[int, float]
"""An integral number: 1000 or 1e3."""
Named = Union[str, "os.PathLike[str]", None]
"""The path of the program, or None to find it."""


def find_program(program: Named = None) -> str:
    """Returns the path of the program. Raises ProgramNotFound."""
    named = program or os.environ.get("PAIRMD")
    found = shutil.which(os.fspath(named)) if named else shutil.which("pairmd") or shutil.which("./pairmd")
    if not found:
        raise ProgramNotFound(f"no program at {named}" if named else "no program: put `pairmd` on PATH, or set PAIRMD to its path")
    return found


@contextlib.contextmanager
def files(*inputs: Any) -> Iterator[list[str]]:
    """Gives the path of each input. Jobs, frames, a state or states are written to temporary files, which are then deleted;
    so are compressed files, decompressed.
    """
    with tempfile.TemporaryDirectory(prefix="pairmd-") as folder:
        paths = []
        for number, it in enumerate(inputs):
            if isinstance(it, (Job, State, GroFrame)):
                paths.append(os.path.join(folder, f"{type(it).__name__.lower()}-{number}"))
                with open(paths[-1], "w", **ENCODING) as file:
                    file.write(it.text())
            elif not isinstance(it, (str, os.PathLike)):
                paths.append(os.path.join(folder, f"states-{number}"))
                write_states(it, paths[-1])
            elif is_compressed(it):
                paths.append(os.path.join(folder, f"file-{number}"))
                with damage_named(it), opened(it, "rb") as packed, open(paths[-1], "wb") as file:
                    shutil.copyfileobj(packed, file)
            else:
                paths.append(path_word(it))
        yield paths


def path_word(path: str | os.PathLike[str]) -> str:
    """Returns a path as an argument that the program takes for no option, nor for standard input: `./-h` for `-h`."""
    word = os.fspath(path)
    return os.path.join(os.curdir, word) if word.startswith("-") else word


def option(name: str, number: Any) -> list[Any]:
    """Returns an option and its integer, such as `--steps 1000` for 1e3. A text is passed as it is. Raises ValueError."""
    return [f"--{name}", number if isinstance(number, str) else integer(number, name)]


@contextlib.contextmanager
def stream(*words: Any, program: Named = None) -> Iterator[IO[str]]:
    """Runs the program with these arguments, and gives its standard output. Raises Refusal at the end. If the caller
    leaves early, the program is stopped.
    """
    path = find_program(program)
    with tempfile.TemporaryFile() as errors:
        child = subprocess.Popen([path, *map(str, words)], stdin=subprocess.DEVNULL, stdout=subprocess.PIPE, stderr=errors)
        assert child.stdout is not None
        with child, io.TextIOWrapper(child.stdout, **ENCODING) as output:
            is_whole = False
            try:
                yield output
                is_whole = not output.read(1)
            except FormatError:
                # a rejected run ends early: its error says more
                is_whole = not output.read(1) and child.wait() != 0
                if not is_whole:
                    raise
            finally:
                if not is_whole:
                    child.kill()
        if is_whole and child.returncode:
            errors.seek(0)
            raise refusal(path, child.returncode, errors.read().decode("utf-8", "backslashreplace"))


def call(*words: Any, program: Named = None) -> str:
    """Runs the program with these arguments, and returns its standard output. Raises Refusal."""
    with stream(*words, program=program) as output:
        return output.read()


def refusal(path: str, status: int, errors: str) -> Refusal:
    """Returns the exception for a status other than 0, from the program's standard error."""
    lines = errors.splitlines()
    last = next((line for line in reversed(lines) if line.startswith("pairmd: ")), None)
    if status < 0:
        return Refusal(status, None, f"ended by signal {-status}", errors)
    if last is None or status == 2:
        return Refusal(status, None, lines[0] if lines else "", errors)
    line = last.removeprefix("pairmd: ")
    code = line.split()[0]
    explained = subprocess.run([path, "explain", code], stdin=subprocess.DEVNULL, capture_output=True, check=False)
    return Refusal(status, code, line, explained.stdout.decode() if explained.returncode == 0 else errors)


def start(job: JobInput, gro: GroInput, frame: Count = 1, *, program: Named = None) -> State:
    """Returns the first state of a run, from a frame of a GRO file (a path or a GroFrame)."""
    with files(job, gro) as paths:
        return State.parse(call("start", *paths, *option("frame", frame), program=program))


def run(job: JobInput, state: StateInput, steps: Count, *, workers: int = 1, program: Named = None) -> State:
    """Returns the state this many steps later."""
    with files(job, state) as paths:
        return State.parse(call("run", *paths, *option("steps", steps), *option("workers", workers), program=program))


def back(job: JobInput, state: StateInput, steps: Count, *, workers: int = 1, program: Named = None) -> State:
    """Returns the state this many steps earlier."""
    with files(job, state) as paths:
        return State.parse(call("back", *paths, *option("steps", steps), *option("workers", workers), program=program))


def _along(steps: Count, every: Count, is_back: bool, workers: int) -> list[Any]:
    """The arguments of commands that print along the way."""
    return [*option("steps", steps), *option("every", every), *option("workers", workers), *["--back"] * is_back]


def states(
    job: JobInput,
    state: StateInput,
    steps: Count | None = None,
    every: Count | None = None,
    *,
    at: Iterable[Count] | None = None,
    back: bool = False,
    workers: int = 1,
    program: Named = None,
) -> Iterator[State]:
    """Yields the states after 0, every, 2 every, .. steps, as the program computes them, with one in memory at a time.

    at: the numbers of steps, rising from 0 or more, in place of `steps` and `every`: any ones, such as those of
    `logarithmic`. The run is then made in pieces. Raises ValueError if they don't rise, or if both are given or neither.
    """
    if at is not None and steps is None and every is None:
        yield from _states_at(job, state, [integer(it, "at") for it in at], back, workers, program)
        return
    if at is not None or steps is None or every is None:
        raise ValueError("states takes either steps and every, or at")
    with files(job, state) as paths, stream("states", *paths, *_along(steps, every, back, workers), program=program) as output:
        yield from read_states(output)


def _states_at(
    job: JobInput, state: StateInput, at: list[int], is_back: bool, workers: int, program: Named
) -> Iterator[State]:
    """The states after some numbers of steps: a call of the program for each stretch of equal distances."""
    apart = [after - before for before, after in zip([0, *at], at)]
    if min(apart[1:], default=1) < 1 or min(apart, default=0) < 0:
        raise ValueError(f"the steps of `at` rise from 0 or more, and here are {at}")
    now: StateInput = state
    for every, stretch in groupby(apart):
        count = len([*stretch])
        for number, it in enumerate(states(job, now, every * count, max(every, 1), back=is_back, workers=workers, program=program)):
            if number or not every:
                yield it
            now = it


def trajectory(
    job: JobInput, state: StateInput, steps: Count, every: Count, *, back: bool = False, workers: int = 1, program: Named = None
) -> Iterator[GroFrame]:
    """Yields the frames after 0, every, 2 every, .. steps, as the program computes them."""
    with files(job, state) as paths, stream("trajectory", *paths, *_along(steps, every, back, workers), program=program) as output:
        yield from read_gro(output)


def observe(
    job: JobInput,
    state: StateInput,
    steps: Count = 0,
    every: Count = 1,
    *,
    back: bool = False,
    exact: bool = False,
    tensor: bool = False,
    workers: int = 1,
    program: Named = None,
) -> Table:
    """Returns the table with a row after 0, every, 2 every, .. steps; of integers with `exact`, and with `tensor` with
    the components of the pressure tensor, too.
    """
    with files(job, state) as paths:
        words = ["observe", *paths, *_along(steps, every, back, workers), *["--exact"] * exact, *["--tensor"] * tensor]
        return Table.parse(call(*words, program=program))


def frame(state: StateInput, *, program: Named = None) -> GroFrame:
    """Returns the current frame of a state, with positions in picometres."""
    with files(state) as paths:
        return GroFrame.parse(call("frame", *paths, program=program))


def energy(job: JobInput, state: StateInput, *, program: Named = None) -> Fraction:
    """Returns the potential energy of the current frame in kJ/mol, exactly."""
    with files(job, state) as paths:
        return Fraction(int(call("energy", *paths, program=program).split()[1]), 2 ** _bits(job))


def forces(job: JobInput, state: StateInput, *, program: Named = None) -> Forces:
    """Returns the force on each atom in the current frame."""
    with files(job, state) as paths:
        return Forces.parse(call("forces", *paths, program=program), _bits(job))


def velocities(job: JobInput, state: StateInput, *, program: Named = None) -> Velocities:
    """Returns the velocity of each atom in the last time step."""
    with files(job, state) as paths:
        return Velocities.parse(call("velocities", *paths, program=program))


def observe_each(job: JobInput, states: StatesInput, *, exact: bool = False, tensor: bool = False, program: Named = None) -> Table:
    """Returns the table with a row for each state; of integers with `exact`, and with `tensor` with the components of the
    pressure tensor, too.
    """
    with files(job, states) as paths:
        return Table.parse(call("observe", *paths, "--each", *["--exact"] * exact, *["--tensor"] * tensor, program=program))


def frame_each(job: JobInput, states: StatesInput, *, program: Named = None) -> Iterator[GroFrame]:
    """Yields the current frame of each state, with its time under the job in the title."""
    with files(job, states) as (job_path, path), stream("frame", path, "--each", job_path, program=program) as output:
        yield from read_gro(output)


def energy_each(job: JobInput, states: StatesInput, *, program: Named = None) -> Iterator[tuple[int, Fraction]]:
    """Yields the step and the potential energy in kJ/mol of each state, exactly."""
    with files(job, states) as paths, stream("energy", *paths, "--each", program=program) as output:
        for step, text in read_steps(output):
            yield step, Fraction(int(text.split()[1]), 2 ** _bits(job))


def forces_each(job: JobInput, states: StatesInput, *, program: Named = None) -> Iterator[tuple[int, Forces]]:
    """Yields the step of each state, and the forces on its atoms."""
    with files(job, states) as paths, stream("forces", *paths, "--each", program=program) as output:
        for step, text in read_steps(output):
            yield step, Forces.parse(text, _bits(job))


def velocities_each(job: JobInput, states: StatesInput, *, program: Named = None) -> Iterator[tuple[int, Velocities]]:
    """Yields the step of each state, and the velocities of its atoms."""
    with files(job, states) as paths, stream("velocities", *paths, "--each", program=program) as output:
        for step, text in read_steps(output):
            yield step, Velocities.parse(text)


def _bits(job: JobInput) -> int:
    """The fraction bits of a job, or of a job's file."""
    return job.bits if isinstance(job, Job) else Job.read(job).bits


@dataclass(frozen=True)
class Verdict:
    """The verdict on accepted code: it takes at most `steps` instructions, and no value exceeds `bound` in magnitude, in
    2^-bits kJ/mol/nm.
    """

    steps: int
    bound: int


def check(job: JobInput, code: Named = None, *, program: Named = None) -> Verdict:
    """Verifies the code of a job's slope, or the listing in the file `code`. A rejected one raises Refusal."""
    with files(job) as paths:
        words = call("check", *paths, *(["--code", path_word(code)] if code else []), program=program).replace(",", "").split()
    return Verdict(int(words[2]), int(words[4]))


def code(job: JobInput, *, energy: bool = False, program: Named = None) -> str:
    """Returns the listing of the code of a job's slope, or of the energy itself."""
    with files(job) as paths:
        return call("code", *paths, *(["--energy"] if energy else []), program=program)


def curve(
    job: JobInput, points: Count = 100, types: tuple[str, str] | None = None, *, grid: bool = False, program: Named = None
) -> list[Curve]:
    """Returns the potential of each pair of types, or of one pair, with proved bounds on its errors. With `grid` rows have
    a bound on the part of the slope's error that comes from rounding the distance.
    """
    with files(job) as paths:
        options = [*(["--types", *types] if types else []), *(["--grid"] if grid else [])]
        words = ["curve", *paths, *option("points", points), *options]
        return list(read_curves(lines_of(call(*words, program=program))))


def explain(*codes: str, program: Named = None) -> str:
    """Returns the explanation of an error's code, such as `V2`, or of a line `pairmd: ..`; without one, all codes."""
    return call("explain", *codes, program=program)


def version(*, program: Named = None) -> str:
    """Returns the program's version."""
    return call("--version", program=program).split()[1]
