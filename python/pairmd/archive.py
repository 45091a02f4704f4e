"""Archives: a run as a directory that anyone can check, with any state in between from the nearest that it keeps.

  python -m pairmd archive DIR --job argon.job --states states --xz
  python -m pairmd verify DIR --workers 4

  run = pairmd.Run.read("DIR")
  state = run.at(12_345)

The directory has the job as `job`, a stream of states as `states`, `states.gz` or `states.xz`, and a `manifest` of these
lines, each with LF, in this order:

  pairmd archive 1
  version <of the program that was there: three numbers with points>
  dt <the job's time step in fs>
  bits <the job's fraction bits>
  steps <the step counter of each state, each after one space>
  <SHA-256 of the file, 64 hexadecimal digits in lower case>  job
  <SHA-256 of the file>  <name of the file with the states>

`sha256sum -c manifest` compares the sums, and warns of the other lines; other files may be beside these three. `verify`
compares sums, dt, bits and steps, then replays the states (`replays`). It needs the program, of any version, but trusts
none of what the archive says. If a segment differs, it names both versions.
"""

from __future__ import annotations

import argparse
import hashlib
import lzma
import os
import re
import shutil
import sys
import tempfile
from collections.abc import Iterator
from dataclasses import dataclass
from itertools import islice, pairwise
from typing import Any

from .errors import FormatError
from .job import Job
from .program import Count, JobInput, Named, StatesInput, back, files, run, version
from .replays import Replay, replay, state_texts
from .spread import Map
from .state import State, read_states
from .texts import ENCODING, damage_named, opened, put
from .units import integer

MANIFEST = "manifest"
FORM = (
    ("`pairmd archive 1`", r"pairmd archive (1)"),
    ("`version` and three numbers with points", r"version ([0-9]+\.[0-9]+\.[0-9]+)"),
    ("`dt` and an integer", r"dt ([1-9][0-9]{0,8})"),
    ("`bits` and 24, 32 or 40", r"bits (24|32|40)"),
    ("`steps` and step counters", r"steps((?: (?:0|-?[1-9][0-9]{0,18}))+)"),
    ("a SHA-256, two spaces and `job`", r"([0-9a-f]{64}  job)"),
    ("a SHA-256, two spaces and `states`, `states.gz` or `states.xz`", r"([0-9a-f]{64}  states(?:\.gz|\.xz)?)"),
)
"""What each line of a manifest is, and its pattern."""


@dataclass(frozen=True)
class Run:
    """A run in an archive.

    folder: the directory.
    version: the version of the program with which it was written.
    dt, bits: the time step in fs and the fraction bits of the job.
    steps: the step counter of each state that is kept.
    job_file, states_file: the names of the files, without the directory.
    """

    folder: str
    version: str
    dt: int
    bits: int
    steps: tuple[int, ...]
    job_file: str
    states_file: str

    @classmethod
    def read(cls, folder: str | os.PathLike[str]) -> Run:
        """Reads an archive, and compares the SHA-256 of its files, and the job's dt and bits, with the manifest. Raises
        FormatError with the file that is wrong.
        """
        path = os.fspath(folder)
        values = manifest_values(os.path.join(path, MANIFEST))
        sums = [value.split("  ") for value in values[5:]]
        for (wanted, name) in sums:
            if file_sha256(os.path.join(path, name)) != wanted:
                raise FormatError("the SHA-256 isn't that of the manifest", name=os.path.join(path, name))
        made = cls(path, values[1], int(values[2]), int(values[3]), tuple(map(int, values[4].split())), *(name for _, name in sums))
        for key, line in (("dt", 3), ("bits", 4)):
            if getattr(made, key) != getattr(made.job, key):
                raise FormatError(f"the job has {key} {getattr(made.job, key)}", line, name=os.path.join(path, MANIFEST))
        return made

    @property
    def job(self) -> Job:
        """The job."""
        return Job.read(os.path.join(self.folder, self.job_file))

    @property
    def states_path(self) -> str:
        """The path of the file with the states."""
        return os.path.join(self.folder, self.states_file)

    def states(self) -> Iterator[State]:
        """Yields the states that are kept, with one in memory at a time."""
        return read_states(self.states_path)

    def kept(self, number: int) -> State:
        """Returns the state with this number, from 0. Raises FormatError if its counter isn't that of the manifest."""
        with damage_named(self.states_path), opened(self.states_path, "rb") as file:
            text = next(islice(state_texts(file), number, None), None)
        if text is None:
            raise FormatError(f"state {number + 1} is missing", name=self.states_path)
        state = State.parse(text.content.decode(ENCODING["encoding"], ENCODING["errors"]))
        if state.step != self.steps[number]:
            raise FormatError(f"state {number + 1} has step {state.step}, the manifest {self.steps[number]}", name=self.states_path)
        return state

    def at(self, step: Count, *, workers: int = 1, program: Named = None) -> State:
        """Returns the state with this step counter, computed from the nearest that is kept, forward or back. Raises
        ValueError for a step before the first or after the last, and Refusal.
        """
        wanted = integer(step, "step")
        if not min(self.steps) <= wanted <= max(self.steps):
            raise ValueError(f"step {wanted} isn't between {min(self.steps)} and {max(self.steps)}")
        number = min(range(len(self.steps)), key=lambda it: abs(self.steps[it] - wanted))
        state, count = self.kept(number), wanted - self.steps[number]
        if not count:
            return state
        return (run if count > 0 else back)(self.job, state, abs(count), workers=workers, program=program)

    def replay(self, map: Map | None = None, **options: Any) -> Replay:
        """Replays the states; see `pairmd.replay`, which has the options. Raises FormatError if the states have other step
        counters than the manifest.
        """
        done = replay(os.path.join(self.folder, self.job_file), self.states_path, map, **options)
        counters = dict(enumerate(pairwise(self.steps), 1))
        for it in done.segments:
            if counters.get(it.number) != (it.start, it.stop):
                raise FormatError(f"the states have steps {it.start} and {it.stop}", 5, name=os.path.join(self.folder, MANIFEST))
        return done


def manifest_values(path: str) -> list[str]:
    """Returns the value of each line of a manifest. Raises FormatError."""
    with open(path, **ENCODING) as file:
        lines = file.read().split("\n")
    for number, (what, pattern) in enumerate(FORM, 1):
        if number > len(lines) or not re.fullmatch(pattern, lines[number - 1]):
            raise FormatError(f"expected {what}", number, name=path)
    if lines[len(FORM) :] != [""]:
        raise FormatError("expected LF and the end of the file", len(FORM) + 1, name=path)
    return [re.sub(pattern, r"\1", line) for (_, pattern), line in zip(FORM, lines[:-1], strict=True)]


def file_sha256(path: str) -> str:
    """Returns the SHA-256 of a file in hexadecimal digits."""
    total = hashlib.sha256()
    with open(path, "rb") as file:
        while part := file.read(1 << 20):
            total.update(part)
    return total.hexdigest()


def write_archive(
    folder: str | os.PathLike[str], job: JobInput, states: StatesInput, *, xz: bool = False, program: Named = None
) -> Run:
    """Writes an archive of a job and a stream of states, and returns it. It isn't replayed: see `Run.replay`.

    folder: a directory that doesn't exist yet; it appears when it is complete.
    states: states, or the path of a file, which is kept as it is, compressed or not.
    xz: whether the states are compressed with xz.

    Raises FileExistsError; FormatError for a job or a state that isn't in its format or has other bits than the job.
    """
    path = os.fspath(folder)
    if os.path.lexists(path):
        raise FileExistsError(f"{path} exists: an archive is a new directory")
    parent = os.path.dirname(os.path.abspath(path))
    named = [os.fspath(states)] if isinstance(states, (str, os.PathLike)) else []
    with files(job, *[] if named else [states]) as paths, tempfile.TemporaryDirectory(prefix="archive-", dir=parent) as made:
        job_path, source = [*paths, *named]
        inner = os.path.join(made, "archive")
        os.mkdir(inner)
        shutil.copyfile(job_path, os.path.join(inner, "job"))
        name = keep_states(source, inner, xz)
        text = manifest(inner, name, Job.read(job_path), source, version(program=program))
        put(os.path.join(inner, MANIFEST), [text])
        os.rename(inner, path)
    return Run.read(path)


def keep_states(source: str, folder: str, xz: bool) -> str:
    """Copies a file of states into a directory, compressed if `xz`, and returns the copy's name."""
    name = "states.xz" if xz else "states" + "".join(re.findall(r"\.(?:gz|xz)\Z", source))
    target = os.path.join(folder, name)
    if xz:
        with damage_named(source), opened(source, "rb") as plain, lzma.open(target, "wb") as packed:
            shutil.copyfileobj(plain, packed)
    else:
        shutil.copyfile(source, target)
    return name


def manifest(folder: str, name: str, job: Job, source: str, version: str) -> str:
    """Returns the manifest of a directory with a job and states. The errors of states name the file that they are from."""
    steps = []
    for number, state in enumerate(read_states(source), 1):
        if state.bits != job.bits:
            raise FormatError(f"state {number} has {state.bits} bits, and the job {job.bits}", code="A6", name=source)
        steps.append(state.step)
    if not steps:
        raise FormatError("the file has no state", 1, "S2", source)
    head = ["pairmd archive 1", f"version {version}", f"dt {job.dt}", f"bits {job.bits}", f"steps {' '.join(map(str, steps))}"]
    sums = [f"{file_sha256(os.path.join(folder, it))}  {it}" for it in ("job", name)]
    return "\n".join([*head, *sums, ""])


ARCHIVE = """Writes a run as a directory that anyone can check: its job, its states, and a manifest with their SHA-256.

STATES is a stream, as `pairmd states` prints it, or pieces of `run` one after another; it may be compressed (.gz, .xz).
The directory is new. The SHA-256 of the manifest, which is printed, stands for all of it. PAIRMD names the program."""
VERIFY = """Checks an archive: the SHA-256 of its files, then each state, as the run of the state before it.

Prints the lines of `pairmd replay`. The status is 0 if all is as the archive says, else 1. PAIRMD names the program."""


def print_archived(given: argparse.Namespace) -> None:
    """Runs the command `archive`."""
    made = write_archive(given.folder, given.job, given.states, xz=given.xz)
    path = os.path.join(made.folder, MANIFEST)
    print(f"{file_sha256(path)}  {path}")


def print_verified(given: argparse.Namespace) -> None:
    """Runs the command `verify`. Raises ValueError if a segment differs."""
    kept = Run.read(given.folder)
    done = kept.replay(workers=given.workers, part=given.part, say=lambda line: print(line, flush=True))
    if not done.same:
        raise ValueError(f"{done}\n(pairmd {version()}; the archive was written with {kept.version})")
    print(done, file=sys.stderr)


def add_commands(commands: Any) -> None:
    """Adds `archive` and `verify` to the module's commands."""
    plain = argparse.RawDescriptionHelpFormatter
    made = commands.add_parser("archive", description=ARCHIVE, formatter_class=plain, help="write a run as a directory that anyone can check")
    made.add_argument("folder", metavar="DIR")
    made.add_argument("--job", required=True, metavar="JOB")
    made.add_argument("--states", required=True, metavar="STATES")
    made.add_argument("--xz", action="store_true", help="compress the states")
    made.set_defaults(command=print_archived)
    checked = commands.add_parser("verify", description=VERIFY, formatter_class=plain, help="check an archive")
    checked.add_argument("folder", metavar="DIR")
    checked.add_argument("--workers", type=int, default=1, metavar="N", help="threads (1)")
    checked.add_argument("--part", metavar="I/N", help="each N-th segment from the I-th on: N calls check all")
    checked.set_defaults(command=print_verified)
