"""Many runs over any map: replicas, temperatures, potentials.

  tasks = [pairmd.Task(job, state, steps=1e5, every=1000) for state in replicas]
  for outcome in pairmd.runs(tasks, map=executor.map):
      print(outcome.state.step, outcome.sha256)

Jobs and states go to the workers as bytes, and states come back as bytes with their SHA-256 (`spread`).
"""

from __future__ import annotations

import os
from collections.abc import Iterable
from dataclasses import dataclass, field

from .errors import Refusal
from .program import Count, JobInput, Named, StateInput, files, option
from .spread import Call, Map, answers
from .state import State, read_states
from .texts import ENCODING, lines_of


@dataclass(frozen=True)
class Task:
    """A run to make.

    job, state: objects, or the paths of files.
    steps: the number of steps.
    every: states are kept after 0, every, 2 every, .. steps; None keeps only the state at the end.
    back: whether the steps go back.
    """

    job: JobInput
    state: StateInput
    steps: Count
    every: Count | None = None
    back: bool = False

    def call(self, number: int, workers: Count, program: Named) -> Call:
        """Returns the call of the program that makes the run. Raises ValueError."""
        words = [*option("steps", self.steps), *option("workers", workers)]
        if self.every is not None:
            words += [*option("every", self.every), *["--back"] * self.back]
        command = "states" if self.every is not None else "back" if self.back else "run"
        named = None if program is None else os.fspath(program)
        with files(self.job, self.state) as paths:
            job, state = (read_bytes(path) for path in paths)
        return Call(number, command, job, state, tuple(map(str, words)), named)


@dataclass(frozen=True)
class Outcome:
    """What the program printed for a run.

    text: the bytes: a state, or the states along the way.
    sha256: their SHA-256.
    refusal: the program's error, or None. `state` and `states` raise it.
    """

    text: bytes = field(repr=False)
    sha256: str
    refusal: Refusal | None = None

    def states(self) -> list[State]:
        """Returns all states. Raises Refusal."""
        if self.refusal:
            raise self.refusal
        return list(read_states(lines_of(self.text.decode(ENCODING["encoding"], ENCODING["errors"]))))

    @property
    def state(self) -> State:
        """The last state. Raises Refusal."""
        return self.states()[-1]


def read_bytes(path: str) -> bytes:
    """Returns the bytes of a file."""
    with open(path, "rb") as file:
        return file.read()


def runs(
    tasks: Iterable[Task | tuple[JobInput, StateInput, Count]], map: Map = map, *, workers: Count = 1, program: Named = None
) -> list[Outcome]:
    """Makes runs over a map, and returns their outcomes in the order of the tasks.

    tasks: objects, or tuples of their fields, such as (job, state, steps).
    map: see `spread`; the built-in one makes one run after the other.
    workers: the threads of each run.

    A run that the program rejects has its error in `refusal`; the others go on. Raises AnswerError if the map loses runs.
    """
    given = [it if isinstance(it, Task) else Task(*it) for it in tasks]
    calls = [it.call(number, workers, program) for number, it in enumerate(given, 1)]
    return [Outcome(it.output, it.output_sha256, it.refusal) for it in answers(calls, map)]
