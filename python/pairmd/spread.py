"""Spreads calls of the program over any map: the built-in one, an executor's, or Dask's `Client.map`.

  from concurrent.futures import ThreadPoolExecutor
  with ThreadPoolExecutor(4) as executor:
      pairmd.replay(job, "states", map=executor.map)

  from dask.distributed import Client
  pairmd.replay(job, "states", map=Client("tcp://HOST:8786").map)

A call carries its files as bytes, and names no path: a worker needs only this module and the program. An answer names
the SHA-256 of its call and that of its output. `answers` compares both, and needs an answer for each call, so a map that
loses calls raises AnswerError. What a worker leaves undone is the map's business: Dask gives it to another worker,
`restarting` to new processes.
"""

from __future__ import annotations

import hashlib
import os
import subprocess
import tempfile
from collections.abc import Callable, Iterable, Sequence
from concurrent.futures import BrokenExecutor, Executor, Future
from contextlib import suppress
from dataclasses import dataclass, field
from typing import Any

from .errors import AnswerError, Refusal
from .program import find_program, refusal

Map = Callable[..., Iterable[Any]]
"""A function and a list of calls to the answers, or to futures with a method `result`, in any order."""


@dataclass(frozen=True)
class Call:
    """A command with two files, for any machine.

    number: another one for each call of a map.
    command: the command's name, such as `run`.
    job, states: the bytes of its files.
    options: the arguments after the files.
    program: the path of the program on the worker, or None to find it there.
    """

    number: int
    command: str
    job: bytes = field(repr=False)
    states: bytes = field(repr=False)
    options: tuple[str, ...] = ()
    program: str | None = None

    def sha256(self) -> str:
        """Returns the SHA-256 of the command, its options and its files."""
        words = "\0".join((self.command, *self.options)).encode()
        return sha256(b"".join(hashlib.sha256(it).digest() for it in (words, self.job, self.states)))


@dataclass(frozen=True)
class Answer:
    """What the program answered.

    number: that of the call.
    call_sha256: the SHA-256 of the call as the worker got it.
    output: standard output.
    output_sha256: the SHA-256 of the output.
    refusal: the error, or None for status 0.
    """

    number: int
    call_sha256: str
    output: bytes = field(repr=False)
    output_sha256: str
    refusal: Refusal | None


def sha256(content: bytes) -> str:
    """Returns the SHA-256 of bytes in hexadecimal digits."""
    return hashlib.sha256(content).hexdigest()


def called(call: Call) -> Answer:
    """Runs a call on this machine, with its files in a temporary directory. Raises Refusal if a signal ended the program,
    since that says nothing about the files, and ProgramNotFound.
    """
    program = find_program(call.program)
    with tempfile.TemporaryDirectory(prefix="pairmd-") as folder:
        paths = [os.path.join(folder, name) for name in ("job", "states")]
        for path, content in zip(paths, (call.job, call.states), strict=True):
            with open(path, "wb") as file:
                file.write(content)
        words = [program, call.command, *paths, *call.options]
        ran = subprocess.run(words, stdin=subprocess.DEVNULL, capture_output=True, check=False)
    error = refusal(program, ran.returncode, ran.stderr.decode("utf-8", "backslashreplace")) if ran.returncode else None
    if error and error.status < 0:
        raise error
    return Answer(call.number, call.sha256(), ran.stdout, sha256(ran.stdout), error)


def answers(calls: Sequence[Call], map: Map) -> list[Answer]:
    """Returns the answer to each call, in the order of the calls. Raises AnswerError if one is missing, came twice or is
    the answer to something else, and the exceptions of the map and of `called`.
    """
    sums = {call.number: call.sha256() for call in calls}
    given: dict[int, Answer] = {}
    for it in map(called, calls):
        answer = it.result() if hasattr(it, "result") else it
        if not isinstance(answer, Answer) or answer.number in given:
            raise AnswerError(f"the map gave {answer!r}, which is no answer or came before")
        if answer.call_sha256 != sums.get(answer.number) or answer.output_sha256 != sha256(answer.output):
            raise AnswerError(f"the answer to call {answer.number} is about other bytes: its SHA-256 differs")
        given[answer.number] = answer
    missing = [str(number) for number in sums if number not in given]
    if missing:
        raise AnswerError(f"the map lost {len(missing)} of {len(sums)} answers, to the calls {', '.join(missing[:9])}")
    return [given[number] for number in sums]


def restarting(make: Callable[[], Executor], tries: int = 3) -> Map:
    """Returns a map over an executor that is made again if it breaks, as a ProcessPoolExecutor does when one of its
    processes is killed. Only what has no result is submitted again.

    make: makes an executor, such as `lambda: ProcessPoolExecutor(4)`.
    tries: the greatest number of executors; if all break, the map raises BrokenExecutor.
    """

    def over(function: Callable[[Any], Any], calls: Iterable[Any]) -> list[Any]:
        left, done = dict(enumerate(calls)), dict[int, Any]()
        for _ in range(tries):
            with make() as executor:
                done |= finished(executor, function, left)
            left = {at: call for at, call in left.items() if at not in done}
            if not left:
                return [done[at] for at in sorted(done)]
        raise BrokenExecutor(f"{tries} executors broke, and {len(left)} calls are left")

    return over


def finished(executor: Executor, function: Callable[[Any], Any], calls: dict[int, Any]) -> dict[int, Any]:
    """Submits calls to an executor, and returns the results, without those that a broken executor left undone."""
    futures: dict[int, Future[Any]] = {}
    done: dict[int, Any] = {}
    with suppress(BrokenExecutor):
        for at, call in calls.items():
            futures[at] = executor.submit(function, call)
    for at, future in futures.items():
        with suppress(BrokenExecutor):
            done[at] = future.result()
    return done
