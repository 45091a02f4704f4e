"""Runs the commands of transcripts in a directory: `pairmd` as a process, the small programs that make and compare files,
and prefixes, which run a command several times. CONTRIBUTING.md describes the commands.

The prefixes `outputs`, `errors`, `requests` and `memory` run the fault injector, the proved program of crates/fault_injector.
"""
import itertools
import os
import re
import subprocess
import sys
from collections.abc import Iterable
from typing import NamedTuple

ROOT = os.path.dirname(os.path.dirname(os.path.realpath(__file__)))
sys.path.insert(1, f"{ROOT}/second_reader")
from transcripts import NoSuchFile, Row, change_of, made_by  # noqa: E402

LIMIT = 300  # seconds that a process may take
WORKERS = (b"1", b"2", b"3", b"64")
RUN = re.compile(rb"status (\d+), requests (\d+), leaked (\d+), output (\d+), error (\d+)\n")
Words = list[bytes]


class Skipped(Exception):
    """A command that needs the fault injector, which isn't built."""


class Broken(Exception):
    """The fault injector didn't print the outcomes of its runs."""


def lines_of(text: bytes) -> list[bytes]:
    """The lines of an output; a last line without a line feed is marked."""
    lines = text.removesuffix(b"\n").split(b"\n") if text else []
    if text and not text.endswith(b"\n"):
        lines[-1] += b" (no-eol)"
    return lines


class Outcome(NamedTuple):
    """The output of a command, and its exit status."""

    out: bytes = b""
    err: bytes = b""
    status: int = 0

    def status_text(self) -> bytes:
        """The exit status as a transcript has it: nothing for 0."""
        return b" [%d]" % self.status if self.status else b""

    def lines(self) -> list[bytes]:
        """The lines of a transcript below the command, without their indentation."""
        return lines_of(self.out) + lines_of(self.err) + [self.status_text()[1:]] * (self.status != 0)

    def summary(self) -> bytes:
        """The output without its last line feed, then the status if it isn't 0."""
        return (self.out + self.err).removesuffix(b"\n") + self.status_text()


class Faulty(NamedTuple):
    """A run with a fault: its outcome, its number of requests for memory, and the number of blocks that it leaked."""

    outcome: Outcome
    requests: int
    leaked: int


def complaint(text: bytes) -> Outcome:
    return Outcome(err=text + b"\n", status=1)


class Folder:
    """The files of a directory, by their names."""

    def __init__(self, path: str) -> None:
        self.path = path

    def path_of(self, name: bytes) -> str:
        return os.path.join(self.path, os.fsdecode(name))

    def text(self, name: bytes) -> bytes | None:
        """The bytes of a file; None if it can't be read."""
        try:
            with open(self.path_of(name), "rb") as it:
                return it.read()
        except OSError:
            return None

    def read(self, name: bytes) -> bytes:
        """The bytes of a file."""
        if (text := self.text(name)) is None:
            raise NoSuchFile(name)
        return text

    def write(self, name: bytes, text: bytes | None) -> None:
        """Writes or overwrites a file; None removes it."""
        if text is None:
            os.remove(self.path_of(name))
            return
        with open(self.path_of(name), "wb") as it:
            it.write(text)


def ranges(summaries: Iterable[bytes]) -> Outcome:
    """The outcomes of commands that are numbered from 0; neighbours with equal outcomes share a line."""
    text, first = b"", 0
    for summary, equal in itertools.groupby(summaries):
        last = first + sum(1 for _ in equal) - 1
        text += (b"%d" % first if first == last else b"%d-%d" % (first, last)) + b": " + summary + b"\n"
        first = last + 1
    return Outcome(text)


def summary_of_output(left: int, outcome: Outcome, whole: Outcome) -> bytes:
    """The part of the whole output that an output of `left` bytes took, then the error and the status."""
    if outcome.out == whole.out:
        part = b"all"
    elif len(outcome.out) == left and whole.out.startswith(outcome.out):
        part = b"a beginning"
    else:
        part = b"something else"
    return part + (b", " + outcome.err.removesuffix(b"\n") + outcome.status_text() if outcome.status else b"")


def summary_of_errors(left: int, once: Outcome, ever: Outcome, whole: Outcome) -> bytes:
    """Compares an error output that took `left` bytes and then failed, once and always, with the whole outcome. It must
    have all bytes up to there, after a single failure also the lines after the failed one, and nothing else may change.
    """
    taken, rest = whole.err[:left], whole.err[left:]
    if once != whole._replace(err=taken + rest.partition(b"\n")[2]) or ever != whole._replace(err=taken):
        return b"something else"
    return b"each line as far as it is taken" if rest else b"all"


class Shell:
    """Runs commands of a transcript in a directory. `injector` is None if the fault injector isn't built."""

    def __init__(self, program: str, injector: str | None, folder: str) -> None:
        self.program, self.injector, self.files = program, injector, Folder(folder)
        self.prefixes = {
            b"workers": self.with_workers,
            b"returns": self.returning,
            b"outputs": self.failing_outputs,
            b"errors": self.failing_errors,
            b"requests": self.refused_requests,
            b"memory": self.requests_of_workers,
        }

    def play(self, row: Row) -> Outcome:
        """The outcome of a test case, whose output may go to a file."""
        if row.words[:2] == [b"cat", b">"]:
            if row.words[3:] != [b"<<", b"END"] or row.written[-1:] != [b"END"]:
                return complaint(b"no such command")
            self.files.write(row.words[2], b"".join(line + b"\n" for line in row.written[:-1]))
            return Outcome()
        if row.words[-2:-1] != [b">"]:
            return self.call(row.words)
        outcome = self.call(row.words[:-2])
        self.files.write(row.words[-1], outcome.out)
        return outcome._replace(out=b"")

    def call(self, words: Words) -> Outcome:
        """The outcome of a command. Changes of files before it are undone after it."""
        kept: list[tuple[bytes, bytes | None]] = []
        while change := change_of(words):
            name, new_text, words = change
            kept.append((name, self.files.text(name)))
            self.files.write(name, new_text(kept[-1][1] or b""))
        try:
            return self.program_of(words)
        except Broken as fault:
            return complaint(fault.args[0])
        finally:
            for name, text in reversed(kept):
                self.files.write(name, text)

    def program_of(self, words: Words) -> Outcome:
        """The outcome of a program after all changes of files."""
        if words[:1] == [b"pairmd"]:
            return self.pairmd(words[1:])
        if words[:1] == [b"beginnings"] and words[2:3] == [b"pairmd"]:
            return self.beginnings(words[1], words[3:])
        if words[1:2] == [b"pairmd"] and words[0] in self.prefixes:
            return self.prefixes[words[0]](words[2:])
        try:
            text = made_by(self.files, words) if words else None
        except NoSuchFile as fault:
            return complaint(b"no file " + fault.args[0])
        if text is None:
            return complaint(b"no such command")
        return Outcome(err=text, status=1) if words[0] == b"cmp" and text else Outcome(text)

    def process(self, *words: bytes | str) -> Outcome:
        """The outcome of a process, without any standard input."""
        how = {"cwd": self.files.path, "stdin": subprocess.DEVNULL, "capture_output": True, "timeout": LIMIT}
        try:
            ran = subprocess.run(words, check=False, **how)
        except subprocess.TimeoutExpired:
            return complaint(b"stopped after %d seconds" % LIMIT)
        return Outcome(ran.stdout, ran.stderr, ran.returncode)

    def pairmd(self, words: Words) -> Outcome:
        """The outcome of `pairmd` with these arguments."""
        return self.process(self.program, *words)

    def with_faults(self, kind: bytes, words: Words) -> list[Faulty]:
        """Runs of `pairmd` with a fault of this kind at each index from 0, up to the first run in which it doesn't occur."""
        if self.injector is None:
            raise Skipped
        whole, runs, at = self.process(self.injector, kind, *words), [], 0
        while found := RUN.match(whole.out, at):
            status, requests, leaked, out, err = map(int, found.groups())
            middle = found.end() + out
            outcome = Outcome(whole.out[found.end() : middle], whole.out[middle : middle + err], status)
            runs.append(Faulty(outcome, requests, leaked))
            at = middle + err + 1
        if whole.status or whole.err or not runs or at != len(whole.out):
            raise Broken(b"the fault injector breaks off after %d runs: %b" % (len(runs), whole._replace(out=b"").summary()))
        return runs

    def with_workers(self, words: Words) -> Outcome:
        """The outcome of a command, if it is the same with 1, 2, 3 and 64 workers."""
        alone = self.pairmd(words)
        for workers in WORKERS:
            if self.pairmd([*words, b"--workers", workers]) != alone:
                return complaint(b"another outcome by %b workers" % workers)
        return alone

    def returning(self, words: Words) -> Outcome:
        """The outcome of `run` or `back` with 1, 2, 3 and 64 workers, if the same number of steps in the other direction
        leads to the state's bytes.
        """
        there = self.with_workers(words)
        self.files.write(b"there", there.out)
        other = b"back" if words[0] == b"run" else b"run"
        back = self.with_workers([other, words[1], b"there", *words[3:]])
        returns = back.status == 0 and back.out == self.files.text(words[2])
        return there if returns else complaint(b"it does not return")

    def beginnings(self, name: bytes, words: Words) -> Outcome:
        """The outcomes of a command with this file cut off after each number of bytes, from none to all."""
        whole = self.files.text(name)
        if whole is None:
            return complaint(b"no such file")
        summaries = []
        for count in range(len(whole) + 1):
            self.files.write(name, whole[:count])
            summaries.append(self.pairmd(words).summary())
        return ranges(summaries)

    def failing_outputs(self, words: Words) -> Outcome:
        """The outcomes of a command on an output that takes n bytes and then fails, for each n from none to all."""
        runs, whole = self.with_faults(b"output", words), self.pairmd(words)
        return ranges(summary_of_output(left, run.outcome, whole) for left, run in enumerate(runs))

    def failing_errors(self, words: Words) -> Outcome:
        """The outcomes of a command with an error output that takes n bytes and then fails, once and always, for each n
        from none to all.
        """
        once, ever, whole = self.with_faults(b"error-once", words), self.with_faults(b"error", words), self.pairmd(words)
        if len(once) != len(ever):
            return complaint(b"one failure and many have other lengths")
        pairs = enumerate(zip(once, ever))
        return ranges(summary_of_errors(left, one.outcome, many.outcome, whole) for left, (one, many) in pairs)

    def refused_requests(self, words: Words) -> Outcome:
        """The outcomes of a command with each of its requests for memory failing in turn: each different outcome once, in
        order of appearance. `all` denotes the outcome without a failed request.
        """
        runs, whole = self.with_faults(b"request", words), self.pairmd(words)
        different: dict[bytes, None] = {}
        for run in runs:
            leak = b", and memory is left behind" if run.leaked else b""
            different[(b"all" if run.outcome == whole else run.outcome.summary()) + leak] = None
        return Outcome(b"".join(it + b"\n" for it in different))

    def requests_of_workers(self, words: Words) -> Outcome:
        """How many more requests for memory a command makes with 2 workers than with 1, and with 3 than with 2."""
        one, two, three = (self.with_faults(b"nothing", [*words, b"--workers", it])[0].requests for it in WORKERS[:3])
        return Outcome(b"2 workers: %d requests more\n3 workers: %d requests more\n" % (two - one, three - two))
