"""Replays of stored runs: is each state of a stream the run of the state before it, byte for byte?

  replay = pairmd.replay("argon.job", "states.xz", workers=4)
  print(replay)
  20 of 20 segments are the same

A segment is two neighbouring states. `pairmd replay` makes the steps between their counters, forward or back, and
compares every byte. Without `map` it is called once. With `map` the stream is cut into pieces, which overlap by one state
and go to any workers as bytes (`spread`).
"""

from __future__ import annotations

import os
import re
from collections.abc import Callable, Iterator, Sequence
from dataclasses import dataclass
from itertools import islice, pairwise
from typing import IO, NamedTuple

from .errors import AnswerError, Refusal
from .program import Count, JobInput, Named, StatesInput, files, stream
from .spread import Call, Map, answers
from .texts import lines_of
from .units import integer

NOT_ONE_RUN = "A7"
"""The error if segments differ."""
LINE = re.compile(r"(-?[0-9]+) (-?[0-9]+) (?:same|differs: (.+))\n")
IN_STATE = re.compile(r"(?<= in state )[0-9]+\Z")
HEADS = {b"pairmd state 1\n": 4, b"pairmd state 2\n": 5}
"""The number of the line with the number of atoms, by the first line of a state."""
COUNT = re.compile(rb"atoms ([0-9]{1,5})\n")
STEP = re.compile(rb"step (0|-?[1-9][0-9]{0,18})\n")

Say = Callable[[str], None]


@dataclass(frozen=True)
class Segment:
    """Two neighbouring states of a stream, and whether the run from the first leads to the second.

    number: the number of the first state in the stream, from 1; the second has the next number.
    start, stop: the step counters of both.
    difference: where the run first differs from the second state, such as `atom 396 z`; None if each byte is the same.
    """

    number: int
    start: int
    stop: int
    difference: str | None

    def __str__(self) -> str:
        """The line that `pairmd replay` prints."""
        return f"{self.start} {self.stop} " + (f"differs: {self.difference}" if self.difference else "same")


@dataclass(frozen=True)
class Replay:
    """The replayed segments of a stream, in its order."""

    segments: tuple[Segment, ...]

    @property
    def differing(self) -> tuple[Segment, ...]:
        """The segments that differ."""
        return tuple(it for it in self.segments if it.difference)

    @property
    def same(self) -> bool:
        """Whether no replayed segment differs. If all segments were replayed, the stream is then of one run."""
        return not self.differing

    def faults(self) -> list[str]:
        """Returns a sentence for each segment that differs. Two neighbours that differ are one fault, of the state that they
        share.
        """
        differing = {it.number: it for it in self.differing}
        sentences = []
        for number, it in differing.items():
            text = f"state {number + 1} (step {it.stop}) isn't the run of state {number} (step {it.start}): {it.difference}"
            if number + 1 in differing:
                sentences.append(f"{text}; state {number + 2} isn't its run")
            elif number - 1 not in differing:
                sentences.append(text)
        return sentences

    def __str__(self) -> str:
        count, differing = len(self.segments), len(self.differing)
        return "\n".join([f"{count - differing} of {count} segments are the same", *self.faults()])


@dataclass(frozen=True)
class Plan:
    """Which segments are replayed: those of a part, whose counters are both within a range (docs/FORMATS.md)."""

    start: int | None
    stop: int | None
    part: int
    parts: int

    @property
    def is_range(self) -> bool:
        """Whether the plan has a range."""
        return self.start is not None or self.stop is not None

    def has(self, number: int, start: int | None, stop: int | None) -> bool:
        """Whether the segment is replayed whose first state has this number, from 1, and whose states have these counters. A
        counter that can't be read is in every range, since the program rejects its state.
        """
        low = -(2**63) if self.start is None else self.start
        high = 2**63 if self.stop is None else self.stop
        return (number - 1) % self.parts == self.part - 1 and all(it is None or low <= it <= high for it in (start, stop))

    def options(self) -> list[str]:
        """Returns the program's options."""
        range_words = [f"--{name}={it}" for name, it in (("from", self.start), ("to", self.stop)) if it is not None]
        return [*range_words, *[f"--part={self.part}/{self.parts}"] * (self.parts > 1)]


def plan_of(start: Count | None, stop: Count | None, part: str | None) -> Plan:
    """Returns the plan of the arguments of `replay`. Raises ValueError."""
    found = re.fullmatch(r"([1-9][0-9]*)/([1-9][0-9]*)", "1/1" if part is None else part)
    if not found or int(found[1]) > int(found[2]):
        raise ValueError(f"the part must be i/n with i from 1 to n, and {part!r} isn't")
    low, high = (None if it is None else integer(it, name) for it, name in ((start, "start"), (stop, "stop")))
    return Plan(low, high, int(found[1]), int(found[2]))


def replay(
    job: JobInput,
    states: StatesInput,
    map: Map | None = None,
    *,
    segments: Count = 1,
    workers: Count = 1,
    start: Count | None = None,
    stop: Count | None = None,
    part: str | None = None,
    say: Say | None = None,
    program: Named = None,
) -> Replay:
    """Replays a stream of states: states, or the path of a file, which may be compressed (`.gz`, `.xz`).

    map: spreads the work, with the whole stream in memory; see `spread`. Without it the program is called once.
    segments: the number of segments of each piece that the map gets.
    workers: the threads of each call of the program.
    start, stop: only segments with both counters in this range. Without a map the program reads and checks the other states
    too; a map doesn't get them, so their errors aren't found.
    part: `i/n` for each n-th segment from the i-th on, so that n calls replay all of them; not with a map.
    say: gets the line of each segment, as it is done; with a map after all are done.

    Raises Refusal for a job or a state that the program rejects, with the state's number in the whole stream; AnswerError
    if a map loses pieces; ValueError if the stream has no segment within the range.
    """
    plan = plan_of(start, stop, part)
    if map is not None and part is not None:
        raise ValueError("a map gets all pieces: leave out the part")
    options = [f"--workers={integer(workers, 'workers')}", *plan.options()]
    with files(job, states) as (job_path, path):
        if map is None:
            found = replayed_at_once(plan, job_path, path, options, say, program)
        else:
            found = replayed_in_pieces(plan, job_path, path, options, integer(segments, "segments"), map, program)
            if say:
                for it in found:
                    say(str(it))
    if not found and plan.is_range and part is None:
        raise ValueError(f"the stream has no segment from step {plan.start} to {plan.stop}")
    return Replay(tuple(found))


def replayed_at_once(plan: Plan, job: str, path: str, options: list[str], say: Say | None, program: Named) -> list[Segment]:
    """Returns the segments of a file, as one call of the program replays them."""
    lines: list[str] = []
    is_refused = False
    try:
        with stream("replay", job, path, *options, program=program) as output:
            for line in output:
                lines.append(line)
                if say:
                    say(line.rstrip("\n"))
    except Refusal as error:
        is_refused = error.code == NOT_ONE_RUN
        if not is_refused:
            raise
    with open(path, "rb") as file:
        whole = Piece(1, tuple(it.counter for it in state_texts(file)))
    return whole.matched(plan, lines, is_refused)


def replayed_in_pieces(plan: Plan, job: str, path: str, options: list[str], size: int, map: Map, program: Named) -> list[Segment]:
    """Returns the segments of a file, replayed over a map in pieces of this many segments."""
    with open(job, "rb") as file:
        job_bytes = file.read()
    with open(path, "rb") as file:
        pieces = [it for it in pieces_of(file, size) if len(it.counters) < 2 or it.wanted(plan)]
    named = None if program is None else os.fspath(program)
    calls = [Call(it.first, "replay", job_bytes, it.content, tuple(options), named) for it in pieces]
    segments = []
    for piece, answer in zip(pieces, answers(calls, map), strict=True):
        if answer.refusal and answer.refusal.code != NOT_ONE_RUN:
            raise in_stream(answer.refusal, piece.first)
        segments += piece.matched(plan, lines_of(answer.output.decode("ascii", "replace")), answer.refusal is not None)
    return segments


def in_stream(error: Refusal, first: int) -> Refusal:
    """Returns the error of a piece as that of its stream, in which the piece's first state has this number."""
    line = IN_STATE.sub(lambda found: str(int(found[0]) + first - 1), error.line)
    return Refusal(error.status, error.code, line, error.explanation)


@dataclass(frozen=True)
class Piece:
    """Neighbouring states of a stream.

    first: the number of the first, from 1.
    counters: the step counter of each; the last is None if it can't be read.
    content: their texts.
    """

    first: int
    counters: tuple[int | None, ...]
    content: bytes = b""

    def wanted(self, plan: Plan) -> list[tuple[int, int | None, int | None]]:
        """Returns the segments that a plan has: the number of the first state, and both counters."""
        segments = [(number, *both) for number, both in enumerate(pairwise(self.counters), self.first)]
        return [it for it in segments if plan.has(*it)]

    def matched(self, plan: Plan, lines: Sequence[str], is_refused: bool) -> list[Segment]:
        """Returns the segments of the lines that the program printed, whose status said whether any differ. Raises
        AnswerError unless the lines are of the segments that the plan has, one of each.
        """
        found, wanted = [LINE.fullmatch(line) for line in lines], self.wanted(plan)
        if [it and (int(it[1]), int(it[2])) for it in found] != [it[1:] for it in wanted]:
            raise AnswerError(f"the program printed {len(lines)} lines, which aren't those of the {len(wanted)} segments to replay")
        if is_refused != any(it and it[3] for it in found):
            raise AnswerError("the program's status and its lines disagree on whether segments differ")
        if None in self.counters:
            raise AnswerError(f"the program accepted state {self.first + len(self.counters) - 1}, which can't be read")
        return [Segment(number, int(it[1]), int(it[2]), it[3]) for (number, _, _), it in zip(wanted, found, strict=True) if it]


def pieces_of(file: IO[bytes], segments: int) -> Iterator[Piece]:
    """Yields pieces of a stream with this many segments; the last may have fewer. Each begins with the last state of the
    one before. There is always a piece, which is empty for an empty stream. Raises ValueError for no segments.
    """
    if segments < 1:
        raise ValueError("a piece has one segment or more")
    first, kept = 1, list[Text]()
    for text in state_texts(file):
        kept.append(text)
        if len(kept) > segments:
            yield piece_of(first, kept)
            first, kept = first + segments, kept[-1:]
    if len(kept) > 1 or first == 1:
        yield piece_of(first, kept)


class Text(NamedTuple):
    """The text of a state in a stream, and its step counter. None: no state can be read from the text."""

    counter: int | None
    content: bytes


def piece_of(first: int, texts: Sequence[Text]) -> Piece:
    """Returns the piece of some texts, the first of which has this number in the stream."""
    return Piece(first, tuple(it.counter for it in texts), b"".join(it.content for it in texts))


def state_texts(file: IO[bytes]) -> Iterator[Text]:
    """Yields the text of each state of a stream, cut as the program cuts it: by the number of atoms that a state gives. A
    text without that or without a counter is the last, since the program rejects it.
    """
    while first := file.readline():
        lines = [first, *islice(file, HEADS.get(first, 1) - 1)]
        count = COUNT.fullmatch(lines[-1])
        step = STEP.fullmatch(lines[2]) if count and len(lines) > 2 else None
        lines += islice(file, int(count[1]) + 1 if count else 0)
        yield Text(int(step[1]) if step else None, b"".join(lines))
        if not step:
            return
