"""Rate and time left of a command that reports its progress.

The program itself reads no clock: what it prints depends on nothing but its arguments and files.
"""

from __future__ import annotations

import re
import time
from collections.abc import Callable, Iterable, Iterator
from datetime import timedelta

REPORT = re.compile(r"pairmd: ([0-9]+) of ([0-9]+) ([a-z]+)\n?")
SECONDS = 1.0
"""The least time between two reports that are shown."""


def with_rate(done: int, wanted: int, unit: str, elapsed: float) -> str:
    """Returns a report with its rate and the time left at that rate, if any time has passed."""
    report = f"pairmd: {done} of {wanted} {unit}"
    if not done or elapsed <= 0:
        return report
    left = timedelta(seconds=round((wanted - done) * elapsed / done))
    return f"{report}, {done / elapsed:,.0f} {unit}/s, {left} left"


def rates(lines: Iterable[str], now: Callable[[], float] = time.monotonic) -> Iterator[str]:
    """Yields the reports of progress among some lines with rate and time left, at most one a second and the last, and
    all other lines as they are.

    now: a clock in seconds. Rates count from the call, which should begin when the command does; those of a segment of a
    replay, from the report before it.
    """
    begin = last = shown = now()
    held = None
    before = (0, 0)
    for line in lines:
        found = REPORT.fullmatch(line)
        if found:
            at = now()
            done, wanted = int(found[1]), int(found[2])
            if before[0] >= done or before[1] not in (0, wanted):
                begin = last
            before, last = (done, wanted), at
            held = with_rate(done, wanted, found[3], at - begin)
            if at - shown < SECONDS:
                continue
            shown = at
        if held is not None:
            yield held
        held = None
        if not found:
            yield line.rstrip("\n")
    if held is not None:
        yield held
