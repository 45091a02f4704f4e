#!/usr/bin/env python3
"""Runs the test cases of transcripts with the program, and compares outputs and exit statuses with the expected ones.

  tools/test_cases.py [FILE ..]         all of transcripts/ by default; FILE may be a name in that directory
  tools/test_cases.py --print FILE      prints a transcript with the actual output of its commands

The environment's PAIRMD names the program, by default ./pairmd. Each transcript runs in a temporary directory of its own,
several side by side. The script prints a line for each transcript: its number of commands, or the first line that differs.
The list transcripts/counts has each transcript and its number of commands, so that no case is lost. In the
transcript `must_differ` each command must differ from its expected output. The prefixes `outputs`, `errors`, `requests`
and `memory` need the fault injector, crates/fault_injector/out/fault_injector or the one of --injector. Without the injector
their commands are skipped; if PAIRMD_NEEDS=all, that is an error. The exit status is 1 if anything failed.
"""
import argparse
import itertools
import os
import shutil
import sys
import tempfile
from concurrent.futures import ThreadPoolExecutor
from dataclasses import dataclass
from pathlib import Path

from shell import Shell, Skipped
from transcripts import Kind, kind_of, rows_of

ROOT = Path(__file__).resolve().parent.parent
DATA = ROOT / "transcripts"
INJECTOR = ROOT / "crates" / "fault_injector" / "out" / "fault_injector"
STORED = ("job", "state", "gro")  # the files with which each transcript begins
MUST_DIFFER = "must_differ"
MEMORY = "/dev/shm" if os.access("/dev/shm", os.W_OK) else None  # a directory in memory, for many small files


@dataclass
class Played:
    """A played transcript: its text, its text with the actual output, and the lines of its commands. A command is the
    same if its output and status are as written.
    """

    name: str
    text: bytes
    actual: bytes
    same: list[int]
    different: list[int]
    skipped: list[int]

    def commands(self) -> int:
        return len(self.same + self.different + self.skipped)

    def faults(self, counts: dict[str, int]) -> list[str]:
        """What is wrong with the transcript. Its number of commands must be that of the list."""
        found = []
        if self.name == MUST_DIFFER:
            found += [f"{self.name}: line {it} is as written, and must differ" for it in self.same]
        elif self.text != self.actual:
            found.append(first_difference(self.name, self.text, self.actual))
        if counts.get(self.name, self.commands()) != self.commands():
            found.append(f"{self.name}: {self.commands()} commands, and the list `counts` has {counts[self.name]}")
        return found

    def failed(self) -> int:
        """The number of commands that fail by their own output."""
        return len(self.same if self.name == MUST_DIFFER else self.different)

    def line(self) -> str:
        """The line for a transcript without faults."""
        skipped = f", {len(self.skipped)} SKIPPED" if self.skipped else ""
        return f"{self.name}: {self.commands()} commands, {'none ' * (self.name == MUST_DIFFER)}as written{skipped}"


def with_outputs(text: bytes, outputs: dict[int, list[bytes]]) -> bytes:
    """The transcript with these lines of output below each command, by the number of the command's line."""
    lines = []
    for number, line in enumerate(text.removesuffix(b"\n").split(b"\n"), 1):
        lines += [] if kind_of(line) is Kind.OUTPUT else [line]
        lines += [b"  " + it for it in outputs.get(number, ())]
    return b"".join(line + b"\n" for line in lines)


def first_difference(name: str, text: bytes, actual: bytes) -> str:
    """The first line in which a transcript and the played one differ."""
    lines = itertools.zip_longest(text.splitlines(keepends=True), actual.splitlines(keepends=True), fillvalue=b"")
    number, (written, printed) = next(it for it in enumerate(lines, 1) if it[1][0] != it[1][1])
    return f"{name}: line {number} is not as written\n  expected {written!r}\n  actual   {printed!r}"


def play(path: Path, program: str, injector: str | None) -> Played:
    """Plays a transcript in a directory of its own."""
    text, outputs, same, different, skipped = path.read_bytes(), {}, [], [], []
    with tempfile.TemporaryDirectory(prefix="transcript-", dir=MEMORY) as folder:
        for name in STORED:
            shutil.copy(DATA / name, folder)
        shell = Shell(program, injector, folder)
        for row in rows_of(path.name, text):
            try:
                outputs[row.line] = shell.play(row).lines()
                (same if outputs[row.line] == row.output else different).append(row.line)
            except Skipped:
                outputs[row.line] = row.output
                skipped.append(row.line)
    return Played(path.name, text, with_outputs(text, outputs), same, different, skipped)


def stored() -> list[str]:
    """The transcripts of the directory."""
    return sorted(it.name for it in DATA.glob("*.t")) + [MUST_DIFFER]


def counted() -> dict[str, int]:
    """The number of commands of each transcript, by the list."""
    lines = (DATA / "counts").read_text(encoding="ascii").splitlines()
    return {name: int(number) for name, number in map(str.split, lines)}


def unlisted(counts: dict[str, int]) -> list[str]:
    """The transcripts that only the list or only the directory has."""
    only = {name: "the list `counts`" if name in counts else "the directory" for name in counts.keys() ^ set(stored())}
    return [f"{name}: only {only[name]} has it" for name in sorted(only)]


def injector_of(name: Path) -> str | None:
    """The fault injector, or None if it isn't built and needn't be."""
    if os.access(name, os.X_OK):
        return os.path.abspath(name)
    if os.environ.get("PAIRMD_NEEDS") == "all":
        sys.exit(f"{name}: the fault injector isn't built, and PAIRMD_NEEDS=all")
    return None


def play_all(paths: list[Path], program: str, injector: str | None) -> int:
    """Plays transcripts side by side, and prints the results. Returns the exit status."""
    counts = counted()
    commands, skipped, failed, faults = 0, 0, 0, unlisted(counts)
    with ThreadPoolExecutor(os.cpu_count()) as pool:
        for played in pool.map(lambda path: play(path, program, injector), paths):
            found = played.faults(counts)
            print("\n".join(found) or played.line(), flush=True)
            commands += played.commands()
            skipped += len(played.skipped)
            failed += max(played.failed(), bool(found))
    print("".join(f"{it}\n" for it in faults), end="")
    if skipped:
        print(f"{skipped} commands are SKIPPED: the fault injector isn't built (tools/build.py fault_injector)")
    print(f"{commands - skipped - failed} passed, {failed + len(faults)} failed")
    return 1 if failed or faults or not commands else 0


def main() -> int:
    parser = argparse.ArgumentParser(description=__doc__, formatter_class=argparse.RawDescriptionHelpFormatter)
    parser.add_argument("files", nargs="*", metavar="FILE")
    parser.add_argument("--print", action="store_true", help="print the transcripts with the actual output")
    parser.add_argument("--injector", type=Path, default=INJECTOR, help="the fault injector")
    given = parser.parse_args()
    program, injector = os.path.abspath(os.environ.get("PAIRMD", ROOT / "pairmd")), injector_of(given.injector)
    if not os.access(program, os.X_OK):
        sys.exit(f"{program}: no such program; PAIRMD=.. names another")
    names = given.files or stored()
    paths = [Path(it) if os.path.exists(it) else DATA / it for it in names]
    if not given.print:
        return play_all(paths, program, injector)
    for path in paths:
        sys.stdout.buffer.write(play(path, program, injector).actual)
    return 0


if __name__ == "__main__":
    sys.exit(main())
