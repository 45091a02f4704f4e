"""Errors of the module: files that aren't in their format, what a state can't hold, what isn't installed, a program that
isn't found or rejects its input, and a map that loses answers.
"""

from __future__ import annotations

import os
import sys


class FormatError(ValueError):
    """A file or text that isn't in its format (docs/FORMATS.md).

    code: the error that the program prints for it, such as `S1`, or None for its outputs, which it doesn't read.
    line: the number of the line, from 1, or None if no single line is wrong.
    reason: what is wrong.
    name: the file's name, or the kind of the text.
    """

    def __init__(self, reason: str, line: int | None = None, code: str | None = None, name: str | None = None) -> None:
        super().__init__(reason, line, code, name)
        self.reason, self.line, self.code, self.name = reason, line, code, name

    def __str__(self) -> str:
        where = ", ".join(filter(None, (self.name, f"line {self.line}" if self.line else "")))
        return (f"{where}: " if where else "") + self.reason + (f" ({self.code})" if self.code else "")


class NotHeld(ValueError):
    """A state, or another program's file, can't hold what it is given.

    name: one word for the reason, such as `TriclinicBox`; `python/pairmd/grids.py` and `lammps.py` list them.
    reason: what is wrong, and what to do.
    """

    def __init__(self, name: str, reason: str) -> None:
        super().__init__(name, reason)
        self.name, self.reason = name, reason

    def __str__(self) -> str:
        return f"{self.name}: {self.reason}"


class LibraryMissing(ImportError):
    """A library that a function needs isn't installed.

    name: of the missing module.
    """

    def __init__(self, name: str, package: str, project: str) -> None:
        install = f"`apt install {package}` installs it on Debian and Ubuntu, `pip install {project}` elsewhere"
        super().__init__(f"this needs {name.partition('.')[0]}, and {os.path.basename(sys.executable)} has none: {install}", name=name)


class ProgramNotFound(FileNotFoundError):
    """No program `pairmd` was found, or the named one can't be executed."""


class Refusal(Exception):
    """The program ended with a status other than 0.

    status: the exit status (docs/FORMATS.md, Exit statuses); negative if a signal ended the program.
    code: the error's code, such as `V2` or `Memory`; None for arguments that name no command.
    line: the error's line without `pairmd: `, or the first line on standard error.
    explanation: the output of `pairmd explain CODE`; without a code, all of standard error.
    """

    def __init__(self, status: int, code: str | None, line: str, explanation: str) -> None:
        super().__init__(status, code, line, explanation)
        self.status, self.code, self.line, self.explanation = status, code, line, explanation

    def __str__(self) -> str:
        return f"{self.line} (status {self.status})\n\n{self.explanation}".rstrip()


class AnswerError(RuntimeError):
    """A map didn't give one answer for each call, or an answer isn't that to its call."""
