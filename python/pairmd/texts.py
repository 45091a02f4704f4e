"""Reading of lines, and the text of files and objects.

Texts have UTF-8 with any other bytes kept (Python's `surrogateescape`), so that titles and comments keep their bytes.
Only LF ends a line. Files whose names end in `.gz` or `.xz` are decompressed as they are read.
"""

from __future__ import annotations

import contextlib
import gzip
import io
import lzma
import os
import re
import zlib
from collections.abc import Callable, Iterable, Iterator
from itertools import islice
from typing import IO, Any, Union

from .errors import FormatError

ENCODING: dict[str, Any] = {"encoding": "utf-8", "errors": "surrogateescape", "newline": "\n"}
"""The arguments of `open` and of `subprocess` texts, for files of pairmd."""
OPENERS: dict[str, Callable[..., Any]] = {".gz": gzip.open, ".xz": lzma.open}
"""The functions that open compressed files, by the end of their names."""
DAMAGES = (EOFError, gzip.BadGzipFile, lzma.LZMAError, zlib.error)
DAMAGED = "the compressed file is damaged or cut off"

Source = Union[str, "os.PathLike[str]", IO[str], Iterable[str]]
"""A file's path, an open text file or pipe, or lines that end with LF."""


def is_compressed(path: str | os.PathLike[str]) -> bool:
    """Returns whether a file's name says that it is compressed."""
    return os.path.splitext(path)[1] in OPENERS


def opened(path: str | os.PathLike[str], mode: str = "rt") -> IO[Any]:
    """Opens a file for reading as text (`rt`) or as bytes (`rb`), decompressed. Read it within `damage_named`."""
    how = ENCODING if "t" in mode else {}
    opener = OPENERS.get(os.path.splitext(path)[1], open)
    return opener(path, mode, **how)  # type: ignore[no-any-return]


@contextlib.contextmanager
def damage_named(path: str | os.PathLike[str]) -> Iterator[None]:
    """Raises FormatError in place of the errors of a damaged compressed file."""
    try:
        yield
    except DAMAGES:
        raise FormatError(DAMAGED, name=os.fspath(path)) from None


class Lines:
    """The lines of a source, one at a time, with their numbers from 1.

    name: the file's name, for errors, or None.
    number: the number of the line that `take` returned last.
    seen: what parts of lines meant, kept for the parts that lines repeat.
    """

    def __init__(self, source: Source) -> None:
        self.number, self.name = 0, None
        self.seen: dict[str, Any] = {}
        self._file: IO[str] | None = None
        if isinstance(source, (str, os.PathLike)):
            self.name = os.fspath(source)
            self._file = opened(source)
        elif isinstance(source, io.IOBase):
            self.name = str(getattr(source, "name", "")) or None
        lines: Any = self._file or source
        self._lines: Iterator[str] = iter(lines)
        self._given: list[str] = []

    def __enter__(self) -> Lines:
        return self

    def __exit__(self, *_: object) -> None:
        if self._file:
            self._file.close()

    def take(self) -> str | None:
        """Returns the next line with its LF, or None at the end."""
        try:
            line: str | None = self._given.pop() if self._given else next(self._lines, None)  # type: ignore[arg-type]
        except DAMAGES:
            raise self.error(DAMAGED, line=self.number + 1) from None
        self.number += line is not None
        return line

    def block(self, count: int) -> list[str]:
        """Returns the next lines, at most this many; fewer only at the end."""
        block = [self._given.pop() for _ in range(min(count, len(self._given)))]
        try:
            block += islice(self._lines, count - len(block))
        except DAMAGES:
            raise self.error(DAMAGED, line=self.number + len(block) + 1) from None
        self.number += len(block)
        return block

    def give(self, line: str) -> None:
        """Puts back the line that `take` returned last, so that it is the next one."""
        self._given.append(line)
        self.number -= 1

    def error(self, reason: str, code: str | None = None, line: int | None = None) -> FormatError:
        """Returns an error at a line, by default the one that `take` returned last."""
        return FormatError(reason, self.number if line is None else line, code, self.name)


def put(file: str | os.PathLike[str] | IO[str], texts: Iterable[str]) -> None:
    """Writes texts to a path or to an open text file. Files with a buffer of bytes, such as standard output, get the
    same bytes whatever their encoding and line ends.
    """
    if isinstance(file, (str, os.PathLike)):
        with open(file, "w", **ENCODING) as opened:
            opened.writelines(texts)
    elif hasattr(file, "buffer"):
        file.flush()
        for text in texts:
            file.buffer.write(text.encode(ENCODING["encoding"], ENCODING["errors"]))
        file.buffer.flush()
    else:
        file.writelines(texts)


def lines_of(text: str) -> list[str]:
    """Returns the lines of a text, each with its LF; the last may lack it."""
    return re.findall(r"[^\n]*\n|[^\n]+\Z", text)


def whole(word: str, least: int, most: int) -> int | None:
    """Returns the integer that a word writes as states and listings do, without leading zeros or a plus; None if the
    word writes none from `least` to `most`.
    """
    if not re.fullmatch(r"0|-?[1-9][0-9]{0,19}", word):
        return None
    number = int(word)
    return number if least <= number <= most else None


def digits(word: str) -> int | None:
    """Returns the integer that a word of digits writes, or None; leading zeros are allowed. An integer of more than 20
    digits is returned as 10^20, above the range of every number of a file.
    """
    if not re.fullmatch(r"[0-9]+", word):
        return None
    figures = word.lstrip("0") or "0"
    return int(figures) if len(figures) <= 20 else 10**20
