"""Transcripts, in the format that CONTRIBUTING.md describes: test cases, words of commands, and programs for files.

Everything is bytes, since a transcript may contain any.
"""
import re
from dataclasses import dataclass, field
from enum import Enum
from typing import Callable, List, Optional, Tuple


class Kind(Enum):
    """What a line of a transcript is."""

    PROSE = 0
    COMMAND = 1
    TEXT = 2  # a line of the file that the command above writes
    OUTPUT = 3


def kind_of(line: bytes) -> Kind:
    """The kind of a line of a transcript."""
    if line.startswith(b"  $ "):
        return Kind.COMMAND
    if line == b"  >" or line.startswith(b"  > "):
        return Kind.TEXT
    return Kind.OUTPUT if line.startswith(b"  ") else Kind.PROSE


@dataclass
class Row:
    """A test case: a command of a transcript with its output, as lines, and its exit status."""

    transcript: str
    line: int
    words: List[bytes]
    written: List[bytes] = field(default_factory=list)  # the lines of the file that the command writes
    output: List[bytes] = field(default_factory=list)  # all lines of output, and the line of a status
    printed: List[bytes] = field(default_factory=list)
    status: int = 0

    def told(self):
        """The lines on standard error: progress, and the line of an error."""
        return [line for line in self.printed if line.startswith(b"pairmd: ")]

    def text(self):
        """The text on standard output."""
        lines = [line + b"\n" for line in self.printed if not line.startswith(b"pairmd: ")]
        text = b"".join(lines)
        no_end = b" (no-eol)\n"
        return text[: -len(no_end)] if text.endswith(no_end) else text


def words_of(command: bytes) -> List[bytes]:
    """The words of a command: parts between blanks, and parts between two quotation marks. After `$` the escapes of such
    a part are replaced.
    """
    words = []
    for number, part in enumerate(command.split(b"'")):
        if number % 2 == 0:
            words += part.split()
        elif words[-1:] == [b"$"]:
            words[-1] = unescaped(part)
        else:
            words.append(part)
    return words


def rows_of(transcript: str, text: bytes) -> List[Row]:
    """The test cases of a transcript."""
    rows = []
    for number, line in enumerate(text.split(b"\n"), 1):
        kind = kind_of(line)
        if kind is Kind.COMMAND:
            rows.append(Row(transcript, number, words_of(line[4:])))
        elif kind is Kind.TEXT:
            rows[-1].written.append(line[4:])
        elif kind is Kind.OUTPUT:
            rows[-1].output.append(line[2:])
            if re.fullmatch(rb"  \[[0-9]+\]", line):
                rows[-1].status = int(line[3:-1])
            else:
                rows[-1].printed.append(line[2:])
    return rows


ESCAPES = {b"n": b"\n", b"r": b"\r", b"t": b"\t"}


def unescaped(text):
    """The text with each escape replaced by its byte: `\\n`, `\\r`, `\\t`, and `\\xHH`."""

    def byte_of(escape):
        letter = escape[1]
        return ESCAPES[letter] if letter in ESCAPES else bytes([int(letter[1:], 16)])

    return re.sub(rb"\\(n|r|t|x[0-9a-f]{2})", byte_of, text)


def with_line(file, number, text):
    """The file with a line replaced by a text, or removed."""
    lines = re.findall(rb"[^\n]*\n|[^\n]+", file)
    if 1 <= number <= len(lines):
        lines[number - 1 : number] = [] if text is None else [unescaped(text) + b"\n"]
    return b"".join(lines)


def listing_of(lines):
    """The listing from its lines after the first, separated by commas."""
    return b"pairmd code 1\n" + b"".join(line.strip() + b"\n" for line in lines.split(b","))


Text = Optional[bytes]  # None for a text that isn't known


def change_of(words: List[bytes]) -> Optional[Tuple[bytes, Callable[[Text], Text], List[bytes]]]:
    """The change of a file in front of a command, `with NAME N TEXT` or `listing LINES`: the file's name, its new text as a
    function of its old one, and the words after the change. None if there is no change.
    """
    if words[:1] == [b"with"]:
        return words[1], lambda file: None if file is None else with_line(file, int(words[2]), words[3]), words[4:]
    if words[:1] == [b"listing"]:
        return b"listing", lambda _: listing_of(words[1]), words[2:]
    return None


class NoSuchFile(Exception):
    """A file with unknown contents: a command that the specification doesn't define makes it, or it doesn't exist."""


class Files:
    """The files that a transcript sees: those of a directory, and those that its commands write."""

    def __init__(self, folder):
        self.folder = folder
        self.files = {}

    def write(self, name, text):
        """Writes a file; None means an unknown text."""
        self.files[name] = text

    def read(self, name):
        """The bytes of a file."""
        if name not in self.files:
            path = self.folder / name.decode("utf-8", "replace")
            if not path.is_file():
                raise NoSuchFile(name)
            return path.read_bytes()
        if self.files[name] is None:
            raise NoSuchFile(name)
        return self.files[name]

    def changed(self, words):
        """The files after the changes in front of a command, and the words after these."""
        changed = Files(self.folder)
        changed.files = dict(self.files)
        while change := change_of(words):
            name, new_text, words = change
            changed.write(name, new_text(changed.text(name)))
        return changed, words

    def text(self, name):
        """The bytes of a file; None if they aren't known."""
        try:
            return self.read(name)
        except NoSuchFile:
            return None


def made_by(files, words):
    """The output of the programs that make and compare files; None for other words."""
    if words[0] == b"cat":
        return b"".join(files.read(name) for name in words[1:])
    if words[0] == b"cmp":
        same = files.read(words[1]) == files.read(words[2])
        return b"" if same else b"%b %b differ\n" % (words[1], words[2])
    if words[0] == b"printf":
        return unescaped(words[1])
    if words[0] == b"sed":
        number, text = re.fullmatch(rb"([0-9]+)(?:d|c (.*))", words[1], re.DOTALL).groups()
        return with_line(files.read(words[2]), int(number), text)
    if words[:2] == [b"head", b"-c"]:
        return files.read(words[3])[: int(words[2])]
    if words[0] == b"yes":
        return (words[1] + b"\n") * int(words[5])
    return None
