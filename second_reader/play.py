#!/usr/bin/env python3
"""Plays each `run` and `back` of the transcripts with the definitions, and compares the transcripts' output.

  play.py [TRANSCRIPT ..]     all of transcripts/ by default

If a test case prints a state, the specification must have that text; with `returns`, the same number of steps the other
way must lead to the starting state. If a test case is rejected for a reason that the specification knows, there must be
no text, for want of the field that the error names (FIELDS). The program rejects more than the specification with A3,
V2 and V3, and with E10 if the derivative or its code is too large. The specification may have a text for these; they
are counted separately. Test cases of `cat`, `cmp`, `head` and `sed` compare the files that runs wrote. For `check`,
`code` and `curve`, the script tests whether the text is a job with an energy, and compares the tables of `curve` with
those of curve.py. It prints a line for each disagreement. The exit status is 1 if there is one, or if nothing was
played.
"""
import sys
from collections import Counter
from pathlib import Path

from curve import arguments, text_for
from read import with_deep_stack
from run_specification import NoText, TooMuchWork, job_says, levesque_verlet_run
from steps import Direction
from transcripts import Files, NoSuchFile, made_by, rows_of

DATA = Path(__file__).resolve().parent.parent / "transcripts"

# For each error that the specification knows, the field of IsLevesqueVerletRun that doesn't exist.
FIELDS = {
    "J": "job_text", "S": "state_text'", "E": "energy", "A6": "alike", "A1": "typed", "A2": "room", "A4": "after_text",
}  # fmt: skip
BEYOND = ("A3", "V2", "V3", "E10")  # rejected whether or not the specification has a text
# The specification doesn't mention failed outputs and memory.
OTHERS = (b"beginnings", b"outputs", b"errors", b"requests", b"memory")
OPPOSITE = {Direction.Forward: Direction.Back, Direction.Back: Direction.Forward}


class LeftOut(Exception):
    """A test case that isn't played, and the reason."""


def request_of(words):
    """Direction, job, state and number of steps from the arguments of `pairmd`."""
    direction = Direction.Forward if words[0] == b"run" else Direction.Back
    names, steps, rest = [], None, words[1:]
    while rest:
        if rest[0] in (b"--steps", b"--workers") and len(rest) > 1:
            steps = rest[1] if rest[0] == b"--steps" else steps
            rest = rest[1:]
        elif rest[0].startswith(b"--steps="):
            steps = rest[0].removeprefix(b"--steps=")
        elif not rest[0].startswith(b"--"):
            names.append(rest[0])
        elif rest[0] != b"--progress":
            raise LeftOut("for its arguments")
        rest = rest[1:]
    if len(names) != 2 or steps is None or not steps.isdigit():
        raise LeftOut("for its arguments")
    return direction, names[0], names[1], int(steps)


def read_by(words, row, files, returns):
    """The specification's answer to the arguments of `pairmd`: a text and no fields, or None and the fields that don't
    exist. The third result is whether the same number of steps the other way leads to the state, or True if `returns`
    is false.
    """
    if row.status == 2:
        raise LeftOut("for its arguments")
    direction, job, state, steps = request_of(words)
    if row.status == 5:
        raise LeftOut("for files that can't be read")
    try:
        job, state = files.read(job), files.read(state)
    except NoSuchFile:
        raise LeftOut("as another command makes its state") from None
    try:
        text = levesque_verlet_run(job, state, direction, steps)
        comes_back = not returns or levesque_verlet_run(job, text, OPPOSITE[direction], steps) == state
        return text, (), comes_back
    except NoText as it:
        return None, it.fields, True
    except TooMuchWork:
        raise LeftOut("as too much work") from None


def code_of(row):
    """The code of the error that a test case prints, or an empty text."""
    return row.told()[-1].split()[1].decode() if row.status else ""


class Player:
    """Plays test cases, and counts them."""

    def __init__(self):
        self.counts = Counter()
        self.disagreements = 0
        self.files = Files(DATA)
        self.known = {}  # the transcript's output of other commands, by their words and files

    def play_transcript(self, path):
        """Plays a transcript from its first test case, with no file written yet."""
        self.files = Files(DATA)
        self.known = {}
        for row in rows_of(path.name, path.read_bytes()):
            self.play(row)

    def disagree(self, row, why):
        """Prints and counts a disagreement."""
        self.disagreements += 1
        print(f"{row.transcript}:{row.line}: {why}: {b' '.join(row.words)[:100].decode('utf-8', 'replace')}")

    def play(self, row):
        """Plays a test case, and writes its output to a file if it names one."""
        words, name = row.words, None
        if words[:2] == [b"cat", b">"]:
            self.files.write(words[2], b"".join(line + b"\n" for line in row.written[:-1]))
            return
        if words[-2:-1] == [b">"]:
            words, name = words[:-2], words[-1]
        text = self.outcome(row, words, name)
        if name is not None:
            self.files.write(name, text)

    def outcome(self, row, words, name):
        """The output of a test case, or None if it isn't known."""
        files, words_behind = self.files.changed(words)
        if b"pairmd" not in words_behind:
            return self.make(row, words_behind, files, name)
        program = words_behind.index(b"pairmd")
        command = words_behind[program + 1 :]
        if command[:1] == [b"curve"] and len(command) > 1 and row.status == 0 and program == 0 and name is None:
            self.compare_tables(row, command[1:], files)
        of_job = command[:1] in ([b"check"], [b"code"]) and len(command) == 2
        if (of_job or command[:1] == [b"curve"] != command) and row.status in (0, 1, 3) and program == 0:
            self.judge(row, command[1], files)
        if command[:1] not in ([b"run"], [b"back"]):
            key = (tuple(words), tuple(self.files.files.get(word) for word in words))
            if name is None:
                self.known[key] = row.text()
            return self.known.get(key)
        return self.run(row, words_behind[0], command, files, name)

    def run(self, row, prefix, words, files, name):
        """Plays a test case of `run` or `back`. The prefix is the first word after those that change files."""
        self.counts["test cases of run and back, of which were"] += 1
        try:
            if prefix in OTHERS:
                raise LeftOut("of outputs or memory")
            text, lacking, comes_back = read_by(words, row, files, prefix == b"returns")
        except LeftOut as it:
            self.counts[f"left out {it}"] += 1
            return None
        if row.status == 0:
            self.compare(row, text, lacking, name)
            if not comes_back:
                self.disagree(row, "the way back doesn't lead to the state")
        else:
            self.compare_refusal(row, text, lacking)
        if prefix == b"returns":
            self.files.write(b"there", text)
        return text if row.status == 0 else b""

    def compare(self, row, text, lacking, name):
        """If a test case prints a state, the specification must have that text."""
        if text is None:
            self.disagree(row, f"the specification has no text, for want of {', '.join(lacking)}")
        elif name is not None:
            self.counts["played: a text, written to a file"] += 1
        elif text == row.text():
            self.counts["played: the same text"] += 1
        else:
            self.disagree(row, "the specification has another text")

    def judge(self, row, job, files):
        """Plays a test case of `check`, `code` or `curve` like the job of a run: its text must be a job, and its energy
        valid, unless the error says otherwise. The specification may accept a job that E10 rejects, and with J6, of
        names in the arguments, the energy may be invalid.
        """
        try:
            lacking = ()
            job_says(files.read(job))
        except NoSuchFile:
            return
        except NoText as it:
            lacking = it.fields
        code = code_of(row)
        field = FIELDS.get(code[:1])
        self.counts["compared: the job of a test case of check, code or curve"] += 1
        if code == "J6":
            agrees = "job_text" not in lacking
        else:
            agrees = code == "E10" or lacking == ((field,) if field else ())
        if not agrees:
            self.disagree(row, f"{code or 'accepted'}, but the specification lacks {', '.join(lacking) or 'no field'}")

    def compare_tables(self, row, words, files):
        """Compares the tables of a test case of `curve` with those of the page of bounds."""
        words = [word.decode() for word in words if word != b"--progress"]
        given = arguments(words)
        try:
            text = text_for(given, files.read(given.job.encode()))
        except NoSuchFile:
            return
        self.counts["compared: the tables of curve"] += 1
        if text.encode() != row.text():
            self.disagree(row, "the page of bounds has another table")

    def compare_refusal(self, row, text, lacking):
        """If a test case is rejected, the specification must have no text, unless it doesn't know the reason."""
        code = code_of(row)
        field = FIELDS.get(code) or FIELDS.get(code[0])
        if code in BEYOND and field not in lacking:
            has = "a text" if text is not None else "none"
            self.counts[f"played: rejected with {code}, unknown to the specification, which has {has}"] += 1
        elif text is None and field in lacking:
            self.counts[f"played: no text, and an error {code[0] if code[0] in FIELDS else code}"] += 1
        else:
            has = f"lacks {', '.join(lacking)}" if lacking else "has a text"
            self.disagree(row, f"rejected with {code}, but the specification {has}")

    def make(self, row, words, files, name):
        """Plays a test case of a program that makes or compares files."""
        try:
            text = made_by(files, words)
        except NoSuchFile:
            learned = row.text() if words[0] == b"cat" and len(words) == 2 and name is None else None
            if learned is not None and row.status == 0:
                self.files.write(words[1], learned)
            return None
        if text is not None and name is None:
            self.counts["compared: files, with cat, cmp, head or sed"] += 1
            if text != row.text():
                self.disagree(row, "the files differ")
        return text


def main():
    paths = [Path(name) for name in sys.argv[1:]] or sorted(DATA.glob("*.t"))
    player = Player()
    for path in paths:
        player.play_transcript(path)
    for what, count in sorted(player.counts.items(), reverse=True):
        print(f"{count:5} {what}")
    played = sum(count for what, count in player.counts.items() if what.startswith("played"))
    print(f"{played} test cases of run and back were played by the second reader; {player.disagreements} disagree")
    return 1 if player.disagreements or not played else 0


if __name__ == "__main__":
    sys.exit(with_deep_stack(main))
