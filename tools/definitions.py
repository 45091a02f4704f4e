#!/usr/bin/env python3
"""Counts the definitions that a definition depends on, with their lines and files.

  tools/definitions.py                       for each promise that README.md names
  tools/definitions.py FILE NAME             for another definition, such as
                                             `engine/specs/RunSpecification IsLevesqueVerletRun`; also lists its files

A definition depends on the names in its lines, and on what those depend on, down to the standard library. Comments,
`use` lines and empty lines don't count.
"""
import os
import sys

ROOT = os.path.dirname(os.path.dirname(os.path.realpath(__file__)))
sys.path.insert(0, os.path.join(ROOT, "second_reader"))

import citations

TOLD = ("engine/specs/RunSpecification", "WroteLevesqueVerletRun")
SAFE = ("engine/specs/Engines", "AreSafe")
ANSWERS = ("cli/specs/Command", "IsAnswer")
PROMISES = {
    "writes_run_text": [TOLD],
    "safe": [TOLD, SAFE],
    "refused": [TOLD, SAFE, ("runs/specs/Unwritten", "IsRunUnwritten")],
    "answers": [ANSWERS],
    "fails": [ANSWERS, ("cli/specs/CommandFailure", "IsFailure")],
    "undone": [ANSWERS, ("cli/specs/Refusals", "IsFaultOf"), ("cli/specs/Progress", "IsTold")],
}


class Reading:
    """All definitions that the given ones depend on, by file."""

    def __init__(self, definitions):
        self.page = citations.Page()
        for path, name in definitions:
            if not (self.page.file(path) and self.page.file(path).owner(name)):
                sys.exit(f"{path} doesn't define {name}")
            self.page.stands_on(path, name)
        self.found = self.page.found

    def lines_in(self, path):
        texts = self.page.file(path).definitions
        return sum(bool(line.strip()) for name in self.found[path] for line in texts[name].split("\n"))

    def definitions(self):
        return sum(map(len, self.found.values()))

    def lines(self):
        return sum(map(self.lines_in, self.found))

    def files(self):
        """The files, in the order of crates.txt (lowest crates first), those of a crate in the order in which they are
        found.
        """
        with open(f"{ROOT}/crates.txt", encoding="utf-8") as it:
            crates = [line.partition(":")[0].split()[0] for line in it if line.strip() and not line.startswith("#")]
        return sorted(self.found, key=lambda path: crates.index(path.partition("/")[0]))

    def __str__(self):
        return f"{self.definitions()} definitions, {self.lines()} lines in {len(self.found)} files"


def promise(name):
    return Reading(PROMISES[name])


def main():
    if len(sys.argv) == 3:
        reading = Reading([tuple(sys.argv[1:])])
        print(reading)
        for path in reading.files():
            print(f"{path}: {len(reading.found[path])} definitions, {reading.lines_in(path)} lines")
    elif len(sys.argv) == 1:
        for name in PROMISES:
            print(f"{name}: {promise(name)}")
    else:
        sys.exit(__doc__)


if __name__ == "__main__":
    main()
