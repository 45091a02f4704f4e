#!/usr/bin/env python3
"""Tries the mutants of crates/NAME/edits: the prover has to reject each.

  tools/edits.py [NAME ..] [--jobs N]      the mutants of the named crates, or of all
  tools/edits.py --stale [--jobs N]        the mutants of each crate that changed since all of them were rejected

A mutant has the form of the edits in crates/NAME/must-fail, which the CI gate tries itself. Each is tried over the work
that a check has kept, so no crate is proved again for a mutant. If all mutants of a crate were rejected, the script
writes a checksum of the crate's src, specs and edits to crates/NAME/edits/stamp. While the stamp fits, they would be
rejected again. The checksum leaves out comments and blank lines, which no proof reads; a mutant whose old text doesn't
occur exactly once makes its crate stale whatever the stamp. --stale uses the libraries that the CI gate has just built;
without --stale they are built first. With --stale each crate is proved once for its mutants, and no stamp is written.
The first line of output gives the number of mutants and an estimate of the time. Crates with the fewest mutants come
first, and all mutants of a crate are tried before the next crate is begun, so an interrupted run leaves few crates
untried.
"""
import argparse
import functools
import hashlib
import os
import re
import shutil
import sys
import threading
from collections import deque
from concurrent.futures import ThreadPoolExecutor

import build
import kit

PARTS = ("edits", "specs", "src")
# seconds of one core, about: to try a mutant over its proved crate, and to prove a crate for its mutants
SECONDS_OF_AN_EDIT = 24
SECONDS_OF_A_CRATE = 90


def edits_of(crate):
    folder = f"{crate.folder}/edits"
    names = sorted(os.listdir(folder)) if os.path.isdir(folder) else []
    return [f"{folder}/{name}" for name in names if name.endswith(".edit")]


# a string, a character or a comment, whichever begins first; of Rattle's code, and of definitions
TOKENS = {
    ".rt": re.compile(r'"(?:\\.|[^"\\])*"|\'(?:\\[^u]|\\u\{\w+\}|[^\\\'])\'|(?P<comment>//[^\n]*)', re.DOTALL),
    ".antt": re.compile(r'"(?:\\.|[^"\\])*"|(?P<comment>(?<![^\s(])--[^\n]*)', re.DOTALL),
}


def without_layout(name, text):
    """Returns a file's text without its comments, and with one blank for all white space between two tokens."""
    tokens = TOKENS.get(os.path.splitext(name)[1])
    if tokens is None:
        return text
    # white space inside a string is kept
    strings = []

    def cut(found):
        if found["comment"]:
            return " "
        strings.append(found[0])
        return "\0"

    code = tokens.sub(cut, text)
    return " ".join(code.split()) + "\0" + "\0".join(strings)


def sum_of(crate):
    """Returns the checksum of what decides whether the mutants are rejected: code, definitions and edits."""
    found = hashlib.sha256()
    for part in PARTS:
        for at, folders, files in os.walk(f"{crate.folder}/{part}"):
            folders.sort()
            for name in sorted(files):
                if name != "stamp":
                    path = f"{at}/{name}"
                    with open(path, encoding="utf-8") as it:
                        text = without_layout(name, it.read())
                    found.update(f"{os.path.relpath(path, crate.folder)}\0{text}\0".encode())
    return found.hexdigest()


def applies(crate, edit):
    """Whether the first old text of a mutant occurs exactly once in its file."""
    with open(edit, encoding="utf-8") as it:
        given = dict(line.split(": ", 1) for line in reversed(it.read().splitlines()) if ": " in line)
    with open(f"{crate.folder}/{given['file']}", encoding="utf-8") as it:
        return it.read().count(given["old"]) == 1


def stamp_of(crate):
    try:
        with open(f"{crate.folder}/edits/stamp", encoding="ascii") as it:
            return it.read().strip()
    except OSError:
        return None


def is_stale(crate):
    return stamp_of(crate) != sum_of(crate) or not all(applies(crate, it) for it in edits_of(crate))


def planned(crates, lanes):
    """Returns the crates in the order in which they are begun, and the first line of output."""
    ordered = sorted(crates, key=lambda it: len(edits_of(it)))
    edits = sum(len(edits_of(it)) for it in ordered)
    seconds = edits * SECONDS_OF_AN_EDIT + len(ordered) * SECONDS_OF_A_CRATE
    return ordered, f"{edits} mutants of {len(ordered)} crates, about {seconds / lanes / 60:.0f} minutes with {lanes} jobs"


class Edits:
    """Tries the mutants of crates side by side, and counts."""

    def __init__(self, trial, over_gate, crates):
        self.trial, self.over_gate = trial, over_gate
        self.crates, self.trials, self.beginning = deque(crates), deque(), 0
        self.passed, self.failed, self.guard = 0, [], threading.Condition()

    def run(self):
        """Runs one task after the other until none is left."""
        while task := self.next():
            task()

    def next(self):
        """Returns the next mutant of the crates that were begun, or else the beginning of the next crate."""
        with self.guard:
            self.guard.wait_for(lambda: self.trials or self.crates or not self.beginning)
            if not self.trials and self.crates:
                self.beginning += 1
                return functools.partial(self.begin, self.crates.popleft())
            return self.trials.popleft() if self.trials else None

    def begin(self, crate):
        """Proves a crate, and queues the trials of its mutants."""
        trials = []
        try:
            own = f"{crate.folder}/out/incremental"
            room = self.trial.seeded(crate, own if os.path.isdir(own) and not self.over_gate else None)
            if room is None:
                self.tell(False, f"{crate.name} itself is not proved")
                print(self.trial.errors(crate), file=sys.stderr, flush=True)
            else:
                left = {edit: None for edit in edits_of(crate)}
                trials = [functools.partial(self.one, crate, room, edit, left) for edit in left]
        finally:
            with self.guard:
                self.beginning -= 1
                self.trials += trials
                self.guard.notify_all()

    def one(self, crate, room, edit, left):
        """Tries a mutant. After the last one of a crate it writes the stamp, if all were rejected."""
        refused, said = self.trial.refused(crate, edit, room)
        self.tell(refused, said.replace("must-fail ", "edits/", 1))
        with self.guard:
            left[edit] = refused
            ended = None not in left.values()
        if ended:
            shutil.rmtree(room, ignore_errors=True)
            if all(left.values()) and not self.over_gate:
                with open(f"{crate.folder}/edits/stamp", "w", encoding="ascii") as it:
                    it.write(f"{sum_of(crate)}\n")

    def tell(self, refused, said):
        with self.guard:
            self.passed += refused
            self.failed += [] if refused else [said[:400]]
            print(said[:400], flush=True)


def main():
    parser = argparse.ArgumentParser(description=__doc__, formatter_class=argparse.RawDescriptionHelpFormatter)
    parser.add_argument("names", nargs="*")
    parser.add_argument("--stale", action="store_true")
    parser.add_argument("--jobs", type=int, default=build.jobs())
    given = parser.parse_args()
    trial = kit.Trial()
    rtlib = trial.rt.rtlib
    os.chdir(kit.ROOT)
    crates = [it for it in rtlib.crates_below(kit.ROOT) if edits_of(it) and (not given.names or it.name in given.names)]
    if given.stale:
        crates = [it for it in crates if is_stale(it)]
        # as the gate builds its libraries: those above load their statements
        rtlib.Crate.cuts_libraries = True
    elif not all(build.build(rtlib, it, given.jobs) for it in crates):
        return 1
    if not crates:
        print("no mutant is stale: the stamps of all crates fit")
        return 0
    ordered, said = planned(crates, given.jobs)
    print(said, flush=True)
    edits = Edits(trial, given.stale, ordered)
    with ThreadPoolExecutor(given.jobs) as pool:
        for lane in [pool.submit(edits.run) for _ in range(given.jobs)]:
            lane.result()
    # once more, since the end of CI's output is what is kept of it
    for said in edits.failed:
        print(said)
    print(f"edits: {edits.passed} passed, {len(edits.failed)} failed")
    return 1 if edits.failed else 0


if __name__ == "__main__":
    sys.exit(main())
