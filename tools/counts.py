#!/usr/bin/env python3
"""Compares the numbers that pages state with the tree, and the pages' lengths with their limits; fails if one is off.

  tools/counts.py [--write]     --write puts the numbers that were counted into the pages

COUNTS has a row for each sentence with numbers: the page, the sentence with N for each number, and how to count them. A
sentence that its page no longer has is an error too, so whoever rewrites the sentence rewrites its row. LENGTHS limits
the words of each page, as `wc -w` counts them; generated pages have no limit, nor have the parts that a script of tools/
or bench/ writes.
"""
import argparse
import glob
import os
import re
import sys

import definitions

ROOT = os.path.dirname(os.path.dirname(os.path.realpath(__file__)))


def texts(pattern):
    """The texts of the files below the top of the repository that fit the pattern."""
    for path in glob.glob(f"{ROOT}/{pattern}", recursive=True):
        with open(path, encoding="utf-8") as it:
            yield it.read()


def lines(pattern):
    return sum(text.count("\n") for text in texts(pattern))


def reading(promise):
    """The number of definitions that a promise depends on, and of their lines and files."""
    of = definitions.promise(promise)
    return of.definitions(), of.lines(), len(of.found)


def played():
    """The number of commands of each transcript, as `make transcripts` compares them."""
    return [int(line.split()[1]) for text in texts("transcripts/counts") for line in text.splitlines()]


def wide():
    """The number of lines over 140 columns in code and definitions; imports, attributes, comments and texts don't count."""
    found = [*texts("crates/*/src/**/*.rt"), *texts("crates/*/specs/**/*.antt")]
    clause = re.compile(r"(?!\s*(?:(?:ghost |pub )?use |#|--|//))[^\"]{141,}")
    return sum(bool(clause.fullmatch(line)) for text in found for line in text.splitlines())


def mutants():
    """The number of mutants that only `make edits` tries, and of those that the CI gate tries."""
    return tuple(len(glob.glob(f"{ROOT}/crates/*/{folder}/*.edit")) for folder in ("edits", "must-fail"))


def constant(name, pattern):
    """How to find a number in a file: the only one that the pattern has, with underscores or dots as it is written."""

    def number():
        found = {text for it in texts(name) for text in re.findall(pattern, it, re.MULTILINE)}
        if len(found) != 1:
            sys.exit(f"{name}: {len(found)} numbers for {pattern}")
        text = found.pop()
        return text if "." in text else int(text)

    return number


def several(*counts):
    """How to find several numbers, one after the other."""
    return lambda: tuple(count() for count in counts)


HEADLINE = "crates/engine/specs/RunSpecification.antt"
COMMAND = "crates/cli/specs/Command.antt"
COMMANDS = "crates/command_line/src/commands.rt"
WORKERS = constant(COMMANDS, r"MAX_WORKERS: u64 = (\d+)")
ATOMS = constant("crates/gro/specs/GroText.antt", r"few : count ≤ (\d+)")
INSTRUCTIONS = constant("crates/kernel_code/specs/Code.antt", r"short : length code ≤ (\d+)")
TYPES = constant("crates/job/src/lines.rt", r"MAX_TYPES: usize = (\d+)")
LISTINGS = constant("second_reader/verdicts.py", r"else (\d+)$")
VERSION = constant(COMMANDS, r'VERSION: &str = "([\d.]+)"')
COUNTS = [
    ("README.md", f"`{HEADLINE}`, has N lines", lambda: lines(HEADLINE)),
    ("README.md", "(`writes_run_text`) depends on N definitions: N lines in N files", lambda: reading("writes_run_text")),
    ("README.md", "(`safe`) it is N definitions: N lines in N files", lambda: reading("safe")),
    ("README.md", "(`refused`) it is N definitions", lambda: reading("refused")[0]),
    ("README.md", f"`{COMMAND}`, has N lines", lambda: lines(COMMAND)),
    ("README.md", "`Actions.antt` beside it, N; its promise", lambda: lines("crates/cli/specs/Actions.antt")),
    ("README.md", "(`answers`) depends on N definitions: N lines in N files", lambda: reading("answers")),
    ("README.md", "(`fails`) on N", lambda: reading("fails")[0]),
    ("README.md", "(`undone`) on N", lambda: reading("undone")[0]),
    ("README.md", "second-reading` counts N,", lambda: reading("writes_run_text")[0] - 4),
    ("README.md", "are N lines in `crates/*/specs`", lambda: lines("crates/*/specs/**/*.antt")),
    ("README.md", "the code (N lines)", lambda: lines("crates/*/src/**/*.rt")),
    ("README.md", "the proofs (N)", lambda: lines("crates/*/proofs/**/*.antt")),
    ("README.md", "workers (threads) from 1 to N,", WORKERS),
    ("README.md", "more than N atoms", ATOMS),
    ("README.md", "on N random listings", LISTINGS),
    ("README.md", "This is version N ([changes]", VERSION),
    ("examples/README.md", "A state has at most N atoms", ATOMS),
    ("docs/MODEL.md", "one of 1 to N threads", WORKERS),
    ("docs/GUIDE.md", "more than N atoms or N types", several(ATOMS, TYPES)),
    ("docs/FORMATS.md", "the line `pairmd N`", VERSION),
    ("docs/pairmd.1", '"pairmd N" "User Commands"', VERSION),
    ("CHANGELOG.md", "## [N] -", VERSION),
    ("python/pairmd/__init__.py", '__version__ = "N"', VERSION),
    ("docs/FORMATS.md", "of `--steps` is from 0 to N,", constant(COMMANDS, r"MAX_STEPS: u64 = ([\d_]+)")),
    ("docs/FORMATS.md", "from 1 to N (default 100), and `w` from 1 to N.", several(constant(COMMANDS, r"MAX_POINTS: u64 = ([\d_]+)"), WORKERS)),
    ("docs/FORMATS.md", "`parameter NAME` | at most N times", constant("crates/job/src/lines.rt", r"MAX_PARAMETERS: usize = (\d+)")),
    ("docs/FORMATS.md", "`global NAME X` | at most N times", constant("crates/job/src/lines.rt", r"MAX_GLOBALS: usize = (\d+)")),
    ("docs/FORMATS.md", "`type NAME MASS X..` | at most N times", TYPES),
    ("docs/FORMATS.md", "A text has at most N tokens", constant("crates/expr/specs/Energy.antt", r"few : length tokens ≤ (\d+)")),
    ("docs/FORMATS.md", "definitions, and its code N instructions", INSTRUCTIONS),
    ("docs/FORMATS.md", "with optional spaces around them; 0 to N.", ATOMS),
    ("docs/PROOFS.md", "of steps, 1 to N workers", WORKERS),
    ("docs/PROOFS.md", "runs and N listings", LISTINGS),
    ("docs/ARCHITECTURE.md", "batches of at most N candidate pairs", constant("crates/cell_tiles/src/lists.rt", r"if count > (\d+)")),
    ("docs/ARCHITECTURE.md", "or is longer than N steps", constant("crates/kernel_lanes/src/locating.rt", r"short \{ length steps.now ≤ (\d+)")),
    ("CONTRIBUTING.md", "a table has at most N columns", constant("crates/observables/src/columns.rt", r"MOST_COLUMNS: usize = (\d+)")),
    ("docs/PROOFS.md", "There are N beside the gate's N.", mutants),
    ("CONTRIBUTING.md", "are N transcripts", lambda: len(played())),
    ("CONTRIBUTING.md", "with N commands", lambda: sum(played())),
    ("CONTRIBUTING.md", "N lines are still wider", wide),
    ("CONTRIBUTING.md", "and N tests", lambda: sum(it.count("#[test]") for it in texts("crates/*/src/**/*.rt"))),
]
LENGTHS = {
    "README.md": 2195,
    "docs/GUIDE.md": 5643,
    "docs/ACCURACY.md": 1887,
    "docs/FORMATS.md": 4596,
    "docs/MODEL.md": 3781,
    "docs/PROOFS.md": 2765,
    "docs/ARCHITECTURE.md": 3107,
    "docs/BOUNDS.md": 1598,
    "docs/PERFORMANCE.md": 964,
    "docs/VALIDATION.md": 694,
    "CONTRIBUTING.md": 3023,
    "docs/PLAN.md": 468,
}
OTHERS = 5733
MOST_FUNCTIONS = 99
GENERATED = {"docs/CLAUSES.md"}


def words_of(name):
    """The number of words of a page that no script of tools/ or bench/ writes."""
    with open(f"{ROOT}/{name}", encoding="utf-8") as it:
        return len(re.sub(r"<!-- (?:tools|bench)/.*?<!-- so far -->", "", it.read(), flags=re.DOTALL).split())


def too_long():
    """The pages that are longer than their limits; the pages that LENGTHS doesn't name have one limit together."""
    pages = glob.glob(f"{ROOT}/*.md") + glob.glob(f"{ROOT}/*/*.md") + glob.glob(f"{ROOT}/bench/peers/*.md") + [f"{ROOT}/docs/pairmd.1"]
    others = {os.path.relpath(it, ROOT) for it in pages} - LENGTHS.keys() - GENERATED
    for name, limit in LENGTHS.items():
        if words_of(name) > limit:
            yield f"{name}: {words_of(name):,} words, and its limit is {limit:,}"
    if sum(map(words_of, others)) > OTHERS:
        yield f"{', '.join(sorted(others))}: {sum(map(words_of, others)):,} words, and their limit is {OTHERS:,}"


def too_many():
    """The crates with more than MOST_FUNCTIONS functions."""
    function = re.compile(r"^\s*(?:pub(?:\(\w+\))? )?(?:const )?(?:unsafe )?fn \w", re.MULTILINE)
    for crate in sorted(os.listdir(f"{ROOT}/crates")):
        count = sum(len(function.findall(it)) for it in texts(f"crates/{crate}/src/**/*.rt"))
        if count > MOST_FUNCTIONS:
            yield f"crates/{crate}: {count} functions, and the limit is {MOST_FUNCTIONS} (docs/ARCHITECTURE.md)"


def unnamed():
    """The files that the run specification depends on and that docs/MODEL.md doesn't name in its reading order."""
    with open(f"{ROOT}/docs/MODEL.md", encoding="utf-8") as it:
        page = it.read().partition("## The run specification")[2].partition("\n## ")[0]
    named, folder = set(), None
    for word in re.findall(r"`([\w/]+)`", page):
        folder, name = word.rsplit("/", 1) if "/specs/" in word else (folder, word)
        named.add(f"{folder}/{name}")
    return [path for path in definitions.promise("writes_run_text").files() if path not in named]


def shown(number):
    return number if isinstance(number, str) else f"{number:,}"


def sought(words):
    """A sentence as a pattern, wherever its lines break; N is a number."""
    form = (re.sub(r"(?<!\w)N(?!\w)", "([0-9][0-9,.]*[0-9]|[0-9])", re.escape(word)) for word in words.split())
    return re.compile(r"\s+".join(form))


def filled(found, counted):
    """The sentence that was found, with the numbers that were counted."""
    text, at = "", found.start()
    for group, number in enumerate(counted, 1):
        text += found.string[at : found.start(group)] + number
        at = found.end(group)
    return text + found.string[at : found.end()]


def main():
    parser = argparse.ArgumentParser(description=__doc__, formatter_class=argparse.RawDescriptionHelpFormatter)
    parser.add_argument("--write", action="store_true", help="put the numbers that were counted into the pages")
    given, wrong = parser.parse_args(), 0
    for name, words, count in COUNTS:
        numbers = count()
        counted = tuple(map(shown, numbers if isinstance(numbers, tuple) else (numbers,)))
        path = os.path.join(ROOT, name)
        with open(path, encoding="utf-8") as it:
            page = it.read()
        found = sought(words).search(page)
        if found and found.groups() == counted:
            continue
        if found and given.write:
            with open(path, "w", encoding="utf-8") as it:
                it.write(page[: found.start()] + filled(found, counted) + page[found.end() :])
        wrong += not (found and given.write)
        print(f"{name}: {words}: {', '.join(counted)}" + ("" if found else ", but the page has no such sentence"))
    for path in unnamed():
        print(f"docs/MODEL.md: {path}: the run specification depends on it, and the reading order lacks it")
        wrong += 1
    for fault in [*too_long(), *too_many()]:
        print(fault)
        wrong += 1
    print(f"{len(COUNTS)} sentences with numbers, {len(LENGTHS)} lengths: {wrong} faults")
    return 1 if wrong else 0


if __name__ == "__main__":
    sys.exit(main())
