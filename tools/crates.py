#!/usr/bin/env python3
"""Compares the layers of crates in docs/ARCHITECTURE.md with crates.txt.

  tools/crates.py

In the diagram below "## Layers" each crate must appear once, after all crates that it depends on. The script exits with
1 if the diagram is wrong. tools/clauses.py lists the crates with their dependencies.
"""
import os
import re
import sys
from collections.abc import Iterator

ROOT = os.path.dirname(os.path.dirname(os.path.realpath(__file__)))
PAGE = f"{ROOT}/docs/ARCHITECTURE.md"


def read(path: str) -> str:
    with open(path, encoding="utf-8") as it:
        return it.read()


def dependencies() -> dict[str, list[str]]:
    """Each crate of crates.txt with the crates of this repository that it depends on directly."""
    lines = [line.split(":") for line in read(f"{ROOT}/crates.txt").splitlines() if line and line[0] != "#"]
    listed = {name.split()[0]: words.split() for name, words in lines}
    return {name: [word for word in words if word in listed] for name, words in listed.items()}


def reduced(crates: dict[str, list[str]]) -> dict[str, list[str]]:
    """Each crate with its dependencies, without those that another dependency implies."""
    below = {}
    for name, direct in crates.items():
        below[name] = set(direct).union(*(below[it] for it in direct))
    return {name: [it for it in direct if not any(it in below[other] for other in direct)]
            for name, direct in crates.items()}


def sentence(crate: str) -> str:
    """The first sentence of a crate's head, and the second one if the first is one word."""
    source = next(path for name in ("lib", "main") if os.path.exists(path := f"{ROOT}/crates/{crate}/src/{name}.rt"))
    head = re.match(r"(?://!.*\n)+", read(source)).group()
    words = " ".join(re.sub(r"^//! ?", "", head, flags=re.MULTILINE).split("\n\n")[0].split())
    # a full stop after a single capital, as in a person's name, doesn't end a sentence
    parts = re.split(r"(?<=[.])(?<![ (][A-Z][.]) (?=[A-Z`])", words)
    return " ".join(parts[: 1 + (" " not in parts[0])])


def faults_of_layers(page: str) -> Iterator[str]:
    """What is wrong with the diagram."""
    crates = dependencies()
    diagram = page.partition("\n## Layers\n")[2].partition("```\n")[2].partition("```")[0]
    drawn = [word for word in re.findall(r"\w+", diagram) if word in crates]
    for name, direct in crates.items():
        if drawn.count(name) != 1:
            yield f"the layers have {name} {drawn.count(name)} times"
        for it in direct:
            if name in drawn and it in drawn and drawn.index(it) > drawn.index(name):
                yield f"the layers have {name} before {it}, which it depends on"


def main() -> int:
    wrong = list(faults_of_layers(read(PAGE)))
    print("".join(f"docs/ARCHITECTURE.md: {it}\n" for it in wrong), end="")
    print(f"layers of {len(dependencies())} crates: {len(wrong)} faults")
    return 1 if wrong else 0


if __name__ == "__main__":
    sys.exit(main())
