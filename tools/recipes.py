#!/usr/bin/env python3
"""Compares recipes in pages with the tree: each names the files that its neighbour is in, and no others.

  tools/recipes.py

A recipe says which files a new thing changes, by a neighbour: a thing of the same kind that exists. RECIPES has for each
the page, its beginning and end there, the neighbour as a pattern, and the scope as a pattern of paths. The files are
those in the scope whose code, without comments and private imports, has the neighbour: sources, definitions, and files
of lemmas. The script fails if the recipe lacks one of them, or names another one. It doesn't read the answers of single
functions, mutants and test cases.
"""
import re
import sys
from collections.abc import Iterator
from dataclasses import dataclass

import links
import names

SOURCES = re.compile(
    r"crates/\w+/(?:src|specs)/.*\.(?:rt|antt)|crates/\w+/proofs/(?!Lib\b)\w+\.antt|(?:python/pairmd|bench|second_reader)/\w+\.py"
)
IMPORT = re.compile(r"^\s*(?:ghost use|use|from \S+ import|import) .*$", re.MULTILINE)


@dataclass
class Recipe:
    page: str
    begins: str
    ends: str
    neighbour: str
    scope: str

    def text(self) -> str:
        """The lines of the page that make up the recipe; empty if the page lacks its beginning or its end."""
        after = "\n".join(links.prose(self.page)).partition(self.begins)[2]
        inside, ends, _ = after.partition(self.ends)
        return inside if ends else ""

    def faults(self, codes: dict[str, str]) -> Iterator[str]:
        """The files that the recipe lacks, and those that it names without need."""
        if not self.text():
            yield f"no recipe begins with {self.begins!r} and ends with {self.ends!r}"
            return
        stated = set(stated_files(self.page, self.text()))
        wanted = {it for it, code in codes.items() if re.match(self.scope, it) and re.search(self.neighbour, code)}
        yield from (f"{self.begins}: it lacks {it}, which has {self.neighbour}" for it in sorted(wanted - stated))
        yield from (f"{self.begins}: it names {it}, which doesn't have {self.neighbour}" for it in sorted(stated - wanted))


def stated_files(page: str, text: str) -> Iterator[str]:
    """The files that a recipe names: paths, and in the row of a crate also files of definitions and lemmas by their
    names, such as `Arithmetic`.
    """
    for item in re.split(r"\n(?=\||- |\d+\. )", text):
        folders, crate = names.Folders(page), ""
        for span in re.findall(r"`([^`]+)`", item):
            if names.found_path(f"crates/{span}"):
                crate = f"crates/{span}"
                folders.name(crate)
            elif crate:
                found = [names.found_path(f"{crate}/{it}/{span}.antt") for it in ("specs", "proofs")]
                yield from (it for it in found if it and SOURCES.fullmatch(it))
            for word in names.PATH.findall(span):
                found = [folders.found(it) for it in names.expanded(word.strip(","))]
                for path in filter(None, found):
                    folders.name(path)
                    if SOURCES.fullmatch(path):
                        yield path


RECIPES = [
    Recipe(
        page="CONTRIBUTING.md",
        begins="## An error and its explanation",
        ends="\n## ",
        neighbour=r"\bA6\b|BitsDiffer|\bbits_differ\b",
        # a replay tests the bits of a state before its steps, which another error of a state needn't do
        scope="crates/(?!streams/)",
    ),
    Recipe(
        page="CONTRIBUTING.md",
        begins="## A new function of energies",
        ends="\n## ",
        neighbour=r"\b(?:checked_|computed_|exact_|Is)?[cC]eil(?:ing)?(?:_of)?\b",
        scope="crates/(?!runs/)|second_reader/|bench/exact.py",
    ),
    Recipe(
        page="CONTRIBUTING.md",
        begins="## A new column of `observe`",
        ends="\n## ",
        neighbour=r"\bcore[_-]pair",
        scope="crates/|python/|bench/",
    ),
    Recipe(
        page="CONTRIBUTING.md",
        begins="## A new command",
        ends="\n## ",
        neighbour=r"[cC]urv(?:e|ing)",
        # texts of errors name commands
        scope="crates/(?:cli|command_line)/(?!src/explanations/)",
    ),
    Recipe(
        page="CONTRIBUTING.md",
        begins="## A new line of a job",
        ends="\n## ",
        neighbour=r"[sS]lices(?:_|\b)",
        scope="crates/job/|second_reader/job|python/pairmd/job",
    ),
]


def main() -> int:
    codes = {it: IMPORT.sub("", names.code_of(it, links.text(it))) for it in names.files() if SOURCES.fullmatch(it)}
    found = [f"{recipe.page}: {fault}" for recipe in RECIPES for fault in recipe.faults(codes)]
    print("".join(f"{it}\n" for it in found) + f"{len(RECIPES)} recipes: {len(found)} faults")
    return 1 if found else 0


if __name__ == "__main__":
    sys.exit(main())
