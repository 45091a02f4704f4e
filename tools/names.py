#!/usr/bin/env python3
"""Checks the names in the pages: each name in a code span exists.

  tools/names.py

A code span is a text between backquotes, outside fenced blocks. The script checks in each:

- paths: words with a slash that begin with a directory, have a part such as `specs/`, or end in `/` or like a file.
  Braces list several files; `*` and `<..>` stand for any part. A path begins at the repository, at `crates/`, at the
  page, or at a directory that the same item of a list (or the same paragraph) named before;
- identifiers: words with `_`, `::` or a capital letter inside, and spans of one word. The word occurs in code (not in a
  comment), or is the name of a file, of a directory or of a mutant;
- `A::b`, and "`b` of `A`": the crate A has b, or a file of code that defines A;
- the clauses in the table of the main theorem (THEOREM): the contract of its function has each;
- the word after `make` (a target), `pairmd` (a command) and `rt` (RT), and options such as `--each` (in code).

ELSEWHERE has the names that aren't the tree's, each with its owner. CHANGELOG names what is gone, and docs/CLAUSES.md is
generated, so neither is read. The script fails if a name doesn't exist, or if no page uses a name of ELSEWHERE.
"""
import functools
import glob
import io
import os
import re
import sys
import tokenize
from collections.abc import Iterator

import links

ROOT = links.ROOT
UNREAD = {"CHANGELOG.md", "docs/CLAUSES.md"}
ELSEWHERE = {
    "./-": "a file of the name `-`, in the directory where a command runs",
    "./pairmd-unproved": "`make try` builds it",
    "/usr/local": "a directory of the system",
    "--allow-holes": "an option of `rt check`",
    "--only": "an option of `rt check`",
    "DeterministicForces": "a property of OpenMM's platforms",
    "XVGReader": "a class of MDAnalysis",
    "console": "the language of a fenced block",
    "gromacs": "a package of Debian",
    "kT": "Boltzmann's constant times a temperature",
    "later.gro": "the reader's file, in GUIDE",
    "p2": "the parameter `p` of the second type",
    "packed.gro": "the reader's file, in GUIDE",
    "rt lemma": "a command of the toolchain",
    "ru_maxrss": "a field of getrusage",
    "thread::join": "a function of the standard library",
    "xargs": "a command of the system",
}
# The page with the clauses of the main theorem, the head of their table, and the file and the name of its function.
THEOREM = "docs/PROOFS.md", "| The promise | Clause |", "crates/runs/src/shown_runs.rt", "run_bytes"
RT = {"check", "ci", "doc", "fmt", "lemma", "plant", "run", "try", "version"}
PARTS = "src|specs|proofs|edits|must-fail|data"
ENDINGS = "py|rt|antt|md|job|gro|t|edit|svg|png|tsv"
LETTER = r"(?:<[^<>]*>|[\w.*{},-])"
PATH = re.compile(rf"(?<![\w/.$(])/?(?:{LETTER}+/)+{LETTER}*(?![\w/(^])|(?<![\w./*>-])[\w*-]+\.(?:{ENDINGS})(?!\w)")
IDENTIFIER = re.compile(r"(?:[A-Za-z_]\w*::)*[A-Za-z_]\w*")
OPTION = re.compile(r"(?<![\w-])--[a-z][a-z-]+")
CALLED = re.compile(r"(make|rt|pairmd) ([a-z][a-z-]*)")
COMMIT = re.compile(r"(?=.*\d)[0-9a-f]{7,40}")
DEFINERS = "fn|struct|enum|trait|type|mod|record|data|abbrev|unfoldable|pub|class|def"
DEFINED = re.compile(rf"\b(?:(?:{DEFINERS})\s+)+(\w+)|^(?:unsafe )?impl\b(.*)", re.MULTILINE)
OF = re.compile(r"`([\w:]+)`(?:,? (?:and|or) `([\w:]+)`)? of `([\w:]+)`")


def files() -> Iterator[str]:
    """The paths of all files of the repository, without those that builds leave."""
    for folder, below, names in os.walk(ROOT):
        below[:] = sorted(it for it in below if it not in ("out", ".git", "__pycache__"))
        yield from (os.path.relpath(os.path.join(folder, it), ROOT) for it in names)


def code_of(path: str, text: str) -> str:
    """A file's text without comments, without the docstrings of Python, and of texts in tools/ only the options."""
    if path.endswith(".rt"):
        return re.sub(r"//.*", "", text)
    if path.endswith(".antt"):
        return re.sub(r"--.*", "", text)
    kept = []
    for it in tokenize.generate_tokens(io.StringIO(text).readline):
        if it.type == tokenize.STRING and path.startswith("tools/"):
            kept += OPTION.findall(it.string)
        elif it.type != tokenize.COMMENT and '"""' not in it.string:
            kept.append(it.string)
    return " ".join(kept)


class Tree:
    """The names that the repository has."""

    def __init__(self) -> None:
        self.paths = sorted(files())
        codes = {it: code_of(it, links.text(it)) for it in self.paths if it.endswith((".rt", ".antt", ".py"))}
        self.words = {it: set(re.findall(r"--[a-z][a-z-]*|[A-Za-z_]\w*", code)) for it, code in codes.items()}
        self.defined = {it: set(re.findall(r"\w+", str(DEFINED.findall(code)))) for it, code in codes.items()}
        self.stems = {it: set(re.split(r"[/.]", it)) for it in self.paths}
        self.known = set().union(*self.words.values(), *self.stems.values())
        self.targets = set(re.findall(r"^([\w-]+):", links.text("Makefile"), re.MULTILINE))
        sources = [links.text(it) for it in self.paths if it.startswith("crates/command_line/src/")]
        self.commands = {"archive", "help", "job", "state", *re.findall(r'"([a-z]+)"', "".join(sources))}
        self.known.update(f"--{it}" for it in self.commands)

    def beside(self, owner: str) -> set[str]:
        """The words and files of a crate, or of the files of code that define all words of a name."""
        if os.path.isdir(f"{ROOT}/crates/{owner}"):
            suits = [it for it in self.paths if it.startswith(f"crates/{owner}/")]
        else:
            suits = [it for it, words in self.defined.items() if words.issuperset(owner.split("::"))]
        return set().union(*(self.words.get(it, set()) | self.stems[it] for it in suits))


@functools.cache
def found_path(path: str) -> str | None:
    """The first path of the repository that a form with `*` fits; the ending `.antt` may be missing."""
    path = os.path.normpath(path)
    found = sorted(glob.glob(path, root_dir=ROOT)) or sorted(glob.glob(f"{path}.antt", root_dir=ROOT))
    return found[0] if found else None


def expanded(path: str) -> list[str]:
    """The paths that a path with braces lists."""
    found = re.fullmatch(r"(.*)\{(.*)\}(.*)", path)
    return [found[1] + it + found[3] for it in found[2].split(",")] if found else [path]


def is_path(word: str) -> bool:
    """Whether a word is a path, not a unit or a quotient."""
    first, slash, rest = word.partition("/")
    known = found_path(first) or found_path(f"crates/{first}") or re.fullmatch(PARTS, first)
    return bool(not slash or not first or known or word.endswith("/") or re.search(rf"(?:^|/)(?:{PARTS})/|\.(?:{ENDINGS})$", rest))


class Folders:
    """The directories at which the paths of an item may begin."""

    def __init__(self, page: str) -> None:
        self.always = ["", "crates", os.path.dirname(page), "examples", "transcripts"]
        self.named: list[str] = []

    def found(self, path: str) -> str | None:
        """The path in the repository. A path that begins within a crate is of a crate that was named, if one was."""
        form = re.sub(r"<[^>]*>|\b[A-Z_]{2,}\b", "*", path)
        below = ["crates/*"] if not self.named or re.fullmatch(f"(?:{PARTS})/", path) else self.named
        candidates = [os.path.join(it, form) for it in [*self.always, *below]]
        return next(filter(None, map(found_path, [path, *candidates])), None)

    def name(self, path: str) -> None:
        """Has further paths begin at a path's directory, or in its crate."""
        folder = path if os.path.isdir(f"{ROOT}/{path}") else os.path.dirname(path)
        if crate := re.match(r"crates/\w+", folder):
            folder = crate[0]
            self.named += [f"{folder}/src", f"{folder}/specs"]
        self.named.append(folder)


def faults_of_paths(span: str, folders: Folders) -> Iterator[str]:
    """The paths in a span that don't exist. Those that do are named for the spans after it."""
    if os.path.isdir(f"{ROOT}/crates/{span}"):
        folders.name(f"crates/{span}")
    for word in PATH.findall(span):
        word = word.strip(",").removesuffix("..")
        if word in ELSEWHERE or not is_path(word):
            continue
        found = [folders.found(it) for it in expanded(word)]
        if None in found:
            yield word
        for path in filter(None, found):
            folders.name(path)


def faults_of_span(span: str, tree: Tree) -> Iterator[str]:
    """The identifiers, commands and options in a span that don't exist."""
    for found in IDENTIFIER.finditer(re.sub(r"\\\w+", " ", PATH.sub(" ", span))):
        word = found[0]
        ruled = word == span or re.search(r"\w_\w|::|[a-z0-9][A-Z]", word)
        if ruled and word not in ELSEWHERE and not COMMIT.fullmatch(word) and not tree.known.issuperset(word.split("::")):
            yield word
    yield from (it for it in OPTION.findall(span) if it not in tree.known and it not in ELSEWHERE)
    called = CALLED.match(span)
    if called and called[2] not in {"make": tree.targets, "rt": RT, "pairmd": tree.commands}[called[1]]:
        yield called[0]


def faults_of_owners(item: str, tree: Tree) -> Iterator[str]:
    """The names in an item that their owner doesn't have."""
    for name in re.findall(r"`((?:\w+::)+\w+)`", item):
        owner, _, last = name.rpartition("::")
        if name not in ELSEWHERE and last not in tree.beside(owner):
            yield name
    for first, second, owner in OF.findall(item):
        for name in filter(None, (first, second)):
            if not tree.beside(owner).issuperset(name.split("::")):
                yield f"{name} of {owner}"


def faults_of_theorem() -> Iterator[str]:
    """The clauses in the table of the main theorem that its function doesn't have, and those that the table lacks."""
    page, head, path, function = THEOREM
    table = links.text(page).partition(head)[2].partition("\n\n")[0]
    stated = set(re.findall(r"^\|[^|]*\| `(\w+)` \|", table, re.MULTILINE))
    contract = links.text(path).partition(f"fn {function}")[2].partition("\n{\n")[0]
    labels = set(re.findall(r"ensures (\w+)", contract))
    yield from (f"{page}: {it}: {function} has no such clause" for it in sorted(stated - labels))
    yield from (f"{page}: the table of {function} lacks its clause {it}" for it in sorted(labels - stated))


def items(page: str) -> Iterator[str]:
    """The paragraphs, list items and table rows of a page, each on one line."""
    yield from (" ".join(it.split()) for it in re.split(r"\n\s*\n|\n(?=\s*(?:[-*]|\d+\.) |\|)", "\n".join(links.prose(page))))


def faults(page: str, tree: Tree) -> Iterator[str]:
    for item in items(page):
        folders = Folders(page)
        for span in re.findall(r"`([^`]+)`", item):
            yield from faults_of_paths(span, folders)
            yield from faults_of_span(span, tree)
        yield from faults_of_owners(item, tree)


def main() -> int:
    tree, pages = Tree(), [it for it in links.pages() if it not in UNREAD]
    found = [f"{page}: {fault}: no such name" for page in pages for fault in dict.fromkeys(faults(page, tree))]
    found += faults_of_theorem()
    read = "\n".join(links.text(it) for it in pages)
    found += [f"tools/names.py: {it}: no page uses this name of ELSEWHERE" for it in ELSEWHERE if it not in read]
    print("".join(f"{it}\n" for it in found) + f"names of {len(pages)} pages: {len(found)} faults")
    return 1 if found else 0


if __name__ == "__main__":
    sys.exit(main())
