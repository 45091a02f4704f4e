#!/usr/bin/env python3
"""Counts turns of phrase that a plain sentence rarely needs, and prints where they are.

  tools/prose.py [--lines WORD] [--comments] [--base REV] [FILE ..]

The files are the pages of the repository, or with --comments the comments of crates/*/src and crates/*/specs. Code
blocks and code spans don't count. --lines prints each line that has WORD (the name of a row, as `where`). --base counts
a commit's pages beside today's. The script is a help for writers: it fails only if a file can't be read.
"""
import argparse
import glob
import os
import re
import subprocess
import sys

ROOT = os.path.dirname(os.path.dirname(os.path.realpath(__file__)))
TICS = {
    "what": r"what",
    "where": r"where",
    "says": r"says?|said",
    "tells": r"tells?|told",
    "stands": r"stands?|stood|standing",
    "asks": r"asks?|asked",
    "goes": r"goes|go|going|gone|went",
    "takes": r"takes?|took|taken",
    "has": r"has|have|had",
    "alone": r"alone",
    "by": r"by",
    "nothing": r"nothing|nobody|none",
    "that of": r"(?:that|those) of",
    "as many": r"(?:as|so) many",
    "but for": r"but for",
    "behind": r"behind",
    "anew": r"anew",
    "the same": r"the same",
}


def pages_now():
    names = sorted(glob.glob(f"{ROOT}/**/*.md", recursive=True))
    return {os.path.relpath(it, ROOT): it for it in names if "/out/" not in it and not it.endswith("/CLAUSES.md")}


def comment_files():
    found = glob.glob(f"{ROOT}/crates/*/src/**/*.rt", recursive=True) + glob.glob(f"{ROOT}/crates/*/specs/**/*.antt", recursive=True)
    return {os.path.relpath(it, ROOT): it for it in sorted(found)}


def prose_of(name, text):
    """The words of a page or of a file's comments, line by line, without code; a line that isn't prose is empty."""
    lines, fenced = [], False
    for line in text.splitlines():
        if name.endswith((".rt", ".antt")):
            found = re.match(r"\s*(?://[/!]?|--)\s?(.*)", line)
            line = found.group(1) if found else ""
        elif line.startswith("```"):
            fenced, line = not fenced, ""
        elif fenced:
            line = ""
        lines.append(re.sub(r"`[^`]*`", "` `", line))
    return lines


def read(path, base, name):
    if base:
        return subprocess.run(["git", "show", f"{base}:{name}"], cwd=ROOT, check=True, stdout=subprocess.PIPE, text=True).stdout
    with open(path, encoding="utf-8") as it:
        return it.read()


def names_at(base, comments):
    listed = subprocess.run(["git", "ls-tree", "-r", "--name-only", base], cwd=ROOT, check=True, stdout=subprocess.PIPE, text=True)
    suits = re.compile(r"crates/\w+/(src/.*\.rt|specs/.*\.antt)" if comments else r"(?!docs/CLAUSES\.md).*\.md")
    return {name: name for name in listed.stdout.splitlines() if suits.fullmatch(name)}


def counts(texts):
    joined = {name: " ".join(lines) for name, lines in texts.items()}
    found = {tic: sum(len(re.findall(rf"\b(?:{form})\b", it, re.IGNORECASE)) for it in joined.values()) for tic, form in TICS.items()}
    return found, sum(len(it.split()) for it in joined.values())


def main():
    parser = argparse.ArgumentParser(description=__doc__, formatter_class=argparse.RawDescriptionHelpFormatter)
    parser.add_argument("files", nargs="*", metavar="FILE")
    parser.add_argument("--lines", choices=TICS, metavar="WORD")
    parser.add_argument("--comments", action="store_true")
    parser.add_argument("--base", metavar="REV")
    given = parser.parse_args()
    paths = {it: it for it in given.files} or (comment_files() if given.comments else pages_now())
    texts = {name: prose_of(name, read(path, None, name)) for name, path in paths.items()}
    if given.lines:
        form = re.compile(rf"\b(?:{TICS[given.lines]})\b", re.IGNORECASE)
        for name, lines in texts.items():
            print("".join(f"{name}:{at}: {line}\n" for at, line in enumerate(lines, 1) if form.search(line)), end="")
        return 0
    now, words = counts(texts)
    before, words_before = {}, 0
    if given.base:
        old = names_at(given.base, given.comments)
        before, words_before = counts({name: prose_of(name, read(None, given.base, name)) for name in old})
        print(f"{'':10}{given.base[:8]:>10}{'now':>8}")
    for tic, number in sorted(now.items(), key=lambda it: -it[1]):
        print(f"{tic:10}" + (f"{before[tic]:10,}" if before else "") + f"{number:8,}")
    print(f"{'words':10}" + (f"{words_before:10,}" if before else "") + f"{words:8,} in {len(texts)} files")
    return 0


if __name__ == "__main__":
    sys.exit(main())
