#!/usr/bin/env python3
"""Checks all pages: each file and each anchor that a page links to exists, and each row of a table has its cells.

  tools/links.py

The script fails if it finds a fault. An anchor is a heading of the page, in the form that GitHub gives it, or an `<a id=..>`. Links to the network aren't
followed. Code blocks have no links.
"""
import glob
import os
import re
import sys

ROOT = os.path.dirname(os.path.dirname(os.path.realpath(__file__)))
LINK = re.compile(r"\]\(([^()\s]+)\)")


def pages():
    found = glob.glob(f"{ROOT}/**/*.md", recursive=True)
    return sorted(os.path.relpath(it, ROOT) for it in found if "/out/" not in it)


def text(name):
    with open(f"{ROOT}/{name}", encoding="utf-8") as it:
        return it.read()


def prose(name):
    """The lines of a page outside code blocks, which may be indented."""
    fenced = False
    for line in text(name).split("\n"):
        is_fence = line.lstrip().startswith("```")
        fenced ^= is_fence
        if not fenced and not is_fence:
            yield line


def anchors(name):
    """The anchors of a page: its headings in small letters, with hyphens for blanks and no other marks, and its ids."""
    found = set()
    for line in prose(name):
        found.update(re.findall(r'<a id="?([^">]+)"?>', line))
        if heading := re.match(r"#+ (.*)", line):
            found.add(re.sub(r"[^\w\- ]", "", heading[1].lower()).replace(" ", "-"))
    return found


def cells(row):
    """The number of cells of a table row, with or without pipes at its ends; a pipe in a code span separates none."""
    bare = re.sub(r"`[^`]*`|\\\|", "c", row).strip()
    return len(bare.removeprefix("|").removesuffix("|").split("|"))


def broken_rows(page):
    """The rows of a page's tables with more cells than the head, or with one: lines that a reflow joined or broke."""
    head = None
    for line, below in zip([*prose(page)], [*prose(page)][1:] + [""]):
        if re.fullmatch(r"\|?(?:\s*:?-+:?\s*\|)+(?:\s*:?-+:?\s*)?", below):
            head = cells(line)
        elif not line.strip() or line.startswith("<!--"):
            head = None
        elif head and (cells(line) > head or cells(line) == 1):
            yield line


def faults():
    known = {}
    for page in pages():
        for row in broken_rows(page):
            yield f"{page}: a table row doesn't fit its head: {row[:60]}"
        # a link may break over two lines
        for target in LINK.findall(" ".join(prose(page))):
            if re.match(r"\w+:", target):
                continue
            path, _, anchor = target.partition("#")
            name = os.path.normpath(os.path.join(os.path.dirname(page), path)) if path else page
            if not os.path.exists(f"{ROOT}/{name}"):
                yield f"{page}: {target}: no such file"
            elif anchor and anchor not in known.setdefault(name, anchors(name)):
                yield f"{page}: {target}: no such anchor"


def main():
    found = list(faults())
    print("".join(f"{it}\n" for it in found) + f"links of {len(pages())} pages: {len(found)} faults")
    return 1 if found else 0


if __name__ == "__main__":
    sys.exit(main())
