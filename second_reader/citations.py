#!/usr/bin/env python3
"""Compares the citations of the second reader with the definitions on which the run specification depends.

Each function, record and table here cites its definitions, as `crate/specs/File: name, name and name`. The script finds
the definitions on which `IsLevesqueVerletRun` depends, from the names in each and the `use` lines of its file. It
prints each definition that no module cites, and each citation that its file doesn't define. The exit status is 1 if
there is one.
"""
import re
import sys
from pathlib import Path

HERE = Path(__file__).resolve().parent
CRATES = HERE.parent / "crates"
PAGE = ("engine/specs/RunSpecification", "IsLevesqueVerletRun")

DEFINED = re.compile(r"\s{0,2}(?:(?:abbrev|unfoldable|record|data|pub)\s+)+([^\s({:]+)")
USE = re.compile(r"^use Rattle\.(\S+?)(?:\.\{([^}]*)\}| as (\w+))?$", re.MULTILINE)
CITED = re.compile(r"([a-z_]+/specs/[\w/]+): ((?:(?![a-z_]+/specs/)[^;.:`()])*)")


class File:
    """A file of definitions: the lines of each by name, and the origins of the names that it uses."""

    def __init__(self, path):
        text = (CRATES / f"{path}.antt").read_text(encoding="utf-8")
        self.definitions = {}
        self.used = {}
        for module, names, alias in USE.findall(text):
            module = module.replace(".", "/")
            for name in filter(None, names.split(", ")):
                self.used[name] = (module, name)
            if alias:
                self.used[alias] = (module, None)
        self.read(text)

    def read(self, text):
        """Splits the file into definitions. Each reaches to the next; comment lines belong to none."""
        name = None
        for line in text.split("\n"):
            if line.startswith("use ") or line.lstrip().startswith("--"):
                continue
            begun = DEFINED.match(line)
            if begun and not re.match(r"\s+pub [\w']+ :", line):
                name = begun[1]
                self.definitions[name] = ""
            if name:
                self.definitions[name] += line + "\n"

    def owner(self, name):
        """The definition to which a name belongs: itself, or the definition whose case or field it is; else None."""
        if name in self.definitions:
            return name
        case = re.compile(rf"^\s+(?:pub )?{re.escape(name)} :", re.MULTILINE)
        return next((owner for owner, text in self.definitions.items() if case.search(text)), None)


class Page:
    """The definitions on which a definition depends, by file."""

    def __init__(self):
        self.files = {}
        self.found = {}

    def file(self, path):
        """The file of a path. None if it belongs to the standard library, or is generated from a source."""
        if path not in self.files:
            is_here = (CRATES / f"{path}.antt").is_file()
            self.files[path] = File(path) if is_here else None
        return self.files[path]

    def stands_on(self, path, name):
        """Finds a definition, and those on which it depends."""
        file = self.file(path)
        owner = file.owner(name) if file else None
        if owner is None or owner in self.found.setdefault(path, []):
            return
        self.found[path].append(owner)
        for word in re.findall(r"[A-Za-z_][\w']*(?:\.[A-Za-z_][\w']*)?", file.definitions[owner]):
            first, _, rest = word.partition(".")
            if first in file.used:
                module, known = file.used[first]
                self.stands_on(module, known or rest)
            elif first in file.definitions:
                self.stands_on(path, first)

    def lines(self):
        """The number of lines of the definitions that were found, without comments and blank lines."""
        texts = [self.files[path].definitions[name] for path, names in self.found.items() for name in names]
        return sum(1 for text in texts for line in text.split("\n") if line.strip())


def citations():
    """The modules' citations: each file of definitions and name that is cited, with a module that cites it."""
    cited = {}
    for module in sorted(HERE.glob("*.py")):
        if module.name == Path(__file__).name:
            continue
        text = re.sub(r"\s+(?:# )?", " ", module.read_text(encoding="utf-8").replace('"""', "."))
        for path, words in CITED.findall(text):
            for piece in re.split(r", and |, | and ", words.strip(" ,")):
                if not re.fullmatch(r"[\w']+", piece):
                    break
                cited.setdefault((path, piece), module.name)
    return cited


def main():
    page, cited = Page(), citations()
    page.stands_on(*PAGE)
    wrong = 0
    for path, names in page.found.items():
        for name in names:
            if (path, name) not in cited:
                print(f"{path}: {name}: the specification depends on it, and no module cites it")
                wrong += 1
    for (path, name), module in cited.items():
        file = page.file(path)
        if "/declared/" not in path and not path.startswith("std/") and not (file and file.owner(name)):
            print(f"{module}: {path}: {name}: no such definition")
            wrong += 1
    count = sum(map(len, page.found.values()))
    size = f"{count} definitions of {page.lines():,} lines in {len(page.found)} files"
    print(f"the specification depends on {size}; {wrong} citations are wrong or lacking")
    return 1 if wrong else 0


if __name__ == "__main__":
    sys.exit(main())
