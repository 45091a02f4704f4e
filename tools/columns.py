#!/usr/bin/env python3
"""Compares the columns of `observe` in pages and scripts with their definitions.

  tools/columns.py

crates/observables/specs/Columns.antt defines for each column the head, a name and a unit, and the number of decimals, and
for each table the list of its columns. The script reads them there, and compares them with the tables of docs/FORMATS.md
(Table), and with COLUMNS and TENSOR of the Python module. It fails if a column differs. A table of FORMATS without numbers of decimals
is one of integers. bench/observed.py reads heads and decimals from FORMATS with `stated_tables`.
"""
import ast
import functools
import re
import sys
from itertools import zip_longest
from typing import NamedTuple

import links

SPECS, PAGE, MODULE = "crates/observables/specs/Columns.antt", "docs/FORMATS.md", "python/pairmd/table.py"
SHOWN = re.compile(r"^shown_in \(?(\w+)[^=]*=((?:.*\n)(?:    .*\n)*)", re.MULTILINE)
DECIMALS = re.compile(r"\) (\d)\s")


class Column(NamedTuple):
    head: str
    decimals: int

    def __str__(self) -> str:
        return f"{self.head} with {self.decimals} decimals"


def defined_tables() -> dict[str, list[Column]]:
    """The columns of each table by their definitions, by the name of the table."""
    text = links.text(SPECS)
    shown = {name: (re.findall(r'codes "([^"]+)"', row), int(DECIMALS.search(row)[1])) for name, row in SHOWN.findall(text)}
    tables = {}
    for table, names in re.findall(r"^(\w+)_columns =\n((?: .*\n)+)", text, re.MULTILINE):
        tables[table] = []
        for name, *axes in [it.split() for it in names.replace("∷", "").splitlines() if it.split() != ["[]"]]:
            at = functools.reduce(lambda at, axis: 3 * at + "XYZ".index(axis), axes, 0)
            tables[table].append(Column(shown[name][0][at], shown[name][1]))
    return tables


def stated_tables() -> list[list[Column]]:
    """The columns of each table by FORMATS, in its order."""
    section = "\n".join(links.prose(PAGE)).partition("\n## Table\n")[2].partition("\n## ")[0]
    tables = re.findall(r"^Column \| .*\n[-|]+\n((?:`.*\n)+)", section, re.MULTILINE)
    rows = [[row.split(" | ") for row in table.splitlines()] for table in tables]
    return [[Column(head, int(row[2]) if len(row) > 2 else 0) for row in table for head in re.findall(r"`([^`]+)`", row[0])]
            for table in rows]


def module_heads(name: str) -> list[str]:
    """COLUMNS or TENSOR of the Python module."""
    value = re.search(rf"^{name} = (\(.*?^\)|\".*\")\.split\(\)$", links.text(MODULE), re.MULTILINE | re.DOTALL)
    return ast.literal_eval(value[1]).split() if value else []


def differences(where: str, wanted: list, found: list) -> list[str]:
    """A line for each column that two lists don't have in common."""
    pairs = enumerate(zip_longest(wanted, found), 1)
    return [f"{where}: column {at} is {other}, by its definition {it}" for at, (it, other) in pairs if it != other]


def main() -> int:
    defined = defined_tables()
    stated = dict(zip(defined, stated_tables()))
    found = [it for name in defined for it in differences(f"{PAGE}, {name}", defined[name], stated.get(name, []))]
    for name, table in (("COLUMNS", "decimals"), ("TENSOR", "tensor")):
        found += differences(f"{MODULE}, {name}", [it.head for it in defined[table]], module_heads(name))
    counts = " and ".join(str(len(it)) for it in defined.values())
    print("".join(f"{it}\n" for it in found) + f"{counts} columns: {len(found)} faults")
    return 1 if found or not defined["decimals"] else 0


if __name__ == "__main__":
    sys.exit(main())
