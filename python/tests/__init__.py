"""Tests of the module pairmd. Tests of the program are skipped if there is none; tests that need a package or a command,
if that is missing. With PAIRMD_NEEDS=all, as in CI, they fail instead.

  PAIRMD=./pairmd python3 -m unittest discover -s python/tests -t python
"""

import importlib.util
import os
import shutil
import unittest

import pairmd

ROOT = os.path.dirname(os.path.dirname(os.path.dirname(os.path.realpath(__file__))))
EXAMPLES = os.path.join(ROOT, "examples")


def example(name):
    """The path of a file of examples/."""
    return os.path.join(EXAMPLES, name)


def text_of(name):
    """The text of a file of examples/."""
    with open(example(name), encoding="utf-8", newline="\n") as file:
        return file.read()


def has_program():
    """Whether there is a program to test. If PAIRMD names a missing one, the tests fail instead."""
    try:
        return bool(os.environ.get("PAIRMD") or pairmd.find_program())
    except pairmd.ProgramNotFound:
        return False


needs_program = unittest.skipUnless(has_program(), "no program: PAIRMD names one, or `pairmd` on PATH")


def needs(*names):
    """A decorator of tests that need these modules, or the command `$NAME`."""
    missing = [it for it in names if not (shutil.which(it[1:]) if it.startswith("$") else importlib.util.find_spec(it))]
    return unittest.skipIf(missing and os.environ.get("PAIRMD_NEEDS") != "all", f"missing: {' '.join(missing)}")
