"""Trees of energies: as written, an expr/specs/Syntax: Syntax, and by meaning, an energy_program/specs/Tree: Tree.

A Syntax has the names as they are written. A Tree has a variable as its input number, and the use of a definition as
the definition's number. One set of parts serves both. A written definition is a pair of a name and a Syntax
(expr/specs/Syntax: Definition), and a text is a body with such definitions (expr/specs/Syntax: Source). Its meaning is
a tree with trees (energy_program/specs/Programs: Trees).
"""
from dataclasses import dataclass
from typing import Any, Union

from numerals import Constant, exactly
from operations import FlatFunction, Function, Operator


@dataclass(frozen=True)
class Number:
    """energy_program/specs/Tree: Number, a constant."""

    value: Constant


@dataclass(frozen=True)
class Name:
    """expr/specs/Syntax: Name"""

    name: bytes


@dataclass(frozen=True)
class Input:
    """energy_program/specs/Tree: Input"""

    number: int


@dataclass(frozen=True)
class Definition:
    """energy_program/specs/Tree: Definition"""

    number: int


@dataclass(frozen=True)
class Negated:
    """energy_program/specs/Tree: Negated"""

    a: Any


@dataclass(frozen=True)
class Binary:
    """energy_program/specs/Tree: Binary"""

    operator: Operator
    a: Any
    b: Any


@dataclass(frozen=True)
class Applied:
    """energy_program/specs/Tree: Applied"""

    function: Union[Function, FlatFunction]
    a: Any


@dataclass(frozen=True)
class Power:
    """energy_program/specs/Tree: Power"""

    a: Any
    exponent: int


@dataclass(frozen=True)
class Select:
    """energy_program/specs/Tree: Select"""

    x: Any
    a: Any
    b: Any


def parts_of(tree):
    """The parts of a tree, from left to right."""
    if isinstance(tree, (Negated, Applied, Power)):
        return (tree.a,)
    if isinstance(tree, Binary):
        return (tree.a, tree.b)
    if isinstance(tree, Select):
        return (tree.x, tree.a, tree.b)
    return ()


def with_parts(tree, parts):
    """The tree with other parts."""
    if isinstance(tree, Negated):
        return Negated(*parts)
    if isinstance(tree, Binary):
        return Binary(tree.operator, *parts)
    if isinstance(tree, Applied):
        return Applied(tree.function, *parts)
    if isinstance(tree, Power):
        return Power(*parts, tree.exponent)
    if isinstance(tree, Select):
        return Select(*parts)
    return tree


def remembered(function):
    """A function of trees whose results are kept, so that it runs once for each part. A definition that is substituted
    in many places is one part.
    """
    known = {}

    def kept(tree):
        if id(tree) not in known:
            known[id(tree)] = (tree, function(tree))
        return known[id(tree)][1]

    return kept


def put(meaning_of):
    """energy_program/specs/Tree: put, the tree with each use of a definition replaced by the definition's meaning."""

    @remembered
    def replaced(tree):
        if isinstance(tree, Definition):
            return meaning_of(tree.number)
        return with_parts(tree, [replaced(part) for part in parts_of(tree)])

    return replaced


def substituted(body, definitions):
    """energy_program/specs/Tree: substituted and meaning, the body with each defined name replaced by its meaning, and the
    meanings of the definitions. The meaning of a definition is its tree with the meanings of the later ones, so the last
    comes first here. A number of no later definition means 0.
    """
    meanings = {}
    for number in reversed(range(len(definitions))):
        later = dict(meanings)
        meanings[number] = put(lambda k: later.get(k, Number(exactly(0))))(definitions[number])
    return put(lambda k: meanings.get(k, Number(exactly(0))))(body), [meanings[it] for it in range(len(definitions))]


@remembered
def is_free_of_distance(tree):
    """energy_program/specs/Tree: is_free_of_distance, the distance, input 0, doesn't occur in the tree."""
    if isinstance(tree, Input):
        return tree.number != 0
    for part in parts_of(tree):
        if not is_free_of_distance(part):
            return False
    return True
