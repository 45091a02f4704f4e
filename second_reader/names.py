"""The names of an energy's variables and functions: energy_program/specs/Names."""
from dataclasses import dataclass
from enum import Enum
from typing import Optional

from operations import WORDS, Operator


@dataclass(frozen=True)
class Callee:
    """energy_program/specs/declared/callees/Callee: Callee, the meaning of a function with one, two or three arguments;
    the only one with three is select.
    """

    arguments: int
    makes: Optional[Enum] = None


# energy_program/specs/Names: function_of and callee_of.
FUNCTIONS = {
    **{word: Callee(1, function) for word, function in WORDS.items()},
    b"min": Callee(2, Operator.Minimum),
    b"max": Callee(2, Operator.Maximum),
    b"select": Callee(3),
}

# energy_program/specs/Names: is_left_out.
LEFT_OUT = (
    b"exp", b"log", b"sin", b"cos", b"sec", b"csc", b"tan", b"cot", b"asin", b"acos", b"atan", b"atan2", b"sinh",
    b"cosh", b"tanh", b"erf", b"erfc",
)  # fmt: skip


def first_particle(parameters):
    """energy_program/specs/Names: first_particle, the names of the parameters of one particle."""
    return [name + b"1" for name in parameters]


def second_particle(parameters):
    """energy_program/specs/Names: second_particle"""
    return [name + b"2" for name in parameters]


def parameters_and_globals(parameters, global_names):
    """energy_program/specs/Names: parameters_and_globals, all variables except the distance."""
    return first_particle(parameters) + second_particle(parameters) + global_names


def variables_of(parameters, global_names):
    """energy_program/specs/Names: variables_of, in the order of their input numbers: the distance first."""
    return [b"r"] + parameters_and_globals(parameters, global_names)


def is_reserved(name):
    """energy_program/specs/Names: is_reserved. No definition has such a name, and among variables only the distance."""
    return name == b"r" or name in FUNCTIONS or name in LEFT_OUT
