"""The operations of energies: fixed/specs/Operations. Those of code alone aren't needed for a run."""
from enum import Enum

import arithmetic


class Operator(Enum):
    """fixed/specs/declared/operations/Operator: Operator"""

    Add = "+"
    Subtract = "-"
    Multiply = "*"
    Divide = "/"
    Minimum = "min"
    Maximum = "max"


class FlatFunction(Enum):
    """fixed/specs/declared/operations/FlatFunction: FlatFunction"""

    Step = "step"
    Delta = "delta"
    Floor = "floor"
    Ceiling = "ceil"


class Function(Enum):
    """fixed/specs/declared/operations/Function: Function, without the case of flat functions: here a function is one of
    these or a `FlatFunction`.
    """

    SquareRoot = "sqrt"
    Absolute = "abs"


# fixed/specs/Operations: function_of_word, flat_of_word, with_word, function_word, flat_word and flat_functions.
WORDS = {function.value.encode(): function for function in [*Function, *FlatFunction]}


def operator_value(bits, operator, x, y):
    """fixed/specs/Operations: operator_value"""
    if operator is Operator.Add:
        return arithmetic.sum_of(x, y)
    if operator is Operator.Subtract:
        return arithmetic.difference_of(x, y)
    if operator is Operator.Multiply:
        return arithmetic.product_of(bits, x, y)
    if operator is Operator.Divide:
        return arithmetic.quotient_of(bits, x, y)
    return min(x, y) if operator is Operator.Minimum else max(x, y)


def flat_value(bits, function, x):
    """fixed/specs/Operations: flat_value"""
    if function is FlatFunction.Step:
        return arithmetic.step_of(bits, x)
    if function is FlatFunction.Delta:
        return arithmetic.delta_of(bits, x)
    if function is FlatFunction.Floor:
        return arithmetic.whole_of(bits, x)
    return arithmetic.ceiling_of(bits, x)


def function_value(bits, function, x):
    """fixed/specs/Operations: function_value"""
    if function is Function.SquareRoot:
        return arithmetic.square_root_of(bits, x)
    if function is Function.Absolute:
        return arithmetic.absolute_of(x)
    return flat_value(bits, function, x)
