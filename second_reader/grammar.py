"""The grammar, which relates tokens to trees: expr/specs/Grammar and Calls.

Each rule of the grammar is a relation. Here it returns every tree that it relates to the tokens from `first` up to,
but not including, `end`, so a text with two meanings would be found. `levels` is the number in the rules: fewer
than this many parentheses and minus signs are open around each token.
"""
from functools import wraps

from names import FUNCTIONS
from operations import Operator
from tokens import Kind
from trees import Applied, Binary, Name, Negated, Number, Power, Select

SUMS = {Kind.Plus: Operator.Add, Kind.Minus: Operator.Subtract}
PRODUCTS = {Kind.Star: Operator.Multiply, Kind.Slash: Operator.Divide}
# The last token of an operand.
OPERAND_ENDS = (Kind.Number, Kind.Name, Kind.Close)
# In texts of up to this many tokens every way to split them is tried.
SHORT = 60


def called(callee, arguments):
    """expr/specs/Calls: called, the call of a function with these arguments, or None if their number is wrong."""
    if len(arguments) != callee.arguments:
        return None
    if len(arguments) == 1:
        return Applied(callee.makes, *arguments)
    if len(arguments) == 2:
        return Binary(callee.makes, *arguments)
    return Select(*arguments)


def with_argument(arguments, x):
    """expr/specs/Syntax: with_argument and Arguments. More than three arguments are all represented as four."""
    return arguments + (x,) if len(arguments) < 4 else arguments


def whole_numbers(tokens):
    """expr/specs/Grammar: IsWhole; energy_program/specs/Tree: is_whole. A number from 1 to 32 in digits only, with an
    optional minus.
    """
    if not tokens or tokens[-1].kind is not Kind.Number or not 0 < tokens[-1].whole <= 32:
        return []
    if len(tokens) == 1:
        return [tokens[0].whole]
    if len(tokens) == 2 and tokens[0].kind is Kind.Minus:
        return [-tokens[1].whole]
    return []


def remembered(rule):
    """A rule whose results are kept: it runs once for the same tokens and levels."""

    @wraps(rule)
    def kept(grammar, *span):
        key = (rule.__name__,) + span
        if key not in grammar.known:
            grammar.known[key] = rule(grammar, *span)
        return grammar.known[key]

    return kept


class Grammar:
    """The rules over a list of tokens."""

    def __init__(self, tokens):
        self.tokens = tokens
        self.kinds = [token.kind for token in tokens]
        self.depths = [0]  # the number of open parentheses before each token
        for kind in self.kinds:
            self.depths.append(self.depths[-1] + (kind is Kind.Open) - (kind is Kind.Close))
        self.known = {}  # the results of rules

    def places(self, first, end, kinds):
        """The positions at which one of these tokens may separate two parts of a rule. They are outside all
        parentheses, since every part has as many opening as closing ones.

        In a long text only the last such position after an operand is tried. No other one fits: the left part ends with
        an operand, and in the right part such a token outside parentheses occurs only where an operand begins.
        """
        inner = range(first + 1, end - 1)
        found = [at for at in inner if self.kinds[at] in kinds and self.depths[at] == self.depths[first]]
        if len(self.kinds) <= SHORT:
            return found
        return [at for at in found if self.kinds[at - 1] in OPERAND_ENDS][-1:]

    def is_grouped(self, first, end):
        """Whether parentheses enclose the tokens."""
        return end - first >= 2 and self.kinds[first] is Kind.Open and self.kinds[end - 1] is Kind.Close

    @remembered
    def expressions(self, levels, first, end):
        """expr/specs/Grammar: IsExpr"""
        trees = list(self.terms(levels, first, end))
        for at in self.places(first, end, SUMS):
            for y in self.terms(levels, at + 1, end):
                for x in self.expressions(levels, first, at):
                    trees.append(Binary(SUMS[self.kinds[at]], x, y))
        return trees

    @remembered
    def terms(self, levels, first, end):
        """expr/specs/Grammar: IsTerm"""
        trees = list(self.unaries(levels, first, end))
        for at in self.places(first, end, PRODUCTS):
            for y in self.unaries(levels, at + 1, end):
                for x in self.terms(levels, first, at):
                    trees.append(Binary(PRODUCTS[self.kinds[at]], x, y))
        return trees

    @remembered
    def unaries(self, levels, first, end):
        """expr/specs/Grammar: IsUnary"""
        if levels == 0 or first == end:
            return []
        trees = list(self.powers(levels - 1, first, end))
        if self.kinds[first] is Kind.Minus:
            trees += [Negated(x) for x in self.unaries(levels - 1, first + 1, end)]
        return trees

    @remembered
    def powers(self, levels, first, end):
        """expr/specs/Grammar: IsPower"""
        trees = list(self.atoms(levels, first, end))
        for at in self.places(first, end, (Kind.Caret,)):
            for exponent in self.exponents(levels, at + 1, end):
                for x in self.atoms(levels, first, at):
                    trees.append(Power(x, exponent))
        return trees

    def exponents(self, levels, first, end):
        """expr/specs/Grammar: IsExponent"""
        found = whole_numbers(self.tokens[first:end])
        if levels > 0 and self.is_grouped(first, end):
            found += whole_numbers(self.tokens[first + 1 : end - 1])
        return found

    @remembered
    def atoms(self, levels, first, end):
        """expr/specs/Grammar: IsAtom"""
        token = self.tokens[first]
        if end - first == 1 and token.kind is Kind.Number:
            return [Number(token.value)]
        if end - first == 1 and token.kind is Kind.Name:
            return [Name(token.name)]
        if self.is_grouped(first, end):
            return self.expressions(levels, first + 1, end - 1)
        if token.kind is Kind.Name and self.is_grouped(first + 1, end):
            return self.calls(levels, token.name, first + 2, end - 1)
        return []

    def calls(self, levels, name, first, end):
        """expr/specs/Grammar: IsArguments and IsAtom, its case `call`: `first` to `end` are the tokens between the
        parentheses.
        """
        if name not in FUNCTIONS:
            return []
        arguments = [()] if first == end else self.lists(levels, first, end)
        trees = [called(FUNCTIONS[name], xs) for xs in arguments]
        return [tree for tree in trees if tree is not None]

    @remembered
    def lists(self, levels, first, end):
        """expr/specs/Grammar: IsList"""
        found = [(x,) for x in self.expressions(levels, first, end)]
        for at in self.places(first, end, (Kind.Comma,)):
            for y in self.expressions(levels, at + 1, end):
                for xs in self.lists(levels, first, at):
                    found.append(with_argument(xs, y))
        return found

    def end_of_expression(self, first):
        """The end of an expression of a program. No rule allows a semicolon inside, and a semicolon or the end follows.
        """
        ends = [at for at in range(first, len(self.kinds)) if self.kinds[at] is Kind.Semicolon]
        return ends[0] if ends else len(self.kinds)

    @remembered
    def tails(self, levels, first):
        """expr/specs/Grammar: IsTail, every list of definitions from this token on."""
        if first == len(self.kinds):
            return [[]]
        if self.kinds[first] is not Kind.Semicolon:
            return []
        found = list(self.tails(levels, first + 1))
        if self.kinds[first + 1 : first + 3] == [Kind.Name, Kind.Equals]:
            end = self.end_of_expression(first + 3)
            for x in self.expressions(levels, first + 3, end):
                for definitions in self.tails(levels, end):
                    found.append([(self.tokens[first + 1].name, x)] + definitions)
        return found

    def programs(self, levels):
        """expr/specs/Grammar: IsProgram, every body with its definitions."""
        end = self.end_of_expression(0)
        bodies = self.expressions(levels, 0, end)
        return [(body, definitions) for body in bodies for definitions in self.tails(levels, end)]
