"""The derivative of a formula as a formula, from docs/MODEL.md and docs/BOUNDS.md alone."""
from numerals import exactly
from operations import FlatFunction, Function, Operator
from trees import Applied, Binary, Input, Negated, Number, Power, Select, is_free_of_distance, remembered


def product(u, v):
    return Binary(Operator.Multiply, u, v)


def quotient(u, v):
    return Binary(Operator.Divide, u, v)


def step(u):
    return Applied(FlatFunction.Step, u)


class Derivatives:
    """The table of derivatives, in trees: `u` and `v` are the parts of a tree, `du` and `dv` their derivatives."""

    def __init__(self, bits):
        self.one = 2**bits
        self.of = remembered(self.derivative)

    def whole(self, n):
        return Number(exactly(n * self.one))

    def derivative(self, tree):
        """The derivative of a tree."""
        if is_free_of_distance(tree):
            return self.whole(0)
        if isinstance(tree, Input):
            return self.whole(1)
        if isinstance(tree, Negated):
            return Negated(self.of(tree.a))
        if isinstance(tree, Binary):
            return self.of_two(tree.operator, tree.a, tree.b, self.of(tree.a), self.of(tree.b))
        if isinstance(tree, Applied):
            return self.of_function(tree.function, tree.a, self.of(tree.a))
        if isinstance(tree, Power):
            return self.of_power(tree.a, tree.exponent, self.of(tree.a))
        assert isinstance(tree, Select)
        return Select(tree.x, self.of(tree.a), self.of(tree.b))

    def of_two(self, operator, u, v, du, dv):
        if operator in (Operator.Add, Operator.Subtract):
            return Binary(operator, du, dv)
        if operator is Operator.Multiply:
            return self.of_product(u, v, du, dv)
        if operator is Operator.Divide:
            return self.of_quotient(u, v, du, dv)
        first, second = (v, u) if operator is Operator.Minimum else (u, v)
        return Select(step(Binary(Operator.Subtract, first, second)), du, dv)

    def of_product(self, u, v, du, dv):
        if is_free_of_distance(u):
            return product(u, dv)
        if is_free_of_distance(v):
            return product(du, v)
        return Binary(Operator.Add, product(du, v), product(u, dv))

    def of_quotient(self, u, v, du, dv):
        if is_free_of_distance(v):
            return quotient(du, v)
        if is_free_of_distance(u):
            return quotient(Negated(product(u, dv)), Power(v, 2))
        return quotient(Binary(Operator.Subtract, product(du, v), product(u, dv)), Power(v, 2))

    def of_function(self, function, u, du):
        if function is Function.SquareRoot:
            return quotient(du, product(self.whole(2), Applied(function, u)))
        if function is Function.Absolute:
            return product(Select(step(u), self.whole(1), self.whole(-1)), du)
        return self.whole(0)

    def of_power(self, u, n, du):
        if n == 1:
            return du
        if n > 0:
            return product(product(self.whole(n), Power(u, n - 1)), du)
        return Negated(quotient(product(self.whole(-n), du), Power(u, 1 - n)))
