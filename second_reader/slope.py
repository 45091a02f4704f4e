"""Derivatives of energies along the distance: derivative/specs/Slope."""
from arithmetic import one
from operations import Function, Operator
from trees import Applied, Binary, Definition, Input, Negated, Number, Power, Select, is_free_of_distance, remembered
from value import difference, negative, power, product, quotient, selected, square, square_root, step, sum_, value_of


def whole(bits, n):
    """derivative/specs/Slope: whole, the integer n as a value."""
    return n * 2**bits


# ---- the table: `u` and `v` are the values of the parts, `du` and `dv` their derivatives. The specification has the
# table for any numbers with such operations (derivative/specs/Slope: Operations). Here it is the table of fixed-point
# numbers (derivative/specs/Slope: fixed_point).


def product_row(bits, free_u, free_v, u, v, du, dv):
    """derivative/specs/Slope: product_row"""
    if free_u:
        return product(bits, u, dv)
    if free_v:
        return product(bits, du, v)
    return sum_(product(bits, du, v), product(bits, u, dv))


def quotient_row(bits, free_u, free_v, u, v, du, dv):
    """derivative/specs/Slope: quotient_row"""
    if free_v:
        return quotient(bits, du, v)
    if free_u:
        return quotient(bits, negative(product(bits, u, dv)), square(bits, v))
    return quotient(bits, difference(product(bits, du, v), product(bits, u, dv)), square(bits, v))


def operation_row(bits, operator, free_u, free_v, u, v, du, dv):
    """derivative/specs/Slope: operation_row"""
    if operator is Operator.Add:
        return sum_(du, dv)
    if operator is Operator.Subtract:
        return difference(du, dv)
    if operator is Operator.Multiply:
        return product_row(bits, free_u, free_v, u, v, du, dv)
    if operator is Operator.Divide:
        return quotient_row(bits, free_u, free_v, u, v, du, dv)
    if operator is Operator.Minimum:
        return selected(step(bits, difference(v, u)), du, dv)
    return selected(step(bits, difference(u, v)), du, dv)


def applied_row(bits, function, u, du):
    """derivative/specs/Slope: applied_row. A function that is constant between jumps has the derivative 0, and its part
    needs no value.
    """
    if function is Function.SquareRoot:
        return quotient(bits, du, product(bits, whole(bits, 2), square_root(bits, u)))
    if function is Function.Absolute:
        return selected(step(bits, u), du, negative(du))
    return 0


def power_row(bits, u, n, du):
    """derivative/specs/Slope: power_row. The derivative of u^n is n u^(n - 1) du, and that of u^-n is -(n du / u^(n +
    1)).
    """
    if n == 1:
        return du
    if n >= 0:
        return product(bits, product(bits, whole(bits, n), power(bits, u, n - 1)), du)
    return negative(quotient(bits, product(bits, whole(bits, -n), du), power(bits, u, -n + 1)))


def slope_of(bits, inputs):
    """derivative/specs/Slope: slope_of, slope_by and unless_constant, the derivative of a tree with these inputs: the
    distance, then the others. A tree without the distance has the derivative 0, even if it has no value.
    """
    value = value_of(bits, inputs)

    @remembered
    def slope(tree):
        if isinstance(tree, (Number, Definition)):
            return 0
        if isinstance(tree, Input):
            return one(bits) if tree.number == 0 else 0
        if is_free_of_distance(tree):
            return 0
        if isinstance(tree, Negated):
            return negative(slope(tree.a))
        if isinstance(tree, Binary):
            free = (is_free_of_distance(tree.a), is_free_of_distance(tree.b))
            values = (value(tree.a), value(tree.b))
            return operation_row(bits, tree.operator, *free, *values, slope(tree.a), slope(tree.b))
        if isinstance(tree, Applied):
            return applied_row(bits, tree.function, value(tree.a), slope(tree.a))
        if isinstance(tree, Power):
            return power_row(bits, value(tree.a), tree.exponent, slope(tree.a))
        assert isinstance(tree, Select)
        return selected(value(tree.x), slope(tree.a), slope(tree.b))

    return slope
