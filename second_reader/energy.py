"""The energy that a text writes: expr/specs/Definitions, Uses and Energy."""
from grammar import Grammar
from library import position
from names import is_reserved
from tokens import all_texts
from trees import Definition, Input, Name, parts_of, substituted, with_parts

# ---- names of definitions


def is_taken(variables, name):
    """expr/specs/Definitions: is_taken. No definition may have such a name: a reserved one, or a variable's."""
    return is_reserved(name) or name in variables


def are_new(variables, names):
    """expr/specs/Definitions: AreNew, IsNew, is_given and number_from; expr/specs/Syntax: defined_names. No name is
    taken, and no two definitions have the same name.
    """
    return not any(is_taken(variables, name) or name in names[:number] for number, name in enumerate(names))


# ---- names resolved


def used(variables, first, later, name):
    """expr/specs/Uses: used and used_later; energy_program/specs/Names: input_of. The variable or later definition of
    this name, or None. Later definitions are numbered from `first`.
    """
    number = position(name, variables)
    if number is not None:
        return Input(number)
    number = position(name, later)
    return None if number is None else Definition(first + number)


def resolved(variables, first, later, syntax):
    """expr/specs/Uses: resolved, the tree of a syntax, or None if a name is unknown (energy_program/specs/Faults:
    Refusal).
    """
    if isinstance(syntax, Name):
        return used(variables, first, later, syntax.name)
    parts = [resolved(variables, first, later, part) for part in parts_of(syntax)]
    return None if None in parts else with_parts(syntax, parts)


def meaning_of(variables, body, definitions):
    """expr/specs/Uses: source_meaning, substituted_tree, trees and all_resolved, the tree of a text with its definitions
    substituted, and the trees of the definitions; or None. The body may use all definitions, and each definition the
    later ones.
    """
    names = [name for name, _ in definitions]
    trees = [resolved(variables, 0, names, body)]
    for number, (_, syntax) in enumerate(definitions):
        trees.append(resolved(variables, number + 1, names[number + 1 :], syntax))
    return None if None in trees else substituted(trees[0], trees[1:])


# ---- energies


def all_programs(bits, text, most):
    """The programs of a text, within the fields `spelled`, `few`, `derived` and `few_definitions`."""
    found = []
    for tokens in all_texts(bits, text):
        if len(tokens) <= 4096:
            found += Grammar(tokens).programs(most + 1)
    return [(body, definitions) for body, definitions in found if len(definitions) <= 64]


def all_meanings(bits, variables, text, most):
    """expr/specs/Energy: IsEnergy, every tree of the text with these variables, with the trees of its definitions. At most
    `most` parentheses and minus signs are open around a token.
    """
    found = []
    for body, definitions in all_programs(bits, text, most):
        if are_new(variables, [name for name, _ in definitions]):
            meaning = meaning_of(variables, body, definitions)
            if meaning is not None:
                found.append(meaning)
    return found
