"""Functions of the standard library of the definitions' language that Python doesn't have itself.

A text is `bytes`, a natural number or an integer is an `int`, a list is a `list` or a `tuple`. A missing value
(`Option`) is `None`. A result (`Result`) is its value, or a fault, which is a member of an enum. `+`, `-`, `*` and `**`
are exact, and `//` and `%` are floor and remainder.
"""


def is_ascii_digit(byte):
    """std/specs/Char: is_ascii_digit"""
    return 48 <= byte <= 57


def is_ascii_alphabetic(byte):
    """std/specs/Char: is_ascii_alphabetic"""
    return 65 <= byte <= 90 or 97 <= byte <= 122


def all_ascii_digits(text):
    """std/specs/Str: all_ascii_digits"""
    return all(is_ascii_digit(byte) for byte in text)


def digits_value(digits):
    """std/specs/Str/Parse: digits_value, in the radix 10: the number that digits write; 0 without digits."""
    value = 0
    for digit in digits:
        value = value * 10 + (digit - 48)
    return value


def decimal(number):
    """std/specs/Prelude: decimal, the decimal digits of a natural number."""
    return str(number).encode("ascii")


def signed_decimal(number):
    """std/specs/Fmt: signed_decimal, the decimal digits of an integer, after a minus if it is negative."""
    return decimal(number) if number >= 0 else b"-" + decimal(-number)


def slice_index(items, place):
    """std/specs/Prelude: slice_index, the item at an index, or 0 outside the list."""
    return items[place] if place < len(items) else 0


def less(a, b):
    """std/specs/Prelude: the difference of natural numbers, which is 0 if b is greater than a."""
    return max(a - b, 0)


def prefix_len(test, items):
    """std/specs/List: prefix_len, the number of items at the front that pass."""
    count = 0
    while count < len(items) and test(items[count]):
        count += 1
    return count


def position_or_len(test, items):
    """std/specs/List: position_or_len, the index of the first item that passes, or the length."""
    return prefix_len(lambda item: not test(item), items)


def position(item, items):
    """std/specs/List: position, the first index of an item, or None."""
    return items.index(item) if item in items else None


def all_apart(items):
    """std/specs/Prelude: AllPairs, with the property that no two items are equal."""
    return all(items[i] != items[k] for k in range(len(items)) for i in range(k))
