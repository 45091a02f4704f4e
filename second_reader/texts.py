"""Lines, their words and columns, names: line_text/specs/Words, Parts, Identifiers and Columns."""
from library import decimal, is_ascii_alphabetic, is_ascii_digit, less, position_or_len, prefix_len, slice_index

# ---- words


def is_blank(byte):
    """line_text/specs/Words: is_blank, a space or a tab; a carriage return is part of a word."""
    return byte == 32 or byte == 9


def words(text):
    """line_text/specs/Words: words and is_empty, the parts between blanks."""
    parts = text.replace(b"\t", b" ").split(b" ")
    return [part for part in parts if part]


def without_blanks(text):
    """line_text/specs/Words: without_blanks, the text from its first byte that isn't blank."""
    return text[prefix_len(is_blank, text) :]


def after_word(text):
    """line_text/specs/Words: after_word, the text after the first word."""
    rest = without_blanks(text)
    return rest[position_or_len(is_blank, rest) :]


# ---- identifiers


def is_identifier_start(byte):
    """line_text/specs/Identifiers: is_identifier_start, `_` or a letter."""
    return byte == 95 or is_ascii_alphabetic(byte)


def is_identifier_continue(byte):
    """line_text/specs/Identifiers: is_identifier_continue, `_`, a letter, or a digit."""
    return is_identifier_start(byte) or is_ascii_digit(byte)


def is_identifier(text):
    """line_text/specs/Identifiers: is_identifier"""
    return len(text) > 0 and is_identifier_start(text[0]) and all(is_identifier_continue(byte) for byte in text[1:])


# ---- parts of a state's text


def ended(line):
    """line_text/specs/Parts: ended, a line and its LF."""
    return line + b"\n"


def word(n):
    """line_text/specs/Parts: word, a space and a number."""
    return b" " + decimal(n)


def right_in(width, text):
    """line_text/specs/Parts: right_in, aligned right in a column."""
    return b" " * less(width, len(text)) + text


def left_in(width, text):
    """line_text/specs/Parts: left_in, aligned left in a column."""
    return text + b" " * less(width, len(text))


def is_printable(text):
    """line_text/specs/Parts: is_printable, only bytes from 32 to 126."""
    return all(32 <= byte <= 126 for byte in text)


def has_clean_ends(text):
    """line_text/specs/Parts: has_clean_ends, neither end is a space."""
    return len(text) == 0 or (text[0] != 32 and text[-1] != 32)


def is_name(text):
    """line_text/specs/Parts: is_name, at most five bytes from 32 to 126, without spaces at its ends."""
    return len(text) <= 5 and is_printable(text) and has_clean_ends(text)


def is_title(text):
    """line_text/specs/Parts: is_title and lacks, any bytes except LF, not ending in CR."""
    return b"\n" not in text and slice_index(text, less(len(text), 1)) != 13
