"""The tokens of a text: expr/specs/Bytes, Tokens and Text."""
from dataclasses import dataclass
from enum import Enum
from typing import Optional

from library import all_ascii_digits, digits_value, is_ascii_digit, less, prefix_len
from numerals import Constant, NumFault, ends_before, numeral_of, value_of
from texts import is_identifier_continue, is_identifier_start


class Kind(Enum):
    """expr/specs/Tokens: Lexeme, its variants."""

    Number = "number"
    Name = "name"
    Plus = b"+"
    Minus = b"-"
    Star = b"*"
    Slash = b"/"
    Caret = b"^"
    Open = b"("
    Close = b")"
    Comma = b","
    Semicolon = b";"
    Equals = b"="


@dataclass
class Token:
    """expr/specs/Tokens: Lexeme and Lexed. A number has its constant, and its integer if it is written in digits
    only; a name has its bytes. The position of a token is left out, as no rule uses it.
    """

    kind: Kind
    value: Optional[Constant] = None
    whole: int = 0
    name: Optional[bytes] = None


SYMBOLS = {kind.value: kind for kind in Kind if isinstance(kind.value, bytes)}


def is_space(byte):
    """expr/specs/Bytes: is_space, one of space, tab, CR and LF."""
    return byte in b" \t\r\n"


def whole_in(text):
    """expr/specs/Tokens: whole_in and up_to_100; line_text/specs/Columns: digits_of. The number that the bytes write in
    digits only, or 100 if it is greater; otherwise 0.
    """
    return min(digits_value(text), 100) if all_ascii_digits(text) else 0


def can_be_in_numeral(text, place):
    """Whether the byte at an index can be part of a numeral: a digit, a point, a letter, or a sign after a letter."""
    if text[place] in b"+-":
        return text[less(place, 1)] in b"eE"
    return is_ascii_digit(text[place]) or text[place] in b".eE"


def numbers_at(bits, text):
    """expr/specs/Text: IsToken, its case `number`: the numerals at the front of the text, and their lengths."""
    found = []
    most = prefix_len(lambda place: can_be_in_numeral(text, place), range(len(text)))
    for size in range(1, most + 1):
        n = numeral_of(text[:size])
        if n is None or not ends_before(n, text[size:]):
            continue
        c = value_of(bits, n)
        if not isinstance(c, NumFault):
            found.append((Token(Kind.Number, value=c, whole=whole_in(text[:size])), size))
    return found


def names_at(text):
    """expr/specs/Text: Every, Stops and IsToken, its case `name`: a name at the front of the text, as long as possible.
    """
    if not is_identifier_start(text[0]):
        return []
    size = prefix_len(is_identifier_continue, text)
    return [(Token(Kind.Name, name=text[:size]), size)]


def tokens_at(bits, text):
    """expr/specs/Text: IsToken, every token at the front of the text, and its length."""
    symbol = SYMBOLS.get(text[:1])
    symbols = [] if symbol is None else [(Token(symbol), 1)]
    return symbols + numbers_at(bits, text) + names_at(text)


def all_texts(bits, text):
    """expr/specs/Text: IsText and IsFront, every list of tokens that the text spells, with spaces between them."""
    ways = {0: [[]]}
    for at in range(len(text)):
        for tokens in ways.pop(at, []):
            if is_space(text[at]):
                ways.setdefault(at + 1, []).append(tokens)
            for token, size in tokens_at(bits, text[at:]):
                ways.setdefault(at + size, []).append(tokens + [token])
    return ways.get(len(text), [])
