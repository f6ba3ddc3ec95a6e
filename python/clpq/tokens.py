"""The tokens of a program's text: where a query ends, which variables it names, and where its text is no text of tokens."""

from __future__ import annotations

import re
from dataclasses import dataclass
from enum import Enum
from fractions import Fraction
from typing import Iterator, List, Optional, Tuple, Union

LIMIT = 2**127 - 1
"""The greatest numerator and denominator that a number may have."""

_BLANK = re.compile(r"(?:[ \t\n\r\f\v]+|%[^\n]*|/\*.*?\*/)*", re.S)
_ASCII_WORD = re.compile(r"[0-9A-Za-z_]*")
_SYMBOLS = re.compile(r"[-+*/\\^<>=~:.?@#&$]+")
_DIGITS = re.compile(r"[0-9]+")
_BASED = re.compile(r"0(?:x([0-9A-Fa-f]+)|o([0-7]+)|b([01]+))")
_DENOMINATOR = re.compile(r"r([0-9]+)")
_PLAIN_QUOTED = re.compile(r"[^'\"\\\n]+")
_NUMBERED_ESCAPE = re.compile(r"\\(?:x([0-9A-Fa-f]+)|([0-7]+))\\")
_ESCAPES = {
    "\\": "\\", "'": "'", '"': '"', "`": "`",
    "a": "\a", "b": "\b", "f": "\f", "n": "\n", "r": "\r", "t": "\t", "v": "\v",
}  # fmt: skip


class Kind(Enum):
    """What a token is."""

    NAME = "name"
    QUOTED = "quoted name"
    VARIABLE = "variable"
    NUMBER = "number"
    CODES = "text in double quotes"
    PUNCTUATION = "punctuation"
    END = "end"


@dataclass(frozen=True)
class Token:
    """A token: its kind, what it stands for, and its first and last place (exclusive) in characters."""

    kind: Kind
    value: Union[str, int, Fraction]
    start: int
    end: int


class TokenFault(ValueError):
    """No token stands at a place. `at` is that place, in characters from 0."""

    def __init__(self, at: int) -> None:
        super().__init__(f"no token at character {at}")
        self.at = at


def tokens(text: str, start: int = 0, any_letter: bool = False) -> Iterator[Token]:
    """The tokens from `start` on, the longest first. Raises `TokenFault` where none stands.

    With `any_letter` every character past ASCII may stand in a name, whatever version of Unicode Python knows; so texts
    that the program wrote are read.
    """
    at = _after_blank(text, start)
    while at < len(text):
        token = _token(text, at, any_letter)
        yield token
        at = _after_blank(text, token.end)


def byte_of(text: str, at: int) -> int:
    """The place in bytes of UTF-8 of the character at `at`."""
    return len(text[:at].encode("utf-8", "surrogateescape"))


def character_of(text: str, byte: int) -> int:
    """The place in characters of the byte at `byte`; the text's length where it is behind the text."""
    return len(text.encode("utf-8", "surrogateescape")[:byte].decode("utf-8", "replace"))


@dataclass(frozen=True)
class Piece:
    """A text up to its end token, if it has one, and the character at which it has no token, if there is one."""

    text: str
    ended: bool
    fault: Optional[int]


def pieces(text: str) -> Iterator[Piece]:
    """Cuts a text of queries at its end tokens, as the program does. Blanks and comments behind the last are left away."""
    start = 0
    while _after_blank(text, start) < len(text):
        end, ended, fault = _to_end(text, start)
        yield Piece(text[start:end], ended, None if fault is None else fault - start)
        start = end


def named_variables(text: str) -> Tuple[str, ...]:
    """The variables that an answer of the query may speak of by name, in order of first occurrence."""
    names: List[str] = []
    try:
        for token in tokens(text):
            name = str(token.value)
            if token.kind is Kind.VARIABLE and not name.startswith("_") and name not in names:
                names.append(name)
    except TokenFault:
        return ()
    return tuple(names)


def _to_end(text: str, start: int) -> Tuple[int, bool, Optional[int]]:
    """Where the first end token ends, whether there is one, and the first fault before it."""
    first, at = None, start
    while True:
        try:
            for token in tokens(text, at):
                if token.kind is Kind.END:
                    return token.end, True, first
            return len(text), False, first
        except TokenFault as fault:
            if first is None:
                first = fault.at
            at = fault.at if fault.at > at else at + 1


def _after_blank(text: str, at: int) -> int:
    found = _BLANK.match(text, at)
    return found.end() if found else at


def _token(text: str, at: int, any_letter: bool) -> Token:
    first = text[at]
    if first in "()[]{},|":
        return Token(Kind.PUNCTUATION, first, at, at + 1)
    if first.isdigit() and first.isascii():
        return _number(text, at)
    if first in "'\"":
        return _quoted(text, at)
    if first in "!;":
        return Token(Kind.NAME, first, at, at + 1)
    if first == "_" or "A" <= first <= "Z":
        end = _word_end(text, at, any_letter)
        return Token(Kind.VARIABLE, text[at:end], at, end)
    if "a" <= first <= "z" or _starts(first, any_letter):
        end = _word_end(text, at + 1, any_letter)
        return Token(Kind.NAME, text[at:end], at, end)
    return _symbols(text, at)


def _starts(first: str, any_letter: bool) -> bool:
    return not first.isascii() and (any_letter or first.isidentifier())


def _word_end(text: str, at: int, any_letter: bool) -> int:
    """Behind the last letter, digit or `_` of a word whose letters go on at `at`."""
    while True:
        at = _ASCII_WORD.match(text, at).end()  # type: ignore[union-attr]
        if at == len(text) or text[at].isascii() or not (any_letter or f"a{text[at]}".isidentifier()):
            return at
        at += 1


def _symbols(text: str, at: int) -> Token:
    if text.startswith("/*", at):
        raise TokenFault(len(text))
    run = _SYMBOLS.match(text, at)
    if run is None:
        raise TokenFault(at)
    end = run.end()
    ends = run.group() == "." and (end == len(text) or text[end] in " \t\n\r\f\v%")
    return Token(Kind.END if ends else Kind.NAME, run.group(), at, end)


def _number(text: str, at: int) -> Token:
    """A numeral: digits, two of them around `r`, digits of another base, or the code of a character."""
    based = _BASED.match(text, at)
    if based:
        base = 16 if based[1] else 8 if based[2] else 2
        return _checked(text, at, based.end(), int(based[1] or based[2] or based[3], base))
    if text.startswith("0'", at):
        code = _code(text, at + 2)
        if code is not None:
            return Token(Kind.NUMBER, code[0], at, code[1])
    digits = _DIGITS.match(text, at)
    assert digits is not None
    below = _DENOMINATOR.match(text, digits.end())
    if below is None:
        return _checked(text, at, digits.end(), _whole(digits.group(), at))
    parts = _whole(digits.group(), at), _whole(below[1], at)
    if not parts[1]:
        raise TokenFault(at)
    value = Fraction(*parts)
    return _checked(text, at, below.end(), value.numerator if value.denominator == 1 else value)


def _whole(digits: str, at: int) -> int:
    """The number of the digits. A number of more digits than the limit has is none, and is never worked out."""
    digits = digits.lstrip("0") or "0"
    if len(digits) > 39 or int(digits) > LIMIT:
        raise TokenFault(at)
    return int(digits)


def _checked(text: str, at: int, end: int, value: Union[int, Fraction]) -> Token:
    if value > LIMIT:
        raise TokenFault(at)
    if text.startswith(".", end) and text[end + 1 : end + 2].isdigit() and text[end + 1].isascii():
        raise TokenFault(end)
    return Token(Kind.NUMBER, value, at, end)


def _code(text: str, at: int) -> Optional[Tuple[int, int]]:
    """The code of the character that stands behind `0'`, and the place behind it."""
    if text.startswith("''", at):
        return 39, at + 2
    if text.startswith("\\", at):
        if text.startswith("\\\n", at):
            return None
        try:
            character, end = _escape(text, at)
        except TokenFault:
            return None
        return ord(character), end
    if at == len(text) or text[at] in "'\n":
        return None
    return ord(text[at]), at + 1


def _quoted(text: str, at: int) -> Token:
    quote, parts, here = text[at], [], at + 1
    while True:
        plain = _PLAIN_QUOTED.match(text, here)
        if plain:
            parts.append(plain.group())
            here = plain.end()
        if here == len(text) or text[here] == "\n":
            raise TokenFault(here)
        if text[here] == "\\":
            character, here = _escape(text, here)
            parts.append(character)
        elif text[here] != quote:
            parts.append(text[here])
            here += 1
        elif text.startswith(quote * 2, here):
            parts.append(quote)
            here += 2
        else:
            return Token(Kind.QUOTED if quote == "'" else Kind.CODES, "".join(parts), at, here + 1)


def _escape(text: str, at: int) -> Tuple[str, int]:
    """What the escape at `at` stands for, and the place behind it."""
    numbered = _NUMBERED_ESCAPE.match(text, at)
    if numbered:
        hexadecimal, octal = numbered.groups()
        digits, base = (hexadecimal, 16) if hexadecimal else (octal, 8)
        digits = digits.lstrip("0") or "0"
        code = int(digits, base) if len(digits) < 12 else LIMIT
        if code > 0x10FFFF or 0xD800 <= code <= 0xDFFF:
            raise TokenFault(at)
        return chr(code), numbered.end()
    named = text[at + 1 : at + 2]
    if named == "\n":
        return "", at + 2
    if named not in _ESCAPES or not named:
        raise TokenFault(at + 1)
    return _ESCAPES[named], at + 2
