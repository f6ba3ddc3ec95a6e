"""Terms as Python values, and their text as the program writes it.

Numbers are `int` where they are whole and `fractions.Fraction` else, lists are Python lists, and the rest are the classes below.
"""

from __future__ import annotations

import re
from dataclasses import dataclass
from fractions import Fraction
from typing import Any, Generator, List, Optional, Tuple, Union

from .operators import INFIX, PREFIX, is_operator
from .tokens import Kind, TokenFault, tokens


@dataclass(frozen=True)
class Atom:
    """A name. `str` gives the name itself, without quotes."""

    name: str

    def __str__(self) -> str:
        return self.name


@dataclass(frozen=True)
class Var:
    """A variable without a value. Those that the query doesn't name are `_1`, `_2` and so on within one answer."""

    name: str

    def __str__(self) -> str:
        return self.name


@dataclass(frozen=True, eq=False)
class Struct:
    """A compound term: its name and its arguments.

    `{T}` is `Struct("{}", (T,))`. A list whose end is no list, as `[a|T]`, is `Struct(".", (head, tail))`. `str` gives the text.
    """

    name: str
    args: Tuple["Term", ...]

    def __str__(self) -> str:
        return written(self)

    def __eq__(self, other: object) -> bool:
        return isinstance(other, Struct) and _same(self, other)

    def __hash__(self) -> int:
        return hash((Struct, self.name, len(self.args)))


@dataclass(frozen=True)
class Unread:
    """The text of a term that the operators of the program itself keep from being read."""

    text: str

    def __str__(self) -> str:
        return self.text


Term = Union[int, Fraction, Atom, Var, Struct, Unread, List[Any]]


def cell(head: Term, tail: Term) -> Term:
    """The list of a head and a tail."""
    return [head, *tail] if isinstance(tail, list) else Struct(".", (head, tail))


def _same(one: Term, other: Term) -> bool:
    """Whether two terms are equal, at whatever depth."""
    work: List[Tuple[Term, Term]] = [(one, other)]
    while work:
        left, right = work.pop()
        if isinstance(left, Struct) and isinstance(right, Struct):
            if left.name != right.name or len(left.args) != len(right.args):
                return False
            work.extend(zip(left.args, right.args))
        elif isinstance(left, list) and isinstance(right, list):
            if len(left) != len(right):
                return False
            work.extend(zip(left, right))
        elif isinstance(left, (Struct, list)) or left != right:
            return False
    return True


Steps = Generator["Steps", Any, Any]
"""A walk over a term: it yields the walk over a part and is sent what that one returns."""


def walked(first: Steps) -> Any:
    """What a walk returns. The walks that are under way stand in a list, so that memory alone bounds the depth."""
    under_way, value = [first], None
    while under_way:
        try:
            under_way.append(under_way[-1].send(value))
            value = None
        except StopIteration as done:
            under_way.pop()
            value = done.value
    return value


_NUMBER = re.compile(r"(-?)(0|[1-9][0-9]*)(?:r([1-9][0-9]*))?", re.A)


def quoted(name: str) -> str:
    """A name as `writeq` writes it: in quotes where it isn't one token without them."""
    if name in ("[]", "{}"):
        return name
    try:
        found = [*tokens(name)]
    except TokenFault:
        found = []
    if len(found) == 1 and found[0].kind is Kind.NAME and found[0].value == name:
        return name
    return in_quotes(name)


def in_quotes(name: str) -> str:
    """A name in single quotes."""
    return "'" + "".join(_escaped(it) for it in name) + "'"


def _escaped(character: str) -> str:
    if character in "\\'":
        return "\\" + character
    if character in "\n\t":
        return "\\n" if character == "\n" else "\\t"
    if character < " " or "\x7f" <= character <= "\x9f":
        return f"\\x{ord(character):x}\\"
    return character


def number_text(value: Union[int, Fraction]) -> str:
    """A number as `N` or `NrD`."""
    return str(value) if value.denominator == 1 else f"{value.numerator}r{value.denominator}"


def number_of(text: str) -> Optional[Union[int, Fraction]]:
    """The number of a text `N` or `NrD`, with `-` or without; none where the text is something else."""
    found = _NUMBER.fullmatch(text)
    if not found:
        return None
    whole = int(found[1] + found[2])
    if not found[3]:
        return whole
    value = Fraction(whole, int(found[3]))
    return value.numerator if value.denominator == 1 else value


def written(term: Term, priority: int = 1200) -> str:
    """The text of a term by the operators that every program begins with, as `writeq` writes it."""
    writer = _Writer()
    walked(writer.term(term, priority, False))
    return "".join(writer.out)


class _Writer:
    """Writes pieces of a text, with a blank between two that would else be read as one."""

    def __init__(self) -> None:
        self.out: List[str] = []
        self.last = ""
        self.prefix = ""

    def put(self, piece: str, prefix: str = "") -> None:
        """Writes a piece; `prefix` is the prefix operator that it is, if it is one."""
        first = piece[0]
        joined = _symbol(self.last) and _symbol(first) or _of_word(self.last) and _of_word(first)
        if joined or self.prefix and (first == "(" or self.prefix == "-" and first.isdigit()):
            self.out.append(" ")
        self.out.append(piece)
        self.last, self.prefix = piece[-1], prefix

    def term(self, term: Term, most: int, operand: bool) -> Steps:
        """Writes a term of at most this priority, or one in parentheses. An operand is that of an operator."""
        if isinstance(term, Struct) and term.args:
            yield self.compound(term, most)
        elif isinstance(term, list) and term:
            yield self.listed(term)
        else:
            text = _simple(term)
            if operand and (text.startswith("-") and not isinstance(term, Atom) or isinstance(term, Atom) and is_operator(term.name)):
                text = f"({text})"
            self.put(text)

    def compound(self, term: Struct, most: int) -> Steps:
        name, args = term.name, term.args
        if len(args) == 2 and name == ".":
            yield self.listed(term)
        elif len(args) == 1 and name == "{}":
            yield self.enclosed("{", args, 1200, "}")
        elif len(args) == 2 and name in INFIX:
            yield self.parenthesised(self.infix(term), INFIX[name][0] > most)
        elif len(args) == 1 and name in PREFIX:
            yield self.parenthesised(self.prefixed(term), PREFIX[name][0] > most)
        else:
            yield self.called(term)

    def parenthesised(self, inner: Steps, needed: bool) -> Steps:
        if needed:
            self.put("(")
        yield inner
        if needed:
            self.put(")")

    def infix(self, term: Struct) -> Steps:
        priority, left, right = INFIX[term.name]
        if left == priority and _goes_right(term.args[0], priority):
            left -= 1
        yield self.term(term.args[0], left, True)
        name = quoted(term.name) if term.name != "," else ","
        self.put(f" {name} " if name[0].isalpha() else name)
        yield self.term(term.args[1], right, True)

    def prefixed(self, term: Struct) -> Steps:
        if term.name == "-" and isinstance(term.args[0], (int, Fraction)):
            yield self.called(term)
        else:
            self.put(quoted(term.name), term.name)
            yield self.term(term.args[0], PREFIX[term.name][2], True)

    def called(self, term: Struct) -> Steps:
        self.put(quoted(term.name))
        yield self.enclosed("(", term.args, 999, ")")

    def enclosed(self, opens: str, args: Tuple[Term, ...], most: int, closes: str) -> Steps:
        self.put(opens)
        for number, it in enumerate(args):
            if number:
                self.put(",")
            yield self.term(it, most, False)
        self.put(closes)

    def listed(self, term: Term) -> Steps:
        between = "["
        while isinstance(term, Struct) and term.name == "." and len(term.args) == 2:
            self.put(between)
            yield self.term(term.args[0], 999, False)
            between, term = ",", term.args[1]
        for it in term if isinstance(term, list) else []:
            self.put(between)
            yield self.term(it, 999, False)
            between = ","
        if not isinstance(term, list):
            self.put("|")
            yield self.term(term, 999, False)
        self.put("]")


def _simple(term: Term) -> str:
    if isinstance(term, (int, Fraction)):
        return number_text(term)
    if isinstance(term, list):
        return "[]"
    return quoted(term.name) if isinstance(term, (Atom, Struct)) else str(term)


def _goes_right(term: Term, priority: int) -> bool:
    """Whether a term is that of an operator of this priority which takes another one on its right."""
    if not isinstance(term, Struct):
        return False
    fixity = {1: PREFIX, 2: INFIX}.get(len(term.args), {}).get(term.name)
    return fixity is not None and fixity[0] == fixity[2] == priority


def _symbol(character: str) -> bool:
    return character != "" and character in "+-*/\\^<>=~:.?@#&$"


def _of_word(character: str) -> bool:
    return character == "_" or character.isalnum()
