"""Reads the text of a term by the operators that every program begins with."""

from __future__ import annotations

import re
from typing import List, Optional, Tuple

from .operators import INFIX, PREFIX
from .terms import Atom, Steps, Struct, Term, Unread, Var, cell, number_of, walked, written
from .tokens import Kind, Token, TokenFault, tokens

_PLAIN_NAME = re.compile(r"[a-z][0-9A-Za-z_]*", re.A)


class NotRead(ValueError):
    """The text is no term by the operators that every program begins with."""


def read(text: str, priority: int = 1200) -> Term:
    """The term of a text that a program wrote. Raises `NotRead` where it isn't one.

    The text of the term is the text that is read: where it wouldn't be, because the program changed operators, it isn't read.
    """
    simple = _simple(text)
    if simple is not None:
        return simple
    try:
        reader = _Reader(text)
        term, _ = walked(reader.term(priority))
    except TokenFault as fault:
        raise NotRead(text) from fault
    if reader.at != len(reader.tokens) or written(term, priority) != text:
        raise NotRead(text)
    return term


def read_or_keep(text: str, priority: int = 1200) -> Term:
    """The term of a text, or the text itself as `Unread`."""
    try:
        return read(text, priority)
    except NotRead:
        return Unread(text)


def _simple(text: str) -> Optional[Term]:
    """The term of a text that is a number or a plain name."""
    number = number_of(text)
    if number is not None:
        return number if written(number) == text else None
    return Atom(text) if _PLAIN_NAME.fullmatch(text) else None


class _Reader:
    """A text's tokens and the place of the next one. Each walk returns a term and its priority."""

    def __init__(self, text: str) -> None:
        self.text = text
        self.tokens: List[Token] = [*tokens(text, any_letter=True)]
        self.at = 0

    def next(self, ahead: int = 0) -> Optional[Token]:
        at = self.at + ahead
        return self.tokens[at] if at < len(self.tokens) else None

    def has(self, mark: str) -> bool:
        """Whether a punctuation mark is the next token."""
        token = self.next()
        return token is not None and token.kind is Kind.PUNCTUATION and token.value == mark

    def take(self, mark: str) -> None:
        if not self.has(mark):
            raise NotRead(self.text)
        self.at += 1

    def term(self, most: int) -> Steps:
        left, priority = yield self.operand(most)
        while True:
            infix = self.infix(most, priority)
            if infix is None:
                return left, priority
            name, priority, most_right = infix
            self.at += 1
            right, _ = yield self.term(most_right)
            left = Struct(name, (left, right))

    def infix(self, most: int, left: int) -> Optional[Tuple[str, int, int]]:
        """The infix operator that stands next and may be taken: its name, its priority and that of its right operand."""
        token = self.next()
        if token is None or token.kind not in (Kind.NAME, Kind.QUOTED) and not self.has(","):
            return None
        priority, most_left, most_right = INFIX.get(str(token.value), (1201, 0, 0))
        return (str(token.value), priority, most_right) if priority <= most and left <= most_left else None

    def operand(self, most: int) -> Steps:
        token = self.next()
        if token is None:
            raise NotRead(self.text)
        self.at += 1
        if token.kind is Kind.VARIABLE:
            return Var(str(token.value)), 0
        if token.kind is Kind.NUMBER:
            return token.value, 0
        if token.kind is Kind.CODES:
            return [ord(it) for it in str(token.value)], 0
        if token.kind in (Kind.NAME, Kind.QUOTED):
            return (yield self.named(token, most))
        return (yield self.bracketed(token))

    def bracketed(self, token: Token) -> Steps:
        closes = {"[": "]", "{": "}"}.get(str(token.value))
        if closes and self.has(closes):
            self.at += 1
            name = f"{token.value}{closes}"
            if self.text.startswith("(", self.tokens[self.at - 1].end):
                return (yield self.compound(name))
            return [] if name == "[]" else Atom(name), 0
        if token.value == "[":
            return (yield self.listed())
        if token.value not in ("(", "{"):
            raise NotRead(self.text)
        inner, _ = yield self.term(1200)
        self.take(")" if token.value == "(" else "}")
        return inner if token.value == "(" else Struct("{}", (inner,)), 0

    def listed(self) -> Steps:
        items: List[Term] = []
        tail: Term = []
        while True:
            items.append((yield self.term(999))[0])
            if not self.has(","):
                break
            self.at += 1
        if self.has("|"):
            self.at += 1
            tail, _ = yield self.term(999)
        self.take("]")
        if isinstance(tail, list):
            return items + tail, 0
        for it in reversed(items):
            tail = cell(it, tail)
        return tail, 0

    def named(self, token: Token, most: int) -> Steps:
        name, following = str(token.value), self.next()
        if self.text.startswith("(", token.end):
            return (yield self.compound(name))
        if following and token.kind is Kind.NAME and name == "-" and following.kind is Kind.NUMBER and following.start == token.end:
            self.at += 1
            return -following.value, 0  # type: ignore[operator]
        if name not in PREFIX or following is None or not self.begins(following):
            return Atom(name), 0
        priority, _, most_right = PREFIX[name]
        if priority > most:
            raise NotRead(self.text)
        inner, _ = yield self.term(most_right)
        return Struct(name, (inner,)), priority

    def begins(self, token: Token) -> bool:
        """Whether a token begins an operand."""
        if token.kind is Kind.NAME:
            name = str(token.value)
            return name not in INFIX or name in PREFIX or self.text.startswith("(", token.end)
        return token.kind is not Kind.END and (token.kind is not Kind.PUNCTUATION or str(token.value) in "([{")

    def compound(self, name: str) -> Steps:
        self.take("(")
        args: List[Term] = [(yield self.term(999))[0]]
        while self.has(","):
            self.at += 1
            args.append((yield self.term(999))[0])
        self.take(")")
        return (cell(*args) if name == "." and len(args) == 2 else Struct(name, tuple(args))), 0
