"""Python values as texts of terms, quoted so that no text of a user becomes code."""

from __future__ import annotations

import datetime
import re
from decimal import Decimal
from fractions import Fraction
from numbers import Integral, Rational, Real
from typing import Any, Iterable, List, Mapping, Optional

from .rows import VARIABLE
from .terms import Atom, Steps, Struct, Unread, Var, in_quotes, number_text, walked
from .tokens import LIMIT

_PLAIN = re.compile(r"[a-z][0-9A-Za-z_]*", re.A)
_VARIABLE = re.compile(VARIABLE)
_MICROSECONDS = 24 * 60 * 60 * 1_000_000


def term(value: Any, *, floats: Optional[str] = None, days: Optional[datetime.date] = None) -> str:
    """The text of the term of a Python value, to be put into a query or a clause where a term may stand.

    - Whole numbers, fractions and `Decimal` are exact numbers. A number past 2^127-1 raises `OverflowError`.
    - A float raises `TypeError` unless `floats` says how it is meant: `"shortest"`, the shortest decimal that is this float, so
      that 0.1 is a tenth, or `"exact"`, the fraction that it is, whose denominator is a power of 2.
    - A text is an atom, `True` and `False` are the atoms `true` and `false`. A text is never read as anything else, whatever
      quotes, line ends or other characters it has. The text `[]` is the empty list, which is an atom of this name.
    - A date is the number of days since `days`, which has to be given; a time of day is a fraction of a day.
    - Lists and tuples are lists, a mapping is the list of its pairs `Key-Value`.
    - `Atom`, `Var` and `Struct` are themselves.

    The text is whole: it wants no quotes round it. Atoms and negative numbers stand in parentheses, so that no operator beside
    them takes hold of them. Other values raise `TypeError`.
    """
    writer = _Quoter(floats, days)
    walked(writer.value(value, True))
    return "".join(writer.out)


def plain_name(name: str) -> str:
    """A name, in quotes where it has anything but small letters of ASCII, digits and the like."""
    name.encode("utf-8")
    return name if _PLAIN.fullmatch(name) else in_quotes(name)


class _Quoter:
    """Writes terms with names in front of their arguments, so that no operators are needed."""

    def __init__(self, floats: Optional[str], days: Optional[datetime.date]) -> None:
        if floats not in (None, "shortest", "exact"):
            raise ValueError("floats is 'shortest' or 'exact', or isn't given")
        self.floats = floats
        self.days = days
        self.out: List[str] = []

    def value(self, value: Any, alone: bool) -> Steps:
        """Writes a value. One that stands alone may be beside operators, another one stands between commas or brackets."""
        if isinstance(value, Struct) and value.args:
            yield self.listed(f"{plain_name(value.name)}(", value.args, ")")
        elif isinstance(value, (list, tuple)):
            yield self.listed("[", value, "]")
        elif isinstance(value, Mapping):
            yield self.listed("[", [Struct("-", pair) for pair in value.items()], "]")
        else:
            text = self.simple(value)
            taken = alone and (text.startswith("-") or not (text[0].isalnum() or text[0] == "_") or text[0].islower())
            self.out.append(f"({text})" if taken else text)

    def listed(self, opens: str, values: Iterable[Any], closes: str) -> Steps:
        self.out.append(opens)
        for number, it in enumerate(values):
            if number:
                self.out.append(",")
            yield self.value(it, False)
        self.out.append(closes)

    def simple(self, value: Any) -> str:
        """The text of a value that has no parts."""
        if isinstance(value, bool):
            return "true" if value else "false"
        if isinstance(value, str):
            return plain_name(value)
        if isinstance(value, (Atom, Struct)):
            return plain_name(value.name)
        if isinstance(value, Var):
            if not _VARIABLE.fullmatch(value.name):
                raise ValueError(f"{value.name!r} is no variable")
            return value.name
        if isinstance(value, datetime.date):
            return _number(self.day(value))
        if isinstance(value, (Real, Decimal)):
            return _number(self.exact(value))
        if isinstance(value, Unread):
            raise TypeError("a text that was not read is no term")
        raise TypeError(f"no term for a value of type {type(value).__name__}: {value!r}")

    def exact(self, value: Any) -> Fraction:
        if isinstance(value, Integral):
            return Fraction(int(value))
        if isinstance(value, Rational):
            return Fraction(int(value.numerator), int(value.denominator))
        if not isinstance(value, Decimal) and self.floats is None:
            raise TypeError(f"{value!r} is a float; floats='shortest' or floats='exact' says which exact number is meant")
        if value != value or value in (float("inf"), float("-inf")):
            raise ValueError(f"{value!r} is no number")
        if isinstance(value, Decimal):
            return _of_decimal(value)
        return Fraction(float(value)) if self.floats == "exact" else Fraction(str(value))

    def day(self, value: datetime.date) -> Fraction:
        if self.days is None:
            raise TypeError("days= says from which day dates are counted")
        if not isinstance(value, datetime.datetime):
            return Fraction((value - _date_of(self.days)).days)
        if value.tzinfo is not None:
            raise TypeError("a time with a time zone has no day number; give it without one")
        since = value - datetime.datetime.combine(_date_of(self.days), datetime.time())
        whole = (since.days * 86_400 + since.seconds) * 1_000_000 + since.microseconds
        return Fraction(whole, _MICROSECONDS)


def _date_of(day: datetime.date) -> datetime.date:
    return day.date() if isinstance(day, datetime.datetime) else day


def _of_decimal(value: Decimal) -> Fraction:
    """The fraction of a decimal, which isn't worked out where its exponent alone shows that it is too large."""
    exponent = value.as_tuple().exponent
    if not isinstance(exponent, int) or (value and not -200 < value.adjusted() < 200) or exponent < -4000:
        raise OverflowError(f"{value} is past the numbers of the program")
    return Fraction(value)


def _number(value: Fraction) -> str:
    if abs(value.numerator) > LIMIT or value.denominator > LIMIT:
        raise OverflowError(f"{value} is past the numbers of the program")
    return number_text(value)
