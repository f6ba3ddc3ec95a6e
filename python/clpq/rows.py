"""The linear rows of an answer, with exact coefficients."""

from __future__ import annotations

import re
from dataclasses import dataclass
from fractions import Fraction
from typing import Dict, Mapping, Optional, Tuple

from .terms import number_of, number_text

VARIABLE = r"[A-Z_](?:[0-9A-Za-z_]|[^\x00-\x7f])*"
_NUMBER = r"[0-9]+(?:r[0-9]+)?"
_PART = re.compile(rf"([+-]?)(?:({_NUMBER})(?:\*({VARIABLE}))?|({VARIABLE}))")
_ROW = re.compile(r"\{([^{}=<>]+)(=<|>=|=\\=|=|<|>) ?([^{}=<>]+)\}")
_AT = re.compile(rf"({VARIABLE})=(-?{_NUMBER})")

Linear = Tuple[Dict[str, Fraction], Fraction]
"""The coefficients of a linear expression by variable, none of them 0, and its constant."""


@dataclass(frozen=True)
class Row:
    """A linear relation: the sum of each coefficient times its variable, `relation`, and the constant.

    The relation is one of `=`, `=<`, `<`, `>=`, `>`, `=\\=` (the two are not equal). The coefficients stand in the order of the
    answer's variables. An equation is solved for its first variable, whose coefficient is 1. `str` gives the answer's line.
    """

    coefficients: Mapping[str, Fraction]
    relation: str
    constant: Fraction

    def __str__(self) -> str:
        if self.relation != "=":
            return _braced(_sum(self.coefficients), self.relation, number_text(self.constant))
        first, *others = self.coefficients
        right = _sum({name: -self.coefficients[name] for name in others})
        if self.constant or not right:
            constant = number_text(self.constant)
            right += constant if constant.startswith("-") or not right else f"+{constant}"
        return _braced(first, "=", right)

    def holds(self, point: Mapping[str, Fraction]) -> bool:
        """Whether the row holds at a point, which has a value for each of its variables."""
        value = sum((it * point[name] for name, it in self.coefficients.items()), Fraction(0))
        return {
            "=": value == self.constant,
            "=<": value <= self.constant,
            "<": value < self.constant,
            ">=": value >= self.constant,
            ">": value > self.constant,
            "=\\=": value != self.constant,
        }[self.relation]


def read_row(line: str) -> Optional[Row]:
    """The row of an answer's line; none where the line is no row as the program writes them."""
    found = _ROW.fullmatch(line)
    if not found:
        return None
    left, right = _linear(found[1]), _linear(found[3])
    if left is None or right is None or left[1] or not left[0]:
        return None
    coefficients = dict(left[0])
    for name, it in right[0].items():
        coefficients[name] = coefficients.get(name, Fraction(0)) - it
    row = Row(coefficients, found[2], right[1])
    return row if str(row) == line else None


def read_point(line: str) -> Optional[Dict[str, Fraction]]:
    """The point of a line `% at V=Q, V=Q`; none where the line is something else."""
    if not line.startswith("% at "):
        return None
    point: Dict[str, Fraction] = {}
    for part in line[5:].split(", "):
        found = _AT.fullmatch(part)
        value = number_of(found[2]) if found else None
        if not found or value is None:
            return None
        point[found[1]] = Fraction(value)
    return point if point_text(point) == line else None


def point_text(point: Mapping[str, Fraction]) -> str:
    """The line of a point."""
    return "% at " + ", ".join(f"{name}={number_text(it)}" for name, it in point.items())


def _linear(text: str) -> Optional[Linear]:
    coefficients: Dict[str, Fraction] = {}
    constant, at = Fraction(0), 0
    while at < len(text):
        part = _PART.match(text, at)
        if not part or (at and not part[1]):
            return None
        sign, number, factor_of, alone = part.groups()
        value = number_of(number) if number else 1
        if value is None:
            return None
        signed = Fraction(-value if sign == "-" else value)
        name = factor_of or alone
        if name in coefficients:
            return None
        if name:
            coefficients[name] = signed
        else:
            constant += signed
        at = part.end()
    return coefficients, constant


def _sum(coefficients: Mapping[str, Fraction]) -> str:
    parts = []
    for name, it in coefficients.items():
        sign = "-" if it < 0 else "+" if parts else ""
        parts.append(sign + (name if abs(it) == 1 else f"{number_text(abs(it))}*{name}"))
    return "".join(parts)


def _braced(left: str, relation: str, right: str) -> str:
    return f"{{{left}{relation}{' ' if right.startswith('-') else ''}{right}}}"
