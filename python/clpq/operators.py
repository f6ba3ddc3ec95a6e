"""The operators that every program begins with."""

from __future__ import annotations

from typing import Dict, Tuple

Fixity = Tuple[int, int, int]
"""The priority of an operator and the greatest ones of its left and right operand (of a prefix operator the left is 0)."""


def _table() -> Tuple[Dict[str, Fixity], Dict[str, Fixity]]:
    infix: Dict[str, Fixity] = {}
    for priority, kind, names in [
        (1200, "xfx", ":- -->"),
        (1100, "xfy", ";"),
        (1050, "xfy", "->"),
        (1000, "xfy", ","),
        (700, "xfx", "= \\= == \\== @< @=< @> @>= =.. is =:= =\\= < =< > >="),
        (500, "yfx", "+ - /\\ \\/"),
        (400, "yfx", "* / // rem mod << >>"),
        (200, "xfx", "**"),
        (200, "xfy", "^"),
    ]:
        left, right = priority - (kind[0] == "x"), priority - (kind[2] == "x")
        infix.update({name: (priority, left, right) for name in names.split()})
    prefix: Dict[str, Fixity] = {}
    for priority, kind, names in [
        (1200, "fx", ":- ?-"),
        (1150, "fx", "dynamic discontiguous initialization"),
        (900, "fy", "\\+"),
        (200, "fy", "- \\ +"),
    ]:
        prefix.update({name: (priority, 0, priority - (kind == "fx")) for name in names.split()})
    return infix, prefix


INFIX, PREFIX = _table()
RELATIONS = ("=", "=:=", "<", ">", "=<", ">=", "=\\=")
"""The relations of constraints."""


def is_operator(name: str) -> bool:
    """Whether the name is an operator in any place."""
    return name in INFIX or name in PREFIX
