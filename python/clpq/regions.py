"""The region of an answer's rows in two variables, with exact vertices."""

from __future__ import annotations

from dataclasses import dataclass
from fractions import Fraction
from typing import Dict, Iterable, List, Optional, Sequence, Tuple

from .rows import Row
from .terms import Var
from .transcript import Answer

Point = Tuple[Fraction, Fraction]
Box = Tuple[Fraction, Fraction, Fraction, Fraction]
"""The least and greatest first coordinate, and the least and greatest second one."""

MOST_ROWS = 4096


@dataclass(frozen=True)
class Line:
    """A row in two variables: `a` times the first and `b` times the second, the relation, and `c`. Not both are 0.

    The relation is one of `=`, `=<`, `<`, `=\\=`."""

    a: Fraction
    b: Fraction
    relation: str
    c: Fraction

    def value(self, at: Point) -> Fraction:
        """How far above the constant the left side is at a point."""
        return self.a * at[0] + self.b * at[1] - self.c

    def holds(self, at: Point) -> bool:
        value = self.value(at)
        return {"=": value == 0, "=<": value <= 0, "<": value < 0, "=\\=": value != 0}[self.relation]

    def closed(self, at: Point) -> bool:
        """Whether the point is in the closure of what the line allows."""
        value = self.value(at)
        return value == 0 if self.relation == "=" else self.relation == "=\\=" or value <= 0


@dataclass(frozen=True)
class Region:
    """What rows in two variables allow."""

    lines: Tuple[Line, ...]

    def holds(self, at: Point) -> bool:
        return all(it.holds(at) for it in self.lines)

    def vertices(self) -> List[Point]:
        """The vertices of the region's closure, ascending. Those for which `holds` is false are left out by a strict side."""
        sides = [it for it in self.lines if it.relation != "=\\="]
        found = set()
        for number, one in enumerate(sides):
            for other in sides[:number]:
                at = _crossing(one, other)
                if at is not None and all(it.closed(at) for it in sides):
                    found.add(at)
        return sorted(found)

    def within(self, box: Box) -> List[Point]:
        """The corners of the part of the closure that is in a box, in order round it: none, one, two ends, or a polygon."""
        left, right, low, high = box
        corners = [(left, low), (right, low), (right, high), (left, high)]
        for line in self.lines:
            if line.relation != "=\\=":
                corners = _clipped(corners, line, 1)
            if line.relation == "=":
                corners = _clipped(corners, line, -1)
        return _distinct(corners)

    def side(self, line: Line, box: Box) -> List[Point]:
        """The two ends of the part of a line that is in the closure and in a box; one or none where the line only touches it."""
        return Region((*self.lines, Line(line.a, line.b, "=", line.c))).within(box)

    def unbounded(self, box: Box) -> bool:
        """Whether the region goes on beyond a box that has all its vertices inside."""
        left, right, low, high = box
        return any(x in (left, right) or y in (low, high) for x, y in self.within(box))


def region_of(answer: Answer, x: str, y: str) -> Region:
    """The region that an answer leaves to two of its variables, whatever values the others have.

    The others are eliminated exactly. Raises `ValueError` where something waits or sleeps, since it isn't known what that allows,
    where one of the two is no number, and where a variable of a disequation would have to be eliminated.
    """
    if answer.waiting:
        raise ValueError(f"what waits can't be drawn: {answer.waiting[0]}")
    if x == y:
        raise ValueError("the two variables are the same one")
    rows = [*answer.rows, *_of_values(answer, (x, y))]
    left = _without(rows, (x, y))
    for row in left:
        if {*row.coefficients} - {x, y}:
            raise ValueError(f"{row} can't be said of {x} and {y} alone; name the others with _ in the query")
    lines = [_line(it, x, y) for it in left]
    return Region(tuple(dict.fromkeys(it for it in lines if it is not None)))


def _of_values(answer: Answer, names: Tuple[str, str]) -> Iterable[Row]:
    """The values of variables, as equations."""
    for name, value in answer.bindings.items():
        if isinstance(value, Var):
            yield Row({name: Fraction(1), value.name: Fraction(-1)}, "=", Fraction(0))
        elif isinstance(value, (int, Fraction)):
            yield Row({name: Fraction(1)}, "=", Fraction(value))
        elif name in names:
            raise ValueError(f"{name} is {value}, which is no number")


def _without(rows: Sequence[Row], kept: Tuple[str, str]) -> List[Row]:
    """The rows without the variables that aren't kept, by equations and then by Fourier-Motzkin."""
    work = [*rows]
    while True:
        chosen = next(((it, name) for it in work if it.relation == "=" for name in it.coefficients if name not in kept), None)
        if chosen is None:
            break
        solved, name = chosen
        work = [_combined(it, solved, -it.coefficients.get(name, Fraction(0)) / solved.coefficients[name]) for it in work if it is not solved]
    others = {name for it in work for name in it.coefficients if name not in kept}
    excluded = {name for it in work if it.relation == "=\\=" for name in it.coefficients}
    for name in sorted(others - excluded):
        work = _eliminated(work, name)
    return [it for it in work if it.coefficients]


def _eliminated(rows: Sequence[Row], name: str) -> List[Row]:
    """Every lower bound of the variable is below every upper one."""
    turned = [_turned(it) for it in rows]
    upper = [it for it in turned if it.coefficients.get(name, 0) > 0]
    lower = [it for it in turned if it.coefficients.get(name, 0) < 0]
    rest = [it for it in turned if name not in it.coefficients]
    if len(rest) + len(upper) * len(lower) > MOST_ROWS:
        raise ValueError(f"too many rows without {name}; name it with _ in the query")
    for one in upper:
        for other in lower:
            row = _combined(one, other, -one.coefficients[name] / other.coefficients[name])
            rest.append(Row(row.coefficients, "<" if "<" in (one.relation, other.relation) else "=<", row.constant))
    return _once(rest)


def _once(rows: Iterable[Row]) -> List[Row]:
    found: Dict[str, Row] = {}
    for it in rows:
        if it.coefficients:
            found.setdefault(str(it), it)
    return [*found.values()]


def _turned(row: Row) -> Row:
    """The row with `=<` or `<` in place of `>=` or `>`."""
    if row.relation not in (">=", ">"):
        return row
    return Row({name: -it for name, it in row.coefficients.items()}, {">=": "=<", ">": "<"}[row.relation], -row.constant)


def _combined(row: Row, other: Row, factor: Fraction) -> Row:
    """A row and so many times another one."""
    coefficients = dict(row.coefficients)
    for name, it in other.coefficients.items():
        coefficients[name] = coefficients.get(name, Fraction(0)) + factor * it
    return Row({name: it for name, it in coefficients.items() if it}, row.relation, row.constant + factor * other.constant)


def _line(row: Row, x: str, y: str) -> Optional[Line]:
    row = _turned(row)
    a, b = row.coefficients.get(x, Fraction(0)), row.coefficients.get(y, Fraction(0))
    return Line(a, b, row.relation, row.constant) if a or b else None


def _crossing(one: Line, other: Line) -> Optional[Point]:
    by = one.a * other.b - other.a * one.b
    if not by:
        return None
    return (one.c * other.b - other.c * one.b) / by, (one.a * other.c - other.a * one.c) / by


def _foot(line: Line) -> Point:
    """The point of a line that is nearest to the origin."""
    by = line.c / (line.a**2 + line.b**2)
    return line.a * by, line.b * by


def _clipped(corners: Sequence[Point], line: Line, sign: int) -> List[Point]:
    """The part of a convex polygon at which the line's left side is at most the constant (at least, where the sign is -1)."""
    kept: List[Point] = []
    for number, at in enumerate(corners):
        before = corners[number - 1]
        here, there = sign * line.value(at), sign * line.value(before)
        if here * there < 0:
            part = there / (there - here)
            kept.append((before[0] + part * (at[0] - before[0]), before[1] + part * (at[1] - before[1])))
        if here <= 0:
            kept.append(at)
    return kept


def _distinct(corners: Sequence[Point]) -> List[Point]:
    return [*dict.fromkeys(corners)]


def _wider(box: Box, by_x: Fraction, by_y: Fraction) -> Box:
    return box[0] - by_x, box[1] + by_x, box[2] - by_y, box[3] + by_y


def box_of(regions: Sequence[Region]) -> Box:
    """A box that shows regions: all their vertices, and room where one has no bound."""
    points = [at for it in regions for at in it.vertices()] or [_foot(line) for it in regions for line in it.lines] or [(Fraction(0), Fraction(0))]
    xs, ys = [it[0] for it in points], [it[1] for it in points]
    width, height = max(xs) - min(xs), max(ys) - min(ys)
    width, height = width or height or Fraction(2), height or width or Fraction(2)
    tight = (min(xs), max(xs), min(ys), max(ys))
    near = _wider(tight, width / 10, height / 10)
    return _wider(tight, width * 3 / 5, height * 3 / 5) if any(it.unbounded(near) for it in regions) else near


def inner(box: Box, part: Fraction) -> Box:
    """The box without this part of its size at each side."""
    return _wider(box, -part * (box[1] - box[0]), -part * (box[3] - box[2]))
