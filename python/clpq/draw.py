"""Pictures of answers, by matplotlib. The geometry is exact; only what is handed to matplotlib is floats."""

from __future__ import annotations

from fractions import Fraction
from typing import Any, Iterable, List, Optional, Sequence, Tuple, Union

from .regions import Box, Line, Point, Region, box_of, inner, region_of
from .transcript import Answer, Item

_STEPS = 12
_FADED = Fraction(1, 6)
_FILL = 0.3


def draw(
    answers: Union[Answer, Iterable[Item]],
    x: str,
    y: str,
    *,
    axes: Any = None,
    labels: Optional[Sequence[str]] = None,
    box: Optional[Tuple[float, float, float, float]] = None,
) -> Any:
    """Draws the region that each answer leaves to two variables, and returns matplotlib's axes.

    A side that belongs to the region is a line, a strict one is dashed, what a disequation leaves out is dotted. A vertex, or the end
    of a segment, is a full dot where it belongs to the region and an empty one where it doesn't. A region without a bound fades at
    the frame. `box` is the frame, the least and greatest X and the least and greatest Y; without it the vertices choose it.
    `labels` name the answers. Raises `ValueError` where an answer has no such region (see `region_of`).
    """
    regions = [region_of(it, x, y) for it in _answers(answers)]
    frame = _frame(regions, box)
    axes = _axes(axes, x, y, frame)
    for number, region in enumerate(regions):
        _draw_region(axes, region, frame, f"C{number % 10}", labels[number] if labels else None)
        _draw_dots(axes, [region], frame, f"C{number % 10}")
    if labels:
        axes.legend()
    return axes


def curve(
    answers: Union[Answer, Iterable[Item]],
    x: str,
    y: str,
    *,
    axes: Any = None,
    label: Optional[str] = None,
    box: Optional[Tuple[float, float, float, float]] = None,
) -> Any:
    """Draws the second variable over the first, one piece for each answer, all in one colour, and returns matplotlib's axes.

    Each answer has to leave a point or a segment: a `ValueError` names the first that leaves more. Ends are dots as for `draw`.
    """
    chosen = _answers(answers)
    regions = [region_of(it, x, y) for it in chosen]
    frame = _frame(regions, box)
    for answer, region in zip(chosen, regions):
        if len(region.within(frame)) > 2:
            raise ValueError(f"{y} has more than one value for the same {x} in the answer {', '.join(answer.body())}")
    axes = _axes(axes, x, y, frame)
    colour = axes._get_lines.get_next_color() if axes.lines else "C0"
    for number, region in enumerate(regions):
        _draw_region(axes, region, frame, colour, label if not number else None)
    _draw_dots(axes, regions, frame, colour)
    if label:
        axes.legend()
    return axes


def save(axes: Any, file: Any, kind: Optional[str] = None) -> None:
    """Writes the picture of the axes into a file, whose name's ending says the kind where it isn't given: the same picture gives the
    same file."""
    import matplotlib

    kind = kind or str(file).rpartition(".")[2].lower()
    metadata = {"svg": {"Date": None}, "pdf": {"CreationDate": None}}.get(kind)
    with matplotlib.rc_context({"svg.hashsalt": "clpq", "svg.fonttype": "none"}):
        axes.figure.savefig(file, format=kind, metadata=metadata)


def _answers(given: Union[Answer, Iterable[Item]]) -> List[Answer]:
    found = [given] if isinstance(given, Answer) else [it for it in given if isinstance(it, Answer)]
    if not found:
        raise ValueError("there is no answer to draw")
    return found


def _frame(regions: Sequence[Region], box: Optional[Tuple[float, float, float, float]]) -> Box:
    if box is None:
        return box_of(regions)
    left, right, low, high = (Fraction(it) for it in box)
    if left >= right or low >= high:
        raise ValueError("box is the least and greatest X and the least and greatest Y")
    return left, right, low, high


def _axes(axes: Any, x: str, y: str, frame: Box) -> Any:
    if axes is None:
        import matplotlib.pyplot

        axes = matplotlib.pyplot.subplots()[1]
    axes.set_xlabel(x)
    axes.set_ylabel(y)
    axes.set_xlim(float(frame[0]), float(frame[1]))
    axes.set_ylim(float(frame[2]), float(frame[3]))
    return axes


def _floats(points: Iterable[Point]) -> Tuple[List[float], List[float]]:
    chosen = [*points]
    return [float(it[0]) for it in chosen], [float(it[1]) for it in chosen]


def _draw_region(axes: Any, region: Region, frame: Box, colour: str, label: Optional[str]) -> None:
    corners = region.within(frame)
    if len(corners) > 2:
        _fill(axes, region, frame, colour, label)
    for line in region.lines:
        if line.relation == "=\\=":
            _draw_line(axes, region, line, frame, colour, ":", None)
        elif len(corners) > 2:
            _draw_line(axes, region, line, frame, colour, "-" if line.relation == "=<" else "--", None)
    if len(corners) == 2:
        _draw_segment(axes, corners, frame, colour, "-", label)
    elif len(corners) == 1:
        axes.plot(*_floats(corners), "", color=colour, label=label)


def _draw_dots(axes: Any, regions: Sequence[Region], frame: Box, colour: str) -> None:
    """Draws the vertices: full where one of the regions has them."""
    for at in dict.fromkeys(at for it in regions for at in _dots(it, frame)):
        full = any(it.holds(at) for it in regions)
        axes.plot(*_floats([at]), "o", color=colour, markerfacecolor=colour if full else "white", markersize=5, clip_on=False, zorder=3)


def _fill(axes: Any, region: Region, frame: Box, colour: str, label: Optional[str]) -> None:
    """Fills the region, thinner and thinner towards the sides of the frame at which it goes on."""
    steps = _STEPS if region.unbounded(frame) else 1
    for step in range(steps):
        corners = region.within(inner(frame, _FADED * step / steps))
        if len(corners) > 2:
            alpha = 1 - (1 - _FILL) ** (1 / steps)
            axes.fill(*_floats(corners), color=colour, alpha=alpha, linewidth=0, label=label)
            label = None


def _draw_line(axes: Any, region: Region, line: Line, frame: Box, colour: str, style: str, label: Optional[str]) -> None:
    ends = region.side(line, frame)
    if len(ends) == 2:
        _draw_segment(axes, ends, frame, colour, style, label)


def _draw_segment(axes: Any, ends: Sequence[Point], frame: Box, colour: str, style: str, label: Optional[str]) -> None:
    """Draws a segment, thinner where it goes on beyond the frame."""
    whole = not any(_at_frame(it, frame) for it in ends)
    near = [*ends] if whole else _between(ends, inner(frame, _FADED))
    if not whole:
        axes.plot(*_floats(ends), style, color=colour, alpha=_FILL, linewidth=1.2)
    if len(near) == 2:
        axes.plot(*_floats(near), style, color=colour, linewidth=1.5, label=label)


def _between(ends: Sequence[Point], box: Box) -> List[Point]:
    """The part of a segment that is in a box."""
    (x1, y1), (x2, y2) = ends
    a, b = y1 - y2, x2 - x1
    return _inside(Region((Line(a, b, "=", a * x1 + b * y1),)).within(box), ends)


def _inside(found: Sequence[Point], ends: Sequence[Point]) -> List[Point]:
    """The part of a segment between two points of its line."""
    low, high = sorted(ends)
    if len(found) < 2 or max(found) < low or min(found) > high:
        return []
    return [max(low, min(found)), min(high, max(found))]


def _at_frame(at: Point, frame: Box) -> bool:
    return at[0] in frame[:2] or at[1] in frame[2:]


def _dots(region: Region, frame: Box) -> List[Point]:
    """The vertices, and the points of a segment that a disequation leaves out, as far as they are in the frame."""
    dots = region.vertices()
    if len(region.within(frame)) <= 2:
        for line in region.lines:
            if line.relation == "=\\=":
                dots += region.side(line, frame)[:1]
    left, right, low, high = frame
    return [it for it in dict.fromkeys(dots) if left <= it[0] <= right and low <= it[1] <= high]
