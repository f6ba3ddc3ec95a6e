"""What a run says, as items, and the text of each item."""

from __future__ import annotations

import re
from dataclasses import dataclass, field
from fractions import Fraction
from typing import Callable, Dict, Iterable, Iterator, List, Mapping, Optional, Sequence, Tuple, Union

from .operators import RELATIONS
from .reading import NotRead, read, read_or_keep
from .rows import VARIABLE, Row, point_text, read_point, read_row
from .terms import Struct, Term, Unread, Var, written
from .tokens import Kind, TokenFault, tokens


@dataclass(frozen=True)
class Item:
    """Something that a run says.

    `query` is the number of the query from 0; none where a directive or a query of a file says it. `text` is what the program
    itself wrote before (by `write` and the like) since the item before.
    """

    query: Optional[int]
    text: str

    def lines(self) -> List[str]:
        """The lines of the transcript that say it."""
        return []

    def __str__(self) -> str:
        return self.text + "".join(f"{line}\n" for line in self.lines())


@dataclass(frozen=True)
class Answer(Item):
    """An answer.

    `bindings` has the value of each of the query's variables that has one, `rows` the linear relations, `waiting` the constraints
    that are not linear, as `Struct("{}", ..)`, and then the goals that sleep, as `Struct("freeze", ..)`. `point` has a value for
    each variable of the rows, at which all rows hold, where the program says one.
    """

    bindings: Mapping[str, Term] = field(default_factory=dict)
    rows: Tuple[Row, ...] = ()
    waiting: Tuple[Union[Struct, Unread], ...] = ()
    point: Optional[Mapping[str, Fraction]] = None

    def body(self) -> List[str]:
        """The lines of the answer but for the `;` that ends it."""
        lines = [f"{name} = {written(it, 699)}" for name, it in self.bindings.items()]
        lines += [*map(str, self.rows), *map(written, self.waiting)]
        lines = lines or ["true"]
        return lines if self.point is None else [*lines, point_text(self.point)]

    def lines(self) -> List[str]:
        return [*self.body(), ";"]


@dataclass(frozen=True)
class End(Item):
    """What ends a query. Each query has one."""


@dataclass(frozen=True)
class NoMore(End):
    """There are no more answers: the line `no`."""

    def lines(self) -> List[str]:
        return ["no"]


@dataclass(frozen=True)
class More(End):
    """As many answers as the limit allows were given: the line `more`. There may be more of them."""

    def lines(self) -> List[str]:
        return ["more"]


@dataclass(frozen=True)
class Ball(End):
    """A ball that nothing caught ended the query. An error of a predicate is `error(E, Name/Arity)`."""

    term: Term

    def lines(self) -> List[str]:
        return [f"error: {written(self.term)}"]


@dataclass(frozen=True)
class SyntaxFault(End):
    """The text has no query here.

    `byte` is the first byte, from 0, at which it can have none: in the query's text, or in the file where a file is at fault.
    `line` is the line of it, from 1; none where it isn't known which of several files is at fault.
    """

    byte: int
    line: Optional[int] = None

    def lines(self) -> List[str]:
        return [f"error: syntax {self.byte}"]


@dataclass(frozen=True)
class Stop(End):
    """A bound ended the query: `resolutions`, `pivots`, `overflow` or `projection`. The answers before it hold."""

    cause: str

    def lines(self) -> List[str]:
        return [f"stop: {self.cause}"]


@dataclass(frozen=True)
class Done(End):
    """A directive succeeded; the program writes no line of its own for that."""


CAUSES = ("resolutions", "pivots", "overflow", "projection")


def read_transcript(text: str) -> Iterator[Item]:
    """The items of a whole transcript that was stored, the queries numbered by their ends.

    A line that is `no`, `more`, `error: ..` or `stop: ..` is taken for an end, and each variable for one of the query. `ask`
    knows the queries and takes neither on trust. The texts of the items, joined, are the transcript. Raises `ValueError` where
    the transcript ends within a query.
    """
    lines = text.split("\n")
    rest, query, reader = lines.pop(), 0, Reader(0, None)
    for line in lines:
        item = reader.line(line) or reader.whole_end(line)
        if item is not None:
            yield item
        if isinstance(item, End):
            query += 1
            reader = Reader(query, None)
    if rest or reader.held:
        end = None if rest else reader.end("", False)
        if end is None or isinstance(end, Done):
            raise ValueError("the transcript ends within a query")
        yield end


class Reader:
    """Reads what a run says of one query, line by line.

    `names` are the query's variables in order of first occurrence; none where they aren't known. A `;` ends an answer: its lines
    are the last lines before that have an answer's form and order, and what stands before them is the program's own text.
    Where the program's text has no line end, its last line and the next line of the run are one, which is divided at the
    first place behind which a line of the run stands.
    """

    def __init__(self, query: Optional[int], names: Optional[Sequence[str]]) -> None:
        self.query = query
        self.names = names
        self.held: List[str] = []

    def line(self, line: str) -> Optional[Answer]:
        """Takes a line without its line end. An answer where the line ends one."""
        answer = self._answer() if line == ";" else None
        if answer is None:
            self.held.append(line)
        else:
            self.held.clear()
        return answer

    def whole_end(self, line: str) -> Optional[End]:
        """The end that a line is which was taken just now."""
        make = _end_of(line)
        if make is None:
            return None
        self.held.pop()
        return make(self.query, self._text())

    def end(self, rest: str, silent: bool) -> End:
        """What ends the query, behind whose lines stands `rest`, without a line end. `silent`: it may have said nothing."""
        if not rest and self.held:
            last = self.held[-1]
            own = silent and last.startswith("> ")
            for at in [0] if own else _places(last, ("no", "more", "error: ", "stop: ")):
                make = _end_of(last[at:])
                if make:
                    self.held.pop()
                    return make(self.query, self._text(last[:at]))
        return Done(self.query, self._text(rest))

    def _text(self, rest: str = "") -> str:
        text = "".join(f"{line}\n" for line in self.held) + rest
        self.held.clear()
        return text

    def _answer(self) -> Optional[Answer]:
        """The answer whose lines are the last ones held; none where they are of no answer."""
        parts: List[_Part] = []
        held = len(self.held)
        while held:
            part = _part_of(self.held[held - 1], self.names)
            if part is None or not self._before(part, parts):
                break
            parts.insert(0, part)
            held -= 1
        rest = ""
        if held and (not parts or not self.held[held - 1].startswith("> ")):
            divided = self._divided(self.held[held - 1], parts)
            if divided:
                rest, part = divided
                parts.insert(0, part)
                held -= 1
        if not any(it.rank < _POINT for it in parts):
            return None
        text = "".join(f"{line}\n" for line in self.held[:held]) + rest
        return _answer_of(self.query, text, parts)

    def _divided(self, line: str, parts: Sequence["_Part"]) -> Optional[Tuple[str, "_Part"]]:
        """The program's text and the part of the answer that a line is made of."""
        if _part_of(line, self.names) is not None:
            return None
        names = self.names if self.names is not None else [it[1] for it in _NAMED.finditer(line)]
        for at in _places(line, ("true", "{", *_SLEEPING, *(f"{name} = " for name in names))):
            part = _part_of(line[at:], self.names)
            if at and part is not None and self._before(part, parts):
                return line[:at], part
        return None

    def _before(self, part: "_Part", parts: Sequence["_Part"]) -> bool:
        """Whether an answer may have this part directly before these."""
        if not parts:
            return True
        if part.rank == _TRUE:
            return len(parts) == 1 and parts[0].rank == _POINT
        first = parts[0]
        if part.rank == first.rank == _BINDING:
            if self.names is None:
                return part.name != first.name
            return self.names.index(part.name) < self.names.index(first.name)
        return part.rank < first.rank or part.rank == first.rank != _POINT and part != first


@dataclass(frozen=True)
class _Part:
    """A line of an answer: its rank among the kinds of lines, its variable where it is a value, and what it says."""

    rank: int
    name: str
    value: object


_TRUE, _BINDING, _EQUATION, _INEQUALITY, _DISEQUATION, _WAITING, _ASLEEP, _POINT = range(8)
_SLEEPING = ("freeze(", "dif(", "when(")
_NAMED = re.compile(rf"({VARIABLE}) = ")
_VALUE = re.compile(rf"({VARIABLE}) = (.*)", re.S)


def _part_of(line: str, names: Optional[Sequence[str]]) -> Optional[_Part]:
    """What a line says as part of an answer."""
    if line == "true":
        return _Part(_TRUE, "", None)
    if line.startswith("{"):
        return _braced(line)
    if line.startswith("% at "):
        point = read_point(line)
        return None if point is None else _Part(_POINT, "", point)
    if line.startswith(_SLEEPING):
        return _asleep(line)
    found = _VALUE.fullmatch(line)
    if not found or found[1].startswith("_") or (names is not None and found[1] not in names):
        return None
    value = read_or_keep(found[2], 699)
    if isinstance(value, Unread) and not _has_tokens(found[2]):
        return None
    return _Part(_BINDING, found[1], value)


def _braced(line: str) -> Optional[_Part]:
    row = read_row(line)
    if row is not None:
        return _Part({"=": _EQUATION, "=\\=": _DISEQUATION}.get(row.relation, _INEQUALITY), "", row)
    try:
        term = read(line)
    except NotRead:
        related = line.endswith("}") and any(it in line for it in RELATIONS) and _has_tokens(line)
        return _Part(_WAITING, "", Unread(line)) if related else None
    inner = term.args[0] if isinstance(term, Struct) and term.name == "{}" else None
    related = isinstance(inner, Struct) and inner.name in RELATIONS and len(inner.args) == 2
    return _Part(_WAITING, "", term) if related else None


def _asleep(line: str) -> Optional[_Part]:
    try:
        term = read(line)
    except NotRead:
        return _Part(_ASLEEP, "", Unread(line)) if line.endswith(")") and _has_tokens(line) else None
    if not isinstance(term, Struct) or f"{term.name}(" not in _SLEEPING or len(term.args) != 2:
        return None
    return _Part(_ASLEEP, "", term) if term.name != "freeze" or isinstance(term.args[0], Var) else None


def _has_tokens(text: str) -> bool:
    """Whether a text is one of tokens, with no end among them."""
    try:
        kinds = [it.kind for it in tokens(text, any_letter=True)]
    except TokenFault:
        return False
    return bool(kinds) and Kind.END not in kinds


def _answer_of(query: Optional[int], text: str, parts: Iterable[_Part]) -> Answer:
    bindings: Dict[str, Term] = {}
    rows: List[Row] = []
    waiting: List[Union[Struct, Unread]] = []
    point: Optional[Mapping[str, Fraction]] = None
    for part in parts:
        if part.rank == _BINDING:
            bindings[part.name] = part.value  # type: ignore[assignment]
        elif part.rank in (_EQUATION, _INEQUALITY, _DISEQUATION):
            rows.append(part.value)  # type: ignore[arg-type]
        elif part.rank in (_WAITING, _ASLEEP):
            waiting.append(part.value)  # type: ignore[arg-type]
        elif part.rank == _POINT:
            point = part.value  # type: ignore[assignment]
    return Answer(query, text, bindings, tuple(rows), tuple(waiting), point)


def _end_of(line: str) -> Optional[Callable[[Optional[int], str], End]]:
    """Makes the end that a line says, of a query's number and the text before; none where the line says none."""
    if line == "no":
        return NoMore
    if line == "more":
        return More
    if line.startswith("stop: ") and line[6:] in CAUSES:
        return lambda query, text: Stop(query, text, line[6:])
    syntax = re.fullmatch(r"error: syntax ([0-9]+)", line)
    if syntax:
        return lambda query, text: SyntaxFault(query, text, int(syntax[1]))  # type: ignore[index]
    if line.startswith("error: ") and _has_tokens(line[7:]):
        return lambda query, text: Ball(query, text, read_or_keep(line[7:]))
    return None


def _places(line: str, begins: Iterable[str]) -> List[int]:
    """The places of a line at which one of these texts begins, ascending."""
    found = set()
    for it in begins:
        at = line.find(it)
        while at >= 0:
            found.add(at)
            at = line.find(it, at + 1)
    return sorted(found)
