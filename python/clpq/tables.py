"""Tables as facts, and answers as rows of a table. All numbers stay exact unless floats are asked for."""

from __future__ import annotations

import csv
import datetime
import os
import re
from decimal import Decimal
from typing import Any, Collection, Dict, Iterable, Iterator, List, Mapping, Optional, Sequence, TextIO, Union

from .client import Source
from .quoting import plain_name, term
from .terms import Atom, Struct, Term, Unread
from .transcript import Answer, Item

_DECIMAL = re.compile(r"-?(?:0|[1-9][0-9]*)(?:\.[0-9]+)?", re.A)


def facts(
    name: str,
    rows: Any,
    *,
    columns: Optional[Sequence[str]] = None,
    floats: Optional[str] = None,
    days: Optional[datetime.date] = None,
) -> Source:
    """One fact `name(V, ..)` for each row, for where a file of the program may stand.

    `rows` is a pandas frame or an iterable of sequences or mappings; all of them have as many values. `columns` picks the columns
    of a frame or the keys of mappings, and their order; without it all are taken in the order of the frame or of the first
    mapping. Values become terms as `term` says, with its `floats` and `days`; a value that has no term, as None or a missing one
    of a frame, is an error that names its row, from 0, and column.
    """
    clauses: List[str] = []
    width: Optional[int] = None
    head = plain_name(name)
    for number, row in enumerate(_rows_of(rows, columns)):
        if width is None:
            width = len(row)
        if len(row) != width or not row:
            raise ValueError(f"row {number} has {len(row)} values, and the first has {width}")
        values = []
        for column, value in enumerate(row):
            try:
                # in a list nothing stands beside a value that could take hold of it
                values.append(term([value], floats=floats, days=days)[1:-1])
            except (TypeError, ValueError, OverflowError) as why:
                raise type(why)(f"row {number}, column {columns[column] if columns else column}: {why}") from why
        clauses.append(f"{head}({','.join(values)}).\n")
    return Source("".join(clauses), "facts.pl")


def _rows_of(rows: Any, columns: Optional[Sequence[str]]) -> Iterator[Sequence[Any]]:
    if hasattr(rows, "itertuples"):
        frame = rows if columns is None else rows[[*columns]]
        yield from frame.itertuples(index=False, name=None)
        return
    for row in rows:
        if isinstance(row, Mapping):
            if columns is None:
                columns = [*row]
            if not {*row} >= {*columns}:
                raise ValueError(f"a row has no {sorted({*columns} - {*row})}: {row!r}")
            yield [row[it] for it in columns]
        else:
            yield [*row]


def csv_rows(
    file: Union[str, "os.PathLike[str]", TextIO],
    *,
    text: Collection[str] = (),
    numbers: Collection[str] = (),
    delimiter: str = ",",
) -> Iterator[Dict[str, Any]]:
    """The rows of a CSV file whose first row names the columns, for `facts`.

    A cell that is a decimal as 12, -3.50 or 0.05 is an exact number, any other one is text: so 007, 1e5, 1,5 and an empty cell
    are. The columns of `text` are never numbers. A cell of the columns `numbers` that isn't one raises `ValueError` with its line.
    """
    if isinstance(file, (str, os.PathLike)):
        with open(file, encoding="utf-8-sig", newline="") as opened:
            yield from csv_rows(opened, text=text, numbers=numbers, delimiter=delimiter)
        return
    reader = csv.reader(file, delimiter=delimiter, strict=True)
    names = next(reader, [])
    unknown = {*text, *numbers} - {*names}
    if unknown or len({*names}) != len(names):
        raise ValueError(f"the first row is {names}: {sorted(unknown) or 'a name comes twice'}")
    for cells in reader:
        if not cells:
            continue
        if len(cells) != len(names):
            raise ValueError(f"line {reader.line_num}: {len(cells)} cells and not {len(names)}")
        row = dict(zip(names, cells))
        for name in numbers:
            if not _DECIMAL.fullmatch(row[name]):
                raise ValueError(f"line {reader.line_num}, {name}: {row[name]!r} is no decimal")
        yield {it: Decimal(cell) if it not in text and _DECIMAL.fullmatch(cell) else cell for it, cell in row.items()}


def table(items: Iterable[Item]) -> List[Dict[str, Any]]:
    """The answers among the items as rows of a table, each with the same columns.

    `query` is the number of the query, then comes a column for each variable that has a value in some answer (None where it has
    none), and `where`, the rows and what waits as text, if an answer has such. Names are text, numbers are exact.
    """
    answers = [it for it in items if isinstance(it, Answer)]
    names: List[str] = []
    for it in answers:
        names += [name for name in it.bindings if name not in names]
    where = any(it.rows or it.waiting for it in answers)
    rows: List[Dict[str, Any]] = []
    for it in answers:
        row: Dict[str, Any] = {"query": it.query, **{name: _cell(it.bindings.get(name)) for name in names}}
        if where:
            row["where"] = ", ".join(map(str, [*it.rows, *it.waiting]))
        rows.append(row)
    return rows


def _cell(value: Optional[Term]) -> Any:
    return str(value) if isinstance(value, (Atom, Struct, Unread)) else value


def frame(items: Iterable[Item], *, floats: bool = False) -> Any:
    """The answers among the items as a pandas frame with the columns of `table`. With `floats` numbers are the nearest floats."""
    import pandas

    rows = table(items)
    if floats:
        rows = [{name: _float(name, it) for name, it in row.items()} for row in rows]
    return pandas.DataFrame(rows, dtype=None if floats else object)


def _float(name: str, value: Any) -> Any:
    return float(value) if name != "query" and hasattr(value, "denominator") else value
