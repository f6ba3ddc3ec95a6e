"""The magic of notebooks: `%load_ext clpq.notebook`, then cells that begin with `%%clpq FILE..`."""

from __future__ import annotations

import argparse
import shlex
from html import escape
from typing import Any, List, Optional, Tuple

from .client import ask
from .tables import table
from .transcript import Answer, End, Item, NoMore


def load_ipython_extension(shell: Any) -> None:
    """Makes the magic known."""

    def clpq(line: str, cell: str) -> "Answers":
        return asked(line, cell)

    clpq.__doc__ = asked.__doc__
    shell.register_magic_function(clpq, "cell")


def asked(line: str, cell: str) -> "Answers":
    """Asks the queries of a cell: %%clpq [--steps N] [--answers N] [--program PROGRAM] [--draw X Y | --curve X Y] [FILE..]

    The answers are shown as a table, and with --draw or --curve as a picture in two variables. The value of the cell has them as `items`.
    """
    given = _parser().parse_args(shlex.split(line))
    items = [*ask(given.files, cell, steps=given.steps, answers=given.answers, program=given.program)]
    return Answers(items, tuple(given.draw or given.curve or ()), bool(given.curve))


class Answers:
    """What the queries of a cell came to, shown as a table and a picture."""

    def __init__(self, items: List[Item], names: Tuple[str, ...] = (), curve: bool = False) -> None:
        self.items = items
        self.names = names
        self.curve = curve

    def __repr__(self) -> str:
        return "".join(map(str, self.items))

    def _repr_html_(self) -> str:
        parts = [_html(self.items)]
        parts += [f"<pre>{escape(it.text)}</pre>" for it in self.items if it.text]
        parts += [f"<p>query {it.query}: <code>{escape(it.lines()[0])}</code></p>" for it in self.items if _said(it)]
        return "\n".join([it for it in [*parts, self._svg()] if it])

    def _svg(self) -> Optional[str]:
        """The picture, as a part of a page."""
        if not self.names:
            return None
        import io

        from matplotlib.figure import Figure

        from .draw import curve, draw, save

        axes = Figure(figsize=(5, 4), layout="constrained").subplots()
        (curve if self.curve else draw)(self.items, *self.names, axes=axes)
        out = io.StringIO()
        save(axes, out, "svg")
        return out.getvalue()[out.getvalue().index("<svg") :]


def _said(item: Item) -> bool:
    """Whether an end says more than that there are no more answers."""
    return isinstance(item, End) and not isinstance(item, NoMore) and bool(item.lines())


def _html(items: List[Item]) -> str:
    rows = table(items)
    if not rows:
        return "" if any(_said(it) for it in items) else "<p>no</p>"
    if not any(isinstance(it, Answer) and it.body() != ["true"] for it in items):
        return "<p>yes</p>"
    head = "".join(f"<th>{escape(name)}</th>" for name in rows[0])
    body = "".join("<tr>" + "".join(f"<td>{'' if it is None else escape(str(it))}</td>" for it in row.values()) + "</tr>" for row in rows)
    return f"<table><tr>{head}</tr>{body}</table>"


def _parser() -> argparse.ArgumentParser:
    parser = argparse.ArgumentParser(prog="%%clpq", add_help=False)
    parser.add_argument("files", nargs="*")
    parser.add_argument("--steps", type=int)
    parser.add_argument("--answers", type=int)
    parser.add_argument("--program")
    chosen = parser.add_mutually_exclusive_group()
    chosen.add_argument("--draw", nargs=2, metavar=("X", "Y"))
    chosen.add_argument("--curve", nargs=2, metavar=("X", "Y"))
    return parser
