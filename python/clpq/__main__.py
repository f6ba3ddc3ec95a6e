"""Pictures from a shell: python3 -m clpq draw FILE.. -q QUERY -x X -y Y -o OUT.svg"""

from __future__ import annotations

import argparse
import sys
from typing import List, Optional

from .client import ask
from .errors import RunFailed
from .transcript import Answer, Ball, Item, More, Stop, SyntaxFault


def main(words: Optional[List[str]] = None) -> int:
    """Runs the words of a command line. The status is 1 where there is nothing to draw, and what is wrong stands on the standard error."""
    given = _parser().parse_args(words)
    try:
        items = [*ask(given.files, [given.query], steps=given.steps, answers=given.answers, program=given.program)]
        _draw(items, given)
    except (RunFailed, ValueError, ImportError) as why:
        print(f"clpq draw: {why}", file=sys.stderr)
        return 1
    for it in items:
        if isinstance(it, (Ball, Stop, SyntaxFault)):
            print(f"clpq draw: {it.lines()[0]}", file=sys.stderr)
            return 1
        if isinstance(it, More):
            print("clpq draw: there may be more answers; --answers N draws more", file=sys.stderr)
    return 0


def _parser() -> argparse.ArgumentParser:
    parser = argparse.ArgumentParser(prog="python3 -m clpq", description="Pictures of the answers of clpq.")
    commands = parser.add_subparsers(dest="command", required=True)
    draw = commands.add_parser("draw", help="draw the answers of a query in two of its variables")
    draw.add_argument("files", nargs="*", metavar="FILE", help="files of the program")
    draw.add_argument("-q", dest="query", required=True, help="the query")
    draw.add_argument("-x", required=True, help="the variable that goes to the right")
    draw.add_argument("-y", required=True, help="the variable that goes up")
    draw.add_argument("-o", dest="out", required=True, help="the picture; its ending says the kind, as .svg, .png or .pdf")
    draw.add_argument("--curve", action="store_true", help="the answers are pieces of one curve")
    draw.add_argument("--steps", type=int, help="the goals that the query may select")
    draw.add_argument("--answers", type=int, help="the answers that the query may have")
    draw.add_argument("--program", help="the program clpq, where it isn't on the path")
    return parser


def _draw(items: List[Item], given: argparse.Namespace) -> None:
    try:
        from matplotlib.figure import Figure
    except ImportError as why:
        raise ImportError("matplotlib is not there (Debian: python3-matplotlib)") from why
    from .draw import curve, draw, save

    answers = [it for it in items if isinstance(it, Answer)]
    axes = Figure(figsize=(5, 4), layout="constrained").subplots()
    (curve if given.curve else draw)(answers, given.x, given.y, axes=axes)
    save(axes, given.out)


if __name__ == "__main__":
    sys.exit(main())
