"""A client for `clpq`, Prolog with exact rational linear constraints: queries from Python, answers as exact values."""

from .client import File, Source, ask
from .errors import BadCommand, CutOff, FileMissing, OutOfMemory, ProgramMissing, ReadFailed, RunFailed, TooLarge, WriteFailed
from .quoting import term
from .rows import Row
from .spread import map
from .tables import csv_rows, facts, frame, table
from .terms import Atom, Struct, Term, Unread, Var
from .transcript import Answer, Ball, Done, End, Item, More, NoMore, Stop, SyntaxFault, read_transcript

__all__ = [
    "Answer", "Atom", "BadCommand", "Ball", "CutOff", "Done", "End", "File", "FileMissing", "Item", "More", "NoMore",
    "OutOfMemory", "ProgramMissing", "ReadFailed", "Row", "RunFailed", "Source", "Stop", "Struct", "SyntaxFault", "Term",
    "TooLarge", "Unread", "Var", "WriteFailed", "ask", "csv_rows", "facts", "frame", "map", "read_transcript", "table", "term",
]  # fmt: skip
