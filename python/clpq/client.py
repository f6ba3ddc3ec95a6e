"""Starts the program, asks it queries and reads what it says, as it says it."""

from __future__ import annotations

import contextlib
import os
import pathlib
import secrets
import shutil
import signal
import subprocess
import tempfile
from dataclasses import dataclass, replace
from typing import Iterable, Iterator, List, Optional, Sequence, Union

from .errors import ProgramMissing, failure
from .tokens import Piece, byte_of, character_of, named_variables, pieces
from .transcript import Done, Item, Reader, SyntaxFault

Words = Union[str, "os.PathLike[str]", Sequence[str]]


@dataclass(frozen=True)
class Source:
    """The text of a program, for where a file may stand. It is written into a file that goes with the run."""

    text: str
    name: str = "text.pl"


File = Union[str, "os.PathLike[str]", Source]


def ask(
    files: Union[File, Iterable[File]],
    queries: Union[str, Iterable[str]],
    *,
    steps: Optional[int] = None,
    pivots: Optional[int] = None,
    answers: Optional[int] = None,
    program: Optional[Words] = None,
) -> Iterator[Item]:
    """Starts the program over the files, asks the queries one after another, and yields what it says, each as soon as it is there.

    `files` is a path or a `Source`, or several of them. `queries` is a text of queries, which is cut at their ends, or an
    iterable of texts of one query each; the end token `.` and `?-` may be left away, and `:- D` is a directive. `steps`, `pivots`
    and `answers` are the bounds of each query (without them those of the program: 1000000, 10000 and 1000). `program` is the
    program's path, or the words that start it; without it `clpq` on the path.

    First comes what the files say, with None as its query, and then for each query its answers and one `End`. A query is sent
    when the one before it has ended, so queries may be made from the answers before them; what one changes holds for those
    behind it. A text in which no tokens up to one end stand isn't sent: its end is a `SyntaxFault`.

    What the program itself writes stands in the `text` of the item behind it. Lines of it that look like lines of an answer
    and stand directly before one are taken for the answer's, a line `;` behind such lines for the end of an answer, and a last
    line `no`, `more`, `error: ..` or `stop: ..` of a directive that succeeds for its end. A program that ends what it writes with
    `nl` and begins each line with `> ` is told apart without fail.

    Leaving the iteration (`break`, `close()`) kills the program. Raises a `RunFailed` where the run breaks off, so that no
    query ever has fewer answers than the program found without one.
    """
    words = [*_words_of(program), "run", *_options(steps=steps, pivots=pivots, answers=answers), "--"]
    listed: List[File] = [files] if isinstance(files, (str, os.PathLike, Source)) else [*files]
    return _asked(words, listed, queries)


def _words_of(program: Optional[Words]) -> List[str]:
    if program is None:
        found = shutil.which("clpq")
        if found is None:
            raise ProgramMissing("clpq is not on the path")
        return [found]
    if isinstance(program, (str, os.PathLike)):
        return [os.fspath(program)]
    return [*program]


def _options(**bounds: Optional[int]) -> List[str]:
    words: List[str] = []
    for name, bound in bounds.items():
        if bound is None:
            continue
        if isinstance(bound, bool) or not isinstance(bound, int) or not 1 <= bound <= 1_000_000_000:
            raise ValueError(f"{name} is a whole number from 1 to 1000000000, and not {bound!r}")
        words += [f"--{name}", str(bound)]
    return words


def _asked(words: List[str], files: List[File], queries: Union[str, Iterable[str]]) -> Iterator[Item]:
    with contextlib.ExitStack() as stack:
        names = _names_of(files, stack)
        run = stack.enter_context(_Run([*words, *names]))
        for item in run.files():
            yield _placed_in_file(item, names)
        for number, piece in enumerate(_pieces_of(queries)):
            if piece.fault is None:
                yield from run.query(number, piece)
            else:
                byte = byte_of(piece.text, piece.fault)
                yield SyntaxFault(number, "", byte, _line_of(piece.text, piece.fault))
        run.finish()


def _names_of(files: Iterable[File], stack: contextlib.ExitStack) -> List[str]:
    """The names of the files, of which those of texts are in a folder that goes with the stack."""
    names: List[str] = []
    folder: Optional[pathlib.Path] = None
    for it in files:
        if not isinstance(it, Source):
            names.append(os.fspath(it))
            continue
        if folder is None:
            folder = pathlib.Path(stack.enter_context(tempfile.TemporaryDirectory(prefix="clpq-")))
        inner = folder / str(len(names))
        inner.mkdir()
        (inner / pathlib.Path(it.name).name).write_bytes(it.text.encode("utf-8"))
        names.append(str(inner / pathlib.Path(it.name).name))
    return names


def _pieces_of(queries: Union[str, Iterable[str]]) -> Iterator[Piece]:
    if isinstance(queries, str):
        yield from pieces(queries)
        return
    for number, text in enumerate(queries):
        found = [*pieces(text)]
        if len(found) != 1:
            raise ValueError(f"query {number} has {len(found) or 'no'} queries in it: {text!r}")
        yield found[0]


def _placed_in_file(item: Item, names: Sequence[str]) -> Item:
    """A fault of syntax with its line, where one file alone can be at fault."""
    if not isinstance(item, SyntaxFault) or len(names) != 1:
        return item
    with contextlib.suppress(OSError):
        before = pathlib.Path(names[0]).read_bytes()[: item.byte]
        return replace(item, line=before.count(b"\n") + 1)
    return item


def _line_of(text: str, at: int) -> int:
    return text.count("\n", 0, at) + 1


class _Run:
    """A program that runs. Behind each query a mark is asked for, a name that no program knows, so that each query's end is known
    whatever the program writes."""

    def __init__(self, words: Sequence[str]) -> None:
        self.words = words
        self.mark = "m" + secrets.token_hex(8)
        self.sent = 0

    def __enter__(self) -> "_Run":
        self.err = tempfile.TemporaryFile()
        try:
            self.process = subprocess.Popen(
                self.words, stdin=subprocess.PIPE, stdout=subprocess.PIPE, stderr=self.err, start_new_session=True
            )
        except (OSError, ValueError) as why:
            self.err.close()
            raise ProgramMissing(f"{self.words[0]}: {why}") from why
        assert self.process.stdin and self.process.stdout
        self.given, self.said = self.process.stdin, self.process.stdout
        return self

    def __exit__(self, *_: object) -> None:
        """Kills what still runs, with all that it started."""
        if self.process.poll() is None:
            with contextlib.suppress(ProcessLookupError, PermissionError):
                os.killpg(self.process.pid, signal.SIGKILL)
            self.process.wait()
        for it in (self.given, self.said, self.err):
            with contextlib.suppress(OSError):
                it.close()

    def files(self) -> Iterator[Item]:
        """What the files say. Their queries aren't known, so a line of an end is taken for one."""
        self.send("")
        reader = Reader(None, None)
        for line in self.lines():
            item = reader.line(line) or reader.whole_end(line)
            if item is not None:
                yield item
        end = reader.end(self.rest, True)
        if end.text or not isinstance(end, Done):
            yield end

    def query(self, number: int, piece: Piece) -> Iterator[Item]:
        begins = self.sent
        self.send(piece.text + ("\n" if piece.ended else "\n.\n"))
        reader = Reader(number, named_variables(piece.text))
        for line in self.lines():
            answer = reader.line(line)
            if answer is not None:
                yield answer
        end = reader.end(self.rest, piece.text.lstrip().startswith(":-"))
        if isinstance(end, SyntaxFault):
            at = character_of(piece.text, max(0, end.byte - begins))
            end = replace(end, byte=byte_of(piece.text, at), line=_line_of(piece.text, at))
        yield end

    def send(self, text: str) -> None:
        """Sends a text, and asks for the mark behind it. A program that has ended is found out when its lines are read."""
        given = f"{text}write({self.mark}).\n".encode("utf-8")
        self.sent += len(given)
        with contextlib.suppress(OSError):
            self.given.write(given)
            self.given.flush()

    def lines(self) -> Iterator[str]:
        """The lines up to the mark. What stands on its line before it is `rest`."""
        mark = f"{self.mark}true"
        while True:
            line = self.line()
            if line.endswith(mark):
                self.rest = line[: -len(mark)]
                if self.line() != ";" or self.line() not in ("no", "more"):
                    raise self.failed()
                return
            yield line

    def line(self) -> str:
        line = self.said.readline()
        if not line.endswith(b"\n"):
            raise self.failed()
        return line[:-1].decode("utf-8", "surrogateescape")

    def finish(self) -> None:
        """Ends the input and waits for the program's end."""
        with contextlib.suppress(OSError):
            self.given.close()
        rest = self.said.read()
        if rest or self.process.wait() not in (0, 1, 6):
            raise self.failed()

    def failed(self) -> Exception:
        """Why the program broke off. Where it hasn't ended it says what it may not say, and is killed."""
        with contextlib.suppress(OSError):
            self.given.close()
        with contextlib.suppress(subprocess.TimeoutExpired):
            self.process.wait(10)
        status = self.process.poll()
        self.err.seek(0)
        return failure(status if status is not None else -signal.SIGKILL, self.err.read().decode("utf-8", "replace"))
