"""Why a run broke off."""

from __future__ import annotations


class RunFailed(Exception):
    """A run broke off. What was yielded before it holds."""


class ProgramMissing(RunFailed):
    """There is no program `clpq` where it was looked for, or it can't be started. The argument says where and why."""

    def __str__(self) -> str:
        return f"no program clpq: {self.args[0]}"


class BadCommand(RunFailed):
    """The program doesn't know the words that it was started with (status 2)."""

    def __str__(self) -> str:
        return "the program doesn't know its command line"


class FileMissing(RunFailed):
    """There is no file of the name that is the argument (status 3)."""

    def __str__(self) -> str:
        return f"no file {self.args[0]}"


class TooLarge(RunFailed):
    """A file, or all queries of a run together (`input`), have more than 16777216 bytes (status 3). The argument says which."""

    def __str__(self) -> str:
        return f"too large: {self.args[0]}"


class ReadFailed(RunFailed):
    """A file, or the queries, can't be read (status 4)."""

    def __str__(self) -> str:
        return "the program could not read a file or its input"


class WriteFailed(RunFailed):
    """The program could not write what it says (status 5)."""

    def __str__(self) -> str:
        return "the program could not write its output"


class OutOfMemory(RunFailed):
    """Memory ran out (status 7)."""

    def __str__(self) -> str:
        return "the program ran out of memory"


class CutOff(RunFailed):
    """The program ended before it had said all, without a cause of its own. The arguments are its status and what it wrote on
    its standard error; a status below 0 is the signal that killed it."""

    def __str__(self) -> str:
        status, err = self.args
        cause = f"was killed by signal {-status}" if status < 0 else f"ended with status {status}"
        return f"the program {cause} before it had said all{': ' + err if err else ''}"


def failure(status: int, err: str) -> RunFailed:
    """The failure that a status and the last line on the standard error say."""
    lines = err.strip().splitlines()
    cause = lines[-1] if lines else ""
    if status == 3 and cause.startswith("clpq: no file "):
        return FileMissing(cause[len("clpq: no file ") :])
    if status == 3 and cause.startswith("clpq: too large "):
        return TooLarge(cause[len("clpq: too large ") :])
    known = {2: BadCommand, 4: ReadFailed, 5: WriteFailed, 7: OutOfMemory}
    return known[status]() if status in known else CutOff(status, cause)
