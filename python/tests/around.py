"""What the tests share: the program that is tried, the repository's folder, and stand-ins for a program."""

import os
import pathlib
import sys

TOP = pathlib.Path(__file__).resolve().parents[2]
PROGRAM = os.environ.get("CLPQ", str(TOP / "crates/clpq/out/clpq"))
EXAMPLES = TOP / "examples"
STAND_IN = pathlib.Path(__file__).with_name("stand_in.py")


def stand_in(*words: str) -> list:
    """The words that start a stand-in, which does what `words` say."""
    return [sys.executable, str(STAND_IN), *words]


def gone(pid: int) -> bool:
    """Whether no process of this number is there."""
    try:
        os.kill(pid, 0)
    except ProcessLookupError:
        return True
    state = pathlib.Path(f"/proc/{pid}/stat").read_text().rpartition(")")[2].split()[0]
    return state == "Z"


def no_child() -> bool:
    """Whether this process has no child, neither a running one nor one that ended and was not waited for."""
    try:
        os.waitpid(-1, os.WNOHANG)
    except ChildProcessError:
        return True
    return False
