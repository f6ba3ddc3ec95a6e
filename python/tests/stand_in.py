"""A stand-in for the program, for what the program can't be brought to do.

    stand_in.py status N TEXT run ..     writes TEXT on the standard error and ends with status N
    stand_in.py half LINES run ..        writes LINES as what the first query says, and kills itself
    stand_in.py say LINES run ..         writes LINES as what each query says
    stand_in.py child FILE run ..        starts a process of its own, writes its number into FILE, and waits for ever
"""

import os
import re
import signal
import subprocess
import sys


def say(text: str) -> None:
    sys.stdout.write(text)
    sys.stdout.flush()


def answer(kind: str, lines: str) -> None:
    first = True
    for line in sys.stdin:
        mark = re.fullmatch(r"write\((m[0-9a-f]+)\)\.\n", line)
        if mark and first:
            first = False
            say(f"{mark[1]}true\n;\nno\n")
        elif mark and kind == "half":
            say(lines)
            os.kill(os.getpid(), signal.SIGKILL)
        elif mark:
            say(f"{lines}{mark[1]}true\n;\nno\n")


def main() -> int:
    kind, word = sys.argv[1], sys.argv[2]
    if kind == "status":
        sys.stderr.write(sys.argv[3])
        return int(word)
    if kind == "child":
        with subprocess.Popen(["sleep", "1000"]) as child, open(word, "w") as file:
            file.write(str(child.pid))
            file.close()
            say("X = 1\n;\n")
            child.wait()
    answer(kind, word)
    return 0


if __name__ == "__main__":
    sys.exit(main())
