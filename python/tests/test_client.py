"""The client: what is said, in order, as soon as it is there; why a run broke off; and nothing left behind."""

import gc
import os
import pathlib
import resource
import subprocess
import tempfile
import threading
import time
import unittest
from fractions import Fraction

import clpq
from clpq import Answer, Atom, Ball, Done, More, NoMore, Source, Stop, Struct, SyntaxFault

from .around import EXAMPLES, PROGRAM, TOP, gone, no_child, stand_in

COUNT = int(os.environ.get("CLPQ_ANSWERS", "100000"))
NUMBERS = Source("from(N, N).\nfrom(N, M) :- K is N + 1, from(K, M).\n")


def ask(files, queries, **more):
    return clpq.ask(files, queries, program=PROGRAM, **more)


class Said(unittest.TestCase):
    def test_an_example(self):
        items = [*ask(EXAMPLES / "loan.pl", (EXAMPLES / "loan.in").read_text())]
        payment, loan = items[0], items[2]
        self.assertEqual(payment.bindings, {"M": Fraction(10303010, 30301)})
        self.assertEqual(loan.rows[0].coefficients, {"P": 1, "B": Fraction(-1000000, 1030301), "M": Fraction(-3030100, 1030301)})
        self.assertEqual([items[1], items[3]], [NoMore(0, ""), NoMore(1, "")])

    def test_every_kind(self):
        items = [*ask([], [
            "X = 1 ; X = 2", "throw(f(a))", "a b", "{X = 170141183460469231731687303715884105727*2}", ":- true", ":- fail", ":- throw(b)", "true",
        ], answers=2)]  # fmt: skip
        self.assertEqual(items, [
            Answer(0, "", {"X": 1}), Answer(0, "", {"X": 2}), More(0, ""), Ball(1, "", Struct("f", (Atom("a"),))), SyntaxFault(2, "", 2, 1),
            Stop(3, "", "overflow"), Done(4, ""), NoMore(5, ""), Ball(6, "", Atom("b")), Answer(7, ""), NoMore(7, ""),
        ])  # fmt: skip

    def test_bounds(self):
        for steps, ends in [(1, [Answer(0, ""), NoMore(0, ""), Stop(1, "", "resolutions")]), (3, [Answer(0, ""), NoMore(0, ""), Answer(1, ""), NoMore(1, "")])]:
            self.assertEqual([*ask([], ["true", "true, true"], steps=steps, answers=5)], ends)
        for bound in [0, -1, 1_000_000_001, True, "5", 1.5]:
            with self.assertRaises(ValueError):
                ask([], [], steps=bound)

    def test_places_of_faults(self):
        texts = ["X = 1.", "é = é,\n  X = ]", "X = 'é\n'.", "X = ", "X = 1"]
        faults = [(it.query, it.byte, it.line) for it in ask([], texts) if isinstance(it, SyntaxFault)]
        self.assertEqual(faults, [(1, 15, 2), (2, 7, 1), (3, 4, 1)])

    def test_a_file_at_fault(self):
        items = [*ask(Source("a.\nb c.\n:- throw(late).\n?- X = 1 ; X = 2.\n:- write('> ready'), nl.\n"), ["a"])]
        self.assertEqual(items[0], SyntaxFault(None, "", 5, 2))
        self.assertEqual(items[1:5], [Ball(None, "", Atom("late")), Answer(None, "", {"X": 1}), Answer(None, "", {"X": 2}), NoMore(None, "")])
        self.assertEqual(items[5:], [Done(None, "> ready\n"), Answer(0, ""), NoMore(0, "")])

    def test_what_the_program_writes(self):
        items = [*ask([], ["write(a), X = 1", "write(no), nl, write(more), nl", "write(a), fail", ":- write(b)", "write(';'), nl, X = 1"])]
        self.assertEqual(items, [
            Answer(0, "a", {"X": 1}), NoMore(0, ""), Answer(1, "no\nmore\n"), NoMore(1, ""), NoMore(2, "a"), Done(3, "b"),
            Answer(4, ";\n", {"X": 1}), NoMore(4, ""),
        ])  # fmt: skip

    def test_queries_made_from_answers(self):
        heard = []

        def queries():
            yield "X = 3"
            yield f"X is {heard[0].bindings['X']} + 1"

        for item in ask([], queries()):
            heard.append(item)
        self.assertEqual(heard[2].bindings, {"X": 4})

    def test_each_comes_when_it_is_there(self):
        # the query goes on for ever; its first answers are there all the same
        items = ask(NUMBERS, ["from(0, N)"], steps=1_000_000_000, answers=1_000_000_000)
        self.assertEqual([next(items).bindings["N"] for _ in range(3)], [0, 1, 2])
        items.close()

    def test_texts_that_hold_more_or_less_than_a_query(self):
        for text in ["a. b.", "", " % nothing"]:
            with self.assertRaises(ValueError):
                [*ask([], [text])]

    def test_a_large_query(self):
        text = "X = [" + ",".join(["a"] * 100_000) + "]"
        answer = next(ask([], [text]))
        self.assertEqual(len(answer.bindings["X"]), 100_000)


class BrokenOff(unittest.TestCase):
    def test_causes(self):
        with tempfile.TemporaryDirectory() as folder:
            large = pathlib.Path(folder) / "large.pl"
            large.write_bytes(b" " * 16_777_217)
            for files, kind, said in [
                ("absent.pl", clpq.FileMissing, ("absent.pl",)),
                ([str(large)], clpq.TooLarge, (str(large),)),
                (folder, clpq.ReadFailed, ()),
            ]:
                with self.subTest(kind), self.assertRaises(kind) as caught:
                    [*ask(files, ["true"])]
                self.assertEqual(caught.exception.args, said)

    def test_causes_by_status(self):
        for status, err, kind, said in [
            (2, "clpq: bad command line\n", clpq.BadCommand, ()),
            (3, "clpq: too large input\n", clpq.TooLarge, ("input",)),
            (4, "clpq: read failed\n", clpq.ReadFailed, ()),
            (5, "clpq: write failed\n", clpq.WriteFailed, ()),
            (7, "clpq: out of memory\n", clpq.OutOfMemory, ()),
            (0, "", clpq.CutOff, (0, "")),
        ]:
            with self.subTest(status), self.assertRaises(kind) as caught:
                [*clpq.ask([], ["true"], program=stand_in("status", str(status), err))]
            self.assertEqual(caught.exception.args, said)

    def test_a_missing_program(self):
        for program in ["/absent/clpq", "/", []]:
            with self.subTest(program), self.assertRaises((clpq.ProgramMissing, ValueError)):
                [*clpq.ask([], ["true"], program=program)]

    def test_an_answer_that_is_cut_off(self):
        for lines, whole in [("X = 1\n;\nX = 2\n", 1), ("X = 1\n;\nX = 2\n;", 1), ("X = 1", 0), ("X = 1\n;\n", 1), ("X = 1\n;\nno\n", 1), ("", 0)]:
            heard = []
            with self.subTest(lines), self.assertRaises(clpq.CutOff) as caught:
                for item in clpq.ask([], ["p(X)"], program=stand_in("half", lines)):
                    heard.append(item)
            self.assertEqual(heard, [Answer(0, "", {"X": 1})] * whole)
            self.assertEqual(caught.exception.args[0], -9)

    def test_a_program_that_is_killed(self):
        before = set(children())
        items = ask(NUMBERS, ["from(0, N)"], steps=1_000_000_000, answers=1_000_000_000)
        next(items)
        (pid,) = set(children()) - before
        os.kill(pid, 9)
        with self.assertRaises(clpq.CutOff):
            for _ in items:
                pass


class NothingStays(unittest.TestCase):
    def test_no_process_and_no_thread(self):
        items = ask(NUMBERS, ["from(0, N)"], steps=1_000_000_000, answers=1_000_000_000)
        next(items)
        self.assertEqual(threading.active_count(), 1)
        items.close()
        self.assertTrue(no_child())
        for _ in ask(NUMBERS, ["from(0, N)"], steps=1_000_000_000, answers=1_000_000_000):
            break
        gc.collect()
        self.assertTrue(no_child())
        [*ask([], ["true"])]
        self.assertTrue(no_child())

    def test_no_process_of_a_program_that_starts_others(self):
        with tempfile.TemporaryDirectory() as folder:
            file = pathlib.Path(folder) / "pid"
            items = clpq.ask([], ["true"], program=stand_in("child", str(file)))
            next(items)
            items.close()
            pid = int(file.read_text())
            until = time.monotonic() + 10
            while not gone(pid) and time.monotonic() < until:
                time.sleep(0.01)
            self.assertTrue(gone(pid))

    def test_no_file(self):
        with tempfile.TemporaryDirectory() as folder:
            old, tempfile.tempdir = tempfile.tempdir, folder
            try:
                next(ask(Source("a.", "name.pl"), ["a"]))
                with self.assertRaises(clpq.RunFailed):
                    [*ask([Source("a."), "absent.pl"], ["a"])]
            finally:
                tempfile.tempdir = old
            gc.collect()
            self.assertEqual([*pathlib.Path(folder).iterdir()], [])


class ManyAnswers(unittest.TestCase):
    def check(self, items, count):
        size = objects = 0
        for number, item in enumerate(items):
            if isinstance(item, Answer):
                self.assertEqual(item.bindings["N"], number)
            if number == count // 10:
                objects, size = len(gc.get_objects()), resource.getrusage(resource.RUSAGE_SELF).ru_maxrss
        self.assertEqual(number, count)
        self.assertLess(len(gc.get_objects()), objects + 1000)
        self.assertLess(resource.getrusage(resource.RUSAGE_SELF).ru_maxrss, size + 4096)

    def test_constant_memory(self):
        self.check(ask(NUMBERS, ["from(0, N)"], steps=1_000_000_000, answers=COUNT), COUNT)


class Worked(unittest.TestCase):
    """The worked rows through the client: what it reads of a running program is the transcript of the row."""

    def test_rows(self):
        import json

        rows = [it for it in json.loads((TOP / ".ci/rows.json").read_text()) if it["words"] == ["run"] and it["status"] in (0, 1, 6)]
        chosen = [it for it in rows if "syntax" not in it["out"] and not any("\udc80" <= c <= "\udcff" for c in it["input"])]
        for row in chosen[:: max(1, len(chosen) // 40)]:
            with self.subTest(row["input"]):
                said = "".join(str(it) for it in ask([], row["input"]))
                self.assertEqual(said, row["out"])


def children():
    """The numbers of the processes that this one started."""
    found = subprocess.run(["ps", "-o", "pid=,args=", "--ppid", str(os.getpid())], capture_output=True, text=True).stdout
    return [int(it.split()[0]) for it in found.splitlines() if " ps " not in it]


if __name__ == "__main__":
    unittest.main()
