"""Queries over executors: each is answered once, in order, and apart from the others."""

import threading
import unittest
from concurrent.futures import Future, ProcessPoolExecutor, ThreadPoolExecutor

import clpq
from clpq import Answer, Atom, Ball, NoMore, Source, SyntaxFault

from .around import PROGRAM, no_child, stand_in

SQUARES = Source(":- dynamic kept/1.\nsquare(N, M) :- M is N*N.\n")


class Late:
    """An executor that runs each task only when its result is wanted, and counts those that wait."""

    def __init__(self):
        self.waiting = self.most = self.cancelled = 0

    def submit(self, task, *args):
        late = self
        late.waiting += 1
        late.most = max(late.most, late.waiting)

        class Wanted(Future):
            def result(self, timeout=None):
                late.waiting -= 1
                return task(*args)

            def cancel(self):
                late.cancelled += 1
                return super().cancel()

        return Wanted()


class Executors(unittest.TestCase):
    def check(self, executor, count=24):
        queries = (f"square({n}, M)" for n in range(count))
        found = [*clpq.map(SQUARES, queries, executor=executor, ahead=7, program=PROGRAM)]
        self.assertEqual(found, [(Answer(n, "", {"M": n * n}), NoMore(n, "")) for n in range(count)])

    def test_threads(self):
        with ThreadPoolExecutor(4) as executor:
            self.check(executor)

    def test_processes(self):
        with ProcessPoolExecutor(2) as executor:
            self.check(executor)

    def test_threads_of_its_own(self):
        self.check(None)
        self.assertEqual(threading.active_count(), 1)
        self.assertTrue(no_child())

    def test_ahead_and_leaving(self):
        executor, asked = Late(), []

        def queries():
            while True:
                asked.append(1)
                yield f"square({len(asked)}, M)"

        items = clpq.map(SQUARES, queries(), executor=executor, ahead=5, program=PROGRAM)
        self.assertEqual(next(items)[0].bindings, {"M": 1})
        self.assertEqual(next(items)[0].bindings, {"M": 4})
        items.close()
        self.assertEqual((executor.most, len(asked), executor.cancelled), (5, 6, 4))


class Apart(unittest.TestCase):
    def test_changes_are_not_shared(self):
        queries = ["assertz(kept(1)), kept(X)", "kept(X)", "throw(a)", "a b", "X = 1."]
        found = [*clpq.map(SQUARES, queries, program=PROGRAM)]
        self.assertEqual([it[-1] for it in found], [NoMore(0, ""), NoMore(1, ""), Ball(2, "", Atom("a")), SyntaxFault(3, "", 2, 1), NoMore(4, "")])
        self.assertEqual([len(it) for it in found], [2, 1, 1, 1, 2])

    def test_what_is_wrong(self):
        with self.assertRaises(TypeError):
            clpq.map([], "a.", program=PROGRAM)
        with self.assertRaises(ValueError):
            clpq.map([], [], steps=0, program=PROGRAM)
        with self.assertRaises(clpq.OutOfMemory):
            [*clpq.map([], ["a"], program=stand_in("status", "7", "clpq: out of memory\n"))]
        with ProcessPoolExecutor(1) as executor, self.assertRaises(clpq.FileMissing):
            [*clpq.map("absent.pl", ["a"], executor=executor, program=PROGRAM)]


if __name__ == "__main__":
    unittest.main()
