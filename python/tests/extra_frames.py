"""Frames of pandas become exact facts, and answers become frames."""

import datetime
import unittest
from decimal import Decimal
from fractions import Fraction

import clpq
from clpq import Source, facts
from clpq.tables import frame

try:
    import pandas
except ImportError as why:
    raise unittest.SkipTest("pandas is not there") from why

ITEMS = [*clpq.read_transcript("X = 1\nY = 'a b'\n;\nX = 1r3\n{Z>=2}\n{X*Y=6}\n;\nno\ntrue\n;\nno\n")]


class Frames(unittest.TestCase):
    def test_frames(self):
        exact = frame(ITEMS)
        self.assertEqual([*exact.columns], ["query", "X", "Y", "where"])
        self.assertEqual(exact["X"][1], Fraction(1, 3))
        self.assertEqual(frame(ITEMS, floats=True)["X"][1], 1 / 3)
        given = pandas.DataFrame({"a": ["x", "y"], "b": [Decimal("0.1"), Decimal("2")], "c": [1, 2]})
        self.assertEqual(facts("p", given), Source("p(x,1r10,1).\np(y,2,2).\n", "facts.pl"))
        self.assertEqual(facts("p", given, columns=["c", "a"]).text, "p(1,x).\np(2,y).\n")
        day = pandas.DataFrame({"d": pandas.to_datetime(["2026-01-03"])})
        self.assertEqual(facts("p", day, days=datetime.date(2026, 1, 1)).text, "p(2).\n")

    def test_frames_of_floats(self):
        given = pandas.DataFrame({"a": [0.1, 0.25]})
        with self.assertRaises(TypeError):
            facts("p", given)
        self.assertEqual(facts("p", given, floats="shortest").text, "p(1r10).\np(1r4).\n")
        for missing in [{"a": [0.1, None]}, {"a": ["x", None]}, {"a": [pandas.NaT]}]:
            with self.subTest(missing), self.assertRaises((TypeError, ValueError)):
                facts("p", pandas.DataFrame(missing), floats="shortest", days=datetime.date(2026, 1, 1))


if __name__ == "__main__":
    unittest.main()
