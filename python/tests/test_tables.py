"""Tables become exact facts, and answers become rows."""

import datetime
import io
import unittest
from decimal import Decimal
from fractions import Fraction

import clpq
from clpq import Answer, Atom, facts
from clpq.tables import csv_rows, table

from .around import PROGRAM

PRICES = "article,price,note\n007,12.50,it's\n8,-0.05,\n9,3,\"a\nb, c\"\n10,1e5,1.\n"


class Facts(unittest.TestCase):
    def test_sequences_and_mappings(self):
        self.assertEqual(facts("price", [("a", Decimal("1.10")), ("B", -2)]).text, "price(a,11r10).\nprice('B',-2).\n")
        self.assertEqual(facts("p", [{"x": 1, "y": 2}, {"y": 4, "x": 3}]).text, "p(1,2).\np(3,4).\n")
        self.assertEqual(facts("p", [{"x": 1, "y": 2, "z": 3}], columns=["z", "x"]).text, "p(3,1).\n")
        self.assertEqual(facts("my table", [[[1, "is"]]]).text, "'my table'([1,is]).\n")

    def test_what_is_refused(self):
        for rows, kind in [([(1,), (1, 2)], ValueError), ([()], ValueError), ([(0.5,)], TypeError), ([(None,)], TypeError),
                           ([(1, datetime.date(2026, 1, 1))], TypeError), ([{"a": 1, "b": 2}, {"a": 1}], ValueError)]:  # fmt: skip
            with self.subTest(rows), self.assertRaises(kind):
                facts("p", rows)
        with self.assertRaisesRegex(TypeError, "row 1, column 0: 0.5 is a float"):
            facts("p", [(1,), (0.5,)])

    def test_csv(self):
        rows = [*csv_rows(io.StringIO(PRICES, newline=""))]
        self.assertEqual(rows, [
            {"article": "007", "price": Decimal("12.50"), "note": "it's"},
            {"article": Decimal(8), "price": Decimal("-0.05"), "note": ""},
            {"article": Decimal(9), "price": Decimal(3), "note": "a\nb, c"},
            {"article": Decimal(10), "price": "1e5", "note": "1."},
        ])  # fmt: skip
        self.assertEqual([it["article"] for it in csv_rows(io.StringIO(PRICES), text=["article"])], ["007", "8", "9", "10"])
        with self.assertRaisesRegex(ValueError, "line 6, price: '1e5'"):
            [*csv_rows(io.StringIO(PRICES, newline=""), numbers=["price"])]
        for text in ["a,b\n1\n", "a,a\n1,2\n", "a\n\"b"]:
            with self.subTest(text), self.assertRaises(Exception):
                [*csv_rows(io.StringIO(text))]
        with self.assertRaises(ValueError):
            [*csv_rows(io.StringIO(PRICES), text=["absent"])]

    def test_through_the_program(self):
        prices = facts("price", csv_rows(io.StringIO(PRICES, newline=""), text=["article"]))
        items = [*clpq.ask(prices, ["price(A, P, N)", "price('8', P, _), {Two = 2*P}"], program=PROGRAM)]
        self.assertEqual([it.bindings for it in items if isinstance(it, Answer)], [
            {"A": Atom("007"), "P": Fraction(25, 2), "N": Atom("it's")},
            {"A": Atom("8"), "P": Fraction(-1, 20), "N": Atom("")},
            {"A": Atom("9"), "P": 3, "N": Atom("a\nb, c")},
            {"A": Atom("10"), "P": Atom("1e5"), "N": Atom("1.")},
            {"P": Fraction(-1, 20), "Two": Fraction(-1, 10)},
        ])  # fmt: skip


class Tables(unittest.TestCase):
    ITEMS = [*clpq.read_transcript("X = 1\nY = 'a b'\n;\nX = 1r3\n{Z>=2}\n{X*Y=6}\n;\nno\ntrue\n;\nno\n")]

    def test_answers(self):
        self.assertEqual(table(self.ITEMS), [
            {"query": 0, "X": 1, "Y": "a b", "where": ""},
            {"query": 0, "X": Fraction(1, 3), "Y": None, "where": "{Z>=2}, {X*Y=6}"},
            {"query": 1, "X": None, "Y": None, "where": ""},
        ])  # fmt: skip
        self.assertEqual(table([]), [])


if __name__ == "__main__":
    unittest.main()
