"""Python values as terms: exact, and never code."""

import datetime
import pickle
import unittest
from decimal import Decimal
from fractions import Fraction

import clpq
from clpq import Answer, Atom, NoMore, Struct, Unread, Var, term

from .around import PROGRAM

# texts of users that try to end the name, the term, the clause or the line that they stand in
ATTEMPTS = [
    "'", "''", "a', X = broken, Y = 'b", "a'), assertz(hit(1)), foo('", "a'. ?- assertz(hit(1)). '", "\\", "\\'", "\\', assertz(hit(1)), '",
    "a\n?- assertz(hit(1)).\n", "a.\nassertz(hit(1)).", "% comment", "/* comment", "*/", "X", "_", "[]", "{}", "[a|b]", "f(a)", "a:-b", "-", "- 1", "1", "1r2", ",",
    "|", "!", ";", "0'a", "\"", "`", "\x00", "\r\n", "\t", "\x1b[0m", "\x7f", "\x85", "\u2028", "é\u0301", "\U0001f600", "", " ", "dynamic", "is", "write(hit)",
]  # fmt: skip


class Values(unittest.TestCase):
    def test_by_rule(self):
        for value, text in [
            (3, "3"),
            (-3, "(-3)"),
            (True, "(true)"),
            (Fraction(-1, 3), "(-1r3)"),
            (Decimal("12.50"), "25r2"),
            (Decimal("1E+3"), "1000"),
            ("apple", "(apple)"),
            ("Apple", "('Apple')"),
            ("it's", "('it\\'s')"),
            ([1, -2, "a", []], "[1,-2,a,[]]"),
            ((1, (2,)), "[1,[2]]"),
            ({"a": 1, "b c": -2}, "['-'(a,1),'-'('b c',-2)]"),
            (Struct("f", (Var("X"), Atom("-"), [Var("Y")])), "f(X,'-',[Y])"),
            (Struct("-", (1,)), "'-'(1)"),
            (Var("X"), "X"),
            ({}, "[]"),
        ]:
            with self.subTest(value):
                self.assertEqual(term(value), text)

    def test_floats(self):
        with self.assertRaises(TypeError):
            term(0.1)
        with self.assertRaises(TypeError):
            term([1, {"a": 0.5}])
        self.assertEqual(term(0.1, floats="shortest"), "1r10")
        self.assertEqual(term(0.1, floats="exact"), "3602879701896397r36028797018963968")
        for value in [float("nan"), float("inf"), Decimal("NaN"), Decimal("-Infinity")]:
            with self.assertRaises(ValueError):
                term(value, floats="shortest")

    def test_days(self):
        first = datetime.date(2026, 1, 1)
        self.assertEqual(term(datetime.date(2026, 3, 1), days=first), "59")
        self.assertEqual(term(datetime.date(2025, 12, 31), days=first), "(-1)")
        self.assertEqual(term(datetime.datetime(2026, 1, 2, 6), days=first), "5r4")
        with self.assertRaises(TypeError):
            term(first)
        with self.assertRaises(TypeError):
            term(datetime.datetime(2026, 1, 1, tzinfo=datetime.timezone.utc), days=first)

    def test_what_is_past_the_numbers_of_the_program(self):
        limit = 2**127 - 1
        self.assertEqual(term(limit), str(limit))
        self.assertEqual(term(Fraction(1, limit)), f"1r{limit}")
        for value in [limit + 1, Fraction(1, limit + 1), Decimal("1e39"), Decimal("1e-39"), Decimal("1e999999999"), Decimal("1e-999999999")]:
            with self.subTest(value), self.assertRaises(OverflowError):
                term(value)

    def test_what_is_no_term(self):
        for value in [None, object(), {1, 2}, b"a", 1j, Unread("a b")]:
            with self.subTest(value), self.assertRaises(TypeError):
                term(value)
        for value in ["\ud800", Var("x"), Var("X, Y"), Struct("\udfff", (1,))]:
            with self.subTest(value), self.assertRaises(ValueError):
                term(value)

    def test_depth(self):
        value = "x"
        for _ in range(5_000):
            value = [value]
        self.assertEqual(term(value), "[" * 5_000 + "x" + "]" * 5_000)

    def test_items_go_between_processes(self):
        for it in [Answer(0, "a", {"X": Struct("f", ([Atom("a")],))}), clpq.FileMissing("a.pl"), clpq.CutOff(-9, "")]:
            back = pickle.loads(pickle.dumps(it))
            self.assertEqual((type(back), str(back)), (type(it), str(it)))


class NeverCode(unittest.TestCase):
    def test_texts_that_try_to_break_out(self):
        pair = [f"X = {term(it)}, Y = p({term(it)},-{term(it)}-1,[{term(it)}|{term(it)}])" for it in ATTEMPTS]
        items = [*clpq.ask([], [":- dynamic hit/1", *pair, "hit(_)"], program=PROGRAM)]
        found = {it.query: it for it in items if isinstance(it, Answer)}
        for number, text in enumerate(ATTEMPTS, 1):
            with self.subTest(text):
                atom = [] if text == "[]" else Atom(text)
                cell = [atom] if text == "[]" else Struct(".", (atom, atom))
                less = Struct("-", (Struct("-", (atom,)), 1))
                self.assertEqual(found[number].bindings, {"X": atom, "Y": Struct("p", (atom, less, cell))})
        self.assertEqual(items[-1], NoMore(len(ATTEMPTS) + 1, ""))


if __name__ == "__main__":
    unittest.main()
