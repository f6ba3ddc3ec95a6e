"""Transcripts are read whole and written back the same."""

import json
import unittest
from fractions import Fraction

from clpq import Answer, Atom, Ball, Done, More, NoMore, Row, Stop, Struct, SyntaxFault, Unread, Var, read_transcript
from clpq.transcript import Reader

from .around import EXAMPLES, TOP


def stored():
    """The transcripts of the worked rows and of the examples, but for those that a program's own text ends."""
    for it in json.loads((TOP / ".ci/rows.json").read_text()):
        if it["words"][:1] == ["run"] and (it["out"] or "\n")[-1] == "\n":
            yield it["input"], it["out"]
    for path in sorted(EXAMPLES.glob("*.out")):
        yield path.name, path.read_text()


def only(text, names=None):
    """The one answer of these lines."""
    reader = Reader(0, names)
    found = [reader.line(it) for it in text.split("\n")]
    answers = [it for it in found if it is not None]
    assert len(answers) == 1 and found[-1] is not None, found
    return answers[0]


class Stored(unittest.TestCase):
    def test_each_is_written_back_the_same(self):
        count = 0
        for where, text in stored():
            with self.subTest(where):
                self.assertEqual("".join(map(str, read_transcript(text))), text)
                count += 1
        self.assertGreater(count, 300)

    def test_each_line_of_an_answer_is_read(self):
        for where, text in stored():
            if "op(" in where:  # under operators of its own a term stays text
                continue
            for item in read_transcript(text):
                if isinstance(item, Answer):
                    parts = [*item.bindings.values(), *item.waiting]
                    self.assertFalse([it for it in parts if isinstance(it, Unread)], where)

    def test_a_number_of_ends(self):
        # by hand: the queries of examples/production.in, which has seven
        items = [*read_transcript((EXAMPLES / "production.out").read_text())]
        self.assertEqual([it.query for it in items if not isinstance(it, Answer)], [0, 1, 2, 3, 4, 5, 6])
        self.assertEqual(items[-2:], [Answer(6, ""), NoMore(6, "")])

    def test_what_is_cut_off_is_refused(self):
        for text in ["X = 1\n", "X = 1\n;\nn", "X = 1\n;\nX = 2", "X = 1\n;", "{X>=1}\n"]:
            with self.subTest(text), self.assertRaises(ValueError):
                [*read_transcript(text)]


class Lines(unittest.TestCase):
    def test_values(self):
        answer = only("X = 1\nY = -3r2\nZ = 'a b'\nL = [1,f(_1)|T]\nM = [a,[]]\nW = (a:-b)\n;")
        self.assertEqual(answer.bindings, {
            "X": 1, "Y": Fraction(-3, 2), "Z": Atom("a b"),
            "L": Struct(".", (1, Struct(".", (Struct("f", (Var("_1"),)), Var("T"))))),
            "M": [Atom("a"), []], "W": Struct(":-", (Atom("a"), Atom("b"))),
        })  # fmt: skip

    def test_rows(self):
        answer = only("{X= -2r3*Y+1r3*Z-5}\n{A=B}\n{Y-Z=< -10}\n{Y>0}\n{Y-2*Z=\\=1r2}\n;")
        one = Fraction(1)
        self.assertEqual(answer.rows, (
            Row({"X": one, "Y": Fraction(2, 3), "Z": Fraction(-1, 3)}, "=", Fraction(-5)),
            Row({"A": one, "B": -one}, "=", Fraction(0)),
            Row({"Y": one, "Z": -one}, "=<", Fraction(-10)),
            Row({"Y": one}, ">", Fraction(0)),
            Row({"Y": one, "Z": Fraction(-2)}, "=\\=", Fraction(1, 2)),
        ))  # fmt: skip

    def test_what_waits(self):
        answer = only("{X*Y=6}\n{8=Z^3}\nfreeze(X,foo(Y))\n;")
        x, y, z = Var("X"), Var("Y"), Var("Z")
        self.assertEqual(answer.waiting, (
            Struct("{}", (Struct("=", (Struct("*", (x, y)), 6)),)),
            Struct("{}", (Struct("=", (8, Struct("^", (z, 3)))),)),
            Struct("freeze", (x, Struct("foo", (y,)))),
        ))  # fmt: skip

    def test_a_point(self):
        answer = only("{X+Y=<4}\n{_1=\\=0}\n% at X=-3, Y=1r2, _1=1\n;")
        self.assertEqual(answer.point, {"X": Fraction(-3), "Y": Fraction(1, 2), "_1": Fraction(1)})
        self.assertTrue(all(it.holds(answer.point) for it in answer.rows))
        self.assertEqual(only("{X>=1}\n;").point, None)

    def test_ends(self):
        text = "no\nmore\nerror: f(_1)\nerror: syntax 12\nstop: pivots\nerror: syntax\n"
        self.assertEqual([*read_transcript(text)], [
            NoMore(0, ""), More(1, ""), Ball(2, "", Struct("f", (Var("_1"),))), SyntaxFault(3, "", 12), Stop(4, "", "pivots"),
            Ball(5, "", Atom("syntax")),
        ])  # fmt: skip

    def test_operators_of_a_program(self):
        answer = only("X = a===>b\n;")
        self.assertEqual(answer.bindings, {"X": Unread("a===>b")})
        self.assertEqual(str(answer), "X = a===>b\n;\n")


class Texts(unittest.TestCase):
    """What the program itself writes."""

    def test_whole_lines_before_an_answer(self):
        answer = only("> step 1\nTotal = 5\nTotal = 5\n;", ["Total"])
        self.assertEqual((answer.text, answer.bindings), ("> step 1\nTotal = 5\n", {"Total": 5}))

    def test_a_value_of_what_is_no_variable_of_the_query(self):
        answer = only("Cost = 5\nX = 1\n;", ["X"])
        self.assertEqual((answer.text, answer.bindings), ("Cost = 5\n", {"X": 1}))

    def test_values_out_of_order(self):
        answer = only("Y = 1\nX = 1\n;", ["X", "Y"])
        self.assertEqual((answer.text, answer.bindings), ("Y = 1\n", {"X": 1}))

    def test_no_line_end(self):
        for text, own, bindings in [
            ("abX = 1\n;", "ab", {"X": 1}),
            ("abX = 1\nY = 2\n;", "ab", {"X": 1, "Y": 2}),
            ("atrue\n;", "a", {}),
            ("> aX = 1\n;", "> a", {"X": 1}),
        ]:
            with self.subTest(text):
                answer = only(text, ["X", "Y"])
                self.assertEqual((answer.text, answer.bindings), (own, bindings))
                self.assertEqual(str(answer), text + "\n")

    def test_no_line_end_before_a_row(self):
        answer = only("sum{X>=1}\n;", ["X"])
        self.assertEqual((answer.text, answer.rows), ("sum", (Row({"X": Fraction(1)}, ">=", Fraction(1)),)))

    def test_lines_that_begin_with_a_mark_are_not_divided(self):
        answer = only("> the least X = 1\nY = 2\n;", ["X", "Y"])
        self.assertEqual((answer.text, answer.bindings), ("> the least X = 1\n", {"Y": 2}))

    def test_a_semicolon_that_ends_no_answer(self):
        answer = only("a\n;\nX = 1\n;", ["X"])
        self.assertEqual((answer.text, answer.bindings), ("a\n;\n", {"X": 1}))

    def test_an_end(self):
        for lines, rest, silent, end in [
            (["no", "no"], "", False, NoMore(0, "no\n")),
            (["ano"], "", False, NoMore(0, "a")),
            (["aerror: b"], "", False, Ball(0, "a", Atom("b"))),
            (["> no"], "", True, Done(0, "> no\n")),
            (["> no"], "", False, NoMore(0, "> ")),
            ([], "no", True, Done(0, "no")),
            ([], "", True, Done(0, "")),
        ]:
            with self.subTest(lines):
                reader = Reader(0, [])
                for line in lines:
                    reader.line(line)
                self.assertEqual(reader.end(rest, silent), end)


if __name__ == "__main__":
    unittest.main()
