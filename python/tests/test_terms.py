"""Terms and their texts: by the rules of the reference, there and back, and through the program."""

import json
import random
import string
import unittest
from fractions import Fraction

import clpq
from clpq import Answer, Atom, Struct, Unread, Var
from clpq.reading import NotRead, read, read_or_keep
from clpq.terms import written
from clpq.tokens import LIMIT, TokenFault, named_variables, pieces, tokens

from .around import PROGRAM, TOP

a, b, x = Atom("a"), Atom("b"), Var("X")
NAMES = ["a", "foo", "is", "mod", "-", "+", "\\+", ":-", "dynamic", "[]", "{}", ",", "|", "!", ";", ".", "/*", "it's", "a b", "\n", "\\", "é", "É", "", "\x00",
         "\x85", "\u2028", "'", '"', "%", "0", "_", "A", "*", "=", "->", "^", "{", "\U0001f600"]  # fmt: skip


def random_term(draw, depth):
    kind = draw(7 if depth else 4)
    if kind == 0:
        return draw(2 * LIMIT + 1) - LIMIT if draw(2) else draw(7) - 3
    if kind == 1:
        value = Fraction(draw(200) - 100, draw(50) + 1)
        return value.numerator if value.denominator == 1 else value
    if kind in (2, 6):
        name = NAMES[draw(len(NAMES))]
        return [] if name == "[]" else Atom(name)
    if kind == 3:
        return Var("VWXYZ"[draw(5)])
    if kind == 4:
        return [random_term(draw, depth - 1) for _ in range(draw(4))]
    name, args = NAMES[draw(len(NAMES))], tuple(random_term(draw, depth - 1) for _ in range(draw(3) + 1))
    return [args[0], *args[1]] if name == "." and len(args) == 2 and isinstance(args[1], list) else Struct(name, args)


class Texts(unittest.TestCase):
    # each text by the rules for `writeq`, of which the program's own texts are an instance
    PAIRS = [
        ("-(1)", Struct("-", (1,))),
        ("-1", -1),
        ("- 1^2", Struct("-", (Struct("^", (1, 2)),))),
        ("(-(1))^2", Struct("^", (Struct("-", (1,)), 2))),
        ("- -(1)", Struct("-", (Struct("-", (1,)),))),
        ("+ (-1)", Struct("+", (-1,))),
        ("1-(-1)", Struct("-", (1, -1))),
        ("- (-)", Struct("-", (Atom("-"),))),
        ("(is)/2", Struct("/", (Atom("is"), 2))),
        ("(',')/2", Struct("/", (Atom(","), 2))),
        ("7 mod 2", Struct("mod", (7, 2))),
        ("1-(2-3)", Struct("-", (1, Struct("-", (2, 3))))),
        ("1-2-3", Struct("-", (Struct("-", (1, 2)), 3))),
        ("2^3^4", Struct("^", (2, Struct("^", (3, 4))))),
        ("\\+ (a,b)", Struct("\\+", (Struct(",", (a, b)),))),
        ("f((a,b),(a:-b),-)", Struct("f", (Struct(",", (a, b)), Struct(":-", (a, b)), Atom("-")))),
        ("{X>=1,a}", Struct("{}", (Struct(",", (Struct(">=", (x, 1)), a)),))),
        ("[a,[],{}|X]", Struct(".", (a, Struct(".", ([], Struct(".", (Atom("{}"), x))))))),
        ("a:-b", Struct(":-", (a, b))),
        ("'.'(a)", Struct(".", (a,))),
        (";(a)", Struct(";", (a,))),
        ("'it\\'s'", Atom("it's")),
        ("'\\n\\t\\xd\\\\x7f\\'", Atom("\n\t\r\x7f")),
        ("'/*'", Atom("/*")),
        ("X= -Y", Struct("=", (x, Struct("-", (Var("Y"),))))),
        ("1r3", Fraction(1, 3)),
    ]

    def test_by_rule(self):
        for text, term in self.PAIRS:
            with self.subTest(text):
                self.assertEqual(read(text), term)
                self.assertEqual(written(term), text)

    def test_a_binding(self):
        self.assertEqual(written(Struct(":-", (a, b)), 699), "(a:-b)")
        self.assertEqual(read("(a:-b)", 699), Struct(":-", (a, b)))

    def test_what_is_no_text_of_the_writer_is_not_read(self):
        for text in ["a  b", "a===>b", "f(", "f(a))", "2r4", "007", "a - b", "f(a , b)", "(a)", "-0", "'a'", "[a|[b]]", "\"a\"", "a.", ""]:
            with self.subTest(text), self.assertRaises(NotRead):
                read(text)
        self.assertEqual(read_or_keep("a===>b"), Unread("a===>b"))

    def test_there_and_back(self):
        chance = random.Random(7)
        for _ in range(1500):
            term = random_term(chance.randrange, 4)
            self.assertEqual(read(written(term)), term, written(term))

    def test_depth(self):
        for text in ["f(" * 5_000 + "x" + ")" * 5_000, ",".join(["a"] * 5_000), "-".join(["1"] * 5_000), "[" * 5_000 + "]" * 5_000]:
            self.assertEqual(written(read(text)), text)
            self.assertTrue(isinstance(read(text), list) or read(text) == read(text))

    def test_terms_differ(self):
        self.assertNotEqual(Struct("f", (a, b)), Struct("f", (b, a)))
        self.assertNotEqual(Struct("f", ([a],)), Struct("f", ([a, b],)))
        self.assertNotEqual(Struct("f", (a,)), Struct("f", (x,)))
        self.assertEqual(hash(Struct("f", ([a],))), hash(Struct("f", ([a],))))


class Tokens(unittest.TestCase):
    def test_queries_are_cut_at_their_ends(self):
        text = "?- X = 'a. b'. % c. d\n?- X = 0'. , Y = \".\". p(X) :- q. /* . */ r"
        self.assertEqual([it.text for it in pieces(text)], ["?- X = 'a. b'.", " % c. d\n?- X = 0'. , Y = \".\".", " p(X) :- q.", " /* . */ r"])
        self.assertEqual([it.ended for it in pieces(text)], [True, True, True, False])
        self.assertEqual([*pieces(" % only a comment")], [])

    def test_faults_stand_where_the_program_says(self):
        # the worked rows say the byte
        tried = 0
        for row in json.loads((TOP / ".ci/rows.json").read_text()):
            found = [*pieces(row["input"])]
            if row["words"] != ["run"] or not found or found[0].fault is None:
                continue
            tried += 1
            at = len(row["input"][: found[0].fault].encode("utf-8", "surrogateescape"))
            self.assertTrue(row["out"].startswith(f"error: syntax {at}\n"), row)
        self.assertGreater(tried, 3)

    def test_faults(self):
        for text, at in [("'a", 2), ("'a\nb'", 2), ("a /* b", 6), ("1.5", 1), ("1r0", 0), ("'\\q'", 2), ("'\\xd800\\'", 1), ("`a`", 0), ("\x00", 0),
                         (str(LIMIT + 1), 0), (f"1r{LIMIT + 1}", 0), ("0x" + "f" * 40, 0)]:  # fmt: skip
            with self.subTest(text), self.assertRaises(TokenFault) as caught:
                [*tokens(text)]
            self.assertEqual(caught.exception.at, at)

    def test_values(self):
        values = [it.value for it in tokens("0x1F 0o17 0b11 0'a 0'\\n 0''' 2r4 6r3 '\\x41\\\\101\\' 'it''s' \"a\"\"b\" 'a\\\nb' 1r")]
        self.assertEqual(values[:7], [31, 15, 3, 97, 10, 39, Fraction(1, 2)])
        self.assertEqual(values[7:], [2, "AA", "it's", 'a"b', "ab", 1, "r"])

    def test_named_variables(self):
        self.assertEqual(named_variables("?- p(X, _, _Y, Z, X), \"A\", 'B', Ähm = Éa. "), ("X", "Z"))


class ThroughTheProgram(unittest.TestCase):
    """The program reads what is quoted and writes what is read: the value is the same."""

    def back(self, terms):
        """What the program answers for each of the terms."""
        queries = [f"X_ = {clpq.term(it)}" for it in terms]
        items = [it for it in clpq.ask([], queries, program=PROGRAM)]
        answers = {it.query: it for it in items if isinstance(it, Answer)}
        self.assertEqual(len(answers), len(queries), [it for it in items if not isinstance(it, (Answer, clpq.NoMore))])
        return [answers[number].bindings["X_"] for number in range(len(queries))]

    def test_random_terms(self):
        chance = random.Random(11)
        ground = []
        while len(ground) < 60:
            term = random_term(chance.randrange, 3)
            if "Var(" not in repr(term):
                ground.append(term)
        self.assertEqual(self.back(ground), ground)

    def test_random_names(self):
        chance = random.Random(13)
        signs = string.printable + "éÉ\u00a0\u2028\u0301\U0001f600\x00\x7f\x9f"
        names = ["".join(chance.choice(signs) for _ in range(chance.randrange(1, 9))) for _ in range(60)]
        self.assertEqual(self.back(names), [[] if it == "[]" else Atom(it) for it in names])


if __name__ == "__main__":
    unittest.main()
