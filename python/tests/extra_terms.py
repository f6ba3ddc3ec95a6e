"""Terms there and back, as hypothesis makes them up."""

import unittest

from clpq import Atom, Struct
from clpq.reading import read
from clpq.terms import written
from clpq.tokens import LIMIT

try:
    from hypothesis import HealthCheck, given, settings, strategies
except ImportError as why:
    raise unittest.SkipTest("hypothesis is not there") from why

SIMPLE = strategies.one_of(
    strategies.integers(-LIMIT, LIMIT),
    strategies.fractions(max_denominator=10**6).map(lambda it: it.numerator if it.denominator == 1 else it),
    strategies.text(strategies.characters(blacklist_categories=["Cs"])).filter(lambda it: it != "[]").map(Atom),
)
NAMES = strategies.sampled_from(["f", "-", "+", "mod", "a b", ",", "{}", "\\+", ":-", "é"])
TERMS = strategies.recursive(
    SIMPLE,
    lambda inner: strategies.one_of(
        strategies.lists(inner, max_size=3),
        strategies.builds(lambda name, args: Struct(name, tuple(args)), NAMES, strategies.lists(inner, min_size=1, max_size=3)),
    ),
    max_leaves=8,
)


class ThereAndBack(unittest.TestCase):
    @settings(max_examples=300, deadline=None, database=None, suppress_health_check=list(HealthCheck))
    @given(TERMS)
    def test_terms(self, term):
        self.assertEqual(read(written(term)), term)
        self.assertEqual(read(written(term, 699), 699), term)


if __name__ == "__main__":
    unittest.main()
