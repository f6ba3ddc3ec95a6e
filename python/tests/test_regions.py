"""Regions in two variables: exact vertices, worked by hand."""

import unittest
from fractions import Fraction

from clpq import Answer, read_transcript
from clpq.regions import Line, Region, box_of, inner, region_of

F = Fraction


def region(lines, x="X", y="Y"):
    answers = [it for it in read_transcript(f"{lines}\n;\nno\n") if isinstance(it, Answer)]
    return region_of(answers[0], x, y)


class Vertices(unittest.TestCase):
    def test_a_triangle_with_a_strict_side(self):
        found = region("{X+Y=<4}\n{X>=0}\n{Y>0}")
        self.assertEqual(found.vertices(), [(0, 0), (0, 4), (4, 0)])
        self.assertEqual([found.holds(it) for it in found.vertices()], [False, True, False])
        self.assertEqual(box_of([found]), (F(-2, 5), F(22, 5), F(-2, 5), F(22, 5)))
        self.assertFalse(found.unbounded(box_of([found])))

    def test_the_other_variables_are_eliminated(self):
        # the plans of examples/production.pl: 2X+Y =< 100, X+3Y =< 91, X, Y >= 0, whose corners are those of the two hours
        plan = "{X= -4r3*Y+1r30*P}\n{Y+1r50*P=<273r5}\n{Y>=0}\n{Y-1r40*P=<0}\n{Y-1r25*P>= -60}"
        self.assertEqual(region(plan).vertices(), [(0, 0), (0, F(91, 3)), (F(209, 5), F(82, 5)), (50, 0)])
        # X =< Z =< Y and Z between 0 and 1: by Fourier-Motzkin X =< Y, X =< 1, Y >= 0
        found = region("{X-Z=<0}\n{Y-Z>=0}\n{Z>=0}\n{Z<1}")
        self.assertEqual({(it.a, it.b, it.relation, it.c) for it in found.lines}, {(1, -1, "=<", 0), (0, -1, "=<", 0), (1, 0, "<", 1)})
        self.assertEqual(found.vertices(), [(0, 0), (1, 1)])

    def test_values(self):
        self.assertEqual(region("X = 1r3\n{Y>=2}").vertices(), [(F(1, 3), 2)])
        self.assertEqual(region("Y = X\n{X>=2}\n{X=<3}").vertices(), [(2, 2), (3, 3)])
        self.assertEqual(region("X = 1\nY = 2").within((F(0), F(3), F(0), F(3))), [(1, 2)])

    def test_a_segment(self):
        found = region("{N=1r2*Cost}\n{Cost>=190}\n{Cost<200}", "N", "Cost")
        self.assertEqual([(it, found.holds(it)) for it in found.vertices()], [((95, 190), True), ((100, 200), False)])
        self.assertEqual(sorted(found.within(box_of([found]))), [(95, 190), (100, 200)])

    def test_no_bound(self):
        quadrant = region("{X>=1}\n{Y>=2}")
        self.assertEqual(quadrant.vertices(), [(1, 2)])
        box = box_of([quadrant])
        self.assertTrue(quadrant.unbounded(box))
        self.assertEqual(sorted(quadrant.within((F(0), F(3), F(0), F(3)))), [(1, 2), (1, 3), (3, 2), (3, 3)])
        strip = region("{X-Y>=0}\n{X-Y=<2}")
        self.assertEqual(strip.vertices(), [])
        self.assertTrue(strip.unbounded(box_of([strip])))
        self.assertEqual(len(region("true").within((F(0), F(1), F(0), F(1)))), 4)

    def test_disequations_leave_the_closure(self):
        found = region("{X>=0}\n{X=<1}\n{Y>=0}\n{Y=<1}\n{X-Y=\\=0}")
        self.assertEqual(found.vertices(), [(0, 0), (0, 1), (1, 0), (1, 1)])
        self.assertEqual([found.holds(it) for it in found.vertices()], [False, True, True, False])
        excluded = next(it for it in found.lines if it.relation == "=\\=")
        self.assertEqual(sorted(found.side(excluded, box_of([found]))), [(0, 0), (1, 1)])

    def test_sides(self):
        found = region("{X+Y=<4}\n{X>=0}\n{Y>=0}")
        side = Line(F(1), F(1), "=<", F(4))
        self.assertEqual(sorted(found.side(side, box_of([found]))), [(0, 4), (4, 0)])
        self.assertEqual(found.side(Line(F(1), F(1), "=<", F(5)), box_of([found])), [])
        self.assertEqual(found.side(Line(F(1), F(1), "=<", F(0)), box_of([found])), [(0, 0)])

    def test_what_has_no_region(self):
        for lines in ["{X*Y=6}", "freeze(X,foo)", "X = a", "{X>=Z}\n{X-Z=\\=1}", "Y = [X]"]:
            with self.subTest(lines), self.assertRaises(ValueError):
                region(lines)
        with self.assertRaises(ValueError):
            region("{X>=1}", "X", "X")

    def test_a_corner_that_only_touches(self):
        # by hand: the half-planes meet in one point
        self.assertEqual(region("{X+Y>=2}\n{X=<1}\n{Y=<1}").within((F(0), F(3), F(0), F(3))), [(1, 1)])

    def test_boxes(self):
        self.assertEqual(inner((F(0), F(6), F(0), F(12)), F(1, 6)), (1, 5, 2, 10))
        self.assertEqual(Region(()).vertices(), [])


if __name__ == "__main__":
    unittest.main()
