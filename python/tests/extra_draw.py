"""Pictures: what is drawn where, and the command of the shell."""

import contextlib
import io
import pathlib
import tempfile
import unittest

import clpq
from clpq import Answer, read_transcript
from clpq.__main__ import main

from .around import EXAMPLES, PROGRAM

try:
    from matplotlib.figure import Figure
except ImportError as why:
    raise unittest.SkipTest("matplotlib is not there") from why

from clpq.draw import curve, draw, save


def answers(text):
    return [it for it in read_transcript(text + "no\n") if isinstance(it, Answer)]


def axes():
    return Figure().subplots()


def styles(drawn):
    """The style and the rounded ends of each line that isn't a dot."""
    return sorted((it.get_linestyle(), *sorted(zip(*it.get_data()))) for it in drawn.lines if it.get_marker() == "None")


def dots(drawn):
    """Each dot, and whether it is full."""
    return sorted((*map(float, (it.get_xdata()[0], it.get_ydata()[0])), it.get_markerfacecolor() != "white") for it in drawn.lines if it.get_marker() == "o")


class Drawn(unittest.TestCase):
    def test_sides(self):
        drawn = draw(answers("{X+Y=<4}\n{X>=0}\n{Y>0}\n{X-Y=\\=0}\n;\n"), "X", "Y", axes=axes())
        self.assertEqual(styles(drawn), [
            ("-", (0.0, 0.0), (0.0, 4.0)), ("-", (0.0, 4.0), (4.0, 0.0)), ("--", (0.0, 0.0), (4.0, 0.0)), (":", (0.0, 0.0), (2.0, 2.0)),
        ])  # fmt: skip
        self.assertEqual(dots(drawn), [(0.0, 0.0, False), (0.0, 4.0, True), (4.0, 0.0, False)])
        self.assertEqual(len(drawn.patches), 1)
        self.assertEqual((drawn.get_xlabel(), drawn.get_ylabel()), ("X", "Y"))

    def test_a_region_without_a_bound_fades(self):
        drawn = draw(answers("{X>=0}\n{Y>=0}\n;\n"), "X", "Y", axes=axes(), box=(-1, 5, -1, 5))
        self.assertGreater(len(drawn.patches), 3)
        widths = [max(it.get_xy()[:, 0]) for it in drawn.patches]
        self.assertEqual(widths, sorted(widths, reverse=True))
        self.assertEqual({it.get_alpha() for it in drawn.lines if it.get_linestyle() == "-" and it.get_alpha()}, {0.3})

    def test_several(self):
        drawn = draw(answers("X = 1\nY = 1\n;\n{X=Y}\n{Y>=2}\n{Y<3}\n;\n"), "X", "Y", axes=axes(), labels=["one", "two"])
        self.assertEqual(dots(drawn), [(1.0, 1.0, True), (2.0, 2.0, True), (3.0, 3.0, False)])
        self.assertEqual([it.get_text() for it in drawn.get_legend().get_texts()], ["one", "two"])

    def test_a_point_left_out_of_a_segment(self):
        drawn = draw(answers("{X=Y}\n{Y>=0}\n{Y=<2}\n{Y=\\=1}\n;\n"), "X", "Y", axes=axes())
        self.assertEqual(dots(drawn), [(0.0, 0.0, True), (1.0, 1.0, False), (2.0, 2.0, True)])

    def test_a_curve(self):
        drawn = curve(answers("{X=1r2*Y}\n{Y>=0}\n{Y=<2}\n;\n{X=Y-1}\n{Y>2}\n{Y=<3}\n;\n"), "X", "Y", axes=axes(), label="cost")
        self.assertEqual(styles(drawn), [("-", (0.0, 0.0), (1.0, 2.0)), ("-", (1.0, 2.0), (2.0, 3.0))])
        self.assertEqual(dots(drawn), [(0.0, 0.0, True), (1.0, 2.0, True), (2.0, 3.0, True)])
        self.assertEqual(len({it.get_color() for it in drawn.lines}), 1)
        with self.assertRaisesRegex(ValueError, "more than one value"):
            curve(answers("{X>=0}\n{Y>=X}\n;\n".replace("{Y>=X}", "{X-Y=<0}")), "X", "Y", axes=axes())

    def test_nothing_to_draw(self):
        for given in [[], answers("{X*Y=6}\n;\n")]:
            with self.assertRaises(ValueError):
                draw(given, "X", "Y", axes=axes())
        with self.assertRaises(ValueError):
            draw(answers("{X>=1}\n;\n"), "X", "Y", axes=axes(), box=(1, 1, 0, 1))

    def test_the_same_picture_is_the_same_file(self):
        with tempfile.TemporaryDirectory() as folder:
            files = [pathlib.Path(folder) / name for name in ("a.svg", "b.svg")]
            for it in files:
                save(draw(answers("{X>=0}\n{Y>=0}\n;\n"), "X", "Y", axes=axes()), it)
            self.assertEqual(files[0].read_bytes(), files[1].read_bytes())


class Command(unittest.TestCase):
    def run_it(self, *words):
        err = io.StringIO()
        with contextlib.redirect_stderr(err):
            status = main(["draw", *words, "--program", PROGRAM])
        return status, err.getvalue()

    def test_an_example(self):
        with tempfile.TemporaryDirectory() as folder:
            out = pathlib.Path(folder) / "out.svg"
            given = [str(EXAMPLES / "production.pl"), "-q", "plan(X, Y, _P)", "-x", "X", "-y", "Y", "-o", str(out)]
            self.assertEqual(self.run_it(*given), (0, ""))
            self.assertIn("<svg", out.read_text())

    def test_what_is_wrong(self):
        with tempfile.TemporaryDirectory() as folder:
            out = str(pathlib.Path(folder) / "out.svg")
            for query, said in [("{X*Y=6}", "what waits"), ("fail", "no answer"), ("foo(X,Y)", "no answer"), ("{X=Y} ; throw(b)", "error: b")]:
                status, err = self.run_it("-q", query, "-x", "X", "-y", "Y", "-o", out)
                self.assertEqual((status, said in err), (1, True), err)
            self.assertEqual(self.run_it("absent.pl", "-q", "a", "-x", "X", "-y", "Y", "-o", out), (1, "clpq draw: no file absent.pl\n"))


if __name__ == "__main__":
    unittest.main()
