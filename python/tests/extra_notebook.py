"""The notebook of the examples runs, and shows tables and pictures."""

import json
import os
import pathlib
import shutil
import subprocess
import sys
import tempfile
import unittest

from clpq import read_transcript
from clpq.notebook import Answers, asked

from .around import EXAMPLES, PROGRAM, TOP

try:
    import ipykernel  # noqa: F401
    import matplotlib  # noqa: F401
    import nbconvert  # noqa: F401
except ImportError as why:
    raise unittest.SkipTest("nbconvert, ipykernel or matplotlib is not there") from why


class Shown(unittest.TestCase):
    def test_tables(self):
        for transcript, html in [
            ("X = 'a<b'\n{Y>=1}\n;\nno\n", "<table><tr><th>query</th><th>X</th><th>where</th></tr><tr><td>0</td><td>a&lt;b</td><td>{Y&gt;=1}</td></tr></table>"),
            ("no\n", "<p>no</p>"),
            ("true\n;\nno\n", "<p>yes</p>"),
            ("error: f\n", "<p>query 0: <code>error: f</code></p>"),
        ]:
            with self.subTest(transcript):
                shown = Answers([*read_transcript(transcript)])
                self.assertEqual(shown._repr_html_(), html)
                self.assertEqual(repr(shown), transcript)

    def test_the_line_of_a_cell(self):
        shown = asked(f"--program '{PROGRAM}' --answers 1 --draw X Y", "?- {X>=0, X=<1, Y>=0, Y=<X}.\n?- X = Y ; true.\n")
        self.assertEqual([type(it).__name__ for it in shown.items], ["Answer", "More", "Answer", "More"])
        self.assertIn("<svg", shown._repr_html_())


class Notebook(unittest.TestCase):
    def test_the_example(self):
        with tempfile.TemporaryDirectory() as folder:
            there = pathlib.Path(folder)
            for name in ("production.ipynb", "production.pl"):
                shutil.copy(EXAMPLES / name, there)
            (there / "clpq").symlink_to(pathlib.Path(PROGRAM).resolve())
            around = {**os.environ, "HOME": folder, "PATH": f"{folder}:{os.environ['PATH']}", "PYTHONPATH": str(TOP / "python")}
            command = [sys.executable, "-m", "nbconvert", "--to", "notebook", "--execute", "--output", "out.ipynb", "production.ipynb"]
            done = subprocess.run(command, cwd=folder, env=around, capture_output=True, text=True)
            self.assertEqual(done.returncode, 0, done.stderr)
            cells = json.loads((there / "out.ipynb").read_text())["cells"]
        shown = ["".join("".join(it.get("data", {}).get("text/html", "")) for it in cell.get("outputs", [])) for cell in cells]
        pictures = [it for it in shown if "<svg" in it]
        self.assertEqual(len(pictures), 2)
        # by hand: the best plan is where both hours are used up
        self.assertTrue(any("<td>209/5</td><td>82/5</td><td>1910</td>" in it for it in shown), shown)


if __name__ == "__main__":
    unittest.main()
