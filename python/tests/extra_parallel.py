"""GNU parallel gives each of its runs some of the queries: together they write what one run writes."""

import pathlib
import shutil
import subprocess
import tempfile
import unittest

from .around import EXAMPLES, PROGRAM


@unittest.skipUnless(shutil.which("parallel"), "GNU parallel is not there")
class Parallel(unittest.TestCase):
    def both(self, text, *words):
        """What parallel writes and its status, and what one run writes and its status."""
        parts = ["parallel", "--will-cite", "--pipe", "--keep-order", *words, PROGRAM, "run", str(EXAMPLES / "loan.pl")]
        with tempfile.TemporaryDirectory() as home:
            around = {"HOME": home, "PATH": "/usr/bin:/bin", "PARALLEL_HOME": str(pathlib.Path(home))}
            together = subprocess.run(parts, input=text.encode(), capture_output=True, env=around, cwd=home)
        alone = subprocess.run([PROGRAM, "run", str(EXAMPLES / "loan.pl")], input=text.encode(), capture_output=True)
        return together.stdout, together.returncode, alone.stdout, alone.returncode

    def test_queries(self):
        text = "".join(f"?- mg({n}, 3, 1r100, 0, M).\n" for n in range(1, 41))
        together, status, alone, one = self.both(text, "-N", "10")
        self.assertEqual((together, status, one), (alone, 0, 0))

    def test_the_status_counts_the_runs_that_had_errors(self):
        text = "?- true.\n?- throw(a).\n?- throw(b).\n?- true.\n?- true.\n?- throw(c).\n"
        together, status, alone, one = self.both(text, "-N", "2")
        self.assertEqual((together, status, one), (alone, 3, 1))

    def test_a_directive_is_known_to_its_own_run_alone(self):
        text = ":- dynamic p/1.\n?- p(X).\n?- p(X).\n?- true.\n"
        together, status, alone, _ = self.both(text, "-N", "2")
        self.assertEqual(alone, b"no\nno\ntrue\n;\nno\n")
        self.assertEqual((together, status), (b"no\nerror: error(existence_error(procedure,p/1),p/1)\ntrue\n;\nno\n", 1))


if __name__ == "__main__":
    unittest.main()
