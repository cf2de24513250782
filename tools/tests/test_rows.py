"""The rows of crates/*_tests: the files that they read lie as they are told, and most answers are those of the reference program."""
import pathlib
import subprocess
import sys
import unittest

ROOT = pathlib.Path(__file__).resolve().parent.parent.parent


class RowsTest(unittest.TestCase):
    def check(self, name):
        words = [sys.executable, "-B", "-m", f"bench.rows.{name}", "--check"]
        done = subprocess.run(words, cwd=ROOT, capture_output=True, text=True)
        self.assertEqual((done.returncode, done.stderr), (0, ""), done.stdout)
        return done.stdout

    def test_files_lie_as_they_are_told(self):
        for name in ("graph_files", "area_files"):
            with self.subTest(name):
                self.check(name)

    def test_answers_are_those_of_the_reference_program(self):
        self.assertIn("area_tests: 210 rows, 98 computed, 0 wrong\n", self.check("area_rows"))
        self.assertIn("graph_tests: 401 rows, 279 computed, 0 wrong\n", self.check("graph_rows"))
        self.assertIn("cmd_tests: 461 rows, 445 computed, 0 wrong\n", self.check("cmd_rows"))


if __name__ == "__main__":
    unittest.main()
