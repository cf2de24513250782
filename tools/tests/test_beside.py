"""The program beside the reference program, which was written apart from it; and with each allocation refused. A part of what bench does, in the gate."""
import os
import re
import shutil
import subprocess
import sys
import unittest

from tests.making import MRT, TOOLS

ROOT = os.path.dirname(TOOLS)
# As many cases as two minutes of one processor allow, in so many parts side by side, each with a seed of its own.
PARTS, CASES = 4, 200


def started(*words: str) -> subprocess.Popen[str]:
    return subprocess.Popen(
        [sys.executable, "-m", *words], cwd=ROOT, stdout=subprocess.PIPE, stderr=subprocess.STDOUT, text=True
    )


@unittest.skipUnless(os.path.exists(MRT), "the program is not built")
class Beside(unittest.TestCase):
    def test_the_reference_program_answers_the_same(self) -> None:
        parts = [started("bench.measure.compare", MRT, str(CASES), str(seed)) for seed in range(1, PARTS + 1)]
        for part in parts:
            said, _ = part.communicate()
            self.assertRegex(said, rf"^{CASES} cases, 0 differ; by status: ")
            self.assertEqual(part.returncode, 0)

    @unittest.skipUnless(shutil.which("cc"), "needs a C compiler")
    def test_each_allocation_is_refused_in_turn(self) -> None:
        part = started("bench.measure.damage", "--memory")
        said, _ = part.communicate()
        refused, failing = said.splitlines()
        self.assertRegex(refused, r"^refused allocations: \d+ runs, 0 wrong; by status: ")
        self.assertRegex(failing, r"^failing outputs: \d+ runs, 0 wrong; by status: ")
        self.assertGreater(int(re.findall(r"\d+", refused)[0]), 500)
        self.assertEqual(part.returncode, 0)


if __name__ == "__main__":
    unittest.main()
