"""The types that the tools' Python tells are those that it has, by Debian's mypy."""
import os
import shutil
import subprocess
import unittest

from tests.making import TOOLS

MYPY = "/usr/bin/mypy"


def scripts() -> list[str]:
    """The tools themselves, whose names have no ending."""
    found = []
    for name in sorted(os.listdir(TOOLS)):
        path = os.path.join(TOOLS, name)
        if os.path.isfile(path):
            with open(path, "rb") as file:
                found += [name] if file.readline() == b"#!/usr/bin/python3\n" else []
    return found


@unittest.skipUnless(shutil.which(MYPY), "types are not looked at: Debian's mypy is not installed")
class Types(unittest.TestCase):
    def test_there_is_no_error(self) -> None:
        words = [MYPY, "--config-file", "mypy.ini", "--cache-dir", os.devnull, *scripts(), "mrttools", "tests"]
        done = subprocess.run(words, cwd=TOOLS, capture_output=True, text=True, check=False)
        self.assertEqual((done.returncode, done.stderr), (0, ""), done.stdout)

    def test_the_scripts_are_looked_at(self) -> None:
        self.assertLess({"agent", "deep", "fib", "lab", "lsdb-from-pcap", "report"}, set(scripts()))


if __name__ == "__main__":
    unittest.main()
