"""The exit statuses of each form are those that its section of the manual page lists."""
import os
import re
import subprocess
import tempfile
import unittest

from tests.making import DATA, MRT, TOOLS, found

# The words of each form, by what they are.
FORMS = {
    "certify": "db profile router",
    "check": "db profile cert",
    "table": "db profile router",
    "trace": "db profile router node entry",
    "fabric": "db profile events",
    "lfa": "db router",
    "order": "db profile router",
    "proxy": "db profile router a b",
    "upgrade": "db profile cert",
    "flood": "updates profile deliveries",
    "survey": "number nodes",
}
GOOD = {
    "router": "1.1.1.1",
    "node": "2.2.2.2",
    "entry": "repair",
    "a": "1.1.1.1",
    "b": "2.2.2.2",
    "number": "7",
    "nodes": "20",
}
WRONG = {
    "router": ["x", "9.9.9.9"],
    "node": ["net:x"],
    "entry": ["green"],
    "a": ["9.9.9.9"],
    "b": ["1.1.1.1"],
    "number": ["-1"],
    "nodes": ["3"],
}
# 6 takes large files, and so time; 10 is want of memory, which no word brings about.
NOT_TRIED = {6, 10}
PROFILES = {
    "root": "priority 1.1.1.1 1",
    "line": "ineligible 1.1.1.1 0.0.0.2",
    "one": "no-mrt 1.1.1.1",
    "three": "no-mrt 3.3.3.3",
}


def listed(form: str) -> set[int]:
    """The statuses that the page lists for a form."""
    with open(os.path.join(os.path.dirname(TOOLS), "docs", "COMMANDS.md"), encoding="utf-8") as file:
        section = file.read().split(f"\n### {form}\n")[1].split("\n##")[0]
    return {int(status) for status in re.findall(r"\d+", found(r"\nStatuses: ([\d, ]+)", section)[1])}


def status(words: list[str], output: str = "/dev/null") -> int:
    with open(output, "wb") as out:
        return subprocess.run([MRT, *words], stdout=out, stderr=subprocess.DEVNULL, check=False).returncode


@unittest.skipUnless(os.path.exists(MRT), "the program is not built")
class Statuses(unittest.TestCase):
    def setUp(self) -> None:
        folder = tempfile.TemporaryDirectory()
        self.addCleanup(folder.cleanup)
        self.folder = folder.name
        self.good = dict(GOOD, profile=self.write("good.profile", b"priority 3.3.3.3 1\n"))
        self.good["db"] = os.path.join(DATA, "triangle.lsas")
        self.good["updates"] = os.path.join(DATA, "triangle.updates")
        self.good["deliveries"] = os.path.join(DATA, "triangle.deliveries")
        self.good["events"] = self.write("good.events", b"island 1.1.1.1 1\ninject 1.1.1.1 2.2.2.2 blue\n")
        words = ["certify", self.good["db"], self.good["profile"], "1.1.1.1"]
        self.good["cert"] = self.write("good.cert", subprocess.run([MRT, *words], stdout=-1, check=True).stdout)
        self.other = {kind: list(words) for kind, words in WRONG.items()}
        for kind in ("db", "profile", "cert", "events", "deliveries", "updates"):
            damaged = self.write(f"damaged.{kind}", b"no such thing\n")
            self.other[kind] = [damaged, os.path.join(self.folder, "none"), ""]
        self.other["profile"] += [self.write(name, line.encode()) for name, line in PROFILES.items()]

    def write(self, name: str, data: bytes) -> str:
        place = os.path.join(self.folder, name)
        with open(place, "wb") as file:
            file.write(data)
        return place

    def statuses(self, form: str) -> set[int]:
        """The statuses of the words of a form, with no or one of them made wrong, and with a full disk."""
        kinds = FORMS[form].split()
        good = [self.good[kind] for kind in kinds]
        found = {status([form, *good]), status([form, *good], "/dev/full")}
        for place, kind in enumerate(kinds):
            for word in self.other[kind]:
                found.add(status([form, *good[:place], word, *good[place + 1 :]]))
        return found

    def test_each_form(self) -> None:
        for form in FORMS:
            with self.subTest(form=form):
                found = self.statuses(form)
                self.assertLessEqual(found, listed(form))
                self.assertEqual(listed(form) - found - NOT_TRIED, set())
