"""The pages: what their commands print, how long they are, and what is made of them."""
import glob
import os
import re
import shutil
import subprocess
import tempfile
import unittest
from typing import ClassVar

from mrttools.repository import transcripts
from tests.making import MRT, TOOLS

ROOT = os.path.dirname(TOOLS)
DATA = os.path.join("crates", "mrt", "data")
WORDS = {"README.md": 2000, "docs/AUDIT.md": 1750, "docs/OPERATORS.md": 4000}
NARROW = ["README.md", "docs/COMMANDS.md", "docs/AUDIT.md", "docs/DECISIONS.md"]
ALL_WORDS = 25000
MADE = {"docs/CLAUSES.md", "docs/DEFINITIONS.md"}


def read(name: str) -> str:
    with open(os.path.join(ROOT, name), encoding="utf-8") as file:
        return file.read()


def pages() -> list[str]:
    names = os.listdir(ROOT) + [os.path.join("docs", name) for name in os.listdir(os.path.join(ROOT, "docs"))]
    return sorted(name for name in names if name.endswith(".md"))


def anchors(page: str) -> list[str]:
    """What the headings of a page are named by in links."""
    headings = re.findall(r"^#+ (.*)$", page, re.MULTILINE)
    return [re.sub(r"[^\w -]", "", heading).lower().replace(" ", "-") for heading in headings]


def done(*words: str, folder: str = ROOT) -> subprocess.CompletedProcess[str]:
    return subprocess.run(words, cwd=folder, capture_output=True, text=True, check=False)


class Transcripts(unittest.TestCase):
    """How commands are found on a page, and run."""

    def run_page(self, page: str) -> str:
        found = transcripts.transcripts(page)
        with tempfile.TemporaryDirectory() as folder:
            printed = [pair for commands in found for pair in zip(commands, transcripts.outputs(commands, folder))]
        return transcripts.mended(page, printed)

    def test_commands_with_their_output(self) -> None:
        (commands,) = transcripts.transcripts("Text\n\n    $ one \\\n    > two\n    a\n     b\n    $ three\n\nText\n")
        said = [(command.first, command.last, command.text, command.output) for command in commands]
        self.assertEqual(said, [(3, 4, "one two", ["a", " b"]), (7, 7, "three", [])])

    def test_a_block_without_a_prompt_is_none(self) -> None:
        self.assertEqual(transcripts.transcripts("    mrt check\n    three\n"), [])

    def test_a_page_that_is_right_stays(self) -> None:
        page = "    $ echo a; echo b >&2\n    a\n    b\n    $ false\n    $ echo $?\n    1\n\nText\n\n    $ printf c\n    c\n"
        self.assertEqual(self.run_page(page), page)

    def test_what_is_wrong_is_mended(self) -> None:
        page = "    $ echo a; echo b\n    c\n    $ echo d\n\nText\n"
        self.assertEqual(self.run_page(page), "    $ echo a; echo b\n    a\n    b\n    $ echo d\n    d\n\nText\n")

    def test_what_is_not_run(self) -> None:
        for text in ("./mrt --look check a b c", "rt ci", "cd x && rt check", "tools/lab bird", "cat /tmp/lab/x"):
            self.assertIsNotNone(transcripts.why_not_run([transcripts.Command(1, 1, text)]), text)
        self.assertIsNone(transcripts.why_not_run([transcripts.Command(1, 1, "./mrt check a b c")]))


class Lengths(unittest.TestCase):
    def test_words(self) -> None:
        for name, most in WORDS.items():
            self.assertLessEqual(len(read(name).split()), most, name)

    def test_words_of_all_that_are_not_made(self) -> None:
        self.assertLessEqual(sum(len(read(name).split()) for name in pages() if name not in MADE), ALL_WORDS)

    def test_columns(self) -> None:
        for name in NARROW:
            for number, line in enumerate(read(name).split("\n"), 1):
                self.assertLessEqual(len(line), 120, f"{name}:{number}")

    def test_links_lead_somewhere(self) -> None:
        for name in pages():
            for target, heading in re.findall(r"\]\(([^)#:]*)(#[^)]*)?\)", read(name)):
                place = os.path.join(os.path.dirname(name), target) if target else name
                self.assertTrue(os.path.exists(os.path.join(ROOT, place)), f"{name}: {target}")
                if heading:
                    self.assertIn(heading[1:], anchors(read(place)), name)


class Commands(unittest.TestCase):
    """What is made of docs/COMMANDS.md, and what answers from it."""

    SYNOPSIS: ClassVar[str] = read("docs/COMMANDS.md").split("\n## ")[2]
    FORMS: ClassVar[list[str]] = re.findall(r"^    mrt (\w+)", SYNOPSIS, re.MULTILINE)

    def test_each_form_of_the_program_has_its_section(self) -> None:
        usage = re.search(r'mrt: usage: (.*)\\n"', read("crates/mrt_exit/src/exit.rt"))
        assert usage is not None
        self.assertEqual(sorted(self.FORMS), sorted(words.split()[0] for words in usage[1].split(", ")))
        for form in self.FORMS:
            told = done("./mrt", "help", form)
            self.assertEqual((told.returncode, told.stderr), (0, ""))
            self.assertTrue(told.stdout.startswith(f"mrt {form} "), told.stdout)
            self.assertRegex(told.stdout, r"\nStatuses: 0(, 1)?, 2, ")
            self.assertIn("\nCost: ", told.stdout)

    def test_each_status_is_told(self) -> None:
        statuses = set(re.findall(r"Exit::\w+[^=\n]*=> (\d+),", read("crates/mrt_exit/src/exit.rt")))
        self.assertEqual(len(statuses), 14)
        told = done("./mrt", "help", "status")
        self.assertEqual(set(re.findall(r"^- (\d+)", told.stdout, re.MULTILINE)), statuses | {"70"})

    def test_help(self) -> None:
        for words in (["--help"], ["-h"], ["help"]):
            told = done("./mrt", *words)
            self.assertEqual((told.returncode, told.stderr), (0, ""))
            self.assertEqual(re.findall(r"^    mrt (\w+)", told.stdout, re.MULTILINE), self.FORMS)

    def test_help_on_no_form(self) -> None:
        told = done("./mrt", "help", "certified")
        self.assertEqual((told.returncode, told.stdout, told.stderr), (2, "", "mrt: no form: certified\n"))

    def test_version(self) -> None:
        told = done("./mrt", "--version")
        self.assertEqual((told.returncode, told.stderr), (0, ""))
        self.assertRegex(told.stdout, r"^Semborui \d+\.\d")

    @unittest.skipUnless(shutil.which("pandoc"), "needs pandoc")
    def test_the_manual_is_as_made(self) -> None:
        told = done("tools/manual", "--check")
        self.assertEqual((told.returncode, told.stderr), (0, ""))


class Names(unittest.TestCase):
    """What the pages name stands in the sources."""

    def setUp(self) -> None:
        files = glob.glob("crates/*/src/**/*.rt", root_dir=ROOT, recursive=True)
        self.sources = {name: read(name) for name in files}

        found = re.compile(r"\b(?:fn|struct|enum|trait|ensures) (\w+)")
        self.names = {name for text in self.sources.values() for name in found.findall(text)}

    def stands(self, name: str) -> bool:
        return name.split("::")[-1] in self.names

    def test_what_is_proved(self) -> None:
        section = read("README.md").split("\n## What is proved\n")[1].split("**Only tested:**")[0]
        names = set(re.findall(r"`((?:\w+::)*\w+)`", section)) - {"certify", "check"}
        self.assertGreater(len(names), 30)
        self.assertEqual([name for name in sorted(names) if not self.stands(name)], [])

    def test_laws(self) -> None:
        section = read("docs/AUDIT.md").split("\n## Laws that tell a definition another way\n")[1].split("\n## ")[0]
        laws = re.findall(r"^\|[^|]*\| `(\w+)` \|", section, re.MULTILINE)
        self.assertGreater(len(laws), 10)
        self.assertEqual([law for law in laws if not self.stands(law)], [])

    def test_wrong_lines_to_try_are_edits(self) -> None:
        section = read("docs/AUDIT.md").split("\n## Five things to try\n")[1]
        items = re.split(r"^\d\. ", section.split("\nTo check one function")[0], flags=re.MULTILINE)[1:]
        self.assertEqual(len(items), 5)
        for item in items:
            file, *spans = re.findall(r"`([^`]{13,})`", item)
            crate, _, place = file.removeprefix("crates/").partition("/")
            edits = [
                read(it)
                for part in (f"crates/{crate}/must-fail/*", f"edits/{crate}/*")
                for it in glob.glob(part, root_dir=ROOT)
            ]
            said = [
                edit
                for edit in edits
                if f"file: {place}\n" in edit and any(span in edit.split("new: ")[1] for span in spans)
            ]
            self.assertEqual(len(said), 1, item)
            old = re.search(r"^old: (.*)$", said[0], re.MULTILINE)
            assert old is not None
            self.assertEqual(self.sources[file].count(old[1]), 1, item)


class Map(unittest.TestCase):
    """Its table has each crate, and the files that test it."""

    ROWS: ClassVar[list[tuple[str, str]]] = re.findall(
        r"^\| [a-z ]+ \| `(\w+)` \|.*\|([^|]*)\|$", read("docs/MAP.md"), re.MULTILINE
    )

    def test_each_crate_has_a_row(self) -> None:
        crates = re.findall(r"^(\w+)[^:#]*:", read("crates.txt"), re.MULTILINE)
        self.assertEqual(sorted(crate for crate, _ in self.ROWS), sorted(crates))

    def test_its_tests_are_there(self) -> None:
        for crate, tests in self.ROWS:
            folder = f"crates/{crate}"
            for name in re.findall(r"`([^`]+)`", tests):
                places = [os.path.join(folder, name), name, os.path.join("crates", name)]
                found = [place for place in places if os.path.exists(os.path.join(ROOT, place))]
                self.assertNotEqual(found, [], f"{crate}: {name}")
                folder = os.path.dirname(found[0])
            self.assertTrue(tests.strip() or crate == "parts_of_tests", crate)


class Completion(unittest.TestCase):
    def completed(self, *words: str, folder: str = ROOT) -> set[str]:
        script = '. "$0"; COMP_WORDS=("$@") COMP_CWORD=$(($# - 1)); _mrt; printf "%s\\n" "${COMPREPLY[@]}"'
        told = done("/bin/bash", "-c", script, os.path.join(TOOLS, "completion.bash"), *words, folder=folder)
        self.assertEqual(told.stderr, "")
        return set(told.stdout.split())

    def test_forms(self) -> None:
        self.assertEqual(self.completed("mrt", "c"), {"certify", "check"})
        self.assertLessEqual(set(Commands.FORMS), self.completed("mrt", ""))
        self.assertEqual(self.completed("mrt", "--look", "ta"), {"table"})

    def test_files(self) -> None:
        self.assertEqual(
            self.completed("mrt", "check", "triangle.l", folder=os.path.join(ROOT, DATA)), {"triangle.lsas"}
        )

    def test_routers_of_the_database(self) -> None:
        triangle, lan = os.path.join(DATA, "triangle.lsas"), os.path.join(DATA, "lan.lsas")
        self.assertEqual(self.completed("mrt", "lfa", triangle, ""), {"1.1.1.1", "2.2.2.2", "3.3.3.3"})
        self.assertEqual(self.completed("mrt", "trace", triangle, "-", "1.1.1.1", "2"), {"2.2.2.2"})
        routers = {f"10.255.1.{number}" for number in range(1, 7)}
        self.assertEqual(self.completed("mrt", "proxy", lan, "-", "10.255.1.1", "10.255.1.2", ""), routers)

    def test_what_has_no_choices(self) -> None:
        for words in (
            ["survey", ""],
            ["table", "README.md", "-", ""],
            ["table", "$(exit)", "-", ""],
            ["none", "a", ""],
        ):
            self.assertEqual(self.completed("mrt", *words), set(), words)


# (where it is not, the first command of a page would build it)
IS_BUILT = os.path.exists(MRT) and "sources here are others" not in done("./mrt", "--version").stdout


@unittest.skipUnless(IS_BUILT, "the program is not built from these sources")
class Pages(unittest.TestCase):
    def test_commands_print_what_the_pages_say(self) -> None:
        told = done("tools/pages")
        self.assertEqual((told.returncode, told.stdout, told.stderr), (0, "", ""))


if __name__ == "__main__":
    unittest.main()
