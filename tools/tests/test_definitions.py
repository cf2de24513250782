"""The chain of definitions that tools/audit counts."""
import os
import re
import subprocess
import tempfile
import unittest

from mrttools.repository.definitions import Library, Missing, Name, uses
from tests.making import TOOLS

GROUND = """-- What is below.
use Rattle.std.specs.Prelude.{ℕ, List}
use Rattle.one.specs.declared.shape.Shape.{Shape}
use Rattle.one.specs.declared.shape.Shape.TheVariants as shapes

-- a comment
abbrev pub low : ℕ → ℕ
low zero = zero

low (suc n) = low n

-- another
pub record Pair (n : ℕ) : Type 0 where
  pub first : ℕ
  -- a comment
  pub shape : Shape

infixr 20 ◌▸◌

-- a comment
abbrev pub ◌▸◌ : ℕ → ℕ → ℕ
n ▸ m = n

abbrev pub unused : ℕ
unused = shapes.Round
"""
TOP = """use Rattle.one.specs.Ground.{low as lowest, first, ◌▸◌}
abbrev pub top : ℕ
top = lowest first
abbrev pub lost : ℕ
lost = top ▸ top
"""
SHAPE = """/// A shape.
#[derive(Clone)]
pub enum Shape {
    /// As a ball.
    Round,
    Sized(Size),
}

pub(crate) struct Size(u8);
"""


class Uses(unittest.TestCase):
    def test_modules_in_braces(self) -> None:
        self.assertEqual(
            uses("use Rattle.one.specs.{Ground.low as lowest, Ground.first, declared.shape.Shape.Shape}"),
            {
                "lowest": ("one", "Ground", "low"),
                "first": ("one", "Ground", "first"),
                "Shape": ("one", "declared.shape.Shape", "Shape"),
            },
        )


class Chains(unittest.TestCase):
    def setUp(self) -> None:
        folder = tempfile.TemporaryDirectory()
        self.addCleanup(folder.cleanup)
        self.write(folder.name, "one/specs/Ground.antt", GROUND)
        self.write(folder.name, "one/src/shape.rt", SHAPE)
        self.write(folder.name, "two/specs/Top.antt", TOP)
        os.mkdir(os.path.join(folder.name, "crates", "mrt_graph"))
        self.library = Library(folder.name)

    def write(self, root: str, name: str, text: str) -> None:
        place = os.path.join(root, "crates", name)
        os.makedirs(os.path.dirname(place), exist_ok=True)
        with open(place, "w", encoding="utf-8") as file:
            file.write(text)

    def chain(self, known: set[Name], *cut: Name) -> list[tuple[str, int]]:
        tops = [Name("two", "Top", "top")]
        return [(name.name, self.library.length(name)) for name in self.library.chain(tops, known, set(cut))]

    def test_each_after_what_it_stands_on(self) -> None:
        self.assertEqual(self.chain(set()), [("low", 3), ("Size", 1), ("Shape", 4), ("Pair", 3), ("top", 2)])

    def test_what_is_known_and_what_is_cut(self) -> None:
        self.assertEqual(self.chain({Name("one", "Ground", "Pair")}), [("low", 3), ("top", 2)])
        chain = self.chain(set(), Name("one", "src/shape", "Shape"))
        self.assertEqual(chain, [("low", 3), ("Pair", 3), ("top", 2)])

    def test_a_sign_between_words(self) -> None:
        found = self.library.chain([Name("two", "Top", "lost")], {Name("two", "Top", "top")}, set())
        self.assertEqual([(name.name, self.library.length(name)) for name in found], [("◌▸◌", 2), ("lost", 2)])

    def test_places(self) -> None:
        self.assertEqual(self.library.place(Name("one", "Ground", "Pair")), "crates/one/specs/Ground.antt:13")
        self.assertEqual(self.library.place(Name("one", "src/shape", "Size")), "crates/one/src/shape.rt:9")

    def test_what_is_not_there(self) -> None:
        for name in (Name("two", "Top", "gone"), Name("two", "Gone", "top")):
            with self.assertRaises(Missing):
                self.library.chain([name], set(), set())


class Audit(unittest.TestCase):
    def test_the_headline_is_at_most_1500_lines(self) -> None:
        told = subprocess.run([os.path.join(TOOLS, "audit")], capture_output=True, text=True, check=False)
        self.assertEqual((told.returncode, told.stderr), (0, ""))
        counts = dict(
            (title, int(count)) for count, title in re.findall(r"^ {0,4}(\d+) (.*)$", told.stdout, re.MULTILINE)
        )
        titles = list(counts)
        parts = sum(counts[title] for title in titles[: titles.index("the headline")])
        self.assertEqual(counts["the headline"], parts)
        self.assertGreater(counts["all clauses of run"], parts)
        self.assertLessEqual(counts["the headline"], 1500)

    def test_each_definition_stands_where_it_is_told(self) -> None:
        told = subprocess.run(
            [os.path.join(TOOLS, "audit"), "--each"], capture_output=True, text=True, check=True
        ).stdout
        found = re.findall(r"^ +\d+ (\S+) (crates/\S+):(\d+)$", told, re.MULTILINE)
        self.assertGreater(len(found), 200)
        for name, file, line in found:
            with open(os.path.join(os.path.dirname(TOOLS), file), encoding="utf-8") as text:
                self.assertIn(f" {name}", text.read().splitlines()[int(line) - 1])
