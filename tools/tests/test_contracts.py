"""The contracts that tools/clauses reads, and the two pages that it makes."""
import os
import re
import subprocess
import tempfile
import unittest
from typing import ClassVar

from mrttools.repository import reference
from mrttools.repository.contracts import Crate
from mrttools.repository.definitions import Library, Missing, Name
from tests.making import TOOLS

ROOT = os.path.dirname(TOOLS)
LIB = """//! What is
//! shown.
#![tactic(auto)]

mod shape;
mod shape_law;

pub use shape::{
    Shape, Sized as _, area,
};
pub use shape_law::one_area;
"""
SHAPE = """//! Shapes.

ghost use Rattle.std.specs.Prelude.{ℕ};
ghost use Rattle.one.specs.Area.{
  IsArea,
  IsSmall as Small,
};

/// A shape. It has
/// an area.
///
/// More of it.
#[derive(Clone)]
pub struct Shape {
    sides: Vec<u8>,
}

impl Model for Shape {
    ghost Value = { List ℕ };
    ghost view = { λ shape. shape.sides.items };
}

impl Shape {
    ghost use Rattle.one.specs.Area.{sides_of};

    /// How many sides it has.
    pub fn count<const N: usize>(
        &self,
        most: [u8; N],
    ) -> u8
        requires { N ≡ 3 }
        // The count;
        // and what it is.
        ensures count { result ≡ length self.now }
        ensures kept { IsArea
            (record { a = 1 }) (sides_of self.now) }

        ensures few { Small result }
    {
        if most.is_empty() { 0 } else { 1 }
    }

    fn hidden(&self) -> u8
        ensures { result ≡ 0 }
    {
        0
    }
}

impl Far for Shape {
    ghost far = { IsArea };
    ghost laws = { proof };

    fn put(&self) -> u8 {
        1
    }
}

/// An area.
#[inline(never)]
pub fn area(shape: &Shape) -> u8 {
    shape.sides.len()
}

pub fn not_handed_on() -> u8 {
    0
}
"""
LAW = """ghost use Rattle.one.specs.Area.{IsArea};

/// A law: there is one.
pub fn one_area()
    ensures { (n : ℕ) → IsArea n }
{}
"""
AREA = """-- Areas.
use Rattle.std.specs.Prelude.{ℕ}
use Rattle.one.specs.Below as below

-- what an area
-- - is
abbrev pub IsArea : ℕ → Type 0
IsArea n = below.IsBelow n

-- a small one
-- 1) it is
abbrev pub IsSmall : ℕ → Type 0
IsSmall n = n < 3

pub record sides_of : Type 0 where
  -- a member
  pub one : ℕ

-- of no contract
abbrev pub IsHidden : ℕ → Type 0
IsHidden n = ⊤
"""
BELOW = """-- What is below.
use Rattle.std.specs.Prelude.{ℕ}

abbrev pub IsBelow : ℕ → Type 0
IsBelow n = ⊤
"""


def told(*words: str) -> subprocess.CompletedProcess[str]:
    return subprocess.run([os.path.join(TOOLS, "clauses"), *words], capture_output=True, text=True, check=False)


class Contracts(unittest.TestCase):
    """A small crate."""

    def setUp(self) -> None:
        folder = tempfile.TemporaryDirectory()
        self.addCleanup(folder.cleanup)
        self.root = folder.name
        for name, text in (
            ("src/lib.rt", LIB),
            ("src/shape.rt", SHAPE),
            ("src/shape_law.rt", LAW),
            ("specs/Area.antt", AREA),
            ("specs/Below.antt", BELOW),
        ):
            self.write(os.path.join("crates", "one", name), text)
        self.write("crates.txt", "# all\n\n# shown\none: two\n")
        os.mkdir(os.path.join(self.root, "crates", "mrt_graph"))
        self.crate, self.library = Crate(self.root, "one"), Library(self.root)

    def write(self, name: str, text: str) -> None:
        place = os.path.join(self.root, name)
        os.makedirs(os.path.dirname(place), exist_ok=True)
        with open(place, "w", encoding="utf-8") as file:
            file.write(text)

    def test_what_is_public(self) -> None:
        self.assertEqual([part.name for part in self.crate.types], ["Shape"])
        self.assertEqual([part.name for part in self.crate.functions], ["Shape::count", "area"])
        self.assertEqual([part.name for part in self.crate.laws], ["one_area"])
        impls = [(part.name, part.trait, part.lines) for part in self.crate.impls]
        self.assertEqual(impls, [("Shape", "Far", ["impl Far for Shape", "    ghost far = { IsArea };"])])

    def test_a_type_with_what_contracts_see(self) -> None:
        self.assertEqual(self.crate.types[0].about, ["A shape. It has", "an area.", "", "More of it."])
        self.assertEqual(self.crate.types[0].place, "crates/one/src/shape.rt:14")
        self.assertEqual(
            [(part.name, part.clauses) for part in self.crate.models], [("Shape", [("Value", "List ℕ")])]
        )

    def test_a_program_with_a_function_of_its_own(self) -> None:
        self.write(
            "crates/two/src/main.rt", "//! A program.\n//!\n//!     two WORD\n\n/// Its own.\npub fn own() {}\n"
        )
        crate = Crate(self.root, "two")
        self.assertEqual((crate.about, [part.name for part in crate.functions]), (["A program.", ""], ["own"]))

    def test_a_block_that_is_not_understood(self) -> None:
        self.write("crates/one/src/shape.rt", SHAPE.replace("impl Far for Shape {", "impl Far\n    for Shape\n{"))
        with self.assertRaisesRegex(Missing, "^crates/one/src/shape.rt:50: not read: impl Far$"):
            Crate(self.root, "one")

    def test_clauses(self) -> None:
        self.assertEqual(
            self.crate.functions[0].clauses,
            [
                ("", "N ≡ 3"),
                ("count", "result ≡ length self.now"),
                ("kept", "IsArea (record { a = 1 }) (sides_of self.now)"),
                ("few", "Small result"),
            ],
        )

    def test_a_function_ends_before_its_body(self) -> None:
        count, area = self.crate.functions
        self.assertEqual(
            (count.lines[0], count.lines[-1]), ("pub fn count<const N: usize>(", "    ensures few { Small result }")
        )
        self.assertEqual(area.lines, ["pub fn area(shape: &Shape) -> u8 {"])

    def test_definitions_that_are_named(self) -> None:
        named = [name.name for name in self.crate.functions[0].under(self.library)]
        self.assertEqual(named, ["IsArea", "sides_of", "IsSmall"])
        self.assertEqual(self.library.under(Name("one", "Area", "IsArea")), [Name("one", "Below", "IsBelow")])

    def test_pages(self) -> None:
        page = reference.clauses(self.root, self.library)
        self.assertIn("\n- shown: [one](#one)\n\n## one\n\nWhat is shown.\n", page)
        self.assertIn("\n- [`Shape`](../crates/one/src/shape.rt): A shape. It has an area. Seen as `List ℕ`.\n", page)
        self.assertIn("\n\n```rust\npub fn area(shape: &Shape) -> u8\n```\n", page)
        self.assertIn("\n    // The count;\n    // and what it is.\n    ensures count {", page)
        self.assertIn("\n### Laws\n\n**[`one_area`](../crates/one/src/shape_law.rt)** A law: there is one.\n", page)
        page = reference.definitions(self.root, self.library)
        self.assertIn("\n**[Area](../crates/one/specs/Area.antt)** Areas.\n\n- `IsArea`: what an area - is\n", page)
        self.assertIn("\n- `IsSmall`, `sides_of`: a small one 1) it is\n", page)
        self.assertIn("\n- `IsBelow`\n", page)
        self.assertNotIn("IsHidden", page)

    def test_no_line_begins_as_another_item(self) -> None:
        text = "a " * 60 + "- b 1. c # d"
        self.assertEqual(reference.filled(text, "  "), "a " * 58 + "a\n  a - b 1. c # d")


class Pages(unittest.TestCase):
    library: ClassVar[Library]

    @classmethod
    def setUpClass(cls) -> None:
        cls.library = Library(ROOT)

    def read(self, name: str) -> str:
        with open(os.path.join(ROOT, name), encoding="utf-8") as file:
            return file.read()

    def test_what_they_link_to_is_there(self) -> None:
        for page in (reference.clauses(ROOT, self.library), reference.definitions(ROOT, self.library)):
            targets = set(re.findall(r"\]\(([^)#:]+)\)", page)) - {"CLAUSES.md", "DEFINITIONS.md"}
            self.assertGreater(len(targets), 100)
            lost = [target for target in targets if not os.path.exists(os.path.join(ROOT, "docs", target))]
            self.assertEqual(lost, [])

    def test_what_each_crate_hands_on_is_there(self) -> None:
        sections = {text.split("\n")[0]: text for text in reference.clauses(ROOT, self.library).split("\n## ")[1:]}
        count = 0
        crates = [crate for crate in os.listdir(os.path.join(ROOT, "crates")) if not crate.endswith("_tests")]
        for crate in crates:
            names = os.listdir(os.path.join(ROOT, "crates", crate, "src"))
            text = self.read(f"crates/{crate}/src/{'lib.rt' if 'lib.rt' in names else 'main.rt'}")
            for module, handed in re.findall(r"^pub use (\w+)::([^;]*);", text, re.MULTILINE):
                for name in re.findall(r"\w+", handed):
                    if module not in crates and not name.isupper():
                        self.assertIn(f"[`{name}`](../crates/{crate}/src/{module}.rt)", sections[crate])
                        count += 1
        self.assertGreater(count, 250)

    def test_what_the_headline_stands_on_is_there(self) -> None:
        sections = {
            text.split("\n")[0]: text for text in reference.definitions(ROOT, self.library).split("\n## ")[1:]
        }
        audit = os.path.join(TOOLS, "audit")
        chain = subprocess.run([audit, "--each"], capture_output=True, text=True, check=True).stdout
        found = re.findall(r"^ +\d+ (\S+) crates/(\w+)/specs/(\S+).antt:", chain, re.MULTILINE)
        self.assertGreater(len(found), 200)
        for name, crate, module in found:
            items = sections[crate].split(f"**[{module}]")[1].split("\n**[")[0]
            self.assertRegex(items, rf"(?m)^- .*`{re.escape(name)}`", f"{crate} {module}")

    def test_what_no_public_contract_stands_on_is_in_steps(self) -> None:
        public = set(reference.stood_on(ROOT, self.library))
        for (crate, module), held in self.library.specs.items():
            for name in held.lines:
                private = Name(crate, module, name) not in public
                self.assertEqual(module.startswith("steps."), private, f"{crate} {module} {name}")


class Printed(unittest.TestCase):
    def test_a_law_with_all_below_it(self) -> None:
        done = told("--all", "accepted_implies_sound")
        self.assertEqual((done.returncode, done.stderr), (0, ""))
        places = re.findall(r"^-- crates/(\S+):\d+$", done.stdout, re.MULTILINE)
        self.assertEqual(places[0], "mrt_graph/src/cert_law.rt")
        self.assertLess(places.index("mrt_graph/specs/Walk.antt"), places.index("mrt_graph/specs/Reaches.antt"))
        self.assertIn(
            "\n-- both color walks from s reach t, and they share only what separates s and t\npub record",
            done.stdout,
        )

    def test_a_function_and_a_definition_of_a_crate(self) -> None:
        done = told("mrt_graph::Graph::find", "mrt_graph::Apart")
        self.assertEqual((done.returncode, done.stderr), (0, ""))
        self.assertIn("\npub fn find(&self, id: NodeId) -> Option<NodeNo>\n    ensures found {", done.stdout)
        self.assertIn("\nabbrev pub Apart :", done.stdout)

    def test_an_export(self) -> None:
        done = told("mrt_abi")
        self.assertEqual((done.returncode, done.stderr), (0, ""))
        self.assertIn('\npub extern "C" fn mrt_abi() -> u32\n    ensures { result ≡ 1 }\n', done.stdout)

    def test_no_such_name(self) -> None:
        done = told("no_such_thing")
        self.assertEqual((done.returncode, done.stdout), (7, ""))
        self.assertEqual(done.stderr, "clauses: no crate, type, public function or definition no_such_thing\n")


if __name__ == "__main__":
    unittest.main()
