"""What the report advises: new links beside a plain search, what is to be taken in, and commands that can be run."""
import json
import os
import subprocess
import tempfile
import unittest
from random import Random

from mrttools import area
from mrttools.area import Area, Bond, Node
from mrttools.lsas import ROUTER
from mrttools.page import advice, new_links, sites
from mrttools.page.new_links import NEAR, Joining, Link
from tests.making import MRT, TOOLS
from tests.test_cuts import area_of, connected, name, node, random_area, records_of
from tests.test_report import run_report

RING_AND_LEAF = [(1, 2), (2, 3), (1, 3), (1, 4)]


def with_link(whole: Area, a: Node, b: Node) -> Area:
    return Area(whole.nodes, [*whole.bonds, Bond(a, b, 99, 99, 1, 1)])


def never_parted(whole: Area) -> set[tuple[Node, Node]]:
    """The pairs that no failure but that of an end parts, by a plain search for each failure."""
    found = connected(whole, None)
    elements: list[Node | Bond] = [*whole.nodes, *whole.bonds]
    for element in elements:
        joined = connected(whole, element)
        found = {pair for pair in found if element in pair or pair in joined}
    return found


def joining_of(whole: Area, **more: str) -> Joining:
    return Joining(whole, {node(int(each[1:])): site for each, site in more.items()}, ())


class NewLinks(unittest.TestCase):
    def test_a_leaf(self) -> None:
        best, *more = joining_of(area_of(RING_AND_LEAF)).choices(10)
        self.assertEqual(best.link, Link(node(2), node(4), 2, 6))
        self.assertEqual(best.others, [Link(node(3), node(4), 2, 6)])
        self.assertEqual(more, [])

    def test_what_one_gains_beside_a_plain_search(self) -> None:
        random, seen = Random(58), 0
        for _ in range(120):
            whole = random_area(random)
            if any(not bond.two_way for bond in whole.bonds):
                continue
            links = {(link.a, link.b): link.pairs for link in joining_of(whole).links}
            before = len(never_parted(whole))
            for a in whole.nodes:
                for b in whole.nodes:
                    if a < b and a.kind == b.kind == ROUTER and (a, b) in connected(whole, None):
                        gain = len(never_parted(with_link(whole, a, b))) - before
                        far = (a, b) not in links and gain > 0
                        self.assertEqual(links.get((a, b), gain if far else 0), gain)
                        seen += gain > 0 and not far
        self.assertGreater(seen, 150)

    def test_they_are_near(self) -> None:
        """Two leaves at the ends of a long ladder."""
        sides = [(each, each + 2) for each in range(1, 19)] + [(1, 2), (19, 20), (1, 21), (20, 22)]
        found = joining_of(area_of(sides)).links
        self.assertTrue(found)
        self.assertTrue(all(link.hops <= NEAR for link in found))
        self.assertNotIn({node(21), node(22)}, [set(link[:2]) for link in found])

    def test_one_site_comes_first(self) -> None:
        best = joining_of(area_of(RING_AND_LEAF), r3="a", r4="a").choices(1)[0].link
        self.assertEqual(best[:2], (node(3), node(4)))

    def test_what_is_built_counts_for_the_next(self) -> None:
        """Two leaves on a ring, each with a link of its own."""
        whole = area_of([(1, 2), (2, 3), (1, 3), (1, 4), (2, 5)])
        first, *more = joining_of(whole).choices(10)
        # One link between the two leaves is enough.
        self.assertEqual((first.link[:2], first.link.pairs, more), ((node(4), node(5)), 14, []))

    def test_sites_by_names(self) -> None:
        known = {node(1): "agg-zrh-61", node(2): "agg-zrh-7", node(3): "core"}
        self.assertEqual(sites.by_names(known), {node(1): "agg-zrh", node(2): "agg-zrh"})


class Metrics(unittest.TestCase):
    def test_the_usual_one(self) -> None:
        bonds = area_of([(1, 2), (1, 3), (1, 4)], [], [10, 20, 65535]).bonds
        self.assertEqual(advice.usual_metric(bonds), 20)
        self.assertEqual(advice.usual_metric([]), 10)


@unittest.skipUnless(os.access(MRT, os.X_OK), "the program is not built")
class Commands(unittest.TestCase):
    """Each line's commands are run, and have what it says."""

    def setUp(self) -> None:
        folder = tempfile.TemporaryDirectory()
        self.addCleanup(folder.cleanup)
        self.folder = folder.name

    def write(self, kind: str, data: bytes) -> str:
        path = os.path.join(self.folder, f"area.{kind}")
        with open(path, "wb") as file:
            file.write(data)
        return path

    def values(self, *words: str) -> dict:
        done = run_report("--json", *words)
        self.assertEqual((done.returncode, done.stderr), (0, ""))
        return json.loads(done.stdout)

    def run_line(self, line: dict) -> str:
        command = (
            line["command"]
            .replace("tools/diff", f"{TOOLS}/diff --mrt {MRT}")
            .replace("tools/change", f"{TOOLS}/change")
        )
        done = subprocess.run(
            ["/bin/sh", "-c", command], cwd=self.folder, capture_output=True, text=True, check=False
        )
        self.assertEqual((done.returncode, done.stderr), (0, ""))
        return done.stdout

    def advised(self, metrics: list[int], profile: str, *words: str) -> tuple[list[dict], str, str]:
        database = self.write(
            "lsas", b"".join(records_of([(1, 2), (2, 3), (1, 3), (3, 4), (1, 4), (1, 5)], [], metrics))
        )
        said = self.write("profile", profile.encode())
        return self.values(database, said, *words)["advice"], database, said

    def test_a_router_is_taken_in(self) -> None:
        lines, database, _ = self.advised([10], f"# a comment\nno-mrt {name(4)}\npriority {name(1)} 1\n")
        (line,) = [each for each in lines if each["advice"] == "take-in"]
        self.assertEqual(line["pairs"], 6)
        self.assertIn("pairs that gained a repair for the first link", self.run_line(line))
        after = self.values(database, os.path.join(self.folder, "tried.profile"))
        self.assertEqual((after["pairs"]["gaps"], after["pairs"]["repaired"]), (0, 12))

    def test_a_link_is_taken_in(self) -> None:
        lines, database, _ = self.advised([10], f"ineligible  {name(4)} 10.0.3.4\n")
        (line,) = [each for each in lines if each["advice"] == "take-in"]
        self.run_line(line)
        after = self.values(database, os.path.join(self.folder, "tried.profile"))
        self.assertEqual(after["pairs"]["gaps"], 0)

    def test_a_metric(self) -> None:
        metrics = [10] * 7 + [65535] + [10] * 4
        lines, _, said = self.advised(metrics, "")
        (line,) = [each for each in lines if each["advice"] == "take-in"]
        self.run_line(line)
        after = self.values(os.path.join(self.folder, "tried.lsas"), said)
        self.assertEqual(after["pairs"]["gaps"], 0)

    def test_a_new_link(self) -> None:
        lines, database, said = self.advised([10], "")
        (line,) = lines
        self.assertEqual((line["advice"], line["pairs"]), ("new-link", 8))
        self.run_line(line)
        before, after = self.values(database, said), self.values(os.path.join(self.folder, "tried.lsas"), said)
        self.assertEqual(after["pairs"]["repaired"] - before["pairs"]["repaired"], 8)

    def test_what_is_excluded(self) -> None:
        lines, _, _ = self.advised([10], f"no-mrt {name(4)}\n", "--exclude", name(4), "--exclude", name(5))
        self.assertEqual(lines, [])
        done = run_report("--exclude", "nobody", os.path.join(self.folder, "area.lsas"), "-")
        self.assertEqual((done.returncode, done.stderr), (7, "report: not there: nobody\n"))

    def test_ten_lines_at_most(self) -> None:
        links = [(each, each % 8 + 1) for each in range(1, 9)]
        links += [(each % 8 + 1, 9 + each) for each in range(16)]
        lines = self.values(self.write("lsas", b"".join(records_of(links, [], [10]))), "-")["advice"]
        self.assertTrue(lines)
        self.assertLessEqual(len(lines), 10)
        self.assertEqual(lines, sorted(lines, key=lambda line: -line["pairs"]))


class Names(unittest.TestCase):
    def test_how_tools_are_called(self) -> None:
        self.assertEqual(advice.tool("change"), "tools/change")
        self.assertEqual(area.node_of(name(1)), node(1))
        self.assertEqual(new_links.is_of_use(Link(node(1), node(2), 1, 0)), False)
