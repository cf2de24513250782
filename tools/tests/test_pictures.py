"""Pictures, by the sample with a LAN. A stand-in for the program gives its certificate: nothing need be built."""
import os
import re
import shutil
import struct
import subprocess
import tempfile
import unittest
from itertools import permutations
from random import Random
from xml.etree import ElementTree

from mrttools import area, certificate, lsas, names
from mrttools.area import Node
from mrttools.exits import ToolFault
from mrttools.page import client, layout, picture, svg
from mrttools.page.layout import Size
from mrttools.page.picture import Arrow, Course, Failure, Island, Style
from tests import making
from tests.making import DATA, TOOLS, found

STAND_IN = """#!/bin/sh
case $1 in
certify) cat {data}/lan.cert; exit {certify} ;;
check) [ {check} = 0 ] || echo 'mrt: no: rule 7 at 0 1' >&2; exit {check} ;;
fabric) sed -n 's/^fail .*/failed/p; s/^inject .*/entered 0/p; s/^step .*/switched blue/p' "$4" ;;
esac
"""


def router(last: int) -> Node:
    return area.node_of(f"10.255.1.{last}")


LAN = area.node_of("net:198.51.100.4")


def sample() -> Island:
    """The island of lan.lsas under lan.profile."""
    with open(f"{DATA}/lan.lsas", "rb") as file:
        whole = area.area_of(lsas.split(file.read()))
    with open(f"{DATA}/lan.profile", "rb") as file:
        kept_out = area.ineligible(file.read())
    with open(f"{DATA}/lan.cert", "rb") as file:
        cert = certificate.read(file.read())
    return Island(whole, cert, area.island_bonds(whole, cert.nodes, kept_out))


def in_version_two(data: bytes) -> bytes:
    """A certificate file of version 1 in version 2: without the carried rows."""
    _, _, count, links, _ = struct.unpack_from(">4sHHHI", data)
    at = certificate.HEADER + certificate.NODE * count + certificate.LINK * links
    rows = [data[row : row + certificate.ROW] for row in range(at, len(data), certificate.ROW)]
    return data[:5] + b"\x02" + data[6:at] + b"".join(row for row in rows if row[4] != 6)


class Certificates(unittest.TestCase):
    def test_both_versions_say_the_same(self) -> None:
        with open(f"{DATA}/lan.cert", "rb") as file:
            data = file.read()
        self.assertLess(len(in_version_two(data)), len(data))
        short, whole = certificate.read(in_version_two(data)), certificate.read(data)
        self.assertEqual(short[:-1], whole[:-1])
        for color in (0, 1):
            for source, target in permutations(range(len(whole.nodes)), 2):
                self.assertEqual(short.link(color, source, target), whole.link(color, source, target))

    def test_rows_that_lack(self) -> None:
        with open(f"{DATA}/lan.cert", "rb") as file:
            data = file.read()
        for bad in (data[: -certificate.ROW], data + bytes(certificate.ROW), in_version_two(data)[: -certificate.ROW]):
            with self.assertRaises(ToolFault):
                certificate.read(bad)


class Areas(unittest.TestCase):
    def setUp(self) -> None:
        self.island = sample()

    def test_nodes(self) -> None:
        # 10.255.1.7 is withdrawn.
        self.assertEqual(self.island.area.nodes, [*map(router, range(1, 7)), LAN])
        self.assertEqual(self.island.certificate.nodes, self.island.area.nodes)

    def test_links_are_those_of_the_certificate(self) -> None:
        nodes = self.island.certificate.nodes
        pairs = [(nodes[a], nodes[b]) for a, b in self.island.certificate.pairs]
        self.assertEqual(pairs, [(bond.a, bond.b) for bond in self.island.bonds])
        self.assertEqual(len(self.island.area.bonds), len(self.island.bonds) + 1)

    def test_parallel_links_by_their_data(self) -> None:
        parallel = [bond for bond in self.island.bonds if (bond.a, bond.b) == (router(2), router(5))]
        self.assertEqual([lsas.spelled(bond.data_a) for bond in parallel], ["192.0.2.5", "192.0.2.9"])
        self.assertTrue(parallel[1].is_of(router(5).number, lsas.address("192.0.2.10")))

    def test_a_link_that_one_end_tells_is_in_no_island(self) -> None:
        one = making.router_lsa("1.1.1.1", [("2.2.2.2", "10.0.0.1", 1, 1), ("2.2.2.2", "10.0.0.5", 1, 1)])
        other, third = making.router_lsa("2.2.2.2", [("1.1.1.1", "10.0.0.2", 1, 1)]), making.router_lsa("3.3.3.3", [])
        whole = area.area_of(map(lsas.lsa_of, [one, other, third]))
        self.assertEqual(len(whole.bonds), 2)
        self.assertEqual(area.island_bonds(whole, whole.nodes, set()), whole.bonds[:1])
        self.assertTrue(whole.bonds[1].is_of(lsas.address("1.1.1.1"), lsas.address("10.0.0.5")))

    def test_profiles(self) -> None:
        profile = b"# \xff\x0bineligible 9.9.9.9 9.9.9.9\r\npriority 1.1.1.1 3\n\tineligible  1.1.1.1\t2.2.2.2\r\n"
        self.assertEqual(area.ineligible(profile), {(lsas.address("1.1.1.1"), lsas.address("2.2.2.2"))})

    def test_root_and_cut_nodes(self) -> None:
        self.assertEqual(self.island.certificate.root, router(1))
        self.assertEqual(self.island.certificate.cut_nodes(), {router(3), LAN})


class Arrows(unittest.TestCase):
    def setUp(self) -> None:
        self.island = sample()

    def test_trees_lead_to_the_destination(self) -> None:
        arrows = picture.tree_arrows(self.island, router(1))
        for color in certificate.COLORS:
            following = {arrow.tail: arrow.bond.far(arrow.tail) for arrow in arrows if arrow.sort in (color, "both")}
            self.assertEqual(set(following), set(self.island.certificate.nodes) - {router(1)})
            for node in following:
                for _ in following:
                    node = following.get(node, node)
                self.assertEqual(node, router(1))

    def test_only_ways_are_one_arrow(self) -> None:
        both = {arrow.tail for arrow in picture.tree_arrows(self.island, router(1)) if arrow.sort == "both"}
        self.assertEqual(both, {router(3), router(4), router(6)})

    def test_a_walk_ends(self) -> None:
        walk = picture.walk_arrows(self.island, router(6), "red", router(5))
        self.assertEqual(walk[-1].bond.far(walk[-1].tail), router(5))

    def test_the_picture_has_each_link_and_node(self) -> None:
        drawing = picture.tree_drawing(self.island, router(1), None)
        self.assertEqual([mark.node for mark in drawing.marks], self.island.area.nodes)
        self.assertEqual({stroke.bond for stroke in drawing.strokes}, set(self.island.area.bonds))
        words = {mark.node: mark.word for mark in drawing.marks}
        self.assertEqual((words[router(1)], words[LAN], words[router(2)]), ("root", "network, single point of failure", ""))
        self.assertEqual([mark.node for mark in drawing.marks if mark.double], [router(1)])

    def test_the_legend_has_what_the_picture_has(self) -> None:
        drawing = picture.tree_drawing(self.island, router(1), None)
        sorts = {stroke.sort for stroke in drawing.strokes}
        self.assertEqual(sorts, {"blue", "red", "both", "link", "outside"})
        self.assertEqual({kind for kind, _ in drawing.legend}, sorts | {"fill double", "fill network"})

    def test_a_failure(self) -> None:
        bond = self.island.bonds[0]
        courses = [
            Course(router(2), "blue", [], None),
            Course(router(5), None, [Arrow(bond, bond.a, "primary")], None),
            Course(router(6), None, [], "no-alternate"),
        ]
        drawing = picture.tree_drawing(self.island, router(1), Failure("10.255.1.3", router(3), courses))
        self.assertEqual(
            drawing.notes, ["Switching to blue: 10.255.1.2.", "Losing packets: 10.255.1.6 (no-alternate)."]
        )
        fills = {mark.node: mark.fill for mark in drawing.marks}
        self.assertEqual([fills[router(last)] for last in (2, 3, 5, 6)], ["blue", "failed", "plain", "lost"])
        self.assertIn(("fill lost", "loses its packets"), drawing.legend)

    def test_what_stands_at_the_ends_of_links(self) -> None:
        bond = next(bond for bond in self.island.bonds if LAN in (bond.a, bond.b))
        for metrics, addresses, wanted in ((True, False, "10"), (False, True, "198.51.100.1"), (False, False, None)):
            drawing = picture.tree_drawing(self.island, router(1), None, Style({}, None, metrics, addresses))
            self.assertEqual(drawing.ends.get(bond), wanted and (wanted, ""))


class Texts(unittest.TestCase):
    """Names and titles in the picture's own text."""

    def text(self, style: Style) -> str:
        return svg.svg(picture.tree_drawing(sample(), router(1), None, style))

    @unittest.skipUnless(shutil.which("dot"), "graphviz is not installed")
    def test_names_are_no_markup(self) -> None:
        text = self.text(Style({router(3): "<b>&\\N"}, "a < b", True, True))
        self.assertIn("&lt;b&gt;&amp;\\N", text)
        self.assertIn(">a &lt; b</text>", text)
        self.assertEqual(ElementTree.fromstring(text).tag, "{http://www.w3.org/2000/svg}svg")

    @unittest.skipUnless(shutil.which("dot"), "graphviz is not installed")
    def test_tooltips(self) -> None:
        text = self.text(picture.PLAIN)
        self.assertIn("<title>10.255.1.1, root</title>", text)
        self.assertIn("(192.0.2.1, metric 20)", text)

    def test_a_legend_stays_within_the_width(self) -> None:
        lines, end = svg.legend_lines([("blue", "a long explanation of this line")] * 9, 400, 0)
        places = [float(found(' x="([0-9.]+)"', line)[1]) for line in lines if line.startswith("<text")]
        self.assertLess(max(places), 400)
        self.assertGreater(end, 9 * svg.LINE_SPACE)

    def test_names_of_a_file(self) -> None:
        with tempfile.NamedTemporaryFile("wb") as file:
            file.write(b"# names\n\n10.255.1.1  core \x07one\nnet:198.51.100.4 LAN\n")
            file.flush()
            self.assertEqual(names.read(file.name), {router(1): "core one", LAN: "LAN"})
            file.write(b"10.255.1.2\n")
            file.flush()
            with self.assertRaisesRegex(ToolFault, f"bad names: {file.name} on line 5"):
                names.read(file.name)


class Layouts(unittest.TestCase):
    def test_crossings(self) -> None:
        corners = [(0, 0), (1, 1), (0, 1), (1, 0)]
        self.assertEqual(layout.crossings(corners, [(0, 1), (2, 3)]), 1)
        self.assertEqual(layout.crossings(corners, [(0, 2), (1, 3), (0, 1), (1, 3)]), 0)

    def test_lines_through_names(self) -> None:
        places = [(0, 0), (100, 0), (50, 8), (50, 40)]
        self.assertEqual(layout.through(places, [Size(20, 9)] * 4, [(0, 1)]), [(0, 2)])

    def test_a_bent_line_goes_round(self) -> None:
        places, sizes = [(0, 0), (200, 0), (100, 0)], [Size(20, 9)] * 3
        bends = layout.bends_of(places, sizes, [(0, 1)])
        corners = layout.curve(places[0], places[1], bends[0, 1])
        self.assertFalse(any(layout.meets(*ends, places[2], sizes[2]) for ends in zip(corners, corners[1:])))

    @unittest.skipUnless(shutil.which("dot"), "graphviz is not installed")
    def test_no_line_goes_through_a_name(self) -> None:
        """Forty nodes with sixty random links."""
        random = Random(4)
        lines = [(random.randrange(node), node) for node in range(1, 40)]
        lines += [(min(ends), max(ends)) for ends in (random.sample(range(40), 2) for _ in range(21))]
        found = layout.layout([Size(38, 9)] * 40, lines)
        wrong = layout.through(found.places, [Size(38, 9)] * 40, sorted(set(lines)))
        self.assertLessEqual(len(wrong), 1)


class Hops(unittest.TestCase):
    """Which links a primary takes to a router that the program names."""

    def test_of_parallel_links_the_cheaper_and_then_the_lesser_data(self) -> None:
        links = area.links_at(sample().area)
        for tail, far in ((2, 5), (5, 2)):
            (_, bond), *more = client.hop(links, router(tail), router(far))
            self.assertEqual((lsas.spelled(bond.data_a), more), ("192.0.2.5", []))

    def test_over_a_network(self) -> None:
        way = client.hop(area.links_at(sample().area), router(4), router(3))
        self.assertEqual([tail for tail, _ in way], [router(4), LAN])


@unittest.skipUnless(shutil.which("dot"), "graphviz is not installed")
class TheTool(unittest.TestCase):
    """The script with a stand-in for the program."""

    def run_draw(self, *words: str, certify: int = 0, check: int = 0) -> subprocess.CompletedProcess[str]:
        with tempfile.TemporaryDirectory() as folder:
            program = os.path.join(folder, "mrt")
            with open(program, "w", encoding="ascii") as file:
                file.write(STAND_IN.format(data=DATA, certify=certify, check=check))
            os.chmod(program, 0o755)
            command = [f"{TOOLS}/draw", "--mrt", program, f"{DATA}/lan.lsas", f"{DATA}/lan.profile", *words]
            return subprocess.run(command, stdout=subprocess.PIPE, stderr=subprocess.PIPE, text=True, check=False)

    def test_trees(self) -> None:
        for to in ("10.255.1.1", "net:198.51.100.4"):
            done = self.run_draw(to)
            self.assertEqual((done.returncode, done.stderr), (0, ""))
            self.assertIn("</svg>", done.stdout)

    def test_a_failed_link(self) -> None:
        done = self.run_draw("10.255.1.1", "--failed", "link:10.255.1.2/192.0.2.5")
        self.assertEqual((done.returncode, done.stderr), (0, ""))
        self.assertIn("Switching to blue", done.stdout)

    def test_the_area(self) -> None:
        done = self.run_draw()
        self.assertEqual((done.returncode, done.stderr), (0, ""))
        self.assertIn("The area: 6 routers, 1 network, 9 links", done.stdout)

    def test_names_that_are_none(self) -> None:
        done = self.run_draw("10.255.1.1", "--names", f"{DATA}/lan.profile")
        self.assertEqual((done.returncode, done.stdout), (15, ""))
        self.assertTrue(done.stderr.startswith("draw: bad names: "), done.stderr)

    def test_what_the_program_refuses(self) -> None:
        for statuses in ({"certify": 3}, {"check": 1}):
            done = self.run_draw("10.255.1.1", **statuses)
            self.assertEqual((done.returncode, done.stdout), (max(statuses.values()), ""))

    def test_what_is_not_there(self) -> None:
        for words in (
            ["10.255.9.9"],
            ["10.255.1.1", "--failed", "link:10.255.1.2/1.2.3.4"],
            ["10.255.1.1", "--failed", "x"],
        ):
            done = self.run_draw(*words)
            self.assertEqual((done.returncode, done.stdout), (7, ""), done.stderr)
            self.assertTrue(done.stderr.startswith("draw: not there: "), done.stderr)

    def test_a_word_that_is_no_node(self) -> None:
        self.assertEqual(self.run_draw("net:1.2.3").returncode, 2)
