"""What a report is weighed with and compared with: demand, agents, an earlier report, sites, and the matrix."""
import json
import os
import subprocess
import tempfile
import time
import unittest
from typing import Any

from mrttools import area
from mrttools.exits import ToolFault
from mrttools.page import cuts, demand, facts, installed, islands, matrix, origin, overview
from mrttools.page.target import GAP, PARTED, size_of
from mrttools.paths import Graph
from mrttools.program import Program
from tests.making import DATA, MRT, TOOLS
from tests.test_cuts import area_of, name, node
from tests.test_page import Case
from tests.test_report import Written, run_report, written

LAN = [f"{DATA}/lan.lsas", f"{DATA}/lan.profile"]
ROUTERS = [f"10.255.1.{last}" for last in range(1, 7)]


def statement(router: str, certificate: str | None) -> dict[str, Any]:
    """What an agent says of itself."""
    return {
        "format": installed.FORMAT,
        "version": 1,
        "router": router,
        "at": origin.now(),
        "certificate": certificate,
        "generation": 4,
        "since": "2026-11-30T10:00:00Z",
        "repairs": 5,
        "left_out": [{"what": "1.2.3.0/24", "why": "x"}],
    }


class Folder(unittest.TestCase):
    def setUp(self) -> None:
        folder = tempfile.TemporaryDirectory()
        self.addCleanup(folder.cleanup)
        self.folder = folder.name

    def write(self, place: str, text: str) -> str:
        path = os.path.join(self.folder, place)
        with open(path, "w", encoding="utf-8") as file:
            file.write(text)
        return path

    def values(self, *words: str) -> Any:
        done = run_report("--json", *words, *LAN)
        self.assertEqual((done.returncode, done.stderr), (0, ""))
        return json.loads(done.stdout)


class Demands(Folder):
    def test_a_file(self) -> None:
        path = self.write(
            "weights", f"# demand\n\n{name(1)} core 2.5\n{name(1)} {name(2)} 1\n{name(2)} {name(1)} 3\n"
        )
        found = demand.read(path, {node(2): "core"})
        self.assertEqual(
            [found.of(node(1), node(2)), found.of(node(2), node(1)), found.of(node(1), node(3))], [3.5, 3, 0]
        )
        self.assertEqual(demand.EVEN.of(node(1), node(3)), 1)

    def test_lines_that_are_none(self) -> None:
        for line in (
            "1.2.3.4 1.2.3.5",
            "1.2.3.4 1.2.3.5 -1",
            "x 1.2.3.5 1",
            "1.2.3.4 1.2.3.5 1 2",
            "1.2.3.4 1.2.3.5 nan",
        ):
            path = self.write("weights", f"\n{line}\n")
            with self.assertRaisesRegex(ToolFault, f"bad weights: {path} on line 2"):
                demand.read(path, {})

    @unittest.skipUnless(os.access(MRT, os.X_OK), "the program is not built")
    def test_one_pair(self) -> None:
        """10.255.1.1 sends 7 to 10.255.1.6, which nothing repairs, and 10.255.1.1 sends 3 to 10.255.1.5."""
        path = self.write("weights", f"{ROUTERS[0]} {ROUTERS[5]} 7\n{ROUTERS[0]} {ROUTERS[4]} 3\n")
        found = self.values("--weights", path)
        self.assertEqual(found["pairs"]["demand"], {"repaired": 3, "parted": 7, "gaps": 0})
        worst = {(each["from"], each["to"]) for each in found["stretch"]["worst"]}
        self.assertLessEqual(worst, {(ROUTERS[0], ROUTERS[4]), (ROUTERS[0], ROUTERS[5])})
        self.assertEqual((found["coverage"]["pairs"], found["area"]["pairs"]), (10, 30))
        # The LAN's failure parts the first of them, that of a link of 10.255.1.1 does not.
        self.assertEqual(found["coverage"]["first_link"]["open"], found["coverage"]["first_link"]["colors"])
        (own,) = [each for each in found["routers"] if each["router"] == ROUTERS[0]]
        self.assertEqual(own["first_link"], found["coverage"]["first_link"])
        loads = {link["element"]: link["primaries"] for link in found["load"]["links"]}
        self.assertEqual(loads["link:10.255.1.3/192.0.2.17"], 7)
        self.assertEqual({loads[each] for each in loads} - {0}, {3, 7, 10})

    @unittest.skipUnless(os.access(MRT, os.X_OK), "the program is not built")
    def test_one_for_each_is_as_none(self) -> None:
        lines = [f"{one} {other} 1\n" for one in ROUTERS for other in ROUTERS if one != other]
        even, own = self.values(), self.values("--weights", self.write("weights", "".join(lines)))
        for part in ("load", "coverage", "failures"):
            self.assertEqual(even[part], own[part])
        self.assertEqual(even["stretch"]["metric_bars"], own["stretch"]["metric_bars"])
        self.assertEqual(
            list(own["pairs"]["demand"].values()), [even["pairs"][each] for each in ("repaired", "parted", "gaps")]
        )


@unittest.skipUnless(os.access(MRT, os.X_OK), "the program is not built")
class Installed(Folder):
    def setUp(self) -> None:
        super().setUp()
        self.right = origin.digest(Program(MRT, LAN[0], LAN[1]).run("certify", ROUTERS[0]))

    def say(self, router: str, certificate: str | None, **more: Any) -> None:
        self.write(f"{router}.json", json.dumps(statement(router, certificate) | more))

    def test_all_are_right(self) -> None:
        for router in ROUTERS:
            self.say(router, self.right)
        found = self.values("--installed", self.folder)
        self.assertEqual((found["verdict"], found["installed"]["counts"]["current"]), ("protected", 6))
        self.assertEqual(found["installed"]["routers"][0]["left_out"], [{"what": "1.2.3.0/24", "why": "x"}])

    def test_who_is_behind(self) -> None:
        for router in ROUTERS[1:5]:
            self.say(router, self.right)
        self.say(ROUTERS[1], "ab" * 32, waits="not heard: a router-LSA")
        self.say(ROUTERS[2], None)
        self.say(ROUTERS[3], self.right, at="2020-01-01T00:00:00Z")
        self.say(ROUTERS[4], self.right, state="stopped")
        self.say(ROUTERS[5], self.right)
        self.say("9.9.9.9", self.right)
        self.write("other.json", "{}")
        self.write("list.json", "[1]")
        self.write("deep.json", "[" * 200000)
        os.mkfifo(os.path.join(self.folder, "pipe.json"))
        found = self.values("--installed", self.folder)
        states = {each["router"]: each["installed"] for each in found["installed"]["routers"]}
        self.assertEqual(
            [states[router] for router in ROUTERS], ["unknown", "behind", "none", "old", "old", "current"]
        )
        self.assertEqual(found["verdict"], "not")
        self.assertEqual(
            (found["installed"]["others"], found["installed"]["bad_files"]),
            (["9.9.9.9"], ["deep.json", "list.json", "other.json", "pipe.json"]),
        )

    def test_the_newest_of_two_counts(self) -> None:
        self.say(ROUTERS[0], self.right)
        os.rename(os.path.join(self.folder, f"{ROUTERS[0]}.json"), os.path.join(self.folder, "a.json"))
        for at in ("2020-01-01T00:00:00Z", "soon"):
            self.say(ROUTERS[0], None, at=at)
            found, _ = installed.read(self.folder)
            self.assertEqual(found[area.node_of(ROUTERS[0])]["certificate"], self.right)

    def test_a_time_to_come(self) -> None:
        """A router whose clock is wrong does not say for ever that it has the right table."""
        said = statement(ROUTERS[0], self.right) | {"at": "2026-12-01T00:00:00Z"}
        now = installed.seconds_of(said["at"])
        assert now is not None
        for later, state in ((0, "current"), (installed.OLD, "current"), (installed.OLD + 1, "old")):
            self.assertEqual(installed.state_of(said, self.right, now - later), state)
            self.assertEqual(installed.state_of(said, self.right, now + later), state)

    def test_a_folder_that_is_none(self) -> None:
        for place, line in ((LAN[0], "it is no folder"), ("/nonexistent", "No such file or directory")):
            done = run_report("--json", "--installed", place, *LAN)
            self.assertEqual((done.returncode, done.stdout, done.stderr), (8, "", f"report: {place}: {line}\n"))


class InstalledPages(Case):
    def test_the_first_line(self) -> None:
        right = origin.digest(Program(MRT, LAN[0], LAN[1]).run("certify", ROUTERS[0]))
        whole: dict[str, Any] = {"left_out": []}
        for router in ROUTERS:
            self.say(statement(router, right) | whole)
        found = self.page("--installed", self.folder, *LAN)
        self.assertTrue(found.of("verdict").startswith("\u2714 Protected now: all "), found.of("verdict"))
        self.say(statement(ROUTERS[2], right) | {"left_out": [{"what": "10.255.0.9/32", "why": "no <i>route</i>"}]})
        found = self.page("--installed", self.folder, *LAN)
        self.assertTrue(found.of("verdict").startswith("\u2714 Protected: all "), found.of("verdict"))
        self.assertIn("1 of 6 routers leaves something out.", found.of("verdict"))
        self.assertIn("no &lt;i&gt;route&lt;/i&gt;", self.source)
        self.say(statement(ROUTERS[2], right) | whole)
        self.say(statement(ROUTERS[3], "00") | whole | {"waits": "<b>hostile</b>"})
        found = self.page("--installed", self.folder, *LAN)
        wanted = f"\u2716 Not protected now: 1 of 6 routers is not known to have the certificate of this area ( {ROUTERS[3]} )."
        self.assertTrue(
            found.of("verdict").replace("(", "( ").replace(")", " )").startswith(wanted), found.of("verdict")
        )
        self.assertIn("5 routers with the certificate", found.of("installed"))
        self.assertIn("&lt;b&gt;hostile&lt;/b&gt;", self.source)

    def say(self, said: dict[str, Any]) -> None:
        with open(os.path.join(self.folder, f"{said['router']}.json"), "w", encoding="utf-8") as file:
            json.dump(said, file)


# an earlier report


@unittest.skipUnless(os.access(MRT, os.X_OK), "the program is not built")
class Since(Folder):
    def test_the_same(self) -> None:
        old = self.write("old.json", json.dumps(self.values()))
        found = self.values("--against", old)["since"]
        self.assertEqual((found["same_database"], found["same_profile"]), (True, True))
        self.assertEqual([*found["came"].values(), *found["went"].values()], [[]] * 8)

    def test_a_link_that_came(self) -> None:
        old = self.write("old.json", json.dumps(self.values()))
        changed = os.path.join(self.folder, "new.lsas")
        with open(changed, "wb") as file:
            words = [f"{TOOLS}/change", "--add", ROUTERS[0], ROUTERS[5], "10", LAN[0]]
            subprocess.run(words, stdout=file, check=True)
        done = run_report("--json", "--against", old, changed, "-")
        found = json.loads(done.stdout)["since"]
        self.assertEqual((found["same_database"], found["same_profile"]), (False, False))
        self.assertEqual((found["came"]["links"], found["went"]["links"]), (["link:10.255.1.1/0.0.0.1"], []))
        self.assertIn("10.255.1.3", found["went"]["single_points"])
        self.assertEqual(found["went"]["kept_out"], ["link:10.255.1.4/192.0.2.13"])
        self.assertEqual(found["pairs"]["all"], [30, 30])

    def test_what_is_no_report(self) -> None:
        for text in (
            "",
            "[]",
            "{}",
            '{"format": "semborui-report", "version": 1}',
            '{"format": "semborui-report", "version": 2}',
        ):
            old = self.write("old.json", text)
            done = run_report("--json", "--against", old, *LAN)
            wanted = f"report: {old}: it is no report that tools/report --json has written\n"
            self.assertEqual((done.returncode, done.stdout, done.stderr), (8, "", wanted))


class Origins(unittest.TestCase):
    @unittest.skipUnless(os.access(MRT, os.X_OK), "the program is not built")
    def test_what_it_was_made_of(self) -> None:
        found = json.loads(run_report("--json", *LAN).stdout)["made"]
        for part, path in (("database", LAN[0]), ("profile", LAN[1])):
            with open(path, "rb") as file:
                self.assertEqual((found[part]["sha256"], found[part]["file"]), (origin.digest(file.read()), path))
        # (one router is withdrawn, and of the others some LSAs have older instances)
        self.assertEqual((found["database"]["lsas"], found["host"]), (9, os.uname().nodename))
        self.assertLess(abs((installed.seconds_of(found["at"]) or 0) - time.time()), 100)

    def test_versions(self) -> None:
        with tempfile.TemporaryDirectory() as folder:
            path = os.path.join(folder, "mrt")
            for script, wanted in (
                ("echo Semborui 1.0; echo commit x; exit 0", "Semborui 1.0, commit x"),
                ("exit 2", None),
            ):
                with open(path, "w", encoding="ascii") as file:
                    file.write(f"#!/bin/sh\n{script}\n")
                os.chmod(path, 0o755)
                self.assertEqual(origin.version(path), wanted)


# sites and the matrix


@unittest.skipUnless(os.access(MRT, os.X_OK), "the program is not built")
class Overviews(unittest.TestCase):
    def test_the_matrix_beside_each_packet(self) -> None:
        written(8, self.check_matrix, 8)

    def check_matrix(self, one: Written) -> None:
        found = matrix.matrix_of(one.facts, lambda node: node.text, {})
        self.assertEqual(
            [column.name for column in found.columns], [one.graph.nodes[each].text for each in one.graph.routers]
        )
        rows = {row.element: row.cells for rows in found.rows.values() for row in rows}
        for element in range(len(one.graph.bonds) + len(one.graph.nodes)):
            met: dict[int, set[int]] = {}
            for router in one.graph.routers:
                for target, _ in one.facts.hops_of(router):
                    repair = met_by(one, router, target, element)
                    if repair is not None:
                        met.setdefault(router, set()).add(repair)
            cells = rows.get(one.graph.of_element(element).text, "n" * len(found.columns))
            for router, cell in zip(one.graph.routers, cells):
                codes = met.get(router, set())
                kinds = {"n"} if not codes else {"g", "c"} if GAP in codes else {"p"} if PARTED in codes else {"r"}
                self.assertIn(cell, kinds | ({"p"} if {GAP, PARTED} <= codes else set()))

    def test_many_routers_are_in_columns_of_sites(self) -> None:
        whole, of = star(70), {node(each): "ab"[each % 2] for each in range(1, 71)}
        self.assertEqual([column.name for column in matrix.columns_of(whole, str, of)], ["a", "b"])
        columns = matrix.columns_of(whole, lambda node: node.text, {})
        self.assertLessEqual(len(columns), matrix.WIDE)
        self.assertEqual(sum(size_of(column.routers) for column in columns), 70)

    def test_a_large_area_is_drawn_by_site(self) -> None:
        whole = area_of([(1, 2), (2, 3), (3, 4), (1, 4), (4, 5)], [[2, 6]])
        cuts_found = cuts.single_points(whole.nodes, whole.bonds)
        of = {node(1): "west", node(2): "west", node(6): "west", node(3): "east", node(4): "east"}
        drawing = overview.site_drawing(whole, islands.Islands([], [], set(), set()), cuts_found, of)
        self.assertEqual([mark.name for mark in drawing.marks], ["east", overview.NO_SITE, "west"])
        self.assertEqual(
            [mark.word for mark in drawing.marks],
            ["2 routers, 1 single point", "1 router", "3 routers, 2 single points"],
        )
        tips = {stroke.tip: stroke.sort for stroke in drawing.strokes}
        self.assertEqual(tips, {"east \u2013 west: 2 links": "link", "east \u2013 no site: 1 link": "cut"})


def star(count: int) -> facts.Facts:
    whole = area_of([(1, each) for each in range(2, count + 1)])
    return facts.Facts(facts.Ground(Graph(whole), islands.Islands([], [], set(), set()), []))


def met_by(one: Written, router: int, target: int, element: int) -> int | None:
    """What becomes of a pair's packets that meet an element which is no end of the pair; none where they do not."""
    end = len(one.graph.bonds)
    if element in (end + router, end + target):
        return None
    while router != target:
        hop, repairs = one.facts.rows[router][target]
        if element in hop.elements:
            return repairs[hop.elements.index(element)]
        router = hop.following
    return None
