"""The report: facts of the sample by hand, and those of random areas beside the program and a plain search."""
import json
import os
import shutil
import signal
import subprocess
import tempfile
import unittest
from io import StringIO
from random import Random
from typing import Any, ClassVar

from mrttools import area, lsas
from mrttools.area import Bond, Node
from mrttools.page import cross_check, facts, islands, plain_values
from mrttools.page.stretches import Spread
from mrttools.paths import FAR, METRIC, Graph
from mrttools.program import Program
from mrttools.progress import Progress
from tests.making import DATA, MRT, TOOLS, router_lsa
from tests.test_cuts import connected, name, records_of

SCHEMA = os.path.join(os.path.dirname(TOOLS), "docs", "report.schema.json")


def run_report(*words: str) -> subprocess.CompletedProcess[str]:
    command = [f"{TOOLS}/report", "--mrt", MRT, *words]
    return subprocess.run(command, stdout=subprocess.PIPE, stderr=subprocess.PIPE, text=True, check=False)


@unittest.skipUnless(os.access(MRT, os.X_OK), "the program is not built")
class Sample(unittest.TestCase):
    """The sample with a LAN: 10.255.1.6 hangs on 10.255.1.3, and this on the LAN."""

    done: ClassVar[subprocess.CompletedProcess[str]]
    values: ClassVar[Any]

    @classmethod
    def setUpClass(cls) -> None:
        done = run_report("--json", f"{DATA}/lan.lsas", f"{DATA}/lan.profile")
        cls.done, cls.values = done, json.loads(done.stdout or "null")

    def test_it_ends_well(self) -> None:
        self.assertEqual((self.done.returncode, self.done.stderr), (0, ""))

    def test_the_schema(self) -> None:
        try:
            import jsonschema
        except ImportError:
            self.skipTest("python3-jsonschema is not installed")
        with open(SCHEMA, encoding="utf-8") as file:
            schema = json.load(file)
        jsonschema.Draft202012Validator.check_schema(schema)
        checked = jsonschema.Draft202012Validator(schema)
        self.assertEqual([fault.message for fault in checked.iter_errors(self.values)], [])
        for wrong in ({"verdict": "well"}, {"more": 1}, {"pairs": {}}):
            self.assertFalse(checked.is_valid(self.values | wrong))

    def test_the_area(self) -> None:
        found = self.values["area"]
        self.assertEqual((found["routers"], found["networks"], found["links"]), (6, 1, 9))
        self.assertEqual(found["islands"], [{"root": "10.255.1.1", "routers": 6, "networks": 1, "links": 8}])
        (outside,) = found["links_outside"]
        self.assertEqual(
            (outside["element"], outside["why"]), ("link:10.255.1.4/192.0.2.13", "kept out by the profile")
        )
        (half,) = found["told_by_one_end"]
        self.assertEqual((half["from"], half["to"], half["there"]), ("10.255.1.4", "10.255.1.7", False))

    def test_single_points(self) -> None:
        found = [(point["element"], point["pairs"]) for point in self.values["single_points"]]
        self.assertEqual(
            found,
            [
                ("net:198.51.100.4", 16),
                ("link:10.255.1.3/198.51.100.3", 16),
                ("link:10.255.1.3/192.0.2.17", 10),
                ("10.255.1.3", 8),
            ],
        )

    def test_not_repaired_though_there_is_a_way(self) -> None:
        """10.255.1.4 has a second link, which the profile keeps out."""
        found = {each["element"]: (each["gaps"], each["parted"]) for each in self.values["failures"] if each["gaps"]}
        self.assertEqual(found, {"link:10.255.1.4/198.51.100.4": (12, 0), "net:198.51.100.4": (6, 16)})
        (gap,) = self.values["gaps"]
        self.assertEqual(
            [(cause["cause"], cause["element"]) for cause in gap["causes"]],
            [("ineligible", "link:10.255.1.4/192.0.2.13")],
        )

    def test_pairs_are_counted_once(self) -> None:
        """Those of 10.255.1.4 but with 10.255.1.3 and 10.255.1.6 on one side of the LAN could be repaired; those of the
        other four with these two, and of these two with each other, cannot be."""
        pairs = self.values["pairs"]
        self.assertEqual((pairs["all"], pairs["repaired"] + pairs["parted"] + pairs["gaps"]), (30, 30))
        self.assertEqual(self.values["verdict"], "protected")

    def test_routers(self) -> None:
        found = {router["router"]: router for router in self.values["routers"]}
        self.assertEqual(found["10.255.1.1"]["part"], "root")
        # All of its packets go over its one link, which nothing replaces.
        self.assertEqual((found["10.255.1.6"]["pairs"], found["10.255.1.6"]["first_link"]["colors"]), (5, 0))
        self.assertEqual([name for name, router in found.items() if router["single_point"]], ["10.255.1.3"])


@unittest.skipUnless(os.access(MRT, os.X_OK), "the program is not built")
class SmallAreas(unittest.TestCase):
    """Areas of which some part of the report has nothing to say."""

    def values_of(self, records: list[bytes]) -> Any:
        with tempfile.NamedTemporaryFile(suffix=".lsas") as file:
            file.write(b"".join(records))
            file.flush()
            if shutil.which("dot"):
                self.assertIn("</html>", run_report(file.name, "-").stdout)
            return json.loads(run_report("--json", file.name, "-").stdout)

    def test_one_router(self) -> None:
        values = self.values_of([router_lsa(name(1), [])])
        self.assertEqual((values["area"]["alone"], values["coverage"]["pairs"]), ([name(1)], 0))
        self.assertEqual((values["stretch"]["metric"], values["stretch"]["worst"]), (None, []))

    def test_two_islands(self) -> None:
        values = self.values_of(records_of([(1, 2), (3, 4)], [], [10]))
        self.assertEqual([island["root"] for island in values["area"]["islands"]], [name(2), name(4)])
        self.assertEqual((values["area"]["pairs"], values["area"]["pairs_without_way"]), (4, 8))
        self.assertEqual(values["pairs"], {"all": 4, "repaired": 0, "parted": 4, "gaps": 0, "demand": None})


class Written:
    """A random area in files, and what the report finds of it."""

    def __init__(self, random: Random, folder: str) -> None:
        self.database, profile = os.path.join(folder, "area.lsas"), os.path.join(folder, "area.profile")
        count = random.randint(3, 7)
        routers = range(1, count + 1)
        links = [(each, random.randint(1, each - 1)) for each in range(2, count + 1)]
        links += [(one, other) for one, other in (random.sample(routers, 2) for _ in range(random.randint(0, count)))]
        lans = [random.sample(routers, random.randint(2, count)) for _ in range(random.choice([0, 1, 1, 2]))]
        metrics = [random.choice([1, 2, 2, 3, 5]) for _ in range(2 * len(links))]
        if random.random() < 0.4:
            metrics[0] = area.MAINTENANCE
        with open(self.database, "wb") as file:
            file.write(b"".join(records_of(links, lans, metrics)))
        with open(profile, "w", encoding="ascii") as file:
            file.write(random.choice(["", "", f"no-mrt {name(count)}\n", f"ineligible {name(2)} 10.0.0.2\n"]))
        self.mrt = Program(MRT, self.database, profile)
        self.found = plain_values.find(self.mrt, lambda *_: None)
        self.facts, self.graph = self.found.facts, self.found.facts.graph

    def lines(self, *words: str) -> list[list[str]]:
        done = subprocess.run(
            [MRT, *words], stdout=subprocess.PIPE, stderr=subprocess.DEVNULL, text=True, check=False
        )
        return [line.split(" ") for line in done.stdout.splitlines()[1:]]

    def is_router(self, word: str) -> bool:
        return not word.startswith("net:")


def written(seed: int, check: Any, times: int) -> None:
    random = Random(seed)
    for _ in range(times):
        with tempfile.TemporaryDirectory() as folder:
            check(Written(random, folder))


@unittest.skipUnless(os.access(MRT, os.X_OK), "the program is not built")
class BesideTheProgram(unittest.TestCase):
    def test_alternates_and_repairs(self) -> None:
        written(1, self.check_coverage, 5)

    def check_coverage(self, one: Written) -> None:
        for router in one.graph.routers:
            text, own = one.graph.nodes[router].text, one.facts.coverage[router]
            told = [line for line in one.lines("lfa", one.database, text) if one.is_router(line[0])]
            self.assertEqual(own.pairs, len(told))
            self.assertEqual(own.lfa_link, sum(line[4] != "none" for line in told))
            self.assertEqual(own.lfa_node, sum(line[-1] == "node" for line in told))
            table = [
                line for line in one.lines("table", one.database, one.mrt.profile, text) if one.is_router(line[0])
            ]
            self.assertEqual(own.colors_link, sum(line[-1][0] != "-" for line in table))
            self.assertEqual(own.colors_node, sum(line[-1][-1] != "-" for line in table))
            for line in table:
                hop, _ = one.facts.rows[router][one.graph.number[area.node_of(line[0])]]
                bond = one.graph.bonds[hop.bonds[0]]
                data = bond.data_of(one.graph.nodes[router])
                wanted = f"{bond.far(one.graph.nodes[router]).text}/{lsas.spelled(data or 0)}"
                self.assertEqual(line[line.index("primary") + 1], wanted)

    def test_traces(self) -> None:
        random = Random(2)

        def check(one: Written) -> None:
            pairs = [(router, target) for router in one.graph.routers for target, _ in one.facts.hops_of(router)]
            for router, target in random.sample(pairs, min(4, len(pairs))):
                failed = random.choice(one.facts.rows[router][target][0].elements)
                texts = [one.graph.nodes[each].text for each in (router, target)]
                words = [*texts, "repair", facts.name_of(one.graph, failed)]
                told = one.lines("trace", one.database, one.mrt.profile, *words)[1:]
                own = cross_check.trace(one.facts, router, target, failed)
                self.assertEqual([" ".join(line) for line in told], own)

        written(3, check, 6)


@unittest.skipUnless(os.access(MRT, os.X_OK), "the program is not built")
class BesideAPlainSearch(unittest.TestCase):
    """Each packet is followed on its own, link by link."""

    def test_loads_and_losses(self) -> None:
        written(4, self.check_loads, 8)

    def check_loads(self, one: Written) -> None:
        elements = range(len(one.graph.bonds) + len(one.graph.nodes))
        before, _ = self.loads_after(one, None)
        after = {failed: self.loads_after(one, failed) for failed in elements}
        for place, own in enumerate(plain_values.load_values(one.facts)):
            self.assertEqual(own["primaries"], before[place])
            self.assertEqual(
                own["most"], max(loads[place] for failed, (loads, _) in after.items() if failed != place)
            )
        for failed, (loads, lost) in after.items():
            toll = one.facts.losses.tolls[failed]
            self.assertEqual(toll.parted + toll.gaps, lost)
            change = one.facts.loads.changes.get(failed, [0] * len(before))
            self.assertEqual([one + more for one, more in zip(before, change)], loads)

    def loads_after(self, one: Written, failed: int | None) -> tuple[list[int], int]:
        """The load of each link after a failure, and how many pairs lose packets but for those whose end has failed."""
        loads, lost = [0] * len(one.graph.bonds), 0
        gone = None if failed is None else one.graph.of_element(failed)
        for router in one.graph.routers:
            for target, _ in one.facts.hops_of(router):
                if one.graph.nodes[router] == gone:
                    continue
                bonds, arrived = self.follow(one, router, target, gone)
                for bond in bonds:
                    loads[one.graph.place[bond]] += 1
                lost += not arrived and one.graph.nodes[target] != gone
        return loads, lost

    def follow(self, one: Written, router: int, target: int, gone: Node | Bond | None) -> tuple[list[Bond], bool]:
        """The links that a packet goes over, and whether it arrives."""
        nodes, at = one.graph.nodes, router
        bonds: list[Bond] = []
        while at != target:
            hop, _ = one.facts.rows[at][target]
            if gone is not None and one.graph.element(gone) in hop.elements:
                for color in (0, 1):
                    way = self.color_way(one, nodes[at], nodes[target], color, gone)
                    if way is not None:
                        return bonds + way, True
                return bonds, False
            bonds += [one.graph.bonds[bond] for bond in hop.bonds]
            at = hop.following
        return bonds, True

    def color_way(self, one: Written, at: Node, to: Node, color: int, gone: Node | Bond) -> list[Bond] | None:
        island = next((each for each in one.found.islands.shared if to in each.certificate.nodes), None)
        if island is None or at not in island.certificate.nodes or gone == to:
            return None
        cert, way = island.certificate, []
        while at != to:
            bond = island.bonds[cert.link(color, cert.nodes.index(at), cert.nodes.index(to))]
            at = bond.far(at)
            if gone in (bond, at):
                return None
            way.append(bond)
        return way

    def test_classes_of_pairs(self) -> None:
        self.gaps = 0
        written(6, self.check_classes, 40)
        self.assertGreater(self.gaps, 100)

    def check_classes(self, one: Written) -> None:
        """Each pair after each failure: whether its packet arrives, and whether there is a way in the area."""
        classes: dict[tuple[int, int], str] = {}
        nodes = one.graph.nodes
        for failed in range(len(one.graph.bonds) + len(nodes)):
            gone, toll = one.graph.of_element(failed), one.facts.losses.tolls[failed]
            joined, counts = connected(one.found.area, gone), [0, 0]
            for router in one.graph.routers:
                for target, _ in one.facts.hops_of(router):
                    pair = router, target
                    classes.setdefault(pair, "repaired")
                    if gone in (nodes[router], nodes[target]) or self.follow(one, router, target, gone)[1]:
                        continue
                    way = (nodes[router], nodes[target]) in joined
                    counts[way] += 1
                    classes[pair] = "gaps" if way or classes[pair] == "gaps" else "parted"
            self.assertEqual((toll.parted, toll.gaps), tuple(counts))
        told = plain_values.pair_values(one.facts)
        for word in ("repaired", "parted", "gaps"):
            self.assertEqual(told[word], list(classes.values()).count(word))
        self.assertEqual(sum(tally.pairs for tally in one.found.tallies.values()), told["gaps"])
        self.assertNotIn((), one.found.tallies)
        self.gaps += told["gaps"]

    def test_without_a_cause_more_pairs_are_repaired(self) -> None:
        """Where a cause alone holds pairs, the area without it has as many more at least that are repaired."""
        self.tried = 0
        written(7, self.check_alone, 40)
        self.assertGreater(self.tried, 5)

    def check_alone(self, one: Written) -> None:
        with open(one.mrt.profile, encoding="ascii") as file:
            lines = file.read()
        for causes, tally in one.found.tallies.items():
            if lines and all(cause.by_choice for cause in causes):
                found = plain_values.find(Program(MRT, one.database, "-"), lambda *_: None)
                more = plain_values.pair_values(found.facts)["repaired"] - plain_values.pair_values(one.facts)["repaired"]
                self.assertGreaterEqual(more, tally.alone)
                if all(bond.transit for bond in one.graph.bonds):
                    # Nothing else could be the cause.
                    self.assertEqual(more, tally.alone)
                    self.tried += 1

    def test_the_least_ways(self) -> None:
        written(5, self.check_least, 8)

    def check_least(self, one: Written) -> None:
        """By trying all links again and again, with and without an element."""
        for failed in [-1, *range(len(one.graph.bonds) + len(one.graph.nodes))]:
            gone = None if failed < 0 else one.graph.of_element(failed)
            for router in one.graph.routers[:3]:
                if one.graph.nodes[router] != gone:
                    tree = one.graph.shortest(router)
                    own = tree.costs if failed < 0 else one.graph.without(tree, failed)
                    self.assertEqual(own, plain_costs(one.graph, router, gone))


def plain_costs(graph: Graph, router: int, gone: Node | Bond | None) -> list[int]:
    found = [FAR] * len(graph.nodes)
    found[router] = 0
    for _ in graph.nodes:
        for bond in graph.bonds:
            for tail in (bond.a, bond.b):
                metric, far = bond.metric_from(tail), bond.far(tail)
                if metric is not None and gone not in (bond, tail, far) and found[graph.number[tail]] < FAR:
                    cost = found[graph.number[tail]] + metric * METRIC + (far.kind == lsas.ROUTER)
                    found[graph.number[far]] = min(found[graph.number[far]], cost)
    return found


class Parts(unittest.TestCase):
    def test_quartiles(self) -> None:
        self.assertEqual(Spread([]).quartiles(), None)
        self.assertEqual(Spread([5, 1, 4, 2, 3]).quartiles(), [1, 2, 3, 4, 5])
        self.assertEqual(Spread([7]).quartiles(), [7] * 5)
        self.assertEqual(Spread([1, 2, 9], [0, 3, 1]).quartiles(), [2, 2, 2, 2, 9])

    def test_bars(self) -> None:
        self.assertEqual(Spread([1, 1, 2, 3, 9]).bars((1, 2, 5)), [2, 1, 1, 1])
        self.assertEqual(Spread([1, 2, 9], [0.5, 2, 4]).bars((1, 5)), [0.5, 2, 4])

    def test_a_link_of_the_greatest_metric_is_in_no_island(self) -> None:
        records = records_of([(1, 2), (1, 2)], [], [area.MAINTENANCE, 10, 10, 10])
        whole = area.area_of(map(lsas.lsa_of, records))
        inside = area.island_bonds(whole, whole.nodes, set())
        self.assertEqual([bond.metric_a for bond in inside], [10])
        found = islands.Islands([], [], set(), set())
        self.assertEqual([islands.why_not(bond, found) for bond in whole.bonds], ["metric 65535", None])

    def test_the_bar_is_for_terminals(self) -> None:
        class Terminal(StringIO):
            def isatty(self) -> bool:
                return True

        for to, wanted in ((StringIO(), ""), (Terminal(), "50 % work")):
            bar = Progress("report", to)
            bar.tell("work", 1, 2)
            bar.end()
            self.assertIn(wanted, to.getvalue())
            self.assertEqual(bool(to.getvalue()), bool(wanted))


class TheTool(unittest.TestCase):
    """The script with a stand-in for the program."""

    def run_with(self, script: str, *words: str) -> subprocess.Popen[str]:
        self.folder = tempfile.TemporaryDirectory()
        self.addCleanup(self.folder.cleanup)
        path = os.path.join(self.folder.name, "mrt")
        with open(path, "w", encoding="ascii") as file:
            file.write("#!/bin/sh\n" + script)
        os.chmod(path, 0o755)
        command = [f"{TOOLS}/report", "--mrt", path, *words, f"{DATA}/lan.lsas", f"{DATA}/lan.profile"]
        # (a shell has what it runs in the background ignore SIGINT, and so all below it)
        return subprocess.Popen(
            command,
            stdout=subprocess.PIPE,
            stderr=subprocess.PIPE,
            text=True,
            start_new_session=True,
            preexec_fn=lambda: signal.signal(signal.SIGINT, signal.SIG_DFL),
        )

    def test_what_the_program_refuses(self) -> None:
        done = self.run_with("echo 'mrt: bad database: length at 0' >&2; exit 3\n")
        self.assertEqual(done.communicate(), ("", "mrt: bad database: length at 0\n"))
        self.assertEqual(done.returncode, 3)

    def test_a_program_that_says_otherwise(self) -> None:
        script = f"case $1 in certify) cat {DATA}/lan.cert ;; *) echo router; echo 10.255.1.2 head blue ;; esac\n"
        done = self.run_with(script, "--json")
        output, told = done.communicate()
        self.assertEqual((done.returncode, output), (1, ""))
        self.assertTrue(told.startswith("report: mrt says otherwise of 10.255.1.1: 10.255.1.2 blue, and not"), told)

    def test_it_can_be_interrupted(self) -> None:
        done = self.run_with("touch $(dirname $0)/started; exec sleep 20\n")
        while not os.path.exists(os.path.join(self.folder.name, "started")):
            pass
        os.killpg(done.pid, signal.SIGINT)
        self.assertEqual(done.communicate(), ("", "report: interrupted\n"))
        self.assertEqual(done.returncode, 130)

    def test_names_that_are_none(self) -> None:
        done = self.run_with("exit 3\n", "--names", f"{DATA}/lan.profile")
        output, told = done.communicate()
        self.assertEqual((done.returncode, output), (15, ""))
        self.assertTrue(told.startswith("report: bad names: "), told)
