"""What a router installs: that packets over the printed routes arrive wherever `mrt` says so, in a model of the
kernels and over random networks; and the words of the script."""
import json
import os
import re
import subprocess
import tempfile
import unittest
from collections import defaultdict
from ipaddress import IPv4Network
from random import Random
from typing import Iterator, NamedTuple

from mrttools import area, lsas
from mrttools.area import Bond, Node
from mrttools.lab import failures
from mrttools.lab.failures import Failure
from mrttools.lab.network import Plan, owner, router_id
from mrttools.lab.plans import PLANS
from mrttools.paths import Graph
from mrttools.program import Program
from mrttools.router import frr, kernel, nexthops
from mrttools.router.kernel import TABLES, Entry, Interfaces
from mrttools.router.nexthops import Unfit, Ways
from mrttools.router.owners import Daemon
from mrttools.router.prefixes import Prefixes
from tests.making import DATA, MRT, TOOLS, router_lsa
from tests.networks import lsas_of, random_plan

ROUTE = re.compile(r"(\S+)/32 via (\S+)(?: metric (\d+))?(?: realm (\d+))?(?: table (\d+))? proto 78")



def entries_of(ways: Ways) -> list[Entry]:
    """What a router has for the host prefixes of the others."""
    return Prefixes(ways, Daemon(None, Interfaces(None)), False).entries()


class Route(NamedTuple):
    metric: int
    gateway: str
    color: int | None


class Kernels:
    """The routes of all routers, and what they do with a packet."""

    def __init__(self, plan: Plan, mrt: Program, found: list[lsas.Lsa], daemon: Random | None = None) -> None:
        self.plan = plan
        self.main: dict[tuple[int, str], list[Route]] = defaultdict(list)
        self.colored: dict[tuple[int, int, str], str] = {}
        for router in plan.routers:
            if router not in plan.maintenance:
                ways = Ways(mrt, found, lsas.address(router_id(router)))
                for entry in entries_of(ways):
                    for text in kernel.routes_of(entry, Interfaces(None), daemon is not None, 0):
                        self.put(router, text)
                if daemon:
                    self.put_one_of_several(router, ways, daemon)

    def put_one_of_several(self, router: int, ways: Ways, random: Random) -> None:
        """The routes of a daemon that has lost all next hops of equal cost but one."""
        beginnings = Graph(ways.area).beginnings(ways.router)
        for line in ways.lines:
            bond = random.choice(sorted(beginnings[line.to]))
            gateway = lsas.spelled(ways.address_on(bond, bond.far(ways.router)))
            self.main[router, line.to.text].append(Route(0, gateway, None))

    def put(self, router: int, text: str) -> None:
        whole = ROUTE.fullmatch(text)
        assert whole, text
        prefix, gateway, metric, realm, table = whole.groups()
        if table:
            self.colored[router, TABLES.index(int(table)), prefix] = gateway
        else:
            color = kernel.REALMS.index(int(realm)) if realm else None
            self.main[router, prefix].append(Route(int(metric), gateway, color))

    def wire_to(self, router: int, gateway: str) -> int:
        """The wire over which a router sees an address."""
        net = gateway.rsplit(".", 1)[0]
        return next(
            number for number, wire in enumerate(self.plan.wires) if wire.net == net and router in wire.metrics
        )

    def arrives(self, source: int, target: int, failure: Failure) -> bool:
        """Whether a packet comes to a router, by the routers' ports that are down and the words on LANs."""
        at, color, to = source, None, router_id(target)
        for _ in range(4 * len(self.plan.routers)):
            if at == target:
                return True
            step = self.step(at, to, color, failure)
            if step is None:
                return False
            color, gateway = step
            at = owner(gateway)
            if at == failure.router or failures.port(self.wire_to(at, gateway), at) in failure.ports:
                return False
        return False

    def step(self, at: int, to: str, color: int | None, failure: Failure) -> tuple[int | None, str] | None:
        """The color after a router and the next hop, if there is one."""

        def up(gateway: str) -> bool:
            return failures.port(self.wire_to(at, gateway), at) not in failure.ports

        if color is not None:
            gateway = self.colored[at, color, to]
            return (color, gateway) if up(gateway) else None
        for route in sorted(self.main[at, to]):
            if up(route.gateway) and not (route.metric == kernel.PRIMARY and route.gateway in failure.gone):
                return route.color, route.gateway
        return None


@unittest.skipUnless(os.path.exists(MRT), "the program is not built")
class Arrival(unittest.TestCase):
    """A packet over the kernels arrives exactly where mrt fabric delivers it."""

    def check(self, plan: Plan, daemon: Random | None = None) -> int:
        """How many packets were lost. Where the kernels have other primaries than mrt, some of those arrive."""
        touched = 0
        with tempfile.NamedTemporaryFile() as file:
            file.write(lsas_of(plan))
            file.flush()
            mrt = Program(MRT, file.name, "-")
            kernels = Kernels(plan, mrt, list(lsas.split(lsas_of(plan))), daemon)
            for failure in failures.failures(plan):
                lost = failures.lost_by_mrt(mrt, plan, failure)
                for source, target in failures.pairs(plan):
                    if failure.router not in (source, target):
                        arrived = kernels.arrives(source, target, failure)
                        fits = arrived == ((source, target) not in lost) or (daemon and arrived)
                        self.assertTrue(fits, (plan, failure, source, target))
                touched += len(lost)
        return touched

    def test_the_networks_of_the_lab(self) -> None:
        for name in ("stubs",):
            self.check(PLANS[name])

    def test_random_networks(self) -> None:
        random = Random(54)
        self.assertGreater(sum(self.check(random_plan(random, 3)) for _ in range(4)), 8)

    def test_beside_daemons_that_lost_next_hops_of_equal_cost(self) -> None:
        random = Random(64)
        for _ in range(3):
            self.check(random_plan(random, 1), random)


class ShortestPaths(unittest.TestCase):
    def ways(self, links: dict[Node, list[Bond]], to: list[Node]) -> Iterator[tuple[int, list[Node]]]:
        """The ways that go on from one, and meet no node twice, with their costs."""
        yield 0, to
        for bond in links[to[-1]]:
            if bond.far(to[-1]) not in to:
                for cost, way in self.ways(links, [*to, bond.far(to[-1])]):
                    yield cost + (bond.metric_from(to[-1]) or 0), way

    def test_beginnings_are_those_of_all_ways(self) -> None:
        random = Random(5)
        for _ in range(9):
            whole = area.area_of(lsas.split(lsas_of(random_plan(random, 2))))
            graph, links = Graph(whole), area.links_at(whole)
            for source in whole.nodes:
                found = graph.beginnings(source)
                self.assertEqual(set(found), set(whole.nodes) - {source})
                wanted: dict[Node, dict[int, set[Bond]]] = defaultdict(lambda: defaultdict(set))
                for bond in links[source]:
                    for cost, way in self.ways(links, [source, bond.far(source)]):
                        wanted[way[-1]][cost + (bond.metric_from(source) or 0)].add(bond)
                self.assertEqual(found, {node: costs[min(costs)] for node, costs in wanted.items()})


class Letters(unittest.TestCase):
    """Which repair is for which failure."""

    def test_over_a_link(self) -> None:
        wanted = {"br": 1, "b-": 0, "-r": 1, "--": None, "rb": 0}
        for letters, color in wanted.items():
            self.assertEqual(nexthops.repairs(letters), (None, color), letters)

    def test_over_a_lan(self) -> None:
        wanted = {"brrb": (0, 1), "b---": (None, 0), "--r-": (1, None), "----": (None, None), "bbr-": (1, 0)}
        for letters, colors in wanted.items():
            self.assertEqual(nexthops.repairs(letters), colors, letters)


class Stand(Program):
    """A stand-in for the program over the sample with a LAN."""

    def __init__(self) -> None:
        super().__init__("sh", f"{DATA}/lan.lsas", f"{DATA}/lan.profile")

    def run(self, command: str, *_: str) -> bytes:
        with open(f"{DATA}/lan.cert", "rb") as file:
            return file.read()

    def lines(self, command: str, *_: str) -> list[str]:
        if command == "fabric":
            return ["entered 0", "moved 10.255.1.3", "entered 1", "moved 10.255.1.3"]
        row = "carried blue net:198.51.100.4/198.51.100.4 red net:198.51.100.4/198.51.100.4"
        return [
            "router 10.255.1.4 root 10.255.1.1 nodes 7 links 8",
            f"10.255.1.1 {row} primary net:198.51.100.4/198.51.100.4 repair --b-",
            f"10.255.1.5 {row} primary 10.255.1.5/192.0.2.13 repair b-",
            f"10.255.1.6 {row} primary net:198.51.100.4/198.51.100.4 repair ----",
        ]


class Sample(unittest.TestCase):
    """The routes of 10.255.1.4 in the sample, with a link that the profile keeps out of the island."""

    def setUp(self) -> None:
        with open(f"{DATA}/lan.lsas", "rb") as file:
            self.ways = Ways(Stand(), list(lsas.split(file.read())), lsas.address("10.255.1.4"))

    def routes(self, daemon: bool, names: dict[int, str] | None = None) -> list[str]:
        found = entries_of(self.ways)
        return [text for entry in found for text in kernel.routes_of(entry, Interfaces(names), daemon, 0)]

    def test_next_hops_are_addresses(self) -> None:
        self.assertEqual(
            self.routes(daemon=False)[:4],
            [
                "10.255.1.1/32 via 198.51.100.3 metric 20 proto 78",
                "10.255.1.1/32 via 198.51.100.2 metric 25 realm 101 proto 78",
                "10.255.1.1/32 via 198.51.100.2 table 7811 proto 78",
                "10.255.1.1/32 via 198.51.100.1 table 7812 proto 78",
            ],
        )

    def test_beside_a_daemon(self) -> None:
        routes = self.routes(daemon=True)
        self.assertFalse(any("metric 20 " in text for text in routes))
        self.assertIn(f"10.255.1.5/32 via 198.51.100.2 metric {200 * 2**24 + 30} realm 101 proto 78", routes)

    def test_devices(self) -> None:
        names = {lsas.address("198.51.100.4"): "lan0", lsas.address("192.0.2.13"): "eth1"}
        self.assertIn("10.255.1.5/32 via 192.0.2.14 dev eth1 metric 20 proto 78", self.routes(False, names))
        inside = Interfaces(names | {1: "customer"}).of(self.ways.own_addresses())
        self.assertIn('iifname != { "eth1", "lan0" }', kernel.marking((3, 7), inside))
        with self.assertRaises(Unfit):
            self.routes(False, {})

    def test_names_that_a_script_would_read_otherwise(self) -> None:
        """Such an interface is as one that is not there; the others are."""
        for name in ("a b", "a;b", "$(x)", '"', "a\nb", "'", "", "\udcff", "sixteen_letters_"):
            found = Interfaces({1: name, 2: "eth0"})
            self.assertEqual((found.names, found.odd), ({2: "eth0"}, [name]))
            with self.assertRaises(Unfit):
                found.device(1)


class Maintenance(unittest.TestCase):
    def test_a_link_of_the_greatest_metric_is_in_no_island(self) -> None:
        ends = [("2.2.2.2", "10.0.0.1", 1, 65535), ("2.2.2.2", "10.0.1.1", 1, 1)]
        back = [("1.1.1.1", "10.0.0.2", 1, 1), ("1.1.1.1", "10.0.1.2", 1, 1)]
        whole = area.area_of(map(lsas.lsa_of, [router_lsa("1.1.1.1", ends), router_lsa("2.2.2.2", back)]))
        self.assertEqual(area.island_bonds(whole, whole.nodes, set()), whole.bonds[1:])


class TheTool(unittest.TestCase):
    def run_fib(self, *words: str) -> subprocess.CompletedProcess[str]:
        command = [os.path.join(TOOLS, "fib"), *words]
        return subprocess.run(command, stdout=subprocess.PIPE, stderr=subprocess.PIPE, text=True, check=False)

    def test_words(self) -> None:
        for words in (
            (),
            ("a", "b"),
            ("--remove", "a", "b", "1.1.1.1"),
            ("--dscp", "3,3", "a", "b", "1.1.1.1"),
            ("--dscp", "1,3", "a", "b", "1.1.1.1"),
            ("--dscp", "3,67", "a", "b", "1.1.1.1"),
            ("--dscp", "3,7,11", "a", "b", "1.1.1.1"),
            ("--dscp", "", "a", "b", "1.1.1.1"),
            ("a", "b", "1.1.1"),
        ):
            self.assertEqual(self.run_fib(*words).returncode, 2, words)

    def test_remove(self) -> None:
        done = self.run_fib("--remove")
        self.assertEqual((done.returncode, done.stderr), (0, ""))
        self.assertIn("ip route flush table 7812 proto 78", done.stdout)

    @unittest.skipUnless(os.path.exists(MRT), "the program is not built")
    def test_links_without_addresses(self) -> None:
        """What needs such a link is left out, and told; what does not stays."""
        plan, loopback = PLANS["lab"], "10.255.0.8/32"
        without = {router_id(8): [(router_id(8), "255.255.255.255", 3, 0), (router_id(5), "0.0.0.7", 1, 10)]}
        with tempfile.NamedTemporaryFile() as file:
            for record in lsas.split(lsas_of(plan)):
                spoken = without.get(lsas.spelled(record.router))
                file.write(router_lsa(router_id(8), spoken) if spoken else record.record)
            file.flush()
            done = self.run_fib("--mrt", MRT, file.name, "-", "10.255.0.5")
        self.assertEqual(done.returncode, 0, done.stderr)
        self.assertIn(
            f"fib: {loopback}: left out, the link of 10.255.0.5 and 10.255.0.8 has no address at", done.stderr
        )
        self.assertNotIn(loopback, done.stdout)
        self.assertIn("10.255.0.1/32 via", done.stdout)

    @unittest.skipUnless(os.path.exists(MRT), "the program is not built")
    def test_the_script(self) -> None:
        sample = [f"{DATA}/lan.lsas", f"{DATA}/lan.profile"]
        done = self.run_fib("--mrt", MRT, "--dscp", "11,15", *sample, "10.255.1.4")
        self.assertEqual(done.returncode, 0, done.stderr)
        for words in (
            "ip dscp 11 meta mark set meta mark & 0xe0ffffff | 0x1000000",
            "rt classid & 0xffff == 102 counter ip dscp set 15",
            "lookup 7812",
        ):
            self.assertIn(words, done.stdout)
        self.assertEqual(subprocess.run(["sh", "-n"], input=done.stdout, text=True, check=False).returncode, 0)
        self.assertEqual(self.run_fib("--mrt", MRT, *sample, "9.9.9.9").returncode, 7)

    @unittest.skipUnless(os.path.exists(MRT), "the program is not built")
    def test_frr_and_what_comes_beside(self) -> None:
        """Together they have what the script of ip has: rows and primaries as static routes, repairs beside."""
        words = ["--mrt", MRT, f"{DATA}/lan.lsas", f"{DATA}/lan.profile", "10.255.1.4"]
        script, static_routes, beside = (
            self.run_fib("--format", each, *words).stdout for each in ("ip", "frr", "beside")
        )
        routes = [line for line in script.splitlines() if line.startswith("route ")]
        static = set()
        for prefix, gateway, table in re.findall(
            r"route replace (\S+) via (\S+) (metric 20|table \d+) proto", script
        ):
            static.add(f"ip route {prefix} {gateway}" + ("" if "metric" in table else f" {table}"))
        static |= {f"ip route 0.0.0.0/0 reject table {table}" for table in TABLES}
        self.assertEqual(set(static_routes.splitlines()), static)
        repairs = [line for line in beside.splitlines() if line.startswith("route ")]
        self.assertEqual(len(static) + len(repairs), len(routes))
        self.assertTrue(
            all(" realm " in line and int(line.split(" metric ")[1].split()[0]) > 200 << 24 for line in repairs)
        )
        for line in script.splitlines():
            self.assertTrue(line.startswith("route ") or line in beside, line)

    def test_frr_with_another_daemon(self) -> None:
        """The primaries are the daemon's, and those that are after it come beside."""
        hop, row = (nexthops.Hop(number, lsas.address(f"192.0.2.{number}")) for number in (1, 2))
        entry = kernel.Entry("10.0.0.0/24", hop, 20, [(30, 1, row)], [None, row])
        names = Interfaces({1: "dev0", 2: "b", 3: "c"}, {3: IPv4Network("10.0.0.0/24")})
        wanted = [
            "ip route 10.0.0.0/24 192.0.2.1 dev0",
            "ip route 10.0.0.0/24 c table 7817",
            "ip route 10.0.0.0/24 192.0.2.2 b table 7818",
        ]
        self.assertEqual(frr.configuration([entry], names, False, 3).splitlines()[:3], wanted)
        self.assertEqual(frr.configuration([entry], names, True, 3).splitlines()[:2], wanted[1:])
        self.assertEqual([len(frr.beside([entry], names, daemon, 3)) for daemon in (False, True)], [1, 2])

    @unittest.skipUnless(os.path.exists(MRT), "the program is not built")
    def test_addresses(self) -> None:
        with tempfile.NamedTemporaryFile("w") as file:
            words = ["--mrt", MRT, "--addresses", file.name, f"{DATA}/lan.lsas", f"{DATA}/lan.profile", "10.255.1.4"]
            for said in ("", "{}", "[1]", '[{"addr_info": [{"local": "x"}], "ifname": "e"}]'):
                file.truncate(0)
                os.pwrite(file.fileno(), said.encode(), 0)
                done = self.run_fib(*words)
                self.assertEqual((done.returncode, done.stdout), (8, ""), said)
                self.assertIn(file.name, done.stderr)
            file.truncate(0)
            names = {"198.51.100.4": "lan0", "192.0.2.13": "eth1"}
            said = json.dumps([{"ifname": name, "addr_info": [{"local": one}]} for one, name in names.items()])
            os.pwrite(file.fileno(), said.encode(), 0)
            self.assertIn("via 192.0.2.14 dev eth1 metric 20", self.run_fib(*words).stdout)


if __name__ == "__main__":
    unittest.main()
