"""Which prefixes a router may have repairs for, and which of several nodes has one (RFC 2328, sections 16.1 and 16.2)."""
import json
import os
import subprocess
import tempfile
import unittest
from ipaddress import IPv4Network

from mrttools import lsas
from mrttools.area import node_of
from mrttools.exits import ToolFault
from mrttools.lab.network import PLAN, router_id
from mrttools.lsas import address, lsa_of
from mrttools.program import Program
from mrttools.router import owners
from mrttools.router.kernel import Interfaces
from mrttools.router.nexthops import Ways
from mrttools.router.owners import Daemon, Prefix, is_prefix
from mrttools.router.prefixes import Prefixes
from tests.making import MRT, TOOLS, lsa, router_lsa
from tests.networks import lsas_of

HOST = "255.255.255.255"


def prefix_of(text: str) -> Prefix:
    network = IPv4Network(text)
    return Prefix(int(network.network_address), int(network.netmask))


class Owners(unittest.TestCase):
    def of(self, *records: bytes) -> dict[str, dict[str, int]]:
        found = owners.owners_of(map(lsa_of, records))
        return {prefix.text: {node.text: metric for node, metric in own.items()} for prefix, own in found.items()}

    def test_masks(self) -> None:
        good = [(0, 0), (0x0A000000, 0xFF000000), (0x0A000001, 0xFFFFFFFF)]
        bad = [(0x0A000001, 0xFF000000), (0x0A000000, 0xFF00FF00), (1, 0)]
        self.assertEqual([is_prefix(*each) for each in good + bad], [True] * 3 + [False] * 3)

    def test_a_router_id_is_no_prefix(self) -> None:
        self.assertEqual(self.of(router_lsa("8.8.8.8", [("1.1.1.1", "10.0.0.1", 1, 1)])), {})

    def test_the_least_metric_of_a_router(self) -> None:
        stubs = [("10.9.0.0", "255.255.0.0", 3, metric) for metric in (7, 2, 5)]
        self.assertEqual(self.of(router_lsa("1.1.1.1", stubs)), {"10.9.0.0/16": {"1.1.1.1": 2}})

    def test_a_network_takes_no_place_of_a_stub(self) -> None:
        stub = router_lsa("9.9.9.9", [("9.9.9.9", HOST, 3, 0)])
        network = lsa(2, "9.9.9.9", "1.1.1.1", bytes([255] * 4) + address("1.1.1.1").to_bytes(4, "big"))
        wanted = {"9.9.9.9/32": {"9.9.9.9": 0, "net:9.9.9.9": 0}}
        self.assertEqual((self.of(stub, network), self.of(network, stub)), (wanted, wanted))

    def test_masks_that_are_none(self) -> None:
        bad = [("10.0.0.1", "255.0.0.0", 3, 1), ("10.0.0.0", "255.0.255.0", 3, 1)]
        self.assertEqual(self.of(router_lsa("1.1.1.1", bad)), {})

    def test_what_is_never_installed(self) -> None:
        for bad in ("0.0.0.0/0", "0.0.0.0/1", "128.0.0.0/1", "127.0.0.0/8", "127.0.0.1/32", "224.0.0.5/32", "169.254.0.0/16",
                    "255.255.255.255/32", "240.0.0.0/5", "0.0.0.0/32"):  # fmt: skip
            self.assertIsNotNone(owners.never(bad), bad)
            self.assertIsNotNone(Daemon(frozenset({bad}), Interfaces(None)).why_not(bad, True), bad)
        for good in ("10.0.0.0/8", "8.8.8.8/32", "192.0.2.0/24", "100.64.0.0/10", "64.0.0.0/3"):
            self.assertIsNone(owners.never(good), good)


class TheDaemon(unittest.TestCase):
    SAID = """[{"dst":"default","gateway":"192.0.2.1","dev":"a","protocol":"static"},
        {"dst":"10.0.0.1","gateway":"192.0.2.1","dev":"a","protocol":"ospf","metric":20},
        {"dst":"10.0.0.2","protocol":"188"}, {"dst":"10.1.0.0/16","protocol":"bird"}, {"dst":"default","protocol":"bird"},
        {"dst":"10.2.0.0/16","protocol":"12","type":"1"}, {"type":"blackhole","dst":"10.3.0.0/16","protocol":"ospf"},
        {"dst":"192.0.2.0/24","dev":"a","protocol":"kernel","scope":"link"}, {"dst":"10.0.0.3","protocol":"bgp"},
        {"dst":"10.0.0.4","protocol":"78"}, {}]"""

    def test_its_routes(self) -> None:
        wanted = {"10.0.0.1/32", "10.0.0.2/32", "10.1.0.0/16", "10.2.0.0/16", "0.0.0.0/0"}
        self.assertEqual(owners.routes_in(json.loads(self.SAID), "x"), wanted)

    def test_what_is_none(self) -> None:
        none: list[object] = [None, {}, [1], [{"protocol": "ospf"}], [{"protocol": "ospf", "dst": "x"}]]
        for said in none:
            with self.assertRaises(ToolFault):
                owners.routes_in(said, "x")

    def test_of_an_interface(self) -> None:
        """What the router itself tells of and an interface has needs no route of the daemon."""
        daemon = Daemon(frozenset({"10.0.0.1/32"}), Interfaces({1: "a"}, {1: IPv4Network("192.0.2.0/24")}))
        self.assertIsNone(daemon.why_not("10.0.0.1/32", False))
        self.assertIsNone(daemon.why_not("192.0.2.0/24", True))
        for prefix, own in (("192.0.2.0/24", False), ("198.51.100.0/24", True), ("8.8.8.8/32", False)):
            self.assertEqual(daemon.why_not(prefix, own), "the daemon has no route to it")
        self.assertIsNone(Daemon(None, Interfaces(None)).why_not("8.8.8.8/32", False))


@unittest.skipUnless(os.path.exists(MRT), "the program is not built")
class InTheLab(unittest.TestCase):
    """What r1 of the lab installs where an LSA is made to harm."""

    def setUp(self) -> None:
        place = tempfile.TemporaryDirectory()
        self.addCleanup(place.cleanup)
        self.database = os.path.join(place.name, "area.lsas")

    def made(self, *more: bytes, without: str = "", every: bool = True) -> Prefixes:
        records = [each.record for each in lsas.split(lsas_of(PLAN)) if lsas.spelled(each.router) != without]
        with open(self.database, "wb") as file:
            file.write(b"".join([*records, *more]))
        with open(self.database, "rb") as file:
            found = list(lsas.split(file.read()))
        whole = Prefixes(
            Ways(Program(MRT, self.database, "-"), found, address("10.255.0.1")),
            Daemon(None, Interfaces(None)),
            every,
        )
        self.entries = {entry.prefix: entry for entry in whole.entries()}
        return whole

    def with_network(self) -> bytes:
        """r8, which is far, tells of a network with the prefix of r9's loopback, and is on it."""
        links = [("10.255.0.8", HOST, 3, 0), ("10.255.0.5", "10.0.58.8", 1, 10), ("10.255.0.9", "10.255.0.9", 2, 1)]
        network = lsa(2, "10.255.0.9", "10.255.0.8", bytes([255] * 4) + address("10.255.0.8").to_bytes(4, "big"))
        return router_lsa("10.255.0.8", links) + network

    def test_a_network_with_the_prefix_of_a_loopback(self) -> None:
        """The router that is nearer keeps it: no repair stands on its own link."""
        self.made()
        before = self.entries["10.255.0.9/32"]
        whole = self.made(self.with_network(), without="10.255.0.8")
        after = self.entries["10.255.0.9/32"]
        self.assertEqual(after.primary, before.primary)
        self.assertNotIn(after.primary, [repair[2] for repair in after.repairs])
        self.assertIn("10.255.0.9", whole.told["10.255.0.9/32"])

    def test_by_distance_the_nearer_has_it(self) -> None:
        stubs = {2: [("10.9.0.0", "255.255.0.0", 3, 50)], 8: [("10.9.0.0", "255.255.0.0", 3, 1)]}
        for near, metric in (("10.255.0.8", 50), ("10.255.0.2", 5)):
            stubs[2] = [("10.9.0.0", "255.255.0.0", 3, metric)]
            with open(self.database, "wb") as file:
                file.write(lsas_of(PLAN, stubs))
            ways = Ways(
                Program(MRT, self.database, "-"), list(lsas.split(lsas_of(PLAN, stubs))), address("10.255.0.1")
            )
            whole = Prefixes(ways, Daemon(None, Interfaces(None)), True)
            found = whole.nearest(node_of("10.255.0.1"), whole.owners[prefix_of("10.9.0.0/16")])
            self.assertEqual(found[0].text, near)

    def test_host_prefixes_of_several(self) -> None:
        """One that two routers have has nothing, and it is told; nor has one that a network has too."""
        stub = ("10.255.0.3", HOST, 3, 0)
        records = [each for each in lsas.split(lsas_of(PLAN, {4: [stub]}))]
        self.made(
            *[each.record for each in records if lsas.spelled(each.router) == "10.255.0.4"],
            without="10.255.0.4",
            every=False,
        )
        self.assertNotIn("10.255.0.3/32", self.entries)
        whole = self.made(self.with_network(), without="10.255.0.8", every=False)
        self.assertNotIn("10.255.0.9/32", self.entries)
        self.assertEqual(whole.left["10.255.0.9/32"], "several routers have it")

    def test_a_router_without_a_loopback(self) -> None:
        links = [(router_id(5), "10.0.58.8", 1, 10), ("10.0.58.0", "255.255.255.0", 3, 10)]
        for every in (False, True):
            self.made(router_lsa("10.255.0.8", links), without="10.255.0.8", every=every)
            self.assertNotIn("10.255.0.8/32", self.entries)

    def test_the_same_by_the_tool(self) -> None:
        self.made()
        routes = os.path.join(os.path.dirname(self.database), "routes.json")
        with open(routes, "w", encoding="ascii") as file:
            json.dump([{"dst": "10.255.0.2", "protocol": "ospf"}], file)
        words = [f"{TOOLS}/fib", "--mrt", MRT, "--routes", routes, self.database, "-", "10.255.0.1"]
        done = subprocess.run(words, capture_output=True, text=True, check=True)
        self.assertIn("fib: 10.255.0.3/32: left out, the daemon has no route to it", done.stderr)
        self.assertEqual(
            {line.split()[2] for line in done.stdout.splitlines() if line.startswith("route replace 10.")},
            {"10.255.0.2/32"},
        )
        with open(routes, "w", encoding="ascii") as file:
            file.write("{")
        done = subprocess.run(words, capture_output=True, text=True, check=False)
        self.assertEqual(
            (done.returncode, done.stderr), (8, f"fib: {routes}: it is not what `ip -j -4 route` says\n")
        )


if __name__ == "__main__":
    unittest.main()
