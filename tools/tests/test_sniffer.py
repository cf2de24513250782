"""What a router hears of its area beside a daemon that prints no bytes: what is listed, whose packets count, and that
nobody who sends them fills the memory or takes all the time."""
import itertools
import os
import signal
import socket
import struct
import subprocess
import tempfile
import time
import tracemalloc
import unittest
from typing import ClassVar, Iterator
from unittest import mock

from mrttools import capture, updates
from mrttools.agent import daemon_list, sniffer
from mrttools.agent.sniffer import AT_ONCE, COUNT, PacketCopy, HeardLsas, DaemonView, Neighbor, instance_of
from mrttools.lab.daemons import Bird, Frr
from mrttools.lab.network import Network, Plan, Wire, link
from mrttools.lab.running_network import Lab
from mrttools.lsas import Key, Lsa, address, lsa_of, sealed
from tests.making import datagram, fragments, network_lsa, ospf, pair, router_lsa, update
from tests.spaces import inside, lacks, made

FRR_LIST = """{"routerId": "10.255.0.1", "areas": {"0.0.0.1": {"routerLinkStates": []}, "0.0.0.0": {
  "routerLinkStates": [
    {"lsId": "10.255.0.1", "advertisedRouter": "10.255.0.1", "lsaAge": 12, "sequenceNumber": "80000007",
     "checksum": "2e04", "numOfRouterLinks": 7},
    {"lsId": "10.255.0.3", "advertisedRouter": "10.255.0.3", "lsaAge": 3600, "sequenceNumber": "80000007",
     "checksum": "2e04", "numOfRouterLinks": 7}],
  "networkLinkStates": [
    {"lsId": "198.51.100.7", "advertisedRouter": "10.255.0.7", "lsaAge": 33, "sequenceNumber": "80000001",
     "checksum": "f00d"}]}}}"""
BIRD_LIST = """BIRD 2.0.12 ready.

Area 0.0.0.1

 Type   LS ID           Router          Sequence   Age  Checksum
 0001  10.255.0.9      10.255.0.9      80000007    12    2e04

Area 0.0.0.0

 Type   LS ID           Router          Sequence   Age  Checksum
 0001  10.255.0.1      10.255.0.1      80000007    12    2e04
 0001  10.255.0.3      10.255.0.3      80000007  3600    2e04
 0002  198.51.100.7    10.255.0.7      80000001    33    f00d

Global

 Type   LS ID           Router          Sequence   Age  Checksum
 0005  0.0.0.0         10.255.0.1      80000001    12    beef
"""
LISTED = {
    Key(1, address("10.255.0.1"), address("10.255.0.1")): (0x80000007, 0x2E04),
    Key(2, address("198.51.100.7"), address("10.255.0.7")): (0x80000001, 0xF00D),
}
FRR_LOOK = (
    FRR_LIST
    + """
{ "routerId": "10.255.0.1", "networkLinkStates": { "areas": { "0.0.0.0": [ { "lsaAge": 33, "lsaType": "network-LSA",
  "linkStateId": "198.51.100.7", "advertisingRouter": "10.255.0.7", "lsaSeqNumber": "80000001", "checksum": "f00d",
  "length": 36, "networkMask": 24 } ] } } }
{ "interfaces": { "lo": { "area": "0.0.0.0" }, "to-r3": { "area": "0.0.0.0" }, "to-lan": { "area": "0.0.0.0" },
  "to-r9": { "area": "0.0.0.1" }, "off": { "ospfEnabled": false } } }
{ "neighbors": {
  "10.255.0.3": [ { "state": "Full\\/-", "address": "10.0.13.3", "ifaceName": "to-r3:10.0.13.1" },
                  { "state": "2-Way\\/DROther", "address": "198.51.100.3", "ifaceName": "to-lan:198.51.100.1" } ],
  "10.255.0.7": [ { "state": "Loading\\/DR", "address": "198.51.100.7", "ifaceName": "to-lan:198.51.100.1" } ],
  "10.255.0.8": [ { "state": "Exchange\\/DROther", "address": "198.51.100.8", "ifaceName": "to-lan:198.51.100.1" } ],
  "10.255.0.6": [ { "state": "ExStart\\/DROther", "address": "198.51.100.6", "ifaceName": "to-lan:198.51.100.1" } ],
  "10.255.0.9": [ { "state": "Full\\/-", "address": "10.0.19.9", "ifaceName": "to-r9:10.0.19.1" } ] } }
"""
)
BIRD_LOOK = [
    BIRD_LIST,
    """BIRD 2.0.12 ready.
lab:
Interface to-r3 (10.0.13.0/24)
\tType: ptp
\tArea: 0.0.0.0 (0)
\tState: PtP
Interface to-lan (198.51.100.0/24)
\tType: broadcast
\tArea: 0.0.0.0 (0)
\tDesignated router (ID): 10.255.0.7
Interface to-r9 (10.0.19.0/24)
\tType: ptp
\tArea: 0.0.0.1 (1)
""",
    """BIRD 2.0.12 ready.
lab:
Router ID   \tPri\t     State     \tDTime\tInterface  Router IP
10.255.0.3  \t  1\tFull/PtP  \t 3.880\tto-r3      10.0.13.3
10.255.0.3  \t  0\t2-Way/Other\t 3.880\tto-lan     198.51.100.3
10.255.0.7  \t  1\tLoading/DR   \t 3.880\tto-lan     198.51.100.7
10.255.0.8  \t  1\tExchange/Other\t13.880\tto-lan     198.51.100.8
10.255.0.6  \t  1\tExStart/Other\t 3.880\tto-lan     198.51.100.6
10.255.0.9  \t  1\tFull/PtP  \t 3.880\tto-r9      10.0.19.9
""",
]
NEIGHBORS = frozenset(
    Neighbor(device, address(place), address(router))
    for device, place, router in (
        ("to-r3", "10.0.13.3", "10.255.0.3"),
        ("to-lan", "198.51.100.7", "10.255.0.7"),
        ("to-lan", "198.51.100.8", "10.255.0.8"),
    )
)


class Lists(unittest.TestCase):
    def test_the_live_ones_of_an_area(self) -> None:
        self.assertEqual(daemon_list.frr(FRR_LIST, 0), LISTED)
        self.assertEqual(daemon_list.bird(BIRD_LIST, 0), LISTED)

    def test_an_area_that_is_not_there(self) -> None:
        for text in ("", "{}", "[1]", '{"areas": 7}', '{"areas": {"0.0.0.2": {"routerLinkStates": [{}]}}}'):
            self.assertIsNone(daemon_list.frr(text, 2), text)
            self.assertIsNone(daemon_list.bird(text, 2), text)

    def test_no_answer(self) -> None:
        for daemon in daemon_list.LISTS:
            client = daemon_list.Client(daemon, "/nonexistent", 0)
            for client.words in (["false"], ["true"], ["echo", "{}"], ["echo", "[] 7 {} null"]):
                self.assertIsNone(client.database(), client.words)
                self.assertIsNone(client.look(), client.words)

    def test_all_that_is_said(self) -> None:
        one, network = LISTED
        self.assertEqual(daemon_list.frr_look([FRR_LOOK], 0), DaemonView(LISTED, {one: 7, network: 36}, NEIGHBORS))
        self.assertEqual(daemon_list.bird_look(BIRD_LOOK, 0), DaemonView(LISTED, {}, NEIGHBORS))

    def test_a_network_that_came_between_two_questions(self) -> None:
        """Its size is not known, so that it is not taken yet."""
        text = FRR_LOOK.replace('"linkStateId": "198.51.100.7"', '"linkStateId": "198.51.100.8"')
        found = daemon_list.frr_look([text], 0)
        assert found is not None
        self.assertEqual(found.sizes[max(LISTED)], -1)

    def test_what_is_no_answer(self) -> None:
        for text in (FRR_LOOK[:-3], FRR_LOOK + "{}", FRR_LIST, FRR_LOOK.replace("interfaces", "x"), ""):
            self.assertIsNone(daemon_list.frr_look([text], 0))
        self.assertIsNone(daemon_list.frr_look([FRR_LOOK], 2))
        self.assertIsNone(daemon_list.bird_look(BIRD_LOOK, 2))
        self.assertEqual(daemon_list.bird_look([BIRD_LIST, "", ""], 0), DaemonView(LISTED, {}, frozenset()))


# whose packets count

FAR, NEAR, OWN = "203.0.113.1", "10.0.0.1", "10.0.0.2"
ALL, DESIGNATED = "224.0.0.5", "224.0.0.6"
# The neighbor that has sent the packets that the tests make, and the router's own addresses.
SENDER = Neighbor("core", address(NEAR), address("9.9.9.9"))
MINE = {address(OWN): "core", address("192.0.2.1"): "customer"}
ROUTER_ID = address("2.2.2.2")


def look(*records: bytes, **more: int) -> DaemonView:
    """What a daemon says that has these LSAs and one neighbor."""
    found = [lsa_of(record) for record in records]
    sizes = {each.key: sniffer.size_of(each) for each in found} if more.get("sized") else {}
    return DaemonView({each.key: instance_of(each) for each in found}, sizes, frozenset({SENDER}))


def came(payload: bytes, device: str = "core", out: bool = False, ends: tuple[str, str] = (NEAR, ALL)) -> PacketCopy:
    return PacketCopy(device, out, datagram(payload, ends=ends))


class Hearing(unittest.TestCase):
    def setUp(self) -> None:
        self.heard = HeardLsas(0, ROUTER_ID, [])

    def take(self, *packets: PacketCopy, listed: DaemonView) -> tuple[list[bytes], list[str]]:
        there, lacks_of = self.heard.take(iter(packets), listed, MINE)
        return [each.record for each in there], lacks_of

    def test_what_the_daemon_lists(self) -> None:
        one, other = pair()
        parts = [PacketCopy("core", False, part) for part in fragments(update([other]), 32)]
        self.assertEqual(self.take(came(update([one])), *parts, listed=look(one, other)), ([one, other], []))
        self.assertEqual(self.take(listed=look(one)), ([one], []))

    def test_another_instance_is_not_heard(self) -> None:
        one, other = pair()
        newer = router_lsa("2.2.2.2", [("1.1.1.1", "10.0.0.2", 1, 9)], sequence=0x80000002)
        found = self.take(came(update([one, other])), listed=look(one, newer))
        self.assertEqual(found, ([one], ["not heard: router-LSA of 2.2.2.2"]))
        self.assertEqual(self.take(came(update([newer])), listed=look(one, newer)), ([one, newer], []))

    def test_what_is_listed_later(self) -> None:
        """A packet may be heard before the daemon lists its LSAs; what is older than the list is of no use."""
        one, other = pair()
        newer = router_lsa("2.2.2.2", [("1.1.1.1", "10.0.0.2", 1, 9)], sequence=0x80000002)
        self.take(came(update([one, newer])), listed=look(other))
        self.assertEqual(sorted(key.number for key, _ in self.heard.others), [address("1.1.1.1"), address("2.2.2.2")])
        self.assertEqual(self.take(listed=look(one, newer)), ([one, newer], []))
        self.take(came(update([other])), listed=look(one, newer))
        self.assertEqual((self.heard.others, self.heard.size), ({}, 0))

    def test_what_was_listed_before_goes(self) -> None:
        other = pair()[1]
        newer = router_lsa("2.2.2.2", [("1.1.1.1", "10.0.0.2", 1, 9)], sequence=0x80000002)
        self.take(came(update([other])), listed=look(other))
        self.assertEqual(self.take(came(update([newer])), listed=look(newer)), ([newer], []))
        self.assertEqual((len(self.heard.listed), self.heard.others), (1, {}))

    def test_a_daemon_that_begins_anew(self) -> None:
        """What it does not list for a while is here when it lists it again."""
        one, other = pair()
        self.take(came(update([one, other])), listed=look(one, other))
        self.assertEqual(self.take(listed=look(other)), ([other], []))
        self.assertEqual(self.take(listed=look(one, other)), ([one, other], []))

    def test_sequence_numbers_have_a_sign(self) -> None:
        late, early = (router_lsa("1.1.1.1", [], sequence=number) for number in (0x00000001, 0xFFFFFFFF))
        self.take(came(update([late])), listed=look(early))
        self.assertEqual(self.take(listed=look(late)), ([late], []))
        self.take(came(update([early])), listed=look(late))
        self.assertEqual(self.heard.others, {})

    def test_two_of_one_checksum(self) -> None:
        """Somebody may send another LSA with the same sequence number, checksum and size."""
        one, forged = (
            router_lsa("1.1.1.1", [("2.2.2.2", data, 1, metric)])
            for data, metric in (("0.0.0.1", 1), ("0.0.1.0", 0xFE02))
        )
        self.assertEqual(instance_of(lsa_of(one)), instance_of(lsa_of(forged)))
        found = self.take(came(update([one])), came(update([forged])), listed=look(one, sized=1))
        self.assertEqual(found, ([], ["heard in 2 ways: router-LSA of 1.1.1.1"]))

    def test_one_of_another_size(self) -> None:
        one = router_lsa("1.1.1.1", [("2.2.2.2", "10.0.0.1", 1, 1)])
        forged = self.with_the_checksum_of(one)
        lacking = ["not heard: router-LSA of 1.1.1.1"]
        self.assertEqual(self.take(came(update([forged])), listed=look(one, sized=1)), ([], lacking))
        self.assertEqual(self.take(came(update([one])), listed=look(one, sized=1)), ([one], []))
        # Where the daemon does not tell sizes, it cannot be told which is the true one.
        self.assertEqual(self.take(came(update([forged])), listed=look(one))[0], [])

    def with_the_checksum_of(self, one: bytes) -> bytes:
        """Another LSA of this router with two links, of which two bytes are chosen so."""
        for first, second in itertools.product(range(16), range(255)):
            links = [("0.0.0.0", f"0.{first}.{second}.0", 3, 1), ("0.0.0.0", "0.0.0.0", 3, 1)]
            found = router_lsa("1.1.1.1", links)
            # A byte of the second link more, and one less of the same value, change the second sum alone.
            for value in range(255):
                changed = found[:40] + bytes([value, 0, 0, 0, 0, 0, 0, -value % 255]) + found[48:]
                if instance_of(lsa_of(sealed(lsa_of(found), 0x80000001 - (1 << 32), changed[20:]))) == instance_of(
                    lsa_of(one)
                ):
                    return sealed(lsa_of(found), 0x80000001 - (1 << 32), changed[20:])
        raise AssertionError("none has it")

    def test_the_size_of_a_network(self) -> None:
        lan = network_lsa("10.0.0.1", "1.1.1.1", ["1.1.1.1", "2.2.2.2"])
        listed = look(lan, sized=1)
        self.assertEqual(list(listed.sizes.values()), [32])
        self.assertEqual(self.take(came(update([lan])), listed=listed), ([lan], []))
        other = listed._replace(sizes={key: 36 for key in listed.sizes})
        self.assertEqual(self.take(listed=other), ([], ["not heard: network-LSA 10.0.0.1 of 1.1.1.1"]))

    def test_what_a_router_would_drop(self) -> None:
        one, other = pair()
        gone = router_lsa("1.1.1.1", [("2.2.2.2", "10.0.0.1", 1, 1)], age=3600)
        for packet in (
            b"",
            datagram(update([one]))[:40],
            datagram(update([one], area="0.0.0.1")),
            datagram(update([one[:-1] + b"\7"])),
            datagram(update([gone])),
            datagram(update([one]), protocol=17),
            datagram(ospf(1, update([one])[24:])),
        ):
            found = self.take(PacketCopy("core", False, packet), came(update([other])), listed=look(one, other))
            self.assertEqual(found, ([other], ["not heard: router-LSA of 1.1.1.1"]))

    def test_an_interface_without_ospf(self) -> None:
        """Whoever it says that has sent it, and wherever to: another LSA with the sequence number and the checksum that
        the daemon lists comes in by no other interface than the neighbor's."""
        one, forged = (
            router_lsa("1.1.1.1", [("2.2.2.2", data, 1, metric)])
            for data, metric in (("0.0.0.1", 1), ("0.0.1.0", 0xFE02))
        )
        for source, target in itertools.product(
            (NEAR, OWN, FAR, "192.0.2.7", "192.0.2.1"), (ALL, DESIGNATED, OWN, NEAR, FAR)
        ):
            for out in (False, True):
                packet = came(update([forged]), "customer", out, (source, target))
                found = self.take(packet, listed=look(one, sized=1))
                self.assertEqual(found, ([], ["not heard: router-LSA of 1.1.1.1"]), (source, target, out))
        self.assertEqual(self.take(came(update([one])), listed=look(one, sized=1)), ([one], []))

    def test_neighbors_alone(self) -> None:
        for ends in itertools.product((FAR, NEAR, OWN), (ALL, DESIGNATED, OWN, "192.0.2.1", NEAR, FAR)):
            self.setUp()
            taken = ends[0] == NEAR and ends[1] in (ALL, DESIGNATED, OWN)
            found = self.take(came(update(pair()), ends=ends), listed=look(*pair()))
            self.assertEqual(found[0], pair() if taken else [], ends)

    def test_a_neighbor_that_the_daemon_does_not_have(self) -> None:
        packet = came(update(pair()))
        nobody = look(*pair())._replace(neighbors=frozenset())
        other = nobody._replace(neighbors=frozenset({SENDER._replace(router=address("9.9.9.8"))}))
        elsewhere = nobody._replace(neighbors=frozenset({SENDER._replace(device="spare")}))
        for listed in (nobody, other, elsewhere):
            self.assertEqual(self.take(packet, listed=listed)[0], [])
        self.assertEqual(self.take(packet, listed=look(*pair()))[0], pair())

    def test_over_one_link(self) -> None:
        """With the least time to live, or the greatest, of which nothing is gone."""
        for hops in range(256):
            self.setUp()
            data = bytearray(came(update(pair())).data)
            data[8] = hops
            found = self.take(PacketCopy("core", False, bytes(data)), listed=look(*pair()))
            self.assertEqual(found[0], pair() if hops in (1, 255) else [], hops)

    def test_what_the_router_sends_itself(self) -> None:
        """Its own LSAs, to all its neighbors: what goes out to one address may only go through."""
        one, own = pair()
        sent = lambda ends: PacketCopy("core", True, datagram(self.by_router(update([one, own])), ends=ends))
        for ends in itertools.product((OWN, NEAR, FAR, "192.0.2.1"), (ALL, DESIGNATED, NEAR, FAR, OWN)):
            self.setUp()
            found = self.take(sent(ends), listed=look(one, own))
            taken = ends[0] == OWN and ends[1] in (ALL, DESIGNATED)
            self.assertEqual(found[0], [own] if taken else [], ends)
        # In the name of another router nothing goes out.
        self.setUp()
        self.assertEqual(self.take(came(update([own]), out=True, ends=(OWN, ALL)), listed=look(own))[0], [])

    def by_router(self, packet: bytes) -> bytes:
        """A packet in the name of the router itself."""
        head = packet[:4] + struct.pack(">I", ROUTER_ID) + packet[8:12] + bytes(2) + packet[14:16]
        total = updates.internet_sum(head + packet[24:])
        return head[:12] + struct.pack(">H", 0xFFFF - total) + head[14:] + packet[16:]

    def test_an_address_that_went_with_its_interface(self) -> None:
        """What came to it before still waits."""
        packet = came(update(pair()), ends=(NEAR, OWN))
        self.take(listed=look())
        there, lacking = self.heard.take(iter([packet]), look(*pair()), {})
        self.assertEqual(([each.record for each in there], lacking), (pair(), []))

    def test_what_was_there_before(self) -> None:
        self.heard = HeardLsas(0, ROUTER_ID, map(lsa_of, pair()))
        self.assertEqual(self.take(listed=look(*pair())), (pair(), []))


class Floods(unittest.TestCase):
    """A neighbor that sends without end."""

    def heard(self) -> HeardLsas:
        return HeardLsas(0, ROUTER_ID, [])

    def empties(self, first: int, count: int) -> bytes:
        """A packet of the shortest LSAs that there are."""
        return update([self.empty(number) for number in range(first, first + count)])

    def empty(self, number: int) -> bytes:
        return router_lsa(f"{10 + (number >> 24)}.{number >> 16 & 255}.{number >> 8 & 255}.{number & 255}", [])

    def test_lsas_without_end(self) -> None:
        """Three times as many as there is room for, each of another router: they take a bounded room, and what the
        daemon lists is kept."""
        heard, one = self.heard(), pair()[0]
        heard.take(iter([came(update([one]))]), look(one), MINE)
        flood = iter([came(self.empties(first, 2000)) for first in range(0, 3 * COUNT, 2000)])
        tracemalloc.start()
        self.addCleanup(tracemalloc.stop)
        for _ in range(3):
            there, lacking = heard.take(flood, look(one), MINE)
        self.assertEqual(list(flood), [])
        self.assertEqual(([each.record for each in there], lacking), ([one], []))
        self.assertEqual((len(heard.others), heard.size), (COUNT, COUNT * 24))
        self.assertLess(tracemalloc.get_traced_memory()[1], 8 << 20)

    def test_bytes_without_end(self) -> None:
        long = [router_lsa(f"1.1.1.{number}", [("2.2.2.2", "10.0.0.1", 1, 1)] * 100) for number in range(9)]
        with mock.patch.object(sniffer, "ROOM", 3 * len(long[0])):
            heard = self.heard()
            for record in long:
                heard.take(iter([came(update([record]))]), look(), MINE)
                self.assertLessEqual(heard.size, 3 * len(long[0]))
            self.assertEqual(
                [key.number for key, _ in heard.others], [address(f"1.1.1.{each}") for each in (6, 7, 8)]
            )

    def test_one_lsa_in_many_ways(self) -> None:
        """Of each instance two are enough."""
        heard = self.heard()
        # A byte of 0 and one of 255 are one to the checksum.
        places = ("0.0.0.0", "0.0.0.255", "0.0.255.0", "0.255.0.0", "255.0.0.0")
        group = [router_lsa("1.1.1.1", [("2.2.2.2", data, 1, 1)]) for data in places]
        self.assertEqual(len({instance_of(lsa_of(record)) for record in group}), 1)
        for listed in (look(), look(group[0])):
            heard.take(iter([came(update([record])) for record in group]), listed, MINE)
            self.assertLessEqual(len(heard.listed.get(lsa_of(group[0]).key, [])), 2)
            self.assertLessEqual(sum(map(len, heard.others.values())), 2)

    def test_so_much_at_once(self) -> None:
        """However much waits, a part of it is taken: a signal is not waited for any longer."""
        packet = came(self.empties(0, 2700))
        waiting = itertools.repeat(packet)
        heard, taken = self.heard(), 0

        def counted() -> Iterator[PacketCopy]:
            nonlocal taken
            for each in waiting:
                taken += len(each.data)
                yield each

        before = time.process_time()
        heard.take(counted(), look(), MINE)
        self.assertLess(time.process_time() - before, 2)
        self.assertLess(taken, AT_ONCE + len(packet.data))

    def test_different_ones_at_once(self) -> None:
        heard = self.heard()
        packets = [came(self.empties(first, 2700)) for first in range(0, 27000, 2700)]
        before = time.process_time()
        heard.take(iter(packets), look(), MINE)
        self.assertLess(time.process_time() - before, 2)

    def test_fragments_whose_others_do_not_come(self) -> None:
        heard = self.heard()
        with mock.patch.object(sniffer, "PARTS", 3):
            for number in range(9):
                part = PacketCopy("core", False, fragments(update(pair()), 32, number)[0])
                heard.take(iter([part]), look(), MINE)
                self.assertLessEqual(sum(map(len, heard.fragments.waiting.values())), 3)
        # Those of others are not kept at all.
        before = heard.fragments.count
        heard.take(iter([part._replace(device="customer")]), look(), MINE)
        self.assertEqual(heard.fragments.count, before)


LACKS = lacks()


@unittest.skipIf(LACKS, f"packets of an interface are not tried: {LACKS}")
class PacketSocket(unittest.TestCase):
    """Packets between two namespaces."""

    spaces: ClassVar[list[str]]

    @classmethod
    def setUpClass(cls) -> None:
        cls.spaces = [f"mrt-test-{os.getpid()}-{name}" for name in ("here", "there")]
        for space in cls.spaces:
            cls.enterClassContext(made(space))
        for device, far, net in (("core", "core-far", "10.0.0"), ("customer", "customer-far", "192.0.2")):
            words = ["link", "add", device, "netns", cls.spaces[0], "type", "veth", "peer", "name", far]
            subprocess.run(["ip", *words, "netns", cls.spaces[1]], check=True)
            for space, name, last in ((cls.spaces[0], device, 2), (cls.spaces[1], far, 1)):
                subprocess.run(["ip", "-n", space, "address", "add", f"{net}.{last}/24", "dev", name], check=True)
                subprocess.run(["ip", "-n", space, "link", "set", name, "up"], check=True)

    def setUp(self) -> None:
        with inside(self.spaces[0]):
            self.socket_of_packets = sniffer.packet_socket()
        self.addCleanup(self.socket_of_packets.close)
        signal.alarm(30)
        self.addCleanup(signal.alarm, 0)

    def send(self, space: int, source: str, target: str, payload: bytes, hops: int = 1, protocol: int = 89) -> None:
        with inside(self.spaces[space]), socket.socket(socket.AF_INET, socket.SOCK_RAW, protocol) as out:
            out.setsockopt(socket.IPPROTO_IP, socket.IP_TTL, hops)
            out.setsockopt(socket.IPPROTO_IP, socket.IP_MULTICAST_TTL, hops)
            out.setsockopt(socket.IPPROTO_IP, socket.IP_MULTICAST_IF, socket.inet_aton(source))
            out.bind((source, 0))
            out.sendto(payload, (target, 0))

    def caught(self) -> list[tuple[str, bool, str]]:
        """What has come within a while: by which interface, whether out, and from which address."""
        time.sleep(0.1)
        found = list(sniffer.packets(self.socket_of_packets))
        self.assertTrue(all(capture.is_protocol(each.data, updates.PROTOCOL) for each in found))
        return [(each.device, each.out, socket.inet_ntoa(each.data[12:16])) for each in found]

    def test_by_which_interface_and_which_way(self) -> None:
        self.send(1, "10.0.0.1", ALL, update(pair()))
        self.send(1, "192.0.2.1", ALL, update(pair()))
        self.send(0, "10.0.0.2", ALL, update(pair()))
        wanted = [("core", False, "10.0.0.1"), ("customer", False, "192.0.2.1"), ("core", True, "10.0.0.2")]
        self.assertEqual(self.caught(), wanted)

    def test_ospf_over_one_link_alone(self) -> None:
        for hops in (2, 64, 254):
            self.send(1, "10.0.0.1", "10.0.0.2", update(pair()), hops)
        self.send(1, "10.0.0.1", "10.0.0.2", update(pair()), protocol=253)
        self.assertEqual(self.caught(), [])
        for hops in (1, 255):
            self.send(1, "10.0.0.1", "10.0.0.2", update(pair()), hops)
        self.assertEqual(self.caught(), [("core", False, "10.0.0.1")] * 2)

    def test_what_goes_to_another_host(self) -> None:
        """It is no packet of the router, also where its interface hears all."""
        subprocess.run(["ip", "-n", self.spaces[0], "link", "set", "core", "promisc", "on"], check=True)
        place = ["10.0.0.9", "lladdr", "02:00:00:00:00:09", "dev", "core-far"]
        subprocess.run(["ip", "-n", self.spaces[1], "neighbor", "replace", *place], check=True)
        with inside(self.spaces[0]):
            every = socket.socket(socket.AF_PACKET, socket.SOCK_DGRAM, socket.htons(0x0800))
        self.addCleanup(every.close)
        every.settimeout(5)
        self.send(1, "10.0.0.1", "10.0.0.9", update(pair()))
        to_another = 3
        self.assertEqual(every.recvfrom(65535)[1][2], to_another)
        self.assertEqual(self.caught(), [])

    def test_they_are_taken_as_they_come(self) -> None:
        self.send(1, "192.0.2.1", "192.0.2.2", update(pair()))
        self.assertEqual(self.taken(), [])
        self.send(1, "10.0.0.1", ALL, update(pair()))
        self.assertEqual(self.taken(), pair())

    def taken(self) -> list[bytes]:
        time.sleep(0.1)
        there, _ = HeardLsas(0, ROUTER_ID, []).take(sniffer.packets(self.socket_of_packets), look(*pair()), MINE)
        return [each.record for each in there]


PLAN = Plan("heard", [1, 2], [link(1, 2, 10, "10.0.12"), Wire("198.51.100", {1: 10, 2: 10}, 1)], joiner=2)


class BesideDaemons(unittest.TestCase):
    """A router that joins another one, over a link and a LAN."""

    def joined(self, daemon: Frr | Bird) -> tuple[list[int], list[str]]:
        """The kinds of LSAs that it hears, and what lacks, once its daemon lists three; else after a while."""
        why = lacks(*daemon.needs)
        if why:
            self.skipTest(f"nothing is heard beside {daemon.name}: {why}")
        folder = self.enterContext(tempfile.TemporaryDirectory(prefix="mrt-heard-"))
        os.chmod(folder, 0o755)
        network = self.enterContext(Network(PLAN))
        lab = Lab(daemon, network, folder)
        self.addCleanup(lab.stop)
        with inside(network.of(2)):
            source = sniffer.packet_socket()
        self.addCleanup(source.close)
        heard, own = HeardLsas(0, address("10.255.0.2"), []), {
            address(each.address): each.name for each in PLAN.interfaces(2)
        }
        for router in PLAN.routers:
            lab.start(router)
        lists = daemon_list.Client(daemon.name.lower(), daemon.socket(lab.running[2].folder), 0)
        there: list[Lsa] = []
        lacking, end = ["no answer"], time.monotonic() + 40
        while (len(there), lacking) != (3, []) and time.monotonic() < end:
            lab.look_after()
            found = lists.look()
            if found is not None:
                there, lacking = heard.take(sniffer.packets(source), found, own)
            time.sleep(0.2)
        return sorted(each.kind for each in there), lacking

    def test_frr(self) -> None:
        self.assertEqual(self.joined(Frr()), ([1, 1, 2], []))

    def test_bird(self) -> None:
        self.assertEqual(self.joined(Bird()), ([1, 1, 2], []))


if __name__ == "__main__":
    unittest.main()
