"""Where the agent has LSAs from: FRR's own word, and what is heard as long as that is not there."""
import select
import socket
import unittest
from typing import Iterator
from unittest import mock

from mrttools.agent import exposure, sniffer, sources
from mrttools.agent.ospfapi import ApiFault
from mrttools.agent.sniffer import PacketCopy, Database, HeardLsas, DaemonView, Neighbor, instance_of
from mrttools.lsas import Lsa, address, lsa_of
from mrttools.router.kernel import Interfaces
from mrttools.agent.sources import (
    AGAIN,
    COMPARED,
    DISTRUSTED,
    LATER,
    ON_ITS_WAY,
    SILENT,
    SOON,
    SniffedSource,
    Snapshot,
    ApiSource,
    usable,
)
from tests.making import datagram, pair, router_lsa, update

NAMES = Interfaces({})


class StandIn:
    """The daemon's interface."""

    def __init__(self, area: int) -> None:
        self.found = {lsa.key: lsa for lsa in map(lsa_of, pair())}
        self.whole = self.closed = False
        self.changed, self.due = True, 1e9
        self.fault: ApiFault | None = None

    def fileno(self) -> int:
        return 7

    def read(self) -> bool:
        if self.fault:
            raise self.fault
        changed, self.changed = self.changed, False
        return changed

    def close(self) -> None:
        self.closed = True

    @property
    def instances(self) -> Database:
        return {key: instance_of(lsa) for key, lsa in self.found.items()}


class SniffedThat(SniffedSource):
    """What is heard."""

    def __init__(self, known: list[Lsa]) -> None:
        self.snapshot = Snapshot(known, (SILENT,))
        self.answers = False
        self.client = mock.Mock(database=lambda: {lsa.key: instance_of(lsa) for lsa in map(lsa_of, pair())})

    def name(self) -> str:
        return "ears"

    def filenos(self) -> list[int]:
        return [5]

    def look(self, now: float, interfaces: Interfaces) -> Snapshot:
        return self.snapshot

    def next(self, now: float) -> float:
        return now + 1


class TheWord(unittest.TestCase):
    def setUp(self) -> None:
        self.exposed: str | None = None
        self.lines: list[str] = []
        self.apis: list[StandIn] = []

        def api(area: int) -> StandIn:
            self.apis.append(StandIn(area))
            return self.apis[-1]

        self.enterContext(mock.patch.object(sources, "Api", api))
        self.enterContext(
            mock.patch.object(exposure, "open_to_others", mock.Mock(side_effect=lambda port: self.exposed))
        )
        self.word = ApiSource(0, SniffedThat, False, self.lines.append)

    def whole(self) -> StandIn:
        """The word when all LSAs are there."""
        self.word.sniffed.answers = True
        self.word.look(1, NAMES)
        self.apis[-1].whole = self.apis[-1].changed = True
        self.word.look(2, NAMES)
        return self.apis[-1]

    def test_nobody_is_asked_before_there_is_an_area(self) -> None:
        """FRR would end by a signal."""
        self.word.look(1, NAMES)
        self.assertEqual((self.apis, self.word.name()), ([], "ears"))

    def test_what_is_heard_until_all_is_told(self) -> None:
        self.word.sniffed.answers = True
        self.word.sniffed.snapshot = heard = Snapshot(list(map(lsa_of, pair()[:1])))
        self.assertEqual(self.word.filenos(), [5])
        self.assertIs(self.word.look(1, NAMES), heard)
        self.assertIs(self.word.look(2, NAMES), heard)
        self.assertEqual(self.word.filenos(), [7, 5])
        self.apis[0].whole = self.apis[0].changed = True
        snapshot = self.word.look(3, NAMES)
        self.assertEqual(([lsa.record for lsa in snapshot.lsas], snapshot.lacks), (pair(), ()))
        self.assertEqual((self.word.name(), self.word.filenos()), ("FRR's OSPF API", [7]))
        self.assertIs(self.word.look(4, NAMES), snapshot)

    def test_a_change(self) -> None:
        api = self.whole()
        lsa = lsa_of(router_lsa("2.2.2.2", [("1.1.1.1", "10.0.0.2", 1, 9)], sequence=0x80000002))
        api.found[lsa.key], api.changed = lsa, True
        self.assertIn(lsa, self.word.look(3, NAMES).lsas)

    def test_a_fault(self) -> None:
        """What there was stays with what is heard from then on, and it is asked again."""
        api = self.whole()
        api.fault = ApiFault("gone")
        self.word.look(3, NAMES)
        self.assertTrue(api.closed)
        self.assertEqual([lsa.record for lsa in self.word.sniffed.snapshot.lsas], pair())
        self.assertEqual(self.lines, ["FRR's OSPF API: gone"])
        self.word.sniffed.answers = True
        self.word.look(3 + AGAIN / 2, NAMES)
        self.assertEqual(len(self.apis), 1)
        self.word.look(3 + AGAIN, NAMES)
        self.assertEqual(len(self.apis), 2)

    def test_an_api_that_is_not_there(self) -> None:
        """It is told once, and asked for now and then."""
        self.word.sniffed.answers = True
        refuse = mock.Mock(side_effect=ApiFault("port 2607: Connection refused"))
        with mock.patch.object(sources, "Api", refuse):
            for now in range(1, 60):
                self.word.look(now, NAMES)
        self.assertEqual(self.lines, ["FRR's OSPF API: port 2607: Connection refused"])
        self.assertEqual(refuse.call_count, 6)
        self.assertEqual(len(self.apis), 0)
        self.word.look(99, NAMES)
        self.assertEqual(len(self.apis), 1)

    def test_an_open_port(self) -> None:
        self.exposed, self.word.sniffed.answers = "TCP port 2607 is open", True
        for now in (1, 5, 100):
            self.word.look(now, NAMES)
        self.assertEqual((self.apis, self.lines), ([], ["FRR's OSPF API: TCP port 2607 is open; it is not used"]))
        self.word.open_api = True
        self.word.look(2 + DISTRUSTED, NAMES)
        self.assertEqual(len(self.apis), 1)

    def test_what_the_daemon_lists_otherwise(self) -> None:
        """Once it may be on its way; twice the word is not whole."""
        api = self.whole()
        self.word.look(2 + ON_ITS_WAY, NAMES)
        self.assertEqual(self.word.differs, {})
        del api.found[lsa_of(pair()[1]).key]
        now = 3 + ON_ITS_WAY + COMPARED
        self.word.look(now, NAMES)
        self.assertFalse(api.closed)
        self.word.look(now + ON_ITS_WAY, NAMES)
        self.assertTrue(api.closed)
        self.assertIn("as router-LSA of 2.2.2.2", self.lines[-1])


class TheEars(unittest.TestCase):
    """When the daemon is asked for its list, and what is made of it."""

    def setUp(self) -> None:
        self.daemon: DaemonView | None = None
        self.asked = 0
        self.here, self.there = socket.socketpair(socket.AF_UNIX, socket.SOCK_DGRAM)
        for end in (self.here, self.there):
            self.addCleanup(end.close)

        def packets(source: socket.socket) -> Iterator[PacketCopy]:
            while select.select([source], [], [], 0)[0]:
                yield PacketCopy("a", False, datagram(source.recv(65535), ends=("10.0.0.2", "224.0.0.5")))

        def look() -> DaemonView | None:
            self.asked += 1
            return self.daemon

        patch = mock.patch.object(sniffer, "packets", packets)
        patch.start()
        self.addCleanup(patch.stop)
        known = map(lsa_of, pair()[:1])
        self.sniffed = SniffedSource(mock.Mock(look=look), self.here, HeardLsas(0, address("1.1.1.1"), known))

    def answers(self) -> None:
        listed = {lsa.key: instance_of(lsa) for lsa in map(lsa_of, pair())}
        self.daemon = DaemonView(listed, {}, frozenset({Neighbor("a", address("10.0.0.2"), address("9.9.9.9"))}))

    def test_a_silent_daemon(self) -> None:
        """It is asked now and then, and packets stay where they are, without waking anybody."""
        self.there.send(update(pair()))
        for now in (10, 10.1, 10.2):
            self.assertEqual(self.sniffed.look(now, NAMES).lacks, (SILENT,))
        self.assertEqual((self.asked, self.sniffed.filenos()), (1, []))
        self.answers()
        snapshot = self.sniffed.look(10 + AGAIN, NAMES)
        self.assertEqual(([lsa.record for lsa in snapshot.lsas], snapshot.lacks), (pair(), ()))
        self.assertEqual(self.sniffed.filenos(), [self.here.fileno()])

    def test_a_neighbor_that_has_gone_since(self) -> None:
        """Its last packet waits, and the daemon has taken it; what comes later does not count."""
        self.answers()
        self.sniffed.look(10, NAMES)
        self.there.send(update(pair()))
        assert self.daemon
        self.daemon = self.daemon._replace(neighbors=frozenset())
        snapshot = self.sniffed.look(20, NAMES)
        self.assertEqual(([lsa.record for lsa in snapshot.lsas], snapshot.lacks), (pair(), ()))
        newer = router_lsa("2.2.2.2", [("1.1.1.1", "10.0.0.2", 1, 9)], sequence=0x80000002)
        lsa = lsa_of(newer)
        self.daemon.database[lsa.key] = instance_of(lsa)
        self.there.send(update([newer]))
        self.assertEqual(self.sniffed.look(30, NAMES).lacks, ("not heard: router-LSA of 2.2.2.2",))

    def test_soon_after_a_packet(self) -> None:
        self.answers()
        self.there.send(update(pair()[:1]))
        self.assertEqual(self.sniffed.look(10, NAMES).lacks, ("not heard: router-LSA of 2.2.2.2",))
        self.there.send(update(pair()))
        self.sniffed.look(10 + SOON / 2, NAMES)
        self.assertEqual((self.asked, self.sniffed.next(11)), (1, 10 + SOON))
        snapshot = self.sniffed.look(10 + SOON, NAMES)
        self.assertEqual([lsa.record for lsa in snapshot.lsas], pair())
        self.there.send(update(pair()))
        self.assertIs(self.sniffed.look(20, NAMES), snapshot)
        self.assertEqual(self.sniffed.next(20), 20 + LATER)


class Usable(unittest.TestCase):
    def test_what_mrt_takes(self) -> None:
        bad = router_lsa("3.3.3.3", [("1.1.1.1", "10.0.0.3", 1, 0)])
        stub = router_lsa("4.4.4.4", [("4.4.4.4", "255.255.255.255", 3, 0)])
        cut = lsa_of(pair()[0])._replace(record=pair()[0][:-1])
        good, left = usable([*map(lsa_of, [*pair(), bad, stub]), cut])
        self.assertEqual([lsa.record for lsa in good], [*pair(), stub])
        self.assertEqual(left[0], "router-LSA of 3.3.3.3: a link to 1.1.1.1 with the metric 0")
        self.assertEqual(len(left), 2)


if __name__ == "__main__":
    unittest.main()
