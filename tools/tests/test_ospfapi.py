"""The client of FRR's own interface, against a server that stands in and does what a broken or hostile one would, and
against FRR itself where it is installed."""
import contextlib
import os
import select
import signal
import socket
import struct
import subprocess
import tempfile
import time
import unittest
from typing import Callable, ClassVar, Iterator
from unittest import mock

from mrttools import lsas
from mrttools.agent import daemon_list, exposure, ospfapi, sockets
from mrttools.agent.ospfapi import Api, ApiFault, Limits, Server, message
from mrttools.agent.sniffer import instance_of
from mrttools.lab.daemons import Frr
from mrttools.lab.network import Network, Plan, Wire, link
from mrttools.lab.running_network import Lab
from mrttools.lsas import Key, address, lsa_of
from tests.making import DATA, MRT, lsa, network_lsa, pair, router_lsa
from tests.spaces import inside, lacks

HERE = "127.0.0.1"
REPLIES = struct.Struct(">bxxx")


class Daemon:
    """A server in the client's own thread: it does what the test says, and nothing by itself."""

    def __init__(self) -> None:
        self.listener = socket.create_server((HERE, 0))
        self.listener.settimeout(5)
        self.port = self.listener.getsockname()[1]
        self.requests = self.events = socket.socket()

    def take(self) -> None:
        """Takes the first connection, and makes the second one."""
        host, port = self.take_one()
        self.events = socket.create_connection((host, port + 1), 5)

    def take_one(self) -> tuple[str, int]:
        """Takes the first connection; whose it is."""
        for each in (self.requests, self.events):
            each.close()
        self.requests, far = self.listener.accept()
        self.requests.settimeout(5)
        return far

    def asked(self) -> list[ospfapi.Message]:
        """The requests that have come."""
        channel = ospfapi.Channel(self.requests)
        self.requests.setblocking(False)
        return list(channel.messages(0))

    def reply(self, number: int, error: int = 0) -> None:
        self.requests.sendall(message(ospfapi.REPLY, number, REPLIES.pack(error)))

    def close(self) -> None:
        for each in (self.listener, self.requests, self.events):
            each.close()


def told(record: bytes, area: str = "0.0.0.0", kind: int = ospfapi.UPDATE) -> bytes:
    """A message with an LSA."""
    return message(kind, 0, struct.pack(">IIBxxx", 0, address(area), 0) + record)


def gone(record: bytes, area: str = "0.0.0.0") -> bytes:
    return told(record, area, ospfapi.DELETE)


def router(number: int, identifier: str = "1.1.1.1") -> bytes:
    return message(ospfapi.ROUTER_ID, number, struct.pack(">I", address(identifier)))


class Case(unittest.TestCase):
    """A client and a server, and a clock that stands until it is moved. What waits is ended by a signal."""

    def setUp(self) -> None:
        self.now = 1000.0
        self.daemon = Daemon()
        self.addCleanup(self.daemon.close)
        before = signal.signal(signal.SIGALRM, self.hangs)
        self.addCleanup(signal.signal, signal.SIGALRM, before)
        self.addCleanup(signal.alarm, 0)
        signal.alarm(60)

    def hangs(self, *_: object) -> None:
        raise AssertionError("something waits for ever")

    def api(self, limits: Limits = Limits(), server: "Server | None" = None) -> Api:
        made = Api(0, server or Server(HERE, self.daemon.port), limits, lambda: self.now)
        self.addCleanup(made.close)
        return made

    def joined(self, limits: Limits = Limits()) -> Api:
        """A client that has both connections and has asked."""
        made = self.api(limits)
        self.daemon.take()
        self.assertFalse(made.read())
        return made

    def come(self, api: Api, *texts: bytes) -> bool:
        """The server sends messages on the second connection, and the client takes them."""
        self.daemon.events.sendall(b"".join(texts))
        return api.read()

    def whole(self, *records: bytes, limits: Limits = Limits()) -> Api:
        """A client that has these LSAs."""
        made = self.joined(limits)
        for each in self.daemon.asked():
            self.daemon.reply(each.number)
        self.assertTrue(self.come(made, *map(told, records), router(3)))
        self.assertTrue(made.whole)
        return made

    def faults(self, api: Api, word: str, *texts: bytes) -> None:
        """What comes is a fault, after which nothing is open."""
        with self.assertRaises(ApiFault) as caught:
            self.come(api, *texts)
        self.assertIn(word, str(caught.exception))
        self.is_closed(api)

    def is_closed(self, api: Api) -> None:
        self.assertTrue(api.poll.closed)
        self.assertEqual((api.requests, api.events, api.listener.fileno()), (None, None, -1))
        with self.assertRaises(ApiFault):
            api.read()


class Following(Case):
    """A database that is taken whole, and then followed."""

    def records(self, api: Api) -> list[bytes]:
        return [each.record for each in api.found.values()]

    def test_what_is_asked_for(self) -> None:
        """Word of changes before all that there is, so that no change is between them; the router ID last."""
        self.joined()
        asked = self.daemon.asked()
        self.assertEqual([each.kind for each in asked], [3, 4, 19])
        self.assertEqual([each.number for each in asked], [1, 2, 3])
        for each in asked[:2]:
            self.assertEqual(each.body, bytes.fromhex("0003" "02" "01" "00000000"))

    def test_it_is_whole_when_the_router_id_comes(self) -> None:
        one, other = pair()
        api = self.joined()
        self.assertTrue(self.come(api, told(one)))
        for number in (1, 2, 3):
            self.daemon.reply(number)
        self.assertFalse(self.come(api, router(0)) and api.whole)
        self.assertFalse(api.whole)
        self.assertTrue(self.come(api, told(other), router(3, "9.9.9.9")))
        self.assertTrue(api.whole)
        self.assertEqual((self.records(api), api.router), ([one, other], address("9.9.9.9")))
        self.assertEqual(api.database(), one + other)

    def test_changes(self) -> None:
        one, other = pair()
        newer = router_lsa("2.2.2.2", [("1.1.1.1", "10.0.0.2", 1, 9)], sequence=0x80000002)
        api = self.whole(one)
        self.assertTrue(self.come(api, told(other)))
        # FRR says that the old instance goes, and then that the new one is there.
        self.assertTrue(self.come(api, gone(other), told(newer)))
        self.assertEqual(self.records(api), [one, newer])
        # What was replaced takes nothing with it.
        self.assertFalse(self.come(api, gone(other)))
        self.assertEqual(self.records(api), [one, newer])
        self.assertTrue(self.come(api, gone(newer)))
        self.assertEqual((self.records(api), api.copy.bytes), ([one], len(one)))
        self.assertFalse(self.come(api, gone(newer)))

    def test_what_says_the_same_is_no_change(self) -> None:
        one = pair()[0]
        api = self.whole(one)
        self.assertFalse(self.come(api, told(one)))
        older = b"\x01\x00" + one[2:]
        self.assertFalse(self.come(api, told(older)))
        self.assertEqual(self.records(api), [older])

    def test_what_is_flushed_is_gone(self) -> None:
        one, other = pair()
        flushed = router_lsa("2.2.2.2", [("1.1.1.1", "10.0.0.2", 1, 1)], age=3600)
        api = self.whole(one, other)
        self.assertTrue(self.come(api, told(flushed)))
        self.assertEqual(self.records(api), [one])
        self.assertFalse(self.come(api, told(flushed), gone(flushed)))
        api = self.whole(one, other)
        self.assertTrue(self.come(api, gone(flushed)))
        self.assertEqual(self.records(api), [one])

    def test_one_area_and_two_types(self) -> None:
        one, other = pair()
        lan = network_lsa("10.0.0.1", "1.1.1.1", ["1.1.1.1", "2.2.2.2"])
        api = self.whole(lan, one, lsa(3, "192.0.2.0", "1.1.1.1", bytes(8)), lsa(10, "1.0.0.1", "1.1.1.1", bytes(4)))
        self.assertFalse(self.come(api, told(other, "0.0.0.1"), gone(one, "0.0.0.1")))
        self.assertFalse(self.come(api, *(message(kind, 0, bytes(12)) for kind in (11, 14, 15, 16, 17, 18, 99))))
        self.assertEqual(self.records(api), [one, lan])

    def test_another_router_id_is_a_change(self) -> None:
        api = self.whole(*pair())
        self.assertFalse(self.come(api, router(0)))
        self.assertTrue(self.come(api, router(0, "7.7.7.7")))
        self.assertEqual(api.router, address("7.7.7.7"))

    def test_what_is_left_out_is_told(self) -> None:
        one, other = pair()
        wide = router_lsa("3.3.3.3", [("1.1.1.1", "10.0.0.3", 1, 1)] * 9)
        api = self.whole(one[:-1] + b"\7", other, wide[:60])
        self.assertEqual(self.records(api), [other])
        wanted = [
            "router-LSA of 1.1.1.1: a wrong LSA checksum",
            "router-LSA of 3.3.3.3: the daemon tells 60 bytes of 132",
        ]
        self.assertEqual(api.told, wanted)
        self.assertEqual(api.instances, {each.key: instance_of(each) for each in map(lsa_of, (one, other, wide))})
        self.assertTrue(self.come(api, told(one), told(wide + b"x")))
        self.assertEqual(api.told, ["router-LSA of 3.3.3.3: bytes after its end"])
        self.assertTrue(self.come(api, told(wide)))
        self.assertEqual((self.records(api), api.told), ([one, other, wide], []))

    def test_so_many_lines_are_told(self) -> None:
        spoilt = [router_lsa(f"1.1.1.{number}", [])[:-1] + b"\7" for number in range(1, 31)]
        api = self.whole(*spoilt)
        self.assertEqual(len(api.told), ospfapi.LINES + 1)
        self.assertEqual(api.told[-1], "and 10 more")

    @unittest.skipUnless(os.path.exists(MRT), "the program is not built")
    def test_mrt_reads_it(self) -> None:
        with open(os.path.join(DATA, "lan.lsas"), "rb") as file:
            instances = lsas.by_key(lsas.split(file.read()))
        newest = [lsas.newest(group)[0].record for group in instances.values()]
        api = self.whole(*newest)
        with tempfile.NamedTemporaryFile() as file:
            file.write(api.database())
            file.flush()
            for words in (["certify", file.name, f"{DATA}/lan.profile", "10.255.1.1"],):
                done = subprocess.run([MRT, *words], capture_output=True, check=True)
        again = [MRT, "certify", f"{DATA}/lan.lsas", f"{DATA}/lan.profile", "10.255.1.1"]
        self.assertEqual(done.stdout, subprocess.run(again, capture_output=True, check=True).stdout)

    def test_it_can_be_waited_for(self) -> None:
        api = self.whole(*pair())
        self.assertEqual(select.select([api], [], [], 0)[0], [])
        self.daemon.events.sendall(gone(pair()[0]))
        self.assertEqual(select.select([api], [], [], 5)[0], [api])
        self.assertTrue(api.read())
        self.assertEqual(select.select([api], [], [], 0)[0], [])


class Many(Case):
    """With many connections: whose they are is looked at in another place, since the kernel takes a while to list them."""

    def setUp(self) -> None:
        super().setUp()
        self.enterContext(mock.patch.object(sockets, "users", lambda own, far: {os.geteuid()}))
        self.enterContext(mock.patch.object(sockets, "listening", lambda port: {1: HERE}))


class Cut(Many):
    """Each message, cut at each place."""

    def streams(self) -> list[tuple[str, bytes]]:
        one, other = pair()
        after = router(3)
        return [
            ("update", told(one)),
            ("delete", gone(other)),
            ("router", after),
            ("others", message(16, 0, bytes(12))),
        ]

    def test_what_comes_in_parts_is_one_message(self) -> None:
        one, other = pair()
        for name, text in self.streams():
            for at in range(len(text) + 1):
                with self.subTest(name=name, at=at):
                    api = self.joined()
                    self.come(api, told(other), text[:at])
                    self.come(api, text[at:])
                    wanted = {"update": [one, other], "delete": []}.get(name, [other])
                    self.assertEqual([each.record for each in api.found.values()], wanted)
                    self.assertEqual(api.whole, name == "router")
                    api.close()

    def test_an_end_within_a_message_is_a_fault(self) -> None:
        for name, text in self.streams():
            for at in range(len(text) + 1):
                with self.subTest(name=name, at=at):
                    api = self.joined()
                    self.daemon.events.sendall(text[:at])
                    self.daemon.events.shutdown(socket.SHUT_WR)
                    with self.assertRaises(ApiFault):
                        api.read()
                    self.is_closed(api)

    def test_the_rest_of_a_message_is_awaited_for_a_while(self) -> None:
        for name, text in self.streams():
            for at in range(1, len(text)):
                with self.subTest(name=name, at=at):
                    api = self.whole()
                    self.come(api, text[:at])
                    self.now = api.due - 0.1
                    self.assertFalse(api.read())
                    self.now = api.due
                    self.faults(api, "does not answer")

    def test_byte_by_byte_is_too_slow(self) -> None:
        api = self.whole()
        began = self.now
        with self.assertRaises(ApiFault):
            for byte in told(pair()[0]):
                self.come(api, bytes([byte]))
                self.now += 1
        self.assertEqual(self.now - began, Limits().patience)

    def test_replies(self) -> None:
        text = message(ospfapi.REPLY, 1, bytes(4))
        for at in range(len(text) + 1):
            for ends in (True, False):
                with self.subTest(at=at, ends=ends):
                    api = self.joined()
                    self.daemon.requests.sendall(text[:at])
                    if ends:
                        self.daemon.requests.shutdown(socket.SHUT_WR)
                    else:
                        api.read()
                        self.now = api.due
                    with self.assertRaises(ApiFault):
                        api.read()
                    self.is_closed(api)


class Wrong(Many):
    """Messages that no daemon sends."""

    def test_versions(self) -> None:
        good = told(pair()[0])
        for version in (0, 2, 3, 16, 255):
            api = self.joined()
            self.faults(api, f"version {version}", bytes([version]) + good[1:])
            api = self.joined()
            self.daemon.requests.sendall(bytes([version]) + message(ospfapi.REPLY, 1, bytes(4))[1:])
            with self.assertRaises(ApiFault):
                api.read()

    def test_lengths_of_lsas(self) -> None:
        record = pair()[0]
        body = bytes(12) + record
        for kind in (ospfapi.UPDATE, ospfapi.DELETE):
            for size in range(32):
                self.faults(self.joined(), "which no LSA has", message(kind, 0, body[:size]))
        # An LSA of any length in it is left out, or is as it says.
        for size in range(32, len(body) + 40):
            api = self.joined()
            self.come(api, message(ospfapi.UPDATE, 0, (body + bytes(40))[:size]))
            self.assertEqual(list(api.found.values()), [lsa_of(record)] * (size == len(body)), size)

    def test_lengths_that_lsas_tell(self) -> None:
        record = pair()[0]
        for size in (0, 19, 20, 24, 35, 37, 0xFFFF):
            api = self.joined()
            self.come(api, told(record[:18] + struct.pack(">H", size) + record[20:]))
            self.assertEqual((api.found, len(api.told)), ({}, 1))

    def test_lengths_of_others(self) -> None:
        for size in (0, 1, 3, 5, 8, 200):
            self.faults(self.joined(), "a router ID of", message(ospfapi.ROUTER_ID, 3, bytes(size)))
            api = self.joined()
            self.daemon.requests.sendall(message(ospfapi.REPLY, 1, bytes(size)))
            with self.assertRaises(ApiFault):
                api.read()

    def test_replies_to_nothing(self) -> None:
        for number in (0, 4, 0xFFFFFFFF):
            api = self.joined()
            self.daemon.reply(number)
            self.faults(api, "nothing that was asked")
        api = self.joined()
        self.daemon.reply(1)
        self.daemon.reply(1)
        self.faults(api, "nothing that was asked")
        api = self.joined()
        self.daemon.requests.sendall(told(pair()[0]))
        self.faults(api, "nothing that was asked")

    def test_refusals(self) -> None:
        for error in (-1, -10, 7):
            api = self.joined()
            self.daemon.reply(2, error)
            self.faults(api, f"refuses a request with {error}")

    def test_noise(self) -> None:
        """Bytes at random, from a number so that they are the same each time."""
        for number in range(200):
            noise = struct.pack(">Q", number * 0x9E3779B97F4A7C15 % 2**64) * 9
            for text in (noise, b"\1" + noise, message(ospfapi.UPDATE, 0, noise)):
                api = self.joined()
                try:
                    self.come(api, text)
                    self.assertLess(len(api.copy.held), 2)
                except ApiFault:
                    self.is_closed(api)
                api.close()


class Floods(Case):
    """More than there is room for."""

    def waiting(self, api: Api) -> int:
        """How many bytes of a message that is not whole are kept."""
        assert api.events is not None
        return len(api.events.held)

    def count(self, api: Api, texts: list[bytes]) -> None:
        for text in texts:
            self.come(api, text)

    def test_lsas_without_end(self) -> None:
        api = self.whole(limits=Limits(lsas=50))
        texts = [told(router_lsa(f"1.1.{number >> 8}.{number & 255}", [])) for number in range(51)]
        self.count(api, texts[:50])
        self.assertEqual(len(api.found), 50)
        self.faults(api, "over the limit", texts[50])

    def test_those_that_are_left_out_count_too(self) -> None:
        api = self.whole(limits=Limits(lsas=50))
        spoilt = [told(router_lsa(f"1.1.1.{number}", [])[:-1] + b"\7") for number in range(51)]
        self.count(api, spoilt[:50])
        self.faults(api, "over the limit", spoilt[50])

    def test_bytes_without_end(self) -> None:
        long = [router_lsa(f"1.1.1.{number}", [("2.2.2.2", "10.0.0.1", 1, 1)] * 100) for number in range(9)]
        api = self.whole(limits=Limits(size=8 * len(long[0])))
        self.count(api, [told(record) for record in long[:8]])
        # What replaces one takes its room, and what goes leaves its own.
        self.count(api, [told(long[0]), gone(long[0]), told(long[8]), gone(long[8])])
        self.assertEqual(api.copy.bytes, 7 * len(long[0]))
        self.count(api, [told(long[0])])
        self.faults(api, "over the limit", told(long[8]))

    def test_a_long_message_is_as_long_as_one_can_be(self) -> None:
        api = self.whole()
        head = message(99, 0, bytes(0xFFFF))
        for _ in range(40):
            self.come(api, head[:50000])
            self.come(api, head[50000:])
        self.assertEqual(self.waiting(api), 0)

    def test_so_much_at_once(self) -> None:
        """However much has come, a call takes a part of it and comes back; what is asked meanwhile goes on."""
        api = self.whole(*pair())
        self.daemon.events.setsockopt(socket.SOL_SOCKET, socket.SO_SNDBUF, 1 << 22)
        self.daemon.events.setblocking(False)
        text, sent = told(pair()[0]) * 1000, 0
        with mock.patch.object(ospfapi, "AT_ONCE", 1 << 17):
            for _ in range(50):
                try:
                    sent += self.daemon.events.send(text[sent % len(text) :])
                except BlockingIOError:
                    pass
                before = time.process_time()
                api.read()
                self.assertLess(time.process_time() - before, 1)
                self.assertLess(self.waiting(api), 1 << 17)
        self.assertGreater(sent, 1 << 20)
        self.assertEqual(len(api.found), 2)

    def test_what_a_call_takes_at_most(self) -> None:
        """The rest waits, and is told by select."""
        api, text, chunk = self.whole(*pair()), told(pair()[0]), 1 << 12
        self.daemon.events.setblocking(False)
        self.assertGreater(self.daemon.events.send(text * (4 * chunk // len(text))), 3 * chunk)
        with mock.patch.object(ospfapi, "CHUNK", chunk), mock.patch.object(ospfapi, "AT_ONCE", chunk):
            with mock.patch.object(api.copy, "update", return_value=False) as update:
                api.read()
        self.assertLessEqual(update.call_count, chunk // len(text))
        self.assertEqual(select.select([api], [], [], 0)[0], [api])

    def test_messages_of_no_body(self) -> None:
        api = self.whole()
        for _ in range(20):
            self.assertFalse(self.come(api, message(99, 0) * 4000))
        self.assertEqual(self.waiting(api), 0)


class Silent(Case):
    """A server that says nothing is given up after a while, at whatever it is silent."""

    def late(self, api: Api, *replies: int) -> None:
        for number in replies:
            self.daemon.reply(number)
        api.read()
        due = api.due
        self.assertLessEqual(due - self.now, Limits().patience)
        self.now = due - 0.1
        self.assertFalse(api.read())
        self.now = due
        with self.assertRaises(ApiFault) as caught:
            api.read()
        self.assertIn("does not answer", str(caught.exception))
        self.is_closed(api)

    def test_it_does_not_connect_back(self) -> None:
        self.late(self.api())

    def test_it_does_not_reply(self) -> None:
        for count in range(3):
            self.late(self.joined(), *(1, 2, 3)[:count])

    def test_it_does_not_end(self) -> None:
        """It tells of LSAs, and not that these are all."""
        api = self.joined()
        self.assertTrue(self.come(api, told(pair()[0])))
        self.late(api, 1, 2, 3)

    def test_it_is_asked_whether_it_is_there(self) -> None:
        api = self.whole(*pair())
        for number in (4, 5, 6):
            self.assertEqual(api.due, self.now + Limits().every)
            self.now = api.due - 0.1
            api.read()
            self.assertEqual(self.daemon.asked(), [])
            self.now = api.due
            self.assertFalse(api.read())
            self.assertEqual([(each.kind, each.number) for each in self.daemon.asked()], [(19, number)])
            self.daemon.reply(number)
            self.assertFalse(self.come(api, router(number)))
        self.now = api.due
        api.read()
        self.late(api, 7)

    def test_it_ends(self) -> None:
        for which in ("requests", "events"):
            api = self.whole(*pair())
            getattr(self.daemon, which).close()
            self.faults_alone(api)

    def test_what_cannot_be_taken_is_not_taken_again(self) -> None:
        """A fault of this program ends the copy as any other does: each later look would meet the same bytes."""
        api = self.whole(*pair())
        with mock.patch.object(api.copy, "update", side_effect=ZeroDivisionError("x")):
            self.faults(api, "ZeroDivisionError('x')", told(pair()[0]))

    def faults_alone(self, api: Api) -> None:
        with self.assertRaises(ApiFault) as caught:
            api.read()
        self.assertTrue(str(caught.exception))
        self.is_closed(api)

    def test_one_that_has_ended_a_connection_is_not_asked_again(self) -> None:
        """By another connection FRR ends, until it is started anew."""
        for ends in (lambda: self.daemon.requests.close(), lambda: self.daemon.events.close()):
            server = Server(HERE, self.daemon.port)
            api = self.api(server=server)
            self.daemon.take()
            api.read()
            self.daemon.asked()
            ends()
            self.faults_alone(api)
            with self.assertRaises(ApiFault) as caught:
                self.api(server=server)
            self.assertIn("until it is started anew", str(caught.exception))
            self.assertEqual(select.select([self.daemon.listener], [], [], 0)[0], [])
            self.daemon.close()
            self.daemon.listener = socket.create_server((HERE, self.daemon.port))
            self.daemon.listener.settimeout(5)
            self.assertFalse(self.api(server=server).read())
            self.daemon.take()

    def test_one_that_was_too_slow_is_asked_again(self) -> None:
        server = Server(HERE, self.daemon.port)
        api = self.api(server=server)
        self.now = api.due
        self.faults_alone(api)
        self.daemon.take_one()
        again = self.api(server=server)
        self.daemon.take()
        self.assertFalse(again.read())
        self.assertEqual(len(self.daemon.asked()), 3)

    def test_there_is_none(self) -> None:
        self.daemon.listener.close()
        with self.assertRaises(ApiFault) as caught:
            api = self.api()
            api.read()
        self.assertIn("Connection refused", str(caught.exception))


class Strangers(Case):
    """Others than the daemon, who may connect and listen on any machine."""

    def test_who_listens_is_not_trusted(self) -> None:
        api = self.api(server=Server(HERE, self.daemon.port, frozenset({os.geteuid() + 1})))
        self.daemon.take()
        self.assertFalse(api.read())
        self.assertIsNone(api.events)
        self.now = api.due
        with self.assertRaises(ApiFault):
            api.read()

    def test_who_connects_first_is_turned_away(self) -> None:
        api = self.api()
        host, port = self.daemon.take_one()
        with socket.create_connection((host, port + 1), 5, ("127.0.0.2", 0)) as stranger:
            self.assertFalse(api.read())
            self.assertIsNone(api.events)
            self.assertEqual(stranger.recv(1), b"")
        self.daemon.events = socket.create_connection((host, port + 1), 5)
        self.assertFalse(api.read())
        self.assertEqual(len(self.daemon.asked()), 3)

    def test_who_has_gone_is_nobody(self) -> None:
        api = self.api()
        host, port = self.daemon.take_one()
        socket.create_connection((host, port + 1), 5).close()
        self.assertFalse(api.read())
        # One that is reset as well.
        with socket.create_connection((host, port + 1), 5) as stranger:
            stranger.setsockopt(socket.SOL_SOCKET, socket.SO_LINGER, struct.pack("ii", 1, 0))
        self.assertFalse(api.read())
        self.assertIsNone(api.events)

    def test_so_many_of_them(self) -> None:
        api = self.api()
        host, port = self.daemon.take_one()
        with self.assertRaises(ApiFault) as caught:
            for _ in range(ospfapi.STRANGERS + 1):
                with socket.create_connection((host, port + 1), 5, ("127.0.0.2", 0)):
                    api.read()
        self.assertIn("others connect", str(caught.exception))

    def test_ports_that_are_taken(self) -> None:
        with socket.create_server((HERE, 0)) as taken:
            port = taken.getsockname()[1]
            for first in (port, port - 1):
                with mock.patch.object(ospfapi, "PORTS", [first]), mock.patch.object(ospfapi, "TRIES", 1):
                    with self.assertRaises(ApiFault) as caught:
                        self.api()
                    self.assertIn("no two free ports", str(caught.exception))


class Sockets(unittest.TestCase):
    def test_lines_of_the_kernel(self) -> None:
        head = "  0: 0100007F:0A2F 0200007F:C000 01 00000000:00000000 00:00000000 00000000   {}        0 {} 1 0000 20 4 30 10 -1"
        with mock.patch.object(sockets.sys, "byteorder", "little"):
            row = sockets.row_of(head.format(104, 4711))
            self.assertEqual(row, (("127.0.0.1", 2607), ("127.0.0.2", 49152), sockets.ESTABLISHED, 104, 4711))
            for word, wanted in (
                ("00000000000000000000000000000000:0A2F", ("::", 2607)),
                ("0000000000000000FFFF00000100007F:0A2F", ("127.0.0.1", 2607)),
                ("00000000000000000000000001000000:0016", ("::1", 22)),
            ):
                self.assertEqual(sockets.end_of(word), wanted)

    def test_who_listens(self) -> None:
        with socket.create_server((HERE, 0)) as one:
            port = one.getsockname()[1]
            self.assertEqual(sockets.listening(port), {os.fstat(one.fileno()).st_ino: HERE})
        self.assertEqual(sockets.listening(port), {})
        with socket.create_server(("", 0)) as one:
            self.assertEqual(list(sockets.listening(one.getsockname()[1]).values()), ["0.0.0.0"])


LACKS = lacks(*Frr.needs)
# Seconds that are waited for what has to come, on a machine with much other work; and those of a whole test.
PATIENCE, ALARM = 120, 300
ALONE = Plan("alone", [1], [Wire("198.51.100", {1: 10}, 1)], joiner=1)
BOTH = Plan("both", [1, 2], [link(1, 2, 10, "10.0.12"), Wire("198.51.100", {1: 10, 2: 10}, 2)], joiner=2)


@unittest.skipIf(LACKS, f"FRR's own interface is not tried: {LACKS}")
class Routers(unittest.TestCase):
    """Routers with FRR. The tests are in the first one's namespace."""

    plan = ALONE
    network: ClassVar[Network]
    lab: ClassVar[Lab]

    @classmethod
    def setUpClass(cls) -> None:
        folder = tempfile.TemporaryDirectory(prefix="mrt-api-")
        cls.addClassCleanup(folder.cleanup)
        os.chmod(folder.name, 0o755)
        cls.network = cls.enterClassContext(Network(cls.plan))
        cls.lab = Lab(Frr(), cls.network, folder.name)
        cls.addClassCleanup(cls.lab.stop)
        for router in cls.plan.routers:
            cls.start(router)
        cls.settle()

    def setUp(self) -> None:
        self.lists = self.lists_of(1)
        self.enterContext(inside(self.network.of(1)))
        signal.alarm(ALARM)
        self.addCleanup(signal.alarm, 0)
        self.settle()

    @classmethod
    def start(cls, router: int) -> None:
        """Starts a router whose LSAs may follow one another at once."""
        cls.lab.start(router)
        end = time.monotonic() + PATIENCE
        while cls.lists_of(router).database() is None and time.monotonic() < end:
            cls.lab.look_after()
            time.sleep(0.1)
        cls.configure(router, "router ospf", "timers throttle lsa all 0", "timers lsa min-arrival 0")

    @classmethod
    def lists_of(cls, router: int) -> daemon_list.Client:
        return daemon_list.Client("frr", cls.lab.running[router].folder, 0)

    @classmethod
    def settle(cls) -> None:
        """Waits until all have all routers, and the LAN of more than one, and the same of them."""
        size, end = len(cls.plan.routers) + (len(cls.plan.routers) > 1), time.monotonic() + PATIENCE
        while time.monotonic() < end:
            first, *others = [cls.lists_of(router).database() or {} for router in cls.plan.routers]
            if len(first) == size and all(other == first for other in others):
                return
            cls.lab.look_after()
            time.sleep(0.2)
        raise AssertionError(f"the routers have not settled: {first}, {others}")

    def until(self, api: Api, wanted: "Callable[[], bool]") -> None:
        """Follows the daemon until something is so."""
        end = time.monotonic() + PATIENCE
        while not wanted():
            self.assertLess(time.monotonic(), end)
            select.select([api], [], [], min(0.2, max(0, api.due - time.monotonic())))
            api.read()

    def whole(self) -> Api:
        """FRR's word, as much of it as comes at once."""
        made = Api(0)
        self.addCleanup(made.close)
        self.until(made, lambda: made.whole)
        return made

    def agreeing(self) -> Api:
        """The same, when it is what the daemon lists, and that of all routers: on a machine with other work neighbors may
        part for a while."""
        made = self.whole()
        self.until(made, lambda: len(made.instances) == 3 and made.instances == self.lists.database())
        return made

    def in_time(self, is_so: "Callable[[], bool]") -> None:
        """Waits until something is so."""
        end = time.monotonic() + PATIENCE
        while not is_so():
            self.assertLess(time.monotonic(), end)
            time.sleep(0.2)

    @classmethod
    def configure(cls, router: int, *lines: str) -> None:
        words = [word for line in ("configure terminal", *lines) for word in ("-c", line)]
        folder = cls.lab.running[router].folder
        subprocess.run(["vtysh", "--vty_socket", folder, "-d", "ospfd", *words], check=True)


class BesideFrr(Routers):
    """Two routers, which have a link and a LAN."""

    plan = BOTH

    def test_it_is_the_daemons_list(self) -> None:
        api = self.agreeing()
        self.assertEqual((api.router, api.told), (address("10.255.0.1"), []))
        self.assertEqual(sorted(each.kind for each in api.found), [1, 1, 2])
        self.assertFalse(any(map(lsas.damage, api.found.values())))

    @unittest.skipUnless(os.path.exists(MRT), "the program is not built")
    def test_mrt_makes_a_certificate_of_it(self) -> None:
        def told() -> bytes:
            with tempfile.NamedTemporaryFile() as file:
                file.write(self.agreeing().database())
                file.flush()
                words = [MRT, "table", file.name, "-", "10.255.0.1"]
                return subprocess.run(words, capture_output=True, check=True).stdout.splitlines()[0]

        self.in_time(lambda: told() == b"router 10.255.0.1 root 10.255.0.2 nodes 3 links 3")

    def test_changes_come_by_themselves(self) -> None:
        api = self.agreeing()
        before = api.found
        for metric in (77, 10):
            self.configure(2, "interface to-r1", f"ip ospf cost {metric}")
            far = Key(1, address("10.255.0.2"), address("10.255.0.2"))

            def is_told() -> bool:
                links = lsas.links_of(api.found[far].record) if far in api.found else []
                return metric in [each.metric for each in links if each.kind == lsas.POINT_TO_POINT]

            self.until(api, is_told)
        self.until(api, lambda: api.found.keys() == before.keys())

    def test_what_is_flushed_is_gone(self) -> None:
        api = self.agreeing()
        lan = next(key for key in api.found if key.kind == lsas.NETWORK)
        self.addCleanup(self.configure, 2, "interface to-lan", "ip ospf area 0")
        self.configure(2, "interface to-lan", "no ip ospf area 0")
        self.until(api, lambda: lan not in api.found)
        self.until(api, lambda: api.instances == self.lists.database())
        self.configure(2, "interface to-lan", "ip ospf area 0")
        self.until(api, lambda: lan in api.found and api.instances == self.lists.database())

    def test_a_long_one_is_not_told(self) -> None:
        """FRR does not send it, and what it sends is not all: that it is not, the list says."""
        far = Key(1, address("10.255.0.2"), address("10.255.0.2"))
        with self.loopbacks():
            api = self.whole()
            self.until(api, lambda: far not in api.found and far in (self.lists.database() or {}))
            self.assertNotEqual(self.whole().instances, self.lists.database())

        def is_whole() -> bool:
            made = Api(0)
            try:
                self.until(made, lambda: made.whole)
                return len(made.instances) == 3 and made.instances == self.lists.database()
            finally:
                made.close()

        self.in_time(is_whole)

    @contextlib.contextmanager
    def loopbacks(self) -> Iterator[None]:
        """So many at the second router that its LSA is a long one; whatever fails, they go."""

        def change(verb: str) -> None:
            lines = "".join(f"addr {verb} 192.0.2.{number}/32 dev lo\n" for number in range(1, 151))
            words = ["ip", "-n", self.network.of(2), "-batch", "-"]
            subprocess.run(words, input=lines, text=True, check=True)

        change("add")
        try:
            yield
        finally:
            change("del")

    def test_it_is_open_until_a_rule_closes_it(self) -> None:
        def reached() -> bool:
            with inside(self.network.of(2)):
                try:
                    socket.create_connection(("10.0.12.1", ospfapi.PORT), 2).close()
                except TimeoutError:
                    return False
                return True

        self.assertIn("0.0.0.0", exposure.open_to_others(ospfapi.PORT) or "")
        self.assertTrue(reached())
        rules = (
            "add table inet ospfapi",
            "add chain inet ospfapi input { type filter hook input priority filter - 10; policy accept; }",
            f'add rule inet ospfapi input iifname != "lo" tcp dport {ospfapi.PORT} drop',
        )
        for rule in rules:
            subprocess.run(["nft", rule], check=True)
        self.addCleanup(lambda: subprocess.run(["nft", "delete table inet ospfapi"], check=True))
        self.assertIsNone(exposure.open_to_others(ospfapi.PORT))
        self.assertFalse(reached())
        self.agreeing()


class WithoutOspf(Routers):
    """A router whose `router ospf` ends."""

    def test_what_would_end_the_daemon_is_not_done(self) -> None:
        self.assertIsNotNone(self.lists.database())
        api = self.whole()
        self.configure(1, "no router ospf")
        with self.assertRaises(ApiFault) as caught:
            self.until(api, lambda: False)
        self.assertIn("has ended the connection", str(caught.exception))
        # Now nobody may connect, and the list says so.
        self.assertIsNone(self.lists.database())
        self.configure(1, "router ospf", "ospf router-id 10.255.0.1")
        self.assertIsNotNone(self.lists.database())
        with self.assertRaises(ApiFault) as caught:
            self.whole()
        self.assertIn("until it is started anew", str(caught.exception))
        self.lab.look_after()


if __name__ == "__main__":
    unittest.main()
