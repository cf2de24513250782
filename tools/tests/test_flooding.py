"""What `mrt flood` says of the Link State Updates of captures, as the converter writes them."""
import os
import subprocess
import tempfile
import unittest
from random import Random
from typing import NamedTuple

from mrttools import lsas
from mrttools.lab import flood_script
from mrttools.lsas import ROUTER, Key, address
from tests import making
from tests.making import (
    MRT,
    Converted,
    datagram,
    ethernet,
    network_lsa,
    over_ethernet,
    pair,
    pcap,
    router_lsa,
    update,
)


class Flooded(NamedTuple):
    """What the program did with a file of packets and a script."""

    status: int
    answers: list[str]
    errors: str


def flooded(packets: bytes, script: list[str]) -> Flooded:
    with tempfile.TemporaryDirectory() as folder:
        names = [os.path.join(folder, name) for name in ("area.updates", "area.script")]
        for name, data in zip(names, (packets, "".join(f"{line}\n" for line in script).encode())):
            with open(name, "wb") as file:
                file.write(data)
        done = subprocess.run(
            [MRT, "flood", names[0], "-", names[1]],
            stdout=subprocess.PIPE,
            stderr=subprocess.PIPE,
            text=True,
            check=False,
        )
        return Flooded(done.returncode, done.stdout.splitlines(), done.stderr)


def in_two_orders(random: Random, packets: int) -> list[str]:
    """A script that delivers so many packets to router 0 in their order, and to router 1 in any order, some twice."""
    order = list(range(packets))
    other = order + random.choices(order, k=random.randrange(4))
    random.shuffle(other)
    return ["routers 2"] + [
        f"deliver {packet} {router}" for router, some in enumerate((order, other)) for packet in some
    ]


# areas and captures


def name(router: int) -> str:
    return f"{router}.{router}.{router}.{router}"


def random_area(random: Random) -> list[bytes]:
    """The LSAs of up to five routers, with any links between them, and sometimes a LAN."""
    routers = range(1, random.randint(2, 6))
    links: dict[int, list[tuple[str, str, int, int]]] = {router: [] for router in routers}
    for number in range(random.randrange(2 * len(routers)) if len(routers) > 1 else 0):
        one, other = random.sample(routers, 2)
        for here, far in ((one, other), (other, one)):
            links[here].append((name(far), f"10.0.{number}.{here}", 1, random.randint(1, 3)))
    lans = []
    if random.random() < 0.5:
        attached = random.sample(routers, random.randint(1, len(routers)))
        lan = f"10.1.0.{attached[0]}"
        for router in attached:
            links[router].append((lan, f"10.1.0.{router}", 2, 5))
        lans.append(network_lsa(lan, name(attached[0]), map(name, attached)))
    return [router_lsa(name(router), links[router]) for router in routers] + lans


def other_instance(random: Random, record: bytes) -> bytes:
    """A copy of an LSA, an older or a newer instance, a withdrawn one, or one that differs although it has the same
    rank."""
    one = lsas.lsa_of(record)
    age, sequence = random.choice([(1, 0), (700, 0), (1, 1), (1, 2), (1, 2), (3600, 1), (3600, 2)])
    if random.random() < 0.05:
        # Byte 20 of a router-LSA and byte 23 of a network-LSA are 0 here, which is 255 modulo 255.
        at = 20 if one.kind == ROUTER else 23
        return record[:at] + b"\xff" + record[at + 1 :]
    number, router = map(lsas.spelled, (one.number, one.router))
    return making.lsa(one.kind, number, router, record[20:], age, 0x80000001 + sequence)


def random_records(random: Random) -> list[bytes]:
    """The LSAs of an area with other instances of them, and with LSAs of other types, in any order."""
    records = random_area(random)
    records += [other_instance(random, random.choice(records)) for _ in range(random.randrange(5))]
    records += [making.lsa(5, "0.0.0.0", name(1), bytes(16)) for _ in range(random.randrange(2))]
    random.shuffle(records)
    return records


def random_updates(random: Random, records: list[bytes], authentication: int) -> list[bytes]:
    """Link State Updates of these LSAs."""
    updates = []
    while records:
        size = random.randint(1, 4)
        updates.append(update(records[:size], authentication=authentication))
        records = records[size:]
    return updates


def random_capture(random: Random, updates: list[bytes], authentication: int) -> bytes:
    """A capture of these packets: whole or in fragments, between packets of other types and some that are cut."""
    frames = []
    for number, packet in enumerate(updates):
        payload = packet + bytes(16 if authentication == 2 else 0)
        parts = making.fragments(payload, 64, number) if random.random() < 0.3 else [datagram(payload)]
        frames += [ethernet(part, random.randrange(3)) for part in parts]
        if random.random() < 0.3:
            frames.append(ethernet(datagram(making.ospf(random.choice([1, 2, 3, 5]), bytes(20)))))
        if random.random() < 0.3:
            frames.append(ethernet(datagram(packet))[: random.choice([40, 70])])
    return pcap(frames)


# what is to be


def is_settled(found: list[lsas.Lsa]) -> bool:
    """Whether the newest instances of each router's and network's LSA differ in their ages alone."""
    for key, group in lsas.by_key(found).items():
        greatest = max(map(lsas.rank, group))
        texts = {lsa.text for lsa in group if lsas.rank(lsa) == greatest}
        if key.kind in (lsas.ROUTER, lsas.NETWORK) and len(texts) > 1:
            return False
    return True


def is_there(found: list[lsas.Lsa], router: str) -> bool:
    """Whether the newest LSA of a router is a live one."""
    group = lsas.by_key(found).get(Key(ROUTER, address(router), address(router)), [])
    return bool(group) and not max(group, key=lsas.rank).withdrawn


@unittest.skipUnless(os.path.exists(MRT), "the program is not built")
class TakenByMrt(unittest.TestCase):
    """The built program reads the packets of a capture, and where they reached two routers in two orders, these do not
    differ."""

    def test_random_captures(self) -> None:
        random, said = Random(31), []
        for _ in range(60):
            authentication = random.choice([0, 1, 2])
            records = random_records(random)
            updates = random_updates(random, records, authentication)
            done = Converted(random_capture(random, updates, authentication), "--packets")
            self.assertEqual(done.file, b"".join(updates), done.lines)
            routers = [name(router) for router in range(1, 7)]
            deliveries = in_two_orders(random, len(updates))
            result = flooded(done.written, deliveries + [f"same 0 1 {router}" for router in routers])
            self.assertEqual((result.status, result.errors), (0, ""))
            self.assertEqual(len(result.answers), len(deliveries) - 1 + len(routers))
            found = list(map(lsas.lsa_of, records))
            wanted = ["same" if is_settled(found) and is_there(found, router) else "none" for router in routers]
            self.assertEqual(result.answers[-len(routers) :], wanted)
            said += wanted
        self.assertGreater(min(map(said.count, ("same", "none"))), 20)

    def test_a_packet_of_two_routers(self) -> None:
        one, other = pair()
        done = Converted(over_ethernet(update([one, other]), update([one])), "--packets")
        result = flooded(done.written, ["routers 2", "deliver 1 0", "deliver 0 0", "deliver 3 1", "same 0 1 2.2.2.2"])
        self.assertEqual(result, (0, ["changed 1 sent 2", "changed 1 sent 3", "changed 1 sent 4", "different"], ""))

    def test_what_has_not_settled(self) -> None:
        one, other = pair()
        twin = one[:20] + b"\xff" + one[21:]
        done = Converted(over_ethernet(update([one, other]), update([twin])), "--packets")
        result = flooded(
            done.written, ["routers 1", "deliver 0 0", "same 0 0 2.2.2.2", "deliver 1 0", "same 0 0 2.2.2.2"]
        )
        self.assertEqual(result, (0, ["changed 2 sent 2", "same", "changed 0", "none"], ""))

    def test_an_lsa_that_mrt_does_not_take(self) -> None:
        one, other = pair()
        spoilt = other[:-1] + bytes([other[-1] ^ 1])
        for kind, record in (("checksum", spoilt), ("zero-metric", pair(metric=0)[0])):
            done = Converted(over_ethernet(update([one]), update([other, record])), "--packets")
            place = 28 + len(one) + 28 + len(other)
            self.assertEqual(flooded(done.written, ["routers 1"]), (14, [], f"mrt: bad update: {kind} at {place}\n"))


class Scripts(unittest.TestCase):
    """The lab's script, by packets of which two tell of one link."""

    def setUp(self) -> None:
        one, other = pair()
        bare = router_lsa("1.1.1.1", [], sequence=0x80000000 + 2)
        again = router_lsa("1.1.1.1", [("2.2.2.2", "10.0.0.1", 1, 1)], sequence=0x80000000 + 3)
        self.updates = [update([bare, other]), update([again]), update([other]), update([other, again])]
        self.one, self.other = address("1.1.1.1"), address("2.2.2.2")

    def test_what_is_held_back(self) -> None:
        packets = flood_script.packets_in(b"".join(self.updates))
        self.assertEqual([packet.data for packet in packets], self.updates)
        self.assertEqual(flood_script.telling(packets, self.one, self.other), [1, 3])
        lines = flood_script.script(packets, self.one, self.other, self.one)
        self.assertEqual(
            lines[6:], ["deliver 2 1", "deliver 0 1", "same 0 1 1.1.1.1", "deliver 3 1", "same 0 1 1.1.1.1"]
        )

    @unittest.skipUnless(os.path.exists(MRT), "the program is not built")
    def test_the_program_says_different_and_then_same(self) -> None:
        data = b"".join(self.updates)
        result = flooded(data, flood_script.script(flood_script.packets_in(data), self.one, self.other, self.one))
        self.assertEqual((result.status, result.answers[-3], result.answers[-1]), (0, "different", "same"))
