"""Link State Updates and the routers that they reach (RFC 2328, sections 13, A.3.5): the reference for `mrt flood`.

A packet is its LSAs. What a router has is the list of all LSAs of types 1 and 2 that were delivered to it.
"""
import struct

from bench.reference import certificate, database, island as islands, lowpoint
from bench.reference.database import NETWORK, ROUTER, Refused, key_of, rank
from bench.reference.fabric import number_within, read_lines
from bench.reference.island import address_of

VERSION, UPDATE = 2, 4
HEADER = 28
ROUTERS, DELIVERIES = 64, 65535


# packets


def read_packet(data, at):
    """The LSAs of the packet at a place, and its length; of a faulty packet the first fault is told."""

    def refused(kind):
        return Refused(14, f"bad update: {kind} at {at}")

    left = len(data) - at
    if left < HEADER:
        raise refused("truncated")
    version, kind, length, count = struct.unpack_from(">BBH20xI", data, at)
    if left < length:
        raise refused("truncated")
    if (version, kind) != (VERSION, UPDATE):
        raise refused("header")
    if length < HEADER:
        raise refused("length")
    lsas = database.read_lsas(data[at + HEADER : at + length], at + HEADER, 14, "update")
    if len(lsas) != count:
        raise refused("count")
    return lsas, length


def read_updates(data):
    """The packets of the bytes, or the first faulty packet and its first fault."""
    packets, at = [], 0
    while at < len(data):
        lsas, length = read_packet(data, at)
        packets.append(lsas)
        at += length
    return packets


# routers


class Flood:
    """The packets by number, what was delivered to each router, and the greatest rank of each key there."""

    def __init__(self, packets, routers):
        self.packets = list(packets)
        self.delivered = [[] for _ in range(routers)]
        self.ranks = [{} for _ in range(routers)]

    def is_news(self, lsa, router):
        """Whether an LSA that reaches a router is the first of its key there, or newer than all before."""
        self.delivered[router].append(lsa)
        ranks, key = self.ranks[router], key_of(lsa)
        if key in ranks and rank(lsa) <= ranks[key]:
            return False
        ranks[key] = rank(lsa)
        return True

    def deliver(self, packet, router):
        """The line of a delivery."""
        if packet >= len(self.packets):
            return "refused no-such-packet"
        if router >= len(self.delivered):
            return "refused no-such-router"
        news = [lsa for lsa in self.packets[packet] if lsa.kind in (ROUTER, NETWORK) and self.is_news(lsa, router)]
        if not news:
            return "changed 0"
        self.packets.append(news)
        return f"changed {len(news)} sent {len(self.packets) - 1}"

    def same(self, one, other, profile, router):
        """The line of a comparison: of the certificates of one router's island by the databases of two."""
        certs = [certificate_of(self.delivered[each], profile, router) for each in (one, other)]
        if None in certs:
            return "none"
        return "same" if certs[0] == certs[1] else "different"


def certificate_of(lsas, profile, router):
    """The certificate of a router's island. None where the LSAs are not settled, their area is over a limit, or the
    router is in no island."""
    try:
        area = database.area_of(database.newest(lsas))
        database.check_size(area)
        found = islands.island_of(area, profile, router)
    except Refused:
        return None
    return certificate.write(found, lowpoint.compute(found))


# scripts


def start_of(words):
    """How many routers the first line says there are, if it does."""
    return number_within(words[1], 1, ROUTERS) if len(words) == 2 and words[0] == b"routers" else None


def line_of(words, routers):
    """A delivery, or a comparison of two of so many routers, if a later line is one."""
    line = None
    if len(words) == 3 and words[0] == b"deliver":
        line = "deliver", number_within(words[1], 0, 0xFFFFFFFF), number_within(words[2], 0, 0xFFFF)
    elif len(words) == 4 and words[0] == b"same":
        line = "same", *(number_within(word, 0, routers - 1) for word in words[1:3]), address_of(words[3])
    return None if line is None or None in line else line


def read_script(data):
    """How many routers there are, and the later lines, or a refusal with the first line that is not as it should be,
    be it a delivery too many."""
    deliveries = 0

    def counted(words, routers):
        nonlocal deliveries
        line = line_of(words, routers)
        deliveries += line is not None and line[0] == "deliver"
        return line if deliveries <= DELIVERIES else None

    return read_lines(data, start_of, counted)


def text(packets, profile, routers, lines):
    """One line for each delivery and each comparison."""
    flood = Flood(packets, routers)
    answers = [
        flood.deliver(*words) if what == "deliver" else flood.same(*words[:2], profile, words[2])
        for what, *words in lines
    ]
    return "".join(answer + "\n" for answer in answers)
