"""The LSAs that a router hears and sends, byte by byte: a copy of each OSPF packet on its interfaces, and the LSAs of
one area in them.

No authentication is looked at, so that a packet counts only where the daemon would take it: it came by an interface of
the area, from a neighbor that the daemon exchanges LSAs with there, and over one link; or the router itself has sent it
to all its neighbors, with an LSA of its own. An LSA counts only as the daemon lists it.
"""
from __future__ import annotations

import ctypes
import socket
import struct
from typing import Iterable, Iterator, NamedTuple

from mrttools import capture, gather, lsas, updates
from mrttools.capture import BadDatagram, Datagram, Fragments
from mrttools.lsas import NETWORK, ROUTER, Key, Lsa
from mrttools.updates import BadPacket

# What OSPF gives a packet to live: one link, or all that there is, so that it is seen that it has come over one. The
# kernel gives this socket IPv4 of the protocol OSPF with these alone (a filter of the Berkeley kind).
HOPS = 1, 255
FILTER = [
    (0x28, 0, 0, 0xFFFFF000),
    (0x15, 0, 6, 0x0800),
    (0x30, 0, 0, 9),
    (0x15, 0, 4, updates.PROTOCOL),
    (0x30, 0, 0, 8),
    (0x15, 1, 0, HOPS[0]),
    (0x15, 0, 1, HOPS[1]),
    (0x06, 0, 0, 0xFFFF),
    (0x06, 0, 0, 0),
]
ATTACH_FILTER, RECEIVE_ROOM, ALL_FRAMES = 26, 33, 3
# To this host, to all, to a group; and what goes out.
COMES, GOES = (0, 1, 2), 4
# How many bytes of packets are taken at once, and how many fragments are kept. How many instances that the daemon does
# not list, and how many bytes of them: what an area may have, as `mrt` takes it.
AT_ONCE, PARTS, COUNT, ROOM = 1 << 18, 4096, 4096, gather.FILE_LIMIT
# AllSPFRouters and AllDRouters, to which nothing is sent from another link.
TO_ALL = {bytes([224, 0, 0, 5]), bytes([224, 0, 0, 6])}

# What tells the instances of an LSA apart: the sequence number and the checksum.
Instance = tuple[int, int]
Database = dict[Key, Instance]
# Before all that there are.
NONE: Instance = 0x80000000, 0


def instance_of(lsa: Lsa) -> Instance:
    return lsa.sequence & 0xFFFFFFFF, lsa.checksum


def size_of(lsa: Lsa) -> int:
    """How many links a router-LSA has; how long a network-LSA is."""
    return int.from_bytes(lsa.record[22:24], "big") if lsa.kind == ROUTER else len(lsa.record)


class Neighbor(NamedTuple):
    """With whom the daemon exchanges LSAs: by which interface, its address there, and its router ID."""

    device: str
    address: int
    router: int


class DaemonView(NamedTuple):
    """What the daemon says of an area: its live router-LSAs and network-LSAs, the size of those of which it says that
    too, and its neighbors."""

    database: Database
    sizes: dict[Key, int]
    neighbors: frozenset[Neighbor]

    def has(self, lsa: Lsa) -> bool:
        """Whether an LSA is as the daemon lists it."""
        size = size_of(lsa)
        return self.database.get(lsa.key) == instance_of(lsa) and self.sizes.get(lsa.key, size) == size


class PacketCopy(NamedTuple):
    """A copy of a packet: by which interface it went, whether it went out, and its bytes."""

    device: str
    out: bool
    data: bytes


def packet_socket() -> socket.socket:
    """A socket that gets a copy of each OSPF packet that comes in or goes out."""
    made = socket.socket(socket.AF_PACKET, socket.SOCK_DGRAM, socket.htons(ALL_FRAMES))
    code = ctypes.create_string_buffer(b"".join(struct.pack("HBBI", *line) for line in FILTER))
    made.setsockopt(socket.SOL_SOCKET, ATTACH_FILTER, struct.pack("HP", len(FILTER), ctypes.addressof(code)))
    made.setsockopt(socket.SOL_SOCKET, RECEIVE_ROOM, 1 << 24)
    made.setblocking(False)
    return made


def packets(source: socket.socket) -> Iterator[PacketCopy]:
    """The packets that wait."""
    while True:
        try:
            data, (device, _, kind, *_) = source.recvfrom(65535)
        except BlockingIOError:
            return
        if kind in COMES or kind == GOES:
            yield PacketCopy(device, kind == GOES, data)


class HeardLsas:
    """The live router-LSAs and network-LSAs that were heard, at most two that differ of each instance: those that the
    daemon lists, and so many that it does not list yet."""

    def __init__(self, area: int, router: int, known: Iterable[Lsa]) -> None:
        self.area, self.router = area, router
        self.fragments = Fragments()
        self.own: set[tuple[str, bytes]] = set()
        self.listed: dict[Key, list[Lsa]] = {}
        # In the order in which they came, and how many bytes they have.
        self.others: dict[tuple[Key, Instance], list[Lsa]] = {}
        self.size = 0
        for lsa in known:
            self.hear(lsa, DaemonView({}, {}, frozenset()))

    def take(self, waiting: Iterator[PacketCopy], look: DaemonView, own: dict[int, str]) -> tuple[list[Lsa], list[str]]:
        """Takes packets that wait, of so many bytes at once; the LSAs that the daemon lists, and what lacks: those that
        were not heard, or in two ways. `own` are the router's addresses, with their interfaces; those that it had count
        too, for packets that waited while an interface went down."""
        self.sort(look)
        self.own |= {(device, address.to_bytes(4, "big")) for address, device in own.items()}
        senders = {(one.device, one.address.to_bytes(4, "big")): one.router for one in look.neighbors}
        taken = 0
        for packet in waiting:
            self.take_packet(packet, look, senders)
            taken += len(packet.data)
            if taken >= AT_ONCE:
                break
        there, lacks = [], []
        for key in sorted(look.database):
            texts = self.listed.get(key, [])
            if len(texts) == 1:
                there += texts
            else:
                lacks.append(f"heard in {len(texts)} ways" if texts else "not heard")
                lacks[-1] += f": {lsas.key_text(key)}"
        return there, lacks

    # packets

    def take_packet(self, packet: PacketCopy, look: DaemonView, senders: dict[tuple[str, bytes], int]) -> None:
        """Takes the LSAs of a packet that the daemon takes too."""
        if self.fragments.count >= PARTS:
            self.fragments = Fragments()
        # What came before the filter may be anything.
        if not capture.is_protocol(packet.data, updates.PROTOCOL) or packet.data[8] not in HOPS:
            return
        try:
            part = capture.datagram_of(packet.data)
            sender = self.sender(packet, part, senders)
            payload = None if sender is None else self.fragments.put(part)
            update = payload and updates.packet_of(payload)
            if update and (update.kind, update.area, update.router) == (updates.UPDATE, self.area, sender):
                for lsa in updates.records_of(update):
                    if not packet.out or lsa.router == self.router:
                        self.hear(lsa, look)
        except (BadDatagram, BadPacket):
            pass

    def sender(self, packet: PacketCopy, part: Datagram, senders: dict[tuple[str, bytes], int]) -> int | None:
        """The router that has sent a packet, where that is a neighbor or the router itself. What only goes through the
        router may be from anywhere, and so may be what goes out to one address, whoever it says that has sent it."""
        if packet.out:
            return self.router if part.target in TO_ALL and (packet.device, part.source) in self.own else None
        if part.target in TO_ALL or (packet.device, part.target) in self.own:
            return senders.get((packet.device, part.source))
        return None

    # LSAs

    def hear(self, lsa: Lsa, look: DaemonView) -> None:
        """Takes an LSA, but for one that a router would drop."""
        if lsa.kind in (ROUTER, NETWORK) and not lsa.withdrawn and self.is_wanted(lsa, look) and not lsas.damage(lsa):
            self.place(lsa, look)

    def is_wanted(self, lsa: Lsa, look: DaemonView) -> bool:
        """Whether the daemon lists an LSA, or may list it yet, as it is newer, and it is not here."""
        sequence, checksum = look.database.get(lsa.key, NONE)
        if not look.has(lsa) and (lsa.sequence, lsa.checksum) <= (signed(sequence), checksum):
            return False
        texts = self.listed.get(lsa.key, []) if look.has(lsa) else self.others.get((lsa.key, instance_of(lsa)), [])
        return len(texts) < 2 and all(lsa.text != other.text for other in texts)

    def place(self, lsa: Lsa, look: DaemonView) -> None:
        """Puts a wanted LSA among those that are listed, or the others, of which those that came first go where there is
        no room."""
        if look.has(lsa):
            self.listed.setdefault(lsa.key, []).append(lsa)
            return
        self.others.setdefault((lsa.key, instance_of(lsa)), []).append(lsa)
        self.size += len(lsa.record)
        while len(self.others) > COUNT or self.size > ROOM:
            gone = self.others.pop(next(iter(self.others)))
            self.size -= sum(len(record.record) for record in gone)

    def sort(self, look: DaemonView) -> None:
        """Puts what was heard where it belongs by what the daemon lists now."""
        before = [lsa for texts in (*self.listed.values(), *self.others.values()) for lsa in texts]
        self.listed, self.others, self.size = {}, {}, 0
        for lsa in before:
            if self.is_wanted(lsa, look):
                self.place(lsa, look)


def signed(sequence: int) -> int:
    """A sequence number as numbers of 32 bits with a sign are ordered."""
    return sequence - (1 << 32 if sequence >> 31 else 0)
