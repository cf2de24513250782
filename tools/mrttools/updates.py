"""OSPFv2 packets (RFC 2328, section A.3): which are Link State Updates, and the LSAs in them."""
from __future__ import annotations

import struct
from typing import Iterator, NamedTuple, Sequence

from . import lsas
from .lsas import Lsa

PROTOCOL = 89
UPDATE = 4
NO_AUTHENTICATION, PASSWORD, CRYPTOGRAPHIC = 0, 1, 2


class BadPacket(Exception):
    """Why an OSPF packet, or the rest of one, is dropped."""


class Packet(NamedTuple):
    """An OSPF packet without what stands after it, as a digest."""

    kind: int
    router: int
    area: int
    data: bytes


def internet_sum(data: bytes) -> int:
    """The sum of a packet's words by the internet checksum (RFC 1071): all ones where its checksum is right."""
    data += bytes(len(data) % 2)
    total = sum(struct.unpack(f">{len(data) // 2}H", data))
    while total >> 16:
        total = (total & 0xFFFF) + (total >> 16)
    return total


def packet_of(payload: bytes) -> Packet:
    """The OSPF packet of an IP payload; one that a router would drop is a BadPacket."""
    if len(payload) < 24:
        raise BadPacket("shorter than an OSPF header")
    version, kind, size, router, area, checksum, authentication = struct.unpack_from(">BBHIIHH", payload)
    if version != 2:
        raise BadPacket(f"OSPF version {version}")
    if not 24 <= size <= len(payload):
        raise BadPacket("a wrong OSPF length")
    data = payload[:size]
    if authentication in (NO_AUTHENTICATION, PASSWORD):
        # The checksum does not cover the password.
        if internet_sum(data[:16] + data[24:]) != 0xFFFF:
            raise BadPacket("a wrong OSPF checksum")
    elif authentication != CRYPTOGRAPHIC:
        raise BadPacket(f"authentication of type {authentication}")
    return Packet(kind, router, area, data)


def made(router: int, records: Sequence[bytes]) -> bytes:
    """A Link State Update of a router in the area 0, without authentication."""
    body = struct.pack(">I", len(records)) + b"".join(records)
    head = struct.pack(">BBHII", 2, UPDATE, 24 + len(body), router, 0)
    checksum = 0xFFFF ^ internet_sum(head + bytes(4) + body)
    return head + struct.pack(">HH", checksum, NO_AUTHENTICATION) + bytes(8) + body


def records_of(packet: Packet) -> Iterator[Lsa]:
    """The LSAs of a Link State Update, damaged or not, up to the first that does not fit in it."""
    data, at = packet.data, 28
    if len(data) < at:
        raise BadPacket("a Link State Update without a count")
    for _ in range(struct.unpack_from(">I", data, 24)[0]):
        left = len(data) - at
        size = struct.unpack_from(">H", data, at + 18)[0] if left >= lsas.HEADER else 0
        if not lsas.HEADER <= size <= left:
            raise BadPacket("an LSA that does not fit in its packet")
        yield lsas.lsa_of(data[at : at + size])
        at += size
