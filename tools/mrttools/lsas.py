"""Link-state advertisements as bytes (RFC 2328, section A.4): their fields, their faults, and which instance is
newer."""
from __future__ import annotations

import struct
from itertools import accumulate
from typing import Iterable, Iterator, NamedTuple

ROUTER, NETWORK = 1, 2
POINT_TO_POINT, TRANSIT, STUB = 1, 2, 3
HEADER = 20
MAX_AGE, MAX_AGE_DIFF = 3600, 900
RESERVED_SEQUENCE = -0x80000000

TYPE_NAMES = {
    1: "router",
    2: "network",
    3: "summary",
    4: "ASBR-summary",
    5: "AS-external",
    7: "NSSA-external",
    9: "opaque of a link",
    10: "opaque of the area",
    11: "opaque of the AS",
}


class Link(NamedTuple):
    """A link of a router-LSA."""

    far: int
    data: int
    kind: int
    metric: int


class Key(NamedTuple):
    """What the instances of one LSA have in common."""

    kind: int
    number: int
    router: int


class Lsa(NamedTuple):
    """An LSA by the fields of its header, with all its bytes."""

    age: int
    kind: int
    number: int
    router: int
    sequence: int
    checksum: int
    record: bytes

    @property
    def key(self) -> Key:
        return Key(self.kind, self.number, self.router)

    @property
    def seconds(self) -> int:
        """The age without the bit DoNotAge."""
        return self.age & 0x7FFF

    @property
    def withdrawn(self) -> bool:
        return self.seconds >= MAX_AGE

    @property
    def text(self) -> bytes:
        """All that two copies of one instance share: the bytes after the age."""
        return self.record[2:]


def spelled(number: int) -> str:
    """An address in decimal, joined by dots."""
    return ".".join(str(byte) for byte in struct.pack(">I", number))


def address(text: str) -> int:
    """The number that an address spells; another text is a ValueError."""
    parts = text.split(".")
    if len(parts) != 4 or any(not part.isdecimal() or int(part) > 255 for part in parts):
        raise ValueError(f"{text} is no address")
    return int.from_bytes(bytes(map(int, parts)), "big")


def type_name(kind: int) -> str:
    return TYPE_NAMES.get(kind, f"type {kind}")


def key_text(key: Key) -> str:
    """An LSA as an operator would name it."""
    if key.kind == ROUTER:
        return f"router-LSA of {spelled(key.router)}"
    return f"{type_name(key.kind)}-LSA {spelled(key.number)} of {spelled(key.router)}"


def sums(data: bytes) -> tuple[int, int]:
    """The two Fletcher sums."""
    return sum(data) % 255, sum(accumulate(data)) % 255


def sealed(lsa: Lsa, sequence: int, body: bytes) -> bytes:
    """The bytes of an LSA with another sequence number and body, and the checksum that these have (RFC 2328, section
    12.1.7)."""
    head = lsa.record[:12] + struct.pack(">i", sequence)
    tail = struct.pack(">H", HEADER + len(body)) + body
    covered = head[2:] + bytes(2) + tail
    first, second = sums(covered)
    check = ((len(covered) - 15) * first - second) % 255, (second - (len(covered) - 14) * first) % 255
    return head + bytes(value or 255 for value in check) + tail


def lsa_of(record: bytes) -> Lsa:
    """The fields of an LSA's bytes, which are at least a header."""
    age, kind, number, router, sequence, checksum = struct.unpack_from(">HxBIIiH", record)
    return Lsa(age, kind, number, router, sequence, checksum, record)


def links_of(record: bytes) -> list[Link]:
    """The links of a router-LSA; a length that is not that of the counted links is a ValueError."""
    links, at = [], 24
    for _ in range(int.from_bytes(record[22:24], "big")):
        if len(record) < at + 12:
            break
        far, data, kind, services, metric = struct.unpack_from(">IIBBH", record, at)
        links.append(Link(far, data, kind, metric))
        at += 12 + 4 * services
    if at != len(record) or len(links) != int.from_bytes(record[22:24], "big"):
        raise ValueError("a router-LSA of another length than its links have")
    return links


def routers_of(record: bytes) -> list[int]:
    """The attached routers of a network-LSA; a length that fits none is a ValueError."""
    if len(record) < 24 or len(record) % 4:
        raise ValueError("a network-LSA of a length that fits no routers")
    return list(struct.unpack_from(f">{len(record) // 4 - 6}I", record, 24))


def has_body(lsa: Lsa) -> bool:
    """Whether the length is that of the body."""
    try:
        if lsa.kind == ROUTER:
            links_of(lsa.record)
        elif lsa.kind == NETWORK:
            routers_of(lsa.record)
    except ValueError:
        return False
    return True


def damage(lsa: Lsa) -> str | None:
    """Why a router drops this LSA when it receives it, if it does. These are the faults of `mrt`, but for a metric of
    0."""
    if sums(lsa.text) != (0, 0) or lsa.checksum == 0:
        return "a wrong LSA checksum"
    if lsa.sequence == RESERVED_SEQUENCE:
        return "the reserved sequence number"
    if lsa.kind == ROUTER and lsa.number != lsa.router:
        return "two router IDs in one router-LSA"
    return None if has_body(lsa) else "a body that does not fit its length"


def has_zero_metric(lsa: Lsa) -> bool:
    """Whether a link to a router or to a transit network has metric 0, for which `mrt` refuses the whole file."""
    return lsa.kind == ROUTER and any(
        link.kind in (POINT_TO_POINT, TRANSIT) and link.metric == 0 for link in links_of(lsa.record)
    )


def rank(lsa: Lsa) -> tuple[int, int, bool]:
    """The greater rank is the newer instance; instances of one rank differ by their ages at most (RFC 2328, section
    13.1)."""
    return lsa.sequence, lsa.checksum, lsa.withdrawn


def newest(instances: Iterable[Lsa]) -> list[Lsa]:
    """The newest of the instances of one LSA. Several mean that the standard calls them the same: same rank, ages at
    most 15 minutes apart."""
    instances = list(instances)
    greatest = max(map(rank, instances))
    equal = [lsa for lsa in instances if rank(lsa) == greatest]
    youngest = min(lsa.seconds for lsa in equal)
    return [lsa for lsa in equal if lsa.seconds - youngest <= MAX_AGE_DIFF]


def by_key(lsas: Iterable[Lsa]) -> dict[Key, list[Lsa]]:
    """The instances of each LSA, in the order in which they came."""
    found: dict[Key, list[Lsa]] = {}
    for lsa in lsas:
        found.setdefault(lsa.key, []).append(lsa)
    return found


def split(data: bytes) -> Iterator[Lsa]:
    """The LSAs of a database file, up to the first that does not fit; where `mrt` takes the file, all of them."""
    at = 0
    while len(data) - at >= HEADER:
        length = int.from_bytes(data[at + 18 : at + 20], "big")
        if not HEADER <= length <= len(data) - at:
            return
        yield lsa_of(data[at : at + length])
        at += length
