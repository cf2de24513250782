"""A database with a change that was not made yet: links and nodes added or taken away, other metrics."""
from __future__ import annotations

import struct
from typing import NamedTuple

from mrttools import area, lsas
from mrttools.area import Area, Bond, Node
from mrttools.exits import NOT_THERE, ToolFault
from mrttools.lsas import NETWORK, POINT_TO_POINT, ROUTER, TRANSIT, Lsa

BAD_DATABASE = 3

MAX_SEQUENCE = 0x7FFFFFFF
LINK = ">IIBBH"


def no_change(line: str) -> ToolFault:
    return ToolFault(line, NOT_THERE)


def bad_database(line: str) -> ToolFault:
    """A fault for which `mrt` would not take the database either."""
    return ToolFault(f"bad database: {line}", BAD_DATABASE)


def whole_database(data: bytes) -> list[Lsa]:
    """All LSAs of a database without a fault."""
    found, at = list(lsas.split(data)), 0
    for lsa in found:
        fault = lsas.damage(lsa) or ("a link with metric 0" if lsas.has_zero_metric(lsa) else None)
        if fault:
            raise bad_database(f"{fault} at {at}")
        at += len(lsa.record)
    if at != len(data):
        raise bad_database(f"truncated at {at}")
    for key, group in lsas.by_key(found).items():
        if (
            key.kind in (ROUTER, NETWORK)
            and len({lsa.text for lsa in group if lsas.rank(lsa) == max(map(lsas.rank, group))}) > 1
        ):
            raise bad_database(f"two newest instances of the {lsas.key_text(key)} say different things")
    return found


class Entry(NamedTuple):
    """A link of a router-LSA, with the bytes that stand after its metric."""

    link: lsas.Link
    services: bytes

    @property
    def record(self) -> bytes:
        link, count = self.link, len(self.services) // 4
        return struct.pack(LINK, link.far, link.data, link.kind, count, link.metric) + self.services


def entries_of(record: bytes) -> list[Entry]:
    """The links of a router-LSA as they stand."""
    entries, at = [], 24
    for link in lsas.links_of(record):
        end = at + 12 + 4 * record[at + 9]
        entries.append(Entry(link, record[at + 12 : end]))
        at = end
    return entries


class Draft:
    """The newest live LSAs of a database, and the links of routers and networks that are changed."""

    def __init__(self, found: list[Lsa]) -> None:
        self.speaking = area.speakers(found)
        self.others = [
            lsas.newest(group)[0] for key, group in lsas.by_key(found).items() if key.kind not in (ROUTER, NETWORK)
        ]
        routers = {node: lsa for node, lsa in self.speaking.items() if node.kind == ROUTER}
        self.links = {node: entries_of(lsa.record) for node, lsa in routers.items()}
        self.attached = {
            node: lsas.routers_of(lsa.record) for node, lsa in self.speaking.items() if node.kind == NETWORK
        }
        self.whole: Area = area.area_of(found)
        self.changed: set[Node] = set()
        self.gone: set[Bond] = set()

    def router(self, text: str) -> Node:
        try:
            node = area.node_of(text)
            if node in self.links:
                return node
        except ValueError:
            pass
        raise no_change(f"not there: {text}")

    def bond(self, text: str) -> Bond:
        """The link that a router and its link data name."""
        try:
            router, data = map(lsas.address, text.removeprefix("link:").split("/"))
            return next(bond for bond in self.whole.bonds if bond.is_of(router, data) and bond.two_way)
        except (ValueError, StopIteration):
            raise no_change(f"not there: {text}") from None

    # changes

    def add(self, one: Node, other: Node, metric: int) -> None:
        """A link between two routers, which has no addresses: its link data are the least numbers that are free."""
        if one == other:
            raise no_change(f"no link of a router to itself: {one.text}")
        for here, far in ((one, other), (other, one)):
            taken = {entry.link.data for entry in self.links[here]}
            data = next(number for number in range(1, len(taken) + 2) if number not in taken)
            self.links[here].append(Entry(lsas.Link(far.number, data, POINT_TO_POINT, metric), b""))
            self.changed.add(here)

    def is_end(self, entry: Entry, bond: Bond, here: Node) -> bool:
        """Whether this is what a router tells of a link."""
        far, kind = bond.far(here), TRANSIT if bond.far(here).kind == NETWORK else POINT_TO_POINT
        return (entry.link.far, entry.link.data, entry.link.kind) == (far.number, bond.data_of(here), kind)

    def place(self, bond: Bond, here: Node) -> int:
        """Which link of a router this is; of several with one name the first."""
        return next(place for place, entry in enumerate(self.links[here]) if self.is_end(entry, bond, here))

    def remove_link(self, bond: Bond) -> None:
        if bond in self.gone:
            return
        self.gone.add(bond)
        for here in (bond.a, bond.b):
            if here.kind == ROUTER:
                del self.links[here][self.place(bond, here)]
            else:
                self.attached[here].remove(bond.far(here).number)
            self.changed.add(here)

    def remove_node(self, node: Node) -> None:
        """A node with its links."""
        for bond in self.whole.bonds:
            if node in (bond.a, bond.b) and bond.two_way:
                self.remove_link(bond)
        del self.speaking[node]

    def remove(self, text: str) -> None:
        if text.startswith("link:"):
            self.remove_link(self.bond(text))
        else:
            try:
                self.remove_node(area.node_of(text))
            except (ValueError, KeyError):
                raise no_change(f"not there: {text}") from None

    def set_metric(self, text: str, metric: int) -> None:
        """The metric of a link at the router that names it."""
        bond, here = self.bond(text), area.node_of(text.removeprefix("link:").split("/")[0])
        place = self.place(bond, here)
        entry = self.links[here][place]
        self.links[here][place] = entry._replace(link=entry.link._replace(metric=metric))
        self.changed.add(here)

    # the file

    def record(self, node: Node, lsa: Lsa) -> bytes:
        """The LSA of a node: a newer instance where it has changed."""
        if node not in self.changed:
            return lsa.record
        if node.kind == ROUTER:
            entries = self.links[node]
            body = lsa.record[20:22] + struct.pack(">H", len(entries)) + b"".join(entry.record for entry in entries)
        else:
            body = lsa.record[20:24] + struct.pack(f">{len(self.attached[node])}I", *self.attached[node])
        return lsas.sealed(lsa, min(lsa.sequence + 1, MAX_SEQUENCE), body)

    def data(self) -> bytes:
        parts = [self.record(node, self.speaking[node]) for node in sorted(self.speaking)]
        return b"".join(parts + [lsa.record for lsa in self.others])
