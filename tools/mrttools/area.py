"""The area of a database that `mrt` has taken: its nodes, and the links that both ends tell."""
from __future__ import annotations

from itertools import groupby
from typing import Iterable, Iterator, NamedTuple

from . import lsas
from .lsas import NETWORK, POINT_TO_POINT, ROUTER, TRANSIT, Lsa

# A link of this metric is that of a router in maintenance (RFC 6987), and in no island.
MAINTENANCE = 65535


class Node(NamedTuple):
    """A router by its router ID, or a network by its designated router's address. Nodes are ordered by number, then
    by kind."""

    number: int
    kind: int

    @property
    def text(self) -> str:
        return ("net:" if self.kind == NETWORK else "") + lsas.spelled(self.number)


class Arc(NamedTuple):
    """What one end tells of a link."""

    tail: Node
    to: Node
    data: int
    place: int
    metric: int = 0


class Bond(NamedTuple):
    """A link between two nodes, with the link data and the metric of both ends; a network's end has the metric 0. Where
    both ends tell of it, the lesser node is first. Of parallel links that only one end tells, that end is first, and
    the other has no data."""

    a: Node
    b: Node
    data_a: int
    data_b: int | None
    metric_a: int = 0
    metric_b: int = 0

    @property
    def two_way(self) -> bool:
        return self.data_b is not None

    @property
    def transit(self) -> bool:
        """Whether both ends tell of it and neither says that it is not for transit traffic (RFC 6987)."""
        return self.two_way and MAINTENANCE not in (self.metric_a, self.metric_b)

    def is_of(self, router: int, data: int) -> bool:
        """Whether this is the link of a router with this link data."""
        node = Node(router, ROUTER)
        return (node, data) in ((self.a, self.data_a), (self.b, self.data_b))

    def far(self, node: Node) -> Node:
        return self.b if node == self.a else self.a

    def metric_from(self, node: Node) -> int | None:
        """The metric of the way from one of its nodes; none where that way is not told."""
        return self.metric_a if node == self.a else self.metric_b if self.two_way else None

    def data_of(self, node: Node) -> int | None:
        return self.data_a if node == self.a else self.data_b

    @property
    def text(self) -> str:
        """A link by a router and its link data, as `mrt` takes it. Of one that leads to a network it is the router's
        end."""
        if self.a.kind == ROUTER:
            return f"link:{self.a.text}/{lsas.spelled(self.data_a)}"
        return f"link:{self.b.text}/{lsas.spelled(self.data_b or 0)}"


class Area(NamedTuple):
    """Nodes, the links between them, and what one end alone tells of a link to a node that tells of none back."""

    nodes: list[Node]
    bonds: list[Bond]
    half: tuple[Arc, ...] = ()


def node_of(text: str) -> Node:
    """The node that a word names, as a router or with `net:`; another word is a ValueError."""
    if text.startswith("net:"):
        return Node(lsas.address(text[4:]), NETWORK)
    return Node(lsas.address(text), ROUTER)


def speakers(found: Iterable[Lsa]) -> dict[Node, Lsa]:
    """The live LSA of each node. Of several of one network that of the greatest router speaks."""
    chosen = [group[0] for group in (instances for instances in map(lsas.newest, lsas.by_key(found).values()))]
    live = [lsa for lsa in chosen if lsa.kind in (ROUTER, NETWORK) and not lsa.withdrawn]
    return {Node(lsa.number, lsa.kind): lsa for lsa in sorted(live, key=lambda lsa: lsa.router)}


def arcs_from(node: Node, lsa: Lsa) -> Iterator[Arc]:
    """The links that a node's LSA tells, to routers and to transit networks."""
    if node.kind == NETWORK:
        for place, router in enumerate(lsas.routers_of(lsa.record)):
            yield Arc(node, Node(router, ROUTER), 0, place)
        return
    for place, link in enumerate(lsas.links_of(lsa.record)):
        if link.kind == POINT_TO_POINT and link.far != node.number:
            yield Arc(node, Node(link.far, ROUTER), link.data, place, link.metric)
        elif link.kind == TRANSIT:
            yield Arc(node, Node(link.far, NETWORK), link.data, place, link.metric)


def ways_of(arcs: Iterable[Arc]) -> dict[tuple[Node, Node], list[Arc]]:
    """The arcs from each node to each other one, by link data and by place."""

    def way(arc: Arc) -> tuple[Node, Node]:
        return arc.tail, arc.to

    return {ends: list(group) for ends, group in groupby(sorted(arcs), key=way)}


def bonds_of(arcs: Iterable[Arc]) -> list[Bond]:
    """The links of arcs between nodes that tell of each other. The k-th arcs of both ways, by link data and by place,
    are one link; then come the arcs that are left over."""
    ways = ways_of(arcs)
    pairs, single = [], []
    for (a, b), there in sorted(ways.items()):
        back = ways.get((b, a), [])
        if a < b:
            pairs += [Bond(a, b, one.data, other.data, one.metric, other.metric) for one, other in zip(there, back)]
        if back:
            single += [Bond(a, b, arc.data, None, arc.metric) for arc in there[len(back) :]]
    return pairs + single


def area_of(found: Iterable[Lsa]) -> Area:
    """The area of LSAs, old instances among them."""
    speaking = speakers(found)
    told = [arc for node, lsa in speaking.items() for arc in arcs_from(node, lsa)]
    ways = {(arc.tail, arc.to) for arc in told}
    half = tuple(sorted(arc for arc in told if (arc.to, arc.tail) not in ways))
    return Area(sorted(speaking), bonds_of(arc for arc in told if arc.to in speaking), half)


def links_at(whole: Area) -> dict[Node, list[Bond]]:
    """The links of each node over which it can send, in the order of `mrt`: by metric, far node and link data. Of
    several first links of shortest ways the first in this order is the primary's."""
    found: dict[Node, list[Bond]] = {node: [] for node in whole.nodes}
    for bond in whole.bonds:
        found[bond.a].append(bond)
        if bond.two_way:
            found[bond.b].append(bond)
    for node, bonds in found.items():
        bonds.sort(key=lambda bond: (bond.metric_from(node), bond.far(node), bond.data_of(node)))
    return found


def profile_lines(profile: bytes) -> list[list[str]]:
    """The words of each line. A line that begins with # may hold any bytes."""
    return [line.decode("ascii").split() for line in profile.split(b"\n") if not line.startswith(b"#")]


# what an operator should look at


def one_way_lines(whole: Area) -> list[str]:
    """A line on each link that one end tells, and the other, which is there, does not."""
    arcs = [arc for arc in whole.half if arc.to in whole.nodes]
    arcs += [Arc(bond.a, bond.b, bond.data_a, 0, bond.metric_a) for bond in whole.bonds if not bond.two_way]
    lines = []
    for arc in sorted(arcs):
        data = f" with link data {lsas.spelled(arc.data)}" if arc.tail.kind == ROUTER else ""
        lines.append(f"told by one end: the link of {arc.tail.text} to {arc.to.text}{data}")
    return lines


def no_link_lines(whole: Area) -> list[str]:
    """A line on each router without a link that both ends tell."""
    linked = {node for bond in whole.bonds if bond.two_way for node in (bond.a, bond.b)}
    return [f"without a link: {node.text}" for node in whole.nodes if node.kind == ROUTER and node not in linked]


def ineligible(profile: bytes) -> set[tuple[int, int]]:
    """The links that a profile keeps out, by router and link data."""
    lines = profile_lines(profile)
    return {(lsas.address(words[1]), lsas.address(words[2])) for words in lines if words[:1] == ["ineligible"]}


def unsupported(profile: bytes) -> set[Node]:
    """The routers that a profile keeps out."""
    return {Node(lsas.address(words[1]), ROUTER) for words in profile_lines(profile) if words[:1] == ["no-mrt"]}


def island_bonds(area: Area, members: Iterable[Node], kept_out: set[tuple[int, int]]) -> list[Bond]:
    """The links of an island by their numbers in its certificate: both ends tell of them, they are for transit traffic,
    and none is kept out."""
    inside = set(members)
    return [
        bond
        for bond in area.bonds
        if bond.transit
        and {bond.a, bond.b} <= inside
        and not any(bond.is_of(router, data) for router, data in kept_out)
    ]
