"""A router's next hops as addresses: its primaries, their repairs, and the rows of both colors, by what `mrt`
says."""
from __future__ import annotations

import tempfile
from functools import cached_property
from typing import TYPE_CHECKING, Iterator, NamedTuple

from mrttools import area, certificate, lsas
from mrttools.area import Area, Bond, Node
from mrttools.certificate import Certificate
from mrttools.exits import REFUSED, ToolFault
from mrttools.lsas import NETWORK, ROUTER, Lsa
from mrttools.paths import Graph
from mrttools.program import Program

if TYPE_CHECKING:
    from .prefixes import Ends, Proxied

NO_REPAIR = "-"
# Link data below this is the number of an interface without an address.
LEAST_ADDRESS = 1 << 24
COLOR_OF = {"b": 0, "r": 1}


class Unfit(Exception):
    """Why a next hop cannot be had: what needs it is left out, and told."""


class Hop(NamedTuple):
    """The router's own address on the link that a packet takes, and the address that it goes to; none where the
    destination is the network of this link."""

    own: int
    gateway: int | None


class Route(NamedTuple):
    """What a router has for a destination: the primary, whether it goes over a LAN, and whether other links begin
    ways of the same cost; the color that repairs it where the router after a LAN is told to be gone; the color that
    repairs it where its own port is; and both rows."""

    to: Node
    primary: Hop
    over_lan: bool
    one_of_several: bool
    for_word: int | None
    for_port: int | None
    rows: tuple[Hop, Hop]


class Line(NamedTuple):
    """A line of `mrt table`."""

    to: Node
    primary_far: Node
    primary_data: int
    letters: str


def line_of(text: str) -> Line:
    words = text.split(" ")
    far, data = words[words.index("primary") + 1].split("/")
    return Line(area.node_of(words[0]), area.node_of(far), lsas.address(data), words[-1])


class Ways:
    """The area and the certificate of a router's island, and its links as addresses."""

    def __init__(self, mrt: Program, found: list[Lsa], router: int, certified: bytes = b"") -> None:
        self.mrt, self.router = mrt, Node(router, ROUTER)
        self.lines = [line_of(text) for text in mrt.lines("table", lsas.spelled(router))[1:]]
        self.certified = certified or mrt.run("certify", lsas.spelled(router))
        self.certificate = certificate.read(self.certified)
        self.place = {node: place for place, node in enumerate(self.certificate.nodes)}
        self.names = {node.text.encode(): place for node, place in self.place.items()}
        self.found = list(area.speakers(found).values())
        self.area = area.area_of(found)
        self.graph = Graph(self.area)
        self.bonds = island_of(mrt, self.area, self.certificate)
        # Of parallel links, and of those of one link data, the first.
        self.between: dict[tuple[Node, Node], Bond] = {}
        self.by_data: dict[tuple[Node, Node, int | None], Bond] = {}
        for bond in self.area.bonds:
            for near, far in ((bond.a, bond.b), (bond.b, bond.a)):
                self.between.setdefault((near, far), bond)
                self.by_data.setdefault((near, far, bond.data_of(near)), bond)
        self.after = self.routers_after_networks()
        # What prefixes of two routers have, as far as it was asked for.
        self.proxied: dict[Ends, Proxied | None] = {}

    @cached_property
    def cuts(self) -> set[Node]:
        """The cut nodes of the island."""
        return self.certificate.cut_nodes()

    # links as addresses

    def address_on(self, bond: Bond, node: Node) -> int:
        """The address of a router's end of a link."""
        data = bond.data_of(node)
        if data is None or data < LEAST_ADDRESS:
            raise Unfit(
                f"the link of {bond.a.text} and {bond.b.text} has no address at {node.text}: "
                "links without addresses are not taken"
            )
        return data

    def own_addresses(self) -> set[int]:
        """The addresses of the router's links in the area."""
        found = (bond.data_of(self.router) for bond in self.graph.links[self.router])
        return {data for data in found if data is not None and data >= LEAST_ADDRESS}

    def bond_to(self, network: Node, router: Node) -> Bond:
        """The link by which a router is on a network; of several the first."""
        return self.between[network, router]

    def row(self, color: int, to: Node) -> Hop:
        """The next hop of a color, by the rows of the router and, where the link leads to a network, of that."""
        nodes, cert = self.certificate.nodes, self.certificate
        source, target = self.place[self.router], self.place[to]
        link = cert.link(color, source, target)
        own, far = self.address_on(self.bonds[link], self.router), cert.far(link, source)
        if far == target and to.kind == NETWORK:
            return Hop(own, None)
        if nodes[far].kind == ROUTER:
            return Hop(own, self.address_on(self.bonds[link], nodes[far]))
        second = cert.link(color, far, target)
        return Hop(own, self.address_on(self.bonds[second], nodes[cert.far(second, far)]))

    # primaries

    def routers_after_networks(self) -> dict[Node, Node]:
        """The router that a primary over a network leads to, by what `mrt fabric` says of a packet's first step."""
        to = [line.to for line in self.lines if line.primary_far.kind == NETWORK and line.to != line.primary_far]
        if not to:
            return {}
        events = [f"island {self.router.text} {len(to)}"]
        for number, node in enumerate(to):
            events += [f"inject {self.router.text} {node.text} repair", f"step {number}"]
        with tempfile.NamedTemporaryFile("w", suffix=".script") as script:
            script.write("".join(f"{event}\n" for event in events))
            script.flush()
            answers = self.mrt.lines("fabric", script.name)
        return {node: area.node_of(answers[2 * number + 1].split(" ")[1]) for number, node in enumerate(to)}

    def primary(self, line: Line) -> Hop:
        if line.primary_far.kind == NETWORK:
            if line.to == line.primary_far:
                return Hop(line.primary_data, None)
            after = self.after[line.to]
            return Hop(line.primary_data, self.address_on(self.bond_to(line.primary_far, after), after))
        bond = self.by_data[self.router, line.primary_far, line.primary_data]
        return Hop(self.address_on(bond, self.router), self.address_on(bond, line.primary_far))

    @cached_property
    def routes(self) -> list[tuple[Line, Route | Unfit]]:
        """A route for each line of the router's table, or why there is none."""
        return list(self.made_routes())

    def made_routes(self) -> Iterator[tuple[Line, Route | Unfit]]:
        beginnings = self.graph.beginnings(self.router)
        for line in self.lines:
            several, over_lan = len(beginnings[line.to]) > 1, line.primary_far.kind == NETWORK
            try:
                primary, rows = self.primary(line), (self.row(0, line.to), self.row(1, line.to))
            except Unfit as why:
                yield line, why
                continue
            yield line, Route(line.to, primary, over_lan, several, *repairs(line.letters), rows)


def repairs(letters: str) -> tuple[int | None, int | None]:
    """The colors that repair a primary, by the letters of its table's line: after a LAN, where the router there is
    gone, else its port; and that of the next node, else of the link to it. Of one repair a way past the node is one
    past the link as well, and who sees a link fail cannot tell which of both it was."""

    def first(wanted: str) -> int | None:
        return next((COLOR_OF[letter] for letter in wanted if letter != NO_REPAIR), None)

    return first(letters[:1:-1]), first(letters[1::-1])


def island_of(mrt: Program, whole: Area, cert: Certificate) -> list[Bond]:
    """The links of the certificate, by number, as the area has them."""
    kept_out = set()
    if mrt.profile != "-":
        with open(mrt.profile, "rb") as file:
            kept_out = area.ineligible(file.read())
    bonds = area.island_bonds(whole, cert.nodes, kept_out)
    if [(cert.nodes[a], cert.nodes[b]) for a, b in cert.pairs] != [(bond.a, bond.b) for bond in bonds]:
        raise ToolFault("the certificate has other links than the database", REFUSED)
    return bonds
