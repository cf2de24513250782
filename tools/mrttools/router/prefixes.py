"""What a router installs for each prefix of its area: by the rows of the one node that has it, or by those of `mrt proxy`
for two routers."""
from __future__ import annotations

from contextlib import suppress

from mrttools import area, lsas
from mrttools.area import Bond, Node
from mrttools.exits import REFUSED, ToolFault
from mrttools.library import NO_COMMON_BLOCK, OwnRow, Step
from mrttools.lsas import NETWORK, ROUTER
from .host_entries import after_daemon, entry_of
from .kernel import FOR_PORT, FOR_WORD, Entry
from .nexthops import Hop, Route, Unfit, Ways
from .owners import HOST, Daemon, Owners, Prefix, owners_of

Element = Bond | Node
# The two routers by whose rows a prefix goes, and the owner that is nearest to the router itself.
Ends = tuple[Node, Node, Node]
ATTACHED = b"attached"


# two routers


class Untold(Exception):
    """The router's own row does not tell."""


class Colors:
    """The ways of a router's packets on both colors to a prefix that hangs on two routers."""

    def __init__(self, ways: Ways) -> None:
        self.ways = ways

    def step(self, node: Node, color: int) -> Step:
        """Where a node sends."""
        raise NotImplementedError

    def meets(self, color: int, element: Element) -> bool:
        """Whether a packet goes over a link or to a node."""
        raise NotImplementedError

    def bond(self, node: Node, step: tuple[Node, int]) -> Bond:
        far, data = step
        return self.ways.bond_to(node, far) if node.kind == NETWORK else self.ways.by_data[node, far, data]

    def hop(self, color: int) -> Hop | None:
        """The next hop of the router itself."""
        step = self.step(self.ways.router, color)
        if step is None:
            return None
        far, own = step
        bond = self.bond(self.ways.router, step)
        self.ways.address_on(bond, self.ways.router)
        if far.kind == NETWORK:
            # A row of a network leads to a router, as the prefix hangs on none.
            beyond = self.step(far, color)
            if beyond is None:
                raise ToolFault(f"mrt proxy has the prefix at {far.text}", REFUSED)
            bond, far = self.ways.bond_to(far, beyond[0]), beyond[0]
        return Hop(own, self.ways.address_on(bond, far))

    def past(self, elements: list[Element]) -> int | None:
        """The color that goes round the first of the elements that one goes round."""
        for element in elements:
            for color in (0, 1):
                if not self.meets(color, element):
                    return color
        return None


class ByOwnRow(Colors):
    """The same by the router's own row alone, as the library gives it: as far as it tells."""

    def __init__(self, ways: Ways, row: OwnRow) -> None:
        super().__init__(ways)
        self.row = row

    def step(self, node: Node, color: int) -> Step:
        if node != self.ways.router:
            raise Untold
        return self.row[color]

    def meets(self, color: int, element: Element) -> bool:
        """A packet comes to no node twice, and packets of both colors to a node only where each way leads over it."""
        own, other = self.row[color], self.row[1 - color]
        if own is None or other is None:
            raise Untold
        if isinstance(element, Bond) and self.ways.router in (element.a, element.b):
            return self.bond(self.ways.router, own) == element
        if element == own[0]:
            return True
        if element == other[0] and element not in self.ways.cuts:
            return False
        raise Untold


class ByRows(Colors):
    """The same by the rows of all nodes, as `mrt proxy` has them."""

    def __init__(self, ways: Ways, text: bytes) -> None:
        super().__init__(ways)
        # (in the certificate's order, each to be read when it is met: there are many prefixes)
        self.lines = text.split(b"\n")
        self.met = [self.met_on(color) for color in (0, 1)]

    def word(self, node: bytes, color: int) -> bytes:
        """What a row of the text says: a next hop and link data, or that the prefix hangs there."""
        line = self.lines[1 + self.ways.names[node]].split(b" ")
        if line[0] != node:
            raise ToolFault(f"mrt proxy has no row of {node.decode()}", REFUSED)
        return line[2 + 2 * color]

    def step(self, node: Node, color: int) -> Step:
        word = self.word(node.text.encode(), color)
        if word == ATTACHED:
            return None
        far, data = word.decode().split("/")
        return area.node_of(far), lsas.address(data)

    def met_on(self, color: int) -> dict[bytes, bytes]:
        """The nodes from which a packet of the router goes on on a color, each with the one that it goes to."""
        next_of: dict[bytes, bytes] = {}
        at = self.ways.router.text.encode()
        while at not in next_of and (word := self.word(at, color)) != ATTACHED:
            next_of[at] = word.split(b"/")[0]
            at = next_of[at]
        return next_of

    def meets(self, color: int, element: Element) -> bool:
        next_of = self.met[color]
        if isinstance(element, Node):
            return element.text.encode() in next_of.values()
        for node, far in ((element.a, element.b), (element.b, element.a)):
            if next_of.get(node.text.encode()) == far.text.encode():
                step = self.step(node, color)
                if step is not None and self.bond(node, step) == element:
                    return True
        return False


class Proxied:
    """What a router has for a prefix that hangs on two routers: its next hop on each color, or none where the prefix
    hangs on it; and the colors that repair its primary for word and for its own port."""

    def __init__(self, colors: Colors, elements: list[Element]) -> None:
        self.unfit: Unfit | None = None
        self.hops: list[Hop | None] = []
        self.repairs: list[int | None] = []
        try:
            self.hops = [colors.hop(color) for color in (0, 1)]
        except Unfit as why:
            self.unfit = why
            return
        if all(self.hops):
            self.repairs = [colors.past(elements[:1:-1]), colors.past(elements[1::-1])]


# what is installed


class LeftOut(Exception):
    """Why nothing is installed for a prefix."""


class Prefixes:
    """What a router installs for the prefixes of the area: for all of them, or for the host prefixes of one other router
    alone, as a rule the loopbacks. Of each prefix is told how it came about, or why nothing is installed."""

    def __init__(self, ways: Ways, daemon: Daemon, every: bool) -> None:
        self.ways, self.daemon, self.every = ways, daemon, every
        self.routes: dict[Node, Route] = {}
        self.unfit: dict[Node, Unfit] = {}
        for line, route in ways.routes:
            if isinstance(route, Unfit):
                self.unfit[line.to] = route
            else:
                self.routes[line.to] = route
        self.lines = {line.to: line for line in ways.lines}
        self.owners = owners_of(ways.found)
        self.far: dict[Node, dict[Node, int]] = {}
        self.told: dict[str, str] = {}
        self.left: dict[str, str] = {}

    def nearest(self, source: Node, owners: Owners) -> list[Node]:
        """The owners by their distance, with the metric at them, and by identifier."""
        if source not in self.far:
            self.far[source] = self.ways.graph.distances(source)
        far = self.far[source]
        return [
            node for _, node in sorted((far[node] + metric, node) for node, metric in owners.items() if node in far)
        ]

    def inside(self, owners: Owners) -> list[Node]:
        """The owners of the island. All routers have to take the same ones: those nearest to the root."""
        return [node for node in self.nearest(self.ways.certificate.root, owners) if node in self.ways.place]

    def entries(self) -> list[Entry]:
        """What is installed, prefix by prefix."""
        every = sorted(self.owners.items())
        owners_of_prefix = {prefix: owners for prefix, owners in every if self.is_wanted(prefix, owners)}
        ends = {prefix: each for prefix, owners in owners_of_prefix.items() if (each := self.ends_of(owners))}
        proxied = self.proxied(sorted(set(ends.values())))
        entries = []
        for prefix, owners in owners_of_prefix.items():
            try:
                if prefix in ends and ends[prefix] not in proxied:
                    raise LeftOut("mrt proxy took too long")
                entry, how = self.entry(prefix, owners, proxied[ends[prefix]] if prefix in ends else None)
                entry.look_at(self.daemon.interfaces)
                entries.append(entry)
                self.told[prefix.text] = how
            except (LeftOut, Unfit) as why:
                self.left[prefix.text] = str(why)
        return entries

    def is_wanted(self, prefix: Prefix, owners: Owners) -> bool:
        """Whether a prefix is one of those that are asked for, and may have something. What may not is told."""
        own = owners.keys() == {self.ways.router} if self.every else self.ways.router in owners
        if (prefix.mask == HOST and own) or (prefix.mask != HOST and not self.every):
            return False
        why = self.daemon.why_not(prefix.text, self.has(prefix, owners))
        if not self.every and len(owners) > 1:
            why = why or "several routers have it"
        if why:
            self.left[prefix.text] = why
        return not why

    def has(self, prefix: Prefix, owners: Owners) -> bool:
        """Whether the router itself tells of a prefix, or is on the network that has it."""
        near = {bond.far(self.ways.router) for bond in self.ways.graph.links[self.ways.router]}
        return any(node == self.ways.router or (node.kind == NETWORK and node in near) for node in owners)

    def ends_of(self, owners: Owners) -> Ends | None:
        """The two routers by whose rows a prefix goes, if there are two, with the nearest owner."""
        near, first = self.nearest(self.ways.router, owners), self.inside(owners)[:2]
        are_two = near and [node.kind for node in first] == [ROUTER, ROUTER]
        return (first[0], first[1], near[0]) if are_two else None

    def proxied(self, ends: list[Ends]) -> dict[Ends, Proxied | None]:
        """What there is for each two routers that have a common block. They are asked for once: for the router's own
        rows, if the library gives them, and where these do not tell for the rows of all nodes."""
        ways, known = self.ways, self.ways.proxied
        ends = [each for each in ends if each not in known]
        rows = ways.mrt.own_rows(ways.router, sorted({(one, other) for one, other, _ in ends}))
        for each in ends:
            if each[:2] in rows:
                row = rows[each[:2]]
                with suppress(Untold):
                    known[each] = Proxied(ByOwnRow(ways, row), self.elements(each[2])) if row else None
        ends = [each for each in ends if each not in known]
        words = [(ways.router.text, one.text, other.text) for one, other, _ in ends]
        for place, text in ways.mrt.many("proxy", words, untold=NO_COMMON_BLOCK) if words else ():
            known[ends[place]] = Proxied(ByRows(ways, text), self.elements(ends[place][2])) if text else None
        return known

    def entry(self, prefix: Prefix, owners: Owners, proxied: Proxied | None) -> tuple[Entry, str]:
        """What is installed for a prefix, and how it came about."""
        near, inside = self.nearest(self.ways.router, owners), self.inside(owners)
        if not near or not inside:
            raise LeftOut("no router of the island has it")
        if proxied:
            both = inside[0].text, inside[1].text
            return self.of_two(prefix, near[0], proxied)._replace(owners=both), f"by {both[0]} and {both[1]}"
        return self.of_one(prefix, near[0], inside[0])

    def route(self, to: Node) -> Route | None:
        """The route to a node, if it is in the router's table."""
        if to in self.unfit:
            raise self.unfit[to]
        return self.routes.get(to)

    def of_one(self, prefix: Prefix, nearest: Node, owner: Node) -> tuple[Entry, str]:
        """By the rows for one node. Where another one is nearer, packets on a color still go on to this one."""
        route = self.route(owner)
        if route is None:
            return Entry(prefix.text, None, None, [], [None, None], (owner.text,)), "its own"
        if nearest == owner:
            return entry_of(prefix.text, route), f"by {owner.text}"
        near = self.route(nearest)
        how = f"by {owner.text} on colors, without a repair, as {nearest.text} is nearer"
        return Entry(prefix.text, near and near.primary, None, [], list(route.rows), (owner.text,)), how

    def of_two(self, prefix: Prefix, nearest: Node, proxied: Proxied) -> Entry:
        """By the rows for a prefix of two routers. Where the router itself has it, a repair is for its own port to
        it."""
        if proxied.unfit:
            raise proxied.unfit
        rows, route = list(proxied.hops), self.route(nearest)
        if nearest == self.ways.router or None in rows:
            others = [(FOR_PORT, color, hop) for color, hop in enumerate(rows) if hop is not None]
            return Entry(prefix.text, None, None, others[:1], rows)
        if route is None:
            return Entry(prefix.text, None, None, [], rows)
        colors = zip((FOR_WORD, FOR_PORT), proxied.repairs)
        repairs = [(metric, color, hop) for metric, color in colors if color is not None and (hop := rows[color])]
        return Entry(prefix.text, route.primary, after_daemon(route), repairs, rows)

    def elements(self, to: Node) -> list[Element]:
        """The links and nodes of the primary's hop to a node: the link, its far node and, after a LAN, both again; none
        where it has no primary."""
        if to not in self.lines:
            return []
        line, ways = self.lines[to], self.ways
        elements: list[Element] = [ways.by_data[ways.router, line.primary_far, line.primary_data], line.primary_far]
        if to in ways.after:
            elements += [ways.bond_to(line.primary_far, ways.after[to]), ways.after[to]]
        return elements
