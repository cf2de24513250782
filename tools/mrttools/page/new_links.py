"""New links between routers that are near, and how many pairs of routers each takes from under single points of failure. No
single failure parts two routers exactly where they are in one block of more than one link."""
from __future__ import annotations

from collections import deque
from typing import Collection, NamedTuple, Sequence

from mrttools.area import Area, Bond, Node
from mrttools.lsas import ROUTER
from .cuts import Block, Forest

# Routers so many hops apart are near.
NEAR = 3
# How many other links are told with one, and how many are tried in all.
OTHERS, MANY = 2, 3000


class Link(NamedTuple):
    """A new link, how many hops apart its routers are, and how many pairs it takes from under single points."""

    a: Node
    b: Node
    hops: int
    pairs: int


class Choice(NamedTuple):
    """A new link, and others that do about the same."""

    link: Link
    others: list[Link]


class Tree:
    """The blocks of an area as a tree, from each to the one that it hangs on."""

    def __init__(self, nodes: Sequence[Node], bonds: Sequence[Bond]) -> None:
        self.forest = Forest(nodes, bonds)
        self.routers = [sum(node.kind == ROUTER for node in block.nodes) for block in self.forest.blocks]
        self.place = {id(block): place for place, block in enumerate(self.forest.blocks)}
        # Of each node the blocks up to the root, each with the node over which it hangs on the next one.
        self.up: dict[Node, tuple[int, Node]] = {}
        self.over: dict[int, Node] = {}
        self.gains: dict[tuple[int, ...], int] = {}
        for block in self.forest.blocks:
            if self.place[id(block)] not in self.over:
                self.hang(block)

    def hang(self, root: Block) -> None:
        """Hangs all blocks that are joined to one on a node of it."""
        top = min(root.nodes)
        waiting = [(top, block) for block in self.forest.of[top]]
        while waiting:
            over, block = waiting.pop()
            place = self.place[id(block)]
            self.over[place] = over
            for node in block.nodes - {over}:
                self.up[node] = place, over
                waiting += [(node, below) for below in self.forest.of[node] if below is not block]

    def way_up(self, node: Node) -> list[tuple[int, Node]]:
        """The blocks from a node to the root, each with the node that it hangs on."""
        found = []
        while node in self.up:
            found.append(self.up[node])
            node = found[-1][1]
        return found

    def between(self, a: Node, b: Node) -> tuple[int, ...]:
        """The blocks on the way from one node to another; nothing where there is no way."""
        one, other = self.way_up(a), self.way_up(b)
        tops = [way[-1][1] if way else node for way, node in ((one, a), (other, b))]
        if tops[0] != tops[1]:
            return ()
        while one and other and one[-1] == other[-1] and self.is_shared(a, b, one, other):
            one.pop()
            other.pop()
        blocks = [place for place, _ in one] + [place for place, _ in other]
        return tuple(sorted(set(blocks)))

    @staticmethod
    def is_shared(a: Node, b: Node, one: list[tuple[int, Node]], other: list[tuple[int, Node]]) -> bool:
        """Whether both ways enter their last block at one node, so that it is not on the way between them."""
        enters = [way[-2][1] if len(way) > 1 else node for way, node in ((one, a), (other, b))]
        return enters[0] == enters[1]

    def gain(self, blocks: tuple[int, ...]) -> int:
        """How many pairs more are in one block where a link joins these blocks."""
        if blocks not in self.gains:
            whole = sum(self.routers[place] for place in blocks)
            for node in {self.over[place] for place in blocks}:
                times = sum(node in self.forest.blocks[place].nodes for place in blocks)
                whole -= (times - 1) * (node.kind == ROUTER)
            single = [place for place in blocks if len(self.forest.blocks[place].bonds) > 1]
            pairs = sum(self.routers[place] * (self.routers[place] - 1) for place in single)
            self.gains[blocks] = whole * (whole - 1) - pairs
        return self.gains[blocks]


def hops_from(near: dict[Node, set[Node]], start: Node, limit: int) -> dict[Node, int]:
    """The routers at most so many hops from one, each with its number of hops. A network is none."""
    found, waiting = {start: 0}, deque([start])
    while waiting:
        node = waiting.popleft()
        for far in near[node]:
            if far not in found:
                found[far] = found[node] + (far.kind == ROUTER)
                if found[far] < limit:
                    waiting.append(far)
    return {node: hops for node, hops in found.items() if node.kind == ROUTER and 0 < hops <= limit}


class Joining:
    """The new links that may be built: between routers that are near, and none at some routers."""

    def __init__(self, whole: Area, sites: dict[Node, str], without: Collection[Node]) -> None:
        self.area, self.sites = whole, sites
        near: dict[Node, set[Node]] = {node: set() for node in whole.nodes}
        for bond in whole.bonds:
            near[bond.a].add(bond.b)
            near[bond.b].add(bond.a)
        routers = [node for node in whole.nodes if node.kind == ROUTER and node not in without]
        tree, allowed, links = Tree(whole.nodes, whole.bonds), set(routers), []
        for a in routers:
            for b, hops in hops_from(near, a, NEAR).items():
                if a < b and b in allowed:
                    links.append(Link(a, b, hops, tree.gain(tree.between(a, b))))
        self.links = sorted(filter(is_of_use, links), key=self.order)[:MANY]

    def order(self, link: Link) -> tuple[int, bool, int, Node, Node]:
        """By what it gains, then within a site, then by hops."""
        same_site = link.a in self.sites and self.sites[link.a] == self.sites.get(link.b)
        return -link.pairs, not same_site, link.hops, link.a, link.b

    def choices(self, count: int) -> list[Choice]:
        """Links, the best first, each being the best where those before it are built, with what each gains alone."""
        built: list[Bond] = []
        found: list[Choice] = []
        links = self.links
        alone = {link[:2]: link for link in links}
        while links and len(found) < count:
            tree = Tree(self.area.nodes, [*self.area.bonds, *built])
            links = [link._replace(pairs=tree.gain(tree.between(link.a, link.b))) for link in links]
            links = sorted(filter(is_of_use, links), key=self.order)
            if links:
                best = links[0]
                gained, blocks = alone[best[:2]].pairs, tree.between(best.a, best.b)
                others = [
                    alone[each[:2]]
                    for each in links[1:]
                    if {each.a, each.b} & {best.a, best.b} or tree.between(each.a, each.b) == blocks
                ]
                others = [each for each in others if gained < 2 * each.pairs < 4 * gained]
                found.append(Choice(alone[best[:2]], others[:OTHERS]))
                built.append(Bond(best.a, best.b, 0, 0, 1, 1))
        return found


def is_of_use(link: Link) -> bool:
    return link.pairs > 0
