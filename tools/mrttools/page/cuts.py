"""What parts a network when it fails: cut nodes and cut links, and the pairs of routers that each parts. A pair is a
router and another that it sends to, so two routers are two pairs."""
from __future__ import annotations

from typing import Iterable, NamedTuple, Sequence

from mrttools.area import Bond, Node
from mrttools.lsas import ROUTER


class Block(NamedTuple):
    """Nodes that no single node parts from each other, with the links between them."""

    nodes: frozenset[Node]
    bonds: tuple[Bond, ...]


class Cut(NamedTuple):
    """A node or link that parts routers, the routers of each side, the largest side first, and how many pairs it
    parts."""

    element: Node | Bond
    sides: list[list[Node]]
    pairs: int

    def side_of(self) -> dict[Node, int]:
        return {router: number for number, routers in enumerate(self.sides) for router in routers}


# blocks


def adjacency(nodes: Iterable[Node], bonds: Iterable[Bond]) -> dict[Node, list[Bond]]:
    """The links of each node that both ends tell of."""
    found: dict[Node, list[Bond]] = {node: [] for node in nodes}
    for bond in bonds:
        if bond.two_way:
            found[bond.a].append(bond)
            found[bond.b].append(bond)
    return found


class Search:
    """A search in depth, by which the blocks are found (Hopcroft and Tarjan)."""

    def __init__(self, near: dict[Node, list[Bond]]) -> None:
        self.near = near
        self.number: dict[Node, int] = {}
        self.low: dict[Node, int] = {}
        self.waiting: list[Bond] = []
        self.blocks: list[Block] = []

    def enter(self, node: Node) -> None:
        self.number[node] = self.low[node] = len(self.number)

    def run(self, start: Node) -> None:
        self.enter(start)
        way: list[tuple[Node, Bond | None, int]] = [(start, None, 0)]
        while way:
            node, over, at = way.pop()
            if at < len(self.near[node]):
                way.append((node, over, at + 1))
                bond = self.near[node][at]
                if bond is not over:
                    self.look(node, bond, way)
            elif over is not None:
                self.leave(node, over)

    def look(self, node: Node, bond: Bond, way: list[tuple[Node, Bond | None, int]]) -> None:
        far = bond.far(node)
        if far not in self.number:
            self.waiting.append(bond)
            self.enter(far)
            way.append((far, bond, 0))
        elif self.number[far] < self.number[node]:
            self.waiting.append(bond)
            self.low[node] = min(self.low[node], self.number[far])

    def leave(self, node: Node, over: Bond) -> None:
        """Goes back over a link; where no link leads further back, a block ends here."""
        back = over.far(node)
        self.low[back] = min(self.low[back], self.low[node])
        if self.low[node] >= self.number[back]:
            bonds = [self.waiting.pop()]
            while bonds[-1] is not over:
                bonds.append(self.waiting.pop())
            self.blocks.append(Block(frozenset(end for bond in bonds for end in (bond.a, bond.b)), tuple(bonds)))


def blocks_of(nodes: Iterable[Node], bonds: Iterable[Bond]) -> list[Block]:
    near = adjacency(nodes, bonds)
    search = Search(near)
    for node in near:
        if node not in search.number:
            search.run(node)
    return search.blocks


# sides


class Forest:
    """The blocks of a network, and those that each node is in."""

    def __init__(self, nodes: Iterable[Node], bonds: Sequence[Bond]) -> None:
        self.blocks = blocks_of(nodes, bonds)
        self.one_way = {(bond.a, bond.b) for bond in bonds if not bond.two_way}
        self.of: dict[Node, list[Block]] = {}
        for block in self.blocks:
            for node in block.nodes:
                self.of.setdefault(node, []).append(block)

    def beyond(self, starts: Iterable[Node], passed: Block) -> set[Node]:
        """The nodes on this side of a block, from some of its nodes on."""
        found = set(starts)
        waiting = [(node, passed) for node in found]
        while waiting:
            node, over = waiting.pop()
            for block in self.of[node]:
                if block is not over:
                    found |= block.nodes
                    waiting += [(other, block) for other in block.nodes if other != node]
        return found

    def cut_at(self, node: Node) -> Cut | None:
        """What a node parts, if it parts routers."""
        sides = [self.beyond(block.nodes - {node}, block) for block in self.of.get(node, [])]
        return cut_of(node, sides, 2)

    def cut_over(self, block: Block) -> Cut | None:
        """What the only link of a block parts, if it parts routers. Parallel links that one end tells go on one way."""
        bond = block.bonds[0]
        ways = sum(way not in self.one_way for way in ((bond.a, bond.b), (bond.b, bond.a)))
        return cut_of(bond, [self.beyond([node], block) for node in (bond.a, bond.b)], ways)


def cut_of(element: Node | Bond, sides: Sequence[set[Node]], ways: int) -> Cut | None:
    """A cut by its sides."""
    routers = [sorted(node for node in side if node.kind == ROUTER) for side in sides]
    routers = sorted(filter(None, routers), key=lambda side: (-len(side), side[0]))
    if len(routers) < 2 or ways == 0:
        return None
    total = sum(map(len, routers))
    pairs = ways * (total * total - sum(len(side) ** 2 for side in routers)) // 2
    return Cut(element, routers, pairs)


def order(cut: Cut) -> tuple[int, bool, Node, Node]:
    """The largest first, nodes before links."""
    element = cut.element
    ends = (element.a, element.b) if isinstance(element, Bond) else (element, element)
    return (-cut.pairs, isinstance(element, Bond), *ends)


def single_points(nodes: Sequence[Node], bonds: Sequence[Bond]) -> list[Cut]:
    """The nodes and links whose failure parts routers, the largest first."""
    forest = Forest(nodes, bonds)
    found = [forest.cut_at(node) for node in nodes if len(forest.of.get(node, [])) > 1]
    found += [forest.cut_over(block) for block in forest.blocks if len(block.bonds) == 1]
    return sorted((cut for cut in found if cut), key=order)
