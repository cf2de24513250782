"""The two colors of an island by destination: of each node what its way meets, its links and its cost."""
from __future__ import annotations

from array import array
from typing import NamedTuple

from mrttools.area import Bond, Node
from mrttools.paths import Graph
from .picture import Island


class Ways(NamedTuple):
    """One color to one destination, by the places of an island's nodes: the elements that a node's way meets, as one
    number of bits, the way's links, and its cost."""

    met: list[int]
    links: list[list[int]]
    costs: list[int]


class Colors:
    """The rows of an island by destination, in the numbers of an area's graph."""

    def __init__(self, graph: Graph, island: Island) -> None:
        cert = island.certificate
        self.graph = graph
        count = range(len(cert.nodes))
        # By color the links of all nodes to all, source by source.
        self.rows = [
            array("H", [cert.link(color, tail, to) if tail != to else 0 for tail in count for to in count])
            for color in (0, 1)
        ]
        self.numbers = [graph.number[node] for node in cert.nodes]
        self.place = {number: place for place, number in enumerate(self.numbers)}
        self.bonds = [graph.place[bond] for bond in island.bonds]
        self.sums = [a + b for a, b in cert.pairs]
        # What each of a node's links adds to a way: a link of the graph, bits and cost.
        self.steps: list[dict[int, tuple[int, int, int]]] = [{} for _ in cert.nodes]
        for link, (bond, (a, b)) in enumerate(zip(island.bonds, cert.pairs)):
            for tail, head in ((a, b), (b, a)):
                self.steps[tail][link] = self.step(bond, cert.nodes[tail], cert.nodes[head])

    def step(self, bond: Bond, tail: Node, head: Node) -> tuple[int, int, int]:
        graph = self.graph
        element = graph.element(bond)
        return element, graph.bits[element] | graph.bits[graph.element(head)], graph.cost(bond, tail)

    def column(self, color: int, to: int) -> "array[int]":
        """The link of each node on a color to a destination; of the destination itself there is none, and 0 stands."""
        return self.rows[color][to :: len(self.numbers)]

    def following(self, links: "array[int]", to: int) -> list[int]:
        """The next node of each node over its link."""
        sums = self.sums
        found = [sums[link] - place for place, link in enumerate(links)] if sums else [0]
        found[to] = to
        return found

    def ways(self, color: int, target: int) -> Ways:
        """The ways of all nodes to a node of the island."""
        to, steps = self.place[target], self.steps
        column = self.column(color, to)
        following = self.following(column, to)
        met, costs = [0] * len(following), [0] * len(following)
        links: list[list[int]] = [[]] * len(following)
        for place in towards(following, to)[1:]:
            after = following[place]
            bond, bits, cost = steps[place][column[place]]
            met[place] = met[after] | bits
            links[place] = [bond, *links[after]]
            costs[place] = costs[after] + cost
        return Ways(met, links, costs)

    def link(self, color: int, router: int, target: int) -> int:
        """The link of the graph that a router's packets take on a color."""
        return self.bonds[self.rows[color][self.place[router] * len(self.numbers) + self.place[target]]]

    def nodes(self, color: int, router: int, target: int) -> list[int]:
        """The nodes that a router's way meets, in their order."""
        graph, at, found = self.graph, router, []
        while at != target:
            bond = graph.bonds[self.link(color, at, target)]
            at = graph.number[bond.far(graph.nodes[at])]
            found.append(at)
        return found


def towards(following: list[int], to: int) -> list[int]:
    """The places of a tree, each after the one that it leads to."""
    below: list[list[int]] = [[] for _ in following]
    for place, after in enumerate(following):
        if place != to:
            below[after].append(place)
    order = [to]
    for place in order:
        order += below[place]
    return order
