"""An area by numbers, for what is asked of all pairs: least costs, and the hops of primaries."""
from __future__ import annotations

from heapq import heapify, heappop, heappush
from typing import Iterable, Iterator, NamedTuple

from .area import Area, Bond, Node, links_at
from .lsas import NETWORK, ROUTER

# A cost is so many times a sum of metrics, plus the number of routers that are entered: of least ways that with the
# fewest hops counts.
METRIC = 1 << 13
FAR = 1 << 62


class Hop:
    """A primary of a router to its next one: the elements that it meets in their order, also as bits, and its links among
    them."""

    def __init__(self, bonds: list[int], nodes: list[int], links: int) -> None:
        self.bonds, self.following = bonds, nodes[-1]
        self.elements = [element for bond, node in zip(bonds, nodes) for element in (bond, links + node)]
        self.bits = [1 << element for element in self.elements]
        self.all = sum(self.bits)


class Tree(NamedTuple):
    """Least ways from a node: the cost to each node, the node and the link before it, and the nodes in the order of
    their costs."""

    costs: list[int]
    before: list[int]
    over: list[int]
    order: list[int]


class Graph:
    """The nodes and links of an area by number. An element is a link, or the number of links and that of a node."""

    def __init__(self, whole: Area) -> None:
        self.area, self.nodes, self.bonds = whole, whole.nodes, whole.bonds
        self.number = {node: place for place, node in enumerate(whole.nodes)}
        self.links = links_at(whole)
        self.place = {bond: place for place, bond in enumerate(whole.bonds)}
        self.routers = [place for place, node in enumerate(whole.nodes) if node.kind == ROUTER]
        self.near = [list(self.arcs(node)) for node in whole.nodes]
        self.into: list[list[tuple[int, int, int]]] = [[] for _ in whole.nodes]
        for node, arcs in enumerate(self.near):
            for cost, far, bond in arcs:
                self.into[far].append((cost, node, bond))
        self.bits = [1 << element for element in range(len(whole.bonds) + len(whole.nodes))]
        self.networks = [place for place, node in enumerate(whole.nodes) if node.kind == NETWORK]
        self.hops: dict[tuple[int, int, int], Hop] = {}
        # What a node sends over by metrics: metric, far node, link, and the primary where that is a router.
        self.ways = [[self.way(*arc) for arc in arcs] for arcs in self.near]

    def way(self, cost: int, far: int, bond: int) -> tuple[int, int, int, Hop | None]:
        return cost // METRIC, far, bond, self.hop(far, bond) if self.nodes[far].kind == ROUTER else None

    def arcs(self, node: Node) -> Iterator[tuple[int, int, int]]:
        """What a node sends over: cost, far node, link."""
        for bond in self.links[node]:
            far = bond.far(node)
            yield self.cost(bond, node), self.number[far], self.place[bond]

    def cost(self, bond: Bond, tail: Node) -> int:
        return (bond.metric_from(tail) or 0) * METRIC + (bond.far(tail).kind == ROUTER)

    def element(self, what: Node | Bond) -> int:
        return self.place[what] if isinstance(what, Bond) else len(self.bonds) + self.number[what]

    def of_element(self, element: int) -> Node | Bond:
        count = len(self.bonds)
        return self.bonds[element] if element < count else self.nodes[element - count]

    def shortest(self, source: int) -> Tree:
        """The least ways from a node to each."""
        count, near = len(self.nodes), self.near
        tree = Tree([FAR] * count, [-1] * count, [-1] * count, [])
        costs, before, over, order = tree.costs, tree.before, tree.over, tree.order
        costs[source] = 0
        waiting = [source]
        while waiting:
            cost, node = divmod(heappop(waiting), count)
            if cost > costs[node]:
                continue
            order.append(node)
            for more, far, bond in near[node]:
                reached = cost + more
                if reached < costs[far]:
                    costs[far], before[far], over[far] = reached, node, bond
                    heappush(waiting, reached * count + far)
        return tree

    def distances(self, source: Node) -> dict[Node, int]:
        """The sums of metrics of the least ways from a node, to each node that there is one to."""
        costs = self.shortest(self.number[source]).costs
        return {node: cost // METRIC for node, cost in zip(self.nodes, costs) if cost != FAR}

    def beginnings(self, source: Node) -> dict[Node, set[Bond]]:
        """For each other node that a node has a way to, the links of the node that begin a shortest path there. This
        takes as many searches as the node has links."""
        least = self.distances(source)
        found: dict[Node, set[Bond]] = {node: set() for node in least}
        for bond in self.links[source]:
            cost = bond.metric_from(source) or 0
            for node, more in self.distances(bond.far(source)).items():
                if cost + more == least[node]:
                    found[node].add(bond)
        del found[source]
        return found

    def without(self, tree: Tree, failed: int) -> list[int]:
        """The least costs where an element other than the source has failed; FAR where no way leads. Only the nodes to
        which the tree leads over it are looked at anew."""
        count, node = len(self.nodes), failed - len(self.bonds)
        costs, lost = tree.costs[:], [False] * count
        for far in tree.order[1:]:
            if far == node or tree.over[far] == failed or lost[tree.before[far]]:
                lost[far], costs[far] = True, FAR
        waiting = []
        for far in tree.order:
            if lost[far] and far != node:
                for more, near, bond in self.into[far]:
                    if not lost[near] and bond != failed and costs[near] + more < costs[far]:
                        costs[far] = costs[near] + more
                if costs[far] != FAR:
                    waiting.append(costs[far] * count + far)
        self.settle(costs, waiting, failed)
        return costs

    def settle(self, costs: list[int], waiting: list[int], failed: int) -> None:
        """Goes on from nodes whose cost is known, past what has failed."""
        count, gone = len(self.nodes), failed - len(self.bonds)
        heapify(waiting)
        while waiting:
            cost, node = divmod(heappop(waiting), count)
            if cost > costs[node]:
                continue
            for more, far, bond in self.near[node]:
                reached = cost + more
                if reached < costs[far] and bond != failed and far != gone:
                    costs[far] = reached
                    heappush(waiting, reached * count + far)

    def far_from(self, metrics: Iterable[int]) -> list[int]:
        """How far each node is from a router by metrics, by how far the routers are; FAR where no way leads."""
        far = [FAR] * len(self.nodes)
        for router, metric in zip(self.routers, metrics):
            far[router] = metric
        for node in self.networks:
            far[node] = min((far[other] for _, other, _ in self.near[node]), default=FAR)
        return far

    def primaries(self, target: int, far: list[int]) -> dict[int, Hop]:
        """The primary of each router to a destination by how far all nodes are from it: the first link in order that
        begins a shortest way and, over a network, the first one there. The nearest routers come first."""
        second = {node: self.first(node, far) for node in self.networks if far[node] < FAR}
        routers = [router for router in self.routers if far[router] < FAR and router != target]
        routers.sort(key=far.__getitem__)
        found, ways = {}, self.ways
        for router in routers:
            own = far[router]
            for metric, to, bond, hop in ways[router]:
                if metric + far[to] == own:
                    found[router] = hop or self.hop(to, bond, second[to])
                    break
        return found

    def hop(self, to: int, bond: int, second: tuple[int, int] | None = None) -> Hop:
        """A primary over a link and, after a network, over a second one."""
        after, last = second or (to, bond)
        key = (to, bond, last)
        if key not in self.hops:
            way, nodes = ([bond, last], [to, after]) if second else ([bond], [to])
            self.hops[key] = Hop(way, nodes, len(self.bonds))
        return self.hops[key]

    def first(self, node: int, far: list[int]) -> tuple[int, int]:
        """The first arc of a node in order that begins a shortest way: its far node and link."""
        return next((to, bond) for metric, to, bond, _ in self.ways[node] if metric + far[to] == far[node])

    def neighbours(self, router: int) -> list[tuple[int, int]]:
        """The routers that a router can send to in one hop, each with the first link to it."""
        found = []
        for _, far, bond in self.near[router]:
            if self.nodes[far].kind == NETWORK:
                found += [(bond, other) for _, other, _ in self.near[far] if other != router]
            else:
                found.append((bond, far))
        return found
