"""What holds of all pairs of routers of an area: which failures are repaired, how long repairs are, and what links
carry. A pair is a router and another that it sends to by a primary."""
from __future__ import annotations

from collections import Counter
from typing import Callable, Iterator, NamedTuple

from mrttools.area import Node
from mrttools.paths import FAR, METRIC, Graph, Hop, Tree
from .causes import Parting, WhyNot
from .colors import Colors
from .cuts import Cut
from .demand import EVEN, Demand
from .islands import Islands
from .loads import Loads
from .losses import Losses
from .stretches import Stretches
from .target import END, PARTED, Repairs, Target

Tell = Callable[[str, int, int], None]


class Coverage:
    """Of how many pairs of a router a failure is repaired: of the first link, and of the next node where that is not the
    destination, with loop-free alternates and with colors; and of how many it could be at all. With a demand a pair
    counts as much as it sends."""

    def __init__(self) -> None:
        self.pairs: float = 0
        self.node_pairs: float = 0
        self.open_link: float = 0
        self.open_node: float = 0
        self.lfa_link: float = 0
        self.colors_link: float = 0
        self.lfa_node: float = 0
        self.colors_node: float = 0

    def add(self, other: Coverage) -> None:
        for name, value in vars(other).items():
            setattr(self, name, getattr(self, name) + value)

    def take(self, repairs: Repairs, count: float) -> None:
        """Takes what becomes of so many pairs, or of what they send."""
        first, last = repairs[0], repairs[-1]
        self.pairs += count
        self.open_link += count * (first != PARTED)
        self.colors_link += count * (first >= 0)
        if last != END:
            self.node_pairs += count
            self.open_node += count * (last != PARTED)
            self.colors_node += count * (last >= 0)


class Ground(NamedTuple):
    """What the facts stand on."""

    graph: Graph
    islands: Islands
    cuts: list[Cut]
    demand: Demand = EVEN


class Facts:
    """All that is found of an area."""

    def __init__(self, ground: Ground) -> None:
        self.ground, self.graph = ground, ground.graph
        graph, shared = ground.graph, ground.islands.shared
        self.colors: dict[Node, Colors] = {}
        for island in shared:
            self.colors |= dict.fromkeys(island.certificate.nodes, Colors(graph, island))
        self.parting = Parting(graph, ground.cuts)
        self.coverage = {router: Coverage() for router in graph.routers}
        # By source and destination: the primary, and what repairs it.
        self.rows: dict[int, dict[int, tuple[Hop, Repairs]]] = {router: {} for router in graph.routers}
        # By source: the least ways, and how far each node is by metrics.
        self.trees: dict[int, Tree] = {}
        self.metrics: dict[int, list[int]] = {}
        self.losses = Losses(graph, self.parting, WhyNot(graph, ground.islands))
        self.loads = Loads(graph)
        self.stretches = Stretches(graph, ground.demand)

    def colors_to(self, target: int) -> Colors | None:
        return self.colors.get(self.graph.nodes[target])

    # by destination

    def read_targets(self, tell: Tell) -> None:
        """Primaries and repairs, destination by destination."""
        graph = self.graph
        for done, router in enumerate(graph.routers):
            tree = graph.shortest(router)
            self.trees[router] = tree
            self.metrics[router] = [cost // METRIC if cost < FAR else FAR for cost in tree.costs]
            tell("shortest ways", done + 1, len(graph.routers))
        columns = list(zip(*self.metrics.values()))
        for done, target in enumerate(graph.routers):
            hops = graph.primaries(target, graph.far_from(columns[target]))
            to = Target(graph, self.colors_to(target), target, hops, self.ground.demand)
            rows = list(to.rows(self.parting.parts))
            for router, hop, repairs in rows:
                self.rows[router][target] = hop, repairs
            self.losses.take(to, rows)
            self.loads.take(to, rows)
            self.stretches.take(to)
            tell("repairs and loads", done + 1, len(graph.routers))
        self.loads.settle()
        for router, own in self.rows.items():
            kinds = Counter(own.values())
            self.losses.settle(router, kinds.items())
            if self.ground.demand.told:
                for target, (_, repairs) in own.items():
                    self.coverage[router].take(repairs, self.sent(router, target))
            else:
                for (_, repairs), count in kinds.items():
                    self.coverage[router].take(repairs, count)

    def sent(self, router: int, target: int) -> float:
        """What a pair sends."""
        return self.ground.demand.of(self.graph.nodes[router], self.graph.nodes[target])

    def hops_of(self, router: int) -> Iterator[tuple[int, Hop]]:
        """The destinations of a router, each with its primary."""
        for target, (hop, _) in self.rows[router].items():
            yield target, hop

    # by source

    def read_sources(self, tell: Tell) -> None:
        """Loop-free alternates, and how long repairs are beside the new shortest ways, source by source."""
        for done, router in enumerate(self.graph.routers):
            self.put_alternates(router, self.metrics)
            self.stretches.read(router, self.trees[router], self.rows[router])
            tell("new shortest ways", done + 1, len(self.graph.routers))

    def put_alternates(self, router: int, metrics: dict[int, list[int]]) -> None:
        """For how many destinations a neighbour over another link is loop-free (RFC 5286, inequalities 1 and 3)."""
        coverage, own, told = self.coverage[router], metrics[router], self.ground.demand.told
        near = [(bond, metrics[far], metrics[far][router]) for bond, far in self.graph.neighbours(router)]
        for target, hop in self.hops_of(router):
            first, after, whole = hop.elements[0], hop.following, own[target]
            rest = metrics[after][target]
            free = [costs for bond, costs, back in near if bond != first and costs[target] < back + whole]
            if free:
                sent = self.sent(router, target) if told else 1
                coverage.lfa_link += sent
                if after != target and any(costs[target] < costs[after] + rest for costs in free):
                    coverage.lfa_node += sent


def name_of(graph: Graph, element: int) -> str:
    """An element as `mrt` takes it."""
    return graph.of_element(element).text


def facts_of(ground: Ground, tell: Tell) -> Facts:
    """All facts of an area."""
    found = Facts(ground)
    found.read_targets(tell)
    found.read_sources(tell)
    return found
