"""How long repairs are beside the shortest ways that OSPF finds afterwards."""
from __future__ import annotations

from array import array
from bisect import bisect_left, bisect_right
from itertools import accumulate
from typing import NamedTuple, Sequence

from mrttools.paths import METRIC, Graph, Hop, Tree
from .demand import Demand
from .target import Repairs, Target

WORST = 10
# The upper ends of the bars of a histogram; the last one has no end.
RATIOS = 1, 1.25, 1.5, 2, 3, 5, 10
HOPS = 0, 1, 2, 3, 5, 10, 20


class Stretched(NamedTuple):
    """A repair: its pair, what has failed, its color, its cost and that of the new shortest way."""

    ratio: float
    router: int
    target: int
    failed: int
    color: int
    cost: int
    least: int


class Longest(NamedTuple):
    """Of a failure's repairs the greatest ratio, with its pair, and the sum of all ratios with their number."""

    ratio: float
    router: int
    target: int
    total: float
    number: int


# A destination with the color that repairs it, and the cost of its way.
Repair = tuple[int, int, int]


class Stretches:
    """The repairs of each pair for the first link and for the next node, where it has them, by pairs or by what they
    send."""

    def __init__(self, graph: Graph, demand: Demand) -> None:
        self.graph, self.demand = graph, demand
        # By destination: the places of its island's nodes, and the costs of both colors from each.
        self.costs: dict[int, tuple[dict[int, int], list[list[int]]]] = {}
        self.ratios, self.more_hops, self.weights = array("d"), array("i"), array("d")
        self.worst: list[Stretched] = []
        self.longest: dict[int, Longest] = {}

    def take(self, to: Target) -> None:
        self.costs[to.target] = to.place, [ways.costs for ways in to.ways]

    def repairs(self, router: int, rows: dict[int, tuple[Hop, Repairs]]) -> dict[int, list[Repair]]:
        """The repairs of a router by what has failed."""
        found: dict[int, list[Repair]] = {}
        for target, (hop, repairs) in rows.items():
            places, costs = self.costs[target]
            for which in (0, -1):
                color = repairs[which]
                if color >= 0:
                    repair = target, color, costs[color][places[router]]
                    found.setdefault(hop.elements[which], []).append(repair)
        return found

    def read(self, router: int, tree: Tree, rows: dict[int, tuple[Hop, Repairs]]) -> None:
        """The repairs of a router beside the least ways without what has failed."""
        nodes = self.graph.nodes
        for failed, repairs in self.repairs(router, rows).items():
            least = self.graph.without(tree, failed)
            ratios = [(cost // METRIC) / (least[target] // METRIC) for target, _, cost in repairs]
            self.ratios.extend(ratios)
            self.more_hops.extend([cost % METRIC - least[target] % METRIC for target, _, cost in repairs])
            if self.demand.told:
                self.weights.extend([self.demand.of(nodes[router], nodes[each[0]]) for each in repairs])
            self.put_longest(router, failed, repairs, ratios, least)

    def sends(self, router: int, target: int) -> bool:
        nodes = self.graph.nodes
        return not self.demand.told or self.demand.of(nodes[router], nodes[target]) > 0

    def put_longest(
        self, router: int, failed: int, repairs: list[Repair], ratios: list[float], least: list[int]
    ) -> None:
        """Keeps the longest repairs of all, and that of each failure."""
        ratio = max(ratios)
        target = repairs[ratios.index(ratio)][0]
        old = self.longest.get(failed)
        total, count = sum(ratios) + (old.total if old else 0), len(ratios) + (old.number if old else 0)
        if old and old.ratio >= ratio:
            self.longest[failed] = old._replace(total=total, number=count)
        else:
            self.longest[failed] = Longest(ratio, router, target, total, count)
        if len(self.worst) < WORST or ratio > self.worst[-1].ratio:
            self.worst += [
                Stretched(each, router, target, failed, color, cost, least[target])
                for each, (target, color, cost) in zip(ratios, repairs)
                if (len(self.worst) < WORST or each > self.worst[-1].ratio) and self.sends(router, target)
            ]
            self.worst.sort(key=lambda each: (-each.ratio, each[1:4]))
            del self.worst[WORST:]


class Spread:
    """How values are spread: each counts once, or as often as its weight says."""

    def __init__(self, values: Sequence[float], weights: Sequence[float] | None = None) -> None:
        if weights is None:
            self.values, self.sums = sorted(values), None
        else:
            pairs = sorted((value, weight) for value, weight in zip(values, weights) if weight)
            self.values = [value for value, _ in pairs]
            self.sums = list(accumulate((weight for _, weight in pairs), initial=0))

    def quartiles(self) -> list[float] | None:
        """The least, the quartiles and the greatest, each being one of the values; none where there is no value."""
        last = len(self.values) - 1
        if last < 0:
            return None
        if self.sums is None:
            return [self.values[last * part // 4] for part in range(5)]
        places = [bisect_left(self.sums, self.sums[-1] * part / 4) - 1 for part in range(5)]
        return [self.values[min(max(0, place), last)] for place in places]

    def bars(self, ends: Sequence[float]) -> list[float]:
        """How many there are up to each end and above the one before it, and above the last."""
        places = [0, *(bisect_right(self.values, end) for end in ends), len(self.values)]
        sums = self.sums or range(len(self.values) + 1)
        return [sums[place] - sums[before] for before, place in zip(places, places[1:])]
