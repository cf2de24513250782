"""What a failure parts, and why a pair is not repaired that it does not part: what takes no part of each way that is
left."""
from __future__ import annotations

from collections import deque
from typing import Iterator, NamedTuple, Sequence

from mrttools.area import MAINTENANCE, Bond, Node
from mrttools.paths import Graph
from .cuts import Cut
from .islands import Islands

NO_MRT, INELIGIBLE, METRIC, ONE_END = "no-mrt", "ineligible", "metric", "one-end"


class Cause(NamedTuple):
    """What takes no part: a router or link that the profile keeps out, a link of the greatest metric or a router all of
    whose links are such, or a link that one end tells alone."""

    kind: str
    element: Node | Bond

    @property
    def ends(self) -> tuple[Node, ...]:
        """The router, or the two ends of the link."""
        return (self.element.a, self.element.b) if isinstance(self.element, Bond) else (self.element,)

    @property
    def by_choice(self) -> bool:
        """Whether the profile says so."""
        return self.kind in (NO_MRT, INELIGIBLE)


Causes = tuple[Cause, ...]


def is_choice(causes: Causes) -> bool:
    """Whether the profile alone is the cause."""
    return bool(causes) and all(cause.by_choice for cause in causes)


class Parting:
    """Which routers each single point of failure parts."""

    def __init__(self, graph: Graph, cuts: Sequence[Cut]) -> None:
        self.sides = {
            graph.element(cut.element): {graph.number[node]: side for node, side in cut.side_of().items()}
            for cut in cuts
        }
        # A parallel link that one end tells goes on one way.
        self.open: dict[int, tuple[int, int]] = {}
        one_way = {(bond.a, bond.b) for bond in graph.bonds if not bond.two_way}
        for cut in cuts:
            if isinstance(cut.element, Bond):
                for a, b in ((cut.element.a, cut.element.b), (cut.element.b, cut.element.a)):
                    if (a, b) in one_way:
                        self.put_open(graph, cut.element, graph.number[a], graph.number[b])

    def put_open(self, graph: Graph, bond: Bond, tail: int, head: int) -> None:
        element = graph.element(bond)
        sides = self.sides[element]
        # (only routers have a side, and a link has two)
        side = sides[tail] if tail in sides else 1 - sides[head]
        self.open[element] = side, 1 - side

    def parts(self, element: int, router: int, target: int) -> bool:
        sides = self.sides.get(element)
        if sides is None or sides[router] == sides[target]:
            return False
        return self.open.get(element) != (sides[router], sides[target])


class WhyNot:
    """Why there is no color though there is a way past a failure: each such way has links or routers that are in no island
    (ineligible, `no-mrt`, or of metric 65,535). Finds a way with the fewest of these, and names them."""

    def __init__(self, graph: Graph, islands: Islands) -> None:
        self.graph = graph
        self.out = {graph.number[node] for node in islands.unsupported}
        inside = {graph.place[bond] for island in islands.shared for bond in island.bonds}
        self.near: list[list[tuple[int, int]]] = [[] for _ in graph.nodes]
        self.over: list[tuple[int, int, int]] = []
        for place, bond in enumerate(graph.bonds):
            a, b = graph.number[bond.a], graph.number[bond.b]
            if place in inside:
                self.near[a].append((b, place))
                self.near[b].append((a, place))
            else:
                self.over += [(a, b, place)] + ([(b, a, place)] if bond.two_way else [])
        self.kept_out = islands.ineligible
        self.resting = {
            node
            for node, bonds in graph.links.items()
            if bonds and all(bond.metric_from(node) == MAINTENANCE for bond in bonds)
        }
        self.labels_of: dict[int, list[int]] = {}
        self.found: dict[tuple[int, int, int], Causes] = {}

    def labels(self, failed: int) -> list[int]:
        """Of each node the part of its island that is left after a failure, by a number."""
        if failed not in self.labels_of:
            gone = failed - len(self.graph.bonds)
            labels = [-1] * len(self.graph.nodes)
            for start in range(len(labels)):
                if labels[start] < 0 and start != gone:
                    labels[start] = start
                    waiting = [start]
                    for node in waiting:
                        for far, bond in self.near[node]:
                            if labels[far] < 0 and far != gone and bond != failed:
                                labels[far] = start
                                waiting.append(far)
            self.labels_of[failed] = labels
        return self.labels_of[failed]

    def of(self, failed: int, router: int, target: int) -> Causes:
        """What takes no part on such a way; nothing where there is none, or where the way needs none of it."""
        labels = self.labels(failed)
        key = failed, labels[router], labels[target]
        if key not in self.found:
            self.found[key] = tuple(dict.fromkeys(self.on_way(*key, labels)))
        return self.found[key]

    def on_way(self, failed: int, start: int, end: int, labels: list[int]) -> Iterator[Cause]:
        if start == end:
            return
        gone = failed - len(self.graph.bonds)
        ways: dict[int, list[tuple[int, int, int, int]]] = {}
        for a, b, bond in self.over:
            if bond != failed and gone not in (a, b):
                ways.setdefault(labels[a], []).append((labels[b], a, b, bond))
        before: dict[int, tuple[int, int, int, int]] = {}
        waiting, seen = deque([start]), {start}
        while waiting and end not in before:
            here = waiting.popleft()
            for far, a, b, bond in ways.get(here, []):
                if far not in seen:
                    seen.add(far)
                    before[far] = here, a, b, bond
                    waiting.append(far)
        found: list[Cause] = []
        while end in before:
            end, a, b, bond = before[end]
            found += reversed(list(self.causes_on(a, b, bond)))
        yield from reversed(found)

    def causes_on(self, tail: int, head: int, place: int) -> Iterator[Cause]:
        """What takes no part of a link and its ends."""
        graph, bond = self.graph, self.graph.bonds[place]
        if tail in self.out:
            yield Cause(NO_MRT, graph.nodes[tail])
        if not bond.two_way:
            yield Cause(ONE_END, bond)
        elif not bond.transit:
            resting = [Cause(METRIC, node) for node in (bond.a, bond.b) if node in self.resting]
            yield from resting or [Cause(METRIC, bond)]
        if any(bond.is_of(router, data) for router, data in self.kept_out):
            yield Cause(INELIGIBLE, bond)
        if head in self.out:
            yield Cause(NO_MRT, graph.nodes[head])
