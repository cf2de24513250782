"""What each failure costs: which pairs meet it, and which of them are repaired, could be, or cannot be. A pair is a router
and another that it sends to, and is counted once: among those that could be repaired where there is a failure after which
it could be and is not, else among those that cannot be where a failure parts it, else among the repaired."""
from __future__ import annotations

from typing import Iterable, Iterator, NamedTuple

from mrttools.paths import Graph, Hop
from .causes import Causes, Parting, WhyNot, is_choice
from .target import END, GAP, PARTED, Repairs, Row, Target, routers_of, size_of

# How many pairs a failure tells by name.
SHOWN = 20


class Pairs(NamedTuple):
    """The routers that send to a destination, those that each failure parts from it, and those that failures cut off though
    there is a way, by their causes; as bits."""

    sending: int
    parted: dict[int, int]
    gaps: dict[Causes, int]


class Met:
    """How many pairs go over a router's primary, and by bits from and to which routers these go."""

    def __init__(self) -> None:
        self.pairs = self.sources = self.targets = 0


class Toll:
    """What one failure costs, in pairs, and by bits from and to which routers these go."""

    def __init__(self) -> None:
        self.met = self.parted = self.gaps = self.chosen = 0
        # (a gap that the profile alone causes is one of choice)
        self.met_from = self.parted_from = self.gaps_from = self.chosen_from = 0
        self.met_to = 0
        # Of each router that meets it, how many of its own rows switch to blue, to red, have a gap (-2), are parted (-1).
        self.rows: dict[int, list[int]] = {}
        self.shown: list[tuple[int, int]] = []

    def add_met(self, met: Met) -> None:
        self.met += met.pairs
        self.met_from |= met.sources
        self.met_to |= met.targets

    def add_rows(self, router: int, repair: int, count: int) -> None:
        self.rows.setdefault(router, [0, 0, 0, 0])[repair] += count


class Tally:
    """How many pairs a cause holds, and how many of them it alone."""

    def __init__(self) -> None:
        self.pairs = self.alone = 0
        self.shown: list[tuple[int, int]] = []


class Losses:
    def __init__(self, graph: Graph, parting: Parting, why: WhyNot) -> None:
        self.graph, self.parting, self.why = graph, parting, why
        self.tolls = [Toll() for _ in range(len(graph.bonds) + len(graph.nodes))]
        self.to: dict[int, Pairs] = {}
        self.met: dict[Hop, Met] = {}

    def take(self, to: Target, rows: list[Row]) -> None:
        """Takes the rows to a destination."""
        target, met = to.target, self.met
        pairs, bit = Pairs(any_of(to.senders[router] for router in to.nearest()), {}, {}), 1 << target
        for router, hop, repairs in rows:
            senders = to.senders[router]
            if repairs[-1] == END:
                self.put_end(to, router, hop)
            else:
                if hop not in met:
                    met[hop] = Met()
                own = met[hop]
                own.pairs += to.counts[router]
                own.sources |= senders
                own.targets |= bit
            if min(repairs) < 0:
                self.put_lost(to, router, hop, repairs, pairs)
        self.to[target] = pairs

    def put_end(self, to: Target, router: int, hop: Hop) -> None:
        """A primary that ends at the destination, whose own failure counts for nobody."""
        for element in hop.elements[:-1]:
            toll = self.tolls[element]
            toll.met += to.counts[router]
            toll.met_from |= to.senders[router]
            toll.met_to |= 1 << to.target

    def put_lost(self, to: Target, router: int, hop: Hop, repairs: Repairs, pairs: Pairs) -> None:
        """The failures of a primary after which its packets are lost."""
        senders, count = to.senders[router], to.counts[router]
        for element, repair in zip(hop.elements, repairs):
            toll = self.tolls[element]
            if repair == PARTED:
                toll.parted += count
                toll.parted_from |= senders
                pairs.parted[element] = pairs.parted.get(element, 0) | senders
            elif repair == GAP:
                toll.gaps += count
                causes = self.why.of(element, router, to.target)
                if is_choice(causes):
                    toll.chosen += count
                    toll.chosen_from |= senders
                else:
                    toll.gaps_from |= senders
                pairs.gaps[causes] = pairs.gaps.get(causes, 0) | senders
                if len(toll.shown) < SHOWN:
                    toll.shown += [(each, to.target) for each in routers_of(senders)[: SHOWN - len(toll.shown)]]

    def settle(self, router: int, kinds: Iterable[tuple[tuple[Hop, Repairs], int]]) -> None:
        """How many rows of a router are alike, after all were taken."""
        for (hop, repairs), count in kinds:
            for element, repair in zip(hop.elements, repairs):
                if repair != END:
                    self.tolls[element].add_rows(router, repair, count)
            for element in hop.elements if hop in self.met else ():
                self.tolls[element].add_met(self.met[hop])
            self.met.pop(hop, None)

    # classes of pairs

    def classes(self) -> Iterator[tuple[int, int, int, int]]:
        """Each destination with its senders by class: repaired, parted, with a gap."""
        for target, pairs in self.to.items():
            parted, gap = any_of(pairs.parted.values()), any_of(pairs.gaps.values())
            yield target, pairs.sending & ~parted & ~gap, parted & ~gap, gap

    def tallies(self) -> dict[Causes, Tally]:
        """The pairs of each cause, which are counted at the first one that they have. One holds a pair alone where without
        it the pair would be repaired."""
        found: dict[Causes, Tally] = {}
        for target, pairs in self.to.items():
            seen, parted = 0, any_of(pairs.parted.values())
            for causes, bits in pairs.gaps.items():
                tally = found.setdefault(causes, Tally())
                others = parted | any_of(more for each, more in pairs.gaps.items() if each != causes)
                tally.pairs += size_of(bits & ~seen)
                tally.alone += size_of(bits & ~others)
                if len(tally.shown) < SHOWN:
                    new = routers_of(bits & ~seen)[: SHOWN - len(tally.shown)]
                    tally.shown += [(router, target) for router in new]
                seen |= bits
        return found


def any_of(many: Iterable[int]) -> int:
    """The bits that one of many numbers has."""
    found = 0
    for bits in many:
        found |= bits
    return found
