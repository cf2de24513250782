"""What holds of one destination: primaries, what repairs them, and which routers send over which."""
from __future__ import annotations

from typing import Callable, Iterator, TypeVar

from mrttools.paths import Graph, Hop
from .colors import Colors, Ways
from .demand import Demand

# What becomes of packets after a failure, where it is no color: no way is left in the area, there is one that no color
# may take, or the destination itself has failed.
PARTED, GAP, END = -1, -2, -3
# What becomes of a primary of so many elements where blue goes round all.
BLUE = [(0,) * count for count in range(5)]

# Whether a failure parts a router from a destination.
Why = Callable[[int, int, int], bool]
# Of each element of a primary the color that goes round it, or why none does.
Repairs = tuple[int, ...]
Sum = TypeVar("Sum", int, float)
# A router with its primary and repairs.
Row = tuple[int, Hop, Repairs]


class Target:
    """The primaries and colors to one destination. The routers whose packets come over a router are the bits of a
    number, itself among them."""

    def __init__(
        self, graph: Graph, colors: Colors | None, target: int, hops: dict[int, Hop], demand: Demand
    ) -> None:
        self.graph, self.target, self.hops = graph, target, hops
        self.place: dict[int, int] = colors.place if colors else {}
        self.ways: list[Ways] = [colors.ways(color, target) for color in (0, 1)] if colors else []
        self.paths: dict[int, list[int]] = {target: []}
        self.senders = {router: 1 << router for router in hops}
        # How many routers send over a router, what it sends itself, and what goes over it.
        self.counts = dict.fromkeys(hops, 1)
        self.gather(self.counts)
        self.own: dict[int, float] = {router: 1 for router in hops}
        self.sending: dict[int, float] = {**self.counts}
        if demand.told:
            self.own = dict(zip(hops, demand.to(graph.nodes[target], [graph.nodes[router] for router in hops])))
            self.sending = dict(self.own)
            self.gather(self.sending)
        self.gather(self.senders)
        for router, hop in hops.items():
            self.paths[router] = hop.bonds + self.paths[hop.following]

    def gather(self, sums: dict[int, Sum]) -> None:
        """Adds to each router what those have that send over it. (Bits of different routers are added as they are joined.)"""
        for router, hop in reversed(self.hops.items()):
            after = hop.following
            if after != self.target:
                sums[after] += sums[router]

    def nearest(self) -> list[int]:
        """The routers that send to the destination with no router between."""
        return [router for router, hop in self.hops.items() if hop.following == self.target]

    def rows(self, why: Why) -> Iterator[Row]:
        """The rows of all routers, the nearest first. Of each element of a primary the color is blue where both go round
        it, and also where it is outside the island. Both ways meet the destination."""
        blues, reds = [ways.met for ways in self.ways] or [[], []]
        places = self.place
        for router, hop in self.hops.items():
            place = places.get(router)
            if place is None:
                repairs: Repairs = tuple([self.lost(router, element, why) for element in hop.elements])
            elif not blues[place] & hop.all:
                repairs = BLUE[len(hop.bits)]
            else:
                blue, red, repairs = blues[place], reds[place], ()
                for bit, element in zip(hop.bits, hop.elements):
                    repairs += (0 if not blue & bit else 1 if not red & bit else self.lost(router, element, why),)
            yield router, hop, repairs

    def lost(self, router: int, element: int, why: Why) -> int:
        """Why no color goes round an element of a primary."""
        if element - len(self.graph.bonds) == self.target:
            return END
        return PARTED if why(element, router, self.target) else GAP


def routers_of(bits: int) -> list[int]:
    """The numbers of the bits that are set."""
    text, found = bin(bits)[:1:-1], []
    at = text.find("1")
    while at >= 0:
        found.append(at)
        at = text.find("1", at + 1)
    return found


def size_of(bits: int) -> int:
    """How many bits are set."""
    return bin(bits).count("1")
