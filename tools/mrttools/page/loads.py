"""What links carry: by primaries, and after each single failure before OSPF has found new ways."""
from __future__ import annotations

from heapq import nlargest
from typing import NamedTuple

from mrttools.paths import Graph, Hop
from .target import Row, Target

FULLEST = 3
NOWHERE: list[int] = []


class Most(NamedTuple):
    """The most that a link carries after a failure, and which failure that is; none where there is none."""

    load: float
    failed: int | None


# So many destinations are kept before what they change is added, failure by failure: then what is written lies together.
TOGETHER = 40

Move = tuple[list[int], list[int], float]


def put(change: list[float], moves: list[Move]) -> None:
    """Takes what is sent from one way to another."""
    for path, way, sending in moves:
        for bond in path:
            change[bond] -= sending
        for bond in way:
            change[bond] += sending


class Loads:
    """A pair counts on each link that its packets go over, also where they are lost later."""

    def __init__(self, graph: Graph) -> None:
        self.graph = graph
        self.load: list[float] = self.zeros()
        # By failure, and before all is settled by a primary of two elements, where the failure of either changes the same.
        self.changes: dict[Hop | int, list[float]] = {}
        self.waiting: dict[Hop | int, list[Move]] = {}
        self.kept = 0

    def zeros(self) -> list[float]:
        return [0] * len(self.graph.bonds)

    def take(self, to: Target, rows: list[Row]) -> None:
        """What links carry to a destination: by primaries, and after the failure of each element that a router meets first.
        A router that has failed sends nothing."""
        load, size, waiting = self.load, len(self.graph.bonds), self.waiting
        for router, hop, repairs in rows:
            sending, path = to.sending[router], to.paths[router]
            for bond in hop.bonds:
                load[bond] += sending
            waiting.setdefault(size + router, []).append((path, NOWHERE, to.own[router]))
            color = repairs[0]
            if len(repairs) == 2 and color == repairs[1] >= 0:
                way = to.ways[color].links[to.place[router]]
                waiting.setdefault(hop, []).append((path, way, sending))
                continue
            for failed, color in zip(hop.elements, repairs):
                way = to.ways[color].links[to.place[router]] if color >= 0 else NOWHERE
                waiting.setdefault(failed, []).append((path, way, sending))
        self.kept += 1
        if self.kept % TOGETHER == 0:
            self.put_waiting()

    def put_waiting(self) -> None:
        for key, moves in self.waiting.items():
            if key not in self.changes:
                self.changes[key] = self.zeros()
            put(self.changes[key], moves)
        self.waiting.clear()

    def settle(self) -> None:
        """Adds what waits, and what two failures share to each of them."""
        self.put_waiting()
        for hop in [key for key in self.changes if isinstance(key, Hop)]:
            shared = self.changes.pop(hop)
            for failed in hop.elements:
                change = self.changes.get(failed) or self.zeros()
                self.changes[failed] = [one + more for one, more in zip(change, shared)]

    def most(self) -> list[Most]:
        """Of each link the failure after which it carries most; of several the first."""
        found = [Most(load, None) for load in self.load]
        best = [float("-inf")] * len(found)
        for failed in sorted(key for key in self.changes if isinstance(key, int)):
            for bond, more in enumerate(self.changes[failed]):
                if more > best[bond] and bond != failed:
                    best[bond] = more
                    found[bond] = Most(self.load[bond] + more, failed)
        return found

    def fullest(self, failed: int) -> list[tuple[int, float]]:
        """The links that a failure fills most, each with what comes on top."""
        change = self.changes.get(failed)
        if change is None:
            return []
        most = nlargest(FULLEST, zip(change, range(0, -len(change), -1)))
        return [(-bond, more) for more, bond in most if more > 0 and -bond != failed]
