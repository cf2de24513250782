"""How much each pair of routers sends, by a file or one of each."""
from __future__ import annotations

from typing import NamedTuple

from mrttools import area
from mrttools.area import Node
from mrttools.exits import ToolFault

BAD_WEIGHTS = 15


class Demand(NamedTuple):
    """What pairs send. Without a file each pair sends one; with one, what its lines say, and others nothing."""

    pairs: dict[tuple[Node, Node], float] | None

    @property
    def told(self) -> bool:
        return self.pairs is not None

    def of(self, source: Node, target: Node) -> float:
        return 1 if self.pairs is None else self.pairs.get((source, target), 0)

    def to(self, target: Node, sources: list[Node]) -> list[float]:
        """What each of some routers sends to a destination."""
        return [1] * len(sources) if self.pairs is None else [self.of(source, target) for source in sources]


EVEN = Demand(None)


def number(word: str) -> float:
    value = float(word)
    if not 0 <= value < float("inf"):
        raise ValueError(word)
    return int(value) if value == int(value) else value


def read(name: str, names: dict[Node, str]) -> Demand:
    """The demand of a file. A line is a router, another one and a number, a router being an address or a name; a pair
    that has several lines sends their sum. A line that begins with # and an empty one are passed over."""
    by_name = {name: node for node, name in names.items()}
    found: dict[tuple[Node, Node], float] = {}
    with open(name, encoding="utf-8", errors="replace") as file:
        for place, line in enumerate(file, 1):
            words = line.split()
            if not words or line.startswith("#"):
                continue
            try:
                source, target = (by_name.get(word) or area.node_of(word) for word in words[:2])
                (value,) = words[2:]
                found[source, target] = found.get((source, target), 0) + number(value)
            except (ValueError, OverflowError):
                raise ToolFault(f"bad weights: {name} on line {place}", BAD_WEIGHTS) from None
    return Demand(found)
