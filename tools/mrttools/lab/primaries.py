"""The primaries that `mrt table` prints, beside a daemon's own routes."""
from __future__ import annotations

from typing import Callable, Iterator, NamedTuple

from . import network
from .daemons import Routes

# An interface, and the router that a packet goes to over it; none where the destination is attached.
Hop = tuple[str, int | None]


class Line(NamedTuple):
    """A line of a table: the destination, and the link data of the primary's first arc."""

    destination: str
    data: str


class Result(NamedTuple):
    """What came of one destination of one router."""

    router: int
    destination: str
    primary: Hop
    routes: set[Hop]

    @property
    def same(self) -> bool:
        return self.routes == {self.primary}

    @property
    def one_of_several(self) -> bool:
        return self.primary in self.routes and len(self.routes) > 1


def lines_of(table: str) -> Iterator[Line]:
    """The lines of a table after its first."""
    for line in table.splitlines()[1:]:
        words = line.split(" ")
        yield Line(words[0], words[words.index("primary") + 1].split("/")[1])


def next_router(trace: str) -> int | None:
    """The router that a packet meets first, by its trace; none where it is delivered to a network right away."""
    word, name = trace.splitlines()[1].split(" ")
    if word not in ("moved", "delivered"):
        raise ValueError(f"a packet goes nowhere by primaries: {word} {name}")
    return None if name.startswith("net:") else network.owner(name)


def prefix_of(destination: str) -> str:
    """What the daemons have in place of a node: a router's loopback, or the LAN."""
    return network.LAN_PREFIX if destination.startswith("net:") else f"{destination}/32"


def compare(router: int, table: str, trace: Callable[[str], str], routes: Routes) -> Iterator[Result]:
    """One result for each line of a router's table. `trace` gives the trace of a packet to a destination, by
    primaries."""
    by_address = {interface.address: interface.name for interface in network.interfaces(router)}
    for line in lines_of(table):
        primary = by_address[line.data], next_router(trace(line.destination))
        hops = {
            (interface, network.owner(gateway) if gateway else None)
            for interface, gateway in routes.get(prefix_of(line.destination), set())
        }
        yield Result(router, line.destination, primary, hops)


def report(results: list[Result], daemon: str) -> list[str]:
    """How many agree, and why one does not."""
    same = [result for result in results if result.same]
    several = [result for result in results if result.one_of_several]
    others = [result for result in results if not (result.same or result.one_of_several)]
    lines = [f"primaries: {len(same)} of {len(results)} are the one next hop of {daemon}"]
    if several:
        lines.append(
            f"primaries: {len(several)} are one of several next hops of {daemon}: "
            "the paths cost the same, and mrt has one primary"
        )
    lines += [
        f"different: from {network.router_id(result.router)} to {result.destination}: "
        f"mrt {spelled(result.primary)}, {daemon} " + (" ".join(sorted(map(spelled, result.routes))) or "no route")
        for result in others
    ]
    return lines


def spelled(hop: Hop) -> str:
    interface, router = hop
    return interface if router is None else f"{interface}/{network.router_id(router)}"
