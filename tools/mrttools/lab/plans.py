"""The networks over which the lab loses links and routers: its own, and four more."""
from __future__ import annotations

from .network import PLAN, Plan, Wire, link


def links(ends: list[tuple[int, int, int]]) -> list[Wire]:
    """Links of two routers and a metric, each with addresses of its own."""
    return [link(one, other, metric, f"10.1.{number}") for number, (one, other, metric) in enumerate(ends, 1)]


def grid(side: int) -> Plan:
    """Rows and columns of routers, with metrics that leave few ways of equal cost."""
    ends = []
    for router in range(1, side * side + 1):
        if router % side:
            ends.append((router, router + 1, 10 + router % 5))
        if router + side <= side * side:
            ends.append((router, router + side, 10 + router % 3))
    return Plan("grid", list(range(1, side * side + 1)), links(ends), joiner=side * side)


def ring(size: int, chords: list[tuple[int, int, int]]) -> Plan:
    """A ring with chords."""
    ends = [(router, router % size + 1, 10) for router in range(1, size + 1)]
    return Plan("ring", list(range(1, size + 1)), links(ends + chords), joiner=size)


LANS = Plan(
    "lans",
    list(range(1, 9)),
    links([(1, 4, 10), (4, 5, 10), (4, 5, 12), (3, 6, 20), (2, 8, 10), (8, 7, 15)])
    + [Wire("198.51.100", {1: 10, 2: 10, 3: 5}, 2), Wire("198.51.101", {5: 10, 6: 10, 7: 5}, 6)],
    joiner=8,
)
# Routers that hang on one link, one after another, or on two parallel links; the last one is in maintenance.
STUBS = Plan(
    "stubs",
    list(range(1, 11)),
    links(
        [(1, 2, 10), (2, 3, 10), (3, 4, 10), (4, 5, 10), (1, 5, 10), (2, 4, 7)]
        + [(1, 6, 10), (6, 7, 10), (3, 8, 10), (5, 9, 10), (5, 9, 20), (2, 10, 10), (4, 10, 10)]
    ),
    joiner=2,
    maintenance=(10,),
)
PLANS = {plan.name: plan for plan in (PLAN, grid(4), ring(10, [(1, 5, 10), (3, 8, 10), (6, 9, 12)]), LANS, STUBS)}
# The routers that have an address in common, of one block each.
SHARED_BY = {"lab": (3, 6), "grid": (6, 11), "ring": (3, 8), "lans": (1, 6), "stubs": (1, 3)}
