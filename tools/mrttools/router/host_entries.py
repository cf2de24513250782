"""How much of a prefix that hangs on one node a router installs, and with which metrics."""
from __future__ import annotations

from typing import Iterator

from .kernel import FOR_PORT, FOR_WORD, LAST, PRIMARY, Entry
from .nexthops import Route


def repairs(route: Route) -> Iterator[tuple[int, int]]:
    """Metric and color of each repair of a route. One that the other stands for is left out."""
    if route.for_word is not None:
        yield FOR_WORD, route.for_word
    if route.for_port is not None and route.for_port != route.for_word:
        yield FOR_PORT, route.for_port


def after_daemon(route: Route) -> int | None:
    """The place of the primary after a daemon's route, where other links begin ways of the same cost. Of these the
    daemon may have lost the primary's, after it had no carrier for a while, and a repair of the primary may go over
    the one that is left. On a LAN the primary comes last: it is gone where the daemon withdraws it."""
    if not route.one_of_several:
        return None
    return LAST if route.over_lan else PRIMARY


def entry_of(prefix: str, route: Route) -> Entry:
    """What is installed for a prefix that hangs on one node. Where this is a network of the router, the kernel has
    it."""
    primary = route.primary if route.primary.gateway is not None else None
    repaired = [(metric, color, route.rows[color]) for metric, color in repairs(route)]
    return Entry(prefix, primary, after_daemon(route), repaired, list(route.rows), (route.to.text,))
