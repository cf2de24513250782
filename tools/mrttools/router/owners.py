"""The prefixes of an area and the nodes that have them, by what the LSAs say (RFC 2328, sections 16.1 and 16.2), and
which of them a router may have repairs for: those that its daemon has put into the kernel."""
from __future__ import annotations

import json
from collections import defaultdict
from ipaddress import IPv4Network
from typing import Iterable, NamedTuple

from mrttools import lsas
from mrttools.area import Node
from mrttools.exits import READ_FAULT, ToolFault
from mrttools.lsas import NETWORK, ROUTER, STUB, Lsa
from .kernel import Interfaces

HOST = 0xFFFFFFFF
# The routes' protocols, by the names and numbers that `ip` has for FRR's OSPF and for BIRD.
DAEMONS = {"ospf", "188", "bird", "12"}
UNICAST = {"unicast", "1"}
# What no daemon's route and no LSA makes a destination of repairs.
NEVER = {
    "this network": IPv4Network("0.0.0.0/8"),
    "loopback": IPv4Network("127.0.0.0/8"),
    "of one link alone": IPv4Network("169.254.0.0/16"),
    "multicast": IPv4Network("224.0.0.0/4"),
    "reserved or broadcast": IPv4Network("240.0.0.0/4"),
}


class Prefix(NamedTuple):
    number: int
    mask: int

    @property
    def text(self) -> str:
        return f"{lsas.spelled(self.number)}/{bin(self.mask).count('1')}"


# The metric at each node that has a prefix.
Owners = dict[Node, int]


def is_prefix(number: int, mask: int) -> bool:
    """Whether a mask is one, and the number has nothing beyond it."""
    return (~mask & 0xFFFFFFFF) & ((~mask & 0xFFFFFFFF) + 1) == 0 and number & mask == number


def owners_of(found: Iterable[Lsa]) -> dict[Prefix, Owners]:
    """The nodes that have each prefix: the routers that tell of it as a stub network, with the least metric there, and
    the transit network whose prefix it is, with 0. None of them takes the place of another: what counts is how far
    each is. A router ID is no prefix."""
    owners: dict[Prefix, Owners] = defaultdict(dict)
    for lsa in found:
        if lsa.kind == ROUTER:
            node = Node(lsa.number, ROUTER)
            for link in lsas.links_of(lsa.record):
                if link.kind == STUB and is_prefix(link.far, link.data):
                    own = owners[Prefix(link.far, link.data)]
                    own[node] = min(link.metric, own.get(node, link.metric))
        elif lsa.kind == NETWORK:
            mask = int.from_bytes(lsa.record[20:24], "big")
            if is_prefix(lsa.number & mask, mask):
                owners[Prefix(lsa.number & mask, mask)][Node(lsa.number, NETWORK)] = 0
    return owners


def never(prefix: str) -> str | None:
    """Why nothing is installed for a prefix, whatever the daemon has."""
    network = IPv4Network(prefix)
    if network.prefixlen == 0:
        return "the default route"
    return next((f"it has addresses that are {why}" for why, each in NEVER.items() if each.overlaps(network)), None)


# what the daemon has


def routes_in(said: object, source: str) -> frozenset[str]:
    """The prefixes to which a daemon has routes in the kernel, by what `ip -j -4 route` said."""
    try:
        if not isinstance(said, list):
            raise TypeError
        return frozenset(
            spelled_prefix(each["dst"])
            for each in said
            if each and str(each.get("protocol")) in DAEMONS and each.get("type", "unicast") in UNICAST
        )
    except (ValueError, KeyError, TypeError, AttributeError) as fault:
        raise ToolFault(f"{source}: it is not what `ip -j -4 route` says", READ_FAULT) from fault


def spelled_prefix(text: str) -> str:
    return str(IPv4Network("0.0.0.0/0" if text == "default" else text))


def read_routes(name: str) -> frozenset[str]:
    """The prefixes in a file of `ip -j -4 route`."""
    try:
        with open(name, encoding="utf-8") as file:
            return routes_in(json.load(file), name)
    except ValueError:
        return routes_in(None, name)


class Daemon(NamedTuple):
    """The prefixes to which the daemon has routes, none where that is not known, and the router's interfaces."""

    routes: frozenset[str] | None
    interfaces: Interfaces

    def why_not(self, prefix: str, own: bool) -> str | None:
        """Why a prefix gets nothing: it is none that may be, or the daemon has no route to it. `own` is whether the
        router itself tells of it: then the kernel has it of its interface."""
        if (self.routes is None or prefix in self.routes) or (own and prefix in self.interfaces.prefixes):
            return never(prefix)
        return never(prefix) or "the daemon has no route to it"
