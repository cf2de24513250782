"""All that a router installs: its routes, and what marks packets."""
from __future__ import annotations

import hashlib
from ipaddress import IPv4Network
from typing import NamedTuple

from mrttools import lsas
from mrttools.exits import READ_FAULT, ToolFault
from . import kernel
from .kernel import Entry, Interfaces
from .nexthops import Ways
from .owners import Daemon
from .prefixes import Prefixes


class TableOptions(NamedTuple):
    """What of it is asked for: with the primaries left to a daemon, to all prefixes, with repairs; and the code points,
    two for each generation."""

    daemon: bool
    prefixes: bool
    repairs: bool
    dscp: tuple[int, ...]


class Table(NamedTuple):
    """The generation of the certificate, the entries of prefixes, the routes in the words of `ip route`, what `nft`
    reads, what an operator is told of it, and the prefixes that are left out, with the reason."""

    generation: int
    entries: list[Entry]
    routes: list[str]
    nft: str
    told: list[str]
    left: dict[str, str]


def digest_of(certificate: bytes) -> str:
    """What tells two certificates apart."""
    return hashlib.sha256(certificate).hexdigest()


def generation_of(certificate: bytes, dscp: tuple[int, ...]) -> int:
    """The generation of a certificate: one of as many as there are pairs of code points, by its digest, so that all
    routers that have it take the same."""
    return int(digest_of(certificate), 16) % (len(dscp) // 2)


def interfaces_of(answer: object, source: str) -> Interfaces:
    """The names of the interfaces, by what `ip -j -4 address` said."""
    try:
        if not isinstance(answer, list):
            raise TypeError
        # (of an interface that is left out, as it is down, nothing is said but that there is one)
        addresses = [
            (interface["ifname"], address)
            for interface in answer
            if interface
            for address in interface["addr_info"]
            if "local" in address
        ]
        names = {lsas.address(address["local"]): str(device) for device, address in addresses}
        networks = {
            # (of a link of two with no network of its own, the far end)
            lsas.address(address["local"]): IPv4Network(
                f"{address.get('address', address['local'])}/{address['prefixlen']}", strict=False
            )
            for _, address in addresses
            if "prefixlen" in address
        }
    except (ValueError, KeyError, TypeError, AttributeError) as fault:
        raise ToolFault(f"{source}: it is not what `ip -j -4 address` says", READ_FAULT) from fault
    return Interfaces(names, networks)


def lines_of(ways: Ways, whole: Prefixes, entries: list[Entry]) -> list[str]:
    """What is told: how much there is, how each prefix came about where all are asked for, and what is left out."""
    repaired = sum(bool(entry.repairs) for entry in entries)
    lines = [f"router {ways.router.text}: {len(entries)} prefixes, {repaired} of them with a repair"]
    if whole.daemon.routes is None:
        lines.append("what the daemon has routes to is not known: --routes FILE of `ip -j -4 route`")
    lines += [f"left out: the interface name {name!r}" for name in whole.daemon.interfaces.odd]
    if whole.every:
        lines += [f"{prefix}: {how}" for prefix, how in whole.told.items()]
    return lines + [f"{prefix}: left out, {why}" for prefix, why in whole.left.items()]


def table_of(ways: Ways, daemon: Daemon, options: TableOptions) -> Table:
    whole = Prefixes(ways, daemon, options.prefixes)
    entries = whole.entries()
    lines = lines_of(ways, whole, entries)
    if not options.repairs:
        entries = [entry._replace(repairs=[], rows=[]) for entry in entries]
    generation = generation_of(ways.certified, options.dscp)
    interfaces = daemon.interfaces
    routes = [r for entry in entries for r in kernel.routes_of(entry, interfaces, options.daemon, generation)]
    nft = kernel.marking(options.dscp, interfaces.of(ways.own_addresses()))
    return Table(generation, entries, routes + kernel.last_routes(), nft, lines, whole.left)
