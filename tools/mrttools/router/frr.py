"""What FRR can hold of a router's table: static routes, as its configuration, and what has to come beside it."""
from __future__ import annotations

from typing import Iterable

from mrttools.lsas import spelled
from . import kernel
from .kernel import TABLES, Entry, Interfaces
from .nexthops import Hop


def words_of(hop: Hop, interfaces: Interfaces) -> str:
    """The next hop in the words of FRR."""
    device = interfaces.device(hop.own).removeprefix(" dev")
    return device.lstrip() if hop.gateway is None else spelled(hop.gateway) + device


def configuration(entries: Iterable[Entry], interfaces: Interfaces, daemon: bool, generation: int) -> str:
    """The primaries, if no other daemon keeps them, and the tables of both colors of a generation."""
    lines = []
    for entry in entries:
        if entry.primary is not None and not daemon:
            lines.append(f"ip route {entry.prefix} {words_of(entry.primary, interfaces)}")
        for table, row in zip(TABLES[2 * generation :], entry.rows):
            hop = row or interfaces.attached(entry.prefix)
            if hop is not None:
                lines.append(f"ip route {entry.prefix} {words_of(hop, interfaces)} table {table}")
    return "".join(f"{line}\n" for line in lines + [f"ip route 0.0.0.0/0 reject table {table}" for table in TABLES])


def beside(entries: Iterable[Entry], interfaces: Interfaces, daemon: bool, generation: int) -> list[str]:
    """The routes that FRR cannot hold: those with a realm, and those after one of its own. Static routes of FRR are
    the only next hop, so that they need no other primary after them."""
    routes = (route for entry in entries for route in kernel.routes_of(entry, interfaces, True, generation))
    return [route for route in routes if " table " not in route and (daemon or " realm " in route)]
