"""The islands of an area, each by its certificate, and why routers and links take no part in one."""
from __future__ import annotations

from typing import NamedTuple, Sequence

from mrttools import area
from mrttools.area import Area, Bond, Node
from mrttools.lsas import ROUTER
from mrttools.program import Program
from . import client
from .cuts import Cut
from .picture import Island, Parts


class Islands(NamedTuple):
    """The islands of more than one node, the largest first, routers alone in theirs, and what a profile keeps out."""

    shared: list[Island]
    alone: list[Node]
    unsupported: set[Node]
    ineligible: set[tuple[int, int]]


def islands(mrt: Program, whole: Area) -> Islands:
    """The islands of an area: one certificate for each that has more than one node. Where there is none, mrt still has
    to take the database and the profile."""
    profile = client.profile(mrt)
    unsupported, kept_out = area.unsupported(profile), area.ineligible(profile)
    members = [node for node in whole.nodes if node not in unsupported]
    eligible = area.island_bonds(whole, members, kept_out)
    joined = {end for bond in eligible for end in (bond.a, bond.b)}
    shared: list[Island] = []
    seen: set[Node] = set()
    for node in members:
        if node.kind == ROUTER and node in joined and node not in seen:
            shared.append(client.island_of(mrt, whole, node.text))
            seen |= set(shared[-1].certificate.nodes)
    shared.sort(key=lambda island: -len(island.certificate.nodes))
    alone = [node for node in members if node.kind == ROUTER and node not in joined]
    islands = Islands(shared, alone, unsupported & set(whole.nodes), kept_out)
    if not shared:
        mrt.run("certify", some_member(islands, whole).text)
    return islands


def some_member(islands: Islands, whole: Area) -> Node:
    """A router that takes part, at which the program may be asked. Where there is none, it will say so of any other."""
    routers = [island.certificate.root for island in islands.shared] + islands.alone
    routers += [node for node in whole.nodes if node.kind == ROUTER] + [Node(0, ROUTER)]
    return routers[0]


def why_not(bond: Bond, islands: Islands) -> str | None:
    """Why a link is in no island, if it is in none."""
    if not bond.two_way:
        return "one end alone tells of it"
    if not bond.transit:
        return "metric 65535"
    if islands.unsupported & {bond.a, bond.b}:
        return "a router that the profile keeps out"
    if any(bond.is_of(router, data) for router, data in islands.ineligible):
        return "kept out by the profile"
    return None


def parts_of(islands: Islands, cuts: Sequence[Cut]) -> Parts:
    """What the picture of an area marks."""
    elements = [cut.element for cut in cuts]
    return Parts(
        {island.certificate.root for island in islands.shared},
        {node for island in islands.shared for node in island.certificate.nodes},
        {bond for island in islands.shared for bond in island.bonds},
        {element for element in elements if isinstance(element, Node)},
        {element for element in elements if isinstance(element, Bond)},
    )
