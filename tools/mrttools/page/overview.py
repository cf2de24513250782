"""The report's picture: of a small area all routers, of a large one its sites."""
from __future__ import annotations

from typing import NamedTuple, Sequence

from mrttools.area import Area, Bond, Node
from mrttools.lsas import ROUTER
from mrttools.names import count
from . import islands, picture, svg
from .cuts import Cut
from .islands import Islands
from .picture import Style
from .svg import Drawing, Mark, Stroke

# Above so many routers sites are drawn, where they are known.
MANY = 100
NO_SITE = "no site"


class Site(NamedTuple):
    """A site's place among all, its name, its nodes and which of them part the area."""

    node: Node
    name: str
    nodes: list[Node]
    points: list[Node]


def site_of(whole: Area, sites: dict[Node, str]) -> dict[Node, str]:
    """The site of each node. A network is at that of its first router."""
    found = {node: sites.get(node, NO_SITE) for node in whole.nodes if node.kind == ROUTER}
    for bond in whole.bonds:
        for node, far in ((bond.a, bond.b), (bond.b, bond.a)):
            if node.kind != ROUTER and node not in found and far in found:
                found[node] = found[far]
    return {node: found.get(node, NO_SITE) for node in whole.nodes}


def mark_of(site: Site, root: bool) -> Mark:
    routers = sum(node.kind == ROUTER for node in site.nodes)
    words = [count(routers, "router"), *([count(len(site.points), "single point")] if site.points else [])]
    words += ["root"] if root else []
    fill = "cut" if site.points else "plain"
    return Mark(site.node, site.name, ", ".join(words), fill, False, False, ", ".join([site.name, *words]))


def site_drawing(whole: Area, parts: Islands, cuts: Sequence[Cut], sites: dict[Node, str]) -> Drawing:
    """Sites, with a line between two that a link joins."""
    of = site_of(whole, sites)
    elements = {cut.element for cut in cuts}
    roots = {island.certificate.root for island in parts.shared}
    found = {}
    for number, name in enumerate(sorted(set(of.values()))):
        nodes = [node for node in whole.nodes if of[node] == name]
        found[name] = Site(Node(number, ROUTER), name, nodes, [node for node in nodes if node in elements])
    between: dict[tuple[str, str], list[Bond]] = {}
    for bond in whole.bonds:
        one, other = sorted((of[bond.a], of[bond.b]))
        if one != other:
            between.setdefault((one, other), []).append(bond)
    strokes = []
    for (one, other), bonds in between.items():
        line = Bond(found[one].node, found[other].node, 0, 0)
        sort = "cut" if elements & set(bonds) else "link"
        strokes.append(Stroke(line, line.a, sort, f"{one} \u2013 {other}: {count(len(bonds), 'link')}"))
    marks = [mark_of(site, bool(roots & set(site.nodes))) for site in found.values()]
    legend = [
        ("link", "links between sites"),
        ("cut", "a link that parts the area"),
        ("fill cut", "has single points of failure"),
    ]
    kinds = {stroke.sort for stroke in strokes} | {f"fill {mark.fill}" for mark in marks}
    title = f"The area: {count(len(marks), 'site')}, {count(len(whole.bonds), 'link')}"
    return Drawing(title, marks, strokes, {}, [each for each in legend if each[0] in kinds], [])


def drawn(
    whole: Area, parts: Islands, cuts: Sequence[Cut], known: dict[Node, str], sites: dict[Node, str]
) -> tuple[str, float]:
    """The picture, and how wide it is where nothing is made smaller."""
    routers = [node for node in whole.nodes if node.kind == ROUTER]
    if len(routers) > MANY and len({sites.get(node) for node in routers}) > 1:
        return svg.svg_and_width(site_drawing(whole, parts, cuts, sites))
    marked = islands.parts_of(parts, cuts)
    return svg.svg_and_width(picture.area_drawing(whole, marked, Style(known, None, False, False)))
