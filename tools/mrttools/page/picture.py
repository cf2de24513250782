"""What pictures show: the two trees to a destination, the ways after a failure, or an area with what parts it."""
from __future__ import annotations

from typing import Collection, Iterable, NamedTuple

from mrttools import lsas
from mrttools.area import Area, Bond, Node
from mrttools.certificate import BLUE, COLORS, RED, Certificate
from mrttools.lsas import NETWORK
from mrttools.names import count, known, spelled
from .svg import Drawing, Mark, Stroke


class Arrow(NamedTuple):
    """A next hop: over which link, from which of its nodes, and of which sort."""

    bond: Bond
    tail: Node
    sort: str


class Island(NamedTuple):
    """A certificate, with its links by number as the area has them."""

    area: Area
    certificate: Certificate
    bonds: list[Bond]


class Course(NamedTuple):
    """What a router does with its packets after a failure: the color that it switches them to, or else the next hops
    by primaries, or the cause of their loss."""

    router: Node
    color: str | None
    primary: list[Arrow]
    lost: str | None


class Style(NamedTuple):
    """What was asked for: names of routers, a title, and what stands at the ends of links."""

    names: dict[Node, str]
    title: str | None
    metrics: bool
    addresses: bool


PLAIN = Style({}, None, False, False)


class Failure(NamedTuple):
    """A failed node or link, its name, and what the routers do."""

    name: str
    element: Node | Bond
    courses: list[Course]


# arrows


def tree_arrows(island: Island, target: Node) -> list[Arrow]:
    """The next hops of both colors of every node; one arrow of the sort both where they are one link."""
    nodes, arrows = island.certificate.nodes, []
    to = nodes.index(target)
    for number, node in enumerate(nodes):
        if number != to:
            blue, red = (island.bonds[island.certificate.link(color, number, to)] for color in (BLUE, RED))
            arrows += (
                [Arrow(blue, node, "both")] if blue == red else [Arrow(blue, node, "blue"), Arrow(red, node, "red")]
            )
    return arrows


def walk_arrows(island: Island, router: Node, color: str, target: Node) -> list[Arrow]:
    """The next hops of a color's walk."""
    cert, arrows = island.certificate, []
    at, to = cert.nodes.index(router), cert.nodes.index(target)
    while at != to:
        link = cert.link(COLORS.index(color), at, to)
        arrows.append(Arrow(island.bonds[link], cert.nodes[at], color))
        at = cert.far(link, at)
    return arrows


def failure_arrows(island: Island, failure: Failure, target: Node) -> list[Arrow]:
    """Primaries of the routers that use them, and the walks of those that switch; each once."""
    found = []
    for course in failure.courses:
        found += course.primary
        if course.color:
            found += walk_arrows(island, course.router, course.color, target)
    return list(dict.fromkeys(found))


# links


def end_text(bond: Bond, node: Node) -> str:
    """What one end tells of a link."""
    if bond.metric_from(node) is None:
        return "not told"
    address = "" if node.kind == NETWORK else f"{lsas.spelled(bond.data_of(node) or 0)}, "
    return f"{address}metric {bond.metric_from(node)}"


def link_tip(bond: Bond, style: Style) -> str:
    ends = (f"{known(style.names, node)} ({end_text(bond, node)})" for node in (bond.a, bond.b))
    return " \u2013 ".join(ends)


def end_label(bond: Bond, node: Node, style: Style) -> str:
    """What stands in the picture at one end of a link, where it was asked for. A network's end has nothing to tell."""
    if node.kind == NETWORK or bond.metric_from(node) is None:
        return ""
    words = [lsas.spelled(bond.data_of(node) or 0)] if style.addresses else []
    return " ".join(words + ([str(bond.metric_from(node))] if style.metrics else []))


def end_labels(whole: Area, style: Style) -> dict[Bond, tuple[str, str]]:
    if not (style.metrics or style.addresses):
        return {}
    return {bond: (end_label(bond, bond.a, style), end_label(bond, bond.b, style)) for bond in whole.bonds}


def is_failed(bond: Bond, failure: Failure | None) -> bool:
    return failure is not None and failure.element in (bond, bond.a, bond.b)


def plain_strokes(
    whole: Area, inside: Collection[Bond], drawn: Collection[Bond], failure: Failure | None, style: Style
) -> list[Stroke]:
    """The links without an arrow, so that the picture has every link."""
    return [
        Stroke(
            bond,
            bond.a,
            "failed" if is_failed(bond, failure) else "link" if bond in inside else "outside",
            link_tip(bond, style),
        )
        for bond in whole.bonds
        if bond not in drawn
    ]


def arrow_stroke(arrow: Arrow, style: Style) -> Stroke:
    what = {"both": "blue and red"}.get(arrow.sort, arrow.sort)
    head = arrow.bond.far(arrow.tail)
    tip = f"{what}: {known(style.names, arrow.tail)} to {known(style.names, head)}; {link_tip(arrow.bond, style)}"
    return Stroke(arrow.bond, arrow.tail, arrow.sort, tip)


# nodes


def mark_of(node: Node, words: Iterable[str], fill: str, double: bool, style: Style) -> Mark:
    square = node.kind == NETWORK
    said = [*(["network"] if square else []), *words]
    kind = "network" if square and fill == "plain" else fill
    return Mark(
        node,
        spelled(style.names, node),
        ", ".join(said),
        kind,
        square,
        double,
        ", ".join([known(style.names, node), *said]),
    )


def fill_of(node: Node, island: Island, failure: Failure | None) -> str:
    """How a node is filled: by what it does after a failure."""
    if node not in island.certificate.nodes:
        return "outside"
    if failure and node == failure.element:
        return "failed"
    for course in failure.courses if failure else []:
        if course.router == node and (course.color or course.lost):
            return course.color or "lost"
    return "plain"


def tree_marks(island: Island, target: Node, failure: Failure | None, style: Style) -> list[Mark]:
    cert, cuts = island.certificate, island.certificate.cut_nodes()
    marks = []
    for node in island.area.nodes:
        words = [word for word, true in (("root", node == cert.root), ("single point of failure", node in cuts)) if true]
        marks.append(mark_of(node, words, fill_of(node, island, failure), node == target, style))
    return marks


# legend


SORTS = {
    "blue": "blue",
    "red": "red",
    "both": "blue and red over one link",
    "primary": "primary",
    "cut": "link that parts the area",
    "link": "other link",
    "failed": "link that has failed",
    "outside": "link in no island",
}
FILLS = {
    "double": "destination",
    "network": "network",
    "blue": "switches to blue",
    "red": "switches to red",
    "lost": "loses its packets",
    "failed": "has failed",
    "cut": "router or network that parts the area",
    "outside": "in no island",
}


def legend_of(
    marks: Iterable[Mark], strokes: Iterable[Stroke], sorts: dict[str, str] = SORTS
) -> list[tuple[str, str]]:
    """What lines and fills mean, of those that the picture has."""
    drawn = {stroke.sort for stroke in strokes}
    filled = {mark.fill for mark in marks} | {"double" for mark in marks if mark.double}
    lines = [(sort, text) for sort, text in sorts.items() if sort in drawn]
    return lines + [(f"fill {fill}", text) for fill, text in FILLS.items() if fill in filled]


def told(failure: Failure, style: Style) -> list[str]:
    """Which routers do not go on as before, by what they do."""
    lines = []
    for color in COLORS:
        switching = [known(style.names, course.router) for course in failure.courses if course.color == color]
        if switching:
            lines.append(f"Switching to {color}: {', '.join(switching)}.")
    lost = [f"{known(style.names, course.router)} ({course.lost})" for course in failure.courses if course.lost]
    return lines + ([f"Losing packets: {', '.join(lost)}."] if lost else [])


# pictures


def tree_drawing(island: Island, target: Node, failure: Failure | None, style: Style = PLAIN) -> Drawing:
    """The trees to a destination, or the ways to it after a failure."""
    arrows = failure_arrows(island, failure, target) if failure else tree_arrows(island, target)
    marks = tree_marks(island, target, failure, style)
    strokes = [arrow_stroke(arrow, style) for arrow in arrows]
    strokes += plain_strokes(island.area, set(island.bonds), {arrow.bond for arrow in arrows}, failure, style)
    title = f"To {known(style.names, target)}, root {known(style.names, island.certificate.root)}"
    title = title.replace(", root", f", after the failure of {failure.name}, root") if failure else title
    notes = told(failure, style) if failure else []
    legend = legend_of(marks, strokes, SORTS | {"outside": "link not in this island"})
    return Drawing(style.title or title, marks, strokes, end_labels(island.area, style), legend, notes)


class Parts(NamedTuple):
    """What an area's picture marks: its islands' roots, what is in an island, and what parts the area."""

    roots: Collection[Node]
    inside: Collection[Node]
    inside_bonds: Collection[Bond]
    cuts: Collection[Node]
    cut_bonds: Collection[Bond]


def area_drawing(whole: Area, parts: Parts, style: Style = PLAIN) -> Drawing:
    """An area, with the nodes and links that part it."""
    marks = []
    for node in whole.nodes:
        fill = "cut" if node in parts.cuts else "plain" if node in parts.inside else "outside"
        marks.append(mark_of(node, ["root"] if node in parts.roots else [], fill, False, style))
    strokes = [Stroke(bond, bond.a, "cut", link_tip(bond, style)) for bond in whole.bonds if bond in parts.cut_bonds]
    strokes += plain_strokes(whole, parts.inside_bonds, parts.cut_bonds, None, style)
    routers = sum(node.kind == lsas.ROUTER for node in whole.nodes)
    counts = count(routers, "router"), count(len(whole.nodes) - routers, "network"), count(len(whole.bonds), "link")
    title = style.title or f"The area: {', '.join(counts)}"
    return Drawing(title, marks, strokes, end_labels(whole, style), legend_of(marks, strokes), [])
