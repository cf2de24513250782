"""What a change of a network changes: two databases, each with its certificates, side by side."""
from __future__ import annotations

from typing import Iterable, Iterator, NamedTuple

from mrttools import lsas, names
from mrttools.area import Area, Bond, Node
from mrttools.certificate import COLORS
from mrttools.paths import Graph
from mrttools.program import Program
from . import client, cross_check, cuts, facts, islands
from .cuts import Cut
from .facts import Facts, Ground
from .islands import Islands
from .target import END

SHOWN = 20
Pair = tuple[Node, Node]
# Where a router sends: the far node of the link, and the link data at the router.
Way = tuple[Node, int]


class Side(NamedTuple):
    """One of two databases, and what is found of it."""

    area: Area
    islands: Islands
    cuts: list[Cut]
    facts: Facts


def side_of(mrt: Program, tell: facts.Tell) -> Side:
    whole = client.area_of(mrt)
    tell("certificate", 0, 1)
    parts = islands.islands(mrt, whole)
    points = cuts.single_points(whole.nodes, whole.bonds)
    pair_facts = Facts(Ground(Graph(whole), parts, points))
    pair_facts.read_targets(tell)
    cross_check.agree(mrt, pair_facts, tell)
    return Side(whole, parts, points, pair_facts)


# lists


def listed(head: str, texts: Iterable[str], shown: int | None = SHOWN) -> list[str]:
    """A head with the number of things, and a line for each, or for the first of many."""
    texts = list(texts)
    if not texts:
        return []
    lines = [f"{head}: {len(texts):,}"] + [f"  {text}" for text in texts[:shown]]
    return lines + ([f"  and {len(texts) - shown:,} more"] if shown and len(texts) > shown else [])


def link_name(bond: Bond) -> str:
    return f"{bond.text} ({bond.a.text} \u2013 {bond.b.text})"


def identity(bond: Bond) -> tuple[Node, Node, int, int | None]:
    """What makes a link the same one in both databases: its ends and their link data."""
    return bond.a, bond.b, bond.data_a, bond.data_b


# the network


def roots(side: Side) -> dict[Node, Node]:
    """The root of each node's island."""
    return {node: island.certificate.root for island in side.islands.shared for node in island.certificate.nodes}


def root_lines(old: Side, new: Side, shown: int | None) -> list[str]:
    """How roots changed, by routers that are in both."""
    before, after = roots(old), roots(new)
    moved: dict[tuple[Node | None, Node | None], list[Node]] = {}
    for node in old.area.nodes:
        if node.kind == lsas.ROUTER and node in new.facts.graph.number and before.get(node) != after.get(node):
            moved.setdefault((before.get(node), after.get(node)), []).append(node)
    lines = []
    for (one, other), nodes in moved.items():
        text = " to ".join(root.text if root else "none" for root in (one, other))
        lines += listed(f"root {text}: routers", (node.text for node in nodes), shown)
    return lines


def node_lines(old: Side, new: Side, shown: int | None) -> list[str]:
    lines = []
    for kind, word in ((lsas.ROUTER, "routers"), (lsas.NETWORK, "networks")):
        before, after = ([node for node in side.area.nodes if node.kind == kind] for side in (old, new))
        lines += listed(
            f"{word} that came", (node.text for node in after if node not in old.facts.graph.number), shown
        )
        lines += listed(
            f"{word} that went", (node.text for node in before if node not in new.facts.graph.number), shown
        )
    return lines


def link_lines(old: Side, new: Side, shown: int | None) -> list[str]:
    """Links that came and went, and those whose metric changed."""
    before, after = ({identity(bond): bond for bond in side.area.bonds} for side in (old, new))
    lines = listed("links that came", (link_name(after[key]) for key in after if key not in before), shown)
    lines += listed("links that went", (link_name(before[key]) for key in before if key not in after), shown)
    changed = [
        f"{link_name(bond)} from {bond.metric_a}/{bond.metric_b} to {after[key].metric_a}/{after[key].metric_b}"
        for key, bond in before.items()
        if key in after and bond != after[key]
    ]
    return lines + listed("links whose metric changed", changed, shown)


def cut_lines(old: Side, new: Side, shown: int | None) -> list[str]:
    """Single points of failure that came and went, a link by its ends and their link data."""

    def known(side: Side) -> dict[object, Cut]:
        return {identity(cut.element) if isinstance(cut.element, Bond) else cut.element: cut for cut in side.cuts}

    def told(cut: Cut) -> str:
        name = link_name(cut.element) if isinstance(cut.element, Bond) else cut.element.text
        return f"{name} parts {names.count(cut.pairs, 'pair')}"

    before, after = known(old), known(new)
    lines = listed(
        "single points of failure that came", (told(after[key]) for key in after if key not in before), shown
    )
    return lines + listed(
        "single points of failure that went", (told(before[key]) for key in before if key not in after), shown
    )


# rows


def hops_of(side: Side, source: Node) -> Iterator[tuple[Node, list[Way | None]]]:
    """For each other node of its island where a router sends on blue, on red and by its primary. A network has no
    primary here."""
    found, graph = side.facts, side.facts.graph
    colors, own = found.colors.get(source), graph.number[source]
    if colors is None:
        return
    for target in colors.numbers:
        if target != own:
            bonds: list[Bond | None] = [graph.bonds[colors.link(color, own, target)] for color in range(len(COLORS))]
            hop, _ = found.rows[own].get(target, (None, ()))
            bonds.append(graph.bonds[hop.bonds[0]] if hop else None)
            ways = [(bond.far(source), bond.data_of(source) or 0) if bond else None for bond in bonds]
            yield graph.nodes[target], ways


def row_lines(old: Side, new: Side, shown: int | None) -> list[str]:
    """How many rows of each router changed, and in what."""
    lines = []
    for source in old.area.nodes:
        if source.kind != lsas.ROUTER or source not in new.facts.graph.number:
            continue
        before, after = dict(hops_of(old, source)), dict(hops_of(new, source))
        both = [node for node in before if node in after]
        changed = [[before[node][part] != after[node][part] for part in range(3)] for node in both]
        counts = [sum(row[part] for row in changed) for part in range(3)]
        came, went = len(after) - len(both), len(before) - len(both)
        if any(counts) or came or went:
            lines.append(
                f"{source.text}: {sum(map(any, changed)):,} of {len(both):,} "
                f"(blue {counts[0]:,}, red {counts[1]:,}, primary {counts[2]:,}), {came:,} came, {went:,} went"
            )
    return listed("routers whose rows changed", lines, shown)


# pairs


def repairs(side: Side, which: int) -> dict[Pair, bool]:
    """Whether a color repairs the failure of the first link, or of the next node, of each pair with a primary. Pairs of
    which the next node is the destination have no answer for the node."""
    nodes = side.facts.graph.nodes
    return {
        (nodes[router], nodes[target]): repairs[-which] >= 0
        for router, rows in side.facts.rows.items()
        for target, (_, repairs) in rows.items()
        if repairs[-which] != END
    }


def pair_text(pair: Pair) -> str:
    return f"{pair[0].text} to {pair[1].text}"


def pair_lines(old: Side, new: Side, shown: int | None) -> list[str]:
    """Pairs of routers that are in both databases which gained or lost a way, or a repair."""
    lines: list[str] = []
    for which, word in enumerate(("first link", "next node")):
        before, after = repairs(old, which), repairs(new, which)
        if which == 0:
            both = {node for node in old.area.nodes if node in new.facts.graph.number}
            lines += listed("pairs that gained a way", sorted_pairs(after.keys() - before.keys(), both), shown)
            lines += listed("pairs that lost their way", sorted_pairs(before.keys() - after.keys(), both), shown)
        common = [pair for pair in before if pair in after and before[pair] != after[pair]]
        gained, lost = ([pair_text(pair) for pair in common if after[pair] == wanted] for wanted in (True, False))
        lines += listed(f"pairs that gained a repair for the {word}", gained, shown)
        lines += listed(f"pairs that lost their repair for the {word}", lost, shown)
    return lines


def sorted_pairs(pairs: Iterable[Pair], both: set[Node]) -> list[str]:
    return [pair_text(pair) for pair in sorted(pairs) if set(pair) <= both]


def total_line(side: Side, word: str) -> str:
    total = facts.Coverage()
    for coverage in side.facts.coverage.values():
        total.add(coverage)
    return (
        f"{word}: {names.count(len(side.facts.graph.routers), 'router')}, {names.count(len(side.area.bonds), 'link')}, "
        f"{names.count(len(side.cuts), 'single point')} of failure; repaired for the first link "
        f"{total.colors_link:,} of {total.pairs:,}, for the next node {total.colors_node:,} of {total.node_pairs:,}"
    )


def lines_of(old: Side, new: Side, shown: int | None = SHOWN) -> list[str]:
    """All that changed."""
    lines = [total_line(old, "before"), total_line(new, "after")]
    for part in (root_lines, node_lines, link_lines, cut_lines, row_lines, pair_lines):
        lines += part(old, new, shown)
    return lines + (["nothing changed"] if len(lines) == 2 else [])
