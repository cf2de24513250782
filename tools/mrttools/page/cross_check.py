"""What the program says of the same packets and rows as the report: the tables of routers, and a trace. A different answer
is a fault."""
from __future__ import annotations

from typing import Iterator, NamedTuple

from mrttools import lsas
from mrttools.certificate import COLORS
from mrttools.exits import REFUSED, ToolFault
from mrttools.lsas import ROUTER
from mrttools.paths import Graph
from mrttools.program import Program
from . import client
from .client import Packet
from .facts import Facts, Tell, name_of
from .stretches import Stretched
from .target import END

# Of how many routers the whole table is asked for; of larger areas so many, which lie all over it.
TABLES = 100


class Asked(NamedTuple):
    """How many tables of routers the program was asked for, and how many rows they have."""

    tables: int
    rows: int


def trace(facts: Facts, router: int, target: int, failed: int) -> list[str]:
    """What a packet meets that enters by primaries after a failure, in the words of `mrt trace`, by what was computed
    here."""
    graph, lines = facts.graph, []
    hop, repairs = facts.rows[router][target]
    while failed not in hop.elements:
        router = hop.following
        lines.append(moved(graph, router, target))
        hop, repairs = facts.rows[router][target]
    color = repairs[hop.elements.index(failed)]
    if color < 0:
        return [*lines, f"lost {why_lost(facts, router, target, color)}"]
    lines.append(f"switched {COLORS[color]}")
    way = facts.colors[graph.nodes[target]].nodes(color, router, target)
    return lines + [moved(graph, node, target) for node in way if graph.nodes[node].kind == ROUTER]


def why_lost(facts: Facts, router: int, target: int, code: int) -> str:
    if code == END:
        return "is-destination"
    colors = facts.colors_to(target)
    return "no-alternate" if colors and router in colors.place else "outside"


def moved(graph: Graph, node: int, target: int) -> str:
    return f"{'delivered' if node == target else 'moved'} {graph.nodes[node].text}"


# tables


def chosen(facts: Facts) -> list[int]:
    """The routers whose tables are asked for: all of a small area, of a large one some all over it."""
    routers = [router for router in facts.graph.routers if facts.colors_to(router)]
    return routers[:: max(0, len(routers) - 1) // TABLES + 1]


def own_lines(facts: Facts, router: int) -> Iterator[str]:
    """What `mrt table` has to say of each router that one sends to, but for the word of a row."""
    graph, colors = facts.graph, facts.colors[facts.graph.nodes[router]]
    tail = graph.nodes[router]
    places = {
        graph.place[bond]: f"{bond.far(tail).text}/{lsas.spelled(bond.data_of(tail) or 0)}"
        for bond in graph.links[tail]
    }
    for target in colors.numbers:
        if target in facts.rows[router]:
            hop, repairs = facts.rows[router][target]
            links = [colors.link(color, router, target) for color in (0, 1)]
            names = [places[bond] for bond in [*links, hop.bonds[0]]]
            letters = "".join(["br"[repair] if repair >= 0 else "-" for repair in repairs])
            yield f"{graph.nodes[target].text} blue {names[0]} red {names[1]} primary {names[2]} repair {letters}"


def told_lines(mrt: Program, router: str) -> Iterator[str]:
    """What it says, without that word and without networks."""
    for line in mrt.lines("table", router)[1:]:
        to, _, rest = line.split(" ", 2)
        if not to.startswith("net:"):
            yield f"{to} {rest}"


def ask_tables(mrt: Program, facts: Facts, tell: Tell) -> Asked:
    rows, routers = 0, chosen(facts)
    for done, router in enumerate(routers):
        text = facts.graph.nodes[router].text
        own, lines = list(own_lines(facts, router)), list(told_lines(mrt, text))
        if own != lines:
            here, there = next(
                ((a, b) for a, b in zip(own, lines) if a != b), (f"{len(own)} rows", f"{len(lines)} rows")
            )
            raise ToolFault(f"mrt says otherwise of {text}: {there}, and not {here}", REFUSED)
        rows += len(own)
        tell("questions to mrt", done + 1, len(routers) + 1)
    return Asked(len(routers), rows)


def ask_trace(mrt: Program, facts: Facts, repair: Stretched) -> None:
    """Asks for the trace of a repair."""
    graph = facts.graph
    start, end = graph.nodes[repair.router], graph.nodes[repair.target]
    own = trace(facts, repair.router, repair.target, repair.failed)
    (lines,) = client.answers(mrt, start, [], name_of(graph, repair.failed), [Packet(start, end, len(own))])
    if own != lines:
        raise ToolFault(f"mrt sends from {start.text} to {end.text} another way: {', '.join(lines)}", REFUSED)


def agree(mrt: Program, facts: Facts, tell: Tell) -> Asked:
    """Asks the program for tables of routers, and for the trace of the worst repair."""
    asked = ask_tables(mrt, facts, tell)
    for repair in facts.stretches.worst[:1]:
        ask_trace(mrt, facts, repair)
    return asked
