"""What becomes of each router's packets after each failure, as rows of letters."""
from __future__ import annotations

from typing import Callable, NamedTuple, Sequence

from mrttools.area import Node
from .facts import Facts
from .losses import Toll
from .plain_values import state_of

# So many columns can be read. Of more routers those of a site are one, or else those that follow each other.
WIDE = 64
# Above so many rows the failures that are repaired whole are left out.
HIGH = 600
# What becomes of the packets of a column, the worst first.
GAP, PARTED, CHOICE, REPAIRED, NOTHING = "g", "p", "c", "r", "n"


class Column(NamedTuple):
    """A column by its name, the name of all of it, and its routers as bits."""

    name: str
    whole: str
    routers: int


class Row(NamedTuple):
    """A failure by its element, and what it costs each column."""

    element: str
    cells: str


class Matrix(NamedTuple):
    """The columns, the failures by how they end, the worst first, and how many of those that are repaired are left
    out."""

    columns: list[Column]
    rows: dict[str, list[Row]]
    left_out: int


def columns_of(found: Facts, spelled: Callable[[Node], str], sites: dict[Node, str]) -> list[Column]:
    graph = found.graph
    nodes = {router: graph.nodes[router] for router in graph.routers}
    if len(nodes) <= WIDE:
        return [Column(spelled(node), spelled(node), 1 << router) for router, node in nodes.items()]
    by_site: dict[str, int] = {}
    for router, node in nodes.items():
        site = sites.get(node, "no site")
        by_site[site] = by_site.get(site, 0) | 1 << router
    if 1 < len(by_site) <= WIDE:
        return [Column(site, f"the routers of {site}", routers) for site, routers in sorted(by_site.items())]
    routers, found_columns = list(nodes), []
    step = (len(routers) - 1) // WIDE + 1
    for start in range(0, len(routers), step):
        part = routers[start : start + step]
        first, last = (spelled(nodes[part[place]]) for place in (0, -1))
        bits = sum(1 << router for router in part)
        found_columns.append(Column(f"{first} \u2026", f"{first} to {last}", bits))
    return found_columns


def cells_of(toll: Toll, columns: Sequence[Column]) -> str:
    return "".join(
        [
            GAP
            if toll.gaps_from & column.routers
            else PARTED
            if toll.parted_from & column.routers
            else CHOICE
            if toll.chosen_from & column.routers
            else REPAIRED
            if toll.met_from & column.routers
            else NOTHING
            for column in columns
        ]
    )


def matrix_of(found: Facts, spelled: Callable[[Node], str], sites: dict[Node, str]) -> Matrix:
    """The whole of it, in the order of the links and then the nodes."""
    columns = columns_of(found, spelled, sites)
    rows: dict[str, list[Row]] = {state: [] for state in ("gap", "parts", "choice", "repaired")}
    tolls = {
        found.graph.of_element(element).text: toll for element, toll in enumerate(found.losses.tolls) if toll.met
    }
    whole = sum(state_of(toll) == "repaired" for toll in tolls.values())
    left_out = whole if len(tolls) > HIGH else 0
    for element, toll in tolls.items():
        state = state_of(toll)
        if state != "repaired" or not left_out:
            rows[state].append(Row(element, cells_of(toll, columns)))
    return Matrix(columns, rows, left_out)
