"""What an operator can do, the best first, with what each gains and the commands that try it."""
from __future__ import annotations

import os
import shlex
import sys
from typing import Any, Collection, Iterator, Sequence

from mrttools import area, lsas
from mrttools.area import MAINTENANCE, Bond, Node
from mrttools.exits import NOT_THERE, ToolFault
from mrttools.lsas import ROUTER
from mrttools.program import Program
from .causes import INELIGIBLE, METRIC, NO_MRT, ONE_END, Cause, Causes
from .new_links import Choice, Joining, Link
from .plain_values import Found, Values, cause_values

MOST = 10
TRIED_DATABASE, TRIED_PROFILE = "tried.lsas", "tried.profile"


def tool(name: str) -> str:
    """A tool as it is called here: what is installed has other names."""
    return f"mrt-{name}" if os.path.basename(sys.argv[0]).startswith("mrt-") else f"tools/{name}"


def usual_metric(bonds: Collection[Bond]) -> int:
    """The middle one of what routers tell of links."""
    ends = [(bond, end) for bond in bonds for end in (bond.a, bond.b) if end.kind == ROUTER]
    metrics = sorted(bond.metric_from(end) or 0 for bond, end in ends)
    metrics = [metric for metric in metrics if 0 < metric < MAINTENANCE]
    return metrics[len(metrics) // 2] if metrics else 10


def routers_of(words: Sequence[str], known: dict[Node, str]) -> set[Node]:
    """The routers that words name, by address or by name."""
    by_name = {name: node for node, name in known.items()}
    found = set()
    for word in words:
        try:
            found.add(by_name.get(word) or area.node_of(word))
        except ValueError:
            raise ToolFault(f"not there: {word}", NOT_THERE) from None
    return found


class Advice:
    """What can be tried on an area."""

    def __init__(self, mrt: Program, found: Found, sites: dict[Node, str], without: Collection[Node]) -> None:
        self.mrt, self.found, self.graph = mrt, found, found.facts.graph
        self.sites, self.without = sites, set(without)

    def near_metric(self, nodes: Collection[Node]) -> int:
        return usual_metric([bond for node in nodes for bond in self.graph.links[node]])

    # commands

    def command(self, changes: list[str], kept_out: list[str]) -> str:
        """The commands that try changes of the database, and a profile without some of its lines."""
        old, profile, lines = self.mrt.database, self.mrt.profile, []
        database, new_profile = (TRIED_DATABASE if changes else old), (TRIED_PROFILE if kept_out else "")
        if changes:
            lines.append(shlex.join([tool("change"), *changes, old]) + f" > {database}")
        if kept_out:
            texts = " ".join("-e " + shlex.quote(f"/{text}/d") for text in kept_out)
            lines.append(f"sed {texts} {shlex.quote(profile)} > {new_profile}")
        words = [tool("diff"), old, database, profile, *([new_profile] if new_profile else [])]
        return " && ".join([*lines, shlex.join(words)])

    def metric_changes(self, cause: Cause) -> Iterator[str]:
        """The metric of a link that has the greatest one, or of all links of a router."""
        bonds = [cause.element] if isinstance(cause.element, Bond) else self.graph.links[cause.element]
        for bond in bonds:
            for end in (bond.a, bond.b):
                if bond.metric_from(end) == MAINTENANCE:
                    yield from ("--metric", f"link:{end.text}/{lsas.spelled(bond.data_of(end) or 0)}")
                    yield str(self.near_metric([bond.a, bond.b]))

    def changes(self, causes: Causes) -> list[str]:
        found: list[str] = []
        for cause in causes:
            if cause.kind == METRIC:
                found += self.metric_changes(cause)
            elif cause.kind == ONE_END:
                found += ["--add", *(end.text for end in cause.ends), str(self.near_metric(cause.ends))]
        return found

    def kept_out(self, causes: Causes) -> Iterator[str]:
        """What the lines of the profile begin with that keep out."""
        for cause in causes:
            if cause.kind == NO_MRT:
                yield rf"^\s*no-mrt\s\+{cause.element.text}\s*$".replace(".", r"\.")
            elif cause.kind == INELIGIBLE and isinstance(cause.element, Bond):
                for end in cause.ends:
                    words = rf"^\s*ineligible\s\+{end.text}\s\+{lsas.spelled(cause.element.data_of(end) or 0)}\s*$"
                    yield words.replace(".", r"\.")

    # advice

    def speaks_of(self, causes: Causes) -> set[Node]:
        """The routers that a piece of advice is about."""
        return {end for cause in causes for end in cause.ends}

    def for_gaps(self) -> Iterator[Values]:
        for causes, tally in self.found.tallies.items():
            half = [cause for cause in causes if cause.kind == ONE_END]
            on_networks = any(end.kind != ROUTER for cause in half for end in cause.ends)
            if causes and tally.alone and not self.speaks_of(causes) & self.without and not on_networks:
                yield {
                    "advice": "take-in",
                    "causes": list(map(cause_values, causes)),
                    "pairs": tally.alone,
                    "link": None,
                    "others": [],
                    "command": self.command(self.changes(causes), list(self.kept_out(causes))),
                }

    def link_values(self, link: Link) -> Values:
        return {
            "ends": [link.a.text, link.b.text],
            "hops": link.hops,
            "pairs": link.pairs,
            "metric": self.near_metric([link.a, link.b]),
        }

    def for_link(self, choice: Choice) -> Values:
        link = self.link_values(choice.link)
        return {
            "advice": "new-link",
            "causes": [],
            "pairs": link["pairs"],
            "link": link,
            "others": list(map(self.link_values, choice.others)),
            "command": self.command(["--add", *link["ends"], str(link["metric"])], []),
        }

    def values(self) -> list[dict[str, Any]]:
        """The lines, those that gain most first, without those that gain next to nothing beside them."""
        joining = Joining(self.found.area, self.sites, self.without)
        lines = [*self.for_gaps(), *map(self.for_link, joining.choices(MOST))]
        most = max((line["pairs"] for line in lines), default=0)
        return sorted((line for line in lines if 100 * line["pairs"] >= most), key=lambda line: -line["pairs"])[:MOST]
