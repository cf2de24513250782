"""What an operator should look at in a database and a profile that `mrt` takes."""
from __future__ import annotations

from typing import Iterable, NamedTuple

from . import area, gather, lsas
from .area import Area, Node
from .lsas import ROUTER, Lsa


class ProfileLine(NamedTuple):
    """A line of a profile that is no comment: its number, its first word, the router, and the word after it."""

    number: int
    word: str
    router: int
    more: str


class Profile(NamedTuple):
    lines: list[ProfileLine]

    @property
    def without(self) -> set[int]:
        """The routers that take no part."""
        return {line.router for line in self.lines if line.word == "no-mrt"}


def read_profile(data: bytes) -> Profile:
    """The lines of a profile that `mrt` takes."""
    lines = []
    for number, line in enumerate(data.split(b"\n"), 1):
        words = [] if line.startswith(b"#") else line.decode("ascii").split()
        if words:
            lines.append(ProfileLine(number, words[0], lsas.address(words[1]), "".join(words[2:])))
    return Profile(lines)


def matches_nothing(line: ProfileLine, whole: Area) -> bool:
    """Whether the area has no router, or the router no link, that a line speaks of."""
    if Node(line.router, ROUTER) not in whole.nodes:
        return True
    if line.word != "ineligible":
        return False
    return not any(bond.is_of(line.router, lsas.address(line.more)) for bond in whole.bonds)


def profile_lines(profile: Profile, whole: Area) -> list[str]:
    return [
        f"profile line {line.number} matches nothing: {line.word} {lsas.spelled(line.router)} {line.more}".rstrip()
        for line in profile.lines
        if matches_nothing(line, whole)
    ]


def maintenance_lines(found: Iterable[Lsa]) -> list[str]:
    """A line on each router all of whose links to routers and networks have the greatest metric."""
    lines = []
    for node, lsa in sorted(area.speakers(found).items()):
        links = [link for link in lsas.links_of(lsa.record) if link.kind in (1, 2)] if node.kind == ROUTER else []
        if links and all(link.metric == area.MAINTENANCE for link in links):
            lines.append(f"in maintenance, and in no island: {node.text}")
    return lines


def findings(found: list[Lsa], whole: Area, profile: Profile) -> list[str]:
    """All lines on what should be looked at."""
    live = list(area.speakers(found).values())
    lines = profile_lines(profile, whole)
    lines += area.no_link_lines(whole) + area.one_way_lines(whole)
    lines += [f"named, but not there: {name}" for name in gather.missing(live)]
    return lines + maintenance_lines(found)


def root_line(head: str) -> str:
    """Who the root is, by the first line of a table."""
    words = head.split(" ")
    return f"root: {words[3]}, of the island of {words[1]} with {words[5]} nodes and {words[7]} links"
