"""What came of the lab's changes: each router's time to its new tables, the pings that were lost and by what, as tables and
as a record for programs."""
from __future__ import annotations

import json
from typing import Any, Iterator, NamedTuple

from .dropped import AGENTS, CAUSES, Lost, sums
from .forwarding import line_of, lost_by
from .pings import Counted

HEAD = ("change", "routers", "changes", "last word", "tables", "beyond", "lost: with", "without")
WIDTHS = (34, 7, 9, 11, 9, 8, 12, 9)
TIMES = "seconds until each router had its new tables/of these after the daemon's last word"
LOSSES = "lost by"
# How many pings of one cause and place a record tells.
SHOWN = 3


class Pinged(NamedTuple):
    """A change while all pairs were pinged: when it began, what was counted, and by what each ping was lost."""

    began: float
    counted: Counted
    lost: list[Lost]


class Row(NamedTuple):
    """What came of a change: how many lines each router changed; of those that made new tables the seconds until the last
    word of it came to the agent, and until its table was there; and the pings, with agents and without."""

    name: str
    changes: dict[int, int]
    times: dict[int, tuple[float, float]]
    pinged: Pinged
    without: Pinged

    @property
    def cells(self) -> tuple[str, ...]:
        word, tables = (max((each[place] for each in self.times.values()), default=0.0) for place in (0, 1))
        beyond = max((tables - word for word, tables in self.times.values()), default=0.0)
        seconds = (f"{each:.1f}" for each in (word, tables, beyond))
        lost = (f"{lost_by(each.counted):,}" for each in (self.pinged, self.without))
        routers = sum(map(bool, self.changes.values()))
        return self.name, f"{routers:,}", f"{sum(self.changes.values()):,}", *seconds, *lost

    def time(self, router: int) -> str:
        if router not in self.times:
            return "-"
        word, tables = self.times[router]
        return f"{tables:.1f}/{tables - word:.1f}"

    def told(self) -> dict[str, Any]:
        """The same for programs."""
        return {
            "change": self.name,
            "routers": {
                f"r{router}": {
                    "changes": self.changes[router],
                    **dict(zip(("word", "tables"), (round(each, 3) for each in self.times.get(router, ())))),
                }
                for router in self.changes
            },
            "lost": {
                name: {"counted": lost_by(each.counted), "by": dict(sums(each.lost)), "pings": list(pings(each))}
                for name, each in (("with", self.pinged), ("without", self.without))
            },
        }


def pings(pinged: Pinged) -> Iterator[dict[str, Any]]:
    """The lost pings of a change, at most so many of one cause and place."""
    seen: dict[tuple[Any, ...], int] = {}
    for each in pinged.lost:
        kind = each.cause, each.router, each.target, each.color
        seen[kind] = seen.get(kind, 0) + 1
        if seen[kind] <= SHOWN:
            yield each._asdict() | {"at": round(each.at - pinged.began, 3)}


def times(rows: list[Row], routers: list[int]) -> Iterator[str]:
    """Each router's time, a change in a line."""
    widths = (34, *(9 for _ in routers))
    yield TIMES
    yield line_of(("change", *(f"r{router}" for router in routers)), widths)
    for row in rows:
        yield line_of((row.name, *(row.time(router) for router in routers)), widths)


def losses(rows: list[Row]) -> Iterator[str]:
    """By what pings were lost, a change in a line, with agents and then without."""
    widths = (34, *(10 for _ in CAUSES), 16, *(10 for _ in CAUSES[1:]))
    yield line_of((LOSSES, *CAUSES, f"without: {CAUSES[0]}", *CAUSES[1:]), widths)
    for row in rows:
        found = [f"{number:,}" for each in (row.pinged, row.without) for _, number in sums(each.lost)]
        yield line_of((row.name, *found), widths)


def by_agents(rows: list[Row]) -> int:
    """How many pings were lost by agents."""
    return sum(dict(sums(row.pinged.lost))[AGENTS] for row in rows)


def circled(rows: list[Row]) -> str:
    """How many packets went in circles: those of the daemons' own loops while they find new ways."""
    with_them, without_them = ([each.pinged.counted for each in rows], [each.without.counted for each in rows])
    lost, bare = (sum(map(lost_by, counted)) for counted in (with_them, without_them))
    return (
        f"agent: with agents {lost:,} pings were lost, {by_agents(rows):,} of them by an agent, and "
        f"{sum(each.circled for each in with_them):,} packets circled; "
        f"without them {bare:,} and {sum(each.circled for each in without_them):,}"
    )


def write(name: str, daemon: str, rows: list[Row]) -> None:
    """Writes the record."""
    with open(name, "w", encoding="ascii") as file:
        json.dump({"daemon": daemon, "changes": [row.told() for row in rows]}, file, indent=1)
