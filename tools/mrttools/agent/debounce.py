"""When a change is acted on: after a short quiet, or at the latest after a while however often the area changes. A router
that changes again and again waits longer, alone."""
from __future__ import annotations

from collections import deque
from typing import Iterable

# Seconds of quiet, and those after the first change at the latest.
QUIET, LATEST = 0.2, 2.0
# The same for a router for which tables were made so often within so many seconds.
SLOW_QUIET, SLOW_LATEST = 5.0, 30.0
OFTEN, WITHIN = 10, 60.0


class Pending:
    """Changes that have not been acted on: when the first and the last one came."""

    def __init__(self, quiet: float, latest: float) -> None:
        self.quiet, self.latest = quiet, latest
        self.first: float | None = None
        self.last = 0.0

    def note(self, now: float) -> None:
        self.first = now if self.first is None else self.first
        self.last = now

    def due(self) -> float | None:
        """When they are acted on."""
        return None if self.first is None else min(self.last + self.quiet, self.first + self.latest)


class Debounce:
    """What has changed since tables were made last, and how often each router was the cause of late."""

    def __init__(self, quiet: float = QUIET) -> None:
        self.quick = Pending(quiet, max(quiet, LATEST))
        self.slow = Pending(max(quiet, SLOW_QUIET), max(quiet, SLOW_LATEST))
        # Of what is slow, when it would be acted on if it were not.
        self.early = Pending(quiet, max(quiet, LATEST))
        self.changed: set[int] = set()
        self.times: dict[int, deque[float]] = {}

    def note(self, now: float, routers: Iterable[int] = ()) -> None:
        """Something has changed: what some routers tell, or else what is at hand, which never waits longer."""
        found = set(routers)
        dampened = {router for router in found if self.is_dampened(router, now)}
        for router in dampened:
            self.times[router].append(now)
        self.changed |= found - dampened
        for pending in (self.slow, self.early) if found and found == dampened else (self.quick,):
            pending.note(now)

    def is_dampened(self, router: int, now: float) -> bool:
        times = self.times.get(router)
        return times is not None and len(times) == OFTEN and now - times[0] < WITHIN

    def dampened(self, now: float) -> list[int]:
        return sorted(router for router in self.times if self.is_dampened(router, now))

    def due(self) -> float | None:
        """When the next tables are made."""
        return min((due for pending in (self.quick, self.slow) if (due := pending.due()) is not None), default=None)

    def acted(self, now: float, present: Iterable[int] = ()) -> tuple[float, float]:
        """Tables are made of all that there is; when the first and the last of it came. Routers that are not there are
        forgotten."""
        came = [(pending.first, pending.last) for pending in (self.quick, self.slow) if pending.first is not None]
        self.quick.first = self.slow.first = self.early.first = None
        for router in self.changed:
            self.times.setdefault(router, deque(maxlen=OFTEN)).append(now)
        there = set(present)
        self.changed, self.times = set(), {router: times for router, times in self.times.items() if router in there}
        return min((first for first, _ in came), default=now), max((last for _, last in came), default=now)
