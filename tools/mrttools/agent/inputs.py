"""What the agent sees: the area's LSAs, the profile, the interfaces and the daemon's routes."""
from __future__ import annotations

import argparse
import os
import stat
import time
from typing import NamedTuple

from mrttools import lsas
from mrttools.exits import system_line
from mrttools.lsas import HEADER, POINT_TO_POINT, ROUTER, TRANSIT, Key, Lsa
from mrttools.router import table
from mrttools.router.kernel import Interfaces
from mrttools.router.nexthops import LEAST_ADDRESS
from mrttools.router.owners import Daemon, owners_of
from .debounce import Debounce
from .netlink import News
from .own_kernel import NUMBERS
from .sources import SILENT, Snapshot, usable
from .surroundings import Surroundings

# Seconds between two looks at the profile, where the kernel tells of it and where it does not; those for which a route of
# the daemon counts after it has gone, as it does while the daemon finds new ways; and those for which an interface may
# lack that the daemon still tells of.
PROFILE_WATCHED, PROFILE_EVERY, ROUTE_KEPT, SOFT = 5.0, 0.3, 10.0, 2.0
# Seconds between two looks at the daemon's routes while it changes them, and how often the time of a look at the least:
# beside BIRD these may be those of the Internet. The same where no change is told: the kernel takes routes away without a
# word where their next hops go.
ROUTES_EVERY, ROUTES_SHARE = 0.2, 10
ROUTES_SELDOM, SELDOM_SHARE = 10.0, 100
# How much is kept of what there was between two tables.
MOST_PASSED = 4


class Content(NamedTuple):
    """What a table is made of but for the daemon's routes. A new instance of an LSA that says the same changes
    nothing."""

    bodies: frozenset[tuple[Key, bytes]]
    profile: bytes
    interfaces: Interfaces


class Passed(NamedTuple):
    """What there was between two tables: LSAs, what they say, and the profile."""

    lsas: list[Lsa]
    bodies: dict[Key, bytes]
    profile: bytes


class Inputs:
    """What there is, and what of it has changed."""

    def __init__(self, args: argparse.Namespace, surroundings: Surroundings, debounce: Debounce) -> None:
        self.args, self.kernel, self.source, self.debounce = args, surroundings.kernel, surroundings.source, debounce
        self.watched = surroundings.profile
        self.protocol = NUMBERS[args.daemon]
        self.interfaces = Interfaces({})
        self.snapshot: Snapshot | None = None
        self.lsas: list[Lsa] = []
        self.left: list[str] = []
        self.bodies: dict[Key, bytes] = {}
        self.profile, self.unread, self.profile_next = b"", "not read yet" if args.profile != "-" else "", 0.0
        self.stamp: tuple[int, int, int] | None = None
        # The prefixes of the area; those of them to which the daemon has routes, and when others had none any more.
        self.prefixes: frozenset[str] = frozenset()
        self.routes: frozenset[str] = frozenset()
        self.routes_told, self.routes_next, self.routes_due = False, 0.0, 0.0
        self.went: dict[str, float] = {}
        self.soft_since: float | None = None
        # What there was since the last table, and of what that was made; when something changed last.
        self.passed: list[Passed] = []
        self.last, self.changed = Passed([], {}, b""), 0.0

    def look(self, news: News, now: float) -> None:
        """Takes what has come, and notes what has changed."""
        if news.interfaces or self.snapshot is None:
            interfaces = table.interfaces_of(self.kernel.addresses(), "the kernel")
            if interfaces != self.interfaces:
                self.interfaces = interfaces
                self.debounce.note(now)
        # (routes over an interface that is set down go without a word)
        self.routes_told = self.routes_told or self.protocol in news.protocols or news.interfaces
        if (self.routes_told and now >= self.routes_next) or now >= self.routes_due:
            self.look_at_routes(now)
        snapshot = self.source.look(now, self.interfaces)
        if snapshot is not self.snapshot:
            self.take(snapshot, now)
        if (self.watched and self.watched.take()) or now >= self.profile_next:
            self.profile_next = now + (PROFILE_WATCHED if self.watched else PROFILE_EVERY)
            self.read_profile(now)
        self.forget_routes(now)

    def look_at_routes(self, now: float) -> None:
        """Notes that the daemon has routes to other prefixes. By other ways to the same ones nothing is another table, and
        a router that flaps changes these each time: it would never be waited for."""
        began, before = time.monotonic(), self.routes
        self.read_routes(now)
        if self.routes != before:
            self.debounce.note(now)
        took = time.monotonic() - began
        self.routes_told, self.routes_next = False, now + max(ROUTES_EVERY, ROUTES_SHARE * took)
        self.routes_due = now + max(ROUTES_SELDOM, SELDOM_SHARE * took)

    def take(self, snapshot: Snapshot, now: float) -> None:
        """Takes the LSAs, and says which routers tell something else now."""
        if self.snapshot is None or bool(snapshot.lacks) != bool(self.snapshot.lacks):
            self.debounce.note(now)
        self.snapshot = snapshot
        if snapshot.lacks:
            return
        good, self.left = usable(snapshot.lsas)
        bodies = {lsa.key: lsa.record[HEADER:] for lsa in good}
        changed = {key for key in bodies.keys() | self.bodies.keys() if bodies.get(key) != self.bodies.get(key)}
        if changed:
            self.pass_by(now)
            self.debounce.note(now, {key.router for key in changed})
        self.lsas, self.bodies = good, bodies

    def pass_by(self, now: float) -> None:
        """Notes what there was, if other routers may have found it quiet for as long as a table takes: what comes at once
        here comes nearly so there."""
        there = Passed(self.lsas, self.bodies, self.profile)
        is_whole = bool(self.bodies) and not self.unread and len(self.passed) <= MOST_PASSED
        if is_whole and now - self.changed >= self.args.quiet / 2 and not is_among(there, [self.last, *self.passed]):
            self.passed.append(there)
        self.changed = now

    def acted(self) -> list[Passed] | None:
        """What there was since the last table and is no more, where a table is made of what there is; none where that is too
        much to be looked at."""
        self.last = Passed(self.lsas, self.bodies, self.profile)
        passed, self.passed = self.passed, []
        return [state for state in passed if not is_among(state, [self.last])] if len(passed) <= MOST_PASSED else None

    def read_profile(self, now: float) -> None:
        """Reads the profile where its file is another one."""
        if self.args.profile == "-":
            return
        try:
            status = os.stat(self.args.profile)
            if not stat.S_ISREG(status.st_mode):
                self.unread = f"{self.args.profile}: it is no file"
                return
            stamp = status.st_ino, status.st_mtime_ns, status.st_size
            if stamp == self.stamp and not self.unread:
                return
            with open(self.args.profile, "rb") as file:
                data = file.read()
        except OSError as fault:
            self.unread = system_line(fault)
            return
        if data != self.profile or self.unread:
            self.pass_by(now)
            self.debounce.note(now)
        self.profile, self.unread, self.stamp = data, "", stamp

    # what is made of it

    def lacks(self) -> list[str]:
        """What is not there, so that there can be no table."""
        if self.snapshot is None or self.snapshot.lacks:
            return list(self.snapshot.lacks) if self.snapshot else [SILENT]
        if self.unread:
            return [self.unread]
        return [] if self.own() else [f"no router-LSA of {lsas.spelled(self.args.router)}"]

    def own(self) -> Lsa | None:
        return next((lsa for lsa in self.lsas if lsa.kind == ROUTER and lsa.number == self.args.router), None)

    def own_links(self) -> set[tuple[int, int]]:
        """The router's links to others, by far end and link data."""
        own = self.own()
        links = lsas.links_of(own.record) if own else []
        return {(link.far, link.data) for link in links if link.kind in (POINT_TO_POINT, TRANSIT)}

    def soft_lacks(self, now: float) -> bool:
        """Whether the daemon tells of an address that no interface has: it will soon tell otherwise, so that this waits,
        but no longer than a while."""
        addresses = {data for _, data in self.own_links() if data >= LEAST_ADDRESS}
        if addresses <= set(self.interfaces.names or {}):
            self.soft_since = None
            return False
        self.soft_since = now if self.soft_since is None else self.soft_since
        return now - self.soft_since < SOFT

    def content(self) -> Content:
        return Content(frozenset(self.bodies.items()), self.profile, self.interfaces)

    def daemon(self, now: float) -> Daemon:
        """The prefixes of the area to which the daemon has routes, or had until a while ago."""
        self.prefixes = frozenset(prefix.text for prefix in owners_of(self.lsas))
        self.read_routes(now)
        return Daemon(self.routes | frozenset(self.went), self.interfaces)

    def read_routes(self, now: float) -> None:
        """Reads to which prefixes the daemon has routes, and notes which have gone."""
        there = self.kernel.daemon_routes(self.prefixes)
        self.went |= dict.fromkeys(self.routes - there, now)
        self.routes = there
        self.went = {prefix: at for prefix, at in self.went.items() if prefix not in there}

    def begin(self, prefixes: frozenset[str], now: float) -> None:
        """An agent before has left repairs to some prefixes. Where the daemon has no route it may have had one till now."""
        self.prefixes = self.routes = prefixes
        self.read_routes(now)

    def gone(self, now: float) -> frozenset[str]:
        """The prefixes to which the daemon has had no route for a while, and no interface either."""
        kept = frozenset(prefix for prefix, at in self.went.items() if now - at < ROUTE_KEPT)
        return self.prefixes - self.routes - kept - frozenset(self.interfaces.prefixes)

    def next(self, now: float) -> float:
        """When to look again, whatever comes."""
        kept = min(self.went.values(), default=now + ROUTE_KEPT) + ROUTE_KEPT
        profile = self.profile_next if self.args.profile != "-" else kept
        routes = self.routes_next if self.routes_told else self.routes_due
        return min(self.source.next(now), profile, kept, routes)

    def forget_routes(self, now: float) -> None:
        """Notes that a route which the daemon has no more does not count any longer."""
        kept = {prefix: at for prefix, at in self.went.items() if now - at < ROUTE_KEPT}
        if kept != self.went:
            self.went = kept
            self.debounce.note(now)


def is_among(one: Passed, others: list[Passed]) -> bool:
    """Whether something says what another one says, whatever its instances."""
    return any((one.bodies, one.profile) == (other.bodies, other.profile) for other in others)
