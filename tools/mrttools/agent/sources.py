"""Where the agent has the area's LSAs from: the daemon's own word, or what is heard on the router's interfaces and the
daemon lists."""
from __future__ import annotations

import select
import socket
from typing import Callable, NamedTuple

from mrttools import lsas
from mrttools.lsas import Lsa
from mrttools.router.kernel import Interfaces
from . import exposure, ospfapi, sniffer
from .daemon_list import Client
from .ospfapi import Api, ApiFault
from .sniffer import Database, HeardLsas, Neighbor

SILENT = "the daemon does not answer"
# Seconds between two questions for the daemon's list while packets come, and while none do.
SOON, LATER = 0.25, 2.0
# Seconds until the daemon's own word is asked for again after it failed, was not to be had, or was not what the daemon
# lists; those between two looks at that; and those for which a look may find a change on its way.
AGAIN, REFUSED, DISTRUSTED, COMPARED, ON_ITS_WAY = 1.0, 10.0, 600.0, 30.0, 2.0


class Snapshot(NamedTuple):
    """The LSAs of the area that are there now, and what lacks of them."""

    lsas: list[Lsa]
    lacks: tuple[str, ...] = ()

    @property
    def text(self) -> tuple[list[bytes], tuple[str, ...]]:
        """All that can change, but for the ages."""
        return [lsa.text for lsa in self.lsas], self.lacks


class SniffedSource:
    """The packets on the interfaces, held to what the daemon lists. As long as it does not answer they are left where
    they are."""

    def __init__(self, client: Client, source: socket.socket, heard: HeardLsas) -> None:
        self.client, self.source, self.heard = client, source, heard
        self.snapshot = Snapshot([], (SILENT,))
        self.asked = 0.0
        self.waiting = self.answers = False
        self.neighbors: frozenset[Neighbor] = frozenset()

    def name(self) -> str:
        return "packets that are heard, by the daemon's list"

    def filenos(self) -> list[int]:
        return [] if self.waiting else [self.source.fileno()]

    def look(self, now: float, interfaces: Interfaces) -> Snapshot:
        """Asks for the daemon's list soon after a packet. The list comes first, so that what is in it was heard."""
        self.waiting = self.waiting or self.has_more()
        if now >= self.next(now):
            self.asked, look = now, self.client.look()
            self.answers = look is not None
            snapshot = Snapshot([], (SILENT,))
            if look is not None:
                # (what waits may have come from a neighbor that has gone since)
                both, self.neighbors = look._replace(neighbors=look.neighbors | self.neighbors), look.neighbors
                heard, lacks = self.heard.take(sniffer.packets(self.source), both, interfaces.names or {})
                snapshot = Snapshot(heard, tuple(lacks))
                self.waiting = self.has_more()
            if snapshot.text != self.snapshot.text:
                self.snapshot = snapshot
        return self.snapshot

    def has_more(self) -> bool:
        return bool(select.select([self.source], [], [], 0)[0])

    def next(self, now: float) -> float:
        return self.asked + (SOON if self.waiting and self.answers else AGAIN if self.snapshot.lacks else LATER)


class ApiSource:
    """FRR's own word on its database, by its OSPF API; as long as that is not there, what is heard."""

    def __init__(
        self, area: int, sniff: Callable[[list[Lsa]], SniffedSource], open_api: bool, tell: Callable[[str], None]
    ) -> None:
        self.area, self.sniff, self.open_api, self.tell = area, sniff, open_api, tell
        self.sniffed = sniff([])
        self.api: Api | None = None
        self.snapshot = self.sniffed.snapshot
        self.again = self.compared = 0.0
        self.differs: Database = {}
        self.last = ""

    def name(self) -> str:
        return "FRR's OSPF API" if self.is_whole() else self.sniffed.name()

    def is_whole(self) -> bool:
        return self.api is not None and self.api.whole

    def filenos(self) -> list[int]:
        word = [] if self.api is None else [self.api.fileno()]
        return word if self.is_whole() else word + self.sniffed.filenos()

    def look(self, now: float, interfaces: Interfaces) -> Snapshot:
        if not self.is_whole():
            self.snapshot = self.sniffed.look(now, interfaces)
            # (FRR 8.4.4 ends by a signal where it is asked before it has an area)
            if self.api is None and self.sniffed.answers and now >= self.again:
                self.connect(now)
        if self.api is not None:
            try:
                if self.api.read() and self.api.whole:
                    self.snapshot = Snapshot(list(self.api.found.values()))
                if self.api.whole and now >= self.compared:
                    self.compare(self.api, now)
            except ApiFault as fault:
                self.lose(str(fault), now + (AGAIN if self.is_whole() else REFUSED))
        return self.snapshot

    def connect(self, now: float) -> None:
        """Asks for the daemon's word, where none but this machine can speak to it, or it is told that this may be so."""
        self.again, self.compared, self.differs = now + AGAIN, now + ON_ITS_WAY, {}
        exposed = None if self.open_api else exposure.open_to_others(ospfapi.PORT)
        if exposed:
            self.lose(f"{exposed}; it is not used", now + DISTRUSTED)
            return
        try:
            self.api = Api(self.area)
        except ApiFault as fault:
            self.lose(str(fault), now + REFUSED)

    def lose(self, why: str, again: float) -> None:
        """Goes back to what is heard, with what there was. The same reason is told once."""
        if self.api is not None:
            self.api.close()
        whole, self.api, self.again = self.is_whole(), None, again
        if why != self.last:
            self.tell(f"FRR's OSPF API: {why}")
        self.last = why
        if whole:
            self.last = ""
            self.sniffed = self.sniff(self.snapshot.lsas)

    def compare(self, api: Api, now: float) -> None:
        """Holds the word to the daemon's list, as FRR 8.4.4 sends no LSA of more than 1,488 bytes, and loses others with
        it. What differs twice in the same way is no change on its way."""
        listed = self.sniffed.client.database()
        if listed is None:
            self.compared = now + ON_ITS_WAY
            return
        differs = dict(listed.items() ^ api.instances.items())
        self.compared = now + (ON_ITS_WAY if differs else COMPARED)
        if differs and differs == self.differs:
            self.lose(
                f"it tells other LSAs than the daemon lists, as {lsas.key_text(min(differs))}", now + DISTRUSTED
            )
        self.differs = differs

    def next(self, now: float) -> float:
        if self.api is None:
            return min(self.sniffed.next(now), self.again if self.sniffed.answers else self.sniffed.next(now))
        return min(self.api.due, self.compared if self.api.whole else self.sniffed.next(now))


def usable(listed: list[Lsa]) -> tuple[list[Lsa], list[str]]:
    """The LSAs that mrt takes, and what is told of the others: one record of one router is not to cost all the repairs.
    A router that is left out has none, and no color goes over it."""
    good, left = [], []
    for lsa in listed:
        why = lsas.damage(lsa) or zero_metric(lsa)
        if why:
            left.append(f"{lsas.key_text(lsa.key)}: {why}")
        else:
            good.append(lsa)
    return good, left


def zero_metric(lsa: Lsa) -> str | None:
    """What mrt takes no LSA with: shortest paths have to cost something."""
    if lsa.kind == lsas.ROUTER:
        for link in lsas.links_of(lsa.record):
            if link.kind in (lsas.POINT_TO_POINT, lsas.TRANSIT) and link.metric == 0:
                return f"a link to {lsas.spelled(link.far)} with the metric 0"
    return None
