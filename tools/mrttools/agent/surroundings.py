"""What the agent has to do with: the kernel, the source of LSAs, the clock, and how it waits."""
from __future__ import annotations

import time
from typing import Callable, Iterable, NamedTuple, Protocol

from mrttools.router.kernel import Interfaces
from . import batch
from .file_watch import Watched
from .netlink import News
from .settings import Settings
from .sources import Snapshot


class Router(batch.Kernel, Protocol):
    """The kernel of the router."""

    def mark(self, nft: str) -> None:
        """Puts the tables of nft in the place of those that were there."""

    def marks(self) -> str:
        """The tables of nft that there are; empty where there are none."""

    def addresses(self) -> object:
        """What `ip -j -4 address show up` says."""

    def daemon_routes(self, prefixes: frozenset[str]) -> frozenset[str]:
        """The prefixes of those wanted to which the daemon has routes in the main table."""

    def news(self) -> News:
        """What has changed since this was asked last."""

    def filenos(self) -> list[int]:
        """What has something to read when there are news."""


class Source(Protocol):
    """What tells of LSAs."""

    def name(self) -> str:
        """What it is."""

    def filenos(self) -> list[int]:
        """What has something to read when there may be news."""

    def look(self, now: float, interfaces: Interfaces) -> Snapshot:
        """What there is now: the same object as before where nothing has changed."""

    def next(self, now: float) -> float:
        """When to look again, whatever comes."""


class Surroundings(NamedTuple):
    """A signal ends the agent in `wait` and nowhere else."""

    kernel: Router
    source: Source
    settings: Settings
    wait: Callable[[Iterable[int], float], None]
    clock: Callable[[], float] = time.monotonic
    profile: Watched | None = None
