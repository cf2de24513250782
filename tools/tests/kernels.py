"""A kernel that stands in for a router's, and the network that the agent's tests have."""
from __future__ import annotations

from typing import Any

from mrttools.agent import batch
from mrttools.agent.batch import Refusal, State
from mrttools.agent.netlink import News
from mrttools.lab.network import Plan, link, router_id
from mrttools.router import kernel

# A square with both diagonals.
SQUARE = [
    (1, 2, 10, "10.0.12"),
    (2, 3, 10, "10.0.23"),
    (3, 4, 10, "10.0.34"),
    (1, 4, 10, "10.0.14"),
    (1, 3, 15, "10.0.13"),
    (2, 4, 15, "10.0.24"),
]
PLAN = Plan("square", [1, 2, 3, 4], [link(*ends) for ends in SQUARE], joiner=4)


class ModelKernel:
    """A kernel that takes a batch line by line, and refuses one line, or all after it."""

    def __init__(self, state: State) -> None:
        self.lines = {batch.place(line): line for line in state}
        self.left: int | None = None
        self.mends, self.batches = True, 0
        self.nft, self.marked = "", 0
        # A next hop that it refuses, what it tells, and what the daemon has put there.
        self.bad = "none"
        self.told = News()
        self.daemon = frozenset(f"{router_id(router)}/32" for router in PLAN.routers[1:])

    def state(self) -> State:
        return frozenset(self.lines.values())

    def batch(self, lines: list[str]) -> None:
        self.batches += bool(lines)
        for number, line in enumerate(lines, 1):
            if self.left == 0 or (self.bad in line and " replace " in line):
                self.left = None if self.mends else 0
                raise Refusal(f"ip: refused Command failed -:{number}" if self.bad in line else "ip: refused")
            self.left = self.left and self.left - 1
            kind, verb, rest = line.split(" ", 2)
            place = batch.place(f"{kind} {rest}")
            if verb == "del":
                del self.lines[place]
            else:
                self.lines[place] = f"{kind} {rest}"

    def mark(self, nft: str) -> None:
        # (what does not begin by taking away comes beside what there is)
        before = "" if nft.startswith(kernel.NO_MARKING) else self.nft
        self.nft, self.marked = before + nft.removeprefix(kernel.NO_MARKING), self.marked + 1

    def marks(self) -> str:
        return self.nft

    def addresses(self) -> list[dict[str, Any]]:
        """Those of router 1."""
        return [
            {"ifname": each.name, "addr_info": [{"local": each.address, "prefixlen": 24}]}
            for each in PLAN.interfaces(1)
        ]

    def daemon_routes(self, wanted: frozenset[str]) -> frozenset[str]:
        return self.daemon & wanted

    def news(self) -> News:
        told, self.told = self.told, News()
        return told

    def filenos(self) -> list[int]:
        return []
