"""The kernel of this network namespace, as the agent has it: read by netlink, written by ip and nft, and what it tells by
itself."""
from __future__ import annotations

from typing import Any

from mrttools.router import owners
from mrttools.router.kernel import PROTOCOL
from . import netlink
from .batch import Linux
from .netlink import News, Watch

# Under which protocol a daemon's routes stand in the kernel.
NUMBERS = {"frr": 188, "bird": 12}


class OwnKernel(Linux):
    """This kernel, beside one daemon."""

    def __init__(self, daemon: str) -> None:
        self.number, self.watch = NUMBERS[daemon], Watch()

    def filenos(self) -> list[int]:
        return self.watch.filenos()

    def news(self) -> News:
        return self.watch.take(frozenset({PROTOCOL, self.number}))

    def routes(self, protocol: int) -> list[dict[str, Any]]:
        return netlink.routes(protocol)

    def rules(self) -> list[dict[str, Any]]:
        return netlink.rules()

    def addresses(self) -> object:
        return netlink.addresses()

    def daemon_routes(self, prefixes: frozenset[str]) -> frozenset[str]:
        """The prefixes of those wanted to which the daemon has routes in the main table."""
        routes = netlink.routes(self.number, prefixes)
        return owners.routes_in([route for route in routes if "table" not in route], "the kernel")
