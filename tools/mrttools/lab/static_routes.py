"""The lab's routers where FRR has the primaries and the rows of colors as static routes, by `tools/fib --format frr`, and
the kernel beside it what FRR cannot hold."""
from __future__ import annotations

import time
from typing import Iterable

from mrttools.program import Program
from .failures import Failure
from .forwarding import Batch, Installed
from .network import Network
from .running_network import PATIENCE, Lab, LabFault

# The number under which zebra has static routes in the kernel.
PROTOCOL = "196"
# How many pings of a pair may be lost until FRR has taken routes away: those of a tenth of a second.
UNTIL_WORD = 10


class Typed(Batch):
    """Lines of configuration for staticd, by a shell of FRR that waits for them."""

    def __init__(self, place: str, lines: list[str]) -> None:
        super().__init__(place, ["configure terminal", *lines])

    def words(self, folder: str) -> list[str]:
        return ["vtysh", "--vty_socket", folder, "-d", "staticd"]


class Static(Installed):
    """What the routers have in FRR and in their kernels."""

    def __init__(self, network: Network, mrt: Program, folder: str, options: list[str], lab: Lab) -> None:
        super().__init__(network, mrt, folder, options)
        self.lab = lab
        self.configurations: dict[int, str] = {}

    def make(self, *options: str) -> None:
        super().make("--format", "beside", *options)
        for router in self.routers:
            self.configurations[router] = self.printed(router, f"r{router}.conf", "--format", "frr", *options)

    def install(self) -> None:
        for router, text in self.configurations.items():
            self.lab.hold(router, text)
        self.rest()
        super().install()

    def remove(self) -> None:
        self.lab.stop()
        super().remove()

    def lacks(self) -> bool:
        """Whether a router has not all of its static routes in the kernel."""
        return any(
            len(self.inside(router, "ip", "route", "show", "table", "all", "proto", PROTOCOL).splitlines())
            < text.count("ip route ")
            for router, text in self.configurations.items()
        )

    def in_flight(self, failure: Failure) -> int:
        return UNTIL_WORD if failure.gone else super().in_flight(failure)

    def rest(self) -> None:
        end = time.monotonic() + PATIENCE
        while self.lacks():
            if time.monotonic() > end:
                raise LabFault(f"FRR did not put its static routes into the kernel in {PATIENCE} seconds")
            time.sleep(0.1)
        super().rest()

    def primaries_by(self, gone: Iterable[str]) -> dict[int, list[str]]:
        wanted = [f" {address} " for address in gone]
        return {
            router: [
                line
                for line in text.splitlines()
                if " table " not in line and any(word in f"{line} " for word in wanted)
            ]
            for router, text in self.configurations.items()
        }

    def ready(self, verb: str, routes: dict[int, list[str]]) -> list[Batch]:
        no = "no " if verb == "del" else ""
        return [
            Typed(self.lab.running[router].folder, [no + line for line in lines])
            for router, lines in routes.items()
            if lines
        ]
