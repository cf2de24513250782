"""Networks for the lab: routers in network namespaces, joined by virtual links and LANs.

    r1 --- r2 --- r3 --+-- r7 --- r9 --- r1
    |      |           |
    r6 --- r5 --- r4 --+            + is the LAN
           |
           r8

This is the lab's own: a ring goes r1, r2, r3, the LAN, r4, r5, r6; r2 and r5 are joined by a chord; r8 is a stub; r9
joins when the others have settled. `plans.py` has others.
"""
from __future__ import annotations

import os
import signal
import subprocess
import time
from itertools import count
from typing import Iterable, NamedTuple

LAN = 0
# What stands for the routers that have an address in common.
SHARED = 254


class Interface(NamedTuple):
    """A router's end of a link, or its place on a LAN, by the number of the link or LAN in its plan. A LAN's far end
    is 0."""

    name: str
    address: str
    prefix: str
    metric: int
    far: int
    wire: int = 0
    designated: bool = False


class Wire(NamedTuple):
    """A link of two routers or a LAN, with the first three numbers of its addresses and the metric at each router. On
    a LAN the designated router is given; others may not become one, so that it has the same name in each run."""

    net: str
    metrics: dict[int, int]
    designated: int = 0

    @property
    def is_lan(self) -> bool:
        return self.designated != 0

    @property
    def prefix(self) -> str:
        return f"{self.net}.0/24"


class Plan(NamedTuple):
    """A network to build: its name, its routers, links and LANs, which router joins when the others have settled, which
    ones are in maintenance, and which ones have an address in common."""

    name: str
    routers: list[int]
    wires: list[Wire]
    joiner: int
    maintenance: tuple[int, ...] = ()
    shared: tuple[int, ...] = ()

    def interfaces(self, router: int) -> list[Interface]:
        """The interfaces of a router, but for its loopback."""
        found: list[Interface] = []
        for number, wire in enumerate(self.wires):
            if router in wire.metrics:
                far = LAN if wire.is_lan else next(each for each in wire.metrics if each != router)
                name = "to-lan" if wire.is_lan else f"to-r{far}"
                # Of parallel links, and of two LANs, the later ones have a letter.
                same = sum(each.name.split(".")[0] == name for each in found)
                name += f".{'abcdefgh'[same]}" if same else ""
                place, here = f"{wire.net}.{router}", wire.metrics[router]
                found.append(Interface(name, place, wire.prefix, here, far, number, router == wire.designated))
        return found

    def loopbacks(self, router: int) -> list[str]:
        """The prefixes on a router's loopback."""
        return [loopback(each) for each in (router, SHARED) if each == router or router in self.shared]


def link(one: int, other: int, metric: int, net: str) -> Wire:
    return Wire(net, {one: metric, other: metric})


LINKS = {(1, 2): 10, (2, 3): 10, (4, 5): 10, (5, 6): 10, (1, 6): 10, (2, 5): 10, (5, 8): 10, (1, 9): 10, (7, 9): 10}
PLAN = Plan(
    "lab",
    list(range(1, 10)),
    [link(one, other, metric, f"10.0.{one}{other}") for (one, other), metric in LINKS.items()]
    + [Wire("198.51.100", {3: 10, 4: 10, 7: 5}, 7)],
    joiner=9,
)
ROUTERS, JOINER = PLAN.routers, PLAN.joiner
LAN_PREFIX = "198.51.100.0/24"


def router_id(router: int) -> str:
    return f"10.255.0.{router}"


def loopback(router: int) -> str:
    """The prefix that stands for a router in the daemons' routes."""
    return f"{router_id(router)}/32"


def interfaces(router: int) -> list[Interface]:
    """The interfaces of a router of the lab's own network."""
    return PLAN.interfaces(router)


def owner(address: str) -> int:
    """The router that has an interface's address: its last number, by which all addresses here are made."""
    return int(address.rsplit(".", 1)[1])


def ip(*words: str) -> None:
    subprocess.run(["ip", *words], check=True)


def programs_in(space: str) -> list[int]:
    """The processes in a namespace; none where there is no such namespace."""
    done = subprocess.run(
        ["ip", "netns", "pids", space], stdout=subprocess.PIPE, stderr=subprocess.DEVNULL, check=False
    )
    return [int(word) for word in done.stdout.split()]


def end_programs(space: str) -> None:
    """Asks what runs in a namespace to end, and ends by force what has not after two seconds."""
    for number in [signal.SIGTERM] * 20 + [signal.SIGKILL]:
        running = programs_in(space)
        if not running:
            return
        for process in running:
            os.kill(process, number)
        time.sleep(0.1)


class Network:
    """The namespaces of one lab, which are taken away at the end whatever happened. Each link is a bridge in a
    namespace of its own with a wire to each router, so that both routers lose the carrier when their wires are taken
    down."""

    def __init__(self, plan: Plan = PLAN) -> None:
        self.plan = plan
        self.made: list[str] = []

    def space(self, name: str) -> str:
        return f"mrt-lab-{os.getpid()}-{name}"

    def of(self, router: int) -> str:
        return self.space(f"r{router}")

    @property
    def wires(self) -> str:
        return self.space("wires")

    def __enter__(self) -> Network:
        try:
            self.make()
        except BaseException:
            self.__exit__()
            raise
        return self

    def __exit__(self, *_: object) -> None:
        for space in reversed(self.made):
            end_programs(space)
            subprocess.run(["ip", "netns", "del", space], stderr=subprocess.DEVNULL, check=False)

    def make(self) -> None:
        for space in [self.of(router) for router in self.plan.routers] + [self.wires]:
            # Before it is there, so that no signal comes in between.
            self.made.append(space)
            ip("netns", "add", space)
        # The kernel tells the loss of a carrier at once only where both ends of a wire have numbers of their own.
        numbers = count(1001)
        for number in range(len(self.plan.wires)):
            ip("-n", self.wires, "link", "add", f"b{number}", "type", "bridge", "mcast_snooping", "0")
            ip("-n", self.wires, "link", "set", f"b{number}", "up")
        for router in self.plan.routers:
            for interface in self.plan.interfaces(router):
                self.make_wire(router, interface, next(numbers), next(numbers))
            self.set_up(router)

    def make_wire(self, router: int, interface: Interface, one: int, other: int) -> None:
        here, there = self.of(router), port(interface.wire, router)
        own = ["link", "add", interface.name, "index", str(one), "netns", here, "type", "veth"]
        ip(*own, "peer", "name", there, "index", str(other), "netns", self.wires)
        ip("-n", self.wires, "link", "set", there, "master", f"b{interface.wire}", "up")

    def set_up(self, router: int) -> None:
        space = self.of(router)
        ip("-n", space, "link", "set", "lo", "up")
        for prefix in self.plan.loopbacks(router):
            ip("-n", space, "addr", "add", prefix, "dev", "lo")
        for interface in self.plan.interfaces(router):
            ip("-n", space, "addr", "add", f"{interface.address}/24", "dev", interface.name)
            ip("-n", space, "link", "set", interface.name, "up")

    def group(self, ports: Iterable[str], number: int) -> None:
        """Puts wires into a group, so that one command takes them down at once."""
        for name in ports:
            ip("-n", self.wires, "link", "set", name, "group", str(number))


def port(wire: int, router: int) -> str:
    """The far end of a router's wire."""
    return f"p{wire}-{router}"
