"""Where pings of the lab were lost, and by what: by a capture of all wires, and by what the kernels of the routers had at
the time.

A ping is lost by the failure itself, on a wire that goes down or at its end before that is seen there; by the daemons,
whose routes lead nowhere or in a circle, or that have begun anew and have none; on a color, where a second failure is met;
or by the agents: on a color for which a router has no row, in a circle on colors, or where a repair was taken away that
nothing stood for."""
from __future__ import annotations

import os
import re
import struct
import subprocess
import time
from collections import Counter, defaultdict
from datetime import datetime
from typing import Iterator, NamedTuple

from mrttools.router.kernel import POOL, PROTOCOL, TABLES
from .daemons import run_in
from .failures import Pair
from .network import Network, loopback, port
from .pings import Counted
from .running_network import LabFault

FAILURE, DAEMONS, SECOND, AGENTS, OTHER = CAUSES = ("failure", "daemons", "second", "agents", "other")
# Seconds until an end of a link sees that it is down; for which a change of a kernel may be told late; and those for which
# a repair counts that was taken away, where it was the only way and where it was not.
SEEN, TOLD, TAKEN, MOMENT = 0.15, 0.05, 30.0, 5.0
# How many hops at the end of a packet that circles are looked at, and the seconds for which failures count as late ones.
CIRCLE, LATE = 12, 10.0
# As `ip -N` has them.
MAIN, UNREACHABLE = "254", "7"
# A captured ping: the seconds and microseconds, the interface's number, whether it goes out, the code point, the time to
# live, the last bytes of both addresses, the kind, and the number. All are cut to one length.
LENGTH = 64
RECORD = struct.Struct("<II8x4x4s2xB9xxB6xB3x3xB3xBB3x4s16x")
HEAD, OUTGOING, REQUEST, REPLY = 24, 4, 8, 0
PATIENCE, WRITTEN = 10, 1.5
FILTER = "icmp[icmptype] == icmp-echo or icmp[icmptype] == icmp-echoreply"


class Hop(NamedTuple):
    """A packet on a wire: when, at which router's end, whether that router sends it or gets it, the number of its color,
    and its time to live."""

    at: float
    wire: int
    router: int
    is_sent: bool
    color: int | None
    ttl: int


class Echo(NamedTuple):
    """A ping by the last bytes of its ends and its number."""

    source: int
    target: int
    number: bytes


# The hops of the request and of the reply.
Ways = dict[Echo, tuple[list[Hop], list[Hop]]]
Ports = dict[bytes, tuple[int, int]]


def ports_of(network: Network) -> Ports:
    """The wire and the router of each interface's number in the namespace of the wires."""
    words = ["ip", "-n", network.wires, "-o", "link", "show"]
    said = subprocess.run(words, stdout=subprocess.PIPE, text=True, check=True).stdout
    found = re.findall(r"^(\d+): p(\d+)-(\d+)@", said, re.MULTILINE)
    return {struct.pack(">I", int(number)): (int(wire), int(router)) for number, wire, router in found}


def color_of(service: int) -> int | None:
    """The color that a code point says."""
    return POOL.index(service >> 2) if service >> 2 in POOL else None


def lost_ways(data: bytes, ports: Ports) -> tuple[Ways, dict[Pair, list[float]]]:
    """The hops of the pings whose answer did not come back, and when each pair's pings left their router."""
    whole = memoryview(data)[HEAD : HEAD + (len(data) - HEAD) // RECORD.size * RECORD.size]
    back: set[Echo] = set()
    left: dict[Pair, list[float]] = defaultdict(list)
    for second, part, place, direction, _, _, one, other, kind, number in RECORD.iter_unpack(whole):
        end = ports.get(place)
        if end and kind == REPLY and direction == OUTGOING and end[1] == other:
            back.add(Echo(other, one, number))
        elif end and kind == REQUEST and direction != OUTGOING and end[1] == one:
            left[one, other].append(second + part / 1e6)
    ways: Ways = {}
    for second, part, place, direction, service, ttl, one, other, kind, number in RECORD.iter_unpack(whole):
        echo = Echo(one, other, number) if kind == REQUEST else Echo(other, one, number)
        if echo not in back and place in ports:
            wire, router = ports[place]
            hop = Hop(second + part / 1e6, wire, router, direction != OUTGOING, color_of(service), ttl)
            ways.setdefault(echo, ([], []))[kind == REPLY].append(hop)
    return ways, left


# what the kernels had


class Event(NamedTuple):
    """A route that came or went."""

    at: float
    came: bool
    line: str


class Kernel:
    """The routes of a router's kernel at each time: what it had, and what it told."""

    def __init__(self, had: str, told: str) -> None:
        self.events: dict[tuple[str, str], list[Event]] = defaultdict(list)
        for line in had.splitlines():
            self.note(Event(0.0, True, line))
        for line in told.splitlines():
            found = re.match(r"\[([\dT:.-]+)\] (Deleted )?(\S.*)", line)
            if found:
                self.note(Event(datetime.fromisoformat(found[1]).timestamp(), not found[2], found[3]))

    def note(self, event: Event) -> None:
        words = event.line.split()
        if not words or not words[0][0].isdigit():
            return
        table = words[words.index("table") + 1] if "table" in words else MAIN
        self.events[MAIN if table == "main" else table, prefix_of(words)].append(event)

    def routes(self, table: str, prefix: str, at: float) -> list[str]:
        """The routes to a prefix at a time. One takes the place of another of the same metric and protocol."""
        found: dict[tuple[str, ...], str | None] = {}
        for event in self.events[table, prefix]:
            if event.at <= at:
                words = event.line.split()
                key = tuple(words[words.index(each) + 1] if each in words else "" for each in ("metric", "proto"))
                found[key] = event.line.strip() if event.came else None
        return [line for line in found.values() if line]

    def row(self, color: int, prefix: str, at: float) -> str | None:
        """The row of a color all through a moment, if there was one."""
        table = str(TABLES[color])
        found = self.routes(table, prefix, at - TOLD)
        stays = all(each.came or not at - TOLD < each.at <= at + TOLD for each in self.events[table, prefix])
        return found[0] if found and stays else None

    def taken(self, prefix: str, at: float) -> list[float]:
        """When repairs were taken away before a time at which there is none."""
        if any(is_ours(line) for line in self.routes(MAIN, prefix, at)):
            return []
        events = self.events[MAIN, prefix]
        return [each.at for each in events if is_ours(each.line) and not each.came and each.at <= at]

    def lacks(self, prefix: str, since: float, at: float) -> bool:
        """Whether the daemon has no route at a time, and has had none since an earlier one."""
        came = [each.line for each in self.events[MAIN, prefix] if each.came and since <= each.at <= at]
        return since <= at and all(map(is_ours, came + self.routes(MAIN, prefix, at)))

    def last(self, prefix: str, at: float) -> str:
        """What was told last of the daemon's route to a prefix."""
        before = [each for each in self.events[MAIN, prefix] if 0 < each.at <= at and not is_ours(each.line)]
        if not before:
            return "no change of its route was told"
        return f"{at - before[-1].at:.3f} s after {'' if before[-1].came else 'the end of '}{before[-1].line.strip()}"


def is_ours(line: str) -> bool:
    return f"proto {PROTOCOL} " in f"{line} "


def prefix_of(words: list[str]) -> str:
    """The prefix of a route's words, before which its kind may stand as a number."""
    found = words[1] if words[0] == UNREACHABLE else words[0]
    return found if "/" in found or found == "default" else f"{found}/32"


class Down(NamedTuple):
    """An end of a wire that was down, from when and until when."""

    port: str
    since: float
    until: float


class Lost(NamedTuple):
    """A lost ping."""

    at: float  # when it was seen last
    source: int
    target: int
    is_reply: bool  # whether the answer was lost
    router: int  # which had it last
    color: int | None  # that it was on
    cause: str  # by what it was lost
    why: str


class Happened(NamedTuple):
    """What was done: the ends of wires that were down, and when daemons began anew, by their routers."""

    down: list[Down]
    anew: dict[int, float]


class Judge:
    """Says by what pings were lost."""

    def __init__(self, network: Network, kernels: dict[int, Kernel], happened: Happened) -> None:
        self.network, self.kernels = network, kernels
        self.down, self.anew = happened

    def is_down(self, wire: int, router: int, at: float) -> bool:
        return any(each.port == port(wire, router) and each.since <= at <= each.until for each in self.down)

    def just_failed(self, router: int, at: float) -> bool:
        """Whether a link of a router has gone down a moment ago."""
        mine = {port(each.wire, router) for each in self.network.plan.interfaces(router)}
        return any(each.port in mine and -TOLD <= at - each.since <= SEEN for each in self.down)

    def of(self, echo: Echo, way: tuple[list[Hop], list[Hop]]) -> Lost:
        request, reply = (sorted(hops, key=lambda hop: hop.at) for hops in way)
        is_reply = bool(reply) or any(hop.router == echo.target and not hop.is_sent for hop in request)
        last = (reply or request)[-1]
        to = echo.source if is_reply else echo.target
        color = None if is_reply and not reply else last.color
        cause, why = self.cause(reply or request, loopback(to), color)
        return Lost(last.at, echo.source, echo.target, is_reply, last.router, color, cause, why)

    def cause(self, hops: list[Hop], prefix: str, color: int | None) -> tuple[str, str]:
        """By what a packet was lost with some hops, of which the last is to a router or from it."""
        last = hops[-1]
        if last.is_sent:
            return FAILURE, "on a wire"
        if last.ttl <= 1:
            return self.circled(hops, prefix)
        if self.just_failed(last.router, last.at):
            return FAILURE, "at the end of a link that has just failed"
        if color is None:
            return self.at_router(last.router, prefix, last.at)
        return self.on_color(hops, prefix, color)

    def circled(self, hops: list[Hop], prefix: str) -> tuple[str, str]:
        """By what a packet went in a circle: on a color, or by a primary of an agent where there was none of the daemon, it
        was an agent."""
        round_ = hops[-CIRCLE:]
        routers = sorted({hop.router for hop in round_})
        told = "in a circle of " + ", ".join(f"r{router}" for router in routers)
        if any(hop.color is not None for hop in round_):
            return AGENTS, f"{told} on a color"
        for router in routers:
            lines = self.kernels[router].routes(MAIN, prefix, hops[-1].at)
            usable = [line for line in lines if self.is_usable(router, line, hops[-1].at)]
            if usable and all(map(is_ours, usable)):
                # (after two failures without a table between them no table is right)
                cause = SECOND if self.failures(hops[-1].at) > 1 else AGENTS
                return cause, f"{told}, by the agent's route at r{router}"
        return DAEMONS, told

    def failures(self, at: float) -> int:
        """How many failures there are that came one after another of late."""
        return len({each.since for each in self.down if each.since <= at <= each.until and at - each.since < LATE})

    def at_router(self, router: int, prefix: str, at: float) -> tuple[str, str]:
        """By what a packet on no color was lost in a router."""
        told = self.kernels[router].last(prefix, at)
        return (AGENTS, f"its repair was taken: {told}") if self.took(router, prefix, at) else (DAEMONS, told)

    def on_color(self, hops: list[Hop], prefix: str, color: int) -> tuple[str, str]:
        """By what a packet on a color was lost in the router that it came to last."""
        last, put = hops[-1], put_on(hops)
        row = self.kernels[last.router].row(color, prefix, last.at)
        if row is not None:
            is_usable = self.is_usable(last.router, row, last.at)
            return (OTHER, f"there is {row}") if is_usable else (SECOND, f"no carrier for {row}")
        # (without an agent, which has its table from before, that router has no way)
        if put and put.router in self.anew and self.kernels[put.router].lacks(prefix, self.anew[put.router], put.at):
            return DAEMONS, f"no row of its color, by r{put.router}, whose daemon has begun anew and has no route"
        return AGENTS, "no row of its color"

    def is_usable(self, router: int, line: str, at: float) -> bool:
        """Whether a link of a route has a carrier."""
        devices = re.findall(r"\bdev (\S+)", line)
        wires = [each.wire for each in self.network.plan.interfaces(router) if each.name in devices]
        return not wires or any(not self.is_down(wire, router, at) for wire in wires)

    def took(self, router: int, prefix: str, at: float) -> bool:
        """Whether an agent has taken a repair away a moment ago, or before that one that was the only way."""
        kernel = self.kernels[router]
        for taken in kernel.taken(prefix, at):
            others = [line for line in kernel.routes(MAIN, prefix, taken) if not is_ours(line)]
            only = not any(self.is_usable(router, line, taken) for line in others)
            if at - taken < (TAKEN if only else MOMENT):
                return True
        return False

    def all(self, data: bytes, ports: Ports, counted: Counted) -> list[Lost]:
        """All pings that were lost: those that a wire had, and those that never left their router."""
        ways, left = lost_ways(data, ports)
        found = [self.of(echo, way) for echo, way in ways.items()]
        seen = Counter((each.source, each.target) for each in found)
        for pair, lost in counted.lost.items():
            moments = gaps(left[pair])
            for number in range(max(0, lost - seen[pair])):
                found.append(self.at_sender(pair, moments[number] if number < len(moments) else None))
        return sorted(found)

    def at_sender(self, pair: Pair, at: float | None) -> Lost:
        """A ping that no wire had."""
        source, target = pair
        if at is None:
            return Lost(0.0, source, target, False, source, None, OTHER, "its answer came late, or it was not seen")
        just = self.just_failed(source, at)
        cause, why = (FAILURE, "at its sender") if just else self.at_router(source, loopback(target), at)
        return Lost(at, source, target, False, source, None, cause, why)


def put_on(hops: list[Hop]) -> Hop | None:
    """The hop with which a router put a packet on the color that it has at its end."""
    first = hops[-1]
    for hop in hops[::-1]:
        if hop.color != first.color:
            break
        first = hop
    return first if first.is_sent else None


def gaps(times: list[float]) -> list[float]:
    """When pings lack in a row that comes at even times."""
    if len(times) < 3:
        return []
    steps = sorted(later - earlier for earlier, later in zip(times, times[1:]))
    usual = steps[len(steps) // 2]
    return [
        earlier + usual * number
        for earlier, later in zip(times, times[1:])
        for number in range(1, round((later - earlier) / usual))
    ]


# what watches


class Watch:
    """A capture of all wires, and what the kernels of all routers have and tell of their routes, until it ends."""

    def __init__(self, network: Network, folder: str) -> None:
        self.network, self.folder = network, folder
        os.makedirs(folder, exist_ok=True)
        words = ["tcpdump", "-Z", "root", "-B", "65536", "-s", str(LENGTH), "-y", "LINUX_SLL2", "-i", "any"]
        self.running = [run_in(network.wires, self.name("tcpdump.log"), *words, "-w", self.name("pcap"), FILTER)]
        told = ["ip", "-N", "-4", "-ts", "-o", "monitor", "route"]
        for router in network.plan.routers:
            self.running.append(run_in(network.of(router), self.name(f"r{router}.routes"), *told))
        end = time.monotonic() + PATIENCE
        while "listening" not in self.read("tcpdump.log") and time.monotonic() < end:
            time.sleep(0.05)
        self.had = {router: self.routes(router) for router in network.plan.routers}

    def name(self, last: str) -> str:
        return os.path.join(self.folder, last)

    def read(self, last: str) -> str:
        with open(self.name(last), encoding="utf-8", errors="replace") as file:
            return file.read()

    def routes(self, router: int) -> str:
        words = ["ip", "-n", self.network.of(router), "-N", "-4", "-o", "route", "show", "table", "all"]
        return subprocess.run(words, stdout=subprocess.PIPE, text=True, check=True).stdout

    def end(self, happened: Happened, counted: Counted) -> list[Lost]:
        """Ends it; by what each ping was lost, by what happened."""
        # (tcpdump writes what it has each second)
        time.sleep(WRITTEN)
        for process in self.running:
            process.terminate()
            process.wait()
        with open(self.name("pcap"), "rb") as file:
            data = file.read()
        missed = re.search(r"^([1-9]\d*) packets dropped by kernel", self.read("tcpdump.log"), re.MULTILINE)
        if missed:
            raise LabFault(f"{missed[1]} packets were not captured")
        kernels = {router: Kernel(had, self.read(f"r{router}.routes")) for router, had in self.had.items()}
        for name in os.listdir(self.folder):
            os.unlink(self.name(name))
        return Judge(self.network, kernels, happened).all(data, ports_of(self.network), counted)


def sums(lost: list[Lost]) -> Iterator[tuple[str, int]]:
    """How many were lost by each cause."""
    found = Counter(each.cause for each in lost)
    return ((cause, found[cause]) for cause in CAUSES)
