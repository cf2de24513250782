"""A router of the lab that tells what is made to harm, and what the agents and the kernels of the others make of it."""
from __future__ import annotations

import os
import struct
import subprocess
import time
from functools import partial
from typing import Callable, NamedTuple

from mrttools import lsas, updates
from mrttools.lsas import HEADER, NETWORK, POINT_TO_POINT, ROUTER, TRANSIT, Link, Lsa
from mrttools.router.kernel import PROTOCOL
from mrttools.router.owners import DAEMONS
from . import outside
from .agents import Agents, Inside
from .daemons import Bird
from .network import Plan
from .running_network import LabFault

# The router, and the router ID that it has, for which it has no stub network.
ROUTER_NUMBER, IDENTIFIER = 8, "8.8.8.8"
# Networks that it tells of: four that never are destinations, everything, and the loopback of another router.
SHARED = "10.255.0.3/32"
NETWORKS = "0.0.0.0/0", "127.0.0.0/8", "169.254.0.0/16", "224.0.0.0/4", "255.255.255.255/32", SHARED
# And one of its own, as any router has.
GOOD = "203.0.113.0/24"
# The loopback of a router, in the place of which it tells of a network of one address.
TAKEN = "10.255.0.9"
# What it says of its end of the link: an address that is on another network, and none.
OFF, UNNUMBERED = "10.99.99.8", "0.0.0.8"
# Its neighbor, how long is waited for what is to come, and the seconds in which FRR finds new ways at the latest.
NEIGHBOR, PATIENCE, SETTLED = 5, 60, 6
OURS = str(PROTOCOL)
# Sends a payload as an IP datagram of OSPF.
SEND = (
    "import socket, sys; s = socket.socket(socket.AF_INET, socket.SOCK_RAW, 89); "
    "s.setsockopt(0, socket.IP_TTL, 1); s.bind((sys.argv[1], 0)); s.sendto(bytes.fromhex(sys.argv[3]), (sys.argv[2], 0))"
)


class Hostile(Bird):
    """The daemon of that router, which is BIRD whatever the others have."""

    def configuration(self, plan: Plan, router: int) -> str:
        lines = super().configuration(plan, router).splitlines()
        lines[0] = f"router id {IDENTIFIER};"
        stubs = [f"        stubnet {network};" for network in (*NETWORKS, GOOD)]
        place = next(place for place, line in enumerate(lines) if "stubnet" in line)
        # (its kernel gets none of it: what counts are the others)
        kept = [line for line in lines if "stubnet" not in line and "protocol kernel" not in line]
        return "\n".join(kept[: place - 1] + stubs + kept[place - 1 :] + [""])


class Told(NamedTuple):
    """What was told, in how many routers the daemon has a route by it, in how many the agent has one, and whether the
    agents say that they left it out."""

    what: str
    daemons: int
    agents: int
    left_out: int


def routes_to(agents: Agents, router: int, protocol: str) -> set[str]:
    """The prefixes of a protocol's routes in the kernel of a router."""
    words = ["ip", "-n", agents.network.of(router), "-4", "route", "show", "table", "all", "proto", protocol]
    said = subprocess.run(words, stdout=subprocess.PIPE, text=True, check=True).stdout
    found = (
        line.removeprefix("unreachable ").split()[0] for line in said.splitlines() if not line.startswith("unreach")
    )
    return {"0.0.0.0/0" if each == "default" else each if "/" in each else f"{each}/32" for each in found}


def left_by(agents: Agents, router: int) -> str:
    """What an agent says that it left out, in one text."""
    return " ".join(f"{each['what']} {each['why']};" for each in agents.facts(router)["left_out"])


def told(agents: Agents, what: str, daemon: str) -> Told:
    here = list(agents.running)
    return Told(
        what,
        sum(what in routes_to(agents, router, daemon) for router in here),
        sum(what in routes_to(agents, router, OURS) for router in here),
        sum(f"{what} " in left_by(agents, router) for router in here),
    )


# what is sent


def record_of(agents: Agents) -> Lsa | None:
    """The router's own LSA, if the agent of its neighbor uses it."""
    with open(agents.name(f"r{NEIGHBOR}/area.lsas"), "rb") as file:
        records = list(lsas.split(file.read()))
    return next((lsa for lsa in records if lsa.kind == ROUTER and lsas.spelled(lsa.router) == IDENTIFIER), None)


def with_links(lsa: Lsa, links: list[Link]) -> bytes:
    """The same LSA, newer, with other links."""
    body = b"".join(struct.pack(">IIBBH", each.far, each.data, each.kind, 0, each.metric) for each in links)
    return lsas.sealed(lsa, lsa.sequence + 1, lsa.record[20:22] + struct.pack(">H", len(links)) + body)


def changed(lsa: Lsa, **fields: int) -> bytes:
    """The same LSA, newer, with something else at its links to routers."""
    links = lsas.links_of(lsa.record)
    return with_links(lsa, [each._replace(**fields) if each.kind == POINT_TO_POINT else each for each in links])


def with_network(lsa: Lsa) -> bytes:
    """The same LSA, newer, with a link to the network of one address."""
    taken = lsas.address(TAKEN)
    others = [each for each in lsas.links_of(lsa.record) if each.kind != TRANSIT]
    return with_links(lsa, [*others, Link(taken, taken, TRANSIT, 1)])


def network_lsa() -> bytes:
    """The network-LSA of it, with the router alone."""
    head = struct.pack(">HBBIIiHH", 1, 2, NETWORK, lsas.address(TAKEN), lsas.address(IDENTIFIER), 0, 0, HEADER)
    return lsas.sealed(lsas.lsa_of(head), 1, struct.pack(">II", 0xFFFFFFFF, lsas.address(IDENTIFIER)))


def send(agents: Agents, *records: bytes) -> None:
    """Sends LSAs to the neighbor, as the router would."""
    words = ["ip", "netns", "exec", agents.network.of(ROUTER_NUMBER), "/usr/bin/python3", "-c", SEND]
    subprocess.run([*words, "10.0.58.8", "10.0.58.5", updates.made(lsas.address(IDENTIFIER), records).hex()], check=True)


def until(what: str, there: Callable[[], bool]) -> None:
    end = time.monotonic() + PATIENCE
    while not there():
        if time.monotonic() > end:
            raise LabFault(f"{what}: not within {PATIENCE} seconds")
        time.sleep(0.2)


def has_left(agents: Agents, words: str) -> Callable[[], bool]:
    return lambda: all(words in left_by(agents, router) for router in agents.running)


def has_told(agents: Agents, made: Callable[[Lsa], bytes], *more: bytes) -> bool:
    """Whether the agent of the neighbor has the router's LSA as it was made another one. It is sent as long as that has one
    without it: the router may have made a newer one."""
    found = record_of(agents)
    if found is None or made(found)[HEADER:] == found.record[HEADER:]:
        return True
    send(agents, made(found), *more)
    time.sleep(1)
    return False


def is_on_primary(agents: Agents, router: int, prefix: str) -> bool | None:
    """Whether a repair goes over the one next hop that the daemon has; none where there is no repair."""
    said = Inside(agents.network.of(router)).told("route", "show", prefix)
    hops = {
        (hop.get("gateway"), hop["dev"])
        for each in said
        if str(each["protocol"]) in DAEMONS
        for hop in each.get("nexthops", [each])
    }
    repairs = {(each.get("gateway"), each["dev"]) for each in said if "flow" in each}
    return len(hops) == 1 and hops <= repairs if repairs else None


def agrees(agents: Agents, daemon: str, router: int) -> bool:
    """Whether an agent has the network where its daemon has it."""
    return (GOOD in routes_to(agents, router, daemon)) == (GOOD in routes_to(agents, router, OURS))


def begin(agents: Agents) -> None:
    """Starts the agents anew, with all prefixes, and puts the other daemon in the place of the router's."""
    agents.stop()
    agents.running.clear()
    agents.options = ["--prefixes"]
    for router in agents.network.plan.routers:
        if router != ROUTER_NUMBER:
            agents.start(router)
    agents.wait()
    agents.lab.kill(ROUTER_NUMBER)
    folder = os.path.join(agents.lab.folder, "hostile")
    os.makedirs(folder, mode=0o755, exist_ok=True)
    agents.lab.running[ROUTER_NUMBER] = Hostile().start(agents.network, ROUTER_NUMBER, folder)


def repairs_of(agents: Agents) -> list[int]:
    """How many each agent has; that one has ended is a fault."""
    agents.look_after()
    return [agents.facts(router)["repairs"] for router in agents.running]


def networks(agents: Agents, say: Callable[[str], None]) -> bool:
    """Networks that never are destinations, and a router ID; whether no agent installed one."""
    daemon = agents.lab.daemon.name.lower().replace("frr", "ospf")
    until("networks that never are destinations", has_left(agents, NETWORKS[1]))
    until("a network of its own", lambda: GOOD in routes_to(agents, NEIGHBOR, OURS))
    # (zebra of FRR 8.4.4 may have lost the group of next hops that a new route would have, and the kernel has none then)
    time.sleep(SETTLED)
    until("a network of its own, where its daemon has it", lambda: all(map(partial(agrees, agents, daemon), agents.running)))
    rows = [told(agents, what, daemon) for what in (*NETWORKS, f"{IDENTIFIER}/32", GOOD)]
    for row in rows:
        say(
            f"hostile: {row.what}: {row.daemons} daemons have a route, {row.agents} agents, {row.left_out} left it out"
        )
    return all(bool(row.agents) == (row.what in (SHARED, GOOD)) for row in rows)


def network_in_place(agents: Agents, say: Callable[[str], None]) -> bool:
    """A network-LSA with the loopback of another router; whether no repair stands on the primary's own link."""
    until("a network of one address", partial(has_told, agents, with_network, network_lsa()))
    time.sleep(5)
    found = [is_on_primary(agents, router, f"{TAKEN}/32") for router in agents.running]
    have, wrong = len(found) - found.count(None), found.count(True)
    say(f"hostile: a network-LSA for {TAKEN}/32: {have} agents have a repair, {wrong} of them on the primary's link")
    return not wrong and all(repairs_of(agents))


def neighbors(agents: Agents, say: Callable[[str], None]) -> bool:
    """A neighbor's address that is on another network, and none; whether its neighbor's agent leaves out what hangs on it."""
    agreed = True
    for data in (OFF, UNNUMBERED):
        until(f"a neighbor at {data}", partial(has_told, agents, partial(changed, data=lsas.address(data))))
        why = next((each["why"] for each in agents.facts(NEIGHBOR)["left_out"] if each["what"] == GOOD), "NOT LEFT OUT")
        say(f"hostile: {IDENTIFIER} tells of {data} as its end of the link: r{NEIGHBOR} leaves out {GOOD}: {why}")
        agreed = GOOD not in routes_to(agents, NEIGHBOR, OURS) and all(repairs_of(agents)) and agreed
    return agreed


def zero(agents: Agents, say: Callable[[str], None]) -> bool:
    """A metric of 0, with which mrt takes no database; whether all agents leave out that LSA alone."""
    until("a link with the metric 0", partial(has_told, agents, partial(changed, metric=0)))
    until("an LSA that is left out", has_left(agents, f"router-LSA of {IDENTIFIER} "))
    repairs = repairs_of(agents)
    say(
        f"hostile: a link of {IDENTIFIER} with the metric 0: {len(repairs)} agents left out its LSA, with {sum(repairs)} repairs"
    )
    return all(repairs)


def run(agents: Agents, say: Callable[[str], None]) -> bool:
    """Has the router tell all of it, and then a stranger; whether no agent installed any of it, and all have repairs still."""
    begin(agents)
    return all([work(agents, say) for work in (networks, network_in_place, neighbors, zero, outside.run)])
