"""The failures of a network in the lab, and what `mrt` says of a packet from each router to each other one in each."""
from __future__ import annotations

import tempfile
from itertools import permutations
from typing import Iterator, NamedTuple

from mrttools.program import Program
from .network import SHARED, Plan, port, router_id

# The failing wires' group, and that of all others.
FAILING, STANDING = 99, 0

Pair = tuple[int, int]


class Failure(NamedTuple):
    """What fails: its name, its name for `mrt`, the wires that go down, and the router itself, if it is one. `gone` are
    the addresses that routers on a LAN are told to be gone."""

    name: str
    element: str
    ports: list[str]
    router: int
    gone: list[str]


def failures(plan: Plan) -> Iterator[Failure]:
    """Each link, each router and each router's port on a LAN."""
    for number, wire in enumerate(plan.wires):
        for router in wire.metrics if wire.is_lan else []:
            address = f"{wire.net}.{router}"
            name = f"port of r{router} on {wire.net}.0"
            yield Failure(name, f"link:{router_id(router)}/{address}", [port(number, router)], 0, [address])
        if not wire.is_lan:
            one, other = wire.metrics
            ports = [port(number, one), port(number, other)]
            element = f"link:{router_id(one)}/{wire.net}.{one}"
            yield Failure(f"link r{one}-r{other} on {wire.net}.0", element, ports, 0, [])
    for router in plan.routers:
        if router not in plan.maintenance:
            yield failed_router(plan, router)


def failed_router(plan: Plan, router: int) -> Failure:
    """All wires of a router go down, and both ends of its links see it."""
    ports, gone = [], []
    for interface in plan.interfaces(router):
        wire = plan.wires[interface.wire]
        ports += [port(interface.wire, end) for end in ([router] if wire.is_lan else wire.metrics)]
        gone += [interface.address] if wire.is_lan else []
    return Failure(f"router r{router}", router_id(router), ports, router, gone)


# what mrt says


def pairs(plan: Plan) -> list[Pair]:
    """The routers between which packets go; those in maintenance have no repairs."""
    routers = [router for router in plan.routers if router not in plan.maintenance]
    return [(one, other) for one, other in permutations(routers, 2)]


def pinged(plan: Plan, failed: int) -> list[Pair]:
    """The pairs that are pinged while something fails, also those with the address that several routers have."""
    others = [router for router in plan.routers if router not in (*plan.maintenance, *plan.shared)]
    found = pairs(plan) + ([(router, SHARED) for router in others] if plan.shared else [])
    return [pair for pair in found if failed not in pair]


def lost_by_mrt(mrt: Program, plan: Plan, failure: Failure) -> set[Pair]:
    """The pairs whose packet does not arrive, by one run of `mrt fabric` with a packet for each."""
    wanted = [pair for pair in pairs(plan) if failure.router not in pair]
    steps = 2 * (len(plan.routers) + sum(wire.is_lan for wire in plan.wires))
    events = [f"island {router_id(wanted[0][0])} {len(wanted)}", f"fail {failure.element}"]
    for source, target in wanted:
        events.append(f"inject {router_id(source)} {router_id(target)} repair")
    events += [f"step {number}" for number in range(len(wanted)) for _ in range(steps)]
    with tempfile.NamedTemporaryFile("w", suffix=".script") as script:
        script.write("".join(f"{event}\n" for event in events))
        script.flush()
        answers = mrt.lines("fabric", script.name)
    if answers[0] != "failed":
        raise ValueError(f"mrt fabric says of {failure.element}: {answers[0]}")
    ends = answers[1 + len(wanted) :]
    each = {pair: ends[steps * number : steps * (number + 1)] for number, pair in enumerate(wanted)}
    return {pair for pair, said in each.items() if not any(line.startswith("delivered") for line in said)}
