"""Networks of the lab as LSAs, and networks by chance."""

from random import Random

from mrttools.lab.network import Plan, Wire, link, router_id
from tests.making import network_lsa, router_lsa


def lsas_of(plan: Plan, stubs: dict[int, list[tuple[str, str, int, int]]] | None = None) -> bytes:
    """The LSAs that the routers of a network would have, with more stub links."""
    records = []
    for router in plan.routers:
        links = [(router_id(router), "255.255.255.255", 3, 0), *(stubs or {}).get(router, [])]
        for each in plan.interfaces(router):
            wire = plan.wires[each.wire]
            metric = 65535 if router in plan.maintenance else each.metric
            if wire.is_lan:
                links.append((f"{wire.net}.{wire.designated}", each.address, 2, metric))
            else:
                links += [
                    (router_id(each.far), each.address, 1, metric),
                    (f"{wire.net}.0", "255.255.255.0", 3, metric),
                ]
        records.append(router_lsa(router_id(router), links))
    for wire in plan.wires:
        if wire.is_lan:
            head = wire.designated
            records.append(network_lsa(f"{wire.net}.{head}", router_id(head), map(router_id, wire.metrics)))
    return b"".join(records)


def random_plan(random: Random, lans: int) -> Plan:
    """Up to seven routers that hang together, with parallel links and less than so many LANs."""
    routers = list(range(1, random.randint(4, 8)))
    ends = [(router, random.randint(1, router - 1)) for router in routers[1:]]
    more = (random.sample(routers, 2) for _ in range(random.randint(2, 6)))
    ends += [(one, other) for one, other in more]
    wires = [link(one, other, random.randint(1, 4), f"10.1.{number}") for number, (one, other) in enumerate(ends)]
    for number in range(random.randrange(lans)):
        attached = random.sample(routers, random.randint(2, min(4, len(routers))))
        metrics = {router: random.randint(1, 4) for router in attached}
        wires.append(Wire(f"198.51.{number}", metrics, random.choice(attached)))
    return Plan("random", routers, wires, joiner=1)
