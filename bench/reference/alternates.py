"""A router's loop-free alternates (RFC 5286): for each node with a primary the neighbour that takes a packet there without the router."""
from collections import namedtuple

from bench.reference.database import ROUTER, Id, Refused, text_of
from bench.reference.lsas import spelled
from bench.reference.table import distances_to, primary

# The first arc of a candidate, the second one where the first leads to a network, and the router or destination that they lead to.
Candidate = namedtuple("Candidate", "first second next")
FAR = float("inf")


def candidates(area, source, target):
    """The ways of one hop from a router: to a router or to the destination, or over a network to another router."""
    for first in area.arcs:
        if first.tail != source:
            continue
        if first.to == target or area.ids[first.to].kind == ROUTER:
            yield Candidate(first, None, first.to)
        else:
            for second in area.arcs:
                if second.tail == first.to and second.to != source:
                    yield Candidate(first, second, second.to)


def next_of(way):
    """The node that a primary leads to."""
    return (way.second or way.first).to


def alternate(area, far, source, target):
    """The loop-free alternate of a router for a node with a primary, and whether it protects the primary's next; or nothing."""
    way = primary(area, source, target)
    next_hop = next_of(way)
    distance = lambda a, b: far[b].get(a, FAR)
    found = []
    for one in candidates(area, source, target):
        own = distance(one.next, target)
        if one.first.bond == way.first.bond or not own < distance(one.next, source) + distance(source, target):
            continue
        protects = next_hop != target and own < distance(one.next, next_hop) + distance(next_hop, target)
        cost = one.first.metric + (one.second.metric if one.second else 0) + own
        second = area.arcs.index(one.second) if one.second else -1
        found.append((not protects, cost, area.arcs.index(one.first), second, one))
    best = min(found, default=None)
    return best and (best[4], not best[0])


def hop(area, arc):
    return f"{text_of(area.ids[arc.to])}/{spelled(arc.data)}"


def text(area, router):
    """The lines on a router's loop-free alternates."""
    own = Id(router, ROUTER)
    if own not in area.ids:
        raise Refused(7, f"not there: {spelled(router)}")
    source, far = area.ids.index(own), {node: distances_to(area, node) for node in range(len(area.ids))}
    lines = [f"lfa {spelled(router)} nodes {len(area.ids)}"]
    for target, node in enumerate(area.ids):
        if target == source or source not in far[target]:
            continue
        found = alternate(area, far, source, target)
        told = f"{hop(area, found[0].first)} next {text_of(area.ids[found[0].next])} {'node' if found[1] else 'link'}" if found else "none"
        lines.append(f"{text_of(node)} primary {hop(area, primary(area, source, target).first)} lfa {told}")
    return lines
