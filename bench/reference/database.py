"""A link-state database and its area graph (RFC 2328): newest instances, the two-way check, pairs of arcs."""
import struct
from collections import namedtuple
from itertools import groupby

from bench.reference.lsas import POINT_TO_POINT, TRANSIT, spelled, sums

MAX_AGE = 3600
ROUTER, NETWORK = 1, 2
AREA_NODES, AREA_ARCS = 4096, 32768

RouterLink = namedtuple("RouterLink", "id data kind metric")
# `text` is the LSA after its age field; `body` the links of a router-LSA, the routers of a network-LSA, else nothing.
Lsa = namedtuple("Lsa", "at age kind id router sequence checksum text body")
# Identifiers are ordered by number; at one number a router comes before a network, as kinds are numbered.
Id = namedtuple("Id", "number kind")
Arc = namedtuple("Arc", "tail metric to data place bond")
Bond = namedtuple("Bond", "a b paired data_a data_b metric_a metric_b")
Area = namedtuple("Area", "ids arcs bonds")


class Refused(Exception):
    """A refusal: its status, and its line without the program's name."""

    def __init__(self, status, line):
        super().__init__(line)
        self.status = status
        self.line = line


def text_of(node):
    return ("net:" if node.kind == NETWORK else "") + spelled(node.number)


# LSAs from bytes

def router_links(record):
    """The links of a router-LSA, or nothing where its length is not that of the counted links."""
    if len(record) < 24:
        return None
    links, at = [], 24
    for _ in range(struct.unpack_from(">H", record, 22)[0]):
        if len(record) < at + 12:
            return None
        number, data, kind, tos, metric = struct.unpack_from(">IIBBH", record, at)
        links.append(RouterLink(number, data, kind, metric))
        at += 12 + 4 * tos
    return links if at == len(record) else None


def listed_routers(record):
    """The routers of a network-LSA, or nothing where its length fits none."""
    if len(record) < 24 or len(record) % 4:
        return None
    return list(struct.unpack_from(f">{len(record) // 4 - 6}I", record, 24))


def body_of(kind, record):
    return router_links(record) if kind == ROUTER else listed_routers(record) if kind == NETWORK else []


def fault_of(record):
    """The first fault of a whole record, or nothing."""
    kind, number, router, sequence, checksum = struct.unpack_from(">xxxBIIIH", record)
    if sums(record[2:]) != (0, 0) or checksum == 0:
        return "checksum"
    if sequence == 0x80000000:
        return "reserved-sequence"
    if kind == ROUTER and number != router:
        return "id-mismatch"
    body = body_of(kind, record)
    if body is None:
        return "body"
    if kind == ROUTER and any(link.kind in (POINT_TO_POINT, TRANSIT) and link.metric == 0 for link in body):
        return "zero-metric"
    return None


def read_lsas(data, start=0, status=3, file="database"):
    """The LSAs of the bytes, which begin at this place of a file, or the first faulty record and its first fault."""
    lsas, at = [], 0
    while at < len(data):
        left = len(data) - at
        length = struct.unpack_from(">H", data, at + 18)[0] if left >= 20 else None
        if length is None or left < length:
            fault = "truncated"
        elif length < 20:
            fault = "length"
        else:
            record = data[at:at + length]
            fault = fault_of(record)
        if fault:
            raise Refused(status, f"bad {file}: {fault} at {start + at}")
        age, kind, number, router, sequence, checksum = struct.unpack_from(">HxBIIiH", record)
        lsas.append(Lsa(start + at, age, kind, number, router, sequence, checksum, record[2:], body_of(kind, record)))
        at += length
    return lsas


# newest instances

def key_of(lsa):
    """What the instances of one LSA have in common."""
    return lsa.kind, lsa.id, lsa.router


def is_max_age(lsa):
    return lsa.age & 0x7FFF >= MAX_AGE


def rank(lsa):
    return lsa.sequence, lsa.checksum, is_max_age(lsa)


def newest(lsas):
    """The first newest instance of each key of a router-LSA or network-LSA; two that differ are a conflict."""
    instances = {}
    for lsa in lsas:
        if lsa.kind in (ROUTER, NETWORK):
            instances.setdefault(key_of(lsa), []).append(lsa)
    chosen, conflicts = [], []
    for group in instances.values():
        greatest = max(map(rank, group))
        first, *others = (lsa for lsa in group if rank(lsa) == greatest)
        chosen.append(first)
        conflicts += [(other.at, first.at) for other in others if other.text != first.text]
    if conflicts:
        second, first = min(conflicts)
        raise Refused(3, f"bad database: conflict at {second} with {first}")
    return chosen


# the area graph

def speakers(lsas):
    """The LSA that speaks for each node: of several of one network that of the greatest advertising router."""
    live = sorted((lsa for lsa in lsas if not is_max_age(lsa)), key=lambda lsa: lsa.router)
    return {Id(lsa.id, lsa.kind): lsa for lsa in live}


def entries_of(node, lsa):
    """What a node's LSA lists: far node, metric, link data, place."""
    if node.kind == NETWORK:
        return [(Id(router, ROUTER), 0, 0, place) for place, router in enumerate(lsa.body)]
    entries = []
    for place, link in enumerate(lsa.body):
        if link.kind == POINT_TO_POINT and link.id != node.number:
            entries.append((Id(link.id, ROUTER), link.metric, link.data, place))
        elif link.kind == TRANSIT:
            entries.append((Id(link.id, NETWORK), link.metric, link.data, place))
    return entries


def arcs_of(speaking, ids):
    """The entries that the far node's LSA answers, by tail and in order; they have no bond yet."""
    number = {node: place for place, node in enumerate(ids)}
    entries = {node: entries_of(node, speaking[node]) for node in ids}
    ways = {(node, entry[0]) for node in ids for entry in entries[node]}
    arcs = []
    for node in ids:
        arcs += sorted(Arc(number[node], metric, number[far], data, place, None)
                       for far, metric, data, place in entries[node] if far in number and (far, node) in ways)
    return arcs


def bonds_of(arcs):
    """Pairs, then single arcs. Of two nodes the k-th arcs of both ways, by link data and place, are a pair. Gives bonds and arcs with theirs."""
    by_way = lambda arc: (arc.tail, arc.to, arc.data, arc.place)
    ways = {way: list(group) for way, group in groupby(sorted(arcs, key=by_way), key=lambda arc: (arc.tail, arc.to))}
    bonds, bond_of = [], {}
    for (a, b), there in sorted(ways.items()):
        if a < b:
            for one, other in zip(there, ways[b, a]):
                bond_of[one] = bond_of[other] = len(bonds)
                bonds.append(Bond(a, b, True, one.data, other.data, one.metric, other.metric))
    for arc in arcs:
        if arc not in bond_of:
            bond_of[arc] = len(bonds)
            bonds.append(Bond(arc.tail, arc.to, False, arc.data, 0, arc.metric, 0))
    return bonds, [arc._replace(bond=bond_of[arc]) for arc in arcs]


def area_of(lsas):
    """The area of newest instances."""
    speaking = speakers(lsas)
    ids = sorted(speaking)
    arcs = arcs_of(speaking, ids)
    bonds, arcs = bonds_of(arcs)
    return Area(ids, arcs, bonds)


def check_size(area):
    """An area over its limits is refused."""
    if len(area.ids) > AREA_NODES:
        raise Refused(6, f"too large: area-nodes {len(area.ids)}")
    if len(area.arcs) > AREA_ARCS:
        raise Refused(6, f"too large: area-arcs {len(area.arcs)}")
