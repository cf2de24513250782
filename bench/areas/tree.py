"""Writes the certificate of an area that is a tree of routers, by its closed form, and the area's database.

usage: python3 -m bench.areas.tree star|line ROUTERS CERTIFICATE DATABASE
       python3 -m bench.areas.tree sample CERTIFICATE DATABASE

The root is the router of the highest ID. In a tree each link is a block of its own: a node's head is the node before it on the way from
the root, and its block is named by itself. The rows for a neighbour are the link to it; every other row is carried, and left out in version 2.
"""
import struct
import sys

from bench.areas import areas
from bench.reference.lsas import POINT_TO_POINT, STUB, address, router_lsa


SOLE_ROLE, SOLE, CARRIED = 1, 0, 6


def certificate(ids, edges, version=2):
    """The certificate of routers by ascending ID and of edges (lower, higher), both by number. Version 2 leaves the carried rows out."""
    n = len(ids)
    edges = sorted(edges)
    ends = [[] for _ in range(n)]
    for number, (a, b) in enumerate(edges):
        ends[a].append((b, number))
        ends[b].append((a, number))
    root = n - 1
    # Nodes in the order in which the walk from the root meets them; for each node its link and its head.
    head, up, order = [None] * n, [None] * n, []
    head[root] = root
    waiting = [root]
    while waiting:
        node = waiting.pop()
        order.append(node)
        for other, number in ends[node]:
            if head[other] is None:
                head[other], up[other] = node, number
                waiting.append(other)
    place = {node: at + 1 for at, node in enumerate(order)}

    parts = [b"MRTC", struct.pack(">HHHI", version, n, len(edges), ids[root])]
    for node in range(n):
        parts.append(struct.pack(">BIHHH", 1, ids[node], place[node], head[node], node))
    for a, b in edges:
        block = b if head[b] == a else a
        parts.append(struct.pack(">HHHB", a, b, block, SOLE_ROLE))
    # For each source the link towards each destination: away from the root below a child, else up.
    for source in range(n):
        towards = [up[source]] * n
        for child, number in ends[source]:
            if up[child] == number:
                below = [child]
                while below:
                    node = below.pop()
                    towards[node] = number
                    below.extend(other for other, link in ends[node] if up[other] == link)
        near = {other for other, _ in ends[source]}
        row = struct.Struct(">HHB")
        parts.append(b"".join(
            row.pack(towards[t], towards[t], SOLE if t in near else CARRIED) for t in range(n) if t != source and (version == 1 or t in near)))
    return b"".join(parts)


def database(ids, links):
    """Router-LSAs of links by router: ID, data, type, metric."""
    return b"".join(router_lsa(router, links[router]) for router in ids)


def shaped(shape, n):
    """A star around the router of the highest ID, or a line."""
    if shape == "star":
        return [(node, n - 1) for node in range(n - 1)]
    return [(node, node + 1) for node in range(n - 1)]


def sample():
    """Seven routers with loopbacks and customer networks, and links of different metrics."""
    ids = [address(f"10.255.0.{last}") for last in range(1, 8)]
    edges = [(4, 6), (5, 6), (0, 4), (1, 4), (2, 5), (2, 3)]
    metrics = [(10, 10), (10, 15), (100, 100), (100, 200), (64, 64), (1000, 500)]
    links = {router: [] for router in ids}
    for number, ((a, b), (metric_a, metric_b)) in enumerate(zip(edges, metrics)):
        data = address(f"192.0.2.{4 * number + 1}")
        links[ids[a]].append((ids[b], data, POINT_TO_POINT, metric_a))
        links[ids[b]].append((ids[a], data + 1, POINT_TO_POINT, metric_b))
        for router, metric in ((ids[a], metric_a), (ids[b], metric_b)):
            links[router].append((data - 1, 0xFFFFFFFC, STUB, metric))
    for last, router in enumerate(ids, 1):
        links[router].append((router, 0xFFFFFFFF, STUB, 0))
        links[router].append((address(f"198.51.100.{16 * last}"), 0xFFFFFFF0, STUB, 10))
    return ids, edges, links


def write_files(shape, n, certificate_name, database_name):
    ids, edges = list(range(1, n + 1)), shaped(shape, n)
    links = {router: [] for router in ids}
    for a, b in edges:
        links[ids[a]].append((ids[b], b, POINT_TO_POINT, 1))
        links[ids[b]].append((ids[a], a + 1, POINT_TO_POINT, 1))
    areas.write(certificate_name, certificate(ids, edges))
    areas.write(database_name, database(ids, links))


def write_sample(certificate_name, database_name):
    ids, edges, links = sample()
    areas.write(certificate_name, certificate(ids, edges))
    areas.write(database_name, database(ids, links))


def main():
    if sys.argv[1] == "sample":
        write_sample(*sys.argv[2:])
    else:
        write_files(sys.argv[1], int(sys.argv[2]), *sys.argv[3:])


if __name__ == "__main__":
    main()
