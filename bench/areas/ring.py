"""Writes the certificate of a ring of routers, by its closed form, and the ring's database.

usage: python3 -m bench.areas.ring ROUTERS CERTIFICATE DATABASE

Routers 1 to n are joined in a ring by links of metric 1; router n is the root. The ear goes from the root to router 1 and around the
ring, so that router i has order i + 1, and the link of routers n - 1 and n closes the one block.
"""
import struct
import sys

from bench.areas import areas
from bench.reference.lsas import POINT_TO_POINT, router_lsa


PLAIN, CLOSING = 0, 2
HEAD, TOP, BELOW, ABOVE = 1, 2, 3, 4


def link_between(low, high, n):
    """The number of the link of two neighbours, by their places in the ring from 0: links go by lower, then by higher node."""
    if low == 0:
        return 0 if high == 1 else 1
    return low + 1


def certificate(n, version=2):
    root = n - 1
    parts = [b"MRTC", struct.pack(">HHHI", version, n, n, n)]
    for node in range(n):
        if node == root:
            order, head, block = 1, root, root
        else:
            order, head, block = node + 2, root, 0
        parts.append(struct.pack(">BIHHH", 1, node + 1, order, head, block))
    pairs = sorted([(node, node + 1) for node in range(n - 1)] + [(0, root)])
    for low, high in pairs:
        role = CLOSING if (low, high) == (n - 2, root) else PLAIN
        parts.append(struct.pack(">HHHB", low, high, 0, role))
    for node in range(n - 1):
        blue = link_between(node, node + 1, n)
        red = link_between(0, root, n) if node == 0 else link_between(node - 1, node, n)
        parts.append(struct.pack(">HHB", blue, red, ABOVE) * node)
        parts.append(struct.pack(">HHB", blue, red, BELOW) * (n - 2 - node))
        parts.append(struct.pack(">HHB", blue, red, HEAD))
    parts.append(struct.pack(">HHB", link_between(0, root, n), link_between(n - 2, root, n), TOP) * (n - 1))
    return b"".join(parts)


def database(n):
    following = lambda router: router % n + 1
    before = lambda router: (router - 2) % n + 1
    return b"".join(
        router_lsa(router, [(following(router), 1, POINT_TO_POINT, 1), (before(router), 2, POINT_TO_POINT, 1)]) for router in range(1, n + 1))


def write_files(n, certificate_name, database_name):
    areas.write(certificate_name, certificate(n))
    areas.write(database_name, database(n))


if __name__ == "__main__":
    write_files(int(sys.argv[1]), *sys.argv[2:])
