"""Small networks that several rows have, each a list of LSAs: routers 1, 2, 3 and so on are 1.1.1.1, 2.2.2.2, 3.3.3.3."""
from bench.rows.told import POINT_TO_POINT, TRANSIT, address, joined, network, other, packet, router

# Router 1.1.1.1 without links.
ROUTER = [joined(1, [])]

# Router 1 lists a link to 2, and router 2 lists none.
ONE_SIDED = [joined(1, [2]), joined(2, [])]

# Routers 1, 2 and 3, each joined to the others.
TRIANGLE = [joined(1, [2, 3]), joined(2, [1, 3]), joined(3, [1, 2])]

# Routers 1 to 4 in a line.
LINE = [joined(1, [2]), joined(2, [1, 3]), joined(3, [2, 4]), joined(4, [3])]

# Routers 1, 2 and 3, each joined to the others, and 3, 4 and 5 too.
TWO_TRIANGLES = [joined(1, [2, 3]), joined(2, [1, 3]), joined(3, [1, 2, 4, 5]), joined(4, [3, 5]), joined(5, [3, 4])]

# Routers 1, 2 and 3, each joined to 4 and to 5.
CROSSED = [joined(1, [4, 5]), joined(2, [4, 5]), joined(3, [4, 5]), joined(4, [1, 2, 3]), joined(5, [1, 2, 3])]

# Three links between routers 1 and 2.
THREE_LINKS = [
    router(address(1), [(address(2), data, POINT_TO_POINT, 10) for data in (1, 2, 3)]),
    router(address(2), [(address(1), data, POINT_TO_POINT, 10) for data in (1, 2, 3)]),
]

# A LAN of four routers, of which 1 and 2 are joined by a link too; router 4 advertises it.
LAN_ID = 0x0A000004


def on_lan(n, metric=10, linked_to=None):
    """A router of the LAN; its interface is 10.0.0.n."""
    links = [(LAN_ID, 0x0A000000 + n, TRANSIT, metric)]
    if linked_to:
        links.append((address(linked_to), linked_to, POINT_TO_POINT, 10))
    return router(address(n), links)


LAN_NETWORK = network(LAN_ID, address(4), [address(n) for n in (4, 1, 2, 3)])

LAN = [on_lan(1, linked_to=2), on_lan(2, linked_to=1), on_lan(3), on_lan(4), LAN_NETWORK]

# The LAN, where router 3's link to it has metric 65,535.
ON_LAN = [on_lan(1, linked_to=2), on_lan(2, linked_to=1), on_lan(3, 65535), on_lan(4), LAN_NETWORK]


def of_triangle(n, metrics):
    """A router of the triangle, with its metrics to the other two."""
    others = [other for other in (1, 2, 3) if other != n]
    links = [(address(other), other, POINT_TO_POINT, metric) for other, metric in zip(others, metrics)]
    return router(address(n), links)


# The triangle with metric 65,535 at router 1's end of its link to 3.
AT_1 = [of_triangle(1, (10, 65535)), joined(2, [1, 3]), joined(3, [1, 2])]

# The same at router 3's end of that link.
AT_3 = [joined(1, [2, 3]), joined(2, [1, 3]), of_triangle(3, (65535, 10))]

# Metric 65,534 at both ends of that link.
BELOW = [of_triangle(1, (10, 65534)), joined(2, [1, 3]), of_triangle(3, (65534, 10))]

# The triangle with metric 65,535 at all links of router 2.
MAINTAINED = [joined(1, [2, 3]), of_triangle(2, (65535, 65535)), joined(3, [1, 2])]

# Three packets of the triangle from router 1: all three LSAs, the first, and the other two.
TRIANGLE_PACKETS = [packet(address(1), part) for part in (TRIANGLE, TRIANGLE[:1], TRIANGLE[1:])]

# Routers 1 and 2 of the LAN with entries for types of service: two at the second link of 1, one at the first of 2.
LAN_1_SERVICES = other(
    1, address(1), address(1),
    bytes.fromhex("00000002 0a000004 0a000001 0200000a 02020202 00000002 0102000a 08000007 10000100"),
)
LAN_2_SERVICES = other(
    1, address(2), address(2),
    bytes.fromhex("00000002 0a000004 0a000002 0201000a 08000014 01010101 00000001 0100000a"),
)

# LSAs of types 10 and 5.
OPAQUE = other(10, 0x01000000, address(1), bytes.fromhex("00010004 0aff0101"))
EXTERNAL = other(5, 0, address(4), bytes.fromhex("00000000 80000001 00000000 00000000"))

# Three packets of the LAN: all its LSAs, of which one is of type 10 and one of type 5, and two links have entries for other
# types of service; the last three of them, the last one first; and the first four so.
LAN_PACKETS = [
    packet(address(1), [LAN_1_SERVICES, OPAQUE, LAN_2_SERVICES, LAN[2], EXTERNAL, LAN[3], LAN_NETWORK]),
    packet(address(4), [LAN_NETWORK, LAN[3], EXTERNAL]),
    packet(address(2), [LAN[2], LAN_2_SERVICES, OPAQUE, LAN_1_SERVICES]),
]
