"""The databases of the rows on primaries and repairs: networks.py and those below; and those of the rows of cmd_tests on small areas."""
from bench.rows.networks import LAN, TRIANGLE
from bench.rows.told import POINT_TO_POINT, TRANSIT, joined, network, router


def to(number, metric, data=None):
    """A link to a router; its link data is the other's number where no other is told."""
    return number, number if data is None else data, POINT_TO_POINT, metric


def on(number, data, metric):
    """A link to a network, with the address of the interface."""
    return number, data, TRANSIT, metric


# Routers 1 to 6. 1 is linked to 2 and to 3 with metric 5, and 4 to 5 with metric 7. 2, 3 and 4 are on network 9, with
# metric 1. 6 has no link. By number: routers 1 to 6 are nodes 0 to 5, the network is node 6.
SMALL_AREA = [
    router(1, [to(2, 5, 18), to(3, 5, 19)]),
    router(2, [to(1, 5, 33), on(9, 41, 1)]),
    router(3, [to(1, 5, 49), on(9, 57, 1)]),
    router(4, [on(9, 73, 1), to(5, 7, 69)]),
    router(5, [to(4, 7, 84)]),
    router(6, []),
    network(9, 2, [2, 3, 4]),
]

# Routers 1 to 4 in a ring.
RING = [joined(1, [2, 4]), joined(2, [1, 3]), joined(3, [2, 4]), joined(4, [3, 1])]

# Routers 1 to 4: two links of metric 5 between 1 and 2, and others that are longer.
PARALLEL = [
    router(1, [to(2, 5, 1), to(2, 5, 2), to(3, 20)]),
    router(2, [to(1, 5, 1), to(1, 5, 2), to(3, 20), to(4, 10)]),
    router(3, [to(1, 20), to(2, 20), to(4, 25)]),
    router(4, [to(2, 10), to(3, 25)]),
]

# Routers 1 to 6: from 1 to 5 over 2, 3 or 4, and a network after 5 and 6.
EQUAL = [
    router(1, [to(2, 5), to(3, 12), to(4, 8)]),
    router(2, [to(1, 5), to(5, 5)]),
    router(3, [to(1, 12), to(5, 8), on(0x0A000006, 0x0A000003, 40)]),
    router(4, [to(1, 8), to(5, 12)]),
    router(5, [to(2, 5), to(3, 8), to(4, 12), to(6, 1)]),
    router(6, [to(5, 1), on(0x0A000006, 0x0A000006, 3)]),
    network(0x0A000006, 6, [6, 3]),
]

# Router 1 on two LANs, and joined to router 7; 3 and 4 are on both, 2 and 5 on one each.
LANS = [
    router(1, [on(9, 1, 4), on(10, 1, 6), to(7, 3)]),
    router(2, [on(9, 2, 1)]),
    router(3, [on(9, 3, 1), on(10, 3, 1)]),
    router(4, [on(9, 4, 1), on(10, 4, 1)]),
    router(5, [on(10, 5, 1), to(7, 30)]),
    router(7, [to(1, 3), to(5, 30)]),
    network(9, 2, [2, 1, 3, 4]),
    network(10, 3, [3, 1, 4, 5]),
]

# Routers 1 and 2, joined by a link, and routers 3 and 4, joined by another one.
APART = [router(1, [to(2, 1)]), router(2, [to(1, 1)]), router(3, [to(4, 1)]), router(4, [to(3, 1)])]

# Routers 1, 2 and 9 on a network with the identifier 0.0.0.5, and links from 1 to 2 and 9.
BETWEEN = [
    router(1, [on(5, 0x0A000001, 4), to(2, 3), to(9, 9)]),
    router(2, [on(5, 0x0A000002, 1), to(1, 3)]),
    router(9, [on(5, 0x0A000009, 2), to(1, 9)]),
    network(5, 2, [2, 1, 9]),
]

# Routers 1 to 3 in a ring. The LSA of router 4, which 1 and 2 list, is at MaxAge, and router 5, which 1 and 3 list, has none.
GONE = [
    router(1, [to(2, 5), to(3, 5), to(4, 1), to(5, 1)]),
    router(2, [to(1, 5), to(3, 7), to(4, 1)]),
    router(3, [to(1, 5), to(2, 7), to(5, 1)]),
    router(4, [to(1, 1), to(2, 1)], age=3600),
]

# Routers 1 to 3 on a network. It and routers 1 and 2 list each other four times each. Router 1 has a link to 3.
LISTED = [
    router(1, [on(7, 1, 2), on(7, 2, 1), on(7, 3, 1), on(7, 4, 1), to(3, 1)]),
    router(2, [on(7, 1, 1), on(7, 2, 1), on(7, 3, 1), on(7, 4, 5)]),
    router(3, [on(7, 9, 4), to(1, 1)]),
    network(7, 2, [2, 1, 1, 2, 3, 2, 1, 2, 1]),
]

# Three parallel links between routers 1 and 2, with the same link data.
ALIKE = [joined(1, [2, 2, 2]), joined(2, [1, 1, 1])]

# Routers 1.1.1.1, 2.2.2.2 and 5.5.5.5, each joined to the others, and 3.3.3.3, 4.4.4.4 and 5.5.5.5 likewise.
TRIANGLES_AT_5 = [joined(1, [2, 5]), joined(2, [1, 5]), joined(3, [4, 5]), joined(4, [3, 5]), joined(5, [1, 2, 3, 4])]

# What is made of number 0 and four routers.
MADE_0_4 = [
    router(1, [to(2, 1, 1), to(4, 30, 4), to(3, 27, 5)]),
    router(2, [to(1, 29, 1), to(3, 5, 2)]),
    router(3, [to(2, 38, 2), to(4, 43, 3), to(1, 38, 5)]),
    router(4, [to(3, 32, 3), to(1, 46, 4)]),
]

# What is made of number 7 and ten routers.
MADE_7_10 = [
    router(1, [to(2, 45, 1), to(8, 3, 8), to(3, 39, 9)]),
    router(2, [to(1, 15, 1), to(3, 53, 2)]),
    router(3, [to(2, 19, 2), to(4, 20, 3), to(1, 15, 9), to(10, 33, 12)]),
    router(4, [to(3, 38, 3), to(5, 35, 4)]),
    router(5, [to(4, 47, 4), to(6, 50, 5), to(7, 61, 10)]),
    router(6, [to(5, 34, 5), to(7, 14, 6)]),
    router(7, [to(6, 20, 6), to(8, 63, 7), to(5, 36, 10)]),
    router(8, [to(7, 19, 7), to(1, 46, 8), to(9, 27, 11)]),
    router(9, [to(8, 24, 11)]),
    router(10, [to(3, 14, 12)]),
]

FILES = {
    name: b"".join(lsas)
    for name, lsas in {
        "between.lsas": BETWEEN,
        "equal.lsas": EQUAL,
        "gone.lsas": GONE,
        "lan.lsas": LAN,
        "lans.lsas": LANS,
        "listed.lsas": LISTED,
        "made_0_4.lsas": MADE_0_4,
        "made_7_10.lsas": MADE_7_10,
        "parallel.lsas": PARALLEL,
        "ring.lsas": RING,
        "small_area.lsas": SMALL_AREA,
        "triangle.lsas": TRIANGLE,
        "triangles_at_5.lsas": TRIANGLES_AT_5,
    }.items()
}
# Router 5 of the small area does not support the profile.
FILES["without_5.profile"] = b"no-mrt 0.0.0.5"

# Those of cmd_tests, which has a ring of its own.
FILES_OF_FORMS = {name: FILES[name] for name in ("between.lsas", "small_area.lsas", "without_5.profile")} | {
    "alike.lsas": b"".join(ALIKE),
    "apart.lsas": b"".join(APART),
    "ring_of_1_to_4.lsas": FILES["ring.lsas"],
}
