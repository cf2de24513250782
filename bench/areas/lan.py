"""Writes a sample with a LAN: an area's database, a profile, and the certificate of the island under that profile.

usage: python3 -m bench.areas.lan sample CERTIFICATE DATABASE PROFILE

Routers 10.255.1.1 to 10.255.1.4 are on the LAN 198.51.100.0/29, with 10.255.1.4 as its designated router. The others:

    10.255.1.1 --- 10.255.1.5
    10.255.1.2 === 10.255.1.5   two parallel links
    10.255.1.4 --- 10.255.1.5   in the area, but the profile keeps it out of the island
    10.255.1.3 --- 10.255.1.6   the one link of 10.255.1.6, which announces a default route
    10.255.1.4 --- 10.255.1.7   withdrawn: the LSA of 10.255.1.7 is at MaxAge, and 10.255.1.4 does not know it yet
"""
import sys

from bench.areas import areas
from bench.reference import certify
from bench.reference.lsas import POINT_TO_POINT, STUB, TRANSIT, address, lsa, network_lsa, router_lsa


LAN, LAN_MASK = address("198.51.100.0"), 0xFFFFFFF8
DESIGNATED = 4
EXTERNAL, OPAQUE_OF_AREA = 5, 10
BORDER_ROUTER = 2

PROFILE = b"""# 10.255.1.1 is to be the root. Each router not named here has the priority 128.
priority 10.255.1.1 64

# The link from 10.255.1.4 to 10.255.1.5 is paid by use and carries no repairs.
ineligible 10.255.1.4 192.0.2.13
"""

# The point-to-point links: both routers by their last number, and their metrics.
LINKS = [(1, 5, 20, 20), (2, 5, 20, 20), (2, 5, 20, 30), (4, 5, 5, 5), (3, 6, 100, 50), (4, 7, 10, 10)]


def router(last):
    return address("10.255.1.0") + last


def links_of(last, links):
    """The links of a router: to the LAN, each point-to-point link with the stub network of its subnet, and the router's own address."""
    found = [(LAN + DESIGNATED, LAN + last, TRANSIT, 10)] if last <= 4 else []
    for number, (one, other, metric_one, metric_other) in enumerate(links):
        subnet = address("192.0.2.0") + 4 * number
        for here, there, data, metric in ((one, other, subnet + 1, metric_one), (other, one, subnet + 2, metric_other)):
            if here == last:
                found += [(router(there), data, POINT_TO_POINT, metric), (subnet, 0xFFFFFFFC, STUB, metric)]
    return found + [(router(last), 0xFFFFFFFF, STUB, 0)]


def router_record(last, age, sequence, links=LINKS, flags=0):
    return router_lsa(router(last), links_of(last, links), age, sequence, flags)


def database():
    default_route = bytes(4) + bytes.fromhex("80000001") + bytes(8)
    # Traffic engineering (RFC 3630): the top-level TLV of the router's address.
    router_address = bytes.fromhex("00010004") + router(1).to_bytes(4, "big")
    return b"".join([
        router_record(1, 312, 0x80000007),
        router_record(2, 45, 0x80000004),
        # From before the second link to 10.255.1.5 was there: an older instance, which no longer counts.
        router_record(2, 1207, 0x80000003, LINKS[:2]),
        network_lsa(LAN + DESIGNATED, router(DESIGNATED), LAN_MASK, [router(last) for last in (4, 1, 2, 3)], 640, 0x80000002),
        router_record(4, 640, 0x80000011),
        lsa(OPAQUE_OF_AREA, address("1.0.0.0"), router(1), router_address, 311),
        router_record(3, 1501, 0x80000005),
        # Withdrawn: an LSA at MaxAge takes its router out of the area.
        router_record(7, 3600, 0x80000009),
        router_record(5, 44, 0x8000000C),
        router_record(6, 977, 0x80000003, flags=BORDER_ROUTER),
        lsa(EXTERNAL, 0, router(6), default_route, 976, 0x80000002),
    ])


def main():
    data = database()
    areas.write(sys.argv[2], certify.certify(data, PROFILE, router(1)))
    areas.write(sys.argv[3], data)
    areas.write(sys.argv[4], PROFILE)


if __name__ == "__main__":
    main()
