"""The files of area_tests: those below, and those on primaries and repairs in repair_files.py; several stand on networks.py."""
from bench.rows.networks import (
    AT_1,
    AT_3,
    BELOW,
    LAN,
    LAN_NETWORK,
    LAN_PACKETS,
    MAINTAINED,
    ONE_SIDED,
    ON_LAN,
    OPAQUE,
    ROUTER,
    THREE_LINKS,
    TRIANGLE,
    TRIANGLE_PACKETS,
    of_triangle,
)
from bench.rows.repair_files import FILES as OF_REPAIRS
from bench.rows.told import POINT_TO_POINT, STUB, TRANSIT, address, joined, main, network, other, packet, renewed, router, spoilt

MAX_AGE = 3600
DO_NOT_AGE = 0x8000

ROUTER_1, ROUTER_2, ROUTER_3, ROUTER_4 = map(address, (1, 2, 3, 4))
NETWORK_4, NETWORK_5 = 0x0A000004, 0x0A000005


def p2p(to, data, metric=10):
    return to, data, POINT_TO_POINT, metric


def transit(to, data, metric=10):
    return to, data, TRANSIT, metric


# LSAs alone

LSAS = {
    "nothing": [],
    "alone": ROUTER,
    # The same router with a stub link of metric 0 to its own address, and with two TOS entries after such a link.
    "stub": [router(ROUTER_1, [(ROUTER_1, 0xFFFFFFFF, STUB, 0)])],
    "entries": [other(1, ROUTER_1, ROUTER_1, bytes.fromhex("00000001 01010101 ffffffff 03020102 08000007 10000100"))],
    # The same router with three links, of which the first has one TOS entry and the last two.
    "three_links": [
        other(
            1, ROUTER_1, ROUTER_1,
            bytes.fromhex("00000003")
            + bytes.fromhex("01010101 ffffffff 03010102 08000007")
            + bytes.fromhex("0a000000 ff000000 03000005")
            + bytes.fromhex("02020202 00000002 0102000a 10000100 18000002"),
        )
    ],
    "triangle": TRIANGLE,
    "network": [LAN_NETWORK],
    "opaque": [OPAQUE],
    # The checksum as 0; and check bytes of remainder 0 written as 0 in place of 255: the first, the second, both.
    "zero_checksum": [spoilt(ROUTER[0], (16, 0), (17, 0))],
    "first_check_byte_0": [spoilt(joined(1, [], sequence=0x8000009A), (16, 0))],
    "second_check_byte_0": [spoilt(joined(1, [], sequence=0x800000D8), (17, 0))],
    "second_check_byte_0_after_255": [spoilt(joined(1, [], sequence=0x80007CDF), (17, 0))],
}

# The triangle's file with bytes at places, (place, byte), and the checksums of its three records made anew. A record has 48
# bytes: age 0, options 2, type 3, link state ID 4, advertising router 8, sequence 12, checksum 16, length 18, flags 20, count
# 22, links at 24 and 36, each with ID, data, type, entries and metric at 0, 4, 8, 9 and 10.
RENEWED = {
    "length_19": [(18, 0), (19, 19)],
    "length_19_of_the_second": [(66, 0), (67, 19)],
    "length_49_of_the_last": [(115, 49)],
    "reserved_sequence": [(15, 0)],
    "reserved_sequence_and_id": [(15, 0), (7, 0)],
    "reserved_sequence_of_type_5": [(51, 5), (63, 0)],
    "another_id": [(55, 3)],
    "another_id_and_metric_0": [(55, 3), (95, 0)],
    "count_1": [(71, 1)],
    "count_3": [(71, 3)],
    "count_1_and_metric_0": [(71, 1), (83, 0)],
    "count_65535": [(22, 0xFF), (23, 0xFF)],
    "an_entry_at_the_first_link": [(33, 1)],
    "an_entry_at_the_last_link": [(45, 1)],
    "metric_0_at_the_first_link": [(35, 0)],
    "metric_0_at_the_last_link": [(47, 0)],
    "metric_0_of_a_transit_link": [(44, 2), (47, 0)],
    "metric_0_before_another_link": [(95, 0), (103, 2)],
    "metric_0_and_reserved_sequence_after": [(35, 0), (63, 0)],
    "another_id_and_length_65328_after": [(55, 3), (114, 0xFF)],
    # no fault
    "any_age": [(0, 0xFF), (1, 0xFF)],
    "no_options": [(2, 0)],
    "any_flags_and_spare_byte": [(20, 0xFF), (21, 0xFF)],
    "a_negative_sequence": [(12, 0xFF)],
    "a_positive_sequence": [(12, 0)],
    "metric_0_of_a_stub_link": [(44, 3), (47, 0)],
    "metric_0_of_a_virtual_link": [(44, 4), (47, 0)],
    "two_links_with_one_id": [(36, 2), (39, 2)],
    "type_2_and_another_id": [(51, 2), (55, 3)],
    "type_5_and_another_id": [(51, 5), (55, 3)],
    "type_0_and_count_9": [(51, 0), (71, 9)],
}

# The same with the checksums as they were.
NOT_RENEWED = {
    "no_checksum": [(16, 0), (17, 0)],
    "the_first_check_byte": [(64, 0xA5)],
    "the_second_check_byte": [(65, 0x6B), (113, 0)],
    "options_3": [(98, 3)],
    "the_last_metric": [(143, 11), (108, 0)],
    "reserved_sequence_and_checksum": [(15, 0), (7, 0)],
    "count_1_and_checksum": [(71, 1), (83, 0)],
    # no fault: the age is not covered
    "another_age": [(0, 0x0E), (1, 0x10)],
}

# The network's LSA, whose file has 40 bytes, with other lengths and the checksums of these.
SPOILT_NETWORKS = {
    "network_of_26_bytes": [(19, 26), (16, 0x8E), (17, 0xAB)],
    "network_of_20_bytes": [(19, 20), (16, 0x46), (17, 0x02)],
}

# Packets

UPDATES = {
    "triangle": TRIANGLE_PACKETS,
    "lan": LAN_PACKETS,
    # The second instance of a router's LSA; and after its first one the LSA of another router.
    "older_first": [packet(ROUTER_1, [joined(1, [], sequence=0x80000002)]), packet(ROUTER_1, [joined(1, []), joined(2, [])])],
}

# The triangle's packets with bytes at places, cut after so many. They begin at 0, 172 and 248; a packet has its version at 0,
# type 1, length 2, router 4, area 8, checksum 12, authentication 14, count 24, LSAs at 28.
SPOILT_UPDATES = {
    "cut_in_a_header": ([], 275),
    "cut_and_of_another_version": ([(248, 3)], 371),
    "of_another_version": ([(172, 3)], 372),
    "of_another_type": ([(1, 5)], 372),
    "too_short": ([(2, 0), (3, 27)], 372),
    "a_spoilt_lsa": ([(326, 3)], 372),
    "a_spoilt_lsa_and_another_count": ([(326, 3), (275, 4)], 372),
    "a_smaller_count": ([(199, 0)], 372),
}
# No fault: another router and area; the checksum and the authentication are passed over.
OTHER_FIELDS = [(252, 9), (259, 7), (260, 255), (271, 255)], 372

# Areas

ON_N4 = [router(ROUTER_1, [transit(NETWORK_4, 1)]), router(ROUTER_2, [transit(NETWORK_4, 2)])]
OF_3 = network(NETWORK_4, ROUTER_3, [ROUTER_2, ROUTER_3])
OF_1 = network(NETWORK_4, ROUTER_1, [ROUTER_1, ROUTER_2])

AREAS = {
    "one_sided": ONE_SIDED,
    "lan": LAN,
    "three_parallel_links": THREE_LINKS,
    "two_against_one": [router(ROUTER_1, [p2p(ROUTER_2, 1), p2p(ROUTER_2, 2)]), joined(2, [1])],
    "two_against_one_turned": [router(ROUTER_1, [p2p(ROUTER_2, 2, 3), p2p(ROUTER_2, 1, 9)]), joined(2, [1])],
    "link_to_itself": [router(ROUTER_1, [p2p(ROUTER_1, 9), p2p(ROUTER_2, 2)]), joined(2, [1])],
    "unlisted_by_a_router": [*ON_N4, joined(3, []), network(NETWORK_4, ROUTER_1, [ROUTER_1, ROUTER_2, ROUTER_3])],
    "unlisted_by_a_network": [*ON_N4, router(ROUTER_3, [transit(NETWORK_4, 3), transit(NETWORK_5, 4)]), OF_1],
    "two_of_one_network": [*ON_N4, router(ROUTER_3, [transit(NETWORK_4, 3)]), OF_3, OF_1],
    "two_of_one_network_turned": [*ON_N4, router(ROUTER_3, [transit(NETWORK_4, 3)]), OF_1, OF_3],
    "two_of_one_network_aged": [*ON_N4, router(ROUTER_3, [transit(NETWORK_4, 3)]), network(NETWORK_4, ROUTER_3, [ROUTER_2, ROUTER_3], MAX_AGE), OF_1],
    # A network and a router of one number, 2.2.2.2; router 1.1.1.1 has a link to each.
    "one_number": [
        router(ROUTER_1, [p2p(ROUTER_2, 7), transit(ROUTER_2, 8)]),
        router(ROUTER_2, [p2p(ROUTER_1, 9), transit(ROUTER_2, 10)]),
        network(ROUTER_2, ROUTER_2, [ROUTER_2, ROUTER_1]),
    ],
    "max_age": [*TRIANGLE[:2], joined(3, [1, 2], MAX_AGE)],
    "max_age_kept": [*TRIANGLE[:2], joined(3, [1, 2], DO_NOT_AGE + MAX_AGE)],
    "age_kept": [*TRIANGLE[:2], joined(3, [1, 2], DO_NOT_AGE + MAX_AGE - 1)],
    "other_types": [
        router(ROUTER_1, [(ROUTER_2, 1, STUB, 0), (ROUTER_2, 2, 4, 0), (ROUTER_2, 3, 5, 1), (ROUTER_2, 4, 0, 1), (ROUTER_2, 5, 255, 1), p2p(ROUTER_2, 6)]),
        joined(2, [1]),
    ],
    "answered_by_another_type": [router(ROUTER_1, [p2p(ROUTER_2, 6)]), router(ROUTER_2, [(ROUTER_1, 1, 4, 1)])],
    # Three links between routers 1.1.1.1 and 2.2.2.2, with link data 7 at the one and 9 at the other.
    "unnumbered": [
        router(ROUTER_1, [p2p(ROUTER_2, 7, metric) for metric in (30, 10, 20)]),
        router(ROUTER_2, [p2p(ROUTER_1, 9, metric) for metric in (5, 6, 4)]),
    ],
    "paired_by_link_data": [
        router(ROUTER_1, [p2p(ROUTER_2, 3, 1), p2p(ROUTER_2, 1, 2), p2p(ROUTER_2, 2, 3)]),
        router(ROUTER_2, [p2p(ROUTER_1, 9, 4), p2p(ROUTER_1, 7, 5), p2p(ROUTER_1, 8, 6)]),
    ],
    "listed_twice": [*ON_N4, network(NETWORK_4, ROUTER_1, [ROUTER_1, ROUTER_2, ROUTER_1])],
    "order_of_arcs": [
        router(ROUTER_1, [p2p(ROUTER_4, 4, 9), p2p(ROUTER_3, 3, 5), p2p(ROUTER_2, 2, 9), p2p(ROUTER_2, 1, 9), transit(NETWORK_4, 8, 5)]),
        router(ROUTER_2, [p2p(ROUTER_1, 1, 2)]),
        router(ROUTER_3, [p2p(ROUTER_1, 1, 2), p2p(ROUTER_1, 2, 1)]),
        router(ROUTER_4, [p2p(ROUTER_1, 1, 2)]),
        network(NETWORK_4, ROUTER_1, [ROUTER_1, ROUTER_4]),
    ],
    "older_and_newer": [*TRIANGLE, joined(1, [3], sequence=0x80000002)],
}

# Islands

ISLANDS = {
    # Routers 1, 2 and 3: 1 is linked to both others, and these are on network 9. 3 is linked to 4, and 4 to 5 by two links, of
    # which 5 answers one. Link data 0x12 is that of router 1 towards router 2, and so on, but 0x46 of the link that is not
    # answered.
    "five_routers": [
        router(5, [p2p(4, 0x54, 1), (7, 0xFF, STUB, 0)]),
        router(1, [p2p(2, 0x12, 5), p2p(3, 0x13, 5)]),
        router(4, [p2p(3, 0x43, 7), p2p(5, 0x45, 1), p2p(5, 0x46, 1)]),
        router(2, [p2p(1, 0x21, 5), transit(9, 0x29, 1)]),
        router(3, [p2p(1, 0x31, 5), transit(9, 0x39, 1), p2p(4, 0x34, 7)]),
        network(9, 3, [2, 3]),
    ],
    # The triangle with metric 65,535 at router 1's end of its link to 3, at the other end, at both; below it at both; at all
    # links of router 2. The LAN with it at router 3's link.
    "at_one_end": AT_1,
    "at_the_other_end": AT_3,
    "at_both_ends": [of_triangle(1, (10, 65535)), TRIANGLE[1], of_triangle(3, (65535, 10))],
    "below_at_both_ends": BELOW,
    "not_for_transit": MAINTAINED,
    "not_for_transit_on_lan": ON_LAN,
}


def spoilt_packets(places, kept):
    return spoilt(b"".join(TRIANGLE_PACKETS), *places)[:kept]


def files_of_forms():
    """The bytes of files that rows of cmd_tests read, by their names."""
    made = {f"{name}.updates": spoilt_packets(*told) for name, told in SPOILT_UPDATES.items()}
    return {**made, "older_first.updates": b"".join(UPDATES["older_first"])}


def files():
    """The bytes of each file, by its name."""
    made = {f"{name}.lsas": b"".join(lsas) for name, lsas in {**LSAS, **AREAS, **ISLANDS}.items()}
    triangle = b"".join(TRIANGLE)
    for name, places in RENEWED.items():
        made[f"{name}.lsas"] = renewed(spoilt(triangle, *places), (0, 48, 96), 48)
    for name, places in NOT_RENEWED.items():
        made[f"{name}.lsas"] = spoilt(triangle, *places)
    for name, places in SPOILT_NETWORKS.items():
        made[f"{name}.lsas"] = spoilt(LAN_NETWORK, *places)
    for name, packets in UPDATES.items():
        made[f"{name}.updates"] = b"".join(packets)
    made["another_router_and_area.updates"] = spoilt_packets(*OTHER_FIELDS)
    made["ones.bytes"] = bytes([1] * 4099)
    return {**made, **OF_REPAIRS}


if __name__ == "__main__":
    main("area_tests", files())
