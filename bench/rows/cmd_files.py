"""Tells the files of the rows in crates/cmd_tests, and writes them: python3 -m bench.rows.cmd_files makes crates/cmd_tests/data anew, and with --check compares.

Routers 1, 2 and 3 are 1.1.1.1, 2.2.2.2 and 3.3.3.3. A link of a router is told as `mrt` spells it, with its metric: `NEIGHBOUR/LINK-DATA METRIC`,
after `net:` where it leads to a network and after `stub:` where to a stub network; then entries `TYPE:METRIC` for other types of service. A node of
a certificate is told by its identifier, order, head and block; a link by its nodes, block and role; the rows in a line for each source, each with
its blue and its red link and its tag. `NAME.cert1` and `NAME.cert2` are a certificate in both versions.
"""
import os
import struct
import sys

from bench.reference.lsas import FIRST_SEQUENCE, address, lsa, update
from bench.rows.area_files import files_of_forms
from bench.rows.repair_files import FILES_OF_FORMS

HERE = os.path.dirname(os.path.abspath(__file__))
DATA = os.path.join(HERE, "..", "..", "crates", "cmd_tests", "data")
TYPES = {"": 1, "net:": 2, "stub:": 3}
ROLES = ("plain", "sole", "closing")
TAGS = ("sole", "head", "top", "below", "above", "unordered", "carried")


# LSAs and packets

def link(told):
    """The bytes of a router's link (RFC 2328, section A.4.2)."""
    name, metric, *services = told.split()
    kind = next(kind for kind in ("net:", "stub:", "") if name.startswith(kind))
    to, data = name[len(kind):].split("/")
    entries = [map(int, service.split(":")) for service in services]
    head = struct.pack(">IIBBH", address(to), address(data), TYPES[kind], len(entries), int(metric))
    return head + b"".join(struct.pack(">BBH", of, 0, cost) for of, cost in entries)


def router(number, *links, age=1, sequence=FIRST_SEQUENCE, flags=0):
    """A router-LSA, in its first instance if nothing else is told."""
    body = struct.pack(">BBH", flags, 0, len(links)) + b"".join(map(link, links))
    return lsa(1, address(number), address(number), body, age, sequence)


def joined(n, *others, age=1, sequence=FIRST_SEQUENCE):
    """Router n.n.n.n with a link of metric 10 to each of these, whose link data is the other's n."""
    return router(named(n), *(f"{named(k)}/0.0.0.{k} 10" for k in others), age=age, sequence=sequence)


def named(n):
    return f"{n}.{n}.{n}.{n}"


def network(number, advertiser, *routers, mask="255.255.255.0", age=1, sequence=FIRST_SEQUENCE):
    """A network-LSA (RFC 2328, section A.4.3)."""
    body = struct.pack(f">I{len(routers)}I", address(mask), *map(address, routers))
    return lsa(2, address(number), address(advertiser), body, age, sequence)


def other(kind, number, advertiser, body, age=1, sequence=FIRST_SEQUENCE):
    """An LSA of any type, with a body of these digits."""
    return lsa(kind, address(number), address(advertiser), bytes.fromhex(body), age, sequence)


def packet(sender, *records):
    """A Link State Update."""
    return update(address(sender), records)


def lsas(*records):
    return b"".join(records)


packets = lsas


# certificates

def certificate(root, nodes, links, rows):
    """A certificate's root, and its nodes, links and rows as numbers."""
    return address(root), [node(told) for told in nodes], [numbers(told, ROLES) for told in links], [
        numbers(told.replace("/", " "), TAGS) for line in rows for told in line.split(", ")]


def node(told):
    name, *others = told.split()
    kind, number = (2, name[4:]) if name.startswith("net:") else (1, name)
    return kind, address(number), *map(int, others)


def numbers(told, words):
    *counts, word = told.split()
    return *map(int, counts), words.index(word)


def spelling(version, told):
    """The bytes of a certificate in a version (docs/FORMATS.md); the second has no carried rows."""
    root, nodes, links, rows = told
    parts = [struct.pack(">4sHHHI", b"MRTC", version, len(nodes), len(links), root)]
    parts += [struct.pack(">BIHHH", *node) for node in nodes] + [struct.pack(">HHHB", *link) for link in links]
    return b"".join(parts + [struct.pack(">HHB", *row) for row in rows if version == 1 or TAGS[row[2]] != "carried"])


# changes of other files

def changed(file, at, digits):
    """A file with other bytes from this place on."""
    new = bytes.fromhex(digits)
    return file[:at] + new + file[at + len(new):]


def around(count):
    """The answers to a packet that goes around a ring of so many routers, from the first to the last."""
    lines = ["entered 0"] + [f"moved 0.0.{k // 256}.{k % 256}" for k in range(2, count)] + [f"delivered 0.0.{count // 256}.{count % 256}"]
    return "\n".join(lines + [""]).encode()


LAN_1 = router("1.1.1.1", "net:10.0.0.4/10.0.0.1 10", "2.2.2.2/0.0.0.2 10")
LAN_2 = router("2.2.2.2", "net:10.0.0.4/10.0.0.2 10", "1.1.1.1/0.0.0.1 10")
LAN_3 = router("3.3.3.3", "net:10.0.0.4/10.0.0.3 10")
LAN_4 = router("4.4.4.4", "net:10.0.0.4/10.0.0.4 10")
LAN = network("10.0.0.4", "4.4.4.4", "4.4.4.4", "1.1.1.1", "2.2.2.2", "3.3.3.3")
SERVICES_1 = router("1.1.1.1", "net:10.0.0.4/10.0.0.1 10", "2.2.2.2/0.0.0.2 10 8:7 16:256")
SERVICES_2 = router("2.2.2.2", "net:10.0.0.4/10.0.0.2 10 8:20", "1.1.1.1/0.0.0.1 10")
OPAQUE = other(10, "1.0.0.0", "1.1.1.1", "000100040aff0101")
EXTERNAL = other(5, "0.0.0.0", "4.4.4.4", "00000000800000010000000000000000")

FILES = {
    # router 1.1.1.1 without links
    "router.lsas": lsas(joined(1)),
    # the same router with a stub link of metric 0
    "stub.lsas": lsas(router("1.1.1.1", "stub:1.1.1.1/255.255.255.255 0")),
    # router 1.1.1.1 at MaxAge, and at age 3,599 with the highest bit of the field set
    "max_age.lsas": lsas(joined(1, age=3600)),
    "do_not_age.lsas": lsas(joined(1, age=36367)),
    # a link to a network where the stub link stood
    "no_network.lsas": lsas(router("1.1.1.1", "net:1.1.1.1/255.255.255.255 1")),
    # routers 1, 2 and 3, each joined to the others
    "triangle.lsas": lsas(joined(1, 2, 3), joined(2, 1, 3), joined(3, 1, 2)),
    # routers 1 to 4 in a line
    "line.lsas": lsas(joined(1, 2), joined(2, 1, 3), joined(3, 2, 4), joined(4, 3)),
    # routers 1 to 5 with links 1-2, 1-4, 1-5, 2-3, 2-5, 3-5, 4-5
    "five.lsas": lsas(joined(1, 2, 4, 5), joined(2, 1, 3, 5), joined(3, 2, 5), joined(4, 1, 5), joined(5, 1, 2, 3, 4)),
    # routers 1 to 5 in a ring
    "ring.lsas": lsas(joined(1, 2, 5), joined(2, 1, 3), joined(3, 2, 4), joined(4, 3, 5), joined(5, 1, 4)),
    # routers 1 to 4 in a ring
    "four.lsas": lsas(joined(1, 2, 4), joined(2, 1, 3), joined(3, 2, 4), joined(4, 1, 3)),
    # router 1 lists a link to 2, and router 2 lists none
    "one_sided.lsas": lsas(joined(1, 2), joined(2)),
    # routers 1 and 2 joined, and 3 and 4
    "two_trees.lsas": lsas(joined(1, 2), joined(2, 1), joined(3, 4), joined(4, 3)),
    # a LAN of four routers, of which 1 and 2 are joined by a link too
    "lan.lsas": lsas(LAN_1, LAN_2, LAN_3, LAN_4, LAN),
    # the sample in crates/mrt/data: a LAN, parallel links, an older instance, a withdrawn router and LSAs of other types
    "sample.lsas": lsas(
        router("10.255.1.1", "net:198.51.100.4/198.51.100.1 10", "10.255.1.5/192.0.2.1 20", "stub:192.0.2.0/255.255.255.252 20",
            "stub:10.255.1.1/255.255.255.255 0", age=312, sequence=0x80000007),
        router("10.255.1.2", "net:198.51.100.4/198.51.100.2 10", "10.255.1.5/192.0.2.5 20", "stub:192.0.2.4/255.255.255.252 20",
            "10.255.1.5/192.0.2.9 20", "stub:192.0.2.8/255.255.255.252 20", "stub:10.255.1.2/255.255.255.255 0",
            age=45, sequence=0x80000004),
        router("10.255.1.2", "net:198.51.100.4/198.51.100.2 10", "10.255.1.5/192.0.2.5 20", "stub:192.0.2.4/255.255.255.252 20",
            "stub:10.255.1.2/255.255.255.255 0", age=1207, sequence=0x80000003),
        network("198.51.100.4", "10.255.1.4", "10.255.1.4", "10.255.1.1", "10.255.1.2", "10.255.1.3", mask="255.255.255.248",
            age=640, sequence=0x80000002),
        router("10.255.1.4", "net:198.51.100.4/198.51.100.4 10", "10.255.1.5/192.0.2.13 5", "stub:192.0.2.12/255.255.255.252 5",
            "10.255.1.7/192.0.2.21 10", "stub:192.0.2.20/255.255.255.252 10", "stub:10.255.1.4/255.255.255.255 0",
            age=640, sequence=0x80000011),
        other(10, "1.0.0.0", "10.255.1.1", "000100040aff0101", age=311),
        router("10.255.1.3", "net:198.51.100.4/198.51.100.3 10", "10.255.1.6/192.0.2.17 100", "stub:192.0.2.16/255.255.255.252 100",
            "stub:10.255.1.3/255.255.255.255 0", age=1501, sequence=0x80000005),
        router("10.255.1.7", "10.255.1.4/192.0.2.22 10", "stub:192.0.2.20/255.255.255.252 10", "stub:10.255.1.7/255.255.255.255 0",
            age=3600, sequence=0x80000009),
        router("10.255.1.5", "10.255.1.1/192.0.2.2 20", "stub:192.0.2.0/255.255.255.252 20", "10.255.1.2/192.0.2.6 20",
            "stub:192.0.2.4/255.255.255.252 20", "10.255.1.2/192.0.2.10 30", "stub:192.0.2.8/255.255.255.252 30",
            "10.255.1.4/192.0.2.14 5", "stub:192.0.2.12/255.255.255.252 5", "stub:10.255.1.5/255.255.255.255 0",
            age=44, sequence=0x8000000c),
        router("10.255.1.6", "10.255.1.3/192.0.2.18 50", "stub:192.0.2.16/255.255.255.252 50", "stub:10.255.1.6/255.255.255.255 0",
            age=977, sequence=0x80000003, flags=0x2),
        other(5, "0.0.0.0", "10.255.1.6", "00000000800000010000000000000000", age=976, sequence=0x80000002),
    ),
    # three links between routers 1 and 2
    "three_links.lsas": lsas(
        router("1.1.1.1", "2.2.2.2/0.0.0.1 10", "2.2.2.2/0.0.0.2 10", "2.2.2.2/0.0.0.3 10"),
        router("2.2.2.2", "1.1.1.1/0.0.0.1 10", "1.1.1.1/0.0.0.2 10", "1.1.1.1/0.0.0.3 10"),
    ),
    # routers 1, 2 and 3, each joined to the others, and 3, 4 and 5 too
    "two_triangles.lsas": lsas(joined(1, 2, 3), joined(2, 1, 3), joined(3, 1, 2, 4, 5), joined(4, 3, 5), joined(5, 3, 4)),
    # routers 1, 2 and 3, each joined to 4 and to 5
    "crossed.lsas": lsas(joined(1, 4, 5), joined(2, 4, 5), joined(3, 4, 5), joined(4, 1, 2, 3), joined(5, 1, 2, 3)),
    # router 9 joined to 2, 3 and 4, and 2 to 1
    "cutting_root.lsas": lsas(joined(1, 2), joined(2, 1, 9), joined(3, 9), joined(4, 9), joined(9, 2, 3, 4)),
    # a LAN of routers 1, 2 and 3, each joined to 4; router 1 by a link of metric 100
    "lan_in_ring.lsas": lsas(
        router("1.1.1.1", "net:10.0.0.3/10.0.0.1 10", "4.4.4.4/0.0.0.4 100"),
        router("2.2.2.2", "net:10.0.0.3/10.0.0.2 10", "4.4.4.4/0.0.0.4 10"),
        router("3.3.3.3", "net:10.0.0.3/10.0.0.3 10", "4.4.4.4/0.0.0.4 10"),
        router("4.4.4.4", "2.2.2.2/0.0.0.2 10", "3.3.3.3/0.0.0.3 10", "1.1.1.1/0.0.0.1 100"),
        network("10.0.0.3", "3.3.3.3", "3.3.3.3", "1.1.1.1", "2.2.2.2"),
    ),
    # routers 1 to 4 with links 1-2, 1-3, 2-4, 3-4, and a second link from 1 to 3 that is cheaper
    "square.lsas": lsas(
        router("1.1.1.1", "2.2.2.2/0.0.0.2 10", "3.3.3.3/0.0.0.3 10", "3.3.3.3/0.0.0.9 5"),
        joined(2, 1, 4),
        router("3.3.3.3", "1.1.1.1/0.0.0.1 10", "1.1.1.1/0.0.0.8 5", "4.4.4.4/0.0.0.4 10"),
        joined(4, 2, 3),
    ),
    # router 1.1.1.1, and again with other flags
    "conflict.lsas": lsas(joined(1), router("1.1.1.1", flags=0xff)),
    # two conflicts, of which that of router 2 has the lesser second place
    "conflicts.lsas": lsas(joined(1), joined(2), joined(1), router("2.2.2.2", flags=0xff), router("1.1.1.1", flags=0xff)),
    # a conflict that a newer instance settles
    "settled.lsas": lsas(joined(1), router("1.1.1.1", flags=0xff), joined(1, sequence=0x80000002)),
    # the triangle, router 1 withdrawn, and router 1 back
    "withdrawn_and_back.lsas": lsas(
        joined(1, 2, 3), joined(2, 1, 3), joined(3, 1, 2), joined(1, age=3600, sequence=0x80000002), joined(1, 2, 3, sequence=0x80000003)
    ),

    # routers that want no transit traffic
    # the triangle with metric 65,535 at router 1's end of its link to 3
    "at_1.lsas": lsas(router("1.1.1.1", "2.2.2.2/0.0.0.2 10", "3.3.3.3/0.0.0.3 65535"), joined(2, 1, 3), joined(3, 1, 2)),
    # the same at router 3's end of that link
    "at_3.lsas": lsas(joined(1, 2, 3), joined(2, 1, 3), router("3.3.3.3", "1.1.1.1/0.0.0.1 65535", "2.2.2.2/0.0.0.2 10")),
    # metric 65,535 at both ends of the link between routers 1 and 3, and 65,534 at router 1's end of its link to 2
    "at_both.lsas": lsas(
        router("1.1.1.1", "2.2.2.2/0.0.0.2 65534", "3.3.3.3/0.0.0.3 65535"),
        joined(2, 1, 3),
        router("3.3.3.3", "1.1.1.1/0.0.0.1 65535", "2.2.2.2/0.0.0.2 10"),
    ),
    # metric 65,534 at both ends of that link
    "below.lsas": lsas(
        router("1.1.1.1", "2.2.2.2/0.0.0.2 10", "3.3.3.3/0.0.0.3 65534"),
        joined(2, 1, 3),
        router("3.3.3.3", "1.1.1.1/0.0.0.1 65534", "2.2.2.2/0.0.0.2 10"),
    ),
    # the triangle with metric 65,535 at all links of router 2
    "maintained.lsas": lsas(joined(1, 2, 3), router("2.2.2.2", "1.1.1.1/0.0.0.1 65535", "3.3.3.3/0.0.0.3 65535"), joined(3, 1, 2)),
    # routers 1, 2 and 3 in a line, with metric 65,535 at both links of router 2
    "passed.lsas": lsas(joined(1, 2), router("2.2.2.2", "1.1.1.1/0.0.0.1 65535", "3.3.3.3/0.0.0.3 65535"), joined(3, 2)),
    # routers 1 and 2 joined, with metric 65,535 at router 1
    "two.lsas": lsas(router("1.1.1.1", "2.2.2.2/0.0.0.2 65535"), joined(2, 1)),
    # the LAN, where router 3's link to it has metric 65,535
    "on_lan.lsas": lsas(LAN_1, LAN_2, router("3.3.3.3", "net:10.0.0.4/10.0.0.3 65535"), LAN_4, LAN),

    # LSAs with a fault
    "reserved_sequence.lsas": lsas(router("1.1.1.1", sequence=0x80000000)),
    "zero_metric.lsas": lsas(router("1.1.1.1", "2.2.2.2/0.0.0.2 10", "3.3.3.3/0.0.0.3 0"), joined(2, 1, 3), joined(3, 1, 2)),
    "other_id.lsas": lsas(other(1, "2.2.2.2", "1.1.1.1", "00000000")),
    # a network-LSA with half of a router
    "half_router.lsas": lsas(other(2, "10.0.0.4", "1.1.1.1", "000000000000")),
    # 65,535 links are counted: of a router with one, and of router 1 of the LAN
    "more_links.lsas": lsas(other(1, "1.1.1.1", "1.1.1.1", "0000ffff 01010101ffffffff03000000")),
    "lan_more_links.lsas": lsas(
        other(1, "1.1.1.1", "1.1.1.1", "0000ffff 0a0000040a0000010200000a 02020202000000020100000a"), LAN_2, LAN_3, LAN_4, LAN
    ),

    # packets 0, 1 and 2: the three router-LSAs of the triangle, the first of them, and the two others
    "triangle.updates": packets(
        packet("1.1.1.1", joined(1, 2, 3), joined(2, 1, 3), joined(3, 1, 2)),
        packet("1.1.1.1", joined(1, 2, 3)),
        packet("1.1.1.1", joined(2, 1, 3), joined(3, 1, 2)),
    ),
    # two newest instances of one LSA that contradict each other
    "conflict.updates": packets(
        packet("1.1.1.1", joined(1)),
        packet("1.1.1.1", router("1.1.1.1", flags=0xff)),
    ),
    # the triangle, its router 1 withdrawn, and its router 1 back
    "newer.updates": packets(
        packet("1.1.1.1", joined(1, 2, 3), joined(2, 1, 3), joined(3, 1, 2)),
        packet("1.1.1.1", joined(1, age=3600, sequence=0x80000002)),
        packet("1.1.1.1", joined(1, 2, 3, sequence=0x80000003)),
    ),
    # packets 0, 1 and 2 of the LAN: all its LSAs, of which one is of type 10 and one of type 5, and two links have entries for other types of
    # service; the last three of them, the last one first; and the first four so
    "lan.updates": packets(
        packet("1.1.1.1", SERVICES_1, OPAQUE, SERVICES_2, LAN_3, EXTERNAL, LAN_4, LAN),
        packet("4.4.4.4", LAN, LAN_4, EXTERNAL),
        packet("2.2.2.2", LAN_3, SERVICES_2, OPAQUE, SERVICES_1),
    ),

    # profiles
    "sample.profile": b"priority 10.255.1.1 64\n\nineligible 10.255.1.4 192.0.2.13\n",
    "no_router_1.profile": b"no-mrt 1.1.1.1",
    "carriage_return.profile": b"priority 3.3.3.3 10\r\n",
    "bytes.profile": "# \u0080\n\u0080".encode(),

    # scripts with lines that are passed over, tabs, and ends of lines with a carriage return
    "passed_over.events": b"# packets\r\n\n island\t1.1.1.1  1 \r\n# between\r\ninject 1.1.1.1\t3.3.3.3 blue\r\n\t \n\tstep \t0\n\r\n# the end",
    "passed_over.deliveries": b"# deliveries\n\n routers\t1 \r\n\t\ndeliver  1 0\r\n# the end",

    "empty": b"",
    "junk": b"junk",
    # a packet's way on blue around a ring of 2,048 routers: it enters at the first, and moves to each other one
    "around_2048.answers": around(2048),
}

CERTIFICATES = {
    # router 1.1.1.1 alone
    "router": certificate("1.1.1.1", ["1.1.1.1 1 0 0"], [], []),
    # router 2.2.2.2 alone
    "router_2": certificate("2.2.2.2", ["2.2.2.2 1 0 0"], [], []),
    # the triangle
    "triangle": certificate(
        "3.3.3.3",
        ["1.1.1.1 2 2 0", "2.2.2.2 3 2 0", "3.3.3.3 1 2 2"],
        ["0 1 0 plain", "0 2 0 plain", "1 2 0 closing"],
        [
            "0/1 below, 0/1 head",
            "2/0 above, 2/0 head",
            "1/2 top, 1/2 top",
        ],
    ),
    # the triangle, with the heads of nodes 0 and 1 each other
    "in_circle": certificate(
        "3.3.3.3",
        ["1.1.1.1 2 1 0", "2.2.2.2 3 0 0", "3.3.3.3 1 2 2"],
        ["0 1 0 plain", "0 2 0 plain", "1 2 0 closing"],
        [
            "0/1 below, 0/1 head",
            "2/0 above, 2/0 head",
            "1/2 top, 1/2 top",
        ],
    ),
    # the triangle where router 1 is the root
    "from_1": certificate(
        "1.1.1.1",
        ["1.1.1.1 1 0 0", "2.2.2.2 2 0 1", "3.3.3.3 3 0 1"],
        ["0 1 1 plain", "0 2 1 closing", "1 2 1 plain"],
        [
            "0/1 top, 0/1 top",
            "2/0 head, 2/0 below",
            "1/2 head, 1/2 above",
        ],
    ),
    # the line
    "line": certificate(
        "4.4.4.4",
        ["1.1.1.1 4 1 0", "2.2.2.2 3 2 1", "3.3.3.3 2 3 2", "4.4.4.4 1 3 3"],
        ["0 1 0 sole", "1 2 1 sole", "2 3 2 sole"],
        [
            "0/0 sole, 0/0 carried, 0/0 carried",
            "0/0 sole, 1/1 sole, 1/1 carried",
            "1/1 carried, 1/1 sole, 2/2 sole",
            "2/2 carried, 2/2 carried, 2/2 sole",
        ],
    ),
    # the five routers, with two closing links in their block
    "two_closing": certificate(
        "5.5.5.5",
        ["1.1.1.1 2 4 0", "2.2.2.2 4 4 0", "3.3.3.3 3 4 0", "4.4.4.4 5 4 0", "5.5.5.5 1 4 4"],
        ["0 1 0 plain", "0 3 0 plain", "0 4 0 plain", "1 2 0 plain", "1 4 0 closing", "2 4 0 plain", "3 4 0 closing"],
        [
            "0/0 sole, 0/0 sole, 0/0 sole, 0/0 sole",
            "0/0 sole, 0/0 sole, 0/0 sole, 0/0 sole",
            "0/0 sole, 0/0 sole, 0/0 sole, 0/0 sole",
            "0/0 sole, 0/0 sole, 0/0 sole, 0/0 sole",
            "0/0 sole, 0/0 sole, 0/0 sole, 0/0 sole",
        ],
    ),
    # the five routers, as it is computed
    "five": certificate(
        "5.5.5.5",
        ["1.1.1.1 3 4 0", "2.2.2.2 4 4 0", "3.3.3.3 5 4 0", "4.4.4.4 2 4 0", "5.5.5.5 1 4 4"],
        ["0 1 0 plain", "0 3 0 plain", "0 4 0 plain", "1 2 0 plain", "1 4 0 plain", "2 4 0 closing", "3 4 0 plain"],
        [
            "0/2 below, 0/2 below, 0/1 above, 0/2 head",
            "3/0 above, 3/4 below, 3/0 above, 3/4 head",
            "5/3 above, 5/3 above, 5/3 above, 5/3 head",
            "1/6 below, 1/6 below, 1/6 below, 1/6 head",
            "2/5 top, 4/5 top, 4/5 top, 6/5 top",
        ],
    ),
    # the ring, whose ear goes around from router 4 where a search goes around from router 1
    "other_ear": certificate(
        "5.5.5.5",
        ["1.1.1.1 5 4 3", "2.2.2.2 4 4 3", "3.3.3.3 3 4 3", "4.4.4.4 2 4 3", "5.5.5.5 1 4 4"],
        ["0 1 3 plain", "0 4 3 closing", "1 2 3 plain", "2 3 3 plain", "3 4 3 plain"],
        [
            "1/0 above, 1/0 above, 1/0 above, 1/0 head",
            "0/2 below, 0/2 above, 0/2 above, 0/2 head",
            "2/3 below, 2/3 below, 2/3 above, 2/3 head",
            "3/4 below, 3/4 below, 3/4 below, 3/4 head",
            "4/1 top, 4/1 top, 4/1 top, 4/1 top",
        ],
    ),
    # the ring, as it is computed
    "ring": certificate(
        "5.5.5.5",
        ["1.1.1.1 2 4 0", "2.2.2.2 3 4 0", "3.3.3.3 4 4 0", "4.4.4.4 5 4 0", "5.5.5.5 1 4 4"],
        ["0 1 0 plain", "0 4 0 plain", "1 2 0 plain", "2 3 0 plain", "3 4 0 closing"],
        [
            "0/1 below, 0/1 below, 0/1 below, 0/1 head",
            "2/0 above, 2/0 below, 2/0 below, 2/0 head",
            "3/2 above, 3/2 above, 3/2 below, 3/2 head",
            "4/3 above, 4/3 above, 4/3 above, 4/3 head",
            "1/4 top, 1/4 top, 1/4 top, 1/4 top",
        ],
    ),
    # the first of the two trees
    "first_tree": certificate(
        "2.2.2.2",
        ["1.1.1.1 2 1 0", "2.2.2.2 1 1 1"],
        ["0 1 0 sole"],
        [
            "0/0 sole",
            "0/0 sole",
        ],
    ),
    # the second one
    "second_tree": certificate(
        "4.4.4.4",
        ["3.3.3.3 2 1 0", "4.4.4.4 1 1 1"],
        ["0 1 0 sole"],
        [
            "0/0 sole",
            "0/0 sole",
        ],
    ),
    # the LAN
    "lan": certificate(
        "4.4.4.4",
        ["1.1.1.1 3 4 0", "2.2.2.2 5 4 0", "3.3.3.3 4 4 2", "4.4.4.4 1 3 3", "net:10.0.0.4 2 3 4"],
        ["0 1 0 plain", "0 4 0 plain", "1 4 0 closing", "2 4 2 sole", "3 4 4 sole"],
        [
            "0/1 below, 0/1 carried, 0/1 carried, 0/1 head",
            "2/0 above, 2/0 carried, 2/0 carried, 2/0 head",
            "3/3 carried, 3/3 carried, 3/3 carried, 3/3 sole",
            "4/4 carried, 4/4 carried, 4/4 carried, 4/4 sole",
            "1/2 top, 1/2 top, 3/3 sole, 4/4 sole",
        ],
    ),
    # the sample under its profile
    "sample": certificate(
        "10.255.1.1",
        ["10.255.1.1 1 0 0", "10.255.1.2 3 0 6", "10.255.1.3 4 6 2", "10.255.1.4 5 6 3", "10.255.1.5 6 0 6", "10.255.1.6 7 2 5",
         "net:198.51.100.4 2 0 6"],
        ["0 4 6 closing", "0 6 6 plain", "1 4 6 plain", "1 4 6 plain", "1 6 6 plain", "2 5 5 sole", "2 6 2 sole", "3 6 3 sole"],
        [
            "1/0 top, 1/0 carried, 1/0 carried, 1/0 top, 1/0 carried, 1/0 top",
            "2/4 head, 2/4 carried, 2/4 carried, 2/4 below, 2/4 carried, 2/4 above",
            "6/6 carried, 6/6 carried, 6/6 carried, 6/6 carried, 5/5 sole, 6/6 sole",
            "7/7 carried, 7/7 carried, 7/7 carried, 7/7 carried, 7/7 carried, 7/7 sole",
            "0/2 head, 0/2 above, 0/2 carried, 0/2 carried, 0/2 carried, 0/2 above",
            "5/5 carried, 5/5 carried, 5/5 sole, 5/5 carried, 5/5 carried, 5/5 carried",
            "4/1 head, 4/1 below, 6/6 sole, 7/7 sole, 4/1 below, 6/6 carried",
        ],
    ),
    # the three links
    "three_links": certificate(
        "2.2.2.2",
        ["1.1.1.1 2 1 0", "2.2.2.2 1 1 1"],
        ["0 1 0 plain", "0 1 0 closing", "0 1 0 plain"],
        [
            "1/0 head",
            "0/1 top",
        ],
    ),
}

FILES |= {f"{name}.cert{version}": spelling(version, told) for name, told in CERTIFICATES.items() for version in (1, 2)}
# router 0.0.0.1 alone
FILES["first.cert1"] = spelling(1, certificate("0.0.0.1", ["0.0.0.1 1 0 0"], [], []))

TRIANGLE, ROUTER, CERT, PACKETS = (FILES[name] for name in ("triangle.lsas", "router.lsas", "triangle.cert1", "triangle.updates"))
FILES |= {
    # another checksum, and a length of 19
    "other_checksum.lsas": changed(ROUTER, 16, "0000"),
    "short_length.lsas": changed(ROUTER, 18, "0013"),
    "cut_router.lsas": ROUTER[:19],
    "cut_triangle.lsas": TRIANGLE[:143],

    # of the row of node 0 for node 1 another blue link, one that there is not, and another tag; version 2 has no carried rows
    "other_blue.cert1": changed(CERT, 69, "02"),
    "no_such_blue.cert1": changed(CERT, 69, "03"),
    "no_such_tag.cert1": changed(CERT, 72, "07"),
    "carried.cert2": changed(FILES["triangle.cert2"], 72, "06"),
    "other_magic.cert1": changed(CERT, 0, "00"),
    "longer.cert1": CERT + b"\0",
    "cut.cert1": CERT[:97],
    "cut_router_2.cert1": FILES["router_2.cert1"][:24],

    "cut.updates": PACKETS[:371],
    # the first packet with the number of one LSA more
    "miscounted.updates": changed(PACKETS, 27, "04"),
    # one packet of no LSA: of version 3, of packet type 1, with length 27
    "version_3.updates": changed(packet("1.1.1.1"), 0, "03"),
    "type_1.updates": changed(packet("1.1.1.1"), 1, "01"),
    "length_27.updates": changed(packet("1.1.1.1"), 2, "001b"),
    # a packet of the first LSA of the triangle, whose last byte is another, with the number of two
    "damaged.updates": changed(changed(packet("1.1.1.1", joined(1, 2, 3)), 27, "02"), 75, "0b"),
}

FILES |= FILES_OF_FORMS | files_of_forms()
FILES |= {
    "another_priority_after_a_comment.profile": b"priority 1.1.1.1 10\n# again\n\npriority\t1.1.1.1  20",
    "a_carriage_return_too_many.profile": b"no-mrt 1.1.1.1\r\nno-mrt 2.2.2.2\r\r\n",
    "a_carriage_return_at_the_end.profile": b"no-mrt 1.1.1.1\r",
    "a_byte_that_is_no_text.profile": b"# \x80 may stand here\nno-mrt 1.1.1.1 \x80\n",
    "three_faults.profile": b"priority 1.1.1.1 300\nno-mrt\nno-mrt 1.1.1.1 \x80\n",
    # two that stand below each other in a block, a line, and a block in which one is in no order with others
    "prefix_triangle.lsas": lsas(
        router("0.0.0.1", "0.0.0.2/0.0.0.1 10", "0.0.0.3/0.0.0.3 10"),
        router("0.0.0.2", "0.0.0.1/0.0.0.1 10", "0.0.0.3/0.0.0.2 10"),
        router("0.0.0.3", "0.0.0.1/0.0.0.3 10", "0.0.0.2/0.0.0.2 10"),
    ),
    "prefix_line.lsas": lsas(
        router("0.0.0.1", "0.0.0.2/0.0.0.1 10"),
        router("0.0.0.2", "0.0.0.1/0.0.0.1 10", "0.0.0.3/0.0.0.2 10"),
        router("0.0.0.3", "0.0.0.2/0.0.0.2 10", "0.0.0.4/0.0.0.3 10"),
        router("0.0.0.4", "0.0.0.3/0.0.0.3 10"),
    ),
    "prefix_all_places.lsas": lsas(
        router("0.0.0.1", "0.0.0.2/0.0.0.1 10", "0.0.0.3/0.0.0.2 10", "0.0.0.6/0.0.0.3 10"),
        router("0.0.0.2", "0.0.0.1/0.0.0.1 10"),
        router("0.0.0.3", "0.0.0.1/0.0.0.2 10", "0.0.0.4/0.0.0.4 10", "0.0.0.5/0.0.0.5 10", "0.0.0.5/0.0.0.6 10", "0.0.0.8/0.0.0.7 10"),
        router("0.0.0.4", "0.0.0.3/0.0.0.4 10"),
        router("0.0.0.5", "0.0.0.3/0.0.0.5 10", "0.0.0.3/0.0.0.6 10", "0.0.0.6/0.0.0.8 10", "0.0.0.6/0.0.0.9 10"),
        router("0.0.0.6", "0.0.0.1/0.0.0.3 10", "0.0.0.5/0.0.0.8 10", "0.0.0.5/0.0.0.9 10", "0.0.0.7/0.0.0.10 10", "0.0.0.7/0.0.0.11 10"),
        router("0.0.0.7", "0.0.0.6/0.0.0.10 10", "0.0.0.6/0.0.0.11 10", "0.0.0.8/0.0.0.12 10"),
        router("0.0.0.8", "0.0.0.3/0.0.0.7 10", "0.0.0.7/0.0.0.12 10"),
    ),
    "root_2.profile": b"priority 0.0.0.2 10",
}


def differences():
    """The names of the files that do not lie in the folder as they are told, or that are not told."""
    held = {name: open(os.path.join(DATA, name), "rb").read() for name in os.listdir(DATA)}
    return sorted(name for name in held.keys() | FILES.keys() if held.get(name) != FILES.get(name))


def main():
    if sys.argv[1:] == ["--check"]:
        sys.exit("".join(f"{name} is not as it is told\n" for name in differences()) or 0)
    os.makedirs(DATA, exist_ok=True)
    for name in set(os.listdir(DATA)) - FILES.keys():
        os.remove(os.path.join(DATA, name))
    for name, file in FILES.items():
        with open(os.path.join(DATA, name), "wb") as out:
            out.write(file)


if __name__ == "__main__":
    main()
