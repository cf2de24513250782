"""Compares the reference program with worked examples, and with what a certificate promises, on many small random areas.

usage: python3 -m bench.measure.certify_test [AREAS]
"""
import sys
from random import Random

from bench.areas.areas import bundles, numbered, random_area, router, survey_area, worked
from bench.reference import certificate, certify, flooding, island as islands, lowpoint
from bench.reference.database import Refused
from bench.reference.lsas import MAX_LINK_METRIC, POINT_TO_POINT, STUB, address, lsa, records_of, router_lsa, update


ALONE = router_lsa(router(1), [])
WITH_STUB = router_lsa(router(1), [(router(1), 0xFFFFFFFF, STUB, 0)])
TRIANGLE = worked([(1, 2), (1, 3), (2, 3)])
LINE = worked([(1, 2), (2, 3), (3, 4)])
TWO_TRIANGLES = worked([(1, 2), (1, 3), (2, 3), (3, 4), (3, 5), (4, 5)])
CROSSED = worked([(1, 2), (1, 4), (1, 5), (2, 3), (2, 5), (3, 5), (4, 5)])
UNORDERED = worked([(1, 4), (1, 5), (2, 4), (2, 5), (3, 4), (3, 5)])
LAN = worked([(1, 2)], (address("10.0.0.4"), [1, 2, 3, 4]))
LAN_IN_RING = worked([(2, 4), (3, 4), (1, 4)], (address("10.0.0.3"), [1, 2, 3]), {(1, 4): 100})
PARALLEL = b"".join(router_lsa(router(one), [(router(3 - one), data, POINT_TO_POINT, 10) for data in (1, 2, 3)]) for one in (1, 2))
CUT = worked([(1, 2), (2, 9), (3, 9), (4, 9)])
ONE_SIDED = router_lsa(router(1), [(router(2), 2, POINT_TO_POINT, 10)]) + router_lsa(router(2), [])
# A second link from 1 to 3 is cheaper; each of its ends has link data of its own.
SQUARE = b"".join(router_lsa(router(one), [(router(other), data, POINT_TO_POINT, metric) for other, data, metric in links]) for one, links in [
    (1, [(2, 2, 10), (3, 3, 10), (3, 9, 5)]), (2, [(1, 1, 10), (4, 4, 10)]), (3, [(1, 1, 10), (1, 8, 5), (4, 4, 10)]), (4, [(2, 2, 10), (3, 3, 10)])])


def triangle_of(metrics):
    """The triangle; at router i the link to j has the metric of (i, j), 10 where none is given."""
    return b"".join(router_lsa(router(one), [(router(other), other, POINT_TO_POINT, metrics.get((one, other), 10)) for other in others])
                    for one, others in ((1, (2, 3)), (2, (1, 3)), (3, (1, 2))))


# The link between 1 and 3 is not for transit traffic, by its end at 1 or at 3; it nearly is; no link of 2 is.
OUT_AT_1 = triangle_of({(1, 3): MAX_LINK_METRIC})
OUT_AT_3 = triangle_of({(3, 1): MAX_LINK_METRIC})
NEARLY_OUT = triangle_of({(1, 3): MAX_LINK_METRIC - 1, (3, 1): MAX_LINK_METRIC - 1})
MAINTAINED = triangle_of({(2, 1): MAX_LINK_METRIC, (2, 3): MAX_LINK_METRIC})
ONE_LINK = b"".join(router_lsa(router(one), [(router(3 - one), 3 - one, POINT_TO_POINT, metric)]) for one, metric in ((1, MAX_LINK_METRIC), (2, 10)))

# Written by hand: the certificates of one router, of the triangle and of the line.
ALONE_CERT = "4d525443 00010001000001010101 01010101010001 00000000".replace(" ", "")
TRIANGLE_CERT = """4d525443000100030003 03030303
01 01010101 0002 0002 0000  01 02020202 0003 0002 0000  01 03030303 0001 0002 0002
0000 0001 0000 00  0000 0002 0000 00  0001 0002 0000 02
0000 0001 03  0000 0001 01  0002 0000 04  0002 0000 01  0001 0002 02  0001 0002 02"""
LINE_CERT = """4d52544300010004000304040404
01 01010101 0004 0001 0000  01 02020202 0003 0002 0001  01 03030303 0002 0003 0002  01 04040404 0001 0003 0003
0000 0001 0000 01  0001 0002 0001 01  0002 0003 0002 01
0000000000 0000000006 0000000006  0000000000 0001000100 0001000106
0001000106 0001000100 0002000200  0002000206 0002000206 0002000200"""

# The same in version 2, which leaves the carried rows out.
ALONE_CERT_2, TRIANGLE_CERT_2 = (text.replace("4d5254430001", "4d5254430002", 1) for text in (ALONE_CERT, TRIANGLE_CERT))
LINE_CERT_2 = """4d52544300020004000304040404
01 01010101 0004 0001 0000  01 02020202 0003 0002 0001  01 03030303 0002 0003 0002  01 04040404 0001 0003 0003
0000 0001 0000 01  0001 0002 0001 01  0002 0003 0002 01
0000000000  0000000000 0001000100  0001000100 0002000200  0002000200"""

CERTS = [("one router", ALONE, ALONE_CERT_2), ("a stub link", WITH_STUB, ALONE_CERT_2), ("a triangle", TRIANGLE, TRIANGLE_CERT_2), ("a line", LINE, LINE_CERT_2)]

# Database, certificate, and what `upgrade` writes, or says.
UPGRADES = [
    (TRIANGLE, TRIANGLE_CERT, TRIANGLE_CERT_2), (TRIANGLE, TRIANGLE_CERT_2, TRIANGLE_CERT_2), (LINE, LINE_CERT, LINE_CERT_2),
    (LINE, LINE_CERT_2, LINE_CERT_2), (LINE, TRIANGLE_CERT, "no: rule 1 at 0 2"),
]

# The texts on repairs by order, or the last lines of them.
REPAIRS = [
    ("a triangle", TRIANGLE, 2, "order 2.2.2.2 root 3.3.3.3\n1.1.1.1 --r brr\n3.3.3.3 b-- bbr"),
    ("an unordered pair", UNORDERED, 1, "3.3.3.3 -b-br brbbbr"),
]

# The texts on prefixes.
PREFIXES = [
    (TRIANGLE, (3, 1, 2), """proxy 1.1.1.1 2.2.2.2 root 3.3.3.3
1.1.1.1 blue attached red 3.3.3.3/0.0.0.3
2.2.2.2 blue 3.3.3.3/0.0.0.3 red attached
3.3.3.3 blue 1.1.1.1/0.0.0.1 red 2.2.2.2/0.0.0.2"""),
    (LINE, (4, 1, 2), """proxy 1.1.1.1 2.2.2.2 root 4.4.4.4
1.1.1.1 blue 2.2.2.2/0.0.0.2 red attached
2.2.2.2 blue attached red 1.1.1.1/0.0.0.1
3.3.3.3 blue 2.2.2.2/0.0.0.2 red 2.2.2.2/0.0.0.2
4.4.4.4 blue 3.3.3.3/0.0.0.3 red 3.3.3.3/0.0.0.3"""),
    (LINE, (4, 1, 3), "no common block"),
]

# The texts on loop-free alternates.
ALTERNATES = [
    ("a triangle", TRIANGLE, "2.2.2.2 primary 2.2.2.2/0.0.0.2 lfa 3.3.3.3/0.0.0.3 next 3.3.3.3 link"),
    ("a ring", worked([(1, 2), (2, 3), (3, 4), (1, 4)]), """lfa 1.1.1.1 nodes 4
2.2.2.2 primary 2.2.2.2/0.0.0.2 lfa none
3.3.3.3 primary 2.2.2.2/0.0.0.2 lfa 4.4.4.4/0.0.0.4 next 4.4.4.4 node
4.4.4.4 primary 4.4.4.4/0.0.0.4 lfa none"""),
]

# The order of the GADAG.
ORDERS = [
    ("a triangle", TRIANGLE, 2, "order 3.3.3.3 1.1.1.1 2.2.2.2"),
    ("parallel links", PARALLEL, 1, "order 2.2.2.2 1.1.1.1"),
    ("two triangles", TWO_TRIANGLES, 1, "order 5.5.5.5 3.3.3.3 1.1.1.1 4.4.4.4 2.2.2.2"),
    ("a root that cuts", CUT, 1, "order 9.9.9.9 2.2.2.2 3.3.3.3 4.4.4.4 1.1.1.1"),
    ("an unordered pair", UNORDERED, 1, "order 5.5.5.5 1.1.1.1 3.3.3.3 4.4.4.4 2.2.2.2"),
    ("a LAN in a ring", LAN_IN_RING, 2, "order 4.4.4.4 2.2.2.2 3.3.3.3 net:10.0.0.3 1.1.1.1"),
]

# Tables, or the last lines of them.
TABLES = [
    ("a triangle", TRIANGLE, b"", 2, """
router 2.2.2.2 root 3.3.3.3 nodes 3 links 3
1.1.1.1 above blue 3.3.3.3/0.0.0.3 red 1.1.1.1/0.0.0.1 primary 1.1.1.1/0.0.0.1 repair b-
3.3.3.3 head blue 3.3.3.3/0.0.0.3 red 1.1.1.1/0.0.0.1 primary 3.3.3.3/0.0.0.3 repair r-"""),
    ("a line", LINE, b"", 1, """
router 1.1.1.1 root 4.4.4.4 nodes 4 links 3
2.2.2.2 sole blue 2.2.2.2/0.0.0.2 red 2.2.2.2/0.0.0.2 primary 2.2.2.2/0.0.0.2 repair --
3.3.3.3 carried blue 2.2.2.2/0.0.0.2 red 2.2.2.2/0.0.0.2 primary 2.2.2.2/0.0.0.2 repair --
4.4.4.4 carried blue 2.2.2.2/0.0.0.2 red 2.2.2.2/0.0.0.2 primary 2.2.2.2/0.0.0.2 repair --"""),
    ("parallel links", PARALLEL, b"", 1, """
router 1.1.1.1 root 2.2.2.2 nodes 2 links 3
2.2.2.2 head blue 2.2.2.2/0.0.0.2 red 2.2.2.2/0.0.0.1 primary 2.2.2.2/0.0.0.1 repair b-"""),
    ("two triangles", TWO_TRIANGLES, b"", 1, """
router 1.1.1.1 root 5.5.5.5 nodes 5 links 6
2.2.2.2 below blue 2.2.2.2/0.0.0.2 red 3.3.3.3/0.0.0.3 primary 2.2.2.2/0.0.0.2 repair r-
3.3.3.3 head blue 2.2.2.2/0.0.0.2 red 3.3.3.3/0.0.0.3 primary 3.3.3.3/0.0.0.3 repair b-
4.4.4.4 carried blue 2.2.2.2/0.0.0.2 red 3.3.3.3/0.0.0.3 primary 3.3.3.3/0.0.0.3 repair b-
5.5.5.5 carried blue 2.2.2.2/0.0.0.2 red 3.3.3.3/0.0.0.3 primary 3.3.3.3/0.0.0.3 repair b-"""),
    ("an unordered pair", UNORDERED, b"", 1, """
3.3.3.3 unordered blue 5.5.5.5/0.0.0.5 red 4.4.4.4/0.0.0.4 primary 4.4.4.4/0.0.0.4 repair bb
4.4.4.4 below blue 4.4.4.4/0.0.0.4 red 5.5.5.5/0.0.0.5 primary 4.4.4.4/0.0.0.4 repair r-
5.5.5.5 head blue 4.4.4.4/0.0.0.4 red 5.5.5.5/0.0.0.5 primary 5.5.5.5/0.0.0.5 repair b-"""),
    ("a LAN", LAN, b"", 1, """
router 1.1.1.1 root 4.4.4.4 nodes 5 links 5
2.2.2.2 below blue 2.2.2.2/0.0.0.2 red net:10.0.0.4/10.0.0.1 primary 2.2.2.2/0.0.0.2 repair r-
3.3.3.3 carried blue 2.2.2.2/0.0.0.2 red net:10.0.0.4/10.0.0.1 primary net:10.0.0.4/10.0.0.1 repair b---
4.4.4.4 carried blue 2.2.2.2/0.0.0.2 red net:10.0.0.4/10.0.0.1 primary net:10.0.0.4/10.0.0.1 repair b---
net:10.0.0.4 head blue 2.2.2.2/0.0.0.2 red net:10.0.0.4/10.0.0.1 primary net:10.0.0.4/10.0.0.1 repair b-"""),
    ("a LAN in a ring", LAN_IN_RING, b"", 2, """
router 2.2.2.2 root 4.4.4.4 nodes 5 links 6
1.1.1.1 below blue net:10.0.0.3/10.0.0.2 red 4.4.4.4/0.0.0.4 primary net:10.0.0.3/10.0.0.2 repair rrr-
3.3.3.3 unordered blue 4.4.4.4/0.0.0.4 red net:10.0.0.3/10.0.0.2 primary net:10.0.0.3/10.0.0.2 repair bbb-
4.4.4.4 head blue net:10.0.0.3/10.0.0.2 red 4.4.4.4/0.0.0.4 primary 4.4.4.4/0.0.0.4 repair b-
net:10.0.0.3 below blue net:10.0.0.3/10.0.0.2 red 4.4.4.4/0.0.0.4 primary net:10.0.0.3/10.0.0.2 repair r-"""),
    ("a one-way link", ONE_SIDED, b"", 1, "router 1.1.1.1 root 1.1.1.1 nodes 1 links 0"),
    ("another root", TRIANGLE, b"priority 1.1.1.1 10", 1, """
router 1.1.1.1 root 1.1.1.1 nodes 3 links 3
2.2.2.2 top blue 2.2.2.2/0.0.0.2 red 3.3.3.3/0.0.0.3 primary 2.2.2.2/0.0.0.2 repair r-
3.3.3.3 top blue 2.2.2.2/0.0.0.2 red 3.3.3.3/0.0.0.3 primary 3.3.3.3/0.0.0.3 repair b-"""),
    ("a router that is out", LINE, b"no-mrt 2.2.2.2", 2, "not there: 2.2.2.2"),
    ("its neighbour", LINE, b"no-mrt 2.2.2.2", 1, "router 1.1.1.1 root 1.1.1.1 nodes 1 links 0"),
    ("a primary outside the island", SQUARE, b"ineligible 1.1.1.1 0.0.0.9", 1, """
4.4.4.4 head blue 3.3.3.3/0.0.0.3 red 2.2.2.2/0.0.0.2 primary 3.3.3.3/0.0.0.9 repair br"""),
    ("no such router", TRIANGLE, b"", 9, "not there: 9.9.9.9"),
    ("a link that is not for transit", OUT_AT_1, b"", 1, """
router 1.1.1.1 root 3.3.3.3 nodes 3 links 2
2.2.2.2 sole blue 2.2.2.2/0.0.0.2 red 2.2.2.2/0.0.0.2 primary 2.2.2.2/0.0.0.2 repair --
3.3.3.3 carried blue 2.2.2.2/0.0.0.2 red 2.2.2.2/0.0.0.2 primary 2.2.2.2/0.0.0.2 repair --"""),
    ("a primary over it", OUT_AT_3, b"", 1, """
router 1.1.1.1 root 3.3.3.3 nodes 3 links 2
2.2.2.2 sole blue 2.2.2.2/0.0.0.2 red 2.2.2.2/0.0.0.2 primary 2.2.2.2/0.0.0.2 repair --
3.3.3.3 carried blue 2.2.2.2/0.0.0.2 red 2.2.2.2/0.0.0.2 primary 3.3.3.3/0.0.0.3 repair b-"""),
    ("a metric below it", NEARLY_OUT, b"", 1, "3.3.3.3 head blue 3.3.3.3/0.0.0.3 red 2.2.2.2/0.0.0.2 primary 2.2.2.2/0.0.0.2 repair bb"),
    ("a router in maintenance", MAINTAINED, b"", 2, "router 2.2.2.2 root 2.2.2.2 nodes 1 links 0"),
    ("its neighbour", MAINTAINED, b"", 1, """
router 1.1.1.1 root 3.3.3.3 nodes 2 links 1
3.3.3.3 sole blue 3.3.3.3/0.0.0.3 red 3.3.3.3/0.0.0.3 primary 3.3.3.3/0.0.0.3 repair --"""),
]

# Traces.
TRACES = [
    ("over a link that is not for transit", ONE_LINK, "1.1.1.1 2.2.2.2 repair", "entered 0\ndelivered 2.2.2.2\n"),
    ("where it has failed", ONE_LINK, "1.1.1.1 2.2.2.2 repair link:1.1.1.1/0.0.0.2", "failed\nentered 0\nlost outside\n"),
]

# The bytes of three packets, by hand: the triangle whole, its first LSA, its second and third.
PACKETS = bytes.fromhex("020400ac 01010101 00000000 000000000000000000000000 00000003") + TRIANGLE
PACKETS += bytes.fromhex("0204004c 01010101 00000000 000000000000000000000000 00000001") + TRIANGLE[:48]
PACKETS += bytes.fromhex("0204007c 01010101 00000000 000000000000000000000000 00000002") + TRIANGLE[48:]

# The triangle with each metric twice as large, which has the same certificate.
FARTHER = triangle_of({(one, other): 20 for one in (1, 2, 3) for other in (1, 2, 3)})
# Instances of router 1 alone: another age, another text of the same rank, withdrawn at the same number and at a greater one, and one greater still.
AGED, TWIN = (1000).to_bytes(2, "big") + ALONE[2:], ALONE[:20] + b"\xff" + ALONE[21:]
GONE, WITHDRAWN, NEWER = (router_lsa(router(1), [], age, 0x80000000 + number) for age, number in ((3600, 1), (3600, 2), (1, 3)))
EXTERNAL = lsa(5, 0, router(1), bytes(16))


def packets(*lists):
    """A file of packets, each of these LSAs."""
    return b"".join(update(router(1), records) for records in lists)


def singles(count):
    """The LSAs of so many routers, none with a link, in eight packets."""
    records = [router_lsa(each, []) for each in range(1, count + 1)]
    return packets(*(records[each::8] for each in range(8)))


def parallel(count):
    """Eight routers in pairs, each pair with so many links, a packet for each router."""
    links = numbered(bundles(count))
    return packets(*([router_lsa(each, links[each])] for each in sorted(links)))


# Packets, profile, how many routers, and lines with their answers.
FLOODS = [
    ("a triangle", PACKETS, b"", 2, """
deliver 0 0: changed 3 sent 3
deliver 0 0: changed 0
deliver 2 1: changed 2 sent 4
same 0 1 3.3.3.3: different
same 0 1 1.1.1.1: none
deliver 1 1: changed 1 sent 5
deliver 3 1: changed 0
same 0 1 1.1.1.1: same
deliver 9 0: refused no-such-packet
deliver 0 5: refused no-such-router"""),
    ("newer and older instances", packets([ALONE], [NEWER], [WITHDRAWN], [ALONE, WITHDRAWN, NEWER]), b"", 2, """
deliver 0 0: changed 1 sent 4
deliver 2 0: changed 1 sent 5
same 0 0 1.1.1.1: none
deliver 1 0: changed 1 sent 6
deliver 2 0: changed 0
deliver 0 0: changed 0
same 0 0 1.1.1.1: same
deliver 3 1: changed 3 sent 7
same 1 0 1.1.1.1: same
deliver 7 0: changed 0"""),
    ("ages", packets([ALONE], [AGED], [GONE]), b"", 2, """
deliver 0 0: changed 1 sent 3
deliver 1 0: changed 0
deliver 1 1: changed 1 sent 4
same 0 1 1.1.1.1: same
deliver 2 0: changed 1 sent 5
same 0 1 1.1.1.1: none
deliver 1 0: changed 0"""),
    ("a conflict", packets([ALONE], [TWIN], [NEWER]), b"", 2, """
deliver 0 0: changed 1 sent 3
deliver 0 1: changed 1 sent 4
deliver 1 0: changed 0
same 0 1 1.1.1.1: none
deliver 2 0: changed 1 sent 5
same 0 0 1.1.1.1: same"""),
    ("LSAs of other types", packets([EXTERNAL], [EXTERNAL, ALONE, EXTERNAL], []), b"", 2, """
deliver 0 0: changed 0
deliver 2 0: changed 0
deliver 1 0: changed 1 sent 3
deliver 3 1: changed 1 sent 4
same 0 1 1.1.1.1: same"""),
    ("what was new is sent on", packets(records_of(TRIANGLE)[:2], records_of(TRIANGLE)[:1]), b"", 2, """
deliver 2 0: refused no-such-packet
deliver 1 0: changed 1 sent 2
deliver 0 0: changed 1 sent 3
deliver 3 1: changed 1 sent 4
same 1 1 1.1.1.1: none
same 1 1 2.2.2.2: same
deliver 4294967295 65535: refused no-such-packet"""),
    ("a router that is out", packets(records_of(TRIANGLE)), b"no-mrt 1.1.1.1", 1, """
deliver 0 0: changed 3 sent 1
same 0 0 1.1.1.1: none
same 0 0 2.2.2.2: same"""),
    ("other metrics", packets(*map(records_of, (TRIANGLE, FARTHER, OUT_AT_1))), b"", 3, """
deliver 0 0: changed 3 sent 3
deliver 1 1: changed 3 sent 4
deliver 2 2: changed 3 sent 5
same 0 1 1.1.1.1: same
same 0 2 1.1.1.1: different
same 0 2 4.4.4.4: none"""),
]

# Eight packets of an area, and what a comparison says after all of them.
LARGE = [("the most nodes", singles(4096), "same"), ("too many nodes", singles(4097), "none"), ("the most arcs", parallel(4096), "same"),
         ("too many arcs", parallel(4097), "none")]

# Packets, profile, script, and its answers or the refusal.
SCRIPTS = [
    (b"", b"", b" \t\n#\xff\nrouters 64\r\n\tdeliver  0\t0 \r\nsame 63 63 1.1.1.1", "refused no-such-packet\nnone\n"),
    (PACKETS, b"", b"routers 1", ""),
    (PACKETS, b"", b"routers 1\n" + b"deliver 9 0\n" * 65535 + b"#\nsame 0 0 1.1.1.1\n", "refused no-such-packet\n" * 65535 + "none\n"),
    (PACKETS, b"", b"routers 1\n" + b"deliver 9 0\n" * 65535 + b"#\nsame 0 0 1.1.1.1\ndeliver 9 0\nstop", "bad script on line 65539"),
    (PACKETS, b"", b"", "bad script on line 1"),
    (PACKETS, b"", b"#\n\n", "bad script on line 3"),
    (PACKETS, b"", b"#\n ", "bad script on line 3"),
    (PACKETS, b"", b"routers 0", "bad script on line 1"),
    (PACKETS, b"", b"routers 65", "bad script on line 1"),
    (PACKETS, b"", b"deliver 0 0", "bad script on line 1"),
    (PACKETS, b"", b"routers 2\nrouters 2", "bad script on line 2"),
    (PACKETS, b"", b"routers 2\ndeliver 4294967296 0", "bad script on line 2"),
    (PACKETS, b"", b"routers 2\ndeliver 0 65536", "bad script on line 2"),
    (PACKETS, b"", b"routers 2\ndeliver 00 0", "bad script on line 2"),
    (PACKETS, b"", b"routers 2\ndeliver 0 0\r", "bad script on line 2"),
    (PACKETS, b"", b"routers 2\nsame 0 2 1.1.1.1", "bad script on line 2"),
    (PACKETS, b"", b"routers 2\nsame 0 1 net:1.1.1.1", "bad script on line 2"),
    (PACKETS[:-1], b"weight", b"", "bad update: truncated at 248"),
    (PACKETS, b"weight", b"", "bad profile: words on line 1"),
]


def answer(function, *arguments):
    """What a function gives, or the line of its refusal."""
    try:
        return function(*arguments)
    except Refused as refused:
        return refused.line


def flooded(updates, profile, script):
    """The lines of a script's answers, or the line of the refusal."""
    given = answer(certify.flood, updates, profile, script)
    return given if isinstance(given, str) else given.decode()


def changed(cert, at, text):
    return cert[:at] + bytes.fromhex(text) + cert[at + len(text) // 2:]


def crossed_by_hand():
    """A certificate in which one block has two closing links."""
    found = certify.island_of(CROSSED, b"", router(5))
    rows = [[lowpoint.Row(0, 0, 0) if s != t else None for t in range(5)] for s in range(5)]
    return certificate.write(found, lowpoint.Cert([2, 4, 3, 5, 1], [4] * 5, [0, 0, 0, 0, 4], [0] * 7, [0, 0, 0, 0, 2, 0, 2], rows))


def checks():
    """Database, profile, certificate, and what `check` is to say."""
    triangle, line = bytes.fromhex(TRIANGLE_CERT), bytes.fromhex(LINE_CERT)
    return [
        (TRIANGLE, b"", triangle, "accepted root 3.3.3.3 nodes 3 links 3"),
        (TRIANGLE, b"", changed(triangle, 68, "0002"), "no: rule 10 at 0 1"),
        (TRIANGLE, b"", changed(triangle, 72, "07"), "bad certificate: tag at 72"),
        (TRIANGLE, b"", triangle + b"\0", "bad certificate: trailing at 98"),
        (TRIANGLE, b"", triangle[:-1], "bad certificate: truncated at 97"),
        (TRIANGLE, b"", changed(triangle, 0, "00"), "bad certificate: magic at 0"),
        (TRIANGLE, b"", changed(triangle, 68, "0003"), "bad certificate: range at 68"),
        (CROSSED, b"", crossed_by_hand(), "no: rule 6 at 0 0"),
        (LINE, b"no-mrt 4.4.4.4", line, "not there: 4.4.4.4"),
        (LINE, b"no-mrt 1.1.1.1", line, "no: rule 1 at 0 2"),
        (LINE, b"priority 3.3.3.3 10", line, "no: rule 2 at 2 2"),
        (LINE, b"priority 4.4.4.4 128\n", line, "accepted root 4.4.4.4 nodes 4 links 3"),
        (LINE, b"priority 1.1.1.1 10\npriority 1.1.1.1 10", line, "bad profile: repeated on line 2"),
        (LINE, b"#\xff\n\t \npriority 1.1.1 10", line, "bad profile: address on line 3"),
        (LINE, b"priority 1.1.1.1 256", line, "bad profile: number on line 1"),
        (LINE, b"weight 1.1.1.1 2", line, "bad profile: words on line 1"),
        (TRIANGLE[:143], b"", triangle, "bad database: truncated at 96"),
        (changed(ALONE, 16, "0000"), b"", triangle, "bad database: checksum at 0"),
        (changed(ALONE, 18, "0013"), b"", triangle, "bad database: length at 0"),
        (changed(ALONE, 12, "80000000")[:16] + bytes.fromhex("3527") + ALONE[18:], b"", triangle, "bad database: reserved-sequence at 0"),
        (router_lsa(router(1), [(router(2), 2, 1, 10), (router(3), 3, 1, 0)]) + TRIANGLE[48:], b"", triangle, "bad database: zero-metric at 0"),
        (ALONE + changed(ALONE, 20, "ff"), b"", triangle, "bad database: conflict at 24 with 0"),
        (ALONE + ALONE, b"", bytes.fromhex(ALONE_CERT), "accepted root 1.1.1.1 nodes 1 links 0"),
        (TRIANGLE, b"", changed(triangle, 5, "02"), "accepted root 3.3.3.3 nodes 3 links 3"),
        (TRIANGLE, b"", changed(changed(triangle, 5, "02"), 72, "06"), "bad certificate: tag at 72"),
        (TRIANGLE, b"", changed(changed(changed(triangle, 5, "02"), 21, "0001"), 32, "0000"), "bad certificate: heads at 21"),
        (LINE, b"", bytes.fromhex(LINE_CERT_2), "accepted root 4.4.4.4 nodes 4 links 3"),
        (OUT_AT_1, b"", triangle, "no: rule 1 at 0 2"),
        (OUT_AT_3, b"", triangle, "no: rule 1 at 0 2"),
        (NEARLY_OUT, b"", triangle, "accepted root 3.3.3.3 nodes 3 links 3"),
    ]


def bad_updates():
    """Packets, and their first fault."""
    two = PACKETS[:172]
    spoilt = two[:60] + bytes([two[60] ^ 1]) + two[61:]
    return [
        (PACKETS[:-1], "truncated at 248"),
        (changed(PACKETS, 24, "00000004"), "count at 0"),
        (changed(PACKETS, 24, "ffffffff"), "count at 0"),
        (PACKETS + PACKETS[:27], "truncated at 372"),
        (PACKETS + b"\0" * 28, "header at 372"),
        (changed(PACKETS, 0, "0304ffff"), "truncated at 0"),
        (changed(PACKETS, 172, "0304001b"), "header at 172"),
        (changed(PACKETS, 172, "02050000"), "header at 172"),
        (changed(PACKETS, 172, "0204001b"), "length at 172"),
        (changed(PACKETS, 2, "001c"), "count at 0"),
        (changed(PACKETS, 2, "00ab"), "truncated at 124"),
        (changed(PACKETS, 2, "00ad"), "truncated at 172"),
        (two + spoilt, "checksum at 200"),
        (changed(two, 24, "00000004") + spoilt, "count at 0"),
        (two + changed(spoilt, 24, "00000004"), "checksum at 200"),
        (packets([ALONE, changed(ALONE, 18, "0013")]), "length at 52"),
        (packets([ALONE], [router_lsa(router(1), [], 1, 0x80000000)]), "reserved-sequence at 80"),
        (packets([lsa(1, router(1), router(2), bytes(4))]), "id-mismatch at 28"),
        (packets([ALONE], [], [ALONE, lsa(1, router(1), router(1), bytes(3) + b"\1")]), "body at 132"),
        (packets([router_lsa(router(1), [(router(2), 2, 1, 0)])]), "zero-metric at 28"),
    ]


# what a certificate promises

def walk(pairs, rows, color, s, t):
    """The nodes and links of a color's walk; nothing where it meets a node twice or leaves the way."""
    nodes, links = [s], []
    while nodes[-1] != t:
        at = nodes[-1]
        link = rows[at][t][color]
        if at not in pairs[link]:
            return None
        a, b = pairs[link]
        nodes.append(b if at == a else a)
        links.append(link)
        if len(set(nodes)) < len(nodes):
            return None
    return nodes, links


def joined(count, pairs, s, t, without_node=None, without_link=None):
    """Whether a walk joins two nodes without one element."""
    found, waiting = {s}, [s]
    while waiting:
        at = waiting.pop()
        for link, pair in enumerate(pairs):
            if at in pair and link != without_link:
                other = sum(pair) - at
                if other != without_node and other not in found:
                    found.add(other)
                    waiting.append(other)
    return t in found


def is_sound(count, pairs, rows):
    """Both colors reach every node, and share only what separates the two ends."""
    for s in range(count):
        for t in range(count):
            if s != t:
                blue, red = (walk(pairs, rows, color, s, t) for color in (0, 1))
                if blue is None or red is None:
                    return False
                nodes = set(blue[0]) & set(red[0]) - {s, t}
                links = set(blue[1]) & set(red[1])
                if any(joined(count, pairs, s, t, without_node=node) for node in nodes):
                    return False
                if any(joined(count, pairs, s, t, without_link=link) for link in links):
                    return False
    return True


def survey(number, nodes):
    """Counts of the certificate of such an area: nodes, links, blocks, sole links, carried rows and others, sums of blue and red."""
    found = certify.island_of(survey_area(number, nodes), b"", nodes)
    cert = lowpoint.compute(found)
    assert answer(certify.check, survey_area(number, nodes), b"", certificate.write(found, cert)).startswith("accepted")
    rows = [row for rows in cert.rows for row in rows if row]
    carried = sum(row.tag == lowpoint.CARRIED for row in rows)
    return (len(found.ids), len(found.links), len(set(cert.link_block)), cert.role.count(lowpoint.SOLE_LINK), len(rows) - carried, carried,
            sum(row.blue for row in rows), sum(row.red for row in rows))


# what flooding promises

def newer(record):
    """The next instance of an LSA."""
    number = lambda start, end: int.from_bytes(record[start:end], "big")
    return lsa(number(3, 4), number(4, 8), number(8, 12), record[20:], number(0, 2), number(12, 16) + 1)


def converges(random, data):
    """Whether three routers come to one certificate, where each LSA of a database, and a newer instance of some, reaches one of them, and each
    packet that is sent on all of them, in any order."""
    records = records_of(data)
    records += map(newer, random.sample(records, random.randint(0, len(records))))
    flood = flooding.Flood(flooding.read_updates(packets(*([record] for record in records))), 3)
    waiting = [(packet, random.randrange(3)) for packet in range(len(records))]
    while waiting:
        line = flood.deliver(*waiting.pop(random.randrange(len(waiting))))
        if line != "changed 0":
            waiting += [(len(flood.packets) - 1, each) for each in range(3)]
    return all(flood.same(0, each, islands.EMPTY, router(1)) == "same" for each in range(3))


def expect(what, got, wanted):
    if got != wanted:
        sys.exit(f"{what}: {got!r}, not {wanted!r}")


def main():
    for what, data, text in CERTS:
        expect(what, certify.certify(data, b"", router(1)).hex(), bytes.fromhex(text).hex())
    for what, data, source, text in ORDERS:
        expect(what, certify.rows(data, b"", router(source))[-1], text)
    for what, data, profile, source, text in TABLES:
        lines = answer(certify.table, data, profile, router(source)).split("\n")
        expect(what, lines[-len(text.strip().split("\n")):], text.strip().split("\n"))
    for what, data, words, text in TRACES:
        expect(what, answer(certify.trace, data, b"", [word.encode() for word in words.split(" ")]), text.encode())
    for number, (data, cert, written) in enumerate(UPGRADES):
        given = answer(certify.upgrade, data, b"", bytes.fromhex(cert))
        expect(f"upgrade {number}", given, written if isinstance(given, str) else bytes.fromhex(written))
    for what, data, source, text in REPAIRS:
        expect(what, text in answer(certify.order, data, b"", router(source)), True)
    for data, routers, text in PREFIXES:
        expect(f"a prefix {routers}", answer(certify.proxy, data, b"", [router(one) for one in routers]), text)
    for what, data, text in ALTERNATES:
        expect(what, text in answer(certify.lfa, data, router(1)), True)
    for number, (data, profile, cert, line) in enumerate(checks()):
        expect(f"check {number}", answer(certify.check, data, profile, cert), line)
    for what, updates, profile, routers, text in FLOODS:
        lines, answers = zip(*(line.split(": ") for line in text.strip().split("\n")))
        script = "\n".join([f"routers {routers}", *lines]).encode()
        expect(what, flooded(updates, profile, script).split("\n"), [*answers, ""])
    for what, updates, verdict in LARGE:
        script = "\n".join(["routers 1", *(f"deliver {each} 0" for each in range(8)), "same 0 0 0.0.0.1"]).encode()
        expect(what, flooded(updates, b"", script).split("\n")[-2], verdict)
    for number, (updates, profile, script, text) in enumerate(SCRIPTS):
        expect(f"script {number}", flooded(updates, profile, script), text)
    for number, (updates, line) in enumerate(bad_updates()):
        expect(f"packets {number}", flooded(updates, b"", b"routers 1"), f"bad update: {line}")
    expect("survey 0 4", survey(0, 4), (4, 5, 1, 0, 12, 0, 23, 27))
    expect("survey 7 300", survey(7, 300)[:6], (300, 360, 61, 60, 57480, 32220))
    areas, random = int(sys.argv[1]) if len(sys.argv) > 1 else 500, Random(1)
    for number in range(areas):
        data = random_area(random)
        cert = certify.certify(data, b"", router(1))
        expect(f"area {number}", answer(certify.check, data, b"", cert).split(" ")[0], "accepted")
        expect(f"upgrade of area {number}", certify.upgrade(data, b"", cert) == cert, True)
        file = certificate.read(cert)
        older = certificate.spelling(file._replace(version=1))
        expect(f"area {number} in version 1", certify.upgrade(data, b"", older) == cert, True)
        expect(f"flooding of area {number}", converges(random, data), True)
        expect(f"sound {number}", is_sound(len(file.ids), file.pairs, file.cert.rows), True)
    print(f"{len(CERTS)} certificates, {len(ORDERS)} orders, {len(TABLES)} tables, {len(TRACES)} traces, {len(checks())} checks, {len(FLOODS) + len(LARGE)} floods, "
          f"{len(SCRIPTS)} scripts of deliveries, {len(bad_updates())} files of bad packets and {areas} random areas as expected")


if __name__ == "__main__":
    main()
