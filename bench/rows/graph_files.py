"""The files of crates/graph_tests/data: certificates, and two short files that shelves read. It writes them, or with --check compares.

A certificate is told by its root's number, its nodes (order.head.block), its links (a-b.block.role) and its rows (blue/red.tag), each by ascending
source, then by ascending destination. Node k has the number k + 1, or, where a file is of addresses, that of router (k + 1).(k + 1).(k + 1).(k + 1).
"""
from bench.reference import certificate
from bench.reference.database import ROUTER, Id
from bench.reference.lowpoint import ABOVE, BELOW, CARRIED, CLOSING, HEAD, PLAIN, SOLE, SOLE_LINK, TOP, UNORDERED, Cert, Row
from bench.rows.told import address, main

ROLES = {"plain": PLAIN, "sole": SOLE_LINK, "closing": CLOSING}
TAGS = {"Sole": SOLE, "Head": HEAD, "Top": TOP, "Below": BELOW, "Above": ABOVE, "Unordered": UNORDERED, "Carried": CARRIED}


def numbers(text):
    return [int(number) for number in text.split(".")]


def link_told(text):
    """Both nodes, the block and the role of a link."""
    pair, block, role = text.split(".")
    a, b = pair.split("-")
    return (int(a), int(b)), int(block), ROLES[role]


def row_told(text):
    links, tag = text.split(".")
    blue, red = links.split("/")
    return Row(int(blue), int(red), TAGS[tag])


def cert(version, root, nodes, links, rows, number=lambda n: n):
    """The bytes of a certificate file."""
    order, head, block = zip(*map(numbers, nodes.split()))
    count, rows = len(order), iter(map(row_told, rows.split()))
    table = [[None if s == t else next(rows) for t in range(count)] for s in range(count)]
    pairs, blocks, roles = ([link_told(link)[part] for link in links.split()] for part in range(3))
    ids = [Id(number(k + 1), ROUTER) for k in range(count)]
    return certificate.spelling(certificate.File(version, number(root), ids, pairs, Cert(order, head, block, blocks, roles, table)))


# root, nodes, links and rows
ALONE = 1, "1.0.0", "", ""
PAIR = 1, "1.0.0 2.0.1", "0-1.1.sole", "0/0.Sole 0/0.Sole"
# two routers and their two links
DOUBLE = 1, "1.0.0 2.0.1", "0-1.1.plain 0-1.1.closing", "0/1.Top 1/0.Head"
# routers 1, 2 and 3, each two of them joined; the root is router 3, and the closing link joins 2 and 3
TRIANGLE = (3, "2.2.0 3.2.0 1.2.2", "0-1.0.plain 0-2.0.plain 1-2.0.closing",
            "0/1.Below 0/1.Head  2/0.Above 2/0.Head  1/2.Top 1/2.Top")
# the same with two links of routers 1 and 2 and two of 2 and 3, one of these closing
PARALLEL = (3, "2.2.0 3.2.0 1.2.2", "0-1.0.plain 0-1.0.plain 0-2.0.plain 1-2.0.closing 1-2.0.plain",
            "0/2.Below 0/2.Head  3/0.Above 3/4.Head  2/3.Top 4/3.Top")
# routers 1 to 4 in a line; the root is router 4, and each link is sole
LINE = (4, "4.1.0 3.2.1 2.3.2 1.3.3", "0-1.0.sole 1-2.1.sole 2-3.2.sole",
        "0/0.Sole 0/0.Carried 0/0.Carried  0/0.Sole 1/1.Sole 1/1.Carried  1/1.Carried 1/1.Sole 2/2.Sole  2/2.Carried 2/2.Carried 2/2.Sole")
# three routers, the second one linked to both others; it is the head of all, and the third one the root
STAR = (3, "2.1.0 1.1.1 3.1.2", "0-1.0.sole 1-2.2.sole",
        "0/0.Sole 0/0.Carried  0/0.Sole 1/1.Sole  1/1.Carried 1/1.Sole")
# routers 2, 3 and 4, each joined to routers 1 and 5; the root is router 1, and 2 and 4 are unordered
UNORDERED_ONES = (1, "1.0.0 2.0.1 5.0.1 3.0.1 4.0.1", "0-1.1.plain 0-2.1.closing 0-3.1.plain 1-4.1.plain 2-4.1.plain 3-4.1.plain",
                  "0/1.Top 0/1.Top 2/1.Top 0/1.Top  3/0.Head 3/0.Below 0/3.Unordered 3/0.Below  1/4.Head 1/4.Above 1/4.Above 1/4.Above  "
                  "5/2.Head 2/5.Unordered 5/2.Below 5/2.Below  4/3.Head 4/3.Above 4/3.Below 4/5.Above")
# a ring of routers 1, 2, 3, 5 and 4; the root is router 6, joined to 1 and 5; router 4 is unordered with 2 and 3
CHAINS = (6, "2.5.0 3.5.0 5.5.0 4.5.0 6.5.0 1.5.5", "0-1.0.plain 0-3.0.plain 0-5.0.plain 1-2.0.plain 2-4.0.plain 3-4.0.plain 4-5.0.closing",
          "0/2.Below 0/2.Below 1/2.Below 1/2.Below 1/2.Head  3/0.Above 3/0.Below 0/3.Unordered 3/0.Below 3/0.Head  "
          "4/3.Above 4/3.Above 3/4.Unordered 4/3.Below 4/3.Head  5/1.Above 1/5.Unordered 1/5.Unordered 5/1.Below 5/1.Head  "
          "6/5.Above 6/4.Above 6/4.Above 6/5.Above 6/5.Head  2/6.Top 2/6.Top 2/6.Top 2/6.Top 2/6.Top")
# five routers whose one block has two closing links, in a certificate where each row is Sole
TWO_CLOSING_LINKS = (5, "2.4.0 4.4.0 3.4.0 5.4.0 1.4.4", "0-1.0.plain 0-3.0.plain 0-4.0.plain 1-2.0.plain 1-4.0.closing 2-4.0.plain 3-4.0.closing",
                     20 * "0/0.Sole ")
# a node above the root in the root's block, with another head
STRAY_MEMBER = 1, "1.0.0 2.0.1 3.1.0", "0-1.1.plain 0-2.1.plain 1-2.1.closing", 6 * "0/0.Sole "
# a block with a node in no order with either router, routers that hang on it at a member and at its head or beyond, and parallel links; of the
# reference program, as are the triangle and the line
ALL_PLACES = (2, "2.1.0 1.1.1 3.0.2 4.2.3 5.0.2 8.0.2 7.0.2 6.0.2",
              "0-1.0.sole 0-2.2.plain 0-5.2.closing 2-3.3.sole 2-4.2.plain 2-4.2.plain 2-7.2.plain 4-5.2.plain 4-5.2.plain 5-6.2.plain 5-6.2.plain 6-7.2.plain",
              "0/0.Sole 1/2.Top 1/2.Carried 1/2.Top 1/2.Top 1/2.Top 1/2.Top  0/0.Sole 0/0.Carried 0/0.Carried 0/0.Carried 0/0.Carried 0/0.Carried 0/0.Carried  "
              "4/1.Head 4/1.Carried 3/3.Sole 4/1.Below 4/1.Below 6/1.Below 6/1.Below  3/3.Carried 3/3.Carried 3/3.Sole 3/3.Carried 3/3.Carried 3/3.Carried 3/3.Carried  "
              "7/4.Head 7/4.Carried 7/4.Above 7/4.Carried 7/4.Below 4/7.Unordered 4/7.Unordered  2/7.Head 2/7.Carried 2/7.Above 2/7.Carried 2/7.Above 2/9.Above 2/9.Above  "
              "9/11.Head 9/11.Carried 9/11.Above 9/11.Carried 11/9.Unordered 9/11.Below 9/11.Above  11/6.Head 11/6.Carried 11/6.Above 11/6.Carried 6/11.Unordered 11/6.Below 11/6.Below")

FILES = {
    "alone.1.cert": cert(1, *ALONE, address),
    "triangle.1.cert": cert(1, *TRIANGLE, address),
    "triangle.2.cert": cert(2, *TRIANGLE, address),
    "line.1.cert": cert(1, *LINE, address),
    "line.2.cert": cert(2, *LINE, address),
    "star.1.cert": cert(1, *STAR, address),
    "star.2.cert": cert(2, *STAR, address),
    # what the checker judges
    "judged_alone.cert": cert(1, *ALONE),
    "judged_pair.cert": cert(1, *PAIR),
    "judged_double.cert": cert(1, *DOUBLE),
    "judged_triangle.cert": cert(1, *TRIANGLE),
    "judged_parallel.cert": cert(1, *PARALLEL),
    "judged_line.cert": cert(1, *LINE),
    "judged_unordered.cert": cert(1, *UNORDERED_ONES),
    "judged_chains.cert": cert(1, *CHAINS),
    "judged_two_closing_links.cert": cert(1, *TWO_CLOSING_LINKS),
    "judged_stray_member.cert": cert(1, *STRAY_MEMBER),
    # whose rows prefixes stand on
    "prefix_triangle.cert": cert(2, *TRIANGLE),
    "prefix_line.cert": cert(2, *LINE),
    "prefix_all_places.cert": cert(2, *ALL_PLACES),
    # what shelves read
    "five": b"fives",
    "eight": b"eights!!",
}

if __name__ == "__main__":
    main("graph_tests", FILES)
