"""Areas of many shapes, each by its name and a number of nodes: the largest ones that a form can meet, and the same at any other size.

Routers have the numbers from 1 on as router IDs. A shape has at most so many nodes, mostly exactly so many; networks count.
"""

from collections import namedtuple
from itertools import combinations
from random import Random

from bench.areas import areas
from bench.reference.lsas import TRANSIT, address, network_lsa

# The bytes of a database; two routers of one block, none where no two routers have one; the words of a survey of the same network, if there is one.
Made = namedtuple("Made", "data ends survey", defaults=[None])

WIDE = 32
RING, SMALL_RING, CLIQUE = 64, 16, 8
TREE = 32
PARALLEL = 4
LAN_ROUTERS, LAN_ROOM = 20, 4096
EQUAL, HEAVY, MOST_METRIC = 1, 65534, 64
SURVEY, SURVEY_NODES = 7, 2048


# links as pairs of routers


def line(routers):
    return list(zip(routers, routers[1:]))


def ring(routers):
    return line([*routers, routers[0]])


def clique(routers):
    return list(combinations(routers, 2))


def grid(routers, wide=WIDE):
    """A grid with so many routers in a row, of which any number stand in the last one."""
    return [(routers[a - 1], routers[b - 1]) for a, b in areas.grid(len(routers), wide)]


def heap(routers):
    """A tree in which two routers at most hang at each one."""
    return [(routers[(place - 1) // 2], each) for place, each in enumerate(routers) if place]


def between(one, other, routers):
    """Two routers with all these between them."""
    return [(end, each) for each in routers for end in (one, other)]


def numbers(first, count):
    return list(range(first, first + count))


# databases


def database(pairs, lans=(), metric=lambda: EQUAL):
    """The database of these links and LANs. Link data is the link's number at both ends, and an address on a LAN, whose first router is
    the designated one. The metric of each end is asked for in turn."""
    links, networks = areas.numbered(pairs, metric), []
    for place, attached in enumerate(lans):
        number = address("10.0.0.1") + place * LAN_ROOM
        for data, each in enumerate(attached, number):
            links.setdefault(each, []).append((number, data, TRANSIT, metric()))
        networks.append(network_lsa(number, attached[0], 0xFFFFFFFF ^ LAN_ROOM - 1, attached))
    return areas.database(links) + b"".join(networks)


def any_metric(seed):
    """Each end of a link has a metric of its own."""
    random = Random(seed)
    return lambda: random.randint(1, MOST_METRIC)


def plain(pairs, ends):
    return Made(database(pairs), ends)


# shapes


def mesh(n, metric=None):
    return Made(database(grid(numbers(1, n)), metric=metric or any_metric(n)), (1, n // 2))


def comb(n):
    """A line of half the routers, at each of which one more hangs."""
    half = n // 2
    return plain(line(numbers(1, half)) + list(zip(numbers(1, half), numbers(half + 1, half))), (1, 2))


def chain_of_rings(n):
    """Rings of 64 in a row, in a small area shorter ones. A link joins the middle of one to the first router of the next."""
    size = min(RING, n // 8)
    starts = range(1, n - size + 2, size)
    pairs = [pair for start in starts for pair in ring(numbers(start, size))]
    return plain(pairs + [(start + size // 2, start + size) for start in starts[:-1]], (1, size // 2))


def tree_of_rings(n):
    """Rings of 16, at each of which two more hang, which share a router with it."""
    rings = [numbers(1, SMALL_RING)]
    while rings[-1][-1] + SMALL_RING - 1 <= n:
        above, place = divmod(len(rings) - 1, 2)
        rings.append([rings[above][5 * (place + 1)]] + numbers(rings[-1][-1] + 1, SMALL_RING - 1))
    return plain([pair for each in rings for pair in ring(each)], (1, SMALL_RING // 2))


def cliques(n):
    """Cliques of eight in a row, each of which shares a router with the next."""
    starts = range(1, n - CLIQUE + 2, CLIQUE - 1)
    return plain([pair for start in starts for pair in clique(numbers(start, CLIQUE))], (1, 2))


def triangles(n):
    """Triangles that share one router."""
    starts = range(2, n, 2)
    return plain([pair for start in starts for pair in clique([1, start, start + 1])], (1, 2))


def two_meshes(n):
    """Two meshes that share one router, a corner of both."""
    half = n // 2
    return Made(database(grid(numbers(1, half)) + grid(numbers(half, half)), metric=any_metric(n)), (1, half // 2))


def spurs(n, count):
    """A mesh, at so many routers of which one more hangs."""
    inner = n - count
    pairs = grid(numbers(1, inner)) + [(1 + place * inner // count, inner + 1 + place) for place in range(count)]
    return Made(database(pairs, metric=any_metric(n)), (1, inner // 2))


def trees(n):
    """A mesh of half the routers, at which trees of 32 hang, in a small area smaller ones."""
    half, size = n // 2, min(TREE, n // 8)
    below = range(half + 1, n - size + 2, size)
    pairs = [pair for place, first in enumerate(below) for pair in heap([1 + place * size, *numbers(first, size)])]
    return Made(database(grid(numbers(1, half)) + pairs, metric=any_metric(n)), (1, half // 2))


def one_lan(n):
    """One LAN, of 2,000 routers in the largest area."""
    return Made(database([], [numbers(1, n * 1000 // 2048)]), None)


def many_lans(n):
    """LANs of 20 routers in a ring, 200 in the largest area. Each shares a router with the next."""
    count, own = n * 25 // 512, LAN_ROUTERS - 1
    lans = [numbers(own * place + 1, own) + [own * ((place + 1) % count) + 1] for place in range(count)]
    return Made(database([], lans), (1, own + 1))


def surveyed(n):
    """The network of a survey, which has half the nodes of the largest area at most."""
    return Made(areas.survey_area(SURVEY, n), (1, n // 4), (SURVEY, n) if n <= SURVEY_NODES else None)


SHAPES = {
    "ring": lambda n: plain(ring(numbers(1, n)), (1, n // 2)),
    "line": lambda n: plain(line(numbers(1, n)), (1, 2)),
    "star": lambda n: plain(areas.star(n), (1, 2)),
    "comb": comb,
    "mesh": mesh,
    "chain-of-rings": chain_of_rings,
    "tree-of-rings": tree_of_rings,
    "cliques": cliques,
    "triangles": triangles,
    "two-meshes": two_meshes,
    "spur": lambda n: spurs(n, 1),
    "spurs": lambda n: spurs(n, n // 8),
    "trees": trees,
    "between": lambda n: plain(between(1, 2, numbers(3, n - 2)), (1, 2)),
    "one-lan": one_lan,
    "many-lans": many_lans,
    "parallel": lambda n: plain([pair for pair in ring(numbers(1, n)) for _ in range(PARALLEL)], (1, n // 2)),
    "equal": lambda n: mesh(n, lambda: EQUAL),
    "heavy": lambda n: mesh(n, lambda: HEAVY),
    "survey": surveyed,
}
