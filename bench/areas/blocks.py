"""Random areas of many blocks: rings, cliques, bundles of links, LANs, trees and meshes that hang at one another, in a chain, in a tree or at one
router. Router IDs are those of the worked shapes, 1.1.1.1 and so on, in any order; a LAN may be where blocks meet."""

from bench.areas import areas, graphs
from bench.reference.lsas import MAX_LINK_METRIC

MOST = 250


class Parts:
    """What is built: routers that are not there yet, the links and the LANs so far, and the routers of each block in its order."""

    def __init__(self, random, routers):
        self.random, self.pairs, self.lans = random, [], []
        self.fresh = [areas.router(number) for number in random.sample(range(1, MOST + 1), routers)]
        self.blocks = [self.take(1)]

    def take(self, count):
        """So many new routers, or as many as there are left."""
        taken, self.fresh = self.fresh[:count], self.fresh[count:]
        return taken

    def between(self, least, most):
        return self.take(self.random.randint(least, most))


# blocks that hang at a router; each gives its routers


def ring(parts, at):
    found = [at, *parts.between(2, parts.random.choice([3, 6, 6, 20, 150]))]
    parts.pairs += graphs.ring(found) if len(found) > 2 else graphs.line(found)
    return found


def clique(parts, at):
    found = [at, *parts.between(2, 5)]
    parts.pairs += graphs.clique(found)
    return found


def bundle(parts, at):
    found = [at, *parts.take(1)]
    parts.pairs += graphs.line(found) * parts.random.randint(2, 4)
    return found


def spur(parts, at):
    found = [at, *parts.take(1)]
    parts.pairs += graphs.line(found)
    return found


def tree(parts, at):
    found = [at, *parts.between(2, 9)]
    parts.pairs += graphs.heap(found)
    return found


def mesh(parts, at):
    found = [at, *parts.between(3, parts.random.choice([5, 14, 150]))]
    parts.pairs += graphs.grid(found, parts.random.randint(2, 8))
    return found


def between(parts, at):
    """A router and the one farthest from it, with some between them."""
    found = [at, *parts.between(2, parts.random.choice([6, 6, 70]))]
    parts.pairs += graphs.between(at, found[-1], found[1:-1])
    return found


def lan(parts, at):
    """A LAN of routers, which a line may join too, so that the network stands in a block; else it is where their links meet."""
    found = [at, *parts.between(1, parts.random.choice([6, 6, 6, 70]))]
    parts.lans.append(parts.random.sample(found, len(found)))
    if parts.random.random() < 0.5:
        parts.pairs += graphs.line(found)
    return found


KINDS = ring, ring, clique, bundle, spur, tree, mesh, between, lan, lan


# where the next block hangs


def anywhere(parts):
    return parts.random.choice(parts.random.choice(parts.blocks))


def in_a_row(parts):
    return parts.blocks[-1][-1]


def at_one(parts):
    return parts.blocks[0][0]


def some_metrics(random):
    """How the metric of each end of a link is asked for: all are 1, or nearly the greatest, or any; now and then one is not for transit traffic."""
    draw = random.choice([lambda: 1, lambda: MAX_LINK_METRIC - 1, lambda: random.randint(1, 4), lambda: random.randint(1, 64)])
    seldom = random.choice([0, 0, 0.01, 0.04])
    return lambda: MAX_LINK_METRIC if random.random() < seldom else draw()


def random_blocks(random, routers):
    """The database of an area of at most so many routers, and of networks beside them."""
    parts, place = Parts(random, routers), random.choice([anywhere, anywhere, in_a_row, at_one])
    kinds = random.sample(KINDS, random.choice([1, 2, len(KINDS)]))
    while parts.fresh:
        parts.blocks.append(random.choice(kinds)(parts, place(parts)))
    if random.random() < 0.3:
        parts.pairs += [(anywhere(parts), anywhere(parts)) for _ in range(random.randint(1, 3))]
    pairs = [pair for pair in parts.pairs if pair[0] != pair[1]]
    return graphs.database(pairs, parts.lans, some_metrics(random))
