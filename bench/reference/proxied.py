"""The rows for a prefix that is attached to two routers, as if it were one more node."""
from bench.reference.database import ROUTER, Id, Refused, text_of
from bench.reference.lowpoint import CLOSING, PLAIN, common_block
from bench.reference.lsas import spelled
from bench.reference.table import hop_over_link


class Block:
    """The block that two routers have in common: its name, its head, its members, and each node's ends in it."""

    def __init__(self, island, cert, name):
        self.order, self.name = cert.order, name
        self.members = [node for node in range(len(island.ids)) if cert.block[node] == name]
        self.head = cert.head[self.members[0]]
        self.links = [link for link, block in enumerate(cert.link_block) if block == name]
        self.ends = [[end for end in ends if cert.link_block[end.link] == name] for ends in island.ends]

    def side(self, router, goes_on):
        """The members from which a router of the block is reached by going on and on to greater, or to smaller order."""
        found = {router} & set(self.members)
        while True:
            more = {node for node in self.members if node not in found
                    and any(end.far in found and goes_on(node, end.far) for end in self.ends[node])}
            if not more:
                return found
            found |= more


def entry(cert, root, block, node):
    """Where the way from a node enters the block."""
    while cert.block[node] != block.name and node != block.head:
        if node == root:
            return block.head
        node = cert.head[node]
    return node


def rows(island, cert, a, b):
    """Of each node its blue and red link; None where it is attached. Nothing where the two have no common block."""
    order = cert.order
    low_router, high_router = sorted((a, b), key=lambda node: order[node])
    name = common_block(cert.head, cert.block, a, b)
    if name is None:
        return None
    block = Block(island, cert, name)
    rises, falls = lambda x, y: order[y] > order[x], lambda x, y: order[y] < order[x]
    low, high = block.side(low_router, rises), block.side(high_router, falls)
    first = lambda node, asked: next(end.link for end in block.ends[node] if asked(end))

    def row(s):
        if s == block.head:
            closing = [link for link in block.links if cert.role[link] == CLOSING]
            red = block.links[0] if len(block.links) == 1 else closing[0]
            return None if s == low_router else first(s, lambda end: end.far in low and cert.role[end.link] in (PLAIN,)), red
        if s in low:
            return (None if s == low_router else first(s, lambda end: end.far in low and rises(s, end.far))), cert.rows[s][block.head].red
        if s in high:
            return cert.rows[s][block.head].blue, (None if s == high_router else first(s, lambda end: end.far in high and falls(s, end.far)))
        if cert.block[s] == name:
            return cert.rows[s][block.head].red, cert.rows[s][block.head].blue
        own = cert.rows[s][entry(cert, island.root, block, s)]
        return own.blue, own.red

    return [row(s) for s in range(len(island.ids))]


def place_of(island, router):
    own = Id(router, ROUTER)
    if own not in island.ids:
        raise Refused(7, f"not there: {spelled(router)}")
    return island.ids.index(own)


def text(island, cert, first, second):
    """The lines on a prefix that two routers reach."""
    a, b = place_of(island, first), place_of(island, second)
    found = rows(island, cert, a, b)
    if found is None:
        raise Refused(13, "no common block")
    told = lambda s, link: "attached" if link is None else hop_over_link(island, s, link)
    lines = [f"proxy {spelled(first)} {spelled(second)} root {text_of(island.ids[island.root])}"]
    return lines + [f"{text_of(node)} blue {told(s, blue)} red {told(s, red)}" for s, (node, (blue, red)) in enumerate(zip(island.ids, found))]
