"""A router's repairs by order: which color goes round a failure in a block, by order numbers and the router's own paths alone."""
from collections import namedtuple

from bench.reference.database import ROUTER, Id, Refused, text_of
from bench.reference.lowpoint import ABOVE, BELOW, CLOSING, HEAD, TOP, blocks_of, common_block, direct, ears, leaving, lowpoints, rows_of
from bench.reference.lsas import spelled

# A block with more than one link, seen from one of its nodes: its head, its members, and the nodes that the paths up and down reach.
View = namedtuple("View", "head nodes links up down")


def reached(island, leads, block, source, up):
    """The nodes of a block that paths from a node reach, in one direction; they meet the block's head only first or last."""
    out = leaving(island, leads, block.nodes, block.links, up)
    found, waiting = set(), [source]
    while waiting:
        node = waiting.pop()
        if node == block.head and node != source:
            continue
        for end in out[node]:
            if end.far not in found:
                found.add(end.far)
                waiting.append(end.far)
    return found - {source}


class Chooser:
    """The colors of a router for one destination in a block."""

    def __init__(self, order, role, leads, view, source, target, tag):
        self.order, self.role, self.leads, self.view = order, role, leads, view
        self.s, self.t, self.tag = source, target, tag

    def for_node(self, f):
        order, s, t = self.order, self.s, self.t
        if self.tag == HEAD:
            return "r" if order[f] > order[s] else "b"
        if self.tag == TOP:
            return "r" if order[f] < order[t] else "b"
        if self.tag == BELOW:
            return "r" if order[s] < order[f] < order[t] else "b"
        if self.tag == ABOVE:
            return "b" if order[t] < order[f] < order[s] else "r"
        if f == self.view.head or f in self.view.down:
            return "r"
        return "b" if f in self.view.up or order[f] > order[t] else "r"

    def for_link(self, e):
        order, s, t = self.order, self.s, self.t
        if self.role[e] == CLOSING:
            return "r" if self.tag in (HEAD, ABOVE) else "b"
        u, v = self.leads[e]
        if self.tag == HEAD:
            return "r" if order[u] >= order[s] else "b"
        if self.tag == TOP:
            return "r" if order[v] <= order[t] else "b"
        if self.tag == BELOW:
            return "r" if order[u] >= order[s] and order[v] <= order[t] else "b"
        if self.tag == ABOVE:
            return "b" if order[u] >= order[t] and order[v] <= order[s] else "r"
        if v == s or v in self.view.down:
            return "r"
        return "b" if u == s or (u != self.view.head and u in self.view.up) or order[u] >= order[t] else "r"


def text(island, router):
    """The lines on a router's repairs by order."""
    own = Id(router, ROUTER)
    if own not in island.ids:
        raise Refused(7, f"not there: {spelled(router)}")
    source, gadag = island.ids.index(own), ears(island, lowpoints(island))
    order, leads = direct(island, gadag)
    link_block = [common_block(gadag.head, gadag.block, link.a, link.b) for link in island.links]
    blocks = blocks_of(island, gadag, leads, link_block)
    rows = rows_of(island, gadag, order, blocks)
    lines = [f"order {spelled(router)} root {text_of(island.ids[island.root])}"]
    for target, node in enumerate(island.ids):
        block = next((block for block in blocks if len(block.links) > 1 and {source, target} <= set(block.nodes)), None)
        if target == source or block is None:
            continue
        view = View(block.head, block.nodes, block.links, *(reached(island, leads, block, source, up) for up in (True, False)))
        chooser = Chooser(order, gadag.role, leads, view, source, target, rows[source][target].tag)
        nodes = "".join("-" if f in (source, target) else chooser.for_node(f) for f in sorted(block.nodes))
        lines.append(f"{text_of(node)} {nodes} {''.join(chooser.for_link(e) for e in sorted(block.links))}")
    return lines
