"""The MRT Lowpoint algorithm (RFC 7811, section 5) on an island: search, ears, directions, paths in blocks, next hops.

Nodes and links are numbers; a link's far node is found by the interface that it is taken by.
"""
import heapq
from collections import namedtuple

PLAIN, SOLE_LINK, CLOSING = 0, 1, 2
SOLE, HEAD, TOP, BELOW, ABOVE, UNORDERED, CARRIED = range(7)

Tree = namedtuple("Tree", "number parent parent_link low low_link")
# `block` names a node's block by its first node, `leads` gives a link's two nodes by its direction (none where no ear took it).
Gadag = namedtuple("Gadag", "ear_order head block role leads")
Cert = namedtuple("Cert", "order head block link_block role rows")
Row = namedtuple("Row", "blue red tag")


# the lowpoint search

def search(island):
    """The numbers of a depth-first search from the root, from 1, and each node's parent with the link to it."""
    count = len(island.ids)
    number, parent, parent_link = [None] * count, [None] * count, [None] * count
    number[island.root] = last = 1
    way = [(island.root, iter(island.ends[island.root]))]
    while way:
        node, ends = way[-1]
        end = next((end for end in ends if number[end.far] is None), None)
        if end is None:
            way.pop()
        else:
            last += 1
            number[end.far], parent[end.far], parent_link[end.far] = last, node, end.link
            way.append((end.far, iter(island.ends[end.far])))
    return number, parent, parent_link


def lowpoints(island):
    """The search with each node's lowpoint and lowpoint link."""
    number, parent, parent_link = search(island)
    low, low_link = list(number), list(parent_link)
    # Children come before their parents, as they have greater numbers.
    for node in sorted(range(len(number)), key=lambda node: -number[node]):
        for end in island.ends[node]:
            if end.link == parent_link[node]:
                continue
            offer = low[end.far] if end.link == parent_link[end.far] else number[end.far]
            if offer < low[node]:
                low[node], low_link[node] = offer, end.link
    return Tree(number, parent, parent_link, low, low_link)


# ears

def far_of(island, node, link):
    ends = island.links[link]
    return ends.b if ends.a == node else ends.a


def ear_from(island, tree, gadag, node, end, onward):
    """The new nodes of the ear that begins with an interface and goes on by these links, its links, and the node where it ends."""
    nodes, links, at = [], [end.link], end.far
    while gadag.block[at] is None:
        nodes.append(at)
        links.append(onward[at])
        at = far_of(island, at, onward[at])
    return nodes, links, at


def add_ear(gadag, start, nodes, links, stop, is_child):
    """Heads and blocks of the new nodes, roles and directions of the links."""
    begins_block = is_child and stop == start
    for node in nodes:
        gadag.head[node] = start if begins_block else gadag.head[stop]
        gadag.block[node] = nodes[0] if begins_block else gadag.block[stop]
    for link, pair in zip(links, zip([start, *nodes], [*nodes, stop])):
        gadag.role[link], gadag.leads[link] = PLAIN, pair
    if begins_block and len(set(links)) == 1:
        gadag.role[links[0]], gadag.leads[links[0]] = SOLE_LINK, (start, nodes[0])
    elif begins_block:
        gadag.role[links[-1]] = CLOSING


def ears(island, tree):
    """The GADAG: its ears in their order."""
    count, root = len(island.ids), island.root
    gadag = Gadag([], [None] * count, [None] * count, [PLAIN] * len(island.links), [None] * len(island.links))
    gadag.head[root] = gadag.block[root] = root
    stack = [root]
    while stack:
        node = stack.pop()
        gadag.ear_order.append(node)
        for is_child, onward in ((True, tree.low_link), (False, tree.parent_link)):
            for end in island.ends[node]:
                if gadag.block[end.far] is None and (not is_child or tree.parent[end.far] == node):
                    nodes, links, stop = ear_from(island, tree, gadag, node, end, onward)
                    add_ear(gadag, node, nodes, links, stop, is_child)
                    stack += reversed(nodes)
    return gadag


# order and directions

def order_list(island, gadag):
    """The order of the GADAG: each node stands after all nodes from which counted links enter it."""
    leaves = lambda node, link: gadag.leads[link] and gadag.leads[link][0] == node and gadag.role[link] != CLOSING
    entering = [0] * len(island.ids)
    for link, pair in enumerate(gadag.leads):
        if pair and gadag.role[link] != CLOSING:
            entering[pair[1]] += 1
    order = [island.root]
    for node in order:
        for end in island.ends[node]:
            if leaves(node, end.link):
                entering[end.far] -= 1
                if entering[end.far] == 0:
                    order.append(end.far)
    return order


def direct(island, gadag):
    """Each node's order number, and the directions of all links."""
    order = [None] * len(island.ids)
    for place, node in enumerate(order_list(island, gadag), 1):
        order[node] = place
    leads = [pair or tuple(sorted((link.a, link.b), key=lambda node: order[node])) for link, pair in zip(island.links, gadag.leads)]
    return order, leads


def common_block(head, block, s, t):
    """The block that holds two nodes, or nothing."""
    if block[s] == block[t] or head[s] == t:
        return block[s]
    return block[t] if head[t] == s else None


# paths in a block

def leaving(island, leads, nodes, links, up):
    """Of each node of a block its interfaces, in order, over links of the block that lead out of it; against the directions for down."""
    own = 0 if up else 1
    return {node: [end for end in island.ends[node] if end.link in links and leads[end.link][own] == node] for node in nodes}


def entering(out):
    """The same interfaces by their far node: near node and metric."""
    into = {node: [] for node in out}
    for node, ends in out.items():
        for end in ends:
            into[end.far].append((node, end.metric))
    return into


def least_costs(target, head, into):
    """The least cost of each node's way to the target, found backwards; no way goes through the head."""
    costs, waiting = {}, [(0, target)]
    while waiting:
        cost, node = heapq.heappop(waiting)
        if node not in costs:
            costs[node] = cost
            if node != head or node == target:
                for near, metric in into[node]:
                    if near not in costs:
                        heapq.heappush(waiting, (cost + metric, near))
    return costs


def first_links(target, head, out, into):
    """Of each node that has a way to the target the first link, by its interfaces' order, that begins one of least cost."""
    costs = least_costs(target, head, into)
    through = lambda node: node in costs and (node != head or node == target)
    return {node: next(end.link for end in out[node] if through(end.far) and end.metric + costs[end.far] == cost)
            for node, cost in costs.items() if node != target}


# rows

class Block:
    """A block with its least paths along the directions (up) and against them (down)."""

    def __init__(self, island, leads, head, nodes, links):
        self.head, self.nodes, self.links = head, nodes, links
        self.out = [leaving(island, leads, nodes, links, up) for up in (True, False)]
        self.into = [entering(out) for out in self.out]
        self.to_head = self.paths_to(head) if len(links) > 1 else None

    def paths_to(self, target):
        """Up and Down of each node for the target."""
        return [first_links(target, self.head, out, into) for out, into in zip(self.out, self.into)]

    def rows_for(self, target):
        """The rows of the block's other nodes for one of them."""
        others = [node for node in self.nodes if node != target]
        if len(self.links) == 1:
            [link] = self.links
            return {node: Row(link, link, SOLE) for node in others}
        up, down = self.paths_to(target)
        return {node: self.row(node, target, up, down) for node in others}

    def row(self, node, target, up, down):
        up_to_head, down_to_head = self.to_head
        if target == self.head:
            return Row(up[node], down[node], HEAD)
        if node == self.head:
            return Row(up[node], down[node], TOP)
        if node in up:
            return Row(up[node], down_to_head[node], BELOW)
        if node in down:
            return Row(up_to_head[node], down[node], ABOVE)
        return Row(down_to_head[node], up_to_head[node], UNORDERED)


def blocks_of(island, gadag, leads, link_block):
    """The blocks that have links, each with its head last among its nodes."""
    nodes, links = {}, {}
    for node, block in enumerate(gadag.block):
        nodes.setdefault(block, []).append(node)
    for link, block in enumerate(link_block):
        links.setdefault(block, set()).add(link)
    return [Block(island, leads, gadag.head[block], nodes[block] + [gadag.head[block]], links[block]) for block in sorted(links)]


def rows_of(island, gadag, order, blocks):
    """The rows of all nodes for all others."""
    count, root, head = len(island.ids), island.root, gadag.head
    rows, kept = [[None] * count for _ in range(count)], {}
    for block in blocks:
        for target in block.nodes:
            for node, row in block.rows_for(target).items():
                # Many rows are equal; one of each is kept.
                rows[node][target] = kept.setdefault(row, row)
    # A head has a smaller order number, so its rows are there first.
    for target in sorted(range(count), key=lambda node: order[node]):
        for node in range(count):
            if node != target and rows[node][target] is None:
                like = rows[node][head[node] if target == root else head[target]]
                row = Row(like.blue, like.red, CARRIED)
                rows[node][target] = kept.setdefault(row, row)
    return rows


def compute(island):
    """The certificate of an island."""
    gadag = ears(island, lowpoints(island))
    order, leads = direct(island, gadag)
    link_block = [common_block(gadag.head, gadag.block, link.a, link.b) for link in island.links]
    rows = rows_of(island, gadag, order, blocks_of(island, gadag, leads, link_block))
    return Cert(order, gadag.head, gadag.block, link_block, gadag.role, rows)
