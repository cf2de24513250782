"""A certificate's bytes, both ways, and the fourteen rules that make it accepted."""
import struct
from collections import namedtuple

from bench.reference.database import Id, Refused
from bench.reference.lowpoint import ABOVE, BELOW, CARRIED, CLOSING, HEAD, PLAIN, SOLE, SOLE_LINK, TOP, UNORDERED, Cert, Row, common_block

# What the bytes say: their version, the root's router ID, identifiers, the two nodes of each link, and the certificate.
File = namedtuple("File", "version root ids pairs cert")
# The most nodes and links, by version.
LIMITS = {1: (2048, 8192), 2: (4096, 16384)}


# bytes

def spelling(file):
    """The bytes of a certificate file. In version 2 the rows with the tag Carried are left out."""
    cert = file.cert
    parts = [struct.pack(">4sHHHI", b"MRTC", file.version, len(file.ids), len(file.pairs), file.root)]
    for node, order, head, block in zip(file.ids, cert.order, cert.head, cert.block):
        parts.append(struct.pack(">BIHHH", node.kind, node.number, order, head, block))
    for (a, b), block, role in zip(file.pairs, cert.link_block, cert.role):
        parts.append(struct.pack(">HHHB", a, b, block, role))
    told = lambda row: row and not (file.version == 2 and row.tag == CARRIED)
    spelled = {row: struct.pack(">HHB", *row) for row in {row for rows in cert.rows for row in rows if row}}
    parts += (spelled[row] for rows in cert.rows for row in rows if told(row))
    return b"".join(parts)


def write(island, cert, version=2):
    """The bytes of an island's certificate."""
    pairs = [(link.a, link.b) for link in island.links]
    return spelling(File(version, island.ids[island.root].number, island.ids, pairs, cert))


class Fields:
    """The fields of a file, taken in order."""

    def __init__(self, data):
        self.data, self.at = data, 0

    def refuse(self, kind, at):
        raise Refused(5, f"bad certificate: {kind} at {at}")

    def take(self, size, allowed, kind="range"):
        """The next number of so many bytes; one that is not allowed is a fault of this kind."""
        at, self.at = self.at, self.at + size
        if self.at > len(self.data):
            self.refuse("truncated", at)
        value = int.from_bytes(self.data[at:self.at], "big")
        if not allowed(value):
            self.refuse(kind, at)
        return value

    def pair(self, count):
        """The two nodes of a link; whatever is wrong with them is a fault of the second."""
        a = self.take(2, lambda value: True)
        return a, self.take(2, lambda b: a < b < count)


def chain_end(heads, node):
    """The node after as many steps from head to head as there are nodes."""
    for _ in heads:
        node = heads[node]
    return node


def stray_head(heads):
    """The node whose head is at fault: the least one whose chain does not come to the least node that is its own head."""
    tops = [node for node, head in enumerate(heads) if node == head]
    return next((node for node in range(len(heads)) if not tops or chain_end(heads, node) != tops[0]), None)


def carry(heads, rows):
    """Puts the rows of unrelated nodes in: that of s for t has the links of the row of s for the head of t, or, where t is the top, of s."""
    top = min(node for node, head in enumerate(heads) if node == head)

    def row(s, t):
        if rows[s][t] is None:
            rows[s][t] = row(s, heads[s] if t == top else heads[t])._replace(tag=CARRIED)
        return rows[s][t]

    for s in range(len(heads)):
        for t in range(len(heads)):
            if s != t:
                row(s, t)


def read(data):
    """The certificate file that the bytes are, or the first field that is not allowed."""
    fields = Fields(data)
    any_value, below = lambda value: True, lambda limit: lambda value: value < limit
    fields.take(4, lambda value: value == int.from_bytes(b"MRTC", "big"), "magic")
    version = fields.take(2, lambda value: value in LIMITS, "magic")
    nodes, links = LIMITS[version]
    n = fields.take(2, lambda value: 1 <= value <= nodes)
    m = fields.take(2, lambda value: value <= links)
    root = fields.take(4, any_value)
    ids, orders, heads, blocks, pairs, link_blocks, roles = [], [], [], [], [], [], []
    for _ in range(n):
        kind = fields.take(1, lambda value: value in (1, 2))
        ids.append(Id(fields.take(4, any_value), kind))
        orders.append(fields.take(2, lambda value: 1 <= value <= n))
        heads.append(fields.take(2, below(n)))
        blocks.append(fields.take(2, below(n)))
    stray = stray_head(heads) if version == 2 else None
    if stray is not None:
        fields.refuse("heads", 14 + 11 * stray + 7)
    for _ in range(m):
        pairs.append(fields.pair(n))
        link_blocks.append(fields.take(2, below(n)))
        roles.append(fields.take(1, below(3)))
    told = lambda s, t: s != t and (version == 1 or common_block(heads, blocks, s, t) is not None)
    tags = 7 if version == 1 else 6
    rows = [[Row(fields.take(2, below(m)), fields.take(2, below(m)), fields.take(1, below(tags), "tag")) if told(s, t) else None
             for t in range(n)] for s in range(n)]
    if fields.at < len(data):
        fields.refuse("trailing", fields.at)
    if version == 2:
        carry(heads, rows)
    return File(version, root, ids, pairs, Cert(orders, heads, blocks, link_blocks, roles, rows))


# the fourteen rules

def graph_fault(island, file):
    """Rule 1: the file's nodes and links are the graph's."""
    if (len(file.ids), len(file.pairs)) != (len(island.ids), len(island.links)):
        return 1, 0, 2
    for node, (one, other) in enumerate(zip(file.ids, island.ids)):
        if one != other:
            return 1, node, 0
    for number, (pair, link) in enumerate(zip(file.pairs, island.links)):
        if pair != (link.a, link.b):
            return 1, number, 1
    return None


def order_fault(island, file):
    """Rule 2: the root is the graph's and has order 1; no two nodes have one order."""
    root, order = island.root, file.cert.order
    if Id(file.root, 1) != island.ids[root] or order[root] != 1:
        return 2, root, root
    places = {}
    for node, number in enumerate(order):
        places.setdefault(number, []).append(node)
    equal = [(2, *nodes[:2]) for nodes in places.values() if len(nodes) > 1]
    return min(equal, default=None)


def head_fault(island, file):
    """Rule 3: the root heads itself, another node's head has a smaller order, and nodes of one block have one head."""
    root, (order, head, block) = island.root, file.cert[:3]
    for a in range(len(order)):
        own = head[a] == root and block[a] == root if a == root else order[head[a]] < order[a] and block[a] != root
        if not own:
            return 3, a, 0
        for b in range(len(order)):
            if block[b] == block[a] and head[b] != head[a]:
                return 3, a, b
    return None


def link_fault(file):
    """Rule 4: each link's block is the common block of its two nodes."""
    head, block = file.cert.head, file.cert.block
    for number, ((u, v), own) in enumerate(zip(file.pairs, file.cert.link_block)):
        allowed = (own == block[u] == block[v], own == block[v] and u == head[v], own == block[u] and v == head[u])
        if not any(allowed):
            return 4, number, 0
    return None


def block_faults(island, file):
    """Rules 5 and 6: a block of one link has one node and its link is sole; another has one closing link, from its top to its head."""
    cert, found = file.cert, []
    nodes, links = {}, {}
    for node, block in enumerate(cert.block):
        nodes.setdefault(block, []).append(node)
    for link, block in enumerate(cert.link_block):
        links.setdefault(block, []).append(link)
    for a, block in enumerate(cert.block):
        own = links.get(block, [])
        if a == island.root:
            continue
        if len(own) == 1:
            if nodes[block] != [a] or cert.role[own[0]] != SOLE_LINK:
                found.append((5, a, 0))
        else:
            closing = [link for link in own if cert.role[link] == CLOSING]
            top = max(nodes[block], key=lambda node: cert.order[node])
            if any(cert.role[link] == SOLE_LINK for link in own) or len(closing) != 1 or set(file.pairs[closing[0]]) != {top, cert.head[a]}:
                found.append((6, a, 0))
    return min(found, default=None)


class RowRules:
    """Rules 7 to 14: each speaks of the row of s for t, with the nodes that its blue and red link lead to."""

    def __init__(self, island, file):
        self.root, self.pairs, self.cert = island.root, file.pairs, file.cert
        self.order, self.head, self.block = file.cert[:3]
        self.rules = {SOLE: self.sole, HEAD: self.to_head, TOP: self.top, BELOW: self.below, ABOVE: self.above, UNORDERED: self.unordered,
                      CARRIED: self.carried}

    def far(self, link, s):
        """The node that a link leads to from s, or nothing where it does not touch s."""
        a, b = self.pairs[link]
        return b if a == s else a if b == s else None

    def tagged(self, v, t, *tags):
        return v is not None and v != t and self.cert.rows[v][t].tag in tags

    def greater(self, v, s):
        return v is not None and self.order[v] > self.order[s]

    def smaller(self, v, s):
        return v is not None and self.order[v] < self.order[s]

    def is_role(self, link, role):
        return self.cert.role[link] == role

    def sole(self, s, t, row, blue, red):
        return row.blue == row.red and self.is_role(row.blue, SOLE_LINK) and blue == t

    def to_head(self, s, t, row, blue, red):
        own = self.block[s]
        return (self.head[s] == t
                and (self.greater(blue, s) and self.block[blue] == own or self.is_role(row.blue, CLOSING) and blue == t)
                and (self.smaller(red, s) and self.block[red] == own or self.is_role(row.red, PLAIN) and red == t))

    def top(self, s, t, row, blue, red):
        return (self.head[t] == s
                and self.is_role(row.blue, PLAIN) and (blue == t or self.tagged(blue, t, BELOW))
                and self.is_role(row.red, CLOSING) and (red == t or self.tagged(red, t, ABOVE)))

    def below(self, s, t, row, blue, red):
        return (self.block[s] == self.block[t] and self.order[s] < self.order[t]
                and (blue == t or self.greater(blue, s) and self.tagged(blue, t, BELOW))
                and (self.smaller(red, s) and self.tagged(red, t, BELOW) or self.is_role(row.red, PLAIN) and red == self.head[s]))

    def above(self, s, t, row, blue, red):
        return (self.block[s] == self.block[t] and self.order[s] > self.order[t]
                and (self.greater(blue, s) and self.tagged(blue, t, ABOVE) or self.is_role(row.blue, CLOSING) and blue == self.head[s])
                and (red == t or self.smaller(red, s) and self.tagged(red, t, ABOVE)))

    def unordered(self, s, t, row, blue, red):
        return (self.block[s] == self.block[t]
                and (self.smaller(blue, s) and self.tagged(blue, t, UNORDERED, BELOW) or self.is_role(row.blue, PLAIN) and blue == self.head[s])
                and self.greater(red, s) and self.tagged(red, t, UNORDERED, ABOVE))

    def carried(self, s, t, row, blue, red):
        if common_block(self.head, self.block, s, t) is not None:
            return False
        like = self.cert.rows[s][self.head[s] if t == self.root else self.head[t]]
        return (row.blue, row.red) == (like.blue, like.red)

    def in_block(self, s, t, row):
        """Rule 14: both links lie in the common block."""
        own = common_block(self.head, self.block, s, t)
        return own is not None and self.cert.link_block[row.blue] == self.cert.link_block[row.red] == own

    def first_fault(self):
        """The least place at which the first of these rules fails."""
        found = {}
        for s, rows in enumerate(self.cert.rows):
            for t, row in enumerate(rows):
                if s != t:
                    if not self.rules[row.tag](s, t, row, self.far(row.blue, s), self.far(row.red, s)):
                        found.setdefault(7 + row.tag, (s, t))
                    if row.tag != CARRIED and not self.in_block(s, t, row):
                        found.setdefault(14, (s, t))
        return min(((rule, *place) for rule, place in found.items()), default=None)


def first_fault(island, file):
    """The first of the fourteen rules that fails, with its least place, or nothing where the certificate is accepted."""
    return (graph_fault(island, file) or order_fault(island, file) or head_fault(island, file) or link_fault(file)
            or block_faults(island, file) or RowRules(island, file).first_fault())
