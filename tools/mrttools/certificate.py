"""A certificate that `mrt` has written or accepted, read for pictures and tables."""
from __future__ import annotations

import struct
from collections import Counter
from itertools import accumulate
from typing import NamedTuple

from .area import Node
from .exits import REFUSED, ToolFault

MAGIC = b"MRTC"
HEADER, NODE, LINK, ROW = 14, 11, 7, 5
BLUE, RED = 0, 1
COLORS = "blue", "red"


class Rows:
    """The rows of a certificate by source and destination. Each is read when it is asked for: what is asked for one
    router is not as much as the square of the area."""

    def __init__(self, version: int, root: int, heads: list[int], blocks: list[int], data: bytes) -> None:
        self.root, self.heads, self.blocks, self.data, self.every = root, heads, blocks, data, version == 1
        self.members: dict[int, list[int]] = {}
        self.below: dict[int, list[int]] = {}
        for node, head in enumerate(heads):
            self.members.setdefault(blocks[node], []).append(node)
            if node != root:
                self.below.setdefault(head, []).append(node)
        counts = list(map(self.count, range(len(heads))))
        self.first = [0, *accumulate(counts)]
        self.places: dict[int, dict[int, int]] = {}
        if len(data) != ROW * self.first[-1]:
            raise ValueError(len(data))

    def count(self, source: int) -> int:
        """How many rows a node has of its own."""
        if self.every:
            return len(self.heads) - 1
        block = self.blocks[source]
        near = [self.heads[source], *self.below.get(source, [])]
        outside = sum(self.blocks[node] != block for node in near if node != source)
        return len(self.members[block]) - 1 + outside

    def of(self, source: int) -> dict[int, int]:
        """The places of a node's own rows, by destination."""
        if source not in self.places:
            own = (
                range(len(self.heads))
                if self.every
                else sorted({self.heads[source], *self.below.get(source, []), *self.members[self.blocks[source]]})
            )
            others = (node for node in own if node != source)
            self.places[source] = {node: self.first[source] + place for place, node in enumerate(others)}
        return self.places[source]

    def link(self, color: int, source: int, target: int) -> int:
        """The number of a row's link. The row of s for another t has the links of the row of s for the head of t or,
        where t is the root, for the head of s."""
        own = self.of(source)
        for _ in self.heads:
            if target in own:
                return int(struct.unpack_from(">H", self.data, ROW * own[target] + 2 * color)[0])
            target = self.heads[source if target == self.root else target]
        raise ValueError(target)


class Certificate(NamedTuple):
    """The nodes, the root, each node's head and block, the two nodes of each link, and the rows."""

    nodes: list[Node]
    root: Node
    heads: list[int]
    blocks: list[int]
    pairs: list[tuple[int, int]]
    rows: Rows

    def link(self, color: int, source: int, target: int) -> int:
        """The number of the link that a source's packets for a target take on a color."""
        return self.rows.link(color, source, target)

    def far(self, link: int, node: int) -> int:
        a, b = self.pairs[link]
        return b if node == a else a

    def cut_nodes(self) -> set[Node]:
        """The nodes without which others are not connected: the heads of blocks, and the root where it is the head of
        several."""
        root = self.nodes.index(self.root)
        blocks = {each for node, each in enumerate(zip(self.heads, self.blocks)) if node != root}
        counts = Counter(head for head, _ in blocks)
        return {self.nodes[head] for head, count in counts.items() if count > (head == root)}


def read(data: bytes) -> Certificate:
    """The certificate of bytes that were written or accepted; where they are none, it was not `mrt` that did so."""
    try:
        return certificate_of(data)
    except (struct.error, ValueError, IndexError) as fault:
        raise ToolFault("what was written is no certificate", REFUSED) from fault


def certificate_of(data: bytes) -> Certificate:
    magic, version, count, links, root = struct.unpack_from(">4sHHHI", data)
    if magic != MAGIC:
        raise ValueError(magic)
    at, nodes, heads, blocks, pairs = HEADER, [], [], [], []
    for kind, number, _, head, block in struct.iter_unpack(">BIHHH", data[at : at + NODE * count]):
        nodes.append(Node(number, kind))
        heads.append(head)
        blocks.append(block)
    at += NODE * count
    for a, b, _, _ in struct.iter_unpack(">HHHB", data[at : at + LINK * links]):
        pairs.append((a, b))
    rows = Rows(version, nodes.index(Node(root, 1)), heads, blocks, data[at + LINK * links :])
    return Certificate(nodes, Node(root, 1), heads, blocks, pairs, rows)
