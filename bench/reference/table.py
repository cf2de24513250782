"""A router's table: its rows in the island, its next hops on shortest paths (RFC 2328, section 16.1), and what repairs them."""
import heapq
from collections import namedtuple

from bench.reference.database import NETWORK, ROUTER, Id, text_of
from bench.reference.lsas import spelled

TAGS = ["sole", "head", "top", "below", "above", "unordered", "carried"]
BLUE, RED = 0, 1

# The first arc of a shortest path and, where it leads to a network that is not the destination, the second one.
Primary = namedtuple("Primary", "first second")


# primaries

def distances_to(area, target):
    """The least sum of metrics from each node to one, where arcs lead there."""
    into = [[] for _ in area.ids]
    for arc in area.arcs:
        into[arc.to].append(arc)
    found, waiting = {}, [(0, target)]
    while waiting:
        cost, node = heapq.heappop(waiting)
        if node not in found:
            found[node] = cost
            for arc in into[node]:
                heapq.heappush(waiting, (cost + arc.metric, arc.tail))
    return found


def first_arc(area, far, node):
    """The first arc of a node, in order, that begins a shortest path."""
    return next(arc for arc in area.arcs if arc.tail == node and arc.to in far and arc.metric + far[arc.to] == far[node])


def primary(area, source, target):
    """The primary of a router for another node, or nothing where no arcs lead there."""
    far = distances_to(area, target)
    if source not in far:
        return None
    first = first_arc(area, far, source)
    over = first.to != target and area.ids[first.to].kind == NETWORK
    return Primary(first, first_arc(area, far, first.to) if over else None)


# repairs

def walk(island, cert, color, source, target):
    """What a color's walk uses: its links, and the nodes between its ends."""
    links, nodes, at = set(), set(), source
    while at != target:
        number = cert.rows[at][target][color]
        link = island.links[number]
        at = link.b if at == link.a else link.a
        links.add(number)
        nodes.add(at)
    return links, nodes - {target}


def letter_of_link(island, walks, bond):
    """The letter where the bond has failed; one outside the island leaves both colors as they are."""
    link = island.link_of[bond]
    return first_free(walks, 0, link) if link is not None else "b"


def letter_of_node(island, walks, ends, node):
    """The letter where the node has failed; neither end can be gone round."""
    if node not in island.ids:
        return "b"
    number = island.ids.index(node)
    return "-" if number in ends else first_free(walks, 1, number)


def first_free(walks, part, number):
    """The first color whose walk does not use it."""
    return next((letter for letter, used in zip("br", walks) if number not in used[part]), "-")


def letters(area, island, cert, source, target, hop):
    """One letter for each element of a primary: the bond of each of its arcs, and the node that the arc leads to."""
    walks = [walk(island, cert, color, source, target) for color in (BLUE, RED)]
    return "".join(letter_of_link(island, walks, arc.bond) + letter_of_node(island, walks, (source, target), area.ids[arc.to])
                   for arc in hop if arc)


# the text

def hop_over_link(island, node, number):
    """The far node of a link, and the link data at this end."""
    link = island.links[number]
    far, data = (link.b, link.data_a) if link.a == node else (link.a, link.data_b)
    return f"{text_of(island.ids[far])}/{spelled(data)}"


def line(area, island, cert, source, target):
    """The line on one destination, a node of the island."""
    row = cert.rows[source][target]
    place = area.ids.index
    hop = primary(area, place(island.ids[source]), place(island.ids[target]))
    first = f"{text_of(area.ids[hop.first.to])}/{spelled(hop.first.data)}"
    return (f"{text_of(island.ids[target])} {TAGS[row.tag]} blue {hop_over_link(island, source, row.blue)} red {hop_over_link(island, source, row.red)} "
            f"primary {first} repair {letters(area, island, cert, source, target, hop)}")


def head(island, source):
    return (f"router {text_of(island.ids[source])} root {text_of(island.ids[island.root])} "
            f"nodes {len(island.ids)} links {len(island.links)}")


def text(area, island, cert, router):
    """The lines of a router's table."""
    source = island.ids.index(Id(router, ROUTER))
    return [head(island, source)] + [line(area, island, cert, source, target) for target in range(len(island.ids)) if target != source]
