"""Packets, step by step through a failure: the reference for `mrt trace` and `mrt fabric`.

Nodes, bonds and links are numbers; a failure is ("node", number) or ("bond", number).
"""
from collections import namedtuple

from bench.reference import table as tables
from bench.reference.database import NETWORK, ROUTER, Id, Refused, text_of
from bench.reference.island import address_of, lines_of, number_of, said_lines

# A color is 0 or 1, and stands where the packet entered on it or was switched to it.
Packet = namedtuple("Packet", "place to mode color state")
Parts = namedtuple("Parts", "area island cert")

COLORS = "blue", "red"
ENTRIES = "blue", "red", "repair"
USAGE = ("usage: check DB PROFILE CERT, certify DB PROFILE ROUTER, table DB PROFILE ROUTER, trace DB PROFILE FROM TO blue/red/repair [FAIL], "
         "fabric DB PROFILE SCRIPT, survey NUMBER NODES, upgrade DB PROFILE CERT, lfa DB ROUTER, order DB PROFILE ROUTER, proxy DB PROFILE ROUTER A B, "
         "flood UPDATES PROFILE SCRIPT")


# hops

def inside(parts, place):
    """The island node that a node of the area is, if it is one."""
    node = parts.area.ids[place]
    return parts.island.ids.index(node) if node in parts.island.ids else None


def primary_hop(parts, x, t):
    """The elements of the primary, and the next node; none where no walk leads to t."""
    primary = tables.primary(parts.area, x, t)
    if primary is None:
        return None
    arcs = [arc for arc in primary if arc]
    return [element for arc in arcs for element in (("bond", arc.bond), ("node", arc.to))], arcs[-1].to


def color_hop(parts, color, x, t):
    """The elements of the hop on a color, over a network in one go, and the next node."""
    at, to, elements = inside(parts, x), inside(parts, t), []
    while True:
        number = parts.cert.rows[at][to][color]
        link = parts.island.links[number]
        at = link.b if at == link.a else link.a
        node = parts.island.ids[at]
        place = parts.area.ids.index(node)
        elements += [("bond", parts.island.link_of.index(number)), ("node", place)]
        if at == to or node.kind == ROUTER:
            return elements, place


def alternate(parts, x, t, failed):
    """The color that repairs a failure; none where there is none."""
    kind, number = failed
    at, to = inside(parts, x), inside(parts, t)
    element = inside(parts, number) if kind == "node" else parts.island.link_of[number]
    if element is None:
        return 0
    if kind == "node" and element in (at, to):
        return None
    walks = [tables.walk(parts.island, parts.cert, color, at, to)[kind == "node"] for color in (0, 1)]
    return next((color for color, used in enumerate(walks) if element not in used), None)


# the machine

class Fabric:
    """The packets by number, the failure, and for how many packets there is room."""

    def __init__(self, parts, room):
        self.parts, self.room, self.packets, self.failure = parts, room, [], None

    def text(self, place):
        return text_of(self.parts.area.ids[place])

    def inject(self, at, to, entry):
        """The line of a packet that enters; nodes that the area does not have are none."""
        if at is None or to is None or at == to or self.parts.area.ids[at].kind == NETWORK:
            return "refused no-such-place"
        if entry != "repair" and None in (inside(self.parts, at), inside(self.parts, to)):
            return "refused no-such-place"
        if len(self.packets) == self.room:
            return "refused full"
        mode, color = ("primary", None) if entry == "repair" else ("entered", COLORS.index(entry))
        self.packets.append(Packet(at, to, mode, color, "going"))
        return f"entered {len(self.packets) - 1}"

    def fail(self, element):
        if element is None:
            return "refused no-such-place"
        if self.failure:
            return "refused second-failure"
        self.failure = element
        return "failed"

    def step(self, number):
        if number >= len(self.packets):
            return "refused no-such-packet"
        packet = self.packets[number]
        if packet.state != "going":
            return "refused ended"
        line, self.packets[number] = self.handled(packet)
        return line

    def handled(self, packet):
        """The line of one step of a packet that is going, and the packet after it."""
        x, t = packet.place, packet.to
        lost = lambda cause: (f"lost {cause}", packet._replace(state="lost"))
        if self.failure == ("node", x):
            return lost("inside")
        hop = primary_hop(self.parts, x, t) if packet.mode == "primary" else color_hop(self.parts, packet.color, x, t)
        if hop is None:
            return lost("no-route")
        elements, following = hop
        if self.failure not in elements:
            state, word = ("delivered", "delivered") if following == t else ("going", "moved")
            return f"{word} {self.text(following)}", packet._replace(place=following, state=state)
        if self.failure == ("node", t):
            return lost("is-destination")
        if packet.mode != "primary":
            return lost("color-cut")
        if None in (inside(self.parts, x), inside(self.parts, t)):
            return lost("outside")
        color = alternate(self.parts, x, t, self.failure)
        if color is None:
            return lost("no-alternate")
        return f"switched {COLORS[color]}", packet._replace(mode="switched", color=color)


# names

def place_of(area, node):
    return area.ids.index(node) if node in area.ids else None


def element_of(area, name):
    """The element that a name stands for in an area, if there is one."""
    kind, *words = name
    if kind == "node":
        place = place_of(area, words[0])
        return None if place is None else ("node", place)
    router, data = words
    tail = place_of(area, Id(router, ROUTER))
    bond = next((arc.bond for arc in area.arcs if arc.tail == tail and arc.data == data), None)
    return None if bond is None else ("bond", bond)


def node_name(word):
    """The node that a word names, if it names one."""
    kind, number = (NETWORK, word[4:]) if word[:4] == b"net:" else (ROUTER, word)
    number = address_of(number)
    return None if number is None else Id(number, kind)


def failure_name(word):
    """What a word names as failed, if it does."""
    if word[:5] == b"link:":
        router, slash, data = word[5:].partition(b"/")
        router, data = address_of(router), address_of(data)
        return ("link", router, data) if slash and None not in (router, data) else None
    node = node_name(word)
    return None if node is None else ("node", node)


# the words of a trace

def read_trace(words):
    """Where a packet enters, where it is to go, how it enters, and what has failed, if anything has; other words are refused."""
    if len(words) in (3, 4) and words[2].decode() in ENTRIES:
        router, to, failed = address_of(words[0]), node_name(words[1]), failure_name(words[3]) if len(words) == 4 else ()
        if None not in (router, to, failed):
            return router, to, words[2].decode(), failed
    raise Refused(2, USAGE)


# scripts

def number_within(word, least, most):
    number = number_of(word)
    return number if number is not None and least <= number <= most else None


def start_of(words):
    """The router and the room of a script's first line, if it is one."""
    if len(words) != 3 or words[0] != b"island":
        return None
    start = address_of(words[1]), number_within(words[2], 1, 65535)
    return None if None in start else start


def event_of(words):
    """The event of a later line, if it is one."""
    event = None
    if len(words) == 4 and words[0] == b"inject" and words[3] in map(str.encode, ENTRIES):
        event = "inject", address_of(words[1]), node_name(words[2]), words[3].decode()
    elif len(words) == 2 and words[0] == b"step":
        event = "step", number_within(words[1], 0, 65535)
    elif len(words) == 2 and words[0] == b"fail":
        event = "fail", failure_name(words[1])
    return None if event is None or None in event else event


def read_lines(data, read_first, read_later):
    """What the first line of a script says, and what each later one does, by two functions of its words, of which the other one has the first
    line's meaning too; or a refusal with the first line that is not as it should be."""
    start, later = None, []
    for number, _, words in said_lines(data):
        said = read_first(words) if start is None else read_later(words, start)
        if said is None:
            raise Refused(11, f"bad script on line {number}")
        if start is None:
            start = said
        else:
            later.append(said)
    if start is None:
        raise Refused(11, f"bad script on line {len(list(lines_of(data))) + 1}")
    return start, later


def read_script(data):
    """The router, the room and the events of a script, or a refusal with the first line that is not as it should be."""
    return read_lines(data, start_of, lambda words, start: event_of(words))


# texts

def answer(fabric, event):
    """The line of an event by names."""
    area = fabric.parts.area
    if event[0] == "inject":
        return fabric.inject(place_of(area, Id(event[1], ROUTER)), place_of(area, event[2]), event[3])
    return fabric.step(event[1]) if event[0] == "step" else fabric.fail(element_of(area, event[1]))


def script_text(parts, room, events):
    """One line for each event."""
    fabric = Fabric(parts, room)
    return "".join(answer(fabric, event) + "\n" for event in events)


def trace_text(parts, router, to, entry, failed):
    """The lines of a failure, if one is given, of one packet that enters, and of its steps until it ends."""
    fabric = Fabric(parts, 1)
    lines = [answer(fabric, ("fail", failed))] if failed else []
    lines.append(answer(fabric, ("inject", router, to, entry)))
    while fabric.packets and fabric.packets[0].state == "going":
        lines.append(fabric.step(0))
    return "".join(line + "\n" for line in lines)
