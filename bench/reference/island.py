"""The profile file and the MRT Island of a router (RFC 7811, section 5; RFC 7812; RFC 6987)."""
from collections import namedtuple

from bench.reference.database import NETWORK, ROUTER, Id, Refused
from bench.reference.lsas import MAX_LINK_METRIC, spelled


Profile = namedtuple("Profile", "priorities unsupported ineligible")
# A link is its two nodes by number, the lower one first, and of each the metric and the link data.
Link = namedtuple("Link", "a b metric_a metric_b data_a data_b")
# The interface of a node.
End = namedtuple("End", "metric far link")
Island = namedtuple("Island", "ids links ends root link_of")

EMPTY = Profile({}, set(), set())


# the profile file

def number_of(word):
    """The number that decimal digits without a leading zero spell, or nothing."""
    return int(word) if word.isdigit() and (word == b"0" or word[:1] != b"0") else None


def address_of(word):
    parts = [number_of(part) for part in word.split(b".")]
    if len(parts) != 4 or any(part is None or part > 255 for part in parts):
        return None
    return parts[0] << 24 | parts[1] << 16 | parts[2] << 8 | parts[3]


def lines_of(data):
    """Numbered lines without their ends; one carriage return before a line feed belongs to the end."""
    *ended, last = data.split(b"\n")
    lines = [line[:-1] if line.endswith(b"\r") else line for line in ended]
    return enumerate(lines + ([last] if last else []), 1)


def said_lines(data):
    """The numbered lines that say something, with their words. A line of spaces and tabs alone has none."""
    for number, line in lines_of(data):
        words = [word for word in line.replace(b"\t", b" ").split(b" ") if word]
        if line[:1] != b"#" and words:
            yield number, line, words


def fault_of(line, words, seen):
    """The first fault of a line, or nothing."""
    if any(byte != 9 and not 32 <= byte <= 126 for byte in line):
        return "bytes"
    if len(words) != {b"priority": 3, b"no-mrt": 2, b"ineligible": 3}.get(words[0]):
        return "words"
    addresses = words[1:] if words[0] == b"ineligible" else words[1:2]
    if any(address_of(word) is None for word in addresses):
        return "address"
    if words[0] == b"priority" and (number_of(words[2]) is None or number_of(words[2]) > 255):
        return "number"
    return "repeated" if (words[0], *addresses) in seen else None


def read_profile(data):
    """The profile that the lines say, or the first faulty line."""
    profile, seen = Profile({}, set(), set()), set()
    for number, line, words in said_lines(data):
        fault = fault_of(line, words, seen)
        if fault:
            raise Refused(4, f"bad profile: {fault} on line {number}")
        seen.add((words[0], *(words[1:] if words[0] == b"ineligible" else words[1:2])))
        router = address_of(words[1])
        if words[0] == b"priority":
            profile.priorities[router] = number_of(words[2])
        elif words[0] == b"no-mrt":
            profile.unsupported.add(router)
        else:
            profile.ineligible.add((router, address_of(words[2])))
    return profile


# the island

def supports(profile, node):
    return node.kind == NETWORK or node.number not in profile.unsupported


def is_eligible(area, profile, bond):
    """A pair that no router end forbids, for transit traffic both ways, between nodes that support the profile."""
    ends = [(area.ids[bond.a], bond.data_a), (area.ids[bond.b], bond.data_b)]
    return bond.paired and MAX_LINK_METRIC not in (bond.metric_a, bond.metric_b) and all(
        supports(profile, node) and (node.kind == NETWORK or (node.number, data) not in profile.ineligible) for node, data in ends)


def members_of(area, bonds, start):
    """The nodes that chains of these bonds join to one."""
    near = [[] for _ in area.ids]
    for bond in bonds:
        near[bond.a].append(bond.b)
        near[bond.b].append(bond.a)
    found, waiting = {start}, [start]
    while waiting:
        for node in near[waiting.pop()]:
            if node not in found:
                found.add(node)
                waiting.append(node)
    return sorted(found)


def ends_of(count, links):
    """Each node's interfaces by metric, then by neighbour, then by link."""
    ends = [[] for _ in range(count)]
    for number, link in enumerate(links):
        ends[link.a].append(End(link.metric_a, link.b, number))
        ends[link.b].append(End(link.metric_b, link.a, number))
    return [sorted(each) for each in ends]


def root_of(ids, profile):
    """The router of the lowest priority number and, among those, the highest router ID."""
    routers = [node for node in ids if node.kind == ROUTER]
    return ids.index(min(routers, key=lambda node: (profile.priorities.get(node.number, 128), -node.number)))


def island_of(area, profile, router):
    """The island of a router, or a refusal."""
    if Id(router, ROUTER) not in area.ids or router in profile.unsupported:
        raise Refused(7, f"not there: {spelled(router)}")
    eligible = [(number, bond) for number, bond in enumerate(area.bonds) if is_eligible(area, profile, bond)]
    members = members_of(area, [bond for _, bond in eligible], area.ids.index(Id(router, ROUTER)))
    place = {node: number for number, node in enumerate(members)}
    links, link_of = [], [None] * len(area.bonds)
    for number, bond in eligible:
        if bond.a in place:
            link_of[number] = len(links)
            links.append(Link(place[bond.a], place[bond.b], bond.metric_a, bond.metric_b, bond.data_a, bond.data_b))
    ids = [area.ids[node] for node in members]
    return Island(ids, links, ends_of(len(ids), links), root_of(ids, profile), link_of)
