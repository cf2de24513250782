"""Compares rows of crates/area_tests with the reference program: areas and what is found in them, islands, profiles, faults of LSAs.

usage: python3 -m bench.rows.area_rows --check

What nothing here computes is counted. The status is 1 where something differs.
"""
import re
import sys

from bench.reference.database import NETWORK, ROUTER, Id, Refused, area_of, newest, read_lsas, text_of
from bench.reference.island import address_of, island_of, read_profile, supports
from bench.reference.lsas import spelled
from bench.rows import area_files
from bench.rows.rows import Unknown, compare, laid_out

FILES = area_files.files()
LSA_FAULTS = {"id-mismatch": "IdMismatch", "reserved-sequence": "ReservedSequence", "zero-metric": "ZeroMetric"}


# what words tell

def area_in(file):
    return area_of(newest(read_lsas(file)))


def text(words):
    """The bytes that words tell."""
    escaped = {"s": " ", "t": "\t", "n": "\n", "r": "\r"}
    return re.sub(r"\\(x..|.)", lambda found: chr(int(found[1][1:], 16)) if found[1][0] == "x" else escaped[found[1]], " ".join(words)).encode("latin1")


def address(word):
    return address_of(word.encode())


def id_of(name):
    return Id(address(name.removeprefix("net:")), NETWORK if name.startswith("net:") else ROUTER)


# answers

def place(area, id):
    return f" found at {area.ids.index(id)}" if id in area.ids else " not found"


def arc_line(arc):
    return f"{arc.tail} to {arc.to} metric {arc.metric} data {spelled(arc.data)} bond {arc.bond}"


def area_lines(area):
    lines = []
    for number, id in enumerate(area.ids):
        lines.append(f"{number}: {text_of(id)}{place(area, id)}")
        lines += [f"  {arc_line(arc)}" for arc in area.arcs if arc.tail == number]
    for number, bond in enumerate(area.bonds):
        kind, data = "pair" if bond.paired else "single", f"{spelled(bond.data_a)} {spelled(bond.data_b)}"
        lines.append(f"bond {number}: {kind} {bond.a} {bond.b} data {data} metric {bond.metric_a} {bond.metric_b}")
    return lines or ["no node"]


def named(area, words):
    """The bond of a router's first arc with link data."""
    tail, data = Id(address(words[0]), ROUTER), address(words[1])
    found = [arc.bond for arc in area.arcs if area.ids[arc.tail] == tail and arc.data == data]
    return [f"bond {found[0]}" if found else "none"]


def profile_of(words):
    """A profile, or the line that tells its fault."""
    try:
        return read_profile(text(words))
    except Refused as refused:
        fault, line = re.fullmatch(r"bad profile: (\S+) on line (\d+)", refused.line).groups()
        return [f"{fault.capitalize()} in line {line}"]


def profile_lines(words):
    profile, router, data = profile_of(words[2:]), address(words[0]), address(words[1])
    if isinstance(profile, list):
        return profile
    is_so = lambda test: str(bool(test)).lower()
    return [f"priority {profile.priorities.get(router, 128)} supports {is_so(supports(profile, Id(router, ROUTER)))}"
            f" eligible {is_so((router, data) not in profile.ineligible)}"]


def island_lines(area, words):
    profile, router = profile_of(words[1:]), address(words[0])
    if isinstance(profile, list):
        return profile
    try:
        island = island_of(area, profile, router)
    except Refused:
        return ["Unsupported" if Id(router, ROUTER) in area.ids else "NotThere"]
    lines = []
    for number, (id, ends) in enumerate(zip(island.ids, island.ends)):
        lines.append(f"{number}: {text_of(id)}")
        for end in ends:
            link = island.links[end.link]
            data = link.data_a if link.a == number else link.data_b
            lines.append(f"  to {end.far} metric {end.metric} data {spelled(data)} link {end.link}")
    lines += [f"link {number}: {link.a} {link.b}" for number, link in enumerate(island.links)]
    links = ["-" if link is None else str(link) for link in island.link_of]
    return lines + [f"root {island.root}", " ".join(["links of bonds", *links])]


def lsas_fault(file):
    """The first fault of a file of LSAs."""
    try:
        read_lsas(file)
    except Refused as refused:
        fault, at = re.fullmatch(r"bad database: (\S+) at (\d+)", refused.line).groups()
        return [f"{LSA_FAULTS.get(fault, fault.capitalize())} at {at}"]
    raise Unknown


def answer(call, words):
    files = []
    while words and "." in words[0] and words[0][0].islower() and ":" not in words[0]:
        files.append(FILES[words[0]])
        words = words[1:]
    if call == "profile":
        return profile_lines(words)
    if call == "lsas":
        return lsas_fault(files[0])
    if call not in ("area", "find", "named", "island", "numbered"):
        raise Unknown
    area = area_in(files[0])
    return {
        "area": lambda: area_lines(area),
        "find": lambda: [f"{words[0]}{place(area, id_of(words[0]))}"],
        "named": lambda: named(area, words),
        "island": lambda: island_lines(area, words),
        "numbered": lambda: ["  " + arc_line(arc) for arc in area.arcs if arc.tail == 0],
    }[call]()


def computed(_, call, words):
    """The answer to a row."""
    return laid_out(answer(call, words))


if __name__ == "__main__":
    if sys.argv[1:] != ["--check"]:
        sys.exit(__doc__)
    sys.exit(1 if compare("area_tests", computed) else 0)
