"""The files that the forms of `mrt` read over one area, and the words of each form: a router in the middle, the one with most links, one with two
links and the node farthest from it, the first link of the primary for it, which fails, packets, and deliveries."""

import os
from collections import Counter

from bench.areas import areas
from bench.reference import certify, table
from bench.reference.database import ROUTER, text_of
from bench.reference.lsas import records_of, spelled, updates

# A router with no more links than this has no form of its own for the router with most links.
FEW = 8
TEN, STEPS_OF_TEN, STEPS_OF_ALL = 10, 16, 4


class Asked:
    """What the forms are asked, by name."""

    def __init__(self, data):
        self.area = area = certify.area_of(data)
        routers = [place for place, node in enumerate(area.ids) if node.kind == ROUTER]
        self.links = Counter(arc.tail for arc in area.arcs)
        self.names = [text_of(area.ids[place]) for place in routers]
        self.middle = self.names[len(routers) // 2]
        hub, two = max(routers, key=self.links.get), min(routers, key=lambda place: abs(self.links[place] - 2))
        self.hub = text_of(area.ids[hub]) if self.links[hub] > FEW else None
        self.two = text_of(area.ids[two])
        far = table.distances_to(area, two)
        place = max(far, key=far.get)
        self.far = text_of(area.ids[place])
        self.failed = f"link:{self.two}/{spelled(table.primary(area, two, place).first.data)}"


def script(asked, count, steps):
    """So many packets from routers all over the area, each to the router half the area on, with so many steps in turn, after the failure."""
    names = asked.names
    starts = [place * len(names) // count for place in range(count)]
    lines = [f"island {asked.middle} {count}", f"fail {asked.failed}"]
    lines += [f"inject {names[at]} {names[(at + len(names) // 2) % len(names)]} repair" for at in starts]
    lines += [f"step {packet}" for _ in range(steps) for packet in range(count)]
    return "".join(line + "\n" for line in lines).encode()


def deliveries(packets, router):
    """Two routers to which all packets come, and their comparison."""
    lines = ["routers 2", *(f"deliver {packet} {each}" for each in (0, 1) for packet in range(packets)), f"same 0 1 {router}"]
    return "".join(line + "\n" for line in lines).encode()


class Inputs:
    """The files of one area in a folder. The certificate is written by the form `certify`."""

    def __init__(self, folder, made):
        self.folder, self.made, self.asked = folder, made, Asked(made.data)
        packets = updates(1, records_of(made.data))
        files = {
            "database": made.data,
            "ten": script(self.asked, TEN, STEPS_OF_TEN),
            "all": script(self.asked, len(self.asked.names), STEPS_OF_ALL),
            "updates": b"".join(packets),
            "deliveries": deliveries(len(packets), self.asked.middle),
        }
        for name, text in files.items():
            areas.write(self.path(name), text)

    def path(self, name):
        return os.path.join(self.folder, name)

    def forms(self):
        """The words of each form that there is for this area, by its name; `certify` is the first."""
        asked, area = self.asked, [self.path("database"), "-"]
        found = {
            "certify": ["certify", *area, asked.middle],
            "check": ["check", *area, self.path("certificate")],
            "upgrade": ["upgrade", *area, self.path("certificate")],
            "table": ["table", *area, asked.middle],
            "trace": ["trace", *area, asked.two, asked.far, "repair", asked.failed],
            "fabric-ten": ["fabric", *area, self.path("ten")],
            "fabric-all": ["fabric", *area, self.path("all")],
            "lfa": ["lfa", area[0], asked.two],
            "order": ["order", *area, asked.middle],
            "flood": ["flood", self.path("updates"), "-", self.path("deliveries")],
        }
        if asked.hub:
            found |= {"table-hub": ["table", *area, asked.hub], "lfa-hub": ["lfa", area[0], asked.hub]}
        if self.made.ends:
            found["proxy"] = ["proxy", *area, asked.middle, *map(spelled, self.made.ends)]
        if self.made.survey:
            found["survey"] = ["survey", *map(str, self.made.survey)]
        return found
