"""Writes an area like a provider's, with the names and the sites of its routers, to try the report on.

usage: python3 -m bench.areas.provider ROUTERS FOLDER [SEED]

FOLDER gets area.lsas, area.profile, area.names, area.sites and area.weights. Each site has two routers of the core and two that
aggregate; access routers hang on these in rings of up to five, some by one link, and at every third site three of them are on a LAN.
The sites are in a ring with chords. The profile keeps one aggregating router out, one link has the greatest metric, and one is told
by one end alone.
"""
import os
import sys
from random import Random

from bench.areas import areas
from bench.reference.lsas import MAX_LINK_METRIC, POINT_TO_POINT, TRANSIT, address, network_lsa, router_lsa, spelled


CITIES = "ams ber cph dus ein fra gva ham inn jen kln lej muc nue osl prg qro rom szg trn ulm vie waw xan yps zrh".split()
A_SITE, RING = 36, 5


class Area:
    """Routers with their names and sites, and the links between them."""

    def __init__(self, count, seed):
        self.random, self.names, self.sites, self.links, self.lans = Random(seed), [], [], [], []
        sites = max(3, round(count / A_SITE))
        for site in range(sites):
            self.add_site(site, count // sites + (site < count % sites))
        for site, (one, other) in enumerate(self.cores):
            far, chord = self.cores[(site + 1) % sites], self.cores[self.random.randrange(sites)]
            self.link(one, far[0], 40 + 10 * (site % 4))
            self.link(other, far[1], 45 + 10 * (site % 4))
            if chord[0] not in (one, far[0]):
                self.link(one, chord[1], 90)

    def add_router(self, kind, site, number):
        city = CITIES[site % len(CITIES)] + (str(site // len(CITIES)) if site >= len(CITIES) else "")
        self.names.append(f"{kind}-{city}-{number}")
        self.sites.append(city)
        return len(self.names)

    def link(self, one, other, metric):
        self.links.append((one, other, metric, metric))

    def add_site(self, site, count):
        core = [self.add_router("core", site, number) for number in (1, 2)]
        agg = [self.add_router("agg", site, number) for number in (1, 2)]
        self.cores = [*getattr(self, "cores", []), core]
        self.link(*core, 5)
        for one, other in zip(core, agg):
            self.link(one, other, 10)
        self.link(core[0], agg[1], 15)
        left = [self.add_router("acc", site, number) for number in range(1, count - 3)]
        if site % 3 == 0 and len(left) > 3:
            self.lans.append((agg[0], [*agg, *left[:3]]))
            left = left[3:]
        while left:
            ring, left = left[:RING], left[RING:]
            for one, other in zip([agg[0], *ring], ring):
                self.link(one, other, 20)
            # One ring in twelve is open at its end.
            if self.random.randrange(12):
                self.link(ring[-1], agg[1], 20)

    def id(self, number):
        return address("10.255.0.0") + number

    def lsas(self):
        """The database. The last link but one has the greatest metric, and the last one is told by its first end alone."""
        found = {number: [] for number in range(1, len(self.names) + 1)}
        for number, (one, other, there, back) in enumerate(self.links):
            metric = MAX_LINK_METRIC if number == len(self.links) - 2 else there
            subnet = address("10.0.0.0") + 4 * number
            found[one].append((self.id(other), subnet + 1, POINT_TO_POINT, metric))
            if number < len(self.links) - 1:
                found[other].append((self.id(one), subnet + 2, POINT_TO_POINT, back))
        networks = []
        for number, (designated, attached) in enumerate(self.lans):
            lan = address("198.18.0.0") + 256 * number
            for place, each in enumerate(attached, 1):
                found[each].append((lan + 1, lan + place, TRANSIT, 10))
            networks.append(network_lsa(lan + 1, self.id(designated), 0xFFFFFF00, list(map(self.id, attached))))
        return b"".join(router_lsa(self.id(each), links) for each, links in found.items()) + b"".join(networks)

    def spelled(self, number):
        return spelled(self.id(number))

    def weights(self):
        """Each access router sends to one of the core in each of three sites, and back."""
        for number, name in enumerate(self.names, 1):
            if name.startswith("acc"):
                for core in self.random.sample([core[0] for core in self.cores], 3):
                    yield f"{self.spelled(number)} {self.spelled(core)} {self.random.randint(1, 20)}\n"
                    yield f"{self.spelled(core)} {self.spelled(number)} {self.random.randint(20, 90)}\n"


def write_files(count, folder, seed=1):
    area = Area(count, seed)
    numbers = range(1, count + 1)
    out = area.names.index(f"agg-{area.sites[-1]}-1") + 1
    files = {
        "lsas": area.lsas(),
        "profile": f"no-mrt {area.spelled(out)}\n".encode(),
        "names": "".join(f"{area.spelled(each)} {area.names[each - 1]}\n" for each in numbers).encode(),
        "sites": "".join(f"{area.spelled(each)} {area.sites[each - 1]}\n" for each in numbers).encode(),
        "weights": "".join(area.weights()).encode(),
    }
    os.makedirs(folder, exist_ok=True)
    for name, data in files.items():
        areas.write(os.path.join(folder, f"area.{name}"), data)


if __name__ == "__main__":
    write_files(int(sys.argv[1]), sys.argv[2], *map(int, sys.argv[3:4]))
