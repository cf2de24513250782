"""Writes a large area whose island is one router: its database, its profile and the certificate.

usage: python3 -m bench.areas.area circle|bundles|star N DATABASE PROFILE CERTIFICATE

circle: N routers, each linked to the four next ones; 4,096 make the largest area, with 32,768 arcs.
bundles: eight routers in pairs, each pair with N parallel links.
star: N routers around router 1.
The profile takes the neighbours of router 1 out of the island, so that the certificate has one router. LSAs and links are shuffled.
"""
import sys
from random import Random

from bench.areas import areas
from bench.reference import certificate, certify, lowpoint
from bench.reference.lsas import spelled


SHAPES = {"circle": areas.circle, "bundles": areas.bundles, "star": areas.star}


def write_files(shape, n, database_name, profile_name, certificate_name):
    links = areas.numbered(SHAPES[shape](n))
    data = areas.shuffled(links, Random(1))
    profile = "".join(f"no-mrt {spelled(router)}\n" for router in sorted({link[0] for link in links[1]})).encode()
    island = certify.island_of(data, profile, 1)
    areas.write(database_name, data)
    areas.write(profile_name, profile)
    areas.write(certificate_name, certificate.write(island, lowpoint.compute(island)))


if __name__ == "__main__":
    write_files(sys.argv[1], int(sys.argv[2]), *sys.argv[3:])
