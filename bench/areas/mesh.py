"""Writes the database of a grid of routers, 32 in a row, and the certificate of its island.

usage: python3 -m bench.areas.mesh ROUTERS CERTIFICATE DATABASE [SEED]

ROUTERS is a multiple of 32. Router 1 is the first of the first row, and the last router is the root. Each router is linked to the next one
in its row and to the one below it. The metric of each link is 1; with a seed the metrics are random, from 1 to 64 and each way its own.
"""
import sys
from random import Random

from bench.areas import areas
from bench.reference import certificate, certify, lowpoint


WIDE = 32


def database(n, seed):
    random = Random(seed)
    return areas.database(areas.numbered(areas.grid(n, WIDE), (lambda: 1) if seed is None else (lambda: random.randint(1, 64))))


def write_files(n, certificate_name, database_name, seed=None):
    data = database(n, seed)
    island = certify.island_of(data, b"", n)
    areas.write(certificate_name, certificate.write(island, lowpoint.compute(island)))
    areas.write(database_name, data)


if __name__ == "__main__":
    write_files(int(sys.argv[1]), *sys.argv[2:4], *map(int, sys.argv[4:5]))
