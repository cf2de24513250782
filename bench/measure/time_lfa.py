"""Times `mrt lfa` on a mesh and a ring of 1,024 and 2,048 routers, and of the hub of a star of as many.

It prints the time of `sha256sum` of the database, of `mrt table` of the same router and of `mrt lfa`; its peak memory; and how the time grows for
twice the routers. On a mesh and a ring the router is the first one or one in the middle, which has some neighbours, so that the time grows
nearly as the area does. A star's hub searches from each other router: four times the time for twice the routers.

Then it prints how many searches each neighbour of a mesh's router costs, wanted at most ten. One search is what each of many more neighbours of
router 1 adds. The time of reading the database and building the area is left out: that of `mrt lfa` of a router that is not there. It builds the
program where need be; it fetches nothing.
"""
import os
import tempfile

from bench.areas import areas
from bench.areas.mesh import WIDE
from bench.measure import timing
from bench.measure.time_certify import SHAPES, SIZES, told
from bench.reference.lsas import spelled


ROUNDS = 15
MORE = 128
ABSENT = "255.255.255.255"
# The routers that are asked for: of a star the hub alone.
ROUTERS = {"ring": lambda n: (1, n // 2), "mesh": lambda n: (1, n // 2), "star": lambda n: (1,)}


def report(shape, size, folder):
    """The time of the alternates of one size, in milliseconds: the longest one of the routers'."""
    database, text = f"{folder}/{shape}-{size}.lsas", f"{folder}/{shape}-{size}.text"
    areas.write(database, SHAPES[shape](size))
    times, sha = [], timing.sha256sum(database, ROUNDS)
    for router in ROUTERS[shape](size):
        table = timing.writing([timing.PROGRAM, "table", database, "-", spelled(router)], text, ROUNDS)
        lfa = [timing.PROGRAM, "lfa", database, spelled(router)]
        times.append(timing.writing(lfa, text, ROUNDS))
        print(f"{shape} {size}, router {router}: sha256sum {sha:.1f} ms, mrt table {table:.0f} ms, mrt lfa {times[-1]:.1f} ms, "
              f"{times[-1] / sha:.1f} times sha256sum, {times[-1] / table:.2f} times mrt table; {os.path.getsize(text)} bytes; "
              f"peak memory {timing.peak(lfa) / 1e6:.1f} MB")
    return max(times)


def searching(database, router):
    """The time of the searches from a router's neighbours and of the text, in milliseconds."""
    lfa = [timing.PROGRAM, "lfa", database]
    return timing.best([*lfa, spelled(router)], ROUNDS) - timing.best([*lfa, ABSENT], ROUNDS, status=7)


def report_searches(size, folder):
    """How many searches each neighbour costs, on a mesh of one size."""
    links = areas.grid(size, WIDE)
    plain, more = f"{folder}/plain.lsas", f"{folder}/more.lsas"
    areas.write(plain, areas.database(areas.numbered(links)))
    areas.write(more, areas.database(areas.numbered(links + [(1, size - each) for each in range(MORE)])))
    one = (searching(more, 1) - searching(plain, 1)) / MORE
    for router in ROUTERS["mesh"](size):
        neighbours = sum(router in link for link in links)
        taken = searching(plain, router)
        print(f"mesh {size}, router {router}: {neighbours} neighbours, {taken:.2f} ms past the area, one search {one:.2f} ms: "
              f"{told(taken / neighbours / one, 10)} searches a neighbour")


def main():
    timing.build()
    with tempfile.TemporaryDirectory() as folder:
        for shape in ROUTERS:
            half, whole = (report(shape, size, folder) for size in SIZES)
            print(f"{shape}: {whole / half:.2f} times the time for twice the routers")
        report_searches(SIZES[-1], folder)


if __name__ == "__main__":
    main()
