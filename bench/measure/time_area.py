"""Times `mrt check` over the largest area (4,096 routers and 32,768 arcs), over others as large in one way or another, and over areas of half
their size, beside sha256sum of the database.

The island is one router, so that the time is that of reading the database and building the area. It prints the ratio of both sizes, with the
time of a start taken off: below 2.4 means that the time grows as the area does. It builds the program where need be; it fetches nothing.
"""
import os
import tempfile

from bench.areas import area
from bench.measure import timing


SIZES = 2048, 4096
ROUNDS = 25
ANSWER = b"accepted root 0.0.0.1 nodes 1 links 0\n"


def report(shape, size, folder, start, start_sha):
    """The time of one size, without that of a start."""
    database, profile, certificate = (f"{folder}/{shape}-{size}.{kind}" for kind in ("lsas", "profile", "cert"))
    area.write_files(shape, size, database, profile, certificate)
    check = [timing.PROGRAM, "check", database, profile, certificate]
    mrt, sha = timing.best(check, ROUNDS, ANSWER) - start, timing.sha256sum(database, ROUNDS) - start_sha
    print(f"{shape} {size}: database {os.path.getsize(database)} bytes, mrt check {mrt:.1f} ms, sha256sum {sha:.1f} ms; "
          f"peak memory {timing.peak(check)} bytes")
    return mrt


def main():
    timing.build()
    router = timing.DATA + "/router"
    start = timing.best([timing.PROGRAM, "check", router + ".lsas", "-", router + ".cert"], ROUNDS)
    start_sha = timing.sha256sum(router + ".lsas", ROUNDS)
    print(f"a start takes mrt {start:.1f} ms, sha256sum {start_sha:.1f} ms; both are taken off below")
    with tempfile.TemporaryDirectory() as folder:
        for shape in area.SHAPES:
            half, whole = (report(shape, size, folder, start, start_sha) for size in SIZES)
            ratio = whole / half
            print(f"{shape}: {ratio:.2f} times the time for twice the size" + ("" if ratio < 2.4 else ", which is TOO MUCH"))


if __name__ == "__main__":
    main()
