"""Times `mrt certify` of a ring, a mesh, a line and a star of 1,024 and 2,048 routers, and sha256sum of the file that it wrote.

It prints the ratio of both, wanted at most 0.8 for a ring and a mesh; the peak memory, at most 8 MB, since rows are found as they are written; and how the
time grows, at most 4.4 for twice the routers, as the file of a ring does. A line's and a star's files have few rows, so their ratio tells nothing. Each written file has to pass `mrt check`, and that of a ring to be its closed form. It
builds the program where need be; it fetches nothing.
"""
import os
import subprocess
import sys
import tempfile
from math import inf

from bench.areas import areas, mesh, ring
from bench.measure import timing


DENSE = "ring", "mesh"
SIZES = 1024, 2048
ROUNDS = 15
SHAPES = {
    "ring": ring.database,
    "mesh": lambda n: mesh.database(n, None),
    "line": lambda n: areas.database(areas.numbered([(each, each + 1) for each in range(1, n)])),
    "star": lambda n: areas.database(areas.numbered(areas.star(n))),
}


def told(value, most):
    """A ratio, and whether it is too much."""
    return f"{value:.2f}" + ("" if value <= most else " (TOO MUCH)")


def report(shape, size, folder):
    """The time of one size, in milliseconds."""
    database, certificate = f"{folder}/{shape}-{size}.lsas", f"{folder}/{shape}-{size}.cert"
    areas.write(database, SHAPES[shape](size))
    certify = [timing.PROGRAM, "certify", database, "-", "0.0.0.1"]
    mrt, sha, memory = timing.writing(certify, certificate, ROUNDS), timing.sha256sum(certificate, ROUNDS), timing.peak(certify)
    subprocess.run([timing.PROGRAM, "check", database, "-", certificate], stdout=subprocess.DEVNULL, check=True)
    if shape == "ring" and areas.read(certificate) != ring.certificate(size):
        sys.exit(f"{certificate} is not the certificate of a ring")
    length = os.path.getsize(certificate)
    print(f"{shape} {size}: certificate {length} bytes, mrt certify {mrt:.0f} ms, sha256sum {sha:.0f} ms, ratio {told(mrt / sha, 0.8 if shape in DENSE else inf)}; "
          f"peak memory {told(memory / 1e6, 8)} MB")
    return mrt


def main():
    timing.build()
    with tempfile.TemporaryDirectory() as folder:
        for shape in SHAPES:
            half, whole = (report(shape, size, folder) for size in SIZES)
            print(f"{shape}: {told(whole / half, 4.4)} times the time for twice the routers")


if __name__ == "__main__":
    main()
