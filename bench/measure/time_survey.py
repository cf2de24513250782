"""Times `mrt survey 7 N` beside `mrt certify` of a mesh of N routers, for 1,024 and 2,048, both in one run.

It prints the ratio of both, wanted at most 1.5; the peak memory of both; and how the time grows for twice the routers, of whose certificate four
times as many rows are computed. Each survey has to be the same at every run, and that of 2,048 routers to have the sums that are known. It
builds the program where need be; it fetches nothing.
"""
import os
import subprocess
import sys
import tempfile

from bench.areas import areas, mesh
from bench.measure import timing
from bench.measure.time_certify import SIZES, told


ROUNDS = 15
NUMBER = "7"
KNOWN = {2048: b"sums blue 5185914333 red 5184171262\n"}


def text_of(survey, size):
    """The survey, where it is as it should be."""
    text = subprocess.run(survey, stdout=subprocess.PIPE, check=True).stdout
    if not text.endswith(KNOWN.get(size, b"")):
        sys.exit(f"{' '.join(survey)}: {text.decode()}")
    return text


def report(size, folder):
    """The time of the survey of one size, in milliseconds."""
    database, certificate = f"{folder}/mesh-{size}.lsas", f"{folder}/mesh-{size}.cert"
    areas.write(database, mesh.database(size, None))
    certify = [timing.PROGRAM, "certify", database, "-", "0.0.0.1"]
    survey = [timing.PROGRAM, "survey", NUMBER, str(size)]
    one, mrt = timing.writing(certify, certificate, ROUNDS), timing.best(survey, ROUNDS, text_of(survey, size))
    length = os.path.getsize(certificate)
    print(f"{size}: mrt certify of a mesh {one:.0f} ms, mrt survey {mrt:.0f} ms, ratio {told(mrt / one, 1.5)}; "
          f"peak memory {timing.peak(certify) / length:.2f} and {timing.peak(survey) / length:.2f} times the certificate of the mesh")
    return mrt


def main():
    timing.build()
    with tempfile.TemporaryDirectory() as folder:
        half, whole = (report(size, folder) for size in SIZES)
        print(f"{whole / half:.2f} times the time for twice the routers")


if __name__ == "__main__":
    main()
