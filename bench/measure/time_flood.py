"""Times `mrt flood` beside sha256sum of the packets that it reads, and its comparisons beside `mrt certify`.

Files of half and nearly the whole limit are read, with a script of no delivery; one of them is delivered to one
router and to two. Then all packets of a ring and a mesh of 1,024 and 2,048 routers, some tens of LSAs in each, are
delivered to two routers and to eight, and the databases of two are compared, for which the certificate of each is
computed. It prints ratios, the peak memory, and how the time grows for twice the size. It builds the program where
need be; it fetches nothing.
"""
import os
import sys
import tempfile

from bench.areas import areas, ring
from bench.measure import timing
from bench.measure.time_certify import SHAPES, SIZES
from bench.reference.lsas import records_of, router_lsa, update, updates


LIMIT = 33554432
LSAS = 30
ROUNDS = 7


def packets_within(parts, limit):
    """As many of these packets as a file of this size has room for."""
    count = size = 0
    while count < len(parts) and size + len(parts[count]) <= limit:
        size += len(parts[count])
        count += 1
    return parts[:count]


def deliveries(parts, routers):
    """A script that delivers each packet to each router; where there is none, one of no delivery."""
    lines = (f"deliver {packet} {each}\n" for each in range(routers) for packet in range(len(parts)))
    return f"routers {max(1, routers)}\n" + "".join(lines)


class Packets:
    """A file of packets in a folder, and the time of sha256sum of it."""

    def __init__(self, folder, parts):
        self.folder, self.parts, self.updates = folder, parts, f"{folder}/updates"
        areas.write(self.updates, b"".join(parts))
        self.size, self.sha = os.path.getsize(self.updates), timing.sha256sum(self.updates, ROUNDS)

    def command(self, routers, more=""):
        """The words of the command that delivers all packets to so many routers, and then does more."""
        areas.write(f"{self.folder}/script", (deliveries(self.parts, routers) + more).encode())
        return [timing.PROGRAM, "flood", self.updates, "-", f"{self.folder}/script"]

    def time(self, routers, more=""):
        """Its time, in milliseconds."""
        return timing.writing(self.command(routers, more), f"{self.folder}/answers", ROUNDS)

    def report(self, what, routers):
        """Its time without more, which is printed."""
        time, memory = self.time(routers), timing.peak(self.command(routers))
        print(
            f"{what}: {len(self.parts):,} packets, {self.size:,} bytes, mrt flood {time:.1f} ms, sha256sum "
            f"{self.sha:.1f} ms, ratio {time / self.sha:.2f}; peak memory {memory / 1e6:.1f} MB, "
            f"{memory / self.size:.1f} times the packets"
        )
        return time


def report_large(what, parts, routers, folder):
    """Times a file of half the limit and one of nearly the whole, delivered to so many routers."""
    half, whole = (
        Packets(folder, packets_within(parts, limit)).report(what, routers) for limit in (LIMIT // 2, LIMIT)
    )
    print(f"{what}: {whole / half:.2f} times the time for twice the packets")


def report_area(shape, size, folder):
    """The times of an area of one size: to two routers, to eight, and of a comparison."""
    data = SHAPES[shape](size)
    areas.write(f"{folder}/database", data)
    files = Packets(folder, updates(1, records_of(data), LSAS))
    two, eight = (files.report(f"{shape} {size}, delivered to {routers} routers", routers) for routers in (2, 8))
    certify = [timing.PROGRAM, "certify", f"{folder}/database", "-", "0.0.0.1"]
    one = timing.writing(certify, f"{folder}/certificate", ROUNDS)
    compared = files.time(2, "same 0 1 0.0.0.1\n") - two
    if not areas.read(f"{folder}/answers").endswith(b"\nsame\n"):
        sys.exit(f"{shape} {size}: two routers differ that were sent the same")
    print(f"{shape} {size}: a comparison {compared:.1f} ms, mrt certify {one:.1f} ms, ratio {compared / one:.2f}")
    return two, eight, compared


def main():
    timing.build()
    with tempfile.TemporaryDirectory() as folder:
        # A script has at most 65,535 deliveries, so that two routers can have all packets of the first file.
        tens, one, none = (
            updates(1, records_of(ring.database(LIMIT // 48)), LSAS),
            update(1, [router_lsa(1, [])]),
            update(1, []),
        )
        report_large("packets of no LSA", [none] * (LIMIT // len(none)), 0, folder)
        report_large("packets of one LSA without links", [one] * (LIMIT // len(one)), 0, folder)
        report_large(f"packets of {LSAS} LSAs", tens, 0, folder)
        for routers in (1, 2):
            report_large(f"packets of {LSAS} LSAs, delivered to {routers}", tens, routers, folder)
        for shape in ("ring", "mesh"):
            half, whole = (report_area(shape, size, folder) for size in SIZES)
            grown = ", ".join(f"{more / less:.2f}" for less, more in zip(half, whole))
            print(f"{shape}: {grown} times the time for twice the routers: to two, to eight, of a comparison")


if __name__ == "__main__":
    main()
