"""Times the calls of the library beside the program as a process, on a sample of 7 nodes and on a ring and a mesh of 4,096, and tells what memory a call
takes beside its caller's.

usage: python3 -m bench.measure.time_library FILE [--check]

FILE is a libmrt.so.1. With --check it ends with 1 where a call takes more than it may: mrt_check 1.2 times the certificate, mrt_certify 8 MB.
"""
import argparse
import os
import sys
import tempfile
import time

from bench.areas import mesh, ring
from bench.areas.areas import read, write
from bench.measure import timing
from tools.mrttools.library import libmrt as mrt

ROUNDS = 7
NODES = 4096
PAIRS = 1000
# The process that does the same.
FORMS = {"mrt_table": "table", "mrt_certify": "certify", "mrt_check": "check"}


def least(call):
    """The least time of some calls, in milliseconds."""
    times = []
    for _ in range(ROUNDS):
        start = time.perf_counter()
        call()
        times.append((time.perf_counter() - start) * 1000)
    return min(times)


def kept(word):
    with open("/proc/self/status") as file:
        return next(int(line.split()[1]) * 1024 for line in file if line.startswith(word))


def memory(call):
    """What a call has at its peak beside what is there before."""
    with open("/proc/self/clear_refs", "w") as file:
        file.write("5")
    before = kept("VmRSS")
    call()
    return kept("VmHWM") - before


class Caller:
    """The calls as C makes them, into buffers that are there already."""

    def __init__(self, library, area, router, certificate):
        self.library, self.area, self.router, self.certificate = library, area, router, certificate
        self.room = max(len(certificate), 1)
        self.bytes, self.count = (mrt.c_uint8 * self.room)(*[1]), mrt.c_size_t()
        self.rows, self.row, self.island, self.verdict = (mrt.CRow * mrt.MOST_ROWS)(), mrt.CRow(), mrt.CIsland(), mrt.CVerdict()

    def calls(self):
        """Each call by name."""
        count, to = mrt.ctypes.byref(self.count), mrt.ctypes.byref
        ask = lambda name, *words: lambda: self.library.ask(name, self.area, *words)
        table = self.library.table(self.area, self.router)
        ids = [row.node.number for row in table if row.node.kind == mrt.Kind.ROUTER]
        pairs = (mrt.CPair * PAIRS)(*(tuple(ids[(at * step) % len(ids)] for step in (1, 2)) for at in range(1, PAIRS + 1)))
        rows, last = (mrt.CProxyRow * PAIRS)(), table[-1].node
        return {
            "mrt_table": ask("mrt_table", self.router, self.rows, mrt.MOST_ROWS, count),
            "mrt_row_for": ask("mrt_row_for", self.router, last.kind, last.number, to(self.row)),
            f"mrt_proxy of {PAIRS:,} pairs": ask("mrt_proxy", self.router, pairs, PAIRS, rows, PAIRS, count),
            "mrt_shape": ask("mrt_shape", self.router, to(self.island)),
            "mrt_certify": ask("mrt_certify", self.router, self.bytes, self.room, count),
            "mrt_check": ask("mrt_check", self.certificate, len(self.certificate), to(self.verdict)),
        }


def report(library, name, database, profile, router):
    """Prints a line for each call; which ones took too much memory."""
    area = mrt.Area(read(database), read(profile) if profile != "-" else b"")
    certificate = library.certify(area, router)
    caller, wrong, words = Caller(library, area, router, certificate), [], {}
    with tempfile.TemporaryDirectory() as folder:
        write(f"{folder}/cert", certificate)
        given, own = [database, profile], mrt.address(router)
        for form in ("table", "certify"):
            words[form] = [form, *given, own]
        words["check"] = ["check", *given, f"{folder}/cert"]
        for call, made in caller.calls().items():
            taken, took = memory(made), least(made)
            most = {"mrt_check": max(1.2 * len(certificate), 8e6), "mrt_certify": 8e6}.get(call, float("inf"))
            beside = ""
            if call in FORMS:
                beside = f"; the process {timing.writing([timing.PROGRAM, *words[FORMS[call]]], os.devnull, ROUNDS):.2f} ms"
            print(f"{name}, {call}: {took:.2f} ms, {taken / 1e6:.1f} MB{beside}" + (" (TOO MUCH)" if taken > most else ""), flush=True)
            wrong += [call] if taken > most else []
    return wrong


def main():
    parser = argparse.ArgumentParser()
    parser.add_argument("file", type=mrt.Library)
    parser.add_argument("--check", action="store_true")
    said = parser.parse_args()
    lan = mrt.number("10.255.1.1")
    wrong = report(said.file, "7 nodes", f"{timing.DATA}/lan.lsas", f"{timing.DATA}/lan.profile", lan)
    with tempfile.TemporaryDirectory() as folder:
        for name, made in (("ring", ring.database(NODES)), ("mesh", mesh.database(NODES, None))):
            write(f"{folder}/{name}", made)
            wrong += report(said.file, f"{name} of {NODES:,}", f"{folder}/{name}", "-", 1)
    sys.exit(1 if wrong and said.check else 0)


if __name__ == "__main__":
    main()
