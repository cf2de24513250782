"""Times `mrt` on files that were made to be slow or large and in processes that are short of room, beside sha256sum of what it reads.

usage: python3 -m bench.measure.hostile [--keys N] [--limit MB] [--patience S] [--program FILE] [--check] [ROW..]

Without a ROW all run. `keys`: N keys (349,525: a database of 8 MiB) are picked so that a table with the hasher of the kit's maps, which has a fixed
seed, puts them all into one run of places; a database, a profile and packets have them, and beside each stands the same with as many keys in a row.
`old`, `equal`, `others` and `longest` are databases of 8 MiB: of old or equal instances, of LSAs of another type, of LSAs as long as they get. `lan`
has networks with 16,000 routers, `network` one network with 80,000 LSAs, `parallel` bundles of links. `certificate` has the longest ones, which are
wrong at the very end, and short ones of chains of heads and of many blocks, wrong or cut, `script` scripts and a profile of a million lines that
are wrong in the last. `flood` has packets of one LSA of 65 kB, which reach 64 routers, `known` one such LSA that reaches a router 65,535 times, also
from two places of the file, `fabric` 65,535 packets that each switch once on the largest ring. `stacks` runs each form with a stack of 64 KiB, `sizes` with a limit on the size of files.

A run has at most MB of memory (2,000) and S seconds (120). With --check the status is 1 where a run takes more than ten times sha256sum and 0.1 s, or
has more than six times the files and 16 MB, or, where it floods, twice the packets and 64 bytes for each LSA in a packet or a database, whichever is
more; but for rows that are told only, since what they ask for costs more. It builds the program where need be, if none is named; it fetches nothing.
"""
import argparse
import os
import resource
import subprocess
import sys
import tempfile
from collections import namedtuple
from itertools import count, islice

from bench.areas import areas, ring, tree
from bench.measure import timing
from bench.reference.lsas import POINT_TO_POINT, TRANSIT, address, lsa, network_lsa, router_lsa, spelled, update, updates


KEYS = 349525
ROUNDS = 3
ROUTERS = 8
PACKET = 2000
STACK = 65536

# limits of the program and of the formats
DATABASE, CERTIFICATE = 8388608, 134217728
CERTIFICATE_HEAD, CERTIFICATE_NODE, CERTIFICATE_LINK = 14, 11, 7
LONGEST_LINKS, LONGEST_LISTED, PACKET_LINKS = 5459, 16377, 5456
NODES, MOST_ROUTERS, MOST_DELIVERIES = 4096, 64, 65535
LINES = 1000000
NETWORK_ROUTERS, NETWORK_LSAS = 16000, 80000

# what a run may take
SLOWER, SECONDS, LARGER, BYTES = 10, 0.1, 6, 16e6
# of packets twice their bytes, and so much for each LSA in a packet or in a router's database
TWICE, EACH = 2, 64

# A run: what is told of it, its words, the status that it has to end with, whether it is told only, and how many LSAs stand in packets and databases.
Row = namedtuple("Row", "title words status told_only lsas", defaults=[0, False, 0])

# the hasher of the kit's maps, and how many entries its table holds for each group of places
SEED = 0x243F6A8885A308D3
MULTIPLIER = 0x9E3779B97F4A7C15
LOAD = 9


# keys that fall together


def fed(state, value, size):
    """The hasher's state after a number of so many bytes."""
    short = {1: value * 0x010101, 4: value | value << 32, 8: value}[size]
    product = (state ^ short) * (MULTIPLIER ^ 2 * size)
    return product & (1 << 64) - 1 ^ product >> 64


def together(keys, hashed):
    """So many numbers whose keys begin to look for a place in the first 16th of a table for all of them."""
    groups = 1
    while LOAD * groups < keys:
        groups *= 2
    falls = (number for number in count(1) if ((state := hashed(number)) ^ state >> 32) & groups - 1 < groups / 16)
    return list(islice(falls, keys))


def router_key(number):
    return fed(fed(fed(SEED, 1, 1), number, 4), number, 4)


def ineligible_key(number):
    return fed(fed(fed(SEED, 2, 8), 1, 4), number, 4)


def database(numbers):
    return b"".join(lsa(1, number, number, bytes(4)) for number in numbers)


def profile(numbers):
    return "".join(f"ineligible 0.0.0.1 {spelled(number)}\n" for number in numbers).encode()


def deliveries(packets, routers):
    """Each packet reaches each router."""
    lines = (f"deliver {packet} {router}\n" for router in range(routers) for packet in range(packets))
    return "".join([f"routers {routers}\n", *lines]).encode()


def keys(many):
    """The keys that fall together, and as many in a row."""
    few = many // 7
    own = f"{timing.DATA}/triangle.lsas"
    for name, numbers, subjects in (
        ("chosen", together(many, router_key), together(many, ineligible_key)),
        ("in a row", range(1, many + 1), range(1, many + 1)),
    ):
        areas.write("db", database(numbers))
        yield Row(f"database of {many} keys, {name}", ["lfa", "db", "1.1.1.1"], 6)
        areas.write("lines", profile(subjects))
        yield Row(f"profile of {many} lines, {name}", ["certify", own, "lines", "1.1.1.1"])
    for name, numbers in (("chosen", together(few, router_key)), ("in a row", range(1, few + 1))):
        packets = updates(1, [router_lsa(number, []) for number in numbers], PACKET)
        areas.write("packets", b"".join(packets))
        areas.write("events", deliveries(len(packets), ROUTERS))
        yield Row(f"{few} keys to {ROUTERS} routers, {name}", ["flood", "packets", "-", "events"], lsas=few * (ROUTERS + 1))


# databases

OF_ONE = ["lfa", "db", "0.0.0.1"]


def old(_):
    """Instances of one LSA, each older than all before it, and each newer."""
    size = DATABASE // 24
    records = [lsa(1, 1, 1, bytes(4), sequence=0x80000001 + place) for place in range(size)]
    areas.write("db", b"".join(reversed(records)))
    yield Row(f"{size} instances, each older", OF_ONE)
    areas.write("db", b"".join(records))
    yield Row(f"{size} instances, each newer", OF_ONE)


def equal(_):
    """Instances of one LSA that differ in their age at most."""
    size, record = DATABASE // 24, lsa(1, 1, 1, bytes(4))
    areas.write("db", b"".join((place % 3600).to_bytes(2, "big") + record[2:] for place in range(size)))
    yield Row(f"{size} equal instances", OF_ONE)


def others(_):
    """LSAs of another type, none of which counts."""
    size, own = (DATABASE - 24) // 20, lsa(1, 1, 1, bytes(4))
    areas.write("db", own + b"".join(lsa(5, number, 1, b"") for number in range(size)))
    yield Row(f"{size} LSAs of type 5", OF_ONE)


def longest(_):
    """Router-LSAs as long as they get, whose links all count, or none."""
    size = DATABASE // (24 + 12 * LONGEST_LINKS)
    for name, far, status in (
        ("all answered", lambda each, place: (each + place % (size - 1)) % size + 1, 6),
        ("none answered", lambda each, place: DATABASE + place, 0),
    ):
        links = lambda each: [(far(each, place), place, POINT_TO_POINT, 1) for place in range(LONGEST_LINKS)]
        areas.write("db", b"".join(router_lsa(each, links(each)) for each in range(1, size + 1)))
        yield Row(f"{size} routers of {LONGEST_LINKS} links, {name}", OF_ONE, status)


def network(place, routers, designated=1):
    return network_lsa(address("10.0.0.1") + place, designated, 0xFFFFFF00, routers)


def joined(router, places):
    """A router with a link to each of these networks."""
    return router_lsa(router, [(address("10.0.0.1") + place, place, TRANSIT, 1) for place in places])


def lan(_):
    """Networks with very many routers."""
    many = range(1, NETWORK_ROUTERS + 1)
    areas.write("db", network(0, many) + b"".join(joined(each, [0]) for each in many))
    yield Row(f"a network of {NETWORK_ROUTERS} routers", OF_ONE, 6)
    size = DATABASE // (24 + 4 * LONGEST_LISTED) - 1
    own = joined(1, range(size))
    strange = range(2, LONGEST_LISTED + 2)
    areas.write("db", own + b"".join(network(place, strange) for place in range(size)))
    yield Row(f"{size} networks of {LONGEST_LISTED} routers, none there", OF_ONE)
    areas.write("db", own + b"".join(network(place, [1] * LONGEST_LISTED) for place in range(size)))
    yield Row(f"{size} networks of one router {LONGEST_LISTED} times", OF_ONE, 6)


def networks(_):
    """LSAs of one network by as many routers; the one with the greatest router ID speaks."""
    own = joined(1, [0])
    areas.write("db", own + b"".join(network(0, [1], designated) for designated in range(1, NETWORK_LSAS + 1)))
    yield Row(f"{NETWORK_LSAS} LSAs of one network", OF_ONE)


def bundles(pairs, links):
    """So many pairs of routers, each with so many links."""
    return areas.database(areas.numbered([(pair, pair + 1) for pair in range(1, 2 * pairs, 2) for _ in range(links)]))


def parallel(_):
    """Parallel links, to the limit of an area and of an LSA, and over it."""
    of_form = lambda form: [form, "db", "-", "0.0.0.1"]
    areas.write("db", bundles(1, LONGEST_LINKS))
    for form in ("certify", "table", "order"):
        yield Row(f"{LONGEST_LINKS} links of two routers, {form}", of_form(form))
    areas.write("db", bundles(4, NODES))
    yield Row(f"{4 * NODES} links of eight routers, certify", of_form("certify"))
    areas.write("db", bundles(8, NODES))
    yield Row(f"{8 * NODES} links of sixteen routers", OF_ONE, 6)


# certificates


def certificate(_):
    """The longest certificate, of a ring, wrong in its last byte or after it, and one that is too long."""
    areas.write("db", ring.database(NODES))
    check, whole = ["check", "db", "-", "long"], ring.certificate(NODES)
    for name, text, status in (
        ("whole", whole, 0),
        ("of a wrong tag in the last row", whole[:-1] + bytes([7]), 5),
        ("of another tag in the last row", whole[:-1] + bytes([1]), 1),
        ("with zeros after it", whole.ljust(CERTIFICATE, b"\0"), 5),
        ("that is too long", whole.ljust(CERTIFICATE + 1, b"\0"), 6),
    ):
        areas.write("long", text)
        yield Row(f"certificate of {len(text)} bytes, {name}", check, status)
    for shape, what in (("line", f"a chain of {NODES - 1} heads"), ("star", f"{NODES - 1} blocks under one head")):
        tree.write_files(shape, NODES, "whole", "db")
        with open("whole", "rb") as file:
            whole = file.read()
        links = CERTIFICATE_HEAD + CERTIFICATE_NODE * NODES
        rows = links + CERTIFICATE_LINK * (NODES - 1)
        for name, text, status in (
            ("whole", whole, 0),
            ("of a wrong tag in the last row", whole[:-1] + bytes([7]), 5),
            ("of another tag in the last row", whole[:-1] + bytes([1]), 1),
            ("of another role of the last link", whole[: rows - 1] + b"\0" + whole[rows:], 1),
            ("cut after its nodes", whole[:links], 5),
            ("cut after its links", whole[:rows], 5),
        ):
            areas.write("long", text)
            yield Row(f"certificate of {what}, {len(text)} bytes, {name}", check, status)


# scripts


def script(_):
    """Lines without a fault, and then one with a fault."""
    own, packets = f"{timing.DATA}/triangle.lsas", f"{timing.DATA}/triangle.updates"
    many = lambda first, line: first + line * LINES + b"stop\n"
    areas.write("lines", many(b"island 2.2.2.2 1\n", b"step 0\n"))
    yield Row(f"{LINES} events, wrong in the last line", ["fabric", own, "-", "lines"], 11)
    areas.write("lines", many(b"routers 1\n", b"same 0 0 1.1.1.1\n"))
    yield Row(f"{LINES} comparisons, wrong in the last line", ["flood", packets, "-", "lines"], 11)
    areas.write("lines", profile(range(1, LINES + 1)) + b"stop\n")
    yield Row(f"profile of {LINES} lines, wrong in the last", ["certify", own, "lines", "1.1.1.1"], 4)


# packets


def long_update(router):
    """A packet of one LSA that is as long as a packet has room for."""
    return update(router, [router_lsa(router, [(place, place, POINT_TO_POINT, 1) for place in range(PACKET_LINKS)])])


def flood(_):
    """Packets of one long LSA each, which reach as many routers as there can be."""
    for size in (16, 32):
        packets = [long_update(router) for router in range(1, 16 * size + 1)]
        areas.write("packets", b"".join(packets))
        areas.write("events", deliveries(len(packets), MOST_ROUTERS))
        yield Row(f"{len(packets)} packets of 65 kB to {MOST_ROUTERS} routers", ["flood", "packets", "-", "events"])


def known(_):
    """One long LSA that reaches a router again and again."""
    areas.write("packets", long_update(1))
    areas.write("events", b"routers 1\n" + b"deliver 0 0\n" * MOST_DELIVERIES)
    yield Row(f"an LSA of 65 kB, {MOST_DELIVERIES} times to one router", ["flood", "packets", "-", "events"])
    areas.write("twins", long_update(1) * 2)
    areas.write("events", b"routers 1\ndeliver 0 0\n" + b"deliver 1 0\n" * (MOST_DELIVERIES - 1))
    yield Row("the same from another place of the file, each compared", ["flood", "twins", "-", "events"], 0, True)


def fabric(_):
    """Packets of the router before a failed link of a ring, to all destinations beyond it in turn."""
    areas.write("db", ring.database(NODES))
    beyond = range(2, NODES // 2)
    packets = [f"inject 0.0.0.1 {spelled(beyond[each % len(beyond)])} repair\n" for each in range(MOST_DELIVERIES)]
    steps = [f"step {each}\n" for each in range(MOST_DELIVERIES)]
    lines = [f"island 0.0.0.1 {MOST_DELIVERIES}\n", "fail link:0.0.0.1/0.0.0.1\n", *packets, *steps]
    areas.write("events", "".join(lines).encode())
    yield Row(f"{MOST_DELIVERIES} packets that switch on a ring of {NODES}", ["fabric", "db", "-", "events"], 0, True)


# runs


def show(row, asked):
    """Prints the time and the memory of a run beside the time of sha256sum of the files that it reads; whether it is within its bounds."""
    command, files = [asked.program, *row.words], [word for word in row.words if os.path.isfile(word)]
    size, sha = sum(map(os.path.getsize, files)), timing.best(["sha256sum", *files], ROUNDS) / 1000
    runs = [timing.run(command, "text", asked.limit * 1000000, asked.patience)]
    while len(runs) < ROUNDS and runs[-1].status == row.status and runs[-1].seconds < asked.patience / 10:
        runs.append(timing.run(command, "text", asked.limit * 1000000, asked.patience))
    took, memory, status = min(it.seconds for it in runs), max(it.memory for it in runs), runs[-1].status
    faults = []
    if status is None:
        faults.append(f"over {asked.patience} s")
    elif status == 10 != row.status:
        faults.append(f"over {asked.limit} MB")
    elif status != row.status:
        faults.append(f"status {status}, NOT {row.status}: {runs[-1].errors.decode().strip()}")
    else:
        most = max(LARGER * size + BYTES, TWICE * size + EACH * row.lsas)
        faults += ["TOO SLOW"] * (took > SLOWER * sha + SECONDS) + ["TOO LARGE"] * (memory > most)
    print(
        f"{row.title}: {size} bytes, sha256sum {sha * 1000:.0f} ms, {took * 1000:.0f} ms, {took / sha:.1f} times it, "
        f"{memory / 1e6:.1f} MB, {memory / size:.1f} times the files"
        + "".join(f", {fault}" for fault in faults)
        + (" (told only)" if row.told_only else ""),
        flush=True,
    )
    return row.told_only or not faults


def forms():
    """Words of each form, over the samples."""
    at = lambda name: f"{timing.DATA}/{name}"
    lan = [at("lan.lsas"), at("lan.profile")]
    areas.write("steps", b"island 10.255.1.4 2\ninject 10.255.1.4 10.255.1.1 blue\nstep 0\n")
    return (
        ["check", *lan, at("lan.cert")],
        ["certify", *lan, "10.255.1.4"],
        ["upgrade", *lan, at("lan.cert")],
        ["table", *lan, "10.255.1.4"],
        ["lfa", lan[0], "10.255.1.4"],
        ["order", *lan, "10.255.1.4"],
        ["proxy", *lan, "10.255.1.4", "10.255.1.1", "10.255.1.2"],
        ["trace", *lan, "10.255.1.4", "10.255.1.1", "repair", "10.255.1.2"],
        ["fabric", *lan, "steps"],
        ["flood", at("triangle.updates"), "-", at("triangle.deliveries")],
        ["survey", "1", "64"],
        [],
    )


def limited(words, limit, most, **more):
    """A run within a limit of the process."""
    return subprocess.run(
        words, preexec_fn=lambda: resource.setrlimit(limit, (most, most)), stderr=subprocess.PIPE, check=False, **more
    )


def stacks(asked):
    """Each form ends with a stack of 64 KiB as without a limit."""
    well = True
    for words in forms():
        command = [asked.program, *words]
        free = subprocess.run(command, stdout=subprocess.PIPE, stderr=subprocess.PIPE, check=False)
        done = limited(command, resource.RLIMIT_STACK, STACK, stdout=subprocess.PIPE)
        same = (done.returncode, done.stdout, done.stderr) == (free.returncode, free.stdout, free.stderr)
        well &= same
        print(
            f"stack of {STACK} bytes, {' '.join(words[:1]) or 'no words'}: status {done.returncode}, {'the same' if same else 'NOT THE SAME'}"
        )
    return well


def sizes(_):
    """The script gives status 9 where a file may not grow, as where any other write fails."""
    certify, well = [os.path.join(timing.ROOT, "mrt"), *forms()[1]], True
    for most in (0, 100):
        with open("text", "wb") as text:
            done = limited(certify, resource.RLIMIT_FSIZE, most, stdout=text)
        well &= done.returncode == 9
        print(
            f"files of {most} bytes, certify: status {done.returncode}, {os.path.getsize('text')} bytes, {done.stderr.decode().strip()}"
        )
    return well


# Rows that are made one after another, and then what is shown in its own way.
ROWS = {
    "keys": keys,
    "old": old,
    "equal": equal,
    "others": others,
    "longest": longest,
    "lan": lan,
    "network": networks,
    "parallel": parallel,
    "certificate": certificate,
    "script": script,
    "flood": flood,
    "known": known,
    "fabric": fabric,
}
OWN = {"stacks": stacks, "sizes": sizes}


def words():
    names = [*ROWS, *OWN]
    parser = argparse.ArgumentParser(description=__doc__.split("\n")[0])
    parser.add_argument("rows", nargs="*", metavar="ROW", help=", ".join(names))
    parser.add_argument("--keys", type=int, default=KEYS, help=f"keys of the rows of keys ({KEYS})")
    parser.add_argument("--limit", type=int, default=2000, help="MB that a run may have (2000)")
    parser.add_argument("--patience", type=int, default=120, help="seconds that a run may take (120)")
    parser.add_argument("--program", help="the program; where none is named, that of this checkout, which is built")
    parser.add_argument("--check", action="store_true", help="status 1 where a row is out of its bounds")
    asked = parser.parse_args()
    for name in asked.rows:
        if name not in names:
            parser.error(f"{name} is none of {', '.join(names)}")
    # (the script builds, so that it is not asked where another program is named)
    asked.rows = asked.rows or [name for name in names if not (asked.program and name == "sizes")]
    return asked


def main():
    asked = words()
    if asked.program is None:
        timing.build()
    asked.program = os.path.abspath(asked.program or timing.PROGRAM)
    well = True
    with tempfile.TemporaryDirectory() as folder:
        os.chdir(folder)
        for name in asked.rows:
            if name in OWN:
                well &= OWN[name](asked)
                continue
            for row in ROWS[name](asked.keys):
                well &= show(row, asked)
    sys.exit(1 if asked.check and not well else 0)


if __name__ == "__main__":
    main()
