"""Compares `mrt check`, `certify`, `table`, `trace`, `fabric`, `upgrade`, `lfa`, `order`, `proxy` and `flood` with the reference program on random
areas, profiles, certificates of both versions, traces, update packets and scripts, whole and damaged.

usage: python3 -m bench.measure.compare [--library FILE] PROGRAM [CASES [SEED]]

PROGRAM is the built program. With FILE, a libmrt.so.1, the library is compared too: its top call on all, and its other calls on what they give. Areas have few routers, or many blocks, and one in twenty-five has more than 64 routers or more than 128. Each certificate that
PROGRAM writes is given to its `check` too. Each case on which the two differ is printed, and its files are left in a folder that is named. A thousand
cases take two minutes, nearly all of them in the reference program.
"""
import argparse
import os
import subprocess
import sys
import tempfile
from collections import namedtuple
from random import Random

from bench.areas.areas import random_area, random_ring, router, write
from bench.areas.blocks import MOST, random_blocks
from bench.reference import certificate, certify, database, lowpoint
from bench.reference.database import ROUTER, Refused, text_of
from bench.reference.lsas import address, lsa, records_of, spelled, update
from tools.mrttools.library import libmrt as mrt

COMMANDS = ("check", "certify", "table", "trace", "fabric", "upgrade", "lfa", "order", "proxy", "flood", "check of what was written",
            "upgrade of what was written")
WRONG_NAMES = ("", "net:", "1.1.1", "1.1.1.256", "1.1.1.01", "net:1.1.1.1.1", "link:1.1.1.1", "link:1.1.1.1/", "link:/0.0.0.1",
               "link:net:1.1.1.1/0.0.0.1")
WRONG_LINES = ("step", "step -1", "step 00", "step 65536", "step 0 0", "Step 0", "fail", "fail 1.1.1.1 2.2.2.2", "inject 1.1.1.1 2.2.2.2", "stop",
               "inject net:10.0.0.1 2.2.2.2 blue", "inject 1.1.1.1 2.2.2.2 green", "island 1.1.1.1 1", "island 1.1.1.1 0", "island 1.1.1.1 65536")
WRONG_DELIVERIES = ("routers 2", "routers 0", "routers 65", "routers", "routers 1 1", "deliver", "deliver 0", "deliver 0 0 0", "deliver -1 0", "deliver 00 0",
                    "deliver 0 00", "deliver 4294967296 0", "deliver 0 65536", "Deliver 0 0", "same 0 0", "same 0 0 1.1.1", "same 0 0 net:1.1.1.1",
                    "same 0 5 1.1.1.1", "same 5 0 1.1.1.1", "same 0 0 1.1.1.1 1", "stop", "island 1.1.1.1 1", "deliver 0 0\0")

# How many of all areas have many blocks, and how many of them many routers.
BLOCKS, LARGE = 0.5, 0.04

# Certificate and scripts are the bytes of files; a router is that of `certify` and `table`; a trace is its words; the ends of a prefix are two routers;
# updates and deliveries are what `flood` reads.
Case = namedtuple("Case", "data profile cert router trace script ends updates deliveries")


# databases

def any_area(random):
    """An area of few routers, or of many blocks and few routers or, now and then, many."""
    chance = random.random()
    if chance < LARGE:
        return random_blocks(random, random.randint(*random.choice([(65, 120), (129, MOST)])))
    if chance < BLOCKS:
        return random_blocks(random, random.randint(2, 24))
    return random.choice([random_area, random_ring])(random)


def again(random, record):
    """Another instance of an LSA: of any age and any sequence number, now and then with one byte of its body changed."""
    one = database.read_lsas(record)[0]
    body = bytearray(record[20:])
    if body and random.random() < 0.15:
        body[random.randrange(len(body))] = random.randrange(8)
    age, sequence = random.choice([1, 2, 3599, 3600, 0x8E10]), random.choice([0x80000001, 0x80000002, 0x80000003, 0xFFFFFFFF, 1])
    sequence = 0x80000000 if random.random() < 0.03 else sequence
    return lsa(one.kind, one.id, one.router, bytes(body), age, sequence)


def damaged(random, data):
    """Bytes with one of them changed, some taken off at the end, or one more."""
    if not data:
        return b"\0"
    at = random.randrange(len(data))
    return random.choice([data[:at] + bytes([random.randrange(256)]) + data[at + 1:], data[:at], data + b"\0"])


def random_database(random):
    whole = records_of(any_area(random))
    records = whole + [again(random, random.choice(whole)) for _ in range(random.choice([0, 0, 1, 3]) if whole else 0)]
    if random.random() < 0.2:
        records.append(lsa(random.choice([3, 5, 10]), 1, router(1), bytes(random.randrange(20))))
    if random.random() < 0.3:
        random.shuffle(records)
    data = b"".join(records)
    return damaged(random, data) if random.random() < 0.1 else data


# profiles

def random_line(random, area):
    """A line on a router of an area, or on one that need not be there, and on one of its links."""
    name, arcs = random_router(random, area), area.arcs
    data = random.choice([f"0.0.0.{random.randrange(12)}", f"10.0.{random.randrange(2)}.{random.randint(1, 7)}"])
    if arcs and random.random() < 0.5:
        arc = random.choice(arcs)
        name, data = text_of(area.ids[arc.tail]).removeprefix("net:"), spelled(arc.data)
    return random.choice([f"priority {name} {random.choice([0, 1, 127, 128, 129, 255])}", f"no-mrt {name}", f"ineligible {name} {data}",
                          f"\tineligible  {name}\t{data} ", "# a comment", "", " \t", f"no-mrt {name}\r"])


def random_profile(random, area):
    lines = "".join(random_line(random, area) + "\n" for _ in range(random.choice([0, 0, 1, 2, 5]))).encode()
    return damaged(random, lines) if random.random() < 0.1 else lines


# certificates

def damaged_fields(random, file):
    """A certificate with a few fields changed within what its format allows."""
    n, m, cert = len(file.ids), len(file.pairs), file.cert
    lists = [(cert.order, n, 1), (cert.head, n, 0), (cert.block, n, 0), (cert.link_block, n, 0), (cert.role, 3, 0)]
    for _ in range(random.choice([1, 1, 2, 4])):
        values, limit, least = random.choice(lists)
        if values and random.random() < 0.5:
            values[random.randrange(len(values))] = random.randrange(limit) + least
        elif n > 1:
            s, t = random.sample(range(n), 2)
            row = cert.rows[s][t]
            cert.rows[s][t] = random.choice([row._replace(blue=random.randrange(m)), row._replace(red=random.randrange(m)), row._replace(tag=random.randrange(7))])


def random_certificate(random, data, profile, area):
    """The certificate of some router's island, whole or damaged; of another area where there is none."""
    try:
        found = certify.island_of(data, profile, address(random_router(random, area)))
    except Refused:
        found = certify.island_of(random_area(random), b"", router(1))
    text = certificate.write(found, lowpoint.compute(found), random.choice([1, 2]))
    if random.random() < 0.2:
        return damaged(random, text)
    if random.random() < 0.6:
        file = certificate.read(text)
        damaged_fields(random, file)
        return certificate.spelling(file)
    return text


# names

def named_area(data):
    """The area whose names a case uses; one of no nodes where the database is refused."""
    try:
        return certify.area_of(data)
    except Refused:
        return database.Area([], [], [])


def random_router(random, area):
    """A router's address; now and then there is no such router."""
    there = [node for node in area.ids if node.kind == ROUTER]
    return text_of(random.choice(there)) if there and random.random() < 0.95 else spelled(router(random.randint(1, 8)))


def random_node(random, area):
    """A name of a node; now and then there is no such node, or it is no name."""
    if random.random() < 0.02:
        return random.choice(WRONG_NAMES)
    if area.ids and random.random() < 0.95:
        return text_of(random.choice(area.ids))
    return random.choice(["", "net:"]) + spelled(random.choice([router(random.randint(1, 8)), address("10.0.0.1")]))


def random_arcs(random, area):
    """Arcs, each of which begins where the one before ends, the first one at a router; none where no router has an arc."""
    arcs = [arc for arc in area.arcs if area.ids[arc.tail].kind == ROUTER]
    way = [random.choice(arcs)] if arcs else []
    for _ in range(random.randrange(4) if way else 0):
        way.append(random.choice([arc for arc in area.arcs if arc.tail == way[-1].to]))
    return way


def random_ends(random, area):
    """A router and a node, by name; mostly some arcs lead from one to the other, seldom where there are many nodes."""
    way = random_arcs(random, area)
    if way and random.random() < (0.8 if len(area.ids) < 30 else 0.3):
        return text_of(area.ids[way[0].tail]), text_of(area.ids[way[-1].to])
    return random_router(random, area), random_node(random, area)


def random_pair(random, area):
    """Two router IDs: of a link's two routers, of any two, or of some that need not be there."""
    there = [node.number for node in area.ids if node.kind == ROUTER]
    joined = [(area.ids[arc.tail], area.ids[arc.to]) for arc in area.arcs]
    pairs = [(one.number, other.number) for one, other in joined if one.kind == other.kind == ROUTER]
    if pairs and random.random() < 0.4:
        return random.choice(pairs)
    return random.sample(there if len(there) > 1 and random.random() < 0.8 else [router(number) for number in range(1, 9)], 2)


def random_failure(random, area, beside):
    """A name of what fails: a link or a neighbour of the router of this name, or any node; now and then there is none of this name."""
    arcs = [arc for arc in area.arcs if text_of(area.ids[arc.tail]) == beside]
    if not arcs or random.random() < 0.3:
        return random_node(random, area)
    arc = random.choice(arcs)
    data = arc.data + (random.random() < 0.05)
    return random.choice([text_of(area.ids[arc.to]), f"link:{beside}/{spelled(data)}"])


def random_entry(random):
    return random.choice(["blue", "red", "repair", "repair", "repair"])


# packets

def random_trace(random, area):
    """The words of a trace; now and then they are too few, or one of them is wrong."""
    start, to = random_ends(random, area)
    words = [start, to, random_entry(random)] + ([random_failure(random, area, start)] if random.random() < 0.8 else [])
    if random.random() < 0.02:
        words[random.randrange(len(words))] = random.choice(WRONG_NAMES)
    return [word.encode() for word in (words[:random.randint(1, 2)] if random.random() < 0.01 else words)]


def random_event(random, area, start, packets):
    """A line of a script, after so many packets, of which about half are refused. A packet enters at this router, or elsewhere."""
    chance = random.random()
    if chance < 0.2 or not packets:
        other, to = random_ends(random, area)
        return f"inject {random.choice([start, other])} {to} {random_entry(random)}"
    if chance < 0.26:
        return f"fail {random_failure(random, area, start)}"
    if chance < 0.3:
        return random.choice(["# a comment", "", " \t", f"\tstep  {packets // 2}\t", "step 0\r"])
    return f"step {max(0, packets // 2 - random.randint(-1, 2))}"


def damaged_lines(random, lines, all_wrong=WRONG_LINES):
    """Lines without the first one, or with a wrong one in a place of its own or of another one; or at most two that say nothing."""
    at = random.randrange(len(lines))
    wrong = lines[:at] + [random.choice(all_wrong)] + lines[at + random.randrange(2):]
    return random.choice([lines[1:], wrong, wrong, ["", "# a comment"][:random.randrange(3)]])


def to_many(random, area):
    """Packets to many nodes from one router or from any, then their steps in turn, so that all of them are on the way at once."""
    one, count = random.choice([None, random_router(random, area)]), random.randint(8, 40)
    packets = [f"inject {one or random_router(random, area)} {random_node(random, area)} {random_entry(random)}" for _ in range(count)]
    steps = [f"step {packet}" for packet in range(count)] * random.randint(1, 5)
    random.shuffle(steps)
    return packets + steps


def random_script(random, area):
    start, packets = random_router(random, area), 0
    lines = [f"island {start} {random.choice([1, 3, 8, 40, 65535])}"]
    lines += [f"fail {random_failure(random, area, start)}"] if random.random() < 0.3 else []
    if random.random() < 0.2:
        return script_of(random, lines + to_many(random, area), WRONG_LINES)
    for _ in range(random.randint(1, 40)):
        lines.append(random_event(random, area, start, packets))
        packets += lines[-1].startswith("inject")
    return script_of(random, lines, WRONG_LINES)


def script_of(random, lines, all_wrong):
    """The bytes of a script; now and then its lines are damaged, or its bytes."""
    lines = damaged_lines(random, lines, all_wrong) if random.random() < 0.1 else lines
    text = "".join(line + "\n" for line in lines).encode()
    return damaged(random, text) if random.random() < 0.1 else text


# flooding

def twin(record):
    """An LSA of the same rank that says something else: a byte of 0 is 255 in it, which are the same modulo 255."""
    at = record.find(b"\0", 20)
    return record if at < 0 else record[:at] + b"\xff" + record[at + 1:]


def random_instance(random, record):
    """A copy of an LSA, at any age, or another instance of it, mostly without a fault; seldom a twin, or one of two router IDs."""
    chance = random.random()
    if chance < 0.4:
        return random.choice([1, 900, 3599]).to_bytes(2, "big") + record[2:]
    if chance < 0.41:
        return lsa(1, router(1), router(2), record[20:])
    other = twin(record) if chance < 0.44 else again(random, record)
    return record if database.fault_of(other) and random.random() < 0.8 else other


def random_records(random):
    """LSAs of an area, some of them several times, in any order."""
    whole = records_of(any_area(random))
    records = whole + [random_instance(random, random.choice(whole)) for _ in range(random.choice([0, 0, 2, 6]) if whole else 0)]
    if random.random() < 0.2:
        records.append(lsa(random.choice([3, 5, 10]), 1, router(1), bytes(random.randrange(20))))
    if random.random() < 0.6:
        random.shuffle(records)
    return records


def random_packets(random, records):
    """Packets of these LSAs; now and then one of none."""
    packets = []
    while records or random.random() < 0.05:
        size = random.choice([0, 1, 1, 2, 3, 8])
        packets.append(update(router(random.randint(1, 7)), records[:size], random.randrange(3)))
        records = records[size:]
    return packets


def damaged_packet(random, packet):
    """A packet with another version, type, length or count, with a changed byte in its LSAs, or with bytes after them; or any damage."""
    at, size = random.choice([(0, 1), (1, 1), (2, 2), (24, 4)])
    value = random.choice([0, 1, 2, 3, 4, 5, 20, 27, 28, len(packet) - 1, len(packet) + 1]) % 256 ** size
    field = packet[:at] + value.to_bytes(size, "big") + packet[at + size:]
    longer = packet + bytes(random.choice([1, 19, 20, 30]))
    longer = longer[:2] + len(longer).to_bytes(2, "big") + longer[4:]
    place = random.randrange(28, max(29, len(packet)))
    changed = packet[:place] + random.randbytes(1) + packet[place + 1:]
    return random.choice([field, field, longer, changed, damaged(random, packet)])


def random_updates(random):
    """The bytes of a file of packets, and how many packets it has; now and then one is damaged, or the file is."""
    packets = random_packets(random, random_records(random))
    for at, packet in enumerate(packets):
        if random.random() < 0.15 / len(packets):
            packets[at] = damaged_packet(random, packet)
    data = b"".join(packets)
    return damaged(random, data) if random.random() < 0.05 else data, len(packets)


def some_deliveries(random, packets, routers):
    """Lines that deliver most packets of a file to most routers in some order, some of them twice, and packets that were sent on."""
    share = random.choice([0.4, 0.8, 1, 1])
    there = [(packet, each) for each in range(routers) for packet in range(packets) if random.random() < share]
    again = random.choices(there, k=random.randrange(4)) if there else []
    later = [(packets + random.randrange(packets * routers + 2), random.randrange(routers)) for _ in range(random.randrange(8))]
    wrong = [(random.choice([packets, 4294967295]), 0), (0, random.choice([routers, 65535]))] if random.random() < 0.2 else []
    deliveries = there + again
    random.shuffle(deliveries)
    for one in later + wrong:
        deliveries.insert(random.randint(len(deliveries) // 2, len(deliveries)), one)
    return [f"deliver {packet} {each}" for packet, each in deliveries]


def random_deliveries(random, packets):
    """A script over so many packets: deliveries, and comparisons between and after them."""
    routers = random.randint(1, 5)
    compared = lambda: f"same {random.randrange(routers)} {random.randrange(routers)} {spelled(router(random.choice([1, 1, 2, 2, 3, 3, 4, 8])))}"
    lines = some_deliveries(random, packets, routers)
    for _ in range(random.randrange(6)):
        more = random.choice([compared(), compared(), "# a comment", "", " \t", f"\tdeliver  {random.randrange(4)} \t0 ", f"{compared()}\r"])
        lines.insert(random.randint(0, len(lines)), more)
    lines += [compared() for _ in range(random.randrange(4))]
    return script_of(random, [f"routers {routers}"] + lines, WRONG_DELIVERIES)


# comparing

def reference(function, case, last):
    """What the program is to answer: status, output, errors."""
    try:
        output = function(case.data, case.profile, last)
    except Refused as refused:
        return refused.status, b"", f"mrt: {refused.line}\n".encode()
    return 0, output if isinstance(output, bytes) else output.encode() + b"\n", b""


def wanted(case):
    """The same for each command. What is written has to be accepted."""
    lfa = lambda data, profile, router: certify.lfa(data, router)
    flood = lambda data, profile, script: certify.flood(case.updates, profile, script)
    tasks = ((certify.check, case.cert), (certify.certify, case.router), (certify.table, case.router), (certify.trace, case.trace),
             (certify.fabric, case.script), (certify.upgrade, case.cert), (lfa, case.router), (certify.order, case.router),
             (certify.proxy, (case.router, *case.ends)), (flood, case.deliveries))
    answers = [reference(function, case, last) for function, last in tasks]
    status, written, _ = answers[1]
    return answers + ([reference(function, case, written) for function in (certify.check, certify.upgrade)] if status == 0 else [])


def answered(program, folder, case):
    """What it answers, from files in a folder."""
    def run(*words):
        done = subprocess.run([program, *words], capture_output=True)
        return done.returncode, done.stdout, done.stderr

    def answer(command, *words):
        return run(command, database, profile, *words)

    names = "area.lsas", "area.profile", "area.cert", "packets.script", "area.updates", "deliveries.script", "written.cert"
    database, lines, given, script, updates, deliveries, own = (os.path.join(folder, name) for name in names)
    for name, text in ((database, case.data), (lines, case.profile), (given, case.cert), (script, case.script), (updates, case.updates),
                       (deliveries, case.deliveries)):
        write(name, text)
    # A profile without lines may as well not be named.
    profile, router = lines if case.profile else "-", spelled(case.router)
    answers = [answer("check", given), answer("certify", router), answer("table", router), answer("trace", *case.trace), answer("fabric", script),
               answer("upgrade", given), run("lfa", database, router), answer("order", router),
               answer("proxy", router, *(spelled(end) for end in case.ends)), run("flood", updates, profile, deliveries)]
    status, written, _ = answers[1]
    if status == 0:
        write(own, written)
        answers += [answer("check", own), answer("upgrade", own)]
    return answers


def told(call):
    """What a call of the library gives, as the program: status, output, errors."""
    try:
        return 0, call(), b""
    except mrt.Refused as refused:
        return int(refused.status), b"", f"{refused}\n".encode()


def run_by(library, case):
    """The same by the top call of the library."""
    files = {b"area.lsas": case.data, b"area.profile": case.profile, b"area.cert": case.cert, b"packets.script": case.script,
             b"area.updates": case.updates, b"deliveries.script": case.deliveries}
    profile, router = b"area.profile" if case.profile else b"-", spelled(case.router).encode()
    run = lambda *words: told(lambda: library.run(words, files))
    answer = lambda command, *words: run(command, b"area.lsas", profile, *words)
    answers = [answer(b"check", b"area.cert"), answer(b"certify", router), answer(b"table", router), answer(b"trace", *case.trace),
               answer(b"fabric", b"packets.script"), answer(b"upgrade", b"area.cert"), run(b"lfa", b"area.lsas", router), answer(b"order", router),
               answer(b"proxy", router, *(spelled(end).encode() for end in case.ends)),
               run(b"flood", b"area.updates", profile, b"deliveries.script")]
    status, files[b"written.cert"], _ = answers[1]
    return answers + ([answer(b"check", b"written.cert"), answer(b"upgrade", b"written.cert")] if status == 0 else [])


def called(library, case):
    """What the other calls give, each with the form that has it."""
    area, router = mrt.Area(case.data, case.profile), case.router

    def check(certificate):
        verdict = library.check(area, certificate)
        return f"accepted root {spelled(verdict.root)} nodes {verdict.nodes} links {verdict.links}\n".encode()

    def table():
        island, rows = library.shape(area, router), library.table(area, router)
        alone = [library.row_for(area, router, row.node) for row in rows[:3] + rows[-3:]]
        lines = [f"router {spelled(router)} root {spelled(island.root)} nodes {island.nodes} links {island.links}", *map(str, rows)]
        return b"".join(f"{line}\n".encode() for line in lines) if alone == rows[:3] + rows[-3:] else b"one row is another"

    def proxy():
        (row,) = library.proxy(area, router, [case.ends])
        if isinstance(row, mrt.Refused):
            raise row
        return f"{spelled(router)} {row}\n".encode()

    answers = {"check": told(lambda: check(case.cert)), "certify": told(lambda: library.certify(area, router)), "table": told(table),
               "proxy": told(proxy)}
    return answers | ({"check of what was written": told(lambda: check(answers["certify"][1]))} if answers["certify"][0] == 0 else {})


def compared(library, case, want):
    """Which answers of the library are to be which others, by name."""
    wanted = dict(zip(COMMANDS, want))
    pairs = [(f"mrt_run of {name}", wanted[name], got) for name, got in zip(COMMANDS, run_by(library, case))]
    # (the call has the line of one router)
    status, text, line = wanted["proxy"]
    own = f"{spelled(case.router)} ".encode()
    wanted["proxy"] = status, b"".join(it for it in text.splitlines(True) if it.startswith(own)), line
    return pairs + [(f"call of {name}", wanted[name], got) for name, got in called(library, case).items()]


def random_case(random):
    data = random_database(random)
    area = named_area(data)
    profile = random_profile(random, area)
    cert, source = random_certificate(random, data, profile, area), address(random_router(random, area))
    ends = random_pair(random, area)
    updates, packets = random_updates(random)
    return Case(data, profile, cert, source, random_trace(random, area), random_script(random, area), ends, updates, random_deliveries(random, packets))


def main():
    parser = argparse.ArgumentParser()
    parser.add_argument("--library", type=mrt.Library)
    parser.add_argument("program", type=os.path.abspath)
    parser.add_argument("cases", type=int, nargs="?", default=1000)
    parser.add_argument("seed", type=int, nargs="?", default=1)
    said = parser.parse_args()
    program, cases, random, counts, differing = said.program, said.cases, Random(said.seed), {}, 0
    with tempfile.TemporaryDirectory() as folder:
        for number in range(cases):
            case = random_case(random)
            all_wanted = wanted(case)
            pairs = list(zip(COMMANDS, all_wanted, answered(program, folder, case)))
            for command, want, got in pairs + (compared(said.library, case, all_wanted) if said.library else []):
                counts[command, got[0]] = counts.get((command, got[0]), 0) + 1
                if got != want:
                    differing += 1
                    kept = tempfile.mkdtemp()
                    answered(program, kept, case)
                    print(f"case {number}, {command}: {got}, not {want}; its files are in {kept}", flush=True)
    print(f"{cases} cases, {differing} differ; by status: " + ", ".join(f"{command} {status}: {counts[command, status]}" for command, status in sorted(counts)))
    sys.exit(1 if differing else 0)


if __name__ == "__main__":
    main()
