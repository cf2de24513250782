"""Gives the program damaged files, refuses it memory, and has its output fail; prints what was tried and what came of it.

usage: python3 -m bench.measure.damage [RANDOM [SEED]]
       python3 -m bench.measure.damage --memory    the last two parts alone, of the program that is there; the gate runs them

Each byte of two samples is set to 0, to 255 and off by one, each file is cut at each length, and each two of its records are exchanged. RANDOM
files of each kind follow (100,000). Then each allocation of four commands is refused in turn, and the output is closed, full, or a pipe that
goes away. Each run has to end by itself with a status of the table, with just its line on standard error, and with no byte on standard output but
on 0. Runs for which this does not hold are printed, and there may be none.
"""
import os
import re
import subprocess
import sys
import tempfile
from collections import Counter
from functools import partial
from itertools import combinations
from multiprocessing import Pool
from random import Random

from bench.measure import timing
from bench.reference.lsas import lsa, records_of, update


KINDS = "database", "profile", "certificate", "script", "updates", "deliveries"
LINES = {
    0: rb"",
    1: rb"mrt: no: rule ([1-9]|1[0-3]) at \d+ \d+\n",
    2: rb"mrt: usage: [^\n]+\n",
    3: rb"mrt: bad database: (conflict at \d+ with \d+|(truncated|length|checksum|reserved-sequence|id-mismatch|body|zero-metric) at \d+)\n",
    4: rb"mrt: bad profile: (bytes|words|address|number|repeated) on line \d+\n",
    5: rb"mrt: bad certificate: (magic|truncated|range|tag|trailing|heads) at \d+\n",
    6: rb"mrt: too large: (database-file|profile-file|certificate-file|script-file|updates-file|area-nodes|area-arcs) \d+\n",
    7: rb"mrt: not there: \d+\.\d+\.\d+\.\d+\n",
    8: rb"mrt: read fault: word [1-3]\n",
    9: rb"mrt: write fault after \d+\n",
    10: rb"mrt: no memory\n",
    11: rb"mrt: bad script on line \d+\n",
    14: rb"mrt: bad update: (truncated|header|length|count|checksum|reserved-sequence|id-mismatch|body|zero-metric) at \d+\n",
}
TRIANGLE_PROFILE = b"priority 3.3.3.3 128\n"
TRIANGLE_SCRIPT = b"""\
island 1.1.1.1 2
inject 2.2.2.2 1.1.1.1 repair
inject 1.1.1.1 3.3.3.3 blue
step 1
fail link:2.2.2.2/0.0.0.1
step 0
step 0
fail 3.3.3.3
step 0
step 1
step 1
inject 1.1.1.1 2.2.2.2 red
step 9
"""
LAN_SCRIPT = b"island 10.255.1.4 2\ninject 10.255.1.4 10.255.1.1 blue\nstep 0\nfail 10.255.1.2\nstep 0\n# the end\n"
TRIANGLE_DELIVERIES = b"routers 2\ndeliver 0 0\ndeliver 2 1\nsame 0 1 1.1.1.1\ndeliver 1 1\ndeliver 3 1\nsame 0 1 1.1.1.1\n"
LAN_DELIVERIES = b"routers 2\ndeliver 0 0\ndeliver 1 0\ndeliver 2 0\ndeliver 2 1\ndeliver 0 1\ndeliver 4 1\n#\nsame 1 0 10.255.1.4\n"

# Refuses the allocation whose number REFUSED_ALLOCATION is, from 1.
REFUSING = """
#include <stddef.h>
#include <stdlib.h>
extern void *__libc_malloc(size_t), *__libc_calloc(size_t, size_t), *__libc_realloc(void *, size_t), *__libc_memalign(size_t, size_t);
static long number, refused = -1;
static int is_refused(void) {
    if (refused < 0) { const char *text = getenv("REFUSED_ALLOCATION"); refused = text ? atol(text) : 0; }
    return ++number == refused;
}
void *malloc(size_t size) { return is_refused() ? NULL : __libc_malloc(size); }
void *calloc(size_t count, size_t size) { return is_refused() ? NULL : __libc_calloc(count, size); }
void *realloc(void *old, size_t size) { return is_refused() ? NULL : __libc_realloc(old, size); }
void *memalign(size_t align, size_t size) { return is_refused() ? NULL : __libc_memalign(align, size); }
void *aligned_alloc(size_t align, size_t size) { return is_refused() ? NULL : __libc_memalign(align, size); }
int posix_memalign(void **at, size_t align, size_t size) {
    void *made = is_refused() ? NULL : __libc_memalign(align, size);
    if (made) *at = made;
    return made ? 0 : 12;
}
"""


# samples

def read(name):
    with open(os.path.join(timing.DATA, name), "rb") as file:
        return file.read()


def samples():
    """For each sample the bytes of its files by kind, and the words of a table and of a trace."""
    triangle, written = read("triangle.lsas"), timing.DATA + "/triangle.lsas"
    cert = subprocess.run([timing.PROGRAM, "certify", written, "-", "1.1.1.1"], capture_output=True, check=True).stdout
    lan = read("lan.lsas")
    ones, others = records_of(triangle), records_of(lan)
    updates, lan_updates = (b"".join(update(1, each) for each in lists) for lists in ((ones, ones[:1], ones[1:]), (others[:5], others[5:8], others[8:])))
    return [(dict(zip(KINDS, (triangle, TRIANGLE_PROFILE, cert, TRIANGLE_SCRIPT, updates, TRIANGLE_DELIVERIES))), "2.2.2.2", "1.1.1.1"),
            (dict(zip(KINDS, (lan, read("lan.profile"), read("lan.cert"), LAN_SCRIPT, lan_updates, LAN_DELIVERIES))), "10.255.1.4", "10.255.1.1")]


def commands(kind, start, to):
    """The words of each command that reads a file of this kind; an upper-case word is a file of that kind."""
    area = "DATABASE", "PROFILE"
    check, fabric, flood = ("check", *area, "CERTIFICATE"), ("fabric", *area, "SCRIPT"), ("flood", "UPDATES", "PROFILE", "DELIVERIES")
    of_one = {"certificate": [check], "script": [fabric], "updates": [flood], "deliveries": [flood]}
    of_area = [check, ("certify", *area, start), ("table", *area, start), ("trace", *area, start, to, "repair", to), fabric]
    return of_one.get(kind) or of_area + ([flood] if kind == "profile" else [])


def records(kind, data):
    """A file in its records: LSAs; packets; lines; or header, nodes, links and rows."""
    if kind in ("profile", "script", "deliveries"):
        return data.splitlines(keepends=True)
    if kind == "database":
        return records_of(data)
    if kind == "updates":
        cuts = [0]
        while cuts[-1] < len(data):
            cuts.append(cuts[-1] + int.from_bytes(data[cuts[-1] + 2:cuts[-1] + 4], "big"))
    else:
        nodes, links = int.from_bytes(data[6:8], "big"), int.from_bytes(data[8:10], "big")
        sizes = [14] + [11] * nodes + [7] * links + [5] * (nodes * (nodes - 1))
        cuts = [sum(sizes[:count]) for count in range(len(sizes) + 1)]
    return [data[start:end] for start, end in zip(cuts, cuts[1:])]


def damaged(kind, data):
    """Each file that one damage makes of this one."""
    for at, byte in enumerate(data):
        for other in sorted({0, 255, (byte + 1) % 256, (byte - 1) % 256} - {byte}):
            yield data[:at] + bytes([other]) + data[at + 1:]
    yield from (data[:size] for size in range(len(data)))
    parts = records(kind, data)
    for one, other in combinations(range(len(parts)), 2):
        parts[one], parts[other] = parts[other], parts[one]
        yield b"".join(parts)
        parts[one], parts[other] = parts[other], parts[one]


def random_file(random, kind, data):
    """Any bytes; or some records of a sample, in any order; or a sample changed here and there; or each of its LSAs, with a fresh checksum, in the
    packets where they stand."""
    way, parts = random.randrange(4), records(kind, data)
    if way == 0:
        return random.randbytes(random.randrange(200))
    if way == 1:
        return b"".join(random.choices(parts, k=random.randrange(2 * len(parts))))
    if way == 2 or kind not in ("database", "updates"):
        return changed(random, data)
    fresh = lambda lsas: [renewed(record if random.random() < 0.5 else changed(random, record)) for record in lsas]
    return b"".join(fresh(parts) if kind == "database" else (update(1, fresh(records_of(packet[28:]))) for packet in parts))


def changed(random, data):
    """The bytes with some of them changed, put in or left out."""
    text = bytearray(data)
    for _ in range(random.randint(1, 8)):
        at = random.randrange(len(text) + 1)
        text[at:at + random.randrange(3)] = random.randbytes(random.randrange(3))
    return bytes(text)


def renewed(record):
    """An LSA whose checksum and length fit what stands in it."""
    number = lambda start, end: int.from_bytes(record[start:end], "big")
    return lsa(number(3, 4), number(4, 8), number(8, 12), record[20:], number(0, 2), number(12, 16))


# runs

def is_well(status, out, err):
    return status in LINES and re.fullmatch(LINES[status], err) is not None and (status == 0 or out == b"")


def run(words, **more):
    done = subprocess.run([timing.PROGRAM, *words], stdin=subprocess.DEVNULL, stdout=subprocess.PIPE, stderr=subprocess.PIPE, **more)
    return done.returncode, done.stdout, done.stderr


def words_over(folder, files, words):
    """Writes the files, and gives the words that name them."""
    paths = {}
    for kind, data in files.items():
        paths[kind.upper()] = os.path.join(folder, kind)
        with open(paths[kind.upper()], "wb") as file:
            file.write(data)
    return [paths.get(word, word) for word in words]


def tried(case):
    """A command over files: its kind of damage, its status, and whether all is well."""
    kind, files, words = case
    with tempfile.TemporaryDirectory() as folder:
        status, out, err = run(words_over(folder, files, words))
    return kind, status, None if is_well(status, out, err) else (words, files[kind], status, out[:200], err)


def one_damage():
    for files, start, to in samples():
        for kind in KINDS:
            for data in damaged(kind, files[kind]):
                for words in commands(kind, start, to):
                    yield kind, {**files, kind: data}, words


def many_damages(count, random):
    both = samples()
    for kind in KINDS:
        for _ in range(count):
            files, start, to = random.choice(both)
            yield kind, {**files, kind: random_file(random, kind, files[kind])}, random.choice(commands(kind, start, to))


def tell(title, results):
    """Prints how many runs there were of each kind and status, and each that is not well; gives the number of the latter."""
    counts, wrong = Counter(), 0
    for kind, status, fault in results:
        counts[kind, status] += 1
        if fault is not None:
            wrong += 1
            print(f"{title}, {kind}: {fault}")
    told = "; ".join(f"{kind} " + ", ".join(f"{status}: {counts[kind, status]}" for of, status in sorted(counts) if of == kind)
                     for kind in dict.fromkeys(kind for kind, _ in counts))
    print(f"{title}: {sum(counts.values())} runs, {wrong} wrong; by status: {told}", flush=True)
    return wrong


# memory and outputs

def refusals(library, name, words):
    """The command with each allocation refused in turn, until there is none left to refuse."""
    whole = run(words)
    for number in range(1, 1_000_000):
        status, out, err = run(words, env={**os.environ, "LD_PRELOAD": library, "REFUSED_ALLOCATION": str(number)})
        yield name, status, None if is_well(status, out, err) and (status == 10 or (status, out) == whole[:2]) else (number, status, out[:200], err)
        if status == 0:
            return


def failing_outputs(name, words):
    """The command with its output closed, full, and a pipe that goes away."""
    def ended(**more):
        done = subprocess.run(more.pop("words", [timing.PROGRAM, *words]), stdin=subprocess.DEVNULL, stderr=subprocess.PIPE, **more)
        well = done.returncode == 9 and re.fullmatch(LINES[9], done.stderr)
        return name, done.returncode, None if well else (words, done.returncode, done.stderr)

    yield ended(words=["sh", "-c", 'exec "$@" >&-', "sh", timing.PROGRAM, *words])
    with open("/dev/full", "wb") as full:
        yield ended(stdout=full)
    reading, writing = os.pipe()
    os.close(reading)
    yield ended(stdout=writing)
    os.close(writing)


def damages(count, random):
    """Tries damaged files; how many runs are not well."""
    with Pool() as pool:
        wrong = tell("one damage", pool.imap_unordered(tried, one_damage(), 64))
        return wrong + tell("random files", pool.imap_unordered(tried, many_damages(count, random), 64))


def devices():
    """Refuses allocations, and has outputs fail; how many runs are not well."""
    with tempfile.TemporaryDirectory() as folder:
        library = os.path.join(folder, "refusing.so")
        subprocess.run(["cc", "-O1", "-shared", "-fPIC", "-x", "c", "-", "-o", library], input=REFUSING.encode(), check=True)
        (files, start, to), _ = samples()
        over = partial(words_over, folder, files)
        all_words = commands("profile", start, to)
        cases = [(words[0], over(words)) for words in all_words if words[0] in ("certify", "fabric", "flood")] + [("survey", ["survey", "7", "300"])]
        wrong = tell("refused allocations", (result for case in cases for result in refusals(library, *case)))
        outputs = [(words[0], over(words)) for words in all_words] + cases[-1:]
        return wrong + tell("failing outputs", (result for case in outputs for result in failing_outputs(*case)))


def main():
    if sys.argv[1:] == ["--memory"]:
        sys.exit(1 if devices() else 0)
    timing.build()
    count = int(sys.argv[1]) if len(sys.argv) > 1 else 100_000
    wrong = damages(count, Random(int(sys.argv[2]) if len(sys.argv) > 2 else 1)) + devices()
    sys.exit(1 if wrong else 0)


if __name__ == "__main__":
    main()
