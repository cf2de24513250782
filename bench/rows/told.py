"""LSAs and packets as rows tell them, and the files of a row program: made, or compared with those that lie there."""
import pathlib
import sys

from bench.reference.lsas import FIRST_SEQUENCE as FIRST, POINT_TO_POINT, STUB, TRANSIT, check_bytes, lsa, network_lsa, router_lsa, update

CRATES = pathlib.Path(__file__).resolve().parent.parent.parent / "crates"


def address(n):
    """The number of router n.n.n.n."""
    return 0x01010101 * n


def joined(n, others, age=1, sequence=FIRST):
    """Router n.n.n.n with a link of metric 10 to each of these; its link data is the other's n."""
    links = [(address(other), other, POINT_TO_POINT, 10) for other in others]
    return router_lsa(address(n), links, age, sequence)


def router(number, links, age=1, sequence=FIRST, flags=0):
    """A router with these links: ID, link data, type and metric."""
    return router_lsa(number, links, age, sequence, flags)


def network(number, advertiser, routers, age=1, sequence=FIRST):
    """A network under the mask 255.255.255.0: its ID, who advertises it, and its routers."""
    return network_lsa(number, advertiser, 0xFFFFFF00, routers, age, sequence)


def other(kind, number, advertiser, body, age=1, sequence=FIRST):
    """An LSA of any type, with these bytes after its header."""
    return lsa(kind, number, advertiser, body, age, sequence)


def packet(sender, records):
    """A Link State Update of these LSAs, in area 0."""
    return update(sender, records)


def spoilt(data, *places):
    """The bytes with others in their places: (place, byte)."""
    data = bytearray(data)
    for place, byte in places:
        data[place] = byte
    return bytes(data)


def renewed(data, places, length):
    """Bytes with the checksums made anew of the records of this length that begin at these places."""
    for at in places:
        record = data[at:at + length]
        covered = record[2:16] + b"\0\0" + record[18:]
        data = data[:at] + record[:16] + check_bytes(covered) + record[18:] + data[at + length:]
    return data


def main(crate, files):
    """Writes the files of a crate's folder `data`, or with --check tells which of them are not as they are told."""
    folder = CRATES / crate / "data"
    if sys.argv[1:] != ["--check"]:
        folder.mkdir(exist_ok=True)
        for name, data in files.items():
            (folder / name).write_bytes(data)
        return
    lying = {path.name: path.read_bytes() for path in folder.iterdir()}
    wrong = sorted(name for name in files.keys() | lying.keys() if files.get(name) != lying.get(name))
    sys.exit(f"not as told: {' '.join(wrong)}" if wrong else 0)
