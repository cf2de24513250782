"""LSAs as bytes (RFC 2328, section A.4): router-LSAs, network-LSAs and any other, with their checksum; and packets of them."""
import struct

POINT_TO_POINT, TRANSIT, STUB, VIRTUAL = 1, 2, 3, 4
FIRST_SEQUENCE = 0x80000001
# The metric of a link that is not for transit traffic (RFC 6987).
MAX_LINK_METRIC = 65535
# What the header of an Update leaves to its LSAs, of the 65,535 bytes that its length can tell.
PACKET_ROOM = 65507


def sums(data):
    """The two Fletcher sums."""
    c0 = c1 = 0
    for byte in data:
        c0 = (c0 + byte) % 255
        c1 = (c1 + c0) % 255
    return c0, c1


def check_bytes(covered):
    """The checksum of what stands after the age, in which its own place has 0 (RFC 2328, section 12.1.7; RFC 905, annex B)."""
    c0, c1 = sums(covered)
    size = len(covered)
    check = ((size - 15) * c0 - c1) % 255, (c1 - (size - 14) * c0) % 255
    return bytes(value or 255 for value in check)


def lsa(kind, number, router, body, age=1, sequence=FIRST_SEQUENCE):
    """An LSA of any type with this link state ID, advertising router and body, with a fresh checksum."""
    head = struct.pack(">HBBIII", age, 2, kind, number, router, sequence)
    tail = struct.pack(">H", 20 + len(body)) + body
    return head + check_bytes(head[2:] + b"\0\0" + tail) + tail


def router_lsa(router, links, age=1, sequence=FIRST_SEQUENCE, flags=0):
    """A router-LSA of links (ID, data, type, metric)."""
    texts = b"".join(struct.pack(">IIBBH", to, data, kind, 0, metric) for to, data, kind, metric in links)
    return lsa(1, router, router, struct.pack(">BBH", flags, 0, len(links)) + texts, age, sequence)


def network_lsa(number, router, mask, routers, age=1, sequence=FIRST_SEQUENCE):
    """A network-LSA: the designated router's interface address and router ID, the mask, and the routers attached."""
    return lsa(2, number, router, struct.pack(f">I{len(routers)}I", mask, *routers), age, sequence)


def records_of(data):
    """The records of LSAs that stand one after another, none of whose lengths is at fault."""
    records, at = [], 0
    while at < len(data):
        size = int.from_bytes(data[at + 18:at + 20], "big")
        records.append(data[at:at + size])
        at += size
    return records


def update(router, records, area=0):
    """A Link State Update of LSAs (RFC 2328, section A.3.5), with nothing where checksum and authentication stand."""
    body = b"".join(records)
    return struct.pack(">BBHII12xI", 2, 4, 28 + len(body), router, area, len(records)) + body


def updates(router, records, most=30):
    """Updates of these LSAs in their order: so many at most in each, and none longer than its length can tell."""
    parts, size = [], 0
    for record in records:
        if not parts or len(parts[-1]) == most or size + len(record) > PACKET_ROOM:
            parts.append([])
            size = 0
        parts[-1].append(record)
        size += len(record)
    return [update(router, part) for part in parts]


def address(text):
    """The number that four bytes in decimal, joined by dots, spell."""
    a, b, c, d = (int(part) for part in text.split("."))
    return a << 24 | b << 16 | c << 8 | d


def spelled(number):
    """The spelling of a number as an address."""
    return ".".join(str(byte) for byte in struct.pack(">I", number))
