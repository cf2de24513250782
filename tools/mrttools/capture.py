"""Frames of capture files, and the IP datagrams in them."""
from __future__ import annotations

import gzip
import io
import struct
import sys
import zlib
from typing import Callable, Iterator, NamedTuple, Protocol, cast

# The byte order of a pcap file, and what stands in a frame's head after its two lengths.
PCAP_MAGICS = {
    bytes.fromhex("a1b2c3d4"): (">", 0),
    bytes.fromhex("d4c3b2a1"): ("<", 0),
    bytes.fromhex("a1b23c4d"): (">", 0),
    bytes.fromhex("4d3cb2a1"): ("<", 0),
    bytes.fromhex("a1b2cd34"): (">", 8),
    bytes.fromhex("34cdb2a1"): ("<", 8),
}
GZIP = b"\x1f\x8b"
# No capture has frames of that size; the length of a damaged one may be any number.
LONGEST = 1 << 24
SECTION, INTERFACE, OLD_PACKET, SIMPLE_PACKET, PACKET = 0x0A0D0D0A, 1, 2, 3, 6
BYTE_ORDERS = {bytes.fromhex("1a2b3c4d"): ">", bytes.fromhex("4d3c2b1a"): "<"}

ETHERNET, LINUX_COOKED, LINUX_COOKED_2 = 1, 113, 276
# The numbers for raw IP differ by system and by age.
RAW_IP = {12, 14, 101, 228}
CUT = "cut by the capture (tcpdump -s 0 takes whole frames)"
IP_TYPE, VLAN_TYPES = 0x0800, {0x8100, 0x88A8, 0x9100}
# 64 KiB over an MTU of 576 come in 119 fragments; more are not from a router.
MOST_PARTS = 128


class CaptureError(Exception):
    """A file that is no capture, or that is damaged so that the rest of it cannot be read."""


class Source(Protocol):
    """What a capture is read from."""

    def read(self, size: int, /) -> bytes:
        ...


class Frame(NamedTuple):
    """A captured frame with its kind of link, by the numbers of libpcap."""

    link: int
    data: bytes


class Datagram(NamedTuple):
    """An IPv4 datagram, or a fragment of one."""

    source: bytes
    target: bytes
    protocol: int
    number: int
    offset: int
    more: bool
    payload: bytes


class BadDatagram(Exception):
    """Why a frame's IP datagram cannot be used."""


# frames


def exactly(file: Source, size: int) -> bytes:
    """So many bytes of a file; a file that ends before is an EOFError."""
    data = file.read(size)
    if len(data) < size:
        raise EOFError
    return data


def opened(name: str) -> io.BufferedReader:
    """The file of a name, or standard input for `-`, with its first bytes still to be read."""
    return cast(io.BufferedReader, sys.stdin.buffer) if name == "-" else open(name, "rb")


def frames(name: str, tell: Callable[[str], None]) -> Iterator[Frame]:
    """The frames of a pcap or pcapng file, also of a compressed one. A file that ends within a frame is told, and its
    whole frames are given."""
    with opened(name) as file:
        try:
            if file.peek(2)[:2] == GZIP:
                yield from frames_of(gzip.GzipFile(fileobj=file))
            else:
                yield from frames_of(file)
        except EOFError:
            tell("the capture ends within a frame: it was cut, or is still being written")
        except (gzip.BadGzipFile, zlib.error) as fault:
            raise CaptureError(f"it is damaged gzip: {fault}") from fault


def frames_of(file: Source) -> Iterator[Frame]:
    magic = file.read(4)
    if magic in PCAP_MAGICS:
        return pcap_frames(file, *PCAP_MAGICS[magic])
    if magic == struct.pack(">I", SECTION):
        return pcapng_frames(file, magic)
    raise CaptureError("it is neither a pcap nor a pcapng file")


def pcap_frames(file: Source, order: str, more: int) -> Iterator[Frame]:
    """Frames of a pcap file after its magic number."""
    # The upper bits of the kind of link can say how long a checksum of the link is.
    link = struct.unpack_from(order + "I", exactly(file, 20), 16)[0] & 0xFFFF
    while head := file.read(16 + more):
        if len(head) < 16 + more:
            raise EOFError
        (size,) = struct.unpack_from(order + "I", head, 8)
        yield Frame(link, exactly(file, checked(size)))


def checked(size: int) -> int:
    """A length that a capture gives, if frames have such lengths."""
    if size > LONGEST:
        raise CaptureError(f"a frame or block of it has the length {size}")
    return size


def pcapng_frames(file: Source, start: bytes) -> Iterator[Frame]:
    """Frames by the kind of link of their own interface, of a pcapng file after its first bytes."""
    links: list[int] = []
    for kind, order, body in pcapng_blocks(file, start):
        if kind == SECTION:
            links = []
        elif kind == INTERFACE and len(body) >= 8:
            links.append(struct.unpack_from(order + "H", body)[0])
        elif kind in (PACKET, OLD_PACKET) and len(body) >= 20:
            yield frame_of_packet(kind, order, body, links)
        elif kind == SIMPLE_PACKET and len(body) >= 4 and links:
            yield Frame(links[0], body[4 : 4 + struct.unpack_from(order + "I", body)[0]])


def frame_of_packet(kind: int, order: str, body: bytes, links: list[int]) -> Frame:
    (number,) = struct.unpack_from(order + ("I" if kind == PACKET else "H"), body)
    (size,) = struct.unpack_from(order + "I", body, 12)
    if number >= len(links):
        raise CaptureError(f"a frame is of interface {number}, which the file does not have")
    return Frame(links[number], body[20 : 20 + size])


def pcapng_blocks(file: Source, start: bytes) -> Iterator[tuple[int, str, bytes]]:
    """The blocks of a pcapng file after its first bytes: kind, byte order and body."""
    order = "<"
    while start := start + file.read(8 - len(start)):
        if len(start) < 8:
            raise EOFError
        if start[:4] == struct.pack(">I", SECTION):
            mark = exactly(file, 4)
            if mark not in BYTE_ORDERS:
                raise CaptureError("a section of the pcapng file has no byte order")
            order, start = BYTE_ORDERS[mark], start + mark
        kind, size = struct.unpack_from(order + "II", start)
        if size % 4 or size < len(start) + 4:
            raise CaptureError(f"a block of the pcapng file has the length {size}")
        body = start[8:] + exactly(file, checked(size) - len(start))
        yield kind, order, body[:-4]
        start = b""


# datagrams


def ip_bytes(frame: Frame) -> bytes | None:
    """The IP datagram of a frame of a known kind of link; nothing where it carries something else."""
    data = frame.data
    if frame.link in RAW_IP:
        return data
    at, after = {ETHERNET: (12, 14), LINUX_COOKED: (14, 16), LINUX_COOKED_2: (0, 20)}[frame.link]
    kind = data[at : at + 2]
    while int.from_bytes(kind, "big") in VLAN_TYPES:
        kind, after = data[after + 2 : after + 4], after + 4
    return data[after:] if kind == struct.pack(">H", IP_TYPE) else None


def is_known(link: int) -> bool:
    return link in RAW_IP or link in (ETHERNET, LINUX_COOKED, LINUX_COOKED_2)


def datagram_of(data: bytes) -> Datagram:
    """The datagram of IPv4 bytes, without what a link adds after it."""
    if len(data) < 20:
        raise BadDatagram("cut in the IP header")
    head, _, total, number, place, _, protocol, _, source, target = struct.unpack_from(">BBHHHBBH4s4s", data)
    start = 4 * (head & 15)
    if head >> 4 != 4 or start < 20 or total < start:
        raise BadDatagram("a wrong IP header")
    if len(data) < total:
        raise BadDatagram(CUT)
    return Datagram(source, target, protocol, number, 8 * (place & 0x1FFF), bool(place & 0x2000), data[start:total])


def is_protocol(data: bytes, protocol: int) -> bool:
    """Whether IPv4 bytes say that they are of a protocol, be they whole or not."""
    return len(data) >= 10 and data[0] >> 4 == 4 and data[9] == protocol


class Fragments:
    """Datagrams that came in part so far, and how many parts they have."""

    def __init__(self) -> None:
        self.waiting: dict[tuple[bytes, bytes, int], dict[int, Datagram]] = {}
        self.count = 0

    def put(self, part: Datagram) -> bytes | None:
        """The payload of the datagram that this fragment completes, if it completes one."""
        if part.offset == 0 and not part.more:
            return part.payload
        key = part.source, part.target, part.number
        parts = self.waiting.setdefault(key, {})
        self.count += part.offset not in parts
        parts[part.offset] = part
        payload = joined(parts)
        if payload is None and len(parts) <= MOST_PARTS:
            return None
        del self.waiting[key]
        self.count -= len(parts)
        if payload is None:
            raise BadDatagram(f"more than {MOST_PARTS} fragments")
        return payload


def joined(parts: dict[int, Datagram]) -> bytes | None:
    """The payload that fragments cover without a gap, up to the last of them. Nothing is copied before all are
    there."""
    payloads, end = [], 0
    while (part := parts.get(end)) is not None and (part.payload or not part.more):
        payloads.append(part.payload)
        end += len(part.payload)
        if not part.more:
            return b"".join(payloads)
    return None
