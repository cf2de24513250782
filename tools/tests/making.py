"""LSAs, packets and captures for the tests, by the library that the tools read captures with."""
from __future__ import annotations

import os
import re
import struct
import subprocess
import tempfile
from typing import Iterable

import dpkt

from mrttools.lsas import address, sums

TOOLS = os.path.dirname(os.path.dirname(os.path.abspath(__file__)))
DATA = os.path.join(os.path.dirname(TOOLS), "crates", "mrt", "data")
MRT = os.path.join(os.path.dirname(TOOLS), "crates", "mrt", "out", "mrt")
ETHERNET, RAW, COOKED, COOKED_2 = 1, 101, 113, 276



def found(pattern: str, text: str) -> re.Match[str]:
    """What a pattern finds, where it has to be there."""
    match = re.search(pattern, text)
    assert match is not None, text
    return match


# LSAs


def lsa(kind: int, number: str, router: str, body: bytes, age: int = 1, sequence: int = 0x80000001) -> bytes:
    """An LSA with a good checksum (RFC 2328, section 12.1.7)."""
    head = struct.pack(">HBBIII", age, 2, kind, address(number), address(router), sequence)
    tail = struct.pack(">H", 20 + len(body)) + body
    covered = head[2:] + b"\0\0" + tail
    first, second = sums(covered)
    check = ((len(covered) - 15) * first - second) % 255, (second - (len(covered) - 14) * first) % 255
    return head + bytes(value or 255 for value in check) + tail


def router_lsa(
    router: str, links: Iterable[tuple[str, str, int, int]], age: int = 1, sequence: int = 0x80000001
) -> bytes:
    """A router-LSA of links: far end, link data, type, metric."""
    texts = [struct.pack(">IIBBH", address(far), address(data), kind, 0, metric) for far, data, kind, metric in links]
    return lsa(1, router, router, struct.pack(">BBH", 0, 0, len(texts)) + b"".join(texts), age, sequence)


def network_lsa(number: str, router: str, routers: Iterable[str], age: int = 1, sequence: int = 0x80000001) -> bytes:
    return lsa(
        2,
        number,
        router,
        bytes.fromhex("ffffff00") + b"".join(struct.pack(">I", address(each)) for each in routers),
        age,
        sequence,
    )


def pair(metric: int = 1) -> list[bytes]:
    """The two routers of one link."""
    return [
        router_lsa("1.1.1.1", [("2.2.2.2", "10.0.0.1", 1, metric)]),
        router_lsa("2.2.2.2", [("1.1.1.1", "10.0.0.2", 1, 1)]),
    ]


# packets


def ospf(kind: int, body: bytes, area: str = "0.0.0.0", authentication: int = 0, version: int = 2) -> bytes:
    """An OSPF packet with a good checksum."""
    head = struct.pack(">BBHII", version, kind, 24 + len(body), address("9.9.9.9"), address(area))
    checksum = 0
    if authentication < 2:
        checksum = dpkt.in_cksum(head + struct.pack(">HH", 0, authentication) + body)
    return head + struct.pack(">HH", checksum, authentication) + b"password" + body


def update(lsas: Iterable[bytes], area: str = "0.0.0.0", authentication: int = 0) -> bytes:
    """A Link State Update."""
    records = list(lsas)
    return ospf(4, struct.pack(">I", len(records)) + b"".join(records), area, authentication)


def datagram(
    payload: bytes,
    number: int = 1,
    offset: int = 0,
    more: bool = False,
    protocol: int = 89,
    ends: tuple[str, str] = ("10.0.0.1", "224.0.0.5"),
) -> bytes:
    """An IP datagram, or a fragment of one, from one address to another, over one link."""
    source, target = (struct.pack(">I", address(end)) for end in ends)
    ip = dpkt.ip.IP(src=source, dst=target, p=protocol, id=number, ttl=1, data=payload)
    ip.offset, ip.mf = offset // 8, int(more)
    return bytes(ip)


def fragments(payload: bytes, size: int, number: int = 1) -> list[bytes]:
    """The fragments of a payload, each of so many bytes but the last."""
    starts = range(0, len(payload), size)
    return [datagram(payload[at : at + size], number, at, at + size < len(payload)) for at in starts]


def ethernet(ip: bytes, tags: int = 0) -> bytes:
    """An Ethernet frame with no, one or two VLAN tags, padded as a short one is. The outer one of two is a service
    tag."""
    kinds: list[list[int]] = [[], [0x8100], [0x88A8, 0x8100]]
    tagged = b"".join(struct.pack(">HH", kind, 100 + number) for number, kind in enumerate(kinds[tags]))
    return (b"\1\0\x5e\0\0\5" + b"\2\0\0\0\0\1" + tagged + b"\x08\0" + ip).ljust(60, b"\0")


# captures


def pcap(frames: Iterable[bytes], link: int = ETHERNET) -> bytes:
    """A capture file of the old form."""
    with tempfile.TemporaryFile() as file:
        writer = dpkt.pcap.Writer(file, linktype=link)
        for frame in frames:
            writer.writepkt(frame, 0)
        file.seek(0)
        return file.read()


def block(kind: int, body: bytes, order: str = "<") -> bytes:
    """A block of a pcapng file."""
    body += bytes(-len(body) % 4)
    size = struct.pack(order + "I", 12 + len(body))
    return struct.pack(order + "I", kind) + size + body + size


def pcapng(frames: Iterable[tuple[int, bytes]], links: Iterable[int], order: str = "<") -> bytes:
    """A capture file of the new form: frames by the place of their interface, interfaces by their kind of link."""
    parts = [block(0x0A0D0D0A, struct.pack(order + "IHHq", 0x1A2B3C4D, 1, 0, -1), order)]
    parts += [block(1, struct.pack(order + "HHI", link, 0, 0), order) for link in links]
    parts += [
        block(6, struct.pack(order + "IIIII", place, 0, 0, len(frame), len(frame)) + frame, order)
        for place, frame in frames
    ]
    return b"".join(parts)


def over_ethernet(*payloads: bytes) -> bytes:
    """A capture of OSPF packets."""
    return pcap(ethernet(datagram(payload)) for payload in payloads)


class Converted:
    """What the converter made of a capture: its status, its lines, and the file, if there is one."""

    def __init__(self, capture: bytes, *words: str) -> None:
        with tempfile.TemporaryDirectory() as folder:
            source, target = os.path.join(folder, "area.pcap"), os.path.join(folder, "area.lsas")
            with open(source, "wb") as file:
                file.write(capture)
            done = subprocess.run(
                [os.path.join(TOOLS, "lsdb-from-pcap"), *words, source, target],
                stdout=subprocess.PIPE,
                stderr=subprocess.PIPE,
                text=True,
                check=False,
            )
            self.status, self.output, self.lines = done.returncode, done.stdout, done.stderr.splitlines()
            self.left = sorted(os.listdir(folder))
            self.file = None
            if os.path.exists(target):
                with open(target, "rb") as file:
                    self.file = file.read()

    @property
    def written(self) -> bytes:
        """The file, where there has to be one."""
        assert self.file is not None, self.lines
        return self.file

    def says(self, text: str) -> bool:
        return any(text in line for line in self.lines)
