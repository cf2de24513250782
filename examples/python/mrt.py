"""libmrt from Python, by ctypes alone: bytes in, dataclasses out. One file, which may be copied.

A call takes the bytes of an area's LSAs and of a profile, and raises Refused where the library has no answer. It lets
other threads of Python run meanwhile. mrt.h says what each call does, and what its statuses are.

    lib = mrt.Library()
    area = mrt.Area(open("area.lsas", "rb").read())
    for row in lib.table(area, mrt.number("10.255.1.1")):
        print(row.node, row.blue, row.red)
"""
from __future__ import annotations

import ctypes
import mmap
from ctypes import c_char_p, c_size_t, c_uint8, c_uint32, c_uint64
from dataclasses import dataclass
from enum import IntEnum
from ipaddress import IPv4Address
from typing import Any, Mapping, Sequence

ABI = 1
NAME = "libmrt.so.1"
MOST_ROWS = 4095
MOST_CERTIFICATE = 1 << 27
LINE = 512
TAGS = ("sole", "head", "top", "below", "above", "unordered", "carried")


class Status(IntEnum):
    DONE = 0
    NO = 1
    USAGE = 2
    BAD_DATABASE = 3
    BAD_PROFILE = 4
    BAD_CERTIFICATE = 5
    TOO_LARGE = 6
    NOT_THERE = 7
    READ_FAULT = 8
    WRITE_FAULT = 9
    NO_MEMORY = 10
    BAD_SCRIPT = 11
    NO_COMMON_BLOCK = 13
    BAD_UPDATE = 14


class Kind(IntEnum):
    """What a node is."""

    ROUTER = 1
    NETWORK = 2


class Color(IntEnum):
    """Which color repairs a failure."""

    NO_ELEMENT = 0
    BLUE = 1
    RED = 2
    NO_COLOR = 3


# The kind of a hop for a prefix that is attached to the router itself.
ATTACHED = 3
LETTERS = {Color.NO_ELEMENT: "", Color.BLUE: "b", Color.RED: "r", Color.NO_COLOR: "-"}


def number(text: str) -> int:
    """The number of an address or a router ID."""
    return int(IPv4Address(text))


def address(value: int) -> str:
    """The address or the router ID of a number."""
    return str(IPv4Address(value))


@dataclass(frozen=True)
class Area:
    """The bytes of an area's LSAs, as in a database file, and of a profile."""

    lsas: bytes
    profile: bytes = b""


@dataclass(frozen=True)
class Node:
    """A router by its router ID, or a network by the address of its designated router."""

    kind: Kind
    number: int

    def __str__(self) -> str:
        return ("net:" if self.kind == Kind.NETWORK else "") + address(self.number)


@dataclass(frozen=True)
class Hop:
    """The far node of the link that a packet goes over, and its link data at the near end."""

    node: Node
    link_data: int

    def __str__(self) -> str:
        return f"{self.node}/{address(self.link_data)}"


@dataclass(frozen=True)
class Island:
    """An island: its root, how many nodes and links it has, and how many bytes its certificate."""

    root: int
    nodes: int
    links: int
    certificate: int


@dataclass(frozen=True)
class Verdict:
    """What an accepted certificate is of."""

    root: int
    nodes: int
    links: int


@dataclass(frozen=True)
class Row:
    """What a router installs for a node. The repairs are those of the primary's link and of the node that it leads to, and, where that is a network,
    of the link and the router beyond it."""

    node: Node
    tag: int
    blue: Hop
    red: Hop
    primary: Hop
    repairs: tuple[Color, Color, Color, Color]

    def __str__(self) -> str:
        letters = "".join(LETTERS[color] for color in self.repairs)
        hops = f"blue {self.blue} red {self.red} primary {self.primary}"
        return f"{self.node} {TAGS[self.tag] if self.tag < len(TAGS) else '?'} {hops} repair {letters}"


@dataclass(frozen=True)
class ProxyRow:
    """What a router installs for a prefix at two routers: where it sends on each color; None where the prefix is attached to it."""

    blue: Hop | None
    red: Hop | None

    def __str__(self) -> str:
        return f"blue {self.blue or 'attached'} red {self.red or 'attached'}"


class Refused(Exception):
    """The library has no answer. The text is the program's line on it; the numbers are those of struct mrt_fault. The status
    is one of Status, or one of a later library."""

    def __init__(self, status: int, line: str, kind: int = 0, at: int = 0, other: int = 0, size: int = 0) -> None:
        super().__init__(line)
        self.status, self.kind, self.at, self.other, self.size = status, kind, at, other, size


# The structs of mrt.h.


class CBytes(ctypes.Structure):
    # (a pointer to what a bytes object holds, which is none to nothing where it is empty)
    _fields_ = [("data", c_char_p), ("size", c_size_t)]


class CFile(ctypes.Structure):
    _fields_ = [("name", CBytes), ("bytes", CBytes)]


class CArea(ctypes.Structure):
    _fields_ = [("lsas", CBytes), ("profile", CBytes), ("reserved", c_uint64)]


class CFault(ctypes.Structure):
    _fields_ = [
        ("status", c_uint32),
        ("kind", c_uint32),
        ("at", c_uint32),
        ("other", c_uint32),
        ("size", c_uint64),
        ("reserved", c_uint64),
    ]


class CIsland(ctypes.Structure):
    _fields_ = [
        ("root", c_uint32),
        ("nodes", c_uint32),
        ("links", c_uint32),
        ("reserved_1", c_uint32),
        ("certificate", c_uint64),
        ("reserved_2", c_uint64),
    ]


class CVerdict(ctypes.Structure):
    _fields_ = [("root", c_uint32), ("nodes", c_uint32), ("links", c_uint32), ("reserved", c_uint32)]


class CHop(ctypes.Structure):
    _fields_ = [("kind", c_uint32), ("number", c_uint32), ("link_data", c_uint32)]


class CRow(ctypes.Structure):
    _fields_ = [
        ("kind", c_uint32),
        ("number", c_uint32),
        ("tag", c_uint32),
        ("reserved_1", c_uint32),
        ("blue", CHop),
        ("red", CHop),
        ("primary", CHop),
        ("repair_link", c_uint8),
        ("repair_node", c_uint8),
        ("repair_second_link", c_uint8),
        ("repair_second_node", c_uint8),
        ("reserved_2", c_uint32),
        ("reserved_3", c_uint32),
    ]


class CPair(ctypes.Structure):
    _fields_ = [("first", c_uint32), ("second", c_uint32)]


class CProxyRow(ctypes.Structure):
    _fields_ = [
        ("status", c_uint32),
        ("at", c_uint32),
        ("blue", CHop),
        ("red", CHop),
        ("reserved_1", c_uint32),
        ("reserved_2", c_uint32),
    ]


def bytes_of(data: bytes) -> CBytes:
    return CBytes(data, len(data))


def pages(room: int) -> tuple[mmap.mmap, Any]:
    """Room for so many bytes, of which those that are not written take no memory."""
    held = mmap.mmap(-1, room)
    return held, (c_uint8 * room).from_buffer(held)


def hop_of(hop: Any) -> Hop:
    return Hop(Node(Kind(hop.kind), hop.number), hop.link_data)


def row_of(row: Any) -> Row:
    return Row(
        Node(Kind(row.kind), row.number),
        row.tag,
        hop_of(row.blue),
        hop_of(row.red),
        hop_of(row.primary),
        (
            Color(row.repair_link),
            Color(row.repair_node),
            Color(row.repair_second_link),
            Color(row.repair_second_node),
        ),
    )


# For each call what it takes; what it answers is a status, of mrt_abi the interface's number.
POINTER, BUFFER = ctypes.POINTER, ctypes.c_void_p
SIZE = POINTER(c_size_t)
CALLS: dict[str, list[Any]] = {
    "mrt_abi": [],
    "mrt_run": [POINTER(CBytes), c_size_t, POINTER(CFile), c_size_t, BUFFER, c_size_t, SIZE, POINTER(CFault)],
    "mrt_line": [POINTER(CFault), BUFFER, c_size_t, SIZE],
    "mrt_shape": [POINTER(CArea), c_uint32, POINTER(CIsland), POINTER(CFault)],
    "mrt_certify": [POINTER(CArea), c_uint32, BUFFER, c_size_t, SIZE, POINTER(CFault)],
    "mrt_check": [POINTER(CArea), c_char_p, c_size_t, POINTER(CVerdict), POINTER(CFault)],
    "mrt_table": [POINTER(CArea), c_uint32, POINTER(CRow), c_size_t, SIZE, POINTER(CFault)],
    "mrt_row_for": [POINTER(CArea), c_uint32, c_uint32, c_uint32, POINTER(CRow), POINTER(CFault)],
    "mrt_proxy": [
        POINTER(CArea),
        c_uint32,
        POINTER(CPair),
        c_size_t,
        POINTER(CProxyRow),
        c_size_t,
        SIZE,
        POINTER(CFault),
    ],
}


class Library:
    """The library, once it is loaded: the one of this name that the system knows, or that at a path."""

    def __init__(self, path: str = NAME) -> None:
        library = ctypes.CDLL(path)
        self.calls: dict[str, Any] = {}
        for name, takes in CALLS.items():
            call = library[name]
            call.argtypes, call.restype = takes, c_uint32
            self.calls[name] = call
        if self.calls["mrt_abi"]() < ABI:
            raise OSError(f"{path}: this is an interface before {ABI}")

    def run(self, words: Sequence[bytes], files: Mapping[bytes, bytes], room: int = MOST_CERTIFICATE) -> bytes:
        """What the program writes for these words over these files; where there is no room for it, it is asked again."""
        given = (CBytes * len(words))(*map(bytes_of, words))
        there = (CFile * len(files))(*(CFile(bytes_of(name), bytes_of(data)) for name, data in files.items()))
        count, fault = c_size_t(), CFault()
        held, text = pages(max(room, 1))
        status = self.calls["mrt_run"](
            given, len(given), there, len(there), text, len(text), ctypes.byref(count), ctypes.byref(fault)
        )
        if status == Status.WRITE_FAULT:
            return self.run(words, files, count.value)
        if status != Status.DONE:
            raise self.refused(fault)
        return held[: count.value]

    def shape(self, area: Area, router: int) -> Island:
        """The island of a router."""
        island = CIsland()
        self.ask("mrt_shape", area, router, ctypes.byref(island))
        return Island(island.root, island.nodes, island.links, island.certificate)

    def certify(self, area: Area, router: int) -> bytes:
        """The certificate of a router's island."""
        count = c_size_t()
        held, certificate = pages(MOST_CERTIFICATE)
        self.ask("mrt_certify", area, router, certificate, len(certificate), ctypes.byref(count))
        return held[: count.value]

    def check(self, area: Area, certificate: bytes) -> Verdict:
        """What a certificate is of, if it is accepted; else Refused, with the rule that fails and its place."""
        verdict = CVerdict()
        self.ask("mrt_check", area, certificate, len(certificate), ctypes.byref(verdict))
        return Verdict(verdict.root, verdict.nodes, verdict.links)

    def table(self, area: Area, router: int) -> list[Row]:
        """What a router installs for each other node of its island."""
        rows, count = (CRow * MOST_ROWS)(), c_size_t()
        self.ask("mrt_table", area, router, rows, MOST_ROWS, ctypes.byref(count))
        return [row_of(row) for row in rows[: count.value]]

    def row_for(self, area: Area, router: int, to: Node) -> Row:
        """What a router installs for one node."""
        row = CRow()
        self.ask("mrt_row_for", area, router, to.kind, to.number, ctypes.byref(row))
        return row_of(row)

    def proxy(self, area: Area, router: int, pairs: Sequence[tuple[int, int]]) -> list[ProxyRow | Refused]:
        """What a router installs for prefixes at two routers each; for two that give no hops, what refuses them."""
        given = (CPair * len(pairs))(*(CPair(*pair) for pair in pairs))
        rows, count = (CProxyRow * len(pairs))(), c_size_t()
        self.ask("mrt_proxy", area, router, given, len(given), rows, len(rows), ctypes.byref(count))
        return [self.proxy_row(row) for row in rows]

    def proxy_row(self, row: CProxyRow) -> ProxyRow | Refused:
        if row.status != Status.DONE:
            return self.refused(CFault(status=row.status, at=row.at))
        return ProxyRow(*(None if hop.kind == ATTACHED else hop_of(hop) for hop in (row.blue, row.red)))

    def ask(self, name: str, area: Area, *words: Any) -> None:
        """Makes a call over an area, and raises what it refuses."""
        fault = CFault()
        status = self.calls[name](
            ctypes.byref(CArea(bytes_of(area.lsas), bytes_of(area.profile), 0)), *words, ctypes.byref(fault)
        )
        if status != Status.DONE:
            raise self.refused(fault)

    def refused(self, fault: CFault) -> Refused:
        return Refused(fault.status, self.line(fault), fault.kind, fault.at, fault.other, fault.size)

    def line(self, fault: CFault) -> str:
        """The program's line on a fault."""
        text, count = (c_uint8 * LINE)(), c_size_t()
        self.calls["mrt_line"](ctypes.byref(fault), text, LINE, ctypes.byref(count))
        return bytes(memoryview(text)[: count.value]).decode("ascii").rstrip("\n")
