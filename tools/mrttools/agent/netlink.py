"""What this machine's kernel has of IPv4 routes, rules, addresses and links, by netlink and in the words of `ip -N -j`, and
the news of what changes. No process is started, and a dump of one protocol is not slow beside a table of the
Internet."""
from __future__ import annotations

import socket
import struct
from typing import Any, Callable, Iterator, NamedTuple

REQUEST, DUMP, INTERRUPTED = 1, 0x300, 0x10
ERROR, DONE = 2, 3
GET_LINK, GET_ADDRESS, GET_ROUTE, GET_RULE = 18, 22, 26, 34
NEW_ROUTE, DELETED_ROUTE, RULES = 24, 25, (32, 33)
OPTIONS, MEMBERSHIP, STRICT = 270, 1, 12
# Links, addresses, routes, rules and settings of IPv4; and the tables of nft.
GROUPS, NFT_GROUP = (1, 5, 7, 8, 24), 7
NETFILTER = 12
UP, MAIN = 1, 254
# The room for news, which is more than a router has by itself: its own batches are news too.
ROOM, ROOM_BY_FORCE = 1 << 25, 33
# Seconds for an answer of the kernel, how often an answer that was cut into is asked for again, and the bytes taken of
# news at once.
PATIENCE, TRIES, AT_ONCE = 10, 5, 1 << 20

Attributes = dict[int, bytes]
Said = dict[str, Any]


class Message(NamedTuple):
    kind: int
    flags: int
    body: bytes


def messages(data: bytes) -> Iterator[Message]:
    at = 0
    while len(data) - at >= 16:
        length, kind, flags = struct.unpack_from("=IHH", data, at)
        if not 16 <= length <= len(data) - at:
            return
        yield Message(kind, flags, data[at + 16 : at + length])
        at += (length + 3) & ~3


def attributes(body: bytes, at: int) -> Attributes:
    values = {}
    while len(body) - at >= 4:
        length, kind = struct.unpack_from("=HH", body, at)
        if not 4 <= length <= len(body) - at:
            break
        values[kind & 0x3FFF] = body[at + 4 : at + length]
        at += (length + 3) & ~3
    return values


def number(values: Attributes, kind: int, otherwise: int = 0) -> int:
    return int(struct.unpack("=I", values[kind])[0]) if kind in values else otherwise


def dump(kind: int, head: bytes, keep: Callable[[Message], bool] | None = None) -> list[Message]:
    """All that the kernel has of a kind, or what is kept of it as it is read. Where it changes while it is told, it is told
    again."""
    for _ in range(TRIES):
        entries, whole = dumped(kind, head, keep)
        if whole:
            return entries
    raise OSError(f"the kernel's answer was cut into {TRIES} times")


def dumped(kind: int, head: bytes, keep: Callable[[Message], bool] | None) -> tuple[list[Message], bool]:
    """An answer, and whether nothing changed meanwhile."""
    entries: list[Message] = []
    flags = 0
    with socket.socket(socket.AF_NETLINK, socket.SOCK_RAW, socket.NETLINK_ROUTE) as kernel:
        kernel.settimeout(PATIENCE)
        kernel.setsockopt(OPTIONS, STRICT, 1)
        kernel.send(struct.pack("=IHHII", 16 + len(head), kind, REQUEST | DUMP, 1, 0) + head)
        while True:
            for message in messages(kernel.recv(1 << 16)):
                if message.kind == ERROR:
                    code = -struct.unpack_from("=i", message.body)[0]
                    raise OSError(code, "the kernel refuses to tell of its routes")
                flags |= message.flags
                if message.kind == DONE:
                    return entries, not flags & INTERRUPTED
                if keep is None or keep(message):
                    entries.append(message)


# what there is


def names() -> dict[int, tuple[str, bool]]:
    """The interfaces by number: their names, and whether they are up."""
    interfaces = {}
    for message in dump(GET_LINK, bytes(16)):
        index, flags = struct.unpack_from("=4xiI", message.body)
        name = attributes(message.body, 16).get(3, b"").rstrip(b"\0")
        interfaces[index] = name.decode("utf-8", "surrogateescape"), bool(flags & UP)
    return interfaces


def addresses() -> list[Said]:
    """What `ip -j -4 address show up` says, of it what is used."""
    links = names()
    infos: dict[int, list[Said]] = {index: [] for index, (_, up) in links.items() if up}
    for message in dump(GET_ADDRESS, struct.pack("=BBBBI", socket.AF_INET, 0, 0, 0, 0)):
        length, index = struct.unpack_from("=xBxxI", message.body)
        values = attributes(message.body, 8)
        if index in infos and 2 in values:
            info: Said = {"local": socket.inet_ntoa(values[2]), "prefixlen": length}
            if values.get(1, values[2]) != values[2]:
                info["address"] = socket.inet_ntoa(values[1])
            infos[index].append(info)
    return [{"ifname": links[index][0], "addr_info": own} for index, own in infos.items()]


def routes(protocol: int, prefixes: frozenset[str] | None = None) -> list[Said]:
    """What `ip -N -j -4 route show table all proto PROTOCOL` says, of it what is used; of the prefixes wanted alone, where
    there are such: a protocol may have the routes of the Internet."""
    networks = frozenset(map(network_of, prefixes or ()))
    keep = (lambda message: destination(message.body) in networks) if prefixes is not None else None
    links, entries = names(), []
    for message in dump(GET_ROUTE, struct.pack("=8BI", socket.AF_INET, 0, 0, 0, 0, protocol, 0, 0, 0), keep):
        length, table, of_protocol, scope, kind = struct.unpack_from("=xBxxBBBB", message.body)
        if message.kind == NEW_ROUTE and of_protocol == protocol:
            route = route_of(attributes(message.body, 12), links, (length, table, scope, kind))
            entries.append(route | {"protocol": str(protocol)})
    return entries


def network_of(prefix: str) -> tuple[bytes, int]:
    number, length = prefix.split("/")
    return socket.inet_aton(number), int(length)


def destination(body: bytes) -> tuple[bytes, int]:
    """The network of a route."""
    return attributes(body, 12).get(1, bytes(4)), body[1]


def route_of(values: Attributes, links: dict[int, tuple[str, bool]], head: tuple[int, int, int, int]) -> Said:
    length, table, scope, kind = head
    route: Said = {"dst": f"{socket.inet_ntoa(values[1])}/{length}" if 1 in values else "default", "type": str(kind)}
    if 5 in values:
        route["gateway"] = socket.inet_ntoa(values[5])
    if 4 in values:
        route["dev"] = links.get(number(values, 4), ("", False))[0]
    if number(values, 15, table) != MAIN:
        route["table"] = str(number(values, 15, table))
    if 6 in values:
        route["metric"] = number(values, 6)
    if 11 in values:
        route["flow"] = {"to": str(number(values, 11) & 0xFFFF)}
    route["scope"] = str(scope)
    return route


def rules() -> list[Said]:
    """What `ip -N -j -4 rule show` says, of it what is used."""
    entries = []
    for message in dump(GET_RULE, struct.pack("=8BI", socket.AF_INET, 0, 0, 0, 0, 0, 0, 0, 0)):
        values = attributes(message.body, 12)
        rule: Said = {"priority": number(values, 6), "table": str(number(values, 15, message.body[4]))}
        if 10 in values:
            rule["fwmark"] = f"{number(values, 10):#x}"
            rule["fwmask"] = f"{number(values, 16, 0xFFFFFFFF):#x}"
        entries.append(rule)
    return entries


# what changes


class News(NamedTuple):
    """What has changed: interfaces or addresses, routes by their protocols, rules, the tables of nft."""

    interfaces: bool = False
    protocols: frozenset[int] = frozenset()
    rules: bool = False
    marks: bool = False

    def and_then(self, more: News) -> News:
        """These and later ones."""
        return News(
            self.interfaces or more.interfaces,
            self.protocols | more.protocols,
            self.rules or more.rules,
            self.marks or more.marks,
        )

    def without(self, protocol: int) -> News:
        """Those that do not come of one's own routes and rules."""
        return self._replace(protocols=self.protocols - {protocol}, rules=False)


class Watch:
    """The kernel's news. What it had no room for may be of any kind."""

    def __init__(self) -> None:
        self.routing = socket.socket(socket.AF_NETLINK, socket.SOCK_RAW, socket.NETLINK_ROUTE)
        self.filter = socket.socket(socket.AF_NETLINK, socket.SOCK_RAW, NETFILTER)
        for source, groups in ((self.routing, GROUPS), (self.filter, (NFT_GROUP,))):
            source.setblocking(False)
            try:
                source.setsockopt(socket.SOL_SOCKET, ROOM_BY_FORCE, ROOM)
            except PermissionError:
                source.setsockopt(socket.SOL_SOCKET, socket.SO_RCVBUF, ROOM)
            source.bind((0, 0))
            for group in groups:
                source.setsockopt(OPTIONS, MEMBERSHIP, group)

    def filenos(self) -> list[int]:
        return [self.routing.fileno(), self.filter.fileno()]

    def take(self, every: frozenset[int]) -> News:
        """The news that wait; of all of `every` protocol where some were lost."""
        data, lost = waiting(self.routing)
        marks, unmarked = waiting(self.filter)
        protocols, interfaces, ruled = set(every) if lost else set(), lost, lost
        for part in data:
            for message in messages(part):
                if message.kind in (NEW_ROUTE, DELETED_ROUTE):
                    protocols.add(message.body[5])
                elif message.kind in RULES:
                    ruled = True
                else:
                    interfaces = True
        return News(interfaces, frozenset(protocols), ruled, bool(marks) or unmarked)


def waiting(source: socket.socket) -> tuple[list[bytes], bool]:
    """The datagrams that wait, no more than one can take at once, and whether some were lost."""
    datagrams, size, lost = [], 0, False
    while size < AT_ONCE:
        try:
            datagrams.append(source.recv(1 << 16))
            size += len(datagrams[-1])
        except BlockingIOError:
            break
        except OSError:
            # (ENOBUFS: there was no room; what still waits can be read)
            lost, size = True, size + (1 << 12)
    return datagrams, lost
