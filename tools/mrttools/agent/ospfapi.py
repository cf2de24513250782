"""A copy of one area's database by FRR's own interface (`ospfd --apiserver`), which the daemon keeps up to date.

A client connects, and the daemon connects back to the next port of the client. Requests and replies go over the first
connection, LSAs come over the second. A message has a head of eight bytes (version, kind, length of what follows,
number) and a body. Three things are asked for: word of each change of the area's router-LSAs and network-LSAs, all of
them that there are now, and the router ID. The daemon answers in this order, and the answer with the router ID comes
over the second connection too: when it is here, all LSAs are. It is asked for again from time to time, so that a daemon
that hangs is noticed.

Nothing waits here: `fileno` is waited for with others, until `due` at the latest, and `read` takes what has come, so
much at once. Whatever a server sends, or does not send, ends as a fault, or as a copy within the limits.

What FRR 8.4.4 does that a user of this has to know. It ends by a signal where a client asks before there is a `router
ospf`, so connect only where it has just told of its area (`listing`); and where a client connects after a `no router
ospf`, also if there is another one by then, so nobody is let in twice by a daemon that has ended a connection. One LSA
of more than 1,488 bytes is not sent, and takes with it those that wait to be sent before it: hold what is here to the
daemon's list (`instances`). A replaced LSA comes as one that goes and one that comes.
"""
from __future__ import annotations

import errno
import os
import pwd
import random
import select
import socket
import struct
import time
from typing import Callable, Iterator, NamedTuple

from mrttools import gather, lsas
from mrttools.exits import system_line
from mrttools.lsas import NETWORK, ROUTER, Key, Lsa
from . import sockets
from .sniffer import Database, instance_of
from .sockets import End

PORT, VERSION = 2607, 1
REGISTER_EVENT, SYNC_LSDB, SYNC_ROUTER_ID = 3, 4, 19
REPLY, UPDATE, DELETE, ROUTER_ID = 10, 12, 13, 20
HEAD = struct.Struct(">BBHI")
# The types of LSAs as bits, the first one for type 1, whose they are (2 is anybody's), how many areas follow, and the area.
FILTER = struct.Struct(">HBBI")
# What stands before an LSA: an interface, its area, and whether it is the router's own.
PLACE = struct.Struct(">4xIB3x")
ANY_ORIGIN = 2

# The ports of the client, in pairs, and how many pairs are tried.
PORTS, TRIES = range(49152, 65534, 2), 64
# How many bytes are read by one call, and how many connections of others are turned away.
AT_ONCE, CHUNK, STRANGERS = 1 << 20, 1 << 16, 16
# How many lines are told of what is left out.
LINES = 20


class ApiFault(Exception):
    """Why there is no copy of the database any more."""


class Ended(ApiFault):
    """The daemon has ended a connection."""


def trusted() -> frozenset[int]:
    """Whose daemon is believed: this user's, root's, and that of FRR's own user. Any user may listen on the port."""
    found = {0, os.geteuid()}
    try:
        found.add(pwd.getpwnam("frr").pw_uid)
    except KeyError:
        pass
    return frozenset(found)


class Server:
    """Where the daemon is, whose it may be, and which listening sockets are of daemons that have ended a connection."""

    def __init__(self, host: str = "127.0.0.1", port: int = PORT, users: frozenset[int] | None = None) -> None:
        self.host, self.port = host, port
        self.users = trusted() if users is None else users
        self.ended: set[int] = set()


FRR = Server()


class Limits(NamedTuple):
    """How many LSAs an area may have, and how many bytes these, as `mrt` takes them; how many seconds an exchange takes
    at most, and after how many without one the daemon is asked whether it is there."""

    lsas: int = 16384
    size: int = gather.FILE_LIMIT
    patience: float = 10
    every: float = 10


class Message(NamedTuple):
    kind: int
    number: int
    body: bytes


def message(kind: int, number: int, body: bytes = b"") -> bytes:
    return HEAD.pack(VERSION, kind, len(body), number) + body


# a connection


class Channel:
    """A connection, the bytes of a message that is not whole yet, and since when these wait."""

    def __init__(self, end: socket.socket) -> None:
        self.end, self.held = end, bytearray()
        self.since: float | None = None

    def receive(self) -> bool:
        """Takes some bytes, if there are any. The end of a connection is a fault."""
        try:
            data = self.end.recv(CHUNK)
        except BlockingIOError:
            return False
        if not data:
            raise Ended("the daemon has ended the connection")
        self.held += data
        return True

    def messages(self, now: float) -> Iterator[Message]:
        """The whole messages that have come, of so many bytes at once."""
        left = AT_ONCE // CHUNK
        while left and self.receive():
            left -= 1
            at = 0
            while (size := self.size(at)) is not None:
                _, kind, _, number = HEAD.unpack_from(self.held, at)
                yield Message(kind, number, bytes(self.held[at + HEAD.size : at + size]))
                at += size
            del self.held[:at]
            if at or self.since is None:
                self.since = now
        if not self.held:
            self.since = None

    def size(self, at: int) -> int | None:
        """How long the message at a place is, if all of it is there."""
        if len(self.held) - at < HEAD.size:
            return None
        version, _, size, _ = HEAD.unpack_from(self.held, at)
        if version != VERSION:
            raise ApiFault(f"a message of version {version}, where {VERSION} is spoken")
        return HEAD.size + size if len(self.held) - at >= HEAD.size + size else None


# the copy


class Held(NamedTuple):
    """An LSA that the daemon has, and why it is left out, if it is."""

    lsa: Lsa
    fault: str | None


def fault_of(lsa: Lsa) -> str | None:
    """Why an LSA is left out. Of one that does not fit into a message FRR sends the beginning."""
    said = int.from_bytes(lsa.record[18:20], "big")
    if said > len(lsa.record):
        return f"the daemon tells {len(lsa.record)} bytes of {said}"
    if said < len(lsa.record):
        return "bytes after its end"
    return lsas.damage(lsa)


class Copy:
    """The live router-LSAs and network-LSAs of one area, as the daemon has told of them so far."""

    def __init__(self, area: int, limits: Limits) -> None:
        self.area, self.limits = area, limits
        self.held: dict[Key, Held] = {}
        self.bytes = 0

    def lsa_of(self, body: bytes) -> Lsa | None:
        """The LSA of a message, if it is one of these."""
        if len(body) < PLACE.size + lsas.HEADER:
            raise ApiFault(f"a message of {len(body)} bytes, which no LSA has")
        area, _ = PLACE.unpack_from(body)
        lsa = lsas.lsa_of(body[PLACE.size :])
        return lsa if area == self.area and lsa.kind in (ROUTER, NETWORK) else None

    def update(self, body: bytes) -> bool:
        """Puts an LSA in the place of its older instance; whether it says something else."""
        lsa = self.lsa_of(body)
        if lsa is None:
            return False
        if lsa.withdrawn:
            return self.drop(lsa.key)
        before = self.held.get(lsa.key)
        self.bytes += len(lsa.record) - (len(before.lsa.record) if before else 0)
        self.held[lsa.key] = Held(lsa, fault_of(lsa))
        if len(self.held) > self.limits.lsas or self.bytes > self.limits.size:
            raise ApiFault(f"the area has {len(self.held)} LSAs of {self.bytes} bytes, which is over the limit")
        return before is None or before.lsa.text != lsa.text

    def delete(self, body: bytes) -> bool:
        """Takes an LSA away, but for an older instance than the one that is here."""
        lsa = self.lsa_of(body)
        before = self.held.get(lsa.key) if lsa else None
        if lsa is None or before is None or lsas.rank(before.lsa) > lsas.rank(lsa):
            return False
        return self.drop(lsa.key)

    def drop(self, key: Key) -> bool:
        gone = self.held.pop(key, None)
        self.bytes -= len(gone.lsa.record) if gone else 0
        return gone is not None

    def found(self) -> dict[Key, Lsa]:
        return {key: held.lsa for key, held in sorted(self.held.items()) if held.fault is None}

    def told(self) -> list[str]:
        """Lines on what is left out."""
        lines = [f"{lsas.key_text(key)}: {held.fault}" for key, held in sorted(self.held.items()) if held.fault]
        return lines[:LINES] + ([f"and {len(lines) - LINES} more"] if len(lines) > LINES else [])


# the client


class Api:
    """One area's database, as the daemon has it, from when it is whole until a fault."""

    def __init__(
        self, area: int, server: Server = FRR, limits: Limits = Limits(), clock: Callable[[], float] = time.monotonic
    ) -> None:
        self.area, self.server, self.limits, self.clock = area, server, limits, clock
        self.copy = Copy(area, limits)
        # Whether all LSAs are there, the router ID of the daemon, and what was asked for at which time.
        self.whole, self.router = False, 0
        self.number, self.asked = 0, dict[tuple[int, int], float]()
        self.begun = self.answered = clock()
        self.strangers = 0
        self.listeners = set(sockets.listening(server.port))
        if self.listeners & server.ended:
            raise ApiFault("the daemon has ended a connection before: it is not asked again until it is started anew")
        self.requests: Channel | None = None
        self.events: Channel | None = None
        self.poll = select.epoll()
        try:
            self.listener = self.connect()
        except OSError as fault:
            self.poll.close()
            raise ApiFault(system_line(fault)) from fault

    # the connections

    def connect(self) -> socket.socket:
        """Begins the first connection; where the second one is waited for."""
        listener, end = pair_of_ports(self.server.host)
        self.requests = Channel(end)
        fault = end.connect_ex((self.server.host, self.server.port))
        if fault not in (0, errno.EINPROGRESS):
            listener.close()
            end.close()
            raise OSError(fault, f"port {self.server.port}: {os.strerror(fault)}")
        self.poll.register(end, select.EPOLLIN)
        self.poll.register(listener, select.EPOLLIN)
        return listener

    def join(self, requests: Channel) -> Channel | None:
        """The second connection, once the daemon has made it."""
        fault = requests.end.getsockopt(socket.SOL_SOCKET, socket.SO_ERROR)
        if fault:
            raise OSError(fault, f"port {self.server.port}: {os.strerror(fault)}")
        while self.strangers < STRANGERS:
            try:
                end, far = self.listener.accept()
            except BlockingIOError:
                return None
            end.setblocking(False)
            if far[0] == self.server.host and self.is_trusted(end, far):
                # (who has the first one is known now: the daemon has taken it before it made the second)
                if not self.is_trusted(requests.end, (self.server.host, self.server.port)):
                    end.close()
                    raise ApiFault(f"port {self.server.port} is neither FRR's, nor root's, nor one's own")
                self.poll.unregister(self.listener)
                self.listener.close()
                self.poll.register(end, select.EPOLLIN)
                return Channel(end)
            end.close()
            self.strangers += 1
        raise ApiFault("others connect in place of the daemon")

    def is_trusted(self, end: socket.socket, far: End) -> bool:
        """Whether the far end of a connection is of somebody whose daemon is believed."""
        found = sockets.users(far, end.getsockname())
        return bool(found) and found <= self.server.users

    # what is asked for

    def ask(self, kind: int, body: bytes, now: float) -> None:
        assert self.requests is not None
        self.number += 1
        data = message(kind, self.number, body)
        if self.requests.end.send(data) < len(data):
            raise ApiFault("the daemon takes no requests")
        self.asked[REPLY, self.number] = now
        if kind == SYNC_ROUTER_ID:
            self.asked[ROUTER_ID, self.number] = now

    def ask_all(self, now: float) -> None:
        wanted = FILTER.pack(1 << ROUTER - 1 | 1 << NETWORK - 1, ANY_ORIGIN, 1, self.area)
        self.ask(REGISTER_EVENT, wanted, now)
        self.ask(SYNC_LSDB, wanted, now)
        self.ask(SYNC_ROUTER_ID, bytes(4), now)

    # what comes

    def fileno(self) -> int:
        return self.poll.fileno()

    @property
    def due(self) -> float:
        """The time at which `read` has something to do whether anything has come or not."""
        return min([*self.ends(), *([] if self.asked or not self.events else [self.answered + self.limits.every])])

    def ends(self) -> list[float]:
        """The times at which what has not come then is late."""
        begun = list(self.asked.values()) if self.events else [self.begun]
        begun += [each.since for each in (self.requests, self.events) if each and each.since is not None]
        return [time + self.limits.patience for time in begun]

    def read(self) -> bool:
        """Takes what has come, and never waits; whether there is another database, or a whole one. After a fault all is
        closed."""
        try:
            return self.turn(self.clock())
        except ApiFault as fault:
            self.end(isinstance(fault, Ended))
            raise
        except OSError as fault:
            # (one that has ended a connection may not have read all that was asked)
            self.end(isinstance(fault, ConnectionError))
            raise ApiFault(system_line(fault)) from fault
        except Exception as fault:  # pylint: disable=broad-except
            # (what cannot be taken would be there again at each later look)
            self.close()
            raise ApiFault(repr(fault)) from fault

    def end(self, by_the_daemon: bool) -> None:
        if by_the_daemon:
            self.server.ended = self.listeners
        self.close()

    def turn(self, now: float) -> bool:
        if self.requests is None:
            raise ApiFault("it is closed")
        changed = False
        if self.events is None:
            self.events = self.join(self.requests)
            if self.events:
                self.ask_all(now)
        else:
            for each in self.requests.messages(now):
                self.hear_reply(each)
            for each in self.events.messages(now):
                changed |= self.hear(each, now)
        if min(self.ends(), default=now + 1) <= now:
            raise ApiFault(f"the daemon does not answer within {self.limits.patience:g} seconds")
        if self.events and not self.asked and now >= self.answered + self.limits.every:
            self.ask(SYNC_ROUTER_ID, bytes(4), now)
        return changed

    def hear_reply(self, each: Message) -> None:
        if each.kind != REPLY or len(each.body) != 4 or self.asked.pop((REPLY, each.number), None) is None:
            raise ApiFault("a reply to nothing that was asked")
        if each.body[0]:
            raise ApiFault(f"the daemon refuses a request with {int.from_bytes(each.body[:1], 'big', signed=True)}")

    def hear(self, each: Message, now: float) -> bool:
        """Takes a message of the second connection; those of other kinds are about interfaces and neighbors."""
        if each.kind == UPDATE:
            return self.copy.update(each.body)
        if each.kind == DELETE:
            return self.copy.delete(each.body)
        return each.kind == ROUTER_ID and self.hear_router(each, now)

    def hear_router(self, each: Message, now: float) -> bool:
        """Takes the router ID, as an answer or because it has changed."""
        if len(each.body) != 4:
            raise ApiFault(f"a router ID of {len(each.body)} bytes")
        before = self.whole, self.router
        self.router = int.from_bytes(each.body, "big")
        if self.asked.pop((ROUTER_ID, each.number), None) is not None:
            self.whole, self.answered = True, now
        return before != (self.whole, self.router)

    def close(self) -> None:
        for channel in (self.requests, self.events):
            if channel:
                channel.end.close()
        self.listener.close()
        self.poll.close()
        self.requests = self.events = None

    # the database

    @property
    def found(self) -> dict[Key, Lsa]:
        """The live router-LSAs and network-LSAs of the area that are as they should be, by their keys."""
        return self.copy.found()

    @property
    def told(self) -> list[str]:
        """Lines on what is left out of it."""
        return self.copy.told()

    @property
    def instances(self) -> Database:
        """What the daemon's list has, where all is here; with what is left out."""
        return {key: instance_of(held.lsa) for key, held in self.copy.held.items()}

    def database(self) -> bytes:
        """The file that `mrt` reads."""
        return b"".join(lsa.record for lsa in self.found.values())


def pair_of_ports(host: str) -> tuple[socket.socket, socket.socket]:
    """What listens for the daemon, and what will connect to it, from the port before."""
    for port in random.SystemRandom().sample(PORTS, TRIES):
        listener, end = (socket.socket(socket.AF_INET, socket.SOCK_STREAM | socket.SOCK_NONBLOCK) for _ in range(2))
        try:
            listener.bind((host, port + 1))
            end.bind((host, port))
            listener.listen(4)
            return listener, end
        except OSError as fault:
            listener.close()
            end.close()
            if fault.errno != errno.EADDRINUSE:
                raise
    raise OSError(errno.EADDRINUSE, f"no two free ports in {TRIES} tries")
