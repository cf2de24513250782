"""The TCP sockets of this network namespace, as the kernel lists them: which listen, and whose they are."""
from __future__ import annotations

import ipaddress
import sys
from typing import Iterator, NamedTuple

LISTS = "/proc/net/tcp", "/proc/net/tcp6"
ESTABLISHED, LISTENING = 0x01, 0x0A

# An address and a port.
End = tuple[str, int]


class Row(NamedTuple):
    """A socket: its two ends, its state, the user who opened it, and its number, by which it differs from any other. No
    process has one whose number is 0 any more."""

    own: End
    far: End
    state: int
    user: int
    number: int


def end_of(word: str) -> End:
    """An end as the kernel spells it: four bytes at a time are a number in the machine's order."""
    digits, port = word.split(":")
    numbers = (int(digits[at : at + 8], 16) for at in range(0, len(digits), 8))
    address = ipaddress.ip_address(b"".join(number.to_bytes(4, sys.byteorder) for number in numbers))
    if isinstance(address, ipaddress.IPv6Address) and address.ipv4_mapped:
        address = address.ipv4_mapped
    return str(address), int(port, 16)


def row_of(line: str) -> Row:
    """A line of the kernel's list."""
    words = line.split()
    return Row(end_of(words[1]), end_of(words[2]), int(words[3], 16), int(words[7]), int(words[9]))


def rows(port: int) -> Iterator[Row]:
    """The sockets that have a port at one of their ends."""
    wanted = f":{port:04X}"
    for name in LISTS:
        try:
            with open(name, encoding="ascii") as file:
                next(file)
                for line in file:
                    if any(word.endswith(wanted) for word in line.split(None, 3)[1:3]):
                        yield row_of(line)
        except FileNotFoundError:
            # (a kernel without IPv6)
            continue


def listening(port: int) -> dict[int, str]:
    """The sockets that listen on a port: their numbers, and the addresses at which they do."""
    return {row.number: row.own[0] for row in rows(port) if row.state == LISTENING and row.own[1] == port}


def users(own: End, far: End) -> set[int | None]:
    """Who has the end of a connection that the address `own` names: nobody where it has just begun or ends."""
    found = (row for row in rows(own[1]) if (row.own, row.far, row.state) == (own, far, ESTABLISHED))
    return {row.user if row.number else None for row in found}
