"""A script for `mrt flood` over the packets of a capture: one router hears all of them, another one not what tells of
one link, until it does."""
from __future__ import annotations

from mrttools import lsas, updates
from mrttools.lsas import POINT_TO_POINT, ROUTER, Lsa
from mrttools.updates import BadPacket, Packet


def packets_in(data: bytes) -> list[Packet]:
    """The Link State Updates of a file that the converter wrote."""
    found, at = [], 0
    while at < len(data):
        size = int.from_bytes(data[at + 2 : at + 4], "big")
        found.append(updates.packet_of(data[at : at + size]))
        at += size
    return found


def tells(lsa: Lsa, router: int, neighbour: int) -> bool:
    """Whether this is a router's LSA with its link to a neighbour."""
    return (
        lsa.kind == ROUTER
        and lsa.router == router
        and any(link.kind == POINT_TO_POINT and link.far == neighbour for link in lsas.links_of(lsa.record))
    )


def telling(packets: list[Packet], router: int, neighbour: int) -> list[int]:
    """The numbers of the packets that have a router's link to a neighbour."""
    found = []
    for number, packet in enumerate(packets):
        try:
            if any(tells(lsa, router, neighbour) for lsa in updates.records_of(packet)):
                found.append(number)
        except BadPacket:
            continue
    return found


def script(packets: list[Packet], router: int, neighbour: int, of: int) -> list[str]:
    """Router 0 hears every packet in the order of the capture, router 1 the newest first and none that has the link,
    and in the end one that has it. Both are compared before and after, by the island of the router `of`."""
    held_back = telling(packets, router, neighbour)
    compared = f"same 0 1 {lsas.spelled(of)}"
    lines = ["routers 2"] + [f"deliver {number} 0" for number in range(len(packets))]
    lines.append(
        "# Router 1 hears the newest first, and not " + ", ".join(f"packet {one}" for one in held_back) + "."
    )
    lines += [f"deliver {number} 1" for number in reversed(range(len(packets))) if number not in held_back]
    return lines + [compared, f"deliver {held_back[-1]} 1", compared]
