"""From a capture to the LSAs of one area: what is taken, what is dropped and why."""
from __future__ import annotations

from collections import Counter
from typing import Callable, NamedTuple

from . import area as areas, capture, lsas, updates
from .capture import BadDatagram, Fragments, Frame
from .lsas import NETWORK, POINT_TO_POINT, ROUTER, TRANSIT, Key, Lsa
from .updates import BadPacket, Packet

CUT = f"OSPF packet: {capture.CUT}"
FILE_LIMIT = 8388608
PACKETS_LIMIT = 33554432


class NoDatabase(Exception):
    """Why there is no file that `mrt` would take, or none that says what the routers say."""


class Gathered(NamedTuple):
    """What a capture held: frames, OSPF packets, good LSAs by area, Link State Updates by area as they stand, and what
    was dropped, with the reason."""

    counts: Counter[str]
    areas: dict[int, list[Lsa]]
    packets: dict[int, list[Packet]]
    dropped: Counter[str]


class Gathering:
    """The reading of one capture."""

    def __init__(self) -> None:
        self.counts: Counter[str] = Counter()
        self.areas: dict[int, list[Lsa]] = {}
        self.packets: dict[int, list[Packet]] = {}
        self.dropped: Counter[str] = Counter()
        self.fragments = Fragments()

    def put(self, frame: Frame) -> None:
        """Takes what a frame has. What is no OSPF is passed over."""
        self.counts["frames"] += 1
        if not capture.is_known(frame.link):
            self.dropped[f"frame: a kind of link that is not known here, number {frame.link}"] += 1
            return
        data = capture.ip_bytes(frame)
        if data is None or not capture.is_protocol(data, updates.PROTOCOL):
            return
        try:
            payload = self.fragments.put(capture.datagram_of(data))
            if payload is not None:
                self.counts["packets"] += 1
                self.put_packet(updates.packet_of(payload))
        except (BadDatagram, BadPacket) as fault:
            self.dropped[f"OSPF packet: {fault}"] += 1

    def put_packet(self, packet: Packet) -> None:
        """Takes the good LSAs of a Link State Update."""
        if packet.kind != updates.UPDATE:
            return
        self.counts["updates"] += 1
        self.packets.setdefault(packet.area, []).append(packet)
        found = self.areas.setdefault(packet.area, [])
        for lsa in updates.records_of(packet):
            fault = lsas.damage(lsa)
            if fault:
                self.dropped[f"LSA: {fault}"] += 1
            else:
                found.append(lsa)

    def end(self) -> Gathered:
        """What there is after the last frame."""
        if self.fragments.waiting:
            self.dropped["OSPF packet: fragments are missing"] += len(self.fragments.waiting)
        return Gathered(self.counts, self.areas, self.packets, self.dropped)


def gather(name: str, tell: Callable[[str], None]) -> Gathered:
    """Reads a capture to its end."""
    gathering = Gathering()
    for frame in capture.frames(name, tell):
        gathering.put(frame)
    return gathering.end()


# what is written


def chosen_area(gathered: Gathered, wanted: int | None) -> int:
    """The wanted area, or the only one."""
    areas = gathered.areas
    names = ", ".join(map(lsas.spelled, sorted(areas)))
    if wanted is None and len(areas) > 1:
        raise NoDatabase(f"it has Link State Updates of the areas {names}; choose one with --area")
    if not areas:
        cut = gathered.dropped[CUT]
        raise NoDatabase(
            "it has no Link State Update" + (f" that is whole, and {cut} OSPF packets are cut" if cut else "")
        )
    area = next(iter(areas)) if wanted is None else wanted
    if not areas.get(area):
        raise NoDatabase(f"it has no LSA of area {lsas.spelled(area)}; its areas are {names}")
    return area


def newest_of_each(instances: dict[Key, list[Lsa]]) -> list[Lsa]:
    """One instance of each LSA. Newest ones of a router or network that say different things are a conflict, which no
    file could hide."""
    chosen = []
    for key, group in instances.items():
        first, *others = lsas.newest(group)
        if key.kind in (ROUTER, NETWORK) and any(other.text != first.text for other in others):
            raise NoDatabase(
                f"two newest instances of the {lsas.key_text(key)} say different things; "
                "capture anew when the area has settled"
            )
        chosen.append(first)
    return chosen


def refuse_conflicts(instances: dict[Key, list[Lsa]]) -> None:
    """Refuses instances that `mrt` would call a conflict: it does not look at ages that are far apart."""
    for key, group in instances.items():
        greatest = max(map(lsas.rank, group))
        texts = {lsa.text for lsa in group if lsas.rank(lsa) == greatest}
        if key.kind in (ROUTER, NETWORK) and len(texts) > 1:
            raise NoDatabase(f"two newest instances of the {lsas.key_text(key)} say different things; try --newest")


def without_zero_metrics(found: list[Lsa], chosen: list[Lsa]) -> list[Lsa]:
    """The LSAs without those that have a metric of 0, where a newer instance stands for them or the router is
    withdrawn anyway. A newest one that is live is refused: routers have that LSA, so an area without it would not be
    theirs."""
    gone = set()
    for lsa in filter(lsas.has_zero_metric, chosen):
        if not lsa.withdrawn:
            raise NoDatabase(
                f"the newest {lsas.key_text(lsa.key)} has a link with metric 0; set it to 1 at least, and capture anew"
            )
        # Without its last instance an older one would count, so that all of them go.
        gone.add(lsa.key)
    return [lsa for lsa in found if lsa.key not in gone and not lsas.has_zero_metric(lsa)]


def database_of(found: list[Lsa], only_newest: bool) -> list[Lsa]:
    """The LSAs to write: the newest instance of each, or all."""
    instances = lsas.by_key(found)
    chosen = newest_of_each(instances)
    if not only_newest:
        refuse_conflicts(instances)
    written = without_zero_metrics(chosen if only_newest else found, chosen)
    size = sum(len(lsa.record) for lsa in written)
    if size > FILE_LIMIT:
        raise NoDatabase(
            f"the file would have {size:,} bytes, and mrt takes {FILE_LIMIT:,}"
            + ("" if only_newest else "; try --newest")
        )
    return written


def packets_of(packets: list[Packet]) -> list[Packet]:
    """The Link State Updates to write: all, as they stand."""
    size = sum(len(packet.data) for packet in packets)
    if size > PACKETS_LIMIT:
        raise NoDatabase(f"the file would have {size:,} bytes, and mrt takes {PACKETS_LIMIT:,}")
    return packets


# what is told


def named(live: list[Lsa]) -> set[Key]:
    """The routers and networks that live LSAs name, as the LSAs that they should have. Of a network, the advertising
    router is left as 0."""
    found = set()
    for lsa in live:
        if lsa.kind == ROUTER:
            found |= {
                Key(ROUTER, link.far, link.far) for link in lsas.links_of(lsa.record) if link.kind == POINT_TO_POINT
            }
            found |= {Key(NETWORK, link.far, 0) for link in lsas.links_of(lsa.record) if link.kind == TRANSIT}
        elif lsa.kind == NETWORK:
            found |= {Key(ROUTER, router, router) for router in lsas.routers_of(lsa.record)}
    return found


def missing(live: list[Lsa]) -> list[str]:
    """Routers and networks that are named and have no live LSA."""
    there = {Key(lsa.kind, lsa.number, lsa.router if lsa.kind == ROUTER else 0) for lsa in live}
    return [f"{lsas.type_name(key.kind)} {lsas.spelled(key.number)}" for key in sorted(named(live) - there)]


def outranked(instances: dict[Key, list[Lsa]]) -> list[str]:
    """LSAs whose newest instance is withdrawn although a live one, which had not been seen before, came after it."""
    found = []
    for key, group in instances.items():
        first = lsas.newest(group)[0]
        place = group.index(first)
        before = {lsa.text for lsa in group[:place]}
        later = any(not lsa.withdrawn and lsa.text not in before for lsa in group[place:])
        if key.kind in (ROUTER, NETWORK) and first.withdrawn and later:
            found.append(lsas.key_text(key))
    return found


def counted(gathered: Gathered) -> list[str]:
    """What the capture held, and what was dropped."""
    counts = gathered.counts
    if not counts["frames"]:
        return []
    lines = [f"frames {counts['frames']}, OSPF packets {counts['packets']}, Link State Updates {counts['updates']}"]
    return lines + [f"dropped {number} {reason}" for reason, number in sorted(gathered.dropped.items())]


def packet_line(number: int, packet: Packet) -> str:
    """A packet with its number in the file, the router that sent it, and its LSAs."""
    names = []
    try:
        names += [lsas.key_text(lsa.key) for lsa in updates.records_of(packet)]
    except BadPacket as fault:
        names.append(str(fault))
    return f"packet {number}, sent by {lsas.spelled(packet.router)}: " + (", ".join(names) or "no LSA")


def packets_summary(written: list[Packet]) -> list[str]:
    """A line on each packet of the file, and one on the file."""
    size = sum(len(packet.data) for packet in written)
    lines = [packet_line(number, packet) for number, packet in enumerate(written)]
    return lines + [f"written: {len(written)} Link State Updates, {size} bytes"]


def summary(gathered: Gathered, area: int, written: list[Lsa]) -> list[str]:
    """What an operator should know of the area and of the file."""
    found = gathered.areas[area]
    instances = lsas.by_key(found)
    live = [lsa for lsa in newest_of_each(instances) if not lsa.withdrawn]
    kinds = Counter(key.kind for key in instances)
    routers, networks = (sum(lsa.kind == kind for lsa in live) for kind in (ROUTER, NETWORK))
    lines = [
        f"not taken: {len(gathered.areas[other])} LSAs of area {lsas.spelled(other)}"
        for other in sorted(gathered.areas)
        if other != area
    ]
    lines.append(
        f"area {lsas.spelled(area)}: {len(found)} copies of {len(instances)} LSAs: "
        + ", ".join(f"{number} {lsas.type_name(kind)}" for kind, number in sorted(kinds.items()))
    )
    lines.append(f"live: routers {routers}, networks {networks}")
    lines += [f"named, but not there: {name}" for name in missing(live)]
    whole = areas.area_of(live)
    lines += areas.one_way_lines(whole) + areas.no_link_lines(whole)
    lines += [
        f"flushed by an older copy that outranks a later live one: {name}; capture anew"
        for name in outranked(instances)
    ]
    lines.append(f"written: {len(written)} LSAs, {sum(len(lsa.record) for lsa in written)} bytes")
    return lines
