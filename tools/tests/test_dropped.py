"""By what the lab's pings were lost: captures of all wires that are made here, and what kernels told."""
import struct
import tempfile
import unittest
from datetime import datetime
from unittest import mock

from mrttools.lab import dropped
from mrttools.lab.dropped import AGENTS, DAEMONS, FAILURE, OTHER, SECOND, Down, Happened, Judge, Kernel, Lost
from mrttools.lab.network import PLAN
from mrttools.lab.pings import Counted
from mrttools.lab.running_network import LabFault
from mrttools.router.kernel import POOL, TABLES

START = 1_800_000_000.0
# The lab's wires by their routers.
WIRES = {frozenset(wire.metrics): number for number, wire in enumerate(PLAN.wires)}
NUMBERS = {
    (wire, router): struct.pack(">I", 10 * wire + router + 1000)
    for wire, each in enumerate(PLAN.wires)
    for router in each.metrics
}
PORTS = {number: end for end, number in NUMBERS.items()}


class Made:
    """A capture."""

    def __init__(self) -> None:
        self.data = struct.pack("<IHHiIII", 0xA1B2C3D4, 2, 4, 0, 0, dropped.LENGTH, 276)

    def hop(self, at: float, ends: tuple[int, int], ping: tuple[int, int, int], **more: int) -> None:
        """A packet that the first of two routers sends and the second gets, if it arrives. A ping is its source, target and
        number."""
        wire = WIRES[frozenset(ends)]
        source, target, number = ping
        is_reply = more.get("reply", 0)
        one, other = (target, source) if is_reply else (source, target)
        service = POOL[more["color"]] << 2 if "color" in more else 0
        for router, direction in ((ends[0], 3), (ends[1], 4))[: more.get("seen", 2)]:
            cooked = struct.pack(">HH4sHBB8x", 0x0800, 0, NUMBERS[wire, router], 1, direction, 6)
            ip = struct.pack(">BBHHHBBH4s4s", 0x45, service, 84, 0, 0, more.get("ttl", 60), 1, 0, home(one), home(other))
            echo = struct.pack(">BBHHH", 0 if is_reply else 8, 0, 0, 7, number)
            frame = (cooked + ip + echo).ljust(dropped.LENGTH, b"x")
            self.data += struct.pack("<IIII", int(at), round(at % 1 * 1e6), dropped.LENGTH, 104) + frame

    def there_and_back(self, at: float, ends: tuple[int, int], ping: tuple[int, int, int]) -> None:
        self.hop(at, ends, ping)
        self.hop(at + 0.001, ends[::-1], ping, reply=1)


def home(router: int) -> bytes:
    return bytes([10, 255, 0, router])


def told(*events: tuple[float, str]) -> str:
    """What `ip monitor` prints of routes."""
    return "".join(f"[{datetime.fromtimestamp(START + at).isoformat(timespec='microseconds')}] {line}\n" for at, line in events)


ROW = f"10.255.0.4 via 10.0.23.3 dev to-r3 table {TABLES[6]} proto 78 "
REPAIR = "10.255.0.4 via 10.0.23.3 dev to-r3 proto 78 metric 3355443230 realm 107 "
ROUTE = "10.255.0.4 via 10.0.25.5 dev to-r5 proto 188 metric 20 "


class Causes(unittest.TestCase):
    """A ping from r1 to r4, which r2 has last."""

    def judged(self, made: Made, kernel: Kernel, *down: Down, lost: int = 1) -> Lost:
        kernels = {router: Kernel("", "") for router in PLAN.routers} | {2: kernel}
        judge = Judge(mock.Mock(plan=PLAN), kernels, Happened(list(down), {}))
        found = judge.all(made.data, PORTS, Counted({(1, 4): lost}, 9, 9, 9, 0))
        self.assertEqual(len(found), 1)
        return found[0]

    def at_r2(self, kernel: Kernel, *down: Down, **more: int) -> Lost:
        made = Made()
        made.there_and_back(START + 4.9, (1, 2), (1, 2, 1))
        made.hop(START + 5, (1, 2), (1, 4, 2), **more)
        return self.judged(made, kernel, *down)

    def down(self, one: int, other: int, since: float = 0, until: float = float("inf")) -> list[Down]:
        wire = WIRES[frozenset((one, other))]
        return [Down(f"p{wire}-{end}", START + since, START + until) for end in (one, other)]

    def test_a_wire_that_goes_down(self) -> None:
        """On its way on it, or at its end before that is seen."""
        found = self.at_r2(Kernel("", ""), seen=1)
        self.assertEqual((found.cause, found.router), (FAILURE, 1))
        for since, cause in ((4.99, FAILURE), (4.5, DAEMONS)):
            found = self.at_r2(Kernel("", ""), *self.down(2, 3, since))
            self.assertEqual((found.cause, found.router, found.color), (cause, 2, None))

    def test_the_daemons(self) -> None:
        """A router has no route, or routers send a packet round."""
        found = self.at_r2(Kernel("", told((4.8, f"Deleted {ROUTE}"))))
        self.assertEqual((found.cause, found.why), (DAEMONS, f"0.200 s after the end of {ROUTE.strip()}"))
        self.assertEqual(self.at_r2(Kernel("", ""), ttl=1).cause, DAEMONS)

    def test_a_circle_on_a_color_is_the_agents(self) -> None:
        """And one by a primary of theirs, where the daemon has none."""
        self.assertEqual(self.at_r2(Kernel(ROW, ""), ttl=1, color=6).cause, AGENTS)
        ours = ROUTE.replace("188 metric 20", "78 metric 3355443220")
        for had, down, cause in (
            (ROUTE, self.down(1, 6), DAEMONS),
            (ROUTE + "\n" + ours, self.down(1, 6), DAEMONS),
            (ours, self.down(1, 6), AGENTS),
            (ROUTE + "\n" + ours.replace("to-r5", "to-r3"), self.down(2, 5), AGENTS),
        ):
            found = self.at_r2(Kernel(had, ""), *down, ttl=1)
            self.assertEqual((found.cause, found.why.split(" by ")[0].rstrip(",")), (cause, "in a circle of r1, r2"))
        # (a second failure of late has no table that is right, one long ago and a router with all its links are none)
        for late, cause in ((3.0, SECOND), (-20.0, AGENTS), (4.0, AGENTS)):
            down = self.down(2, 5, 4) + self.down(2, 3, late)
            found = self.at_r2(Kernel(ROUTE + "\n" + ours.replace("to-r5", "to-r1"), ""), *down, ttl=1)
            self.assertEqual(found.cause, cause, late)

    def test_a_color_that_meets_a_second_failure(self) -> None:
        """There is a row all the time, over a link that has no carrier."""
        found = self.at_r2(Kernel(ROW, ""), *self.down(2, 3, 1), color=6)
        self.assertEqual((found.cause, found.color), (SECOND, 6))
        # (with a carrier there is something else)
        others: list[list[Down]] = [[], self.down(2, 3, 1, 2), self.down(2, 5, 1)]
        for down in others:
            self.assertEqual(self.at_r2(Kernel(ROW, ""), *down, color=6).cause, OTHER)

    def test_a_color_without_a_row_is_the_agents(self) -> None:
        """It never was there, is gone, comes too late, is of another color or prefix; a failed link is no excuse."""
        for kernel in (
            Kernel("", ""),
            Kernel(ROW, told((4, f"Deleted {ROW}"))),
            Kernel(ROW, told((5.02, f"Deleted {ROW}"))),
            Kernel("", told((5.2, ROW))),
            Kernel(ROW.replace(str(TABLES[6]), str(TABLES[7])), ""),
            Kernel(ROW.replace("10.255.0.4", "10.255.0.5"), ""),
            Kernel(f"7 default table {TABLES[6]} proto 78 metric 4294967295", ""),
        ):
            self.assertEqual(self.at_r2(kernel, *self.down(2, 3, 1), color=6).cause, AGENTS)
        came_back = Kernel(ROW, told((4, f"Deleted {ROW}"), (4.5, ROW)))
        self.assertEqual(self.at_r2(came_back, *self.down(2, 3, 1), color=6).cause, SECOND)

    def test_a_color_of_a_router_whose_daemon_has_begun_anew(self) -> None:
        """Without its agent, which has the table from before, it has no way either as long as the daemon has put none there.
        A daemon that lost its route, or had one since, and one of another router are no such."""
        gone = (4.2, f"Deleted {ROUTE}")
        cases: list[tuple[str, list[tuple[float, str]], dict[int, float], str]] = [
            (REPAIR, [], {2: 4.0}, DAEMONS),
            (f"{ROUTE}\n{REPAIR}", [gone], {2: 4.0}, DAEMONS),
            (f"{ROUTE}\n{REPAIR}", [gone], {}, AGENTS),
            (f"{ROUTE}\n{REPAIR}", [gone], {1: 4.0, 5: 4.0}, AGENTS),
            (f"{ROUTE}\n{REPAIR}", [gone], {2: 5.1}, AGENTS),
            (REPAIR, [(4.1, ROUTE), gone], {2: 4.0}, AGENTS),
            (f"{ROUTE}\n{REPAIR}", [], {2: 4.0}, AGENTS),
        ]
        for had, events, anew, cause in cases:
            made = Made()
            made.hop(START + 5, (1, 2), (1, 4, 2))
            made.hop(START + 5.001, (2, 5), (1, 4, 2), color=6)
            kernels = {router: Kernel("", "") for router in PLAN.routers} | {2: Kernel(had, told(*events))}
            happened = Happened([], {router: START + at for router, at in anew.items()})
            (found,) = Judge(mock.Mock(plan=PLAN), kernels, happened).all(made.data, PORTS, Counted({(1, 4): 1}, 9, 9, 9, 0))
            self.assertEqual((found.router, found.color, found.cause), (5, 6, cause), (events, anew))

    def test_a_repair_that_is_taken_away(self) -> None:
        """By an agent, a moment ago, or as the only way that there was."""
        gone = (4.0, f"Deleted {ROUTE}")
        cases: list[tuple[list[tuple[float, str]], str]] = [
            ([gone, (4.9, f"Deleted {REPAIR}")], AGENTS),
            ([gone, (4.5, f"Deleted {REPAIR}")], AGENTS),
            ([(-20.0, f"Deleted {REPAIR}"), gone], DAEMONS),
            ([(-20.0, f"Deleted {ROUTE}"), (-15.0, f"Deleted {REPAIR}")], AGENTS),
            ([gone, (4.5, f"Deleted {REPAIR}"), (4.6, REPAIR)], DAEMONS),
        ]
        for events, cause in cases:
            self.assertEqual(self.at_r2(Kernel(ROUTE + "\n" + REPAIR, told(*events))).cause, cause, events)
        # (a way over a link without a carrier is none)
        taken = Kernel(ROUTE + "\n" + REPAIR, told((-15, f"Deleted {REPAIR}")))
        self.assertEqual(self.at_r2(taken, *self.down(2, 5, -16)).cause, AGENTS)
        self.assertEqual(self.at_r2(taken, *self.down(2, 5, -14)).cause, DAEMONS)

    def test_an_answer(self) -> None:
        """It is lost on its way back, or where the ping has arrived."""
        made = Made()
        for place, ends in enumerate(((1, 2), (2, 5), (5, 4))):
            made.hop(START + 5 + place / 100, ends, (1, 4, 2))
        for place, ends in enumerate(((4, 5), (5, 2)), 3):
            made.hop(START + 5 + place / 100, ends, (1, 4, 2), reply=1, color=6)
        row = ROW.replace("10.255.0.4", "10.255.0.1")
        found = self.judged(made, Kernel(row, ""), *self.down(2, 3, 1))
        self.assertEqual((found.is_reply, found.router, found.cause), (True, 2, SECOND))
        made = Made()
        made.hop(START + 5, (5, 4), (1, 4, 2), color=6)
        found = self.judged(made, Kernel("", ""))
        self.assertEqual((found.is_reply, found.router, found.color, found.cause), (True, 4, None, DAEMONS))

    def test_a_ping_that_no_wire_had(self) -> None:
        """When it was to be sent is told by those before and after it."""
        made = Made()
        for place in range(10):
            if place != 6:
                made.there_and_back(START + place, (1, 2), (1, 4, place))
        # (the answers come from r2's wire to r1, so that they are back)
        found = self.judged(made, Kernel("", ""))
        self.assertEqual((found.router, found.cause, round(found.at - START, 3)), (1, DAEMONS, 6))
        found = self.judged(made, Kernel("", ""), *self.down(1, 2, 5.9))
        self.assertEqual(found.cause, FAILURE)

    def test_all_that_came_back_is_none(self) -> None:
        made = Made()
        for place in range(10):
            made.there_and_back(START + place, (1, 2), (1, 4, place))
        judge = Judge(mock.Mock(plan=PLAN), {}, Happened([], {}))
        self.assertEqual(judge.all(made.data, PORTS, Counted({(1, 4): 0}, 9, 9, 9, 0)), [])
        # (one that was counted as lost, and came late)
        (late,) = judge.all(made.data, PORTS, Counted({(1, 4): 1}, 9, 9, 9, 0))
        self.assertEqual(late.cause, OTHER)

    def test_a_capture_that_lacks_packets(self) -> None:
        """It says nothing of what was lost."""
        with tempfile.TemporaryDirectory() as folder:
            watch = dropped.Watch.__new__(dropped.Watch)
            watch.network, watch.folder, watch.running, watch.had = mock.Mock(plan=PLAN), folder, [], {}
            counted = Counted({(1, 4): 0}, 9, 9, 9, 0)
            with mock.patch.multiple(dropped, WRITTEN=0, ports_of=lambda _: PORTS):
                for number, is_whole in ((0, True), (12, False)):
                    with open(watch.name("pcap"), "wb") as file:
                        file.write(Made().data)
                    with open(watch.name("tcpdump.log"), "w", encoding="ascii") as log:
                        log.write(f"90 packets captured\n90 packets received by filter\n{number} packets dropped by kernel\n")
                    if is_whole:
                        self.assertEqual(watch.end(Happened([], {}), counted), [])
                        continue
                    with self.assertRaisesRegex(LabFault, "12 packets were not captured"):
                        watch.end(Happened([], {}), counted)

    def test_sums(self) -> None:
        lost = [Lost(1, 1, 4, False, 2, None, cause, "") for cause in (AGENTS, DAEMONS, DAEMONS)]
        self.assertEqual(dict(dropped.sums(lost)), {FAILURE: 0, DAEMONS: 2, SECOND: 0, AGENTS: 1, OTHER: 0})


if __name__ == "__main__":
    unittest.main()
