"""What is promised while routers have tables of two certificates: a model of all routers, each somewhere on its way from
the one to the other, with anything failed."""
import os
import re
import tempfile
import unittest
from ipaddress import IPv4Network
from random import Random
from typing import NamedTuple
from unittest import mock

from mrttools import lsas
from mrttools.agent import batch, generations
from mrttools.agent.batch import NOTHING, State
from mrttools.agent.generations import KEPT, PAUSE, TURN, Generations, Made
from mrttools.lab import failures
from mrttools.lab.network import Plan, owner, router_id
from mrttools.program import Program
from mrttools.router import kernel, table
from mrttools.router.kernel import Interfaces
from mrttools.router.nexthops import Ways
from mrttools.router.owners import Daemon
from mrttools.router.table import TableOptions
from tests.kernels import ModelKernel
from tests.making import MRT
from tests.networks import lsas_of, random_plan
from tests.test_prefixes import CUSTOMER

LINGER = 30.0
Stubs = dict[int, list[tuple[str, str, int, int]]]


def customer(owners: list[int], random: Random) -> Stubs:
    """A prefix that some routers have."""
    return {router: [("203.0.113.0", "255.255.255.0", 3, random.randint(1, 9))] for router in owners}


def made_of(plan: Plan, stubs: Stubs, profile: str, router: int) -> Made:
    """What a router makes of an area."""
    with tempfile.NamedTemporaryFile() as file:
        file.write(lsas_of(plan, stubs))
        file.flush()
        ways = Ways(
            Program(MRT, file.name, profile), list(lsas.split(lsas_of(plan, stubs))), lsas.address(router_id(router))
        )
        attached = {1: IPv4Network(CUSTOMER)} if router in stubs else {}
        found = table.table_of(ways, Daemon(None, Interfaces(None, attached)), TableOptions(True, True, True, kernel.POOL))
    owners = {entry.prefix: entry.owners for entry in found.entries}
    return Made(table.digest_of(ways.certified), found.generation, batch.state_of(found.routes), owners)


def course(old: Made, new: Made, lost_link: bool) -> list[list[State]]:
    """All that a kernel has on the way from one table to another, line by line; what it has before a pause is over, and
    after, if there is one."""
    held = Generations(LINGER)
    held.take(old, NOTHING, False, 0)
    router = ModelKernel(held.state(0))
    states: list[list[State]] = [[router.state()], []]
    held.take(new, router.state(), lost_link, 100)
    over = max(held.held.values(), default=1000.0)
    for after in (0, TURN, KEPT, KEPT + PAUSE, LINGER + 1):
        # (a pause is over for all routers at once, as far as this is promised)
        late = 100 + after >= over
        for line in batch.changes(router.state(), held.state(100 + after)):
            router.batch([line])
            states[late].append(router.state())
    return [states[0], [states[0][-1], *states[1]]] if states[1] else [states[0]]


def course_over(tables: list[Made], passes: list[int], tells: bool) -> list[list[State]]:
    """All that a kernel has on the way over several tables that come a second apart, of which it makes some, at the moment
    of the last one; before that may be in the kernels of all, and after. It is told of those that it skips, or not."""
    held = Generations(LINGER)
    held.take(tables[0], NOTHING, False, 0)
    router = ModelKernel(held.state(0))
    start, states = 100.0, [router.state()]
    for place, made in enumerate(tables[1:], 1):
        if place not in passes and place < len(tables) - 1:
            if tells:
                held.skip(start + place, made.generation, made.digest)
            continue
        held.take(made, router.state(), False, start + place)
        states = moved(router, held, start + place)
    last = start + len(tables) - 1
    early = [*states, *moved(router, held, last + TURN), *moved(router, held, last + KEPT)]
    return [early, [early[-1], *moved(router, held, last + KEPT + PAUSE), *moved(router, held, last + LINGER + 1)]]


def moved(router: ModelKernel, held: Generations, now: float) -> list[State]:
    """What a kernel has on its way to what it is to have."""
    found = [router.state()]
    for line in batch.changes(router.state(), held.state(now)):
        router.batch([line])
        found.append(router.state())
    return found


class Marked(NamedTuple):
    """What the marks of nft and the rules do: the table that a next router looks into, by the realm of a repair."""

    tables: dict[str, str]

    @classmethod
    def of(cls, nft: str) -> "Marked":
        written = dict(re.findall(r"rt classid & 0xffff == (\d+) counter ip dscp set (\d+)", nft))
        read = dict(re.findall(r"ip dscp (\d+) meta mark set meta mark & 0xe0ffffff \| (0x[0-9a-f]+)", nft))
        looked = dict(re.findall(r"fwmark (0x[0-9a-f]+)/0x1f000000 lookup (\d+)", "\n".join(batch.RULES)))
        return cls({realm: looked[read[point]] for realm, point in written.items()})


class World:
    """All routers, with the routes that each has, and what has failed."""

    def __init__(self, plan: Plan, states: dict[int, State], down: set[str]) -> None:
        self.plan, self.down = plan, down
        self.rows: dict[tuple[int, str, str], str] = {}
        self.repairs: list[tuple[int, str, str, str]] = []
        for router, state in states.items():
            for line in state:
                words = line.split(" ")
                prefix, gateway = batch.prefix_of(line), words[words.index("via") + 1] if "via" in words else ""
                if "table" in words and words[1] != "unreachable" and words[0] == "route":
                    self.rows[router, words[words.index("table") + 1], prefix] = gateway
                elif "realm" in words:
                    self.repairs.append((router, prefix, gateway, words[words.index("realm") + 1]))

    def is_up(self, at: int, gateway: str) -> bool:
        net = gateway.rsplit(".", 1)[0]
        wires = [number for number, wire in enumerate(self.plan.wires) if wire.net == net and at in wire.metrics]
        return any(not {failures.port(wire, at), failures.port(wire, owner(gateway))} & self.down for wire in wires)

    def circles(self, marked: Marked) -> list[tuple[int, str, list[int]]]:
        """The packets on a color that meet a router twice, of all that any repair puts on one."""
        found = []
        for router, prefix, gateway, realm in self.repairs:
            at, met, looked = router, [router], marked.tables[realm]
            while gateway and self.is_up(at, gateway):
                at = owner(gateway)
                met.append(at)
                if len(set(met)) < len(met):
                    found.append((router, prefix, met))
                    break
                gateway = self.rows.get((at, looked, prefix), "")
        return found


def other_plan(plan: Plan, random: Random) -> Plan:
    """The same routers with a link that goes, or other metrics."""
    wires = list(plan.wires)
    if random.random() < 0.6:
        wires.pop(random.randrange(len(wires)))
    place = random.randrange(len(wires))
    wires[place] = wires[place]._replace(metrics={router: random.randint(1, 9) for router in wires[place].metrics})
    return plan._replace(wires=wires)


@unittest.skipUnless(os.path.exists(MRT), "the program is not built")
class WhileRoutersDiffer(unittest.TestCase):
    def tables(self, plan: Plan, stubs: Stubs, root: int) -> dict[int, Made]:
        with tempfile.NamedTemporaryFile("w") as profile:
            profile.write(f"priority {router_id(root)} 1\n")
            profile.flush()
            return {router: made_of(plan, stubs, profile.name, router) for router in plan.routers}

    def mixtures(self, plan: Plan, old: dict[int, Made], new: dict[int, Made], random: Random) -> tuple[int, int]:
        """How many packets on colors met a router twice, and how many worlds had repairs of two certificates."""
        marked, circles, mixed = Marked.of(kernel.marking(kernel.POOL, set())), 0, 0
        ways = {router: course(old[router], new[router], random.random() < 0.3) for router in old}
        ports = [failures.port(number, router) for number, wire in enumerate(plan.wires) for router in wire.metrics]
        for _ in range(30):
            part = random.randrange(2)
            states = {router: random.choice(way[min(part, len(way) - 1)]) for router, way in ways.items()}
            if random.random() < 0.2:
                states[random.choice(plan.routers)] = batch.bare()
            down = set(random.sample(ports, random.randint(0, 3)))
            circles += len(World(plan, states, down).circles(marked))
            lines = (line for state in states.values() for line in state if generations.is_of_color(line))
            mixed += len({generations.generation_of(line) for line in lines}) > 1
        return circles, mixed

    def pair(self, random: Random) -> tuple[Plan, dict[int, Made], dict[int, Made]]:
        plan = random_plan(random, 3)
        stubs = customer(random.sample(plan.routers, 2), random)
        old, root = self.tables(plan, stubs, random.choice(plan.routers)), random.choice(plan.routers)
        return plan, old, self.tables(other_plan(plan, random), stubs, root)

    def test_two_generations(self) -> None:
        """No packet on a color meets a router twice, wherever each router is on its way."""
        random, seen = Random(79), 0
        while seen < 120:
            plan, old, new = self.pair(random)
            if {each.generation for each in old.values()} == {each.generation for each in new.values()}:
                continue
            circles, mixed = self.mixtures(plan, old, new, random)
            self.assertEqual(circles, 0)
            seen += mixed

    def test_one_generation_of_two_certificates(self) -> None:
        """None either, with a pause that is over for all at once: so it is needed."""
        random = Random(80)
        with mock.patch.object(table, "generation_of", lambda *_: 3):
            for _ in range(4):
                plan, old, new = self.pair(random)
                self.assertEqual(self.mixtures(plan, old, new, random)[0], 0)

    def test_without_generations_packets_circle(self) -> None:
        """So this sees circles where there are some."""
        random, circles = Random(81), 0
        with mock.patch.object(table, "generation_of", lambda *_: 3), mock.patch.object(
            Generations, "clashes", lambda *_: False
        ):
            for _ in range(8):
                circles += self.mixtures(*self.pair(random), random)[0]
        self.assertGreater(circles, 0)

    def skipping(self, random: Random, tells: bool, phase: int) -> int:
        """How many packets met a router twice where three or four certificates came, the last two or three of one
        generation, and some routers skipped some of them: before the old rows are gone at those that had them, or after."""
        plan = random_plan(random, 3)
        count, root = random.choice((3, 4)), random.choice(plan.routers)
        plans = [plan]
        while len(plans) < count:
            plans.append(other_plan(plan, random))
        tables = []
        for place, each in enumerate(plans):
            with mock.patch.object(table, "generation_of", lambda *_, place=place: 3 if place else 5):
                tables.append(self.tables(each, customer([1], Random(1)), root))
        marked, circles = Marked.of(kernel.marking(kernel.POOL, set())), 0
        ways = {}
        for router in plan.routers:
            passes = [place for place in range(1, count - 1) if random.random() < 0.5]
            ways[router] = course_over([each[router] for each in tables], passes, tells)
        ports = [failures.port(number, router) for number, wire in enumerate(plan.wires) for router in wire.metrics]
        for _ in range(30):
            states = {}
            for router, (early, late) in ways.items():
                # (when all have taken away what was in the way there are still those that skipped it)
                states[router] = random.choice(late if phase else early)
            down = set(random.sample(ports, random.randint(0, 3)))
            circles += len(World(plan, states, down).circles(marked))
        return circles

    def test_a_router_that_skips_certificates(self) -> None:
        """One or two of one generation, that came as one with the next: where a router looks at what it has skipped no packet
        circles."""
        random = Random(83)
        for _ in range(8):
            for phase in (0, 1):
                self.assertEqual(self.skipping(random, True, phase), 0)

    def test_a_router_that_does_not_know_what_it_skips(self) -> None:
        """Packets may circle until the others have taken away what was in the way, and not after that."""
        random = Random(84)
        self.assertGreater(sum(self.skipping(random, False, 0) for _ in range(8)), 0)
        self.assertEqual(sum(self.skipping(random, False, 1) for _ in range(8)), 0)

    def test_a_prefix_moves_under_one_certificate(self) -> None:
        random, moved = Random(82), 0
        for _ in range(4):
            plan = random_plan(random, 1)
            tables = [self.tables(plan, customer([router], random), 1) for router in random.sample(plan.routers, 2)]
            old, new = tables
            moved += sum(CUSTOMER in new[router].moved_from(old[router]) for router in plan.routers)
            self.assertEqual(self.mixtures(plan, old, new, random)[0], 0)
        self.assertGreater(moved, 8)


if __name__ == "__main__":
    unittest.main()
