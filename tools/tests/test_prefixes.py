"""What a router installs for prefixes: that packets to one that hangs on one router, or on two, arrive wherever there is a
way, in a model of the kernels and over random networks."""
import os
import tempfile
import unittest
from ipaddress import IPv4Network
from itertools import combinations
from random import Random
from typing import Iterator, Sequence

from mrttools import area, lsas
from mrttools.area import Node
from mrttools.lab import failures
from mrttools.lab.failures import Failure
from mrttools.lab.network import Plan, owner, router_id
from mrttools.library import NO_COMMON_BLOCK, OwnRow, Pair, Step
from mrttools.lsas import ROUTER
from mrttools.program import Program
from mrttools.router import kernel
from mrttools.router.kernel import TABLES, Interfaces
from mrttools.router.nexthops import Ways
from mrttools.router.owners import Daemon
from mrttools.router.prefixes import Ends, Prefixes
from tests.making import MRT
from tests.networks import lsas_of, random_plan
from tests.test_fib import Route

CUSTOMER = "203.0.113.0/24"


class Customer:
    """A prefix that hangs on some routers of a network, and the kernels' routes to it."""

    def __init__(self, plan: Plan, owners: list[int], mrt: Program, found: list[lsas.Lsa]) -> None:
        self.plan, self.owners = plan, owners
        self.main: dict[int, list[Route]] = {router: [] for router in plan.routers}
        self.colored: dict[tuple[int, int], str] = {}
        self.told: set[str] = set()
        for router in plan.routers:
            ways = Ways(mrt, found, lsas.address(router_id(router)))
            whole = Prefixes(ways, Daemon(None, Interfaces(None)), True)
            attached = {1: IPv4Network(CUSTOMER)} if router in owners else {}
            for entry in whole.entries():
                if entry.prefix == CUSTOMER:
                    for text in kernel.routes_of(entry, Interfaces(None, attached), False, 0):
                        self.put(router, text)
            self.told |= {whole.told[CUSTOMER]} if CUSTOMER in whole.told else set()

    def put(self, router: int, text: str) -> None:
        words = text.split()
        gateway = words[words.index("via") + 1] if "via" in words else ""
        if "table" in words:
            self.colored[router, TABLES.index(int(words[words.index("table") + 1]))] = gateway
        else:
            color = kernel.REALMS.index(int(words[words.index("realm") + 1])) if "realm" in words else None
            self.main[router].append(Route(int(words[words.index("metric") + 1]), gateway, color))

    def step(self, at: int, color: int | None, down: set[str], cut: int) -> tuple[int | None, str] | None:
        """The color and the next hop after a router; an empty one is the customer. `cut` has no port to it."""

        def up(gateway: str) -> bool:
            net = gateway.rsplit(".", 1)[0]
            return at != cut if not gateway else not any(net == self.plan.wires[int(one)].net for one in down)

        if color is not None:
            gateway = self.colored.get((at, color))
            return None if gateway is None or not up(gateway) else (color, gateway)
        if at in self.owners and at != cut:
            return None, ""
        return next(((each.color, each.gateway) for each in sorted(self.main[at]) if up(each.gateway)), None)

    def arrives(self, source: int, failure: Failure, cut: int) -> bool:
        at, color, down = source, None, {name.split("-")[0][1:] for name in failure.ports}
        for _ in range(4 * len(self.plan.routers)):
            step = self.step(at, color, down, cut)
            if step is None or step[1] == "":
                return step is not None
            color, at = step[0], owner(step[1])
            if at == failure.router:
                return False
        return False

    def reaches(self, source: int, failure: Failure, cut: int, owners: list[int]) -> bool:
        """Whether there is any way to one of these."""
        down = {int(name.split("-")[0][1:]) for name in failure.ports}
        found, waiting = {source}, [source]
        while waiting:
            at = waiting.pop()
            for number, wire in enumerate(self.plan.wires):
                if at in wire.metrics and number not in down:
                    waiting += [one for one in wire.metrics if one not in found]
                    found |= set(wire.metrics)
        return any(one in found and one not in (cut, failure.router) for one in owners)


@unittest.skipUnless(os.path.exists(MRT), "the program is not built")
class Customers(unittest.TestCase):
    """A packet to a prefix of one router, or of two of one block, arrives wherever there is a way, whatever one thing
    failed."""

    def customer(self, plan: Plan, owners: list[int], random: Random) -> Customer:
        stubs = {router: [("203.0.113.0", "255.255.255.0", 3, random.randint(1, 9))] for router in owners}
        with tempfile.NamedTemporaryFile() as file:
            file.write(lsas_of(plan, stubs))
            file.flush()
            mrt = Program(MRT, file.name, "-")
            return Customer(plan, owners, mrt, list(lsas.split(lsas_of(plan, stubs))))

    def check(self, plan: Plan, customer: Customer, by: list[int] | None = None) -> None:
        """Where it goes by two of several, a packet may arrive at another one as well."""
        none = Failure("none", "", [], 0, [])
        cuts = [(none, one) for one in customer.owners]
        for failure, cut in [(each, 0) for each in failures.failures(plan)] + cuts:
            for source in set(plan.routers) - {failure.router}:
                wanted = customer.reaches(source, failure, cut, by or customer.owners)
                arrived = customer.arrives(source, failure, cut)
                fits = arrived == wanted or (by is not None and arrived)
                self.assertTrue(fits, (plan, customer.owners, failure, source, cut))

    def test_of_one_router(self) -> None:
        random = Random(8)
        for _ in range(2):
            plan = random_plan(random, 1)
            self.check(plan, self.customer(plan, [random.choice(plan.routers)], random))

    def test_of_two_routers(self) -> None:
        random, seen = Random(7), 0
        while seen < 2:
            plan = random_plan(random, 1)
            customer = self.customer(plan, random.sample(plan.routers, 2), random)
            if all(" and " in line for line in customer.told):
                self.assertEqual(len(customer.told), 1)
                self.check(plan, customer)
                seen += 1

    def test_of_three_routers(self) -> None:
        """One may be the nearest by whose rows it does not go."""
        random, seen = Random(5), 0
        while seen < 2:
            plan = random_plan(random, 1)
            customer = self.customer(plan, random.sample(plan.routers, 3), random)
            if all(" and " in line for line in customer.told):
                words = customer.told.pop().split()
                self.check(plan, customer, [owner(words[1]), owner(words[3])])
                seen += 1


class Alone(Program):
    """The program without the library."""

    def __init__(self, path: str, database: str, profile: str) -> None:
        super().__init__(path, database, profile)
        self.library = None
        self.asked = 0

    def many(self, command: str, each: Sequence[tuple[str, ...]], untold: int) -> Iterator[tuple[int, bytes | None]]:
        self.asked += len(each)
        return super().many(command, each, untold)


class Telling(Alone):
    """The same with the router's own rows, as the library gives them, read from the rows of all."""

    def own_rows(self, router: Node, pairs: Sequence[Pair]) -> dict[Pair, OwnRow | None]:
        words = [(router.text, one.text, other.text) for one, other in pairs]
        texts = super().many("proxy", words, NO_COMMON_BLOCK)
        self.asked = 0
        return {pairs[place]: self.own_row(router, text) if text else None for place, text in texts}

    def own_row(self, router: Node, text: bytes) -> OwnRow:
        rows = (line.split() for line in text.decode().splitlines())
        words = next(row for row in rows if row[0] == router.text)
        return self.step(words[2]), self.step(words[4])

    def step(self, word: str) -> Step:
        far, _, data = word.partition("/")
        return (area.node_of(far), lsas.address(data)) if data else None


@unittest.skipUnless(os.path.exists(MRT), "the program is not built")
class OwnRows(unittest.TestCase):
    """What there is for two routers is the same by the router's own rows, as far as they tell, and by those of all;
    also where the library is there, which gives own rows."""

    def found(self, mrt: Program, plan: Plan, router: int) -> dict[Ends, object]:
        ways = Ways(mrt, list(lsas.split(lsas_of(plan))), lsas.address(router_id(router)))
        routers = [node for node in ways.certificate.nodes if node.kind == ROUTER]
        pairs = enumerate(combinations(routers, 2))
        ends = [(one, other, routers[place % len(routers)]) for place, (one, other) in pairs]
        found = Prefixes(ways, Daemon(None, Interfaces(None)), True).proxied(ends)
        self.assertEqual(set(found), set(ends))
        return {each: (str(it.unfit), it.hops, it.repairs) if it else None for each, it in found.items()}

    def test_by_own_rows_and_by_those_of_all(self) -> None:
        random, every, asked = Random(9), 0, 0
        for _ in range(4):
            plan = random_plan(random, 2)
            with tempfile.NamedTemporaryFile() as file:
                file.write(lsas_of(plan))
                file.flush()
                for router in plan.routers:
                    alone, telling = (kind(MRT, file.name, "-") for kind in (Alone, Telling))
                    wanted = self.found(alone, plan, router)
                    self.assertEqual(self.found(telling, plan, router), wanted, (plan, router))
                    self.assertEqual(self.found(Program(MRT, file.name, "-"), plan, router), wanted, (plan, router))
                    every, asked = every + alone.asked, asked + telling.asked
        self.assertTrue(0 < asked < every / 2, (asked, every))


if __name__ == "__main__":
    unittest.main()
