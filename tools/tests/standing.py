"""An agent with a kernel, a source of LSAs and a clock that stand in, for its tests."""
import argparse
import contextlib
import io
import json
import os
import subprocess
import tempfile
import unittest
from typing import Callable, Iterable
from unittest import mock

from mrttools import lsas
from mrttools.agent import batch, generations
from mrttools.agent.batch import NOTHING, State
from mrttools.agent.loop import Agent
from mrttools.agent.settings import Settings
from mrttools.agent.sources import Snapshot
from mrttools.agent.surroundings import Surroundings
from mrttools.lab.network import router_id
from mrttools.lsas import Lsa, address, split
from mrttools.router import kernel
from mrttools.router.kernel import Interfaces
from tests.kernels import PLAN, ModelKernel
from tests.making import MRT, TOOLS, router_lsa
from tests.networks import lsas_of

LINGER = 30.0


class Stand:
    """A source of LSAs."""

    def __init__(self) -> None:
        self.snapshot = Snapshot(list(split(lsas_of(PLAN))))

    def name(self) -> str:
        return "a test"

    def filenos(self) -> list[int]:
        return []

    def look(self, now: float, interfaces: Interfaces) -> Snapshot:
        return self.snapshot

    def next(self, now: float) -> float:
        return now + 60


class Place:
    """A folder of settings as the kernel has it."""

    def __init__(self, folder: str) -> None:
        self.root, self.kept = os.path.join(folder, "net"), os.path.join(folder, "settings.json")
        for device in ("all", "default", "lo", "customer", *(each.name for each in PLAN.interfaces(1))):
            os.makedirs(os.path.join(self.root, "conf", device))
            for name, value in (("rp_filter", "1"), ("send_redirects", "1"), ("accept_local", "0")):
                self.write(f"conf/{device}/{name}", value)
            self.write(f"conf/{device}/ignore_routes_with_linkdown", "0")
        self.write("ip_forward", "0")

    def write(self, name: str, value: str) -> None:
        with open(os.path.join(self.root, name), "w", encoding="ascii") as file:
            file.write(value)

    def read(self) -> dict[str, str]:
        found = {}
        for folder, _, names in os.walk(self.root):
            for name in names:
                with open(os.path.join(folder, name), encoding="ascii") as file:
                    found[os.path.relpath(os.path.join(folder, name), self.root)] = file.read()
        return found


def told_links(lsa: Lsa) -> list[tuple[str, str, int, int]]:
    """The links of a router-LSA, as `router_lsa` takes them."""
    return [
        (lsas.spelled(each.far), lsas.spelled(each.data), each.kind, each.metric)
        for each in lsas.links_of(lsa.record)
    ]


class WithAgent(unittest.TestCase):
    """The agent of router 1 in a square with both diagonals."""

    def setUp(self) -> None:
        place = tempfile.TemporaryDirectory()
        self.addCleanup(place.cleanup)
        self.folder = place.name
        self.router, self.source, self.now = ModelKernel(NOTHING), Stand(), 1000.0
        self.place = Place(place.name)
        self.told: list[str] = []
        self.out: list[str] = []
        self.write_profile(4)

    def name(self, last: str) -> str:
        return os.path.join(self.folder, last)

    def write_profile(self, root: int, text: str = "") -> None:
        with open(self.name("profile"), "w", encoding="ascii") as file:
            file.write(text or f"priority {router_id(root)} 1\n")

    def agent(self, **more: object) -> Agent:
        said = {
            "mrt": MRT,
            "daemon": "frr",
            "profile": self.name("profile"),
            "router": address("10.255.0.1"),
            "folder": self.folder,
            "area": 0,
            "prefixes": False,
            "dscp": kernel.POOL,
            "quiet": 0.2,
            "linger": LINGER,
            "strict": False,
            "dry_run": False,
        }
        settings = Settings(self.place.kept, self.place.root)
        surroundings = Surroundings(self.router, self.source, settings, lambda sources, seconds: None, lambda: self.now)
        agent = Agent(argparse.Namespace(**said | more), surroundings)
        self.quietly(lambda: agent.begin(self.now))
        # (what others had of late is no matter here)
        agent.knows = True
        return agent

    def quietly(self, work: Callable[[], object]) -> list[str]:
        """The lines of some work on standard output. What goes to standard error is kept."""
        out, err = io.StringIO(), io.BytesIO()
        with contextlib.redirect_stdout(out), contextlib.redirect_stderr(io.TextIOWrapper(err, write_through=True)):
            work()
            self.told += err.getvalue().decode().splitlines()
        self.out += out.getvalue().splitlines()
        return out.getvalue().splitlines()

    def stands(self, name: str, value: object) -> None:
        """Has something stand in for a call of the kernel."""
        self.enterContext(mock.patch.object(self.router, name, value))

    def step(self, agent: Agent, *after: float) -> list[str]:
        """Looks now, and after so many seconds each."""
        lines = self.quietly(agent.step)
        for seconds in after:
            self.now += seconds
            lines += self.quietly(agent.step)
        return lines

    def settle(self, agent: Agent) -> list[str]:
        """Looks until a change is acted on."""
        return self.step(agent, 0.25)

    def put(self, records: Iterable[Lsa]) -> None:
        self.source.snapshot = Snapshot(list(records))

    def without_link(self, one: int, other: int) -> None:
        wires = [wire for wire in PLAN.wires if set(wire.metrics) != {one, other}]
        self.put(split(lsas_of(PLAN._replace(wires=wires))))

    def by_fib(self) -> State:
        """What tools/fib has for the files of the agent and the daemon's routes."""
        routes = [{"dst": prefix, "protocol": "ospf"} for prefix in self.router.daemon]
        for name, said in (("addresses", self.router.addresses()), ("routes", routes)):
            with open(self.name(name), "w", encoding="ascii") as file:
                json.dump(said, file)
        words = ["--mrt", MRT, "--daemon", "--addresses", self.name("addresses"), "--routes", self.name("routes")]
        words += [self.name("area.lsas"), self.name("area.profile"), "10.255.0.1"]
        done = subprocess.run([f"{TOOLS}/fib", *words], capture_output=True, text=True, check=True)
        lines = [line.removeprefix("route replace ") for line in done.stdout.splitlines()]
        return batch.state_of(line for line in lines if line.endswith("proto 78"))

    def repairs(self) -> dict[str, str]:
        """The repairs in the kernel, by prefix."""
        return {batch.prefix_of(line): line for line in self.router.state() if generations.is_of_color(line)}

    def colors(self) -> set[int]:
        """The generations of which the kernel has rows."""
        rows = (line for line in self.router.state() if not batch.is_repair(line))
        return {each for line in rows if (each := generations.generation_of(line)) is not None}
