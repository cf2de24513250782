"""The lab's agents: one in each router, and what they make of a link that comes, a router that goes, another profile,
two changes within a second, and daemons that die; and which pings are lost meanwhile, with agents and without."""
from __future__ import annotations

import json
import os
import subprocess
import time
from typing import Any, Callable, NamedTuple

from mrttools import lsas
from mrttools.agent import batch, status
from mrttools.agent.batch import Linux, State
from mrttools.agent.sniffer import Database, instance_of
from mrttools.agent.sources import SILENT
from mrttools.exits import ToolFault
from mrttools.program import ROOT
from mrttools.router import kernel
from . import outcomes
from .dropped import Down, Happened, Watch
from .failures import FAILING, STANDING, failures, pairs
from .forwarding import Batch, do_at_once, line_of
from .network import router_id
from .outcomes import Pinged, Row
from .pings import Pinging
from .running_network import Lab, LabFault

# Seconds that old tables stay, and within which all are to have their tables.
LINGER, PATIENCE = 3, 90
# Pings of each pair while something changes, how far they are apart in milliseconds, and the seconds before it.
PINGS, EVERY, BEFORE = 1500, 20, 0.5
# Seconds between the starts of two daemons: BIRD finds new ways once a second from its start on, and without agents all
# would do it at one time.
APART = 0.12
# Whose daemons die: the first one's agent leaves its table, the second one's takes it away.
LEFT, STRICT = 6, 9


class Inside(Linux):
    """The kernel of a router of the lab."""

    def __init__(self, space: str) -> None:
        self.space = space

    def run(self, *words: str, text: str = "") -> str:
        return super().run("ip", "netns", "exec", self.space, *words, text=text)


def rights(groups: str) -> list[str]:
    """What starts a program with the rights that it has by mrt-agent@.service and no others, in the groups that the daemon
    answers."""
    chosen = "-all,+net_admin,+net_raw"
    limits = [f"--inh-caps={chosen}", f"--ambient-caps={chosen}", f"--bounding-set={chosen}", "--no-new-privs"]
    return ["setpriv", f"--groups={groups}", *limits]


class Agents:
    """The agents of a network, their files and what they say."""

    def __init__(self, lab: Lab, mrt: str, folder: str) -> None:
        self.lab, self.mrt, self.folder, self.network = lab, mrt, folder, lab.spaces
        self.running: dict[int, subprocess.Popen[bytes]] = {}
        # What all agents are told besides, the ends of wires that are or were down, and when daemons began anew.
        self.options: list[str] = []
        self.down: list[Down] = []
        self.anew: dict[int, float] = {}
        # (each change in the profile's folder wakes all agents)
        self.profile = self.name("profile/area.profile")
        os.makedirs(os.path.dirname(self.profile), exist_ok=True)

    def name(self, last: str) -> str:
        return os.path.join(self.folder, last)

    def start(self, router: int) -> None:
        """Starts an agent before its daemon."""
        # (FRR's API listens on all addresses, and nobody else is in the namespace)
        options = ["--mrt", self.mrt, "--linger", str(LINGER), "--open-api", *self.options]
        options += ["--strict"] if router == STRICT else []
        options += ["--socket", self.lab.daemon.socket(os.path.join(self.lab.folder, f"r{router}"))]
        given = [self.lab.daemon.name.lower(), self.profile, router_id(router), self.name(f"r{router}")]
        words = ["ip", "netns", "exec", self.network.of(router), *rights(self.lab.daemon.groups)]
        words.append(os.path.join(ROOT, "tools", "agent"))
        with open(self.name(f"r{router}.out"), "wb") as out, open(self.name(f"r{router}.err"), "wb") as err:
            self.running[router] = subprocess.Popen([*words, *options, *given], stdout=out, stderr=err)

    def stop(self) -> None:
        for process in self.running.values():
            process.terminate()
        for process in self.running.values():
            process.wait()

    def said(self, router: int, kind: str) -> list[str]:
        """The lines of an agent so far: `out` are its changes, `err` what it tells."""
        with open(self.name(f"r{router}.{kind}"), encoding="utf-8") as file:
            return file.read().splitlines()

    def state(self, router: int) -> State:
        return Inside(self.network.of(router)).state()

    def facts(self, router: int) -> dict[str, Any]:
        """What an agent says of itself."""
        return status.read(self.name(f"r{router}"))

    def wanted(self, router: int, database: str) -> State:
        """What tools/fib has for a router."""
        here, addresses, routes = Inside(self.network.of(router)), self.name("addresses"), self.name("routes")
        for name, told in ((addresses, here.addresses()), (routes, here.told("route", "show"))):
            with open(name, "w", encoding="utf-8") as file:
                json.dump(told, file)
        words = ["--mrt", self.mrt, "--daemon", "--addresses", addresses, "--routes", routes, *self.options]
        words += [database, self.profile, router_id(router)]
        fib = [os.path.join(ROOT, "tools", "fib"), *words]
        done = subprocess.run(fib, stdout=subprocess.PIPE, stderr=subprocess.DEVNULL, text=True, check=True)
        lines = (line.removeprefix("route replace ") for line in done.stdout.splitlines())
        return batch.state_of(line for line in lines if line.endswith(f"proto {batch.PROTOCOL}"))

    def wait(self, without: tuple[int, ...] = ()) -> None:
        """Waits until the routers, but for some, have the tables of one database, which is that of their daemons;
        where no agent runs, until the daemons have one."""
        listed = self.lab.wait(without)
        routers = [router for router in self.running if router not in without]
        if not routers:
            return
        database = self.name(f"r{routers[0]}/area.lsas")
        end = time.monotonic() + PATIENCE
        while True:
            self.look_after()
            if self.is_of(database, listed):
                wrong = [router for router in routers if self.state(router) != self.wanted(router, database)]
                if not wrong:
                    return
            if time.monotonic() > end:
                raise LabFault(f"the agents did not have their tables in {PATIENCE} seconds")
            time.sleep(1)

    def is_of(self, name: str, listed: Database) -> bool:
        """Whether a file has the instances that the daemons have."""
        if not os.path.exists(name):
            return False
        with open(name, "rb") as file:
            return {lsa.key: instance_of(lsa) for lsa in lsas.split(file.read())} == listed

    def look_after(self) -> None:
        for router, process in self.running.items():
            if process.poll() is not None:
                told = "\n".join(self.said(router, "err")[-5:])
                raise LabFault(f"the agent of r{router} ended with status {process.returncode}:\n{told}")


# changes


class Change(NamedTuple):
    """What happens: its name, how it is done, the routers that have no table of the area after it, and those that are
    not pinged, as they are away for a while whatever is repaired."""

    name: str
    do: Callable[[], None]
    out: tuple[int, ...] = ()
    away: tuple[int, ...] = ()


def wires(agents: Agents, verb: str, *names: str) -> None:
    """Takes the wires of links and routers down or up at once."""
    network = agents.network
    found = failures(network.plan)
    ports = [port for failure in found if failure.name.split(" on ")[0] in names for port in failure.ports]
    network.group(ports, FAILING)
    now = time.time()
    if verb == "down":
        agents.down += [Down(port, now, float("inf")) for port in ports]
    do_at_once([Batch(network.wires, [f"link set group {FAILING} {verb}"])])
    if verb == "up":
        now = time.time()
        agents.down = [each._replace(until=min(each.until, now)) if each.port in ports else each for each in agents.down]
    network.group(ports, STANDING)


def write_profile(agents: Agents, root: int) -> None:
    with open(agents.profile, "w", encoding="ascii") as file:
        file.write(f"priority {router_id(root)} 10\n")


def changes(agents: Agents) -> list[Change]:
    lab = agents.lab

    def two() -> None:
        wires(agents, "down", "link r1-r2")
        time.sleep(0.5)
        wires(agents, "down", "link r5-r6")

    def die() -> None:
        for router in (LEFT, STRICT):
            lab.kill(router)

    def again() -> None:
        for router in (LEFT, STRICT):
            agents.anew[router] = time.time()
            lab.start(router)

    return [
        Change("link r4-r5 comes", lambda: wires(agents, "up", "link r4-r5")),
        Change("router r6 goes", lambda: wires(agents, "down", "router r6"), (6,), (6,)),
        Change("router r6 comes back", lambda: wires(agents, "up", "router r6"), (), (6,)),
        Change("the profile has another root", lambda: write_profile(agents, 5)),
        Change("two links go, half a second apart", two),
        Change("both come back", lambda: wires(agents, "up", "link r1-r2", "link r5-r6")),
        Change(f"daemons of r{LEFT} and r{STRICT} die", die, (LEFT, STRICT), (LEFT, STRICT)),
        Change("both are started again", again, (), (LEFT, STRICT)),
    ]


def pinged(agents: Agents, change: Change) -> Pinged:
    """Has something change, and waits until all have their tables, while all pairs are pinged."""
    chosen = [pair for pair in pairs(agents.network.plan) if not set(pair) & set(change.away)]
    watch = Watch(agents.network, agents.name("watched"))
    pinging = Pinging(agents.network, chosen, PINGS, EVERY)
    time.sleep(BEFORE)
    began = time.time()
    change.do()
    agents.wait(change.out)
    counted = pinging.end()
    return Pinged(began, counted, watch.end(Happened(agents.down, agents.anew), counted))


def tried(agents: Agents, change: Change, without: Pinged) -> Row:
    """A change, with what the agents said of it."""
    routers = list(agents.running)
    before = {router: len(agents.said(router, "out")) for router in routers}
    found = pinged(agents, change)
    lines = {router: len(agents.said(router, "out")) - before[router] for router in routers}
    times = {router: times_of(agents.facts(router)) for router in routers}
    new = {
        router: (heard - found.began, put - found.began) for router, (heard, put) in times.items() if put > found.began
    }
    return Row(change.name, lines, new, found, without)


def times_of(facts: dict[str, Any]) -> tuple[float, float]:
    """When the last word of a change came to an agent, and when its table was in the kernel."""
    heard, put = facts["times"] or (0.0, 0.0)
    return float(heard), float(put)


def silent_as_asked(agents: Agents, before: State) -> bool:
    """Where daemons died: one agent has left its table, the other one has taken it away, and both have said why."""
    told = [any(SILENT in line for line in agents.said(router, "err")[-2:]) for router in (LEFT, STRICT)]
    return all(told) and agents.state(LEFT) == before and agents.state(STRICT) == batch.bare()


def refused(agents: Agents, router: int) -> str:
    """What is told of a batch that a kernel refuses in its middle, after it has lost all repairs and before it gets
    others; empty where the kernel has not the table that it had."""
    here = Inside(agents.network.of(router))
    before = here.state()
    lost = {line for line in before if batch.is_repair(line)}
    nowhere = f"route 10.255.0.99/32 via 192.0.2.99 table {batch.TABLES[0]} proto {batch.PROTOCOL}"
    try:
        batch.put(here, before - lost | {nowhere})
    except ToolFault as fault:
        return str(fault) if lost and here.state() == before else ""
    return ""


def begin(agents: Agents, routers: list[int]) -> None:
    """Starts all daemons, and the agents of some routers before them. All have the settings, to compare."""
    write_profile(agents, 2)
    wires(agents, "down", "link r4-r5")
    for router in agents.network.plan.routers:
        own = [lsas.address(each.address) for each in agents.network.plan.interfaces(router)]
        Inside(agents.network.of(router)).run("sh", text=kernel.settings(own))
    for router in routers:
        agents.start(router)
    for router in agents.network.plan.routers:
        agents.lab.start(router)
        time.sleep(APART)
    agents.wait()


def without(agents: Agents) -> list[Pinged]:
    """What is counted at each change where no agent runs."""
    begin(agents, [])
    return [pinged(agents, change) for change in changes(agents)]


def run(agents: Agents, bare: list[Pinged], say: Callable[[str], None], record: str) -> bool:
    """Makes all changes, one after another. True where each router had the table that tools/fib has, those whose daemons
    died kept it or took it away as they were told (LEFT, STRICT), a batch that failed was undone, and no ping was lost by
    an agent."""
    begin(agents, agents.network.plan.routers)
    say(f"agent: {len(agents.running)} routers have the tables of tools/fib: {total(agents):,} routes and rules")
    undone = refused(agents, 1)
    say(f"agent: r1 is given a batch that fails in its middle: {undone or 'IT IS NOT UNDONE'}")
    say(line_of(outcomes.HEAD, outcomes.WIDTHS))
    agreed, rows = bool(undone), []
    for change, counted in zip(changes(agents), bare):
        before = agents.state(LEFT)
        rows.append(tried(agents, change, counted))
        say(line_of(rows[-1].cells, outcomes.WIDTHS))
        outcomes.write(record, agents.lab.daemon.version(), rows)
        if STRICT in change.out:
            agreed = silent_as_asked(agents, before) and agreed
    for line in (*outcomes.times(rows, list(agents.running)), *outcomes.losses(rows), outcomes.circled(rows)):
        say(line)
    return agreed and not outcomes.by_agents(rows)


def total(agents: Agents) -> int:
    return sum(len(agents.state(router)) for router in agents.running)
