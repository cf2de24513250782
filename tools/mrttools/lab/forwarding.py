"""The lab's failures: what `tools/fib` prints is put into the routers' kernels, each link, router and port on a LAN
fails in turn, and pings of all pairs are counted, with repairs and without."""
from __future__ import annotations

import os
import re
import subprocess
import time
from typing import Callable, Iterable, NamedTuple

from mrttools.program import ROOT, Program
from mrttools.router.kernel import PRIMARY
from .bars import Bar
from .failures import FAILING, STANDING, Failure, Pair, failures, lost_by_mrt, pairs, pinged
from .network import SHARED, Network, Plan, router_id
from .pings import Counted, Pinging, gap_of
from .running_network import Lab

# How long pings run in one failure, how long before it, and how long the network rests after it, in seconds.
LASTS, BEFORE, REST = 1.2, 0.4, 0.4
TRIES = 5
HEAD = ("failed", "pings", "lost: with", "without", "parted pairs", "took a repair")
NETWORKS = ("network", "failures", "part no pair", "pings", "lost: with", "without", "tried again")


class Row(NamedTuple):
    """What one failure cost."""

    failure: Failure
    sent: int  # pings
    lost: int  # of them, with repairs
    without: int  # of them, without repairs
    parted: set[Pair]  # by what `mrt` says
    wrong: set[Pair]  # parted but lost no more than was in flight, or lost more but not parted
    taken: int  # packets that took a repair
    kernel: tuple[int, int, int]  # what the kernels counted
    again: int = 0  # how often it was tried again

    @property
    def cells(self) -> tuple[str, ...]:
        numbers = self.sent, self.lost, self.without, len(self.parted), self.taken
        return self.failure.name, *(f"{number:,}" for number in numbers)


class Batch:
    """Commands of ip in a namespace, by a process that waits for them: they are done at once where the network
    fails."""

    def __init__(self, place: str, lines: list[str]) -> None:
        self.text = "".join(f"{line}\n" for line in lines)
        self.given = self.words(place)
        self.process = subprocess.Popen(self.given, stdin=subprocess.PIPE, stdout=subprocess.DEVNULL, text=True)

    def words(self, space: str) -> list[str]:
        return ["ip", "-n", space, "-batch", "-"]

    def send(self) -> None:
        assert self.process.stdin is not None
        self.process.stdin.write(self.text)
        self.process.stdin.close()

    def end(self) -> None:
        if self.process.wait() != 0:
            raise ValueError(f"{' '.join(self.given)} ended with status {self.process.returncode}")


class Installed:
    """What the routers of a network have in their kernels."""

    def __init__(self, network: Network, mrt: Program, folder: str, options: list[str]) -> None:
        self.network, self.mrt, self.folder, self.options = network, mrt, folder, options
        self.routers = [router for router in network.plan.routers if router not in network.plan.maintenance]
        self.scripts: dict[int, str] = {}

    def inside(self, router: int, *words: str, text: str = "", check: bool = True) -> str:
        """What a program prints in a router's namespace."""
        command = ["ip", "netns", "exec", self.network.of(router), *words]
        done = subprocess.run(command, input=text, stdout=subprocess.PIPE, text=True, check=check)
        return done.stdout

    def make(self, *options: str) -> None:
        """Has tools/fib print the script of each router."""
        self.scripts = {router: self.printed(router, f"r{router}.sh", *options) for router in self.routers}

    def printed(self, router: int, name: str, *options: str) -> str:
        """What tools/fib prints for a router, by the addresses that the router itself has. It is kept in a file."""
        os.makedirs(self.folder, exist_ok=True)
        addresses = os.path.join(self.folder, f"r{router}.json")
        with open(addresses, "w", encoding="utf-8") as file:
            file.write(self.inside(router, "ip", "-j", "-4", "address"))
        fib = [os.path.join(ROOT, "tools", "fib"), "--mrt", self.mrt.path, "--addresses", addresses]
        words = [*fib, *self.options, *options, self.mrt.database, self.mrt.profile, router_id(router)]
        text = subprocess.run(words, stdout=subprocess.PIPE, stderr=subprocess.PIPE, text=True, check=True).stdout
        with open(os.path.join(self.folder, name), "w", encoding="ascii") as file:
            file.write(text)
        return text

    def install(self) -> None:
        for router, script in self.scripts.items():
            self.inside(router, "sh", text=script)

    def remove(self) -> None:
        removal = subprocess.run(
            [os.path.join(ROOT, "tools", "fib"), "--remove"], stdout=subprocess.PIPE, text=True, check=True
        ).stdout
        for router in self.routers:
            self.inside(router, "sh", text=removal)

    def primaries_by(self, gone: Iterable[str]) -> dict[int, list[str]]:
        """The primaries of each router whose next hop is one of the addresses."""
        wanted = [f" via {address} " for address in gone]
        return {
            router: [
                line.removeprefix("route replace ")
                for line in script.splitlines()
                if f" metric {PRIMARY} " in line and any(word in line for word in wanted)
            ]
            for router, script in self.scripts.items()
        }

    def ready(self, verb: str, routes: dict[int, list[str]]) -> list[Batch]:
        """What takes routes away or puts them back, in all routers at once."""
        return [
            Batch(self.network.of(router), [f"route {verb} {line}" for line in lines])
            for router, lines in routes.items()
            if lines
        ]

    def in_flight(self, failure: Failure) -> int:
        """How many pings of a pair are on their way before a failure is seen, or word of it has come."""
        return 1

    def rest(self) -> None:
        """Waits until all is as it was before a failure."""
        time.sleep(REST)

    def taken(self) -> int:
        """How many packets took a repair so far, by the counters of nft."""
        said = (self.inside(router, "nft", "list", "chain", "ip", "mrt", "write") for router in self.routers)
        return sum(int(number) for text in said for number in re.findall(r"counter packets (\d+)", text))


def do_at_once(batches: list[Batch]) -> None:
    for batch in batches:
        batch.send()
    for batch in batches:
        batch.end()


def lose(installed: Installed, failure: Failure, tell_lan: bool) -> Counted:
    """Has something fail while all pairs are pinged, and mends it. Routers on a LAN are told, where no daemon tells
    them, as BFD would tell them, that the next hop is gone."""
    network = installed.network
    network.group(failure.ports, FAILING)
    gone = installed.primaries_by(failure.gone if tell_lan else [])
    gone.pop(failure.router, None)
    down = [Batch(network.wires, [f"link set group {FAILING} down"])] + installed.ready("del", gone)
    chosen = pinged(network.plan, failure.router)
    gap = gap_of(len(pairs(network.plan)))
    pinging = Pinging(network, chosen, round(1000 * LASTS) // gap, gap)
    time.sleep(BEFORE)
    do_at_once(down)
    counted = pinging.end()
    do_at_once([Batch(network.wires, [f"link set group {FAILING} up"])] + installed.ready("replace", gone))
    network.group(failure.ports, STANDING)
    installed.rest()
    return counted


def parted_pairs(mrt: Program, plan: Plan, failure: Failure) -> set[Pair]:
    """The pairs whose ping or its answer is lost, by `mrt`."""
    lost = lost_by_mrt(mrt, plan, failure)
    parted = {(one, other) for one, other in pairs(plan) if {(one, other), (other, one)} & lost}
    left = [router for router in plan.shared if router != failure.router]
    return parted | {
        (router, SHARED)
        for router, to in pinged(plan, failure.router)
        if to == SHARED and all((router, each) in parted for each in left)
    }


def wrong_pairs(counted: Counted, parted: set[Pair], most: int) -> set[Pair]:
    """The pairs that lost more pings than may be in flight and are not parted, or did not and are."""
    return {pair for pair, lost in counted.lost.items() if (lost > most) != (pair in parted)}


def lost_by(counted: Counted) -> int:
    return sum(counted.lost.values())


class Trial(NamedTuple):
    """A failure with repairs: what mrt says of it, what was counted, the pairs that are not as mrt says, how many
    packets took a repair, and how often it was tried again."""

    failure: Failure
    parted: set[Pair]
    counted: Counted
    wrong: set[Pair]
    taken: int
    again: int = 0


def tried(installed: Installed, failure: Failure, say: Callable[[str], None]) -> Trial:
    """A failure with repairs. Where more was lost than mrt says, it is tried again, and told: a machine that has
    other work too may tell the loss of a carrier late. A wrong route would lose as much each time."""
    parted = parted_pairs(installed.mrt, installed.network.plan, failure)
    for number in range(TRIES):
        before = installed.taken()
        counted = lose(installed, failure, tell_lan=True)
        wrong = wrong_pairs(counted, parted, installed.in_flight(failure))
        if not wrong or number == TRIES - 1:
            break
        say(f"again: {failure.name}: {lost_by(counted)} pings were lost, of {len(wrong)} pairs not as mrt says")
    return Trial(failure, parted, counted, wrong, installed.taken() - before, number)


def row_of(trial: Trial, bare: Counted) -> Row:
    """What came of one failure."""
    kernel = trial.counted.echoes, trial.counted.replies, trial.counted.circled
    return Row(
        trial.failure,
        trial.counted.sent,
        lost_by(trial.counted),
        lost_by(bare),
        trial.parted,
        trial.wrong,
        trial.taken,
        kernel,
        trial.again,
    )


def without_routing(installed: Installed, say: Callable[[str], None]) -> list[Row]:
    """Each failure with primaries and repairs by tools/fib and no routing protocol, and then with the primaries
    alone."""
    installed.make()
    installed.install()
    trials = [tried(installed, failure, say) for failure in failures(installed.network.plan)]
    installed.remove()
    installed.make("--no-repairs")
    installed.install()
    rows = []
    say(line_of(HEAD))
    for trial in trials:
        rows.append(row_of(trial, lose(installed, trial.failure, tell_lan=False)))
        say(line_of(rows[-1].cells))
    installed.remove()
    return rows


def beside_routing(installed: Installed, lab: Lab, say: Callable[[str], None]) -> list[Row]:
    """Each link of two routers with the daemons' own routes, with the repairs of tools/fib behind them and without.
    The network rests until the daemons have the routes that they had before."""
    plan, before = installed.network.plan, lab.routes()
    chosen = [failure for failure in failures(plan) if not failure.router and not failure.gone]
    trials, bare = [], []
    installed.make("--daemon")
    installed.install()
    for failure in chosen:
        taken = installed.taken()
        counted = lose(installed, failure, tell_lan=False)
        parted = parted_pairs(installed.mrt, plan, failure)
        trials.append(Trial(failure, parted, counted, set(), installed.taken() - taken))
        lab.wait_for_routes(before)
    installed.remove()
    for failure in chosen:
        bare.append(lose(installed, failure, tell_lan=False))
        lab.wait_for_routes(before)
    say(line_of(HEAD))
    rows = [row_of(*both) for both in zip(trials, bare)]
    for row in rows:
        say(line_of(row.cells))
    return rows


# what is told


def bars_of(rows: list[Row]) -> list[Bar]:
    return [Bar(row.failure.name, row.lost, row.without, len(row.parted)) for row in rows]


def line_of(cells: tuple[str, ...], widths: tuple[int, ...] = (34, 7, 11, 8, 13, 14, 10)) -> str:
    first, *others = (
        cell.ljust(width) if not at else cell.rjust(width) for at, (cell, width) in enumerate(zip(cells, widths))
    )
    return first + "".join(others)


def network_cells(name: str, rows: list[Row]) -> tuple[str, ...]:
    """A network in a line: pings and losses are those of the failures that part no pair."""
    whole = [row for row in rows if not row.parted]
    sums = (sum(values) for values in zip(*((row.sent, row.lost, row.without, row.again) for row in whole)))
    return name, *(f"{number:,}" for number in (len(rows), len(whole), *sums))


def networks(found: dict[str, list[Row]]) -> list[str]:
    """A line on each network, under their heading."""
    widths = 10, 10, 14, 11, 12, 10, 13
    return [line_of(cells, widths) for cells in (NETWORKS, *(network_cells(*each) for each in found.items()))]


def sums(plan: Plan, rows: list[Row], beside: bool) -> list[str]:
    """The sums of a network's failures, and what is wrong in them."""
    whole = sum(row.lost for row in rows if not row.parted)
    lines = [
        line_of(
            ("sum", *(f"{sum(values):,}" for values in zip(*((row.sent, row.lost, row.without) for row in rows))))
        ),
        f"forward: {plan.name}: {len(rows)} failures; {sum(not row.parted for row in rows)} part no pair, and with "
        f"repairs {whole} pings were lost in these",
        f"forward: {plan.name}: with repairs the kernels counted {sum(row.kernel[0] for row in rows):,} echoes sent "
        f"and {sum(row.kernel[1] for row in rows):,} replies",
    ]
    if beside:
        circled = sum(row.kernel[2] for row in rows if not row.parted)
        return lines + [
            f"forward: {plan.name}: where no pair is parted {circled} packets circled by the daemons' routes"
        ]
    for row in rows:
        for one, other in sorted(row.wrong):
            said = "is parted by mrt, and lost none" if (one, other) in row.parted else "lost more than was in flight"
            lines.append(f"wrong: {row.failure.name}: r{one} to r{other} {said}")
    if not any(row.wrong for row in rows):
        lines.append(f"forward: {plan.name}: a pair lost more than was in flight exactly where mrt says lost")
    return lines
