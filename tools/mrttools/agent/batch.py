"""The routes and rules that a kernel has of `tools/fib`, and how they become others: in one batch, whole or not at
all."""
from __future__ import annotations

import json
import subprocess
import tempfile
from typing import Any, Iterable, Protocol

from mrttools.exits import REFUSED, ToolFault
from mrttools.router import kernel
from mrttools.router.kernel import MARK, MASK, PROTOCOL, TABLES
from mrttools.signals import alive

# Lines of `ip -batch` without their verb, as `route 10.0.0.1/32 via ..` and `rule pref ..`.
State = frozenset[str]
NOTHING: State = frozenset()
# The kernel's number of a kind of route, as `ip -N` has it.
KINDS = {"7": "unreachable"}
RULES = [f"rule {kernel.rule_of(number)}" for number in range(len(TABLES))]
# Seconds that a program of the system may take.
LIMIT = 20


def state_of(routes: Iterable[str]) -> State:
    """What a kernel is to have."""
    return frozenset(f"route {route}" for route in routes) | frozenset(RULES)


def bare() -> State:
    """No repair, and no way for a packet that is on a color."""
    return state_of(kernel.last_routes())


# what changes


def place(line: str) -> str:
    """The words of a line by which the kernel tells rules and routes apart: of a route its kind, prefix, table and
    metric."""
    words = line.split(" ")
    if words[0] == "rule":
        return line
    key = words[: 3 if words[1] == "unreachable" else 2]
    for name in ("table", "metric"):
        key += [name, words[words.index(name) + 1]] if name in words else []
    return " ".join([*key, "proto", str(PROTOCOL)])


def prefix_of(line: str) -> str:
    """The prefix of a route's line."""
    words = line.split(" ")
    return words[2 if words[1] == "unreachable" else 1]


def is_repair(line: str) -> bool:
    """Whether a line is of a route in the main table: a repair, or a primary after the daemon's."""
    return line.startswith("route ") and " table " not in line


def said(line: str, verb: str) -> str:
    kind, rest = line.split(" ", 1)
    return f"{kind} {verb} {rest}"


def changes(have: State, state: State) -> list[str]:
    """The batch that makes one state of another. Repairs that go are first, then come rows of colors, then repairs, and
    rows that go are last, so that no packet is put on a color that has no way."""
    gone, come = {place(line) for line in have} - {place(line) for line in state}, state - have
    verbs = [(line, "del") for line in gone] + [(line, "add" if line in RULES else "replace") for line in come]
    order = [(True, "del"), (False, "add"), (False, "replace"), (True, "replace"), (False, "del")]
    verbs.sort(key=lambda change: (order.index((is_repair(change[0]), change[1])), change[0]))
    return [said(line, verb) for line, verb in verbs]


# the kernel


class Kernel(Protocol):
    """A kernel that is asked, and changed."""

    def state(self) -> State:
        ...

    def batch(self, lines: list[str]) -> None:
        ...


class Refusal(ToolFault):
    """A change that the kernel does not take, with the batch that it was in."""

    def __init__(self, line: str, lines: Iterable[str] = ()) -> None:
        super().__init__(line, REFUSED)
        self.lines = list(lines)


def put(router: Kernel, state: State) -> list[str]:
    """Brings a kernel to what is wanted; the lines of what changed. Where the batch fails in its middle the kernel gets
    back what it had, and where it does not take that, no repair is left, and packets on colors end."""
    have = router.state()
    lines = changes(have, state)
    if not lines:
        return []
    try:
        router.batch(lines)
    except Refusal as fault:
        raise Refusal(f"{fault}; {taken_back(router, have)}", lines) from None
    return lines


def taken_back(router: Kernel, had: State) -> str:
    """Undoes the half of a batch; what is told of it."""
    ends = (bare(), "all repairs are taken away"), (NOTHING, "all routes are taken away")
    for state, line in ((had, "the routes are as they were before"), *ends):
        try:
            router.batch(changes(router.state(), state))
        except Refusal:
            pass
        if router.state() == state:
            return line
    return "ROUTES ARE LEFT: run tools/fib --remove | sh"


class Linux:
    """A kernel, by ip and nft."""

    def run(self, *words: str, text: str = "") -> str:
        """What a program prints. It is given a file, which it reads to its end even where this process is gone."""
        alive()
        with tempfile.TemporaryFile("w+") as given:
            given.write(text)
            given.seek(0)
            try:
                done = subprocess.run(
                    words,
                    stdin=given,
                    stdout=subprocess.PIPE,
                    stderr=subprocess.PIPE,
                    timeout=LIMIT,
                    text=True,
                    check=False,
                )
            except subprocess.TimeoutExpired:
                raise Refusal(f"{' '.join(words)}: it took more than {LIMIT} seconds") from None
        if done.returncode != 0:
            why = " ".join(done.stderr.split())
            raise Refusal(f"{' '.join(words)}: status {done.returncode}: {why}")
        return done.stdout

    def told(self, *words: str) -> list[dict[str, Any]]:
        """What ip says, with numbers for what has names too."""
        said: list[dict[str, Any]] = json.loads(self.run("ip", "-N", "-j", "-4", *words) or "[]")
        return said

    def routes(self, protocol: int) -> list[dict[str, Any]]:
        """All routes of a protocol, in all tables."""
        return self.told("route", "show", "table", "all", "proto", str(protocol))

    def rules(self) -> list[dict[str, Any]]:
        return self.told("rule", "show")

    def state(self) -> State:
        ours = (number for item in self.rules() if (number := number_of(item)) is not None)
        return frozenset(f"route {route_of(item)}" for item in self.routes(PROTOCOL)) | {RULES[item] for item in ours}

    def batch(self, lines: list[str]) -> None:
        if lines:
            self.run("ip", "-batch", "-", text="".join(f"{line}\n" for line in lines))

    def addresses(self) -> object:
        """The interfaces that are up, with their addresses."""
        return self.told("address", "show", "up")

    def mark(self, nft: str) -> None:
        """Puts the tables of nft in the place of those that were there, in one step."""
        self.run("nft", "-f", "-", text=nft)

    def marks(self) -> str:
        """The tables of nft as it lists them, without what they counted; empty where there are none."""
        try:
            return self.run("nft", "-s", "list", "table", "ip", "mrt")
        except Refusal:
            return ""


def route_of(route: dict[str, Any]) -> str:
    """A route of `ip -j`, in the words of `kernel.routes_of`."""
    kind, prefix = KINDS.get(str(route.get("type")), "unicast"), str(route["dst"])
    if prefix == "default" and kind == "unicast":
        prefix = "0.0.0.0/0"
    if "/" not in prefix and prefix != "default":
        prefix += "/32"
    words = [prefix] if kind == "unicast" else [kind, prefix]
    if kind == "unicast":
        words += ["via", route["gateway"]] if "gateway" in route else []
        words += ["dev", route["dev"]] if "dev" in route else []
        words += [] if "gateway" in route else ["scope", "link"]
    for name in ("table", "metric"):
        words += [name, route[name]] if name in route else []
    words += ["realm", route["flow"]["to"]] if "flow" in route else []
    return " ".join(map(str, [*words, "proto", PROTOCOL]))


def number_of(rule: dict[str, Any]) -> int | None:
    """Which color's rule one of `ip -j` is, if it is one."""
    fields = rule.get("priority"), rule.get("fwmark"), rule.get("fwmask"), rule.get("table")
    return next(
        (
            number
            for number, table in enumerate(TABLES)
            if fields == (table, hex(MARK * (number + 1)), hex(MASK), str(table))
        ),
        None,
    )
