"""Whether others than this machine's own can reach a TCP port: who listens on it, and what rules of nft drop.

A rule counts as dropping where that can be told of every packet that begins a connection from another machine: from
another interface than the loopback one, by TCP to this port. What cannot be told counts as open: rules of iptables in
its old form, named sets, marks, and addresses, which a sender chooses.
"""
from __future__ import annotations

import ipaddress
import json
import subprocess
from enum import IntEnum
from typing import Any, NamedTuple

from . import sockets

# Seconds in which nft answers, and how deep chains go.
PATIENCE, DEPTH = 10, 16
FAMILIES = {4: ("ip", "inet"), 6: ("ip6", "inet")}
# Statements that neither end a packet's way nor say which packets a rule is for.
HARMLESS = {"counter", "log", "mangle", "notrack", "set", "map"}


class Way(IntEnum):
    """What becomes of the packets in a chain, by the best that one of them may meet."""

    DROPPED = 0
    GOES_ON = 1
    MAY_BE_ACCEPTED = 2


# A rule as nft tells it: statements, each by its name.
Rule = list[dict[str, Any]]


class Chain(NamedTuple):
    """A chain with its rules, each as a list of statements."""

    family: str
    hook: str
    policy: str
    rules: list[Rule]


Place = tuple[str, str, str]


def chains_of(ruleset: Any) -> dict[Place, Chain]:
    """The chains in the answer of `nft -j list ruleset`, but for those of tables that are asleep, or have another flag:
    nft 1.0.6 does not say which."""
    entries = ruleset["nftables"]
    asleep = {
        (one["family"], one["name"])
        for one in (entry["table"] for entry in entries if "table" in entry)
        if one.get("flags")
    }
    chains: dict[Place, Chain] = {}
    for one in (entry["chain"] for entry in entries if "chain" in entry):
        if (one["family"], one["table"]) not in asleep:
            place = one["family"], one["table"], one["name"]
            chains[place] = Chain(one["family"], one.get("hook", ""), one.get("policy", "accept"), [])
    for one in (entry["rule"] for entry in entries if "rule" in entry):
        place = one["family"], one["table"], one["chain"]
        if place in chains:
            chains[place].rules.append(one["expr"])
    return chains


class Packets:
    """The packets that begin a connection to a port from another machine, and the way that rules have for them."""

    def __init__(self, chains: dict[Place, Chain], version: int, port: int) -> None:
        self.chains, self.version = chains, version
        # What is known of all of them, by what a rule asks for; each may be spelled in some ways.
        self.known: dict[tuple[str, ...], set[object]] = {
            ("payload", "tcp", "dport"): {port},
            ("payload", "th", "dport"): {port},
            ("payload", "ip", "protocol"): {"tcp", 6},
            ("payload", "ip6", "nexthdr"): {"tcp", 6},
            ("meta", "l4proto"): {"tcp", 6},
            ("meta", "nfproto"): {f"ipv{version}"},
            ("meta", "protocol"): {"ip" if version == 4 else "ip6"},
            ("ct", "state"): {"new"},
        }

    def are_dropped(self) -> bool:
        """Whether a chain drops all of them that come in. What others accept does not matter then."""
        return any(
            self.way(place) == Way.DROPPED
            for place, chain in self.chains.items()
            if chain.hook == "input" and chain.family in FAMILIES[self.version]
        )

    def way(self, place: Place, depth: int = 0) -> Way:
        """What becomes of them in a chain."""
        chain, best = self.chains.get(place), Way.DROPPED
        if chain is None or depth > DEPTH:
            return Way.MAY_BE_ACCEPTED
        for rule in chain.rules:
            holds = self.holds(rule)
            if holds is False:
                continue
            way, ends = self.verdict(place, rule, depth)
            if way is not None:
                best = max(best, way)
            if ends and holds:
                return best
        last = Way.DROPPED if chain.policy == "drop" else Way.GOES_ON
        return max(best, last)

    def verdict(self, place: Place, rule: Rule, depth: int) -> tuple[Way | None, bool]:
        """What may become of packets by a rule that is for them, if it is the last one for any; and whether it is the
        last one for all of them."""
        for statement in rule:
            for name, said in statement.items():
                if name in ("drop", "reject"):
                    return Way.DROPPED, True
                if name == "return":
                    return Way.GOES_ON, True
                if name in ("jump", "goto"):
                    way = self.way((*place[:2], said["target"]), depth + 1)
                    if name == "goto" or way != Way.GOES_ON:
                        # (of some that are accepted there, others may come back)
                        return way, name == "goto" or way == Way.DROPPED
                    return None, False
                if name == "vmap":
                    return self.mapped(said)
                if name not in HARMLESS and name not in ("match", "limit", "comment"):
                    return Way.MAY_BE_ACCEPTED, name == "accept"
        return None, False

    def mapped(self, map_of_verdicts: Any) -> tuple[Way | None, bool]:
        """What may become of packets by a map of verdicts, where it has one for them."""
        if not isinstance(map_of_verdicts["data"], dict):
            return Way.MAY_BE_ACCEPTED, False
        left, pairs = map_of_verdicts["key"], map_of_verdicts["data"]["set"]
        verdicts = [verdict for key, verdict in pairs if self.is_one(left, key) is not False]
        if all("drop" in verdict for verdict in verdicts):
            return None, False
        return Way.MAY_BE_ACCEPTED, False

    # what a rule is for

    def holds(self, rule: Rule) -> bool | None:
        """Whether a rule is for all of them, for none of them, or that cannot be told."""
        answers: list[bool | None] = []
        for statement in rule:
            if "match" in statement:
                answers.append(self.matches(statement["match"]))
            elif "limit" in statement:
                answers.append(None)
        if False in answers:
            return False
        return None if None in answers else True

    def matches(self, match: Any) -> bool | None:
        left, right, equal = match["left"], match["right"], match["op"] in ("==", "in")
        if match["op"] not in ("==", "in", "!="):
            return None
        answer = self.is_one(left, right)
        return answer if equal or answer is None else not answer

    def is_one(self, left: Any, right: Any) -> bool | None:
        """Whether what is asked of them is one of some values."""
        (kind, fields), *more = left.items()
        if more or not isinstance(fields, dict):
            return None
        if kind == "meta" and fields["key"] in ("iif", "iifname"):
            # (the name is known to be another one)
            return False if values_of(right) == ["lo"] else None
        asked = (kind, *(fields[name] for name in ("protocol", "field", "key") if name in fields))
        if asked[:2] == ("payload", "ip" if self.version == 6 else "ip6"):
            return False
        others = "udp", "udplite", "sctp", "dccp", "icmp", "icmpv6", "igmp"
        if kind == "payload" and fields.get("protocol") in others:
            return False
        if asked not in self.known:
            return None
        return any_of([is_value(known, one) for one in values_of(right) for known in self.known[asked]])


def any_of(answers: list[bool | None]) -> bool | None:
    if True in answers:
        return True
    return None if None in answers else False


def values_of(right: Any) -> list[Any]:
    """The values of a set, of a list of bits, or the one that there is."""
    if isinstance(right, dict) and "set" in right:
        return [one["elem"]["val"] if isinstance(one, dict) and "elem" in one else one for one in right["set"]]
    return right if isinstance(right, list) else [right]


def is_value(known: object, value: object) -> bool | None:
    """Whether a value is the one that a rule says, or in its range."""
    if isinstance(value, dict):
        low, high = value.get("range", (None, None))
        if isinstance(low, int) and isinstance(high, int):
            return low <= known <= high if isinstance(known, int) else False
        return None
    # A named set; and what a rule before may have made of a packet.
    if isinstance(value, str) and (value.startswith("@") or value == "untracked"):
        return None
    return known == value


# what is asked


def rules() -> Any:
    """The rules of nft in this network namespace; none where they cannot be had."""
    try:
        done = subprocess.run(
            ["nft", "-j", "list", "ruleset"],
            stdin=subprocess.DEVNULL,
            capture_output=True,
            timeout=PATIENCE,
            check=True,
        )
        return json.loads(done.stdout)
    except (OSError, ValueError, subprocess.SubprocessError):
        return {"nftables": []}


def are_dropped(ruleset: Any, version: int, port: int) -> bool:
    """Whether rules drop what others send to a port by IPv4 or IPv6."""
    try:
        return Packets(chains_of(ruleset), version, port).are_dropped()
    except (KeyError, TypeError, ValueError, AttributeError, IndexError):
        # (another form than that of this nft)
        return False


def open_to_others(port: int) -> str | None:
    """Where a port is listened on so that others may reach it; nothing where they cannot."""
    addresses = map(ipaddress.ip_address, sorted(set(sockets.listening(port).values())))
    exposed = [address for address in addresses if not address.is_loopback]
    if not exposed:
        return None
    ruleset = rules()
    opened = [str(address) for address in exposed if not are_dropped(ruleset, address.version, port)]
    if not opened:
        return None
    return f"TCP port {port} is listened on at {' '.join(opened)}, and no rule of nft is seen that drops what others send to it"
