"""What a Linux router gets of its primaries and repairs: routes, rules, and what marks a packet that is on a color of a
generation."""
from __future__ import annotations

import argparse
import re
from ipaddress import IPv4Address, IPv4Network
from typing import Iterable, NamedTuple

from mrttools.certificate import COLORS
from mrttools.lsas import spelled
from .nexthops import Hop, Unfit

# The pool for local use (RFC 2474, section 6): two code points for each generation, and so eight of these.
POOL = tuple(range(3, 64, 4))
# A table for each color of each generation, with the preference of the rule that leads to it, and the realms of
# repairs.
TABLES = tuple(range(7811, 7811 + len(POOL)))
REALMS = tuple(range(101, 101 + len(POOL)))
# The bits of a packet's mark that say which of these: the others are for other programs.
MASK, MARK = 0x1F000000, 0x1000000
PROTOCOL = 78
PRIMARY, FOR_WORD, FOR_PORT, LAST = 20, 25, 30, 35
# zebra takes the first byte of a kernel route's metric as its distance: this one is after each of the daemon's own.
AFTER_DAEMON = 200 << 24

# Takes the tables of nft away, whether they are there or not.
NO_MARKING = "table ip mrt\ndelete table ip mrt\n"
NAME = re.compile(r"[A-Za-z0-9_.:@-]{1,15}")


def mark_of(number: int) -> str:
    """The mark of a color by its number, with the mask of the bits that count."""
    return f"{MARK * (number + 1):#x}/{MASK:#x}"


def rule_of(number: int) -> str:
    """What leads packets with a color's mark to its table, in the words of `ip rule`."""
    return f"pref {TABLES[number]} fwmark {mark_of(number)} lookup {TABLES[number]}"


def code_points(text: str) -> tuple[int, ...]:
    """Different code points of the pool, two for each generation."""
    found = tuple(int(word) if word.isdecimal() else -1 for word in text.split(","))
    if len(found) % 2 or len(set(found)) < len(found) or not set(found) <= set(POOL):
        raise ValueError(text)
    return found


def add_dscp(parser: argparse.ArgumentParser) -> None:
    parser.add_argument(
        "--dscp",
        type=code_points,
        metavar="BLUE,RED,..",
        default=POOL,
        help="the code points of the pool for local use, two for each generation (default 3,7,11 to 63)",
    )


class Interfaces:
    """The names of the interfaces by their addresses, where they are known; the networks that they are on, by their
    addresses; and the names that are not taken."""

    def __init__(self, names: dict[int, str] | None, networks: dict[int, IPv4Network] | None = None) -> None:
        # The kernel allows nearly any byte in a name; one that a script could take for something else is not taken.
        self.names = names and {own: name for own, name in names.items() if NAME.fullmatch(name)}
        self.odd = sorted({name for name in (names or {}).values() if not NAME.fullmatch(name)})
        self.networks = networks or {}
        self.prefixes = {str(network): own for own, network in self.networks.items() if network.prefixlen < 32}

    def __eq__(self, other: object) -> bool:
        return isinstance(other, Interfaces) and (self.names, self.networks) == (other.names, other.networks)

    def attached(self, prefix: str) -> Hop | None:
        """The interface that has a prefix."""
        return Hop(self.prefixes[prefix], None) if prefix in self.prefixes else None

    def of(self, addresses: set[int]) -> set[str]:
        """The names of interfaces by some of their addresses."""
        return {name for own, name in (self.names or {}).items() if own in addresses}

    def device(self, own: int) -> str:
        """The words that name the interface of an address, or none."""
        if self.names is None:
            return ""
        if own not in self.names:
            raise Unfit(f"no interface has the address {spelled(own)}")
        return f" dev {self.names[own]}"

    def look_at(self, hop: Hop) -> None:
        """Refuses a next hop that the kernel would refuse, and the batch with it."""
        if self.names is not None:
            device = self.device(hop.own)
            network = self.networks.get(hop.own)
            if hop.gateway is not None and network and IPv4Address(hop.gateway) not in network:
                raise Unfit(f"the next hop {spelled(hop.gateway)} is not on the network of{device}")


class Entry(NamedTuple):
    """What is installed for a prefix: the primary, or none where the kernel has the prefix itself; its metric after
    those of a daemon that keeps primaries, or none; the repairs, each with its metric, color and next hop; the next
    hops of both colors, or none where the prefix hangs on the router on that color; and by which nodes it is."""

    prefix: str
    primary: Hop | None
    after_daemon: int | None
    repairs: list[tuple[int, int, Hop]]
    rows: list[Hop | None]
    owners: tuple[str, ...] = ()

    def look_at(self, interfaces: Interfaces) -> None:
        for hop in [self.primary, *(repair[2] for repair in self.repairs), *self.rows]:
            if hop is not None:
                interfaces.look_at(hop)


def words_of(hop: Hop, interfaces: Interfaces) -> str:
    """The next hop in the words of `ip route`."""
    device = interfaces.device(hop.own)
    if hop.gateway is None:
        return device.lstrip() + " scope link"
    return f"via {spelled(hop.gateway)}{device}"


def routes_of(entry: Entry, interfaces: Interfaces, daemon: bool, generation: int) -> Iterable[str]:
    """The routes of a prefix, in the words of `ip route`."""
    first = 2 * generation
    metric = (entry.after_daemon and AFTER_DAEMON + entry.after_daemon) if daemon else PRIMARY
    if entry.primary is not None and metric is not None:
        yield f"{entry.prefix} {words_of(entry.primary, interfaces)} metric {metric} proto {PROTOCOL}"
    for metric, color, hop in entry.repairs:
        metric += AFTER_DAEMON if daemon else 0
        realm = REALMS[first + color]
        yield f"{entry.prefix} {words_of(hop, interfaces)} metric {metric} realm {realm} proto {PROTOCOL}"
    for color, row in enumerate(entry.rows):
        # Where no interface has the prefix, a packet on this color ends here, and never goes on by a primary.
        way = row or interfaces.attached(entry.prefix)
        if way is not None:
            yield f"{entry.prefix} {words_of(way, interfaces)} table {TABLES[first + color]} proto {PROTOCOL}"


def last_routes() -> list[str]:
    """A packet on a color never goes back to the main table: where its generation has no row, it ends."""
    return [f"unreachable default table {table} metric 4294967295 proto {PROTOCOL}" for table in TABLES]


def marking(points: tuple[int, ...], inside: set[str]) -> str:
    """The tables of nft, which replace what was there in one step. `inside` are the names of the router's interfaces
    in the area, where they are known."""
    every = "{ " + ", ".join(map(str, points)) + " }"
    read = [f"ip dscp != {every} return"]
    if inside:
        # From outside the area no packet comes on a color.
        names = ", ".join(f'"{name}"' for name in sorted(inside))
        read.append(f"iifname != {{ {names} }} ip dscp set 0 return")
    for number, point in enumerate(points):
        kept, mark = 0xFFFFFFFF ^ MASK, MARK * (number + 1)
        read.append(f"ip dscp {point} meta mark set meta mark & {kept:#x} | {mark:#x}")
    # Where the way back to a packet's source is a repair too, the upper half of its class has the realm of that.
    write = ["rt classid & 0xffff < 101 return"] + [
        f'rt classid & 0xffff == {REALMS[number]} counter ip dscp set {point} comment "{COLORS[number % 2]} {number // 2}"'
        for number, point in enumerate(points)
    ]
    chains = {
        "read": ("prerouting", read),
        "own": ("output", [f"ip dscp {every} ip dscp set 0"]),
        "write": ("postrouting", write),
    }
    lines = ["table ip mrt {"]
    for chain, (hook, rules) in chains.items():
        lines += [f"    chain {chain} {{", f"        type filter hook {hook} priority mangle; policy accept;"]
        lines += [f"        {rule}" for rule in rules] + ["    }"]
    return NO_MARKING + "\n".join([*lines, "}", ""])


def settings(addresses: Iterable[int]) -> str:
    """What lets the kernel pass over a next hop without a carrier at once, and a packet come back past its sender: in a
    shell, on the interfaces that have these addresses. The others keep what counted for them: of `all` and their own
    the greater."""
    owned = " ".join(spelled(own) for own in sorted(addresses))
    return f"""cd /proc/sys/net/ipv4
echo 1 > ip_forward
for name in rp_filter send_redirects; do
    all=$(cat conf/all/$name)
    for each in conf/*/$name; do
        [ "$(cat "$each")" -ge "$all" ] || echo "$all" > "$each"
    done
    echo 0 > conf/all/$name
done
for own in {owned}; do
    device=$(ip -o -4 address show to "$own" | awk 'NR == 1 {{ print $2 }}')
    [ -n "$device" ] || continue
    echo 1 > "conf/$device/ignore_routes_with_linkdown"
    echo 1 > "conf/$device/accept_local"
    echo 0 > "conf/$device/rp_filter"
    echo 0 > "conf/$device/send_redirects"
done
"""


def script(routes: Iterable[str], nft: str, addresses: Iterable[int]) -> str:
    """A shell script that installs all of it, repairs last. What it has of the database are numbers alone."""
    rules = "".join(
        f"ip rule show pref {table} | grep -q 'fwmark {mark_of(number)} ' || ip rule add {rule_of(number)}\n"
        for number, table in enumerate(TABLES)
    )
    rows, main = "", ""
    for route in routes:
        if " table " in route:
            rows += f"route replace {route}\n"
        else:
            main += f"route replace {route}\n"
    made = f"#!/bin/sh\nset -e\n{settings(addresses)}ip -batch - <<'END'\n{rows}END\n{rules}"
    return made + f"nft -f - <<'END'\n{nft}END\nip -batch - <<'END'\n{main}END\n"


def removal() -> str:
    """A shell script that takes all of it away but the settings."""
    lines = [f"ip rule del pref {table} 2> /dev/null" for table in TABLES]
    lines += [f"ip route flush table {table} proto {PROTOCOL} 2> /dev/null" for table in ("main", *TABLES)]
    return "#!/bin/sh\n" + "".join(f"{line}\n" for line in lines) + "nft delete table ip mrt 2> /dev/null\nexit 0\n"
