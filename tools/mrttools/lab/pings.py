"""Pings from each router of the lab to each other one, while something fails."""
from __future__ import annotations

import re
import subprocess
from collections import Counter
from typing import NamedTuple

from .failures import Pair
from .network import Network, owner, router_id

# Milliseconds between two pings of one pair, and those after which an answer does not count; how many pings are sent in
# a second at most.
EVERY, LATE, MOST = 10, 300, 9000


def gap_of(pairs: int, least: int = EVERY) -> int:
    """Milliseconds between two pings of a pair, so that all pairs together are not too many for the machine."""
    return max(least, -(-1000 * pairs // MOST))


class Counted(NamedTuple):
    """How many pings of each pair had no answer, how many were sent, and what the kernels counted: echoes that were
    sent, replies that came, and packets that went in circles until their time to live was over."""

    lost: dict[Pair, int]
    sent: int
    echoes: int
    replies: int
    circled: int


class Pinging:
    """The pings of all routers, which run until their number is reached."""

    def __init__(self, network: Network, pairs: list[Pair], number: int, every: int = EVERY) -> None:
        self.network, self.pairs, self.number, self.every = network, pairs, number, every
        self.sources = sorted({source for source, _ in pairs})
        self.before = self.counters()
        self.running = {source: self.start(source) for source in self.sources}

    def start(self, source: int) -> subprocess.Popen[str]:
        """One process pings all of a router's destinations in turn. Rounds never take less than the pings in them."""
        targets = [router_id(target) for one, target in self.pairs if one == source]
        gap = max(1, min(5, self.every // len(targets)))
        words = ["fping", "-q", "-C", str(self.number), "-p", str(self.every), "-i", str(gap), "-B", "1", "-r", "0"]
        # What comes late on a machine with other work was not lost.
        words += ["-t", str(LATE)]
        return subprocess.Popen(
            ["ip", "netns", "exec", self.network.of(source), *words, "-S", router_id(source), *targets],
            stdout=subprocess.DEVNULL,
            stderr=subprocess.PIPE,
            text=True,
        )

    def counters(self) -> tuple[int, ...]:
        """Echoes that were sent, replies that came and packets that circled, by the kernels' own counts."""
        sums = Counter[str]()
        for source in self.sources:
            words = ["ip", "netns", "exec", self.network.of(source), "cat", "/proc/net/snmp"]
            said = subprocess.run(words, stdout=subprocess.PIPE, text=True, check=True).stdout
            for kind in ("Icmp:", "Ip:"):
                names, values = (line.split()[1:] for line in said.splitlines() if line.startswith(kind))
                sums.update(dict(zip(names, map(int, values))))
        return sums["OutEchos"], sums["InEchoReps"], sums["InHdrErrors"]

    def end(self) -> Counted:
        """Waits for the last answers."""
        lost, sent = {}, 0
        for source, process in self.running.items():
            for line in process.communicate()[1].splitlines():
                said = re.fullmatch(r"(\d+\.\d+\.\d+\.\d+)\s+: (.*)", line)
                if said:
                    answers = said[2].split()
                    sent += len(answers)
                    lost[source, owner(said[1])] = answers.count("-")
        return Counted(lost, sent, *(after - before for after, before in zip(self.counters(), self.before)))
