"""Next hops that the kernel has refused: what needs them is left out, so that the rest gets in."""
from __future__ import annotations

import re

from .batch import Refusal, State

FAILED = re.compile(r"Command failed -:(\d+)")
HOP = re.compile(r" (via \S+ dev \S+|dev \S+|via \S+) ")


class Refused:
    """The next hops, with what the kernel said."""

    def __init__(self) -> None:
        self.hops: dict[str, str] = {}

    def learn(self, fault: Refusal) -> bool:
        """Takes the next hop of the line at which a batch failed; whether there was one that was not known."""
        line_number = FAILED.search(str(fault))
        if not line_number or not 0 < int(line_number[1]) <= len(fault.lines):
            return False
        line = fault.lines[int(line_number[1]) - 1]
        hop = HOP.search(f"{line} ")
        if not hop or hop[1] in self.hops or " replace " not in line:
            return False
        self.hops[hop[1]] = str(fault)
        return True

    def without(self, state: State) -> State:
        """The lines that need none of them."""
        if not self.hops:
            return state
        return frozenset(line for line in state if not ((hop := HOP.search(f"{line} ")) and hop[1] in self.hops))

    def told(self) -> dict[str, str]:
        return {f"next hop {hop}": "the kernel refuses it" for hop in self.hops}
