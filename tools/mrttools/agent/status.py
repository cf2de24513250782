"""What an agent says of itself: a file that it writes, and how that is read."""
from __future__ import annotations

import json
import os
import time
from datetime import datetime, timezone
from typing import Any

from mrttools import files
from mrttools.exits import NOT_THERE, READ_FAULT, ToolFault
from mrttools.router.table import Table
from .lock import is_locked

FORMAT = {"format": "semborui-agent", "version": 1}
NAME = "agent.status"
# What there is where there is no table.
NO_TABLE: dict[str, Any] = {"certificate": None, "generation": None, "since": None, "prefixes": 0, "repairs": 0, "left_out": []}


def clock() -> str:
    return datetime.now(timezone.utc).strftime("%Y-%m-%dT%H:%M:%SZ")


class Status:
    """The facts, and the file that has them."""

    def __init__(self, name: str, router: str, daemon: str) -> None:
        self.name = name
        self.facts: dict[str, Any] = {
            **FORMAT,
            "router": router,
            "daemon": daemon,
            "started": clock(),
            "pid": os.getpid(),
            "changed": None,
            "took": None,
            "times": None,
        }
        self.bare()

    def bare(self) -> None:
        """There is no table."""
        self.facts |= NO_TABLE

    def installed(self, made: Table, digest: str, is_other: bool, left: dict[str, str]) -> None:
        """A table is in the kernel."""
        self.facts |= {
            "certificate": digest,
            "generation": made.generation,
            "prefixes": len(made.entries),
            "repairs": sum(bool(entry.repairs) for entry in made.entries),
            "left_out": [{"what": what, "why": why} for what, why in left.items()],
            "changed": clock(),
        }
        if is_other or self.facts["since"] is None:
            self.facts["since"] = self.facts["changed"]

    def took(self, work: float, whole: float, since_last: float, more: float) -> None:
        """How many seconds a table for another area took from the first word of a change to the kernel, and its work of
        these; and when the last word came, and all of it was or will be in the kernel."""
        now = time.time()
        self.facts["took"] = {"seconds": round(whole + more, 3), "work": round(work, 3)}
        self.facts["times"] = [round(now - since_last, 3), round(now + more, 3)]

    def write(self, source: str, waits: str, dampened: list[str]) -> None:
        state = "waiting" if waits else "installed" if self.facts["certificate"] else "bare"
        self.facts |= {"at": clock(), "state": state, "source": source, "waits": waits or None, "dampened": dampened}
        files.replace(self.name, json.dumps(self.facts, indent=1).encode("ascii"), lasting=False)


def read(folder: str) -> dict[str, Any]:
    """The facts of the agent of a folder; of one that runs they are those of now."""
    name = os.path.join(folder, NAME)
    if not os.path.exists(name):
        raise ToolFault(f"{folder}: no agent has been here", NOT_THERE)
    try:
        with open(name, encoding="ascii") as file:
            facts = json.load(file)
        if facts["format"] != FORMAT["format"]:
            raise ValueError(name)
    except (ValueError, KeyError, TypeError) as fault:
        raise ToolFault(f"{name}: it is not what an agent writes", READ_FAULT) from fault
    return dict(facts) | ({"at": clock()} if is_locked(folder) else {"state": "stopped"})


def taken_away(folder: str) -> None:
    """Writes down that the table of an agent that has ended is gone."""
    name = os.path.join(folder, NAME)
    if os.path.exists(name):
        files.replace(name, json.dumps(read(folder) | NO_TABLE, indent=1).encode("ascii"), lasting=False)


def lines_of(facts: dict[str, Any]) -> list[str]:
    """The same for one who reads it."""
    took = facts["took"]
    lines = [
        f"router {facts['router']} beside {facts['daemon']}: {facts['state']}, started {facts['started']}",
        f"LSAs by {facts.get('source', 'none yet')}",
    ]
    if facts["certificate"]:
        lines.append(f"certificate {facts['certificate']}, generation {facts['generation']}, since {facts['since']}")
        lines.append(f"{facts['prefixes']} prefixes, {facts['repairs']} of them with a repair")
    if took:
        lines.append(
            f"last changed {facts['changed']}, {took['seconds']} s after the first word of it, {took['work']} s of work"
        )
    if facts.get("waits"):
        lines.append(f"waits: {facts['waits']}")
    if facts.get("dampened"):
        lines.append("change too often, and are waited for: " + ", ".join(facts["dampened"]))
    return lines + [f"left out: {each['what']}: {each['why']}" for each in facts["left_out"]]
