"""What agents say of themselves, beside the certificates that the routers should have."""
from __future__ import annotations

import calendar
import json
import os
import time
from typing import Any

from mrttools import area
from mrttools.area import Node
from mrttools.exits import READ_FAULT, ToolFault
from mrttools.lsas import ROUTER
from mrttools.program import Program
from . import origin
from .islands import Islands

FORMAT = "semborui-agent"
# Seconds after which what an agent said is old; so is what it said that long in the future.
OLD = 300
# What is told of a router, the worst first: it has no certificate, another one, has said nothing, has said so long ago or
# its agent has stopped, or has the right one.
STATES = "none", "behind", "unknown", "old", "current"
KEPT = "certificate", "generation", "since", "repairs", "waits", "at", "state"

Said = dict[str, Any]


def seconds_of(text: object) -> float | None:
    """A time as it is written; none where it is not one."""
    try:
        return calendar.timegm(time.strptime(str(text), origin.TIME))
    except ValueError:
        return None


def read(folder: str) -> tuple[dict[Node, Said], list[str]]:
    """What each router has said last, and the files that are no such statement."""
    statements: dict[Node, Said] = {}
    bad = []
    try:
        names = sorted(name for name in os.listdir(folder) if name.endswith(".json"))
    except NotADirectoryError:
        raise ToolFault(f"{folder}: it is no folder", READ_FAULT) from None
    for name in names:
        try:
            path = os.path.join(folder, name)
            if not os.path.isfile(path):
                raise ValueError(name)
            with open(path, encoding="utf-8") as file:
                statement = json.load(file)
            node = area.node_of(statement["router"])
            if statement["format"] != FORMAT or node.kind != ROUTER:
                raise ValueError(name)
        except (ValueError, KeyError, TypeError, AttributeError, OSError, RecursionError):
            bad.append(name)
            continue
        at = seconds_of(statement.get("at")) or 0
        if node not in statements or at > (seconds_of(statements[node].get("at")) or 0):
            statements[node] = statement
    return statements, bad


def state_of(statement: Said | None, digest: str, now: float) -> str:
    if statement is None:
        return "unknown"
    if not statement.get("certificate"):
        return "none"
    if statement["certificate"] != digest:
        return "behind"
    at = seconds_of(statement.get("at"))
    return "old" if at is None or abs(now - at) > OLD or statement.get("state") == "stopped" else "current"


def left_out(statement: Said | None) -> list[dict[str, str]]:
    """What a router does not repair, and why."""
    listed = statement.get("left_out") if statement else None
    entries = [entry for entry in listed if isinstance(entry, dict)] if isinstance(listed, list) else []
    return [{"what": str(entry.get("what")), "why": str(entry.get("why"))} for entry in entries]


def router_values(node: Node, statement: Said | None, state: str) -> dict[str, Any]:
    return {
        "router": node.text,
        "installed": state,
        **{name: statement.get(name) if statement else None for name in KEPT},
        "left_out": left_out(statement),
    }


def values(mrt: Program, parts: Islands, folder: str, now: float | None = None) -> dict[str, Any]:
    """Of each router of an island whether its table is of the certificate that it should have."""
    statements, bad = read(folder)
    now = time.time() if now is None else now
    routers = []
    for island in parts.shared:
        digest = origin.digest(mrt.run("certify", island.certificate.root.text))
        for node in island.certificate.nodes:
            if node.kind == ROUTER:
                state = state_of(statements.get(node), digest, now)
                routers.append(router_values(node, statements.get(node), state))
    members = {router["router"] for router in routers}
    routers.sort(key=lambda router: (STATES.index(router["installed"]), area.node_of(router["router"])))
    return {
        "routers": routers,
        "counts": {state: sum(router["installed"] == state for router in routers) for state in STATES},
        "others": sorted(node.text for node in statements if node.text not in members),
        "bad_files": bad,
    }
