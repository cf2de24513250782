"""What FRR and BIRD say of an area: which LSAs are in its database, which instance of each, and who the neighbors
are."""
from __future__ import annotations

import json
import re
import subprocess
from typing import Any, Iterator

from mrttools import lsas
from mrttools.lsas import MAX_AGE, NETWORK, ROUTER, Key
from .sniffer import Database, DaemonView, Neighbor

# Seconds in which a daemon answers.
PATIENCE = 10
# The states in which a neighbor sends LSAs.
EXCHANGES = {"Exchange", "Loading", "Full"}
# What is wrong with an answer that is none.
NO_ANSWER = ValueError, KeyError, TypeError, AttributeError


# FRR


def frr(text: str, area: int) -> Database | None:
    """The area's live LSAs in the answer of FRR; none where that has no such area."""
    try:
        return {key: instance for key, instance, _ in frr_lsas(json.loads(text), area)}
    except NO_ANSWER:
        return None


def frr_lsas(answer: Any, area: int) -> Iterator[tuple[Key, tuple[int, int], int | None]]:
    """Each live LSA: its key, its instance, and of a router-LSA how many links it has."""
    listed = answer["areas"][lsas.spelled(area)]
    for kind, name in ((ROUTER, "routerLinkStates"), (NETWORK, "networkLinkStates")):
        for entry in listed.get(name, []):
            if entry["lsaAge"] < MAX_AGE:
                key = Key(kind, lsas.address(entry["lsId"]), lsas.address(entry["advertisedRouter"]))
                instance = int(entry["sequenceNumber"], 16), int(entry["checksum"], 16)
                yield key, instance, entry.get("numOfRouterLinks")


def frr_look(answers: list[str], area: int) -> DaemonView | None:
    """All that FRR says of an area, in one answer."""
    try:
        database, networks, interfaces, neighbors = values_in("".join(answers))
        instances = list(frr_lsas(database, area))
        # (a network-LSA that came between the two questions has no size that any has)
        sizes = {key: -1 if size is None else size for key, _, size in instances}
        for entry in networks["networkLinkStates"]["areas"].get(lsas.spelled(area), []):
            key = Key(NETWORK, lsas.address(entry["linkStateId"]), lsas.address(entry["advertisingRouter"]))
            sizes[key] = entry["length"]
        inside = {name for name, entry in interfaces["interfaces"].items() if entry.get("area") == lsas.spelled(area)}
        return DaemonView({key: instance for key, instance, _ in instances}, sizes, frr_neighbors(neighbors, inside))
    except NO_ANSWER:
        return None


def values_in(text: str) -> list[Any]:
    """The values of JSON that stand one after another."""
    values, decoder, at = [], json.JSONDecoder(), 0
    while text[at:].strip():
        at += len(text[at:]) - len(text[at:].lstrip())
        value, at = decoder.raw_decode(text, at)
        values.append(value)
    return values


def frr_neighbors(answer: Any, inside: set[str]) -> frozenset[Neighbor]:
    """The neighbors on some interfaces."""
    neighbors = set()
    for router, group in answer["neighbors"].items():
        for entry in group:
            device = entry["ifaceName"].rsplit(":", 1)[0]
            if device in inside and entry["state"].split("/")[0] in EXCHANGES:
                neighbors.add(Neighbor(device, lsas.address(entry["address"]), lsas.address(router)))
    return frozenset(neighbors)


# BIRD


def bird(text: str, area: int) -> Database | None:
    """The area's live LSAs in the answer of BIRD; none where that has no such area."""
    instances: Database = {}
    here = there = False
    for line in text.splitlines():
        heading = re.fullmatch(r"(?:Area (\S+)|Global|Link .*)", line.strip())
        if heading:
            here = heading[1] == lsas.spelled(area)
            there |= here
        fields = re.match(r"\s*000([12])\s+(\S+)\s+(\S+)\s+([0-9a-f]{8})\s+(\d+)\s+([0-9a-f]{4})", line)
        if here and fields and int(fields[5]) < MAX_AGE:
            key = Key(int(fields[1]), lsas.address(fields[2]), lsas.address(fields[3]))
            instances[key] = int(fields[4], 16), int(fields[6], 16)
    return instances if there else None


def bird_look(answers: list[str], area: int) -> DaemonView | None:
    """All that BIRD says of an area. Of the size of an LSA it says nothing."""
    database, interfaces, neighbors = answers
    listed = bird(database, area)
    inside, device = set(), ""
    for line in interfaces.splitlines():
        heading, area_line = re.match(r"Interface (\S+) ", line), re.match(r"\s+Area: (\S+)", line)
        if heading:
            device = heading[1]
        elif area_line and area_line[1] == lsas.spelled(area):
            inside.add(device)
    exchanging = set()
    for line in neighbors.splitlines():
        fields = re.match(r"([\d.]+)\s+\d+\s+([^/\s]+)\S*\s+\S+\s+(\S+)\s+([\d.]+)\s*$", line)
        if fields and fields[3] in inside and fields[2] in EXCHANGES:
            exchanging.add(Neighbor(fields[3], lsas.address(fields[4]), lsas.address(fields[1])))
    return None if listed is None else DaemonView(listed, {}, frozenset(exchanging))


# asking


class Client:
    """A daemon that is asked."""

    def __init__(self, daemon: str, socket: str | None, area: int) -> None:
        self.area = area
        self.words, option, self.list, self.all, self.read, self.read_all = LISTS[daemon]
        self.words = [self.words[0], *([option, socket] if socket else []), *self.words[1:]]

    def answer(self, question: list[str]) -> str | None:
        """What it says; none where it does not answer."""
        words = [*self.words, *question]
        try:
            done = subprocess.run(words, stdin=subprocess.DEVNULL, capture_output=True, timeout=PATIENCE, check=False)
        except subprocess.TimeoutExpired:
            return None
        return done.stdout.decode("utf-8", "replace") if done.returncode == 0 else None

    def database(self) -> Database | None:
        """What it lists; none where it does not answer."""
        answer = self.answer(self.list)
        return None if answer is None else self.read(answer, self.area)

    def look(self) -> DaemonView | None:
        """All that it says of the area; none where it does not answer."""
        answers = []
        for question in self.all:
            answer = self.answer(question)
            if answer is None:
                return None
            answers.append(answer)
        return self.read_all(answers, self.area)


def of_frr(*questions: str) -> list[str]:
    """Words by which vtysh asks several things at once."""
    return [word for question in questions for word in ("-c", f"show ip ospf {question} json")]


# How each is asked: the program, the option for its socket, the question for its list, those for all that it says, and
# who reads the answers.
LISTS = {
    "frr": (
        ["vtysh", "-d", "ospfd"],
        "--vty_socket",
        of_frr("database"),
        [of_frr("database", "database network", "interface", "neighbor")],
        frr,
        frr_look,
    ),
    "bird": (
        ["birdc", "-r"],
        "-s",
        ["show ospf lsadb"],
        [["show ospf lsadb"], ["show ospf interface"], ["show ospf neighbors"]],
        bird,
        bird_look,
    ),
}
