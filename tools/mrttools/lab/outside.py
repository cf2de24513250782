"""What comes into the lab by an interface without OSPF: an LSA that a stranger made to be taken for another one, and LSAs
without end."""
from __future__ import annotations

import json
import signal
import struct
import subprocess
import time
from typing import Callable, Iterable, Iterator

from mrttools import lsas, updates
from mrttools.agent.loop import LACKING
from mrttools.lsas import ROUTER, STUB, Link, Lsa
from .agents import Agents, Inside
from .network import ip, router_id
from .running_network import LabFault

# The router with the interface, the interface, whose name a script would read otherwise, and its far end in the namespace
# of the wires; and in the name of which neighbor, by which address, the stranger speaks.
AT, DEVICE, FAR = 3, "odd;name", "stranger"
NEIGHBOR, ADDRESS = 2, "10.0.23.2"
# So many LSAs are different, and so many are in a packet.
DIFFERENT, IN_A_PACKET = 60_000, 60
# How many seconds they come, how many a signal may wait meanwhile, and how many bytes an agent may take for them.
LONG, HEARD, MEMORY = 3.0, 2.0, 32 << 20
# Casts datagrams of hexadecimal lines, all of them so many times.
CAST = (
    "import socket, sys; s = socket.socket(socket.AF_PACKET, socket.SOCK_DGRAM); lines = list(map(bytes.fromhex, sys.stdin)); "
    "to = (sys.argv[1], 0x0800, 0, 0, bytes.fromhex('01005e000005')); "
    "[s.sendto(line, to) for _ in range(int(sys.argv[2])) for line in lines]"
)


def forged(lsa: Lsa) -> bytes:
    """An LSA with the sequence number and checksum of another one that says something else: it has a network of the
    stranger's in place of its own, with an address of which two bytes are free."""
    links = lsas.links_of(lsa.record)
    place = next(place for place, link in enumerate(links) if link.kind == STUB)
    links[place] = Link(lsas.address("203.0.0.0"), 0xFFFFFFFF, STUB, 1)
    head = lsa.record[:24]
    for free in range(1 << 16):
        links[place] = links[place]._replace(far=lsas.address("203.0.0.0") + free)
        body = b"".join(struct.pack(">IIBBH", each.far, each.data, each.kind, 0, each.metric) for each in links)
        if len(head + body) == len(lsa.record) and lsas.sums((head + body)[2:]) == (0, 0):
            return head + body
    raise LabFault("no other LSA has that checksum")


def datagram(records: Iterable[bytes]) -> bytes:
    """An IP datagram to all routers, over one link, with a Link State Update of the neighbor."""
    payload = updates.made(lsas.address(router_id(NEIGHBOR)), list(records))
    ends = struct.pack(">II", lsas.address(ADDRESS), lsas.address("224.0.0.5"))
    head = struct.pack(">BBHHHBBH", 0x45, 0xC0, 20 + len(payload), 1, 0, 1, updates.PROTOCOL, 0) + ends
    checksum = 0xFFFF ^ updates.internet_sum(head)
    return head[:10] + struct.pack(">H", checksum) + head[12:] + payload


def empty(count: int) -> Iterator[bytes]:
    """So many LSAs of routers without links."""
    for number in range(count):
        router = lsas.address("100.64.0.0") + number
        head = struct.pack(">HBBIIiHH", 1, 2, ROUTER, router, router, 0, 0, lsas.HEADER)
        yield lsas.sealed(lsas.lsa_of(head), 1, bytes(4))


def cast(agents: Agents, datagrams: Iterable[bytes], times: int = 1) -> subprocess.Popen[str]:
    """Begins to send datagrams into the interface."""
    words = ["ip", "netns", "exec", agents.network.wires, "/usr/bin/python3", "-c", CAST, FAR, str(times)]
    process = subprocess.Popen(words, stdin=subprocess.PIPE, text=True)
    assert process.stdin
    process.stdin.write("".join(f"{each.hex()}\n" for each in datagrams))
    process.stdin.close()
    return process


def attach(agents: Agents) -> None:
    here, wires = agents.network.of(AT), agents.network.wires
    ip("-n", here, "link", "add", DEVICE, "type", "veth", "peer", "name", FAR, "netns", wires)
    ip("-n", here, "addr", "add", "192.0.2.1/24", "dev", DEVICE)
    ip("-n", here, "link", "set", DEVICE, "up")
    ip("-n", wires, "link", "set", FAR, "up")


def came(agents: Agents) -> int:
    """How many packets the interface has taken."""
    said = json.loads(Inside(agents.network.of(AT)).run("ip", "-s", "-j", "link", "show", "dev", DEVICE))
    return int(said[0]["stats64"]["rx"]["packets"])


def memory(process: int) -> int:
    """How many bytes a process has."""
    with open(f"/proc/{process}/status", encoding="ascii") as file:
        return next(int(line.split()[1]) << 10 for line in file if line.startswith("VmRSS"))


def another(agents: Agents, say: Callable[[str], None]) -> bool:
    """The neighbor's LSA as the stranger has it; whether the agent goes by the true one."""
    with open(agents.name(f"r{AT}/area.lsas"), "rb") as file:
        found = {lsa.key: lsa for lsa in lsas.split(file.read())}
    number = lsas.address(router_id(NEIGHBOR))
    true = found[lsas.Key(ROUTER, number, number)]
    record = forged(true)
    cast(agents, [datagram([record])]).wait()
    # (that an agent waits it says after a while)
    time.sleep(LACKING + 4)
    with open(agents.name(f"r{AT}/area.lsas"), "rb") as file:
        has = record in file.read()
    facts = agents.facts(AT)
    waits, is_told = facts["waits"] or "", any(DEVICE in each["what"] for each in facts["left_out"])
    say(
        f"hostile: an LSA with the number and checksum of that of r{NEIGHBOR}, from an interface without OSPF: "
        f"{'the agent has it' if has else f'the agent waits: {waits}' if waits else 'nothing comes of it'}"
    )
    say(f"hostile: that interface is called {DEVICE}: it is {'left out' if is_told else 'NOT TOLD'}")
    return is_told and not has and not waits


def without_end(agents: Agents, say: Callable[[str], None]) -> bool:
    """LSAs of routers without links; how much memory the agent takes for them, and when it hears a signal."""
    records = list(empty(DIFFERENT))
    packets = [datagram(records[at : at + IN_A_PACKET]) for at in range(0, DIFFERENT, IN_A_PACKET)]
    agent = agents.running.pop(AT)
    before, first = memory(agent.pid), came(agents)
    sender = cast(agents, packets, 1 << 20)
    time.sleep(LONG)
    more, count, began = max(0, memory(agent.pid) - before), (came(agents) - first) * IN_A_PACKET, time.monotonic()
    agent.send_signal(signal.SIGTERM)
    agent.wait()
    took = time.monotonic() - began
    sender.terminate()
    sender.wait()
    say(
        f"hostile: {count:,} LSAs in {LONG:g} s from there: the agent takes {more / 1e6:.1f} MB more, and hears SIGTERM after "
        f"{took:.1f} s"
    )
    return count > 0 and more < MEMORY and took < HEARD


def run(agents: Agents, say: Callable[[str], None]) -> bool:
    """All of it; whether nothing came of it. In the end the agent of that router is gone."""
    attach(agents)
    time.sleep(3)
    return all([work(agents, say) for work in (another, without_end)])
