"""What the tools ask of `mrt` about an area: certificates, and what happens to packets."""
from __future__ import annotations

import tempfile
from typing import NamedTuple, Sequence

from mrttools import area, certificate, lsas
from mrttools.area import Area, Bond, Node
from mrttools.exits import REFUSED, ToolFault
from mrttools.program import Program
from .picture import Island

# A script's greatest number of packets.
ROOM = 65535


# files


def read_file(name: str) -> bytes:
    with open(name, "rb") as file:
        return file.read()


def database(name: str) -> list[lsas.Lsa]:
    return list(lsas.split(read_file(name)))


def profile(program: Program) -> bytes:
    return b"" if program.profile == "-" else read_file(program.profile)


def area_of(program: Program) -> Area:
    """The area of a program's database. Where it, or the profile, cannot be read here, mrt says why."""
    try:
        said = profile(program)
        area.ineligible(said), area.unsupported(said)
        return area.area_of(database(program.database))
    except (ValueError, IndexError) as fault:
        program.run("certify", "0.0.0.0")
        raise ToolFault(f"{program.database} or {program.profile}: {fault}", REFUSED) from None


# certificates


def certificate_of(program: Program, router: str, checked: bool) -> certificate.Certificate:
    """What mrt certify writes. It passes mrt check, by a law of the program; where it is to be checked all the same, only
    what is accepted is given."""
    data = program.run("certify", router)
    if not checked:
        return certificate.read(data)
    with tempfile.NamedTemporaryFile(suffix=".cert") as file:
        file.write(data)
        file.flush()
        program.run("check", file.name)
    return certificate.read(data)


def island_of(program: Program, whole: Area, router: str, checked: bool = False) -> Island:
    """A router's island, with its links by number as the area has them."""
    cert = certificate_of(program, router, checked)
    bonds = area.island_bonds(whole, cert.nodes, area.ineligible(profile(program)))
    if [(cert.nodes[a], cert.nodes[b]) for a, b in cert.pairs] != [(bond.a, bond.b) for bond in bonds]:
        raise ToolFault("the certificate has other links than the database", REFUSED)
    return Island(whole, cert, bonds)


# packets


class Packet(NamedTuple):
    """A packet that enters by primaries, and how many steps are asked for."""

    at: Node
    to: Node
    steps: int


def answers(
    program: Program, router: Node, before: Sequence[Packet], failed: str | None, after: Sequence[Packet]
) -> list[list[str]]:
    """What happens to each packet, by one script: some before a failure, some after it."""
    lines = [f"island {router.text} {ROOM}"]
    for number, packet in enumerate([*before, *after]):
        if failed and number == len(before):
            lines.append(f"fail {failed}")
        lines += [f"inject {packet.at.text} {packet.to.text} repair"] + [f"step {number}"] * packet.steps
    with tempfile.NamedTemporaryFile(suffix=".script") as file:
        file.write("".join(line + "\n" for line in lines).encode())
        file.flush()
        printed = iter(program.run("fabric", file.name).decode().splitlines())
    of_packets = []
    for number, packet in enumerate([*before, *after]):
        if failed and number == len(before):
            next(printed, None)
        next(printed, None)
        of_packets.append([line for _, line in zip(range(packet.steps), printed)])
        if len(of_packets[-1]) < packet.steps:
            raise ToolFault(f"{program.path} fabric has said less than was asked", REFUSED)
    return of_packets


def hop(links: dict[Node, list[Bond]], router: Node, following: Node) -> list[tuple[Node, Bond]]:
    """The links of a primary that leads to the next router, or to a network, each with the node that sends over it: the
    first ones that lead there, as all of them are of shortest ways or none."""
    for bond in links[router]:
        far = bond.far(router)
        if far == following:
            return [(router, bond)]
        if far.kind == lsas.NETWORK:
            for second in links[far]:
                if second.far(far) == following:
                    return [(router, bond), (far, second)]
    raise ValueError(f"{following.text} is not next to {router.text}")
