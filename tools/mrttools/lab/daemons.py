"""The daemons of the lab, FRR and BIRD: how one is started in a namespace, and its database and routes."""
from __future__ import annotations

import contextlib
import json
import os
import re
import shutil
import subprocess
import time
from typing import NamedTuple

from .network import LAN, Interface, Network, Plan, router_id

# The next hops to each prefix: interface and gateway, which is empty where the prefix is attached.
Routes = dict[str, set[tuple[str, str]]]


class Running(NamedTuple):
    """A daemon's processes, and where it is asked."""

    processes: list[subprocess.Popen[bytes]]
    folder: str


def run_in(space: str, log: str, *words: str) -> subprocess.Popen[bytes]:
    """Starts a program in a namespace, with what it says in a file."""
    with open(log, "ab") as file:
        return subprocess.Popen(
            ["ip", "netns", "exec", space, *words], stdin=subprocess.DEVNULL, stdout=file, stderr=file
        )


def answer(*words: str) -> str:
    """What a daemon's client prints; nothing as long as the daemon does not answer."""
    done = subprocess.run(words, stdout=subprocess.PIPE, stderr=subprocess.DEVNULL, text=True, check=False)
    return done.stdout if done.returncode == 0 else ""


class Frr:
    """zebra and ospfd for each router; or zebra and staticd, with static routes."""

    name = "FRR"
    # Milliseconds from a change to the shortest paths; none for FRR's own timers, which grow from change to change.
    spf_delay: int | None = None
    needs = ["/usr/lib/frr/zebra", "/usr/lib/frr/ospfd", "vtysh"]
    # Those whom it answers, beside a root with all rights.
    groups = "frr,frrvty"
    # ospfd tells of its database by an interface of its own (`ospfapi`).
    options = {"ospfd": ["--apiserver"]}

    def version(self) -> str:
        return answer("/usr/lib/frr/ospfd", "--version").split("\n", 1)[0]

    def start(self, network: Network, router: int, folder: str) -> Running:
        return self.run(network.of(router), folder, {"ospfd": self.configuration(network.plan, router)})

    def hold(self, network: Network, router: int, folder: str, routes: str) -> Running:
        """Starts a router with static routes and no routing protocol."""
        return self.run(network.of(router), folder, {"staticd": routes})

    def run(self, space: str, folder: str, configurations: dict[str, str]) -> Running:
        # The daemons give up root's rights for those of the user frr.
        shutil.chown(folder, "frr", "frr")
        processes = []
        door = f"{folder}/zserv.api"
        with contextlib.suppress(FileNotFoundError):
            os.unlink(door)
        for name, text in {"zebra": "", **configurations}.items():
            write(f"{folder}/{name}.conf", text)
            files = ["-f", f"{folder}/{name}.conf", "-i", f"{folder}/{name}.pid", "-z", door]
            words = [f"/usr/lib/frr/{name}", *self.options.get(name, []), *files]
            words += ["--vty_socket", folder, "-P", "0", "--log", "stdout"]
            processes.append(run_in(space, f"{folder}/log", *words))
            # The others look for zebra when they start, and then after ten seconds.
            for _ in range(50):
                if os.path.exists(door):
                    break
                time.sleep(0.1)
        return Running(processes, folder)

    def configuration(self, plan: Plan, router: int) -> str:
        lines = [f"hostname r{router}", "interface lo", " ip ospf area 0"]
        for interface in plan.interfaces(router):
            lines += [
                f"interface {interface.name}",
                " ip ospf area 0",
                f" ip ospf cost {interface.metric}",
                " ip ospf hello-interval 1",
                " ip ospf dead-interval 4",
            ]
            on_lan, between_two = f" ip ospf priority {int(interface.designated)}", " ip ospf network point-to-point"
            lines.append(on_lan if interface.far == LAN else between_two)
        lines += ["router ospf", f" ospf router-id {router_id(router)}"]
        if self.spf_delay is not None:
            lines.append(f" timers throttle spf {self.spf_delay} {self.spf_delay} {self.spf_delay}")
        lines += [" max-metric router-lsa administrative"] if router in plan.maintenance else []
        return "\n".join(lines + [""])

    def ask(self, running: Running, question: str) -> str:
        return answer("vtysh", "--vty_socket", self.socket(running.folder), "-d", "ospfd", "-c", question)

    def socket(self, folder: str) -> str:
        """Where a client reaches the daemon."""
        return folder

    def routes(self, running: Running) -> Routes:
        said = json.loads(self.ask(running, "show ip ospf route json") or "{}")
        return {prefix: {frr_hop(hop) for hop in route["nexthops"]} for prefix, route in said.items()}


def frr_hop(hop: dict[str, str]) -> tuple[str, str]:
    """A next hop of FRR's JSON."""
    return (hop["via"], hop["ip"]) if "via" in hop else (hop["directlyAttachedTo"], "")


class Bird:
    """bird for each router."""

    name = "BIRD"
    needs = ["bird", "birdc"]
    groups = "bird"

    def version(self) -> str:
        return subprocess.run(["bird", "--version"], stderr=subprocess.PIPE, text=True, check=False).stderr.strip()

    def start(self, network: Network, router: int, folder: str) -> Running:
        write(f"{folder}/bird.conf", self.configuration(network.plan, router))
        files = ["-c", f"{folder}/bird.conf", "-s", f"{folder}/bird.ctl", "-P", f"{folder}/bird.pid"]
        return Running([run_in(network.of(router), f"{folder}/log", "bird", "-f", *files)], folder)

    def configuration(self, plan: Plan, router: int) -> str:
        lines = [
            f"router id {router_id(router)};",
            "protocol device { }",
            "protocol kernel { ipv4 { export all; }; }",
            "protocol ospf v2 lab {",
            *(["    stub router yes;"] if router in plan.maintenance else []),
            "    area 0 {",
            *(f"        stubnet {prefix};" for prefix in plan.loopbacks(router)),
        ]
        lines += [self.interface(interface) for interface in plan.interfaces(router)]
        return "\n".join(lines + ["    };", "}", ""])

    def interface(self, interface: Interface) -> str:
        kind = f"broadcast; priority {int(interface.designated)}" if interface.far == LAN else "ptp"
        return f'        interface "{interface.name}" {{ type {kind}; cost {interface.metric}; hello 1; dead 4; }};'

    def ask(self, running: Running, question: str) -> str:
        return answer("birdc", "-s", self.socket(running.folder), question)

    def socket(self, folder: str) -> str:
        """Where a client reaches the daemon."""
        return f"{folder}/bird.ctl"

    def routes(self, running: Running) -> Routes:
        found: Routes = {}
        prefix = ""
        for line in self.ask(running, "show route protocol lab").splitlines():
            route = re.match(r"(\d\S+/\d+)\s", line)
            via, attached = re.match(r"\s+via (\S+) on (\S+)", line), re.match(r"\s+dev (\S+)", line)
            if route:
                prefix = route[1]
                found[prefix] = set()
            elif via:
                found[prefix].add((via[2], via[1]))
            elif attached:
                found[prefix].add((attached[1], ""))
        return found


def write(name: str, text: str) -> None:
    with open(name, "w", encoding="ascii") as file:
        file.write(text)


DAEMONS: dict[str, Frr | Bird] = {"frr": Frr(), "bird": Bird()}
