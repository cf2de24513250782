"""A running network of the lab: its daemons, until they have one database, and a capture of the router that joins."""
from __future__ import annotations

import os
import subprocess
import time
from contextlib import contextmanager
from typing import Callable, Iterator

from mrttools import lsas
from mrttools.agent.daemon_list import Client
from mrttools.agent.sniffer import Database
from .daemons import Bird, Frr, Routes, Running, run_in
from .network import Network

PATIENCE = 90
QUIET = 7


class LabFault(Exception):
    """Why the lab stops."""


class Lab:
    """A running network with its daemons."""

    def __init__(self, daemon: Frr | Bird, spaces: Network, folder: str) -> None:
        self.daemon, self.spaces, self.folder = daemon, spaces, folder
        self.running: dict[int, Running] = {}

    def start(self, router: int) -> None:
        self.running[router] = self.daemon.start(self.spaces, router, self.own(router))

    def hold(self, router: int, routes: str) -> None:
        """Starts a router that has static routes of FRR."""
        assert isinstance(self.daemon, Frr)
        self.running[router] = self.daemon.hold(self.spaces, router, self.own(router), routes)

    def own(self, router: int) -> str:
        """A router's own folder."""
        folder = os.path.join(self.folder, f"r{router}")
        os.makedirs(folder, mode=0o755, exist_ok=True)
        return folder

    def stop(self) -> None:
        """Ends the daemons, with the routes that they keep."""
        for router in list(self.running):
            for process in reversed(self.running.pop(router).processes):
                process.terminate()
                process.wait()
            for protocol in ("ospf", "bird"):
                words = ["ip", "-n", self.spaces.of(router), "route", "flush", "proto", protocol]
                subprocess.run(words, stderr=subprocess.DEVNULL, check=False)

    def kill(self, router: int) -> None:
        """Has a router's daemon die."""
        for process in self.running.pop(router).processes:
            process.kill()
            process.wait()

    def databases(self, without: tuple[int, ...]) -> list[Database]:
        folders = [running.folder for router, running in self.running.items() if router not in without]
        clients = [Client(self.daemon.name.lower(), self.daemon.socket(folder), 0) for folder in folders]
        return [client.database() or {} for client in clients]

    def wait(self, without: tuple[int, ...] = ()) -> Database:
        """Waits until all routers, but for some, have had one and the same database, with all of them in it, for some
        seconds."""
        end, since, last = time.monotonic() + PATIENCE, time.monotonic(), None
        while time.monotonic() < end:
            self.look_after()
            first, *others = self.databases(without)
            routers = sum(key.kind == lsas.ROUTER for key in first)
            if first != last or routers < len(others) + 1 or any(other != first for other in others):
                since = time.monotonic()
            if time.monotonic() - since >= QUIET:
                return first
            last = first
            time.sleep(1)
        raise LabFault(f"the routers did not settle in {PATIENCE} seconds")

    def routes(self) -> dict[int, Routes]:
        return {router: self.daemon.routes(running) for router, running in self.running.items()}

    def wait_for_routes(self, wanted: dict[int, Routes]) -> None:
        """Waits until the daemons have these routes again."""
        end = time.monotonic() + PATIENCE
        while self.routes() != wanted:
            self.look_after()
            if time.monotonic() > end:
                raise LabFault(f"the routes did not come back in {PATIENCE} seconds")
            time.sleep(1)

    def look_after(self) -> None:
        """A daemon that ended is a fault, with the last lines that it wrote."""
        for router, running in self.running.items():
            for process in running.processes:
                if process.poll() is not None:
                    with open(os.path.join(running.folder, "log"), encoding="utf-8", errors="replace") as log:
                        raise LabFault(f"a daemon of r{router} ended:\n" + "".join(log.readlines()[-5:]))


@contextmanager
def capturing(spaces: Network, folder: str, name: str) -> Iterator[None]:
    """Captures OSPF on all interfaces of the router that joins."""
    log = os.path.join(folder, "tcpdump.log")
    process = run_in(
        spaces.of(spaces.plan.joiner),
        log,
        "tcpdump",
        "-Z",
        "root",
        "-U",
        "-i",
        "any",
        "-w",
        name,
        "ip",
        "proto",
        "89",
    )
    try:
        for _ in range(50):
            with open(log, encoding="utf-8") as file:
                if "listening" in file.read():
                    break
            time.sleep(0.1)
        else:
            raise LabFault("tcpdump does not listen")
        yield
    finally:
        process.terminate()
        process.wait()


def captured(lab: Lab, name: str, say: Callable[[str], None]) -> Database:
    """Starts the routers, and the one that joins last under a capture; gives the routers' database."""
    joiner, started = lab.spaces.plan.joiner, time.monotonic()
    for router in lab.spaces.plan.routers:
        if router != joiner:
            lab.start(router)
    lab.wait()
    say(f"lab: {len(lab.running)} routers have one database, after {time.monotonic() - started:.0f} seconds")
    say(f"r{joiner}$ tcpdump -i any -w {name} ip proto 89")
    with capturing(lab.spaces, lab.folder, name):
        lab.start(joiner)
        database = lab.wait()
    after = time.monotonic() - started
    say(f"lab: r{joiner} has joined; {len(lab.running)} routers have one database, after {after:.0f} seconds")
    return database
