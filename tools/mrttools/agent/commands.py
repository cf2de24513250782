"""What tools/agent does by its words: it keeps tables until a signal comes, says how one does, or takes away what one has
left."""
from __future__ import annotations

import argparse
import json
import os

from mrttools import files, lsas
from mrttools.exits import REFUSED, ToolFault
from mrttools.lsas import Lsa
from mrttools.router import kernel
from mrttools.signals import HeldSignals, notify
from . import batch, daemon_list, exposure, lock, ospfapi, sniffer, status
from .batch import NOTHING, Linux
from .file_watch import watched
from .loop import Agent, tell
from .own_kernel import OwnKernel
from .settings import Settings
from .sniffer import HeardLsas
from .sources import SniffedSource, ApiSource
from .surroundings import Surroundings, Source

SETTINGS = "settings.json"


def kept(folder: str) -> list[Lsa]:
    """The LSAs of the table before, if there was one."""
    try:
        with open(os.path.join(folder, "area.lsas"), "rb") as file:
            return list(lsas.split(file.read()))
    except OSError:
        return []


def source_of(args: argparse.Namespace) -> Source:
    """Where LSAs come from."""
    client, source = daemon_list.Client(args.daemon, args.socket, args.area), sniffer.packet_socket()

    def sniff(known: list[Lsa]) -> SniffedSource:
        return SniffedSource(client, source, HeardLsas(args.area, args.router, known or kept(args.folder)))

    if args.daemon == "frr":
        return ApiSource(args.area, sniff, args.open_api, tell)
    return sniff([])


def refuse_exposed(args: argparse.Namespace) -> None:
    """Does not start beside an OSPF API that others can reach: who speaks to it can put LSAs into the area."""
    exposed = exposure.open_to_others(ospfapi.PORT) if args.daemon == "frr" and not args.open_api else None
    if exposed:
        raise ToolFault(f"{exposed}: close it, or say --open-api", REFUSED)


def keep(args: argparse.Namespace) -> int:
    """Keeps the router's tables."""
    waiting = HeldSignals()
    refuse_exposed(args)
    with lock.lock_folder(args.folder), lock.lock_namespace():
        files.clear_parts(args.folder)
        tell(f"the program is {args.mrt}")
        settings = Settings(os.path.join(args.folder, SETTINGS))
        watch = watched(args.profile)
        agent = Agent(args, Surroundings(OwnKernel(args.daemon), source_of(args), settings, waiting.wait, profile=watch))
        notify("READY=1")
        keep_until_end(agent, args)
    return 0


def keep_until_end(agent: Agent, args: argparse.Namespace) -> None:
    """Works until a signal comes; with --strict no table is left then."""
    try:
        agent.work()
    finally:
        notify("STOPPING=1")
        if args.strict and not args.dry_run:
            agent.take_away()


def print_status(folder: str, as_json: bool) -> int:
    facts = status.read(folder)
    print(json.dumps(facts, indent=1) if as_json else "\n".join(status.lines_of(facts)))
    return 0


def remove(folder: str) -> int:
    """Takes away the routes, rules and marks, and puts the settings back."""
    with lock.lock_folder(folder), lock.lock_namespace():
        here = Linux()
        batch.put(here, NOTHING)
        here.mark(kernel.NO_MARKING)
        Settings(os.path.join(folder, SETTINGS)).put_back()
        status.taken_away(folder)
    return 0
