"""What the agent does: where the area has changed it makes the router's table and puts what changed into the kernel. A
fault is told, and costs what hangs on it."""
from __future__ import annotations

import argparse
import contextlib
import os
import sys
import traceback
from typing import TextIO

from mrttools import files, lsas
from mrttools.exits import ToolFault, system_line
from mrttools.lsas import Lsa
from mrttools.program import Program
from mrttools.router import kernel, table
from mrttools.router.nexthops import Ways
from mrttools.router.table import Table, TableOptions
from . import batch, generations
from .batch import NOTHING, Refusal, State
from .debounce import Debounce
from .generations import Generations, Made
from .inputs import Content, Passed, Inputs
from .netlink import News
from .refused_hops import Refused
from .status import Status
from .surroundings import Surroundings

# Seconds between two looks at the kernel, whatever it tells, and at the least; those after which something is tried
# again that failed; those after which it is told what lacks, and with --strict the table goes; and those that a run of
# mrt may take.
KERNEL_EVERY, KERNEL_LEAST, RETRY, LACKING, LIMIT = 5.0, 0.5, 60.0, 10.0, 30.0
# Seconds between two writes of newer instances that say the same.
KEPT_EVERY = 2.0
# How many records at most are left out because mrt says so, and how often a table is tried without what is refused.
TRIES = 8
KINDS = "lsas", "profile", "cert"
BAD_DATABASE = 3


def tell(line: str) -> None:
    say(f"agent: {line}", sys.stderr)


def say(line: str, to: TextIO) -> None:
    """Writes a line, if there is room for it and somebody who reads: that nobody does ends no agent."""
    with contextlib.suppress(OSError):
        print(line, file=to, flush=True)


class Agent:
    """What the agent knows, and what it has put into the kernel."""

    def __init__(self, args: argparse.Namespace, surroundings: Surroundings) -> None:
        self.args, self.surroundings, self.kernel = args, surroundings, surroundings.kernel
        self.debounce = Debounce(args.quiet)
        self.inputs = Inputs(args, surroundings, self.debounce)
        self.generations = Generations(args.linger)
        self.refused = Refused()
        self.status = Status(self.name("status", "agent"), lsas.spelled(args.router), args.daemon)
        # What the kernel listed after the last change, its marks, and what these were made of.
        self.state: State = NOTHING
        self.news = News()
        self.nft, self.marks, self.devices = "", "", set[str]()
        # The interfaces that had links of the area since the agent began, by their addresses there.
        self.inside: dict[int, str] = {}
        # The prefixes to which no repair is to be, as the daemon has lost its route.
        self.gone: frozenset[str] = frozenset()
        # When it was looked at next and last, and when it was changed last.
        self.kernel_next = self.kernel_last = self.put_last = 0.0
        self.ways: tuple[Content, Ways] | None = None
        self.links: set[tuple[int, int]] = set()
        self.lacking: float | None = None
        self.fault, self.retry = "", 0.0
        self.kept, self.keep_next = self.inputs.lsas, 0.0
        self.last_line = ""
        # Whether all certificates of late are known: an agent that has just begun, or has long heard nothing, knows none.
        self.knows = False
        self.done = self.begun = False

    def name(self, kind: str, stem: str = "area") -> str:
        return os.path.join(self.args.folder, f"{stem}.{kind}")

    def tell_once(self, line: str) -> None:
        """Tells what may be so for long."""
        if line != self.last_line:
            tell(line)
        self.last_line = line

    # the kernel

    def begin(self, now: float) -> None:
        """Has the kernel end packets on colors that have no table yet, from the first moment on."""
        self.state = self.kernel.state()
        self.generations.begin(self.state, generations.read(self.name("json", "generations")), now)
        self.inputs.begin(frozenset(batch.prefix_of(line) for line in self.state if batch.is_repair(line)), now)
        if not self.args.dry_run:
            # (those of an agent before have the interfaces of the area, which are not known yet)
            marks = self.kernel.marks()
            whole = marks.count(" meta mark set ") == len(self.args.dscp)
            self.mark(kernel.NO_MARKING + marks if whole else kernel.marking(self.args.dscp, set()))
            self.put(now)
        self.begun = True
        if not self.args.dry_run:
            # (what an agent before has said is so no more)
            self.write_status(now)

    def put(self, now: float) -> int:
        """Brings the kernel to what it is to have by now; how many lines that were."""
        self.gone = self.inputs.gone(now)
        state = self.refused.without(self.generations.state(now))
        lines = batch.put(self.kernel, state - {line for line in state if self.is_gone(line)})
        for line in lines:
            say(line, sys.stdout)
        # (what is told up to here of one's own routes is in the state that there is now)
        self.news = self.news.and_then(self.kernel.news().without(kernel.PROTOCOL))
        self.state = self.kernel.state()
        self.kernel_last = self.put_last = now
        self.kernel_next = now + KERNEL_EVERY
        if lines:
            self.generations.write(self.name("json", "generations"))
            tell(f"changed: {len(lines)}")
        return len(lines)

    def is_gone(self, line: str) -> bool:
        """Whether a line is a repair to where the daemon has no route."""
        return batch.is_repair(line) and batch.prefix_of(line) in self.gone

    def put_or_refuse(self, now: float) -> int:
        """The same; next hops that the kernel refuses are left out, with what needs them."""
        for left in range(TRIES, 0, -1):
            try:
                return self.put(now)
            except Refusal as fault:
                if not left - 1 or not self.refused.learn(fault):
                    # (old routes may be over interfaces that are gone)
                    if not self.generations.old:
                        raise
                    self.generations.forget_old()
                tell(f"{fault}; tries without")
        raise Refusal("the kernel refuses again and again")

    def mark(self, nft: str) -> bool:
        """Puts the marks into the kernel, if it has not these: what is put anew counts anew."""
        if self.marks and (nft, self.kernel.marks()) == (self.nft, self.marks):
            return False
        if nft.removeprefix(kernel.NO_MARKING) != self.kernel.marks():
            self.kernel.mark(nft)
            say("nft table ip mrt", sys.stdout)
        self.nft, self.marks = nft, self.kernel.marks()
        return True

    def look_after(self, news: News, now: float) -> None:
        """Puts back what others have taken out of the kernel. Where a firewall took the marks, packets on repairs may
        circle, so that these come back whatever is seen; the routes only where all is as it was."""
        changed = kernel.PROTOCOL in news.protocols or news.rules
        if now >= self.kernel_next or ((changed or news.marks) and now >= self.kernel_last + KERNEL_LEAST):
            self.kernel_last, self.kernel_next = now, now + KERNEL_EVERY
            lost = self.mark(self.nft) if self.nft else False
            self.set()
            if self.debounce.due() is None and not self.inputs.lacks() and self.kernel.state() != self.state:
                lost = bool(self.put_or_refuse(now)) or lost
            if lost:
                tell("put back what the kernel had lost")
        elif changed or news.marks:
            self.kernel_next = min(self.kernel_next, self.kernel_last + KERNEL_LEAST)

    def set(self) -> None:
        """Keeps the settings on the interfaces of the area."""
        if self.devices:
            for name in self.surroundings.settings.apply(self.devices):
                say(f"setting {name}", sys.stdout)

    # tables

    def certified(self, profile: bytes, records: list[Lsa]) -> tuple[Program, bytes, list[Lsa]]:
        """mrt over the files of the next table, and the certificate. A record that mrt refuses is left out, and told."""
        mrt = Program(self.args.mrt, self.name("lsas", "next"), self.name("profile", "next"), LIMIT)
        files.replace(mrt.profile, profile, lasting=False)
        for _ in range(TRIES):
            files.replace(mrt.database, b"".join(lsa.record for lsa in records), lasting=False)
            try:
                certificate = mrt.run("certify", lsas.spelled(self.args.router))
            except ToolFault as fault:
                bad = record_at(records, fault.line) if fault.status == BAD_DATABASE else None
                if bad is None:
                    raise
                self.inputs.left.append(f"{lsas.key_text(bad.key)}: {fault.line}")
                records = [lsa for lsa in records if lsa is not bad]
                continue
            files.replace(self.name("cert", "next"), certificate, lasting=False)
            return mrt, certificate, records
        raise ToolFault(f"mrt refuses more than {TRIES} records", BAD_DATABASE)

    def certificate_of(self, there: Passed) -> tuple[int, str] | None:
        """The generation and the digest of what is no table."""
        mrt = Program(self.args.mrt, self.name("lsas", "passed"), self.name("profile", "passed"), LIMIT)
        files.replace(mrt.profile, there.profile, lasting=False)
        files.replace(mrt.database, b"".join(lsa.record for lsa in there.lsas), lasting=False)
        try:
            certificate = mrt.run("certify", lsas.spelled(self.args.router))
        except ToolFault:
            # (others have no certificate of it either)
            return None
        return table.generation_of(certificate, self.args.dscp), table.digest_of(certificate)

    def look_at_skipped(self, now: float) -> None:
        """Notes which certificates others may have had since the last one here."""
        passed = self.inputs.acted()
        if not self.knows or passed is None:
            self.generations.skip(now)
        else:
            for certificate in filter(None, map(self.certificate_of, passed)):
                self.generations.skip(now, *certificate)
        self.knows = True

    def look_ahead(self, now: float) -> None:
        """A router that changes too often is waited for, but not with rows whose generation others may give to another
        certificate by now."""
        self.debounce.early.first = None
        if self.generations.made and not self.inputs.lacks() and not self.args.dry_run:
            inputs = self.inputs
            certificate = self.certificate_of(Passed(inputs.lsas, inputs.bodies, inputs.profile))
            if certificate and self.generations.clashes(*certificate, now):
                self.act(now)

    def ways_of(self, content: Content) -> Ways:
        """The ways by a certificate that mrt has checked; those of before where only the daemon's routes are others."""
        if self.ways is None or self.ways[0] != content:
            mrt, certificate, records = self.certified(content.profile, self.inputs.lsas)
            tell(mrt.lines("check", self.name("cert", "next"))[0])
            self.ways = content, Ways(mrt, records, self.args.router, certificate)
            self.refused = Refused()
        return self.ways[1]

    def table(self, now: float) -> tuple[Table, Ways]:
        ways = self.ways_of(self.inputs.content())
        options = TableOptions(True, self.args.prefixes, True, self.args.dscp)
        return table.table_of(ways, self.inputs.daemon(now), options), ways

    def install(self, now: float) -> None:
        """Makes the table and puts it into the kernel."""
        before = self.ways
        made, ways = self.table(now)
        state = batch.state_of(made.routes)
        if self.args.dry_run:
            print(*batch.changes(self.kernel.state(), state), sep="\n")
            self.done = True
            return
        if self.ways is not before:
            # (in a part that this router was cut off from there may have been any)
            old = set(before[1].place) if before else set()
            self.knows = self.knows and (not before or len(set(ways.place) - old) <= len(old))
            self.look_at_skipped(now)
        links = self.inputs.own_links()
        owners = {entry.prefix: entry.owners for entry in made.entries}
        digest = table.digest_of(ways.certified)
        is_other = self.generations.made is None or self.generations.made.digest != digest
        line = self.generations.take(
            Made(digest, made.generation, state, owners), self.state, bool(self.links - links), now
        )
        if line:
            tell(line)
        self.links, self.devices = links, self.inputs.interfaces.of(ways.own_addresses())
        self.inside = self.inside_by(ways)
        self.mark(kernel.marking(self.args.dscp, set(self.inside.values())))
        self.set()
        self.put_or_refuse(now)
        self.status.installed(made, digest, is_other, self.left_out(made))

    def inside_by(self, ways: Ways) -> dict[int, str]:
        """The interfaces of the area. One whose link is away counts on, as that may come back before there is a table with
        it, and what comes by it on a color is to end then; but not one that has other addresses now."""
        names, own = self.inputs.interfaces.names or {}, ways.own_addresses()
        found = self.inside | {address: name for address, name in names.items() if address in own}
        there = set(names.values())
        return {address: name for address, name in found.items() if names.get(address) == name or name not in there}

    def left_out(self, made: Table) -> dict[str, str]:
        """What has no repair, and why."""
        left = dict(made.left) | {record.split(": ")[0]: record.split(": ", 1)[1] for record in self.inputs.left}
        left |= {f"interface {name!r}": "a name that is not taken" for name in self.inputs.interfaces.odd}
        return left | self.refused.told()

    def keep_files(self, now: float) -> None:
        """Keeps what the table is made of, for the time after a new start of the machine as well."""
        for kind in KINDS:
            files.copy(self.name(kind, "next"), self.name(kind))
        # (of the LSAs there may be newer instances by now)
        self.kept, self.keep_next = [], now

    def keep(self, now: float) -> None:
        """Keeps newer instances that say the same, with which an agent that is started again begins."""
        settled = self.ways and self.debounce.due() is None and not self.inputs.lacks() and not self.fault
        if settled and self.inputs.lsas is not self.kept and now >= self.keep_next:
            self.kept, self.keep_next = self.inputs.lsas, now + KEPT_EVERY
            # (that often the disk is not waited for)
            files.replace(self.name("lsas"), b"".join(lsa.record for lsa in self.kept), lasting=False)

    def take_back(self, now: float) -> None:
        """Takes the table away. Packets on colors end here from then on: they never go on by primaries."""
        self.generations.clear(now)
        self.ways = None
        self.status.bare()
        self.put(now)

    def take_away(self) -> None:
        """Takes away all that the agent has put into the kernel, and puts the settings back."""
        batch.put(self.kernel, NOTHING)
        self.kernel.mark(kernel.NO_MARKING)
        self.surroundings.settings.put_back()
        self.status.bare()
        with contextlib.suppress(OSError):
            self.write_status(self.surroundings.clock())

    # the work

    def act(self, now: float) -> None:
        """Makes what there is into a table. A fault leaves the last good one, or with --strict none."""
        if self.inputs.lacks():
            return
        if self.inputs.soft_lacks(now):
            self.debounce.note(now)
            return
        before = self.ways
        first, last = self.debounce.acted(now, (key.router for key in self.inputs.bodies))
        self.install(now)
        self.fault = self.last_line = ""
        after = self.surroundings.clock()
        if self.ways is not before:
            self.status.took(after - now, after - first, after - last, self.generations.whole(after) - after)
        self.write_status(after)
        if not self.args.dry_run:
            self.keep_files(now)

    def failed(self, line: str, now: float) -> None:
        self.fault, self.retry = line, now + RETRY
        self.tell_once(f"{line}; the last table {'goes' if self.args.strict else 'stays'}, and it is tried again")
        self.lose(now)

    def lose(self, now: float) -> None:
        """With --strict no table is left where something is wrong."""
        try:
            if self.args.strict and self.generations.made:
                self.take_back(now)
            self.write_status(now)
        except (ToolFault, OSError) as fault:
            self.tell_once(f"{fault}: the table or the status is another one")

    def look_at_lacks(self, now: float) -> None:
        """Tells what lacks, if that has been so for a while; with --strict the table goes then."""
        lacks = self.inputs.lacks()
        if not lacks:
            if self.lacking is not None:
                self.lacking, self.last_line = None, ""
            return
        self.lacking = now if self.lacking is None else self.lacking
        if now - self.lacking >= LACKING:
            self.knows = False
            first, *others = lacks
            line = f"waits: {first}" + (f", and {len(others)} more" if others else "")
            if line != self.last_line:
                self.tell_once(line)
                self.lose(now)

    def withdraw(self, now: float) -> None:
        """Takes out the repairs whose route the daemon has lost, whether a table can be made or not."""
        if self.begun and not self.args.dry_run and self.inputs.gone(now) != self.gone:
            self.put_or_refuse(now)

    def write_status(self, now: float) -> None:
        lacks = self.inputs.lacks()
        waits = self.fault or (lacks[0] if lacks else "")
        dampened = [lsas.spelled(router) for router in self.debounce.dampened(now)]
        self.status.write(self.surroundings.source.name(), waits, dampened)

    def step(self) -> float:
        """Does what is to be done; when to look again at the latest. Whatever fails, the next look is another one."""
        now = self.surroundings.clock()
        for work in (self.look, self.look_at_lacks, self.withdraw):
            try:
                work(now)
            except ToolFault as fault:
                self.failed(fault.line, now)
            except OSError as fault:
                self.failed(system_line(fault), now)
            except Exception as fault:  # pylint: disable=broad-except
                self.failed(f"{fault!r} {traceback.format_tb(fault.__traceback__)[-1].strip()}", now)
        return self.next(now)

    def look(self, now: float) -> None:
        """Looks once, and does what is due."""
        if not self.begun:
            self.begin(now)
        news, self.news = self.news.and_then(self.kernel.news()), News()
        self.inputs.look(news, now)
        if self.fault and now >= self.retry:
            self.retry = now + RETRY
            self.debounce.note(now)
        due = self.debounce.due()
        ahead = self.debounce.early.due()
        if due is not None and now >= due:
            self.act(now)
        elif ahead is not None and now >= ahead:
            self.look_ahead(now)
        if not self.args.dry_run:
            following = self.generations.next(self.put_last)
            if following is not None and now >= following:
                self.put_or_refuse(now)
            self.look_after(news, now)
            self.keep(now)
            if self.status.facts["source"] != self.surroundings.source.name():
                self.write_status(now)

    def next(self, now: float) -> float:
        """When something is to be done, whatever comes."""
        if not self.begun:
            return now + 1
        # (as long as something lacks nothing is made of what changes, however it is due)
        lacks = self.inputs.lacks()
        due, ahead = (now + 1, None) if lacks else (self.debounce.due(), self.debounce.early.due())
        times = [self.kernel_next, self.inputs.next(now), due, ahead, self.generations.next(now)]
        return min(time for time in times if time is not None)

    def work(self) -> None:
        """Until a signal comes; with --dry-run until there is a table."""
        while not self.done:
            until = self.step()
            if not self.done:
                sources = [*self.kernel.filenos(), *self.surroundings.source.filenos()]
                self.surroundings.wait(sources, until - self.surroundings.clock())


def record_at(records: list[Lsa], line: str) -> Lsa | None:
    """The record that mrt means, by where it says that it lies."""
    words = line.split(" ")
    if "at" not in words[:-1] or not words[words.index("at") + 1].isdecimal():
        return None
    at, place = int(words[words.index("at") + 1]), 0
    for lsa in records:
        place += len(lsa.record)
        if at < place:
            return lsa
    return None
