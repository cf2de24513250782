"""The program `mrt`, as the tools run it: in this process, where its library is there."""
from __future__ import annotations

import argparse
import os
import selectors
import shutil
import signal
import subprocess
import sys
import tempfile
import time
from collections import deque
from concurrent import futures
from contextlib import closing
from typing import IO, Collection, Generator, Iterator, Sequence, TypeVar

from . import library
from .area import Node
from .exits import READ_FAULT, REFUSED, ToolFault
from .signals import alive

ROOT = os.path.dirname(os.path.dirname(os.path.dirname(os.path.realpath(__file__))))
MRT = os.path.join(ROOT, "mrt")


def add_option(parser: argparse.ArgumentParser, default: str = MRT) -> None:
    parser.add_argument("--mrt", default=default, help="the program, if not ./mrt")


def refuse_without(path: str) -> None:
    """Says before anything is done that there is no such program."""
    if not shutil.which(path):
        raise ToolFault(f"{path}: there is no such program", READ_FAULT)


def file_of(path: str) -> str:
    return os.path.realpath(shutil.which(path) or path)


def program_in(root: str) -> str:
    """The program of a folder that has the script."""
    path = os.path.join(root, "crates", "mrt", "out", "mrt")
    if not os.path.exists(path) and not os.path.exists(os.path.join(root, "crates.txt")):
        path = os.path.realpath(os.path.join(root, "..", "..", "libexec", "semborui", "mrt"))
    return path


def built(path: str) -> str:
    """The program itself where a path is that of the script, which proves and builds where its sources are newer: no
    router is to do that while it runs."""
    refuse_without(path)
    root = os.path.dirname(file_of(path))
    if not os.path.isdir(os.path.join(root, "crates", "mrt")):
        return path
    program = program_in(root)
    refuse_without(program)
    return program


def library_for(path: str) -> library.Library | None:
    """The library that does what a program does: that of the tools' own program alone, as others may be others."""
    own = [file_of(MRT), file_of(program_in(ROOT))]
    return library.of(ROOT) if file_of(path) in own else None


# What asks the library, one for each processor: who waits for an answer can go on without it.
WORKERS = futures.ThreadPoolExecutor(os.cpu_count() or 1)
# How many prefixes at two routers the library is asked for at once: few enough for all processors to have some.
SHARE = 32

T = TypeVar("T")


class Program:
    """mrt over one database and one profile. Where a limit is given, no run takes more than so many seconds."""

    def __init__(self, path: str, database: str, profile: str, limit: float | None = None) -> None:
        refuse_without(path)
        self.path, self.database, self.profile, self.limit = path, database, profile, limit
        self.library = library_for(path)

    def run(self, command: str, *words: str) -> bytes:
        """What a command writes. Where it refuses, its line is told, and the tool ends with the status."""
        words = (self.database, *words) if command == "lfa" else (self.database, self.profile, *words)
        # (of several runs one after another the watchdog waits for each alone)
        alive()
        try:
            answer = self.answer(command, *words)
        except (subprocess.TimeoutExpired, futures.TimeoutError):
            raise self.too_slow(command) from None
        if answer.status != 0:
            sys.stderr.buffer.write(answer.line)
            raise ToolFault("", answer.status, answer.line.decode("utf-8", "replace").strip())
        return answer.text

    def answer(self, *words: str) -> library.Answer:
        if self.library and library.are_plain(words):
            asked = WORKERS.submit(library.answer, self.library, words, library.files_of(words))
            return asked.result(self.limit)
        done = subprocess.run(
            [self.path, *words],
            stdin=subprocess.DEVNULL,
            stdout=subprocess.PIPE,
            stderr=subprocess.PIPE,
            timeout=self.limit,
            check=False,
        )
        return library.Answer(done.returncode, done.stdout, done.stderr)

    def too_slow(self, command: str) -> ToolFault:
        return ToolFault(f"{self.path} {command} took more than {self.limit:g} seconds", REFUSED)

    def lines(self, command: str, *words: str) -> list[str]:
        """The lines that a command writes, of which there is one at least."""
        lines = self.run(command, *words).decode("ascii").splitlines()
        if not lines:
            raise ToolFault(f"{self.path} {command} ended with status 0 and has written nothing", REFUSED)
        return lines

    def many(self, command: str, each: Sequence[tuple[str, ...]], untold: int) -> Iterator[tuple[int, bytes | None]]:
        """What a command writes for each of several words, by their place, as it comes; none where it refuses with the
        one status. Where a limit is given, what is not there by then is left out."""
        alive()
        if self.library and library.are_plain([self.database, self.profile]):
            return self.many_here(self.library, command, each, untold)
        return self.many_by_shells(command, each, untold)

    def many_here(
        self, own: library.Library, command: str, each: Sequence[tuple[str, ...]], untold: int
    ) -> Iterator[tuple[int, bytes | None]]:
        """The same by the library, on all processors."""
        given = command, self.database, self.profile
        files = library.files_of(given[1:])
        asked = {
            WORKERS.submit(library.answer, own, [*given, *words], files): place for place, words in enumerate(each)
        }
        with closing(self.as_completed(asked)) as done:
            for one in done:
                said = one.result()
                if said.status not in (0, untold):
                    raise ToolFault(f"mrt {command} ended with status {said.status}", said.status)
                yield asked[one], None if said.status else said.text

    def as_completed(self, asked: Collection[futures.Future[T]]) -> Generator[futures.Future[T], None, None]:
        """What the library has answered, as it comes."""
        try:
            yield from futures.as_completed(asked, self.limit)
        except futures.TimeoutError:
            pass
        finally:
            for one in asked:
                one.cancel()

    def own_rows(
        self, router: Node, pairs: Sequence[library.Pair]
    ) -> dict[library.Pair, library.OwnRow | None]:
        """What a router itself installs for prefixes at two routers each, none for two that have no common block: by
        the library, which makes one island for many of them. What it does not answer, in time or at all, is left out;
        where there is no library, that is all."""
        if not self.library or not library.are_plain([self.database, self.profile]):
            return {}
        alive()
        words = [self.database] if self.profile == "-" else [self.database, self.profile]
        given = self.library, words, library.files_of(words), router
        shares = [pairs[first : first + SHARE] for first in range(0, len(pairs), SHARE)]
        asked = [WORKERS.submit(library.own_rows, *given, share) for share in shares]
        return {pair: row for one in self.as_completed(asked) for pair, row in one.result().items()}

    def many_by_shells(
        self, command: str, each: Sequence[tuple[str, ...]], untold: int
    ) -> Iterator[tuple[int, bytes | None]]:
        """The same by the program. A shell for each processor runs it again and again: to start it is most of what it
        takes."""
        shells = [Shell(self, command, each, first) for first in range(min(len(each), os.cpu_count() or 1))]
        end = time.monotonic() + self.limit if self.limit else None
        try:
            with selectors.DefaultSelector() as selector:
                for shell in shells:
                    selector.register(shell.output, selectors.EVENT_READ, shell)
                while selector.get_map() and not (end and time.monotonic() > end):
                    for key, _ in selector.select(end and max(0, end - time.monotonic())):
                        yield from key.data.take(untold)
                        if not key.data.waiting:
                            selector.unregister(key.fileobj)
        finally:
            for shell in shells:
                shell.stop()


class Shell:
    """A shell that runs a command for every n-th of several words, one after another."""

    LOOP = 'while read -r words; do "$1" "$2" "$3" "$4" $words; echo "status $?"; done'
    STATUS = b"\nstatus "

    def __init__(self, mrt: Program, command: str, each: Sequence[tuple[str, ...]], first: int) -> None:
        step = min(len(each), os.cpu_count() or 1)
        # (what was read begins with the end of a line, and has been looked through up to a place)
        self.command, self.read, self.seen = command, b"\n", 0
        self.waiting = deque(range(first, len(each), step))
        with tempfile.TemporaryFile("w+") as given:
            given.writelines(" ".join(each[place]) + "\n" for place in self.waiting)
            given.seek(0)
            words = ["sh", "-c", self.LOOP, "sh", mrt.path, command, mrt.database, mrt.profile]
            self.process = subprocess.Popen(
                words, stdin=given, stdout=subprocess.PIPE, stderr=subprocess.DEVNULL, start_new_session=True
            )
        assert self.process.stdout is not None
        self.output: IO[bytes] = self.process.stdout

    def take(self, untold: int) -> Iterator[tuple[int, bytes | None]]:
        """What has come whole."""
        part = os.read(self.output.fileno(), 1 << 18)
        if not part:
            raise ToolFault(f"mrt {self.command} was cut off", REFUSED)
        self.read += part
        while (at := self.read.find(self.STATUS, self.seen)) >= 0 and (end := self.read.find(b"\n", at + 1)) >= 0:
            text, status = self.read[1 : at + 1], int(self.read[at + len(self.STATUS) : end])
            self.read, self.seen = self.read[end:], 0
            if status not in (0, untold):
                raise ToolFault(f"mrt {self.command} ended with status {status}", status)
            yield self.waiting.popleft(), None if status else text
        self.seen = max(0, len(self.read) - 2 * len(self.STATUS))

    def stop(self) -> None:
        """Ends it, with what it runs."""
        if self.process.poll() is None:
            os.killpg(self.process.pid, signal.SIGKILL)
        self.process.wait()
        self.output.close()
