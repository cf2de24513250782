"""How the tools run mrt: once, or many times side by side, within a time."""
import contextlib
import os
import socket
import tempfile
import time
import unittest
from typing import Mapping, Sequence
from unittest import mock

from mrttools import library, program
from mrttools.agent import batch
from mrttools.agent.batch import Linux, Refusal
from mrttools.area import Node
from mrttools.exits import ToolFault
from mrttools.library import libmrt
from mrttools.lsas import NETWORK, ROUTER
from mrttools.program import Program

STAND_IN = """#!/bin/sh
case $5 in
refuse*) exit 13 ;;
fault) exit 3 ;;
hang) echo $$ > "$0.pid"; exec sleep 60 ;;
esac
[ "$1" != hang ] || exec sleep 60
echo "$1 $2 $3"
seq 20000 | sed "s/^/$4 $5 /"
"""


class Running(unittest.TestCase):
    def setUp(self) -> None:
        place = tempfile.TemporaryDirectory()
        self.addCleanup(place.cleanup)
        self.path = os.path.join(place.name, "mrt")
        with open(self.path, "w", encoding="ascii") as file:
            file.write(STAND_IN)
        os.chmod(self.path, 0o755)

    def text(self, one: str, other: str) -> bytes:
        lines = ["proxy db pf", *(f"{one} {other} {number}" for number in range(1, 20001))]
        return "".join(f"{line}\n" for line in lines).encode()

    def words_of(self, number: str) -> str:
        """The words of a process, if it is there."""
        try:
            with open(f"/proc/{number}/cmdline", encoding="ascii") as file:
                return file.read()
        except OSError:
            return ""

    def test_many_at_once(self) -> None:
        """Each has its own place, and of one status there is none."""
        words = [("a", f"refuse{n}" if n % 3 == 0 else f"b{n}") for n in range(20)]
        found = dict(Program(self.path, "db", "pf").many("proxy", words, untold=13))
        self.assertEqual(found, {n: None if n % 3 == 0 else self.text(*each) for n, each in enumerate(words)})
        self.assertEqual(list(Program(self.path, "db", "pf").many("proxy", [], untold=13)), [])

    def test_another_status(self) -> None:
        with self.assertRaises(ToolFault) as caught:
            list(Program(self.path, "db", "pf").many("proxy", [("a", "fault")], untold=13))
        self.assertEqual(caught.exception.status, 3)

    def test_what_is_not_there_in_time_is_left_out(self) -> None:
        """And nothing of it goes on."""
        words, began = [("a", "b"), ("a", "hang")], time.monotonic()
        found = dict(Program(self.path, "db", "pf", limit=1).many("proxy", words, untold=13))
        self.assertEqual(found, {0: self.text("a", "b")})
        self.assertLess(time.monotonic() - began, 20)
        with open(f"{self.path}.pid", encoding="ascii") as file:
            number = file.read().strip()
        self.assertNotIn("sleep", self.words_of(number))

    def test_a_run_that_takes_too_long(self) -> None:
        with self.assertRaisesRegex(ToolFault, "hang took more than 0.5 seconds"):
            Program(self.path, "db", "pf", limit=0.5).run("hang")

    def test_a_program_of_the_system_that_hangs(self) -> None:
        began = time.monotonic()
        with mock.patch.object(batch, "LIMIT", 0.5), self.assertRaisesRegex(Refusal, "it took more than 0.5 seconds"):
            Linux().run("sleep", "20")
        self.assertLess(time.monotonic() - began, 15)

    def test_the_watchdog_waits_for_each_run_alone(self) -> None:
        name = os.path.join(os.path.dirname(self.path), "notify")
        told = self.enterContext(contextlib.closing(socket.socket(socket.AF_UNIX, socket.SOCK_DGRAM)))
        told.bind(name)
        told.settimeout(5)
        self.enterContext(mock.patch.dict(os.environ, {"NOTIFY_SOCKET": name}))
        mrt = Program(self.path, "db", "pf")
        for work in (
            lambda: mrt.run("certify", "x"),
            lambda: list(mrt.many("proxy", [("a", "b")], untold=13)),
            lambda: Linux().run("true"),
        ):
            work()
            self.assertEqual(told.recv(100), b"WATCHDOG=1")

    def test_what_a_refusal_says(self) -> None:
        with open(self.path, "a", encoding="ascii") as file:
            file.write("echo why >&2; exit 5\n")
        with open(os.devnull, "w", encoding="ascii") as nowhere, contextlib.redirect_stderr(nowhere):
            with self.assertRaises(ToolFault) as caught:
                Program(self.path, "db", "pf").run("certify", "x", "y")
        self.assertEqual((caught.exception.status, caught.exception.line, str(caught.exception)), (5, "why", ""))


class StandIn:
    """A library that answers with the words and what their files hold."""

    def run(self, words: Sequence[bytes], files: Mapping[bytes, bytes]) -> bytes:
        if words[-1] == b"hang":
            time.sleep(2)
        if words[-1].startswith(b"refuse"):
            raise libmrt.Refused(libmrt.Status.NO_COMMON_BLOCK, "mrt: no common block")
        if words[-1] == b"fault":
            raise libmrt.Refused(libmrt.Status.BAD_DATABASE, "mrt: bad database: length at 0")
        return b" ".join(files.get(word, word) for word in words)

    def proxy(
        self, given: libmrt.Area, router: int, pairs: Sequence[tuple[int, int]]
    ) -> list[libmrt.ProxyRow | libmrt.Refused]:
        """The hop over which a pair goes has its numbers, and the length of the LSAs as its link data."""
        if (9, 9) in pairs:
            time.sleep(2)
        if (8, 8) in pairs:
            raise libmrt.Refused(libmrt.Status.NO_MEMORY, "mrt: no memory")
        return [self.proxy_row(router, len(given.lsas), *pair) for pair in pairs]

    def proxy_row(self, router: int, data: int, one: int, other: int) -> libmrt.ProxyRow | libmrt.Refused:
        if one == 0:
            return libmrt.Refused(libmrt.Status(other), "mrt: no row")
        hop = libmrt.Hop(libmrt.Node(libmrt.Kind.NETWORK, other), data)
        return libmrt.ProxyRow(None if one == router else hop, hop)


class Here(unittest.TestCase):
    """The same by the library."""

    def setUp(self) -> None:
        place = tempfile.TemporaryDirectory()
        self.addCleanup(place.cleanup)
        self.database = os.path.join(place.name, "db")
        with open(self.database, "w", encoding="ascii") as file:
            file.write("LSAs")
        self.enterContext(mock.patch.object(program, "library_for", lambda path: StandIn()))

    def mrt(self, limit: float | None = None) -> Program:
        return Program("/bin/false", self.database, "-", limit)

    def test_one(self) -> None:
        self.assertEqual(self.mrt().run("table", "1.1.1.1"), b"table LSAs - 1.1.1.1")
        self.assertEqual(self.mrt().lines("lfa", "1.1.1.1"), ["lfa LSAs 1.1.1.1"])

    def test_what_a_refusal_says(self) -> None:
        with open(os.devnull, "w", encoding="ascii") as nowhere, contextlib.redirect_stderr(nowhere):
            with self.assertRaises(ToolFault) as caught:
                self.mrt().run("certify", "fault")
        told = caught.exception.status, caught.exception.line, str(caught.exception)
        self.assertEqual(told, (3, "mrt: bad database: length at 0", ""))

    def test_many(self) -> None:
        words = [("a", f"refuse{n}" if n % 3 == 0 else f"b{n}") for n in range(20)]
        wanted = {n: None if n % 3 == 0 else f"proxy LSAs - a b{n}".encode() for n in range(20)}
        self.assertEqual(dict(self.mrt().many("proxy", words, untold=13)), wanted)
        self.assertEqual(list(self.mrt().many("proxy", [], untold=13)), [])
        with self.assertRaises(ToolFault) as caught:
            list(self.mrt().many("proxy", [("a", "fault")], untold=13))
        self.assertEqual(caught.exception.status, 3)

    def test_own_rows(self) -> None:
        """Many are asked for in parts; two without a common block have none, and what else is refused is left out."""
        router, node = Node(1, ROUTER), [Node(n, ROUTER) for n in range(100)]
        hop = [(Node(n, NETWORK), 4) for n in range(100)]
        wanted: dict[library.Pair, library.OwnRow | None] = {
            (node[n % 7 + 1], node[n]): (None if n % 7 == 0 else hop[n], hop[n]) for n in range(1, 100)
        }
        refused = {(node[0], node[status]): None for status in (7, 13)}
        pairs = [*wanted, *refused]
        self.assertGreater(len(pairs), 2 * program.SHARE)
        self.assertEqual(self.mrt().own_rows(router, pairs), {**wanted, (node[0], node[13]): None})
        self.assertEqual(self.mrt().own_rows(router, []), {})
        both = [(node[2], node[3])] * program.SHARE
        for last in (8, 9):
            found = self.mrt(0.5).own_rows(router, [*both, (node[last], node[last])])
            self.assertEqual(found, {(node[2], node[3]): (hop[3], hop[3])})

    def test_without_a_library_there_are_no_own_rows(self) -> None:
        with mock.patch.object(program, "library_for", lambda path: None):
            self.assertEqual(self.mrt().own_rows(Node(1, ROUTER), [(Node(1, ROUTER), Node(2, ROUTER))]), {})

    def test_what_takes_too_long(self) -> None:
        found = dict(self.mrt(0.5).many("proxy", [("a", "b"), ("a", "hang")], untold=13))
        self.assertEqual(found, {0: b"proxy LSAs - a b"})
        with self.assertRaisesRegex(ToolFault, "trace took more than 0.5 seconds"):
            self.mrt(0.5).run("trace", "hang")

    def test_what_can_be_read_once_is_read_by_the_program(self) -> None:
        reading, writing = os.pipe()
        self.addCleanup(os.close, reading)
        self.addCleanup(os.close, writing)
        pipe = Program("/bin/echo", f"/dev/fd/{reading}", "-")
        self.assertEqual(pipe.run("table", "1.1.1.1"), f"table /dev/fd/{reading} - 1.1.1.1\n".encode())

    def test_a_file_that_is_not_there(self) -> None:
        self.assertEqual(
            library.files_of([self.database, f"{self.database}.no", "-"]), {self.database.encode(): b"LSAs"}
        )


class Found(unittest.TestCase):
    """Which library is taken for which program."""

    def test_another_program_has_none(self) -> None:
        with mock.patch.object(library, "of", lambda root: root):
            self.assertIsNone(program.library_for("/bin/false"))
            self.assertEqual(program.library_for(program.MRT), program.ROOT)
            self.assertEqual(program.library_for(program.program_in(program.ROOT)), program.ROOT)

    def test_a_checkout_without_one_takes_none_that_is_installed(self) -> None:
        with tempfile.TemporaryDirectory() as root, open(os.path.join(root, "crates.txt"), "w", encoding="ascii"):
            self.assertIsNone(library.of(root))

    def test_what_is_no_library(self) -> None:
        with tempfile.TemporaryDirectory() as root:
            os.makedirs(os.path.join(root, "crates", "mrt_c", "out"))
            with open(os.path.join(root, "crates", "mrt_c", "out", "libmrt.so.1"), "w", encoding="ascii") as file:
                file.write("text")
            self.assertIsNone(library.of(root))


if __name__ == "__main__":
    unittest.main()
