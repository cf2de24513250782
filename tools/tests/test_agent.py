"""What changes in a kernel, that a batch that fails in its middle leaves what was there or nothing, and the words of
tools/agent."""
import json
import os
import subprocess
import tempfile
import unittest

from mrttools import program
from mrttools.agent import batch
from mrttools.agent.batch import NOTHING, Refusal, State
from mrttools.exits import READ_FAULT, ToolFault
from mrttools.router import kernel
from mrttools.router.kernel import TABLES
from tests.kernels import ModelKernel
from tests.making import TOOLS

# The first generation's.
BLUE, RED = TABLES[:2]
ROUTES = [
    f"10.0.0.1/32 via 192.0.2.1 dev a metric {kernel.AFTER_DAEMON + 30} realm 101 proto 78",
    f"10.0.0.1/32 via 192.0.2.1 dev a table {BLUE} proto 78",
    f"10.0.0.1/32 via 192.0.2.2 dev b table {RED} proto 78",
    f"10.0.0.2/32 via 192.0.2.2 dev b metric {kernel.AFTER_DAEMON + 30} realm 102 proto 78",
    f"10.0.0.2/32 via 192.0.2.1 dev a table {RED} proto 78",
]
OTHERS = [
    f"10.0.0.1/32 via 192.0.2.2 dev b metric {kernel.AFTER_DAEMON + 30} realm 102 proto 78",
    f"10.0.0.1/32 via 192.0.2.3 dev c table {RED} proto 78",
    f"203.0.113.0/24 dev c scope link table {RED} proto 78",
]


class Batches(unittest.TestCase):
    def states(self) -> list[State]:
        states = [batch.state_of(routes + kernel.last_routes()) for routes in (ROUTES, OTHERS, ROUTES[:3])]
        return [NOTHING, batch.bare(), *states]

    def test_from_each_state_to_each(self) -> None:
        for have in self.states():
            for wanted in self.states():
                router = ModelKernel(have)
                lines = batch.put(router, wanted)
                self.assertEqual((router.state(), bool(lines)), (wanted, have != wanted))
                self.assertLessEqual(router.batches, 1)

    def test_what_stays_is_not_touched(self) -> None:
        have, wanted = batch.state_of(ROUTES), batch.state_of(ROUTES[:4] + OTHERS[:1])
        self.assertEqual(
            batch.changes(have, wanted), [f"route replace {OTHERS[0]}", f"route del 10.0.0.2/32 table {RED} proto 78"]
        )

    def test_no_repair_without_its_row(self) -> None:
        """After each line of a batch, each repair's color has a row of its prefix."""
        for have in self.states():
            for wanted in self.states():
                lines, router = batch.changes(have, wanted), ModelKernel(have)
                for line in lines:
                    router.batch([line])
                    state = router.state()
                    for repair in filter(batch.is_repair, state):
                        prefix, color = repair.split(" ")[1], int("realm 102" in repair)
                        row = f"route {prefix} table {TABLES[color]} proto 78"
                        self.assertIn(row, map(batch.place, state), (line, repair))

    def test_a_batch_that_fails_in_its_middle(self) -> None:
        """Wherever it fails, the kernel has what it had."""
        for have in self.states():
            for wanted in self.states():
                for at in range(len(batch.changes(have, wanted))):
                    router = ModelKernel(have)
                    router.left = at
                    with self.assertRaises(ToolFault) as caught:
                        batch.put(router, wanted)
                    self.assertEqual(router.state(), have)
                    self.assertIn("the routes are as they were", str(caught.exception))

    def test_where_it_cannot_be_undone_nothing_is_left(self) -> None:
        class Stubborn(ModelKernel):
            def batch(self, lines: list[str]) -> None:
                if any(line.startswith("route replace") for line in lines) and self.batches:
                    self.batches += 1
                    raise Refusal("ip: refused")
                super().batch(lines)

        have, wanted = batch.state_of(ROUTES), batch.state_of(OTHERS)
        for at in range(1, len(batch.changes(have, wanted))):
            router = Stubborn(have)
            router.left = at
            with self.assertRaises(ToolFault) as caught:
                batch.put(router, wanted)
            self.assertIn(
                (router.state(), str(caught.exception)),
                [
                    (NOTHING, "ip: refused; all routes are taken away"),
                    (have, "ip: refused; the routes are as they were before"),
                ],
            )

    def test_an_interface_that_goes_before_the_batch(self) -> None:
        """What was there cannot come back then. Packets on colors end: they never go on by primaries."""

        class Gone(ModelKernel):
            def batch(self, lines: list[str]) -> None:
                self.lines = {place: line for place, line in self.lines.items() if " dev b " not in line}
                for line in lines:
                    if " replace " in line and " dev b " in line:
                        raise Refusal("ip: Network is down")
                    if " del " in line and line.replace(" del ", " ") not in self.lines:
                        raise Refusal("ip: No such process")
                    super().batch([line])

        have = batch.state_of(ROUTES + kernel.last_routes())
        router = Gone(have)
        with self.assertRaises(Refusal) as caught:
            batch.put(router, batch.state_of(ROUTES[:1] + kernel.last_routes()))
        self.assertEqual(router.state(), batch.bare())
        self.assertIn("all repairs are taken away", str(caught.exception))

    def test_a_kernel_that_takes_nothing_is_told(self) -> None:
        router = ModelKernel(batch.state_of(ROUTES))
        router.left, router.mends = 2, False
        with self.assertRaises(ToolFault) as caught:
            batch.put(router, batch.state_of(OTHERS))
        self.assertIn("ROUTES ARE LEFT", str(caught.exception))


class Words(unittest.TestCase):
    """Routes and rules as the kernel tells them are those that were given."""

    def test_routes(self) -> None:
        said = """[
            {"dst":"10.0.0.1","gateway":"192.0.2.1","dev":"a","table":"7811","flags":[]},
            {"dst":"10.0.0.1","gateway":"192.0.2.2","dev":"b","metric":3355443230,"flags":["linkdown"],"flow":{"to":"102"}},
            {"type":"7","dst":"default","dev":"lo","table":"7812","metric":4294967295,"flags":[]},
            {"dst":"203.0.113.0/24","dev":"c","table":"7812","scope":"253","flags":[]},
            {"dst":"default","dev":"c","table":"7812","scope":"253","flags":[]}]"""
        wanted = [ROUTES[1], OTHERS[0], kernel.last_routes()[1], OTHERS[2]]
        wanted.append(f"0.0.0.0/0 dev c scope link table {RED} proto 78")
        self.assertEqual([batch.route_of(each) for each in json.loads(said)], wanted)

    def test_rules(self) -> None:
        said = """[{"priority":0,"src":"all","table":"local"},
            {"priority":7811,"src":"all","fwmark":"0x1000000","fwmask":"0x1f000000","table":"7811"},
            {"priority":7826,"src":"all","fwmark":"0x10000000","fwmask":"0x1f000000","table":"7826"},
            {"priority":7811,"src":"all","fwmark":"0x1e83","table":"7811"},
            {"priority":100,"src":"all","fwmark":"0x1/0xff","table":"5"}]"""
        self.assertEqual([batch.number_of(each) for each in json.loads(said)], [None, 0, 15, None, None])


class TheProgram(unittest.TestCase):
    """Which program the agent runs, where it is given the script of a checkout, of an archive, of what is installed."""

    def setUp(self) -> None:
        place = tempfile.TemporaryDirectory()
        self.addCleanup(place.cleanup)
        self.folder = os.path.realpath(place.name)
        self.script = self.made("share/semborui/mrt")
        self.inside = os.path.join(self.folder, "share/semborui/crates/mrt/out/mrt")
        os.makedirs(os.path.join(self.folder, "share/semborui/crates/mrt/data"))

    def made(self, name: str) -> str:
        path = os.path.join(self.folder, name)
        os.makedirs(os.path.dirname(path), exist_ok=True)
        with open(path, "w", encoding="ascii") as file:
            file.write("#!/bin/sh\nexit 70\n")
        os.chmod(path, 0o755)
        return path

    def refused(self) -> None:
        words = ["--dry-run", "--mrt", self.script, "bird", "-", "1.1.1.1", os.path.join(self.folder, "x")]
        done = subprocess.run([f"{TOOLS}/agent", *words], capture_output=True, text=True, timeout=9, check=False)
        self.assertEqual(done.returncode, READ_FAULT)
        self.assertEqual(done.stderr, f"agent: {self.inside}: there is no such program\n")

    def test_the_script_of_a_checkout(self) -> None:
        self.made("libexec/semborui/mrt")
        self.made("share/semborui/crates.txt")
        self.refused()
        self.made("share/semborui/crates/mrt/out/mrt")
        self.assertEqual(program.built(self.script), self.inside)

    def test_the_script_of_an_archive(self) -> None:
        self.made("share/semborui/crates/mrt/out/mrt")
        self.assertEqual(program.built(self.script), self.inside)

    def test_what_is_installed(self) -> None:
        installed = self.made("libexec/semborui/mrt")
        link = os.path.join(self.folder, "mrt")
        os.symlink("share/semborui/mrt", link)
        self.assertEqual(program.built(link), installed)

    def test_a_program(self) -> None:
        self.assertEqual(program.built(self.made("other/mrt")), os.path.join(self.folder, "other/mrt"))


class TheTool(unittest.TestCase):
    def test_words(self) -> None:
        for words in (
            (),
            ("frr", "-", "1.1.1"),
            ("ios", "-", "1.1.1.1", "x"),
            ("--dscp", "3,3", "frr", "-", "1.1.1.1", "x"),
            ("--status", "frr", "-", "1.1.1.1", "x"),
            ("--status", "--remove", "x"),
        ):
            done = subprocess.run([f"{TOOLS}/agent", *words], capture_output=True, check=False)
            self.assertEqual(done.returncode, 2, words)


if __name__ == "__main__":
    unittest.main()
