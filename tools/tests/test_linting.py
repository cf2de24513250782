"""What is told of a database and a profile, and a trace whose words name nothing. A stand-in for the program answers:
nothing need be built."""
import os
import subprocess
import tempfile
import unittest

from mrttools import area, linting, lsas
from tests.making import DATA, MRT, TOOLS, network_lsa, router_lsa

STAND_IN = """#!/bin/sh
case $1 in
table) [ {status} = 0 ] || {{ echo 'mrt: bad profile: words on line 3' >&2; exit {status}; }}
       echo 'router 10.255.1.1 root 10.255.1.2 nodes 7 links 8' ;;
trace) [ "$7" = 9.9.9.9 ] && echo 'refused no-such-place' || [ -z "$7" ] || echo failed
       [ "$5" = 9.9.9.9 ] && echo 'refused no-such-place' || printf 'entered 0\\ndelivered 10.255.1.1\\n' ;;
esac
"""


class Done:
    """What a tool did: its status, lines and errors."""

    def __init__(self, tool: str, *words: str, status: int = 0, program: str = "") -> None:
        with tempfile.TemporaryDirectory() as folder:
            stand_in = os.path.join(folder, "mrt")
            with open(stand_in, "w", encoding="ascii") as file:
                file.write(STAND_IN.format(status=status))
            os.chmod(stand_in, 0o755)
            command = [os.path.join(TOOLS, tool), "--mrt", program or stand_in, *words]
            done = subprocess.run(command, stdout=subprocess.PIPE, stderr=subprocess.PIPE, text=True, check=False)
        self.status, self.lines, self.errors = done.returncode, done.stdout.splitlines(), done.stderr


def findings(records: list[bytes], profile: bytes = b"") -> list[str]:
    found = list(map(lsas.lsa_of, records))
    return linting.findings(found, area.area_of(found), linting.read_profile(profile))


class Findings(unittest.TestCase):
    def setUp(self) -> None:
        self.records = [
            router_lsa("1.1.1.1", [("2.2.2.2", "10.0.0.1", 1, 1)]),
            router_lsa("2.2.2.2", [("1.1.1.1", "10.0.0.2", 1, 1)]),
        ]

    def test_none(self) -> None:
        profile = b"# priority 9.9.9.9 1\n\npriority 1.1.1.1 9\r\n\tno-mrt  2.2.2.2\nineligible 1.1.1.1 10.0.0.1\n"
        self.assertEqual(findings(self.records, profile), [])

    def test_lines_that_match_nothing(self) -> None:
        profile = b"priority 1.1.1.1 9\nno-mrt 3.3.3.3\nineligible 1.1.1.1 10.0.0.2\nineligible 2.2.2.2 10.0.0.2\n"
        self.assertEqual(
            findings(self.records, profile),
            [
                "profile line 2 matches nothing: no-mrt 3.3.3.3",
                "profile line 3 matches nothing: ineligible 1.1.1.1 10.0.0.2",
            ],
        )

    def test_a_router_without_a_link(self) -> None:
        self.assertEqual(findings(self.records + [router_lsa("3.3.3.3", [])]), ["without a link: 3.3.3.3"])

    def test_links_that_one_end_tells(self) -> None:
        links = [("2.2.2.2", "10.0.0.1", 1, 1), ("2.2.2.2", "10.0.0.5", 1, 1)]
        records = [router_lsa("1.1.1.1", links), self.records[1], network_lsa("10.1.0.2", "2.2.2.2", ["2.2.2.2"])]
        self.assertEqual(
            findings(records),
            [
                "told by one end: the link of 1.1.1.1 to 2.2.2.2 with link data 10.0.0.5",
                "told by one end: the link of net:10.1.0.2 to 2.2.2.2",
            ],
        )

    def test_what_is_named_and_not_there(self) -> None:
        gone = router_lsa("2.2.2.2", [], age=3600, sequence=0x80000009)
        self.assertEqual(
            findings(self.records + [gone]), ["without a link: 1.1.1.1", "named, but not there: router 2.2.2.2"]
        )

    def test_a_router_in_maintenance(self) -> None:
        records = [self.records[0], router_lsa("2.2.2.2", [("1.1.1.1", "10.0.0.2", 1, 65535)])]
        self.assertEqual(findings(records), ["in maintenance, and in no island: 2.2.2.2"])


class Lint(unittest.TestCase):
    def test_the_sample(self) -> None:
        done = Done("lint", f"{DATA}/lan.lsas", f"{DATA}/lan.profile")
        self.assertEqual(
            (done.status, done.lines),
            (
                1,
                [
                    "area: routers 6, networks 1, links 9",
                    "named, but not there: router 10.255.1.7",
                    "root: 10.255.1.2, of the island of 10.255.1.1 with 7 nodes and 8 links",
                ],
            ),
            done.errors,
        )

    def test_nothing_found(self) -> None:
        done = Done("lint", f"{DATA}/triangle.lsas", "-")
        self.assertEqual((done.status, len(done.lines)), (0, 2), done.errors)

    def test_what_the_program_refuses(self) -> None:
        done = Done("lint", f"{DATA}/lan.lsas", f"{DATA}/lan.cert", status=4)
        self.assertEqual((done.status, done.lines, done.errors), (4, [], "mrt: bad profile: words on line 3\n"))

    @unittest.skipUnless(os.path.exists(MRT), "the program is not built")
    def test_files_that_the_program_refuses(self) -> None:
        for words, status in (
            (("lan.cert", "lan.profile"), 3),
            (("lan.lsas", "lan.cert"), 4),
            (("lan.lsas", "lan.profile", "9.9.9.9"), 7),
        ):
            names = [f"{DATA}/{word}" for word in words[:2]] + list(words[2:])
            done = Done("lint", *names, program=MRT)
            self.assertEqual((done.status, done.lines, done.errors.count("\n")), (status, [], 1), done.errors)


class OtherPrograms(unittest.TestCase):
    """Each tool where there is no such program, and with one that ends with status 0 and says nothing, or writes what
    is no certificate."""

    WORDS = {
        "diff": ["lan.lsas", "lan.lsas", "lan.profile"],
        "draw": ["lan.lsas", "lan.profile", "10.255.1.1"],
        "fib": ["lan.lsas", "lan.profile", "10.255.1.4"],
        "lint": ["lan.lsas", "lan.profile"],
        "report": ["lan.lsas", "lan.profile"],
        "trace": ["lan.lsas", "lan.profile", "10.255.1.4", "10.255.1.1", "repair", "10.255.1.3"],
    }

    def done(self, tool: str, program: str) -> tuple[int, list[str], str]:
        words = [f"{DATA}/{word}" if word.startswith("lan") else word for word in self.WORDS[tool]]
        done = Done(tool, *words, program=program)
        return done.status, done.lines, done.errors

    def test_one_that_is_not_there_is_told_at_once(self) -> None:
        for tool in self.WORDS:
            told = f"{tool}: /nonexistent: there is no such program\n"
            self.assertEqual(self.done(tool, "/nonexistent"), (8, [], told))

    def test_one_that_says_nothing(self) -> None:
        for tool, form in (("fib", "table"), ("lint", "table"), ("trace", "trace")):
            told = f"{tool}: /bin/true {form} ended with status 0 and has written nothing\n"
            self.assertEqual(self.done(tool, "/bin/true"), (1, [], told))

    def test_what_is_no_certificate(self) -> None:
        for program in ("/bin/true", "/bin/echo"):
            for tool in ("diff", "draw", "report"):
                told = f"{tool}: what was written is no certificate\n"
                self.assertEqual(self.done(tool, program), (1, [], told))


class Trace(unittest.TestCase):
    """Failures and destinations with and without a place."""

    def trace(self, *words: str) -> Done:
        return Done("trace", f"{DATA}/lan.lsas", "-", "10.255.1.4", *words)

    def test_the_lines_are_those_of_the_program(self) -> None:
        done = self.trace("10.255.1.1", "repair", "10.255.1.3")
        self.assertEqual((done.status, done.lines), (0, ["failed", "entered 0", "delivered 10.255.1.1"]), done.errors)
        self.assertEqual(self.trace("10.255.1.1", "repair").lines, ["entered 0", "delivered 10.255.1.1"])

    def test_a_failure_that_names_nothing(self) -> None:
        done = self.trace("10.255.1.1", "repair", "9.9.9.9")
        self.assertEqual((done.status, done.lines, done.errors), (7, [], "trace: not there: 9.9.9.9\n"))

    def test_a_destination_that_names_nothing(self) -> None:
        done = self.trace("9.9.9.9", "blue", "10.255.1.3")
        self.assertEqual((done.status, done.lines), (7, []))
        self.assertEqual(done.errors, "trace: not there, or not to be entered at 10.255.1.4: 9.9.9.9\n")


if __name__ == "__main__":
    unittest.main()
