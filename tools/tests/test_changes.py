"""A change before it is made: databases that are edited, and what two of them differ in."""
import os
import subprocess
import tempfile
import unittest
from random import Random

from mrttools import area, lsas
from mrttools.area import Area
from mrttools.exits import ToolFault
from mrttools.page import changes, client, drafts
from mrttools.page.drafts import Draft
from mrttools.program import Program
from tests.making import DATA, MRT, TOOLS
from tests.test_cuts import name, node, records_of
from tests.test_report import Written

RING = [(1, 2), (2, 3), (3, 4), (1, 4)]


def draft(links: list[tuple[int, int]] = RING, lans: list[list[int]] = []) -> Draft:
    return Draft(list(map(lsas.lsa_of, records_of(links, lans, [10]))))


def written(edited: Draft) -> Area:
    """The area of an edited database, all of whose LSAs are good."""
    found = list(lsas.split(edited.data()))
    assert all(lsas.damage(lsa) is None for lsa in found)
    return area.area_of(found)


class Edits(unittest.TestCase):
    def test_nothing(self) -> None:
        records = records_of(RING, [[1, 2]], [10])
        self.assertEqual(sorted(lsas.split(draft(RING, [[1, 2]]).data())), sorted(map(lsas.lsa_of, records)))

    def test_a_new_link(self) -> None:
        edited = draft()
        edited.add(node(1), node(3), 7)
        edited.add(node(3), node(1), 8)
        found = [bond for bond in written(edited).bonds if {bond.a, bond.b} == {node(1), node(3)}]
        self.assertEqual([(bond.data_a, bond.data_b, bond.metric_a) for bond in found], [(1, 1, 7), (2, 2, 8)])

    def test_only_what_changed_is_a_newer_instance(self) -> None:
        edited = draft()
        edited.add(node(1), node(3), 7)
        sequences = [lsa.sequence & 0xF for lsa in lsas.split(edited.data())]
        self.assertEqual(sequences, [2, 1, 2, 1])

    def test_a_link_that_goes(self) -> None:
        edited = draft(RING, [[1, 2, 3]])
        edited.remove(f"link:{name(2)}/10.0.1.2")
        edited.remove(f"link:{name(1)}/198.51.0.1")
        found = written(edited)
        self.assertEqual((len(found.bonds), found.half), (5, ()))

    def test_a_router_and_a_network_that_go(self) -> None:
        edited = draft(RING, [[1, 2, 3]])
        edited.remove(name(1))
        edited.remove("net:198.51.0.1")
        found = written(edited)
        self.assertEqual((found.nodes, len(found.bonds), found.half), ([node(2), node(3), node(4)], 2, ()))

    def test_a_metric_at_one_end(self) -> None:
        edited = draft()
        edited.set_metric(f"link:{name(2)}/10.0.0.2", 65535)
        self.assertEqual([(bond.metric_a, bond.metric_b) for bond in written(edited).bonds][0], (10, 65535))

    def test_a_link_keeps_its_services(self) -> None:
        """Metrics by type of service, which stand after a link."""
        first = records_of([(1, 2)], [], [10])[0]
        one = lsas.lsa_of(first)
        body = first[20:33] + b"\x01" + first[34:36] + bytes([8, 0, 0, 5])
        record = lsas.sealed(one, one.sequence, body)
        edited = Draft([lsas.lsa_of(record), lsas.lsa_of(records_of([(1, 2)], [], [10])[1])])
        edited.add(node(1), node(2), 3)
        self.assertIn(body[4:], edited.data())
        self.assertEqual(len(written(edited).bonds), 2)

    def test_what_is_not_there(self) -> None:
        for wrong in (
            lambda edited: edited.remove(name(9)),
            lambda edited: edited.remove("x"),
            lambda edited: edited.remove(f"link:{name(1)}/9.9.9.9"),
            lambda edited: edited.set_metric("link:1", 3),
            lambda edited: edited.router("1.2.3"),
            lambda edited: edited.add(node(1), node(1), 3),
        ):
            with self.assertRaises(ToolFault):
                wrong(draft())

    def test_a_database_with_a_fault(self) -> None:
        data = draft().data()
        zero = records_of([(1, 2)], [], [0])[0]
        for wrong in (data[:-1], data + b"x", data[:30] + b"x" + data[31:], zero):
            with self.assertRaises(ToolFault):
                drafts.whole_database(wrong)
        self.assertEqual(len(drafts.whole_database(data)), 4)

    def test_the_tool(self) -> None:
        for words, status in (
            (["--add", "10.255.1.1", "10.255.1.6", "3"], 0),
            (["--add", "10.255.1.1", "10.255.1.6", "0"], 7),
            (["--remove", "10.255.1.9"], 7),
        ):
            done = subprocess.run([f"{TOOLS}/change", *words, f"{DATA}/lan.lsas"], capture_output=True, check=False)
            self.assertEqual((done.returncode, bool(done.stdout)), (status, status == 0), done.stderr)
            self.assertEqual(done.stderr.count(b"\n"), int(status != 0))


@unittest.skipUnless(os.access(MRT, os.X_OK), "the program is not built")
class Differences(unittest.TestCase):
    def run_diff(self, old: bytes, new: bytes, *words: str, profile: str = "-") -> list[str]:
        with tempfile.TemporaryDirectory() as folder:
            names = [os.path.join(folder, each) for each in ("old", "new")]
            for each, data in zip(names, (old, new)):
                with open(each, "wb") as file:
                    file.write(data)
            command = [f"{TOOLS}/diff", "--mrt", MRT, *names, profile, *words]
            done = subprocess.run(command, stdout=subprocess.PIPE, stderr=subprocess.PIPE, text=True, check=False)
        self.assertEqual((done.returncode, done.stderr), (0, ""))
        return done.stdout.splitlines()

    def test_nothing(self) -> None:
        data = draft().data()
        self.assertEqual(self.run_diff(data, data)[-1], "nothing changed")

    def test_a_leaf_that_is_linked_twice(self) -> None:
        """A ring of four, with 5 on 1 alone and then on 3 too."""
        before = draft([*RING, (1, 5)])
        old = before.data()
        before.add(node(5), node(3), 10)
        lines = self.run_diff(old, before.data(), "--all")
        self.assertIn("links that came: 1", lines)
        self.assertIn("single points of failure that went: 2", lines)
        self.assertIn("  10.255.0.1 parts 6 pairs", lines)
        gained = lines.index("pairs that gained a repair for the first link: 5")
        self.assertEqual(
            lines[gained + 1 : gained + 6],
            ["  10.255.0.1 to 10.255.0.5", *(f"  10.255.0.5 to {name(far)}" for far in (1, 2, 3, 4))],
        )
        self.assertFalse([line for line in lines if "lost" in line])
        self.assertTrue(lines[1].startswith("after: 5 routers, 6 links, 0 single points of failure; "), lines[1])

    def test_a_router_that_goes(self) -> None:
        edited = draft()
        old = edited.data()
        edited.remove(name(4))
        lines = self.run_diff(old, edited.data())
        self.assertIn("routers that went: 1", lines)
        self.assertIn("  root 10.255.0.4 to 10.255.0.3: routers: 3".strip(), [line.strip() for line in lines])
        self.assertIn("pairs that lost their repair for the first link: 6", lines)

    def test_another_profile(self) -> None:
        data = draft().data()
        with tempfile.NamedTemporaryFile("w") as file:
            file.write(f"no-mrt {name(4)}\n")
            file.flush()
            lines = self.run_diff(data, data, file.name)
        self.assertIn("root 10.255.0.4 to none: routers: 1", lines)
        self.assertIn("pairs that lost their repair for the first link: 12", lines)

    def test_random_changes_beside_tables(self) -> None:
        """The counts of changed rows and of repairs, by the tables of both."""
        random = Random(7)
        for _ in range(4):
            with tempfile.TemporaryDirectory() as folder:
                one = Written(random, folder)
                edited = Draft(client.database(one.database))
                edited.remove_link(random.choice([bond for bond in edited.whole.bonds if bond.two_way]))
                other = os.path.join(folder, "other.lsas")
                with open(other, "wb") as file:
                    file.write(edited.data())
                sides = (
                    changes.side_of(Program(MRT, one.database, one.mrt.profile), lambda *_: None),
                    changes.side_of(Program(MRT, other, one.mrt.profile), lambda *_: None),
                )
                self.check_rows(one, other, sides)

    def check_rows(self, one: Written, other: str, sides: tuple[changes.Side, changes.Side]) -> None:
        told = changes.row_lines(*sides, None)
        for router in one.graph.routers:
            text = one.graph.nodes[router].text
            tables = [
                {line[0]: line for line in one.lines("table", each, one.mrt.profile, text)}
                for each in (one.database, other)
            ]
            both = [to for to in tables[0] if to in tables[1] and one.is_router(to)]
            for which in (0, -1):
                own = [changes.repairs(side, which % 2) for side in sides]
                for to in both:
                    pair = (one.graph.nodes[router], area.node_of(to))
                    for table, repaired in zip(tables, own):
                        self.assertEqual(repaired.get(pair, False), table[to][-1][which] != "-")
            parts = [
                sum(tables[0][to][at] != tables[1][to][at] for to in tables[0] if to in tables[1]) for at in (3, 5)
            ]
            line = next((line for line in told if line.strip().startswith(f"{text}: ")), None)
            if line is None:
                self.assertEqual(parts, [0, 0])
            else:
                self.assertIn(f"(blue {parts[0]}, red {parts[1]}, ", line)
