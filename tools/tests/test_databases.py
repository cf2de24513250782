"""Which LSAs are written: areas, newest instances, and what `mrt` would refuse."""
import os
import subprocess
import tempfile
import unittest
from random import Random

from tests import making
from tests.making import MRT, Converted, network_lsa, over_ethernet, pair, router_lsa, update

LINK = [("2.2.2.2", "10.0.0.1", 1, 1)]


class Areas(unittest.TestCase):
    def setUp(self) -> None:
        self.one, self.other = pair()
        self.capture = over_ethernet(update([self.one]), update([self.other], area="0.0.0.1"))

    def test_several_ask_for_a_choice(self) -> None:
        done = Converted(self.capture)
        self.assertEqual((done.status, done.file), (1, None))
        self.assertTrue(done.says("the areas 0.0.0.0, 0.0.0.1; choose one with --area"), done.lines)

    def test_each(self) -> None:
        self.assertEqual(Converted(self.capture, "--area", "0").file, self.one)
        done = Converted(self.capture, "--area", "0.0.0.1")
        self.assertEqual(done.file, self.other)
        self.assertTrue(done.says("not taken: 1 LSAs of area 0.0.0.0"), done.lines)

    def test_one_that_is_not_there(self) -> None:
        done = Converted(self.capture, "--area", "7")
        self.assertEqual((done.status, done.file), (1, None))
        self.assertTrue(done.says("no LSA of area 0.0.0.7"), done.lines)

    def test_a_word_that_is_no_area(self) -> None:
        for word in ("x", "1.2.3", "1.2.3.256", str(1 << 32), "-1"):
            self.assertEqual(Converted(self.capture, f"--area={word}").status, 2)

    def test_a_capture_without_updates(self) -> None:
        done = Converted(over_ethernet(making.ospf(1, bytes(20))))
        self.assertEqual((done.status, done.file), (1, None))
        self.assertTrue(done.says("it has no Link State Update"), done.lines)


class Newest(unittest.TestCase):
    """One instance of each LSA, as RFC 2328, section 13.1, says."""

    def newest(self, *records: bytes) -> bytes:
        """The file, which is the same in whatever order the records come."""
        files = {Converted(over_ethernet(update(order)), "--newest").written for order in (records, records[::-1])}
        self.assertEqual(len(files), 1)
        return files.pop()

    def test_all_are_written_without_the_option(self) -> None:
        records = [router_lsa("1.1.1.1", [], sequence=0x80000001 + number) for number in (0, 2, 1)]
        self.assertEqual(Converted(over_ethernet(*(update([record]) for record in records))).file, b"".join(records))

    def test_the_sequence_number_is_signed(self) -> None:
        old, new = (router_lsa("1.1.1.1", [], sequence=sequence) for sequence in (0x80000001, 0x7FFFFFFF))
        self.assertEqual(self.newest(old, new), new)

    def test_the_greater_checksum(self) -> None:
        records = [router_lsa("1.1.1.1", [("2.2.2.2", f"10.0.0.{number}", 1, 1)]) for number in (1, 2)]
        self.assertEqual(self.newest(*records), max(records, key=lambda record: record[16:18]))

    def test_max_age(self) -> None:
        living, gone = (router_lsa("1.1.1.1", [], age=age) for age in (5, 3600))
        self.assertEqual(self.newest(living, gone), gone)

    def test_the_younger_where_ages_are_far_apart(self) -> None:
        old, young = (router_lsa("1.1.1.1", [], age=age) for age in (1000, 99))
        self.assertEqual(self.newest(old, young), young)

    def test_the_first_where_ages_are_near(self) -> None:
        first, second = (router_lsa("1.1.1.1", [], age=age) for age in (1000, 100))
        self.assertEqual(Converted(over_ethernet(update([first, second])), "--newest").file, first)

    def test_do_not_age_is_no_age(self) -> None:
        living, gone = router_lsa("1.1.1.1", [], age=0x8000 + 3), router_lsa("1.1.1.1", [], age=0x8000 + 3600)
        self.assertEqual(self.newest(living, gone), gone)

    def test_a_later_live_instance_that_is_outranked_is_told(self) -> None:
        gone = router_lsa("1.1.1.1", LINK, age=3600, sequence=0x7FFFFFFF)
        done = Converted(over_ethernet(update([gone]), update(pair())), "--newest")
        self.assertEqual(done.file, gone + pair()[1])
        self.assertTrue(done.says("outranks a later live one: router-LSA of 1.1.1.1; capture anew"), done.lines)


class Refused(unittest.TestCase):
    """What would make `mrt` refuse the file, or compute the tables of another area."""

    def refused(self, told: str, *records: bytes, words: tuple[str, ...] = ()) -> None:
        done = Converted(over_ethernet(update(records)), *words)
        self.assertEqual((done.status, done.file, done.left), (1, None, ["area.pcap"]), done.lines)
        self.assertTrue(done.says(told), done.lines)

    def test_a_newest_instance_with_metric_0(self) -> None:
        for words in ((), ("--newest",)):
            self.refused("the newest router-LSA of 1.1.1.1 has a link with metric 0", *pair(metric=0), words=words)

    def test_an_older_instance_with_metric_0_is_left_out(self) -> None:
        newer = router_lsa("1.1.1.1", LINK, sequence=0x80000002)
        self.assertEqual(Converted(over_ethernet(update([*pair(metric=0), newer]))).file, pair()[1] + newer)

    def test_a_withdrawn_one_with_metric_0_takes_older_ones_along(self) -> None:
        gone = router_lsa("1.1.1.1", [("2.2.2.2", "10.0.0.1", 1, 0)], age=3600, sequence=0x80000002)
        self.assertEqual(Converted(over_ethernet(update([*pair(), gone]))).file, pair()[1])

    def test_stub_links_may_have_metric_0(self) -> None:
        record = router_lsa("1.1.1.1", [("10.0.0.0", "255.0.0.0", 3, 0)])
        self.assertEqual(Converted(over_ethernet(update([record]))).file, record)

    def test_a_conflict(self) -> None:
        one, other = twins()
        for words in ((), ("--newest",)):
            self.refused(
                "two newest instances of the router-LSA of 1.1.1.1 say different things; capture anew",
                one,
                other,
                words=words,
            )

    def test_a_conflict_by_age_alone(self) -> None:
        one, other = twins()
        older = (1000).to_bytes(2, "big") + other[2:]
        self.refused("try --newest", one, older)
        self.assertEqual(Converted(over_ethernet(update([one, older])), "--newest").file, one)

    def test_other_types_are_no_conflict(self) -> None:
        records = [making.lsa(5, "10.0.0.0", "1.1.1.1", body) for body in twin_bodies()]
        self.assertEqual(records[0][16:18], records[1][16:18])
        self.assertEqual(Converted(over_ethernet(update(records))).file, b"".join(records))

    def test_too_large(self) -> None:
        record = making.lsa(5, "10.0.0.0", "1.1.1.1", bytes(65000))
        packets = [making.fragments(update([record]), 1400, number) for number in range(130)]
        capture = making.pcap(making.ethernet(part) for parts in packets for part in parts)
        done = Converted(capture)
        self.assertEqual((done.status, done.file), (1, None))
        self.assertTrue(done.says("8,452,600 bytes, and mrt takes 8,388,608; try --newest"), done.lines)
        self.assertEqual(Converted(capture, "--newest").file, record)


class Summary(unittest.TestCase):
    def test_what_there_is(self) -> None:
        lan = network_lsa("10.0.0.1", "1.1.1.1", ["1.1.1.1", "3.3.3.3"])
        external = making.lsa(5, "0.0.0.0", "1.1.1.1", bytes(16))
        done = Converted(over_ethernet(update(pair()), update([lan, external]), making.ospf(1, bytes(20))))
        self.assertEqual(
            done.lines,
            [
                f"lsdb-from-pcap: {line}"
                for line in (
                    "frames 3, OSPF packets 3, Link State Updates 2",
                    "area 0.0.0.0: 4 copies of 4 LSAs: 2 router, 1 network, 1 AS-external",
                    "live: routers 2, networks 1",
                    "named, but not there: router 3.3.3.3",
                    "told by one end: the link of net:10.0.0.1 to 1.1.1.1",
                    f"written: 4 LSAs, {len(done.written)} bytes",
                )
            ],
        )

    def test_links_that_one_end_tells_and_routers_without_a_link(self) -> None:
        one, other = router_lsa("1.1.1.1", LINK), router_lsa("2.2.2.2", [("10.0.0.0", "255.0.0.0", 3, 1)])
        done = Converted(over_ethernet(update([one, other])))
        self.assertEqual(done.status, 0)
        self.assertTrue(
            done.says("told by one end: the link of 1.1.1.1 to 2.2.2.2 with link data 10.0.0.1"), done.lines
        )
        for router in ("1.1.1.1", "2.2.2.2"):
            self.assertTrue(done.says(f"without a link: {router}"), done.lines)
        done = Converted(over_ethernet(update(pair())))
        self.assertFalse(done.says("one end") or done.says("without"), done.lines)


@unittest.skipUnless(os.path.exists(MRT), "the program is not built")
class TakenByMrt(unittest.TestCase):
    """The built program never refuses the bytes of a file that is written."""

    def status(self, data: bytes) -> int:
        with tempfile.NamedTemporaryFile() as file:
            file.write(data)
            file.flush()
            return subprocess.run(
                [MRT, "certify", file.name, "-", "1.1.1.1"],
                stdout=subprocess.PIPE,
                stderr=subprocess.PIPE,
                check=False,
            ).returncode

    def test_random_records(self) -> None:
        random, written = Random(29), 0
        for _ in range(60):
            done = Converted(
                over_ethernet(*(update([some_record(random)]) for _ in range(random.randrange(1, 8)))),
                *random.choice([(), ("--newest",)]),
            )
            self.assertIn(done.status, (0, 1))
            if done.file is not None:
                written += 1
                self.assertIn(self.status(done.file), (0, 7), done.lines)
        self.assertGreater(written, 20)


def twin_bodies() -> list[bytes]:
    """Two bodies with the same Fletcher sums: they differ in a byte of 0 and one of 255, which are the same modulo
    255."""
    return [bytes(15) + bytes([last]) for last in (0, 255)]


def twins() -> list[bytes]:
    """Two router-LSAs that differ although their sequence number and checksum are the same."""
    return [router_lsa("1.1.1.1", [("2.2.2.2", f"10.0.0.{last}", 1, 1)]) for last in (0, 255)]


def some_record(random: Random) -> bytes:
    """An LSA that may be damaged before or after its checksum was made."""
    router = f"{random.randrange(1, 3)}." * 3 + "1"
    links = [
        (f"{random.randrange(1, 4)}.1.1.1", "10.0.0.1", random.randrange(1, 5), random.randrange(2))
        for _ in range(random.randrange(3))
    ]
    record = router_lsa(
        router, links, random.choice([1, 2000, 3600]), random.choice([0x80000000, 0x80000001, 0x80000002])
    )
    if random.random() < 0.3:
        record = making.lsa(
            random.randrange(1, 4), router, router, bytes(random.randrange(256) for _ in range(random.randrange(30)))
        )
    if random.random() < 0.2:
        at = random.randrange(len(record))
        record = record[:at] + bytes([random.randrange(256)]) + record[at + 1 :]
    return record
