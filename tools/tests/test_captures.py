"""Captures of every kind that the converter reads."""
import gzip
import os
import tempfile
import unittest

import dpkt

from mrttools import capture
from tests import making
from tests.making import Converted, datagram, ethernet, over_ethernet, pair, pcap, pcapng, update


class Links(unittest.TestCase):
    """One update of two router-LSAs, over each kind of link."""

    def setUp(self) -> None:
        self.wanted = b"".join(pair())
        self.ip = datagram(update(pair()))

    def check(self, data: bytes) -> None:
        done = Converted(data)
        self.assertEqual((done.status, done.output, done.file), (0, "", self.wanted), done.lines)

    def test_ethernet(self) -> None:
        self.check(pcap([ethernet(self.ip)]))

    def test_one_vlan_tag(self) -> None:
        self.check(pcap([ethernet(self.ip, tags=1)]))

    def test_two_vlan_tags(self) -> None:
        self.check(pcap([ethernet(self.ip, tags=2)]))

    def test_raw_ip(self) -> None:
        self.check(pcap([self.ip], making.RAW))

    def test_cooked(self) -> None:
        self.check(pcap([bytes(dpkt.sll.SLL(type=4, ethtype=0x0800)) + self.ip], making.COOKED))

    def test_cooked_2(self) -> None:
        self.check(pcap([bytes(dpkt.sll2.SLL2(type=4, ethtype=0x0800)) + self.ip], making.COOKED_2))

    def test_cooked_2_with_vlan_tag(self) -> None:
        head = bytes(dpkt.sll2.SLL2(type=4, ethtype=0x8100))
        self.check(pcap([head + bytes.fromhex("00640800") + self.ip], making.COOKED_2))

    def test_pcapng_in_both_byte_orders(self) -> None:
        for order in "<>":
            self.check(pcapng([(0, ethernet(self.ip))], [making.ETHERNET], order))

    def test_pcapng_by_dpkt(self) -> None:
        with tempfile.TemporaryFile() as file:
            dpkt.pcapng.Writer(file).writepkt(ethernet(self.ip), 0)
            file.seek(0)
            self.check(file.read())

    def test_pcapng_with_two_kinds_of_link(self) -> None:
        one, other = pair()
        frames = [(0, ethernet(datagram(update([one])))), (1, datagram(update([other])))]
        self.check(pcapng(frames, [making.ETHERNET, making.RAW]))

    def test_pcapng_of_two_sections(self) -> None:
        one, other = pair()
        self.check(
            pcapng([(0, ethernet(datagram(update([one]))))], [making.ETHERNET])
            + pcapng([(0, datagram(update([other])))], [making.RAW], ">")
        )

    def test_what_is_no_ospf_is_passed_over(self) -> None:
        others = [bytes(60), datagram(b"x" * 40, protocol=17), b"", b"\x45"]
        self.check(pcap([ethernet(other) for other in others] + [ethernet(self.ip)]))

    def test_a_link_that_is_not_known(self) -> None:
        done = Converted(pcapng([(0, bytes(90)), (1, self.ip)], [195, making.RAW]))
        self.assertEqual((done.status, done.file), (0, self.wanted))
        self.assertTrue(done.says("dropped 1 frame: a kind of link that is not known here, number 195"), done.lines)


class Packets(unittest.TestCase):
    """Link State Updates that are written as they stand."""

    def test_updates_in_their_order(self) -> None:
        one, other = pair()
        updates = [update([other]), update([one, other]), update([one])]
        done = Converted(over_ethernet(*updates, making.ospf(1, bytes(20))), "--packets")
        self.assertEqual((done.status, done.file), (0, b"".join(updates)), done.lines)
        self.assertTrue(done.says(f"written: 3 Link State Updates, {len(b''.join(updates))} bytes"), done.lines)

    def test_one_area(self) -> None:
        updates = [update(pair()), update(pair(), "0.0.0.1")]
        done = Converted(over_ethernet(*updates), "--packets", "--area", "0.0.0.1")
        self.assertEqual((done.status, done.file), (0, updates[1]), done.lines)

    def test_a_line_on_each(self) -> None:
        one, other = pair()
        lan = making.network_lsa("10.0.0.1", "1.1.1.1", ["1.1.1.1"])
        done = Converted(over_ethernet(update([other, lan]), update([one])), "--packets")
        for line in (
            "packet 0, sent by 9.9.9.9: router-LSA of 2.2.2.2, network-LSA 10.0.0.1 of 1.1.1.1",
            "packet 1, sent by 9.9.9.9: router-LSA of 1.1.1.1",
        ):
            self.assertIn(f"lsdb-from-pcap: {line}", done.lines)

    def test_a_spoilt_lsa_stays(self) -> None:
        one, other = pair()
        spoilt = update([one[:-1] + bytes([one[-1] ^ 1]), other])
        done = Converted(over_ethernet(spoilt), "--packets")
        self.assertEqual((done.status, done.file), (0, spoilt), done.lines)

    def test_not_with_newest(self) -> None:
        self.assertEqual(Converted(over_ethernet(update(pair())), "--packets", "--newest").status, 2)


class Fragments(unittest.TestCase):
    """Datagrams that come in parts."""

    def setUp(self) -> None:
        self.wanted = b"".join(pair())
        self.parts = making.fragments(update(pair()), 32)

    def test_in_order(self) -> None:
        self.assertEqual(Converted(pcap(map(ethernet, self.parts))).file, self.wanted)

    def test_in_any_order_and_twice(self) -> None:
        self.assertEqual(Converted(pcap(map(ethernet, [self.parts[1], *reversed(self.parts)]))).file, self.wanted)

    def test_two_datagrams_mixed(self) -> None:
        one, other = (making.fragments(update([record]), 32, number) for number, record in enumerate(pair()))
        mixed = [part for both in zip(one, other) for part in both]
        self.assertEqual(Converted(pcap(map(ethernet, mixed))).file, self.wanted)

    def test_one_is_missing(self) -> None:
        frames = [ethernet(part) for part in self.parts[:1] + self.parts[2:]]
        done = Converted(pcap(frames + [ethernet(datagram(update(pair()[:1])))]))
        self.assertEqual((done.status, done.file), (0, pair()[0]))
        self.assertTrue(done.says("dropped 1 OSPF packet: fragments are missing"), done.lines)

    def test_as_many_as_a_link_makes(self) -> None:
        long = making.router_lsa("1.1.1.1", [("2.2.2.2", "10.0.0.1", 1, 1)] * 5400)
        parts = making.fragments(update([long]), 552)
        self.assertEqual(len(parts), 118)
        self.assertEqual(Converted(pcap(map(ethernet, parts))).file, long)

    def test_more_than_any_link_makes(self) -> None:
        frames = [ethernet(datagram(bytes(8), 1, at, True)) for at in range(0, 65528, 8)]
        done = Converted(pcap([*frames, *map(ethernet, self.parts)]))
        self.assertEqual((done.status, done.file), (0, self.wanted), done.lines)
        self.assertTrue(done.says("dropped 63 OSPF packet: more than 128 fragments"), done.lines)


class Damage(unittest.TestCase):
    """Captures and packets that are cut or changed. A good update stands beside each."""

    def check(self, frame: bytes, told: str) -> None:
        done = Converted(pcap([frame, ethernet(datagram(update(pair())))]))
        self.assertEqual((done.status, done.file), (0, b"".join(pair())), done.lines)
        self.assertTrue(done.says(told), done.lines)

    def test_a_packet_cut_by_the_capture(self) -> None:
        self.check(ethernet(datagram(update(pair())))[:70], "dropped 1 OSPF packet: cut by the capture")

    def test_a_wrong_ip_header(self) -> None:
        ip = datagram(update(pair()))
        self.check(ethernet(b"\x41" + ip[1:]), "dropped 1 OSPF packet: a wrong IP header")

    def test_a_wrong_ospf_checksum(self) -> None:
        packet = bytearray(update(pair()))
        packet[40] ^= 1
        self.check(ethernet(datagram(bytes(packet))), "dropped 1 OSPF packet: a wrong OSPF checksum")

    def test_a_wrong_ospf_length(self) -> None:
        packet = update(pair())
        self.check(
            ethernet(datagram(packet[:2] + b"\xff\xff" + packet[4:])), "dropped 1 OSPF packet: a wrong OSPF length"
        )
        self.check(ethernet(datagram(packet[:20])), "dropped 1 OSPF packet: shorter than an OSPF header")

    def test_another_version(self) -> None:
        self.check(ethernet(datagram(making.ospf(4, bytes(4), version=3))), "dropped 1 OSPF packet: OSPF version 3")

    def test_a_wrong_lsa_checksum(self) -> None:
        bad = bytearray(pair()[0])
        bad[30] ^= 1
        self.check(ethernet(datagram(update([bytes(bad)]))), "dropped 1 LSA: a wrong LSA checksum")

    def test_lsas_that_do_not_fit(self) -> None:
        record = pair()[0]
        for size in (0, 19, 200):
            wrong = record[:18] + size.to_bytes(2, "big") + record[20:]
            self.check(
                ethernet(datagram(update([wrong]))), "dropped 1 OSPF packet: an LSA that does not fit in its packet"
            )

    def test_an_update_without_a_count(self) -> None:
        self.check(
            ethernet(datagram(making.ospf(4, b"\0\0"))), "dropped 1 OSPF packet: a Link State Update without a count"
        )

    def test_the_lsas_before_one_that_does_not_fit_are_taken(self) -> None:
        packet = making.ospf(4, (3).to_bytes(4, "big") + b"".join(pair()))
        done = Converted(over_ethernet(packet))
        self.assertEqual((done.status, done.file), (0, b"".join(pair())))
        self.assertTrue(done.says("an LSA that does not fit in its packet"), done.lines)

    def test_other_faults_of_lsas(self) -> None:
        faults = {
            "the reserved sequence number": making.router_lsa("1.1.1.1", [], sequence=0x80000000),
            "two router IDs in one router-LSA": making.lsa(1, "1.1.1.1", "3.3.3.3", bytes(4)),
            "a body that does not fit its length": making.lsa(1, "3.3.3.3", "3.3.3.3", b"\0\0\0\1"),
        }
        for told, record in faults.items():
            self.check(ethernet(datagram(update([record]))), f"dropped 1 LSA: {told}")

    def test_a_network_lsa_of_a_wrong_length(self) -> None:
        record = making.lsa(2, "10.0.0.1", "1.1.1.1", bytes(7))
        self.check(ethernet(datagram(update([record]))), "dropped 1 LSA: a body that does not fit its length")

    def test_a_capture_that_ends_within_a_frame(self) -> None:
        frame = ethernet(datagram(update(pair())))
        whole = pcapng([(0, frame), (0, frame)], [making.ETHERNET])
        done = Converted(whole[:-40])
        self.assertEqual((done.status, done.file), (0, b"".join(pair())))
        self.assertTrue(done.says("the capture ends within a frame"), done.lines)
        done = Converted(pcap([frame]) + bytes(7))
        self.assertEqual((done.status, done.file), (0, b"".join(pair())))
        self.assertTrue(done.says("the capture ends within a frame"), done.lines)

    def test_a_capture_cut_anywhere_is_told(self) -> None:
        frame = ethernet(datagram(update(pair())))
        for whole in (pcap([frame, frame]), pcapng([(0, frame), (0, frame)], [1])):
            with tempfile.NamedTemporaryFile() as file:
                for cut in range(len(whole) - len(frame) - 14, len(whole)):
                    file.truncate(0)
                    os.pwrite(file.fileno(), whole[:cut], 0)
                    told: list[str] = []
                    self.assertEqual([found.data for found in capture.frames(file.name, told.append)], [frame], cut)
                    self.assertEqual(len(told), 1, cut)

    def test_a_cut_is_told_with_status_0(self) -> None:
        frame = ethernet(datagram(update(pair())))
        done = Converted(pcap([frame, frame])[:-1])
        self.assertEqual((done.status, done.file), (0, b"".join(pair())))
        self.assertTrue(done.says("the capture ends within a frame"), done.lines)

    def test_whole_captures_do_not_end_within_a_frame(self) -> None:
        frame = ethernet(datagram(update(pair())))
        for whole in (pcap([frame]), pcapng([(0, frame)], [1])):
            self.assertFalse(Converted(whole).says("within a frame"))

    def test_frames_of_any_length_are_no_memory(self) -> None:
        head = pcap([])
        for frame in (bytes(8) + b"\xff" * 8, bytes(8) + b"\0\0\0\x7f" * 2):
            done = Converted(head + frame)
            self.assertEqual((done.status, done.file, len(done.lines)), (1, None, 1), done.lines)

    def test_a_capture_of_cut_frames_says_so(self) -> None:
        frame = ethernet(datagram(update(pair())))[:100]
        done = Converted(pcap([frame, frame]))
        self.assertEqual((done.status, done.file), (1, None))
        self.assertTrue(done.says("no Link State Update that is whole, and 2 OSPF packets are cut"), done.lines)
        self.assertTrue(done.says("tcpdump -s 0"), done.lines)

    def test_compressed_captures(self) -> None:
        whole = gzip.compress(over_ethernet(update(pair())))
        done = Converted(whole)
        self.assertEqual((done.status, done.file), (0, b"".join(pair())), done.lines)
        self.assertTrue(Converted(whole[:-9]).says("the capture ends within a frame"))
        spoilt = whole[:20] + bytes(30) + whole[50:]
        self.assertEqual((Converted(spoilt).status, Converted(spoilt).file), (1, None))

    def test_files_that_are_no_captures(self) -> None:
        for data in (b"", b"LSAs", bytes(100), pcapng([], [])[:20] + b"\xff" * 8, pcapng([(3, bytes(20))], [1])):
            done = Converted(data)
            self.assertEqual((done.status, done.file, len(done.lines)), (1, None, 1), done.lines)

    def test_a_capture_that_is_not_there(self) -> None:
        done = Converted(b"", "--newest")
        self.assertEqual(done.left, ["area.pcap"])


class Authentication(unittest.TestCase):
    """Packets with a password, and with a digest after them."""

    def test_a_password(self) -> None:
        self.assertEqual(Converted(over_ethernet(update(pair(), authentication=1))).file, b"".join(pair()))

    def test_a_digest(self) -> None:
        self.assertEqual(
            Converted(over_ethernet(update(pair(), authentication=2) + b"d" * 16)).file, b"".join(pair())
        )

    def test_one_that_is_not_known(self) -> None:
        done = Converted(over_ethernet(update(pair(), authentication=3)))
        self.assertEqual((done.status, done.file), (1, None))
