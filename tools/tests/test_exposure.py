"""Whether others can reach a port: by the kernel's list of sockets, and by rules of nft as nft itself tells them."""
import os
import subprocess
import unittest
from typing import Any
from unittest import mock

from mrttools.agent import exposure, sockets
from mrttools.agent.exposure import are_dropped, open_to_others
from tests.spaces import inside, lacks, made

PORT = 2607
CHAIN = "chain input {; type filter hook input priority filter; policy %s; %s; };"
INET = "table inet t {; %s; };"


def base(rules: str, policy: str = "accept", more: str = "") -> str:
    return INET % (more + CHAIN % (policy, rules))


# Rules by which each packet that begins a connection from another machine is dropped, and such by which one may come in.
CLOSED = [
    base('iifname != "lo" tcp dport 2607 drop'),
    base("iif != lo tcp dport 2607 drop"),
    base('iifname != "lo" tcp dport 2607 counter log prefix "api " reject'),
    base('iifname != "lo" tcp dport { 22, 2607 } reject with tcp reset'),
    base('iifname != "lo" tcp dport 2600-2650 drop'),
    base('iifname != "lo" meta l4proto tcp th dport 2607 drop'),
    base('iifname "lo" accept; tcp dport 2607 drop'),
    base("tcp dport 2607 drop"),
    base("drop"),
    base("", "drop"),
    base(
        'iifname "lo" accept; ct state established,related accept; tcp dport 22 accept; ip protocol ospf accept',
        "drop",
    ),
    base("ct state vmap { established : accept, related : accept, invalid : drop }; udp dport 2607 accept", "drop"),
    base(
        "icmp type echo-request accept; meta l4proto { icmp, ipv6-icmp } accept; ip6 saddr fe80::/10 accept", "drop"
    ),
    base("tcp dport { 22, 179 } accept; tcp dport != 2607 accept; iifname { lo } accept", "drop"),
    base("jump mine", more="chain mine {; tcp dport 2607 drop; };"),
    base("goto mine", more="chain mine {; tcp dport 22 return; tcp dport 2607 drop; };"),
    base("ip saddr 192.0.2.0/24 drop; tcp dport 2607 drop"),
    base("ip saddr 192.0.2.0/24 jump mine; tcp dport 2607 drop", more="chain mine {; tcp dport 2607 drop; };"),
    # Another chain that accepts does not matter.
    base("accept") + INET.replace(" t ", " u ") % (CHAIN % ("accept", "tcp dport 2607 drop")),
    "table ip t {; %s; };" % (CHAIN % ("accept", 'iifname != "lo" tcp dport 2607 drop')),
]
OPEN = [
    "",
    base(""),
    base('iifname "eth0" tcp dport 2607 drop'),
    base('iifname != { "lo", "eth0" } tcp dport 2607 drop'),
    base('iifname "lo" tcp dport 2607 drop'),
    base("udp dport 2607 drop"),
    base("tcp dport 2608 drop; tcp dport != 2607 drop; tcp dport 1-2606 drop"),
    base("ip saddr 192.0.2.0/24 tcp dport 2607 drop; meta mark 5 tcp dport 2607 drop"),
    base("ip saddr 192.0.2.1 accept; tcp dport 2607 drop"),
    base("ct state established,related tcp dport 2607 drop; ct state invalid drop"),
    base("tcp dport 2607 limit rate 5/second drop"),
    base("tcp dport 2607 accept", "drop"),
    base('iifname "eth0" accept', "drop"),
    base("ct state { new, established } accept", "drop"),
    base("ct state untracked accept", "drop"),
    base("ct state vmap { established : accept, untracked : accept }", "drop"),
    base("ct state vmap { established : accept, new : accept }", "drop"),
    base("tcp flags syn accept", "drop"),
    base("jump mine; tcp dport 2607 drop", more="chain mine {; ip saddr 192.0.2.1 accept; };"),
    base("jump mine", more="chain mine {; ip daddr 192.0.2.1 return; tcp dport 2607 drop; };"),
    base("goto mine; tcp dport 2607 drop", more="chain mine {; ip daddr 192.0.2.1 return; };"),
    base("tcp dport @ports drop", more="set ports {; type inet_service; elements = { 2607 }; };"),
    "table inet t {; flags dormant; %s; };" % (CHAIN % ("accept", "tcp dport 2607 drop")),
    "table ip6 t {; %s; };" % (CHAIN % ("accept", "tcp dport 2607 drop")),
    "table ip t {; chain forward {; type filter hook forward priority 0; policy drop; }; };",
    "table ip t {; chain output {; type filter hook output priority 0; tcp dport 2607 drop; }; };",
    INET % "chain input {; tcp dport 2607 drop; };",
]
LACKS = lacks("nft")


@unittest.skipIf(LACKS, f"rules of nft are not tried: {LACKS}")
class Rules(unittest.TestCase):
    """Rules in a namespace, as this nft tells them."""

    @classmethod
    def setUpClass(cls) -> None:
        space = f"mrt-test-{os.getpid()}-rules"
        cls.enterClassContext(made(space))
        cls.enterClassContext(inside(space))

    def told(self, rules: str) -> Any:
        # (what is in a line here is one in each)
        text = "flush ruleset\n" + rules.replace("; ", "\n").replace(";", "\n")
        subprocess.run(["nft", "-f", "-"], input=text, text=True, check=True)
        return exposure.rules()

    def test_those_that_drop(self) -> None:
        for rules in CLOSED:
            with self.subTest(rules):
                self.assertTrue(are_dropped(self.told(rules), 4, PORT))
                self.assertFalse(
                    are_dropped(exposure.rules(), 4, 2609) and "2607" in rules and "policy accept" in rules
                )

    def test_those_that_may_let_in(self) -> None:
        for rules in OPEN:
            with self.subTest(rules):
                self.assertFalse(are_dropped(self.told(rules), 4, PORT))

    def test_a_statement_that_is_not_known(self) -> None:
        """It may let packets in, as `queue` does, which not every kernel has."""
        said = self.told(base("tcp dport 22 accept; tcp dport 2607 drop"))
        self.assertTrue(are_dropped(said, 4, PORT))
        accept = next(each["rule"]["expr"] for each in said["nftables"] if "rule" in each)
        for statement in ({"queue": {"num": 1}}, {"xt": None}, {"of a later nft": {}}):
            accept[:] = [{"counter": None}, statement]
            self.assertFalse(are_dropped(said, 4, PORT))

    def test_of_the_other_family(self) -> None:
        for family, dropped in (("ip6", True), ("inet", True), ("ip", False)):
            rules = self.told(f"table {family} t {{; {CHAIN % ('accept', 'tcp dport 2607 drop')}; }};")
            self.assertEqual(are_dropped(rules, 6, PORT), dropped, family)

    def test_chains_without_end(self) -> None:
        """No kernel takes them; a listing may say anything."""
        jump = {"rule": {"family": "inet", "table": "t", "chain": "input", "expr": [{"jump": {"target": "input"}}]}}
        said = self.told(base("tcp dport 2607 drop"))
        self.assertTrue(are_dropped(said, 4, PORT))
        at = next(number for number, each in enumerate(said["nftables"]) if "rule" in each)
        said["nftables"].insert(at, jump)
        self.assertFalse(are_dropped(said, 4, PORT))


class Listings(unittest.TestCase):
    def test_what_is_no_listing(self) -> None:
        wrong: list[Any] = [None, [], {}, {"nftables": 7}, {"nftables": [7]}, {"nftables": [{"chain": {}}]}]
        for said in wrong:
            self.assertFalse(are_dropped(said, 4, PORT))

    def test_no_nft(self) -> None:
        with mock.patch.object(exposure.subprocess, "run", side_effect=FileNotFoundError):
            self.assertEqual(exposure.rules(), {"nftables": []})

    def told(self, addresses: list[str], *closed: int) -> "str | None":
        """What is said where there are listeners at some addresses, and rules close some versions."""
        found = dict(enumerate(addresses))
        with mock.patch.object(sockets, "listening", lambda port: found if port == PORT else {}):
            with mock.patch.object(exposure, "rules", lambda: {"nftables": []}):
                with mock.patch.object(exposure, "are_dropped", lambda said, version, port: version in closed):
                    return open_to_others(PORT)

    def test_who_listens(self) -> None:
        self.assertIsNone(self.told([]))
        self.assertIsNone(self.told(["127.0.0.1", "127.8.8.8", "::1"]))
        self.assertIn("at 0.0.0.0,", self.told(["127.0.0.1", "0.0.0.0"]) or "")
        self.assertIn("at 192.0.2.1 ::,", self.told(["::", "192.0.2.1"]) or "")
        self.assertIsNone(self.told(["0.0.0.0"], 4))
        self.assertIn("at ::,", self.told(["::", "192.0.2.1"], 4) or "")
        self.assertIsNone(self.told(["::", "192.0.2.1"], 4, 6))


if __name__ == "__main__":
    unittest.main()
