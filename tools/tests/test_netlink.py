"""What is read by netlink is what `ip` says, in a namespace; and what is told of changes."""
import os
import select
import shutil
import subprocess
import sys
import unittest
from unittest import mock

from mrttools.agent import netlink
from mrttools.agent.netlink import News
from tests.making import TOOLS

# Run in a namespace of its own: what both readers have of it, and the news of a change.
PROGRAM = """
import tempfile
import tracemalloc
from mrttools.agent import batch, netlink
from mrttools.agent.batch import Linux
from mrttools.agent.own_kernel import OwnKernel
from mrttools.router import kernel

def run(text):
    Linux().run("ip", "-batch", "-", text=text)

run('''link set lo up
link add name a type veth peer name b
link set dev a up
address add 192.0.2.1/24 dev a
address add 192.0.2.129/32 peer 192.0.2.200 dev a
address add 198.51.100.1/24 dev b
''')
here, ip = OwnKernel("frr"), Linux()
assert not here.news().interfaces
routes = [
    f"10.0.0.1/32 via 192.0.2.9 dev a metric {kernel.AFTER_DAEMON + 30} realm 109 proto 78",
    "10.0.0.1/32 via 192.0.2.9 dev a metric 25 proto 78",
    "10.0.0.0/24 dev a scope link table 7820 proto 78",
    "0.0.0.0/0 dev a scope link table 7820 proto 78",
    *kernel.last_routes(),
]
wanted = batch.state_of(routes)
batch.put(here, wanted)
news = here.news()
assert (news.protocols, news.rules, news.interfaces) == (frozenset({78}), True, False), news
# A batch of thousands is no more than there is room for: none of it is lost, and so none taken for anything else.
run("".join(f"route add 10.{n // 250}.{n % 250}.0/24 via 192.0.2.9 proto 188 table 5\\n" for n in range(6000)))
news = here.news()
while more := here.news().protocols:
    assert more == {188}
assert (news.protocols, news.rules, news.interfaces) == (frozenset({188}), False, False), news
run("route flush table 5\\n")
while here.news().protocols:
    pass
assert here.state() == ip.state() == wanted, here.state() ^ ip.state()
ip.run("ip", "route", "add", "10.1.0.0/16", "via", "192.0.2.9", "proto", "188")
ip.run("ip", "route", "add", "10.2.0.0/16", "via", "192.0.2.9", "proto", "188", "table", "5")
ip.run("ip", "route", "add", "blackhole", "10.3.0.0/16", "proto", "188")
assert here.news().protocols == {188}
assert here.daemon_routes(frozenset({"10.1.0.0/16", "10.2.0.0/16", "10.3.0.0/16"})) == {"10.1.0.0/16"}
said = ip.told("address", "show", "up")
told = [{"ifname": each["ifname"], "addr_info": [
    {name: one[name] for name in ("local", "prefixlen", "address") if name in one} for one in each["addr_info"]]} for each in said if each]
assert here.addresses() == told, (here.addresses(), told)
ip.run("ip", "link", "set", "dev", "b", "up")
assert here.news().interfaces
ip.run("nft", "add", "table", "ip", "other")
assert here.news().marks and not here.news().marks

# What an agent has left goes, with its settings.
from mrttools.agent import commands
from mrttools.agent.settings import ROOT, Settings
folder, name = tempfile.mkdtemp(), f"{ROOT}/conf/a/accept_local"
here.mark(kernel.marking(kernel.POOL, {"a"}))
assert Settings(f"{folder}/settings.json").apply(["a"]) and open(name).read() == "1\\n"
assert commands.remove(folder) == 0
assert (here.state(), here.marks(), open(name).read()) == (batch.NOTHING, "", "0\\n")
assert here.daemon_routes(frozenset({"10.1.0.0/16"})) == {"10.1.0.0/16"}

# Of a table of the Internet what is wanted alone is kept.
many = "".join(f"route add 10.{64 + n // 250}.{n % 250}.0/24 via 192.0.2.9 proto 188\\n" for n in range(20000))
run(many)
tracemalloc.start()
assert here.daemon_routes(frozenset({"10.1.0.0/16", "10.1.0.0/24", "10.70.7.0/24"})) == {"10.1.0.0/16", "10.70.7.0/24"}
assert tracemalloc.get_traced_memory()[1] < 1 << 20, tracemalloc.get_traced_memory()
print("the same")
"""


class InANamespace(unittest.TestCase):
    def test_the_same_as_ip(self) -> None:
        if os.geteuid() != 0 or not all(map(shutil.which, ("ip", "nft", "unshare"))):
            self.skipTest("namespaces need root, ip, nft and unshare")
        words = ["unshare", "--net", sys.executable, "-c", PROGRAM]
        done = subprocess.run(words, cwd=TOOLS, capture_output=True, text=True, timeout=60, check=False)
        if "unshare failed" in done.stderr:
            self.skipTest(done.stderr)
        self.assertEqual((done.stdout, done.stderr), ("the same\n", ""))


class Messages(unittest.TestCase):
    def test_what_is_cut_is_passed_over(self) -> None:
        whole = (20).to_bytes(4, sys.byteorder) + bytes(12) + b"body"
        self.assertEqual([each.body for each in netlink.messages(whole + whole)], [b"body", b"body"])
        for bad in (whole[:-1], whole[:10], (4).to_bytes(4, sys.byteorder) + bytes(30), b""):
            self.assertEqual(list(netlink.messages(bad)), [])
        self.assertEqual(netlink.attributes(b"\x08\x00\x01\x00abcd\xff\x00\x02\x00", 0), {1: b"abcd"})

    def test_what_was_lost_may_be_anything(self) -> None:
        try:
            watch = netlink.Watch()
        except OSError as fault:
            self.skipTest(str(fault))
        self.addCleanup(watch.routing.close)
        self.addCleanup(watch.filter.close)
        self.assertEqual(select.select(watch.filenos(), [], [], 0)[0], [])
        self.assertEqual(watch.take(frozenset({78})), News())
        # (no room at all, so that what comes is lost)
        with mock.patch.object(netlink, "waiting", lambda source: ([], True)):
            self.assertEqual(watch.take(frozenset({78})), News(True, frozenset({78}), True, True))


if __name__ == "__main__":
    unittest.main()
