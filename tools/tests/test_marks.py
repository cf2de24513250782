"""The marks of tools/fib in a real kernel, in namespaces. This needs root, iproute2 and nftables."""
import os
import shutil
import subprocess
import time
import unittest

from mrttools import lsas
from mrttools.lab.agents import Inside
from mrttools.router import kernel
from tests.making import found

SEND = "import socket; s = socket.socket(type=socket.SOCK_DGRAM); s.bind(('10.0.0.1', 0)); s.sendto(b'x', ('10.0.0.2', 9))"


def run(*words: str, text: str = "") -> str:
    done = subprocess.run(words, input=text, stdout=subprocess.PIPE, stderr=subprocess.PIPE, text=True, check=True)
    return done.stdout


class SettingsOfTheScript(unittest.TestCase):
    """What the script of tools/fib sets, in a namespace: on the area's interfaces alone, and what counted for the others
    goes on counting."""

    PROGRAM = """
set -e
ip link add name inside type veth peer name customer
ip address add 192.0.2.1/24 dev inside
cd /proc/sys/net/ipv4/conf
for each in all/rp_filter all/send_redirects customer/send_redirects; do echo 1 > $each; done
echo 0 > customer/rp_filter
sh -e
cd /proc/sys/net/ipv4/conf
for each in all/rp_filter inside/rp_filter customer/rp_filter default/rp_filter all/send_redirects inside/send_redirects \\
    customer/send_redirects inside/accept_local customer/accept_local inside/ignore_routes_with_linkdown; do
    echo $each $(cat $each)
done
"""

    def test_settings(self) -> None:
        if os.geteuid() != 0 or not all(map(shutil.which, ("ip", "unshare"))):
            self.skipTest("namespaces need root, ip and unshare")
        words = ["unshare", "--net", "sh", "-c", self.PROGRAM]
        given = kernel.settings([lsas.address("192.0.2.1"), lsas.address("198.51.100.1")])
        done = subprocess.run(words, input=given, capture_output=True, text=True, check=False)
        if "unshare failed" in done.stderr:
            self.skipTest(done.stderr)
        self.assertEqual(done.stderr, "")
        found = dict(line.split() for line in done.stdout.splitlines())
        wanted = {"all/rp_filter": "0", "inside/rp_filter": "0", "customer/rp_filter": "1", "default/rp_filter": "1"}
        wanted |= {"all/send_redirects": "0", "inside/send_redirects": "0", "customer/send_redirects": "1"}
        wanted |= {
            "inside/accept_local": "1",
            "customer/accept_local": "0",
            "inside/ignore_routes_with_linkdown": "1",
        }
        self.assertEqual(found, wanted)


class Marks(unittest.TestCase):
    """A packet from a to b, over r."""

    def setUp(self) -> None:
        if os.geteuid() != 0 or not (shutil.which("ip") and shutil.which("nft")):
            self.skipTest("namespaces need root, ip and nft")
        for name in "abr":
            self.addCleanup(self.end, name)
        try:
            self.join()
        except subprocess.CalledProcessError as fault:
            self.skipTest(f"no such namespaces here: {fault.stderr}")

    def join(self) -> None:
        for name in "abr":
            run("ip", "netns", "add", self.space(name))
        for name, net, own in (("a", "192.0.2", "10.0.0.1"), ("b", "198.51.100", "10.0.0.2")):
            far = ["peer", "name", "to-r", "netns", self.space(name)]
            self.ip("r", "link", "add", f"to-{name}", "type", "veth", *far)
            for space, device, address in (("r", f"to-{name}", f"{net}.2/30"), (name, "to-r", f"{net}.1/30")):
                self.ip(space, "address", "add", address, "dev", device)
                self.ip(space, "link", "set", device, "up")
            self.ip(name, "link", "set", "lo", "up")
            self.ip(name, "address", "add", f"{own}/32", "dev", "lo")
            self.ip(name, "route", "add", "default", "via", f"{net}.2")
        self.inside("r", "sh", text=kernel.settings(map(lsas.address, ("192.0.2.2", "198.51.100.2"))))
        self.inside("r", "nft", "-f", "-", text=kernel.marking(kernel.POOL, set()))

    def end(self, name: str) -> None:
        subprocess.run(["ip", "netns", "del", self.space(name)], stderr=subprocess.DEVNULL, check=False)

    def space(self, name: str) -> str:
        return f"mrt-test-{os.getpid()}-{name}"

    def ip(self, name: str, *words: str) -> None:
        run("ip", "-n", self.space(name), *words)

    def inside(self, name: str, *words: str, text: str = "") -> str:
        return run("ip", "netns", "exec", self.space(name), *words, text=text)

    def marked(self, back: list[str]) -> int:
        """How many packets got the mark of blue, where the way on is a repair on blue."""
        self.ip("r", "route", "add", "10.0.0.2/32", "via", "198.51.100.1", "realm", str(kernel.REALMS[0]))
        self.ip("r", "route", "add", "10.0.0.1/32", "via", "192.0.2.1", *back)
        self.inside("a", "/usr/bin/python3", "-c", SEND)
        for _ in range(20):
            said = self.inside("r", "nft", "list", "chain", "ip", "mrt", "write")
            count = int(found(r"counter packets (\d+)", said)[1])
            if count:
                break
            time.sleep(0.05)
        return count

    def test_a_repair(self) -> None:
        self.assertEqual(self.marked([]), 1)

    def test_the_way_back_is_a_repair_too(self) -> None:
        self.assertEqual(self.marked(["realm", str(kernel.REALMS[1])]), 1)

    def test_whether_they_are_there(self) -> None:
        """What they counted is no difference."""
        here = Inside(self.space("r"))
        before = here.marks()
        self.assertIn("chain write", before)
        self.assertEqual((self.marked([]), here.marks()), (1, before))
        # (and as they are listed they can be put there again)
        here.mark(kernel.NO_MARKING + before)
        self.assertEqual(here.marks(), before)
        self.inside("r", "nft", "flush", "ruleset")
        self.assertEqual(here.marks(), "")


if __name__ == "__main__":
    unittest.main()
