"""The agent's settings of the kernel, its locks, what a signal does, and what it says of itself."""
import argparse
import fcntl
import json
import os
import signal
import socket
import stat
import subprocess
import sys
import tempfile
import threading
import time
import unittest
from unittest import mock

from mrttools import files, signals
from mrttools.agent import batch, commands, exposure, file_watch, lock, loop, status
from mrttools.agent.settings import Settings
from mrttools.exits import REFUSED, ToolFault
from mrttools.router import table
from tests.making import MRT, TOOLS
from tests.spaces import lacks
from tests.standing import Place, WithAgent


def write(name: str, text: str) -> None:
    with open(name, "w", encoding="ascii") as file:
        file.write(text)


class KernelSettings(unittest.TestCase):
    def setUp(self) -> None:
        place = tempfile.TemporaryDirectory()
        self.addCleanup(place.cleanup)
        self.place = Place(place.name)

    def test_on_the_interfaces_of_the_area_alone(self) -> None:
        """A customer's interface keeps its filter, and so does one that comes later."""
        settings, before = Settings(self.place.kept, self.place.root), self.place.read()
        settings.apply(["to-r2", "to-r4"])
        found = self.place.read()
        for device in ("to-r2", "to-r4"):
            self.assertEqual((found[f"conf/{device}/rp_filter"], found[f"conf/{device}/accept_local"]), ("0", "1"))
            self.assertEqual(found[f"conf/{device}/ignore_routes_with_linkdown"], "1")
        for device in ("customer", "default", "to-r3"):
            own = {name: value for name, value in found.items() if f"/{device}/" in name}
            self.assertEqual(own, {name: value for name, value in before.items() if f"/{device}/" in name})
        self.assertEqual((found["conf/all/rp_filter"], found["ip_forward"]), ("0", "1"))
        self.assertEqual(settings.apply(["to-r2", "to-r4"]), [])

    def test_what_counted_by_all_counts_by_itself(self) -> None:
        for device in ("customer", "default"):
            self.place.write(f"conf/{device}/rp_filter", "0")
        before, settings = self.place.read(), Settings(self.place.kept, self.place.root)
        settings.apply(["to-r2"])
        self.assertEqual(self.place.read()["conf/customer/rp_filter"], "1")
        self.assertEqual(settings.apply(["to-r2"]), [])
        settings.put_back()
        self.assertEqual(self.place.read(), before)

    def test_watched_and_put_back(self) -> None:
        before, settings = self.place.read(), Settings(self.place.kept, self.place.root)
        settings.apply(["to-r2", "to-r4"])
        self.place.write("conf/to-r2/rp_filter", "2")
        self.assertEqual(settings.apply(["to-r2", "to-r4"]), ["conf/to-r2/rp_filter"])
        # An interface that is not of the area any more; and an agent that is started again knows what was.
        settings = Settings(self.place.kept, self.place.root)
        settings.apply(["to-r4"])
        self.assertEqual(self.place.read()["conf/to-r2/rp_filter"], "1")
        settings.put_back()
        self.assertEqual(self.place.read(), before)

    def test_what_others_set_meanwhile(self) -> None:
        """On other interfaces and on `all` it counts, and stays."""
        self.place.write("conf/customer/rp_filter", "0")
        settings = Settings(self.place.kept, self.place.root)
        settings.apply(["to-r2"])
        self.place.write("conf/customer/rp_filter", "2")
        self.assertEqual(settings.apply(["to-r2"]), [])
        self.place.write("conf/all/rp_filter", "2")
        settings.apply(["to-r2"])
        found = self.place.read()
        self.assertEqual((found["conf/all/rp_filter"], found["conf/to-r3/rp_filter"]), ("0", "2"))
        settings.put_back()
        found = self.place.read()
        read = [found[f"conf/{device}/rp_filter"] for device in ("all", "customer", "to-r2", "to-r3")]
        self.assertEqual(read, ["2", "2", "1", "1"])

    def test_a_machine_that_was_started_anew(self) -> None:
        """Its settings began anew: what they were before that is no more."""
        settings = Settings(self.place.kept, self.place.root)
        settings.apply(["to-r2"])
        self.assertEqual(Settings(self.place.kept, self.place.root).before, settings.before)
        with mock.patch("mrttools.agent.settings.boot", return_value="another"):
            self.assertEqual(Settings(self.place.kept, self.place.root).before, {})

    def test_no_interface_is_without_its_filter(self) -> None:
        """Not for a moment: of `all` and its own the greater counts."""
        self.place.write("conf/customer/rp_filter", "0")
        settings = Settings(self.place.kept, self.place.root)
        write, least = settings.write, []

        def watched(name: str, value: str) -> None:
            write(name, value)
            found = self.place.read()
            least.append(max(found["conf/all/rp_filter"], found["conf/customer/rp_filter"]))

        with mock.patch.object(settings, "write", watched):
            settings.apply(["to-r2"])
            settings.put_back()
        self.assertEqual(set(least), {"1"})

    def test_a_file_that_names_no_settings(self) -> None:
        with open(self.place.kept, "w", encoding="ascii") as file:
            json.dump({"../../x": "1", "conf/a/b": "1", "conf/to-r2/rp_filter": "x", "ip_forward": "0"}, file)
        self.assertEqual(Settings(self.place.kept, self.place.root).before, {"ip_forward": "0"})


class Signals(unittest.TestCase):
    """A signal ends the agent while it waits, and nowhere else."""

    PROGRAM = """
import os, signal, sys, time
from mrttools.agent.batch import Linux
from mrttools.signals import HeldSignals
waiting = HeldSignals()
print("begun", flush=True)
time.sleep(0.5)
print(Linux().run("sh", "-c", "kill -%d $$; echo child"), end="", flush=True)
time.sleep(0.5)
print("ended", flush=True)
waiting.wait([], 9)
print("not here", flush=True)
"""

    def test_not_in_the_middle_of_a_change(self) -> None:
        for number in (signal.SIGTERM, signal.SIGINT, signal.SIGHUP):
            words = [sys.executable, "-c", self.PROGRAM % number]
            with subprocess.Popen(words, stdout=subprocess.PIPE, cwd=TOOLS, text=True) as process:
                assert process.stdout
                self.assertEqual(process.stdout.readline(), "begun\n")
                process.send_signal(number)
                self.assertEqual(process.stdout.read(), "child\nended\n")
                self.assertEqual(process.wait(), 128 + number)

    def test_one_that_comes_while_it_waits(self) -> None:
        words = [
            sys.executable,
            "-c",
            "from mrttools.signals import HeldSignals; w = HeldSignals(); print(flush=True); w.wait([], 60)",
        ]
        with subprocess.Popen(words, stdout=subprocess.PIPE, cwd=TOOLS, text=True) as process:
            assert process.stdout
            process.stdout.readline()
            process.send_signal(signal.SIGTERM)
            self.assertEqual(process.wait(9), 143)


class TheProfile(unittest.TestCase):
    """The kernel tells of it, so that it is not looked for again and again."""

    PROGRAM = """
import os, sys, time
from mrttools.agent.file_watch import Watched
from mrttools.signals import HeldSignals
waiting, watched = HeldSignals(), Watched(sys.argv[1])
for _ in range(3):
    print("waits", flush=True)
    began = time.monotonic()
    waiting.wait([], 60)
    # (a write is more than one change)
    time.sleep(0.2)
    waiting.wait([], 0)
    print(watched.take(), watched.take(), time.monotonic() - began < 30, flush=True)
"""

    def test_changes_of_it(self) -> None:
        """Written anew, written over, and where a link leads."""
        with tempfile.TemporaryDirectory() as folder:
            link, name, other = (os.path.join(folder, *place) for place in (("a", "link"), ("b", "p"), ("b", "q")))
            for each in (link, name):
                os.mkdir(os.path.dirname(each))
            os.symlink(name, link)
            words = [sys.executable, "-c", self.PROGRAM, link]
            with subprocess.Popen(words, stdout=subprocess.PIPE, cwd=TOOLS, text=True) as process:
                assert process.stdout

                def replace() -> None:
                    write(other, "two")
                    os.replace(other, name)

                for change in (lambda: write(name, "one"), replace, lambda: os.unlink(link)):
                    self.assertEqual(process.stdout.readline(), "waits\n")
                    change()
                    self.assertEqual(process.stdout.readline(), "True False True\n")

    def test_no_word_of_it(self) -> None:
        self.assertIsNone(file_watch.watched("-"))
        self.assertIsNone(file_watch.watched("/nonexistent/profile"))


class Limits(unittest.TestCase):
    """What bounds the agent, and what it starts."""

    def test_no_program_takes_for_ever(self) -> None:
        began = time.monotonic()
        with mock.patch.object(batch, "LIMIT", 0.3), self.assertRaisesRegex(batch.Refusal, "more than 0.3 seconds"):
            batch.Linux().run("sleep", "30")
        self.assertLess(time.monotonic() - began, 10)

    def test_systemd_is_told(self) -> None:
        with tempfile.TemporaryDirectory() as folder, socket.socket(socket.AF_UNIX, socket.SOCK_DGRAM) as told:
            told.bind(os.path.join(folder, "notify"))
            told.settimeout(9)
            with mock.patch.dict(os.environ, NOTIFY_SOCKET=os.path.join(folder, "notify")):
                signals.notify("READY=1")
                signals.alive()
            self.assertEqual([told.recv(99), told.recv(99)], [b"READY=1", b"WATCHDOG=1"])
        signals.notify("READY=1")

    @unittest.skipIf(lacks("nft"), f"an agent in a namespace is not tried: {lacks('nft')}")
    @unittest.skipUnless(os.path.exists(MRT), "the program is not built")
    def test_what_an_agent_tells_systemd(self) -> None:
        """That it has begun, again and again that it is alive, and that it ends, here beside no daemon."""
        with tempfile.TemporaryDirectory() as folder, socket.socket(socket.AF_UNIX, socket.SOCK_DGRAM) as told:
            told.bind(os.path.join(folder, "notify"))
            told.settimeout(60)
            words = ["unshare", "--net", f"{TOOLS}/agent", "--mrt", MRT, "--strict", "bird", "-", "10.255.0.1"]
            with open(os.path.join(folder, "told"), "wb") as log, subprocess.Popen(
                [*words, os.path.join(folder, "files")],
                env=os.environ | {"NOTIFY_SOCKET": os.path.join(folder, "notify")},
                stdout=log,
                stderr=log,
            ) as agent:
                try:
                    self.assertEqual(told.recv(99), b"READY=1")
                    self.assertEqual([told.recv(99) for _ in range(20)], [b"WATCHDOG=1"] * 20)
                    self.refuses(agent.pid, os.path.join(folder, "files"), "another agent has its files here")
                    self.refuses(agent.pid, os.path.join(folder, "others"), "another agent keeps the routes")
                    agent.terminate()
                    while (said := told.recv(99)) == b"WATCHDOG=1":
                        pass
                    self.assertEqual(said, b"STOPPING=1")
                    # (a table that goes takes its time, and that is told as well)
                    self.assertEqual((told.recv(99), agent.wait(60)), (b"WATCHDOG=1", 143))
                finally:
                    agent.kill()

    def refuses(self, agent: int, folder: str, why: str) -> None:
        """A second agent in the network namespace of the first one does not start."""
        words = ["nsenter", "--net", "--target", str(agent), f"{TOOLS}/agent", "--mrt", MRT, "bird", "-", "10.255.0.2"]
        done = subprocess.run([*words, folder], capture_output=True, text=True, timeout=60, check=False)
        self.assertEqual((done.returncode, why in done.stderr), (REFUSED, True), done.stderr)

    def test_the_unit(self) -> None:
        """Its watchdog is more patient than all that the agent waits for in one step."""
        with open(os.path.join(TOOLS, "mrt-agent@.service"), encoding="ascii") as file:
            lines = dict(line.strip().split("=", 1) for line in file if "=" in line and not line.startswith("#"))
        bounds = [lines[name] for name in ("Type", "MemoryMax", "TasksMax", "Restart")]
        self.assertEqual(bounds, ["notify", "1G", "64", "on-failure"])
        self.assertGreater(int(lines["WatchdogSec"]), 5 * loop.LIMIT + 3 * batch.LIMIT)
        # (a signal is heard when a step has ended, and then --strict takes its time)
        self.assertGreater(int(lines["TimeoutStopSec"]), int(lines["WatchdogSec"]))


class Locks(unittest.TestCase):
    def test_one_agent_for_a_folder(self) -> None:
        with tempfile.TemporaryDirectory() as folder:
            with lock.lock_folder(folder):
                self.assertTrue(lock.is_locked(folder))
                with self.assertRaises(ToolFault):
                    lock.lock_folder(folder)
            self.assertFalse(lock.is_locked(folder))
            lock.lock_folder(folder).close()

    def test_who_asks_keeps_no_agent_away(self) -> None:
        with tempfile.TemporaryDirectory() as folder:
            lock.lock_folder(folder).close()
            asked = open(os.path.join(folder, "lock"), "rb")
            fcntl.flock(asked, fcntl.LOCK_SH)
            later = threading.Timer(0.15, asked.close)
            later.start()
            lock.lock_folder(folder).close()
            later.join()

    def test_one_agent_for_a_namespace(self) -> None:
        """In a folder into which nobody else gets: who has the abstract name that an agent had before keeps none away."""
        with tempfile.TemporaryDirectory() as folder, socket.socket(socket.AF_UNIX) as stranger:
            stranger.bind("\0semborui/agent")
            place = os.path.join(folder, "semborui")
            with mock.patch.object(lock, "RUN", place):
                with lock.lock_namespace():
                    self.assertEqual(stat.S_IMODE(os.stat(place).st_mode), 0o700)
                    self.assertEqual(os.listdir(place), [f"{os.stat('/proc/self/ns/net').st_ino}.lock"])
                    with self.assertRaises(ToolFault):
                        lock.lock_namespace()
                    # (another namespace has another one)
                    with mock.patch.object(lock, "NAMESPACE", "/proc/self/ns/mnt"):
                        lock.lock_namespace().close()
                lock.lock_namespace().close()
                os.chmod(place, 0o755)
                with self.assertRaisesRegex(ToolFault, "others can get in"):
                    lock.lock_namespace()

    def test_the_folder_of_the_unit(self) -> None:
        """It is the daemon's user's, and stays where another agent of the machine ends."""
        with open(os.path.join(TOOLS, "mrt-agent@.service"), encoding="ascii") as file:
            lines = dict(line.strip().split("=", 1) for line in file if "=" in line and not line.startswith("#"))
        self.assertEqual(os.path.join("/run", lines["RuntimeDirectory"]), lock.RUN)
        self.assertEqual((lines["RuntimeDirectoryMode"], lines["RuntimeDirectoryPreserve"]), ("0700", "yes"))


class Exposed(unittest.TestCase):
    def test_an_api_that_others_reach(self) -> None:
        """The agent does not start beside it, unless told."""
        with mock.patch.object(exposure, "open_to_others", side_effect=lambda port: f"port {port} is open"):
            for daemon, told in (("frr", True), ("bird", False)):
                commands.refuse_exposed(argparse.Namespace(daemon=daemon, open_api=told))
            with self.assertRaisesRegex(ToolFault, "port 2607 is open"):
                commands.refuse_exposed(argparse.Namespace(daemon="frr", open_api=False))


@unittest.skipUnless(os.path.exists(MRT), "the program is not built")
class OfItself(WithAgent):
    def test_status(self) -> None:
        self.settle(self.agent())
        facts = status.read(self.folder)
        with open(self.name("area.cert"), "rb") as file:
            digest = table.digest_of(file.read())
        self.assertEqual((facts["certificate"], facts["repairs"], facts["state"]), (digest, 3, "stopped"))
        self.assertEqual(facts["generation"], int(digest, 16) % 8)
        with lock.lock_folder(self.folder):
            self.assertEqual(status.read(self.folder)["state"], "installed")
            for words, first in (
                (["--status"], "router 10.255.0.1 beside frr: installed"),
                (["--status", "--json"], "{"),
            ):
                done = subprocess.run(
                    [f"{TOOLS}/agent", *words, self.folder], capture_output=True, text=True, check=True
                )
                self.assertTrue(done.stdout.startswith(first), done.stdout)

    def test_another_source(self) -> None:
        """It is told though nothing else changes: FRR's own word may come after the first table."""
        agent = self.agent()
        self.settle(agent)
        with mock.patch.object(self.source, "name", lambda: "another one"):
            self.step(agent)
        self.assertEqual(status.read(self.folder)["source"], "another one")

    def test_a_table_that_is_gone(self) -> None:
        """At the end with --strict, after --remove, and before an agent that is started anew has made one."""
        for strict in (True, False):
            agent = self.agent(strict=strict)
            self.settle(agent)
            if strict:
                self.quietly(agent.take_away)
            else:
                settings = agent.surroundings.settings
                with mock.patch.multiple(commands, Linux=lambda: self.router, Settings=lambda name: settings):
                    commands.remove(self.folder)
            self.assertEqual(self.repairs(), {})
            facts = status.read(self.folder)
            self.assertEqual((facts["certificate"], facts["repairs"], facts["state"]), (None, 0, "stopped"))
        self.settle(self.agent())
        self.assertTrue(status.read(self.folder)["certificate"])
        self.agent()
        self.assertIsNone(status.read(self.folder)["certificate"])

    def test_no_agent(self) -> None:
        done = subprocess.run(
            [f"{TOOLS}/agent", "--status", self.folder], capture_output=True, text=True, check=False
        )
        self.assertEqual((done.returncode, done.stderr), (7, f"agent: {self.folder}: no agent has been here\n"))


if __name__ == "__main__":
    unittest.main()
