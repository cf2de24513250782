"""Where the converter writes: what is no regular file stays what it is, and the capture is never written over. Tools
run through a symbolic link."""
import os
import shutil
import stat
import subprocess
import sys
import tempfile
import unittest
from typing import Any
from unittest import mock

from mrttools import files
from tests.making import TOOLS, over_ethernet, pair, update

WANTED = b"".join(pair())


def run(tool: str, *words: str, **more: Any) -> subprocess.CompletedProcess[bytes]:
    return subprocess.run(
        [os.path.join(TOOLS, tool), *words], stdout=subprocess.PIPE, stderr=subprocess.PIPE, check=False, **more
    )


class Targets(unittest.TestCase):
    def setUp(self) -> None:
        place = tempfile.TemporaryDirectory()
        self.addCleanup(place.cleanup)
        self.folder = place.name
        self.capture = self.name("area.pcap")
        with open(self.capture, "wb") as file:
            file.write(over_ethernet(update(pair())))

    def name(self, last: str) -> str:
        return os.path.join(self.folder, last)

    def bytes_of(self, name: str) -> bytes:
        with open(name, "rb") as file:
            return file.read()

    def test_a_pipe_stays_a_pipe(self) -> None:
        pipe = self.name("pipe")
        os.mkfifo(pipe)
        reader = subprocess.Popen(["timeout", "20", "cat", pipe], stdout=subprocess.PIPE)
        assert reader.stdout is not None
        self.addCleanup(reader.stdout.close)
        self.addCleanup(reader.kill)
        done = run("lsdb-from-pcap", self.capture, pipe)
        self.assertTrue(stat.S_ISFIFO(os.stat(pipe).st_mode))
        self.assertEqual((done.returncode, reader.communicate(timeout=9)[0]), (0, WANTED), done.stderr)

    def test_a_device_stays_a_device(self) -> None:
        device = self.name("null")
        try:
            os.mknod(device, stat.S_IFCHR | 0o666, os.makedev(1, 3))
        except PermissionError:
            self.skipTest("devices need root")
        done = run("lsdb-from-pcap", self.capture, device)
        self.assertTrue(stat.S_ISCHR(os.stat(device).st_mode), done.stderr)
        # A folder may be mounted without devices.
        self.assertIn(done.returncode, (0, 9))

    def test_a_link_stays_a_link(self) -> None:
        os.symlink("real", self.name("link"))
        for _ in range(2):
            done = run("lsdb-from-pcap", self.capture, self.name("link"))
            self.assertEqual((done.returncode, self.bytes_of(self.name("real"))), (0, WANTED), done.stderr)
            self.assertTrue(os.path.islink(self.name("link")))

    def test_the_capture_is_refused(self) -> None:
        before = self.bytes_of(self.capture)
        os.symlink(self.capture, self.name("link"))
        os.link(self.capture, self.name("other"))
        for target in ("area.pcap", "link", "other"):
            done = run("lsdb-from-pcap", self.capture, self.name(target))
            self.assertEqual((done.returncode, self.bytes_of(self.capture)), (1, before))
            self.assertIn(f"{self.name(target)}: it is the file that is read", done.stderr.decode())

    def test_standard_input_and_output(self) -> None:
        done = run("lsdb-from-pcap", "-", "-", input=self.bytes_of(self.capture))
        self.assertEqual((done.returncode, done.stdout), (0, WANTED), done.stderr)

    def test_rights_stay(self) -> None:
        with open(self.name("area.lsas"), "wb"):
            os.chmod(self.name("area.lsas"), 0o640)
        self.assertEqual(run("lsdb-from-pcap", self.capture, self.name("area.lsas")).returncode, 0)
        self.assertEqual(stat.S_IMODE(os.stat(self.name("area.lsas")).st_mode), 0o640)

    def test_faults_of_the_system_have_the_name_that_was_given(self) -> None:
        os.mkdir(self.name("folder"))
        for words, status in (
            ((self.name("none"), self.name("x")), 8),
            ((self.capture, self.name("none/x")), 9),
            ((self.capture, self.name("folder")), 9),
            ((self.folder, self.name("x")), 8),
        ):
            done = run("lsdb-from-pcap", *words)
            told = words[status - 8]
            self.assertEqual((done.returncode, done.stdout), (status, b""), done.stderr)
            self.assertTrue(
                done.stderr.decode().splitlines()[-1].startswith(f"lsdb-from-pcap: {told}: "), done.stderr
            )
            self.assertNotIn(".part", done.stderr.decode())
        self.assertEqual(sorted(os.listdir(self.folder)), ["area.pcap", "folder"])


class Lasting(unittest.TestCase):
    """What stands in a file when the machine stops."""

    def setUp(self) -> None:
        place = tempfile.TemporaryDirectory()
        self.addCleanup(place.cleanup)
        self.folder = place.name

    def test_the_disk_has_it_before_it_is_there(self) -> None:
        """The content before the name, and then the name; what need not last does not wait."""
        name, done = os.path.join(self.folder, "area.lsas"), []

        def synced(place: int) -> None:
            is_file = stat.S_ISREG(os.fstat(place).st_mode)
            done.append(("content" if is_file else "name", os.path.exists(name)))

        with mock.patch.object(os, "fsync", synced):
            files.replace(name, b"x", lasting=False)
            self.assertEqual((os.path.exists(name), done), (True, []))
            os.unlink(name)
            files.replace(name, b"x")
        self.assertEqual(done, [("content", False), ("name", True)])

    def test_parts_that_are_left(self) -> None:
        """Of a program that was ended by force while it wrote."""
        program = "import os, signal; from mrttools import files; os.replace = lambda *_: os.kill(os.getpid(), 9); "
        program += f"files.replace({self.folder!r} + '/area.lsas', b'x')"
        done = subprocess.run([sys.executable, "-c", program], cwd=TOOLS, check=False)
        self.assertEqual((done.returncode, len(os.listdir(self.folder))), (-9, 1))
        with open(os.path.join(self.folder, "a.part"), "wb"):
            files.clear_parts(self.folder)
        self.assertEqual(os.listdir(self.folder), ["a.part"])


class Links(unittest.TestCase):
    """Each tool through a symbolic link, by its words for help."""

    def test_tools(self) -> None:
        with tempfile.TemporaryDirectory() as folder:
            for tool in "agent change diff draw fib lab lint lsdb-from-pcap report trace".split():
                os.symlink(os.path.join(TOOLS, tool), os.path.join(folder, tool))
                done = subprocess.run([os.path.join(folder, tool), "--help"], stdout=subprocess.PIPE, check=False)
                self.assertEqual(done.returncode, 0, tool)

    def test_the_program_is_beside_the_tool(self) -> None:
        with tempfile.TemporaryDirectory() as folder:
            there = os.path.join(folder, "there")
            for part in ("tools", os.path.join("examples", "python")):
                shutil.copytree(os.path.join(os.path.dirname(TOOLS), part), os.path.join(there, part))
            with open(os.path.join(there, "mrt"), "w", encoding="ascii") as file:
                file.write("#!/bin/sh\necho this one >&2; exit 5\n")
            os.chmod(file.name, 0o755)
            for tool, words in (("draw", "1.1.1.1"), ("lint", ""), ("trace", "1.1.1.1 2.2.2.2 blue")):
                os.symlink(os.path.join(there, "tools", tool), os.path.join(folder, tool))
                command = [os.path.join(folder, tool), "/dev/null", "-", *words.split()]
                done = subprocess.run(command, stderr=subprocess.PIPE, text=True, check=False)
                self.assertEqual((done.returncode, done.stderr), (5, "this one\n"), tool)

    def test_the_lab_says_at_once_that_there_is_no_program(self) -> None:
        done = run("lab", "frr", "/nonexistent/folder", "--mrt", "/nonexistent/mrt")
        self.assertEqual((done.returncode, done.stdout), (1, b""))
        self.assertEqual(done.stderr.decode(), "lab: /nonexistent/mrt: there is no such program\n")

    def test_the_tests(self) -> None:
        with tempfile.TemporaryDirectory() as folder:
            os.symlink(os.path.join(TOOLS, "test"), os.path.join(folder, "test"))
            words = [os.path.join(folder, "test"), "-k", "Layouts"]
            done = subprocess.run(words, stderr=subprocess.PIPE, text=True, check=False)
            self.assertIn("OK", done.stderr)


if __name__ == "__main__":
    unittest.main()
