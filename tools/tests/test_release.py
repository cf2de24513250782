"""The script mrt and those that it runs: when it builds, what it says of the program, what it installs, the library; and what tools/release makes."""
from __future__ import annotations

import ctypes
import hashlib
import os
import re
import shutil
import subprocess
import tempfile
import time
import unittest

from tests.making import TOOLS

ROOT = os.path.dirname(TOOLS)
DATABASE = "crates/mrt/data/lan.lsas"
COPIED = [
    "README.md",
    "CHANGELOG.md",
    "SECURITY.md",
    "LICENSE-APACHE",
    "LICENSE-MIT",
    "NOTICE",
    "mrt",
    ".ci",
    "include",
    "examples",
    "tools",
]
FILES = {
    "HANDLES": "Handles allowed: none.\n",
    "crates.txt": "# the crates\nlow: smallvec\nmrt: low\nmrt_c staticlib: low\n\n# tests\nlow_tests: low\n",
    "crates/low/src/lib.rt": "low\n",
    "crates/low/proofs/Lib.antt": "proof\n",
    "crates/low/must-fail/one.edit": "file: src/lib.rt\nold: low\nnew: high\n",
    "edits/low/two.edit": "file: src/lib.rt\nold: low\nnew: lower\n",
    "edits/mrt/three.edit": "file: src/main.rt\nold: main\nnew: other\n",
    "crates/mrt/src/main.rt": "main\n",
    "crates/mrt_c/src/lib.rt": "exports\n",
    "crates/low_tests/src/lib.rt": "tests\n",
    ".gitignore": "out/\n__pycache__/\n",
}

# A toolchain that proves all and builds a program and the code of a library, which are true ones, since packages are made of them. It refuses all edits
# but those with the word weak.
RT = """#!/bin/sh
compiled() {
    gcc -O2 -fPIC -c -x c -o "$2" - && ar rc "$1" "$2" && rm "$2"
}
tried() {
    if grep -q weak "$2"; then echo "rt: must-fail $1/${2##*/}: NOT REFUSED: so"; return; fi
    echo "rt: must-fail $1/${2##*/}: refused, as it must be: src/lib.rt:1:1: error: so"
}
case $1 in
ci)
    mkdir -p crates/mrt/out && cp /bin/echo crates/mrt/out/mrt && echo built >>"$BUILT" && echo "rt: low proved"
    echo "5 passed, 0 failed"
    ;;
lib | check)
    ! grep -q wrong src/*.rt || exit 1
    [ -f out/rlib/stamp ] || echo "${PWD##*/}" >>"$BUILT.libraries"
    mkdir -p out/rlib && touch out/rlib/stamp
    [ "${PWD##*/}" != mrt_c ] || {
        rm -r out/rlib
        echo 'void *rattle_alloc(unsigned long);'
        sed -n 's/^uint32_t \\(mrt_[a-z_]*\\)(.*/unsigned \\1(void) { return rattle_alloc(8) ? sizeof "\\1" : 1; }/p' include/mrt.h
    } | compiled out/libmrt_c.a out/code.o
    ;;
doc)
    mkdir -p "$BUILT.kit/c"
    echo 'void *malloc(unsigned long); void *rattle_alloc(unsigned long n) { return malloc(n); }' |
        compiled "$BUILT.kit/c/liblibc_c.a" "$BUILT.kit/heap.pic.o"
    echo "$BUILT.kit/START-HERE.md"
    ;;
must-fail)
    [ "$2" = low ] || [ -f crates/low/out/rlib/stamp ] || exit 1
    for edit in "crates/$2/must-fail"/*.edit; do tried "$2" "$edit"; done
    ;;
*) echo "test-kit logic 0" ;;
esac
""".replace(
    "include/mrt.h", os.path.join(ROOT, "include", "mrt.h")
)
# The tests of the tools.
TEST = """#!/bin/sh
echo "Ran 7 tests in 1.234s" && echo && echo OK
"""
FAILED = """#!/bin/sh
echo "FAILED"
exit 1
"""


def write(path: str, text: str, mode: int = 0o644) -> None:
    os.makedirs(os.path.dirname(path), exist_ok=True)
    with open(path, "w", encoding="utf-8") as file:
        file.write(text)
    os.chmod(path, mode)


def summed(path: str) -> str:
    with open(path, "rb") as file:
        return hashlib.sha256(file.read()).hexdigest()


class Checkout(unittest.TestCase):
    """A small checkout with the script and the tools that are here, and a toolchain of its own."""

    def setUp(self) -> None:
        holder = tempfile.TemporaryDirectory()
        self.addCleanup(holder.cleanup)
        self.top = holder.name
        self.folder = self.path("checkout")
        for name, text in FILES.items():
            write(self.at(name), text)
        for name in COPIED:
            if os.path.isdir(os.path.join(ROOT, name)):
                shutil.copytree(os.path.join(ROOT, name), self.at(name))
            else:
                shutil.copy(os.path.join(ROOT, name), self.at(name))
        shutil.copytree(os.path.join(ROOT, "crates", "mrt", "data"), self.at("crates/mrt/data"))
        os.mkdir(self.at("docs"))
        for name in ("COMMANDS.md", "LIBRARY.md", "mrt.1"):
            shutil.copy(os.path.join(ROOT, "docs", name), self.at("docs"))
        write(self.path("bin", "rt"), RT, 0o755)
        # Whatever this machine lacks, nothing is installed.
        write(self.path("bin", "apt-get"), "#!/bin/sh\nexit 1\n", 0o755)

    def path(self, *names: str) -> str:
        return os.path.join(self.top, *names)

    def at(self, name: str) -> str:
        return os.path.join(self.folder, name)

    def env(self) -> dict[str, str]:
        return {**os.environ, "PATH": f"{self.path('bin')}:{os.environ['PATH']}", "BUILT": self.path("built")}

    def run_in(self, folder: str, *words: str) -> subprocess.CompletedProcess[str]:
        return subprocess.run(words, cwd=folder, env=self.env(), capture_output=True, text=True, check=False)

    def said(self, *words: str, folder: str | None = None) -> str:
        """What a command prints, which has to end with status 0."""
        done = self.run_in(folder or self.folder, *words)
        self.assertEqual(done.returncode, 0, done.stderr)
        return done.stdout

    def builds(self) -> int:
        """How often the program was built."""
        if not os.path.exists(self.path("built")):
            return 0
        with open(self.path("built"), encoding="utf-8") as file:
            return len(file.readlines())


class Building(Checkout):
    """When ./mrt builds."""

    def test_it_builds_once(self) -> None:
        self.assertEqual(self.said("./mrt", "a", "b"), "a b\n")
        self.assertEqual(self.said("./mrt", "c"), "c\n")
        self.assertEqual(self.builds(), 1)

    def test_times_are_no_change(self) -> None:
        self.said("./mrt")
        os.utime(self.at("crates/low/src/lib.rt"), (2**32, 2**32))
        self.said("./mrt")
        os.utime(self.at("crates/mrt/out/mrt"), (1, 1))
        self.said("./mrt")
        self.assertEqual(self.builds(), 1)

    def test_each_source_that_the_program_stands_on(self) -> None:
        self.said("./mrt")
        write(self.at("crates/low_tests/src/lib.rt"), "other tests\n")
        self.said("./mrt")
        self.assertEqual(self.builds(), 1)
        for count, name in enumerate(
            ["crates/low/src/lib.rt", "crates/low/proofs/Lib.antt", "crates/mrt/src/new.rt"], 2
        ):
            write(self.at(name), "changed\n")
            os.utime(self.at(name), (1, 1))
            self.said("./mrt")
            self.assertEqual(self.builds(), count, name)
        os.remove(self.at("crates/mrt/src/new.rt"))
        self.said("./mrt")
        self.assertEqual(self.builds(), 5)

    def test_a_program_that_comes_with_what_it_was_built_from(self) -> None:
        self.said("./mrt")
        other = self.path("other")
        shutil.copytree(self.folder, other, ignore=shutil.ignore_patterns("out"))
        shutil.copytree(self.at("crates/mrt/out"), os.path.join(other, "crates/mrt/out"))
        os.utime(os.path.join(other, "crates/mrt/out/mrt"), (1, 1))
        self.said("./mrt", folder=other)
        self.assertEqual(self.builds(), 1)
        self.assertIn(
            f"proved at {os.uname().nodename}:{self.folder}, not here\n",
            self.said("./mrt", "--version", folder=other),
        )
        write(os.path.join(other, "crates/low/src/lib.rt"), "other\n")
        self.assertIn("the sources here are others", self.said("./mrt", "--version", folder=other))
        self.said("./mrt", folder=other)
        self.assertEqual(self.builds(), 2)

    def test_a_program_alone_goes_by_its_time(self) -> None:
        os.makedirs(self.at("crates/mrt/out"))
        shutil.copy("/bin/echo", self.at("crates/mrt/out/mrt"))
        self.said("./mrt")
        self.assertEqual(self.builds(), 0)
        self.assertIn("is not known", self.said("./mrt", "--version"))
        os.utime(self.at("crates/mrt/out/mrt"), (1, 1))
        self.said("./mrt")
        self.assertEqual(self.builds(), 1)

    def test_what_is_kept_of_another_program_is_not_believed(self) -> None:
        self.said("./mrt")
        shutil.copy("/bin/true", self.at("crates/mrt/out/mrt"))
        self.assertIn("is not known", self.said("./mrt", "--version"))
        self.assertEqual(self.run_in(self.folder, "tools/build", "--kept").returncode, 1)

    def test_without_the_list_of_crates_there_is_nothing_to_build(self) -> None:
        os.remove(self.at("crates.txt"))
        for words in (["a"], ["--install", self.path("usr")]):
            done = self.run_in(self.folder, "./mrt", *words)
            self.assertEqual((done.returncode, done.stdout), (70, ""))
            self.assertIn("there is no program in", done.stderr)
        self.assertEqual((self.builds(), os.path.exists(self.path("usr"))), (0, False))

    def test_a_proof_that_fails(self) -> None:
        write(self.path("bin", "rt"), FAILED, 0o755)
        done = self.run_in(self.folder, "./mrt", "a")
        self.assertEqual((done.returncode, done.stdout), (70, ""))
        self.assertIn("the build failed", done.stderr)

    def test_what_the_kit_keeps_is_said(self) -> None:
        for kit, said in (("13b", "begins again"), ("13f", "goes on where it was"), ("14", "")):
            write(self.path("bin", "rt"), RT.replace("test-kit", f"rattle-kit-{kit}"), 0o755)
            write(self.at("crates/mrt/src/main.rt"), kit)
            lines = [it for it in self.run_in(self.folder, "./mrt").stderr.splitlines() if " this kit keeps " in it]
            self.assertEqual(len(lines), 1 if said else 0)
            self.assertIn(said, "".join(lines))

    def test_version(self) -> None:
        self.assertRegex(self.said("./mrt", "--version"), r"^Semborui \d+\.\d\S*\nnot built\n$")
        self.said("./mrt")
        version = r"^Semborui \d+\.\d\S*\ncommit not known\nkit test-kit logic 0\nproved here\n$"
        self.assertRegex(self.said("./mrt", "--version"), version)


@unittest.skipUnless(shutil.which("gcc"), "needs gcc")
class Library(Checkout):
    """What ./mrt --library makes, and when it builds."""

    def made(self) -> str:
        self.said("./mrt", "--library", self.path("lib"))
        return self.path("lib")

    def refused(self) -> str:
        done = self.run_in(self.folder, "./mrt", "--library", self.path("lib"))
        self.assertEqual((done.returncode, done.stdout, os.path.exists(self.path("lib"))), (70, "", False))
        return done.stderr.splitlines()[-1]

    def test_what_it_makes(self) -> None:
        lib = self.made()
        self.assertEqual(sorted(os.listdir(lib)), ["libmrt.a", "libmrt.so", "libmrt.so.1", "mrt.h", "mrt.pc"])
        self.assertEqual(ctypes.CDLL(os.path.join(lib, "libmrt.so")).mrt_abi(), len("mrt_abi") + 1)
        told = self.said("readelf", "--wide", "--dynamic", "--notes", "--segments", os.path.join(lib, "libmrt.so.1"))
        for line in (
            r"\(SONAME\) +Library soname: \[libmrt\.so\.1\]",
            r"\(NEEDED\) +Shared library: \[libc\.so\.6\]",
            r"\(FLAGS\) +BIND_NOW",
            r"x86 ISA needed: x86-64-v2",
            r"GNU_RELRO",
            r"GNU_STACK .* RW ",
        ):
            self.assertRegex(told, line)
        self.assertEqual(told.count("(NEEDED)"), 1)

    def test_it_is_built_once(self) -> None:
        sums = [summed(os.path.join(self.made(), "libmrt.so.1")) for _ in range(2)]
        self.assertEqual((sums[0], self.builds()), (sums[1], 1))
        write(self.at("crates/mrt/src/main.rt"), "changed\n")
        self.made()
        self.assertEqual(self.builds(), 1)
        write(self.at("crates/mrt_c/src/lib.rt"), "changed\n")
        self.made()
        self.assertEqual(self.builds(), 2)
        self.said("./mrt")
        self.assertEqual(self.builds(), 3)

    @unittest.skipUnless(shutil.which("pkg-config"), "needs pkg-config")
    def test_both_link(self) -> None:
        lib, program = self.made(), self.path("program")
        write(self.path("main.c"), "#include <mrt.h>\nint main(void) { return (int)mrt_abi(); }\n")
        env = {**self.env(), "PKG_CONFIG_PATH": lib, "LD_LIBRARY_PATH": lib}
        flags = subprocess.check_output(["pkg-config", "--cflags", "--libs", "mrt"], env=env, text=True).split()
        for words in (flags, [flags[0], os.path.join(lib, "libmrt.a")]):
            self.said("gcc", "-o", program, self.path("main.c"), *words)
            self.assertEqual(subprocess.run([program], env=env, check=False).returncode, len("mrt_abi") + 1)
            if shutil.which("qemu-x86_64"):
                older = subprocess.run(
                    ["qemu-x86_64", "-cpu", "core2duo", program], env=env, capture_output=True, check=False
                )
                self.assertIn(b"CPU ISA level is lower than required", older.stderr)
        # What libmrt.a is linked into needs the same processor.
        self.assertRegex(self.said("readelf", "--notes", program), "x86 ISA needed: .*x86-64-v2")

    def test_what_is_taken_from_elsewhere(self) -> None:
        for name in ("getpid", "__errno_location"):
            write(self.path("bin", "rt"), RT.replace("? sizeof", f"? {name}(0) + sizeof"), 0o755)
            write(self.at("crates/mrt_c/src/lib.rt"), name)
            self.assertRegex(self.refused(), f"mrt.o takes from elsewhere: {name}$")

    def test_a_call_that_lacks(self) -> None:
        write(self.path("bin", "rt"), RT.replace("uint32_t \\(mrt_[a-z_]*\\)", "uint32_t \\(mrt_[a-p_]*\\)"), 0o755)
        self.assertIn("does not have the calls of mrt.h", self.refused())

    def test_a_proof_that_fails(self) -> None:
        write(self.at("crates/mrt_c/src/lib.rt"), "wrong\n")
        self.assertIn("the build failed", self.refused())

    def test_where_there_is_nothing_to_build_it_from(self) -> None:
        lib = self.made()
        os.remove(self.at("crates.txt"))
        sums = {name: summed(os.path.join(lib, name)) for name in os.listdir(lib)}
        self.assertEqual({name: summed(os.path.join(self.made(), name)) for name in os.listdir(lib)}, sums)
        shutil.rmtree(self.at("crates/mrt_c/out"))
        shutil.rmtree(lib)
        self.assertIn("libmrt1 and libmrt-dev", self.refused())


class Deep(Checkout):
    """Which edits tools/deep tries, what it says of them, and what it keeps."""

    def tried(self, *names: str) -> tuple[int, list[str], str]:
        """The status of a run, its lines without seconds and minutes, and what it says beside them."""
        done = self.run_in(self.folder, "tools/deep", *names)
        lines = [re.sub(r", \d+ s$", "", it) for it in done.stdout.splitlines() if "on the clock" not in it]
        return done.returncode, lines, done.stderr

    def last(self, text: str) -> str:
        return f"deep: {text}; commit not known; kit test-kit logic 0"

    def kept(self) -> list[str]:
        if not os.path.exists(self.at("out/deep")):
            return []
        with open(self.at("out/deep"), encoding="utf-8") as file:
            return file.read().splitlines()

    def proved(self) -> list[str]:
        """The libraries that were built."""
        if not os.path.exists(self.path("built.libraries")):
            return []
        with open(self.path("built.libraries"), encoding="utf-8") as file:
            return file.read().split()

    def test_all(self) -> None:
        status, lines, said = self.tried()
        counted = "2 crates, 3 edits refused, 0 not refused"
        self.assertEqual((status, lines[-1]), (0, self.last(counted)), said)
        self.assertEqual(sorted(lines[:-1]), ["low: 2 edits refused", "mrt: 1 edits refused"])
        self.assertEqual(self.proved(), ["low", "mrt"])
        sources = self.said("tools/deep", "--sources").strip()
        self.assertEqual(
            self.kept(),
            ["commit not known", "kit test-kit logic 0", f"sources {sources}", f"gate tools/deep: {counted}"],
        )
        self.assertEqual(sorted(os.listdir(self.at("crates/mrt"))), ["data", "src"])

    def test_some(self) -> None:
        self.assertEqual(
            self.tried("low")[:2],
            (0, ["low: 2 edits refused", self.last("1 crates, 2 edits refused, 0 not refused")]),
        )
        self.assertEqual((self.proved(), self.kept()), (["low"], []))
        status, lines, said = self.tried("low_tests")
        self.assertEqual((status, lines), (2, []))
        self.assertIn("no edits of a crate low_tests", said)

    def test_a_library_that_stands_is_taken(self) -> None:
        write(self.at("crates/low/out/rlib/stamp"), "")
        self.assertEqual(self.tried("mrt")[0], 0)
        self.assertEqual(self.proved(), ["mrt"])
        self.assertEqual(os.listdir(self.at("crates/low/out")), ["rlib"])

    def test_a_library_for_c_has_edits_and_leaves_no_library_of_rattle(self) -> None:
        write(self.at("edits/mrt_c/four.edit"), "strong\n")
        status, lines, said = self.tried("mrt_c")
        self.assertEqual(
            (status, lines),
            (0, ["mrt_c: 1 edits refused", self.last("1 crates, 1 edits refused, 0 not refused")]),
            said,
        )

    def test_an_edit_that_is_not_refused(self) -> None:
        self.tried()
        write(self.at("edits/low/two.edit"), "weak\n")
        status, lines, _ = self.tried()
        self.assertEqual(
            (status, lines[-2:]),
            (1, ["not refused: low/two.edit", self.last("2 crates, 2 edits refused, 1 not refused")]),
        )
        self.assertIn("low: 1 edits refused, 1 NOT REFUSED", lines)
        self.assertIn("    low/two.edit: NOT REFUSED: so", lines)
        self.assertEqual(self.kept(), [])

    def test_a_library_that_is_not_proved(self) -> None:
        write(self.at("crates/low/src/lib.rt"), "wrong\n")
        status, lines, said = self.tried()
        self.assertEqual((status, lines[-1]), (1, self.last("2 crates, 0 edits refused, 3 not refused")))
        self.assertIn("not refused: low/one.edit low/two.edit mrt/three.edit", lines)
        self.assertIn("deep: low is NOT PROVED\n", said)

    def test_it_leaves_nothing_where_it_is_ended(self) -> None:
        slow = RT.replace("must-fail)\n", 'must-fail)\n    echo $$ >"$BUILT.running"; sleep 60\n')
        write(self.path("bin", "rt"), slow, 0o755)
        os.mkdir(self.path("tmp"))
        env = {**self.env(), "TMPDIR": self.path("tmp")}
        started = subprocess.Popen(["tools/deep", "low"], cwd=self.folder, env=env, stderr=subprocess.DEVNULL)
        while not os.path.exists(self.path("built.running")):
            time.sleep(0.05)
        self.assertEqual(len(os.listdir(self.path("tmp"))), 1)
        started.terminate()
        self.assertEqual((started.wait(30), os.listdir(self.path("tmp"))), (130, []))

    def test_its_sources_are_all_that_it_tries(self) -> None:
        known = {self.said("tools/deep", "--sources")}
        for name in (
            "crates/low/proofs/Lib.antt",
            "crates/low_tests/src/lib.rt",
            "edits/mrt/three.edit",
            "edits/mrt/new.edit",
        ):
            write(self.at(name), "changed\n")
            self.assertNotIn(self.said("tools/deep", "--sources"), known)
            known.add(self.said("tools/deep", "--sources"))
        write(self.at("README.md"), "changed\n")
        self.assertIn(self.said("tools/deep", "--sources"), known)


class Installing(Checkout):
    def setUp(self) -> None:
        super().setUp()
        self.said("./mrt", "--install", self.path("usr"))
        os.rename(self.folder, self.path("gone"))

    def test_the_program_runs_and_is_not_built(self) -> None:
        done = self.run_in(self.path("gone"), "./mrt", "--install")
        self.assertEqual((done.returncode, done.stdout), (2, ""))
        done = self.run_in(self.top, "usr/bin/mrt", "--install", self.path("usr"))
        self.assertEqual((done.returncode, done.stderr), (2, "mrt: this is what is installed there\n"))
        os.remove(self.path("bin", "rt"))
        self.assertEqual(self.said("usr/bin/mrt", "a", "b", folder=self.top), "a b\n")
        self.assertIn("not here\n", self.said("usr/bin/mrt", "--version", folder=self.top))
        self.assertEqual(self.builds(), 1)
        os.remove(self.path("usr/libexec/semborui/mrt"))
        done = self.run_in(self.top, "usr/bin/mrt", "a")
        self.assertEqual((done.returncode, done.stdout), (70, ""))
        self.assertIn("there is no program in", done.stderr)

    def test_it_is_installed_over_an_older_one(self) -> None:
        write(self.path("usr/share/semborui/tools/mrttools/old.py"), "")
        self.said("./mrt", "--install", self.path("usr"), folder=self.path("gone"))
        self.assertFalse(os.path.exists(self.path("usr/share/semborui/tools/mrttools/old.py")))
        self.assertEqual(self.said("usr/bin/mrt", "a", folder=self.top), "a\n")
        self.look_at_help_and_tools()

    def test_the_unit_of_the_agent(self) -> None:
        """What it starts takes the words, and it has no more rights than it needs."""
        with open(self.path("usr/lib/systemd/system/mrt-agent@.service"), encoding="utf-8") as file:
            lines = file.read().splitlines()
        words = next(line for line in lines if line.startswith("ExecStart=")).removeprefix("ExecStart=").split()
        values = {"%i": ["frr"], "$ROUTER": ["10.255.0.3"], "$OPTIONS": ["--strict", "--mrt", "/nonexistent"]}
        given = [value for word in words[1:] for value in values.get(word, [word])]
        done = self.run_in(self.top, self.path("usr/bin", words[0]), *given)
        self.assertEqual((done.returncode, done.stderr), (8, "agent: /nonexistent: there is no such program\n"))
        rights = "CAP_NET_ADMIN CAP_NET_RAW"
        for line in (
            "NoNewPrivileges=yes",
            f"CapabilityBoundingSet={rights}",
            f"AmbientCapabilities={rights}",
            "User=%i",
            "Type=notify",
            "WatchdogSec=240",
            "TimeoutStopSec=300",
            "MemoryMax=1G",
        ):
            self.assertIn(line, lines)
        if shutil.which("systemd-analyze"):
            unit = self.path("mrt-agent@frr.service")
            write(unit, "\n".join(lines).replace("=mrt-agent ", f"={self.path('usr/bin/mrt-agent')} "))
            told = self.run_in(self.top, "systemd-analyze", "verify", "--man=no", unit).stderr
            self.assertEqual([line for line in told.splitlines() if "mrt-agent" in line], [])
            # (by how much it could do: of 10, what has all rights has 9.6)
            words = ["systemd-analyze", "security", "--offline=yes", "--no-pager", "--threshold=30", unit]
            self.assertEqual(self.run_in(self.top, *words).returncode, 0)

    def look_at_help_and_tools(self) -> None:
        self.assertIn("mrt survey NUMBER NODES", self.said("usr/bin/mrt", "help", "survey", folder=self.top))
        links = sorted(name for name in os.listdir(self.path("usr/bin")) if name != "mrt")
        self.assertEqual(len(links), 10)
        for link in links:
            self.assertTrue(self.said(f"usr/bin/{link}", "--help", folder=self.top).startswith(f"usage: {link} "))
            self.assertTrue(os.path.exists(self.path(f"usr/share/man/man1/{link}.1")))
        share = self.path("usr/share/semborui")
        self.assertEqual(self.said("./mrt", DATABASE, folder=share), f"{DATABASE}\n")
        self.assertTrue(os.path.exists(os.path.join(share, DATABASE)))


@unittest.skipUnless(all(shutil.which(it) for it in ("dpkg-shlibdeps", "git", "gcc")), "needs git, gcc and dpkg-dev")
class Releasing(Checkout):
    def setUp(self) -> None:
        super().setUp()
        write(self.at("tools/test"), TEST, 0o755)
        self.said("git", "init", "-q")
        self.said("git", "config", "user.name", "One")
        self.said("git", "config", "user.email", "one@example.org")
        self.commit()

    def commit(self) -> None:
        self.said("git", "add", "-A")
        self.said("git", "commit", "-qm", "A step")

    def refused(self, *options: str) -> str:
        done = self.run_in(self.folder, "tools/release", *options, self.path("refused"))
        self.assertEqual((done.returncode, os.listdir(self.path("refused"))), (1, []), done.stdout)
        return done.stderr.splitlines()[-1]

    def test_refused_without_a_gate_that_passed(self) -> None:
        self.assertIn("run .ci/run", self.refused())
        self.said("./mrt")
        self.assertIn("left no libmrt_c.a here", self.refused())
        self.said("tools/build", "--library")
        self.assertIn("the gate has not passed", self.refused())
        self.said(".ci/run", "--library")
        write(self.at("crates/low/src/lib.rt"), "changed\n")
        self.assertIn("not committed", self.refused())
        self.commit()
        self.said("tools/deep")
        self.assertIn("not built from the sources", self.refused())
        write(self.at("crates/low/src/lib.rt"), FILES["crates/low/src/lib.rt"])
        self.commit()
        self.assertIn("was built from commit", self.refused())

    def test_refused_without_the_other_edits(self) -> None:
        self.said(".ci/run", "--library")
        self.assertIn("no whole run of tools/deep", self.refused())
        self.said("tools/deep", "low")
        self.assertIn("no whole run of tools/deep", self.refused())
        self.said("tools/deep")
        write(self.at("README.md"), "changed\n")
        self.commit()
        self.said(".ci/run", "--library")
        self.assertIn("tools/deep passed on commit", self.refused())
        write(self.at("edits/mrt/new.edit"), FILES["edits/mrt/three.edit"])
        self.said("tools/deep")
        self.assertIn("not on the sources", self.refused())
        os.remove(self.at("edits/mrt/new.edit"))
        write(self.path("bin", "rt"), RT.replace("test-kit", "other-kit"), 0o755)
        self.said("tools/deep")
        self.assertIn("tools/deep passed with other-kit logic 0, and the gate with test-kit", self.refused())
        write(self.at("edits/mrt/three.edit"), "weak\n")
        self.commit()
        self.assertEqual(self.run_in(self.folder, "tools/deep").returncode, 1)
        self.assertIn("tools/deep has not passed", self.refused("--gate"))

    def test_refused_where_the_gate_failed(self) -> None:
        self.said(".ci/run", "--library")
        write(self.at("tools/test"), FAILED, 0o755)
        self.commit()
        self.assertEqual(self.run_in(self.folder, ".ci/run", "--library").returncode, 1)
        self.assertIn("the gate has not passed", self.refused())
        self.assertIn("the gate has not passed", self.refused("--gate"))
        write(self.path("bin", "rt"), FAILED, 0o755)
        done = self.run_in(self.folder, ".ci/run", "--library")
        self.assertEqual((done.returncode, done.stdout), (1, "FAILED\n"))
        self.assertIn("left no mrt here", self.refused())

    def release(self, name: str, *options: str) -> dict[str, str]:
        """Makes a release in a folder; the checksums of what it made."""
        lines = self.said("tools/release", *options, self.path(name)).splitlines()[-4:]
        sums = {file: checksum for checksum, file in (line.split("  ") for line in lines)}
        for file, checksum in sums.items():
            self.assertEqual(summed(self.path(name, file)), checksum)
        return sums

    def test_the_gate_is_run_for_it(self) -> None:
        self.release("one", "--gate")
        self.assertEqual(self.builds(), 1)

    def test_twice_the_same_bytes(self) -> None:
        self.said(".ci/run", "--library")
        self.said("tools/deep")
        sums = self.release("one")
        self.assertEqual(self.release("two"), sums)
        archive, *packages = (self.path("one", name) for name in sums)
        self.look_at_the_archive(archive)
        self.look_at_the_packages(packages)
        self.assertEqual(self.builds(), 1)

    def look_at_the_archive(self, archive: str) -> None:
        self.said("tar", "-xf", archive, "-C", self.top)
        folder = self.path(os.path.basename(archive).removesuffix(".tar.xz"))
        self.said("sha256sum", "--check", "--quiet", "SHA256SUMS", folder=folder)
        with open(os.path.join(folder, "PROVED"), encoding="utf-8") as file:
            proved = file.read()
        for line in (
            f"commit {self.said('git', 'rev-parse', 'HEAD').strip()}",
            "kit test-kit logic 0",
            f"sha256 of the program {summed(os.path.join(folder, 'crates/mrt/out/mrt'))}",
            "    rt ci: 5 passed, 0 failed",
            "    tools/test: Ran 7 tests, OK",
            "    tools/deep: 2 crates, 3 edits refused, 0 not refused",
        ):
            self.assertIn(f"\n{line}\n", proved)
        self.assertEqual(self.said("./mrt", "a", folder=folder), "a\n")
        version = self.said("./mrt", "--version", folder=folder)
        self.assertIn("\nproved before the release (see PROVED), not here\n", version)
        self.said("./mrt", "--install", self.path("usr"), folder=folder)
        self.assertEqual(self.said("usr/bin/mrt", "a", folder=self.top), "a\n")
        self.said("./mrt", "--library", self.path("lib"), folder=folder)
        self.assertEqual(ctypes.CDLL(self.path("lib", "libmrt.so")).mrt_abi(), len("mrt_abi") + 1)

    def look_at_the_packages(self, packages: list[str]) -> None:
        root = self.path("root")
        needs = {it: self.said("dpkg-deb", "--field", it, "Depends").strip() for it in packages}
        semborui, library, developing = packages
        self.assertRegex(needs[semborui], r"^libc6 \(.*\), python3 \(")
        self.assertRegex(needs[library], r"^libc6 \([^,]*\)$")
        self.assertRegex(needs[developing], r"^libmrt1 \(= [0-9.]+\)$")
        for package in packages:
            self.said("dpkg-deb", "--extract", package, root)
        self.assertEqual(self.said(os.path.join(root, "usr/bin/mrt"), "a"), "a\n")
        self.said("dpkg-deb", "--control", library, self.path("control"))
        with open(self.path("control", "symbols"), encoding="utf-8") as file:
            symbols = re.findall(r"^ (mrt_\w+)@MRT_1 1\.0$", file.read(), re.MULTILINE)
        folder = os.path.join(root, "usr/lib/x86_64-linux-gnu")
        told = self.said("nm", "--dynamic", "--defined-only", os.path.join(folder, "libmrt.so.1"))
        self.assertEqual(symbols, re.findall(r" T (mrt_\w+)@@MRT_1$", told, re.MULTILINE))
        with open(os.path.join(folder, "pkgconfig", "mrt.pc"), encoding="utf-8") as file:
            self.assertIn(
                "prefix=/usr\nlibdir=${prefix}/lib/x86_64-linux-gnu\nincludedir=${prefix}/include\n", file.read()
            )
        for path, _, names in os.walk(root):
            for name in names:
                self.assertTrue(os.path.exists(os.path.join(path, name)), name)


if __name__ == "__main__":
    unittest.main()
