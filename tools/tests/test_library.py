"""The library's header beside the sources, and what is built on it."""
from __future__ import annotations

import atexit
import ctypes
import os
import re
import shutil
import subprocess
import sys
import tempfile
import unittest

from mrttools.library import libmrt as mrt
from tests.header import ROOT, exports_of, header, in_c, layout, listed, read, size_of, snake, snapshot, sources
from tests.header import structs_of
from tests.making import DATA, MRT

SAID = header()
# What a program that was built by an older header stands on: lines come to it, and none changes.
KEPT = read("tools", "tests", "mrt.abi")
BUILDS = os.path.join(ROOT, "tools", "build")


def done(*words: str, env: dict[str, str] | None = None, folder: str = ROOT) -> subprocess.CompletedProcess[bytes]:
    env = {**os.environ, **(env or {})}
    return subprocess.run(words, cwd=folder, env=env, capture_output=True, check=False)


class Header(unittest.TestCase):
    """The header says what it said before, and all others say the same."""

    def test_nothing_has_changed(self) -> None:
        self.assertEqual(snapshot(SAID), KEPT)

    def test_the_sizes_that_it_tells(self) -> None:
        self.assertEqual(SAID.told, {name: size_of(SAID, f"struct {name}")[0] for name in SAID.structs})

    def test_statuses_are_listed_at_each_call(self) -> None:
        self.assertEqual(set(SAID.statuses), set(SAID.calls))
        for name, statuses in SAID.statuses.items():
            self.assertEqual(bool(statuses), name != "mrt_abi")
            self.assertEqual([it for it in statuses if it not in SAID.constants], [])

    @unittest.skipUnless(shutil.which("gcc"), "needs gcc")
    def test_c_lays_it_out_so(self) -> None:
        asserts = [f"{name} == {value}" for name, value in SAID.constants.items()]
        for name in SAID.structs:
            asserts.append(f"sizeof(struct {name}) == {size_of(SAID, 'struct ' + name)[0]}")
            asserts += [f"offsetof(struct {name}, {it.name}) == {at}" for at, _, it in layout(SAID, name)]
        text = "#include <mrt.h>\n" + "".join(f'_Static_assert({it}, "");\n' for it in asserts)
        flags = ["-std=c11", "-pedantic", "-Wall", "-Wextra", "-Werror", "-fsyntax-only", "-Iinclude"]
        for words in (
            ["gcc", *flags, "-x", "c"],
            ["g++", "-Iinclude", "-Wall", "-Werror", "-fsyntax-only", "-x", "c++"],
        ):
            if shutil.which(words[0]):
                given = text if words[0] == "gcc" else "#include <mrt.h>\n"
                made = subprocess.run(
                    [*words, "-"], cwd=ROOT, input=given, text=True, stderr=subprocess.PIPE, check=False
                )
                self.assertEqual((made.returncode, made.stderr), (0, ""))

    def test_what_is_exported(self) -> None:
        self.assertEqual(re.findall(r"(mrt_\w+);", read("include", "mrt.map")), sorted(SAID.calls))

    def test_python(self) -> None:
        classes = {snake(name[1:]): it for name, it in vars(mrt).items() if re.fullmatch(r"C[A-Z][a-z]\w+", name)}
        self.assertEqual({f"mrt_{name}" for name in classes}, set(SAID.structs))
        for name, made in classes.items():
            fields = [(getattr(made, it).offset, getattr(made, it).size, it) for it, _ in made._fields_]
            self.assertEqual(fields, [(at, size, it.name) for at, size, it in layout(SAID, f"mrt_{name}")])
            self.assertEqual(ctypes.sizeof(made), SAID.told[f"mrt_{name}"])
        self.assertEqual(list(mrt.CALLS), list(SAID.calls))
        for name, takes in mrt.CALLS.items():
            sizes = [size_of(SAID, it.kind)[0] for it in SAID.calls[name]]
            self.assertEqual([ctypes.sizeof(it) for it in takes], sizes, name)
        self.assertEqual(mrt.ABI, SAID.constants["MRT_ABI"])
        for prefix, values in (("", [*mrt.Status, *mrt.Kind, *mrt.Color]), ("TAG_", [])):
            for value in values:
                self.assertEqual(SAID.constants[f"MRT_{prefix}{value.name}"], value)
        self.assertEqual({f"MRT_TAG_{name.upper()}": at for at, name in enumerate(mrt.TAGS)}, self.named("MRT_TAG_"))
        self.assertEqual(mrt.ATTACHED, SAID.constants["MRT_ATTACHED"])

    def named(self, prefix: str) -> dict[str, int]:
        return {name: value for name, value in SAID.constants.items() if name.startswith(prefix)}

    def test_rust(self) -> None:
        text = re.sub(r"\*const (\w+)(?:<'_>)?", r"&\1", read("examples", "rust", "src", "sys.rs"))
        text = re.sub(r"\*mut (\w+)", r"&mut \1", text)

        def kind(said: str) -> str:
            (only,) = in_c(said)
            return re.sub(r"struct (\w+)", r"struct mrt_\1", only)

        pattern = r"#\[repr\(C\)\]\npub struct (\w+)(?:<'a>)? \{\n(.*?)\n\}"
        structs = {
            f"mrt_{snake(name)}": [(it, kind(said)) for it, said in listed(body) if it != "of"]
            for name, body in re.findall(pattern, text, re.DOTALL)
        }
        self.assertEqual(
            structs, {name: [(it.name, it.kind) for it in fields] for name, fields in SAID.structs.items()}
        )
        calls = re.findall(r"pub fn (\w+)\((.*?)\) -> u32;", text, re.DOTALL)
        self.assertEqual(
            {
                name: [(it, kind(said)) for it, said in re.findall(r"(\w+): ([^,\n]+)", takes)]
                for name, takes in calls
            },
            {name: [(it.name, it.kind) for it in takes] for name, takes in SAID.calls.items()},
        )
        for name, value in re.findall(r"pub const (\w+): u32 = (\d+);", text):
            self.assertEqual(SAID.constants[f"MRT_{name}"], int(value))


@unittest.skipUnless(os.path.isdir(os.path.join(ROOT, "crates", "mrt_c")), "there are no sources of it")
class Sources(unittest.TestCase):
    """The crates have the header's structs, calls and numbers."""

    TEXT = sources()

    def test_structs(self) -> None:
        for name, fields in structs_of(self.TEXT).items():
            said = SAID.structs[name]
            kinds = [kind for _, inner in fields for kind in inner]
            self.assertEqual(kinds, [it.kind for it in said], name)
            if len(kinds) == len(fields):
                self.assertEqual([it for it, _ in fields], [it.name for it in said], name)
        self.assertEqual(set(structs_of(self.TEXT)), set(SAID.structs))

    def test_calls(self) -> None:
        found = exports_of(self.TEXT)
        self.assertEqual(set(found), set(SAID.calls))
        for name, takes in found.items():
            self.assertEqual(
                [kind for _, kinds in takes for kind in kinds], [it.kind for it in SAID.calls[name]], name
            )
            for it, kinds in takes:
                if kinds:
                    self.assertIn(it, [one.name for one in SAID.calls[name]], name)

    def test_numbers(self) -> None:
        statuses = re.findall(r"Exit::(\w+)[^=\n]*=> (\d+),", read("crates", "mrt_exit", "src", "exit.rt"))
        for name, value in statuses:
            self.assertEqual(SAID.constants[f"MRT_{snake(name).upper()}"], int(value))
        self.assertEqual(len(statuses), 14)
        parts = {
            "LsaKind": "LSA",
            "ProfileKind": "PROFILE",
            "CertKind": "CERTIFICATE",
            "UpdateKind": "UPDATE",
            "What": "LARGE",
        }
        found = re.findall(r"\b(LsaKind|ProfileKind|CertKind|UpdateKind|What)::(\w+) => (\d+),", self.TEXT)
        for kind, name, value in found:
            name = re.sub("_FILE$", "", snake(name).upper())
            self.assertEqual(SAID.constants[f"MRT_{parts[kind]}_{name}"], int(value))
        names = [name for part in parts.values() for name in SAID.constants if name.startswith(f"MRT_{part}_")]
        # (two LSAs that contradict each other are no fault of one of them)
        self.assertEqual(len(found), len(names) - 1)


def made() -> str | None:
    """The folder of the library: one that is named, or one that is made where its code is built of these sources."""
    if "MRT_LIBRARY" in os.environ:
        return os.environ["MRT_LIBRARY"]
    if not shutil.which("gcc") or done(BUILDS, "--library", "--is").returncode:
        return None
    folder = tempfile.TemporaryDirectory()
    # (a clean-up of the module would come when the first module has ended, since all are read before any runs)
    atexit.register(folder.cleanup)
    subprocess.run([os.path.join(ROOT, "tools", "library"), folder.name], check=True)
    return folder.name


FOLDER = made()
IS_THERE = FOLDER is not None and os.path.exists(MRT)
ENV = {"LD_LIBRARY_PATH": FOLDER or "", "PKG_CONFIG_PATH": FOLDER or ""}
# Databases and profiles, with certificates that are right for them, that are of others, and that are none.
SAMPLES = {"lan.lsas": "lan.profile", "triangle.lsas": "-", "sample.lsas": "-", "router.lsas": "-"}
CERTIFICATES = ["lan.cert", "sample.cert", "router.cert", "lan.lsas", os.devnull]
ROUTERS = ["10.255.1.1", "10.255.1.4", "10.255.1.6", "1.1.1.1", "2.2.2.2", "0.0.0.0"]


@unittest.skipUnless(IS_THERE, "the library or the program is not built from these sources")
class Examples(unittest.TestCase):
    """Each example prints what the program prints."""

    def setUp(self) -> None:
        holder = tempfile.TemporaryDirectory()
        self.addCleanup(holder.cleanup)
        self.top = holder.name

    def same(self, *words: str) -> None:
        """An example answers as the program on all samples."""
        known = set()
        for database, profile in SAMPLES.items():
            for form, last in [("table", it) for it in ROUTERS] + [("check", it) for it in CERTIFICATES]:
                given = [form, database, profile, last]
                its = done(*words, *given, env=ENV, folder=DATA)
                wanted = done(MRT, *given, folder=DATA)
                said = (its.returncode, its.stdout, its.stderr)
                self.assertEqual(said, (wanted.returncode, wanted.stdout, wanted.stderr), given)
                known.add(its.returncode)
        self.assertLessEqual({0, 1, 5, 7}, known)

    @unittest.skipUnless(shutil.which("make") and shutil.which("pkg-config"), "needs make and pkg-config")
    def test_c(self) -> None:
        shutil.copytree(os.path.join(ROOT, "examples", "c"), os.path.join(self.top, "c"))
        program = os.path.join(self.top, "c", "mrt-example")
        for words in (["make"], ["make", "STATIC=1"]):
            if len(words) == 1 or os.path.exists(os.path.join(str(FOLDER), "libmrt.a")):
                flags = "-O2 -Wall -Wextra -pedantic -Werror"
                built = done(*words, f"CFLAGS={flags}", env=ENV, folder=os.path.dirname(program))
                self.assertEqual((built.returncode, built.stderr), (0, b""))
                self.same(program)
                os.remove(program)

    @unittest.skipUnless(os.path.exists("/usr/bin/cargo"), "needs Debian's cargo")
    def test_rust(self) -> None:
        crate = os.path.join(self.top, "rust")
        shutil.copytree(os.path.join(ROOT, "examples", "rust"), crate, ignore=shutil.ignore_patterns("target"))
        path = {**ENV, "PATH": "/usr/bin:/bin", "CARGO_HOME": os.path.join(self.top, "home"), "MRT_DATA": DATA}
        # (it builds the example too)
        built = done("/usr/bin/cargo", "test", "--offline", "--quiet", env=path, folder=crate)
        self.assertEqual((built.returncode, built.stderr), (0, b""), built.stdout)
        self.same(os.path.join(crate, "target", "debug", "examples", "mrt-example"))
        self.assertIn("#![forbid(unsafe_code)]", read("examples", "rust", "examples", "mrt-example.rs"))

    def test_python(self) -> None:
        self.same(sys.executable, os.path.join(ROOT, "examples", "python", "mrt-example.py"))


@unittest.skipUnless(IS_THERE, "the library or the program is not built from these sources")
class Calls(unittest.TestCase):
    """The calls of Python, beside the program."""

    def setUp(self) -> None:
        self.library = mrt.Library(os.path.join(str(FOLDER), mrt.NAME))
        self.files = {name: self.contents(name) for name in ("lan.lsas", "lan.profile", "lan.cert")}
        self.area = mrt.Area(self.files["lan.lsas"], self.files["lan.profile"])
        self.router = mrt.number("10.255.1.1")

    def contents(self, name: str) -> bytes:
        with open(os.path.join(DATA, name), "rb") as file:
            return file.read()

    def test_a_certificate(self) -> None:
        certificate = self.library.certify(self.area, self.router)
        self.assertEqual(
            certificate, done(MRT, "certify", "lan.lsas", "lan.profile", "10.255.1.1", folder=DATA).stdout
        )
        self.assertEqual(self.library.check(self.area, certificate), mrt.Verdict(self.router, 7, 8))
        with self.assertRaises(mrt.Refused) as caught:
            self.library.check(mrt.Area(self.area.lsas), certificate)
        self.assertEqual(caught.exception.status, mrt.Status.NO)

    def test_rows(self) -> None:
        rows = self.library.table(self.area, self.router)
        self.assertEqual([self.library.row_for(self.area, self.router, row.node) for row in rows], rows)
        wanted = done(MRT, "table", "lan.lsas", "lan.profile", "10.255.1.1", folder=DATA).stdout.decode().splitlines()
        self.assertEqual([str(row) for row in rows], wanted[1:])

    def test_rows_for_prefixes(self) -> None:
        first, second, third = self.router, self.router + 1, self.router + 2
        pairs = [(first, second), (second, third), (first, first), (first, 9)]
        row, *refused = self.library.proxy(self.area, self.router, pairs)
        words = ["proxy", "lan.lsas", "lan.profile", *map(mrt.address, (first, first, second))]
        wanted = done(MRT, *words, folder=DATA).stdout.decode().splitlines()
        self.assertIn(f"{mrt.address(first)} {row}", wanted)
        told = [(it.status, it.at) for it in refused if isinstance(it, mrt.Refused)]
        status = mrt.Status
        self.assertEqual(told, [(status.NO_COMMON_BLOCK, 0), (status.USAGE, 0), (status.NOT_THERE, 9)])
        self.assertEqual(self.library.proxy(self.area, self.router, []), [])

    def test_the_top_call(self) -> None:
        files = {name.encode(): data for name, data in self.files.items()}
        for words in (
            "table lan.lsas lan.profile 10.255.1.4",
            "certify lan.lsas - 10.255.1.4",
            "check lan.lsas lan.profile lan.cert",
            "upgrade lan.lsas - lan.cert",
            "survey 1 400",
            "table nothing - 10.255.1.4",
            "order lan.lsas lan.profile 10.255.1.1",
            "",
        ):
            told = done(MRT, *words.split(), folder=DATA)
            try:
                said = 0, self.library.run(words.encode().split(), files), b""
            except mrt.Refused as refused:
                said = int(refused.status), b"", f"{refused}\n".encode()
            self.assertEqual(said, (told.returncode, told.stdout, told.stderr), words)

    def test_more_room_than_is_tried_at_first(self) -> None:
        words = [b"table", b"lan.lsas", b"lan.profile", b"10.255.1.1"]
        files = {name.encode(): data for name, data in self.files.items()}
        wanted = self.library.run(words, files)
        self.assertGreater(len(wanted), mrt.LINE)
        self.assertEqual(self.library.run(words, files, 0), wanted)


@unittest.skipUnless(
    IS_THERE and os.path.exists(os.path.join(str(FOLDER), "libmrt.a")), "the library is not built from these sources"
)
class Called(unittest.TestCase):
    """library.c, which calls it as C does."""

    FLAGS = (
        "-std=gnu11",
        "-g",
        "-O1",
        "-Wall",
        "-Wextra",
        "-Werror",
        "-Iinclude",
        "tools/tests/library.c",
        "-pthread",
    )
    WRAPPED = "-Wl,--wrap=malloc,--wrap=realloc,--wrap=free"

    def setUp(self) -> None:
        holder = tempfile.TemporaryDirectory()
        self.addCleanup(holder.cleanup)
        self.program = os.path.join(holder.name, "library")

    def run_parts(
        self, *words: str, flags: tuple[str, ...] = (), before: tuple[str, ...] = ()
    ) -> set[tuple[str, int]]:
        """Which calls gave which statuses."""
        library = os.path.join(str(FOLDER), "libmrt.a")
        built = done("gcc", *self.FLAGS, *flags, "-o", self.program, library, self.WRAPPED)
        self.assertEqual((built.returncode, built.stderr), (0, b""))
        told = done(*before, self.program, DATA, *words)
        self.assertEqual((told.returncode, told.stderr.decode()), (0, ""))
        return {(line.split()[0], int(line.split()[1])) for line in told.stdout.decode().splitlines()}

    def test_every_status_that_a_call_has_and_no_other(self) -> None:
        wanted = {(name, SAID.constants[it]) for name, statuses in SAID.statuses.items() for it in statuses}
        self.assertEqual(self.run_parts("rooms", "memory", "threads", "stack"), wanted)

    def test_under_the_sanitizer(self) -> None:
        self.run_parts("rooms", "memory", "threads", flags=("-fsanitize=address,undefined",))

    @unittest.skipUnless(shutil.which("valgrind"), "needs valgrind")
    def test_under_valgrind(self) -> None:
        # (of what is refused each request takes minutes so)
        self.run_parts("rooms", "threads", before=("valgrind", "--quiet", "--error-exitcode=9"))


if __name__ == "__main__":
    unittest.main()
