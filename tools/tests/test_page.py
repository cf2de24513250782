"""The report's page: what its first line says, names as hostile input, links, tables, and what it says without a library."""
import importlib.machinery
import importlib.util
import io
import json
import os
import re
import shutil
import subprocess
import tempfile
import types
import unittest
from collections import Counter
from html.parser import HTMLParser
from typing import Any
from unittest import mock

from mrttools.page import html, installed, verdict
from mrttools.progress import Progress
from tests.making import DATA, MRT, TOOLS, router_lsa
from tests.test_cuts import name, records_of
from tests.test_report import run_report

HAS_JINJA = importlib.util.find_spec("jinja2") is not None

# A ring of three, and a fourth router on two of them.
FOUR = [(1, 2), (2, 3), (1, 3), (3, 4), (1, 4)]


class Page(HTMLParser):
    """A page as its elements: what is open where, texts, links and places."""

    def __init__(self, text: str) -> None:
        super().__init__()
        self.open: list[str] = []
        self.found: list[tuple[str, dict[str, Any]]] = []
        self.text: dict[str, str] = {}
        self.inside = ""
        self.feed(text)

    def handle_starttag(self, tag: str, attrs: Any) -> None:
        self.found.append((tag, dict(attrs)))
        if dict(attrs).get("id"):
            self.inside = dict(attrs)["id"]

    def handle_data(self, data: str) -> None:
        self.text[self.inside] = self.text.get(self.inside, "") + data

    def all(self, tag: str) -> list[dict[str, Any]]:
        return [attrs for found, attrs in self.found if found == tag]

    def of(self, place: str) -> str:
        return " ".join(self.text[place].split())


def database(folder: str, records: list[bytes], kind: str = "lsas") -> str:
    path = os.path.join(folder, f"area.{kind}")
    with open(path, "wb") as file:
        file.write(b"".join(records))
    return path


CAN = bool(HAS_JINJA and shutil.which("dot") and os.access(MRT, os.X_OK))


@unittest.skipUnless(CAN, "the program or a library is missing")
class Case(unittest.TestCase):
    """Pages in a folder."""

    def setUp(self) -> None:
        folder = tempfile.TemporaryDirectory()
        self.addCleanup(folder.cleanup)
        self.folder = folder.name

    def page(self, *words: str) -> Page:
        done = run_report(*words)
        self.assertEqual((done.returncode, done.stderr), (0, ""))
        self.source = done.stdout
        return Page(done.stdout)

    def of(self, records: list[bytes], profile: str = "", *words: str) -> Page:
        return self.page(database(self.folder, records), database(self.folder, [profile.encode()], "profile"), *words)


class FirstLine(Case):
    def test_a_ring_is_protected(self) -> None:
        found = self.of(records_of([(1, 2), (2, 3), (1, 3)], [], [10]))
        self.assertTrue(
            found.of("verdict").startswith("\u2714 Protected: all 6 pairs of routers that can be repaired are")
        )

    def test_what_is_kept_out_is_told_as_a_choice(self) -> None:
        found = self.of(records_of(FOUR, [], [10]), f"no-mrt {name(4)}\n")
        self.assertIn(
            f"6 could be and are not, by choice: {name(4)} is kept out by the profile (6)", found.of("verdict")
        )
        self.assertTrue(found.of("verdict").startswith("\u2714 Protected: all 6 pairs"), found.of("verdict"))

    def test_a_link_of_the_greatest_metric_is_no_choice(self) -> None:
        found = self.of(records_of([(1, 2), (2, 3), (1, 3)], [], [10, 10, 10, 10, 65535, 10]))
        self.assertTrue(found.of("verdict").startswith("\u25b2 Protected in part: "), found.of("verdict"))
        self.assertIn("has the metric 65,535", found.of("verdict"))

    def test_a_router_in_maintenance(self) -> None:
        found = self.of(records_of(FOUR, [], [10, 10, 10, 10, 10, 10, 10, 65535, 10, 65535]))
        self.assertIn(f"{name(4)} is in maintenance (metric 65,535) (6)", found.of("verdict"))

    def test_single_points(self) -> None:
        found = self.of(records_of([(1, 2), (2, 3), (1, 3), (3, 4)], [], [10]))
        self.assertIn("6 cannot be: 2 single points of failure.", found.of("verdict"))

    def test_each_number_is_a_link_to_its_list(self) -> None:
        found = self.page(f"{DATA}/lan.lsas", f"{DATA}/lan.profile")
        places = {attrs["id"] for _, attrs in found.found if attrs.get("id")}
        links = {attrs["href"] for attrs in found.all("a")}
        self.assertLessEqual({link[1:] for link in links}, places)
        self.assertLessEqual({"#repaired", "#points", "#gaps"}, links)

    def test_a_pair_without_a_cause_is_a_fault_of_ours(self) -> None:
        loader = importlib.machinery.SourceFileLoader("report", f"{TOOLS}/report")
        tool = types.ModuleType("report")
        loader.exec_module(tool)
        words = ["report", "--mrt", MRT, f"{DATA}/lan.lsas", f"{DATA}/lan.profile"]
        with mock.patch("sys.argv", words), mock.patch("mrttools.page.causes.WhyNot.of", lambda *_: ()):
            found = Page(tool.report(tool.words(), Progress("report", io.StringIO())))
        self.assertTrue(found.of("verdict").startswith("\u2716 A fault of ours."), found.of("verdict"))
        self.assertIn("nothing explains it: a fault of ours", found.of("gaps"))

    def test_no_router_at_all(self) -> None:
        found = self.of([router_lsa(name(1), [])])
        self.assertIn("There is no pair of routers.", found.of("verdict"))


class Pages(Case):
    def test_names_are_no_markup(self) -> None:
        path = os.path.join(self.folder, "names")
        with open(path, "w", encoding="utf-8") as file:
            file.write("10.255.1.3 <script>alert(1)</script>\n10.255.1.4 {{ 7777 * 7777 }}\"'><b>\n")
        found = self.page("--names", path, "--title", "a & <b>", f"{DATA}/lan.lsas", f"{DATA}/lan.profile")
        self.assertNotIn("<script>alert", self.source)
        self.assertNotIn(str(7777 * 7777), self.source)
        self.assertIn("{{ 7777 * 7777 }}", found.of("verdict"))
        self.assertEqual(len(found.all("script")), 1)
        self.assertEqual(found.all("b"), [each for each in found.all("b") if set(each) <= {"class"}])
        self.assertIn("<h1>a &amp; &lt;b&gt;</h1>", self.source)
        # Everywhere, also in traces.
        traces = self.source[self.source.index("The ten longest repairs") :]
        self.assertIn("&lt;script&gt;alert(1)&lt;/script&gt;</span>", traces[: traces.index("</table>")])

    def test_it_fetches_nothing_and_runs_its_own_script_alone(self) -> None:
        found = self.page(f"{DATA}/lan.lsas", f"{DATA}/lan.profile")
        for word in ("src=", "http://", "https://", "@import", "url("):
            self.assertNotIn(
                word, self.source.replace('xmlns="http://www.w3.org/2000/svg"', "").replace('"url(#', "")
            )
        (policy,) = [each["content"] for each in found.all("meta") if "http-equiv" in each]
        self.assertRegex(policy, r"default-src 'none'; style-src 'unsafe-inline'; script-src 'sha256-[\w+/]+='$")
        self.assertEqual([key for _, attrs in found.found for key in attrs if key.startswith("on")], [])

    def test_tables_have_captions_and_scopes(self) -> None:
        found = self.page(f"{DATA}/lan.lsas", f"{DATA}/lan.profile")
        self.assertEqual(len(found.all("table")), len(found.all("caption")))
        self.assertEqual({each.get("scope") for each in found.all("th")}, {"col", "row"})
        self.assertTrue(all(each.get("data-h") or each.get("class") for each in found.all("td")))

    def test_each_failure_has_a_section(self) -> None:
        found = self.page(f"{DATA}/lan.lsas", f"{DATA}/lan.profile")
        sections = [attrs["id"] for attrs in found.all("div") if attrs.get("id", "").startswith("f-")]
        self.assertEqual(len(sections), len(set(sections)))
        self.assertEqual(len(sections), 9 + 7)
        self.assertIn(
            "10.255.1.6 has 5 destinations over it: 5 have no way left.",
            found.of(html.anchor("link:10.255.1.3/192.0.2.17")),
        )

    def test_what_is_not_repaired_though_there_is_a_way(self) -> None:
        """Its table: why, how many pairs, how many of them are without it, and which; and the same at each failure."""
        found = self.page(f"{DATA}/lan.lsas", f"{DATA}/lan.profile")
        cells = '<td class="n" data-h="Pairs">12</td><td class="n" data-h="Repaired without it">6</td>'
        table = self.source[self.source.index('id="gaps"') : self.source.index('id="points"')]
        self.assertEqual(table.count("<tr><th scope"), 2)
        self.assertIn(f'{cells}<td data-h="Of these">10.255.1.4 to 10.255.1.1, ', table)
        self.assertIn("is kept out by the profile", table)
        for element, told in (
            ("link:10.255.1.4/198.51.100.4", "12 pairs could be repaired and are not, by choice; 4 of 16 pairs repaired"),
            ("net:198.51.100.4", "6 pairs could be repaired and are not, by choice; 16 pairs parted; 4 of 26 pairs repaired"),
        ):
            place = html.anchor(element)
            summary = self.source.split(f'id="{place}"')[0]
            self.assertIn(told, " ".join(re.sub("<[^>]*>", " ", summary[summary.rindex("<summary>") :]).split()))
            self.assertIn("Not repaired, though there is a way: 10.255.1.4 to 10.255.1.1, ", found.of(place))

    def test_the_style_has_what_it_should(self) -> None:
        style = html.file_text("report.css")
        for words in ("prefers-color-scheme: dark", "max-width: 600px", "@media print", ":focus-visible"):
            self.assertIn(words, style)


@unittest.skipUnless(shutil.which("chromium"), "chromium is not installed")
class InABrowser(Case):
    """What the script makes of the page."""

    def dom(self, place: str = "", script: str = "") -> Page:
        """The last page as a browser has it, at a place, after a script more has run, which says something at its end."""
        if not hasattr(self, "source"):
            self.page(f"{DATA}/lan.lsas", f"{DATA}/lan.profile")
        path = os.path.join(self.folder, "page.html")
        # (the page's own policy lets no other script run)
        text = re.sub(r"<meta http-equiv[^>]*>", "", self.source)
        more = "{ const say = (words) => { const p = document.createElement('p'); p.id = 'said'; p.append(words); document.body.append(p); };"
        with open(path, "w", encoding="utf-8") as file:
            file.write(text.replace("</body>", f"<script>{more} {script} }}</script></body>"))
        words = [
            "chromium",
            "--headless",
            "--no-sandbox",
            "--disable-gpu",
            "--virtual-time-budget=3000",
            "--dump-dom",
        ]
        done = subprocess.run(
            [*words, f"file://{path}{place}"], capture_output=True, text=True, timeout=60, check=False
        )
        return Page(done.stdout)

    def test_a_failure_opens_by_its_link(self) -> None:
        place = html.anchor("link:10.255.1.3/192.0.2.17")
        closed = sum("open" in each for each in self.dom().all("details"))
        self.assertGreaterEqual(sum("open" in each for each in self.dom(f"#{place}").all("details")), closed + 1)

    def test_the_age_of_the_page_is_told(self) -> None:
        self.page(f"{DATA}/lan.lsas", f"{DATA}/lan.profile")
        self.source = re.sub(r'datetime="[^"]*"', 'datetime="2020-01-01T00:00:00Z"', self.source)
        self.assertRegex(
            self.dom("", "say(document.querySelector('time + b').textContent)").of("said"), r"^\(\d+ hours ago\)$"
        )

    def test_tables_are_sorted(self) -> None:
        click = "const head = [...document.querySelectorAll('#points ~ .wide thead button')][1]; head.click();"
        found = self.dom("", click + "say(document.querySelector('#points ~ .wide tbody').innerText)")
        self.assertEqual([each["aria-sort"] for each in found.all("th") if each.get("aria-sort")], ["ascending"])
        self.assertEqual([int(each) for each in re.findall(r"\t(\d+)\t", found.text["said"])], [8, 10, 16, 16])

    def test_lists_are_filtered(self) -> None:
        self.of(records_of([(each, each % 20 + 1) for each in range(1, 21)], [], [10]))
        script = (
            "const fields = document.querySelectorAll('.filter'), one = fields[fields.length - 2]; one.value = '10.0.6.7';"
            "one.dispatchEvent(new Event('input')); const all = [...document.querySelectorAll('.failures > details')];"
            "say(all.length + ' ' + all.filter((each) => each.hidden !== each.textContent.includes('10.0.6.7')).length"
            " + ' ' + all.filter((each) => each.hidden).length)"
        )
        whole, right, hidden = map(int, self.dom("", script).of("said").split())
        self.assertEqual((whole, right), (40, 40))
        self.assertGreater(hidden, 10)

    def test_the_picture_is_moved(self) -> None:
        script = (
            "const frame = document.querySelector('.picture'), box = frame.querySelector('svg').viewBox.baseVal, old = box.width;"
            "frame.dispatchEvent(new KeyboardEvent('keydown', { key: '+' })); const near = box.width, left = box.x;"
            "frame.dispatchEvent(new KeyboardEvent('keydown', { key: 'ArrowRight' }));"
            "say(`${near < old} ${box.x > left}`)"
        )
        self.assertEqual(self.dom("", script).of("said"), "true true")


class Sentences(Case):
    def test_one_after_another(self) -> None:
        """Each of those that a page may have or not stands apart from the one before."""
        for place, said in enumerate(({}, {"router": name(9), "format": installed.FORMAT})):
            with open(os.path.join(self.folder, f"{place}.json"), "w", encoding="ascii") as file:
                json.dump(said, file)
        records = [*records_of([(1, 2), (2, 3), (1, 3)], [], [10]), router_lsa(name(4), [])]
        found = self.of(records, f"no-mrt {name(3)}\n", "--installed", self.folder)
        self.assertIn(
            f"The profile keeps out {name(3)}. No link of an island leads to {name(4)}. 6 pairs of routers have no way at all.",
            found.of("picture"),
        )
        self.assertIn(f". No member of an island: {name(9)}. Not the statement of an agent: 0.json.", found.of("installed"))


class Lacking(unittest.TestCase):
    """Without the library the page cannot be made, and the facts can."""

    def run_without(self, *words: str, tool: str = "report", path: str = "") -> subprocess.CompletedProcess[str]:
        with tempfile.TemporaryDirectory() as folder:
            with open(os.path.join(folder, "jinja2.py"), "w", encoding="ascii") as file:
                file.write("raise ImportError\n")
            command = [f"{TOOLS}/{tool}", "--mrt", MRT, f"{DATA}/lan.lsas", f"{DATA}/lan.profile", *words]
            env = os.environ | ({"PATH": path} if path else {"PYTHONPATH": folder})
            return subprocess.run(command, capture_output=True, text=True, env=env, check=False)

    @unittest.skipUnless(os.access(MRT, os.X_OK), "the program is not built")
    def test_jinja(self) -> None:
        done = self.run_without()
        self.assertEqual((done.returncode, done.stdout, done.stderr), (8, "", f"report: {html.LACKS}\n"))
        done = self.run_without("--json")
        self.assertEqual((done.returncode, done.stderr), (0, ""))
        self.assertEqual(json.loads(done.stdout)["format"], "semborui-report")

    @unittest.skipUnless(os.access(MRT, os.X_OK), "the program is not built")
    def test_graphviz(self) -> None:
        wanted = "a picture needs Debian's graphviz"
        done = self.run_without(path="/nonexistent")
        self.assertEqual((done.returncode, done.stdout), (8, ""))
        lacks = f"{wanted}; --json writes the facts without it" if HAS_JINJA else html.LACKS
        self.assertEqual(done.stderr, f"report: {lacks}\n")
        self.assertEqual(self.run_without("--json", path="/nonexistent").returncode, 0)
        done = self.run_without("10.255.1.1", tool="draw", path="/nonexistent")
        self.assertEqual((done.returncode, done.stdout, done.stderr), (8, "", f"draw: {wanted}\n"))


@unittest.skipUnless(os.access(MRT, os.X_OK), "the program is not built")
class Runs(unittest.TestCase):
    def test_a_large_area_takes_few(self) -> None:
        """The program is started once for each island, for a hundred tables, for a trace and for its version."""
        with tempfile.TemporaryDirectory() as folder:
            path, log = os.path.join(folder, "mrt"), os.path.join(folder, "log")
            with open(path, "w", encoding="ascii") as file:
                file.write(f'#!/bin/sh\necho "$1" >>{log}\nexec {MRT} "$@"\n')
            os.chmod(path, 0o755)
            links = [(each, each % 240 + 1) for each in range(1, 241)]
            area = database(folder, records_of(links, [], [10]))
            done = subprocess.run(
                [f"{TOOLS}/report", "--json", "--mrt", path, area, "-"], capture_output=True, check=False
            )
            self.assertEqual((done.returncode, done.stderr), (0, b""))
            with open(log, encoding="ascii") as file:
                runs = Counter(file.read().split())
        self.assertEqual((runs["certify"], runs["fabric"], runs["--version"]), (1, 1, 1))
        self.assertTrue(50 <= runs["table"] <= 100, runs)
        self.assertEqual(sum(runs.values()) - runs["table"], 3)


class Parts(unittest.TestCase):
    def test_a_share_that_is_not_all_is_not_told_as_all(self) -> None:
        self.assertEqual(
            [html.percent(*each) for each in ((9999, 10000), (1, 10000), (3, 3), (0, 3), (0, 0))],
            ["99.9 %", "0.1 %", "100 %", "0 %", "\u2013"],
        )

    def test_verdicts(self) -> None:
        pairs = {"all": 2, "repaired": 2}
        choice: dict[str, Any] = {"causes": [1], "by_choice": True}
        other: dict[str, Any] = {"causes": [1], "by_choice": False}
        fault: dict[str, Any] = {"causes": []}
        for gaps, installed, wanted in (
            ([], None, "protected"),
            ([choice], None, "protected"),
            ([choice, other], None, "in-part"),
            ([choice, fault], None, "fault"),
            ([], ["current", "current"], "protected"),
            ([], ["behind", "current"], "not"),
            ([], ["old"], "not"),
        ):
            said = installed and {"routers": [{"installed": each} for each in installed]}
            self.assertEqual(verdict.verdict({"pairs": pairs, "gaps": gaps, "installed": said}), wanted)
        self.assertEqual(verdict.verdict({"pairs": {"all": 2, "repaired": 0}, "gaps": [], "installed": None}), "not")

    def test_signs_can_be_told_without_color(self) -> None:
        self.assertEqual(len({html.SIGNS[state] for state in ("protected", "in-part", "not")}), 3)
        self.assertEqual(len(set(html.CELLS.values())), len(html.CELLS))

    def test_anchors(self) -> None:
        self.assertEqual(html.anchor("link:10.0.0.1/0.0.0.3"), "f-link-10.0.0.1-0.0.0.3")
        self.assertTrue(re.fullmatch(r"[\w.-]+", html.anchor("net:1.2.3.4")))
