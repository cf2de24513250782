"""The report of an area as one page, by templates that escape all that they are given. It fetches nothing, and its one
script is its own."""
from __future__ import annotations

import base64
import hashlib
import os
import re
import shutil
from typing import Any, NamedTuple, Sequence

from mrttools import names
from mrttools.area import Node
from mrttools.exits import READ_FAULT, ToolFault
from mrttools.names import count
from . import layout
from .matrix import Matrix
from .new_links import NEAR
from .plain_values import Values

FOLDER = os.path.join(os.path.dirname(os.path.abspath(__file__)), "templates")
LACKS = "the page needs Debian's python3-jinja2; --json writes the facts without it"
SHOWN = 8
SIGNS = {
    "protected": "\u2714",
    "in-part": "\u25b2",
    "not": "\u2716",
    "fault": "\u2716",
    "repaired": "+",
    "parts": "\u00d7",
    "gap": "!",
    "choice": "o",
    "unused": "\u00b7",
    "current": "\u2714",
    "behind": "\u2716",
    "none": "\u2716",
    "unknown": "?",
    "old": "?",
}
INSTALLED = {
    "none": "without a repair in",
    "behind": "with another certificate",
    "unknown": "not heard of",
    "old": "with the certificate when last heard of",
    "current": "with the certificate",
}
PARTS = {"root": "root", "member": "in an island", "alone": "in no island", "no-mrt": "kept out by the profile"}
CELLS = {"g": "!", "p": "&times;", "c": "o", "r": "+", "n": "&middot;"}
# What a failure ends in, and whether its lists are open where they are short.
ENDS = {
    "gap": ("a pair is lost that could be repaired", True),
    "parts": ("pairs are parted", True),
    "choice": ("a pair is lost by choice", False),
    "repaired": ("all is repaired", False),
    "unused": ("nothing changes: no pair meets it", False),
}
SHORT = 40
# The sections in their order: file, place, name in the list of sections.
SECTIONS = [
    ("installed", "installed", "installed"),
    ("since", "since", "since"),
    ("todo", "todo", "what to do"),
    ("matrix", "matrix", "failure by router"),
    ("gaps", "gaps", "could be"),
    ("points", "points", "single points"),
    ("picture", "picture", "picture"),
    ("repaired", "repaired", "repaired"),
    ("stretch", "stretch", "stretch"),
    ("load", "load", "load"),
    ("failures", "failures", "each failure"),
    ("routers", "routers", "routers"),
    ("made", "made", "made of"),
]


class Drawn(NamedTuple):
    """A picture, how wide it is where nothing is made smaller, and a matrix of failures."""

    picture: str
    width: float
    matrix: Matrix


def file_text(name: str) -> str:
    with open(os.path.join(FOLDER, name), encoding="utf-8") as file:
        return file.read()


# numbers


def number(value: float) -> str:
    return f"{int(value):,}" if value == int(value) else f"{value:,.1f}"


def percent(part: float, whole: float) -> str:
    """A part of a whole, which is told as all or none only where it is."""
    if not whole:
        return "\u2013"
    if 0 < part < whole:
        return f"{min(99.9, max(0.1, 100 * part / whole)):.1f} %"
    return f"{100 * part // whole:.0f} %"


def share(part: float, whole: float) -> str:
    return f"{100 * part / whole if whole else 0:.1f}"


def age(seconds: int) -> str:
    """Seconds as one reads them."""
    if seconds < 120:
        return count(seconds, "second")
    return count(round(seconds / 60), "minute")


def anchor(element: str) -> str:
    """The place of a failure's section."""
    return "f-" + re.sub(r"[^0-9A-Za-z.]+", "-", element)


def counted(what: Any, word: str) -> str:
    """A number of things, or of the things in a list."""
    return count(what if isinstance(what, int) else len(what), word)


def told(value: object) -> str:
    return "" if value is None else str(value)


class Words:
    """The names that people have for nodes and links, as markup. Nothing of a name is taken for markup."""

    def __init__(self, markup: Any, known: dict[Node, str], failures: Sequence[Values]) -> None:
        self.markup, self.names = markup, known
        self.known = {node.text: name for node, name in known.items() if name}
        self.elements = {each["element"]: each for each in failures}

    def node(self, text: str) -> Any:
        """A node by its name, with its address where the pointer rests on it."""
        if text not in self.known:
            return self.markup.escape(text)
        return self.markup('<span title="{}">{}</span>').format(text, self.known[text])

    def element(self, values: Values) -> Any:
        """A router by its name, a network with this word, a link by its two nodes."""
        if values["kind"] == "link":
            return self.markup('link <span title="{}">{} \u2013 {}</span>').format(
                values["element"], *map(self.node, values["ends"])
            )
        if values["kind"] == "network" and values["element"] not in self.known:
            return self.markup("network {}").format(values["element"].removeprefix("net:"))
        return self.node(values["element"])

    def any(self, text: str) -> Any:
        """What mrt takes as an element, as a link to the section of its failure."""
        values = self.elements.get(text)
        if values is None:
            return self.node(text)
        return self.markup('<a href="#{}">{}</a>').format(anchor(text), self.element(values))

    def some(self, texts: Sequence[str]) -> Any:
        """The first nodes of a list, and how many more there are."""
        shown = self.markup(", ").join(map(self.node, texts[:SHOWN]))
        return shown + (f" and {len(texts) - SHOWN:,} more" if len(texts) > SHOWN else "")

    def sides(self, sides: Sequence[Sequence[str]]) -> Any:
        parts = [self.markup("{}: {}").format(count(len(side), "router"), self.some(side)) for side in sides]
        return self.markup("<br>").join(parts)

    def trace(self, lines: Sequence[str]) -> Any:
        """The lines of a trace in one, with names for its nodes."""
        found = []
        for line in lines:
            word, *rest = line.split(" ", 1)
            found.append(self.markup("{} {}").format(word, self.node(rest[0])) if rest else self.markup(word))
        return self.markup("; ").join(found)

    def filters(self) -> dict[str, Any]:
        own = "node", "element", "any", "some", "sides", "trace"
        return {name: getattr(self, name) for name in own} | {
            "link": self.any,
            "num": number,
            "percent": percent,
            "share": share,
            "age": age,
            "anchor": anchor,
            "told": told,
            "count": counted,
            "zip": zip,
        }


def libraries() -> tuple[Any, Any]:
    """What makes the page. Where something is missing, it is said before anything is done."""
    try:
        import jinja2
        import markupsafe
    except ImportError:
        raise ToolFault(LACKS, READ_FAULT) from None
    if not shutil.which("neato"):
        raise ToolFault(f"{layout.LACKS}; --json writes the facts without it", READ_FAULT)
    return jinja2, markupsafe


def environment(words_of: Any) -> Any:
    """The templates, which escape whatever is put into them."""
    jinja2, markupsafe = libraries()
    found = jinja2.Environment(
        loader=jinja2.FileSystemLoader(FOLDER),
        autoescape=True,
        trim_blocks=True,
        lstrip_blocks=True,
        undefined=jinja2.StrictUndefined,
    )
    found.filters |= words_of(markupsafe.Markup).filters()
    found.globals |= {
        "signs": SIGNS,
        "installed_words": INSTALLED,
        "part_words": PARTS,
        "near": NEAR,
        "ends": ENDS,
        "short": SHORT,
    }
    return found, markupsafe.Markup


def picture_style(width: float) -> str:
    """A picture is made smaller only as far as its names can be read, and not much larger; else the reader moves it."""
    least = min(width, 0.55 * width + max(0, 0.2 * (width - 800)))
    return f".picture svg {{ min-width: {least:.0f}px; max-width: {1.25 * width:.0f}px; margin: auto; }}\n"


def page(values: Values, drawn: Drawn, title: str, known: dict[Node, str]) -> str:
    """The whole page."""
    templates, markup = environment(lambda markup: Words(markup, known, values["failures"]))
    there = [section for section in SECTIONS if section[0] not in ("installed", "since") or values[section[0]]]
    script = file_text("report.js")
    digest = base64.b64encode(hashlib.sha256(script.encode()).digest()).decode()
    return templates.get_template("report.html").render(
        values=values,
        title=title,
        matrix=drawn.matrix,
        letters={letter: markup(f'<td class="{letter}">{sign}') for letter, sign in CELLS.items()},
        picture=markup(drawn.picture),
        style=markup(file_text("report.css") + picture_style(drawn.width)),
        script=markup(script),
        script_digest=digest,
        parts=[f"{section[0]}.html" for section in there],
        places=[section[1:] for section in there],
    )


def plain(known: dict[Node, str]) -> Any:
    """A node by its name or else its address, as text."""
    return lambda node: names.spelled(known, node)
