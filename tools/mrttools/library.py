"""libmrt, where the tools have it: the program's forms in this process, over the files that the words name."""
from __future__ import annotations

import os
import subprocess
import sys
from functools import lru_cache
from importlib import util
from typing import TYPE_CHECKING, Mapping, NamedTuple, Sequence

from .area import Node

# The binding is a file for everyone, so it stands with the examples, here as in an archive and where the tools are
# installed. Whoever needs it has it from here.
BINDING = os.path.join(os.path.dirname(os.path.realpath(__file__)), "..", "..", "examples", "python", "mrt.py")
if TYPE_CHECKING:
    import mrt as libmrt
    from mrt import Hop, Library
else:
    spec = util.spec_from_file_location("mrt", BINDING)
    libmrt = sys.modules["mrt"] = util.module_from_spec(spec)
    spec.loader.exec_module(libmrt)
    Hop, Library = libmrt.Hop, libmrt.Library

NO_COMMON_BLOCK = int(libmrt.Status.NO_COMMON_BLOCK)
Files = Mapping[bytes, bytes]
# The next hop of a node on a color, and its link data there; none where the prefix hangs on it.
Step = tuple[Node, int] | None
Pair = tuple[Node, Node]
OwnRow = tuple[Step, Step]


class Answer(NamedTuple):
    """The program's status, what it writes, and its line on a fault."""

    status: int
    text: bytes
    line: bytes


@lru_cache(maxsize=None)
def of(root: str) -> Library | None:
    """The library of a checkout, if it is built from the sources there; of an archive that which came with it; else the one
    that is installed. None where there is none, where it lacks a call, or where it is for another processor."""
    path = os.path.join(root, "crates", "mrt_c", "out", libmrt.NAME)
    if os.path.exists(os.path.join(root, "crates.txt")):
        words = [os.path.join(root, "tools", "build"), "--library", "--is"]
        if not os.path.exists(path) or subprocess.run(words, stderr=subprocess.DEVNULL, check=False).returncode:
            return None
    elif not os.path.exists(path):
        path = libmrt.NAME
    try:
        return Library(path)
    except (OSError, AttributeError):
        return None


def are_plain(words: Sequence[str]) -> bool:
    """Whether words name nothing but files that can be read twice, as a pipe cannot."""
    return all(os.path.isfile(word) or not os.path.exists(word) for word in words)


def files_of(words: Sequence[str]) -> Files:
    """What the files hold that the words name. Of one that cannot be read the library says so."""
    found = {}
    for word in words:
        if os.path.isfile(word):
            try:
                with open(word, "rb") as file:
                    found[os.fsencode(word)] = file.read()
            except OSError:
                pass
    return found


def answer(library: Library, words: Sequence[str], files: Files) -> Answer:
    try:
        return Answer(0, library.run([os.fsencode(word) for word in words], files), b"")
    except libmrt.Refused as refused:
        return Answer(refused.status, b"", f"{refused}\n".encode())


def own_rows(
    library: Library, words: Sequence[str], files: Files, router: Node, pairs: Sequence[Pair]
) -> dict[Pair, OwnRow | None]:
    """What a router itself installs for prefixes at two routers each; none for two that have no common block. What
    else is refused is left out."""
    given = libmrt.Area(*(files.get(os.fsencode(word), b"") for word in words))
    found: dict[Pair, OwnRow | None] = {}
    try:
        rows = library.proxy(given, router.number, [(one.number, other.number) for one, other in pairs])
    except libmrt.Refused:
        return found
    for pair, row in zip(pairs, rows):
        if isinstance(row, libmrt.ProxyRow):
            found[pair] = step_of(row.blue), step_of(row.red)
        elif row.status == NO_COMMON_BLOCK:
            found[pair] = None
    return found


def step_of(hop: Hop | None) -> Step:
    return None if hop is None else (Node(hop.node.number, int(hop.node.kind)), hop.link_data)
