"""Which site each router is of: by a file, or by its name up to the last mark in it."""
from __future__ import annotations

import re

from mrttools import names
from mrttools.area import Node


def by_names(known: dict[Node, str]) -> dict[Node, str]:
    """The sites that names tell, as agg-zrh of agg-zrh-61; none of a name without a mark."""
    found = {}
    for node, name in known.items():
        before = re.match(r"(.+)[-_.:]", name)
        if before:
            found[node] = before[1]
    return found


def read(name: str | None, known: dict[Node, str]) -> dict[Node, str]:
    """The sites of a file, whose lines are as those of a file of names, or else those that the names tell."""
    return names.read(name) if name else by_names(known)
