"""Names of routers for people: a file with a router and its name on each line."""
from __future__ import annotations

from . import area
from .area import Node
from .exits import ToolFault

BAD_NAMES = 15


def read(name: str) -> dict[Node, str]:
    """The names of a file. A line is an address, or `net:` and an address, and a name; one that begins with # and an
    empty one are passed over."""
    found: dict[Node, str] = {}
    with open(name, encoding="utf-8", errors="replace") as file:
        for number, line in enumerate(file, 1):
            words = line.split(maxsplit=1)
            if not words or line.startswith("#"):
                continue
            try:
                node = area.node_of(words[0])
                found[node] = "".join(letter for letter in words[1].strip() if letter.isprintable())
            except (ValueError, IndexError):
                raise ToolFault(f"bad names: {name} on line {number}", BAD_NAMES) from None
    return found


def spelled(names: dict[Node, str], node: Node) -> str:
    """A node by its name or else its address, as a picture shows it."""
    return names.get(node) or node.text.removeprefix("net:")


def known(names: dict[Node, str], node: Node) -> str:
    """A node by its address and, if it has one, its name."""
    return f"{names[node]} ({node.text})" if names.get(node) else node.text


def count(number: int, one: str) -> str:
    """A number of things, by the word for one of them."""
    return f"{number:,} {one}{'' if number == 1 else 's'}"
