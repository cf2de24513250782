"""The contracts of the crates' public functions and laws, read from their texts: comments, conditions and clauses.

A text is read as `rt fmt` lays it out, by lines and their indentation. A function is public where the crate's lib.rt, or
the main.rt of a program, has it or hands it on, or the type or trait that it belongs to.
"""
from __future__ import annotations

import os
import re
from dataclasses import dataclass
from typing import NamedTuple

from .definitions import Library, Missing, Name, Used, comment_over, files, joined, uses

HANDED = re.compile(r"^pub use (\w+)::(\{[^}]*\}|\w+);", re.MULTILINE)
OWN = re.compile(r"^pub (?:struct|enum|trait|type|(?:extern \"C\" )?fn) (\w+)", re.MULTILINE)
BLOCK = re.compile(r"^(?:pub )?(?:(trait) (\w+)(?:: [\w +]+)?|impl(?:<.*?>)? (?:(\w+)(<.*>)? for )?(\w+)(?:<.*>)?) \{$")
FUNCTION = re.compile(r"^( *)(pub(?:\(crate\))? )?(?:const |extern \"C\" )?fn (\w+)")
TYPE = re.compile(r"^pub (?:struct|enum|trait|type) (\w+)")
CLAUSE = re.compile(r"^ *(requires|ensures|ghost)(?: (\w+))?(?: =|:)? \{")
GHOST = re.compile(r"^    ghost (\w+)(?: =|:) \{")
# What an impl gives to a trait of the library beside the values that callers see.
INNER = {"laws", "total", "matches_partial_cmp", "matches_eq", "healthy_below"}
INNER |= {"view", "inverse", "inverse_ok", "invariant"}


class Clause(NamedTuple):
    """A condition, a clause, or what an impl gives to a trait: its name, if it has one, and its formula."""

    name: str
    formula: str


@dataclass
class Part:
    """A function with its contract, a trait or an impl with what stands there for contracts, or a type."""

    crate: str
    file: str
    first: int
    name: str
    about: list[str]
    lines: list[str]
    used: Used
    trait: str = ""

    @property
    def place(self) -> str:
        return f"crates/{self.crate}/src/{self.file}.rt:{self.first}"

    @property
    def clauses(self) -> list[Clause]:
        """Its conditions and clauses, or what it gives."""
        found, text = [], ""
        for line in self.lines:
            if text or CLAUSE.match(line):
                text = f"{text} {line.strip()}" if text else line
            if text and is_closed(text):
                head = CLAUSE.match(text)
                assert head is not None
                found.append(Clause(head[2] or "", text[head.end() : text.rindex("}")].strip()))
                text = ""
        return found

    @property
    def is_law(self) -> bool:
        return f"fn {self.name}()" in self.lines[0] and bool(self.clauses)

    def under(self, library: Library) -> list[Name]:
        """The definitions that it names, in the order in which it names them."""
        text = " ".join(clause.formula for clause in self.clauses)
        return list(dict.fromkeys(name for _, name in library.given(self.used, text) if name is not None))


def is_closed(text: str) -> bool:
    return text.count("{") == text.count("}")


class Text:
    """A file of a crate's text: its types, its functions, its traits, and its impls of traits."""

    def __init__(self, crate: str, file: str, text: str) -> None:
        self.crate, self.file, self.lines = crate, file, text.splitlines()
        self.types: list[Part] = []
        self.functions: list[Part] = []
        self.impls: list[Part] = []
        self.used: Used = {}
        for line in joined(line.strip() for line in self.lines):
            if line.startswith("ghost use "):
                self.used.update(uses(line.removeprefix("ghost ").rstrip(";")))
        first = 0
        while first < len(self.lines):
            block, kind = BLOCK.match(self.lines[first]), TYPE.match(self.lines[first])
            if block is None and re.match(r"(pub )?(impl|trait)\b", self.lines[first]):
                raise Missing(f"crates/{crate}/src/{file}.rt:{first + 1}: not read: {self.lines[first]}")
            if kind is not None:
                self.types.append(self.part(first, kind[1], self.lines[first : first + 1]))
            if block is not None:
                last = self.lines.index("}", first)
                self.block(block, first, last)
                first = last
            self.function(first, "", False)
            first += 1

    def part(self, first: int, name: str, lines: list[str], trait: str = "") -> Part:
        about = comment_over(self.lines, first + 1, "///")
        return Part(self.crate, self.file, first + 1, name, about, lines, self.used, trait)

    def block(self, head: re.Match[str], first: int, last: int) -> None:
        """The functions of an impl or a trait, and what an impl gives to its trait or a trait asks for."""
        owner, trait = head[2] or head[5], head[3] + (head[4] or "") if head[3] else ""
        lines = [self.lines[first].removesuffix(" {")]
        for number in range(first, last):
            self.function(number, f"{owner}::", bool(trait or head[1]))
            ghost = GHOST.match(self.lines[number])
            if ghost is not None and not (trait and ghost[1] in INNER):
                lines += self.ghost(number)
        if len(lines) > 1:
            self.impls.append(self.part(first, owner, lines, trait))

    def ghost(self, first: int) -> list[str]:
        """The lines of what an impl gives to its trait, or a trait asks for, with the comment over it."""
        last = first + 1
        while not is_closed("".join(self.lines[first:last])):
            last += 1
        while self.lines[first - 1].lstrip().startswith("//"):
            first -= 1
        return self.lines[first:last]

    def function(self, first: int, owner: str, is_public: bool) -> None:
        """A function of a block, or of the file, that is public or one of a trait."""
        head = FUNCTION.match(self.lines[first])
        if head is not None and len(head[1]) == (4 if owner else 0) and (is_public or head[2] == "pub "):
            lines = [line[len(head[1]) :] for line in self.lines[first : self.end(first, head[1])]]
            self.functions.append(self.part(first, owner + head[3], lines))

    def end(self, first: int, indent: str) -> int:
        """The number of the line after a function's contract."""
        contract, last = 0, first
        while self.lines[last] not in (indent + "{", indent + "{}"):
            line = self.lines[last].strip()
            last += 1
            if line.startswith("//"):
                continue
            if not contract and CLAUSE.match(line):
                contract = last
            if not contract and line.endswith((" {", " {}", ";")):
                return last
            if contract and line.endswith(";") and is_closed("".join(self.lines[contract - 1 : last])):
                return last
        return last


class Crate:
    """The public parts of a crate, by file: types and traits, what contracts see of a type, what a trait asks for and what
    impls give, functions, and laws."""

    def __init__(self, root: str, name: str) -> None:
        self.name = name
        texts = dict(files(os.path.join(root, "crates", name, "src"), ".rt"))
        top = texts.get("lib") or texts.get("main") or ""
        said = [line[3:] for line in top.splitlines() if line.startswith("//!")]
        self.about = [line.strip() for line in said if not line.startswith("     ")]
        public = {word for _, names in HANDED.findall(top) for word in re.findall(r"\w+", names)} | set(
            OWN.findall(top)
        )
        read = [Text(name, file, text) for file, text in texts.items()]
        self.types = [part for text in read for part in text.types if part.name in public]
        impls = [part for text in read for part in text.impls if part.name in public]
        self.models = [part for part in impls if part.trait == "Model"]
        self.impls = [part for part in impls if part.trait != "Model"]
        parts = [part for text in read for part in text.functions if part.name.split("::")[0] in public]
        self.functions = [part for part in parts if not part.is_law and (part.about or part.clauses)]
        self.laws = [part for part in parts if part.is_law]
