"""The definitions that contracts cite, read from the specs of the crates: which stand on which, and how long each is.

A definition is a name of a module under specs/, or a type of a crate's text, which contracts see as data. What one
stands on is told by the names in its text, so a name of a variable that is a definition's too counts as well: a chain
may come out longer than it is, never shorter. The standard library's names are the ground and are not followed.
"""
from __future__ import annotations

import glob
import os
import re
from dataclasses import dataclass, field
from typing import Dict, Iterable, Iterator, NamedTuple, Tuple

HEAD = re.compile(r"^(?:abbrev pub|unfoldable pub|pub record|pub data|abbrev|record|data) ([^\s:({]+)")
USE = re.compile(r"^use Rattle\.(\w+)\.specs(?:\.([\w.]+?))?(?:\.\{([^}]*)\}| as (\w+))$")
MEMBER = re.compile(r"^  (?:pub )?([^\s:]+) :")
TYPE = re.compile(r"^(?:pub(?:\(crate\))? )?(?:struct|enum) (\w+)")
Used = Dict[str, Tuple[str, str, str]]
WORD = re.compile(r"(?:([A-Za-z_][\w']*)\.)?([A-Za-z_][\w']*)|(?<= )([^\w\s◌]+)(?= )")


class Name(NamedTuple):
    """A definition's or a type's place: a crate, a module or a file, and its name there."""

    crate: str
    module: str
    name: str

    def __str__(self) -> str:
        return f"{self.crate} {self.module} {self.name}"


@dataclass
class Module:
    """The definitions of a file by name, with the number of the first line, the lines without comments, the comment over
    each and the whole text; what each other word names; and the comment at the top."""

    lines: dict[str, list[str]] = field(default_factory=dict)
    first: dict[str, int] = field(default_factory=dict)
    owner: dict[str, str] = field(default_factory=dict)
    used: Used = field(default_factory=dict)
    about: dict[str, list[str]] = field(default_factory=dict)
    whole: dict[str, list[str]] = field(default_factory=dict)
    head: list[str] = field(default_factory=list)


class Missing(Exception):
    """A definition that is not there."""


def uses(line: str) -> Used:
    """What the words of a `use` name: a crate, a module, and a name there, none where the module itself is named."""
    said = USE.match(line)
    if said is None or said[1] == "std":
        return {}
    crate, module, names, alias = said.groups()
    if alias is not None:
        return {alias: (crate, module, module.split(".")[-1] if module.startswith("declared.") else "")}
    found: Used = {}
    for part in filter(None, (part.strip() for part in names.split(","))):
        path, _, other = part.partition(" as ")
        *inner, name = path.strip().split(".")
        found[other.strip() or name] = (crate, ".".join(filter(None, [module, *inner])), name)
    return found


def joined(lines: Iterable[str]) -> Iterator[str]:
    """Lines, of which those that name things in braces over several lines are made one."""
    said = ""
    for line in lines:
        said = f"{said}{line.strip()} " if said else line
        if "use Rattle." not in said or "{" not in said or "}" in said:
            yield said.rstrip()
            said = ""


def comment_over(lines: list[str], number: int, mark: str) -> list[str]:
    """The comment that ends right above the line of this number, without attributes."""
    top = number - 1
    while top and lines[top - 1].lstrip().startswith((mark, "#[")):
        top -= 1
    return [line.strip()[len(mark) :].strip() for line in lines[top : number - 1] if mark in line]


def read_specs(text: str) -> Module:
    """A file of specs."""
    module, name, lines = Module(), "", text.splitlines()
    module.head = comment_over(lines, next(n for n, line in enumerate(lines, 1) if not line.startswith("--")), "--")
    for line in joined(lines):
        module.used.update(uses(line))
    for number, line in enumerate(lines, 1):
        head = HEAD.match(line)
        if head is not None:
            name = head[1]
            module.lines[name], module.first[name], module.owner[name] = [line], number, name
            module.about[name], module.whole[name] = comment_over(lines, number, "--"), [line]
        elif name and line.strip() and not line.startswith(("--", "use ", "infix")):
            module.whole[name].append(line)
            if not line.lstrip().startswith("--"):
                module.lines[name].append(line)
            member = MEMBER.match(line)
            if member is not None and not module.lines[name][0].startswith(("abbrev", "unfoldable")):
                module.owner.setdefault(member[1], name)
    return module


def read_types(text: str) -> Module:
    """The types of a file of a crate's text, without the comments and attributes of their members."""
    module, name, lines = Module(), "", text.splitlines()
    for number, line in enumerate(lines, 1):
        head = TYPE.match(line)
        if head is not None:
            name = head[1]
            module.lines[name], module.first[name], module.owner[name] = [], number, name
            module.about[name], module.whole[name] = comment_over(lines, number, "///"), []
        if name:
            module.whole[name].append(line)
            if not line.lstrip().startswith(("//", "#")):
                module.lines[name].append(line)
            if line.startswith("}") or line.endswith(";") and len(module.lines[name]) == 1:
                name = ""
    return module


class Library:
    """All definitions and types of the crates."""

    def __init__(self, root: str) -> None:
        self.root = root
        self.specs: dict[tuple[str, str], Module] = {}
        self.types: dict[str, dict[str, Name]] = {}
        self.modules: dict[tuple[str, str], Module] = {}
        crates = os.path.join(root, "crates")
        for crate in sorted(os.listdir(crates)):
            for file, text in files(os.path.join(crates, crate, "specs"), ".antt"):
                self.specs[crate, file.replace("/", ".")] = read_specs(text)
            self.types[crate] = {}
            for file, text in files(os.path.join(crates, crate, "src"), ".rt"):
                module = read_types(text)
                self.modules[crate, file] = module
                self.types[crate].update({name: Name(crate, f"src/{file}", name) for name in module.lines})

    def module(self, name: Name) -> Module:
        if name.module.startswith("src/"):
            return self.modules[name.crate, name.module[4:]]
        found = self.specs.get((name.crate, name.module))
        if found is None or name.name not in found.lines:
            raise Missing(f"no definition {name}")
        return found

    def find(self, crate: str, module: str, name: str) -> Name | None:
        """What a name of a module names: a definition, also by one of its members, or a type; else none."""
        if module.startswith("declared."):
            parts = [part for part in module.split(".") if part != "TheVariants"]
            return self.types.get(crate, {}).get(parts[-1])
        found = self.specs.get((crate, module))
        owner = found.owner.get(name) if found is not None else None
        return Name(crate, module, owner) if owner is not None else None

    def given(self, used: Used, text: str) -> Iterator[tuple[str, Name | None]]:
        """The words and signs of a text, each with what it names by a `use`, also as a member of a module that is named."""
        for before, word, sign in WORD.findall(text):
            word = word or f"◌{sign}◌"
            crate, place, there = used.get(before, ("", "", "none"))
            if not there:
                yield "", self.sure(crate, place, word)
                continue
            for each in (before, word):
                yield each, self.sure(*used[each]) if each in used and used[each][2] else None

    def sure(self, crate: str, module: str, name: str) -> Name | None:
        found = self.find(crate, module, name)
        if found is None and crate in self.types:
            raise Missing(f"no {crate} {module} {name}")
        return found

    def under(self, name: Name) -> list[Name]:
        """What a definition stands on, in the order in which it names it."""
        module, found = self.module(name), []
        types = self.types["mrt_graph"] | self.types[name.crate] if name.module.startswith("src/") else {}
        for word, given in self.given(module.used, "\n".join(module.lines[name.name])):
            own = Name(name.crate, name.module, word) if word in module.lines else None
            found.append(given or types.get(word) or own)
        return list(dict.fromkeys(each for each in found if each is not None and each != name))

    def length(self, name: Name) -> int:
        return len(self.module(name).lines[name.name])

    def place(self, name: Name) -> str:
        folder = name.module + ".rt" if name.module.startswith("src/") else f"specs/{name.module.replace('.', '/')}.antt"
        return f"crates/{name.crate}/{folder}:{self.module(name).first[name.name]}"

    def chain(self, tops: Iterable[Name], known: set[Name], cut: set[Name]) -> list[Name]:
        """The definitions that these stand on, themselves last, each after what it stands on. Those that are known are
        left out, and those that are cut are neither taken nor followed. What is taken is known then."""
        found: list[Name] = []
        waiting = [(name, iter(self.under(name))) for name in tops if name not in known]
        waiting.reverse()
        known.update(name for name, _ in waiting)
        while waiting:
            name, rest = waiting[-1]
            after = next((each for each in rest if each not in known and each not in cut), None)
            if after is None:
                found.append(waiting.pop()[0])
            else:
                known.add(after)
                waiting.append((after, iter(self.under(after))))
        return found


def files(folder: str, ending: str) -> list[tuple[str, str]]:
    """The files of a folder and those within it with this ending, by name without it, with their texts."""
    found = []
    for name in sorted(glob.glob(f"**/*{ending}", root_dir=folder, recursive=True)):
        with open(os.path.join(folder, name), encoding="utf-8") as file:
            found.append((name[: -len(ending)], file.read()))
    return found
