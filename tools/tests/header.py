"""What include/mrt.h says, and what of it the sources, the module of Python and the crate of Rust say."""
from __future__ import annotations

import glob
import os
import re
from typing import NamedTuple

from tests.making import TOOLS

ROOT = os.path.dirname(TOOLS)
HEADER = os.path.join(ROOT, "include", "mrt.h")
SIZES = {"uint8_t": 1, "uint32_t": 4, "uint64_t": 8, "size_t": 8}
# The types of numbers in Rust and in Rattle.
NUMBERS = {"u8": "uint8_t", "u32": "uint32_t", "u64": "uint64_t", "usize": "size_t"}


class Field(NamedTuple):
    """A field of a struct, or what a call takes."""

    kind: str
    name: str

    def __str__(self) -> str:
        return f"{self.kind}{'' if self.kind.endswith('*') else ' '}{self.name}"


class Header(NamedTuple):
    constants: dict[str, int]
    structs: dict[str, list[Field]]
    # what the comment over a struct says that its size is
    told: dict[str, int]
    calls: dict[str, list[Field]]
    # what the comment over a call says that its statuses are
    statuses: dict[str, list[str]]


def read(*names: str) -> str:
    with open(os.path.join(ROOT, *names), encoding="utf-8") as file:
        return file.read()


def field(text: str) -> Field:
    match = re.fullmatch(r"(.*?[ *])(\w+)", " ".join(text.split()))
    assert match is not None, text
    return Field(match[1].strip(), match[2])


def header() -> Header:
    text = read(HEADER)
    told = re.findall(r"(\d+) bytes\. \*/\nstruct (mrt_\w+) \{", text)
    over = re.findall(r"/\*((?:(?!\*/).)*)\*/\nuint32_t (\w+)\(", text, re.DOTALL)
    bare = re.sub(r"/\*.*?\*/", "", text, flags=re.DOTALL)
    structs = re.findall(r"^struct (\w+) \{(.*?)^\};", bare, re.DOTALL | re.MULTILINE)
    calls = re.findall(r"^uint32_t (\w+)\((.*?)\);", bare, re.DOTALL | re.MULTILINE)
    return Header(
        {name: int(value) for name, value in re.findall(r"^#define (MRT_\w+) (\d+)u$", bare, re.MULTILINE)},
        {name: [field(it) for it in body.split(";")[:-1]] for name, body in structs},
        {name: int(size) for size, name in told},
        {name: [] if takes == "void" else [field(it) for it in takes.split(",")] for name, takes in calls},
        {name: sorted(set(re.findall(r"MRT_\w+", it.partition(" Statuses: ")[2]))) for it, name in over},
    )


def size_of(said: Header, kind: str) -> tuple[int, int]:
    """The size of a type and its alignment, by the rules of x86-64."""
    if kind.endswith("*"):
        return 8, 8
    if kind in SIZES:
        return SIZES[kind], SIZES[kind]
    places = layout(said, kind.removeprefix("struct "))
    most = max(size_of(said, it.kind)[1] for _, _, it in places)
    last, size, _ = places[-1]
    return -(-(last + size) // most) * most, most


def layout(said: Header, name: str) -> list[tuple[int, int, Field]]:
    """The place, the size and the name of each field."""
    found, at = [], 0
    for it in said.structs[name]:
        size, alignment = size_of(said, it.kind)
        at = -(-at // alignment) * alignment
        found.append((at, size, it))
        at += size
    return found


def snapshot(said: Header) -> str:
    """All that a program that was built by the header stands on."""
    lines = [f"{name} {value}" for name, value in said.constants.items()]
    for name in said.structs:
        lines.append(f"struct {name} {size_of(said, 'struct ' + name)[0]}")
        lines += [f"    {at} {size} {it}" for at, size, it in layout(said, name)]
    for name, takes in said.calls.items():
        lines.append(f"uint32_t {name}({', '.join(map(str, takes)) or 'void'})")
    return "".join(f"{line}\n" for line in lines)


# Names


def snake(name: str) -> str:
    """A name as UpperCamelCase or mixedCase has it, in small letters."""
    return re.sub(r"(?<!^)(?=[A-Z])", "_", name).lower()


# What the crates say


def sources() -> str:
    """The code of the crates of the library."""
    names = sorted(glob.glob("crates/mrt_[clr]*/src/**/*.rt", root_dir=ROOT, recursive=True))
    return "".join(read(name) for name in names if re.match(r"crates/mrt_(c|calls|lent|rows|report)/", name))


def in_c(kind: str) -> list[str]:
    """A type of Rattle in C: of a slice the pointer and then the length, of an allocator nothing."""
    kind = re.sub(r"&'\w+ ", "&", re.sub(r"<'\w+>", "", kind.strip()))
    if kind == "Global":
        return []
    if kind.startswith("&mut [") or kind.startswith("&["):
        (inner,) = in_c(kind[kind.index("[") + 1 : -1])
        return [("" if kind.startswith("&mut") else "const ") + f"{inner} *", "size_t"]
    if kind.startswith("&"):
        (inner,) = in_c(kind.removeprefix("&").removeprefix("mut "))
        return [("" if kind.startswith("&mut") else "const ") + f"{inner} *"]
    return [NUMBERS.get(kind, f"struct {snake(kind)}")]


def listed(text: str) -> list[tuple[str, str]]:
    """Names and types, parted by commas."""
    return re.findall(r"(?:pub )?(\w+): ([^,\n]+?)(?:,|$)", re.sub(r"//.*", "", text.strip()), re.MULTILINE)


def structs_of(text: str) -> dict[str, list[tuple[str, list[str]]]]:
    """Each repr(C) struct with its fields and their types in C."""
    pattern = r"#\[repr\(C\)\]\n(?:#\[[^\n]*\n)*pub struct (\w+)(?:<'\w+>)? \{\n(.*?)\n\}"
    found = re.findall(pattern, text, re.DOTALL)
    return {snake(name): [(it, in_c(kind)) for it, kind in listed(body)] for name, body in found}


def exports_of(text: str) -> dict[str, list[tuple[str, list[str]]]]:
    pattern = r'#\[unsafe\(no_mangle\)\]\npub extern "C" fn (\w+)\((.*?)\) -> u32\n'
    found = re.findall(pattern, text, re.DOTALL)
    return {name: [(it, in_c(kind)) for it, kind in listed(takes)] for name, takes in found}
