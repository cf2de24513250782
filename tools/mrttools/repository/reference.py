"""The two pages of reference, made of the sources: every public function with its contract, and every definition that these
contracts stand on."""
from __future__ import annotations

import itertools
import os
import re
import textwrap
from typing import Iterable, Iterator

from .contracts import Crate, Part
from .definitions import Library, Module, Name

CLAUSES = """# Clauses

What is proved of each public function, as its source says it. This page is made by `tools/clauses --make`, of the
contracts and comments in `crates/*/src`; a comment counts for less than its clause. `tools/clauses NAME` prints a
function, a definition or a crate with the definitions that it names, and with `--all` all below them.
[DEFINITIONS.md](DEFINITIONS.md) has the definitions in words.

- `requires` is a condition: what the caller owes. `ensures` is a clause: what is proved of each call that keeps the
  conditions. A word after it is its name. Such a call is safe and, given stack enough, returns: this is proved of all,
  and has no clause.
- A law does nothing for its caller: its clauses speak of the definitions alone.
- `x.now` is what a borrowed `x` is, `x.old` and `x.new` what it is before and after the call, `x.items` the elements of
  a vector. A type that is seen as another stands for that in clauses. What is `ghost` is there for clauses alone.
- `×` is and, `⊎` or, `→` if, `↔` exactly where; `¬ P` and `P → ⊥` say that P does not hold. `(x : T) →` is for each,
  `(x : T) ×` for some, `λ x. P` what is said of x. `∷` and `++` put lists together; `slice_get` is the element at a
  place, from 0, if there is one; `.0` and `.1` are the parts of a pair. Numbers are natural: `a - b` is never below 0.
- `IfOk`, `IfErr` and `IfSome` say what holds of the value or the error, if there is one; `OnOk`, `OnErr` and `IfNone`
  what holds if the result is such a one. `IsOk`, `IsErrOf`, `IsSome` and `IsNone` say that it is; `IsSomeAnd` that there
  is a value of which this holds. These and other names of the library stand in `core/specs` and `std/specs` of the
  kit's folder `rattle`.
- A call that can answer `NoMemory` may do so at any time, unless a clause says otherwise. That it succeeds where there
  is memory is tested, once for each call.
- What a comment says of time, of memory and of the order of the work is not proved.
"""

DEFINITIONS = """# Definitions

What the contracts of the public functions stand on, down to the library's lists, numbers and options, as the comments
over the definitions say it; a comment counts for less than its definition. This page is made by `tools/clauses --make`,
of `crates/*/specs`; `tools/clauses NAME` prints a definition itself, and with `--all` all below it. What only the steps
inside a crate speak of stands in `specs/steps`, and not here. In a comment a name of one letter is an argument of the definition.

[AUDIT.md](AUDIT.md) has what the headline stands on, in the order in which it has to be believed.
"""


WIDTH = 120
# A line of a page that begins so would be a list, a heading or a quotation.
NO_BEGINNING = re.compile(r" (?=(?:[-+*>#=|]+|\d+[.)]) )")


def layers(root: str) -> list[tuple[str, list[str]]]:
    """The crates by layer, lowest first, as crates.txt has them."""
    with open(os.path.join(root, "crates.txt"), encoding="utf-8") as file:
        parts = re.split(r"^# (.*)$", file.read(), flags=re.MULTILINE)[1:]
    found = [
        (title, re.findall(r"^(\w+)(?: staticlib)?:", crates, re.MULTILINE))
        for title, crates in zip(parts[::2], parts[1::2])
    ]
    return [(title, crates) for title, crates in found if crates]


def filled(text: str, indent: str = "") -> str:
    """A paragraph, or an item of a list, in lines of a page."""
    held = NO_BEGINNING.sub("\0", text)
    lines = textwrap.wrap(held, WIDTH, subsequent_indent=indent, break_long_words=False, break_on_hyphens=False)
    return "\n".join(lines).replace("\0", " ")


def summary(part: Part) -> str:
    """The first paragraph of its comment, without the links that `rustdoc` knows."""
    lines = itertools.takewhile(bool, part.about)
    return re.sub(r"\[(`[^`]*`)\](\([^)]*\))?", r"\1", " ".join(lines))


def contents(root: str, crates: set[str]) -> Iterator[str]:
    """The table of contents."""
    for title, names in layers(root):
        there = [f"[{name}](#{name})" for name in names if name in crates]
        if there:
            yield filled(f"- {title.partition(':')[0]}: {', '.join(there)}", "  ")


def link(part: Part) -> str:
    return f"[`{part.name}`](../crates/{part.crate}/src/{part.file}.rt)"


def entry(parts: list[Part]) -> str:
    """A function, or what a trait asks for or impls give, as the source says it."""
    said = filled(f"**{link(parts[0])}** {summary(parts[0])}".rstrip())
    lines = "\n".join(line for part in parts for line in part.lines).removesuffix(" {")
    return f"{said}\n\n```rust\n{lines}\n```\n"


def types(crate: Crate) -> Iterator[str]:
    """The types of a crate, with what contracts see of each."""
    traits, values = traits_of([crate]), {part.name: part.clauses[0].formula for part in crate.models}
    for part in (part for part in crate.types if part.name not in traits):
        seen = f" Seen as `{values[part.name]}`." if part.name in values else ""
        yield filled(f"- {link(part)}: {summary(part)}{seen}", "  ")


def is_told(part: Part, traits: set[str], library: Library) -> bool:
    """Whether an impl tells more than that a type is compared, or stands for want of memory."""
    own = not part.trait or part.trait in traits
    return own or any(not name.module.startswith("src/") for name in part.under(library))


def clauses_of(crate: Crate, traits: set[str], library: Library) -> str:
    """The section of a crate: its types, its functions, its laws."""
    impls = [part for part in crate.impls if is_told(part, traits, library)]
    parts = sorted(impls + crate.functions, key=lambda part: (part.file, part.first))
    alike = itertools.groupby(parts, lambda part: (part.file, part.name))
    section = [f"## {crate.name}\n", filled(" ".join(filter(None, crate.about))) + "\n"]
    if crate.types:
        section.append("\n".join(types(crate)) + "\n")
    section += [entry(list(group)) for _, group in alike]
    if crate.laws:
        section += ["### Laws\n"] + [entry([part]) for part in crate.laws]
    return "\n".join(section)


def public(root: str) -> list[Crate]:
    """The crates that have public functions, lowest layer first, but those of tests."""
    crates = [Crate(root, name) for _, names in layers(root) for name in names if not name.endswith("_tests")]
    return [crate for crate in crates if crate.functions or crate.laws]


def traits_of(crates: Iterable[Crate]) -> set[str]:
    return {part.name for crate in crates for part in crate.impls if not part.trait}


def clauses(root: str, library: Library) -> str:
    """The page of clauses."""
    crates = public(root)
    traits = traits_of(crates)
    toc = "\n".join(contents(root, {crate.name for crate in crates}))
    return "\n".join([CLAUSES, toc + "\n"] + [clauses_of(crate, traits, library) for crate in crates])


def stood_on(root: str, library: Library) -> list[Name]:
    """The definitions that the contracts of the public functions stand on."""
    tops: dict[Name, None] = {}
    crates = public(root)
    traits = traits_of(crates)
    for crate in crates:
        told = [part for part in crate.impls if is_told(part, traits, library)]
        for part in told + crate.models + crate.functions + crate.laws:
            tops.update(dict.fromkeys(part.under(library)))
    return [name for name in library.chain(tops, set(), set()) if not name.module.startswith("src/")]


def items(module: Module, names: list[str]) -> Iterator[str]:
    """The definitions of a file. A comment holds also for those after it that have none."""
    said: list[str] = []
    for name in sorted(names, key=module.first.__getitem__):
        if module.about[name] or not said:
            yield from told(module, said)
            said = []
        said.append(name)
    yield from told(module, said)


def told(module: Module, names: list[str]) -> Iterator[str]:
    """Definitions with the comment over the first of them."""
    if names:
        said = ", ".join(f"`{name}`" for name in names)
        yield filled(f"- {said}: {' '.join(module.about[names[0]])}".rstrip(": "), "  ")


def definitions_of(crate: str, names: list[Name], library: Library) -> str:
    """The section of a crate: its definitions by file."""
    section = [f"## {crate}\n"]
    for place in sorted({name.module for name in names}):
        module = library.specs[crate, place]
        path = place.replace(".", "/")
        section.append(filled(f"**[{place}](../crates/{crate}/specs/{path}.antt)** {' '.join(module.head)}") + "\n")
        section.append("\n".join(items(module, [name.name for name in names if name.module == place])) + "\n")
    return "\n".join(section)


def definitions(root: str, library: Library) -> str:
    """The page of definitions."""
    names: dict[str, list[Name]] = {}
    for name in stood_on(root, library):
        names.setdefault(name.crate, []).append(name)
    order = [crate for _, crates in layers(root) for crate in crates if crate in names]
    toc = "\n".join(contents(root, set(names)))
    return "\n".join([DEFINITIONS, toc + "\n"] + [definitions_of(crate, names[crate], library) for crate in order])
