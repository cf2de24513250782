"""The edits that must be refused: that each can still be made, and which of them the gate tries."""
from __future__ import annotations

import glob
import os
import re
import unittest

from tests.making import TOOLS

ROOT = os.path.dirname(TOOLS)

# How many edits the gate tries of which crate. A crate with two or more is proved once more, so all others are tools/deep's.
OF_THE_GATE = {
    "area_graph": 1,
    "cert_checker": 3,
    "cert_format": 1,
    "cert_stream": 2,
    "fabric": 1,
    "gadag_ears": 2,
    "block_spf": 1,
    "lowpoint_dfs": 1,
    "lsdb": 1,
    "mrt_c": 3,
    "mrt_cmd": 11,
    "mrt_rows": 1,
    "primary_alt": 1,
}


def found(pattern: str) -> dict[str, list[str]]:
    """The names of the files of each crate, whose name is the first star."""
    names: dict[str, list[str]] = {}
    for place in sorted(glob.glob(pattern, root_dir=ROOT)):
        crate = re.sub(r"^(crates|edits)/", "", place).split("/")[0]
        names.setdefault(crate, []).append(os.path.basename(place))
    return names


GATE, DEEP = found("crates/*/must-fail/*"), found("edits/*/*")


def read(place: str) -> str:
    with open(os.path.join(ROOT, place), encoding="utf-8") as file:
        return file.read()


def why_not(crate: str, text: str) -> str | None:
    """Why an edit of a crate cannot be made, if it cannot."""
    place, old, changed = None, None, 0
    texts: dict[str, str] = {}
    for line in text.splitlines():
        word, _, said = line.partition(":")
        said = said.removeprefix(" ")
        if word == "file":
            place = f"crates/{crate}/{said}"
            if not re.match(r"(src|specs|proofs)/", said) or not os.path.isfile(os.path.join(ROOT, place)):
                return f"there is no {place}"
            texts.setdefault(place, read(place))
        elif word == "old":
            old = said
        elif word == "new" and place and old:
            if texts[place].count(old) != 1:
                return f"a line stands {texts[place].count(old)} times in {place}: {old}"
            if old == said:
                return f"nothing changes: {old}"
            texts[place] = texts[place].replace(old, said)
            old, changed = None, changed + 1
        else:
            return f"what is this line: {line}"
    return None if changed and old is None else "an old line has no new one"


class Edits(unittest.TestCase):
    def test_each_can_be_made(self) -> None:
        for folder, names in (("crates/{}/must-fail", GATE), ("edits/{}", DEEP)):
            for crate, files in names.items():
                for name in files:
                    self.assertRegex(name, r"^[a-z0-9_]+\.edit$")
                    place = f"{folder.format(crate)}/{name}"
                    self.assertIsNone(why_not(crate, read(place)), place)

    def test_which_the_gate_tries(self) -> None:
        self.assertEqual({crate: len(names) for crate, names in GATE.items()}, OF_THE_GATE)

    def test_none_is_in_both_places(self) -> None:
        self.assertEqual(
            {crate: sorted({*GATE[crate]} & {*DEEP.get(crate, [])}) for crate in GATE}, dict.fromkeys(GATE, [])
        )

    def test_what_cannot_be_made(self) -> None:
        lines = "file: src/meet.rt", "old: Ordering::Less => Change::Older,", "new: Ordering::Less => Change::Same,"
        self.assertIsNone(why_not("lsdb", "\n".join(lines)))
        for wrong in (
            lines[1:],
            lines[:2],
            lines[:1],
            ("file: src/none.rt", *lines[1:]),
            ("file: must-fail/x.edit", *lines[1:]),
            (*lines, *lines[1:]),
            (*lines[:2], lines[1].replace("old", "new")),
            (lines[0], "old: Change", "new: Changed"),
        ):
            self.assertIsNotNone(why_not("lsdb", "\n".join(wrong)), wrong)


if __name__ == "__main__":
    unittest.main()
