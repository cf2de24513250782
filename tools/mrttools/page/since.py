"""What has changed since an earlier report."""
from __future__ import annotations

import json
from typing import Any

from mrttools.exits import READ_FAULT, ToolFault

Values = dict[str, Any]


def read(name: str, version: int) -> Values:
    """An earlier report, as `--json` wrote it."""
    try:
        with open(name, encoding="utf-8") as file:
            old = json.load(file)
        if (old["format"], old["version"]) != ("semborui-report", version):
            raise ValueError(name)
        compared(old, old)
        return old
    except (ValueError, KeyError, TypeError, AttributeError, RecursionError):
        raise ToolFault(f"{name}: it is no report that tools/report --json has written", READ_FAULT) from None


def names_of(values: Values) -> dict[str, list[Any]]:
    """What may come and go, by a name for each."""
    return {
        "routers": [each["router"] for each in values["routers"]],
        "links": [each["element"] for each in values["load"]["links"]],
        "single_points": [each["element"] for each in values["single_points"]],
        "kept_out": [cause["element"] for gap in values["gaps"] for cause in gap["causes"]],
    }


def compared(old: Values, new: Values) -> Values:
    """The changes from one report to another."""
    before, after = names_of(old), names_of(new)
    classes = "all", "repaired", "parted", "gaps"
    digests = [
        (values["made"]["database"]["sha256"], (values["made"]["profile"] or {}).get("sha256"))
        for values in (old, new)
    ]
    return {
        "at": str(old["made"]["at"]),
        "same_database": digests[0][0] == digests[1][0],
        "same_profile": digests[0][1] == digests[1][1],
        "pairs": {name: [int(values["pairs"][name]) for values in (old, new)] for name in classes},
        "came": {name: [one for one in dict.fromkeys(after[name]) if one not in set(before[name])] for name in after},
        "went": {name: [one for one in dict.fromkeys(before[name]) if one not in set(after[name])] for name in after},
    }
