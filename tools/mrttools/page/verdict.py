"""What the first line of a report says: whether the network is protected."""
from __future__ import annotations

from typing import Any

PROTECTED, IN_PART, NOT, FAULT = "protected", "in-part", "not", "fault"


def verdict(values: dict[str, Any]) -> str:
    """`fault` where a pair is not repaired and nothing explains it; `not` where routers lack the right certificate, or no
    pair is repaired; `in-part` where pairs could be repaired and are not, and the profile does not say so; else
    `protected`."""
    pairs, installed = values["pairs"], values["installed"]
    if any(not gap["causes"] for gap in values["gaps"]):
        return FAULT
    if installed and any(each["installed"] != "current" for each in installed["routers"]):
        return NOT
    if pairs["all"] and not pairs["repaired"]:
        return NOT
    return IN_PART if any(not gap["by_choice"] for gap in values["gaps"]) else PROTECTED
