"""The settings of the kernel that repairs need, on the interfaces of the area alone, and how they were before."""
from __future__ import annotations

import glob
import json
import os
from typing import Iterable

from mrttools import files

ROOT = "/proc/sys/net/ipv4"
# On an interface of the area. Of the second kind that of `all` counts too, so that it is 0, and the other interfaces
# keep the greater of both.
OWN = {"ignore_routes_with_linkdown": "1", "accept_local": "1"}
SHARED = {"rp_filter": "0", "send_redirects": "0"}
# When the machine was started: then all settings began anew.
BOOT = "/proc/sys/kernel/random/boot_id"


def boot() -> str:
    try:
        with open(BOOT, encoding="ascii") as file:
            return file.read().strip()
    except OSError:
        return ""


def is_all(name: str) -> bool:
    return name.startswith("conf/all/")


class Settings:
    """What was changed, with the values before, which stand in a file as long as they are changed."""

    def __init__(self, kept: str, root: str = ROOT) -> None:
        self.kept, self.root = kept, root
        self.before: dict[str, str] = {}
        try:
            with open(kept, encoding="ascii") as file:
                read = json.load(file)
            if read.get("boot", boot()) == boot():
                self.before = {
                    name: value for name, value in read.items() if self.is_name(name) and str(value).isdecimal()
                }
        except (OSError, ValueError, AttributeError):
            pass

    def is_name(self, name: object) -> bool:
        """Whether a name in the file is one of a setting."""
        parts = str(name).split("/")
        return name == "ip_forward" or (len(parts) == 3 and parts[0] == "conf" and parts[2] in {*OWN, *SHARED})

    def read(self, name: str) -> str | None:
        try:
            with open(os.path.join(self.root, name), encoding="ascii") as file:
                return file.read().strip()
        except OSError:
            return None

    def write(self, name: str, value: str) -> None:
        with open(os.path.join(self.root, name), "w", encoding="ascii") as file:
            file.write(value)

    def was(self, name: str, *ours: str) -> str | None:
        """The value before the agent's own. One that is none of these is somebody else's, and counts from then on."""
        now = self.read(name)
        if now not in ours:
            self.before.pop(name, None)
        return self.before.get(name, now)

    def wanted(self, devices: Iterable[str]) -> dict[str, str]:
        """The values that there are to be."""
        values = {"ip_forward": "1"}
        area = {f"conf/{device}" for device in devices}
        every = [os.path.relpath(folder, self.root) for folder in glob.glob(os.path.join(self.root, "conf", "*"))]
        for name, value in SHARED.items():
            # (what `all` was before counts for the others as long as it is changed)
            all_before = self.was(f"conf/all/{name}", value) or "0"
            for folder in every:
                if folder == "conf/all" or folder in area:
                    values[f"{folder}/{name}"] = value
                    continue
                own = self.was(f"{folder}/{name}", value, all_before)
                if own is not None and int(own) < int(all_before):
                    values[f"{folder}/{name}"] = all_before
        return values | {f"{folder}/{name}": value for folder in area & set(every) for name, value in OWN.items()}

    def apply(self, devices: Iterable[str]) -> list[str]:
        """Sets them, and puts back those of interfaces that are not of the area any more; what was changed."""
        values, changed = self.wanted(devices), []
        for name, value in values.items():
            now = self.read(name)
            if now is not None and now != value:
                changed.append(name)
                self.before.setdefault(name, now)
        for name in [name for name in self.before if name not in values]:
            changed.append(name)
        if changed:
            # (the values before stand in the file before they are gone)
            files.replace(self.kept, json.dumps(self.before | {"boot": boot()}).encode("ascii"), lasting=False)
        # (`all` comes last, and first where it comes back: no other interface is without its own meanwhile)
        for name in sorted(changed, key=is_all):
            self.put(name, values[name] if name in values else self.before.pop(name))
        return changed

    def put(self, name: str, value: str) -> None:
        """Writes a value, if the interface is still there."""
        if os.path.exists(os.path.join(self.root, name)):
            self.write(name, value)

    def put_back(self) -> None:
        """All as it was before."""
        for name in sorted(self.before, key=is_all, reverse=True):
            self.put(name, self.before[name])
        self.before = {}
        files.replace(self.kept, b"{}", lasting=False)
