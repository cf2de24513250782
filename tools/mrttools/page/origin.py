"""What a report was made of: the files with their digests, the program, when and where."""
from __future__ import annotations

import hashlib
import os
import subprocess
import time
from typing import Any

from mrttools import lsas
from mrttools.lsas import Lsa
from mrttools.program import Program
from . import client

TIME = "%Y-%m-%dT%H:%M:%SZ"


def digest(data: bytes) -> str:
    return hashlib.sha256(data).hexdigest()


def now() -> str:
    return time.strftime(TIME, time.gmtime())


def version(path: str) -> str | None:
    """What the program says of itself, in one line; none where it says nothing of it, as where it is not run by its
    script."""
    done = subprocess.run(
        [path, "--version"], stdin=subprocess.DEVNULL, stdout=subprocess.PIPE, stderr=subprocess.DEVNULL, check=False
    )
    lines = done.stdout.decode("utf-8", "replace").splitlines() if done.returncode == 0 else []
    return ", ".join(line.strip() for line in lines[:3]) or None


def database_values(data: bytes) -> dict[str, Any]:
    """The file, how many LSAs it has, and how old the newest and the oldest of those that count were in it, in
    seconds."""
    found: list[Lsa] = [lsas.newest(group)[0] for group in lsas.by_key(lsas.split(data)).values()]
    ages = sorted(lsa.seconds for lsa in found if not lsa.withdrawn)
    return {
        "sha256": digest(data),
        "lsas": len(ages),
        "newest_age": ages[0] if ages else None,
        "oldest_age": ages[-1] if ages else None,
    }


def values(mrt: Program) -> dict[str, Any]:
    data = client.read_file(mrt.database)
    return {
        "at": now(),
        "host": os.uname().nodename,
        "program": version(mrt.path),
        "database": database_values(data) | {"file": mrt.database},
        "profile": None if mrt.profile == "-" else {"sha256": digest(client.profile(mrt)), "file": mrt.profile},
    }
