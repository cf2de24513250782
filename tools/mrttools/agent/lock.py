"""One agent for a folder, and one for a kernel's routes: two would take away each other's."""
from __future__ import annotations

import fcntl
import os
import stat
import time
from typing import IO

from mrttools.exits import REFUSED, ToolFault

# Where each network namespace has a file by its number, and which namespace this is.
RUN, NAMESPACE = "/run/semborui", "/proc/self/ns/net"
# How often a lock is tried, and seconds between.
TRIES, PAUSE = 5, 0.1


def lock(name: str, taken: str) -> IO[bytes]:
    """A file that is this program's own as long as it is open."""
    file = open(name, "wb")
    # (who asks for the status has it for a moment)
    for _ in range(TRIES):
        try:
            fcntl.flock(file, fcntl.LOCK_EX | fcntl.LOCK_NB)
            return file
        except BlockingIOError:
            time.sleep(PAUSE)
    file.close()
    raise ToolFault(taken, REFUSED)


def lock_folder(folder: str) -> IO[bytes]:
    """Held as long as the file is open."""
    return lock(os.path.join(folder, "lock"), f"{folder}: another agent has its files here")


def is_locked(folder: str) -> bool:
    """Whether an agent has its files in a folder."""
    try:
        with open(os.path.join(folder, "lock"), "rb") as file:
            fcntl.flock(file, fcntl.LOCK_SH | fcntl.LOCK_NB)
    except BlockingIOError:
        return True
    except OSError:
        return False
    return False


def lock_namespace() -> IO[bytes]:
    """Held as long as the file is open. Who can open it can keep an agent from starting: so nobody else gets into the
    folder, which root makes, or systemd for the daemon's user."""
    os.makedirs(RUN, mode=0o700, exist_ok=True)
    if stat.S_IMODE(os.stat(RUN).st_mode) & 0o077:
        raise ToolFault(f"{RUN}: others can get in: chmod 700 {RUN}", REFUSED)
    number = os.stat(NAMESPACE).st_ino
    return lock(os.path.join(RUN, f"{number}.lock"), "another agent keeps the routes of this network namespace")
