"""Word of the kernel that something changes in the folder of a file, by a signal: so that it is not looked for again and
again."""
from __future__ import annotations

import fcntl
import os
import signal
from types import FrameType

# What is told, and as long as the folder is open.
CHANGES = fcntl.DN_CREATE | fcntl.DN_DELETE | fcntl.DN_MODIFY | fcntl.DN_RENAME | fcntl.DN_MULTISHOT


class Watched:
    """The folder of a file, and that of the file to which a link leads. What waits for signals is woken."""

    def __init__(self, name: str) -> None:
        self.changed = False
        signal.signal(signal.SIGIO, self.note)
        self.places = [
            os.open(os.path.dirname(each), os.O_RDONLY | os.O_DIRECTORY | os.O_CLOEXEC)
            for each in {os.path.abspath(name), os.path.realpath(name)}
        ]
        for place in self.places:
            fcntl.fcntl(place, fcntl.F_NOTIFY, CHANGES)

    def note(self, _: int, __: FrameType | None) -> None:
        self.changed = True

    def take(self) -> bool:
        """Whether something has changed since this was asked last."""
        changed, self.changed = self.changed, False
        return changed


def watched(name: str) -> Watched | None:
    """None where the kernel does not tell, as of some file systems, or there is no such folder."""
    try:
        return None if name == "-" else Watched(name)
    except OSError:
        return None
