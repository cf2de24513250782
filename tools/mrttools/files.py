"""Files that a tool writes whole or not at all."""
from __future__ import annotations

import os
import stat
import sys
import tempfile

from .exits import REFUSED, WRITE_FAULT, ToolFault, system_line

STANDARD = "-"
# How the name of a file ends that is not whole yet.
PART = ".part"


def refuse_same(source: str, target: str) -> None:
    """Refuses to write over what is read."""
    if STANDARD in (source, target) or not (os.path.exists(source) and os.path.exists(target)):
        return
    if os.path.isfile(source) and os.path.samefile(source, target):
        raise ToolFault(f"{target}: it is the file that is read; nothing is written", REFUSED)


def write(name: str, data: bytes) -> None:
    """Writes to standard output, into a device or a pipe as it stands, or else a file, whole or not at all. A link is
    followed."""
    try:
        if name == STANDARD:
            sys.stdout.buffer.write(data)
            sys.stdout.buffer.flush()
        elif os.path.lexists(name) and not is_regular(name):
            with open(name, "wb") as file:
                file.write(data)
        else:
            replace(os.path.realpath(name), data)
    except OSError as fault:
        if name == STANDARD:
            # The interpreter would say it again when it ends.
            os.dup2(os.open(os.devnull, os.O_WRONLY), sys.stdout.fileno())
        fault.filename = "standard output" if name == STANDARD else name
        raise ToolFault(f"{system_line(fault)}; nothing is written", WRITE_FAULT) from fault


def is_regular(name: str) -> bool:
    """Whether a file is or would be one with a content of its own: also a link to what is not there yet."""
    return not os.path.exists(name) or stat.S_ISREG(os.stat(name).st_mode)


def replace(name: str, data: bytes, lasting: bool = True) -> None:
    """Puts a new file in the place of an old one, with its rights. What lasts is there whole whenever the machine stops:
    it waits for the disk."""
    mode = stat.S_IMODE(os.stat(name).st_mode) if os.path.exists(name) else 0o666 & ~mask()
    folder = os.path.dirname(name)
    place, part = tempfile.mkstemp(prefix=".", suffix=PART, dir=folder)
    try:
        with os.fdopen(place, "wb") as file:
            file.write(data)
            if lasting:
                file.flush()
                os.fsync(file.fileno())
        os.chmod(part, mode)
        os.replace(part, name)
    except BaseException:
        os.unlink(part)
        raise
    if lasting:
        sync(folder)


def sync(folder: str) -> None:
    """Has the disk keep the names in a folder."""
    place = os.open(folder or ".", os.O_RDONLY | os.O_DIRECTORY | os.O_CLOEXEC)
    try:
        os.fsync(place)
    finally:
        os.close(place)


def clear_parts(folder: str) -> None:
    """Takes away what one that was ended in the middle of a write has left."""
    for name in os.listdir(folder):
        if name.startswith(".") and name.endswith(PART):
            os.unlink(os.path.join(folder, name))


def copy(source: str, target: str) -> None:
    """Puts what stands in a file into another, where it is not there already."""
    with open(source, "rb") as file:
        data = file.read()
    if os.path.exists(target):
        with open(target, "rb") as file:
            if file.read() == data:
                return
    replace(target, data)


def mask() -> int:
    """The rights that new files do not get."""
    found = os.umask(0)
    os.umask(found)
    return found
