"""Network namespaces for tests that need the kernel's own: what can be had here, and how a test gets into one."""
from __future__ import annotations

import contextlib
import ctypes
import os
import shutil
import subprocess
from typing import Iterator

NAMESPACE_OF_NETWORK = 0x40000000


def lacks(*programs: str) -> str:
    """Why there are no namespaces with these programs here; empty where there are."""
    missing = [each for each in ("ip", *programs) if not shutil.which(each)]
    if missing:
        return f"not installed: {' '.join(missing)}"
    if os.geteuid() != 0:
        return "network namespaces need root"
    done = subprocess.run(["unshare", "--net", "true"], stderr=subprocess.DEVNULL, check=False)
    return "" if done.returncode == 0 else "no network namespaces can be made here"


@contextlib.contextmanager
def made(space: str) -> Iterator[None]:
    """A namespace, which is taken away at the end."""
    subprocess.run(["ip", "netns", "add", space], check=True)
    try:
        yield
    finally:
        subprocess.run(["ip", "netns", "del", space], check=True)


@contextlib.contextmanager
def inside(space: str) -> Iterator[None]:
    """What this thread does meanwhile, with sockets and what it starts, is in a namespace."""
    kernel = ctypes.CDLL(None, use_errno=True)
    before = os.open("/proc/thread-self/ns/net", os.O_RDONLY)
    there = os.open(f"/run/netns/{space}", os.O_RDONLY)

    def enter(place: int) -> None:
        if kernel.setns(place, NAMESPACE_OF_NETWORK):
            raise OSError(ctypes.get_errno(), os.strerror(ctypes.get_errno()))

    try:
        enter(there)
        yield
    finally:
        enter(before)
        os.close(there)
        os.close(before)
