"""How the agent waits: for whatever comes first, with the signals that end it held back while it works; and what it tells
systemd."""
from __future__ import annotations

import os
import select
import signal
import socket
import sys
from types import FrameType
from typing import Iterable

SIGNALS = signal.SIGTERM, signal.SIGINT, signal.SIGHUP


class HeldSignals:
    """A signal ends the agent while it waits and nowhere else, so that none comes in the middle of a change. What the
    agent starts has the signals blocked as well."""

    def __init__(self) -> None:
        signal.pthread_sigmask(signal.SIG_BLOCK, SIGNALS)
        self.came = 0
        self.read, write = os.pipe2(os.O_NONBLOCK | os.O_CLOEXEC)
        signal.set_wakeup_fd(write, warn_on_full_buffer=False)
        for each in SIGNALS:
            signal.signal(each, self.note)

    def note(self, number: int, _: FrameType | None) -> None:
        self.came = self.came or number

    def wait(self, sources: Iterable[int], seconds: float) -> None:
        """Waits until one of the sources has something, but no longer than some seconds."""
        alive()
        signal.pthread_sigmask(signal.SIG_UNBLOCK, SIGNALS)
        try:
            if not self.came and self.read in select.select([self.read, *sources], [], [], max(0.0, seconds))[0]:
                # (any signal wakes it)
                os.read(self.read, 1 << 12)
        finally:
            signal.pthread_sigmask(signal.SIG_BLOCK, SIGNALS)
        if self.came:
            sys.exit(128 + self.came)


def notify(text: str) -> None:
    """Tells systemd, where it has started this."""
    name = os.environ.get("NOTIFY_SOCKET", "")
    if name:
        with socket.socket(socket.AF_UNIX, socket.SOCK_DGRAM | socket.SOCK_CLOEXEC) as told:
            try:
                told.sendto(text.encode(), "\0" + name[1:] if name.startswith("@") else name)
            except OSError:
                pass


def alive() -> None:
    notify("WATCHDOG=1")
