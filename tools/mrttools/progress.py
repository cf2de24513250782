"""How far a long run is, as a bar on a terminal."""
from __future__ import annotations

import sys
import time
from typing import Callable, TextIO

from .exits import ToolFault

WIDE = 30
INTERRUPTED = 130


class Progress:
    """A bar that is drawn anew at most some times a second, and only on a terminal."""

    def __init__(self, program: str, to: TextIO = sys.stderr) -> None:
        self.program, self.to = program, to
        self.shown = to.isatty()
        self.last, self.what = 0.0, ""

    def tell(self, what: str, done: int, whole: int) -> None:
        now = time.monotonic()
        if not self.shown or (what == self.what and now - self.last < 0.1):
            return
        self.last, self.what = now, what
        part = WIDE * done // max(1, whole)
        self.to.write(
            f"\r\x1b[K{self.program}: [{'#' * part}{'.' * (WIDE - part)}] {100 * done // max(1, whole):3} % {what}"
        )
        self.to.flush()

    def end(self) -> None:
        """Takes the bar away."""
        if self.shown and self.what:
            self.to.write("\r\x1b[K")
            self.to.flush()


def shown(program: str, work: Callable[[Progress], str]) -> str:
    """What a long run gives; the bar is gone when it has ended, and Ctrl-C ends it with a status of its own."""
    bar = Progress(program)
    try:
        return work(bar)
    except KeyboardInterrupt:
        raise ToolFault("interrupted", INTERRUPTED) from None
    finally:
        bar.end()
