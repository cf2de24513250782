"""How a tool ends: by a status, and by one line that says why."""
from __future__ import annotations

import sys
from typing import Callable, NoReturn

# The statuses are those of `mrt` where it has one for the cause.
REFUSED, USAGE, NOT_THERE, READ_FAULT, WRITE_FAULT = 1, 2, 7, 8, 9


class ToolFault(Exception):
    """Why a tool stops: its line and its status. What is printed is empty where the line has been told already."""

    def __init__(self, line: str, status: int, told: str = "") -> None:
        super().__init__(line)
        self.status, self.line = status, told or line


def system_line(fault: OSError) -> str:
    """A fault of the system, with the name that was given."""
    return f"{fault.filename}: {fault.strerror}" if fault.filename else fault.strerror or str(fault)


def ended(tool: str, work: Callable[[], int]) -> NoReturn:
    """Does the work of a tool and ends with its status."""
    try:
        sys.exit(work())
    except ToolFault as fault:
        if str(fault):
            print(f"{tool}: {fault}", file=sys.stderr)
        sys.exit(fault.status)
    except OSError as fault:
        print(f"{tool}: {system_line(fault)}", file=sys.stderr)
        sys.exit(WRITE_FAULT if isinstance(fault, BrokenPipeError) else READ_FAULT)
