"""The commands on the pages, and what they print.

A transcript is an indented block of a page: each line after a prompt is a command, `> ` goes on with it, and the lines
after it are what it printed, standard error among it. Its commands run in one shell at the top of the repository, so
that a later one sees the files, the variables and the status of the earlier ones.
"""
from __future__ import annotations

import os
import re
import subprocess
from dataclasses import dataclass, field

INDENT, PROMPT, MORE = "    ", "$ ", "> "
MARK = b"\x01\n"
SECONDS = 60

# What is not run here, and why.
NOT_RUN = {
    r"/tmp/lab": "it reads the files of tools/lab, which needs root",
    r"tools/lab": "it needs root",
    r"\./mrt --look": "it needs the toolchain",
    r"\.ci/run": "it is the gate, which runs this",
    r"\brt [a-z]": "it needs the toolchain",
}


@dataclass
class Command:
    """A command, the numbers of its lines, the first being 1, and what the page says that it prints."""

    first: int
    last: int
    text: str
    output: list[str] = field(default_factory=list)


def taken(body: str, number: int, commands: list[Command]) -> list[Command]:
    """The commands with one line of a block more."""
    if body.startswith(PROMPT):
        return commands + [Command(number, number, body[len(PROMPT) :])]
    last = commands[-1]
    if body.startswith(MORE) and last.text.endswith("\\") and not last.output:
        last.text, last.last = last.text[:-1] + body[len(MORE) :], number
    else:
        last.output.append(body)
    return commands


def transcripts(page: str) -> list[list[Command]]:
    """The transcripts of a page, in their order."""
    found: list[list[Command]] = []
    commands: list[Command] = []
    for number, line in enumerate(page.split("\n") + [""], 1):
        body = line[len(INDENT) :]
        if line.startswith(INDENT) and (commands or body.startswith(PROMPT)):
            commands = taken(body, number, commands)
        elif commands:
            found.append(commands)
            commands = []
    return found


def why_not_run(commands: list[Command]) -> str | None:
    """Why a transcript is not run here; none where it is."""
    texts = [command.text for command in commands]
    return next((why for words, why in NOT_RUN.items() if any(re.search(words, text) for text in texts)), None)


def repository(root: str, folder: str) -> None:
    """Makes the folder one like the repository, in which commands may write. Its ./mrt is a link, and so runs what is
    built in the repository."""
    for name in os.listdir(root):
        if name != ".git":
            os.symlink(os.path.join(root, name), os.path.join(folder, name))


def outputs(commands: list[Command], folder: str) -> list[list[str]]:
    """What the commands of a transcript print there, line by line."""
    mark = 'mark() { local status=$?; printf "\\001\\n"; return $status; }'
    script = "\n".join([mark] + [f"{command.text}\nmark" for command in commands])
    done = subprocess.run(
        ["/bin/bash", "-c", script],
        cwd=folder,
        env={"PATH": os.environ["PATH"], "LC_ALL": "C.UTF-8", "HOME": folder},
        stdin=subprocess.DEVNULL,
        stdout=subprocess.PIPE,
        stderr=subprocess.STDOUT,
        timeout=SECONDS,
        check=False,
    )
    parts = done.stdout.split(MARK)
    return [part.decode(errors="replace").splitlines() for part in parts[: len(commands)]]


def mended(page: str, printed: list[tuple[Command, list[str]]]) -> str:
    """The page with what its commands really print."""
    lines = page.split("\n")
    for command, output in reversed(printed):
        lines[command.last : command.last + len(command.output)] = [(INDENT + line).rstrip() for line in output]
    return "\n".join(lines)
