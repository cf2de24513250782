"""Times and memory of commands, for the scripts that measure."""
import math
import os
import signal
import subprocess
import sys
import tempfile
import time
from collections import namedtuple

ROOT = os.path.dirname(os.path.dirname(os.path.dirname(os.path.abspath(__file__))))
DATA = os.path.join(ROOT, "crates", "mrt", "data")
PROGRAM = os.path.join(ROOT, "crates", "mrt", "out", "mrt")


# A run of a command: seconds, the most memory in bytes, the status, and what stood on standard error. No status: it took too long and was ended.
Run = namedtuple("Run", "seconds memory status errors")


def build():
    """Builds the program, where it is missing or of other sources."""
    subprocess.run([os.path.join(ROOT, "mrt"), "check", f"{DATA}/router.lsas", "-", f"{DATA}/router.cert"], stdout=subprocess.DEVNULL, check=True)


def best(command, rounds=7, answer=None, status=0):
    """The least time of some runs, in milliseconds. Each has to end with the status, and to print the answer, if one is given."""
    times = []
    for _ in range(rounds):
        start = time.perf_counter()
        done = subprocess.run(command, stdout=subprocess.PIPE, stderr=subprocess.STDOUT)
        times.append((time.perf_counter() - start) * 1000)
        if done.returncode != status or answer not in (None, done.stdout):
            sys.exit(f"{' '.join(command)}: {done.stdout.decode()}")
    return min(times)


def writing(command, path, rounds=7):
    """The least time of some runs that write a file, in milliseconds. Each has to succeed."""
    times = []
    for _ in range(rounds):
        with open(path, "wb") as file:
            start = time.perf_counter()
            subprocess.run(command, stdout=file, check=True)
            times.append((time.perf_counter() - start) * 1000)
    return min(times)


def sha256sum(path, rounds=7):
    """The least time of summing a file, in milliseconds."""
    return best(["sha256sum", path], rounds)


def peak(command, status=0):
    """The most memory that a command had, in bytes. It has to end with the status. `time` starts it, since a child of this program begins with the memory of this program."""
    with tempfile.NamedTemporaryFile("r") as told:
        timed = ["time", "-f", "%M", "-o", told.name, *command]
        done = subprocess.run(timed, stdout=subprocess.DEVNULL, stderr=subprocess.DEVNULL if status else None)
        if done.returncode != status:
            sys.exit(f"{' '.join(command)}: status {done.returncode}")
        return int(told.read().split()[-1]) * 1024


def run(command, text=os.devnull, memory=None, patience=None):
    """One run, whose output goes to a file. It may have so many bytes of memory, and so many seconds. `time` starts it, as for `peak`."""
    limited = ["prlimit", f"--as={memory}"] if memory else []
    with open(text, "wb") as out, tempfile.NamedTemporaryFile("r") as told:
        timed, start = [*limited, "time", "-f", "%M", "-o", told.name, *command], time.perf_counter()
        with subprocess.Popen(timed, stdout=out, stderr=subprocess.PIPE, start_new_session=True) as started:
            try:
                _, errors = started.communicate(timeout=patience)
            except subprocess.TimeoutExpired:
                os.killpg(started.pid, signal.SIGKILL)
                return Run(time.perf_counter() - start, 0, None, b"")
        return Run(time.perf_counter() - start, int(told.read().split()[-1]) * 1024, started.returncode, errors)


def in_turn(commands, text, rounds, budget=math.inf):
    """The least time of each of these commands, in seconds, which run in turn so many rounds; after a round that leaves nothing of the
    budget of seconds there is none more. Their output goes to a file; whether they succeed is not looked at."""
    least, begun = [math.inf] * len(commands), time.perf_counter()
    for _ in range(rounds):
        for place, command in enumerate(commands):
            with open(text, "wb") as out:
                start = time.perf_counter()
                subprocess.run(command, stdout=out, stderr=subprocess.DEVNULL, check=False)
                least[place] = min(least[place], time.perf_counter() - start)
        if time.perf_counter() - begun > budget:
            break
    return least
