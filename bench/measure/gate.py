"""Runs rt ci and prints, after what rt ci prints, the processor minutes of each crate: its proof, its tests, the program that is built of it, the
ground of its must-fail edits, and these; then the machine.

    python3 -m bench.measure.gate [--to FILE] [--anew] [NAME..]     at the top of the repository; the words after FILE are those of rt ci

The status is that of rt ci. Processor time is user and system time of each process that rt starts, as the kernel gives it when the process ends.
FILE gets a line for each of them, with tabs between: crate, what was done, seconds of the processor, seconds on the clock, MB at most, and when it began.
What rt ci takes from an earlier run on this machine has no time: --anew leaves nothing out. (Kit 13b keeps nothing, and its rt ci knows no words.)
The ground is the check of a crate from nothing that stands before its edits where it has two or more, and the one after them."""
import collections
import glob
import os
import re
import resource
import runpy
import shutil
import subprocess
import sys
import threading
import time

COLUMNS = ("proof", "tests", "program", "ground", "edits")
# Crates to know a machine by, whose sources have stood since: the minutes of their proofs on 30 November 2026, on four processors at 2.5 GHz.
KNOWN = {"mrt_survey": 1.9, "link_direction": 1.1, "mrt_rows": 4.2}
# What a crate may cost, in minutes (CONTRIBUTING.md).
MOST = 5
done, lock, begun = [], threading.Lock(), time.monotonic()
tried = collections.Counter()


def what_of(words, folder):
    """Returns the crate and the kind of a command of rattle, and the name of the edit where it tries one."""
    words = [it.decode() if isinstance(it, bytes) else str(it) for it in words]
    if "--crate-name" not in words:
        # rattle-link, in the crate's folder, or a question to rattle, which takes no time
        made = words[words.index("-o") + 1] if "-o" in words else ""
        tests = re.fullmatch(r"out/(\w+)_tests(\.\S+)?", made)
        return os.path.basename(str(folder or "")) if made else "", "tests" if tests else "program", ""
    crate = words[words.index("--crate-name") + 1]
    if not os.path.basename(str(folder or "")).startswith("rt-edit-"):
        return crate, "tests" if "--test" in words else "program" if "--crate-checked" in words else "proof", ""
    kept = os.path.basename(words[words.index("--incremental") + 1]) if "--incremental" in words else ""
    names = sorted(glob.glob(f"crates/{crate}/must-fail/*.edit", root_dir=TOP))
    if kept.startswith("rt-edits-"):
        # kit 13b: the edits in turn over one folder, the first from nothing, and after them the crate itself
        number = tried[kept]
        tried[kept] += 1
        if number == 0 or number == len(names):
            return crate, "ground", os.path.basename(names[0])[:-5] if number == 0 else ""
    elif kept == "seed":
        return crate, "ground", ""
    elif len(names) == 1:
        number = 0
    else:
        number = int(kept) if kept.isdigit() else len(names)
    return crate, "edits", os.path.basename(names[number])[:-5] if number < len(names) else "from nothing"


class Timed(subprocess.Popen):
    """A process that notes what it took when it has ended."""

    def __init__(self, args, *given, **how):
        self.at = time.monotonic()
        is_ours = any(str(it).endswith(("/rattle", "/rattle-link")) for it in args)
        with lock:
            self.what = what_of(args, how.get("cwd")) if is_ours else None
        super().__init__(args, *given, **how)

    def _try_wait(self, flags):
        try:
            found, status, used = os.wait4(self.pid, flags)
        except ChildProcessError:
            return self.pid, 0
        if found == self.pid and self.what:
            crate, kind, name = self.what
            row = (
                crate,
                kind,
                name,
                used.ru_utime + used.ru_stime,
                time.monotonic() - self.at,
                used.ru_maxrss / 1024,
                self.at - begun,
            )
            with lock:
                done.append(row)
        return found, status


def table():
    """Prints the minutes of each crate, the most expensive first, and the sum."""
    of = collections.defaultdict(lambda: collections.Counter())
    for crate, kind, _, used, *_ in done:
        if crate:
            of[crate][kind] += used / 60
    print(f"\n{'processor minutes':<20}" + "".join(f"{it:>8}" for it in COLUMNS) + f"{'in all':>8}")
    rows = sorted(of.items(), key=lambda it: -sum(it[1].values()))
    for name, row in [*rows, ("in all", sum((it for _, it in rows), collections.Counter()))]:
        print(f"{name:<20}" + "".join(f"{row[it]:8.1f}" for it in COLUMNS) + f"{sum(row.values()):8.1f}")
    over = [name for name, row in rows if sum(row.values()) > MOST]
    print(f"over {MOST}: {', '.join(over) or 'none'}")
    own, below = resource.getrusage(resource.RUSAGE_SELF), resource.getrusage(resource.RUSAGE_CHILDREN)
    whole = sum(it.ru_utime + it.ru_stime for it in (own, below)) / 60
    most = max((it[5] for it in done), default=0)
    print(
        f"{whole:.1f} processor minutes, {(time.monotonic() - begun) / 60:.1f} on the clock; at most {most:,.0f} MB in one process"
    )
    machine(of)


def machine(of):
    """Prints what ran this, and the crates that tell how fast it is."""
    with open("/proc/cpuinfo", encoding="utf-8") as it:
        model = next((line.partition(": ")[2].strip() for line in it if line.startswith("model name")), "not known")
    kit = subprocess.run(["rt", "version"], capture_output=True, text=True).stdout.strip()
    print(f"{len(os.sched_getaffinity(0))} processors: {model}; {kit}")
    for name, proof in KNOWN.items():
        here = of[name]["proof"] if name in of else 0
        took = f"{here:.1f} here, {here / proof:.2f} times that" if here else "none here"
        print(f"the proof of {name}: {proof} on 30 November 2026, {took}")


def main():
    words = sys.argv[1:]
    to = None
    if words[:1] == ["--to"]:
        to, words = words[1], words[2:]
    rt = shutil.which("rt")
    if not rt:
        sys.exit("gate.py: rt is not on the path")
    if words == ["--anew"] and "kit-13b" in subprocess.run([rt, "version"], capture_output=True, text=True).stdout:
        words = []
    subprocess.Popen, sys.argv = Timed, [rt, "ci", *words]
    try:
        runpy.run_path(os.path.realpath(rt), run_name="__main__")
    finally:
        table()
        if to:
            with open(to, "w", encoding="utf-8") as it:
                for crate, kind, name, used, clock, most, at in done:
                    print(
                        crate,
                        f"{kind} {name}".strip(),
                        f"{used:.1f}",
                        f"{clock:.1f}",
                        f"{most:.0f}",
                        f"{at:.0f}",
                        sep="\t",
                        file=it,
                    )


TOP = os.getcwd()
if __name__ == "__main__":
    main()
