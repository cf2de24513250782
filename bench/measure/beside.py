"""Builds a small program beside some of the crates, in a folder of its own, to time what no command of `mrt` does alone."""
import os
import shutil
import subprocess
import sys

from bench.measure.timing import ROOT


def lines_of_crates():
    """For each crate its line in crates.txt, and the crates that it names."""
    lines = {}
    with open(os.path.join(ROOT, "crates.txt")) as file:
        for line in file:
            if line.strip() and not line.startswith("#"):
                name, _, names = line.partition(":")
                lines[name.split()[0]] = line, names.split()
    return lines


def below(names):
    """These crates of the repository and those that they stand on; others are of the kit."""
    lines, found, waiting = lines_of_crates(), [], list(names)
    while waiting:
        name = waiting.pop()
        if name in lines and name not in found:
            found.append(name)
            waiting += lines[name][1]
    return sorted(found)


def write(path, text):
    os.makedirs(os.path.dirname(path), exist_ok=True)
    with open(path, "w") as file:
        file.write(text)


def build(folder, names, text, proofs={}, files={}):
    """Builds `text` as a program that stands on these crates, and gives the path of the program. It runs once, in `folder`/crates/timing, with
    the files in `files` there; `proofs` has the text of each file of its folder proofs/."""
    lines, own = lines_of_crates(), os.path.join(folder, "crates", "timing")
    for name in below(names):
        for part in ("src", "specs", "proofs"):
            source = os.path.join(ROOT, "crates", name, part)
            if os.path.isdir(source):
                shutil.copytree(source, os.path.join(folder, "crates", name, part))
    shutil.copy(os.path.join(ROOT, "HANDLES"), folder)
    write(os.path.join(folder, "crates.txt"), "".join(lines[name][0] for name in below(names)) + f"timing: {' '.join(names)} anyhow\n")
    write(os.path.join(own, "src", "main.rt"), text)
    for name, proof in proofs.items():
        write(os.path.join(own, "proofs", name), proof)
    for name, data in files.items():
        with open(os.path.join(own, name), "wb") as file:
            file.write(data)
    done = subprocess.run(["rt", "run"], cwd=own, stdout=subprocess.PIPE, stderr=subprocess.STDOUT)
    if done.returncode != 0:
        sys.exit("\n".join(done.stdout.decode().split("\n")[-40:]))
    return os.path.join(own, "out", "timing")
