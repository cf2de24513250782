"""Checks a crate from nothing at one job and prints which functions take longest.

    python3 -m bench.measure.slow CRATE [NUMBER]      at the top of the repository; the first NUMBER functions, 20 if left out

Seconds are those between the times at which the prover wrote what it had checked, so run nothing beside it. `proof` is where goals that have no
answer are searched: if it is large, mostly one goal of the function is found at length, and an answer for it takes a tenth of a second. `code` is
what is generated of the function's body: it grows with returns while owned values live. The libraries below are built first, where they are not."""
import collections
import glob
import os
import re
import shutil
import subprocess
import sys

from bench.measure import timing

KINDS = {
    "Proof": "proof",
    "Answers": "answers",
    "Lts": "code",
    "Tie": "code",
    "Layout": "code",
    "Reads": "code",
    "Named": "code",
    "Mir": "code",
    "Code": "code",
}


def main():
    if not 2 <= len(sys.argv) <= 3:
        sys.exit(__doc__)
    folder = os.path.join(timing.ROOT, "crates", sys.argv[1])
    kept = os.path.join(folder, "out", "incremental")
    subprocess.run(["rt", "check", "--only", ""], cwd=folder, stdout=subprocess.DEVNULL, check=True)
    shutil.rmtree(kept, ignore_errors=True)
    status = subprocess.run(["rt", "check", "--jobs", "1"], cwd=folder, stdout=subprocess.DEVNULL).returncode
    files = sorted(
        (os.stat(it).st_mtime, os.path.basename(it)[: -len(".oantt")]) for it in glob.glob(f"{kept}/*/*.oantt")
    )
    taken = collections.defaultdict(collections.Counter)
    for (before, _), (after, name) in zip(files, files[1:]):
        found = re.fullmatch(r"Rattle-\w+[-.](?:proofs|specs)\.(.+?)\.(\w+)(?:\.decls)?", name)
        function, kind = (found[1], KINDS.get(found[2], "other")) if found else (name, "other")
        taken[function][kind] += after - before
    print(f"{'seconds':>8}{'proof':>8}{'answers':>8}{'code':>8}  function")
    for function, of in sorted(taken.items(), key=lambda it: -sum(it[1].values()))[
        : int(sys.argv[2]) if len(sys.argv) > 2 else 20
    ]:
        print(f"{sum(of.values()):8.1f}{of['proof']:8.1f}{of['answers']:8.1f}{of['code']:8.1f}  {function}")
    print(f"{sum(sum(it.values()) for it in taken.values()):8.1f} in all")
    sys.exit(status)


if __name__ == "__main__":
    main()
