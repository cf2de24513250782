"""Times 1,000, 10,000 and 100,000 installs into a database, of as many keys and of ten, and prints the time of one install and how it grows.

What grows with the keys is the cost of fresh memory and of the processor's caches, so the program runs once more over memory that it keeps.
It builds a small program beside lsdb in a folder of its own; it fetches nothing.
"""
import os
import subprocess
import sys
import tempfile

from bench.measure import beside

PROGRAM = """\
#![tactic(auto)]

ghost use Rattle.std.specs.Prelude.{◌≡◌, ◌<◌};
ghost use Rattle.lsdb.specs.Installing.{IsBehind, IsKept};

use anyhow::{Result, bail};
use lsdb::Lsdb;
use mrt_graph::{NoMemory, Seq};
use ospf_lsa::{Body, Lsa};
use std::alloc::Global;
use std::time::Instant;

fn instance(alloc: Global, at: u32, router: u32, sequence: i32) -> Lsa
    ensures kept { IsKept result }
    ensures place { result.at ≡ at }
{
    Lsa {
        at,
        age: 1,
        options: 2,
        kind: 1,
        id: router,
        router,
        sequence,
        checksum: 0x3328,
        body: Body::Router {
            flags: 0,
            spare: 0,
            links: Seq::from_vec(Vec::new(alloc)),
            tos: Seq::from_vec(Vec::new(alloc)),
        },
    }
}

/// Installs LSAs of some routers in turn, each newer than the one before it.
fn fill(alloc: Global, count: u32, routers: u32) -> Result<Lsdb, NoMemory>
    requires { 0 < routers }
{
    let mut lsdb = Lsdb::new(alloc);
    for at in 0..count {
        let router = (at % routers).wrapping_mul(2_654_435_761);
        let sequence = i32::try_from(at / routers).unwrap_or(0);
        lsdb.install(instance(alloc, at, router, sequence))?;
    }
    Ok(lsdb)
}

fn main(rt: HostRuntime) -> Result<()> {
    for _ in 0..5 {
        for (rounds, count, routers) in [
            (100, 1_000, 1_000),
            (10, 10_000, 10_000),
            (1, 100_000, 100_000),
            (100, 1_000, 10),
            (10, 10_000, 10),
            (1, 100_000, 10),
        ] {
            println!(rt; "begin {count} {routers}")?;
            for _ in 0..rounds {
                let start = Instant::now(&rt)?;
                let Ok(lsdb) = fill(rt.alloc(), count, routers) else {
                    bail!("no memory");
                };
                let taken = start.elapsed(&rt)?.as_nanos();
                println!(rt; "{taken} {}", lsdb.newest().len())?;
            }
        }
    }
    Ok(())
}
"""

INVARIANTS = """\
use Rattle.lsdb.specs.Installing.{IsBehind}
use Rattle.timing.proofs.fill.Given as goal

abbrev pub invariant-loop-at : goal.invariant-loop-at
invariant-loop-at l = IsBehind l.lsdb.greatest l.at
"""

# Memory that is kept: none of it goes back to the system, so that only the first round asks for it.
KEPT = {"MALLOC_MMAP_THRESHOLD_": "4000000000", "MALLOC_TRIM_THRESHOLD_": "8000000000", "MALLOC_TOP_PAD_": "100000000"}


def runs_of(lines):
    """For each run its counts of installs and of keys, and the times of its rounds in nanoseconds."""
    runs = []
    for line in lines:
        first, *rest = line.split()
        if first == "begin":
            runs.append((tuple(map(int, rest)), []))
        else:
            count, keys = runs[-1][0]
            if int(rest[0]) != min(count, keys):
                sys.exit(f"{rest[0]} newest instances of {keys} keys")
            runs[-1][1].append(int(first))
    return runs


def times(program, settings):
    """The least time of one install, in nanoseconds, by the counts of installs and of keys."""
    done = subprocess.run([program], stdout=subprocess.PIPE, env={**os.environ, **settings}, check=True)
    best = {}
    for case, taken in runs_of(done.stdout.decode().splitlines()):
        each = sum(taken) / len(taken) / case[0]
        best[case] = min(each, best.get(case, each))
    return best


def main():
    with tempfile.TemporaryDirectory() as folder:
        program = beside.build(folder, ["lsdb", "ospf_lsa", "mrt_graph"], PROGRAM, proofs={"fill/Invariants.antt": INVARIANTS})
        for name, settings in (("fresh", {}), ("kept", KEPT)):
            best = times(program, settings)
            for keys in (None, 10):
                each = [best[count, keys or count] for count in (1000, 10000, 100000)]
                print(f"{name} memory, {keys or 'as many'} keys: {each[0]:.0f}, {each[1]:.0f} and {each[2]:.0f} ns for one of 1,000, 10,000 and "
                      f"100,000 installs, ratio {each[2] / each[0]:.2f}")


if __name__ == "__main__":
    main()
