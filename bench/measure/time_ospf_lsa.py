"""Times reading two databases of nearly 8 MiB, one of router-LSAs and one of LSAs of 65,535 bytes, beside sha256sum of the same files, and prints
the ratios. It builds a small program beside ospf_lsa in a folder of its own; it fetches nothing."""
import os
import subprocess
import tempfile

from bench.measure import beside, timing
from bench.reference import lsas


LIMIT = 8 * 1024 * 1024

PROGRAM = """\
#![tactic(auto)]

use anyhow::{Result, bail};
use ospf_lsa::read_lsas;
use std::fs;
use std::time::Instant;

fn main(rt: HostRuntime) -> Result<()> {
    for name in ["routers", "opaque"] {
        let bytes = fs::read(&rt, name)?;
        if bytes.len() > 8388608 {
            bail!("too long");
        }
        for _ in 0..7 {
            let start = Instant::now(&rt)?;
            let Ok(lsas) = read_lsas(rt.alloc(), bytes.as_slice()) else {
                bail!("not read");
            };
            let read = start.elapsed(&rt)?.as_micros();
            let count = lsas.len();
            println!(rt; "{name} {read} {count}")?;
        }
    }
    Ok(())
}
"""


def router_lsas():
    """As many router-LSAs, each of up to eight links, as the limit allows."""
    records, size = [], 0
    for number in range(1, 1 << 20):
        links = [((number * 31 + i) % 65536, i, lsas.POINT_TO_POINT, 1 + i) for i in range(1 + number % 8)]
        record = lsas.router_lsa(number, links)
        size += len(record)
        if size > LIMIT:
            break
        records.append(record)
    return b"".join(records)


def opaque_lsas():
    """As many of the longest LSAs as the limit allows."""
    record = lsas.lsa(10, 1, 1, bytes(i * i % 251 for i in range(65515)))
    return record * (LIMIT // len(record))


def main():
    databases = {"routers": router_lsas(), "opaque": opaque_lsas()}
    with tempfile.TemporaryDirectory() as folder:
        program = beside.build(folder, ["ospf_lsa"], PROGRAM, files=databases)
        os.chdir(os.path.join(folder, "crates", "timing"))
        lines = [line.split() for line in subprocess.run([program], stdout=subprocess.PIPE, check=True).stdout.decode().splitlines()]
        for name, data in databases.items():
            runs = [(int(taken) / 1000, count) for told, taken, count in lines if told == name]
            (read, count), sha = min(runs), timing.sha256sum(name)
            print(f"{name}: {len(data)} bytes, {count} LSAs, read_lsas {read:.1f} ms, sha256sum {sha:.1f} ms, ratio {read / sha:.2f}")
        os.chdir(timing.ROOT)


if __name__ == "__main__":
    main()
