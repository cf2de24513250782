"""Times reading and writing certificates: those of a ring of 2,048 routers in both versions (20,998,158 bytes), of a ring of 4,096 routers (83,939,342
bytes) and of a star and a line of 2,048 routers, of which version 2 leaves nearly all rows out; whole and in pieces of 64 KB, beside sha256sum of the
same file. It prints the ratios and the peak memory. It builds a small program beside cert_format in a folder of its own; it fetches nothing."""
import os
import subprocess
import tempfile

from bench.areas import ring, tree
from bench.measure import beside, timing


PROGRAM = """\
#![tactic(auto)]

use anyhow::{Result, bail};
use cert_format::{CertError, CertReader, WritableCert, read_cert, write_cert};
use mrt_io::MemSink;
use std::alloc::Global;
use std::fs;
use std::time::Instant;

fn feed(alloc: Global, bytes: &[u8]) -> Result<CertReader, CertError> {
    let mut reader = CertReader::new(alloc);
    for piece in bytes.chunks(65536) {
        reader.feed(piece)?;
    }
    Ok(reader)
}

fn main(rt: HostRuntime) -> Result<()> {
    let bytes = fs::read(&rt, "file.cert")?;
    for _ in 0..5 {
        let start = Instant::now(&rt)?;
        let Ok(reader) = feed(rt.alloc(), bytes.as_slice()) else {
            bail!("not read in pieces");
        };
        let fed = start.elapsed(&rt)?.as_micros();
        println!(rt; "feed {fed}")?;
        let start = Instant::now(&rt)?;
        let is_read = reader.finish().is_ok();
        let finished = start.elapsed(&rt)?.as_micros();
        println!(rt; "finish {finished}")?;
        if !is_read {
            bail!("not finished");
        }
    }
    for _ in 0..5 {
        let start = Instant::now(&rt)?;
        let Ok(file) = read_cert(rt.alloc(), bytes.as_slice()) else {
            bail!("not read");
        };
        let read = start.elapsed(&rt)?.as_micros();
        println!(rt; "read {read}")?;
        let start = Instant::now(&rt)?;
        let Ok(text) = write_cert(rt.alloc(), &file) else {
            bail!("not written");
        };
        let written = start.elapsed(&rt)?.as_micros();
        println!(rt; "write {written}")?;
        if text.as_slice() != bytes.as_slice() {
            bail!("other bytes");
        }
        let Ok(mut sink) = MemSink::new(rt.alloc(), 84025358, 65536, Vec::new(rt.alloc())) else {
            bail!("no sink");
        };
        let Ok(writable) = WritableCert::new(rt.alloc(), file) else {
            bail!("no memory");
        };
        let start = Instant::now(&rt)?;
        let done = writable.put(&mut sink);
        let put = start.elapsed(&rt)?.as_micros();
        println!(rt; "put {put}")?;
        if done != Ok(()) || sink.bytes() != bytes.as_slice() {
            bail!("other bytes put");
        }
    }
    Ok(())
}
"""

CALLS = (("CertReader::feed", "feed"), ("CertReader::finish", "finish"), ("read_cert", "read"), ("write_cert", "write"), ("WritableCert::put", "put"))


def of_version(version, data):
    """The same file in this version; where it is 1, no row may be left out."""
    nodes, links = int.from_bytes(data[6:8], "big"), int.from_bytes(data[8:10], "big")
    first = 14 + 11 * nodes + 7 * links
    rows = (data[at:at + 5] for at in range(first, len(data), 5))
    return data[:5] + bytes([version]) + data[6:first] + b"".join(row for row in rows if version == 1 or row[4] != tree.CARRIED)


def shaped(shape, n):
    return tree.certificate(list(range(1, n + 1)), tree.shaped(shape, n))


def show(title, program, data):
    with open("file.cert", "wb") as file:
        file.write(data)
    lines = subprocess.run([program], stdout=subprocess.PIPE, check=True).stdout.decode().splitlines()
    sha = timing.sha256sum("file.cert")
    print(f"{title}: {len(data)} bytes, sha256sum {sha:.1f} ms")
    for call, word in CALLS:
        taken = min(int(line.split()[1]) for line in lines if line.startswith(word + " ")) / 1000
        print(f"  {call} {taken:.1f} ms, {taken / sha:.2f} of sha256sum")
    print(f"  peak memory {timing.peak([program])} bytes with the file, the certificate and the text written twice")


def main():
    with tempfile.TemporaryDirectory() as folder:
        first = of_version(1, ring.certificate(2048))
        program = beside.build(folder, ["cert_format", "mrt_io", "mrt_graph"], PROGRAM, files={"file.cert": first})
        os.chdir(folder)
        show("ring of 2,048, version 1", program, first)
        show("ring of 2,048, version 2", program, of_version(2, ring.certificate(2048)))
        show("ring of 4,096, version 2", program, of_version(2, ring.certificate(4096)))
        show("star of 2,048, version 2", program, of_version(2, shaped("star", 2048)))
        show("line of 2,048, version 2", program, of_version(2, shaped("line", 2048)))
        os.chdir(timing.ROOT)


if __name__ == "__main__":
    main()
