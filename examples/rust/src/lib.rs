//! libmrt with slices and `Result`: the fast-reroute tables of an OSPFv2 area, by calls that need no `unsafe`.
//!
//! ```no_run
//! # fn main() -> Result<(), Box<dyn std::error::Error>> {
//! let lsas = std::fs::read("area.lsas")?;
//! let area = mrt::Area { lsas: &lsas, profile: b"" };
//! for row in area.table("10.255.1.1".parse()?)? {
//!     println!("{}: {} or {}", row.node, row.blue, row.red);
//! }
//! # Ok(())
//! # }
//! ```
//!
//! `mrt.h` says what each call does. What it asks of a caller is kept here: no pointer is NULL, lengths are those of
//! slices, what a call writes overlaps with nothing, and what it has not written is not read.

mod row;
mod sys;

pub use row::{Hop, Node, ProxyRow, Repair, Row, Tag};

use std::fmt;
use std::net::Ipv4Addr;

/// As many rows as a table can have.
const MOST_ROWS: usize = 4095;
/// The bytes of a certificate at most. Room of which nothing is written takes no memory.
const MOST_CERTIFICATE: usize = 1 << 27;
/// The bytes of a line at most.
const LINE: usize = 512;

/// Why there is no answer: a status of the program but that of success.
#[derive(Clone, Copy, Debug, PartialEq, Eq)]
pub enum Status {
    No = 1,
    Usage = 2,
    BadDatabase = 3,
    BadProfile = 4,
    BadCertificate = 5,
    TooLarge = 6,
    NotThere = 7,
    ReadFault = 8,
    WriteFault = 9,
    NoMemory = 10,
    BadScript = 11,
    NoCommonBlock = 13,
    BadUpdate = 14,
    /// one of a later library
    Other = 255,
}

impl Status {
    fn of(number: u32) -> Status {
        match number {
            1 => Status::No,
            2 => Status::Usage,
            3 => Status::BadDatabase,
            4 => Status::BadProfile,
            5 => Status::BadCertificate,
            6 => Status::TooLarge,
            7 => Status::NotThere,
            8 => Status::ReadFault,
            9 => Status::WriteFault,
            10 => Status::NoMemory,
            11 => Status::BadScript,
            13 => Status::NoCommonBlock,
            14 => Status::BadUpdate,
            _ => Status::Other,
        }
    }
}

/// What a call refuses, with its numbers: `mrt.h` says at each status what they are. Its text is the program's line.
#[derive(Clone, Copy, Debug, PartialEq, Eq)]
pub struct Fault {
    pub status: Status,
    pub kind: u32,
    pub at: u32,
    pub other: u32,
    pub size: u64,
}

impl From<sys::Fault> for Fault {
    fn from(fault: sys::Fault) -> Fault {
        let sys::Fault {
            status,
            kind,
            at,
            other,
            size,
            ..
        } = fault;
        Fault {
            status: Status::of(status),
            kind,
            at,
            other,
            size,
        }
    }
}

impl fmt::Display for Fault {
    fn fmt(&self, to: &mut fmt::Formatter<'_>) -> fmt::Result {
        let Fault {
            status,
            kind,
            at,
            other,
            size,
        } = *self;
        let fault = sys::Fault {
            status: status as u32,
            kind,
            at,
            other,
            size,
            reserved: 0,
        };
        // SAFETY: the room is told, and has so many bytes.
        let (_, line) = filled(LINE, |text, room, count| unsafe {
            sys::mrt_line(&fault, text, room, count)
        });
        to.write_str(String::from_utf8_lossy(&line).trim_end())
    }
}

impl std::error::Error for Fault {}

/// An island: its root, how many nodes and links it has, and how many bytes its certificate.
#[derive(Clone, Copy, Debug, PartialEq, Eq)]
pub struct Island {
    pub root: Ipv4Addr,
    pub nodes: u32,
    pub links: u32,
    pub certificate: usize,
}

/// What an accepted certificate is of.
#[derive(Clone, Copy, Debug, PartialEq, Eq)]
pub struct Verdict {
    pub root: Ipv4Addr,
    pub nodes: u32,
    pub links: u32,
}

/// The bytes of an area's LSAs, as in a database file, and of a profile; no bytes are the profile that says nothing.
#[derive(Clone, Copy, Debug)]
pub struct Area<'a> {
    pub lsas: &'a [u8],
    pub profile: &'a [u8],
}

impl Area<'_> {
    fn bytes(&self) -> sys::Area<'_> {
        sys::Area {
            lsas: self.lsas.into(),
            profile: self.profile.into(),
            reserved: 0,
        }
    }

    /// The island of a router.
    pub fn island(&self, router: Ipv4Addr) -> Result<Island, Fault> {
        let mut island = sys::Island::default();
        // SAFETY: of what is passed the call takes references alone.
        asked(|fault| unsafe { sys::mrt_shape(&self.bytes(), router.into(), &mut island, fault) })?;
        let sys::Island {
            root,
            nodes,
            links,
            certificate,
            ..
        } = island;
        Ok(Island {
            root: root.into(),
            nodes,
            links,
            certificate: certificate as usize,
        })
    }

    /// The certificate of a router's island.
    pub fn certify(&self, router: Ipv4Addr) -> Result<Vec<u8>, Fault> {
        // SAFETY: the room is told, and has so many bytes.
        given(MOST_CERTIFICATE, |bytes, room, count, fault| unsafe {
            sys::mrt_certify(&self.bytes(), router.into(), bytes, room, count, fault)
        })
    }

    /// What a certificate is of, if it is accepted; else the fault is the rule that fails, and its place.
    pub fn check(&self, certificate: &[u8]) -> Result<Verdict, Fault> {
        let mut verdict = sys::Verdict::default();
        let (data, size) = (certificate.as_ptr(), certificate.len());
        // SAFETY: the certificate has so many bytes.
        asked(|fault| unsafe { sys::mrt_check(&self.bytes(), data, size, &mut verdict, fault) })?;
        let sys::Verdict {
            root, nodes, links, ..
        } = verdict;
        Ok(Verdict {
            root: root.into(),
            nodes,
            links,
        })
    }

    /// What a router installs for each other node of its island.
    pub fn table(&self, router: Ipv4Addr) -> Result<Vec<Row>, Fault> {
        // SAFETY: the room is told, and has so many rows.
        let rows = given(MOST_ROWS, |rows, room, count, fault| unsafe {
            sys::mrt_table(&self.bytes(), router.into(), rows, room, count, fault)
        })?;
        Ok(rows.iter().map(Row::from).collect())
    }

    /// What a router installs for one node.
    pub fn row_for(&self, router: Ipv4Addr, to: Node) -> Result<Row, Fault> {
        let mut row = sys::Row::default();
        let (kind, number) = to.numbers();
        // SAFETY: of what is passed the call takes references alone.
        asked(|fault| unsafe {
            sys::mrt_row_for(&self.bytes(), router.into(), kind, number, &mut row, fault)
        })?;
        Ok(Row::from(&row))
    }

    /// What a router installs for prefixes at two routers each; for two that give no hops, what refuses them.
    pub fn proxy(
        &self,
        router: Ipv4Addr,
        pairs: &[(Ipv4Addr, Ipv4Addr)],
    ) -> Result<Vec<Result<ProxyRow, Fault>>, Fault> {
        let pairs: Vec<sys::Pair> = pairs
            .iter()
            .map(|&(first, second)| sys::Pair {
                first: first.into(),
                second: second.into(),
            })
            .collect();
        // SAFETY: there are so many pairs; the room is told, and has so many rows.
        let rows = given(pairs.len(), |rows, room, count, fault| unsafe {
            let (area, router) = (&self.bytes(), router.into());
            sys::mrt_proxy(
                area,
                router,
                pairs.as_ptr(),
                pairs.len(),
                rows,
                room,
                count,
                fault,
            )
        })?;
        Ok(rows.iter().map(proxy_row).collect())
    }
}

/// A row for a prefix, or what refuses its two routers.
fn proxy_row(row: &sys::ProxyRow) -> Result<ProxyRow, Fault> {
    match row.status {
        sys::DONE => Ok(ProxyRow::from(row)),
        status => Err(Fault {
            status: Status::of(status),
            kind: 0,
            at: row.at,
            other: 0,
            size: 0,
        }),
    }
}

/// What the program writes for these words over files of these names.
pub fn run(words: &[&[u8]], files: &[(&[u8], &[u8])]) -> Result<Vec<u8>, Fault> {
    let words: Vec<sys::Bytes<'_>> = words.iter().map(|&word| word.into()).collect();
    let files: Vec<sys::File<'_>> = files
        .iter()
        .map(|&(name, bytes)| sys::File {
            name: name.into(),
            bytes: bytes.into(),
        })
        .collect();
    let mut room = MOST_CERTIFICATE;
    loop {
        let mut wanted = 0;
        let answer = given(room, |text, room, count, fault| {
            let (words, word_count) = (words.as_ptr(), words.len());
            let (files, file_count) = (files.as_ptr(), files.len());
            // SAFETY: there are so many words and files; the room is told, and has so many bytes.
            let status = unsafe {
                sys::mrt_run(
                    words, word_count, files, file_count, text, room, count, fault,
                )
            };
            wanted = *count;
            status
        });
        match answer {
            Err(fault) if fault.status == Status::WriteFault => room = wanted,
            _ => return answer,
        }
    }
}

/// The number of the library's interface.
pub fn abi() -> u32 {
    // SAFETY: it takes nothing.
    unsafe { sys::mrt_abi() }
}

/// Has a call fill room for so many elements: its status, and those that it says are there.
fn filled<T>(room: usize, call: impl FnOnce(*mut T, usize, &mut usize) -> u32) -> (u32, Vec<T>) {
    let (mut elements, mut count) = (Vec::with_capacity(room), 0);
    let status = call(elements.as_mut_ptr(), room, &mut count);
    if status != sys::WRITE_FAULT {
        assert!(count <= room);
        // SAFETY: on each other status the first `count` are written, of which there are none where it gives none.
        unsafe { elements.set_len(count) };
        elements.shrink_to_fit();
    }
    (status, elements)
}

/// Makes a call that writes a fault.
fn asked(call: impl FnOnce(&mut sys::Fault) -> u32) -> Result<(), Fault> {
    let mut fault = sys::Fault::default();
    match call(&mut fault) {
        sys::DONE => Ok(()),
        _ => Err(fault.into()),
    }
}

/// Makes a call that fills room for so many elements and writes a fault.
fn given<T>(
    room: usize,
    call: impl FnOnce(*mut T, usize, &mut usize, &mut sys::Fault) -> u32,
) -> Result<Vec<T>, Fault> {
    let mut elements = Vec::new();
    asked(|fault| {
        let (status, found) = filled(room, |to, room, count| call(to, room, count, fault));
        elements = found;
        status
    })?;
    Ok(elements)
}
