//! The structs and the calls of `mrt.h`, interface 1.

use std::marker::PhantomData;

pub const DONE: u32 = 0;
pub const WRITE_FAULT: u32 = 9;

pub const ROUTER: u32 = 1;
pub const NETWORK: u32 = 2;
pub const ATTACHED: u32 = 3;

/// A slice of bytes. The pointer of an empty one is not NULL either.
#[derive(Clone, Copy)]
#[repr(C)]
pub struct Bytes<'a> {
    data: *const u8,
    size: usize,
    of: PhantomData<&'a [u8]>,
}

impl<'a> From<&'a [u8]> for Bytes<'a> {
    fn from(bytes: &'a [u8]) -> Self {
        Bytes {
            data: bytes.as_ptr(),
            size: bytes.len(),
            of: PhantomData,
        }
    }
}

#[derive(Clone, Copy)]
#[repr(C)]
pub struct File<'a> {
    pub name: Bytes<'a>,
    pub bytes: Bytes<'a>,
}

#[derive(Clone, Copy)]
#[repr(C)]
pub struct Area<'a> {
    pub lsas: Bytes<'a>,
    pub profile: Bytes<'a>,
    pub reserved: u64,
}

#[derive(Clone, Copy, Debug, Default, PartialEq, Eq)]
#[repr(C)]
pub struct Fault {
    pub status: u32,
    pub kind: u32,
    pub at: u32,
    pub other: u32,
    pub size: u64,
    pub reserved: u64,
}

#[derive(Clone, Copy, Default)]
#[repr(C)]
pub struct Island {
    pub root: u32,
    pub nodes: u32,
    pub links: u32,
    pub reserved_1: u32,
    pub certificate: u64,
    pub reserved_2: u64,
}

#[derive(Clone, Copy, Default)]
#[repr(C)]
pub struct Verdict {
    pub root: u32,
    pub nodes: u32,
    pub links: u32,
    pub reserved: u32,
}

#[derive(Clone, Copy, Default)]
#[repr(C)]
pub struct Hop {
    pub kind: u32,
    pub number: u32,
    pub link_data: u32,
}

#[derive(Clone, Copy, Default)]
#[repr(C)]
pub struct Row {
    pub kind: u32,
    pub number: u32,
    pub tag: u32,
    pub reserved_1: u32,
    pub blue: Hop,
    pub red: Hop,
    pub primary: Hop,
    pub repair_link: u8,
    pub repair_node: u8,
    pub repair_second_link: u8,
    pub repair_second_node: u8,
    pub reserved_2: u32,
    pub reserved_3: u32,
}

#[derive(Clone, Copy)]
#[repr(C)]
pub struct Pair {
    pub first: u32,
    pub second: u32,
}

#[derive(Clone, Copy, Default)]
#[repr(C)]
pub struct ProxyRow {
    pub status: u32,
    pub at: u32,
    pub blue: Hop,
    pub red: Hop,
    pub reserved_1: u32,
    pub reserved_2: u32,
}

extern "C" {
    pub fn mrt_abi() -> u32;
    pub fn mrt_run(
        words: *const Bytes<'_>,
        word_count: usize,
        files: *const File<'_>,
        file_count: usize,
        text: *mut u8,
        room: usize,
        count: *mut usize,
        fault: *mut Fault,
    ) -> u32;
    pub fn mrt_line(fault: *const Fault, text: *mut u8, room: usize, count: *mut usize) -> u32;
    pub fn mrt_shape(
        area: *const Area<'_>,
        router: u32,
        island: *mut Island,
        fault: *mut Fault,
    ) -> u32;
    pub fn mrt_certify(
        area: *const Area<'_>,
        router: u32,
        certificate: *mut u8,
        room: usize,
        count: *mut usize,
        fault: *mut Fault,
    ) -> u32;
    pub fn mrt_check(
        area: *const Area<'_>,
        certificate: *const u8,
        size: usize,
        verdict: *mut Verdict,
        fault: *mut Fault,
    ) -> u32;
    pub fn mrt_table(
        area: *const Area<'_>,
        router: u32,
        rows: *mut Row,
        room: usize,
        count: *mut usize,
        fault: *mut Fault,
    ) -> u32;
    pub fn mrt_row_for(
        area: *const Area<'_>,
        router: u32,
        kind: u32,
        number: u32,
        row: *mut Row,
        fault: *mut Fault,
    ) -> u32;
    pub fn mrt_proxy(
        area: *const Area<'_>,
        router: u32,
        pairs: *const Pair,
        pair_count: usize,
        rows: *mut ProxyRow,
        room: usize,
        count: *mut usize,
        fault: *mut Fault,
    ) -> u32;
}
