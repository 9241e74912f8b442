//! The proved side of rows with body and all blocks, the function of crates/c_full_rows, which writes into the caller's buffer of numbers.

use crate::input::Input;
use crate::proved::{Answer, UNWRITTEN, refusal};
use crate::proved_full::Image;

/// A record as a program in C would declare it.
#[repr(C)]
#[derive(Clone, Copy, Debug, PartialEq)]
pub struct FullRow {
    pub slot: u64,
    pub address: u64,
    pub flags: u64,
    pub parent: u64,
    pub name_place: u64,
    pub name_length: u64,
    pub body: [u64; 8],
    /// For each kind 1 and the block's three numbers, or four zeros.
    pub blocks: [[u64; 4]; 11],
}

/// How many numbers a record has.
pub const NUMBERS: usize = size_of::<FullRow>() / 8;

/// How many records were written, the slot to go on from, and 1 if all rows are given.
#[derive(Debug, PartialEq)]
pub struct Given {
    pub records: u64,
    pub next: u64,
    pub all: u64,
}

#[link(name = "c_full_rows", kind = "static")]
unsafe extern "C" {
    fn hodrupec_full_rows(
        image: *const u8,
        image_len: usize,
        segments: *const u64,
        segment_numbers: usize,
        types: *const u8,
        types_len: usize,
        vmaddr: u64,
        start: usize,
        buffer: *mut u64,
        buffer_len: usize,
        out: &mut [u64; 3],
    ) -> u64;
}

/// The records of the rows of the input's types section from a slot on.
#[inline]
pub fn full_rows(
    image: Image<'_>,
    input: &Input,
    start: usize,
    buffer: &mut [u64],
) -> Answer<Given> {
    let mut out = [UNWRITTEN; 3];
    let status = unsafe {
        hodrupec_full_rows(
            image.bytes.as_ptr(),
            image.bytes.len(),
            image.segments.as_ptr(),
            image.segments.len(),
            input.types.as_ptr(),
            input.types.len(),
            input.types_va,
            start,
            buffer.as_mut_ptr(),
            buffer.len(),
            &mut out,
        )
    };
    if status != 0 {
        return Err(refusal(status, &out));
    }
    let [records, next, all] = out;
    Ok(Given { records, next, all })
}

/// The numbers of a record, one after the other.
pub fn numbers(row: &FullRow) -> [u64; NUMBERS] {
    let head = [
        row.slot,
        row.address,
        row.flags,
        row.parent,
        row.name_place,
        row.name_length,
    ];
    let mut numbers = [0; NUMBERS];
    numbers[..6].copy_from_slice(&head);
    numbers[6..14].copy_from_slice(&row.body);
    numbers[14..].copy_from_slice(row.blocks.as_flattened());
    numbers
}
