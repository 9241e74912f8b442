//! The proved side of the archive level, the functions of crates/c_fields and crates/c_named_records: field descriptors, field records
//! alone and with their names, the names of each, field offsets, and what is certain by an image's first bytes.

use crate::input::Input;
use crate::proved::{Answer, UNWRITTEN, refusal};
use crate::proved_full::{Image, calls};

calls! {
    "c_fields":
    next_field_record = hodrupec_next_field_record(base_va: u64, count: u32, size: u32, next: u32) -> 6;
    field_offsets = hodrupec_field_offsets(address: u64, flags: u32, metadata_va: u64) -> 3;
    static_field_offsets = hodrupec_static_field_offsets(address: u64, flags: u32) -> 3;
    descriptor_type_name = hodrupec_descriptor_type_name(descriptor: &[u64; 6]) -> 3;
    descriptor_superclass_name = hodrupec_descriptor_superclass_name(descriptor: &[u64; 6]) -> 3;
    record_type_name = hodrupec_record_type_name(record: &[u64; 4]) -> 3;
}

unsafe extern "C" {
    fn hodrupec_next_field(
        fields: *const u8,
        fields_len: usize,
        vmaddr: u64,
        at: usize,
        out: &mut [u64; 8],
    ) -> u64;
    fn hodrupec_field_offset(
        image: *const u8,
        image_len: usize,
        place: usize,
        count: u32,
        number: u32,
        out: &mut [u64; 2],
    ) -> u64;
    fn hodrupec_row_certain(
        image: *const u8,
        image_len: usize,
        segments: *const u64,
        segment_numbers: usize,
        types: *const u8,
        types_len: usize,
        vmaddr: u64,
        slot: usize,
        out: &mut [u64; 1],
    ) -> u64;
    fn hodrupec_name_certain(
        image: *const u8,
        image_len: usize,
        segments: *const u64,
        segment_numbers: usize,
        types: *const u8,
        types_len: usize,
        vmaddr: u64,
        slot: usize,
        out: &mut [u64; 1],
    ) -> u64;
    fn hodrupec_record_field_name(
        image: *const u8,
        image_len: usize,
        segments: *const u64,
        segment_numbers: usize,
        strings: *const u8,
        strings_len: usize,
        strings_va: u64,
        record: &[u64; 4],
        out: &mut [u64; 3],
    ) -> u64;
}

#[link(name = "c_named_records", kind = "static")]
unsafe extern "C" {
    fn hodrupec_named_records(
        image: *const u8,
        image_len: usize,
        segments: *const u64,
        segment_numbers: usize,
        strings: *const u8,
        strings_len: usize,
        strings_va: u64,
        base_va: u64,
        count: u32,
        size: u32,
        next: u32,
        buffer: *mut u64,
        buffer_len: usize,
        out: &mut [u64; 2],
    ) -> u64;
}

/// How many numbers a record with its names has.
pub const NAMED: usize = 10;

#[inline]
pub fn next_field(fields: &[u8], vmaddr: u64, at: usize) -> Answer<[u64; 8]> {
    let mut out = [UNWRITTEN; 8];
    let status =
        unsafe { hodrupec_next_field(fields.as_ptr(), fields.len(), vmaddr, at, &mut out) };
    if status != 0 {
        return Err(refusal(status, &out));
    }
    Ok(out)
}

#[inline]
pub fn field_offset(image: &[u8], place: usize, count: u32, number: u32) -> Answer<[u64; 2]> {
    let mut out = [UNWRITTEN; 2];
    let status = unsafe {
        hodrupec_field_offset(image.as_ptr(), image.len(), place, count, number, &mut out)
    };
    if status != 0 {
        return Err(refusal(status, &out));
    }
    Ok(out)
}

/// Where the name of a record's field is, for a record from its four numbers and the input's string section.
#[inline]
pub fn record_field_name(image: Image<'_>, input: &Input, record: &[u64; 4]) -> Answer<[u64; 3]> {
    let mut out = [UNWRITTEN; 3];
    let status = unsafe {
        hodrupec_record_field_name(
            image.bytes.as_ptr(),
            image.bytes.len(),
            image.segments.as_ptr(),
            image.segments.len(),
            input.strings.as_ptr(),
            input.strings.len(),
            input.strings_va,
            record,
            &mut out,
        )
    };
    if status != 0 {
        return Err(refusal(status, &out));
    }
    Ok(out)
}

/// How many records from number `next` on are in the buffer with their names, with the input's string section, and why there are no more.
#[inline]
pub fn named_records(
    image: Image<'_>,
    input: &Input,
    base_va: u64,
    count: u32,
    size: u32,
    next: u32,
    buffer: &mut [u64],
) -> Answer<[u64; 2]> {
    let mut out = [UNWRITTEN; 2];
    let status = unsafe {
        hodrupec_named_records(
            image.bytes.as_ptr(),
            image.bytes.len(),
            image.segments.as_ptr(),
            image.segments.len(),
            input.strings.as_ptr(),
            input.strings.len(),
            input.strings_va,
            base_va,
            count,
            size,
            next,
            buffer.as_mut_ptr(),
            buffer.len(),
            &mut out,
        )
    };
    if status != 0 {
        return Err(refusal(status, &out));
    }
    Ok(out)
}

/// 1 if the row of a slot of the input's types section is certain for an image.
#[inline]
pub fn row_certain(image: Image<'_>, input: &Input, slot: usize) -> Answer<u64> {
    let mut out = [UNWRITTEN; 1];
    let status = unsafe {
        hodrupec_row_certain(
            image.bytes.as_ptr(),
            image.bytes.len(),
            image.segments.as_ptr(),
            image.segments.len(),
            input.types.as_ptr(),
            input.types.len(),
            input.types_va,
            slot,
            &mut out,
        )
    };
    if status != 0 {
        return Err(refusal(status, &out));
    }
    let [certain] = out;
    Ok(certain)
}

/// 1 if the joined name of the row of a slot of the input's types section is certain for an image.
#[inline]
pub fn name_certain(image: Image<'_>, input: &Input, slot: usize) -> Answer<u64> {
    let mut out = [UNWRITTEN; 1];
    let status = unsafe {
        hodrupec_name_certain(
            image.bytes.as_ptr(),
            image.bytes.len(),
            image.segments.as_ptr(),
            image.segments.len(),
            input.types.as_ptr(),
            input.types.len(),
            input.types_va,
            slot,
            &mut out,
        )
    };
    if status != 0 {
        return Err(refusal(status, &out));
    }
    let [certain] = out;
    Ok(certain)
}
