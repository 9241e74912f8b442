//! The proved side: the functions of crates/c_rows and crates/c_listing, each behind a safe function. A slice passes as a pointer and a length.

#[link(name = "c_rows", kind = "static")]
unsafe extern "C" {
    fn hodrupec_file_offset(
        segments: *const u64,
        count: usize,
        vmaddr: u64,
        out: &mut [u64; 2],
    ) -> u64;
    fn hodrupec_text(data: *const u8, len: usize, off: usize, out: &mut [u64; 3]) -> u64;
    fn hodrupec_field_name(
        image: *const u8,
        image_len: usize,
        segments: *const u64,
        count: usize,
        strings: *const u8,
        strings_len: usize,
        vmaddr: u64,
        target_va: u64,
        out: &mut [u64; 3],
    ) -> u64;
    fn hodrupec_next_row(
        image: *const u8,
        image_len: usize,
        segments: *const u64,
        count: usize,
        types: *const u8,
        types_len: usize,
        vmaddr: u64,
        slot: usize,
        out: &mut [u64; 8],
    ) -> u64;
    fn hodrupec_next_context(
        image: *const u8,
        image_len: usize,
        segments: *const u64,
        count: usize,
        descriptor_va: u64,
        given: usize,
        out: &mut [u64; 8],
    ) -> u64;
    fn hodrupec_qualified_name(
        image: *const u8,
        image_len: usize,
        segments: *const u64,
        count: usize,
        parent: u64,
        name_place: usize,
        name_length: usize,
        buffer: *mut u8,
        buffer_len: usize,
        out: &mut [u64; 1],
    ) -> u64;
}

#[link(name = "c_listing", kind = "static")]
unsafe extern "C" {
    fn hodrupec_listing(
        image: *const u8,
        image_len: usize,
        segments: *const u64,
        count: usize,
        types: *const u8,
        types_len: usize,
        vmaddr: u64,
        start: usize,
        buffer: *mut u8,
        buffer_len: usize,
        out: &mut [u64; 3],
    ) -> u64;
}

/// What an array holds before a call, so that a number that was not written is noticed.
pub const UNWRITTEN: u64 = 0x5a5a_a5a5_0ff0_1234;

/// The number of a refusal; `TOUCHED` for one that has changed a number of the caller's array.
#[derive(Clone, Copy, Debug, PartialEq)]
pub struct Refused(pub u64);

const TOUCHED: u64 = u64::MAX;

impl From<Refused> for String {
    fn from(refused: Refused) -> String {
        format!("refused with {}", refused.0)
    }
}

pub type Answer<T> = Result<T, Refused>;

/// The refusal of a call with this status, which must have left the caller's array unchanged.
#[cold]
pub fn refusal(status: u64, out: &[u64]) -> Refused {
    if out.iter().all(|&n| n == UNWRITTEN) {
        Refused(status)
    } else {
        Refused(TOUCHED)
    }
}

pub fn file_offset(segments: &[u64], vmaddr: u64) -> Answer<[u64; 2]> {
    let mut out = [UNWRITTEN; 2];
    let status =
        unsafe { hodrupec_file_offset(segments.as_ptr(), segments.len(), vmaddr, &mut out) };
    if status != 0 {
        return Err(refusal(status, &out));
    }
    Ok(out)
}

pub fn text(data: &[u8], off: usize) -> Answer<[u64; 3]> {
    let mut out = [UNWRITTEN; 3];
    let status = unsafe { hodrupec_text(data.as_ptr(), data.len(), off, &mut out) };
    if status != 0 {
        return Err(refusal(status, &out));
    }
    Ok(out)
}

pub fn field_name(
    image: &[u8],
    segments: &[u64],
    strings: &[u8],
    vmaddr: u64,
    target_va: u64,
) -> Answer<[u64; 3]> {
    let mut out = [UNWRITTEN; 3];
    let status = unsafe {
        hodrupec_field_name(
            image.as_ptr(),
            image.len(),
            segments.as_ptr(),
            segments.len(),
            strings.as_ptr(),
            strings.len(),
            vmaddr,
            target_va,
            &mut out,
        )
    };
    if status != 0 {
        return Err(refusal(status, &out));
    }
    Ok(out)
}

/// The next row from a slot on.
#[derive(Debug, PartialEq)]
pub struct Row {
    pub there: u64,
    pub slot: u64,
    pub next: u64,
    pub address: u64,
    pub flags: u64,
    pub parent: u64,
    pub place: u64,
    pub length: u64,
}

#[inline]
pub fn next_row(
    image: &[u8],
    segments: &[u64],
    types: &[u8],
    vmaddr: u64,
    slot: usize,
) -> Answer<Row> {
    let mut out = [UNWRITTEN; 8];
    let status = unsafe {
        hodrupec_next_row(
            image.as_ptr(),
            image.len(),
            segments.as_ptr(),
            segments.len(),
            types.as_ptr(),
            types.len(),
            vmaddr,
            slot,
            &mut out,
        )
    };
    if status != 0 {
        return Err(refusal(status, &out));
    }
    let [there, slot, next, address, flags, parent, place, length] = out;
    Ok(Row {
        there,
        slot,
        next,
        address,
        flags,
        parent,
        place,
        length,
    })
}

/// One step of a walk up the contexts.
#[derive(Debug, PartialEq)]
pub struct Context {
    pub there: u64,
    pub address: u64,
    pub flags: u64,
    pub next: u64,
    pub given: u64,
    pub named: u64,
    pub place: u64,
    pub length: u64,
}

#[inline]
pub fn next_context(
    image: &[u8],
    segments: &[u64],
    descriptor_va: u64,
    given: usize,
) -> Answer<Context> {
    let mut out = [UNWRITTEN; 8];
    let status = unsafe {
        hodrupec_next_context(
            image.as_ptr(),
            image.len(),
            segments.as_ptr(),
            segments.len(),
            descriptor_va,
            given,
            &mut out,
        )
    };
    if status != 0 {
        return Err(refusal(status, &out));
    }
    let [there, address, flags, next, given, named, place, length] = out;
    Ok(Context {
        there,
        address,
        flags,
        next,
        given,
        named,
        place,
        length,
    })
}

/// The length of the joined name that is in the buffer.
#[inline]
pub fn qualified_name(
    image: &[u8],
    segments: &[u64],
    parent: u64,
    place: u64,
    length: u64,
    buffer: &mut [u8],
) -> Answer<u64> {
    let mut out = [UNWRITTEN; 1];
    let status = unsafe {
        hodrupec_qualified_name(
            image.as_ptr(),
            image.len(),
            segments.as_ptr(),
            segments.len(),
            parent,
            place as usize,
            length as usize,
            buffer.as_mut_ptr(),
            buffer.len(),
            &mut out,
        )
    };
    if status != 0 {
        return Err(refusal(status, &out));
    }
    let [length] = out;
    Ok(length)
}

/// How many bytes the listing of the section from a slot on has in the buffer, the slot to go on from, and 1 if all rows are given.
#[derive(Debug, PartialEq)]
pub struct Listed {
    pub bytes: u64,
    pub next: u64,
    pub all: u64,
}

#[inline]
pub fn listing(
    image: &[u8],
    segments: &[u64],
    types: &[u8],
    vmaddr: u64,
    start: usize,
    buffer: &mut [u8],
) -> Answer<Listed> {
    let mut out = [UNWRITTEN; 3];
    let status = unsafe {
        hodrupec_listing(
            image.as_ptr(),
            image.len(),
            segments.as_ptr(),
            segments.len(),
            types.as_ptr(),
            types.len(),
            vmaddr,
            start,
            buffer.as_mut_ptr(),
            buffer.len(),
            &mut out,
        )
    };
    if status != 0 {
        return Err(refusal(status, &out));
    }
    let [bytes, next, all] = out;
    Ok(Listed { bytes, next, all })
}
