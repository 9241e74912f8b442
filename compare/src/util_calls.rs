//! The readers of src/util.rs that the Swift reader does not call: LEB128, big-endian numbers, fixed texts, addresses of offsets.

use crate::generate::Rng;
use crate::input::{Input, refusal};
use crate::proved::{self, Answer, Refused, UNWRITTEN};
use darwinscope::util::{
    cstr_from_fixed, file_offset_to_vm_in, read_sleb128, read_u32_be_at, read_u64_be_at,
    read_uleb128,
};

#[link(name = "c_numbers", kind = "static")]
unsafe extern "C" {
    fn hodrupec_uleb128(bytes: *const u8, len: usize, out: &mut [u64; 3]) -> u64;
    fn hodrupec_sleb128(bytes: *const u8, len: usize, out: &mut [u64; 3]) -> u64;
    fn hodrupec_u32_be(data: *const u8, len: usize, off: usize, out: &mut [u64; 2]) -> u64;
    fn hodrupec_u64_be(data: *const u8, len: usize, off: usize, out: &mut [u64; 2]) -> u64;
    fn hodrupec_fixed_text(bytes: *const u8, len: usize, out: &mut [u64; 2]) -> u64;
    fn hodrupec_vm_address(
        segments: *const u64,
        count: usize,
        offset: u64,
        out: &mut [u64; 2],
    ) -> u64;
}

/// Compares the Rust's answer with the status and the numbers of a proved call, and reports them if they differ.
macro_rules! same {
    ($rust:expr, $status:expr, $out:expr, $($what:tt)*) => {{
        let (rust, proved) = (($rust), ($status, $out));
        if (0, rust) != proved {
            return Err(format!("{}: the Rust {:x?}, proved {:x?}", format!($($what)*), rust, proved));
        }
    }};
}

fn leb(bytes: &[u8]) -> Result<(), String> {
    let mut out = [UNWRITTEN; 3];
    let status = unsafe { hodrupec_uleb128(bytes.as_ptr(), bytes.len(), &mut out) };
    let rust = read_uleb128(bytes).map_or([0; 3], |(n, used)| [1, n, used as u64]);
    same!(rust, status, out, "uleb128 {bytes:02x?}");
    let mut out = [UNWRITTEN; 3];
    let status = unsafe { hodrupec_sleb128(bytes.as_ptr(), bytes.len(), &mut out) };
    let rust = read_sleb128(bytes).map_or([0; 3], |(n, used)| [1, n as u64, used as u64]);
    same!(rust, status, out, "sleb128 {bytes:02x?}");
    Ok(())
}

fn big_endian(data: &[u8], off: usize) -> Result<(), String> {
    let mut out = [UNWRITTEN; 2];
    let status = unsafe { hodrupec_u32_be(data.as_ptr(), data.len(), off, &mut out) };
    let rust = read_u32_be_at(data, off).map_or([0; 2], |n| [1, u64::from(n)]);
    same!(rust, status, out, "u32 at {off} of {data:02x?}");
    let mut out = [UNWRITTEN; 2];
    let status = unsafe { hodrupec_u64_be(data.as_ptr(), data.len(), off, &mut out) };
    let rust = read_u64_be_at(data, off).map_or([0; 2], |n| [1, n]);
    same!(rust, status, out, "u64 at {off} of {data:02x?}");
    Ok(())
}

fn fixed<const N: usize>(bytes: &[u8; N]) -> Result<(), String> {
    let mut out = [UNWRITTEN; 2];
    let status = unsafe { hodrupec_fixed_text(bytes.as_ptr(), N, &mut out) };
    let text = cstr_from_fixed(bytes);
    if !bytes.starts_with(text.as_bytes()) {
        return Err(format!("fixed text {bytes:02x?}: no prefix in the Rust"));
    }
    same!(
        [1, text.len() as u64],
        status,
        out,
        "fixed text {bytes:02x?}"
    );
    Ok(())
}

/// The proved call by itself.
pub fn vm_address(numbers: &[u64], offset: u64) -> Answer<[u64; 2]> {
    let mut out = [UNWRITTEN; 2];
    let status = unsafe { hodrupec_vm_address(numbers.as_ptr(), numbers.len(), offset, &mut out) };
    if status != 0 {
        return Err(proved::refusal(status, &out));
    }
    Ok(out)
}

/// The address of an offset; or that the segments are refused, which the Rust is not asked about.
fn address(segments: &[[u64; 4]], offset: u64) -> Result<(), String> {
    let numbers = segments.as_flattened();
    if let Some(number) = refusal(numbers) {
        return refused(numbers, offset, number);
    }
    let list = segments.iter().map(|s| (s[0], s[1], s[2], s[3]));
    let rust = file_offset_to_vm_in(list, offset).map_or([0; 2], |v| [1, v]);
    let ours = vm_address(numbers, offset)?;
    same!(
        rust,
        0,
        ours,
        "address of offset {offset:x} in {segments:x?}"
    );
    Ok(())
}

/// A list is refused with this number, and the answer's numbers are left unchanged.
fn refused(numbers: &[u64], offset: u64, number: u64) -> Result<(), String> {
    let ours = vm_address(numbers, offset);
    if ours != Err(Refused(number)) {
        return Err(format!(
            "address of offset {offset:x} in {numbers:x?}: refused with {number}, proved {ours:x?}"
        ));
    }
    Ok(())
}

/// Offsets around the file bytes of a segment that ends around 2^64, in both places of a list of two.
fn addresses() -> Result<u64, String> {
    let mut calls = 0;
    for vmaddr in [0, 1, 15, 16, 17, 1u64 << 63].map(u64::wrapping_neg) {
        for vmsize in [0, 1, 15, 16, 17, 1 << 63, u64::MAX] {
            for filesize in [0, 16, u64::MAX] {
                for fileoff in [0, 7, u64::MAX - 16, u64::MAX] {
                    let list = [[vmaddr, vmsize, fileoff, filesize], [0x1000, 8, 0, 8]];
                    for offset in [0, 1, 8, 15, 16, 17] {
                        let offset = fileoff.wrapping_add(offset);
                        address(&list, offset)?;
                        address(&[list[1], list[0]], offset)?;
                        calls += 2;
                    }
                }
            }
        }
    }
    Ok(calls)
}

/// LEB128 of up to three bytes; and nine equal continuation bytes with all tenth and eleventh bytes and some twelfth ones. Addresses of
/// offsets in segments around 2^64.
pub fn exhaustive() -> Result<u64, String> {
    let mut calls = 0;
    leb(&[])?;
    for a in 0..=255u8 {
        leb(&[a])?;
        for b in 0..=255u8 {
            leb(&[a, b])?;
            for c in 0..=255u8 {
                leb(&[a, b, c])?;
            }
        }
    }
    calls += 2 * (1 + 256 + 65_536 + 16_777_216);
    for first in [0x80, 0x81, 0xbf, 0xc0, 0xff] {
        let mut bytes = [first; 12];
        for len in 0..=12 {
            leb(&bytes[..len])?;
            calls += 2;
        }
        for tenth in 0..=255 {
            bytes[9] = tenth;
            leb(&bytes[..10])?;
            for eleventh in 0..=255 {
                bytes[10] = eleventh;
                leb(&bytes[..11])?;
                for twelfth in [0x00, 0x7f, 0x80] {
                    bytes[11] = twelfth;
                    leb(&bytes)?;
                }
                calls += 8;
            }
        }
    }
    for count in 1..12 {
        if count % 4 != 0 {
            refused(&[7; 12][..count], 7, 1)?;
            calls += 1;
        }
    }
    Ok(calls + addresses()?)
}

/// One of a few bytes, or any.
fn pick(rng: &mut Rng, few: &[u8]) -> u8 {
    let at = rng.below(few.len() + 2);
    few.get(at).copied().unwrap_or_else(|| rng.next() as u8)
}

/// One round of calls for a seeded input, whose segments it uses.
pub fn seeded(rng: &mut Rng, input: &Input) -> Result<u64, String> {
    let mut bytes = [0; 24];
    let len = rng.below(13);
    for b in &mut bytes[..len] {
        *b = pick(rng, &[0, 0x7f, 0x01, 0x02, 0x3f, 0x40, 0x41]);
        if rng.below(6) != 0 {
            *b |= 0x80;
        }
    }
    leb(&bytes[..len])?;

    for b in &mut bytes {
        *b = pick(rng, &[0, 0xff, 0x80, 0x7f]);
    }
    let len = rng.below(25);
    let off = match rng.below(8) {
        0 => usize::MAX - rng.below(9),
        _ => rng.below(26),
    };
    big_endian(&bytes[..len], off)?;

    // Mostly ASCII and whole sequences of two to four bytes, and a NUL in every second text.
    const PIECES: [&[u8]; 8] = [
        b"_",
        b"__TEXT",
        b"a",
        &[0xc3, 0xa9],
        "€".as_bytes(),
        "😀".as_bytes(),
        &[0xff],
        &[0xe2, 0x82],
    ];
    let mut text = [b'n'; 16];
    let mut at = 0;
    while at < 16 {
        let kinds = if rng.below(8) == 0 { 8 } else { 6 };
        let piece = PIECES[rng.below(kinds)];
        let end = 16.min(at + piece.len());
        text[at..end].copy_from_slice(&piece[..end - at]);
        at = end;
    }
    if rng.below(2) == 0 {
        text[rng.below(16)] = 0;
    }
    fixed(&text)?;
    fixed::<5>(text.first_chunk().unwrap())?;
    fixed::<1>(text.first_chunk().unwrap())?;
    fixed::<0>(text.first_chunk().unwrap())?;

    let mut calls = 8;
    if let Some(&s) = input.segments.get(rng.below(input.segments.len().max(1))) {
        let size = s[1].min(s[3]);
        for near in [s[2], s[2].wrapping_add(size), rng.next()] {
            let offset = near.wrapping_add(rng.below(5) as u64).wrapping_sub(2);
            address(&input.segments, offset)?;
            calls += 1;
        }
    } else {
        address(&input.segments, rng.next())?;
        calls += 1;
    }
    Ok(calls)
}
