//! The proved side of the full level, functions of crates/c_bodies, c_blocks, c_block_of_kind and the four crates of tables:
//! bodies, trailing blocks, entries, singleton records. Each call returns its array of numbers.

use crate::input::Input;
use crate::proved::{Answer, UNWRITTEN, refusal};

/// The image and the segment numbers, which these calls take first.
#[derive(Clone, Copy)]
pub struct Image<'a> {
    pub bytes: &'a [u8],
    pub segments: &'a [u64],
}

impl<'a> Image<'a> {
    pub fn of(input: &'a Input) -> Image<'a> {
        Image {
            bytes: &input.image,
            segments: input.numbers(),
        }
    }
}

/// Calls that take the image, the segments and some numbers, and answer in the caller's array.
macro_rules! calls {
    ($library:literal: $($name:ident = $export:ident($($arg:ident: $type:ty),*) -> $n:literal;)*) => {
        #[link(name = $library, kind = "static")]
        unsafe extern "C" {
            $(fn $export(
                image: *const u8,
                image_len: usize,
                segments: *const u64,
                segment_numbers: usize,
                $($arg: $type,)*
                out: &mut [u64; $n],
            ) -> u64;)*
        }
        $(#[inline]
        pub fn $name(image: Image<'_>, $($arg: $type),*) -> Answer<[u64; $n]> {
            let mut out = [UNWRITTEN; $n];
            let status = unsafe {
                $export(
                    image.bytes.as_ptr(),
                    image.bytes.len(),
                    image.segments.as_ptr(),
                    image.segments.len(),
                    $($arg,)*
                    &mut out,
                )
            };
            if status != 0 {
                return Err(refusal(status, &out));
            }
            Ok(out)
        })*
    };
}
pub(crate) use calls;

calls! {
    "c_bodies":
    text_at = hodrupec_text_at(vmaddr: u64) -> 3;
    body = hodrupec_body(address: u64, flags: u32) -> 8;
    singleton_init = hodrupec_singleton_init(address: u64) -> 4;
    singleton_pointer = hodrupec_singleton_pointer(address: u64) -> 2;
}

calls! {
    "c_blocks":
    first_block = hodrupec_first_block(address: u64, flags: u32) -> 4;
    next_block = hodrupec_next_block(flags: u32, class: u32, extra: u32, row: u32, address: u64) -> 7;
}

calls! {
    "c_block_of_kind":
    block_of_kind = hodrupec_block_of_kind(address: u64, flags: u32, kind: u32) -> 5;
}

calls! {
    "c_methods":
    next_method = hodrupec_next_method(base_va: u64, count: u32, next: u32) -> 5;
}

calls! {
    "c_overrides":
    next_override = hodrupec_next_override(base_va: u64, count: u32, next: u32) -> 6;
}

calls! {
    "c_default_overrides":
    next_default_override = hodrupec_next_default_override(base_va: u64, count: u32, next: u32) -> 5;
}

calls! {
    "c_prespecializations":
    next_prespecialization = hodrupec_next_prespecialization(base_va: u64, count: u32, next: u32) -> 4;
}
