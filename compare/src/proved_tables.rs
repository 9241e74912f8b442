//! The proved side of whole tables: entries and field records into the caller's buffer of numbers. The archives are those of
//! the single steps, which proved_full.rs and proved_archive.rs link.

use crate::proved::{Answer, UNWRITTEN, refusal};
use crate::proved_full::Image;

macro_rules! tables {
    ($($name:ident = $export:ident($($arg:ident: $type:ty),*);)*) => {
        unsafe extern "C" {
            $(fn $export(
                image: *const u8,
                image_len: usize,
                segments: *const u64,
                segment_numbers: usize,
                $($arg: $type,)*
                buffer: *mut u64,
                buffer_len: usize,
                out: &mut [u64; 2],
            ) -> u64;)*
        }
        $(/// How many entries from number `next` on are in the buffer, and why there are no more.
        #[inline]
        pub fn $name(image: Image<'_>, $($arg: $type,)* buffer: &mut [u64]) -> Answer<[u64; 2]> {
            let mut out = [UNWRITTEN; 2];
            let status = unsafe {
                $export(
                    image.bytes.as_ptr(),
                    image.bytes.len(),
                    image.segments.as_ptr(),
                    image.segments.len(),
                    $($arg,)*
                    buffer.as_mut_ptr(),
                    buffer.len(),
                    &mut out,
                )
            };
            if status != 0 {
                return Err(refusal(status, &out));
            }
            Ok(out)
        })*
    };
}

tables! {
    methods = hodrupec_methods(base_va: u64, count: u32, next: u32);
    overrides = hodrupec_overrides(base_va: u64, count: u32, next: u32);
    default_overrides = hodrupec_default_overrides(base_va: u64, count: u32, next: u32);
    prespecializations = hodrupec_prespecializations(base_va: u64, count: u32, next: u32);
    field_records = hodrupec_field_records(base_va: u64, count: u32, size: u32, next: u32);
}
