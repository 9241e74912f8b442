//! What can be tried exhaustively: short texts, flag words, chains around the limit, segments that end around 2^64, blocks with all flags,
//! blocks and tables around 2^64, cuts.

use crate::check::{Checker, LIMIT};
use crate::generate::{Generator, chain, chain_of_names, relative};
use crate::generate_full::FullGenerator;
use crate::input::{Input, refusal};
use crate::plant::{Plan, Planter};
use crate::report;
use std::time::Instant;

fn must(checker: &mut Checker, input: &Input) {
    if let Err(what) = checker.input(input) {
        report(input, &what);
    }
}

/// A text at an offset, at the end of the bytes and with a NUL and more after it: `SIZE` bytes in all.
fn text<const SIZE: usize>(checker: &mut Checker, bytes: &[u8]) {
    let mut data = [0x41; SIZE];
    data[1..1 + bytes.len()].copy_from_slice(bytes);
    let end = 1 + bytes.len();
    let mut shown = checker.text(&data[..end], 1);
    data[end] = 0;
    if shown.is_ok() {
        shown = checker.text(&data, 1);
    }
    if let Err(what) = shown {
        println!("difference: text {bytes:02x?}: {what}");
        std::process::exit(1);
    }
}

/// All texts of one, two and three bytes; those of four and five that start with a byte that is not ASCII, with bytes of each class at the
/// end.
fn texts(checker: &mut Checker, few: bool) {
    const ENDS: [u8; 8] = [0x00, 0x41, 0x7f, 0x80, 0x8f, 0x90, 0xbf, 0xc0];
    for a in 0..=255u8 {
        text::<8>(checker, &[a]);
        for b in 0..=255u8 {
            text::<8>(checker, &[a, b]);
            if few && a < 0xc0 {
                continue;
            }
            for c in 0..=255u8 {
                text::<8>(checker, &[a, b, c]);
            }
            if few || a < 0xc0 {
                continue;
            }
            for c in 0..=255u8 {
                for d in ENDS {
                    text::<8>(checker, &[a, b, c, d]);
                    text::<8>(checker, &[a, b, c, d, 0xc3]);
                }
            }
        }
    }
}

/// Letters, and then letters after a sequence, sequences of one length, or of all lengths, and at each place among up to 24 of them and before up to
/// 17 more: a NUL, the first and the last ASCII byte, sequences of each length, whole, cut short and ill-formed, and bytes that start none.
fn long_texts(checker: &mut Checker) {
    const FILLED: [[&str; 2]; 7] = [
        ["é", "A"],
        ["€", "A"],
        ["🌳", "A"],
        ["", "é"],
        ["", "界"],
        ["", "🌳"],
        ["", "é界🌳A"],
    ];
    const ODD: [&[u8]; 18] = [
        b"\0",
        b"\x01",
        b"\x7f",
        b"\x80",
        b"\xbf",
        b"\xc1\x80",
        b"\xc2\x80",
        b"\xdf\xbf",
        b"\xe0\x80\x80",
        b"\xe0\xa0\x80",
        b"\xed\x9f\xbf",
        b"\xed\xbf\xbf",
        b"\xef\xbf",
        b"\xf0\x90\x80",
        b"\xf0\x90\x80\x80",
        b"\xf4\x8f\xbf\xbf",
        b"\xf4\x90\x80\x80",
        b"\xf5\x80\x80\x80",
    ];
    for before in 0..=9 {
        for [first, filler] in FILLED {
            for odd in ODD {
                for place in 0..24 {
                    for after in [0, 1, 2, 7, 8, 9, 17] {
                        let mut bytes = "A".repeat(before).into_bytes();
                        bytes.extend_from_slice(first.as_bytes());
                        bytes.extend_from_slice(filler.repeat(place).as_bytes());
                        bytes.extend_from_slice(odd);
                        bytes.extend_from_slice(filler.repeat(after).as_bytes());
                        text::<512>(checker, &bytes);
                    }
                }
            }
        }
    }
}

/// Every low byte of the flags word with every type flag, of a row and of its context.
fn flags(checker: &mut Checker, few: bool) {
    let mut input = chain(1, &[0], b"Name", [0; 4]);
    // Room for a body and some of its blocks.
    input.image.resize(160, 0);
    input.segments[0][1] = 160;
    input.segments[0][3] = 160;
    for low in 0..=255u32 {
        for high in 0..=0xffffu32 {
            if few && high & (high.wrapping_sub(1)) != 0 && high != 0xffff {
                continue;
            }
            let word = (low | high << 16 | (high & 0xff) << 8).to_le_bytes();
            input.image[..4].copy_from_slice(&word);
            input.image[20..24].copy_from_slice(&word);
            must(checker, &input);
        }
    }
}

/// Chains of every kind with lengths around the limit, ended by 0, by an address that can't be read, and by a cycle.
fn chains(checker: &mut Checker) {
    let depths = [
        0,
        1,
        2,
        3,
        31,
        LIMIT - 2,
        LIMIT - 1,
        LIMIT,
        LIMIT + 1,
        LIMIT + 2,
        300,
    ];
    let names: [&[u8]; 4] = [b"", b"N", b"Seven77", &[0xe2, 0x82]];
    let ends = [0i32, 0x1000_0000, -4, i32::MIN];
    for depth in depths {
        for kinds in [&[0][..], &[2], &[4], &[9], &[0, 2], &[16, 1, 3, 17, 18]] {
            for name in names {
                for end in ends {
                    must(checker, &chain(depth, kinds, name, end.to_le_bytes()));
                }
            }
        }
    }
    // Names that are all different, in chains around 8 names, so many the proved side keeps before it reads on, around 32 and around the limit.
    for depth in (0..=40).chain([63, 64, 65]).chain(LIMIT - 2..=LIMIT + 1) {
        for kinds in [&[0][..], &[0, 2], &[16, 17, 2], &[2, 2, 0]] {
            must(checker, &chain_of_names(depth, kinds));
        }
    }
}

/// A segment that ends around 2^64, with and without bytes in the file, in every place of a list, and two of them: the list is refused if
/// one reaches 2^64, and every answer is the Rust's otherwise.
fn segments(checker: &mut Checker) {
    let starts = [0, 1, 2, 17, 16, 15, 1 << 63, (1 << 63) + 1, 0x4000];
    let sizes = [0, 1, 2, 15, 16, 17, 18, 1 << 63, u64::MAX];
    let whole = chain(1, &[0], b"Name", [0; 4]);
    let mut ends = Vec::new();
    for vmaddr in starts.into_iter().flat_map(|n: u64| [n, n.wrapping_neg()]) {
        for vmsize in sizes.into_iter().chain([vmaddr.wrapping_neg(), !vmaddr]) {
            ends.push([vmaddr, vmsize]);
        }
    }
    for &[vmaddr, vmsize] in &ends {
        for [fileoff, filesize] in [[0, 0], [0, 16], [u64::MAX, 0], [u64::MAX, u64::MAX]] {
            for place in 0..3 {
                let mut input = whole.clone();
                input.segments.push([0x8000, 16, 0, 16]);
                let segment = [vmaddr, vmsize, fileoff, filesize];
                input.segments.insert(place, segment);
                input.targets = vec![vmaddr, vmaddr.wrapping_add(vmsize), 0x4000];
                must(checker, &input);
            }
        }
    }
    for &[first, first_size] in &ends {
        for &[second, second_size] in &ends {
            let mut input = whole.clone();
            input.segments.push([first, first_size, 0, 16]);
            input.segments.push([second, second_size, 0, 0]);
            must(checker, &input);
        }
    }
}

/// Every cut of an image; an image whose segments are refused is tried once, since they are refused before it is looked at.
fn all_cuts(checker: &mut Checker, input: &mut Input) {
    if refusal(input.numbers()).is_some() {
        must(checker, input);
        return;
    }
    while input.image.pop().is_some() {
        must(checker, input);
    }
}

/// Every cut of small images.
fn cuts(checker: &mut Checker, images: u64) {
    let mut generator = Generator::default();
    let mut input = Input::default();
    let mut tried = 0;
    let mut number = 0;
    while tried < images {
        generator.make(7, number, &mut input);
        number += 1;
        if input.image.len() >= 200 || input.types.len() < 4 {
            continue;
        }
        tried += 1;
        all_cuts(checker, &mut input);
    }
}

/// Whether the sides agree on the rows' bodies, blocks and entries only.
fn must_rows(checker: &mut Checker, input: &Input) {
    if let Err(what) = checker.descriptors(input) {
        report(input, &what);
    }
}

/// A struct's name, and the number of its bytes before the descriptor.
const NAME: &[u8; 4] = b"Ty\0\0";

/// One descriptor at an address, its name before it, all offsets the same; tables that are too long to be written have a segment for what
/// follows them.
fn planted(address: u64, plan: &Plan, offset: i32) -> Input {
    let mut input = Input::default();
    let (mut marks, mut parts) = (Vec::new(), Vec::new());
    let before = NAME.len() as u64;
    input.image.extend_from_slice(NAME);
    Planter {
        image: &mut input.image,
        va: address,
        marks: &mut marks,
        parts: &mut parts,
    }
    .descriptor(plan, &mut |_, _| offset.to_le_bytes());
    let name = relative(address.wrapping_add(8), address.wrapping_sub(before));
    input.image[12..16].copy_from_slice(&name);
    let length = input.image.len() as u64;
    let base = address.wrapping_sub(before);
    parts.insert(0, (base, 0));
    for (va, off) in parts {
        let length = (length - off as u64).min(u64::MAX - va);
        input.segments.push([va, length, off as u64, length]);
    }
    input.types_va = address.wrapping_sub(0x1000);
    input.types = relative(input.types_va, address).to_vec();
    input
}

/// Every type flags word, generic and not, with the invertible set and without, of the three kinds, with and without bit 0 of the extra class
/// flags; every block can be read.
fn blocks(checker: &mut Checker, few: bool) {
    // The bits that no block depends on: all clear, all set, and each alone.
    let others: u32 = 0x1fb4;
    let mut input = Input::default();
    input.types_va = 0x3000;
    input.types = relative(0x3000, 0x4000).to_vec();
    input.segments.push([0x4000, 600, 0, 600]);
    // Small numbers that differ from word to word: counts and offsets.
    let words = [0u32, 1, 2, 1, 3, 1, 2].into_iter().cycle().take(150);
    let mut image: Vec<u8> = words.flat_map(u32::to_le_bytes).collect();
    for types in 0..=0xffffu32 {
        let rest = types & others;
        if few && rest & rest.wrapping_sub(1) != 0 && rest != others {
            continue;
        }
        for case in 0..24u32 {
            let kind = 16 + case % 3;
            let low = kind | (case / 3 & 1) << 5 | (case / 6 & 1) << 7;
            image[..4].copy_from_slice(&(low | types << 16).to_le_bytes());
            // The name is the empty text at descriptor + 8.
            image[8..12].copy_from_slice(&[0; 4]);
            if kind == 16 {
                image[28..32].copy_from_slice(&(2 + case / 12).to_le_bytes());
            } else if case >= 12 {
                continue;
            }
            input.image.clone_from(&image);
            must_rows(checker, &input);
        }
    }
}

const COUNTS: [u32; 5] = [0, 1, 2, u32::MAX - 1, u32::MAX];

/// Each block alone and before each other one, ending around 2^64.
fn ends(checker: &mut Checker) {
    // Generic, resilient with the stub, foreign, singleton, methods, overrides, prespecializations, invertible, pointer, default overrides.
    let bits: [u32; 10] = [
        1 << 7,
        1 << 29,
        2 << 16,
        1 << 16,
        1 << 31,
        1 << 30,
        1 << 19,
        1 << 5,
        (1 << 16) | (1 << 19),
        1 << 22,
    ];
    for kind in [16, 17, 18] {
        let body = if kind == 16 { 44u64 } else { 28 };
        for first in bits {
            for second in bits.into_iter().chain([0]) {
                for count in COUNTS {
                    let n = u64::from(count);
                    let half = count.min(65_535) as u16;
                    let plan = Plan {
                        flags: kind | first | second,
                        extra: 1,
                        parameters: half,
                        requirements: half,
                        methods: count,
                        overrides: count,
                        prespecializations: count,
                        default_overrides: count,
                        set: 5,
                        ..Plan::default()
                    };
                    let generic = 16 + u64::from(half).next_multiple_of(4) + 12 * u64::from(half);
                    let sizes = [
                        0,
                        2,
                        4,
                        8,
                        12,
                        16,
                        generic,
                        4 + 8 * n,
                        8 + 8 * n,
                        4 + 12 * n,
                    ];
                    for size in sizes {
                        for more in 0..3 {
                            let address = 0u64.wrapping_sub(body + size).wrapping_add(more);
                            must_rows(checker, &planted(address.wrapping_sub(1), &plan, 6));
                        }
                    }
                }
            }
        }
    }
}

/// Descriptors, walks, tables, records and singletons made up at the last addresses, in an image of small numbers and in one of 0s.
fn last_addresses(checker: &mut Checker) {
    for byte in [0, 3] {
        for back in 0..64u64 {
            let mut input = Input::default();
            input.image.resize(80, byte);
            input.segments.push([u64::MAX - 70, 70, 0, 70]);
            input.targets = vec![0u64.wrapping_sub(back); 8];
            for section in 0..8 {
                input.fields_va = section;
                must(checker, &input);
            }
        }
    }
}

/// A field descriptor with a number of records this far apart, at an address, in a section that ends around the records' end.
fn field_sections(checker: &mut Checker) {
    for size in [0, 1, 2, 11, 12, 13, 65_535u16] {
        for count in [0, 1, 2, 3, 1000, u32::MAX] {
            let mut section = Vec::new();
            let (mut marks, mut parts) = (Vec::new(), Vec::new());
            let mut planter = Planter {
                image: &mut section,
                va: 0,
                marks: &mut marks,
                parts: &mut parts,
            };
            planter.field_descriptor(1, size, count, &mut |_, _| [9, 0, 0, 0]);
            planter.field_descriptor(7, 12, 1, &mut |_, _| [5, 0, 0, 0]);
            for back in [0x1000, 64, 40, 24, 20, 17, 16, 15, 8, 5, 4, 3, 1, 0u64] {
                let mut input = Input {
                    image: section.clone(),
                    fields: section.clone(),
                    fields_va: 0u64.wrapping_sub(back),
                    ..Input::default()
                };
                let length = (section.len() as u64).min(back.wrapping_sub(1));
                input.segments.push([input.fields_va, length, 0, length]);
                input.segments.push([0, 64, back.min(64), 64]);
                input.targets.push(input.fields_va.wrapping_add(16));
                while input.fields.len() > 12 {
                    must(checker, &input);
                    input.fields.pop();
                }
            }
        }
    }
}

/// Every cut of a class, a struct and an enum with all blocks that they can have at once: with a singleton initialization and pointer, and
/// with a foreign initialization and prespecializations. A fields section lies over the descriptor.
fn cut_blocks(checker: &mut Checker) {
    for kind in [16, 17, 18] {
        for initialization in [1, 2] {
            for count in [0, 1, 2] {
                let plan = Plan {
                    flags: kind | 0xe048_00a0 | initialization << 16,
                    body: [3, 1, 2, 5],
                    extra: 1,
                    parameters: 1 + count as u16,
                    requirements: count as u16,
                    methods: count,
                    overrides: count,
                    prespecializations: count,
                    default_overrides: count,
                    set: 3,
                };
                let mut input = planted(0x4000, &plan, 12);
                input.fields = input.image.clone();
                input.fields_va = input.segments[0][0];
                input.targets.extend([0x4000, 0x4014, 0x402c]);
                while input.image.pop().is_some() {
                    must(checker, &input);
                }
            }
        }
    }
}

/// Every cut of small images with bodies, blocks and fields.
fn full_cuts(checker: &mut Checker, images: u64) {
    let mut generator = FullGenerator::default();
    let mut input = Input::default();
    let mut tried = 0;
    let mut number = 0;
    while tried < images {
        generator.make(7, number, &mut input);
        number += 1;
        if input.image.len() >= 300 {
            continue;
        }
        tried += 1;
        all_cuts(checker, &mut input);
    }
}

pub fn run(few: bool) {
    let start = Instant::now();
    let mut checker = Checker::default();
    texts(&mut checker, few);
    long_texts(&mut checker);
    chains(&mut checker);
    segments(&mut checker);
    flags(&mut checker, few);
    cuts(&mut checker, if few { 2_000 } else { 100_000 });
    blocks(&mut checker, few);
    ends(&mut checker);
    last_addresses(&mut checker);
    field_sections(&mut checker);
    cut_blocks(&mut checker);
    full_cuts(&mut checker, if few { 400 } else { 50_000 });
    let time = start.elapsed().as_secs_f64();
    println!(
        "exhaustive: {}; no difference; {time:.1} s",
        checker.counts.line()
    );
}
