//! Both sides timed on the same inputs in one run.

use crate::check::{HEAD, runtime};
use crate::input::Input;
use crate::proved;
use crate::proved_full::Image;
use crate::{proved_archive, proved_full, proved_fullrows, proved_tables};
use darwinscope::swift::{
    DefaultOverrideEntryIter, FieldRecordIter, OverrideEntryIter, PrespecializationIter,
    TypeKindBody, VTableIter,
};
use darwinscope::util::read_cstr_at;
use std::hint::black_box;
use std::time::Instant;

const ROWS: usize = 512;
const CHAINS: usize = 8;
const ROUNDS: usize = 60;
const BASE: u64 = 0x1_0000_0000;

/// A class's flags with every block that a class can have at once, and the bit of the extra class flags for the Objective-C stub.
const ALL_BLOCKS: u32 = 0xe049_00b0;
const HAS_STUB: u32 = 1;

/// Flags of contexts with a name and without.
const NAMED: u32 = 17;
const ANONYMOUS: u32 = 2;

/// `ROWS` rows with these flags, each with a name of its own; every name has `name` bytes. A class has room for its blocks, whose counts
/// are 0. The last segment has the image.
fn case(flags: u32, name: usize, segments: usize) -> Input {
    nested(flags, NAMED, name, 0, segments)
}

/// Structs, where all but every eighth slot refer to an address in no segment.
fn sparse(name: usize, segments: usize) -> Input {
    let mut input = case(17, name, segments);
    for i in (0..ROWS).filter(|i| i % 8 > 0) {
        let slot_va = input.types_va + 4 * i as u64;
        let rel = (BASE + 0x3800_0000).wrapping_sub(slot_va) as i32;
        input.types[4 * i..4 * i + 4].copy_from_slice(&rel.to_le_bytes());
    }
    input
}

/// The same in `CHAINS` chains of `depth` contexts with the flags `around`.
fn nested(flags: u32, around: u32, name: usize, depth: usize, segments: usize) -> Input {
    let size = if flags & 31 == 16 { 160 } else { 28 };
    let contexts = ROWS * size;
    let texts = contexts + CHAINS * depth * 12;
    let count = ROWS + CHAINS * depth;
    let mut image = vec![0; texts + count * (name + 1)];
    let mut put = |off: usize, n: u32| image[off..off + 4].copy_from_slice(&n.to_le_bytes());
    let text = |i: usize| texts + i * (name + 1);
    for i in 0..ROWS {
        let off = i * size;
        put(off, flags);
        if flags == ALL_BLOCKS {
            put(off + 28, HAS_STUB);
        }
        put(
            off + 4,
            (contexts + i % CHAINS * depth * 12).wrapping_sub(off + 4) as u32
                * u32::from(depth > 0),
        );
        put(off + 8, text(i).wrapping_sub(off + 8) as u32);
    }
    for chain in 0..CHAINS {
        for i in 0..depth {
            let number = chain * depth + i;
            let off = contexts + 12 * number;
            put(off, around);
            put(off + 4, if i + 1 == depth { 0 } else { 8 });
            put(off + 8, text(ROWS + number).wrapping_sub(off + 8) as u32);
        }
    }
    for i in 0..count {
        for (j, b) in image[text(i)..text(i) + name].iter_mut().enumerate() {
            *b = b'a' + ((i + j) % 26) as u8;
        }
    }
    let mut input = mapped(image, segments);
    input.types_va = BASE + 0x4000_0000;
    for i in 0..ROWS {
        let slot_va = input.types_va + 4 * i as u64;
        let rel = (BASE + (i * size) as u64).wrapping_sub(slot_va) as i32;
        input.types.extend_from_slice(&rel.to_le_bytes());
    }
    input
}

/// An image at `BASE` in the last of a number of segments.
fn mapped(image: Vec<u8>, segments: usize) -> Input {
    let length = image.len() as u64;
    let mut input = Input {
        image,
        ..Input::default()
    };
    input.segments.push([0, BASE, 0, 0]);
    for i in 2..segments as u64 {
        input
            .segments
            .push([BASE + 0x1000_0000 * i, 0x10_0000, 0, 0x10_0000]);
    }
    input.segments.push([BASE, length, 0, length]);
    input
}

/// How far apart the segments of `spread` start.
const APART: u64 = 0x10_0000;

/// `ROWS` rows with these flags and names of 8 bytes, spread over a number of segments, each with the names of its rows: neighbouring slots
/// lie in different segments. A class has up to 13 methods.
fn spread(flags: u32, methods: usize, segments: usize) -> Input {
    let size = if flags & 31 == 16 { 160 } else { 28 };
    let each = ROWS.div_ceil(segments);
    let piece = each * (size + 9);
    let mut input = Input {
        image: vec![0; segments * piece],
        types_va: BASE + 0x4000_0000,
        ..Input::default()
    };
    for i in 0..segments {
        let offset = (i * piece) as u64;
        input
            .segments
            .push([BASE + APART * i as u64, piece as u64, offset, piece as u64]);
    }
    let image = &mut input.image;
    let mut put =
        |off: usize, n: usize| image[off..off + 4].copy_from_slice(&(n as u32).to_le_bytes());
    let places = |row: usize| {
        let (piece, number) = (row % segments * piece, row / segments);
        (
            piece + number * size,
            piece + each * size + 9 * number,
            BASE + APART * (row % segments) as u64 + (number * size) as u64,
        )
    };
    for row in 0..ROWS {
        let (off, text, _) = places(row);
        put(off, flags as usize);
        put(off + 8, text - (off + 8));
        if flags == ALL_BLOCKS {
            put(off + 28, HAS_STUB as usize);
        } else if methods > 0 {
            put(off + 48, methods);
            for w in 0..2 * methods {
                put(off + 52 + 4 * w, (row + w) * 37 + 1);
            }
        }
    }
    for row in 0..ROWS {
        let (_, text, address) = places(row);
        input.image[text..text + 8].fill(b'a' + (row % 26) as u8);
        let slot_va = input.types_va + 4 * row as u64;
        let rel = address.wrapping_sub(slot_va) as i32;
        input.types.extend_from_slice(&rel.to_le_bytes());
    }
    input
}

/// The shortest of some rounds, in nanoseconds per row or entry; each round has as many repetitions as fill some milliseconds.
fn time(items: usize, mut pass: impl FnMut() -> usize) -> impl FnMut() -> (f64, usize) {
    let start = Instant::now();
    let mut warm = 0;
    while start.elapsed().as_millis() < 4 {
        black_box(pass());
        warm += 1;
    }
    let repetitions = warm.max(1);
    move || {
        let start = Instant::now();
        let mut sum = 0;
        for _ in 0..repetitions {
            sum = black_box(pass());
        }
        let each = start.elapsed().as_nanos() as f64 / (repetitions * items) as f64;
        (each, sum)
    }
}

/// The shortest round of each side, and the ratio.
struct Times {
    rust: f64,
    proved: f64,
    ratio: f64,
}

/// Rounds of both sides in turn. The ratio is the median of the rounds' ratios: a processor that changes its clock changes both times of a round.
fn both(items: usize, rust: impl FnMut() -> usize, proved: impl FnMut() -> usize) -> Times {
    let mut rust = time(items, rust);
    let mut proved = time(items, proved);
    let mut best = (f64::MAX, f64::MAX);
    let mut ratios = Vec::new();
    for _ in 0..ROUNDS {
        let (a, sum) = rust();
        let (b, same) = proved();
        assert_eq!(sum, same, "both sides give the same bytes");
        best = (best.0.min(a), best.1.min(b));
        ratios.push(b / a);
    }
    ratios.sort_by(f64::total_cmp);
    Times {
        rust: best.0,
        proved: best.1,
        ratio: ratios[ROUNDS / 2],
    }
}

fn rows(input: &Input) -> Times {
    let rt = runtime(input);
    let (image, segments) = (&input.image[..], input.numbers());
    both(
        ROWS,
        || rt.types().map(|row| black_box(row.name()).len()).sum(),
        || {
            let (mut slot, mut sum) = (0, 0);
            loop {
                let row = proved::next_row(image, segments, &input.types, input.types_va, slot)
                    .expect("whole segments");
                if row.there == 0 {
                    return sum;
                }
                slot = row.next as usize;
                sum += black_box(row.length) as usize;
            }
        },
    )
}

fn listing(input: &Input) -> Times {
    let rt = runtime(input);
    let (image, segments) = (&input.image[..], input.numbers());
    let mut buffer = vec![0; 1 << 16];
    both(
        ROWS,
        || {
            rt.types()
                .map(|row| black_box(row.qualified_name()).len())
                .sum()
        },
        || {
            let (mut slot, mut sum) = (0, 0);
            loop {
                let row = proved::next_row(image, segments, &input.types, input.types_va, slot)
                    .expect("whole segments");
                if row.there == 0 {
                    return sum;
                }
                slot = row.next as usize;
                let name = proved::qualified_name(
                    image,
                    segments,
                    row.parent,
                    row.place,
                    row.length,
                    &mut buffer,
                );
                sum += black_box(name.expect("a short name")) as usize;
                black_box(&buffer);
            }
        },
    )
}

/// The listing of the whole section in one call, into one buffer for all of it.
fn whole(input: &Input) -> Times {
    let rt = runtime(input);
    let (image, segments) = (&input.image[..], input.numbers());
    let mut buffer = vec![0; 16 << 20];
    both(
        ROWS,
        || {
            rt.types()
                .map(|row| black_box(row.qualified_name()).len())
                .sum()
        },
        || {
            let listed = proved::listing(
                image,
                segments,
                &input.types,
                input.types_va,
                0,
                &mut buffer,
            );
            black_box(&buffer);
            listed.expect("whole segments").bytes as usize - HEAD * ROWS
        },
    )
}

/// How many blocks the Rust has recorded for a body.
fn recorded(body: &TypeKindBody<'_>) -> usize {
    let there: &[bool] = match body {
        TypeKindBody::Class(c) => &[
            c.generic_header_va.is_some(),
            c.resilient_superclass_va.is_some(),
            c.foreign_metadata_init_va.is_some(),
            c.singleton_metadata_init_va.is_some(),
            c.vtable_header.is_some(),
            c.override_table_header.is_some(),
            c.objc_resilient_class_stub_va.is_some(),
            c.prespecializations_count.is_some(),
            c.invertible_protocol_set.is_some(),
            c.singleton_metadata_pointer_va.is_some(),
            c.default_override_table_header.is_some(),
        ],
        TypeKindBody::Struct(s) => &[
            s.generic_header_va.is_some(),
            s.foreign_metadata_init_va.is_some(),
            s.singleton_metadata_init_va.is_some(),
            s.prespecializations_count.is_some(),
            s.invertible_protocol_set.is_some(),
            s.singleton_metadata_pointer_va.is_some(),
        ],
        _ => &[],
    };
    there.iter().filter(|&&b| b).count()
}

/// How many records of full rows the caller's buffer holds: 30 kB.
const RECORDS: usize = 64;

/// Rows with their bodies and all blocks, which the Rust reads with the row: the proved side in as many calls as a buffer of `RECORDS` needs.
fn bodies(input: &Input) -> Times {
    let rt = runtime(input);
    let image = Image::of(input);
    let mut buffer = vec![0; proved_fullrows::NUMBERS * RECORDS];
    both(
        ROWS,
        || {
            rt.types()
                .map(|row| row.name().len() + recorded(black_box(row.body())))
                .sum()
        },
        || {
            let (mut slot, mut sum) = (0, 0);
            loop {
                let given = proved_fullrows::full_rows(image, input, slot, &mut buffer);
                let given = given.expect("whole segments");
                let (records, _) = buffer.as_chunks::<{ proved_fullrows::NUMBERS }>();
                for record in &records[..given.records as usize] {
                    let record = black_box(record);
                    let (blocks, _) = record[14..].as_chunks::<4>();
                    sum += record[5] as usize;
                    sum += blocks.iter().map(|block| block[0] as usize).sum::<usize>();
                }
                slot = given.next as usize;
                if given.all == 1 {
                    return sum;
                }
            }
        },
    )
}

/// The same by a call for the row, one for the body, one for the start of the blocks and one for each block.
fn bodies_in_steps(input: &Input) -> Times {
    let rt = runtime(input);
    let image = Image::of(input);
    let row_at = |slot| {
        proved::next_row(
            image.bytes,
            image.segments,
            &input.types,
            input.types_va,
            slot,
        )
        .expect("whole segments")
    };
    both(
        ROWS,
        || {
            rt.types()
                .map(|row| row.name().len() + recorded(black_box(row.body())))
                .sum()
        },
        || {
            let (mut slot, mut sum) = (0, 0);
            loop {
                let row = row_at(slot);
                if row.there == 0 {
                    return sum;
                }
                slot = row.next as usize;
                let flags = row.flags as u32;
                let body = proved_full::body(image, row.address, flags);
                black_box(body.expect("whole segments")[0]);
                sum += row.length as usize;
                let first = proved_full::first_block(image, row.address, flags);
                let [_, class, extra, mut at] = first.expect("whole segments");
                let mut next = 0;
                loop {
                    let step =
                        proved_full::next_block(image, flags, class as u32, extra as u32, next, at);
                    let step = step.expect("whole segments");
                    if black_box(step[0]) == 0 {
                        break;
                    }
                    (next, at) = (step[5] as u32, step[6]);
                    sum += 1;
                }
            }
        },
    )
}

/// All entries in a pass over tables of `count`.
const ENTRIES: usize = 1024;

/// Where each table of `count` entries of a size starts.
fn tables(count: usize, size: usize) -> impl Iterator<Item = u64> + Clone {
    (0..(ENTRIES / count).max(1)).map(move |i| BASE + (i * count * size) as u64)
}

fn method_tables(count: usize, segments: usize) -> Input {
    let words = (2 * (ENTRIES / count).max(1) * count) as u32;
    let image = (0..words).flat_map(|w| (w * 37 + 1).to_le_bytes());
    mapped(image.collect(), segments)
}

/// What both sides do with an entry's numbers. One number is hidden from the compiler, not all three: a copy of the three, two at a time,
/// would wait for a buffer that was just written one by one.
fn sum([a, b, c]: [u64; 3]) -> usize {
    black_box(a.wrapping_add(b).wrapping_add(c)) as usize
}

/// The same for a record's numbers. In steps all three are hidden from the compiler, which otherwise reads a step's answer two numbers at a
/// time and waits.
fn sum_of_record<const STEPS: bool>(numbers: [u64; 3]) -> usize {
    if STEPS {
        let [a, b, c] = black_box(numbers);
        return a.wrapping_add(b).wrapping_add(c) as usize;
    }
    sum(numbers)
}

/// All methods of tables: in one call for each table, or step by step.
fn methods(input: &Input, count: usize, steps: bool) -> Times {
    let rt = runtime(input);
    let image = Image::of(input);
    let starts = tables(count, 8);
    let items = starts.clone().count() * count;
    let n = count as u32;
    let rust = || {
        let all = starts.clone().flat_map(|va| VTableIter::new(&rt, va, n));
        all.fold(0usize, |s, e| {
            s.wrapping_add(sum([e.address, e.flags.0.into(), e.impl_va]))
        })
    };
    let mut buffer = vec![[0; 3]; count];
    if !steps {
        return both(items, rust, || {
            starts.clone().fold(0usize, |s, va| {
                let given = proved_tables::methods(image, va, n, 0, buffer.as_flattened_mut());
                let [given, _] = given.expect("whole segments");
                let entries = buffer[..given as usize].iter();
                entries.fold(s, |s, &e| s.wrapping_add(sum(e)))
            })
        });
    }
    both(items, rust, || {
        starts.clone().fold(0usize, |mut s, va| {
            let mut next = 0;
            loop {
                let step = proved_full::next_method(image, va, n, next);
                let [there, number, a, b, c] = step.expect("whole segments");
                if there != 1 {
                    return s;
                }
                next = number as u32;
                s = s.wrapping_add(sum([a, b, c]));
            }
        })
    })
}

/// How many entries a table of another kind has.
const OTHERS: usize = 16;

/// All entries of tables of another kind, by a call for each entry. `rust` returns the sum over a table, `step` the next entry's number and
/// the sum over an entry.
fn other_entries(
    size: usize,
    rust: impl Fn(u64) -> usize,
    step: impl Fn(u64, u32) -> Option<(u64, usize)>,
) -> Times {
    let starts = tables(OTHERS, size);
    let items = starts.clone().count() * OTHERS;
    both(
        items,
        || {
            starts
                .clone()
                .fold(0usize, |s, va| s.wrapping_add(rust(va)))
        },
        || {
            starts.clone().fold(0usize, |mut s, va| {
                let mut next = 0;
                while let Some((number, made)) = step(va, next) {
                    next = number as u32;
                    s = s.wrapping_add(made);
                }
                s
            })
        },
    )
}

/// The three other kinds of tables, whose entries have twelve bytes at most.
fn other_tables(segments: usize) {
    let words = 3 * ENTRIES as u32;
    let image = (0..words).flat_map(|w| (w * 37 + 1).to_le_bytes());
    let input = mapped(image.collect(), segments);
    let rt = runtime(&input);
    let image = Image::of(&input);
    let n = OTHERS as u32;
    let added = |all: &mut dyn Iterator<Item = usize>| all.fold(0usize, usize::wrapping_add);
    let case = |kind: &str, times| line(&format!("{kind:17} | {n:5} | {segments:8}"), times);
    case(
        "override",
        other_entries(
            12,
            |va| {
                let all = OverrideEntryIter::new(&rt, va, n);
                added(&mut all.map(|e| sum([e.class_va, e.method_va, e.impl_va])))
            },
            |va, next| {
                let step = proved_full::next_override(image, va, n, next);
                let [there, number, _, a, b, c] = step.expect("whole segments");
                (there == 1).then(|| (number, sum([a, b, c])))
            },
        ),
    );
    case(
        "default override",
        other_entries(
            8,
            |va| {
                let all = DefaultOverrideEntryIter::new(&rt, va, n);
                added(&mut all.map(|e| sum([e.address, e.method_va, e.impl_va])))
            },
            |va, next| {
                let step = proved_full::next_default_override(image, va, n, next);
                let [there, number, a, b, c] = step.expect("whole segments");
                (there == 1).then(|| (number, sum([a, b, c])))
            },
        ),
    );
    case(
        "prespecialization",
        other_entries(
            4,
            |va| {
                let all = PrespecializationIter::new(&rt, va, n);
                added(&mut all.map(|va| sum([va, 0, 0])))
            },
            |va, next| {
                let step = proved_full::next_prespecialization(image, va, n, next);
                let [there, number, _, a] = step.expect("whole segments");
                (there == 1).then(|| (number, sum([a, 0, 0])))
            },
        ),
    );
}

/// A class with a vtable.
const HAS_VTABLE: u32 = 0x8000_0010;

/// Classes with names of 8 bytes and `count` methods each.
fn classes(count: usize, segments: usize) -> Input {
    let (all, size) = ((ENTRIES / count).max(1), 52 + 8 * count);
    let mut image = vec![0; all * (size + 9)];
    let mut put =
        |off: usize, n: usize| image[off..off + 4].copy_from_slice(&(n as u32).to_le_bytes());
    for i in 0..all {
        let off = i * size;
        put(off, HAS_VTABLE as usize);
        put(off + 8, all * size + 9 * i - (off + 8));
        put(off + 48, count);
        for w in 0..2 * count {
            put(off + 52 + 4 * w, (i + w) * 37 + 1);
        }
    }
    for i in 0..all {
        let text = all * size + 9 * i;
        image[text..text + 8].fill(b'a' + (i % 26) as u8);
    }
    let mut input = mapped(image, segments);
    input.types_va = BASE + 0x4000_0000;
    for i in 0..all {
        let slot_va = input.types_va + 4 * i as u64;
        let rel = (BASE + (i * size) as u64).wrapping_sub(slot_va) as i32;
        input.types.extend_from_slice(&rel.to_le_bytes());
    }
    input
}

/// Where a full row has the block of a vtable: 1 if there is one, its offset, how many methods it has, and the address of the first.
const VTABLE: usize = 14 + 4 * 4;

/// The methods of all classes of a section: rows, bodies, all blocks, and the entries of each vtable. The proved side makes as many calls
/// for full rows as a buffer of `RECORDS` needs, and a call for the table of each class.
fn class_methods(input: &Input, count: usize) -> Times {
    let rt = runtime(input);
    let image = Image::of(input);
    let items = input.types.len() / 4 * count;
    let mut rows = vec![0; proved_fullrows::NUMBERS * RECORDS];
    let mut buffer = vec![[0; 3]; count];
    both(
        items,
        || {
            rt.types().fold(0usize, |s, row| {
                let methods = row.vtable().into_iter().flatten();
                methods.fold(s, |s, e| {
                    s.wrapping_add(sum([e.address, e.flags.0.into(), e.impl_va]))
                })
            })
        },
        || {
            let (mut slot, mut s) = (0, 0usize);
            loop {
                let given = proved_fullrows::full_rows(image, input, slot, &mut rows);
                let given = given.expect("whole segments");
                let (records, _) = rows.as_chunks::<{ proved_fullrows::NUMBERS }>();
                for record in &records[..given.records as usize] {
                    if record[VTABLE] == 0 {
                        continue;
                    }
                    let (n, va) = (record[VTABLE + 2] as u32, record[VTABLE + 3]);
                    let lent = buffer.as_flattened_mut();
                    let listed = proved_tables::methods(image, va, n, 0, lent);
                    let [methods, _] = listed.expect("whole segments");
                    let methods = buffer[..methods as usize].iter();
                    s = methods.fold(s, |s, &e| s.wrapping_add(sum(e)));
                }
                slot = given.next as usize;
                if given.all == 1 {
                    return s;
                }
            }
        },
    )
}

/// Tables of records whose type names and field names, of 8 bytes, lie after them.
fn record_tables(count: usize, segments: usize) -> Input {
    let all = (ENTRIES / count).max(1) * count;
    let mut image = Vec::new();
    for i in 0..all {
        let texts = 12 * all + 18 * i;
        image.extend_from_slice(&(i as u32).to_le_bytes());
        image.extend_from_slice(&((texts - 12 * i - 4) as u32).to_le_bytes());
        image.extend_from_slice(&((texts + 9 - 12 * i - 8) as u32).to_le_bytes());
    }
    for i in 0..all {
        let letter = b'a' + (i % 26) as u8;
        image.extend_from_slice(&[letter; 8]);
        image.push(0);
        image.extend_from_slice(&[letter; 8]);
        image.push(0);
    }
    mapped(image, segments)
}

/// All records of tables with both names, which the Rust looks up with each record: in one call for each table, or with a step and two
/// calls for each record.
fn records<const STEPS: bool>(input: &Input, count: usize) -> Times {
    let rt = runtime(input);
    let image = Image::of(input);
    let starts = tables(count, 12);
    let items = starts.clone().count() * count;
    let n = count as u32;
    let length = |name: Option<&str>| name.map_or(0, |n| black_box(n).len()) as u64;
    let rust = || {
        let lists = starts.clone();
        let all = lists.flat_map(|va| FieldRecordIter::for_comparison(&rt, va, n, 12, 0));
        all.fold(0usize, |s, r| {
            let flags = r.flags().0.into();
            s.wrapping_add(sum_of_record::<STEPS>([
                flags,
                length(r.mangled_type_name()),
                length(r.field_name()),
            ]))
        })
    };
    let mut buffer = vec![[0; proved_archive::NAMED]; count];
    if !STEPS {
        return both(items, rust, || {
            starts.clone().fold(0usize, |s, va| {
                let lent = buffer.as_flattened_mut();
                let given = proved_archive::named_records(image, input, va, n, 12, 0, lent);
                let [given, _] = given.expect("whole segments");
                let entries = buffer[..given as usize].iter();
                entries.fold(s, |s, &[_, flags, _, _, _, _, length, _, _, name]| {
                    s.wrapping_add(sum_of_record::<STEPS>([flags, length, name]))
                })
            })
        });
    }
    let named = |flags: u64, type_va: u64, name_va: u64| {
        let [_, _, length] = proved_full::text_at(image, type_va).expect("whole segments");
        let name = proved::field_name(
            image.bytes,
            image.segments,
            &input.strings,
            input.strings_va,
            name_va,
        );
        let [_, _, name] = name.expect("whole segments");
        sum_of_record::<STEPS>([flags, length, name])
    };
    both(items, rust, || {
        starts.clone().fold(0usize, |mut s, va| {
            let mut next = 0;
            loop {
                let step = proved_archive::next_field_record(image, va, n, 12, next);
                let [there, number, _, flags, a, b] = step.expect("whole segments");
                if there != 1 {
                    return s;
                }
                next = number as u32;
                s = s.wrapping_add(named(flags, a, b));
            }
        })
    })
}

fn line(what: &str, times: Times) {
    let Times {
        rust,
        proved,
        ratio,
    } = times;
    println!("{what} | {rust:9.1} | {proved:9.1} | {ratio:5.2}");
}

/// All of it, or a part.
pub fn run(part: Option<&str>) {
    let asked = |name| part.is_none_or(|part| part == name);
    if asked("texts") {
        texts();
    }
    if asked("rows") {
        rows_and_names();
    }
    if asked("full") {
        full();
    }
}

/// Letters of scripts whose sequences have one to four bytes, and of mixtures.
const SCRIPTS: [(&str, &str); 6] = [
    ("ASCII", "TypesOfTheGardenInTheOrchard"),
    ("Cyrillic", "ДеревьяИКустыБольшогоСада"),
    ("CJK", "果園的樹木和灌木以及庭中花草"),
    ("emoji", "🌳🌲🌴🌵🌾🌿🍀🍁🍂🍃🌱🌷🌸🌹"),
    ("Czech", "PřílišŽluťoučkýKůňÚpělĎábelskéÓdy"),
    ("French", "LesArbresFruitiersDuGrandVergerEtLaForêt"),
];

/// `ROWS` texts of a number of bytes, one after the other with a NUL each, from different letters on; `x` where no letter fits any more.
fn names_in(letters: &str, bytes: usize) -> Vec<u8> {
    let mut data = Vec::new();
    for first in 0..ROWS {
        let end = data.len() + bytes;
        for letter in letters
            .chars()
            .cycle()
            .skip(first % letters.chars().count())
        {
            if data.len() + letter.len_utf8() > end {
                break;
            }
            data.extend_from_slice(letter.encode_utf8(&mut [0; 4]).as_bytes());
        }
        data.resize(end, b'x');
        data.push(0);
    }
    data
}

/// Texts by their offsets: the Rust looks for the NUL, and then checks the bytes before it.
fn texts() {
    println!("Texts by their offsets, nanoseconds per text.");
    println!("texts      | bytes |      Rust |    proved | ratio");
    for (script, letters) in SCRIPTS {
        for bytes in [8, 40, 400] {
            let data = names_in(letters, bytes);
            let places = || (0..ROWS).map(|i| black_box(i * (bytes + 1)));
            let times = both(
                ROWS,
                || {
                    places()
                        .map(|off| read_cstr_at(&data, off).map_or(0, str::len))
                        .sum()
                },
                || {
                    places()
                        .map(|off| proved::text(&data, off).expect("no segments")[2] as usize)
                        .sum()
                },
            );
            line(&format!("{script:10} | {bytes:5}"), times);
        }
    }
    println!();
}

fn rows_and_names() {
    println!(
        "{ROWS} rows; both sides in one run on the same warm inputs, the buffer for names warm too and not cleared; of {ROUNDS} rounds the shortest, and the middle ratio."
    );
    println!(
        "The Rust makes a String for each joined name; the proved side writes into one buffer."
    );
    println!(
        "Every name, the type's and each context's, has the bytes given; depth counts contexts. Nanoseconds per row."
    );
    println!();
    println!("rows alone | names | segments |      Rust |    proved | ratio");
    for (kind, flags) in [
        ("struct", 17),
        ("class", 16),
        ("all blocks", ALL_BLOCKS),
        ("no body", 4),
    ] {
        for segments in [2, 40] {
            for name in [8, 40, 400] {
                let input = case(flags, name, segments);
                line(
                    &format!("{kind:10} | {name:5} | {segments:8}"),
                    rows(&input),
                );
            }
        }
    }
    for segments in [2, 40] {
        let input = sparse(8, segments);
        line(&format!("no segment |     8 | {segments:8}"), rows(&input));
    }
    println!();
    println!(
        "Listing: `steps` calls for each row and its name, `whole` once for the section, into a buffer for all records."
    );
    println!("listing    | names | depth | segments |      Rust |    proved | ratio");
    for segments in [2, 40] {
        for depth in [0, 1, 3, 32] {
            for name in [8, 40, 400] {
                let input = nested(17, NAMED, name, depth, segments);
                let case = format!("{name:5} | {depth:5} | {segments:8}");
                line(&format!("steps      | {case}"), listing(&input));
                line(&format!("whole      | {case}"), whole(&input));
            }
        }
    }
    for depth in [0, 3] {
        let input = nested(17, NAMED, 8, depth, 200);
        line(
            &format!("whole      |     8 | {depth:5} |      200"),
            whole(&input),
        );
    }
    println!();
    println!(
        "Rows over all segments, neighbouring slots in different ones: names of 8 bytes, no contexts."
    );
    println!("listing    | segments |      Rust |    proved | ratio");
    for segments in [2, 40, 200] {
        let input = spread(17, 0, segments);
        line(&format!("steps      | {segments:8}"), listing(&input));
        line(&format!("whole      | {segments:8}"), whole(&input));
    }
    println!();
    println!(
        "Deep chains, `whole`: names of 8 bytes, 2 segments, contexts with names and without."
    );
    println!("contexts   | depth |      Rust |    proved | ratio");
    for (kind, around) in [("named", NAMED), ("anonymous", ANONYMOUS)] {
        for depth in [4, 8, 12, 16, 20, 24, 32, 64, 256] {
            let input = nested(17, around, 8, depth, 2);
            line(&format!("{kind:10} | {depth:5}"), whole(&input));
        }
    }
}

/// The full and the archive level.
fn full() {
    println!();
    println!(
        "Rows with body and all blocks, names of 8 bytes, which the Rust reads with the row: `records` in calls for {RECORDS} rows at a time, `steps` by a call for row, body, and each block."
    );
    println!("bodies              | segments |      Rust |    proved | ratio");
    for (kind, flags) in [("struct", 17), ("class", 16), ("all blocks", ALL_BLOCKS)] {
        for segments in [2, 40] {
            let input = case(flags, 8, segments);
            line(
                &format!("{kind:10}, records | {segments:8}"),
                bodies(&input),
            );
            line(
                &format!("{kind:10}, steps   | {segments:8}"),
                bodies_in_steps(&input),
            );
        }
    }
    println!();
    println!(
        "Methods of all classes of a section, names of 8 bytes, nanoseconds per method: `classes` in calls for {RECORDS} full rows at a time and one for each class's table, rows, bodies and all blocks included on both sides."
    );
    println!("methods             | count | segments |      Rust |    proved | ratio");
    for segments in [2, 40] {
        for count in [1, 16, 1000] {
            let input = classes(count, segments);
            line(
                &format!("classes             | {count:5} | {segments:8}"),
                class_methods(&input, count),
            );
        }
    }
    println!();
    println!(
        "The same with rows over all segments, neighbouring slots in different ones: nanoseconds per row, and per method."
    );
    println!("spread              | count | segments |      Rust |    proved | ratio");
    for segments in [2, 40, 200] {
        for (kind, flags) in [("struct", 17), ("class", 16), ("all blocks", ALL_BLOCKS)] {
            let input = spread(flags, 0, segments);
            line(
                &format!("{kind:10}, records |       | {segments:8}"),
                bodies(&input),
            );
        }
        for count in [1, 13] {
            let input = spread(HAS_VTABLE, count, segments);
            line(
                &format!("classes             | {count:5} | {segments:8}"),
                class_methods(&input, count),
            );
        }
    }
    println!();
    println!(
        "Entries of tables, nanoseconds per entry: `table` one call for each table, `steps` one for each entry."
    );
    println!(
        "Records with type name and name, of 8 bytes each, which both sides look up for each record."
    );
    println!("entries         | count | segments |      Rust |    proved | ratio");
    for segments in [2, 40] {
        for count in [1, 16, 1000] {
            let case = format!("{count:5} | {segments:8}");
            let input = method_tables(count, segments);
            line(
                &format!("methods, table  | {case}"),
                methods(&input, count, false),
            );
            line(
                &format!("methods, steps  | {case}"),
                methods(&input, count, true),
            );
            let input = record_tables(count, segments);
            line(
                &format!("records, table  | {case}"),
                records::<false>(&input, count),
            );
            line(
                &format!("records, steps  | {case}"),
                records::<true>(&input, count),
            );
        }
    }
    println!();
    println!("Entries of the other kinds of tables, nanoseconds per entry, by a call for each.");
    println!("steps             | count | segments |      Rust |    proved | ratio");
    for segments in [2, 40] {
        other_tables(segments);
    }
}
