//! A sample of inputs for bodies, blocks, entries, singleton records, field offsets and fields, with the Rust's answers, for a
//! replay without the Rust.

use crate::check::place_in;
use crate::input::{hex, refusal};
use darwinscope::swift::{
    DefaultOverrideEntryIter, FieldDescriptor, FieldDescriptorKind, OverrideEntryIter,
    PrespecializationIter, SwiftRuntime, SwiftSection, TypeDescriptor, TypeKindBody, VTableIter,
};
use darwinscope::util::relative_pointer;
use std::fmt::Write;

const HEAD: &str = "\
# The Rust's answers, made by `compare sample-full` (compare/build, compare/src/sample_full.rs): replayed without the Rust by
# crates/test_replay_full, whose head says how to read the lines. `#` says what an input is for. For segments that every call refuses,
# `refused 9` stands in place of the rows.
";

/// How many entries of a table, records of a descriptor and offsets of a struct are written out.
const SHOWN: u32 = 12;

/// How many entries of each kind are read at a row's own address, if that is one of the last 32.
const AT_ROW: u32 = 5;

#[derive(Clone, Default)]
struct Full {
    image: Vec<u8>,
    types_va: u64,
    types: Vec<u8>,
    fields_va: u64,
    fields: Vec<u8>,
    strings_va: u64,
    strings: Vec<u8>,
    segments: Vec<[u64; 4]>,
}

impl Full {
    fn line(&self) -> String {
        let mut s = format!(
            "input {} {:x} {} {:x} {} {:x} {} {:x}",
            hex(&self.image),
            self.types_va,
            hex(&self.types),
            self.fields_va,
            hex(&self.fields),
            self.strings_va,
            hex(&self.strings),
            4 * self.segments.len()
        );
        for n in self.segments.as_flattened() {
            let _ = write!(s, " {n:x}");
        }
        s
    }
}

fn section(body: &[u8], vmaddr: u64) -> Option<SwiftSection<'_>> {
    Some(SwiftSection { body, vmaddr })
}

// The Rust's answers as lines.

fn line(out: &mut String, word: &str, numbers: &[u64]) {
    out.push_str(word);
    for n in numbers {
        let _ = write!(out, " {n:x}");
    }
    out.push('\n');
}

/// A text of the image, by its place and length.
fn text_line(out: &mut String, word: &str, image: &[u8], text: Option<&str>) {
    match text.map(|t| place_in(image, t)) {
        Some((place, length)) => line(out, word, &[place, length]),
        None => line(out, &format!("{word} nothing"), &[]),
    }
}

/// The first entries of a table of `count`. The Rust returns nothing for an entry that it cannot read and goes on past it.
fn entry_lines(
    out: &mut String,
    count: u32,
    mut next: impl FnMut() -> Option<(&'static str, Vec<u64>)>,
) {
    for _ in 0..count.min(SHOWN) {
        match next() {
            Some((word, numbers)) => line(out, word, &numbers),
            None => line(out, "unreadable", &[]),
        }
    }
    if count > SHOWN {
        line(out, "more", &[]);
    } else {
        assert!(next().is_none());
        line(out, "done", &[]);
    }
}

fn methods(out: &mut String, rt: &SwiftRuntime<'_>, base: u64, count: u32) {
    let mut walk = VTableIter::new(rt, base, count);
    entry_lines(out, count, || {
        let e = walk.next()?;
        Some(("method", vec![e.address, e.flags.0.into(), e.impl_va]))
    });
}

fn overrides(out: &mut String, rt: &SwiftRuntime<'_>, base: u64, count: u32) {
    let mut walk = OverrideEntryIter::new(rt, base, count);
    entry_lines(out, count, || {
        let e = walk.next()?;
        Some((
            "override",
            vec![e.address, e.class_va, e.method_va, e.impl_va],
        ))
    });
}

fn default_overrides(out: &mut String, rt: &SwiftRuntime<'_>, base: u64, count: u32) {
    let mut walk = DefaultOverrideEntryIter::new(rt, base, count);
    entry_lines(out, count, || {
        let e = walk.next()?;
        Some(("default", vec![e.address, e.method_va, e.impl_va]))
    });
}

/// The Rust returns no address for these: each has 4 bytes.
fn prespecializations(out: &mut String, rt: &SwiftRuntime<'_>, base: u64, count: u32) {
    let mut walk = PrespecializationIter::new(rt, base, count);
    let mut address = base;
    entry_lines(out, count, || {
        let at = address;
        address = address.wrapping_add(4);
        Some(("metadata", vec![at, walk.next()?]))
    });
}

/// The blocks of a row: the numbers of each kind's block, in the order of the kinds.
fn blocks(body: &TypeKindBody<'_>) -> [Option<Vec<u64>>; 11] {
    let one = |va: Option<u64>| va.map(|va| vec![va]);
    let two = |count: Option<u32>, base: Option<u64>| Some(vec![count?.into(), base?]);
    let set = |bits: Option<u16>| bits.map(|b| vec![b.into(), b.count_ones().into()]);
    match body {
        TypeKindBody::Class(c) => [
            one(c.generic_header_va),
            one(c.resilient_superclass_va),
            one(c.foreign_metadata_init_va),
            one(c.singleton_metadata_init_va),
            c.vtable_header
                .map(|h| vec![h.vtable_offset.into(), h.vtable_size.into(), h.entries_va]),
            c.override_table_header
                .map(|h| vec![h.num_entries.into(), h.entries_va]),
            one(c.objc_resilient_class_stub_va),
            two(c.prespecializations_count, c.prespecializations_base_va),
            set(c.invertible_protocol_set),
            one(c.singleton_metadata_pointer_va),
            c.default_override_table_header
                .map(|h| vec![h.num_entries.into(), h.entries_va]),
        ],
        TypeKindBody::Struct(s) => [
            one(s.generic_header_va),
            None,
            one(s.foreign_metadata_init_va),
            one(s.singleton_metadata_init_va),
            None,
            None,
            None,
            two(s.prespecializations_count, s.prespecializations_base_va),
            set(s.invertible_protocol_set),
            one(s.singleton_metadata_pointer_va),
            None,
        ],
        TypeKindBody::Enum(e) => [
            one(e.generic_header_va),
            None,
            one(e.foreign_metadata_init_va),
            one(e.singleton_metadata_init_va),
            None,
            None,
            None,
            two(e.prespecializations_count, e.prespecializations_base_va),
            set(e.invertible_protocol_set),
            one(e.singleton_metadata_pointer_va),
            None,
        ],
        TypeKindBody::NonType => Default::default(),
    }
}

fn body_lines(out: &mut String, image: &[u8], body: &TypeKindBody<'_>) {
    match body {
        TypeKindBody::Class(c) => {
            let rest = [
                c.num_immediate_members.into(),
                c.num_fields.into(),
                c.field_offset_vector_offset.into(),
            ];
            let sizes = match (
                c.metadata_negative_size_words,
                c.metadata_positive_size_words,
                c.resilient_metadata_bounds_va,
                c.extra_class_flags,
            ) {
                (Some(negative), Some(positive), None, None) => {
                    ("fixed", [negative.into(), positive.into()])
                }
                (None, None, Some(bounds), Some(extra)) => ("resilient", [bounds, extra.into()]),
                _ => panic!("a class that is neither fixed nor resilient"),
            };
            line(out, sizes.0, &[&sizes.1[..], &rest].concat());
            text_line(out, "superclass", image, c.superclass_mangled_name);
        }
        TypeKindBody::Struct(s) => line(
            out,
            "struct",
            &[s.num_fields.into(), s.field_offset_vector_offset.into()],
        ),
        TypeKindBody::Enum(e) => line(
            out,
            "enum",
            &[
                e.num_payload_cases.into(),
                e.payload_size_offset.into(),
                e.num_empty_cases.into(),
            ],
        ),
        TypeKindBody::NonType => line(out, "bodiless", &[]),
    }
}

/// What follows a block: its entries or its record.
fn detail_lines(out: &mut String, row: &TypeDescriptor<'_, '_>, kind: usize, numbers: &[u64]) {
    let rt = row.runtime();
    match kind {
        3 => match row.singleton_metadata_init() {
            Some(s) => line(
                out,
                "init",
                &[
                    s.initialization_cache_va,
                    s.incomplete_metadata_va,
                    s.completion_function_va,
                ],
            ),
            None => line(out, "init nothing", &[]),
        },
        4 => methods(out, rt, numbers[2], numbers[1] as u32),
        5 => overrides(out, rt, numbers[1], numbers[0] as u32),
        7 => prespecializations(out, rt, numbers[1], numbers[0] as u32),
        9 => match row.singleton_metadata_pointer() {
            Some(s) => line(out, "pointer", &[s.metadata_va]),
            None => line(out, "pointer nothing", &[]),
        },
        10 => default_overrides(out, rt, numbers[1], numbers[0] as u32),
        _ => {}
    }
}

fn row_lines(out: &mut String, image: &[u8], row: &TypeDescriptor<'_, '_>) {
    body_lines(out, image, row.body());
    let blocks = blocks(row.body());
    for (kind, block) in blocks.iter().enumerate() {
        if let Some(numbers) = block {
            line(out, &format!("block {kind:x}"), numbers);
            detail_lines(out, row, kind, numbers);
        }
    }
    for (kind, block) in blocks.iter().enumerate() {
        if let Some(numbers) = block {
            line(out, &format!("kind {kind:x}"), numbers);
        }
    }
    match row.field_offsets() {
        Some(offsets) => {
            let shown = offsets.len().min(SHOWN as usize);
            let numbers: Vec<u64> = offsets[..shown].iter().map(|&n| n.into()).collect();
            line(out, &format!("offsets {:x}", offsets.len()), &numbers);
        }
        None => line(out, "offsets nothing", &[]),
    }
    let (rt, address) = (row.runtime(), row.address());
    if address < 32u64.wrapping_neg() {
        return;
    }
    methods(out, rt, address, AT_ROW);
    overrides(out, rt, address, AT_ROW);
    default_overrides(out, rt, address, AT_ROW);
    prespecializations(out, rt, address, AT_ROW);
}

fn kind_number(kind: FieldDescriptorKind) -> u64 {
    match kind {
        FieldDescriptorKind::Struct => 0,
        FieldDescriptorKind::Class => 1,
        FieldDescriptorKind::Enum => 2,
        FieldDescriptorKind::MultiPayloadEnum => 3,
        FieldDescriptorKind::Protocol => 4,
        FieldDescriptorKind::ClassProtocol => 5,
        FieldDescriptorKind::ObjCProtocol => 6,
        FieldDescriptorKind::ObjCClass => 7,
        FieldDescriptorKind::Other(n) => n.into(),
    }
}

/// The field name: 1 in the image, 2 in the strings.
fn name_line(out: &mut String, input: &Full, name: Option<&str>) {
    let lies_in = |bytes: &[u8], t: &str| {
        let (place, length) = place_in(bytes, t);
        place
            .checked_add(length)
            .is_some_and(|end| end <= bytes.len() as u64)
    };
    match name {
        Some(t) if lies_in(&input.image, t) => {
            let (place, length) = place_in(&input.image, t);
            line(out, "name", &[1, place, length]);
        }
        Some(t) => {
            let (place, length) = place_in(&input.strings, t);
            line(out, "name", &[2, place, length]);
        }
        None => line(out, "name nothing", &[]),
    }
}

fn descriptor_lines(out: &mut String, input: &Full, descriptor: &FieldDescriptor<'_, '_>) {
    let (kind, size, count) = (
        kind_number(descriptor.kind()),
        descriptor.field_record_size().into(),
        descriptor.num_fields(),
    );
    line(
        out,
        "descriptor",
        &[descriptor.address(), kind, size, count.into()],
    );
    text_line(out, "type", &input.image, descriptor.mangled_type_name());
    text_line(
        out,
        "superclass",
        &input.image,
        descriptor.superclass_mangled_name(),
    );
    let mut records = descriptor.records();
    for _ in 0..count.min(SHOWN) {
        match records.next() {
            Some(record) => {
                line(out, "record", &[record.flags().0.into()]);
                text_line(out, "type", &input.image, record.mangled_type_name());
                name_line(out, input, record.field_name());
            }
            None => line(out, "unreadable", &[]),
        }
    }
    if count > SHOWN {
        line(out, "more", &[]);
    } else {
        assert!(records.next().is_none());
        line(out, "done", &[]);
    }
}

/// The address that a slot of the types section refers to, unless its offset is 0.
fn slot_va(input: &Full, slot: usize) -> Option<u64> {
    let bytes = input.types.get(4 * slot..4 * slot + 4)?;
    let rel = i32::from_le_bytes(bytes.try_into().ok()?);
    let va = input.types_va.wrapping_add(4 * slot as u64);
    (rel != 0).then(|| relative_pointer(va, rel))
}

fn all_rows(out: &mut String, input: &Full, rt: &SwiftRuntime<'_>) {
    let (mut slot, mut rows) = (0, 0);
    for row in rt.types() {
        // The slot: the next one that refers to the row.
        while slot_va(input, slot) != Some(row.address()) {
            slot += 1;
        }
        let (place, length) = place_in(&input.image, row.name());
        let (flags, parent) = (row.flags().0.into(), row.parent_address());
        line(
            out,
            "row",
            &[slot as u64, row.address(), flags, parent, place, length],
        );
        slot += 1;
        rows += 1;
        row_lines(out, &input.image, &row);
    }
    line(out, "rows", &[rows]);
}

/// The Rust's answers; for segments that are refused, no rows. The fields section is read below the calls, where nothing is refused, and a
/// segment that wraps ends a search as in the Rust.
fn answers(input: &Full, out: &mut String) {
    let rt = SwiftRuntime::for_comparison(
        &input.image,
        input
            .segments
            .iter()
            .map(|s| (s[0], s[1], s[2], s[3]))
            .collect(),
        section(&input.types, input.types_va),
        section(&input.fields, input.fields_va),
        section(&input.strings, input.strings_va),
    );
    match refusal(input.segments.as_flattened()) {
        Some(number) => line(out, "refused", &[number]),
        None => all_rows(out, input, &rt),
    }
    // Past the first end too, up to a second one.
    let mut walk = rt.field_descriptors();
    let mut ends = 0;
    while ends < 2 {
        match walk.next() {
            Some(descriptor) => descriptor_lines(out, input, &descriptor),
            None => {
                line(out, "end", &[]);
                ends += 1;
            }
        }
    }
}

// The inputs.

/// Numbers that may be anything.
struct Rng(u64);

impl Rng {
    fn next(&mut self) -> u64 {
        self.0 ^= self.0 << 13;
        self.0 ^= self.0 >> 7;
        self.0 ^= self.0 << 17;
        self.0
    }

    fn below(&mut self, n: u64) -> u64 {
        (self.next() >> 33) % n
    }

    /// One of these.
    fn of<T: Copy>(&mut self, these: &[T]) -> T {
        these[self.below(these.len() as u64) as usize]
    }
}

fn put(bytes: &mut Vec<u8>, words: &[u32]) {
    for w in words {
        bytes.extend(w.to_le_bytes());
    }
}

fn words(words: &[u32]) -> Vec<u8> {
    let mut bytes = Vec::new();
    put(&mut bytes, words);
    bytes
}

const CLASS: u32 = 16;
const STRUCT: u32 = 17;
const ENUM: u32 = 18;

/// Where rows are, unless they are to be near the top.
const HERE: u64 = 0x1000;

/// The bytes before a descriptor: its name.
const BEFORE: usize = 4;

fn body_length(kind: u32) -> usize {
    match kind {
        CLASS => 24,
        STRUCT | ENUM => 8,
        _ => 0,
    }
}

/// Descriptor and body.
fn fixed_length(kind: u32) -> usize {
    20 + body_length(kind)
}

/// A segment from `start` on with the image's bytes from `off` on, ended before 2^64.
fn segment(start: u64, off: usize, length: usize) -> [u64; 4] {
    let size = (length as u64).min(u64::MAX - start);
    [start, size, off as u64, size]
}

/// The same with the image at address 0 too, where an address that passes 2^64 must not be read.
fn with_zero(mut input: Full) -> Full {
    let length = input.image.len() as u64;
    input.segments.push([0, length, 0, length]);
    input
}

/// The input of one row at an address: its name, the descriptor, the body, and what follows. The types section is at 0.
fn row_at(address: u64, flags: u32, body: &[u8], tail: &[u8]) -> Full {
    let mut image = b"T\0\xff\0".to_vec();
    put(&mut image, &[flags, 0, (-12i32) as u32, 0, 0]);
    image.extend(body);
    image.extend(tail);
    let start = address.wrapping_sub(BEFORE as u64);
    Full {
        segments: vec![segment(start, 0, image.len())],
        image,
        types: words(&[address as u32]),
        ..Full::default()
    }
}

/// A body of this kind with different words; the extra class flags are the third word of a class.
fn some_body(kind: u32, extra: u32) -> Vec<u8> {
    match kind {
        CLASS => words(&[(-24i32) as u32, 0x40, extra, 3, 2, 0xa]),
        STRUCT => words(&[2, 1]),
        ENUM => words(&[0x0500_0003, 4]),
        _ => Vec::new(),
    }
}

/// Blocks of a row: the flags that announce them, their bytes, and where each starts and how long its header is.
struct Blocks {
    flags: u32,
    extra: u32,
    bytes: Vec<u8>,
    starts: Vec<(usize, usize, usize)>,
}

/// The bytes of a block of this kind with a number of entries, the numbers in it all different.
fn block_bytes(kind: usize, entries: u32, number: &mut u32) -> (usize, Vec<u8>) {
    let mut more = |n: u32| {
        (0..n)
            .flat_map(|_| {
                *number += 0x11;
                let n = if *number % 5 == 0 {
                    number.wrapping_neg()
                } else {
                    *number
                };
                n.to_le_bytes()
            })
            .collect::<Vec<u8>>()
    };
    match kind {
        0 => {
            let mut header = more(2);
            header.extend([3, 0, entries as u8, 0, 2, 0, 0, 0]);
            header.extend([0x80, 0x80, 0x80, 0]);
            header.extend(more(3 * entries));
            (16, header)
        }
        1 | 2 | 6 | 9 => (0, more(1)),
        3 => (0, more(3)),
        4 => (8, [words(&[0xb, entries]), more(2 * entries)].concat()),
        5 => (4, [words(&[entries]), more(3 * entries)].concat()),
        7 => (4, [words(&[entries]), more(2 * entries)].concat()),
        8 => (2, vec![3, 0, 0, 0]),
        _ => (4, [words(&[entries]), more(2 * entries)].concat()),
    }
}

/// Whether a value type has blocks of this kind too.
fn of_values(kind: usize) -> bool {
    [0, 2, 3, 7, 8, 9].contains(&kind)
}

/// The blocks of these kinds, in order. The flags of a struct or an enum announce a class's blocks too, but it has none of
/// them.
fn some_blocks(kind: u32, set: &[usize], entries: u32) -> Blocks {
    let mut blocks = Blocks {
        flags: kind,
        extra: 2,
        bytes: Vec::new(),
        starts: Vec::new(),
    };
    let mut number = 0x100;
    for &k in set {
        match k {
            0 => blocks.flags |= 1 << 7,
            1 => blocks.flags |= 1 << 29,
            2 => blocks.flags |= 2 << 16,
            3 => blocks.flags |= 1 << 16,
            4 => blocks.flags |= 1 << 31,
            5 => blocks.flags |= 1 << 30,
            6 => blocks.extra |= 1,
            7 | 9 => blocks.flags |= 1 << 19,
            8 => blocks.flags |= 1 << 5,
            _ => blocks.flags |= 1 << 22,
        }
        if kind == CLASS || of_values(k) {
            let (header, bytes) = block_bytes(k, entries, &mut number);
            blocks.starts.push((k, blocks.bytes.len(), header));
            blocks.bytes.extend(bytes);
        }
    }
    blocks
}

impl Blocks {
    fn row_at(&self, address: u64) -> Full {
        row_at(
            address,
            self.flags,
            &some_body(self.flags & 31, self.extra),
            &self.bytes,
        )
    }

    /// Where the block with this number in the set ends, from the first one's start on.
    fn end(&self, number: usize) -> usize {
        match self.starts.get(number + 1) {
            Some(next) => next.1,
            None => self.bytes.len(),
        }
    }
}

/// All blocks, with prespecializations and with a singleton.
const ALL: [&[usize]; 2] = [&[0, 1, 2, 4, 5, 6, 7, 8, 10], &[0, 1, 3, 4, 5, 6, 8, 9, 10]];

/// The last blocks, from this kind on, with what they need before them.
fn blocks_from(kind: u32, k: usize) -> Vec<usize> {
    let all = ALL[usize::from([3, 9].contains(&k))];
    let needs = match k {
        6 => 1,
        9 => 3,
        _ => k,
    };
    all.iter()
        .copied()
        .filter(|&b| {
            b == needs || b >= k && (b != 6 || k <= 1 || k == 6) && (b != 9 || k <= 3 || k == 9)
        })
        .filter(|&b| kind == CLASS || of_values(b))
        .collect()
}

struct Sample {
    inputs: Vec<(String, Full)>,
}

impl Sample {
    fn add(&mut self, what: String, input: Full) {
        if !self
            .inputs
            .iter()
            .any(|(_, other)| other.line() == input.line())
        {
            self.inputs.push((what, input));
        }
    }

    /// Each kind of block by itself, and all of them.
    fn kinds(&mut self) {
        let sets: [&[usize]; 14] = [
            &[],
            &[0],
            &[1],
            &[2],
            &[3],
            &[4],
            &[5],
            &[1, 6],
            &[7],
            &[8],
            &[3, 9],
            &[10],
            ALL[0],
            ALL[1],
        ];
        for kind in [CLASS, STRUCT, ENUM] {
            for set in sets {
                let blocks = some_blocks(kind, set, 2);
                self.add(format!("kind {kind}: blocks {set:?}"), blocks.row_at(HERE));
            }
        }
        for kind in [0, 1, 2, 3, 4, 5, 15, 19, 31] {
            let mut input = some_blocks(STRUCT, &[0, 8], 1).row_at(HERE);
            input.image[BEFORE] = kind | 0xa0;
            self.add(format!("kind {kind}: no body"), input);
        }
    }

    /// The image cut within and after the header of each block, and at each block without a header.
    fn cuts(&mut self) {
        for (kind, all) in [
            (CLASS, ALL[0]),
            (CLASS, ALL[1]),
            (STRUCT, ALL[0]),
            (ENUM, ALL[1]),
        ] {
            let blocks = some_blocks(kind, all, 1);
            let first = BEFORE + fixed_length(kind);
            for &(k, start, header) in &blocks.starts {
                for cut in [
                    start,
                    start + header.max(1) - 1,
                    start + header,
                    start + 3,
                    start + 11,
                ] {
                    let once = kind != CLASS || !all.contains(&3) || [3, 9].contains(&k);
                    if once && (cut < start + header.max(4) || k == 3) {
                        let mut input = blocks.row_at(HERE);
                        input.image.truncate(first + cut);
                        self.add(
                            format!("kind {kind}: block {k} at {start} cut at {cut}"),
                            input,
                        );
                    }
                }
            }
        }
        for kind in [CLASS, STRUCT, ENUM] {
            let blocks = some_blocks(kind, &[2], 0);
            for cut in [20, fixed_length(kind) - 1, fixed_length(kind)] {
                let mut input = blocks.row_at(HERE);
                input.image.truncate(BEFORE + cut);
                self.add(format!("kind {kind}: body cut at {cut}"), input);
                let mut input = blocks.row_at(HERE);
                input.segments = vec![segment(HERE - 4, 0, BEFORE + cut)];
                self.add(format!("kind {kind}: the segment ends at {cut}"), input);
            }
        }
    }

    /// Blocks that end at 2^64, one byte before it and one byte after it.
    fn tops(&mut self) {
        for kind in [CLASS, STRUCT, ENUM] {
            for k in (0..11).filter(|&k| kind == CLASS || of_values(k)) {
                let set = blocks_from(kind, k);
                for entries in [1, 0] {
                    let blocks = some_blocks(kind, &set, entries);
                    let number = set.iter().position(|&b| b == k).unwrap_or(0);
                    let length = fixed_length(kind) + blocks.end(number);
                    for past in [-1i64, 0, 1] {
                        let address = (past as u64).wrapping_sub(length as u64);
                        if kind == ENUM && past != 0 {
                            continue;
                        }
                        if entries == 1 || (past == 0 && [4, 5, 7, 10].contains(&k)) {
                            self.add(
                                format!("kind {kind}: block {k} with {entries} entries ends at 2^64 + {past}"),
                                blocks.row_at(address),
                            );
                        }
                    }
                }
            }
            // The body's own end, and the row's.
            let blocks = some_blocks(kind, &[2, 8], 0);
            for below in [
                fixed_length(kind) as u64 + 1,
                fixed_length(kind) as u64,
                fixed_length(kind) as u64 - 1,
                21,
                20,
                13,
                12,
                9,
                8,
            ] {
                self.add(
                    format!("kind {kind}: at 2^64 - {below}"),
                    blocks.row_at(below.wrapping_neg()),
                );
                if [20, 13, 12].contains(&below) {
                    self.add(
                        format!("kind {kind}: at 2^64 - {below} with address 0 mapped"),
                        with_zero(blocks.row_at(below.wrapping_neg() & !3)),
                    );
                }
            }
        }
    }

    /// Singleton records near 2^64, with offsets that are 0.
    fn singletons(&mut self) {
        for below in [12, 9, 8, 5, 4, 2] {
            for record in [[7, 8, 9], [7, 8, 0], [7, 0, 0], [0, 0, 7]] {
                let address = (below as u64 + 28).wrapping_neg();
                self.add(
                    format!("initialization {record:?} at 2^64 - {below}"),
                    row_at(
                        address,
                        STRUCT | 1 << 16,
                        &some_body(STRUCT, 0),
                        &words(&record),
                    ),
                );
            }
        }
        // A pointer after an initialization that ends at 2^64.
        for below in [13, 12, 11] {
            for kind in [CLASS, STRUCT, ENUM] {
                let address = (below + fixed_length(kind) as u64).wrapping_neg();
                self.add(
                    format!("kind {kind}: initialization at 2^64 - {below}, and a pointer"),
                    with_zero(some_blocks(kind, &[3, 9], 0).row_at(address)),
                );
            }
        }
        for below in [5, 4, 3, 2, 1] {
            for offset in [7, 0] {
                let address = (below as u64 + 40).wrapping_neg();
                self.add(
                    format!("pointer {offset} at 2^64 - {below}"),
                    row_at(
                        address,
                        ENUM | 9 << 16,
                        &some_body(ENUM, 0),
                        &words(&[7, 8, 9, offset]),
                    ),
                );
            }
        }
    }

    /// Tables of many counts, cut, with holes and with zeros.
    fn tables(&mut self) {
        for (k, size) in [(4, 8), (5, 12), (7, 4), (10, 8)] {
            let header = if k == 4 { 8 } else { 4 };
            let first = BEFORE + fixed_length(CLASS) + header;
            for entries in [0, 1, 12, 13] {
                let blocks = some_blocks(CLASS, &[k], entries);
                self.add(format!("block {k}: {entries} entries"), blocks.row_at(HERE));
            }
            for count in [4, 5, 12, 13, 0x1000_0000, u32::MAX] {
                let mut input = some_blocks(CLASS, &[k], 3).row_at(HERE);
                input.image.truncate(first + 2 * size + size - 1);
                input.image[first - 4..first].copy_from_slice(&count.to_le_bytes());
                self.add(format!("block {k}: {count} entries, 2 there"), input);
            }
            let whole = some_blocks(CLASS, &[k], 4).row_at(HERE);
            let at = |entry: usize| first + entry * size;
            let part = |from: usize, to: usize| segment(HERE - 4 + from as u64, from, to - from);
            let end = whole.image.len();
            let mut holed = whole.clone();
            holed.segments = vec![part(0, at(1)), part(at(2), end)];
            self.add(format!("block {k}: entry 1 in no segment"), holed.clone());
            holed.segments = vec![part(0, at(1) + 1), part(at(2) + 1, end)];
            self.add(
                format!("block {k}: entry 2's first byte in no segment"),
                holed.clone(),
            );
            holed.segments = vec![part(0, at(1)), part(at(1), at(3)), part(at(3), end)];
            holed.segments[1][3] = 0;
            self.add(
                format!("block {k}: entries 1 and 2 in a segment without file bytes"),
                holed.clone(),
            );
            holed.segments[1][3] = size as u64;
            self.add(
                format!("block {k}: entry 2 past the file's part"),
                holed.clone(),
            );
            holed.segments[1] = [
                HERE - 4 + at(1) as u64,
                2 * size as u64,
                u64::MAX - 3,
                2 * size as u64,
            ];
            self.add(
                format!("block {k}: entry 1 past the image, entry 2's offset past 2^64"),
                holed,
            );
            let mut zeros = whole;
            zeros.image[first..].fill(0);
            self.add(format!("block {k}: zeros"), zeros);
        }
    }

    fn bodies(&mut self) {
        // The image is the name, the descriptor, the body, and texts after it; the superclass's offset is from byte 24 on.
        let texts = b"S\xc3\xa9\0\xc3(\0\0zz";
        let to = |offset: i32| (offset - 24) as u32;
        let behind = 4 + 44;
        for resilient in [0, 1 << 29] {
            for (what, rel) in [
                ("none", 0),
                ("the type's name", to(0)),
                ("a text behind", to(behind)),
                ("in the middle of a character", to(behind + 2)),
                ("ill-formed", to(behind + 4)),
                ("empty", to(behind + 6)),
                ("without a NUL", to(behind + 8)),
                ("past the image", to(behind + 10)),
                ("below the segment", to(-1)),
                ("at address 0", to(-(HERE as i32 - 4))),
            ] {
                if resilient != 0 && rel != to(behind) {
                    continue;
                }
                let body = words(&[rel, 5, 6, 7, 8, 9]);
                self.add(
                    format!("superclass {what}, resilient {resilient}"),
                    row_at(HERE, CLASS | resilient, &body, texts),
                );
            }
            for extra in 0..4 {
                let body = words(&[0, 0, extra, 0, 0, 0]);
                self.add(
                    format!("extra flags {extra}, resilient {resilient}"),
                    row_at(
                        HERE,
                        CLASS | resilient | 1 << 5,
                        &body,
                        &words(&[0x10, 0x20, 0x30]),
                    ),
                );
            }
            for bounds in [0, u32::MAX, 0x8000_0000] {
                let body = words(&[0, bounds, 0xffff_fffe, u32::MAX, 0x8000_0000, 1]);
                self.add(
                    format!("bounds {bounds:x}, resilient {resilient}"),
                    row_at(HERE, CLASS | resilient, &body, &[0; 4]),
                );
            }
        }
        for word in [0, 1, 0x00ff_ffff, 0x0100_0000, 0xff00_0000, u32::MAX] {
            for kind in [STRUCT, ENUM] {
                self.add(
                    format!("kind {kind}: words {word:x}"),
                    row_at(HERE, kind, &words(&[word, !word]), &[]),
                );
            }
        }
    }

    /// The initialization bits with bit 3, generic headers, invertible sets.
    fn flags(&mut self) {
        for kind in [CLASS, STRUCT, ENUM] {
            for bits in 0..16 {
                let tail = words(&[1, 2, 3, 4, 5]);
                let flags = kind | bits << 16;
                if bits & 4 == 0 || bits == 13 {
                    self.add(
                        format!("kind {kind}: type flags {bits}"),
                        row_at(HERE, flags, &some_body(kind, 0), &tail),
                    );
                }
            }
        }
        for parameters in 0..6u32 {
            for requirements in [0, 2] {
                let header = [0, 0, requirements << 16 | parameters, 0];
                let rest = vec![0; (4 * parameters.div_ceil(4) + 12 * requirements) as usize];
                let kind = [CLASS, STRUCT, ENUM][(parameters + requirements) as usize % 3];
                self.add(
                    format!("kind {kind}: {parameters} parameters, {requirements} requirements"),
                    row_at(
                        HERE,
                        kind | 1 << 7 | 1 << 5,
                        &some_body(kind, 0),
                        &[words(&header), rest, vec![1, 2, 3, 4]].concat(),
                    ),
                );
            }
        }
        // The same up to 2^64: the parameters end below it, and the bytes after them pass it.
        for parameters in [0u32, 1, 3, 4] {
            for past in [-1i64, 0, 1, 2] {
                let length = 28 + 16 + 4 * u64::from(parameters).div_ceil(4);
                let tail = [words(&[0, 0, parameters, 0]), vec![0; 8]].concat();
                let address = (past as u64).wrapping_sub(length);
                self.add(
                    format!("{parameters} parameters that end at 2^64 + {past}"),
                    row_at(
                        address,
                        STRUCT | 1 << 7 | 2 << 16,
                        &some_body(STRUCT, 0),
                        &tail,
                    ),
                );
            }
        }
        for both in [0xffff, 0xffff_0000, 0xffff_ffff, 0xfffd] {
            self.add(
                format!("requirements and parameters {both:x}"),
                row_at(
                    HERE,
                    STRUCT | 1 << 7 | 2 << 16 | 1 << 5,
                    &some_body(STRUCT, 0),
                    &words(&[9, 9, both, 9]),
                ),
            );
        }
        for bits in [0, 1, 2, 3, 0x8001, 0xffff] {
            self.add(
                format!("invertible set {bits:x}"),
                row_at(
                    HERE,
                    ENUM | 1 << 5 | 9 << 16,
                    &some_body(ENUM, 0),
                    &words(&[1, 2, 3, 0xabcd_0000 | bits, 5]),
                ),
            );
        }
    }

    /// The offsets of a struct's fields: the singleton's pointer refers to `metadata`, from the pointer's place on.
    fn offsets(&mut self) {
        let vector = words(&[0x10, 0x14, 0x18, 0x1c, 0x20, 0, u32::MAX]);
        for (fields, word, metadata) in [
            (2, 1, 4),
            (7, 1, -4),
            (5, 1, 4),
            (6, 1, 4),
            (0, 1, 4),
            (2, 0, 4),
            (2, 2, 4),
            (1, 4, -4),
            (2, 4, -4),
            (2, 1, 0),
            (1, u32::MAX, 4),
            (u32::MAX, 1, -4),
            (1, 1, 0x1000),
            (2, 1, -0x102c),
            (1, 5, -0x1028),
        ] {
            let tail = [words(&[1, 2, 3, metadata as u32]), vector.clone()].concat();
            for kind in [STRUCT, ENUM] {
                if kind == STRUCT || fields == 2 && word == 1 && metadata == 4 {
                    self.add(
                        format!(
                            "kind {kind}: {fields} offsets, word {word}, metadata at {metadata}"
                        ),
                        row_at(HERE, kind | 9 << 16, &words(&[fields, word]), &tail),
                    );
                }
            }
        }
        let long = words(&(0..14).collect::<Vec<u32>>());
        let tail = [words(&[1, 2, 3, (-4i32) as u32]), long].concat();
        for fields in [12, 13, 14, 15] {
            self.add(
                format!("{fields} offsets"),
                row_at(HERE, STRUCT | 9 << 16, &words(&[fields, 1]), &tail),
            );
        }
        // Words past 2^64.
        for word in [1, 2, 3, 4, 5, 6, u32::MAX] {
            let tail = words(&[1, 2, 3, 4, 5, 6, 7, 8, 9, 10]);
            self.add(
                format!("offsets near 2^64, word {word}"),
                with_zero(row_at(
                    76u64.wrapping_neg(),
                    STRUCT | 9 << 16,
                    &words(&[1, word]),
                    &tail,
                )),
            );
        }
    }

    /// Several rows, slots without one, and bytes after the last slot.
    fn slots(&mut self) {
        let mut input = some_blocks(CLASS, &[4, 8], 1).row_at(HERE);
        let second = input.image.len();
        let other = some_blocks(STRUCT, &[3, 9], 1).row_at(HERE + second as u64);
        input.image.extend(other.image);
        let end = input.image.len();
        input.segments = vec![segment(HERE - 4, 0, end)];
        input.types_va = HERE - 0x100;
        input.types = words(&[0x100, 0, 0xf8 + second as u32, 3, 0xf0]);
        input.types.push(1);
        self.add("several rows".to_owned(), input);
    }

    /// Inputs that may be anything.
    fn random(&mut self) {
        let mut rng = Rng(0x9e37_79b9_7f4a_7c15);
        for number in 0..16 {
            let kind = rng.of(&[CLASS, CLASS, STRUCT, ENUM]);
            let flags = kind | (rng.next() as u32 & 0xa0) | (rng.next() as u32 & 0xe04b_0000);
            let length = 8 + rng.below(20);
            let tail: Vec<u32> = (0..length)
                .map(|_| match rng.below(8) {
                    0 => rng.next() as u32,
                    1 => u32::MAX,
                    2 => rng.of(&[0x0001_0001, 0x0002_0005, 0x8000_0000]),
                    n => rng.below(n) as u32,
                })
                .collect();
            let below = rng.below(160) + 20;
            let address = rng.of(&[HERE, HERE, below.wrapping_neg()]);
            let body = some_body(kind, rng.of(&[0, 1, 2, 3]));
            self.add(
                format!("random {number}"),
                row_at(address, flags, &body, &words(&tail)),
            );
        }
    }
}

/// A field descriptor's header.
fn header(names: [u32; 2], kind: u16, size: u16, count: u32) -> Vec<u8> {
    let mut bytes = words(&names);
    bytes.extend(kind.to_le_bytes());
    bytes.extend(size.to_le_bytes());
    bytes.extend(count.to_le_bytes());
    bytes
}

/// An image that has texts and then the fields section, which is at an address.
fn fields_at(address: u64, fields: &[u8], behind: &[u8]) -> Full {
    let mut image = TEXTS.to_vec();
    image.extend(fields);
    image.extend(behind);
    Full {
        segments: vec![segment(
            address.wrapping_sub(TEXTS.len() as u64),
            0,
            image.len(),
        )],
        image,
        fields_va: address,
        fields: fields.to_vec(),
        strings_va: address.wrapping_add(0x400),
        strings: STRINGS.to_vec(),
        ..Full::default()
    }
}

const TEXTS: &[u8; 16] = b"Si\0\xe2\x82\xac\0\xed\xa0\x80\0\0nam\0";
const STRINGS: &[u8; 12] = b"\0x\0yz\0\xff\0\xc3\xa9\0q";

/// The offset from a place of the section to a place of the texts.
fn text(from: usize, text: usize) -> u32 {
    (text as i32 - (TEXTS.len() + from) as i32) as u32
}

/// The offset from a place of the section to a place of the strings.
fn string(from: usize, string: i32) -> u32 {
    (0x400 + string - from as i32) as u32
}

impl Sample {
    /// Record sizes and counts, and sections that are a few bytes longer and shorter.
    fn sizes(&mut self) {
        for (size, counts) in [
            (0, &[0, 1, 3, 12, 13, u32::MAX][..]),
            (1, &[0, 1, 2, 13]),
            (11, &[1, 2]),
            (12, &[0, 1, 2, 12, 13]),
            (13, &[1, 2]),
            (65535, &[0]),
        ] {
            for &count in counts {
                let records = size as usize * count as usize;
                let mut fields = header([text(0, 0), 0], 0, size, count);
                fields.extend((0..records).map(|n| if n % 4 < 2 { n as u8 } else { 0 }));
                self.add(
                    format!("{count} records of {size}"),
                    fields_at(HERE, &fields, &[0; 16]),
                );
                if records != 0 && count < 12 {
                    for more in [-1i32, 1, 15, 16, 17] {
                        if more > 1 && (size, count) != (12, 2) {
                            continue;
                        }
                        let mut fields = fields.clone();
                        fields.resize((fields.len() as i32 + more) as usize, 0);
                        self.add(
                            format!("{count} records of {size}, {more} bytes more"),
                            fields_at(HERE, &fields, &[0; 16]),
                        );
                    }
                }
            }
        }
        for (size, count) in [
            (65535, 1),
            (65535, u32::MAX),
            (1, u32::MAX),
            (1, 1),
            (12, 0x1555_5556),
        ] {
            let fields = [header([0, 0], 1, 12, 0), header([0, 0], 0, size, count)].concat();
            self.add(
                format!("{count} records of {size} overrun"),
                fields_at(HERE, &fields, &[]),
            );
        }
        for length in [0, 1, 15, 16, 31, 32] {
            self.add(
                format!("a section of {length} bytes"),
                fields_at(HERE, &vec![0; length], &[]),
            );
        }
    }

    fn field_kinds(&mut self) {
        let kinds: Vec<u8> = [0u16, 1, 2, 3, 4, 5, 6, 7, 8, 255, 256, 65535]
            .iter()
            .flat_map(|&kind| header([0, 0], kind, 12, 0))
            .collect();
        self.add("all kinds".to_owned(), fields_at(HERE, &kinds, &[]));
    }

    /// Sections around 2^64, with something after the header.
    fn field_tops(&mut self) {
        for below in [
            41, 40, 39, 32, 29, 28, 25, 24, 21, 18, 17, 16, 15, 12, 6, 5, 4, 3, 2, 1,
        ] {
            for size in [12, 13] {
                let record = |k: usize| words(&[k as u32, text(20 + k, 0), text(24 + k, 12)]);
                let mut fields = header([text(0, 3), text(4, 0)], 1, size, 2);
                fields.extend([record(0), record(12), vec![0; 2 * (size as usize - 12)]].concat());
                fields.extend(header([0, 0], 2, 12, 0));
                let address = (below as u64).wrapping_neg();
                if size == 12 || [41, 40, 28].contains(&below) {
                    self.add(
                        format!("records of {size} at 2^64 - {below}"),
                        fields_at(address, &fields, &[0; 8]),
                    );
                }
            }
        }
        // If address + 16 overflows, the records start at address 0: here the image has something there too.
        for below in [17, 16, 15, 5, 4] {
            let mut fields = header([0, text(4, 0)], 1, 12, 1);
            fields.extend(words(&[1, 2, 3]));
            let input = fields_at((below as u64).wrapping_neg(), &fields, &[0; 8]);
            self.add(
                format!("records at 2^64 - {below} with address 0 mapped"),
                with_zero(input),
            );
        }
        for below in [29, 28, 27] {
            let mut fields = header([0, 0], 1, 12, 2);
            fields.extend(words(&[1, 2, 3, 4, 5, 6]));
            let input = fields_at((below as u64).wrapping_neg(), &fields, &[]);
            self.add(
                format!("two records at 2^64 - {below} with address 0 mapped"),
                with_zero(input),
            );
        }
        // Far records.
        for size in [30, 60] {
            let mut fields = header([0, 0], 0, size, 3);
            fields.extend(vec![1; 3 * size as usize]);
            let input = fields_at(90u64.wrapping_neg(), &fields, &[]);
            self.add(format!("records of {size} that pass 2^64"), input);
        }
    }

    fn names(&mut self) {
        // A record at 16: its type name's offset is at 20, its field name's at 24.
        let types = [
            0,
            text(20, 0),
            text(20, 2),
            text(20, 3),
            text(20, 4),
            text(20, 7),
            text(20, 11),
            text(20, 12),
            text(20, -1i32 as usize),
            string(20, 1),
            (-(HERE as i32 + 20)) as u32,
        ];
        let names = [
            0,
            text(24, 0),
            text(24, 2),
            text(24, 3),
            text(24, 7),
            text(24, 12),
            string(24, -1),
            string(24, 0),
            string(24, 1),
            string(24, 3),
            string(24, 4),
            string(24, 6),
            string(24, 8),
            string(24, 9),
            string(24, 11),
            string(24, 12),
            string(24, 13),
            (-(HERE as i32 + 24)) as u32,
        ];
        for (number, &name) in names.iter().enumerate() {
            let ty = types[number % types.len()];
            let mut fields = header([0, 0], 0, 12, 1);
            fields.extend(words(&[number as u32, ty, name]));
            self.add(
                format!("a record with the offsets {:x} and {:x}", ty, name),
                fields_at(HERE, &fields, &[]),
            );
        }
        // The same for the descriptor's names: their offsets are at 0 and 4.
        for target in [0, 2, 3, 4, 7, 11, 12, -1i32 as usize] {
            for from in [0, 4] {
                let mut names = [0, 0];
                names[from / 4] = text(from, target);
                let fields = header(names, 1, 12, 0);
                self.add(
                    format!("a descriptor's name {from} at {target:x}"),
                    fields_at(HERE, &fields, &[]),
                );
            }
        }
        // Strings that lie over the image: an ill-formed name of the image is looked up there.
        for target in [0, 3, 7, 11] {
            let mut fields = header([0, 0], 0, 12, 1);
            fields.extend(words(&[2, 0, text(24, target)]));
            let mut input = fields_at(HERE, &fields, &[]);
            input.strings_va = HERE - 16 + 7;
            self.add(
                format!("strings over the image, name at {target}"),
                input.clone(),
            );
            input.strings.clear();
            self.add(format!("no strings, name at {target}"), input);
        }
        let mut fields = header([0, 0], 0, 12, 1);
        fields.extend(words(&[2, 0, string(24, 3)]));
        let mut input = fields_at(HERE, &fields, &[]);
        input.strings_va = u64::MAX;
        self.add("strings at the last address".to_owned(), input);
    }

    /// Records in holes, and past the image.
    fn field_holes(&mut self) {
        let mut fields = header([text(0, 0), 0], 0, 12, 4);
        for k in 0..4 {
            let at = 16 + 12 * k;
            fields.extend(words(&[k as u32, text(at + 4, 3), string(at + 8, 3)]));
        }
        let input = fields_at(HERE, &fields, &[]);
        let first = TEXTS.len() + 16;
        let end = input.image.len();
        let part = |from: usize, to: usize| segment(HERE - 16 + from as u64, from, to - from);
        for (from, to) in [(0, 1), (1, 2), (1, 3), (3, 4), (0, 4)] {
            let mut holed = input.clone();
            holed.segments = vec![part(0, first + 12 * from), part(first + 12 * to, end)];
            self.add(format!("records {from} up to {to} in no segment"), holed);
        }
        for cut in [1, 12, 13, 36] {
            let mut short = input.clone();
            short.image.truncate(end - cut);
            self.add(format!("records with {cut} bytes less"), short);
        }
        let mut none = input.clone();
        none.segments.clear();
        self.add("records without segments".to_owned(), none);
    }
}

impl Sample {
    /// A segment that ends around 2^64 in every place of a list: the list is refused if the segment reaches 2^64, whether or not it has
    /// bytes in the file, and also behind the one that has the row and the records.
    fn refusals(&mut self) {
        let row = row_at(HERE, STRUCT | 9 << 16, &[2, 0, 0, 0, 1, 0, 0, 0], &[0; 4]);
        let mut fields = header([text(0, 0), 0], 0, 12, 1);
        fields.extend(words(&[1, text(20, 3), string(24, 3)]));
        let records = fields_at(HERE, &fields, &[]);
        for (what, segment) in [
            ("ends at 2^64 - 1", [17u64.wrapping_neg(), 16, 0, 16]),
            ("ends at 2^64", [16u64.wrapping_neg(), 16, 0, 16]),
            (
                "without file bytes ends at 2^64",
                [16u64.wrapping_neg(), 16, 0, 0],
            ),
            ("ends past 2^64", [HERE, u64::MAX, 0, 16]),
        ] {
            for (of, input) in [("row", &row), ("records", &records)] {
                for place in 0..3 {
                    let mut input = with_zero(input.clone());
                    input.segments.insert(place, segment);
                    self.add(format!("{of}: segment {place} {what}"), input);
                }
            }
        }
    }
}

pub fn run(out: &str, split: Option<&str>) {
    let mut sample = Sample { inputs: Vec::new() };
    sample.kinds();
    sample.cuts();
    sample.tops();
    sample.singletons();
    sample.tables();
    sample.bodies();
    sample.flags();
    sample.offsets();
    sample.slots();
    sample.random();
    sample.sizes();
    sample.field_kinds();
    sample.field_tops();
    sample.names();
    sample.field_holes();
    sample.refusals();
    let (mut all, mut stdin, mut stdout) = (HEAD.to_owned(), String::new(), String::new());
    for (what, input) in &sample.inputs {
        let mut lines = String::new();
        answers(input, &mut lines);
        let _ = write!(all, "# {what}\n{}\n{lines}", input.line());
        let _ = writeln!(stdin, "{}", input.line());
        stdout.push_str(&lines);
    }
    let sizes = (stdin.len(), stdout.len());
    let mut files = vec![(out.to_owned(), all)];
    if let Some(dir) = split {
        files.push((format!("{dir}/stdin"), stdin));
        files.push((format!("{dir}/stdout"), stdout));
    }
    for (path, bytes) in files {
        if let Err(e) = std::fs::write(&path, bytes) {
            eprintln!("compare: {path}: {e}");
            std::process::exit(1);
        }
    }
    println!(
        "{} inputs of {} bytes, {} bytes of answers",
        sample.inputs.len(),
        sizes.0,
        sizes.1
    );
}
