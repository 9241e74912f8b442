//! The full level compared: bodies, trailing blocks, entries, singleton records; for every row, and for made-up descriptors, walks and
//! tables.

use crate::check::{Checker, NUMBER, NUMBER_GUARD, place_in, same};
use crate::input::Input;
use crate::proved::Answer;
use crate::proved_full as proved;
use crate::proved_full::Image;
use crate::proved_tables;
use darwinscope::swift::{
    ClassBody, ContextDescriptorFlags, DefaultOverrideEntryIter, EnumBody, OverrideEntryIter,
    PrespecializationIter, StructBody, SwiftRuntime, TypeDescriptor, TypeKindBody, VTableIter,
    decode_class_trailers, decode_value_type_trailers,
};
use darwinscope::util::{read_i32_le_at, read_u16_le_at, relative_pointer, vm_to_file_offset_in};

/// How many single steps are compared from a table's start, and how many entries of a list in one call.
pub const STEPS: u32 = 40;
pub const LISTED: usize = 40;

/// A block's kind and its three numbers.
pub type Block = [u64; 4];

const KINDS: u32 = 11;

/// The type flags and context flags that decide which blocks there are.
const GENERIC: u32 = 1 << 7;
const INVERTIBLE: u32 = 1 << 5;
const INITIALIZATION: u32 = 3 << 16;
const SINGLETON: u32 = 1 << 16;
const FOREIGN: u32 = 2 << 16;
const BIT_3: u32 = 1 << 19;
const RESILIENT: u32 = 1 << 29;
const OVERRIDES: u32 = 1 << 30;
const VTABLE: u32 = 1 << 31;

/// The file offset of an address.
pub fn offset_of(input: &Input, va: u64) -> Option<u64> {
    vm_to_file_offset_in(input.segments.iter().map(|s| (s[0], s[1], s[2], s[3])), va)
}

/// The address that the relative pointer at a byte of the image refers to, whose own address is `slot`: 0 for offset 0.
pub fn pointer_at(image: &[u8], off: u64, slot: u64) -> u64 {
    match read_i32_le_at(image, off as usize) {
        None | Some(0) => 0,
        Some(rel) => relative_pointer(slot, rel),
    }
}

/// The numbers of a body.
pub fn body_numbers(input: &Input, row: &TypeDescriptor<'_, '_>) -> [u64; 8] {
    match row.body() {
        TypeKindBody::Class(c) => {
            let slot = row.address().wrapping_add(20);
            let superclass =
                offset_of(input, slot).map_or(0, |o| pointer_at(&input.image, o, slot));
            let words = c.metadata_negative_size_words.map(u64::from);
            let first = c.resilient_metadata_bounds_va.or(words);
            let second = c.extra_class_flags.or(c.metadata_positive_size_words);
            [
                1,
                superclass,
                c.extra_class_flags.is_some().into(),
                first.unwrap_or(u64::MAX),
                second.map_or(u64::MAX, u64::from),
                c.num_immediate_members.into(),
                c.num_fields.into(),
                c.field_offset_vector_offset.into(),
            ]
        }
        TypeKindBody::Struct(s) => [
            2,
            s.num_fields.into(),
            s.field_offset_vector_offset.into(),
            0,
            0,
            0,
            0,
            0,
        ],
        TypeKindBody::Enum(e) => [
            3,
            e.num_payload_cases.into(),
            e.payload_size_offset.into(),
            e.num_empty_cases.into(),
            0,
            0,
            0,
            0,
        ],
        TypeKindBody::NonType => [0; 8],
    }
}

fn one(list: &mut Vec<Block>, kind: u64, address: Option<u64>) {
    list.extend(address.map(|va| [kind, va, 0, 0]));
}

fn counted(list: &mut Vec<Block>, kind: u64, count: Option<u32>, base: Option<u64>) {
    list.extend(count.zip(base).map(|(n, va)| [kind, n.into(), va, 0]));
}

fn set(list: &mut Vec<Block>, bits: Option<u16>) {
    list.extend(bits.map(|b| [8, b.into(), b.count_ones().into(), 0]));
}

fn class_blocks(c: &ClassBody<'_>, list: &mut Vec<Block>) {
    one(list, 0, c.generic_header_va);
    one(list, 1, c.resilient_superclass_va);
    one(list, 2, c.foreign_metadata_init_va);
    one(list, 3, c.singleton_metadata_init_va);
    list.extend(c.vtable_header.map(|h| {
        [
            4,
            h.vtable_offset.into(),
            h.vtable_size.into(),
            h.entries_va,
        ]
    }));
    let h = c.override_table_header;
    counted(list, 5, h.map(|h| h.num_entries), h.map(|h| h.entries_va));
    one(list, 6, c.objc_resilient_class_stub_va);
    counted(
        list,
        7,
        c.prespecializations_count,
        c.prespecializations_base_va,
    );
    set(list, c.invertible_protocol_set);
    one(list, 9, c.singleton_metadata_pointer_va);
    let h = c.default_override_table_header;
    counted(list, 10, h.map(|h| h.num_entries), h.map(|h| h.entries_va));
}

/// Structs and enums have blocks of the same kinds.
macro_rules! value_blocks {
    ($v:expr, $list:expr) => {{
        one($list, 0, $v.generic_header_va);
        one($list, 2, $v.foreign_metadata_init_va);
        one($list, 3, $v.singleton_metadata_init_va);
        counted(
            $list,
            7,
            $v.prespecializations_count,
            $v.prespecializations_base_va,
        );
        set($list, $v.invertible_protocol_set);
        one($list, 9, $v.singleton_metadata_pointer_va);
    }};
}

pub fn body_blocks(body: &TypeKindBody<'_>, list: &mut Vec<Block>) {
    list.clear();
    match body {
        TypeKindBody::Class(c) => class_blocks(c, list),
        TypeKindBody::Struct(s) => value_blocks!(s, list),
        TypeKindBody::Enum(e) => value_blocks!(e, list),
        TypeKindBody::NonType => {}
    }
}

/// Where the walk stands after a block that lies at `at`: the next row and address, or past the table if the block's end reaches 2^64.
pub fn after(input: &Input, block: &Block, at: u64) -> [u64; 2] {
    let size = match block {
        [0, ..] => {
            let number = |more: u64| {
                let off = offset_of(input, at)? + more;
                read_u16_le_at(&input.image, off as usize).map(u64::from)
            };
            let (parameters, requirements) = (number(8).unwrap_or(0), number(10).unwrap_or(0));
            16 + parameters.next_multiple_of(4) + 12 * requirements
        }
        [3, ..] => 12,
        [4, _, n, _] => 8 + 8 * n,
        [5, n, ..] => 4 + 12 * n,
        [7 | 10, n, ..] => 4 + 8 * n,
        _ => 4,
    };
    at.checked_add(size)
        .map_or([u64::from(KINDS), 0], |end| [block[0] + 1, end])
}

const NO_CLASS: ClassBody<'static> = ClassBody {
    superclass_mangled_name: None,
    metadata_negative_size_words: None,
    resilient_metadata_bounds_va: None,
    metadata_positive_size_words: None,
    extra_class_flags: None,
    num_immediate_members: 0,
    num_fields: 0,
    field_offset_vector_offset: 0,
    generic_header_va: None,
    resilient_superclass_va: None,
    foreign_metadata_init_va: None,
    singleton_metadata_init_va: None,
    vtable_header: None,
    override_table_header: None,
    objc_resilient_class_stub_va: None,
    prespecializations_count: None,
    prespecializations_base_va: None,
    invertible_protocol_set: None,
    singleton_metadata_pointer_va: None,
    default_override_table_header: None,
};

const NO_ENUM: EnumBody = EnumBody {
    num_payload_cases: 0,
    payload_size_offset: 0,
    num_empty_cases: 0,
    generic_header_va: None,
    foreign_metadata_init_va: None,
    singleton_metadata_init_va: None,
    prespecializations_count: None,
    prespecializations_base_va: None,
    invertible_protocol_set: None,
    singleton_metadata_pointer_va: None,
};

const NO_STRUCT: StructBody = StructBody {
    num_fields: 0,
    field_offset_vector_offset: 0,
    generic_header_va: None,
    foreign_metadata_init_va: None,
    singleton_metadata_init_va: None,
    prespecializations_count: None,
    prespecializations_base_va: None,
    invertible_protocol_set: None,
    singleton_metadata_pointer_va: None,
};

/// The blocks that the Rust's walk from an address on gives.
fn trailers(
    rt: &SwiftRuntime<'_>,
    flags: u32,
    class: bool,
    extra: Option<u32>,
    address: u64,
    list: &mut Vec<Block>,
) {
    list.clear();
    let flags = ContextDescriptorFlags(flags);
    if class {
        let mut body = NO_CLASS;
        body.extra_class_flags = extra;
        decode_class_trailers(rt, &flags, address, &mut body);
        class_blocks(&body, list);
        return;
    }
    let mut body = NO_ENUM;
    decode_value_type_trailers(
        rt,
        &flags,
        address,
        |va| body.generic_header_va = Some(va),
        |va| body.foreign_metadata_init_va = Some(va),
        |va| body.singleton_metadata_init_va = Some(va),
        |count, base| {
            body.prespecializations_count = Some(count);
            body.prespecializations_base_va = Some(base);
        },
        |bits| body.invertible_protocol_set = Some(bits),
        |va| body.singleton_metadata_pointer_va = Some(va),
    );
    value_blocks!(body, list);
}

/// The same for a walk that stands at a row: the Rust's for flags without the rows before. False for the one walk that the Rust cannot
/// make: if the singleton pointer is still to come, the initialization's bits must stay, so its 12 bytes are put before the address.
fn trailers_from(rt: &SwiftRuntime<'_>, walk: &Walk, list: &mut Vec<Block>) -> bool {
    let Walk {
        mut flags,
        class,
        extra,
        row,
        mut address,
    } = *walk;
    list.clear();
    if row >= KINDS {
        return true;
    }
    let mut extra = (flags & RESILIENT != 0).then_some(extra);
    let initialization = flags & INITIALIZATION;
    let mut first = false;
    if row > 0 {
        flags &= !GENERIC;
    }
    if row > 1 {
        flags &= !RESILIENT;
    }
    if row > 2 && initialization == FOREIGN {
        flags |= INITIALIZATION;
    }
    if row > 3 && initialization == SINGLETON {
        if flags & BIT_3 != 0 && row < 10 {
            let Some(before) = address.checked_sub(12) else {
                return false;
            };
            address = before;
            first = true;
        } else {
            flags &= !(INITIALIZATION | BIT_3);
        }
    }
    if row > 4 {
        flags &= !VTABLE;
    }
    if row > 5 {
        flags &= !OVERRIDES;
    }
    if row > 6 {
        extra = None;
    }
    if row > 7 && initialization != SINGLETON {
        flags &= !BIT_3;
    }
    if row > 8 {
        flags &= !INVERTIBLE;
    }
    trailers(rt, flags, class != 0, extra, address, list);
    if first {
        list.remove(0);
    }
    true
}

/// A walk over blocks, as a caller holds it.
#[derive(Clone, Copy)]
pub struct Walk {
    pub flags: u32,
    pub class: u32,
    pub extra: u32,
    pub row: u32,
    pub address: u64,
}

/// What a list in one call gives for a buffer of a number of numbers, `width` to an entry: how many of the entries that can be read, of
/// which `readable` are known, and why no more: 0 at the table's end, else 1 without room for one more, else 2 at an unreadable entry.
pub fn listed(size: usize, width: usize, readable: usize, at_end: bool) -> [u64; 2] {
    let given = readable.min(size / width);
    let why = if given == readable && at_end {
        0
    } else if given == size / width {
        1
    } else {
        2
    };
    [given as u64, why]
}

/// The sizes of buffers around a list's length.
pub fn sizes(whole: usize, width: usize) -> impl Iterator<Item = usize> {
    let near = [0, 1, width - 1, width, width + 1];
    let around = (whole.saturating_sub(1)..=whole + width + 1).filter(move |&n| n > width + 1);
    near.into_iter().chain(around)
}

/// The fields of a made-up table: where it starts and how many entries it claims to have.
#[derive(Clone, Copy)]
pub struct Table {
    pub base: u64,
    pub count: u32,
}

impl Checker {
    /// Everything that follows from a descriptor.
    pub fn descriptor(
        &mut self,
        input: &Input,
        row: &TypeDescriptor<'_, '_>,
    ) -> Result<(), String> {
        let image = Image::of(input);
        let (address, flags) = (row.address(), row.flags().0);
        self.counts.bodies += 1;
        same!(
            body_numbers(input, row),
            proved::body(image, address, flags)?,
            "body at {address:x}, flags {flags:x}"
        );
        if let TypeKindBody::Class(c) = row.body() {
            let ours = proved::body(image, address, flags)?;
            same!(
                text_numbers(input, c.superclass_mangled_name),
                proved::text_at(image, ours[1])?,
                "superclass name of {address:x}, flags {flags:x}"
            );
            same!(
                [
                    c.resilient_metadata_bounds_va.is_some(),
                    c.metadata_negative_size_words.is_none(),
                    c.metadata_positive_size_words.is_none()
                ],
                [ours[2] == 1; 3],
                "resilient superclass of {address:x}, flags {flags:x}"
            );
        }
        self.blocks(input, row)?;
        self.entries(input, row)?;
        self.singletons(input, row)
    }

    fn blocks(&mut self, input: &Input, row: &TypeDescriptor<'_, '_>) -> Result<(), String> {
        let image = Image::of(input);
        let (address, flags) = (row.address(), row.flags().0);
        let mut list = std::mem::take(&mut self.blocks);
        body_blocks(row.body(), &mut list);
        let first = match row.body() {
            TypeKindBody::Class(c) => [
                1,
                1,
                c.extra_class_flags.unwrap_or(0).into(),
                address.wrapping_add(44),
            ],
            TypeKindBody::NonType => [0; 4],
            _ => [1, 0, 0, address.wrapping_add(28)],
        };
        same!(
            first,
            proved::first_block(image, address, flags)?,
            "first block of {address:x}, flags {flags:x}"
        );
        if first[0] == 1 {
            let walk = Walk {
                flags,
                class: first[1] as u32,
                extra: first[2] as u32,
                row: 0,
                address: first[3],
            };
            self.walk(input, walk, &list)?;
        }
        for kind in (0..=KINDS).chain([255, u32::MAX]) {
            let rust = list.iter().find(|b| b[0] == u64::from(kind));
            let rust = rust.map_or([0; 5], |&[kind, a, b, c]| [1, kind, a, b, c]);
            same!(
                rust,
                proved::block_of_kind(image, address, flags, kind)?,
                "block of kind {kind} of {address:x}, flags {flags:x}"
            );
        }
        self.counts.blocks += list.len() as u64;
        self.blocks = list;
        Ok(())
    }

    /// The blocks of a walk one after the other, where it then stands, and its end.
    fn walk(&mut self, input: &Input, mut walk: Walk, blocks: &[Block]) -> Result<(), String> {
        let image = Image::of(input);
        let step =
            |w: &Walk| proved::next_block(image, w.flags, w.class, w.extra, w.row, w.address);
        for block in blocks {
            let &[kind, a, b, c] = block;
            // Rows without a block are passed over: the block lies where the walk stands.
            let [row, address] = after(input, block, walk.address);
            same!(
                [1, kind, a, b, c, row, address],
                step(&walk)?,
                "block from row {} at {:x}, flags {:x}, extra {:x}",
                walk.row,
                walk.address,
                walk.flags,
                walk.extra
            );
            (walk.row, walk.address) = (row as u32, address);
        }
        same!(
            [0; 7],
            step(&walk)?,
            "the walk's end at row {}, {:x}, flags {:x}, extra {:x}",
            walk.row,
            walk.address,
            walk.flags,
            walk.extra
        );
        Ok(())
    }

    /// A walk that starts at any row and address.
    pub fn made_up_walk(
        &mut self,
        input: &Input,
        rt: &SwiftRuntime<'_>,
        walk: Walk,
    ) -> Result<(), String> {
        let mut list = std::mem::take(&mut self.blocks);
        if trailers_from(rt, &walk, &mut list) {
            self.walk(input, walk, &list)?;
            self.counts.walks += 1;
        }
        self.blocks = list;
        Ok(())
    }

    fn entries(&mut self, input: &Input, row: &TypeDescriptor<'_, '_>) -> Result<(), String> {
        let image = Image::of(input);
        if let TypeKindBody::Class(c) = row.body() {
            if let Some(h) = c.vtable_header {
                let mut steps = row.vtable().ok_or("no vtable")?;
                let table = Table {
                    base: h.entries_va,
                    count: h.vtable_size,
                };
                self.steps(
                    "method",
                    table.count,
                    || {
                        steps
                            .next()
                            .map(|e| [1, 0, e.address, e.flags.0.into(), e.impl_va])
                    },
                    |next| proved::next_method(image, table.base, table.count, next),
                )?;
            }
            if let Some(h) = c.override_table_header {
                let mut steps = row.override_table().ok_or("no override table")?;
                self.steps(
                    "override",
                    h.num_entries,
                    || {
                        steps
                            .next()
                            .map(|e| [1, 0, e.address, e.class_va, e.method_va, e.impl_va])
                    },
                    |next| proved::next_override(image, h.entries_va, h.num_entries, next),
                )?;
            }
            if let Some(h) = c.default_override_table_header {
                let mut steps = row.default_override_table().ok_or("no default overrides")?;
                self.steps(
                    "default override",
                    h.num_entries,
                    || {
                        steps
                            .next()
                            .map(|e| [1, 0, e.address, e.method_va, e.impl_va])
                    },
                    |next| proved::next_default_override(image, h.entries_va, h.num_entries, next),
                )?;
            }
        }
        if let Some(mut steps) = row.prespecializations() {
            let block = self.blocks.iter().find(|b| b[0] == 7);
            let &[_, count, base, _] = block.ok_or("no prespecializations")?;
            let mut number = 0;
            self.steps(
                "prespecialization",
                count as u32,
                || {
                    number += 1;
                    let address = base.wrapping_add(4 * (number - 1));
                    steps.next().map(|metadata| [1, 0, address, metadata])
                },
                |next| proved::next_prespecialization(image, base, count as u32, next),
            )?;
        }
        for i in 0..self.blocks.len() {
            let table = match self.blocks[i] {
                [4, _, count, base] | [5 | 7 | 10, count, base, _] => Table {
                    base,
                    count: count as u32,
                },
                _ => continue,
            };
            self.made_up_table(input, row.runtime(), self.blocks[i][0], table)?;
            self.whole_table(input, row.runtime(), self.blocks[i][0], table)?;
        }
        Ok(())
    }

    /// The first entries of a table by single steps of both sides, past unreadable ones, and past the table's end.
    pub fn steps<const N: usize>(
        &mut self,
        what: &str,
        count: u32,
        mut rust: impl FnMut() -> Option<[u64; N]>,
        proved: impl Fn(u32) -> Answer<[u64; N]>,
    ) -> Result<(), String> {
        for next in 0..count.min(STEPS).saturating_add(2) {
            same!(
                step_numbers(rust(), count, next),
                proved(next)?,
                "{what} {next} of {count}"
            );
            self.counts.entries += 1;
        }
        Ok(())
    }

    /// Single steps of a table of a kind at cursors around its end, in the middle, and far past it.
    pub fn made_up_table(
        &mut self,
        input: &Input,
        rt: &SwiftRuntime<'_>,
        kind: u64,
        table: Table,
    ) -> Result<(), String> {
        let image = Image::of(input);
        let Table { base, count } = table;
        let cursors = [
            count.wrapping_sub(1),
            count / 2,
            count,
            count.saturating_add(1),
            u32::MAX,
        ];
        for next in cursors {
            self.counts.entries += 1;
            match kind {
                4 => {
                    let rust = VTableIter::new(rt, base, count).at(next).next();
                    let rust = rust.map(|e| [1, 0, e.address, e.flags.0.into(), e.impl_va]);
                    let ours = proved::next_method(image, base, count, next)?;
                    same!(
                        step_numbers(rust, count, next),
                        ours,
                        "method {next} of {count} from {base:x} on"
                    );
                }
                5 => {
                    let rust = OverrideEntryIter::new(rt, base, count).at(next).next();
                    let rust = rust.map(|e| [1, 0, e.address, e.class_va, e.method_va, e.impl_va]);
                    let ours = proved::next_override(image, base, count, next)?;
                    same!(
                        step_numbers(rust, count, next),
                        ours,
                        "override {next} of {count} from {base:x} on"
                    );
                }
                10 => {
                    let rust = DefaultOverrideEntryIter::new(rt, base, count)
                        .at(next)
                        .next();
                    let rust = rust.map(|e| [1, 0, e.address, e.method_va, e.impl_va]);
                    let ours = proved::next_default_override(image, base, count, next)?;
                    same!(
                        step_numbers(rust, count, next),
                        ours,
                        "default override {next} of {count} from {base:x} on"
                    );
                }
                _ => {
                    let rust = PrespecializationIter::new(rt, base, count).at(next).next();
                    let address = base.wrapping_add(4 * u64::from(next));
                    let rust = rust.map(|metadata| [1, 0, address, metadata]);
                    let ours = proved::next_prespecialization(image, base, count, next)?;
                    same!(
                        step_numbers(rust, count, next),
                        ours,
                        "prespecialization {next} of {count} from {base:x} on"
                    );
                }
            }
        }
        Ok(())
    }

    /// The entries of a table of a kind in one call, into buffers of all sizes around the list's length, from the first entry and from others.
    pub fn whole_table(
        &mut self,
        input: &Input,
        rt: &SwiftRuntime<'_>,
        kind: u64,
        table: Table,
    ) -> Result<(), String> {
        let image = Image::of(input);
        let Table { base, count } = table;
        let width = match kind {
            5 => 4,
            7 => 2,
            _ => 3,
        };
        for start in [0, 1, count / 2, count.wrapping_sub(1), count, u32::MAX] {
            let mut list = std::mem::take(&mut self.list);
            list.clear();
            entries_from(rt, kind, table, start, &mut list);
            let readable = list.len() / width;
            let at_end = u64::from(start) + readable as u64 >= u64::from(count);
            let around = sizes(list.len(), width).filter(|_| start == 0);
            // Whether the entry after the last known one can be read was not asked.
            let most = if readable == LISTED && !at_end {
                width * LISTED
            } else {
                usize::MAX
            };
            for size in around.chain([list.len()]).filter(|&n| n <= most) {
                let rust = listed(size, width, readable, at_end);
                self.numbers.clear();
                self.numbers.resize(size + 2 * NUMBER_GUARD, NUMBER);
                let lent = &mut self.numbers[NUMBER_GUARD..NUMBER_GUARD + size];
                let ours = match kind {
                    4 => proved_tables::methods(image, base, count, start, lent)?,
                    5 => proved_tables::overrides(image, base, count, start, lent)?,
                    7 => proved_tables::prespecializations(image, base, count, start, lent)?,
                    _ => proved_tables::default_overrides(image, base, count, start, lent)?,
                };
                same!(
                    rust,
                    ours,
                    "entries of kind {kind} of {count} from {start} on in {size} numbers"
                );
                same!(
                    true,
                    self.holds(&list[..width * rust[0] as usize]),
                    "numbers of the entries of kind {kind} of {count} from {start} on in {size} numbers"
                );
                self.counts.lists += 1;
            }
            self.list = list;
        }
        Ok(())
    }

    /// Whether the caller's numbers start with these, and those around and after them are unchanged.
    pub fn holds(&self, written: &[u64]) -> bool {
        let end = NUMBER_GUARD + written.len();
        let mut left = self.numbers[..NUMBER_GUARD]
            .iter()
            .chain(&self.numbers[end..]);
        self.numbers[NUMBER_GUARD..end] == *written && left.all(|&n| n == NUMBER)
    }

    fn singletons(&mut self, input: &Input, row: &TypeDescriptor<'_, '_>) -> Result<(), String> {
        for i in 0..self.blocks.len() {
            match self.blocks[i] {
                [3, va, ..] => self.singleton_init(input, row, va)?,
                [9, va, ..] => self.singleton_pointer(input, row, va)?,
                _ => {}
            }
        }
        Ok(())
    }

    fn singleton_init(
        &mut self,
        input: &Input,
        row: &TypeDescriptor<'_, '_>,
        va: u64,
    ) -> Result<(), String> {
        self.counts.singletons += 1;
        let rust = row.singleton_metadata_init().map_or([0; 4], |s| {
            [
                1,
                s.initialization_cache_va,
                s.incomplete_metadata_va,
                s.completion_function_va,
            ]
        });
        let ours = proved::singleton_init(Image::of(input), va)?;
        same!(rust, ours, "singleton initialization at {va:x}");
        Ok(())
    }

    fn singleton_pointer(
        &mut self,
        input: &Input,
        row: &TypeDescriptor<'_, '_>,
        va: u64,
    ) -> Result<(), String> {
        self.counts.singletons += 1;
        let rust = row.singleton_metadata_pointer();
        let rust = rust.map_or([0; 2], |s| [1, s.metadata_va]);
        let ours = proved::singleton_pointer(Image::of(input), va)?;
        same!(rust, ours, "singleton pointer at {va:x}");
        Ok(())
    }

    /// Descriptors, walks, tables and singleton records at the input's addresses, with flags and counts made from them.
    pub fn made_up(&mut self, input: &Input, rt: &SwiftRuntime<'_>) -> Result<(), String> {
        for (i, &va) in input.targets.iter().enumerate() {
            let mixed = mix(va ^ i as u64);
            let flags = (mixed as u32 & !31) | (16 + (mixed >> 32) as u32 % 3);
            let row = TypeDescriptor::for_comparison(rt, va, flags);
            self.descriptor(input, &row)?;
            self.field_offsets(input, &row)?;
            let walk = Walk {
                flags,
                class: (mixed >> 40) as u32 & 3,
                extra: (mixed >> 42) as u32 & 3,
                row: (mixed >> 44) as u32 % 13,
                address: va,
            };
            self.made_up_walk(input, rt, walk)?;
            let count = [0, 1, 3, u32::MAX][(mixed >> 50) as usize & 3];
            let table = Table { base: va, count };
            for kind in [4, 5, 7, 10] {
                self.made_up_table(input, rt, kind, table)?;
            }
            self.whole_table(input, rt, [4, 5, 7, 10][i % 4], table)?;
            let mut body = NO_STRUCT;
            body.singleton_metadata_init_va = Some(va);
            body.singleton_metadata_pointer_va = Some(va);
            let row = TypeDescriptor::with_body(rt, va, flags, TypeKindBody::Struct(body));
            self.singleton_init(input, &row, va)?;
            self.singleton_pointer(input, &row, va)?;
        }
        self.made_up_offsets(input, input.targets.last().copied().unwrap_or(0))
    }
}

/// The numbers of the Rust's entries of a table of a kind from one on, up to the first that it cannot read or the last that is requested.
fn entries_from(rt: &SwiftRuntime<'_>, kind: u64, table: Table, start: u32, list: &mut Vec<u64>) {
    let Table { base, count } = table;
    match kind {
        4 => {
            for e in VTableIter::new(rt, base, count).at(start).take(LISTED) {
                list.extend_from_slice(&[e.address, e.flags.0.into(), e.impl_va]);
            }
        }
        5 => {
            for e in OverrideEntryIter::new(rt, base, count)
                .at(start)
                .take(LISTED)
            {
                list.extend_from_slice(&[e.address, e.class_va, e.method_va, e.impl_va]);
            }
        }
        7 => {
            let mut address = base.wrapping_add(4 * u64::from(start));
            for metadata in PrespecializationIter::new(rt, base, count)
                .at(start)
                .take(LISTED)
            {
                list.extend_from_slice(&[address, metadata]);
                address = address.wrapping_add(4);
            }
        }
        _ => {
            for e in DefaultOverrideEntryIter::new(rt, base, count)
                .at(start)
                .take(LISTED)
            {
                list.extend_from_slice(&[e.address, e.method_va, e.impl_va]);
            }
        }
    }
}

/// What a step from entry `next` on gives: the entry, that it cannot be read, or the table's end.
pub fn step_numbers<const N: usize>(entry: Option<[u64; N]>, count: u32, next: u32) -> [u64; N] {
    let mut numbers = entry.unwrap_or([0; N]);
    if entry.is_some() || next < count {
        numbers[0] = if entry.is_some() { 1 } else { 2 };
        numbers[1] = u64::from(next) + 1;
    }
    numbers
}

/// 1, place and length of a text of the image.
pub fn text_numbers(input: &Input, text: Option<&str>) -> [u64; 3] {
    let text = text.map(|t| place_in(&input.image, t));
    text.map_or([0; 3], |(place, length)| [1, place, length])
}

/// A number that looks like any other.
pub fn mix(n: u64) -> u64 {
    let n = (n ^ (n >> 31)).wrapping_mul(0x9e37_79b9_7f4a_7c15);
    (n ^ (n >> 29)).wrapping_mul(0xbf58_476d_1ce4_e5b9) ^ (n >> 32)
}
