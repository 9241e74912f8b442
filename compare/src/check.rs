//! Gives one input to both sides, and compares everything that they answer.

use crate::full::{Block, mix};
use crate::input::{Input, refusal};
use crate::proved;
use crate::proved::{Answer, Listed, Refused};
use crate::proved_full::Image;
use crate::{proved_archive, proved_full, proved_fullrows, proved_tables, util_calls};
use darwinscope::swift::{SwiftRuntime, SwiftSection, lookup_field_name};
use darwinscope::util::{read_cstr_at, vm_to_file_offset_in};

/// The most contexts that a walk gives.
pub const LIMIT: usize = 256;

/// The bytes of a record before its name.
pub const HEAD: usize = 32;

/// What a buffer holds before a name is written.
const PATTERN: u8 = 0xa7;

/// Bytes before and after the caller's buffer, which no call may write.
const GUARD: usize = 16;

/// The same for a buffer of numbers.
pub const NUMBER: u64 = 0xa7a7_0123_4567_a7a7;
pub const NUMBER_GUARD: usize = 4;

/// How many calls take segments: all but those on texts, numbers and flag words, a field descriptor and a single field offset.
const CALLS: usize = 34;

/// One in this many inputs is tried with segments put into its list.
const INSERTED: u64 = 8;

/// In how many ways a segment that wraps is put into a list: three places, eight segments.
const WRAPPING: u64 = 24;

/// What was compared, for the report.
#[derive(Default, Clone, Copy)]
pub struct Counts {
    pub inputs: u64,
    /// Inputs whose own segments are refused.
    pub refused: u64,
    pub rows: u64,
    pub contexts: u64,
    pub names: u64,
    pub too_deep: u64,
    pub listings: u64,
    pub full_rows: u64,
    pub leaves: u64,
    pub ragged: u64,
    pub wrapping: u64,
    pub bodies: u64,
    pub blocks: u64,
    pub walks: u64,
    pub entries: u64,
    pub singletons: u64,
    pub lists: u64,
    pub fields: u64,
    pub records: u64,
    pub offsets: u64,
}

impl Counts {
    pub fn line(&self) -> String {
        format!(
            "{} inputs ({} refused), {} rows, {} contexts, {} names ({} chains above {LIMIT}), {} listings, {} of full rows, {} leaf calls, {} ragged and {} wrapping lists refused, \
            {} descriptors, {} blocks, {} made-up walks, {} entries, {} singleton records, {} lists, {} field steps, {} records, {} offset calls",
            self.inputs,
            self.refused,
            self.rows,
            self.contexts,
            self.names,
            self.too_deep,
            self.listings,
            self.full_rows,
            self.leaves,
            self.ragged,
            self.wrapping,
            self.bodies,
            self.blocks,
            self.walks,
            self.entries,
            self.singletons,
            self.lists,
            self.fields,
            self.records,
            self.offsets
        )
    }
}

/// Buffers that are used again for each input.
#[derive(Default)]
pub struct Checker {
    pub counts: Counts,
    /// Whether each input is tried with segments put into its list.
    always: bool,
    buffer: Vec<u8>,
    pub slots: Vec<u64>,
    /// The listing of the Rust's rows, and where each record ends.
    listing: Vec<u8>,
    ends: Vec<usize>,
    /// A list of segment numbers that is made from the input's.
    other_list: Vec<u64>,
    /// The Rust's blocks of a descriptor, the numbers of a list of entries, and a caller's buffer for them.
    pub blocks: Vec<Block>,
    pub list: Vec<u64>,
    pub numbers: Vec<u64>,
}

pub fn runtime(input: &Input) -> SwiftRuntime<'_> {
    SwiftRuntime::for_comparison(
        &input.image,
        input
            .segments
            .iter()
            .map(|s| (s[0], s[1], s[2], s[3]))
            .collect(),
        Some(SwiftSection {
            body: &input.types,
            vmaddr: input.types_va,
        }),
        Some(SwiftSection {
            body: &input.fields,
            vmaddr: input.fields_va,
        }),
        Some(SwiftSection {
            body: &input.strings,
            vmaddr: input.strings_va,
        }),
    )
}

/// Where a text lies in the bytes that it was read from: its place, as the distance of the pointers, and its length.
pub fn place_in(bytes: &[u8], text: &str) -> (u64, u64) {
    let place = (text.as_ptr() as usize).wrapping_sub(bytes.as_ptr() as usize);
    (place as u64, text.len() as u64)
}

/// Compares two answers, and reports them if they differ.
macro_rules! same {
    ($rust:expr, $proved:expr, $($what:tt)*) => {{
        let (rust, proved) = ($rust, $proved);
        if rust != proved {
            return Err(format!("{}: the Rust {:x?}, proved {:x?}", format!($($what)*), rust, proved));
        }
    }};
}

pub(crate) use same;

impl Checker {
    /// One that tries each input with segments put into its list, so that a difference shows again in an input by itself.
    pub fn always() -> Checker {
        Checker {
            always: true,
            ..Checker::default()
        }
    }

    /// All that is compared.
    pub fn input(&mut self, input: &Input) -> Result<(), String> {
        if !self.accepted(input)? {
            return Ok(());
        }
        let rt = runtime(input);
        self.rows_and_leaves(input, &rt)?;
        self.fields(input, &rt)?;
        self.made_up(input, &rt)
    }

    /// The same without the fields section, and without made-up descriptors, walks and tables.
    pub fn basic(&mut self, input: &Input) -> Result<(), String> {
        if !self.accepted(input)? {
            return Ok(());
        }
        self.rows_and_leaves(input, &runtime(input))
    }

    fn rows_and_leaves(&mut self, input: &Input, rt: &SwiftRuntime<'_>) -> Result<(), String> {
        self.rows(input, rt)?;
        self.leaves(input, rt)?;
        self.ragged(input)?;
        self.inserted(input)
    }

    /// Only the bodies, blocks, entries and offset vectors of the rows.
    pub fn descriptors(&mut self, input: &Input) -> Result<(), String> {
        if !self.accepted(input)? {
            return Ok(());
        }
        let rt = runtime(input);
        for row in rt.types() {
            self.counts.rows += 1;
            self.descriptor(input, &row)?;
            self.field_offsets(input, &row)?;
        }
        Ok(())
    }

    fn rows(&mut self, input: &Input, rt: &SwiftRuntime<'_>) -> Result<(), String> {
        let image = &input.image[..];
        let segments = input.numbers();
        let mut slot = 0;
        let mut number = 0;
        self.slots.clear();
        self.listing.clear();
        self.ends.clear();
        for row in rt.types() {
            let ours = proved::next_row(image, segments, &input.types, input.types_va, slot)?;
            same!(1, ours.there, "row {number} is there");
            same!(row.address(), ours.address, "row {number}, address");
            same!(u64::from(row.flags().0), ours.flags, "row {number}, flags");
            same!(row.parent_address(), ours.parent, "row {number}, parent");
            same!(
                place_in(image, row.name()),
                (ours.place, ours.length),
                "row {number}, name"
            );
            same!(
                true,
                ours.slot >= slot as u64,
                "row {number}, slot {} from {slot} on",
                ours.slot
            );
            // The slot refers to this row: with equal counts of rows, these are the Rust's slots.
            same!(
                Some(row.address()),
                slot_refers_to(input, ours.slot),
                "row {number}, slot {}",
                ours.slot
            );
            same!(ours.slot + 1, ours.next, "row {number}, slot to go on from");
            slot = ours.next as usize;
            self.slots.push(ours.slot);
            let depth = self.contexts(input, number, &row)?;
            self.names(input, number, &row, &ours, depth)?;
            self.descriptor(input, &row)?;
            self.field_offsets(input, &row)?;
            number += 1;
            self.counts.rows += 1;
        }
        let end = proved::next_row(image, segments, &input.types, input.types_va, slot)?;
        same!(0, end.there, "row {number} is there");
        self.starts(input)?;
        self.full_rows(input, rt)?;
        self.listings(input)
    }

    /// A walk that starts at any slot has the rows from there on.
    fn starts(&mut self, input: &Input) -> Result<(), String> {
        let slots = input.types.len() / 4;
        for start in (0..slots + 2).chain([usize::MAX]) {
            let rust = self.slots.iter().copied().find(|&s| s >= start as u64);
            let ours = proved::next_row(
                &input.image,
                input.numbers(),
                &input.types,
                input.types_va,
                start,
            )?;
            same!(
                rust,
                (ours.there == 1).then_some(ours.slot),
                "the first row from slot {start} on"
            );
        }
        Ok(())
    }

    /// The listing of the section, in buffers that hold all of it and only a part, from the first slot and from others; and going on in
    /// buffers for one record at a time.
    fn listings(&mut self, input: &Input) -> Result<(), String> {
        let whole = self.listing.len();
        let slots = input.types.len() / 4;
        let sizes = [
            Some(0),
            Some(whole / 2),
            whole.checked_sub(1),
            Some(whole),
            Some(whole + 9),
        ];
        for size in sizes.into_iter().flatten() {
            self.listing_from(input, 0, size)?;
        }
        for start in [slots / 2, slots, slots + 3, usize::MAX] {
            self.listing_from(input, start, whole)?;
        }
        let starts = [0].iter().chain(&self.ends);
        let largest = self.ends.iter().zip(starts).map(|(end, start)| end - start);
        let size = largest.max().unwrap_or(0);
        let mut start = 0;
        loop {
            let listed = self.listing_from(input, start, size)?;
            if listed.all == 1 {
                return Ok(());
            }
            same!(true, listed.bytes > 0, "the row of slot {start} fits");
            start = listed.next as usize;
        }
    }

    /// The records from a slot on, into a buffer of a size.
    fn listing_from(&mut self, input: &Input, start: usize, size: usize) -> Result<Listed, String> {
        self.counts.listings += 1;
        // Records are written up to the first that does not fit.
        let first = self.slots.partition_point(|&slot| slot < start as u64);
        let begin = if first == 0 { 0 } else { self.ends[first - 1] };
        let fitting = self.ends[first..]
            .iter()
            .take_while(|&&end| end - begin <= size);
        let given = first + fitting.count();
        let end = if given == 0 { 0 } else { self.ends[given - 1] };
        let records = &self.listing[begin..end];
        let past = (input.types.len() / 4).max(start) as u64;
        let rust = Listed {
            bytes: records.len() as u64,
            next: self.slots.get(given).copied().unwrap_or(past),
            all: u64::from(given == self.slots.len()),
        };
        self.buffer.clear();
        self.buffer.resize(size + 2 * GUARD, PATTERN);
        let lent = &mut self.buffer[GUARD..GUARD + size];
        let ours = proved::listing(
            &input.image,
            input.numbers(),
            &input.types,
            input.types_va,
            start,
            lent,
        )?;
        same!(&rust, &ours, "listing from slot {start} in {size} bytes");
        let end = GUARD + records.len();
        same!(
            records,
            &self.buffer[GUARD..end],
            "records from slot {start} in {size} bytes"
        );
        same!(
            true,
            self.left_alone(end),
            "bytes left alone by the listing from slot {start} in {size} bytes"
        );
        Ok(ours)
    }

    /// Whether the calls take the input's segments, which is asked before the Rust is: every call refuses them otherwise, and there is no
    /// answer to compare.
    fn accepted(&mut self, input: &Input) -> Result<bool, String> {
        self.counts.inputs += 1;
        let Some(number) = refusal(input.numbers()) else {
            return Ok(true);
        };
        self.counts.refused += 1;
        self.refused(input, input.numbers(), number)?;
        self.ragged(input)?;
        Ok(false)
    }

    /// Every call refuses a list of segment numbers with this number, and changes no number and no byte.
    pub fn refused(&mut self, input: &Input, list: &[u64], number: u64) -> Result<(), String> {
        *match number {
            1 => &mut self.counts.ragged,
            _ => &mut self.counts.wrapping,
        } += 1;
        said(list, Some(number))?;
        same!(
            [Some(Refused(number)); CALLS],
            self.verdicts(input, list),
            "refusals of the segment numbers {list:x?}"
        );
        same!(true, self.holds(&[]), "numbers left alone by refused calls");
        same!(
            true,
            self.left_alone(GUARD),
            "bytes left alone by refused calls"
        );
        Ok(())
    }

    /// Lists with one, two and three numbers too many. Those of segments that wrap are refused with 1 too, which comes before 9.
    fn ragged(&mut self, input: &Input) -> Result<(), String> {
        let mut list = self.list_of(input);
        for _ in 1..4 {
            list.push(some_target(input));
            self.refused(input, &list, 1)?;
        }
        self.other_list = list;
        Ok(())
    }

    /// One more segment in a list that is accepted. If it wraps, the list is refused with 9, also behind a segment that has the address
    /// which is looked up; if it ends at 2^64 - 1, the list is accepted as before.
    fn inserted(&mut self, input: &Input) -> Result<(), String> {
        let target = some_target(input);
        let mixed = mix(target ^ mix(input.types_va ^ input.image.len() as u64));
        if !self.always && mixed % INSERTED != 0 {
            return Ok(());
        }
        let chosen = mixed / INSERTED % WRAPPING;
        let size = 1 + (mixed >> 32) % 64;
        for number in 0..WRAPPING {
            if !self.always && number != chosen {
                continue;
            }
            let mut list = self.list_of(input);
            let place = [0, list.len() / 8 * 4, list.len()][number as usize % 3];
            let more = wrapping_segment(number / 3, size, target);
            list.splice(place..place, more);
            self.refused(input, &list, 9)?;
            self.other_list = list;
            // The first segment decides where the address is, and the last one is looked at all the same.
            let mut list = self.list_of(input);
            list.splice(..0, [target.min(u64::MAX - 1), 1, 0, 1]);
            list.extend(more);
            self.refused(input, &list, 9)?;
            self.other_list = list;
        }
        let mut list = self.list_of(input);
        list.extend([17u64.wrapping_neg(), 16, 0, mixed >> 16 & 16]);
        said(&list, None)?;
        let verdicts = self.verdicts(input, &list);
        let answered = |v: &Option<Refused>| matches!(v, None | Some(Refused(3 | 4)));
        same!(
            true,
            verdicts.iter().all(answered),
            "calls on the segment numbers {list:x?} answer: {verdicts:?}"
        );
        self.other_list = list;
        Ok(())
    }

    /// A copy of the input's segment numbers, in a buffer that the caller gives back.
    fn list_of(&mut self, input: &Input) -> Vec<u64> {
        let mut list = std::mem::take(&mut self.other_list);
        list.clear();
        list.extend_from_slice(input.numbers());
        list
    }

    /// With what each call that takes segments refuses these, given the input's image and sections. The buffers for bytes and numbers are
    /// lent to the calls.
    fn verdicts(&mut self, input: &Input, list: &[u64]) -> [Option<Refused>; CALLS] {
        fn of<T>(answer: Answer<T>) -> Option<Refused> {
            answer.err()
        }
        let target = some_target(input);
        let (types, va) = (&input.types[..], input.types_va);
        let (strings, strings_va) = (&input.strings[..], input.strings_va);
        let bytes = &input.image[..];
        let image = Image {
            bytes,
            segments: list,
        };
        self.buffer.clear();
        self.buffer.resize(64 + 2 * GUARD, PATTERN);
        let text = &mut self.buffer[GUARD..GUARD + 64];
        self.numbers.clear();
        self.numbers.resize(60 + 2 * NUMBER_GUARD, NUMBER);
        let lent = &mut self.numbers[NUMBER_GUARD..NUMBER_GUARD + 60];
        [
            of(proved::file_offset(list, target)),
            of(util_calls::vm_address(list, target)),
            of(proved::field_name(bytes, list, strings, strings_va, target)),
            of(proved::next_row(bytes, list, types, va, 0)),
            of(proved::next_context(bytes, list, target, 0)),
            of(proved::qualified_name(bytes, list, target, 0, 4, text)),
            of(proved::listing(bytes, list, types, va, 0, text)),
            of(proved_full::text_at(image, target)),
            of(proved_full::body(image, target, 16)),
            of(proved_full::first_block(image, target, 17)),
            of(proved_full::next_block(image, 16, 1, 1, 0, target)),
            of(proved_full::block_of_kind(image, target, 18, 9)),
            of(proved_full::next_method(image, target, 2, 0)),
            of(proved_full::next_override(image, target, 0, 0)),
            of(proved_full::next_default_override(image, target, 2, 1)),
            of(proved_full::next_prespecialization(image, target, 2, 2)),
            of(proved_full::singleton_init(image, target)),
            of(proved_full::singleton_pointer(image, target)),
            of(proved_tables::methods(image, target, 2, 0, lent)),
            of(proved_tables::overrides(image, target, 2, 0, lent)),
            of(proved_tables::default_overrides(image, target, 2, 0, lent)),
            of(proved_tables::prespecializations(image, target, 2, 0, lent)),
            of(proved_tables::field_records(image, target, 2, 12, 0, lent)),
            of(proved_archive::next_field_record(image, target, 2, 12, 0)),
            of(proved_archive::named_records(
                image, input, target, 2, 12, 0, lent,
            )),
            of(proved_archive::field_offsets(image, target, 17, target)),
            of(proved_archive::static_field_offsets(image, target, 17)),
            of(proved_archive::descriptor_type_name(image, &[target; 6])),
            of(proved_archive::descriptor_superclass_name(
                image,
                &[target; 6],
            )),
            of(proved_archive::record_type_name(image, &[target; 4])),
            of(proved_archive::record_field_name(
                image,
                input,
                &[target; 4],
            )),
            of(proved_archive::row_certain(image, input, 0)),
            of(proved_archive::name_certain(image, input, 0)),
            of(proved_fullrows::full_rows(image, input, 0, lent)),
        ]
    }

    /// Whether all bytes before the caller's buffer and from `end` on are unchanged.
    fn left_alone(&self, end: usize) -> bool {
        let mut left = self.buffer[..GUARD].iter().chain(&self.buffer[end..]);
        left.all(|&b| b == PATTERN)
    }

    /// A row's record: its slot, its address, its flags, the length of its joined name, and the name; 2^64 - 4 for one that is refused.
    fn record(&mut self, row: &proved::Row, length: u64, name: &[u8]) {
        for number in [row.slot, row.address, row.flags, length] {
            self.listing.extend_from_slice(&number.to_le_bytes());
        }
        self.listing.extend_from_slice(name);
        self.ends.push(self.listing.len());
    }

    /// The number of contexts that can be read, up to one above the limit.
    fn contexts(
        &mut self,
        input: &Input,
        number: usize,
        row: &darwinscope::swift::TypeDescriptor<'_, '_>,
    ) -> Result<usize, String> {
        let image = &input.image[..];
        let segments = input.numbers();
        let mut address = row.parent_address();
        let mut given = 0;
        for context in row.parent().take(LIMIT + 1) {
            let ours = proved::next_context(image, segments, address, given)?;
            if given == LIMIT {
                same!(0, ours.there, "row {number}, a context after {LIMIT}");
                // It can be read: a walk that starts there has it.
                let read = proved::next_context(image, segments, address, 0)?;
                same!(1, read.there, "row {number}, the context after {LIMIT}");
                return Ok(LIMIT + 1);
            }
            same!(1, ours.there, "row {number}, context {given} is there");
            same!(
                context.address,
                ours.address,
                "row {number}, context {given}, address"
            );
            same!(
                u64::from(context.flags.0),
                ours.flags,
                "row {number}, context {given}, flags"
            );
            let name = context.name.map(|n| place_in(image, n));
            let our_name = (ours.named == 1).then_some((ours.place, ours.length));
            same!(name, our_name, "row {number}, context {given}, name");
            if ours.named != 1 {
                same!(
                    (0, 0, 0),
                    (ours.named, ours.place, ours.length),
                    "row {number}, context {given}, no name"
                );
            }
            given += 1;
            same!(given as u64, ours.given, "row {number}, contexts given");
            address = ours.next;
            self.counts.contexts += 1;
        }
        let end = proved::next_context(image, segments, address, given)?;
        same!(0, end.there, "row {number}, context {given} is there");
        Ok(given)
    }

    /// The joined name in buffers that are longer, exactly long enough, one byte short, half as long, and empty.
    fn names(
        &mut self,
        input: &Input,
        number: usize,
        row: &darwinscope::swift::TypeDescriptor<'_, '_>,
        ours: &proved::Row,
        depth: usize,
    ) -> Result<(), String> {
        if depth > LIMIT {
            self.counts.too_deep += 1;
            self.record(ours, 4u64.wrapping_neg(), &[]);
            for size in [64, 0] {
                self.name(input, number, ours, size, &[], Err(Refused(4)))?;
            }
            return Ok(());
        }
        let name = row.qualified_name();
        let length = name.len();
        self.record(ours, length as u64, name.as_bytes());
        let sizes = [
            Some(0),
            Some(length / 2),
            length.checked_sub(1),
            Some(length),
            Some(length + 9),
        ];
        for size in sizes.into_iter().flatten() {
            let answer = if size < length {
                Err(Refused(3))
            } else {
                Ok(length as u64)
            };
            let written = if size < length { "" } else { &name };
            self.name(input, number, ours, size, written.as_bytes(), answer)?;
        }
        Ok(())
    }

    fn name(
        &mut self,
        input: &Input,
        number: usize,
        row: &proved::Row,
        size: usize,
        written: &[u8],
        answer: Answer<u64>,
    ) -> Result<(), String> {
        self.counts.names += 1;
        self.buffer.clear();
        self.buffer.resize(size + 2 * GUARD, PATTERN);
        let lent = &mut self.buffer[GUARD..GUARD + size];
        let ours = proved::qualified_name(
            &input.image,
            input.numbers(),
            row.parent,
            row.place,
            row.length,
            lent,
        );
        same!(answer, ours, "row {number}, joined name in {size} bytes");
        let end = GUARD + written.len();
        same!(
            written,
            &self.buffer[GUARD..end],
            "row {number}, bytes of the name in {size} bytes"
        );
        same!(
            true,
            self.left_alone(end),
            "row {number}, bytes left alone in {size} bytes"
        );
        Ok(())
    }

    fn leaves(&mut self, input: &Input, rt: &SwiftRuntime<'_>) -> Result<(), String> {
        let segments = input.numbers();
        for &target in &input.targets {
            let rust = vm_to_file_offset_in(
                input.segments.iter().map(|s| (s[0], s[1], s[2], s[3])),
                target,
            );
            let rust = rust.map_or([0, 0], |off| [1, off]);
            same!(
                rust,
                proved::file_offset(segments, target)?,
                "translation of {target:x}"
            );
            let name = lookup_field_name(rt, target);
            let ours = proved::field_name(
                &input.image,
                segments,
                &input.strings,
                input.strings_va,
                target,
            )?;
            same!(field_numbers(input, name), ours, "field name at {target:x}");
            self.text(
                &input.image,
                (target % (input.image.len() as u64 + 2)) as usize,
            )?;
            self.counts.leaves += 2;
        }
        self.text(&input.image, input.image.len())?;
        self.text(&input.image, input.image.len() + 1)?;
        self.text(&input.image, usize::MAX)
    }

    pub fn text(&mut self, data: &[u8], off: usize) -> Result<(), String> {
        let rust = read_cstr_at(data, off).map(|t| place_in(data, t));
        let rust = rust.map_or([0, 0, 0], |(place, length)| [1, place, length]);
        same!(rust, proved::text(data, off)?, "text at {off:x}");
        self.counts.leaves += 1;
        Ok(())
    }
}

/// The address that calls on made-up lists of segments look up.
fn some_target(input: &Input) -> u64 {
    input.targets.first().copied().unwrap_or(input.types_va)
}

/// Whether the driver says of a made-up list what it was made for.
fn said(list: &[u64], right: Option<u64>) -> Result<(), String> {
    let told = refusal(list);
    if told == right {
        return Ok(());
    }
    Err(format!(
        "the refusal of the segment numbers {list:x?} is {right:?}, and the driver says {told:?}"
    ))
}

/// Segments that wrap, of small sizes and from the target on: with vmaddr + vmsize of exactly 2^64 and of more, with bytes in the file and
/// without.
fn wrapping_segment(number: u64, size: u64, target: u64) -> [u64; 4] {
    let from = target.max(1);
    let [vmaddr, vmsize] = match number % 4 {
        0 => [size.wrapping_neg(), size],
        1 => [size.wrapping_neg(), size + 1],
        2 => [from, from.wrapping_neg()],
        _ => [size + 1, u64::MAX],
    };
    [vmaddr, vmsize, 0, number / 4 * size]
}

/// 1 for a text in the image, 2 for one in the string section, as the pointer shows.
pub fn field_numbers(input: &Input, name: Option<&str>) -> [u64; 3] {
    let Some(name) = name else {
        return [0, 0, 0];
    };
    // Two parts of different allocations can't be confused: an empty text at an image's end lies within it or right after it.
    let (place, length) = place_in(&input.image, name);
    if place <= input.image.len() as u64 && !lies_in_strings(input, name) {
        return [1, place, length];
    }
    let (place, length) = place_in(&input.strings, name);
    [2, place, length]
}

fn lies_in_strings(input: &Input, name: &str) -> bool {
    let (place, _) = place_in(&input.strings, name);
    place < input.strings.len() as u64
}

/// The address that a slot refers to, unless its offset is 0.
fn slot_refers_to(input: &Input, slot: u64) -> Option<u64> {
    let off = (slot as usize).checked_mul(4)?;
    let bytes = input.types.get(off..off.checked_add(4)?)?;
    let rel = i32::from_le_bytes(bytes.try_into().ok()?);
    let slot_va = input.types_va.wrapping_add(off as u64);
    (rel != 0).then(|| slot_va.wrapping_add(rel as i64 as u64))
}
