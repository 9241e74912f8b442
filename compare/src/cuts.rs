//! The cut tried by running: for an image's first c bytes the proved calls list what they list for the whole image, except the items whose
//! paths end past c; and each text beside an item is the whole image's, or missing, or, for a field's name, the string section's. Paths and
//! texts are computed here from the bytes, by docs/SPECIFICATION.md, "Items, paths and the cut"; only which items there are is taken from
//! the whole listing.

#[path = "certain.rs"]
mod certain;

use crate::check::Checker;
use crate::generate::{Generator, Rng};
use crate::generate_full::FullGenerator;
use crate::input::{Input, refusal};
use crate::proved;
use crate::proved::Refused;
use crate::proved_archive::{field_offset, field_offsets, next_field, next_field_record};
use crate::proved_full::{self as full, Image};
use std::ops::Range;
use std::time::Instant;

/// How many cuts are tried of a longer image.
const CUTS: usize = 200;
/// Lists end here on both sides: entries of a table, records of a field descriptor, numbers of an offset list; contexts.
const ENTRIES: u32 = 40;
const CONTEXTS: usize = 256;

#[derive(Clone, Copy, Debug, PartialEq)]
enum Kind {
    Row,
    Body,
    Block,
    Method,
    Override,
    DefaultOverride,
    Prespecialization,
    Init,
    Pointer,
    Offsets,
    Context,
    Descriptor,
    Record,
}

const KINDS: [&str; 13] = [
    "rows",
    "bodies",
    "blocks",
    "methods",
    "overrides",
    "default overrides",
    "prespecializations",
    "initializations",
    "pointers",
    "offset lists",
    "contexts",
    "field descriptors",
    "field records",
];

/// What identifies an item: its slot or field descriptor, the block's kind or the metadata's address, its number in a list.
#[derive(Clone, Copy, Debug, PartialEq)]
struct Key {
    kind: Kind,
    of: u64,
    part: u64,
    number: u64,
}

/// A text beside an item: in the image, in the string section, or missing; where it lies, and its bytes.
#[derive(Clone, Debug, Default, PartialEq)]
enum Text {
    Image(u64, Vec<u8>),
    Strings(u64, Vec<u8>),
    #[default]
    Missing,
}

#[derive(Debug)]
struct Item {
    key: Key,
    numbers: Vec<u64>,
    /// The bytes of a row's name.
    name: Vec<u8>,
    /// A body's superclass's name; a context's name; the names of a field descriptor's type and superclass; of a record's type and field.
    texts: Vec<Text>,
}

impl Item {
    /// Whether it is this item of the whole image, apart from its texts.
    fn is(&self, whole: &Item) -> bool {
        self.key == whole.key && self.numbers == whole.numbers && self.name == whole.name
    }
}

/// The proved calls' listing of an image that may be cut, with the input's segments and sections; offset lists for these slots and
/// metadata addresses.
struct Listing<'a> {
    input: &'a Input,
    image: Image<'a>,
    metadata: &'a [(u64, u64)],
    items: Vec<Item>,
}

impl Listing<'_> {
    fn of(input: &Input, length: usize, metadata: &[(u64, u64)]) -> Result<Vec<Item>, String> {
        let mut listing = Listing {
            input,
            image: Image {
                bytes: &input.image[..length],
                segments: input.numbers(),
            },
            metadata,
            items: Vec::new(),
        };
        listing.rows()?;
        listing.fields()?;
        Ok(listing.items)
    }

    fn push(&mut self, kind: Kind, of: u64, part: u64, number: u64, numbers: &[u64]) -> &mut Item {
        self.items.push(Item {
            key: Key {
                kind,
                of,
                part,
                number,
            },
            numbers: numbers.to_vec(),
            name: Vec::new(),
            texts: Vec::new(),
        });
        let last = self.items.len() - 1;
        &mut self.items[last]
    }

    /// What a call returns for a text, with the bytes at that place.
    fn part(&self, [found, place, length]: [u64; 3]) -> Result<Text, String> {
        let part = |bytes: &[u8]| {
            let part = bytes.get(place as usize..(place + length) as usize);
            part.map(<[u8]>::to_vec).ok_or("a text past the end")
        };
        Ok(match found {
            0 => Text::Missing,
            1 => Text::Image(place, part(self.image.bytes)?),
            _ => Text::Strings(place, part(&self.input.strings)?),
        })
    }

    /// The text at an address that is a number of an item.
    fn text_at(&self, address: u64) -> Result<Text, String> {
        self.part(full::text_at(self.image, address)?)
    }

    fn rows(&mut self) -> Result<(), String> {
        let Image { bytes, segments } = self.image;
        let (types, va) = (&self.input.types, self.input.types_va);
        let mut slot = 0;
        loop {
            let row = proved::next_row(bytes, segments, types, va, slot)?;
            if row.there != 1 {
                return Ok(());
            }
            let name = bytes.get(row.place as usize..(row.place + row.length) as usize);
            let name = name.ok_or("a row's name past the image's end")?.to_vec();
            let numbers = [row.address, row.flags, row.parent, row.place, row.length];
            self.push(Kind::Row, row.slot, 0, 0, &numbers).name = name;
            self.contexts(row.slot, row.parent)?;
            self.body(row.slot, row.address, row.flags as u32)?;
            slot = row.next as usize;
        }
    }

    fn contexts(&mut self, slot: u64, mut address: u64) -> Result<(), String> {
        let Image { bytes, segments } = self.image;
        for given in 0..CONTEXTS {
            let c = proved::next_context(bytes, segments, address, given)?;
            if c.there != 1 {
                break;
            }
            let numbers = [c.address, c.flags, c.next, c.given];
            let name = self.part([c.named, c.place, c.length])?;
            self.push(Kind::Context, slot, 0, given as u64, &numbers)
                .texts = vec![name];
            address = c.next;
        }
        Ok(())
    }

    fn body(&mut self, slot: u64, address: u64, flags: u32) -> Result<(), String> {
        let body = full::body(self.image, address, flags)?;
        if body[0] == 0 {
            return Ok(());
        }
        let texts = match body[0] {
            1 => vec![self.text_at(body[1])?],
            _ => Vec::new(),
        };
        self.push(Kind::Body, slot, 0, 0, &body).texts = texts;
        let [there, class, extra, at] = full::first_block(self.image, address, flags)?;
        let (class, extra, mut row, mut at) = (class as u32, extra as u32, 0, at);
        while there == 1 {
            let block = full::next_block(self.image, flags, class, extra, row, at)?;
            let [1, kind, a, b, c, next, end] = block else {
                break;
            };
            self.push(Kind::Block, slot, kind, 0, &block[2..]);
            match kind {
                3 => self.init(slot, a)?,
                4 => self.table(slot, Kind::Method, c, b as u32)?,
                5 => self.table(slot, Kind::Override, b, a as u32)?,
                7 => self.table(slot, Kind::Prespecialization, b, a as u32)?,
                9 => self.pointer(slot, a)?,
                10 => self.table(slot, Kind::DefaultOverride, b, a as u32)?,
                _ => {}
            }
            (row, at) = (next as u32, end);
        }
        self.offsets(slot, address, flags)
    }

    fn table(&mut self, slot: u64, kind: Kind, base: u64, count: u32) -> Result<(), String> {
        let image = self.image;
        for n in 0..count.min(ENTRIES) {
            let step = match kind {
                Kind::Method => full::next_method(image, base, count, n)?.to_vec(),
                Kind::Override => full::next_override(image, base, count, n)?.to_vec(),
                Kind::DefaultOverride => {
                    full::next_default_override(image, base, count, n)?.to_vec()
                }
                _ => full::next_prespecialization(image, base, count, n)?.to_vec(),
            };
            if step[0] != 1 {
                break;
            }
            self.push(kind, slot, 0, n.into(), &step[1..]);
        }
        Ok(())
    }

    fn init(&mut self, slot: u64, address: u64) -> Result<(), String> {
        let init = full::singleton_init(self.image, address)?;
        if init[0] == 1 {
            self.push(Kind::Init, slot, 0, 0, &init[1..]);
        }
        Ok(())
    }

    fn pointer(&mut self, slot: u64, address: u64) -> Result<(), String> {
        let pointer = full::singleton_pointer(self.image, address)?;
        if pointer[0] == 1 {
            self.push(Kind::Pointer, slot, 0, 0, &pointer[1..]);
        }
        Ok(())
    }

    fn offsets(&mut self, slot: u64, address: u64, flags: u32) -> Result<(), String> {
        for &(_, metadata) in self.metadata.iter().filter(|m| m.0 == slot) {
            let [there, place, count] = field_offsets(self.image, address, flags, metadata)?;
            if there != 1 {
                continue;
            }
            let mut numbers = vec![place, count];
            for n in 0..ENTRIES.min(count as u32) {
                let one = field_offset(self.image.bytes, place as usize, count as u32, n)?;
                numbers.extend_from_slice(&one);
            }
            self.push(Kind::Offsets, slot, metadata, 0, &numbers);
        }
        Ok(())
    }

    fn fields(&mut self) -> Result<(), String> {
        let Input {
            fields, fields_va, ..
        } = self.input;
        let mut at = 0;
        for number in 0.. {
            let descriptor = next_field(fields, *fields_va, at)?;
            if descriptor[0] != 1 {
                break;
            }
            let [_, next, address, _, size, count, name, superclass] = descriptor;
            let texts = vec![self.text_at(name)?, self.text_at(superclass)?];
            self.push(Kind::Descriptor, number, 0, 0, &descriptor[1..])
                .texts = texts;
            let base = address.checked_add(16).unwrap_or(0);
            self.records(number, base, count as u32, size as u32)?;
            at = next as usize;
        }
        Ok(())
    }

    fn records(&mut self, of: u64, base: u64, count: u32, size: u32) -> Result<(), String> {
        let (strings, strings_va) = (&self.input.strings, self.input.strings_va);
        let Image { bytes, segments } = self.image;
        for n in 0..count.min(ENTRIES) {
            let record = next_field_record(self.image, base, count, size, n)?;
            if record[0] != 1 {
                break;
            }
            let name = proved::field_name(bytes, segments, strings, strings_va, record[5])?;
            let texts = vec![self.text_at(record[4])?, self.part(name)?];
            self.push(Kind::Record, of, 0, n.into(), &record[2..]).texts = texts;
        }
        Ok(())
    }
}

/// The whole image, read as the specification says, and the string section.
struct Whole<'a> {
    image: &'a [u8],
    segments: &'a [[u64; 4]],
    strings: &'a [u8],
    strings_va: u64,
}

/// A text that is looked up at an address: where the offset of its address ends, if that is a separate read; and whether the string
/// section is tried too.
#[derive(Clone, Copy, Debug, Default)]
struct Lookup {
    address: u64,
    offset_end: u64,
    of_field: bool,
}

/// The text that starts at an offset of some bytes: up to the NUL or the end, if it is well-formed.
fn text_in(bytes: &[u8], offset: u64) -> Option<Vec<u8>> {
    let rest = bytes.get(usize::try_from(offset).ok()?..)?;
    let text = rest.split(|&b| b == 0).next()?;
    std::str::from_utf8(text).ok()?;
    Some(text.to_vec())
}

/// The address that a signed offset in the slot at an address refers to.
fn pointer(slot: u64, offset: u32) -> u64 {
    slot.wrapping_add(offset as i32 as u64)
}

/// The same if offset 0 refers to nothing.
fn pointer_or_none(slot: u64, offset: u32) -> u64 {
    if offset == 0 {
        0
    } else {
        pointer(slot, offset)
    }
}

impl Whole<'_> {
    fn of(input: &Input) -> Whole<'_> {
        Whole {
            image: &input.image,
            segments: &input.segments,
            strings: &input.strings,
            strings_va: input.strings_va,
        }
    }

    /// The first segment that has the address and bytes in the file decides. None reaches 2^64: a list with one that does is refused.
    fn offset(&self, address: u64) -> Option<u64> {
        for &[vmaddr, vmsize, fileoff, filesize] in self.segments {
            let end = vmaddr.checked_add(vmsize)?;
            if vmaddr <= address && address < end && filesize > 0 {
                let distance = address - vmaddr;
                return if distance < filesize {
                    fileoff.checked_add(distance)
                } else {
                    None
                };
            }
        }
        None
    }

    /// The range of a number of bytes that start at an address.
    fn bytes(&self, address: u64, length: u64) -> Option<Range<u64>> {
        let start = self.offset(address)?;
        let end = start.checked_add(length)?;
        (end <= self.image.len() as u64).then_some(start..end)
    }

    fn u32_at(&self, offset: u64) -> Option<u32> {
        let bytes = self.image.get(offset as usize..)?.first_chunk()?;
        Some(u32::from_le_bytes(*bytes))
    }

    /// The range of the text that is looked up at an address, well-formed or not: with its NUL, or to the image's end; one byte there.
    fn text(&self, address: u64) -> Option<Range<u64>> {
        let start = self.offset(address).filter(|_| address != 0)?;
        let rest = self.image.get(start as usize..).unwrap_or(&[]);
        let nul = rest.iter().position(|&b| b == 0);
        let length = nul.map_or(rest.len().max(1), |at| at + 1);
        Some(start..start.saturating_add(length as u64))
    }

    /// The text at the address that a descriptor's offset at 8 refers to, even if the offset is 0.
    fn descriptor_name(&self, address: u64) -> Option<Range<u64>> {
        let header = self.bytes(address, 20)?;
        let slot = address.checked_add(8)?;
        self.text(pointer(slot, self.u32_at(header.start + 8)?))
    }

    /// A context's, if its kind has a name and the offset is not 0. The offset is a separate read.
    fn context_name(&self, address: u64, flags: u32) -> Option<Lookup> {
        if !matches!(flags & 0x1f, 0 | 1 | 3 | 16..=18) {
            return None;
        }
        let slot = address.checked_add(8)?;
        let read = self.bytes(slot, 4)?;
        Some(Lookup {
            address: pointer_or_none(slot, self.u32_at(read.start)?),
            offset_end: read.end,
            of_field: false,
        })
    }

    /// What an image that is cut gives for a text; none if the cut falls into it.
    fn told(&self, text: Lookup, cut: u64) -> Option<Text> {
        let Lookup {
            address,
            offset_end,
            of_field,
        } = text;
        if offset_end > cut {
            return Some(Text::Missing);
        }
        let range = self.text(address);
        if range.as_ref().is_some_and(|r| r.contains(&cut)) {
            return None;
        }
        let kept = range.filter(|r| r.end <= cut);
        let found = kept.and_then(|r| Some(Text::Image(r.start, text_in(self.image, r.start)?)));
        let section = || {
            let at = address.checked_sub(self.strings_va)?;
            let inside = of_field && address != 0 && at < self.strings.len() as u64;
            let text = text_in(self.strings, at).filter(|_| inside)?;
            Some(Text::Strings(at, text))
        };
        Some(found.or_else(section).unwrap_or_default())
    }

    /// How long a block is, from its header.
    fn block_size(&self, kind: u64, header: Option<&Range<u64>>) -> Option<u64> {
        let word = |at: u64| Some(u64::from(self.u32_at(header?.start + at)?));
        Some(match kind {
            0 => {
                let (parameters, requirements) = (word(8)? & 0xffff, word(8)? >> 16);
                16 + parameters.next_multiple_of(4) + 12 * requirements
            }
            3 => 12,
            4 => 8 + 8 * word(4)?,
            5 => 4 + 12 * word(0)?,
            7 | 10 => 4 + 8 * word(0)?,
            _ => 4,
        })
    }
}

/// The bytes that a block's header has: 0 for a block without one.
fn header_size(kind: u64) -> u64 {
    match kind {
        0 => 16,
        4 => 8,
        5 | 7 | 10 => 4,
        8 => 2,
        _ => 0,
    }
}

/// Where the path of each item of a listing ends, the texts beside it, and the names of the slots' descriptors.
#[derive(Default)]
struct Paths {
    ends: Vec<u64>,
    beside: Vec<Vec<Lookup>>,
    names: Vec<Range<u64>>,
}

/// The slot, table or field descriptor that a walk over the items is in: addresses, and where paths end.
#[derive(Default)]
struct Place {
    address: u64,
    parent: u64,
    row: u64,
    context: u64,
    body: u64,
    /// The block, its entries, and the next block.
    block_at: u64,
    entries_at: u64,
    next_at: u64,
    block: u64,
    entry: u64,
    records_at: u64,
    record_size: u64,
    record: u64,
}

impl Paths {
    fn of(input: &Input, whole: &Whole, items: &[Item]) -> Result<Paths, String> {
        let mut paths = Paths::default();
        for slot in 0..input.types.len() as u64 / 4 {
            let address = slot_address(input, slot);
            let name = address.and_then(|va| whole.descriptor_name(va));
            paths.names.extend(name);
        }
        let mut place = Place::default();
        for item in items {
            paths.beside.push(Vec::new());
            let end = paths.end(input, whole, &mut place, &item.key);
            let unread = || format!("{:?} reads what is not in the whole image", item.key);
            paths.ends.push(end.ok_or_else(unread)?);
        }
        Ok(paths)
    }

    /// A text beside the current item.
    fn text(&mut self, text: Lookup) {
        self.beside.last_mut().expect("an item").push(text);
    }

    /// One at an address that is a number of the item.
    fn text_at(&mut self, address: u64, of_field: bool) {
        self.text(Lookup {
            address,
            offset_end: 0,
            of_field,
        });
    }

    /// Where the path of the next item ends.
    fn end(&mut self, input: &Input, whole: &Whole, at: &mut Place, key: &Key) -> Option<u64> {
        Some(match key.kind {
            Kind::Row => {
                at.address = slot_address(input, key.of)?;
                let header = whole.bytes(at.address, 20)?;
                let name = whole.descriptor_name(at.address)?;
                let parent = whole.u32_at(header.start + 4)?;
                at.parent = pointer_or_none(at.address.checked_add(4)?, parent);
                at.row = header.end.max(name.end);
                at.context = at.row;
                at.row
            }
            Kind::Context => {
                let header = whole.bytes(at.parent, 8)?;
                let flags = whole.u32_at(header.start)?;
                self.text(whole.context_name(at.parent, flags).unwrap_or_default());
                let parent = whole.u32_at(header.start + 4)?;
                at.parent = pointer_or_none(at.parent.checked_add(4)?, parent);
                at.context = at.context.max(header.end);
                at.context
            }
            Kind::Body => {
                let flags = whole.u32_at(whole.offset(at.address)?)?;
                let size = if flags & 0x1f == 16 { 24 } else { 8 };
                let body_at = at.address.checked_add(20)?;
                let body = whole.bytes(body_at, size)?;
                if size == 24 {
                    let superclass = whole.u32_at(body.start)?;
                    self.text_at(pointer_or_none(body_at, superclass), false);
                }
                at.body = at.row.max(body.end);
                at.block = at.body;
                at.next_at = body_at.checked_add(size)?;
                at.body
            }
            Kind::Block => {
                at.block_at = at.next_at;
                let size = header_size(key.part);
                let header = whole.bytes(at.block_at, size).filter(|_| size > 0);
                let length = whole.block_size(key.part, header.as_ref())?;
                at.entries_at = at.block_at.wrapping_add(size);
                at.next_at = at.block_at.wrapping_add(length);
                at.block = at.block.max(header.map_or(0, |h| h.end));
                at.entry = at.block;
                at.block
            }
            Kind::Method | Kind::Override | Kind::DefaultOverride | Kind::Prespecialization => {
                let size = match key.kind {
                    Kind::Override => 12,
                    Kind::Prespecialization => 4,
                    _ => 8,
                };
                let entry = whole.bytes(at.entries_at + size * key.number, size)?;
                at.entry = at.entry.max(entry.end);
                at.entry
            }
            Kind::Init => at.block.max(whole.bytes(at.block_at, 12)?.end),
            Kind::Pointer => at.block.max(whole.bytes(at.block_at, 4)?.end),
            Kind::Offsets => {
                let body = whole.bytes(at.address + 20, 8)?;
                let count = u64::from(whole.u32_at(body.start)?);
                let word = u64::from(whole.u32_at(body.start + 4)?);
                let vector = whole.bytes(key.part.checked_add(8 * word)?, 4 * count)?;
                at.body.max(vector.end)
            }
            Kind::Descriptor => {
                let (address, header) = field_header(input, key.of)?;
                at.records_at = address.checked_add(16).unwrap_or(0);
                at.record_size = u64::from(u16::from_le_bytes([header[10], header[11]]));
                at.record = 0;
                let [name, superclass] = [0, 4].map(|at| u32_in(header, at));
                self.text_at(pointer_or_none(address, name), false);
                self.text_at(pointer_or_none(address.checked_add(4)?, superclass), false);
                0
            }
            Kind::Record => {
                let address = at.records_at + at.record_size * key.number;
                let record = whole.bytes(address, 12)?;
                for (at, of_field) in [(4, false), (8, true)] {
                    let slot = address.checked_add(at)?;
                    let offset = whole.u32_at(record.start + at)?;
                    self.text_at(pointer_or_none(slot, offset), of_field);
                }
                at.record = at.record.max(record.end);
                at.record
            }
        })
    }

    /// Whether the cut falls into the name of a slot's descriptor, which the premise leaves out.
    fn left_out(&self, cut: u64) -> bool {
        self.names.iter().any(|name| name.contains(&cut))
    }
}

/// The address that a slot of the types section refers to, unless its offset is 0.
fn slot_address(input: &Input, slot: u64) -> Option<u64> {
    let bytes = input.types.get(4 * slot as usize..)?.first_chunk()?;
    let offset = u32::from_le_bytes(*bytes);
    (offset != 0).then(|| pointer(input.types_va.wrapping_add(4 * slot), offset))
}

/// A field descriptor's address and its 16 bytes: each descriptor follows the records of the one before.
fn field_header(input: &Input, number: u64) -> Option<(u64, &[u8; 16])> {
    let mut at = 0;
    for n in 0.. {
        let header: &[u8; 16] = input.fields.get(at..)?.first_chunk()?;
        if n == number {
            return Some((input.fields_va.wrapping_add(at as u64), header));
        }
        let size = u64::from(u16::from_le_bytes([header[10], header[11]]));
        at += 16 + (u64::from(u32_in(header, 12)) * size) as usize;
    }
    None
}

fn u32_in(header: &[u8; 16], at: usize) -> u32 {
    u32::from_le_bytes([header[at], header[at + 1], header[at + 2], header[at + 3]])
}

#[derive(Default)]
struct Counts {
    images: u64,
    /// Images and cuts of them whose segments are refused.
    refused: [u64; 2],
    cuts: u64,
    left_out: u64,
    survived: [u64; KINDS.len()],
    fell: [u64; KINDS.len()],
    certain: certain::Counts,
    texts: Texts,
}

/// How many texts beside surviving items were the image's, the string section's and missing, and how many the cut fell into.
#[derive(Default)]
struct Texts {
    image: u64,
    strings: u64,
    missing: u64,
    left_out: u64,
}

impl Texts {
    /// Whether the texts beside an item are those that they must be. The premise leaves out a text that the cut falls into.
    fn hold(&mut self, given: &[Text], right: &[Option<Text>]) -> bool {
        for text in right {
            *match text {
                Some(Text::Image(..)) => &mut self.image,
                Some(Text::Strings(..)) => &mut self.strings,
                Some(Text::Missing) => &mut self.missing,
                None => &mut self.left_out,
            } += 1;
        }
        let same =
            |(given, right): (&Text, &Option<Text>)| right.as_ref().is_none_or(|r| r == given);
        given.len() == right.len() && given.iter().zip(right).all(same)
    }
}

impl Counts {
    fn line(&self) -> String {
        let Counts {
            images,
            refused: [refused, refused_cuts],
            cuts,
            left_out,
            texts,
            ..
        } = self;
        let kinds = KINDS.iter().zip(self.survived.iter().zip(&self.fell));
        let kinds: Vec<String> = kinds
            .map(|(kind, (survived, fell))| format!("{kind} {survived} and {fell}"))
            .collect();
        format!(
            "{images} images, {refused} more and {refused_cuts} cuts of them refused, {cuts} cuts tried, {left_out} left out by the premise; survived and fell: {}; texts beside items: {} of the image, {} of the string section, {} missing, {} left out by the premise",
            kinds.join(", "),
            texts.image,
            texts.strings,
            texts.missing,
            texts.left_out,
        )
    }
}

/// The whole listing, with the offset lists of each slot for the metadata that its own pointer refers to, and for another address.
fn whole_listing(input: &Input) -> Result<(Vec<Item>, Vec<(u64, u64)>), String> {
    let length = input.image.len();
    let mut metadata = Vec::new();
    for item in Listing::of(input, length, &[])? {
        match item.key.kind {
            Kind::Pointer => metadata.push((item.key.of, item.numbers[0])),
            Kind::Row => metadata.extend(input.targets.first().map(|&t| (item.key.of, t))),
            _ => {}
        }
    }
    Ok((Listing::of(input, length, &metadata)?, metadata))
}

/// Cuts of an image spread over it, all of them if they are few, each with the number of bytes that are kept.
fn cuts_of(input: &Input, rng: &mut Rng) -> Vec<usize> {
    let all = input.image.len() + 1;
    let tried = all.min(CUTS);
    let cut = |i| {
        let (from, to) = (i * all / tried, (i + 1) * all / tried);
        from + rng.below(to - from)
    };
    (0..tried).map(cut).collect()
}

/// Segments that are refused are refused with the same number whether the image is whole or cut, since no byte of it is looked at: the
/// listings have no items to compare, and nothing is certain. Every call is asked with the whole image and with one that is cut.
fn check_refused(
    input: &Input,
    number: u64,
    rng: &mut Rng,
    counts: &mut Counts,
) -> Result<(), String> {
    let cuts = cuts_of(input, rng);
    counts.refused[0] += 1;
    let mut checker = Checker::default();
    checker.refused(input, input.numbers(), number)?;
    let mut shorter = input.clone();
    shorter.image.truncate(cuts[rng.below(cuts.len())]);
    checker.refused(&shorter, input.numbers(), number)?;
    for cut in cuts.into_iter().chain([input.image.len()]) {
        let told = Listing::of(input, cut, &[]).map(|items| items.len());
        let refused = Err(String::from(Refused(number)));
        if told != refused {
            return Err(format!(
                "cut to {cut} of {} bytes: the listing is {told:?}, not {refused:?}",
                input.image.len()
            ));
        }
        counts.refused[1] += 1;
    }
    Ok(())
}

/// All cuts of an image, or some spread over it. A difference is reported with its cut.
fn check(input: &Input, rng: &mut Rng, counts: &mut Counts) -> Result<(), String> {
    if let Some(number) = refusal(input.numbers()) {
        return check_refused(input, number, rng, counts);
    }
    let (whole, metadata) = whole_listing(input)?;
    let read = Whole::of(input);
    let paths = Paths::of(input, &read, &whole)?;
    let length = input.image.len();
    counts.images += 1;
    for cut in cuts_of(input, rng) {
        let at = |what: String| format!("cut to {cut} of {length} bytes: {what}");
        certain::check(input, cut, &whole, &metadata, &mut counts.certain).map_err(at)?;
        if paths.left_out(cut as u64) {
            counts.left_out += 1;
            continue;
        }
        counts.cuts += 1;
        let listed = Listing::of(input, cut, &metadata).map_err(at)?;
        let mut items = listed.iter();
        for ((item, &end), beside) in whole.iter().zip(&paths.ends).zip(&paths.beside) {
            let kind = item.key.kind as usize;
            if end <= cut as u64 {
                counts.survived[kind] += 1;
                let Some(given) = items.next().filter(|given| given.is(item)) else {
                    return Err(at(format!("{item:?} has to be there")));
                };
                let texts: Vec<Option<Text>> =
                    beside.iter().map(|&t| read.told(t, cut as u64)).collect();
                if !counts.texts.hold(&given.texts, &texts) {
                    return Err(at(format!("{given:?} has not the texts {texts:?}")));
                }
            } else {
                counts.fell[kind] += 1;
            }
        }
        if let Some(more) = items.next() {
            return Err(at(format!("{more:?} must not be there")));
        }
    }
    Ok(())
}

/// The specification's image of 33 bytes: its row reads the first 20, and the name from 28 on with its NUL; the cuts to 28 through 32 fall
/// into the text; the cut to 27 shows nothing. Listings cannot show the NUL: without it the same text runs to the cut image's end.
fn clue() -> Result<(), String> {
    let mut input = Input::default();
    for word in [17u32, 0, 20, 0, 0, 0, 0] {
        input.image.extend_from_slice(&word.to_le_bytes());
    }
    input.image.extend_from_slice(b"Clue\0");
    input.segments.push([0x1000, 33, 0, 33]);
    (input.types, input.types_va) = (vec![0x00, 0xf0, 0xff, 0xff], 0x2000);
    let (whole, metadata) = whole_listing(&input)?;
    let paths = Paths::of(&input, &Whole::of(&input), &whole)?;
    let left_out: Vec<u64> = (0..=33).filter(|&c| paths.left_out(c)).collect();
    let shown = Listing::of(&input, 27, &metadata)?.len();
    let told = (paths.ends, left_out, shown);
    let right = (vec![33, 33], vec![28, 29, 30, 31, 32], 0);
    if told == right {
        return Ok(());
    }
    Err(format!(
        "Clue's paths, the cuts in its text, and its items cut to 27 are {told:?}, not {right:?}"
    ))
}

/// The image of 51 bytes of docs/CUT.md, whose superclass's name the cut to 49 shortens: the cut does not fall into the name of a
/// descriptor, a context or a field record, and the body is present; only the premise for the superclass's name leaves that name out.
fn elder() -> Result<(), String> {
    let mut input = Input::default();
    input.image.extend_from_slice(b"A\0\0\0");
    for word in [16i32, 0, -12, 0, 0, 24, 0, 0, 0, 0, 0] {
        input.image.extend_from_slice(&word.to_le_bytes());
    }
    input.image.extend_from_slice(b"Su\0");
    input.segments.push([0x1000, 51, 0, 51]);
    (input.types, input.types_va) = (vec![0x04, 0xf0, 0xff, 0xff], 0x2000);
    let (whole, metadata) = whole_listing(&input)?;
    let read = Whole::of(&input);
    let paths = Paths::of(&input, &read, &whole)?;
    let superclass = |items: &[Item]| items.iter().find_map(|i| i.texts.first().cloned());
    let cut = Listing::of(&input, 49, &metadata)?;
    let told = (
        superclass(&whole),
        paths.left_out(49),
        superclass(&cut),
        read.told(paths.beside[1][0], 49),
    );
    let right = (
        Some(Text::Image(48, b"Su".to_vec())),
        false,
        Some(Text::Image(48, b"S".to_vec())),
        None,
    );
    if told == right {
        return Ok(());
    }
    Err(format!("Elder's texts are {told:?}, not {right:?}"))
}

/// Cuts a segment in two and exchanges the parts in the file, so that what has later addresses lies earlier in the image.
fn turn(rng: &mut Rng, input: &mut Input) {
    let at = rng.below(input.segments.len().max(1));
    let Some(&[va, vmsize, off, filesize]) = input.segments.get(at) else {
        return;
    };
    let bytes = input.image.get_mut(off as usize..).unwrap_or_default();
    let size = bytes.len().min(vmsize.min(filesize) as usize);
    if size < 2 {
        return;
    }
    let first = 1 + rng.below(size - 1);
    bytes[..size].rotate_left(first);
    let (rest, first) = ((size - first) as u64, first as u64);
    input.segments[at] = [va, first, off + rest, first];
    let second = [
        va.wrapping_add(first),
        vmsize - first,
        off,
        filesize - first,
    ];
    input.segments.insert(at + 1, second);
}

pub fn run(seed: u64, count: u64) {
    let start = Instant::now();
    let mut counts = Counts::default();
    let mut generator = Generator::default();
    let mut full = FullGenerator::default();
    let mut input = Input::default();
    for i in 0..count {
        // Every fourth input is made for rows and contexts, the others for everything.
        if i % 4 == 3 {
            generator.make(seed, i, &mut input);
        } else {
            full.make(seed, i, &mut input);
        }
        let mut rng = Rng::new(seed ^ 0xc075, i);
        if rng.one_in(3) {
            turn(&mut rng, &mut input);
        }
        if let Err(what) = check(&input, &mut rng, &mut counts) {
            println!("difference: seed {seed}, number {i}, {what}");
            println!("{}", input.line());
            std::process::exit(1);
        }
    }
    if let Err(what) = clue().and_then(|()| elder()) {
        println!("difference: {what}");
        std::process::exit(1);
    }
    let time = start.elapsed().as_secs_f64();
    println!(
        "cuts, seed {seed}: {}; {}; no difference; {time:.1} s",
        counts.line(),
        counts.certain.line()
    );
}
