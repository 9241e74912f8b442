//! The archive level compared: field descriptors, field records and their names, field offsets.

use crate::check::{Checker, NUMBER, NUMBER_GUARD, field_numbers, same};
use crate::flags::field_kind;
use crate::full::{
    LISTED, STEPS, listed, mix, offset_of, pointer_at, sizes, step_numbers, text_numbers,
};
use crate::input::Input;
use crate::proved_archive as proved;
use crate::proved_full::Image;
use crate::proved_tables;
use darwinscope::swift::{
    FieldDescriptor, FieldRecord, FieldRecordIter, SwiftRuntime, TypeDescriptor, TypeKindBody,
    lookup_field_name,
};
use darwinscope::util::read_u32_le_at;

/// Field offsets compared one by one.
const OFFSETS: u32 = 40;

/// Where a list of records starts, how many it has, and how far apart they lie.
#[derive(Clone, Copy)]
struct Records {
    base: u64,
    count: u32,
    size: u32,
}

impl Records {
    /// The numbers of record `next`, from its bytes in the image: the Rust returns no addresses.
    fn numbers(&self, input: &Input, next: u32, record: &FieldRecord<'_>) -> [u64; 6] {
        let distance = u64::from(next) * u64::from(self.size);
        let va = self.base.wrapping_add(distance);
        let off = offset_of(input, va).unwrap_or(u64::MAX - 12);
        let pointer = |more| pointer_at(&input.image, off + more, va.wrapping_add(more));
        [1, 0, va, record.flags().0.into(), pointer(4), pointer(8)]
    }
}

impl Checker {
    /// The walk over the fields section to its end and further; and from every byte.
    pub fn fields(&mut self, input: &Input, rt: &SwiftRuntime<'_>) -> Result<(), String> {
        let mut steps = rt.field_descriptors();
        let mut stays = 0;
        while stays < 2 {
            let at = steps.cursor();
            let rust = steps.next();
            let ours = self.field(input, at, rust.as_ref(), steps.cursor())?;
            if let Some(descriptor) = &rust {
                self.field_names(input, descriptor, ours)?;
                let list = descriptor.records();
                same!(
                    list.base_va(),
                    descriptor.address().checked_add(16).unwrap_or(0),
                    "first record of the field descriptor at byte {at}"
                );
                let records = Records {
                    base: list.base_va(),
                    count: descriptor.num_fields(),
                    size: descriptor.field_record_size().into(),
                };
                self.records(input, records, list)?;
                self.made_up_records(input, rt, records)?;
            }
            stays += u32::from(steps.cursor() == at);
        }
        let len = input.fields.len();
        let every = if len < 100 { 1 } else { 7 };
        for at in (0..len + 2)
            .step_by(every)
            .chain([usize::MAX, usize::MAX - 15, usize::MAX - 16])
        {
            let mut steps = rt.field_descriptors().at(at);
            let rust = steps.next();
            self.field(input, at, rust.as_ref(), steps.cursor())?;
        }
        if let Some(&va) = input.targets.first() {
            let mixed = mix(va ^ input.fields_va);
            let records = Records {
                base: va,
                count: [0, 1, 3, u32::MAX][mixed as usize & 3],
                size: [0, 1, 11, 12, 13, 65_535, u32::MAX, 12][(mixed >> 8) as usize & 7],
            };
            let list = FieldRecordIter::for_comparison(rt, va, records.count, records.size, 0);
            self.records(input, records, list)?;
            self.made_up_records(input, rt, records)?;
            let other = input.targets.last().copied().unwrap_or(va);
            self.made_up_names(input, rt, [va, other, input.fields_va, mixed])?;
        }
        Ok(())
    }

    /// The names of a made-up record and of a made-up descriptor, whose addresses may be any numbers.
    fn made_up_names(
        &mut self,
        input: &Input,
        rt: &SwiftRuntime<'_>,
        [a, b, c, d]: [u64; 4],
    ) -> Result<(), String> {
        let image = Image::of(input);
        let text = |va| text_numbers(input, rt.text_for_comparison(va));
        for record in [[c, d, a, b], [d, c, b, a]] {
            let rust = field_numbers(input, lookup_field_name(rt, record[3]));
            let ours = proved::record_field_name(image, input, &record)?;
            same!(rust, ours, "name of the made-up record {record:x?}");
            let ours = proved::record_type_name(image, &record)?;
            same!(
                text(record[2]),
                ours,
                "type name of the made-up record {record:x?}"
            );
        }
        for made_up in [[c, d, c, d, a, b], [d, c, d, c, b, a]] {
            let ours = proved::descriptor_type_name(image, &made_up)?;
            same!(
                text(made_up[4]),
                ours,
                "type name of the made-up descriptor {made_up:x?}"
            );
            let ours = proved::descriptor_superclass_name(image, &made_up)?;
            same!(
                text(made_up[5]),
                ours,
                "superclass name of the made-up descriptor {made_up:x?}"
            );
        }
        Ok(())
    }

    /// One step of the walk from a byte on.
    fn field(
        &mut self,
        input: &Input,
        at: usize,
        rust: Option<&FieldDescriptor<'_, '_>>,
        next: usize,
    ) -> Result<[u64; 8], String> {
        self.counts.fields += 1;
        let next = next as u64;
        let rust = rust.map_or([0, next, 0, 0, 0, 0, 0, 0], |d| {
            let off = at as u64;
            let va = d.address();
            [
                1,
                next,
                va,
                field_kind(d.kind()),
                d.field_record_size().into(),
                d.num_fields().into(),
                pointer_at(&input.fields, off, va),
                pointer_at(&input.fields, off + 4, va.wrapping_add(4)),
            ]
        });
        let ours = proved::next_field(&input.fields, input.fields_va, at)?;
        same!(rust, ours, "field descriptor at byte {at}");
        Ok(ours)
    }

    fn field_names(
        &mut self,
        input: &Input,
        descriptor: &FieldDescriptor<'_, '_>,
        ours: [u64; 8],
    ) -> Result<(), String> {
        let image = Image::of(input);
        let [_, _, numbers @ ..] = &ours;
        same!(
            text_numbers(input, descriptor.mangled_type_name()),
            proved::descriptor_type_name(image, numbers)?,
            "type name of the field descriptor at {:x}",
            ours[2]
        );
        same!(
            text_numbers(input, descriptor.superclass_mangled_name()),
            proved::descriptor_superclass_name(image, numbers)?,
            "superclass name of the field descriptor at {:x}",
            ours[2]
        );
        Ok(())
    }

    /// The first records by single steps, past unreadable ones and the list's end.
    fn records(
        &mut self,
        input: &Input,
        records: Records,
        mut rust: FieldRecordIter<'_, '_>,
    ) -> Result<(), String> {
        for next in 0..records.count.min(STEPS).saturating_add(2) {
            let record = rust.next();
            self.field_record(input, records, next, record.as_ref())?;
        }
        Ok(())
    }

    /// One step, and the record's names.
    fn field_record(
        &mut self,
        input: &Input,
        records: Records,
        next: u32,
        rust: Option<&FieldRecord<'_>>,
    ) -> Result<(), String> {
        let image = Image::of(input);
        let Records { base, count, size } = records;
        let numbers = rust.map(|r| records.numbers(input, next, r));
        let ours = proved::next_field_record(image, base, count, size, next)?;
        same!(
            step_numbers(numbers, count, next),
            ours,
            "record {next} of {count}, {size} apart from {base:x} on"
        );
        self.counts.records += 1;
        let Some(record) = rust else { return Ok(()) };
        let [_, _, numbers @ ..] = &ours;
        same!(
            text_numbers(input, record.mangled_type_name()),
            proved::record_type_name(image, numbers)?,
            "type name of record {next} from {base:x} on"
        );
        same!(
            field_numbers(input, record.field_name()),
            proved::record_field_name(image, input, numbers)?,
            "name of record {next} from {base:x} on"
        );
        Ok(())
    }

    /// Records at cursors around the list's end, and all of them in one call.
    fn made_up_records(
        &mut self,
        input: &Input,
        rt: &SwiftRuntime<'_>,
        records: Records,
    ) -> Result<(), String> {
        let Records { base, count, size } = records;
        let from = |next| FieldRecordIter::for_comparison(rt, base, count, size, next);
        let cursors = [
            count.wrapping_sub(1),
            count / 2,
            count,
            count.saturating_add(1),
            u32::MAX,
        ];
        for next in cursors {
            self.field_record(input, records, next, from(next).next().as_ref())?;
        }
        for start in [0, 1, count.wrapping_sub(1), count, u32::MAX] {
            let mut list = std::mem::take(&mut self.list);
            for named in [false, true] {
                list.clear();
                for (i, record) in from(start).take(LISTED).enumerate() {
                    let numbers = records.numbers(input, start + i as u32, &record);
                    list.extend_from_slice(&numbers[2..]);
                    if named {
                        list.extend(text_numbers(input, record.mangled_type_name()));
                        list.extend(field_numbers(input, record.field_name()));
                    }
                }
                self.record_lists(input, records, start, &list, named)?;
            }
            self.list = list;
        }
        Ok(())
    }

    /// The records from one on, of which these are known, alone or with their names, in buffers of all sizes around their length.
    fn record_lists(
        &mut self,
        input: &Input,
        records: Records,
        start: u32,
        list: &[u64],
        named: bool,
    ) -> Result<(), String> {
        let Records { base, count, size } = records;
        let width = if named { proved::NAMED } else { 4 };
        let readable = list.len() / width;
        let at_end = u64::from(start) + readable as u64 >= u64::from(count);
        let around = sizes(list.len(), width).filter(|_| start == 0);
        // Whether the record after the last known one can be read was not asked.
        let most = if readable == LISTED && !at_end {
            width * LISTED
        } else {
            usize::MAX
        };
        for length in around.chain([list.len()]).filter(|&n| n <= most) {
            let rust = listed(length, width, readable, at_end);
            self.numbers.clear();
            self.numbers.resize(length + 2 * NUMBER_GUARD, NUMBER);
            let lent = &mut self.numbers[NUMBER_GUARD..NUMBER_GUARD + length];
            let image = Image::of(input);
            let ours = if named {
                proved::named_records(image, input, base, count, size, start, lent)?
            } else {
                proved_tables::field_records(image, base, count, size, start, lent)?
            };
            same!(
                rust,
                ours,
                "records of {count}, {size} apart from {base:x}, from {start} on in {length} numbers, named: {named}"
            );
            same!(
                true,
                self.holds(&list[..width * rust[0] as usize]),
                "numbers of the records from {start} on, {size} apart from {base:x}, in {length} numbers, named: {named}"
            );
            self.counts.lists += 1;
        }
        Ok(())
    }

    /// The offset vector of a descriptor: from its singleton pointer, and for other metadata addresses.
    pub fn field_offsets(
        &mut self,
        input: &Input,
        row: &TypeDescriptor<'_, '_>,
    ) -> Result<(), String> {
        let image = Image::of(input);
        let (address, flags) = (row.address(), row.flags().0);
        let own = row
            .singleton_metadata_pointer()
            .map_or(0, |p| p.metadata_va);
        let rust = row.field_offsets();
        let ours = proved::static_field_offsets(image, address, flags)?;
        same!(
            vector_numbers(input, row, own, rust.as_deref()),
            ours,
            "static field offsets of {address:x}, flags {flags:x}"
        );
        let others = [own, 0, input.fields_va, u64::MAX, address];
        for metadata_va in others.into_iter().chain(input.targets.first().copied()) {
            let rust = row.field_offsets_at(metadata_va);
            let ours = proved::field_offsets(image, address, flags, metadata_va)?;
            same!(
                vector_numbers(input, row, metadata_va, rust.as_deref()),
                ours,
                "field offsets of {address:x}, flags {flags:x}, for the metadata at {metadata_va:x}"
            );
            self.counts.offsets += 1;
            let Some(rust) = rust else { continue };
            let count = rust.len() as u32;
            let first = 0..count.min(OFFSETS);
            for number in first.chain([count - 1, count, count + 1, u32::MAX]) {
                let one = rust.get(number as usize).map_or([0; 2], |&n| [1, n.into()]);
                let ours = proved::field_offset(image.bytes, ours[1] as usize, count, number)?;
                same!(one, ours, "field offset {number} of {count} of {address:x}");
            }
        }
        Ok(())
    }

    /// One entry of a vector at any place, around the image's end too: nothing unless the vector is whole.
    pub fn made_up_offsets(&mut self, input: &Input, address: u64) -> Result<(), String> {
        let bytes = &input.image[..];
        let mixed = mix(address);
        let count = [0, 1, 2, 3, 5, u32::MAX, 1 << 30, 1 << 31][mixed as usize & 7];
        let whole = (count as usize) * 4;
        let end = bytes.len().wrapping_sub(whole);
        let places = [
            0,
            end.wrapping_sub(1),
            end,
            end.wrapping_add(1),
            bytes.len(),
            usize::MAX,
            (mixed >> 8) as usize % (bytes.len() + 1),
        ];
        for place in places {
            let vector = place
                .checked_add(whole)
                .and_then(|end| bytes.get(place..end));
            for number in [0, count.wrapping_sub(1), count] {
                let rust = vector.filter(|_| number < count);
                let rust = rust.and_then(|v| read_u32_le_at(v, 4 * number as usize));
                let rust = rust.map_or([0; 2], |n| [1, n.into()]);
                let ours = proved::field_offset(bytes, place, count, number)?;
                same!(rust, ours, "offset {number} of {count} at place {place:x}");
                self.counts.offsets += 1;
            }
        }
        Ok(())
    }
}

/// 1, the vector's place in the image, and how many offsets it has.
pub fn vector_numbers(
    input: &Input,
    row: &TypeDescriptor<'_, '_>,
    metadata_va: u64,
    rust: Option<&[u32]>,
) -> [u64; 3] {
    let Some(offsets) = rust else { return [0; 3] };
    let word = match row.body() {
        TypeKindBody::Struct(body) => body.field_offset_vector_offset,
        _ => 0,
    };
    let place = offset_of(input, metadata_va.wrapping_add(8 * u64::from(word)));
    [1, place.unwrap_or(u64::MAX), offsets.len() as u64]
}
