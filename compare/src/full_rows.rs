//! Rows with body and all blocks in one call compared: every record against the Rust's row, body and blocks.

use crate::check::{Checker, NUMBER, NUMBER_GUARD, place_in, same};
use crate::full::{body_blocks, body_numbers};
use crate::input::Input;
use crate::proved_full::Image;
use crate::proved_fullrows as proved;
use crate::proved_fullrows::{FullRow, Given, NUMBERS};
use darwinscope::swift::{SwiftRuntime, TypeDescriptor};

impl Checker {
    /// The record of a row that was found in a slot.
    fn full_row(&mut self, input: &Input, row: &TypeDescriptor<'_, '_>, slot: u64) -> FullRow {
        let (name_place, name_length) = place_in(&input.image, row.name());
        let mut blocks = [[0; 4]; 11];
        body_blocks(row.body(), &mut self.blocks);
        for &[kind, a, b, c] in &self.blocks {
            blocks[kind as usize] = [1, a, b, c];
        }
        FullRow {
            slot,
            address: row.address(),
            flags: row.flags().0.into(),
            parent: row.parent_address(),
            name_place,
            name_length,
            body: body_numbers(input, row),
            blocks,
        }
    }

    /// All records in buffers of sizes around their length, from the first slot and from others; and going on in buffers for one and for two records.
    pub fn full_rows(&mut self, input: &Input, rt: &SwiftRuntime<'_>) -> Result<(), String> {
        let mut records = std::mem::take(&mut self.list);
        records.clear();
        for (number, row) in rt.types().enumerate() {
            let record = self.full_row(input, &row, self.slots[number]);
            records.extend_from_slice(&proved::numbers(&record));
        }
        let whole = records.len();
        let slots = input.types.len() / 4;
        let less = [1, NUMBERS - 1, NUMBERS, NUMBERS + 1].map(|n| whole.checked_sub(n));
        let more = [0, 1, NUMBERS - 1, NUMBERS, NUMBERS + 1].map(|n| Some(whole + n));
        let few = [0, 1, NUMBERS - 1, NUMBERS, NUMBERS + 1].map(Some);
        for size in less.into_iter().chain(more).chain(few).flatten() {
            self.full_rows_from(input, &records, 0, size)?;
        }
        for start in [1, slots / 2, slots, slots + 3, usize::MAX] {
            self.full_rows_from(input, &records, start, whole)?;
        }
        for size in [NUMBERS, 2 * NUMBERS + 7] {
            let mut start = 0;
            loop {
                let given = self.full_rows_from(input, &records, start, size)?;
                if given.all == 1 {
                    break;
                }
                same!(true, given.records > 0, "the row of slot {start} fits");
                start = given.next as usize;
            }
        }
        self.list = records;
        Ok(())
    }

    /// The records from a slot on, into a buffer of a size; `records` has all of them.
    fn full_rows_from(
        &mut self,
        input: &Input,
        records: &[u64],
        start: usize,
        size: usize,
    ) -> Result<Given, String> {
        self.counts.full_rows += 1;
        let first = self.slots.partition_point(|&slot| slot < start as u64);
        let given = (self.slots.len() - first).min(size / NUMBERS);
        let past = (input.types.len() / 4).max(start) as u64;
        let rust = Given {
            records: given as u64,
            next: self.slots.get(first + given).copied().unwrap_or(past),
            all: u64::from(first + given == self.slots.len()),
        };
        self.numbers.clear();
        self.numbers.resize(size + 2 * NUMBER_GUARD, NUMBER);
        let lent = &mut self.numbers[NUMBER_GUARD..NUMBER_GUARD + size];
        let ours = proved::full_rows(Image::of(input), input, start, lent)?;
        same!(
            &rust,
            &ours,
            "full rows from slot {start} in {size} numbers"
        );
        let written = &records[NUMBERS * first..NUMBERS * (first + given)];
        for (i, record) in written.chunks_exact(NUMBERS).enumerate() {
            let at = NUMBER_GUARD + NUMBERS * i;
            same!(
                record,
                &self.numbers[at..at + NUMBERS],
                "record {i} of the full rows from slot {start} in {size} numbers"
            );
        }
        same!(
            true,
            self.holds(written),
            "numbers left alone by the full rows from slot {start} in {size} numbers"
        );
        Ok(ours)
    }
}
