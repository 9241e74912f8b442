//! What is certain by an image's first bytes (docs/CUT.md), tried by running: a row that the proved call says is certain, all that the cut
//! listing has of it, and a joined name, are the whole image's, and those of the same bytes followed by others. Which are certain is
//! computed here again from the bytes.

use super::{Item, Kind, Listing, Text, Whole, pointer, slot_address};
use crate::generate::Rng;
use crate::input::Input;
use crate::proved;
use crate::proved_archive::{name_certain, row_certain};
use crate::proved_full::Image;
use std::cell::Cell;

#[derive(Default)]
pub struct Counts {
    /// How many slots were asked and how many were certain: with a row, and without; and the joined names of those with a row.
    rows: [u64; 2],
    empty: [u64; 2],
    names: [u64; 2],
    /// Items on certain rows and of the fields section, and texts beside them.
    items: u64,
    texts: u64,
}

impl Counts {
    pub fn line(&self) -> String {
        let of = |[all, certain]: [u64; 2]| format!("{certain} of {all}");
        format!(
            "certain: rows {}, slots without a row {}, joined names {}, items {}, texts {}",
            of(self.rows),
            of(self.empty),
            of(self.names),
            self.items,
            self.texts
        )
    }
}

/// Whether what arrived settles what is read at an address: an address that is not in the file is settled.
fn bytes_settled(arrived: &Whole, address: u64, length: u64) -> bool {
    arrived.offset(address).is_none() || arrived.bytes(address, length).is_some()
}

fn text_settled(arrived: &Whole, address: u64) -> bool {
    match arrived.offset(address).filter(|_| address != 0) {
        Some(start) => {
            let rest = arrived.image.get(start as usize..).unwrap_or(&[]);
            rest.contains(&0)
        }
        None => true,
    }
}

fn row_settled(arrived: &Whole, input: &Input, slot: u64) -> bool {
    let Some(address) = slot_address(input, slot) else {
        return true;
    };
    match (arrived.bytes(address, 20), address.checked_add(8)) {
        (Some(header), Some(name)) => arrived
            .u32_at(header.start + 8)
            .is_some_and(|offset| text_settled(arrived, pointer(name, offset))),
        (Some(_), None) => true,
        (None, _) => bytes_settled(arrived, address, 20),
    }
}

/// A context's name, if its kind has one.
fn context_name_settled(arrived: &Whole, address: u64, flags: u32) -> bool {
    let named = matches!(flags & 0x1f, 0 | 1 | 3 | 16..=18);
    let Some(slot) = address.checked_add(8).filter(|_| named) else {
        return true;
    };
    match arrived.bytes(slot, 4) {
        Some(bytes) => match arrived.u32_at(bytes.start) {
            Some(offset) => offset == 0 || text_settled(arrived, pointer(slot, offset)),
            None => false,
        },
        None => bytes_settled(arrived, slot, 4),
    }
}

/// The chain ends at an address, or its 257th context can be read; and each name on it is settled.
fn chain_settled(arrived: &Whole, mut address: u64) -> bool {
    for left in (0..=super::CONTEXTS).rev() {
        let Some(parent_slot) = address.checked_add(4) else {
            return true;
        };
        if address == 0 {
            return true;
        }
        let Some(header) = arrived.bytes(address, 8) else {
            return bytes_settled(arrived, address, 8);
        };
        if left == 0 {
            return true;
        }
        let (Some(flags), Some(parent)) = (
            arrived.u32_at(header.start),
            arrived.u32_at(header.start + 4),
        ) else {
            return false;
        };
        if !context_name_settled(arrived, address, flags) {
            return false;
        }
        address = if parent == 0 {
            0
        } else {
            pointer(parent_slot, parent)
        };
    }
    true
}

/// The joined name for buffers of these lengths, each with its refusal or the buffer after it.
fn names(image: Image<'_>, row: &Item) -> Vec<Result<Vec<u8>, String>> {
    let [_, _, parent, place, length] = row.numbers[..] else {
        return Vec::new();
    };
    [0, 3, length as usize, 70_000]
        .iter()
        .map(|&size| {
            let mut buffer = vec![0xaa; size];
            let name = proved::qualified_name(
                image.bytes,
                image.segments,
                parent,
                place,
                length,
                &mut buffer,
            )?;
            buffer.truncate(name as usize);
            Ok(buffer)
        })
        .collect()
}

/// What is certain by the image's first `cut` bytes holds of the image `longer`, whose listing this is.
fn held(
    input: &Input,
    cut: usize,
    listed: &[Item],
    longer: &[u8],
    items: &[Item],
    counts: &mut Counts,
) -> Result<(), String> {
    let segments = input.numbers();
    let bytes = &input.image[..cut];
    let arrived = Image { bytes, segments };
    let read = Whole {
        image: bytes,
        ..Whole::of(input)
    };
    let whole = Image {
        bytes: longer,
        segments,
    };
    let (kept_items, kept_texts) = (Cell::new(0), Cell::new(0));
    // An item of the longer image, word for word; and the texts beside it, if they end before the last byte that arrived.
    let kept = |item: &Item| {
        let other = items.iter().find(|other| other.key == item.key);
        let same = |o: &&Item| o.numbers == item.numbers && o.name == item.name;
        let Some(other) = other.filter(same) else {
            return Err(format!("{item:?} was certain, and there is {other:?}"));
        };
        kept_items.set(kept_items.get() + 1);
        for (here, there) in item.texts.iter().zip(&other.texts) {
            let Text::Image(place, text) = here else {
                continue;
            };
            if place + (text.len() as u64) < cut as u64 {
                kept_texts.set(kept_texts.get() + 1);
                if there != here {
                    return Err(format!(
                        "the text beside {item:?} was certain, and it is {other:?}"
                    ));
                }
            }
        }
        Ok(())
    };
    for slot in 0..input.types.len() as u64 / 4 {
        let row = |items: &[Item]| {
            let of_slot = |item: &Item| item.key.kind == Kind::Row && item.key.of == slot;
            items.iter().position(of_slot)
        };
        let certain = row_certain(arrived, input, slot as usize)?;
        if certain != u64::from(row_settled(&read, input, slot)) {
            return Err(format!("slot {slot}: certain is told as {certain}"));
        }
        let here = row(listed).map(|at| &listed[at]);
        let counted = if here.is_some() {
            &mut counts.rows
        } else {
            &mut counts.empty
        };
        counted[0] += 1;
        counted[1] += certain;
        let named = name_certain(arrived, input, slot as usize)?;
        let Some(here) = here else {
            if certain == 1 && row(items).is_some() || named != certain {
                return Err(format!(
                    "slot {slot} has a row, and was certain to have none"
                ));
            }
            continue;
        };
        let [_, _, parent, place, length] = here.numbers[..] else {
            return Err("a row of other numbers".into());
        };
        let settled = place + length < cut as u64;
        let chain = settled && chain_settled(&read, parent);
        if certain != u64::from(settled) || named != u64::from(chain) {
            return Err(format!(
                "{here:?}: certain is told as {certain}, of its joined name as {named}"
            ));
        }
        counts.names[0] += 1;
        counts.names[1] += named;
        if named == 1 && names(arrived, here) != names(whole, here) {
            return Err(format!(
                "{here:?}: its joined name was certain and is another"
            ));
        }
        if certain == 0 {
            continue;
        }
        let hung = |item: &&Item| !matches!(item.key.kind, Kind::Descriptor | Kind::Record);
        for item in listed.iter().filter(hung).filter(|i| i.key.of == slot) {
            kept(item)?;
        }
    }
    // Items of the fields section need no row.
    for item in listed {
        if matches!(item.key.kind, Kind::Descriptor | Kind::Record) {
            kept(item)?;
        }
    }
    counts.items += kept_items.get();
    counts.texts += kept_texts.get();
    Ok(())
}

/// What is certain by the first `cut` bytes, compared with the whole image, and every fourth time with another image that starts with the
/// same bytes.
pub fn check(
    input: &Input,
    cut: usize,
    whole: &[Item],
    metadata: &[(u64, u64)],
    counts: &mut Counts,
) -> Result<(), String> {
    let listed = Listing::of(input, cut, metadata)?;
    held(input, cut, &listed, &input.image, whole, counts)?;
    let mut rng = Rng::new(input.image.len() as u64, cut as u64);
    if !rng.one_in(4) {
        return Ok(());
    }
    let mut other = input.clone();
    other.image.truncate(cut);
    for _ in 0..1 + rng.below(2 * (input.image.len() - cut) + 8) {
        let byte = rng.next() as u8;
        other.image.push(if byte < 64 { 0 } else { byte & 0x7f });
    }
    let items = Listing::of(&other, other.image.len(), metadata)?;
    let image = other.image.clone();
    held(input, cut, &listed, &image, &items, counts)
        .map_err(|what| format!("with another rest, {what}"))
}
