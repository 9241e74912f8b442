//! Inputs of the full and the archive level, made from a seed: descriptors with all kinds of bodies and blocks, their counts from 0 to
//! 2^32 - 1, at addresses up to 2^64; fields sections; offset vectors; then bytes changed and cut.

use crate::generate::{Rng, change_bytes, garbage, map, relative, text};
use crate::input::Input;
use crate::plant::{Plan, Planter, Slot};

#[derive(Default)]
pub struct FullGenerator {
    texts: Vec<u8>,
    /// Where texts start, among the texts.
    starts: Vec<usize>,
    plans: Vec<Plan>,
    /// Kind, record size and count of each field descriptor.
    fields: Vec<(u16, u16, u32)>,
    marks: Vec<usize>,
    parts: Vec<(u64, usize)>,
    scratch: Vec<u8>,
}

/// What relative offsets may refer to.
struct Targets<'g> {
    base: u64,
    length: usize,
    texts_va: u64,
    starts: &'g [usize],
    metadata_va: u64,
    context_va: u64,
    strings_va: u64,
    strings: usize,
}

/// The bytes before an offset vector and of it.
const VECTOR: usize = 44;
const CONTEXT: usize = 12;

/// Counts of entries: mostly such that the blocks after them are in the file, now and then such that they are far away.
fn count(rng: &mut Rng) -> u32 {
    match rng.below(24) {
        0 => u32::MAX,
        1 => rng.next() as u32,
        2 => 7 + rng.below(3) as u32,
        _ => rng.of(&[0, 0, 1, 1, 2, 3, 4]),
    }
}

fn plan(rng: &mut Rng) -> Plan {
    let kind = match rng.below(12) {
        0 => rng.below(32) as u32,
        1..=5 => 16,
        6..=9 => 17,
        _ => 18,
    };
    // Initialization, bit 3, default overrides, resilient superclass, overrides, vtable; and the bits that no block depends on.
    let mut types = rng.of(&[0, 0, 1, 1, 2, 3]);
    for bit in [3, 6, 13, 14, 15] {
        types |= (rng.below(2) as u32) << bit;
    }
    if rng.one_in(2) {
        types |= rng.next() as u32 & 0x1fb4;
    }
    // Half of the structs refer to an offset vector.
    let vector = kind == 17 && rng.one_in(2);
    if vector {
        types = types & !3 | 9;
    }
    let low =
        kind | (rng.next() as u32 & 0xe0) | (rng.next() as u32 & 0xff00) * rng.below(2) as u32;
    let small = |rng: &mut Rng| match rng.below(16) {
        0 => u32::MAX,
        1 => rng.next() as u32,
        _ => rng.below(5) as u32,
    };
    let mut body = [small(rng), small(rng), small(rng), rng.next() as u32];
    if vector && !rng.one_in(4) {
        body[0] = 1 + rng.below(5) as u32;
        body[1] = 1 + rng.below(3) as u32;
    }
    Plan {
        flags: low | types << 16,
        body,
        extra: rng.of(&[0, 1, 1, 2, 3, 0x8000_0000, u32::MAX]),
        parameters: rng.of(&[0, 1, 2, 3, 4, 5, 5, 65_535]),
        requirements: rng.of(&[0, 0, 0, 0, 1, 1, 2, 65_535]),
        methods: count(rng),
        overrides: count(rng),
        prespecializations: count(rng),
        default_overrides: count(rng),
        set: rng.of(&[0, 1, 2, 3, 0x8000, 0xffff, 0x0180]),
    }
}

fn field(rng: &mut Rng) -> (u16, u16, u32) {
    let kind = match rng.below(8) {
        0 => rng.next() as u16,
        _ => rng.below(10) as u16,
    };
    let size = rng.of(&[12, 12, 12, 12, 12, 12, 0, 1, 11, 13, 65_535]);
    let count = match rng.below(16) {
        0 => u32::MAX,
        1 => rng.next() as u32,
        _ => rng.below(4) as u32,
    };
    (kind, size, if size == 65_535 { count % 2 } else { count })
}

impl Targets<'_> {
    fn text(&self, rng: &mut Rng) -> u64 {
        let start = self.starts[rng.below(self.starts.len())];
        self.texts_va.wrapping_add(start as u64)
    }

    fn anywhere(&self, rng: &mut Rng) -> u64 {
        self.base.wrapping_add(rng.below(self.length + 8) as u64)
    }

    fn fill(&self, rng: &mut Rng, va: u64, slot: Slot) -> [u8; 4] {
        if slot == Slot::Number {
            return (rng.next() as u32).to_le_bytes();
        }
        let to = match rng.below(16) {
            0 | 1 if slot != Slot::Name => return [0; 4],
            0 => return [0; 4],
            2 => return garbage(rng),
            // Address 0, and around it.
            3 => rng.below(3) as u64,
            4 if slot != Slot::Name => self.anywhere(rng),
            _ => match slot {
                Slot::Parent if rng.one_in(2) => return [0; 4],
                Slot::Parent => self.context_va,
                Slot::Name | Slot::Superclass | Slot::TypeName => self.text(rng),
                Slot::FieldName if rng.one_in(2) => {
                    let off = rng.below(self.strings + 2) as u64;
                    self.strings_va.wrapping_add(off)
                }
                Slot::FieldName => self.text(rng),
                Slot::Metadata => self.metadata_va,
                _ => self.anywhere(rng),
            },
        };
        relative(va, to)
    }
}

impl FullGenerator {
    pub fn make(&mut self, seed: u64, number: u64, input: &mut Input) {
        let mut rng = Rng::new(seed ^ 0x5eed_f011, number);
        let rng = &mut rng;
        self.planted(rng, input);
        match rng.below(8) {
            0 | 1 => change(rng, input),
            2 => self.cut(rng, input),
            3 => {
                change(rng, input);
                self.cut(rng, input);
            }
            _ => {}
        }
    }

    fn planted(&mut self, rng: &mut Rng, input: &mut Input) {
        input.clear();
        let shift = if rng.one_in(4) { rng.below(24) } else { 0 };
        self.decide(rng);
        // Only lengths: a descriptor's length does not depend on its offsets.
        let descriptors = self.written(&mut |_, _| [0; 4], 0, true);
        let fields = self.written(&mut |_, _| [0; 4], 0, false);
        let texts = self.texts.len();
        let front = texts + CONTEXT + VECTOR + fields;
        let descriptors_first = rng.one_in(2);
        let vector_last = rng.one_in(2);
        let front_at = if descriptors_first { descriptors } else { 0 };
        let descriptors_at = if descriptors_first { 0 } else { front };
        let fields_at = front_at + texts + CONTEXT + if vector_last { 0 } else { VECTOR };
        let vector_at = front_at + texts + CONTEXT + if vector_last { fields } else { 0 };
        let length = front + descriptors;
        let base = base(rng, length, descriptors_at, descriptors);
        let va = |off: usize| base.wrapping_add(off as u64);
        strings(rng, input, base, length);
        let starts = std::mem::take(&mut self.starts);
        let targets = Targets {
            base,
            length,
            texts_va: va(front_at),
            starts: &starts,
            metadata_va: va(vector_at),
            context_va: va(front_at + texts),
            strings_va: input.strings_va,
            strings: input.strings.len(),
        };
        self.marks.clear();
        self.parts.clear();
        input.image.resize(shift, 0xee);
        for part in 0..2 {
            if (part == 0) == descriptors_first {
                let mut fill = |va, slot| targets.fill(rng, va, slot);
                self.written(&mut fill, va(descriptors_at), true);
                for mark in &mut self.marks {
                    *mark += input.image.len();
                }
                for part in &mut self.parts {
                    part.1 += input.image.len();
                }
                input.image.extend_from_slice(&self.scratch);
                continue;
            }
            input.image.extend_from_slice(&self.texts);
            context(rng, input, targets.context_va, &targets);
            if !vector_last {
                vector(rng, input);
            }
            let (marks, parts) = (self.marks.clone(), self.parts.clone());
            let mut fill = |va, slot| targets.fill(rng, va, slot);
            self.written(&mut fill, va(fields_at), false);
            (self.marks, self.parts) = (marks, parts);
            input.image.extend_from_slice(&self.scratch);
            input.fields.extend_from_slice(&self.scratch);
            if vector_last {
                vector(rng, input);
            }
        }
        self.starts = starts;
        self.sections(rng, input, base, fields_at, descriptors_at, length);
        let mapped = (input.image.len() - shift) as u64;
        map(rng, input, shift as u64, base, mapped);
        for &(va, off) in &self.parts {
            let length = ((input.image.len() - off) as u64).min(u64::MAX - va);
            let at = rng.below(2) * input.segments.len();
            input.segments.insert(at, [va, length, off as u64, length]);
        }
        self.targets(rng, input, base, length);
    }

    /// Everything in the input: texts, descriptors, field descriptors.
    fn decide(&mut self, rng: &mut Rng) {
        self.texts.clear();
        self.starts.clear();
        for _ in 0..1 + rng.below(3) {
            self.starts.push(self.texts.len());
            text(rng, &mut self.texts);
            if !rng.one_in(8) {
                self.texts.push(0);
            }
        }
        self.plans.clear();
        for _ in 0..1 + rng.below(2) {
            self.plans.push(plan(rng));
        }
        self.fields.clear();
        for _ in 0..rng.below(4) {
            self.fields.push(field(rng));
        }
    }

    /// The descriptors or the field descriptors into the scratch bytes, and how long they are.
    fn written(
        &mut self,
        fill: &mut impl FnMut(u64, Slot) -> [u8; 4],
        va: u64,
        descriptors: bool,
    ) -> usize {
        self.scratch.clear();
        self.marks.clear();
        self.parts.clear();
        let mut planter = Planter {
            image: &mut self.scratch,
            va,
            marks: &mut self.marks,
            parts: &mut self.parts,
        };
        if descriptors {
            for plan in &self.plans {
                // Each where the file has it, wherever the one before ended.
                planter.va = va.wrapping_add(planter.image.len() as u64);
                planter.descriptor(plan, fill);
            }
        } else {
            for &(kind, size, count) in &self.fields {
                planter.field_descriptor(kind, size, count, fill);
            }
        }
        self.scratch.len()
    }

    /// The slots and the fields section's address; the descriptors' places are the marks before flags words.
    fn sections(
        &self,
        rng: &mut Rng,
        input: &mut Input,
        base: u64,
        fields_at: usize,
        descriptors_at: usize,
        length: usize,
    ) {
        input.types_va = match rng.below(4) {
            0 => base.wrapping_add(0x1000),
            1 => 0u64.wrapping_sub(rng.below(24) as u64),
            _ => base.wrapping_add(rng.below(400) as u64),
        };
        let mut at = descriptors_at as u64;
        for plan in &self.plans {
            let slot_va = input.types_va.wrapping_add(input.types.len() as u64);
            let rel = match rng.below(16) {
                0 => relative(slot_va, base.wrapping_add(rng.below(length + 8) as u64)),
                _ => relative(slot_va, base.wrapping_add(at)),
            };
            input.types.extend_from_slice(&rel);
            at += size_of(plan);
        }
        let own = base.wrapping_add(fields_at as u64);
        input.fields_va = match rng.below(10) {
            0 => base.wrapping_add(rng.below(length + 40) as u64),
            1 => 0u64.wrapping_sub(rng.below(input.fields.len() + 24) as u64),
            2 => 0u64.wrapping_sub((4 * rng.below(input.fields.len() / 4 + 5)) as u64),
            _ => own,
        };
        for _ in 0..rng.below(20) * usize::from(rng.one_in(4)) {
            input.fields.push(rng.next() as u8);
        }
    }

    fn targets(&self, rng: &mut Rng, input: &mut Input, base: u64, length: usize) {
        for _ in 0..3 {
            let target = match rng.below(7) {
                0 => rng.below(8) as u64,
                1 => 0u64.wrapping_sub(rng.below(64) as u64),
                2 | 3 => base.wrapping_add(rng.below(length + 4) as u64),
                4 if !self.marks.is_empty() => {
                    let off = self.marks[rng.below(self.marks.len())];
                    base.wrapping_add(off as u64)
                }
                5 => input
                    .fields_va
                    .wrapping_add(rng.below(input.fields.len() + 2) as u64),
                _ => input
                    .strings_va
                    .wrapping_add(rng.below(input.strings.len() + 2) as u64),
            };
            input.targets.push(target);
        }
    }

    /// Cuts the image anywhere, or in a header; and the fields section now and then.
    fn cut(&self, rng: &mut Rng, input: &mut Input) {
        let length = match rng.below(2) {
            0 if !self.marks.is_empty() => {
                let mark = self.marks[rng.below(self.marks.len())];
                (mark + rng.below(24)).saturating_sub(4)
            }
            _ => rng.below(input.image.len() + 1),
        };
        input.image.truncate(length);
        if rng.one_in(4) {
            let length = rng.below(input.fields.len() + 1);
            input.fields.truncate(length);
        }
    }
}

/// The bytes of a descriptor that are written.
fn size_of(plan: &Plan) -> u64 {
    let mut image = Vec::new();
    let mut planter = Planter {
        image: &mut image,
        va: 0,
        marks: &mut Vec::new(),
        parts: &mut Vec::new(),
    };
    planter.descriptor(plan, &mut |_, _| [0; 4]);
    image.len() as u64
}

/// Addresses of all sizes; such that the descriptors' bodies and blocks reach 2^64; and such that their longest tables do.
fn base(rng: &mut Rng, length: usize, descriptors_at: usize, descriptors: usize) -> u64 {
    match rng.below(11) {
        0 | 1 => 0x1000,
        2 => 0x1_0000_0000,
        3 => 0,
        4 => rng.below(24) as u64,
        5 => 0u64.wrapping_sub(rng.below(length + 48) as u64),
        6 => 0u64.wrapping_sub((length + rng.below(12)) as u64),
        7 => 0u64.wrapping_sub((descriptors_at + rng.below(descriptors + 16)) as u64),
        8 => {
            let table = u64::from(u32::MAX) * rng.of(&[4, 8, 8, 12, 20]);
            let before = descriptors_at + 28 + rng.below(descriptors);
            0u64.wrapping_sub(table).wrapping_sub(before as u64)
        }
        9 => 0x8000_0000_0000_0000 - rng.below(64) as u64,
        _ => rng.next(),
    }
}

fn strings(rng: &mut Rng, input: &mut Input, base: u64, length: usize) {
    for _ in 0..rng.below(4) {
        text(rng, &mut input.strings);
        if !rng.one_in(8) {
            input.strings.push(0);
        }
    }
    input.strings_va = match rng.below(6) {
        0 => base.wrapping_add(rng.below(length + 40) as u64),
        1 => 0u64.wrapping_sub(rng.below(input.strings.len() + 4) as u64),
        2 => rng.below(8) as u64,
        _ => base.wrapping_add(0x2000),
    };
}

fn context(rng: &mut Rng, input: &mut Input, va: u64, targets: &Targets<'_>) {
    let kind = rng.of(&[0u32, 0, 1, 2, 16, 17]);
    input.image.extend_from_slice(&kind.to_le_bytes());
    input.image.extend_from_slice(&[0; 4]);
    let name = relative(va.wrapping_add(8), targets.text(rng));
    input.image.extend_from_slice(&name);
}

fn vector(rng: &mut Rng, input: &mut Input) {
    for _ in 0..VECTOR / 4 {
        let n = rng.next() as u32 & rng.of(&[0xff, u32::MAX]);
        input.image.extend_from_slice(&n.to_le_bytes());
    }
}

fn change(rng: &mut Rng, input: &mut Input) {
    for _ in 0..1 + rng.below(4) {
        let bytes = match rng.below(10) {
            0 => &mut input.types,
            1 => &mut input.strings,
            2 | 3 => &mut input.fields,
            _ => &mut input.image,
        };
        change_bytes(rng, bytes);
    }
}
