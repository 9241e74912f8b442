//! Descriptors with their bodies and blocks, and field descriptors with their records, written as bytes.

/// What a descriptor says.
#[derive(Clone, Copy, Default)]
pub struct Plan {
    pub flags: u32,
    /// The numbers of the body from the first that is not an offset; for a class, without its second word.
    pub body: [u32; 4],
    /// A class's second word: the positive size or the extra class flags.
    pub extra: u32,
    pub parameters: u16,
    pub requirements: u16,
    pub methods: u32,
    pub overrides: u32,
    pub prespecializations: u32,
    pub default_overrides: u32,
    pub set: u16,
}

/// What four bytes are for.
#[derive(Clone, Copy, PartialEq)]
pub enum Slot {
    Parent,
    Name,
    Superclass,
    /// The singleton pointer.
    Metadata,
    TypeName,
    FieldName,
    /// Any other relative offset.
    Offset,
    /// A number without a meaning for the readers.
    Number,
}

/// The most entries of a table that are written; the others are passed over.
const WRITTEN: u32 = 6;

/// Writes at an image's end.
pub struct Planter<'i> {
    pub image: &'i mut Vec<u8>,
    /// The address of the next byte.
    pub va: u64,
    /// Where each block starts in the image.
    pub marks: &'i mut Vec<usize>,
    /// Where bytes lie that do not follow the earlier ones in memory: the address, and the offset in the image.
    pub parts: &'i mut Vec<(u64, usize)>,
}

impl Planter<'_> {
    pub fn bytes(&mut self, bytes: &[u8]) {
        self.image.extend_from_slice(bytes);
        self.va = self.va.wrapping_add(bytes.len() as u64);
    }

    fn word(&mut self, n: u32) {
        self.bytes(&n.to_le_bytes());
    }

    fn half(&mut self, n: u16) {
        self.bytes(&n.to_le_bytes());
    }

    fn slot(&mut self, slot: Slot, fill: &mut impl FnMut(u64, Slot) -> [u8; 4]) {
        let bytes = fill(self.va, slot);
        self.bytes(&bytes);
    }

    /// Entries of a number of slots: the first are written, and memory goes on after the last.
    fn table(&mut self, count: u32, slots: &[Slot], fill: &mut impl FnMut(u64, Slot) -> [u8; 4]) {
        for _ in 0..count.min(WRITTEN) {
            for &slot in slots {
                self.slot(slot, fill);
            }
        }
        if count > WRITTEN {
            let left = u64::from(count - WRITTEN) * 4 * slots.len() as u64;
            self.va = self.va.wrapping_add(left);
            self.parts.push((self.va, self.image.len()));
        }
    }

    fn mark(&mut self) {
        self.marks.push(self.image.len());
    }

    /// A descriptor, its body, and its blocks.
    pub fn descriptor(&mut self, plan: &Plan, fill: &mut impl FnMut(u64, Slot) -> [u8; 4]) {
        let class = plan.flags & 31 == 16;
        let resilient = class && plan.flags >> 29 & 1 == 1;
        self.mark();
        self.word(plan.flags);
        for slot in [Slot::Parent, Slot::Name, Slot::Offset, Slot::Offset] {
            self.slot(slot, fill);
        }
        self.mark();
        if class {
            self.slot(Slot::Superclass, fill);
            if resilient {
                self.slot(Slot::Offset, fill);
            } else {
                self.word(plan.body[3]);
            }
            self.word(plan.extra);
            for n in &plan.body[..3] {
                self.word(*n);
            }
        } else {
            self.word(plan.body[0]);
            self.word(plan.body[1]);
        }
        if plan.flags >> 7 & 1 == 1 {
            self.generic(plan, fill);
        }
        if resilient {
            self.mark();
            self.slot(Slot::Offset, fill);
        }
        self.middle(plan, class, resilient && plan.extra & 1 == 1, fill);
        self.last(plan, class, fill);
    }

    fn generic(&mut self, plan: &Plan, fill: &mut impl FnMut(u64, Slot) -> [u8; 4]) {
        self.mark();
        self.slot(Slot::Offset, fill);
        self.slot(Slot::Offset, fill);
        self.half(plan.parameters);
        self.half(plan.requirements);
        self.slot(Slot::Number, fill);
        let words = u32::from(plan.parameters).div_ceil(4);
        self.table(words, &[Slot::Number], fill);
        self.table(plan.requirements.into(), &[Slot::Offset; 3], fill);
    }

    /// Initialization, methods, overrides, stub.
    fn middle(
        &mut self,
        plan: &Plan,
        class: bool,
        stub: bool,
        fill: &mut impl FnMut(u64, Slot) -> [u8; 4],
    ) {
        let initialization = plan.flags >> 16 & 3;
        if initialization == 1 || initialization == 2 {
            self.mark();
            for _ in 0..if initialization == 1 { 3 } else { 1 } {
                self.slot(Slot::Offset, fill);
            }
        }
        if class && plan.flags >> 31 == 1 {
            self.mark();
            self.slot(Slot::Number, fill);
            self.word(plan.methods);
            self.table(plan.methods, &[Slot::Number, Slot::Offset], fill);
        }
        if class && plan.flags >> 30 & 1 == 1 {
            self.mark();
            self.word(plan.overrides);
            self.table(plan.overrides, &[Slot::Offset; 3], fill);
        }
        if stub {
            self.mark();
            self.slot(Slot::Offset, fill);
        }
    }

    /// Prespecializations, invertible set, singleton pointer, default overrides.
    fn last(&mut self, plan: &Plan, class: bool, fill: &mut impl FnMut(u64, Slot) -> [u8; 4]) {
        let bit_3 = plan.flags >> 19 & 1 == 1;
        let singleton = plan.flags >> 16 & 3 == 1;
        if bit_3 && !singleton {
            self.mark();
            self.word(plan.prespecializations);
            self.table(plan.prespecializations, &[Slot::Offset], fill);
            self.table(plan.prespecializations, &[Slot::Offset], fill);
        }
        if plan.flags >> 5 & 1 == 1 {
            self.mark();
            self.half(plan.set);
            self.half(0xfffe);
        }
        if bit_3 && singleton {
            self.mark();
            self.slot(Slot::Metadata, fill);
        }
        if class && plan.flags >> 22 & 1 == 1 {
            self.mark();
            self.word(plan.default_overrides);
            self.table(plan.default_overrides, &[Slot::Offset; 2], fill);
        }
        self.mark();
    }

    /// A field descriptor, and its records as far apart as `size` says; only some bytes of a list that is too long for the section.
    pub fn field_descriptor(
        &mut self,
        kind: u16,
        size: u16,
        count: u32,
        fill: &mut impl FnMut(u64, Slot) -> [u8; 4],
    ) {
        self.mark();
        self.slot(Slot::TypeName, fill);
        self.slot(Slot::TypeName, fill);
        self.half(kind);
        self.half(size);
        self.word(count);
        let start = self.image.len();
        let length = (u64::from(size) * u64::from(count)).min(200) as usize;
        let first = self.va;
        self.image.resize(start + length, 0x3c);
        self.va = self.va.wrapping_add(length as u64);
        // A record that overlaps the one before overwrites part of it.
        for i in 0..count.min(WRITTEN) as usize {
            let distance = i * usize::from(size);
            for (word, slot) in [Slot::Number, Slot::TypeName, Slot::FieldName]
                .iter()
                .enumerate()
            {
                let off = distance + 4 * word;
                if off + 4 <= length {
                    let bytes = fill(first.wrapping_add(off as u64), *slot);
                    self.image[start + off..start + off + 4].copy_from_slice(&bytes);
                }
            }
        }
    }
}
