//! Inputs made from a seed: images with planted descriptors, contexts and texts, the segments that map them, and the sections; then
//! bytes changed and images cut. A seed and a number identify an input.

use crate::input::Input;

/// SplitMix64.
pub struct Rng(u64);

impl Rng {
    pub fn new(seed: u64, number: u64) -> Rng {
        let mut rng =
            Rng(seed.wrapping_mul(0xd134_2543_de82_ef95)
                ^ number.wrapping_mul(0x9e37_79b9_7f4a_7c15));
        rng.next();
        rng
    }

    pub fn next(&mut self) -> u64 {
        self.0 = self.0.wrapping_add(0x9e37_79b9_7f4a_7c15);
        let mut z = self.0;
        z = (z ^ (z >> 30)).wrapping_mul(0xbf58_476d_1ce4_e5b9);
        z = (z ^ (z >> 27)).wrapping_mul(0x94d0_49bb_1331_11eb);
        z ^ (z >> 31)
    }

    pub fn below(&mut self, n: usize) -> usize {
        ((u128::from(self.next()) * n as u128) >> 64) as usize
    }

    pub fn one_in(&mut self, n: usize) -> bool {
        self.below(n) == 0
    }

    pub fn of<T: Copy>(&mut self, list: &[T]) -> T {
        list[self.below(list.len())]
    }
}

/// Where the pieces of an image lie: offsets from the first planted byte.
#[derive(Default)]
pub struct Layout {
    rows: Vec<usize>,
    contexts: Vec<usize>,
    texts: Vec<usize>,
    end: usize,
}

#[derive(Default)]
pub struct Generator {
    layout: Layout,
}

/// Well-formed pieces of a text.
const FORMED: [&[u8]; 16] = [
    b"A",
    b"Clue",
    b"x",
    b"7mModule",
    b".",
    b"",
    &[0xc2, 0x80],
    &[0xdf, 0xbf],
    &[0xe0, 0xa0, 0x80],
    &[0xe2, 0x82, 0xac],
    &[0xed, 0x9f, 0xbf],
    &[0xef, 0xbf, 0xbf],
    &[0xf0, 0x90, 0x80, 0x80],
    &[0xf4, 0x8f, 0xbf, 0xbf],
    &[0x7f],
    &[0x01],
];

/// Ill-formed ones.
const DAMAGED: [&[u8]; 24] = [
    &[0x80],
    &[0xbf],
    &[0xc0, 0x80],
    &[0xc1, 0xbf],
    &[0xc2],
    &[0xc2, 0x41],
    &[0xc2, 0xc2],
    &[0xdf, 0xc0],
    &[0xe0, 0x9f, 0xbf],
    &[0xe0, 0x80, 0x80],
    &[0xe1, 0x80],
    &[0xe2, 0x82],
    &[0xe2, 0x28, 0xa1],
    &[0xed, 0xa0, 0x80],
    &[0xed, 0xbf, 0xbf],
    &[0xef, 0xbf],
    &[0xf0, 0x8f, 0xbf, 0xbf],
    &[0xf0, 0x90, 0x80],
    &[0xf1, 0x80, 0x80, 0x41],
    &[0xf4, 0x90, 0x80, 0x80],
    &[0xf5, 0x80, 0x80, 0x80],
    &[0xf8, 0x88, 0x80, 0x80],
    &[0xfe],
    &[0xff],
];

/// One in this many lists keeps the segments that wrap.
const WRAPPING: usize = 8;

const TYPE_KINDS: [u8; 3] = [16, 17, 18];
/// Numbers of contexts around 8, so many names the proved side keeps before it reads on, and around 32.
const LIST_FULL: [usize; 8] = [7, 8, 9, 10, 31, 32, 33, 34];
const CONTEXT_KINDS: [u8; 12] = [0, 0, 0, 1, 2, 3, 4, 16, 17, 18, 5, 31];

fn put(bytes: &mut Vec<u8>, off: usize, piece: &[u8]) {
    let end = off + piece.len();
    if bytes.len() < end {
        bytes.resize(end, 0);
    }
    bytes[off..end].copy_from_slice(piece);
}

pub fn text(rng: &mut Rng, out: &mut Vec<u8>) {
    for _ in 0..rng.below(4) {
        out.extend_from_slice(rng.of(&FORMED));
    }
    if rng.one_in(6) {
        out.extend_from_slice(rng.of(&DAMAGED));
        if rng.one_in(2) {
            out.extend_from_slice(rng.of(&FORMED));
        }
    }
}

/// A signed offset from one address to another, as far as its 32 bits reach.
pub fn relative(from: u64, to: u64) -> [u8; 4] {
    (to.wrapping_sub(from) as i32).to_le_bytes()
}

pub fn garbage(rng: &mut Rng) -> [u8; 4] {
    let n = match rng.below(5) {
        0 => rng.below(64) as i32 - 32,
        1 => i32::MIN,
        2 => i32::MAX,
        3 => -1,
        _ => rng.next() as i32,
    };
    n.to_le_bytes()
}

fn kind_flags(rng: &mut Rng, kind: u8) -> [u8; 4] {
    let low = kind | (rng.below(8) as u8) << 5;
    let rest = if rng.one_in(2) {
        0
    } else {
        rng.next() as u32 & 0xffff_ff00
    };
    (u32::from(low) | rest).to_le_bytes()
}

impl Generator {
    /// The input with a number: half as planted, the others with bytes changed, cut, or both. A few are chains around the limit, and
    /// around 8 and 32 names.
    pub fn make(&mut self, seed: u64, number: u64, input: &mut Input) {
        let mut rng = Rng::new(seed, number);
        let rng = &mut rng;
        if rng.one_in(2000) {
            let kinds = [rng.of(&CONTEXT_KINDS), rng.of(&CONTEXT_KINDS)];
            let depth = if rng.one_in(2) {
                253 + rng.below(6)
            } else {
                rng.of(&LIST_FULL)
            };
            *input = if rng.one_in(2) {
                chain(depth, &kinds, rng.of(&FORMED), [0; 4])
            } else {
                chain_of_names(depth, &kinds)
            };
        } else {
            self.planted(rng, input);
        }
        match rng.below(8) {
            0 | 1 => change(rng, input),
            2 => cut(rng, input),
            3 => {
                change(rng, input);
                cut(rng, input);
            }
            _ => {}
        }
    }

    fn planted(&mut self, rng: &mut Rng, input: &mut Input) {
        input.clear();
        let shift = if rng.one_in(4) { rng.below(24) } else { 0 };
        self.lay_out(rng);
        let length = self.layout.end;
        let base = match rng.below(9) {
            0 | 1 => 0x1000,
            2 => 0x1_0000_0000,
            3 => 0,
            4 => rng.below(24) as u64,
            5 => 0u64.wrapping_sub(rng.below(length + 48) as u64),
            6 => 0u64.wrapping_sub(length as u64 + rng.below(12) as u64),
            7 => 0x8000_0000_0000_0000 - rng.below(64) as u64,
            _ => rng.next(),
        };
        self.fill(rng, input, shift, base);
        let mapped = (input.image.len() - shift) as u64;
        map(rng, input, shift as u64, base, mapped);
        self.sections(rng, input, base);
    }

    fn lay_out(&mut self, rng: &mut Rng) {
        let l = &mut self.layout;
        l.rows.clear();
        l.contexts.clear();
        l.texts.clear();
        let mut at = 0;
        let mut place = |rng: &mut Rng, list: &mut Vec<usize>, size: usize| {
            // Now and then a gap, or an overlap with what lies before.
            match rng.below(12) {
                0 => at += rng.below(5),
                1 => at -= rng.below(at.min(6) + 1),
                _ => {}
            }
            list.push(at);
            at += size;
        };
        let rows = if rng.one_in(12) { 0 } else { 1 + rng.below(3) };
        let (contexts, texts) = (rng.below(6), 1 + rng.below(4));
        if rng.one_in(2) {
            for _ in 0..rows {
                let size = rng.of(&[20, 28, 44, 60]);
                place(rng, &mut l.rows, size);
            }
        }
        for _ in 0..contexts {
            let size = rng.of(&[8, 12, 12, 12]);
            place(rng, &mut l.contexts, size);
        }
        for _ in 0..texts {
            let size = 1 + rng.below(12);
            place(rng, &mut l.texts, size);
        }
        if l.rows.is_empty() {
            for _ in 0..rows {
                let size = rng.of(&[20, 20, 28, 44]);
                place(rng, &mut l.rows, size);
            }
        }
        l.end = at;
    }

    fn fill(&self, rng: &mut Rng, input: &mut Input, shift: usize, base: u64) {
        let l = &self.layout;
        let image = &mut input.image;
        let va = |off: usize| base.wrapping_add(off as u64);
        image.resize(shift + l.end, 0);
        if rng.one_in(3) {
            for b in image.iter_mut() {
                *b = rng.next() as u8;
            }
        }
        let mut piece = Vec::with_capacity(24);
        for &off in &l.texts {
            piece.clear();
            text(rng, &mut piece);
            if !rng.one_in(8) {
                piece.push(0);
            }
            put(image, shift + off, &piece);
        }
        for (i, &off) in l.contexts.iter().enumerate() {
            let kind = rng.of(&CONTEXT_KINDS);
            put(image, shift + off, &kind_flags(rng, kind));
            let parent = match rng.below(24) {
                0..=4 => [0; 4],
                5 => relative(va(off + 4), va(rng.of(&l.contexts))),
                6 => garbage(rng),
                7 if !l.rows.is_empty() => relative(va(off + 4), va(rng.of(&l.rows))),
                _ => match l.contexts.get(i + 1) {
                    Some(&outer) => relative(va(off + 4), va(outer)),
                    None => [0; 4],
                },
            };
            put(image, shift + off + 4, &parent);
            let name = self.name_offset(rng, va(off + 8), base, false);
            put(image, shift + off + 8, &name);
        }
        for &off in &l.rows {
            let kind = match rng.below(4) {
                0 => rng.below(32) as u8,
                _ => rng.of(&TYPE_KINDS),
            };
            put(image, shift + off, &kind_flags(rng, kind));
            let parent = match rng.below(8) {
                0 => [0; 4],
                1 => garbage(rng),
                2 if rng.one_in(4) => relative(va(off + 4), va(rng.of(&l.rows))),
                _ if l.contexts.is_empty() => [0; 4],
                _ => relative(va(off + 4), va(rng.of(&l.contexts))),
            };
            put(image, shift + off + 4, &parent);
            let name = self.name_offset(rng, va(off + 8), base, true);
            put(image, shift + off + 8, &name);
            // Access function and fields, which no row holds.
            put(image, shift + off + 12, &rng.next().to_le_bytes());
        }
        match rng.below(6) {
            0 => image.push(rng.next() as u8),
            1 => image.extend_from_slice(&[0x41, 0x42]),
            _ => {}
        }
    }

    fn name_offset(&self, rng: &mut Rng, slot_va: u64, base: u64, row: bool) -> [u8; 4] {
        let l = &self.layout;
        match rng.below(if row { 24 } else { 12 }) {
            0 => [0; 4],
            1 => relative(slot_va, base.wrapping_add((l.end + rng.below(3)) as u64)),
            2 => garbage(rng),
            3 => relative(slot_va, rng.below(3) as u64),
            4 => relative(slot_va, base.wrapping_add(rng.below(l.end + 1) as u64)),
            _ => relative(slot_va, base.wrapping_add(rng.of(&l.texts) as u64)),
        }
    }

    fn sections(&self, rng: &mut Rng, input: &mut Input, base: u64) {
        let l = &self.layout;
        input.types_va = match rng.below(4) {
            0 => base.wrapping_add(0x1000),
            1 => base.wrapping_sub(rng.below(64) as u64),
            2 => 0u64.wrapping_sub(rng.below(24) as u64),
            _ => base.wrapping_add(rng.below(400) as u64),
        };
        for slot in 0..if rng.one_in(12) { 0 } else { 1 + rng.below(5) } {
            let slot_va = input.types_va.wrapping_add(4 * slot as u64);
            let rel = match rng.below(10) {
                0 => [0; 4],
                1 => garbage(rng),
                2 => relative(slot_va, base.wrapping_add(rng.below(l.end + 8) as u64)),
                3 => relative(slot_va, 0u64.wrapping_sub(rng.below(24) as u64)),
                4 => relative(slot_va, rng.below(4) as u64),
                _ if l.rows.is_empty() => relative(slot_va, base),
                _ => relative(slot_va, base.wrapping_add(rng.of(&l.rows) as u64)),
            };
            input.types.extend_from_slice(&rel);
        }
        for _ in 0..rng.below(4) * usize::from(rng.one_in(3)) {
            input.types.push(rng.next() as u8);
        }
        for _ in 0..rng.below(4) {
            text(rng, &mut input.strings);
            if !rng.one_in(8) {
                input.strings.push(0);
            }
        }
        input.strings_va = match rng.below(4) {
            0 => base.wrapping_add(rng.below(l.end + 40) as u64),
            1 => 0u64.wrapping_sub(rng.below(input.strings.len() + 4) as u64),
            2 => rng.below(8) as u64,
            _ => base.wrapping_add(0x2000),
        };
        for _ in 0..4 {
            let target = match rng.below(6) {
                0 => rng.below(8) as u64,
                1 => 0u64.wrapping_sub(rng.below(24) as u64),
                2 => base.wrapping_add(rng.below(l.end + 4) as u64),
                3 if !input.segments.is_empty() => {
                    let s = rng.of(&input.segments);
                    s[0].wrapping_add(rng.of(&[0, s[1], s[3]]))
                        .wrapping_add(rng.below(3) as u64)
                        .wrapping_sub(1)
                }
                _ => input
                    .strings_va
                    .wrapping_add(rng.below(input.strings.len() + 2) as u64),
            };
            input.targets.push(target);
        }
    }
}

/// The segments: most map the planted bytes at `base`, with others before, after and over them. One list in fifty or so has a segment that
/// wraps, which every call refuses.
pub fn map(rng: &mut Rng, input: &mut Input, shift: u64, base: u64, length: u64) {
    let segments = &mut input.segments;
    // An address of 2^64 - 1 lies in no segment.
    let room = u64::MAX - base;
    let first = length.min(room);
    match rng.below(8) {
        0 => {}
        1 | 2 => {
            let split = rng.below(first as usize + 1) as u64;
            segments.push([base, split, shift, split]);
            segments.push([base + split, first - split, shift + split, first - split]);
            if rng.one_in(2) {
                segments.swap(0, 1);
            }
        }
        3 => segments.push([
            base,
            first,
            shift,
            first - rng.below(first.min(8) as usize + 1) as u64,
        ]),
        4 => segments.push([
            base,
            first - rng.below(first.min(8) as usize + 1) as u64,
            shift,
            u64::MAX,
        ]),
        _ => segments.push([base, first, shift, first]),
    }
    if first < length {
        let low = length - room - u64::from(length > room);
        segments.push([
            0,
            low + rng.below(4) as u64,
            (shift + room).saturating_add(1),
            low,
        ]);
    }
    for _ in 0..rng.below(3) * usize::from(rng.one_in(2)) {
        let noise = match rng.below(8) {
            0 => [base.wrapping_sub(64), 4096, 0, 0],
            1 => [u64::MAX - rng.below(16) as u64, rng.below(20) as u64, 0, 64],
            2 => [
                base,
                rng.below(64) as u64,
                u64::MAX - rng.below(40) as u64,
                64,
            ],
            3 => [base, 0, 0, 64],
            4 => [
                base.wrapping_sub(8),
                24,
                rng.below(length as usize + 8) as u64,
                rng.below(24) as u64,
            ],
            5 => [rng.next(), rng.next(), rng.next(), rng.next()],
            6 => {
                let size = 1 + rng.below(length as usize + 32) as u64;
                [size.wrapping_neg(), size, 0, rng.of(&[0, 64])]
            }
            _ => [
                0,
                u64::MAX - rng.below(2) as u64,
                rng.below(8) as u64,
                rng.of(&[1, 64, u64::MAX]),
            ],
        };
        let at = rng.below(segments.len() + 1);
        segments.insert(at, noise);
    }
    // A long list, of segments that mostly lie elsewhere.
    if rng.one_in(24) {
        for _ in 0..3 + rng.below(8) {
            let size = rng.below(64) as u64;
            let start = base.wrapping_add(rng.next() % 0x10000).wrapping_sub(0x8000);
            let at = rng.below(segments.len() + 1);
            segments.insert(at, [start, size, 0, rng.of(&[0, size, 64])]);
        }
    }
    if rng.one_in(6) && !segments.is_empty() {
        let i = rng.below(segments.len());
        let n = &mut segments[i][rng.below(4)];
        *n = match rng.below(5) {
            0 => 0,
            1 => u64::MAX,
            2 => n.wrapping_add(1),
            3 => n.wrapping_sub(1),
            _ => n.wrapping_add(rng.below(64) as u64),
        };
    }
    // So that there are answers to compare, most segments that would wrap end at 2^64 - 1, the last end that is accepted.
    if !rng.one_in(WRAPPING) {
        for s in segments {
            s[1] = s[1].min(u64::MAX - s[0]);
        }
    }
}

fn change(rng: &mut Rng, input: &mut Input) {
    for _ in 0..1 + rng.below(4) {
        let bytes = match rng.below(8) {
            0 => &mut input.types,
            1 => &mut input.strings,
            _ => &mut input.image,
        };
        change_bytes(rng, bytes);
    }
}

/// Changes one byte.
pub fn change_bytes(rng: &mut Rng, bytes: &mut [u8]) {
    if bytes.is_empty() {
        return;
    }
    let i = rng.below(bytes.len());
    let b = &mut bytes[i];
    *b = match rng.below(6) {
        0 => 0,
        1 => 0xff,
        2 => *b ^ 1 << rng.below(8),
        3 => b.wrapping_add(1),
        4 => b.wrapping_sub(1),
        _ => rng.next() as u8,
    };
}

fn cut(rng: &mut Rng, input: &mut Input) {
    let length = rng.below(input.image.len() + 1);
    input.image.truncate(length);
}

/// A row whose chain has a number of contexts of the given kinds in turn, each with its name; the parent of the last one is `last`.
pub fn chain(depth: usize, kinds: &[u8], name: &[u8], last: [u8; 4]) -> Input {
    let base = 0x4000u64;
    let mut input = Input::default();
    let texts = 20 + 12 * depth;
    let image = &mut input.image;
    put(image, 0, &17u32.to_le_bytes());
    put(image, 8, &relative(base + 8, base + texts as u64));
    put(image, 12, &[0; 8]);
    for i in 0..depth {
        let off = 20 + 12 * i;
        let va = base + off as u64;
        put(
            image,
            off - if i == 0 { 16 } else { 8 },
            &relative(if i == 0 { base + 4 } else { va - 8 }, va),
        );
        put(image, off, &u32::from(kinds[i % kinds.len()]).to_le_bytes());
        put(image, off + 4, &last);
        put(image, off + 8, &relative(va + 8, base + texts as u64));
    }
    put(image, texts, name);
    image.push(0);
    let length = image.len() as u64;
    input.segments.push([base, length, 0, length]);
    input.types_va = 0x3000;
    input.types.extend_from_slice(&relative(0x3000, base));
    input
}

/// A chain whose names are ends of one text, the next one a letter shorter than the one before; after the empty one comes the longest.
pub fn chain_of_names(depth: usize, kinds: &[u8]) -> Input {
    let text = b"abcdefghijklmnopqrstuvwxyz0123456789_";
    let mut input = chain(depth, kinds, text, [0; 4]);
    for i in 0..depth {
        let slot = 20 + 12 * i + 8;
        let offset = u32::from_le_bytes(input.image[slot..slot + 4].try_into().expect("4 bytes"));
        let further = offset + (i % (text.len() + 1)) as u32;
        input.image[slot..slot + 4].copy_from_slice(&further.to_le_bytes());
    }
    input
}
