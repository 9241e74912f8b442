//! One input of the comparison, which both sides get, and which lists of segments the proved side refuses.

use std::fmt::Write;

#[derive(Clone, Default, PartialEq)]
pub struct Input {
    pub image: Vec<u8>,
    pub segments: Vec<[u64; 4]>,
    pub types: Vec<u8>,
    pub types_va: u64,
    pub strings: Vec<u8>,
    pub strings_va: u64,
    pub fields: Vec<u8>,
    pub fields_va: u64,
    /// Addresses that are translated and looked up as field names, and at which descriptors, tables and records are made up.
    pub targets: Vec<u64>,
}

impl Input {
    pub fn clear(&mut self) {
        self.image.clear();
        self.segments.clear();
        self.types.clear();
        self.types_va = 0;
        self.strings.clear();
        self.strings_va = 0;
        self.fields.clear();
        self.fields_va = 0;
        self.targets.clear();
    }

    /// The segments as a list of numbers.
    pub fn numbers(&self) -> &[u64] {
        self.segments.as_flattened()
    }

    /// The line that `sample` writes and `one` reads. An empty fields section at address 0 is left out.
    pub fn line(&self) -> String {
        let mut s = format!(
            "input {} {:x} {} {:x} {}",
            hex(&self.image),
            self.types_va,
            hex(&self.types),
            self.strings_va,
            hex(&self.strings)
        );
        for list in [self.numbers(), &self.targets] {
            let _ = write!(s, " {:x}", list.len());
            for n in list {
                let _ = write!(s, " {n:x}");
            }
        }
        if !self.fields.is_empty() || self.fields_va != 0 {
            let _ = write!(s, " {:x} {}", self.fields_va, hex(&self.fields));
        }
        s
    }

    pub fn of_line(line: &str) -> Option<Input> {
        let mut words = line.split_whitespace();
        let mut input = Input::default();
        if words.next()? != "input" {
            return None;
        }
        input.image = unhex(words.next()?)?;
        input.types_va = u64::from_str_radix(words.next()?, 16).ok()?;
        input.types = unhex(words.next()?)?;
        input.strings_va = u64::from_str_radix(words.next()?, 16).ok()?;
        input.strings = unhex(words.next()?)?;
        let mut list = || -> Option<Vec<u64>> {
            let count = usize::from_str_radix(words.next()?, 16).ok()?;
            (0..count)
                .map(|_| u64::from_str_radix(words.next()?, 16).ok())
                .collect()
        };
        let numbers = list()?;
        input.targets = list()?;
        input.segments = numbers
            .chunks_exact(4)
            .map(|s| [s[0], s[1], s[2], s[3]])
            .collect();
        if let Some(va) = words.next() {
            input.fields_va = u64::from_str_radix(va, 16).ok()?;
            input.fields = unhex(words.next()?)?;
        }
        Some(input)
    }
}

/// The number with which every call refuses a list of segment numbers: 1 if they are not four to a segment, else 9 if a segment's vmaddr +
/// vmsize is 2^64 or more, wherever it stands and whether it has bytes in the file or not. The Rust refuses no list, and is not asked about
/// these.
pub fn refusal(numbers: &[u64]) -> Option<u64> {
    if numbers.len() % 4 != 0 {
        return Some(1);
    }
    let wraps = |s: &[u64]| s[0].checked_add(s[1]).is_none();
    numbers.chunks_exact(4).any(wraps).then_some(9)
}

/// Lowercase hexadecimal; `-` stands for no bytes.
pub fn hex(bytes: &[u8]) -> String {
    if bytes.is_empty() {
        return "-".to_owned();
    }
    let mut s = String::with_capacity(2 * bytes.len());
    for b in bytes {
        let _ = write!(s, "{b:02x}");
    }
    s
}

fn unhex(s: &str) -> Option<Vec<u8>> {
    if s == "-" {
        return Some(Vec::new());
    }
    if s.len() % 2 != 0 {
        return None;
    }
    (0..s.len() / 2)
        .map(|i| u8::from_str_radix(s.get(2 * i..2 * i + 2)?, 16).ok())
        .collect()
}
