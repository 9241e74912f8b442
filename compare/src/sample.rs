//! A sample of inputs that reach every case that `Cases` distinguishes, with the Rust's answers, for a replay without the Rust.

use crate::check::{LIMIT, field_numbers, place_in, runtime};
use crate::generate::{Generator, chain};
use crate::input::{Input, hex, refusal};
use darwinscope::swift::{SwiftRuntime, lookup_field_name};
use darwinscope::util::{read_cstr_at, relative_pointer, vm_to_file_offset_in};
use std::collections::BTreeMap;
use std::fmt::Write;

const HEAD: &str = "\
# The Rust's answers, made by `compare sample` from seed 3 (compare/build, compare/src/sample.rs): replayed without the Rust.
# Numbers and bytes are hexadecimal, `-` for no bytes.
#   input IMAGE TYPES_ADDRESS TYPES STRINGS_ADDRESS STRINGS COUNT SEGMENT_NUMBER.. COUNT ADDRESS..
# and then its answers:
#   row SLOT ADDRESS FLAGS PARENT NAME_PLACE NAME_LENGTH       for each row, in order, followed by
#   context ADDRESS FLAGS NAME_PLACE NAME_LENGTH               its first 8 contexts, the innermost first; `context ADDRESS FLAGS -` without a name
#   depth COUNT                                                how many contexts a walk gives, at most 100
#   name LENGTH BYTES                                          the joined name, then `refused 3` for a buffer one byte shorter (none if it is empty)
#   refused 4                                                  or this, where a 257th context can be read
#   end ROWS
#   refused 9                                                  or this in place of all rows, where a segment's vmaddr + vmsize is 2^64 or more
#   offset ADDRESS OFFSET                                      for each address: its file offset, or `nothing`
#   field ADDRESS WHERE PLACE LENGTH                           the field name there: 1 in the image, 2 in the strings, or `nothing`
#   text OFFSET PLACE LENGTH                                   the text at the image's offset address % (length + 2), or `nothing`
";

/// How many contexts of a row are written out.
const SHOWN: usize = 8;

/// Inputs kept for each case.
const KEPT: u32 = 1;

/// The answers as lines, the Rust's unless the segments are refused: then there are no rows. The addresses are looked up below the calls,
/// where nothing is refused, and a segment that wraps ends the search as in the Rust.
fn answers(input: &Input, out: &mut String) {
    let rt = runtime(input);
    match refusal(input.numbers()) {
        Some(number) => drop(writeln!(out, "refused {number:x}")),
        None => rows(input, &rt, out),
    }
    addresses(input, &rt, out);
}

fn rows(input: &Input, rt: &SwiftRuntime<'_>, out: &mut String) {
    let image = &input.image[..];
    let mut slot = 0;
    let mut count = 0;
    for row in rt.types() {
        // The slot: the next one that refers to the row.
        while slot_va(input, slot) != Some(row.address()) {
            slot += 1;
        }
        let (place, length) = place_in(image, row.name());
        let (address, flags, parent) = (row.address(), row.flags().0, row.parent_address());
        let _ = writeln!(
            out,
            "row {slot:x} {address:x} {flags:x} {parent:x} {place:x} {length:x}"
        );
        slot += 1;
        let mut depth = 0;
        for context in row.parent().take(LIMIT + 1) {
            if depth < SHOWN {
                let _ = write!(out, "context {:x} {:x} ", context.address, context.flags.0);
                let _ = match context.name.map(|n| place_in(image, n)) {
                    Some((place, length)) => writeln!(out, "{place:x} {length:x}"),
                    None => writeln!(out, "-"),
                };
            }
            depth += 1;
        }
        let _ = writeln!(out, "depth {:x}", depth.min(LIMIT));
        if depth > LIMIT {
            let _ = writeln!(out, "refused 4");
        } else {
            let name = row.qualified_name();
            let _ = writeln!(out, "name {:x} {}", name.len(), hex(name.as_bytes()));
            if !name.is_empty() {
                let _ = writeln!(out, "refused 3");
            }
        }
        count += 1;
    }
    let _ = writeln!(out, "end {count:x}");
}

fn addresses(input: &Input, rt: &SwiftRuntime<'_>, out: &mut String) {
    let image = &input.image[..];
    for &target in &input.targets {
        let segments = input.segments.iter().map(|s| (s[0], s[1], s[2], s[3]));
        let offset = vm_to_file_offset_in(segments, target);
        let _ = match offset {
            Some(offset) => writeln!(out, "offset {target:x} {offset:x}"),
            None => writeln!(out, "offset {target:x} nothing"),
        };
        let _ = match field_numbers(input, lookup_field_name(rt, target)) {
            [0, ..] => writeln!(out, "field {target:x} nothing"),
            [kind, place, length] => {
                writeln!(out, "field {target:x} {kind:x} {place:x} {length:x}")
            }
        };
        let off = (target % (image.len() as u64 + 2)) as usize;
        let _ = match read_cstr_at(image, off).map(|t| place_in(image, t)) {
            Some((place, length)) => writeln!(out, "text {off:x} {place:x} {length:x}"),
            None => writeln!(out, "text {off:x} nothing"),
        };
    }
}

fn i32_at(bytes: &[u8], off: usize) -> Option<i32> {
    let bytes = bytes.get(off..off.checked_add(4)?)?;
    Some(i32::from_le_bytes(bytes.try_into().ok()?))
}

/// The address that a slot refers to, unless its offset is 0.
fn slot_va(input: &Input, slot: usize) -> Option<u64> {
    let rel = i32_at(&input.types, 4 * slot).filter(|&rel| rel != 0)?;
    Some(relative_pointer(
        input.types_va.wrapping_add(4 * slot as u64),
        rel,
    ))
}

/// The cases that an input reaches, by the reason for each answer.
#[derive(Default)]
pub struct Cases(Vec<String>);

impl Cases {
    pub fn add(&mut self, case: String) {
        self.0.push(case);
    }

    /// The reason and the answer of a translation.
    fn translate(input: &Input, va: u64) -> (String, Option<u64>) {
        let mut passed = "";
        for &[start, size, fileoff, filesize] in &input.segments {
            let Some(end) = start.checked_add(size) else {
                return (format!("a segment wraps{passed}"), None);
            };
            if va < start || va >= end {
                passed = ", past another";
                continue;
            }
            if filesize == 0 {
                passed = ", past one without file bytes";
                continue;
            }
            if va - start >= filesize {
                return (format!("past the file's part{passed}"), None);
            }
            return match fileoff.checked_add(va - start) {
                Some(offset) => (format!("found{passed}"), Some(offset)),
                None => ("the offset wraps".to_owned(), None),
            };
        }
        (format!("in no segment{passed}"), None)
    }

    pub fn bytes<'a>(
        &mut self,
        input: &'a Input,
        va: u64,
        len: usize,
        what: &str,
    ) -> Option<&'a [u8]> {
        let (why, offset) = Cases::translate(input, va);
        self.add(format!("{what}: {why}"));
        let off = usize::try_from(offset?).ok()?;
        let Some(tail) = input.image.get(off..) else {
            self.add(format!("{what}: past the image"));
            return None;
        };
        let Some(bytes) = tail.get(..len) else {
            self.add(format!(
                "{what}: cut short{}",
                if tail.is_empty() {
                    " at its first byte"
                } else {
                    ""
                }
            ));
            return None;
        };
        if Cases::translate(input, va.wrapping_add(len as u64 - 1)).1
            != Some((off + len - 1) as u64)
        {
            self.add(format!("{what}: its end is not in its segment"));
        }
        Some(bytes)
    }

    fn text(&mut self, input: &Input, va: u64, what: &str) -> bool {
        if va == 0 {
            self.add(format!("{what}: address 0"));
            return false;
        }
        let (why, offset) = Cases::translate(input, va);
        self.add(format!("{what}: {why}"));
        match offset {
            Some(off) => self.text_in(&input.image, off as usize, what),
            None => false,
        }
    }

    fn text_in(&mut self, bytes: &[u8], off: usize, what: &str) -> bool {
        let Some(tail) = bytes.get(off..) else {
            self.add(format!("{what}: past the bytes"));
            return false;
        };
        let nul = tail.iter().position(|&b| b == 0);
        let body = &tail[..nul.unwrap_or(tail.len())];
        let ended = if nul.is_some() {
            "by a NUL"
        } else {
            "by the end"
        };
        match core::str::from_utf8(body) {
            Ok(t) if t.is_empty() => self.add(format!("{what}: empty, ended {ended}")),
            Ok(t) => {
                self.add(format!("{what}: ended {ended}"));
                for c in t.chars() {
                    self.add(format!("{what}: a character of {} bytes", c.len_utf8()));
                }
            }
            Err(e) => {
                let lead = body[e.valid_up_to()];
                let class = match lead {
                    0x80..=0xbf => "80..bf",
                    0xc0 | 0xc1 => "c0..c1",
                    0xc2..=0xdf => "c2..df",
                    0xe0 => "e0",
                    0xed => "ed",
                    0xe1..=0xef => "e1..ef",
                    0xf0 => "f0",
                    0xf1..=0xf3 => "f1..f3",
                    0xf4 => "f4",
                    _ => "f5..ff",
                };
                let shown = e
                    .error_len()
                    .map_or(format!("cut short {ended}"), |n| format!("at byte {n}"));
                self.add(format!("{what}: ill-formed from {class}, {shown}"));
                return false;
            }
        }
        true
    }

    fn slot(&mut self, input: &Input, slot: usize) {
        let Some(va) = slot_va(input, slot) else {
            self.add("slot: offset 0".to_owned());
            return;
        };
        if input.types_va.checked_add(4 * slot as u64).is_none() {
            self.add("slot: its address wraps".to_owned());
        }
        if va == 0 {
            self.add("row: at address 0".to_owned());
        }
        let Some(header) = self.bytes(input, va, 20, "row") else {
            return;
        };
        let Some(name_va) = va.checked_add(8) else {
            self.add("row: its name's slot wraps".to_owned());
            return;
        };
        let rel = i32_at(header, 8).unwrap_or(0);
        if rel == 0 {
            self.add("row: name offset 0".to_owned());
        }
        self.text(input, relative_pointer(name_va, rel), "row's name");
    }

    fn contexts(&mut self, input: &Input, mut va: u64) {
        for given in 0..=LIMIT {
            if va == 0 {
                self.add(format!(
                    "chain: {}",
                    if given == LIMIT {
                        "256 and then 0"
                    } else {
                        "ended by 0"
                    }
                ));
                return;
            }
            let Some(header) = self.bytes(input, va, 8, "context") else {
                return;
            };
            let Some(slot_va) = va.checked_add(4) else {
                self.add("context: its parent's slot wraps".to_owned());
                return;
            };
            if given == LIMIT {
                self.add("chain: a 257th".to_owned());
                return;
            }
            let kind = header[0] & 31;
            self.add(format!("context: kind {kind}"));
            if [0, 1, 3, 16, 17, 18].contains(&kind) {
                match va.checked_add(8) {
                    None => self.add("context: its name's slot wraps".to_owned()),
                    Some(name_va) => {
                        if let Some(slot) = self.bytes(input, name_va, 4, "context's name slot") {
                            match i32_at(slot, 0) {
                                Some(0) => self.add("context: name offset 0".to_owned()),
                                Some(rel) => drop(self.text(
                                    input,
                                    relative_pointer(name_va, rel),
                                    "context's name",
                                )),
                                None => {}
                            }
                        }
                    }
                }
            }
            let rel = i32_at(header, 4).unwrap_or(0);
            va = if rel == 0 {
                0
            } else {
                relative_pointer(slot_va, rel)
            };
        }
    }

    fn field(&mut self, input: &Input, rt: &SwiftRuntime<'_>, va: u64) {
        if va == 0 || self.text(input, va, "field name in the image") {
            self.add(format!(
                "field name: {}",
                if va == 0 { "address 0" } else { "in the image" }
            ));
            return;
        }
        let what = match va.checked_sub(input.strings_va) {
            None => "below the strings".to_owned(),
            Some(off) if off >= input.strings.len() as u64 => "past the strings".to_owned(),
            Some(off) => {
                self.text_in(&input.strings, off as usize, "field name in the strings");
                format!("in the strings: {}", lookup_field_name(rt, va).is_some())
            }
        };
        self.add(format!("field name: {what}"));
    }

    /// Which segment is the first that wraps, and whether it ends at 2^64 or past it.
    fn refused(&mut self, input: &Input, number: u64) {
        let wraps = |s: &[u64; 4]| s[0].checked_add(s[1]).is_none();
        let Some(at) = input.segments.iter().position(wraps) else {
            return;
        };
        let [start, size, _, filesize] = input.segments[at];
        let place = match at {
            _ if input.segments.len() == 1 => "alone",
            0 => "the first",
            _ if at + 1 == input.segments.len() => "the last",
            _ => "between others",
        };
        let end = match start.wrapping_add(size) {
            0 => "ends at 2^64",
            _ => "ends past 2^64",
        };
        let file = match filesize {
            0 => "without file bytes",
            _ => "with file bytes",
        };
        self.add(format!("refused with {number}: {place}, {end}, {file}"));
    }

    fn of(input: &Input) -> Vec<String> {
        let mut cases = Cases::default();
        let rt = runtime(input);
        if let Some(number) = refusal(input.numbers()) {
            cases.refused(input, number);
            for &target in &input.targets {
                let (why, _) = Cases::translate(input, target);
                cases.add(format!("refused with {number}, address: {why}"));
            }
            return cases.sorted();
        }
        cases.add(format!(
            "types: {} bytes past the last slot",
            input.types.len() % 4
        ));
        for slot in 0..input.types.len() / 4 {
            cases.slot(input, slot);
        }
        for row in rt.types() {
            cases.add(format!("row: kind {}", row.flags().0 & 31));
            cases.add(format!(
                "row: parent {}",
                if row.parent_address() == 0 {
                    "0"
                } else {
                    "given"
                }
            ));
            cases.contexts(input, row.parent_address());
            if row.parent().take(LIMIT).any(|c| c.name == Some("")) {
                cases.add("name: an empty hop".to_owned());
            }
            if row.parent().take(LIMIT).any(|c| c.name.is_none()) {
                cases.add("name: a hop without a name".to_owned());
            }
        }
        for &target in &input.targets {
            cases.field(input, &rt, target);
        }
        cases.sorted()
    }

    pub fn sorted(mut self) -> Vec<String> {
        self.0.sort();
        self.0.dedup();
        self.0
    }
}

/// The inputs kept, and how many of them reach each case.
#[derive(Default)]
pub struct Sample {
    seen: BTreeMap<String, u32>,
    kept: Vec<Input>,
}

impl Sample {
    /// Keeps an input if it reaches a case that is not yet reached.
    pub fn consider(&mut self, input: &Input, cases: Vec<String>) {
        let seen = &mut self.seen;
        if cases
            .iter()
            .all(|case| seen.get(case).is_some_and(|&n| n >= KEPT))
        {
            return;
        }
        for case in cases {
            *seen.entry(case).or_default() += 1;
        }
        self.kept.push(input.clone());
    }

    /// The inputs with their answers and the cases in one file; in a folder the inputs as `stdin` and the answers as `stdout`.
    pub fn write(
        &self,
        head: &str,
        answers: impl Fn(&Input, &mut String),
        out: &str,
        split: Option<&str>,
    ) {
        let (mut all, mut stdin, mut stdout) = (head.to_owned(), String::new(), String::new());
        for input in &self.kept {
            let mut lines = String::new();
            answers(input, &mut lines);
            let _ = write!(all, "{}\n{lines}", input.line());
            let _ = writeln!(stdin, "{}", input.line());
            stdout.push_str(&lines);
        }
        for (case, count) in &self.seen {
            let _ = writeln!(all, "# {count:3} {case}");
        }
        let mut files = vec![(out.to_owned(), all)];
        if let Some(dir) = split {
            files.push((format!("{dir}/stdin"), stdin));
            files.push((format!("{dir}/stdout"), stdout));
        }
        for (path, bytes) in files {
            if let Err(e) = std::fs::write(&path, bytes) {
                eprintln!("compare: {path}: {e}");
                std::process::exit(1);
            }
        }
        println!("{} inputs, {} cases", self.kept.len(), self.seen.len());
    }
}

pub fn run(out: &str, split: Option<&str>) {
    let mut sample = Sample::default();
    for depth in [0, 1, 2, LIMIT - 1, LIMIT, LIMIT + 1] {
        let input = chain(depth, &[2], b"N", [0; 4]);
        sample.consider(&input, Cases::of(&input));
    }
    let mut generator = Generator::default();
    let mut input = Input::default();
    for number in 0..400_000 {
        generator.make(3, number, &mut input);
        if input.image.len() <= 200 {
            sample.consider(&input, Cases::of(&input));
        }
    }
    sample.write(HEAD, answers, out, split);
}
