#!/usr/bin/env python3
"""Counts the places of docs/DESIGN-PASS.md. usage: tools/design_count.py [COMMIT] [--against COMMIT [--write]] [--other] [--brief]

Without COMMIT the work tree is read. For each point it prints the places as `file: name: what`, and how many there are; --brief prints them by
crate, as the page does. A place is a type, a function, a group of twins, or an answer that three proofs or more repeat.
--against prints for each place of that older commit whether it is changed, kept or still as it was, and the page's table. tools/design_kept.txt
names the places that are kept, a line `POINT CRATE PLACE | REASON | LINE` each: LINE stands in a comment of the crate, or of the crate that it
begins with in brackets, which is looked up, and REASON is one of the four; --write puts these and the table into the page. For a place that is still as it was the comment lines beside it that are new are printed too.
--other counts in the other way: by the arms of `match`, and by the goals that the proofs' folders name.
A place that no pattern finds stands in TABLE below, by its name and a pattern that its text has as long as it has the old form. Names of the
table that the older commit doesn't have are reported as stale.
"""
import re
import subprocess
import sys
from collections import Counter, OrderedDict

SRC = re.compile(r"crates/([^/]+)/src/.*\.rt$")
PROOF = re.compile(r"crates/([^/]+)/proofs/.*\.antt$")


def git(*words):
    return subprocess.run(["git", *words], check=True, capture_output=True, text=True).stdout


def load(commit):
    """The sources and the proofs of a commit, or of the work tree."""
    out = {}
    if commit:
        names = [n for n in git("ls-tree", "-r", "--name-only", commit).splitlines() if SRC.match(n) or PROOF.match(n)]
        ask = "".join(f"{commit}:{n}\n" for n in names)
        got = subprocess.run(["git", "cat-file", "--batch"], input=ask.encode(), check=True, capture_output=True).stdout
        at = 0
        for n in names:
            end = got.index(b"\n", at)
            size = int(got[at:end].split()[2])
            out[n] = got[end + 1:end + 1 + size].decode()
            at = end + 2 + size
        return out
    for n in git("ls-files", "--cached", "--others", "--exclude-standard", "crates").splitlines():
        if SRC.match(n) or PROOF.match(n):
            try:
                with open(n, encoding="utf-8") as f:
                    out[n] = f.read()
            except FileNotFoundError:
                pass
    return out


class Item:
    def __init__(self, file, crate, kind, name, lines, above):
        self.file, self.crate, self.kind, self.name, self.lines, self.above = file, crate, kind, name, lines, above
        self.text = "\n".join(re.sub(r"//.*", "", s) for s in lines)

    def comments(self):
        return [s.strip() for s in self.above + self.lines if s.strip().startswith("//")]


HEAD = re.compile(r"^( *)(?:pub(?:\([a-z]+\))? )?(?:extern \"C\" )?(?:const )?(fn|enum|struct|const|trait) (\w+)")
IMPL = re.compile(r"^impl(?:<.*?>)? (?:.* for )?(\w+)")


def items(file, text):
    """The functions and types of a source, each with its lines and the comments above it."""
    out, lines, i, owner = [], text.split("\n"), 0, None
    crate = SRC.match(file)[1]
    while i < len(lines):
        m = IMPL.match(lines[i])
        if m:
            owner = m[1]
        if lines[i] == "}":
            owner = None
        m = HEAD.match(lines[i])
        if not m:
            i += 1
            continue
        indent, kind, name = m[1], m[2], m[3]
        j = i
        while j < len(lines):
            s = lines[j]
            if s == indent + "}" or (j == i and (s.rstrip().endswith(";") or s.rstrip().endswith("}"))):
                break
            if kind == "const" and s.rstrip().endswith(";"):
                break
            j += 1
        a = i
        while a > 0 and (lines[a - 1].strip().startswith("//") or lines[a - 1].strip().startswith("#[")):
            a -= 1
        out.append(Item(file, crate, kind, (owner + "::" if owner and indent else "") + name, lines[i:j + 1], lines[a:i]))
        i = j + 1
    return out


# Names of variants that say that there is nothing, or that a call refused or failed.
EMPTY = {"Nothing", "End", "Bad", "Done", "Whole", "IllFormed", "None", "Next", "Last", "Invalid", "Unreadable", "Open"}
REFUSED = {"Refused", "Failed", "Breaks", "TooDeep"}

# Functions that convert, compare or print by hand.
CONVERT = re.compile(
    r"(?:^|::)(of|from_bits|number|number_of|kind_numbered|\w+_number|same|signed\d*|flag|bits|as_address|digit|digit_of"
    r"|hex_digits|pair|put_digit|put_decimal|put_kind|say_rule|entry_kind|parse_number|relative_pointer|is_type|has_name)$")
# Of these names, ones that only print or pass on.
OLD = {("test_replay_full", "kind_number"): "- 256", ("test_replay_full", "entry_kind"): r"\d =>", ("test_lines", "digit"): "if b", ("test_lines", "parse_number"): "while"}
PASSES_ON = {("list", "say_number"), ("test_refusals", "number"), ("test_vectors", "relative_pointer"), ("parent", "has_name")}

# Functions that are a method of the library.
METHOD = re.compile(r"(?:^|::)(lower|higher|least|at_most_two|at_most_shown|saturating_add|stretch)$")

# Parameters that travel together: point 5.
TOGETHER = [
    ("image, segments and mapping", ["image: &", "segments: &", "mapping: Mapping"]),
    ("image and segments without a mapping", ["image: &", "segments: &", "!mapping: Mapping"]),
    ("types and their address", ["types: &", "vmaddr: u64"]),
    ("strings and their address", ["strings: &", "strings_va: u64|vmaddr: u64|section: u64"]),
    ("fields and their address", ["fields: &", "vmaddr: u64|fields_va: u64"]),
    ("a table's shape: numbered, more, stride", ["numbered: bool", "more: u32"]),
    ("a cursor: base_va, count, next", ["base_va: u64", "count: u32", "next: u32"]),
    ("a segment: vmaddr, vmsize, fileoff, filesize", ["vmaddr: u64", "vmsize: u64", "fileoff: u64"]),
    ("a row of the table of UTF-8: first, last, low, more", ["first: u8", "last: u8", "low: u8"]),
    ("a descriptor: address and flags", [r"\baddress: u64", r"\bflags: u32"]),
    ("a buffer and the place in it", [r"(?:buffer|line): &mut", r"\bat: usize"]),
    ("a place and its length", [r"\b(?:name_)?place: usize", r"\b(?:name_)?length: usize"]),
    ("a walk over contexts: descriptor_va, left, rest", ["descriptor_va: u64", "left: usize", "rest: usize"]),
]

# (point, crate, names, a pattern that the text of each has in the old form, what)
TABLE = [
    (1, "bundle", "Taken take_record not_taken", r"Taken|not_taken", "a missing record is one of zeros whose `next` is its own start"),
    (1, "bundle", "body_fits", r"kind: u16", "a record's kind is its number"),
    (1, "entry_tables", "Listed stopped", r"u64", "why a list ends is a number"),
    (1, "full_rows", "table_numbers", r"VTABLE", "a kind is compared by its number"),
    (1, "c_listing", "put_record", r"DEEP_CONTEXTS", "a refusal is compared by its number"),
    (1, "type_lines", "put_kind", r"% 32", "a kind is its number"),
    (1, "test_lines", "digit", r"16", "16 stands for no digit"),
    (1, "test_replay_full", "entry_kind detail_lines block_end", r"\b[347] =>|== 4", "a kind is its number"),
    (1, "classtrailers", "has_block", r"% 4 ==", "an initialization is its number"),
    (1, "c_numbers", "hodrupec_uleb128 hodrupec_sleb128 hodrupec_u32_be hodrupec_u64_be hodrupec_fixed_text hodrupec_vm_address hodrupec_context_flags "
     "hodrupec_type_flags hodrupec_class_flags hodrupec_conformance_flags hodrupec_field_kind hodrupec_field_flags hodrupec_method_flags",
     r"-> u64", "a call's status is a number"),
    (1, "c_rows", "hodrupec_file_offset hodrupec_text hodrupec_field_name hodrupec_next_row hodrupec_next_context hodrupec_qualified_name",
     r"-> u64", "a call's status is a number"),
    (1, "c_blocks", "hodrupec_first_block hodrupec_next_block", r"-> u64", "a call's status is a number"),
    (2, "util", "read_u16_le_at read_u32_le_at read_u64_le_at read_u32_be_at read_u64_be_at", r"data\.len\(\)|match", "a number of 2, 4 or 8 bytes at an offset, by byte order"),
    (2, "util", "u16_at u32_at i32_at", r"match", "a number in a header, or 0"),
    (2, "util", "byte16 byte32", r"b as u", "a byte as a wider number (and `byte64` of leb128)"),
    (2, "c_numbers", "half wide size", r"as u64", "a number as a wider one"),
    (2, "leb128", "Uleb128 Sleb128", r"value: ", "a number and its bytes, unsigned and signed"),
    (2, "segment", "vm_to_file_offset_in file_offset_to_vm_in", r"while", "the first segment that answers"),
    (2, "bundle_parts", "image_part types_part fields_part strings_part", r"util::part", "the bytes of a part"),
    (2, "bundle", "Part", r"start: usize", "a place and a length, as `Text::At` of util, `Bytes` and `FieldOffsets::At`"),
    (2, "context", "ContextDescriptorFlags::is_unique ContextDescriptorFlags::is_generic MethodDescriptorFlags::is_instance FieldRecordFlags::is_var "
     "ConformanceFlags::is_retroactive TypeContextDescriptorFlags::has_import_info", r"% 2 == 1", "a bit of a word (27 functions)"),
    (2, "vtable", "EntryIter::next_method walk_step method_step", r"next_method|walk_step", "a step over methods"),
    (2, "entry_tables", "methods overrides default_overrides prespecializations", r"table\(", "a whole table, by three constants"),
    (2, "entry_tables", "Words", r"third: u64", "three numbers, as `Recorded` of full_rows"),
    (2, "steps", "next_entry next_method", r"find_fault", "a step over a table"),
    (2, "steps", "text_at field_type_name descriptor_type_name descriptor_superclass_name", r"find_fault", "a text after the test of the segments"),
    (2, "full_rows", "put_two put_four", r"buffer\[at", "numbers at a place (and `put_three` of named_records)"),
    (2, "named_records", "put_text put_field_name", r"put_three|put", "the numbers of a name, as `text_numbers` and `field_name_numbers` of c_rows"),
    (2, "full_rows", "put_rows", r"slot_row_moving", "a walk over slots (and `put_rows` of c_listing)"),
    (2, "c_fields", "tell_text tell_offsets tell_certainty", r"refusal::number", "an answer's numbers, or its refusal's (and `tell_counts` of c_tables)"),
    (2, "c_fields", "ANSWERED THERE", r"const", "constants that c_rows, c_full_rows, c_listing, full_rows and named_records have too"),
    (2, "c_methods", "hodrupec_next_method", r"step_numbers", "a step of a table for C (and in c_overrides, c_default_overrides, c_prespecializations)"),
    (2, "c_methods", "hodrupec_methods", r"tell_counts", "a whole table for C (and in c_overrides, c_default_overrides, c_prespecializations)"),
    (2, "c_rows_c", "hodrupec_next_row", r"c_rows::", "exports that only call (and in c_numbers_c, c_blocks_c)"),
    (2, "c_bodies", "hodrupec_singleton_init hodrupec_singleton_pointer", r"refusal::number", "an answer's numbers, or its refusal's"),
    (2, "test_replay", "write bad_line number_field nothing refused byte_digits", r"out", "parts of lines, in each of the four test programs"),
    (2, "test_replay", "count answer_lines main", r"", "from the input to its lines, in three test programs"),
    (2, "test_vectors", "read_u16_le_at read_u32_le_at read_u64_le_at", r"util::", "a read, printed"),
    (2, "test_vectors", "vm_to_file_offset_in vm_to_file_offset", r"offset_line", "a file offset, printed"),
    (6, "qualified_name", "collect put_hops", r"lengths", "two parallel lists of places and lengths"),
    (6, "typedescriptor", "Row", r"name_length", "a place with a length beside it"),
    (7, "classtrailers", "block_at", r"match kind", "a switch on which reader to run"),
    (7, "classtrailers", "read_block", r"match kind", "a switch on which reader to run"),
    (7, "vtable", "table_entry", r"match kind", "a switch on which words to read"),
    (7, "vtable", "EntryKind::size", r"match self", "a table of sizes"),
    (7, "entry_tables", "first_word", r"if numbered", "a flag for which word to read"),
    (7, "entry_tables", "window_at", r"if alone", "a flag for which window to find"),
    (7, "type_body", "class_sizes", r"if resilient", "a flag for which numbers to read"),
    (7, "utf8", "blocks", r"if b <", "a switch on which blocks to try"),
    (7, "list", "print_argument", r"else if word", "a word for which step to run"),
    (7, "test_vectors", "number_call address_call part_call answer", r"same\(name", "a name for which call to make"),
    (7, "test_refusals", "last_word", r"number\(out", "a switch on which word to print"),
    (7, "test_replay_full", "words detail_lines", r"match kind", "a switch on what to print"),
    (7, "bundle_lines", "BundleLineIter::segments BundleLineIter::next_line", r"match self", "a switch on what is left"),
]


# Places that stand under another name now.
MOVED = {(7, "classtrailers", "block_at"): "read_block", (6, "bundle_parts", "with_segments"): "accept_bundle", (6, "test_refusals", "try_line"): "line_length"}


class Places:
    def __init__(self):
        self.of = OrderedDict((k, OrderedDict()) for k in range(1, 9))
        self.answers = OrderedDict()

    def add(self, point, file, name, what, members=None):
        self.of[point].setdefault((file.split("/")[1], name), (file, what, members or [name]))


def body(it):
    """The lines between a function's braces."""
    indent = re.match(r" *", it.lines[0])[0]
    for i, s in enumerate(it.lines):
        if s == indent + "{" or (i == 0 and s.rstrip().endswith("{")) or re.match(re.escape(indent) + r"\) .*\{$|" + re.escape(indent) + r"\)\s*\{$", s):
            return "\n".join(re.sub(r"//.*", "", x) for x in it.lines[i + 1:])
    return ""


def signature(it):
    text = "\n".join(it.lines)
    i = text.find("(")
    depth = 0
    for j in range(i, len(text)):
        depth += text[j] == "("
        depth -= text[j] == ")"
        if depth == 0:
            return " ".join(text[i:j + 1].split())
    return ""


def facts(clause):
    """The facts of a clause: its parts between the products."""
    clause = clause.strip()
    parts, depth, start = [], 0, 0
    for i, ch in enumerate(clause):
        depth += ch == "("
        depth -= ch == ")"
        if depth == 0 and clause.startswith(" × ", i):
            parts.append(clause[start:i])
            start = i + 3
    if parts:
        return [f for p in parts + [clause[start:]] for f in facts(p)]
    if clause.startswith("(") and clause.endswith(")"):
        return facts(clause[1:-1])
    return [clause]


def count(files):
    """The places of every point in these files, and all items by crate and name."""
    found, all_items = Places(), OrderedDict()
    by_crate = {}
    for f, text in sorted(files.items()):
        if SRC.match(f):
            for it in items(f, text):
                all_items[(it.crate, it.file, it.name)] = it
                by_crate.setdefault((it.crate, it.name), it)
    together, clauses = {}, {}
    for it in all_items.values():
        if it.kind == "enum":
            names = re.findall(r"^\s+(\w+)(?:\(|,| \{|$)", "\n".join(it.text.split("\n")[1:-1]), re.M)
            names = [n for n in names if n[0].isupper()]
            empty, refused = [n for n in names if n in EMPTY], [n for n in names if n in REFUSED]
            if empty or refused:
                found.add(1, it.file, it.name, "variants " + ", ".join(names))
        if it.kind == "struct" and re.search(r": bool\b", it.text):
            fields = re.findall(r"(\w+): bool", it.text)
            found.add(1, it.file, it.name, "a flag beside: " + ", ".join(fields))
        if it.kind != "fn":
            continue
        code = body(it)
        loops = len(re.findall(r"^\s*(?:'\w+: )?(?:while|loop)\b", code, re.M))
        if loops:
            found.add(3, it.file, it.name, f"{loops} loop{'s' if loops > 1 else ''} by hand")
        if METHOD.search(it.name) and it.crate != "util" and re.search(r"\bif\b", code):
            found.add(3, it.file, it.name, "a method of the library by hand")
        if CONVERT.search(it.name) and (it.crate, it.name) not in PASSES_ON and re.search(OLD.get((it.crate, it.name), r"\b(?:match|if|while|for)\b|[%/] "), code):
            found.add(4, it.file, it.name, "a conversion, comparison or print by hand")
        buffers = re.findall(r"let mut (\w+) = \[[^;\]]+; [\w ]+\]", code)
        if buffers:
            found.add(6, it.file, it.name, "buffers with a length beside: " + ", ".join(buffers))
        params = signature(it)
        for name, parts in TOGETHER:
            if all(not re.search(p[1:], params) if p[0] == "!" else re.search(p, params) for p in parts):
                together.setdefault(name, []).append(it)
        head = it.text[:it.text.find(code[:40])] if code else it.text
        for c in re.findall(r"requires (?:\w+ )?\{ (.*) \}", head):
            for fact in facts(c):
                clauses.setdefault(fact, []).append(it)
    for name, its in together.items():
        if len(its) >= 3:
            crates = Counter(i.crate for i in its)
            outside = sum("extern" in i.lines[0] for i in its)
            found.add(5, its[0].file, name, f"{len(its)} functions, {outside} of them C's: " + ", ".join(f"{c} {n}" for c, n in sorted(crates.items())),
                      [f"{i.crate}::{i.name}" for i in its])
    for c, its in clauses.items():
        if len(its) >= 3:
            found.add(5, its[0].file, "requires " + c, f"{len(its)} functions: " + ", ".join(i.name for i in its), [f"{i.crate}::{i.name}" for i in its])
    stale = []
    for point, crate, names, pattern, what in TABLE:
        names = names.split()
        have = [n for n in names if (crate, n) in by_crate and re.search(pattern, by_crate[(crate, n)].text)]
        if not have:
            stale.append(f"{crate}: {' '.join(names)}")
        elif len(names) == 1 or len(have) > 1:
            found.add(point, by_crate[(crate, have[0])].file, ", ".join(have), what, have)
        elif len(have) < len(names):
            stale.append(f"{crate}: all of {' '.join(names)} but {have[0]}")
    proofs(files, found)
    return found, all_items, stale


ANSWER = re.compile(r"^pub ([\w-]+) : goal\.", re.M)


def proofs(files, found):
    """Point 8: a file of answers is a place; and an answer that three files or more repeat."""
    repeated = {}
    for f, text in sorted(files.items()):
        if not PROOF.match(f):
            continue
        if f.endswith("/Answers.antt"):
            n = len(ANSWER.findall(text))
            found.answers[f] = n
            for m in re.finditer(r"^([\w-]+) c =((?:.*\n?(?: +.*\n?)*))", text, re.M):
                said = " ".join(m[2].split())
                if len(said) > 60:
                    repeated.setdefault(said, []).append(f)
    for said, where in repeated.items():
        if len(set(where)) >= 3:
            found.add(8, where[0], "the answer " + said[:70], f"{len(where)} times, in {len(set(where))} files", sorted(set(where)))


def other(files):
    """The other way of counting."""
    out = OrderedDict()
    types = Counter()
    for f, text in files.items():
        if SRC.match(f):
            bare = re.sub(r"//.*", "", text)
            for t, v in re.findall(r"\b([A-Z]\w+)::([A-Z]\w+)", bare):
                if v in EMPTY | REFUSED:
                    types[(SRC.match(f)[1], t)] += 1
    names = sorted({t for _, t in types})
    out[1] = (len(names), "types of which a variant of those names is written: " + ", ".join(names))
    loops = Counter()
    for f, text in files.items():
        if PROOF.match(f) and f.endswith("Invariants.antt"):
            n = len(set(re.findall(r"^(?:abbrev |unfoldable )?pub invariant-(loop[\w-]*)", text, re.M)))
            loops[f.split("/")[1] + "::" + f.split("/")[-2].lstrip("+")] += n
    out[3] = (sum(1 for n in loops.values() if n), "functions of whose loops the proofs give an invariant: " + ", ".join(sorted(k for k, n in loops.items() if n)))
    steps = sum(len(re.findall(r"\+= ", body(it))) > 0 for f, t in files.items() if SRC.match(f) for it in items(f, t) if it.kind == "fn")
    out[31] = (steps, "functions with `+= ` in them")
    src = "\n".join(t for f, t in files.items() if SRC.match(f))
    out[4] = (len(re.findall(r"^\s+(?:\d+|\w+::\w+(?:\(\w+\))?) => (?:\d+|\w+::\w+(?:\(\w+::\w+\))?),$", src, re.M)), "arms from a number or variant to another")
    derives = Counter(re.findall(r"#\[derive\((.*?)\)\]", src))
    out[41] = (sum(derives.values()), "derives: " + ", ".join(f"{k} {n}" for k, n in derives.items()))
    out[6] = (len(re.findall(r"= \[\d\w*; ", src)), "arrays made with one value")
    goals = sum(len(ANSWER.findall(t)) for f, t in files.items() if PROOF.match(f) and f.endswith("/Answers.antt"))
    out[8] = (goals, "answers in those files")
    return out


TITLES = {1: "own Option, Result, flags and numbers", 2: "twins", 3: "loops and methods by hand", 4: "conversions by hand",
          5: "what travels together", 6: "buffers with a length", 7: "switches on a step", 8: "answers that repeat"}


def by_crate(places):
    crates = OrderedDict()
    for (crate, name), (_, _, members) in places.items():
        crates.setdefault(crate, []).append(" = ".join(members) if name == ", ".join(members) else name)
    return crates


def squeeze(text):
    return re.sub(r"\s+", "", text)


def write_page(said_kept, table):
    """Puts what is kept, and the table, into the page in place of what stood there."""
    page = "docs/DESIGN-PASS.md"
    with open(page, encoding="utf-8") as f:
        text = f.read()
    by_line = OrderedDict()
    for point, crate, name, reason, line in said_kept:
        by_line.setdefault((point, reason, line), []).append(f"`{crate}` " + ", ".join(f"`{n}`" for n in name.split(", ")))
    rows = "".join(f"- {point}. {'; '.join(where)} ({reason}): {line}\n" for (point, reason, line), where in by_line.items())
    start, end = text.index("## Kept\n"), text.index("\n## Signatures")
    intro = ("## Kept\n\nEach place that stayed, by point, with which of the four reasons it is, and the words that stand beside it in the source.\n\n")
    text = text[:start] + intro + rows + text[end:]
    start = text.index("## What is left\n") + len("## What is left\n")
    end = text.index("\n## ", start) if "\n## " in text[start:] else len(text)
    after = re.sub(r"\A\s*\| point.*?(?:\n(?!\|)|\Z)", "", text[start:end], flags=re.S)
    text = text[:start] + "\n" + table + after + text[end:]
    with open(page, "w", encoding="utf-8") as f:
        f.write(text)


def said_answers(found):
    crates = Counter(f.split("/")[1] for f in found.answers)
    return (f"{len(found.answers)} files of answers with {sum(found.answers.values())} answers: "
            + ", ".join(f"{c} {n}" for c, n in sorted(crates.items())))


def main():
    words = sys.argv[1:]
    flags = {w for w in words if w.startswith("--")}
    against = None
    if "--against" in words:
        i = words.index("--against")
        against = words[i + 1]
        del words[i:i + 2]
    rest = [w for w in words if not w.startswith("--")]
    files = load(rest[0] if rest else None)
    found, its, stale = count(files)
    if "--other" in flags:
        for k, (n, what) in other(files).items():
            print(f"{str(k)[0]}: {n} {what}")
        return
    if against:
        old_files = load(against)
        old, old_items, old_stale = count(old_files)
        for s in old_stale:
            print(f"stale in TABLE: {s}", file=sys.stderr)
        said = {}
        for (c, f, n), it in old_items.items():
            said.setdefault(c, set()).update(it.comments())
        kept_so, comments = OrderedDict(), {}
        for f, text in files.items():
            if SRC.match(f):
                c = SRC.match(f)[1]
                comments[c] = comments.get(c, "") + squeeze(" ".join(m for m in re.findall(r"//+(.*)", text)))
        with open("tools/design_kept.txt", encoding="utf-8") as f:
            for row in f.read().splitlines():
                if row:
                    where, reason, line = row.split(" | ")
                    kept_so[tuple(where.split(" ", 2))] = (reason, line)
        rows, said_kept = [], []
        for point in range(1, 9):
            kept = changed = still = 0
            print(f"\n## {point} {TITLES[point]}")
            for (crate, name), (file, what, members) in old.of[point].items():
                now = found.of[point].get((crate, MOVED.get((point, crate, name), name)))
                if now is None and point == 5:
                    now = next((p for (_, n), p in found.of[5].items() if n == name), None)
                    if now is None:
                        changed += 1
                        print(f"changed  {file}: {name}")
                        continue
                if now is None:
                    names = {m for (c, _), (_, _, ms) in found.of[point].items() if c == crate for m in ms}
                    if not (set(members) & names):
                        changed += 1
                        print(f"changed  {file}: {name}")
                        continue
                    now = (file, what, sorted(set(members) & names))
                what = now[1] if point == 5 else what
                key = (str(point), crate, name)
                if key in kept_so:
                    reason, line = kept_so.pop(key)
                    m = re.match(r"\((\w+)\) (.*)", line)
                    if squeeze(m[2] if m else line) in comments.get(m[1] if m else crate, ""):
                        kept += 1
                        print(f"kept     {file}: {name}: {reason}: {line}")
                        said_kept.append((point, crate, name, reason, line))
                        continue
                    print(f"not in a comment of {crate}: {line}", file=sys.stderr)
                new = []
                for (c, f, n), it in its.items():
                    if c == crate and (n in now[2] or f"{c}::{n}" in now[2]):
                        new += [s for s in it.comments() if s not in said.get(crate, set())]
                still += 1
                print(f"still    {file}: {name}: {what}" + (f"   [{' '.join(new)[:300]}]" if new else ""))
            rows.append((point, len(old.of[point]), changed, kept, still))
        gone = [f for f in old.answers if f not in found.answers]
        for key in kept_so:
            print(f"in design_kept.txt, and no such place is left: {' '.join(key)}", file=sys.stderr)
        print(f"\n{said_answers(old)}\nthen {said_answers(found)}\ngone: {len(gone)}: {', '.join(gone)}")
        table = "| point | found | changed | kept with a reason | still to do |\n|---|---|---|---|---|\n"
        table += "".join("| " + " | ".join(map(str, r)) + " |\n" for r in rows)
        print("\n" + table)
        if "--write" in flags:
            write_page(said_kept, table)
        return
    for s in stale:
        print(f"not found by TABLE: {s}", file=sys.stderr)
    for point in range(1, 9):
        places = found.of[point]
        print(f"\n## {point} {TITLES[point]}: {len(places)}")
        if "--brief" in flags:
            for crate, names in by_crate(places).items():
                print(f"- {crate}: " + ", ".join(f"`{n}`" for n in names))
        else:
            for (crate, name), (file, what, members) in places.items():
                print(f"{file}: {name}: {what}")
    print("\n" + said_answers(found))


main()
