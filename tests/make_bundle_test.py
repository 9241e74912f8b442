#!/usr/bin/env python3
"""Test scripts/make_bundle.py: bundles byte for byte, each error's sentence, and files damaged or cut short.

usage: tests/make_bundle_test.py             needs the program target/bin/list, clang and an lld for Mach-O
       tests/make_bundle_test.py --check     without all three
       tests/make_bundle_test.py --link      link tests/orchard.dylib anew

Mach-O files are packed by hand here. tests/orchard.dylib was made by a linker, and more are made by clang and lld at each run: the
former has what a linker writes even if they are missing, the latter show that it is still what a linker writes.
"""
import argparse
import contextlib
import io
import os
import pathlib
import pty
import random
import resource
import select
import shutil
import struct
import subprocess
import sys
import tempfile

ROOT = pathlib.Path(__file__).resolve().parent.parent
SCRIPT, PROGRAM = ROOT / "scripts" / "make_bundle.py", ROOT / "target" / "bin" / "list"
KEPT, KEPT_TREE = ROOT / "tests" / "orchard.dylib", 0x2DC
sys.path.insert(0, str(ROOT / "scripts"))
sys.dont_write_bytecode = True

import make_bundle  # noqa: E402

checks, failures = 0, 0


def expect(what, got, wanted):
    global checks, failures
    checks += 1
    if got != wanted:
        failures += 1
        print(f"tests/make_bundle_test.py: {what}:\n  got      {got!r:.600}\n  expected {wanted!r:.600}", file=sys.stderr)


# Running the script: in this process, and as a command.


def made(*words):
    """Exit status, what was said on standard error, and the bundle or None."""
    out = FOLDER / "out"
    out.unlink(missing_ok=True)
    said = io.StringIO()
    with contextlib.redirect_stderr(said):
        status = make_bundle.main([*map(str, words), "-o", str(out)])
    said = said.getvalue().replace("make_bundle.py: ", "").replace(f"{FOLDER}/", "")
    return status, said, out.read_bytes() if out.exists() else None


def macho(data, *words):
    (FOLDER / "file").write_bytes(data)
    return made("--macho", FOLDER / "file", *words)


def read(data, arch=None):
    """The same, for bytes that are not in a file: for the many inputs that are cut or damaged."""
    said, kept = io.StringIO(), make_bundle.file_content
    make_bundle.file_content = lambda name: bytes(data)
    try:
        with contextlib.redirect_stderr(said):
            out = make_bundle.bundle_of(argparse.Namespace(macho="file", arch=arch, sample=None))
        return 0, said.getvalue().replace("make_bundle.py: ", ""), out
    except make_bundle.Trouble as trouble:
        return 2, f"{said.getvalue()}{trouble}\n".replace("make_bundle.py: ", ""), None
    finally:
        make_bundle.file_content = kept


def command(*words, **how):
    ended = subprocess.run([sys.executable, SCRIPT, *words], stderr=subprocess.PIPE, **how)
    return ended.returncode, ended.stderr.decode(), ended.stdout


def listed(bundle):
    return subprocess.run([PROGRAM], input=bundle, stdout=subprocess.PIPE, stderr=subprocess.DEVNULL).stdout.decode()


def refuses(what, data, sentence, *words):
    expect(what, macho(data, *words), (2, f"file: {sentence}\n", None))


def warns(what, data, bundle, *sentences):
    expect(what, macho(data), (0, "".join(f"warning: {s}\n" for s in sentences), bundle))


# Mach-O files and bundles, packed by hand.

X86_64, ARM64, I386 = (0x01000007, 3), (0x0100000C, 0), (7, 3)


def section_header(name, address=0, size=0, offset=0, segment=b"__TEXT"):
    return struct.pack("<16s16sQQIIIIIIII", name, segment, address, size, offset, 2, 0, 0, 0, 0, 0, 0)


def segment_command(name, numbers, *sections, count=None, size=None):
    size = 72 + 80 * len(sections) if size is None else size
    count = len(sections) if count is None else count
    return struct.pack("<II16s4QiiII", 0x19, size, name, *numbers, 5, 5, count, 0) + b"".join(sections)


def thin(commands, body=b"", cpu=X86_64, filetype=6, count=None, size=None):
    joined = b"".join(commands)
    count = len(commands) if count is None else count
    return struct.pack("<8I", 0xFEEDFACF, *cpu, filetype, count, len(joined) if size is None else size, 0, 0) + joined + body


def fat(*files, wide=False):
    table, body = struct.pack(">II", 0xCAFEBABF if wide else 0xCAFEBABE, len(files)), b""
    at = 8 + (32 if wide else 20) * len(files)
    for cpu, data in files:
        places = (at + len(body), len(data))
        table += struct.pack(">IIQQII", *cpu, *places, 0, 0) if wide else struct.pack(">IIIII", *cpu, *places, 0)
        body += data
    return table + body


def record(kind, body):
    return len(body).to_bytes(4, "little") + kind.to_bytes(2, "little") + body


def bundle(image, numbers=(), types=None, fields=None, strings=None):
    out = record(1, image)
    if numbers:
        out += record(2, b"".join(n.to_bytes(8, "little") for n in numbers))
    for kind, led in ((3, types), (4, fields), (5, strings)):
        if led is not None:
            out += record(kind, led[0].to_bytes(8, "little") + led[1])
    return out


OTHER = struct.pack("<II16s", 0x1B, 24, b"an identifier.")
HEAD = 32 + 24 + (72 + 4 * 80) + (72 + 3 * 80) + 72
BASE = 0x100000000


def orchard(cpu=X86_64):
    """A file with a struct in a module and all three sections; (file, its bundle)."""
    contexts = [(0x40, None, b"Orchard"), (0x51, 0, b"Tree"), (0x51, 1, b"Leaf")]
    const = make_bundle.image_of(BASE + HEAD, contexts)
    const += bytes(-len(const) % 4)
    at = HEAD + len(const)
    types = make_bundle.slots(BASE + at, [BASE + HEAD + 28, BASE + HEAD + 56])
    fields, strings = b"FIELDS of 20 bytes..", b"seed\0stem\0"
    places = {b"__swift5_types": (at, types), b"__swift5_fieldmd": (at + 8, fields), b"__swift5_reflstr": (at + 28, strings)}
    total = at + 38
    first = [section_header(b"__const", BASE + HEAD, len(const), HEAD)]
    first += [section_header(name, BASE + place, len(body), place) for name, (place, body) in places.items()]
    # Names that differ only in their last bytes, and a later section with the same name as an earlier one.
    second = [section_header(name, 1, 4, 0, b"__DATA") for name in (b"__swift5_types2", b"__swift5_types", b"__swift5_types\0x")]
    numbers = (BASE, 0x4000, 0, total), (BASE + 0x4000, 0x1000, 0, 0), (BASE + 0x8000, 0x1000, total, 0)
    commands = [OTHER, segment_command(b"__TEXT", numbers[0], *first), segment_command(b"__DATA", numbers[1], *second)]
    commands.append(segment_command(b"__LINKEDIT", numbers[2]))
    data = thin(commands, const + types + fields + strings, cpu)
    assert len(data) == total
    led = [(BASE + place, body) for place, body in places.values()]
    return data, bundle(data, sum(numbers, ()), *led)


LISTING = f"{BASE + HEAD + 28:016x} struct Orchard.Tree\n{BASE + HEAD + 56:016x} struct Orchard.Tree.Leaf\nend 2\n"
NO_SEGMENTS = "there are no segments: no address leads into the image, and nothing is listed"
NO_TYPES = "there are no types (section __swift5_types): nothing is listed"


def whole_files():
    data, wanted = orchard()
    arm, arm_wanted = orchard(ARM64)
    expect("a thin file", macho(data), (0, "", wanted))
    expect("its bytes", read(data), (0, "", wanted))
    expect("a thin file, with its architecture", macho(data, "--arch", "x86_64"), (0, "", wanted))
    refuses("a thin file, with another", data, "there is no architecture arm64; the file has x86_64", "--arch", "arm64")
    for wide in (False, True):
        both = fat((X86_64, data), (ARM64, arm), wide=wide)
        expect("a fat file, first", macho(both, "--arch", "x86_64"), (0, "", wanted))
        expect("a fat file, second", macho(both, "--arch", "arm64"), (0, "", arm_wanted))
        several = "a fat file with several architectures; choose one with --arch: x86_64, arm64"
        refuses("a fat file, none chosen", both, several)
        refuses("a fat file, another", both, "there is no architecture arm64e; the file has x86_64, arm64", "--arch", "arm64e")
        expect("a fat file with one", macho(fat((ARM64, arm), wide=wide)), (0, "", arm_wanted))
    high = (0x0100000C, 0x80000002)
    expect("bits above the subtype", macho(fat((high, arm), (X86_64, data)), "--arch", "arm64e"), (0, "", arm_wanted))
    strange = fat(((9, 9), data), (ARM64, arm))
    refuses("an unknown processor", strange, "a fat file with several architectures; choose one with --arch: 0x9-9, arm64")
    expect("an unknown processor, chosen", macho(strange, "--arch", "0x9-9"), (0, "", wanted))
    if USE_PROGRAM:
        for image in (wanted, arm_wanted):
            expect("the listing of a file", listed(image), LISTING)


def small_files():
    numbers = (0x1000, 0x1000, 0, 0)
    one = thin([segment_command(b"__TEXT", numbers)])
    warns("no sections", one, bundle(one, numbers), NO_TYPES)
    none = thin([OTHER])
    warns("no segments", none, bundle(none), NO_SEGMENTS, NO_TYPES)
    bare = thin([])
    warns("no commands", bare, bundle(bare), NO_SEGMENTS, NO_TYPES)
    for names in ([b"__swift5_reflstr"], [b"__swift5_reflstr", b"__swift5_fieldmd"], [b"__swift5_types", b"__swift5_reflstr"]):
        data = thin([segment_command(b"", numbers, *[section_header(name, 0x2000, 32, 0) for name in names])])
        parts = {word: (0x2000, data[:32]) for word in ("types", "fields", "strings") if f"__swift5_{KINDS[word]}".encode() in names}
        warns(f"sections {names}", data, bundle(data, numbers, **parts), *([] if "types" in parts else [NO_TYPES]))
    data = thin([segment_command(b"", numbers, section_header(b"__swift5_types", 0x2000, 0, 40))])
    warns("an empty section", data, bundle(data, numbers, types=(0x2000, b"")), NO_TYPES)
    unlinked = thin([segment_command(b"", numbers, section_header(b"__swift5_types", 0x2000, 4, 0))], filetype=1)
    sentence = "file: an object file: the linker has yet to set its pointers, so types may be missing or wrong"
    warns("an object file", unlinked, bundle(unlinked, numbers, types=(0x2000, unlinked[:4])), sentence)
    top = 2**64 - 1
    edge = thin([segment_command(b"", (top,) * 4, section_header(b"__swift5_types", top, 4, 0))])
    sentence = f"file: {len(edge):,} bytes are there, and the segments reach to byte {2 * top:,}: "
    sentence += "types whose bytes are missing are not listed, and a name may be cut short"
    warns("the largest numbers", edge, bundle(edge, (top,) * 4, types=(top, edge[:4])), sentence)


KINDS = {"types": "types", "fields": "fieldmd", "strings": "reflstr"}


def other_files():
    refuses("no bytes", b"", "no Mach-O file: it is empty")
    refuses("a text", b"--- !tapi-tbd\n", "no Mach-O file: it starts with the bytes 2d 2d 2d 20")
    refuses("32 bits", bytes.fromhex("cefaedfe") + bytes(60), "a 32-bit Mach-O file; only 64-bit ones are read")
    sentence = "a 32-bit big-endian Mach-O file; only 64-bit little-endian ones are read"
    refuses("32 bits, big-endian", bytes.fromhex("feedface") + bytes(60), sentence)
    refuses("big-endian", bytes.fromhex("feedfacf") + bytes(60), "a big-endian Mach-O file; only little-endian ones are read")
    sentence = "an archive of object files, not a Mach-O file; what a linker makes of them is one"
    refuses("an archive", b"!<arch>\n", sentence)
    java = bytes.fromhex("cafebabe00000034") + bytes(2000)
    refuses("a Java class", java, "no Mach-O file: it starts as a fat file does, but with 52 architectures")
    refuses("a fat file of nothing", fat(), "a fat file with no architecture in it")
    old = fat((I386, bytes.fromhex("cefaedfe") + bytes(60)))
    refuses("32 bits in a fat file", old, "a 32-bit Mach-O file; only 64-bit ones are read")
    (FOLDER / "Name.framework").mkdir()
    sentence = "cannot read Name.framework: it is a directory (the file of Name.framework is Name.framework/Name)\n"
    expect("a directory", made("--macho", FOLDER / "Name.framework"), (2, sentence, None))
    expect("no file", made("--macho", FOLDER / "none"), (2, "cannot read none: No such file or directory\n", None))


def damaged_commands():
    good = segment_command(b"__TEXT", (0, 0, 0, 0), section_header(b"__const"))
    where = "load command 2 of 2, at byte 56,"
    for size in (0, 7):
        data = thin([OTHER, struct.pack("<II", 0x1B, size)])
        refuses("a command under 8 bytes", data, f"{where} has a size of {size} bytes, and a command has at least 8")
    for size in (8, 71):
        data = thin([OTHER, segment_command(b"__TEXT", (0, 0, 0, 0), size=size)])
        sentence = f"{where} runs past its end: a segment has at least 72 bytes, and its size is {size}"
        refuses("a segment under 72 bytes", data, sentence)
    data = thin([OTHER, segment_command(b"__TEXT", (0, 0, 0, 0), section_header(b"__const"), count=2)])
    sentence = f"{where} runs past its end: with 2 sections it needs 232 bytes, and its size is 152"
    refuses("sections past their segment", data, sentence)
    data = thin([OTHER, segment_command(b"__TEXT", (0, 0, 0, 0), count=2**32 - 1)])
    sentence = f"{where} runs past its end: with 4294967295 sections it needs 343,597,383,672 bytes, and its size is 72"
    refuses("the most sections", data, sentence)
    past = f"{where} runs past the 175 bytes that the header gives for all commands"
    refuses("a command past the commands", thin([OTHER, good], size=175), past)
    past = f"{where} runs past the 24 bytes that the header gives for all commands"
    refuses("a command after the commands", thin([OTHER], bytes(99), count=2), past)
    past = f"{where} runs past the file's end, which is at byte 207"
    refuses("a command past the file", thin([OTHER, good])[:-1], past)
    past = "load command 2 of 4294967295, at byte 56, runs past the 24 bytes that the header gives for all commands"
    refuses("the most commands", thin([OTHER], bytes(99), count=2**32 - 1), past)


def cut_files():
    data, _ = orchard()
    for cut in range(HEAD):
        status, said, out = read(data[:cut])
        expect(f"cut to {cut}", (status, said.count("\n"), said[:6], out), (2, 1, "file: ", None))
    for cut in range(HEAD, len(data)):
        status, said, out = read(data[:cut])
        expect(f"cut to {cut}", (status, out is not None, "segments reach" in said), (0, True, True))
    at = len(data) - 10 - 20 - 8
    numbers = BASE, 0x4000, 0, len(data), BASE + 0x4000, 0x1000, 0, 0, BASE + 0x8000, 0x1000, len(data), 0
    cut = data[: at + 6]
    led = (BASE + at, cut[at:]), (BASE + at + 8, b""), (BASE + at + 28, b"")
    said = [f"file: {len(cut):,} bytes are there, and the segments reach to byte {len(data):,}: types whose bytes are missing"]
    said[0] += " are not listed, and a name may be cut short"
    for name, size, place, there in ("types", 8, at, 6), ("fieldmd", 20, at + 8, 0), ("reflstr", 10, at + 28, 0):
        what = f"the {size} bytes of __swift5_{name} at byte {place:,}"
        said.append(f"file: {what} run past the file's end: the {there} that are there are read")
    warns("cut in the types", cut, bundle(cut, numbers, *led), *said)
    for wide in (False, True):
        both = fat((ARM64, data), (X86_64, data), wide=wide)
        table = len(both) - 2 * len(data)
        for cut in range(table + HEAD):
            status, said, out = read(both[:cut], "arm64")
            expect(f"fat, cut to {cut}", (status, "file: " in said, out), (2, True, None))
            if 8 <= cut < table:
                expect(f"fat, cut to {cut}", said, "file: a fat file that ends inside its table of architectures\n")
    cut = both[: table + 40]
    said = f"warning: file: the {len(data):,} bytes of arm64 run past the file's end: the 40 that are there are read\n"
    said += "file: load command 1 of 4, at byte 32, runs past the file's end, which is at byte 40\n"
    expect("a cut part", macho(cut, "--arch", "arm64"), (2, said, None))


def damaged_files():
    """Files with bytes changed, by a fixed seed: a bundle or a sentence, and no exception."""
    chance, (data, _) = random.Random(1), orchard()
    for turn in range(1500):
        damaged = bytearray(fat((X86_64, data), (ARM64, data)) if turn % 3 == 0 else data)
        for _ in range(1 + turn % 4):
            value = chance.choice((0, 1, 0x19, 0x7F, 0x80, 0xFF, chance.randrange(256)))
            damaged[chance.randrange(min(len(damaged), HEAD + 60))] = value
        status, said, out = read(damaged, "arm64" if turn % 3 == 0 else None)
        expect("a damaged file", (status, out is None) in ((0, False), (2, True)) and (status == 0 or "file: " in said), True)


def parts():
    """Bundles from their parts, and the options' errors."""
    image = "hex:11000000000000001400000000000000000000000000000000000000436c756500"
    clue = (ROOT / "samples" / "clue.bundle").read_bytes()
    words = ["--image", image, "--segment", "0x1000,33,0,33", "--types", "0x2000:hex:00f0ffff"]
    expect("parts", made(*words), (0, "", clue))
    (FOLDER / "image").write_bytes(bytes.fromhex(image[4:]))
    expect("parts in files", made("--image", FOLDER / "image", "--segment", "4096,33,0,33", *words[4:]), (0, "", clue))
    more = made(*words, "--segment", "1,2,3,0xFFFFFFFFFFFFFFFF", "--fields", "5:hex:66", "--strings", f"6:{FOLDER}/image")
    data = bytes.fromhex(image[4:])
    numbers = (0x1000, 33, 0, 33, 1, 2, 3, 2**64 - 1)
    expect("all parts", more, (0, "", bundle(data, numbers, (0x2000, bytes.fromhex("00f0ffff")), (5, b"f"), (6, data))))
    expect("no parts", made("--image", "hex:"), (0, f"warning: {NO_SEGMENTS}\nwarning: {NO_TYPES}\n", bundle(b"")))
    for name in ("clue", "garden"):
        expect(name, made("--sample", name), (0, "", (ROOT / "samples" / f"{name}.bundle").read_bytes()))
    for size in (65536, 65537):
        (FOLDER / "image").write_bytes(bytes(size - len(bundle(b"", (0,) * 4, (0, bytes(4))))))
        status, said, out = made("--image", FOLDER / "image", "--segment", "0,0,0,0", "--types", "0:hex:00000000")
        sentence = "the bundle has 65,537 bytes, and the program refuses one above 65,536 (refused 5). The limit is the program's; "
        sentence = f"warning: {sentence}README.md, List a framework, says how to list a part of the file\n"
        expect("the limit", (status, said, len(out)), (0, "" if size == 65536 else sentence, size))
        if USE_PROGRAM:
            expect("the limit, listed", listed(out), "end 0\n" if size == 65536 else "refused 5\n")
    digits = "after hex: come hexadecimal digits, two for each byte, and nothing else"
    no_number = "is no number: decimal digits, or hexadecimal ones after 0x"
    four = "a segment is four numbers, VMADDR,VMSIZE,FILEOFF,FILESIZE, and these are"
    for bad, sentence in (
        ([], "one of --macho, --image and --sample is needed"),
        (["--arch", "arm64"], "one of --macho, --image and --sample is needed"),
        (["--macho", "x", "--image", "hex:"], "--macho and --image do not go together"),
        (["--sample", "clue", "--image", "hex:"], "--image and --sample do not go together"),
        (["--sample", "clue", "--macho", "x", "--image", "hex:"], "--macho and --image and --sample do not go together"),
        (["--sample", "clue", "--types", "1:hex:"], "--types goes with --image alone"),
        (["--macho", "x", "--segment", "1,2,3,4"], "--segment goes with --image alone"),
        (["--image", "hex:", "--arch", "arm64"], "--arch goes with --macho alone"),
        (["--image", "hex:", "--types", "1:hex:", "--types", "2:hex:"], "argument --types: given twice"),
        (["--image", "hex:", "--image", "hex:"], "argument --image: given twice"),
        (["--macho", "x", "--macho", "x"], "argument --macho: given twice"),
        (["--sample", "rose"], "argument --sample: invalid choice: 'rose' (choose from 'clue', 'garden')"),
        (["--image"], "argument --image: expected one argument"),
        (["--image", "hex:", "more"], "unrecognized arguments: more"),
        (["--image", "hex:0"], f"argument --image: {digits}"),
        (["--image", "hex:0g"], f"argument --image: {digits}"),
        (["--image", "hex:0 1 "], f"argument --image: {digits}"),
        (["--image", FOLDER / "none"], "argument --image: cannot read none: No such file or directory"),
        (["--types", "0x2000"], "argument --types: '0x2000' has no colon: it takes ADDRESS:BYTES, as in 0x2000:types.bin"),
        (["--types", "x:hex:"], f"argument --types: 'x' {no_number}"),
        (["--types", ":hex:"], f"argument --types: '' {no_number}"),
        (["--fields", "0x10000000000000000:hex:"], "argument --fields: 0x10000000000000000 does not fit in 64 bits"),
        (["--strings", "1:hex:z"], f"argument --strings: {digits}"),
        (["--segment", "1,2,3"], f"argument --segment: {four} 3"),
        (["--segment", "1,2,3,4,5"], f"argument --segment: {four} 5"),
        (["--segment", "1,2,3,0x"], f"argument --segment: '0x' {no_number}"),
        (["--segment", "1,2,3,-4"], f"argument --segment: '-4' {no_number}"),
        (["--segment", "1,2,3," + "9" * 5000], "argument --segment: " + "9" * 5000 + " does not fit in 64 bits"),
    ):
        expect(f"options {bad}"[:100], made(*bad), (2, f"{sentence} (--help says more)\n", None))


def no_bundle():
    """What a pipe gets if there is no bundle: one that the program refuses, since no bytes at all are an empty listing."""
    nothing = bytes.fromhex("000000000200")
    piped = {"stdout": subprocess.PIPE}
    sentence = f"make_bundle.py: cannot read {FOLDER}/none: No such file or directory\n"
    expect("no file, to a pipe", command("--macho", FOLDER / "none", **piped), (2, sentence, nothing))
    expect("no file, and -o", command("--macho", FOLDER / "none", "-o", FOLDER / "out", **piped), (2, sentence, b""))
    (FOLDER / "none.macho").write_bytes(b"")
    sentence = f"make_bundle.py: {FOLDER}/none.macho: no Mach-O file: it is empty\n"
    expect("an empty file, to a pipe", command("--macho", FOLDER / "none.macho", **piped), (2, sentence, nothing))
    sentence = "make_bundle.py: unrecognized arguments: --bogus (--help says more)\n"
    expect("options, to a pipe", command("--sample", "clue", "--bogus", **piped), (2, sentence, nothing))
    for word in ("-o", f"-o{FOLDER}/out"):
        words = [word, FOLDER / "out"] if word == "-o" else [word]
        expect("options, and -o", command("--sample", "clue", "--bogus", *words, **piped), (2, sentence, b""))
    # What goes wrong inside, whatever it is.
    for error, status in ("MemoryError", 2), ("KeyboardInterrupt", 130), ("ZeroDivisionError", 1):
        inside = f"import sys; sys.path[:0] = ['{SCRIPT.parent}']; import make_bundle as m\n"
        inside += f"def fails(options): raise {error}\nm.bundle_of = fails; sys.exit(m.main(['--sample', 'clue']))"
        ended = subprocess.run([sys.executable, "-B", "-c", inside], stderr=subprocess.DEVNULL, **piped)
        expect(error, (ended.returncode, ended.stdout), (status, nothing))
    # A file that cannot be written whole is not left behind; a device stays.
    small = {"preexec_fn": lambda: resource.setrlimit(resource.RLIMIT_FSIZE, (0, 0))}
    sentence = f"make_bundle.py: cannot write {FOLDER}/out: File too large\n"
    (FOLDER / "out").write_bytes(b"before")
    expect("no room for a file", (command("--sample", "clue", "-o", FOLDER / "out", **small), (FOLDER / "out").exists()), ((2, sentence, None), False))
    (FOLDER / "full").symlink_to("/dev/full")
    sentence = f"make_bundle.py: cannot write {FOLDER}/full: No space left on device\n"
    expect("onto a full device", (command("--sample", "clue", "-o", FOLDER / "full"), (FOLDER / "full").exists()), ((2, sentence, None), True))
    expect("no standard output", command("--sample", "clue", preexec_fn=lambda: os.closerange(1, 2))[0], 2)
    if USE_PROGRAM:
        expect("no bundle, listed", listed(nothing), "refused 2\n")
        for option, status in ("", 0), ("set -o pipefail; ", 2):
            pipe = f"{option}'{SCRIPT}' --macho '{FOLDER}/none' 2> /dev/null | '{PROGRAM}' 2>&1"
            ended = subprocess.run(["bash", "-c", pipe], stdout=subprocess.PIPE)
            wanted = (status, "refused 2\nlist: refused 2: there is no image, at byte 6\n")
            expect("a pipe without a bundle", (ended.returncode, ended.stdout.decode()), wanted)


def part_of_a_file():
    """What the README says of a file above the limit: only the section with the descriptors, as an image of its own."""
    data, _ = orchard()
    at = len(data) - 10 - 20 - 8
    (FOLDER / "part").write_bytes(data[HEAD:at])
    (FOLDER / "types").write_bytes(data[at : at + 8])
    numbers = BASE + HEAD, at - HEAD, 0, at - HEAD
    words = ["--image", FOLDER / "part", "--segment", ",".join(map(str, numbers)), "--types", f"{BASE + at}:{FOLDER}/types"]
    wanted = bundle(data[HEAD:at], numbers, (BASE + at, data[at : at + 8]))
    expect("a part of a file", made(*words), (0, "", wanted))
    if USE_PROGRAM:
        expect("the listing of a part of a file", listed(wanted), LISTING)


def commands():
    """The script as a command: its outputs and exit status."""
    clue = (ROOT / "samples" / "clue.bundle").read_bytes()
    expect("to standard output", command("--sample", "clue", stdout=subprocess.PIPE), (0, "", clue))
    status, said, out = command("--help", stdout=subprocess.PIPE)
    expect("--help", (status, said, out.decode()), (0, "", make_bundle.__doc__))
    for to, why in ((FOLDER / "none" / "out", "No such file or directory"), (FOLDER, "Is a directory")):
        sentence = f"make_bundle.py: cannot write {to}: {why}\n"
        expect(f"onto {to}", command("--sample", "clue", "-o", to), (2, sentence, None))
    ours, theirs = pty.openpty()
    sentence = "a bundle is not text, and standard output is a terminal: give -o FILE, or pipe it into target/bin/list"
    expect("a terminal", command("--sample", "clue", stdout=theirs), (2, f"make_bundle.py: {sentence}\n", None))
    expect("what a terminal gets", select.select([ours], [], [], 0)[0], [])
    expect("a terminal, and -o", command("--sample", "clue", "-o", FOLDER / "out", stdout=theirs), (0, "", None))
    os.close(ours)
    os.close(theirs)
    reader, writer = os.pipe()
    os.close(reader)
    sentence = "make_bundle.py: cannot write to standard output: its reader has ended\n"
    expect("no reader", command("--sample", "clue", stdout=writer), (2, sentence, None))
    os.close(writer)
    with open("/dev/full", "wb") as full:
        sentence = "make_bundle.py: cannot write to standard output: No space left on device\n"
        expect("a full device", command("--sample", "clue", stdout=full), (2, sentence, None))


# Files made by a real assembler and linker.

ASSEMBLY = """
        .section __TEXT,__const
        .p2align ALIGNED
_module: .long 0x40, 0, _orchard - (_module + 8)
_Tree:  .long 0x51, _module - (_Tree + 4), _tree - (_Tree + 8), 0, 0, 0, 0
_Leaf:  .long 0x51, _Tree - (_Leaf + 4), _leaf - (_Leaf + 8), 0, 0, 0, 0
_orchard: .asciz "Orchard"
_tree:  .asciz "Tree"
_leaf:  .asciz "Leaf"
        .section __TEXT,__swift5_types,regular,no_dead_strip
        .p2align 2
_first: .long _Tree - _first
_second: .long _Leaf - _second
"""


def linked_listing(tree):
    """The listing, if the first of the two types is at this address."""
    return f"{tree:016x} struct Orchard.Tree\n{tree + 28:016x} struct Orchard.Tree.Leaf\nend 2\n"


def tool(name):
    return next(filter(None, (shutil.which(n) for n in [name] + [f"{name}-{version}" for version in range(40, 12, -1)])), None)


def linked(arch, aligned, dylib):
    """None, or what failed. If the descriptors' section is aligned to 2^12, its address is the same for every linker."""
    source, object_file = FOLDER / f"{arch}.s", FOLDER / f"{arch}.o"
    source.write_text(ASSEMBLY.replace("ALIGNED", str(aligned)))
    clang = [tool("clang"), "-target", f"{arch}-apple-macos11", "-c", source, "-o", object_file]
    lld = [tool("ld64.lld"), "-arch", arch, "-platform_version", "macos", "11.0", "11.0", "-dylib", "-install_name", "Orchard", "-o", dylib]
    for words in (clang, [*lld, object_file]):
        ended = subprocess.run(words, stdout=subprocess.PIPE, stderr=subprocess.STDOUT)
        if ended.returncode:
            return ended.stdout.decode(errors="replace").partition("\n")[0]
    return None


def by_a_linker(arch, cpu, tree, dylib):
    """The bundle and the listing of a file that a linker made, with its first type at this address; alone, and in a fat file."""
    data = dylib.read_bytes()
    status, said, out = made("--macho", dylib, "--arch", arch)
    expect(f"{arch}: bundle", (status, said, out[: 6 + len(data)]), (0, "", record(1, data)))
    size = int.from_bytes(out[6 + len(data) :][:4], "little")
    types = out[6 + len(data) + 6 + size :]
    address, first, second = struct.unpack("<Qii", types[6:])
    expect(f"{arch}: types", (types[:6], address + first, address + 4 + second), (record(3, bytes(16))[:6], tree, tree + 28))
    other = fat((I386, b"other"), (cpu, data))
    expect(f"{arch}: in a fat file", macho(other, "--arch", arch), (0, "", out))
    if USE_PROGRAM:
        expect(f"{arch}: listing", listed(out), linked_listing(tree))
        pipe = f"'{SCRIPT}' --macho '{dylib}' | '{PROGRAM}'"
        expect(f"{arch}: pipe", subprocess.run(pipe, shell=True, stdout=subprocess.PIPE).stdout.decode(), linked_listing(tree))


def kept_file():
    by_a_linker("x86_64", X86_64, KEPT_TREE, KEPT)


def linked_anew():
    """None, or why nothing was linked."""
    if not tool("clang") or not tool("ld64.lld"):
        return "there is no clang with an ld64.lld"
    for arch, cpu in (("x86_64", X86_64), ("arm64", ARM64)):
        dylib = FOLDER / f"{arch}.dylib"
        why = linked(arch, 12, dylib)
        if why:
            return f"clang or ld64.lld makes no Mach-O file for {arch}: {why}"
        by_a_linker(arch, cpu, 0x100C, dylib)
    return None


def not_run(what, why):
    """Fails if CI=true."""
    global failures
    failures += subprocess.run([ROOT / "scripts" / "not-run", what, why]).returncode


def main():
    if WORDS == ["--link"]:
        sys.exit(linked("x86_64", 2, KEPT))
    for group in (whole_files, small_files, other_files, damaged_commands, cut_files, damaged_files, parts, part_of_a_file, commands, no_bundle, kept_file):
        group()
    if WORDS == []:
        why = linked_anew()
        if why:
            not_run("files linked anew", why)
        if not USE_PROGRAM:
            not_run("listings of the bundles of make_bundle.py", "target/bin/list is not built")
    if failures:
        sys.exit(f"tests/make_bundle_test.py: {failures} of {checks} checks failed")
    print(f"make_bundle_test: {checks} checks")


if __name__ == "__main__":
    WORDS = sys.argv[1:]
    if WORDS not in ([], ["--check"], ["--link"]):
        sys.exit(__doc__)
    USE_PROGRAM = WORDS == [] and PROGRAM.exists()
    with tempfile.TemporaryDirectory() as folder:
        FOLDER = pathlib.Path(folder)
        main()
