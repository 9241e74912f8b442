#!/usr/bin/env python3
"""Make a bundle for the listing program `list`, from a Mach-O file or from its parts.

usage: scripts/make_bundle.py --macho FILE [--arch NAME] [-o FILE]
       scripts/make_bundle.py --image BYTES [--segment VMADDR,VMSIZE,FILEOFF,FILESIZE].. [--types ADDRESS:BYTES]
                              [--fields ADDRESS:BYTES] [--strings ADDRESS:BYTES] [-o FILE]
       scripts/make_bundle.py --sample clue|garden [-o FILE]

Without -o the bundle goes to standard output. The types of a framework, listed:

    scripts/make_bundle.py --macho Name.framework/Name --arch arm64 | target/bin/list

FILE is a 64-bit little-endian Mach-O file, or a fat file, from which one architecture is taken: its bytes are the image, its segments
are in the file's order, and the sections are the first __swift5_types, __swift5_fieldmd and __swift5_reflstr. --arch is needed if the
fat file has several architectures.

BYTES is the name of a file, or hex: and digits. Numbers are decimal, or hexadecimal after 0x. A struct named Clue:

    scripts/make_bundle.py --image hex:11000000000000001400000000000000000000000000000000000000436c756500 \\
        --segment 0x1000,33,0,33 --types 0x2000:hex:00f0ffff | target/bin/list

What cannot be done is said in a sentence on standard error, with exit status 2; what may surprise is a warning there. If there is no
bundle, standard output gets one without an image, which the program refuses (refused 2): no bytes at all would be an empty listing. With
-o, no file is left that is not whole.
"""
import argparse
import contextlib
import os
import re
import struct
import sys

TOP = 2**64
BUNDLE_BYTES = 65536
IMAGE, SEGMENTS, TYPES, FIELDS, STRINGS = range(1, 6)
MODULE, EXTENSION, ANONYMOUS, PROTOCOL, CLASS, STRUCT, ENUM = 0, 1, 2, 3, 16, 17, 18


class Trouble(argparse.ArgumentTypeError):
    """Why there is no bundle, as a sentence. Raised for an option's value, it is printed with the option's name."""


def say(sentence):
    if sys.stderr:
        print(f"make_bundle.py: {sentence}", file=sys.stderr)


def record(kind, body):
    if len(body) >= 2**32:
        raise Trouble(f"a record of a bundle has fewer than {2**32:,} bytes, and these are {len(body):,}")
    return struct.pack("<IH", len(body), kind) + body


def segments(*numbers):
    """The record of segments, four numbers each."""
    return record(SEGMENTS, struct.pack(f"<{len(numbers)}Q", *numbers))


def section(kind, address, body):
    return record(kind, struct.pack("<Q", address) + body)


def relative(place, target):
    """The offset, in four bytes, that leads from a place to a target, modulo 2^64."""
    return struct.pack("<i", (target - place + TOP // 2) % TOP - TOP // 2)


def slots(address, targets):
    """The body of a types section: a slot for each target."""
    return b"".join(relative(address + 4 * i, target) for i, target in enumerate(targets))


def image_of(base, contexts, size=28):
    """An image of descriptors of a size, the first at the address `base`, and their names after them.

    A context is (flags, parent, name): the parent's number or None, the name's bytes or None for an offset of 0.
    """
    names, places = b"", {}
    for flags, parent, name in contexts:
        if name is not None and name not in places:
            places[name] = size * len(contexts) + len(names)
            names += name + b"\0"
    image = b""
    for i, (flags, parent, name) in enumerate(contexts):
        at = base + size * i
        up = bytes(4) if parent is None else relative(at + 4, base + size * parent)
        to = bytes(4) if name is None else relative(at + 8, base + places[name])
        image += (struct.pack("<I", flags) + up + to).ljust(size, b"\0")
    return image + names


# What standard output gets if there is no bundle: a record, and no image.
NO_BUNDLE = segments()


def clue():
    """A struct alone."""
    image = struct.pack("<7I", STRUCT, 0, 20, 0, 0, 0, 0) + b"Clue\0"
    return record(IMAGE, image) + segments(0x1000, 33, 0, 33) + section(TYPES, 0x2000, bytes.fromhex("00f0ffff"))


def garden():
    """A module with types in types, one in a context without a name, and a protocol among the types; one slot is empty."""
    contexts = [
        (0x40 | MODULE, None, b"Garden"),
        (0x40 | STRUCT, 0, b"Bed"),
        (0x40 | CLASS, 0, b"Gardener"),
        (0x40 | ENUM, 1, b"Season"),
        (0x40 | ANONYMOUS, 0, None),
        (0x40 | CLASS, 4, b"Hedgehog"),
        (0x40 | STRUCT, 3, "Größe".encode()),
        (0x40 | PROTOCOL, 0, b"Growing"),
    ]
    base, types = 0x100004000, 0x100008000
    image = image_of(base, contexts)
    body = slots(types, [base + 28 * i for i in (1, 2, 3)]) + bytes(4)
    body += slots(types + len(body), [base + 28 * i for i in (5, 6, 7)])
    numbers = (0, 0x100000000, 0, 0, base, 0x4000, 0, len(image))
    return record(IMAGE, image) + segments(*numbers) + section(TYPES, types, body)


SAMPLES = {"clue": clue, "garden": garden}


# Mach-O files, as in Apple's mach-o/loader.h and mach-o/fat.h.

SECTIONS = {TYPES: b"__swift5_types", FIELDS: b"__swift5_fieldmd", STRINGS: b"__swift5_reflstr"}
MAGIC, MAGIC_FAT, MAGIC_FAT_64 = bytes.fromhex("cffaedfe"), bytes.fromhex("cafebabe"), bytes.fromhex("cafebabf")
OTHER_FILES = {
    bytes.fromhex("cefaedfe"): "a 32-bit Mach-O file; only 64-bit ones are read",
    bytes.fromhex("feedface"): "a 32-bit big-endian Mach-O file; only 64-bit little-endian ones are read",
    bytes.fromhex("feedfacf"): "a big-endian Mach-O file; only little-endian ones are read",
    b"!<ar": "an archive of object files, not a Mach-O file; what a linker makes of them is one",
}
LC_SEGMENT_64, MH_OBJECT = 0x19, 1
MOST_ARCHITECTURES = 40  # a Java class file, which starts as a fat file does, has at least 45 in the count's place
ARCHITECTURES = {
    (7, 3): "i386",
    (12, 9): "armv7",
    (12, 11): "armv7s",
    (12, 12): "armv7k",
    (0x01000007, 3): "x86_64",
    (0x01000007, 8): "x86_64h",
    (0x0100000C, 0): "arm64",
    (0x0100000C, 1): "arm64v8",
    (0x0100000C, 2): "arm64e",
    (0x0200000C, 1): "arm64_32",
}


def architecture(cpu, subtype):
    """The name of a processor, or its numbers; the upper byte of a subtype does not name a processor."""
    subtype &= 0xFFFFFF
    return ARCHITECTURES.get((cpu, subtype), f"{cpu:#x}-{subtype}")


def fat_parts(data):
    """(architecture, offset, size) of each part of a fat file."""
    count = int.from_bytes(data[4:8], "big")
    layout = ">IIQQII" if data[:4] == MAGIC_FAT_64 else ">IIIII"
    if count > MOST_ARCHITECTURES:
        raise Trouble(f"no Mach-O file: it starts as a fat file does, but with {count} architectures")
    if len(data) < 8 + count * struct.calcsize(layout):
        raise Trouble("a fat file that ends inside its table of architectures")
    for n in range(count):
        cpu, subtype, offset, size, *_ = struct.unpack_from(layout, data, 8 + n * struct.calcsize(layout))
        yield architecture(cpu, subtype), offset, size


def thin(data, wanted, warn):
    """The bytes of a thin file: all of them, or one architecture's of a fat file."""
    if data[:4] not in (MAGIC_FAT, MAGIC_FAT_64):
        if wanted and data[:4] == MAGIC and len(data) >= 12:
            found = architecture(*struct.unpack_from("<II", data, 4))
            if wanted != found:
                raise Trouble(f"there is no architecture {wanted}; the file has {found}")
        return data
    parts = list(fat_parts(data))
    names = ", ".join(name for name, _, _ in parts)
    if not parts:
        raise Trouble("a fat file with no architecture in it")
    if wanted is None and len(parts) > 1:
        raise Trouble(f"a fat file with several architectures; choose one with --arch: {names}")
    for name, offset, size in parts:
        if wanted in (None, name):
            if offset + size > len(data):
                there = max(0, len(data) - offset)
                warn(f"the {size:,} bytes of {name} run past the file's end: the {there:,} that are there are read")
            return data[offset : offset + size]
    raise Trouble(f"there is no architecture {wanted}; the file has {names}")


def load_commands(data):
    """(command, place, size, words for it) of each load command, all of whose bytes are in the file."""
    count, total = struct.unpack_from("<II", data, 16)
    at = 32
    for n in range(1, count + 1):
        where = f"load command {n} of {count}, at byte {at:,},"

        def must_hold(size):
            if at + size > 32 + total:
                raise Trouble(f"{where} runs past the {total:,} bytes that the header gives for all commands")
            if at + size > len(data):
                raise Trouble(f"{where} runs past the file's end, which is at byte {len(data):,}")

        must_hold(8)
        command, size = struct.unpack_from("<II", data, at)
        if size < 8:
            raise Trouble(f"{where} has a size of {size} bytes, and a command has at least 8")
        must_hold(size)
        yield command, at, size, where
        at += size


def macho_parts(data, warn):
    """The segments' numbers, and (address, offset, size) of the first section of each name, of a thin file."""
    if data[:4] in OTHER_FILES:
        raise Trouble(OTHER_FILES[data[:4]])
    if data[:4] != MAGIC:
        raise Trouble("no Mach-O file: it is empty" if not data else f"no Mach-O file: it starts with the bytes {data[:4].hex(' ')}")
    if len(data) < 32:
        raise Trouble(f"a Mach-O file that ends inside its header: 32 bytes are needed, and {len(data)} are there")
    if struct.unpack_from("<I", data, 12) == (MH_OBJECT,):
        warn("an object file: the linker has yet to set its pointers, so types may be missing or wrong")
    numbers, sections = [], {}
    for command, at, size, where in load_commands(data):
        if command != LC_SEGMENT_64:
            continue
        if size < 72:
            raise Trouble(f"{where} runs past its end: a segment has at least 72 bytes, and its size is {size}")
        numbers += struct.unpack_from("<4Q", data, at + 24)
        (count,) = struct.unpack_from("<I", data, at + 64)
        if 72 + 80 * count > size:
            need = f"with {count} sections it needs {72 + 80 * count:,} bytes"
            raise Trouble(f"{where} runs past its end: {need}, and its size is {size:,}")
        for place in range(at + 72, at + 72 + 80 * count, 80):
            address, length, offset = struct.unpack_from("<QQI", data, place + 32)
            sections.setdefault(data[place : place + 16], (address, offset, length))
    return numbers, sections


def from_macho(file, wanted):
    """Image, segments' numbers, and the sections by kind, each with its address."""

    def warn(sentence):
        say(f"warning: {file}: {sentence}")

    data = file_content(file)
    try:
        data = thin(data, wanted, warn)
        numbers, sections = macho_parts(data, warn)
    except Trouble as trouble:
        raise Trouble(f"{file}: {trouble}") from None
    reach = max((offset + size for offset, size in zip(numbers[2::4], numbers[3::4])), default=0)
    if reach > len(data):
        lost = "types whose bytes are missing are not listed, and a name may be cut short"
        warn(f"{len(data):,} bytes are there, and the segments reach to byte {reach:,}: {lost}")
    led = {}
    for kind, name in SECTIONS.items():
        if name.ljust(16, b"\0") in sections:
            address, offset, size = sections[name.ljust(16, b"\0")]
            led[kind] = address, data[offset : offset + size]
            if offset + size > len(data):
                what = f"the {size:,} bytes of {name.decode()} at byte {offset:,}"
                warn(f"{what} run past the file's end: the {len(led[kind][1]):,} that are there are read")
    return data, numbers, led


# Options and their values.


def file_content(name):
    try:
        with open(name, "rb") as file:
            return file.read()
    except IsADirectoryError:
        raise Trouble(f"cannot read {name}: it is a directory (the file of Name.framework is Name.framework/Name)") from None
    except OSError as error:
        raise Trouble(f"cannot read {name}: {error.strerror or error}") from None


def content(text):
    if not text.startswith("hex:"):
        return file_content(text)
    if not re.fullmatch("([0-9a-fA-F]{2})*", text[4:]):
        raise Trouble("after hex: come hexadecimal digits, two for each byte, and nothing else")
    return bytes.fromhex(text[4:])


def number(text):
    if not re.fullmatch("0[xX][0-9a-fA-F]+|[0-9]+", text):
        raise Trouble(f"'{text}' is no number: decimal digits, or hexadecimal ones after 0x")
    value = int(text, 16 if text[:2] in ("0x", "0X") else 10) if len(text) < 1000 else TOP
    if value >= TOP:
        raise Trouble(f"{text} does not fit in 64 bits")
    return value


def led_by_address(text):
    address, colon, body = text.partition(":")
    if not colon:
        raise Trouble(f"'{text}' has no colon: it takes ADDRESS:BYTES, as in 0x2000:types.bin")
    return number(address), content(body)


def four(text):
    numbers = [number(n) for n in text.split(",")]
    if len(numbers) != 4:
        raise Trouble(f"a segment is four numbers, VMADDR,VMSIZE,FILEOFF,FILESIZE, and these are {len(numbers)}")
    return numbers


class Once(argparse.Action):
    def __call__(self, parser, options, value, option=None):
        if getattr(options, self.dest) is not None:
            raise argparse.ArgumentError(self, "given twice")
        setattr(options, self.dest, value)


class Parser(argparse.ArgumentParser):
    def error(self, message):
        raise Trouble(f"{message} (--help says more)")


def options_of(words):
    parser = Parser(add_help=False, allow_abbrev=False)
    parser.add_argument("-h", "--help", action="store_true")
    parser.add_argument("--macho", action=Once)
    parser.add_argument("--arch", action=Once)
    parser.add_argument("--sample", choices=sorted(SAMPLES), action=Once)
    parser.add_argument("--image", type=content, action=Once)
    parser.add_argument("--segment", type=four, action="append")
    for name in ("--types", "--fields", "--strings"):
        parser.add_argument(name, type=led_by_address, action=Once)
    parser.add_argument("-o", dest="out", action=Once)
    options = parser.parse_args(words)
    given = [name for name in ("--macho", "--image", "--sample") if getattr(options, name[2:]) is not None]
    if len(given) != 1 and not options.help:
        parser.error(f"{' and '.join(given)} do not go together" if given else "one of --macho, --image and --sample is needed")
    for name in ("arch", "segment", "types", "fields", "strings"):
        owner = "--macho" if name == "arch" else "--image"
        if getattr(options, name) is not None and owner not in given and not options.help:
            parser.error(f"--{name} goes with {owner} alone")
    return options


def bundle_of(options):
    if options.sample:
        return SAMPLES[options.sample]()
    if options.macho is not None:
        image, numbers, led = from_macho(options.macho, options.arch)
    else:
        image, numbers = options.image, [n for segment in options.segment or [] for n in segment]
        led = {TYPES: options.types, FIELDS: options.fields, STRINGS: options.strings}
    bundle = record(IMAGE, image)
    if numbers:
        bundle += segments(*numbers)
    else:
        say("warning: there are no segments: no address leads into the image, and nothing is listed")
    for kind in (TYPES, FIELDS, STRINGS):
        if led.get(kind):
            bundle += section(kind, *led[kind])
    if not led.get(TYPES) or len(led[TYPES][1]) < 4:
        say("warning: there are no types (section __swift5_types): nothing is listed")
    if len(bundle) > BUNDLE_BYTES:
        say(
            f"warning: the bundle has {len(bundle):,} bytes, and the program refuses one above {BUNDLE_BYTES:,} (refused 5). "
            "The limit is the program's; README.md, List a framework, says how to list a part of the file"
        )
    return bundle


def write_file(content, out):
    """Write a file whole, or leave none: one that lost all its bytes would be an empty listing."""
    with open(out, "wb") as file:
        try:
            file.write(content)
            file.flush()
        except BaseException:
            if os.path.isfile(out):
                os.remove(out)
            raise


def write(content, out):
    try:
        if out is not None:
            write_file(content, out)
        else:
            with open(1, "wb", closefd=False) as file:
                file.write(content)
    except BrokenPipeError:
        if len(content) <= BUNDLE_BYTES:  # of more, the program reads no more than it needs to refuse them
            raise Trouble("cannot write to standard output: its reader has ended") from None
    except OSError as error:
        raise Trouble(f"cannot write {'to standard output' if out is None else out}: {error.strerror or error}") from None


def write_no_bundle():
    if not os.isatty(1):
        with contextlib.suppress(Trouble):  # the sentence and the exit status say that there is none
            write(NO_BUNDLE, None)


def main(words=None):
    words = sys.argv[1:] if words is None else words
    owed = not any(word.startswith("-o") for word in words)  # whether standard output waits for a bundle
    try:
        options = options_of(words)
        if options.help:
            owed = False
            write(__doc__.encode(), None)
            return 0
        if options.out is None and os.isatty(1):
            raise Trouble("a bundle is not text, and standard output is a terminal: give -o FILE, or pipe it into target/bin/list")
        bundle = bundle_of(options)
        owed = False
        write(bundle, options.out)
    except Trouble as trouble:
        say(trouble)
        return 2
    except MemoryError:
        say("there is not enough memory for a bundle of that size")
        return 2
    except KeyboardInterrupt:
        return 130
    finally:
        if owed:
            write_no_bundle()
    return 0


if __name__ == "__main__":
    sys.exit(main())
