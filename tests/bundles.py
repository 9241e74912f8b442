#!/usr/bin/env python3
"""The bundles that the listing program is tried on, with their listings; the samples; the answers of the crate `test_refusals`.

usage: tests/bundles.py             write the files
       tests/bundles.py --check     write nothing; exit status 1 if a file on disk is not what would be written
       tests/bundles.py --run LIST  run the listing program LIST on every bundle, and on inputs that are not bundles; exit status 1
                                    if it writes anything but what it should, on standard output or on standard error, or fails

The listings come from the rules as written down here and in tests/vectors.py, and from nothing in the crates. The samples are
samples/*.bundle with samples/*.listing; the crate `list` runs on one of them in every check.
"""
import fcntl
import os
import pathlib
import re
import struct
import subprocess
import sys
import tempfile
import termios
import time

ROOT = pathlib.Path(__file__).resolve().parent.parent
sys.path[:0] = [str(ROOT / "tests"), str(ROOT / "scripts")]
sys.dont_write_bytecode = True

from make_bundle import CLASS, ENUM, FIELDS, IMAGE, MODULE, SAMPLES, SEGMENTS, STRINGS, STRUCT, TOP, TYPES  # noqa: E402
from make_bundle import clue, garden, image_of, record, relative, section, segments, slots  # noqa: E402
from vectors import bytes_at, number_at, text_at_address  # noqa: E402

# The rules.

NAMED = (0, 1, 3, 16, 17, 18)
WORDS = {16: b"class", 17: b"struct", 18: b"enum"}
LIMIT, NAME_BYTES, BUNDLE_BYTES = 256, 4096, 65536


def parts(bundle):
    """The bodies by kind, or a refusal's number."""
    if len(bundle) > BUNDLE_BYTES:
        return 5
    bodies, at = {}, 0
    while at < len(bundle):
        if at + 6 > len(bundle):
            return 2
        size, kind = struct.unpack_from("<IH", bundle, at)
        at += 6 + size
        if at > len(bundle) or not 1 <= kind <= 5 or kind <= max(bodies, default=0):
            return 2
        if (kind == SEGMENTS and size % 32) or (kind > SEGMENTS and size < 8):
            return 2
        bodies[kind] = bundle[at - size : at]
    return bodies if IMAGE in bodies or not bundle else 2


def wrapping(numbers):
    """The number of the first segment, from 0, whose addresses do not end below 2^64, or None. Numbers that are left over are no segment."""
    return next((i // 4 for i in range(0, len(numbers) - 3, 4) if numbers[i] + numbers[i + 1] >= TOP), None)


def fault(numbers):
    """The refusal that a list of segment numbers gets, or 0."""
    return 1 if len(numbers) % 4 else 9 if wrapping(numbers) is not None else 0


def segment_numbers(bodies):
    raw = bodies.get(SEGMENTS, b"")
    return struct.unpack(f"<{len(raw) // 8}Q", raw)


def broken(bundle):
    """The first rule that a bundle breaks, and the byte at which its record starts."""
    at, last, image = 0, 0, False
    while at < len(bundle):
        size, kind = struct.unpack_from("<IH", bundle, at) if at + 6 <= len(bundle) else (len(bundle), 0)
        if at + 6 + size > len(bundle):
            return "a record is cut short", at
        if not 1 <= kind <= 5:
            return "a kind is not 1 to 5", at
        if kind <= last:
            return "a kind does not rise", at
        if kind == SEGMENTS and size % 32:
            return "a segment body is not of whole segments of 32 bytes", at
        if kind > SEGMENTS and size < 8:
            return "a section body has no room for its address of 8 bytes", at
        at, last, image = at + 6 + size, kind, image or kind == IMAGE
    return None if image or not bundle else ("there is no image", at)


MAGICS = [bytes.fromhex(magic) for magic in ("cffaedfe", "cefaedfe", "feedfacf", "feedface", "cafebabe", "cafebabf")]


def said(bundle):
    """What the program says of a bundle on standard error."""
    if bundle[:4] in MAGICS:
        what = b"this is a Mach-O file and not a bundle; `scripts/make_bundle.py --macho FILE` makes a bundle of it"
        return b"list: refused %d: %s\n" % (5 if len(bundle) > BUNDLE_BYTES else 2, what)
    if len(bundle) > BUNDLE_BYTES:
        return b"list: refused 5: a bundle has at most 65536 bytes\n"
    rule = broken(bundle)
    if rule:
        return b"list: refused 2: %s, at byte %d\n" % (rule[0].encode(), rule[1])
    bodies = parts(bundle)
    numbers = segment_numbers(bodies)
    which = wrapping(numbers)
    if which is None:
        return b""
    where = (which + 1, len(numbers) // 4, *numbers[4 * which : 4 * which + 2])
    return b"list: refused 9: segment %d of %d does not end below 2^64: vmaddr 0x%016x, vmsize 0x%016x\n" % where


def text(image, found):
    return None if found is None else image[found[0] : found[0] + found[1]]


def pointer(image, place, address, zero):
    """Where the offset at a place of the image leads, from the place's address; `zero` for an offset of 0."""
    offset = number_at(image, place, 4, signed=True)
    return zero if offset == 0 else (address + offset) % TOP


def row_at(image, numbers, address):
    """(address, flags, parent, name) of a type descriptor, or None."""
    header = bytes_at(image, numbers, address, 20)
    if header is None or address + 8 >= TOP:
        return None
    place = header[0]
    name = text_at_address(image, numbers, pointer(image, place + 8, address + 8, address + 8))
    if name is None:
        return None
    return address, number_at(image, place, 4), pointer(image, place + 4, address + 4, 0), text(image, name)


def rows(image, numbers, types, start):
    for at in range(0, len(types) - 3, 4):
        offset = number_at(types, at, 4, signed=True)
        row = row_at(image, numbers, (start + at + offset) % TOP) if offset else None
        if row is not None:
            yield row


def context_name(image, numbers, address, flags):
    if flags % 32 not in NAMED or address + 8 >= TOP:
        return None
    slot = bytes_at(image, numbers, address + 8, 4)
    target = 0 if slot is None else pointer(image, slot[0], address + 8, 0)
    return text(image, text_at_address(image, numbers, target))


def contexts(image, numbers, address):
    """The names, or None, of the contexts from an address on, at most one more than the limit."""
    names = []
    while address != 0 and len(names) <= LIMIT:
        header = bytes_at(image, numbers, address, 8)
        if header is None or address + 4 >= TOP:
            break
        names.append(context_name(image, numbers, address, number_at(image, header[0], 4)))
        address = pointer(image, header[0] + 4, address + 4, 0)
    return names


def joined(image, numbers, parent, name, room=NAME_BYTES):
    """The joined name, and a refusal's number or 0."""
    hops = contexts(image, numbers, parent)
    if len(hops) > LIMIT:
        return b"", 4
    whole = b"".join(hop + b"." for hop in reversed(hops) if hop is not None) + name
    return (whole, 0) if len(whole) <= room else (b"", 3)


def name_or_refusal(*of):
    name, refusal = joined(*of)
    return b"refused %d" % refusal if refusal else name


def listing(bundle):
    bodies = parts(bundle)
    if isinstance(bodies, int):
        return b"refused %d\n" % bodies
    image, numbers = bodies.get(IMAGE, b""), segment_numbers(bodies)
    if fault(numbers):
        return b"refused %d\n" % fault(numbers)
    led = bodies.get(TYPES, bytes(8))
    lines = [
        b"%016x %s %s\n" % (address, WORDS.get(flags % 32, b"other"), name_or_refusal(image, numbers, parent, name))
        for address, flags, parent, name in rows(image, numbers, led[8:], number_at(led, 0, 8))
    ]
    return b"".join(lines) + b"end %d\n" % len(lines)


# The bundles, in the order of the records.

BUNDLES = []


def bundle(*records):
    BUNDLES.append(b"".join(records))


CLUE = struct.pack("<7I", STRUCT, 0, 20, 0, 0, 0, 0) + b"Clue\0"
CLUE_SEGMENT = segments(0x1000, 33, 0, 33)
CLUE_TYPES = section(TYPES, 0x2000, bytes.fromhex("00f0ffff"))
BASE = 0x1000
WIDE = segments(BASE, 0x10000, 0, 0x10000)


def tree(nodes, listed, size=28, base=BASE, image=None, numbers=None, types=0x20000):
    """A bundle whose image has these contexts; the types section lists those at the numbers `listed`."""
    image = image_of(base, nodes, size) if image is None else image
    body = slots(types, [base + size * i for i in listed])
    bundle(record(IMAGE, image), WIDE if numbers is None else segments(*numbers), section(TYPES, types, body))


def checked_lines():
    BUNDLES.extend([clue(), garden(), b""])
    for cut in range(len(CLUE) + 1):
        bundle(record(IMAGE, CLUE[:cut]), CLUE_SEGMENT, CLUE_TYPES)


def record_rules():
    """Cuts, bytes left over, kinds in every order, and bodies of every size that matters."""
    whole = clue() + section(FIELDS, 0x3000, b"fields") + section(STRINGS, 0x4000, b"name\0")
    for cut in range(len(whole) + 1):
        bundle(whole[:cut])
    for size in range(1, 8):
        bundle(clue(), bytes(size))
        for byte in (0, 1, 6, 255):
            bundle(bytes([byte] * size))
    good = {
        1: record(IMAGE, CLUE),
        2: CLUE_SEGMENT,
        3: CLUE_TYPES,
        4: section(FIELDS, 0, b""),
        5: section(STRINGS, TOP - 1, b"s"),
    }
    for a in good:
        bundle(good[a])
        for b in good:
            bundle(good[a], good[b])
            bundle(good[1], good[2], good[a], good[b])
    for missing in good:
        bundle(*(good[k] for k in good if k != missing))
        bundle(*(good[k] for k in good), good[missing])
    for kind in (0, 6, 7, 16, 255, 256, 257, 0x0300, 0xFFFF):
        bundle(record(kind, bytes(32)))
        bundle(good[1], record(kind, bytes(32)))
        bundle(clue(), record(kind, b""))
    for size in (0, 1, 8, 16, 24, 31, 32, 33, 48, 63, 64, 65, 80, 96):
        numbers = struct.pack("<12Q", 0x1000, 33, 0, 33, *[0] * 8)
        bundle(good[1], record(SEGMENTS, numbers[:size]), CLUE_TYPES)
    for kind in (TYPES, FIELDS, STRINGS):
        for size in range(10):
            before = clue() if kind > TYPES else good[1] + CLUE_SEGMENT
            bundle(before, record(kind, struct.pack("<QI", 0x2000, 1)[:size]))
    for size in (2**32 - 1, 2**31, 34):
        bundle(struct.pack("<IH", size, 1), CLUE)
        bundle(clue(), struct.pack("<IH", size, 4), CLUE)
    bundle(record(IMAGE, b""))
    bundle(record(IMAGE, b""), CLUE_SEGMENT, CLUE_TYPES)
    # Records, but no image: empty bodies, all other kinds, and a segment that wraps, since 2 comes before 9.
    bundle(record(SEGMENTS, b""))
    bundle(record(SEGMENTS, b""), *(section(kind, 0, b"") for kind in (TYPES, FIELDS, STRINGS)))
    bundle(segments(TOP - 16, 16, 0, 16))


def sizes():
    """The largest bundle, longer ones, one of them broken besides, and the largest numbers of slots and rows."""
    fixed = len(record(IMAGE, b"")) + len(CLUE_SEGMENT) + len(CLUE_TYPES)
    for size in (BUNDLE_BYTES, BUNDLE_BYTES + 1):
        bundle(record(IMAGE, CLUE.ljust(size - fixed, b"\0")), CLUE_SEGMENT, CLUE_TYPES)
    bundle(BUNDLES[-2], b"\0")
    bundle(bytes(40))
    bundle(bytes(200000))
    bundle(record(IMAGE, CLUE.ljust(200000, b"\0")), CLUE_SEGMENT, CLUE_TYPES)
    most = (BUNDLE_BYTES - fixed - len(CLUE)) // 4 + 1
    for count in (99, 100, 101, 150, 8192, most, most + 1, 16384, 16385):
        bundle(record(IMAGE, CLUE), CLUE_SEGMENT, section(TYPES, 0x2000, slots(0x2000, [0x1000] * count)))
    # No image byte and no segment: as many slots as a bundle can have.
    bundle(record(IMAGE, b""), section(TYPES, 0, bytes((BUNDLE_BYTES - 20) // 4 * 4)))


def sections():
    """Ragged and empty sections, empty and bad slots between good ones, addresses that wrap."""
    image = image_of(BASE, [(STRUCT, None, b"One"), (CLASS, None, b"Two"), (ENUM, None, b"Bad\xff"), (ENUM, 0, b"Four")])
    good = [BASE, BASE + 28, BASE + 84]
    for more in (b"", b"\x01", b"\x01\x02", b"\x01\x02\x03"):
        for count in (0, 1, 3):
            bundle(record(IMAGE, image), WIDE, section(TYPES, 0x9000, slots(0x9000, good[:count]) + more))
    # Offset 0, a name that is not a text, no bytes at the address, the image's end.
    bad = [None, BASE + 56, 0, BASE - 1, BASE + len(image) - 19, BASE + 0x10000, TOP - 1]
    for one in bad:
        for order in ([one, *good], [good[0], one, good[1]], [*good, one], [one, one, good[2], one]):
            body = b"".join(bytes(4) if t is None else relative(0x9000 + 4 * i, t) for i, t in enumerate(order))
            bundle(record(IMAGE, image), WIDE, section(TYPES, 0x9000, body))
    for address in (0, 1, 0x9001, TOP - 1, TOP - 2, TOP - 4, TOP - 6, TOP - 8):
        bundle(record(IMAGE, image), WIDE, section(TYPES, address, slots(address, good + good)))
    for address in (BASE + 2**31, BASE - 2**31 + 1 + TOP):
        bundle(record(IMAGE, image), WIDE, section(TYPES, address, slots(address, good[:1])))
    bundle(record(IMAGE, image), WIDE, section(TYPES, 0x9000, slots(0x9000, good * 40)))


def flags():
    """Types of every kind and with every bit, contexts of every kind with a name, without one, and with an offset to nothing."""
    every = list(range(32)) + [1 << bit for bit in range(5, 32)] + [0xFFFFFFE0 | kind for kind in range(32)]
    tree([(f, None, b"T") for f in every], range(len(every)))
    for name in (b"Named", None, b"", b"\xc3", "Ö".encode()):
        for upper in (0, 0xFFFFFFE0):
            nodes = [(MODULE, None, b"M")] + [(upper | kind, 0, name) for kind in range(32)]
            nodes += [(STRUCT, 1 + kind, b"K%d" % kind) for kind in range(32)]
            tree(nodes, range(33, 65), 20)
    tree([(STRUCT, 1, b"T"), (MODULE, None, b"far")], [0], image=image_of(BASE, [(STRUCT, 1, b"T"), (MODULE, None, b"far")])[:-5])


def chains():
    """Chains by their length, with names, without, and with the longest name that fits; chains that do not end."""
    for count in (0, 1, 2, 254, 255, 256, 257, 258, 300):
        for kind, name in ((CLASS, b"n"), (2, None)):
            nodes = [(STRUCT, 1 if count else None, b"Last")]
            nodes += [(kind, i + 2 if i + 1 < count else None, name) for i in range(count)]
            tree(nodes, [0, min(count, 1)], 20 if count < 9 else 12)
    # Names that are all different, where the list of names is full: with every context named, with unnamed ones between, and with empty names.
    for count in (7, 8, 9, 10, 31, 32, 33, 34, 255, 256, 257):
        for every, other in ((1, b""), (3, None), (3, b"")):
            named = [b"c%d" % i if every == 1 or i % every else other for i in range(count)]
            nodes = [(STRUCT, 1, b"Own")]
            nodes += [(2 if name is None else CLASS, i + 2 if i + 1 < count else None, name) for i, name in enumerate(named)]
            tree(nodes, [0, 1], 12)
    for parents in ([0], [1, 1], [1, 0], [1, 2, 1], [1, 2, 2], [1, 2, 0], [1, 2, 3, 1]):
        tree([(ENUM, p, b"n%d" % i) for i, p in enumerate(parents)], range(len(parents)))
    # 256 contexts of 16 bytes with their dots, and an own name of 0, 1 and 5,000 bytes; with a 257th context, 4 comes before 3.
    for own in (b"", b"x", b"x" * 5000):
        for count in (256, 257):
            nodes = [(STRUCT, 1, own)] + [(CLASS, i + 2 if i + 1 < count else None, b"fifteen letters") for i in range(count)]
            tree(nodes, [0, count], 12)


def names():
    """Names at the buffer's end, empty and ill-formed ones, and names that lie elsewhere."""
    for own, context in ((4096, None), (4097, None), (2048, 2047), (2048, 2048), (2049, 2047), (0, 4095), (0, 4096), (1, 4095)):
        nodes = [(STRUCT, None if context is None else 1, b"o" * own), (CLASS, None, b"c" * (context or 0)), (ENUM, None, b"After")]
        tree(nodes, [0, 2])
    euro = "€".encode()
    for own in (euro * 1365 + b"x", euro * 1366):
        tree([(STRUCT, None, own)], [0])
    for name in (b"", b"\xff", b"ok\xc0\x80", b"\xed\xa0\x80", "Größe 🌍".encode(), b" ", b".", b"\n", b"\x7f\x01"):
        tree([(STRUCT, 1, name), (CLASS, 2, b"In"), (MODULE, None, b"Top")], range(3))
        tree([(STRUCT, 1, b"Own"), (CLASS, 2, name), (MODULE, None, b"Top")], range(3))
        tree([(STRUCT, 1, b"Own"), (CLASS, 2, name), (MODULE, None, name)], range(3))
    # A type's name offset of 0 refers to a text at the descriptor + 8; a context's means no name.
    tree([(STRUCT, 1, None), (CLASS, 2, None), (MODULE, None, b"Top")], range(3))
    # A name within the header, at the image's end, past it, at address 0, and without its NUL.
    low = segments(0, 0x100, 0, 0x100)
    for offset in list(range(-12, 5)) + [12, 15, 16, 17, 0x57, 0x58, -(2**31), 2**31 - 1]:
        image = bytes(0x20) + struct.pack("<Iii8s", STRUCT, 0x41424344, offset, b"12345678") + b"tail"
        bundle(record(IMAGE, image), low, section(TYPES, 0x80, slots(0x80, [0x20])))
    for offset in (-8, -4, 12, 13):
        image = struct.pack("<Iii8s", CLASS, -4, offset, b"12345678") + b"zero\0"
        bundle(record(IMAGE, image), low, section(TYPES, 0x80, slots(0x80, [0, 0x100, 0x7C])))


def tails():
    """Descriptors and contexts that the image's end cuts, whole, and with a byte more; names and a module come before them."""
    front = b"Tail\0".ljust(8, b"\0") + struct.pack("<II", MODULE, 0) + relative(0x1010, 0x1000)
    types = section(TYPES, 0x9000, slots(0x9000, [0x1014]))
    for size in (0, 1, 4, 8, 12, 16, 18, 19, 20, 21):
        last = struct.pack("<I", STRUCT) + relative(0x1018, 0x1008) + relative(0x101C, 0x1000) + bytes(9)
        bundle(record(IMAGE, front + last[:size]), WIDE, types)
    for size in range(14):
        first = struct.pack("<I", STRUCT) + relative(0x1018, 0x1028) + relative(0x101C, 0x1000) + bytes(8)
        last = struct.pack("<I", CLASS) + relative(0x102C, 0x1008) + relative(0x1030, 0x1000) + bytes(1)
        bundle(record(IMAGE, front + first + last[:size]), WIDE, types)


def high(down):
    """An image of 96 bytes at 2^64 - 64, whose descriptor is `down` below 2^64."""
    place = 64 - down
    head = bytearray(b"Edge\0".ljust(96, b"\0"))
    head[place : place + 12] = struct.pack("<II", STRUCT, 0) + relative(TOP - down + 8, TOP - 64)
    return bytes(head)


def edges():
    """Descriptors and contexts around 2^64, and at 0."""
    top = (TOP - 64, 63, 0, 96)
    for down in (1, 2, 3, 4, 5, 6, 7, 8, 9, 10, 11, 12, 13, 16, 20, 21, 32):
        for address in (0x100, TOP - 0x100):
            bundle(record(IMAGE, high(down)), segments(*top), section(TYPES, address, slots(address, [TOP - down])))
    # Segments that end at 2^64 - 2, at 2^64 - 1 and at 2^64.
    for size in (62, 63, 64):
        for down in (2, 9, 10):
            bundle(record(IMAGE, high(down)), segments(TOP - 64, size, 0, 96), section(TYPES, 0, slots(0, [TOP - down])))
    # A type above 0x1000 in a context near 2^64, itself in the module at 0x1000.
    module = image_of(0x1000, [(MODULE, None, b"Top")])
    for down in (1, 2, 3, 4, 5, 6, 7, 8, 9, 10, 11, 12, 13, 16, 20):
        low = module + struct.pack("<I", CLASS) + relative(0x1000 + len(module) + 4, TOP - down) + struct.pack("<iii", 12, 0, 0) + b"In\0"
        context = bytearray(high(down))
        context[68 - down : 72 - down] = relative(TOP - down + 4, 0x1000)
        numbers = (*top, 0x1000, 0x100, 96, 0x100)
        types = section(TYPES, 0x8000, slots(0x8000, [0x1000 + len(module), 0x1000]))
        bundle(record(IMAGE, bytes(context) + low), segments(*numbers), types)


def segment_lists():
    """Segments missing, swapped, without bytes in the file, too short, one over another, and wrapping."""
    image = image_of(BASE, [(STRUCT, 1, b"One"), (MODULE, None, b"Top")])
    types = section(TYPES, 0x9000, slots(0x9000, [BASE, BASE + 28]))
    size = len(image)
    whole = (BASE, size, 0, size)
    lists = [(), whole, (BASE, size, 0, 0) + whole, (BASE, size, 0, 0)]
    # At 2^64 exactly, above, below, without addresses, and with file bytes past 2^64 alone: each first, between and last.
    edge = [(TOP - 16, 16), (TOP - 1, 1), (TOP - 1, TOP - 1), (1, TOP - 1), (TOP - 17, 16), (TOP - 1, 0), (0, TOP - 1), (0x8000, 16)]
    for vmaddr, vmsize in edge:
        for file in ((0, 16), (0, 0), (TOP - 1, 16)):
            one = (vmaddr, vmsize, *file)
            lists += [one, one + whole, whole + one, whole + one + whole, one + one + whole]
    lists += [(BASE, n, 0, n) for n in (1, 20, 28, 29, 36, 55, 56, 57, 60, 63, 64)]
    lists += [(BASE, size, 0, n) for n in (1, 8, 28, 29, 56, 57, 60)]
    lists += [(BASE, 28, 0, 28, BASE + 28, size, 28, size), (BASE + 28, size, 28, size, BASE, 28, 0, 28)]
    lists += [(BASE, size, n, size) for n in (1, 4, size - 20, size, TOP - 1)]
    lists += [(BASE, size, 28, size) + whole, (BASE, 8, 28, 8) + whole, (BASE, TOP - 1 - BASE, 0, TOP - 1), (0, TOP - 1, 0, TOP - 1)]
    for numbers in lists:
        bundle(record(IMAGE, image), segments(*numbers), types)
    bundle(record(IMAGE, image), types)
    many = [n for i in range(200) for n in (0x100000 + 16 * i, 16, 0, 16)]
    bundle(record(IMAGE, image), segments(*many, *whole), types)


def damaged():
    """The larger sample with one to three of its bytes changed, by a fixed rule."""
    state = 1
    for turn in range(150):
        data = bytearray(garden())
        for _ in range(turn % 3 + 1):
            state = (state * 6364136223846793005 + 1442695040888963407) % TOP
            place, value = state >> 40, (state >> 32) % 256
            data[place % len(data)] = value if turn % 2 else data[place % len(data)] ^ (1 << value % 8)
        bundle(data)
    # Every cut of its image.
    image = parts(garden())[IMAGE]
    rest = garden()[6 + len(image) :]
    for cut in range(0, len(image), 7):
        bundle(record(IMAGE, image[:cut]), rest)


for group in (checked_lines, record_rules, sizes, sections, flags, chains, names, tails, edges, segment_lists, damaged):
    group()


def full_reads(image, numbers):
    """What the calls of the full level answer on the descriptor at 0x1000, whose first 12 bytes are a table's entry and a singleton's
    records too, and whose first 16 are a generic block's header."""
    if fault(numbers):
        return [b"refused %d" % fault(numbers)] * 11

    def word(size, at):
        """Where the offset at `at` of a record of this size at 0x1000 leads to."""
        found = bytes_at(image, numbers, 0x1000, size)
        return None if found is None else b"%d" % pointer(image, found[0] + at, 0x1000 + at, 0)

    body = bytes_at(image, numbers, 0x1014, 8)
    name = text_at_address(image, numbers, 0x101C)
    generic = bytes_at(image, numbers, 0x1000, 16)
    texts = [b"%d" % name[0] if name else b"nothing"] * 2
    blocks = [b"%d" % 0x1000] * 2 if generic else [b"end", b"nothing"]
    entries = [word(size, at) or b"unreadable" for size, at in ((8, 4), (12, 8), (8, 4), (4, 0))]
    records = [word(size, at) or b"nothing" for size, at in ((12, 8), (4, 0))]
    return [b"%d" % number_at(image, body[0], 4) if body else b"nothing"] + texts + blocks + entries + records


def refusals():
    """The answers of the crate `test_refusals`: calls on the first 0 to 8 numbers of lists of two segments."""
    image, types = bytearray(CLUE), slots(0x2000, [0x1000])
    image[4:8] = relative(0x1004, 0x1000)
    seen = [0x1000, 33, 0, 33]
    for whole in (seen + [0x9000, 1, 0, 1], seen + [TOP - 16, 16, 0, 0], [TOP - 1, 1, 0, 1] + seen, [TOP - 17, 16, 0, 16] + seen):
        for count in range(9):
            yield from refusals_of(image, types, whole[:count])


def refusals_of(image, types, numbers):
    """Its lines for one list."""
    count, refused = len(numbers), fault(numbers)
    walks = [b"refused %d" % refused] * 3
    if not refused:
        found = [row[0] for row in rows(image, numbers, types, 0x2000)]
        chain = contexts(image, numbers, 0x1000)
        line = b"%016x struct refused 4\n" % 0x1000 if found else b"end 0\n"
        walks = [b"%d" % found[0] if found else b"end", b"%d" % 0x1000 if chain else b"end", b"%d" % len(line)]
    yield b"walks %d %s\n" % (count, b" ".join(walks))
    yield b"reads %d %s\n" % (count, b" ".join(full_reads(image, numbers)))
    for parent, size in ((0, 8), (0, 4), (0, 3), (0x1000, 8), (0x1000, 3), (0x1000, 0)):
        name, refusal = (b"", refused) if refused else joined(image, numbers, parent, b"Clue", size)
        answer = b"refused %d" % refusal if refusal else b"%d" % len(name)
        yield b"name %d %d %d %s %s\n" % (count, parent, size, answer, name.ljust(8, b"-"))


def files():
    out = {
        "crates/test_refusals/stdout": b"".join(refusals()),
        "crates/list/stdin": garden(),
        "crates/list/stdout": listing(garden()),
    }
    for name, make in SAMPLES.items():
        out[f"samples/{name}.bundle"] = make()
        out[f"samples/{name}.listing"] = listing(make())
    return out


# The program's texts.

HELP = (b"usage: list [FILE]\n", b"\n    scripts/make_bundle.py --macho Name.framework/Name | target/bin/list\n")
MORE = b" (list --help says more)\n"


def version():
    """The version of the changelog's newest heading; crates/list/src/main.rt is the only other place that has it."""
    return b"list " + re.search(r"^## (\d+\.\d+\.\d+)", (ROOT / "CHANGELOG.md").read_text(encoding="utf-8"), re.M)[1].encode() + b"\n"


def other_files():
    """What a user may take for a bundle: Mach-O files, their first bytes, and what only nearly starts as they do."""
    for magic in MAGICS:
        yield magic
        yield magic + bytes(100)
        yield magic[:3]
        yield magic[:3] + bytes([magic[3] ^ 1]) + bytes(100)
        yield bytes([magic[0] ^ 1]) + magic[1:] + bytes(100)
    yield MAGICS[0] + bytes(BUNDLE_BYTES - 4)
    yield MAGICS[0] + bytes(BUNDLE_BYTES - 3)
    yield MAGICS[4] + bytes(200000)


def in_pieces(program, data, size):
    """The ended program and what it wrote, if a pipe delivers the bundle in pieces: each is read before the next one comes."""
    ran = subprocess.Popen([program], stdin=subprocess.PIPE, stdout=subprocess.PIPE, stderr=subprocess.PIPE, bufsize=0)
    try:
        for at in range(0, len(data), size):
            ran.stdin.write(data[at : at + size])
            end = time.monotonic() + 5
            while ran.poll() is None and time.monotonic() < end:
                time.sleep(0.02)  # and then the program waits for more
                if not any(fcntl.ioctl(ran.stdin, termios.FIONREAD, bytes(4))):
                    break
    except BrokenPipeError:
        pass
    out, err = ran.communicate(timeout=60)
    return ran.returncode, out, err


def runs(program):
    """(what is tried, the exit status, standard output, standard error, the outputs expected) of all that is tried."""

    def run(what, out, err, *words, **given):
        got = subprocess.run([program, *words], stderr=subprocess.PIPE, timeout=60, **{"stdout": subprocess.PIPE, **given})
        return what, got.returncode, got.stdout or b"", got.stderr, out, err

    for number, data in enumerate(BUNDLES, 1):
        yield run(f"bundle {number}", listing(data), said(data), input=data)
    for data in other_files():
        yield run(f"{len(data)} bytes from {data[:4].hex()} on", listing(data), said(data), input=data)
    with tempfile.TemporaryDirectory() as folder:
        path = os.path.join(folder, "garden.bundle")
        pathlib.Path(path).write_bytes(garden())
        yield run("a file", listing(garden()), b"", path)
        yield run("a file, from its folder", listing(garden()), b"", "garden.bundle", cwd=folder)
        yield run("no such file", b"", b"list: " + path.encode() + b"x: No such file or directory\n", path + "x")
        yield run("a folder", b"", b"list: " + folder.encode() + b": Is a directory\n", folder)
        yield run("a word that is too long", b"", b"list: argument: File name too long\n", "x" * 5000)
        yield run("an empty word", b"", b"list: : No such file or directory\n", "")
        yield run("--help", HELP, b"", "--help")
        yield run("--version", version(), b"", "--version")
        for word in ("-x", "-", "--", "--hel", "--helpx", "--versio", "--version=1", "-help"):
            yield run(word, b"", b"list: no such option: " + word.encode() + MORE, word)
        for words in ([path, path], ["--help", path]):
            yield run(" ".join(words), b"", b"list: one FILE at most" + MORE, *words)
        with open(os.devnull, "rb") as empty:
            yield run("an empty input", b"end 0\n", b"", stdin=empty)
        pathlib.Path(path + "0").write_bytes(b"")
        yield run("an empty file", b"end 0\n", b"", path + "0")
        # A read that fails is no empty bundle.
        yield run("no standard input", b"", b"list: standard input: Bad file descriptor\n", preexec_fn=lambda: os.closerange(0, 1))
        directory = os.open(folder, os.O_RDONLY)
        yield run("a folder as standard input", b"", b"list: standard input: Is a directory\n", stdin=directory)
        os.close(directory)
        for word in (path, "--help", "--version"):
            with open("/dev/full", "wb") as full:
                yield run(f"{word}, output full", b"", b"list: standard output: No space left on device\n", word, stdout=full)
    # A slow pipe: a small bundle, and the largest one.
    largest = next(data for data in BUNDLES if len(data) == BUNDLE_BYTES)
    for data, size in ((garden(), 57), (largest, 4096 + 512)):
        yield (f"{len(data)} bytes in pieces of {size}", *in_pieces(program, data, size), listing(data), b"")
    # A terminal.
    manager, terminal = os.openpty()
    at_terminal = subprocess.Popen([program], stdin=terminal, stdout=subprocess.PIPE, stderr=subprocess.PIPE)
    os.write(manager, b"\x04")
    hint = b"list: reading a bundle from the terminal; `list --help` says more\n"
    out, err = at_terminal.communicate(timeout=60)
    yield "a terminal", at_terminal.returncode, out, err, b"end 0\n", hint


def try_program(program):
    tried = wrong = 0
    for what, status, out, err, expected, complaint in runs(os.path.abspath(program)):
        tried += 1
        right = out.startswith(HELP[0]) and out.endswith(HELP[1]) if expected is HELP else out == expected
        if status or not right or err != complaint:
            wrong += 1
            ended = f"ended with status {status}, " if status else ""
            print(f"{what}: {ended}wrote {out[:200]!r} and said {err[:200]!r}, not {expected[:200]!r} and {complaint!r}")
    print(f"{program}: {tried} runs, {wrong} wrong")
    return 1 if wrong else 0


def main():
    if sys.argv[1:2] == ["--run"] and len(sys.argv) == 3:
        sys.exit(try_program(sys.argv[2]))
    if sys.argv[1:] not in ([], ["--check"]):
        sys.exit(__doc__)
    assert listing(clue()) == b"0000000000001000 struct Clue\nend 1\n" and listing(b"") == b"end 0\n" and said(b"") == b""
    for name, content in files().items():
        path = ROOT / name
        if sys.argv[1:]:
            if not path.is_file() or path.read_bytes() != content:
                sys.exit(f"{name} is not what tests/bundles.py writes")
        else:
            path.write_bytes(content)
    print(f"{len(BUNDLES)} bundles")


if __name__ == "__main__":
    main()
