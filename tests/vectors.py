#!/usr/bin/env python3
"""Write the vectors of the crate `test_vectors`, its file stdin, and the expected answers, its file stdout.

usage: tests/vectors.py [--check]        (--check: write nothing; exit status 1 if a file on disk is not what would be written)

A line of stdin is FUNCTION A B BYTES STRINGS SEGMENT.. : the function called, two numbers, the bytes of the slice, image or bundle,
the bytes of the string section, and the segments' numbers. Numbers and bytes are in hexadecimal; `-` stands for no bytes; a number
that a function does not take is 0. The answers come from the rules as written down here and from Python's own int.from_bytes and
strict UTF-8 decoder, and from nothing in the crates.
"""
import pathlib
import struct
import sys

TOP = 2**64
FOLDER = pathlib.Path(__file__).resolve().parent.parent / "crates" / "test_vectors"

# The rules.


def number_at(data, off, width, signed=False):
    if off + width > len(data):
        return None
    return int.from_bytes(data[off : off + width], "little", signed=signed)


def file_offset(numbers, address):
    for at in range(0, len(numbers) - len(numbers) % 4, 4):
        vmaddr, vmsize, fileoff, filesize = numbers[at : at + 4]
        if vmaddr + vmsize >= TOP:
            return None
        if vmaddr <= address < vmaddr + vmsize and filesize > 0:
            distance = address - vmaddr
            if distance >= filesize or fileoff + distance >= TOP:
                return None
            return fileoff + distance
    return None


def text_at(data, off):
    """(place, length) of the text at an offset, or None."""
    if off > len(data):
        return None
    body = data[off:].split(b"\0")[0]
    try:
        body.decode("utf-8", "strict")
    except UnicodeDecodeError:
        return None
    return off, len(body)


def bytes_at(image, numbers, address, length):
    off = file_offset(numbers, address)
    if off is None or off + length > len(image):
        return None
    return off, length


def text_at_address(image, numbers, address):
    off = file_offset(numbers, address)
    if address == 0 or off is None:
        return None
    return text_at(image, off)


def field_name(image, numbers, strings, section, address):
    """(where, place, length) of a field's name, or None."""
    if address == 0:
        return None
    found = text_at_address(image, numbers, address)
    if found is not None:
        return ("image", *found)
    if section <= address < section + len(strings):
        found = text_at(strings, address - section)
        if found is not None:
            return ("strings", *found)
    return None


def bodies(bundle):
    """The bodies of a bundle's records by their kinds."""
    found, at = {}, 0
    while at < len(bundle):
        size, kind = struct.unpack_from("<IH", bundle, at)
        found[kind] = bundle[at + 6 : at + 6 + size]
        at += 6 + size
    return found


PARTS = {"image_part": 1, "types_part": 3, "fields_part": 4, "strings_part": 5}

# The answers' lines.


def digits(data):
    return data.hex() or "-"


def number_line(n):
    return "nothing" if n is None else format(n, "x")


def text_line(data, found):
    if found is None:
        return "nothing"
    place, length = found
    return f"{place:x} {length:x} {digits(data[place : place + length])}"


def answer(function, a, b, data, strings, numbers):
    if function == "read_u16_le_at":
        return number_line(number_at(data, a, 2))
    if function == "read_u32_le_at":
        return number_line(number_at(data, a, 4))
    if function == "read_u64_le_at":
        return number_line(number_at(data, a, 8))
    if function == "read_i32_le_at":
        return number_line(number_at(data, a, 4, signed=True))
    if function == "relative_pointer":
        return format((a + number_at(data, 0, 4, signed=True)) % TOP, "016x")
    if function in ("vm_to_file_offset_in", "vm_to_file_offset"):
        return number_line(file_offset(numbers, a))
    if function == "read_cstr_at":
        return text_line(data, text_at(data, a))
    if function == "read_bytes":
        found = bytes_at(data, numbers, a, b)
        return "nothing" if found is None else f"{found[0]:x} {digits(data[found[0] : found[0] + b])}"
    if function == "read_cstr":
        return text_line(data, text_at_address(data, numbers, a))
    if function == "lookup_field_name":
        found = field_name(data, numbers, strings, b, a)
        if found is None:
            return "nothing"
        return found[0] + " " + text_line(data if found[0] == "image" else strings, found[1:])
    if function == "image_part":
        return digits(bodies(data).get(1, b""))
    body = bodies(data).get(PARTS[function], bytes(8))
    return f"{number_at(body, 0, 8):x} {digits(body[8:])}"


# The vectors, in the order of the lines.

VECTORS = []


def vector(function, a, b=0, data=b"", strings=b"", numbers=()):
    v = (function, a, b, bytes(data), bytes(strings), tuple(numbers))
    if v not in VECTORS:
        VECTORS.append(v)


def offsets(numbers, addresses):
    for address in addresses:
        vector("vm_to_file_offset_in", address, numbers=numbers)
    vector("vm_to_file_offset", addresses[0], numbers=numbers)


# The image of 33 bytes of the checked lines: a struct's descriptor and its name.
CLUE = struct.pack("<7I", 17, 0, 20, 0, 0, 0, 0) + b"Clue\0"
CLUE_SEGMENT = (0x1000, 33, 0, 33)
HALF = (0x1000, 64, 0, 32)
WRAPS = (TOP - 16, 16, 0, 16)


def checked_lines():
    vector("relative_pointer", 0x1008, data=struct.pack("<i", 20))
    vector("relative_pointer", 0, data=struct.pack("<i", -1))
    offsets(HALF, [0x101F, 0x1020])
    offsets(WRAPS, [0, 1, 0x1000, TOP - 17, TOP - 16, TOP - 1])
    offsets(WRAPS + HALF, [0, 0x1000, 0x101F, TOP - 16])
    for text in ("e282ac", "c080", "eda080", "f4908080"):
        vector("read_cstr_at", 0, data=bytes.fromhex(text))
    for off in (32, 33, 34):
        vector("read_cstr_at", off, data=CLUE)
    vector("read_bytes", 0x1000, 20, CLUE, numbers=CLUE_SEGMENT)
    vector("read_i32_le_at", 8, data=CLUE)
    for cut in range(27, 34):
        vector("read_cstr", 0x101C, data=CLUE[:cut], numbers=CLUE_SEGMENT)
    for cut in (19, 20):
        vector("read_bytes", 0x1000, 20, CLUE[:cut], numbers=CLUE_SEGMENT)


def number_reads():
    count = bytes(range(1, 11))
    extremes = "00000000 ffffffff 00000080 ffffff7f 01000080 feffffff 01000000 00010000 00000100 00000001".split()
    wide = ["00" * 8, "ff" * 8, "00" * 7 + "80", "ff" * 7 + "7f", "fe" + "ff" * 7]
    wide += ["ffffffff00000000", "00000000ffffffff", "0000008000000000"]
    for function, width, values in (
        ("read_u16_le_at", 2, extremes),
        ("read_u32_le_at", 4, extremes),
        ("read_u64_le_at", 8, wide),
        ("read_i32_le_at", 4, extremes),
    ):
        for size in (0, 1, width - 1, width, width + 1, 10):
            data = count[:size]
            places = {0, 1, size - width, size - width + 1, size, 2**32, 2**63, TOP - width, TOP - 4, TOP - 1}
            for off in sorted(p for p in places if p >= 0):
                vector(function, off, data=data)
        for value in values:
            vector(function, 0, data=bytes.fromhex(value))
            vector(function, 1, data=b"\xaa" + bytes.fromhex(value) + b"\x55")
    for value in ("0080", "ff7f", "ff00", "00ff"):
        vector("read_u16_le_at", 0, data=bytes.fromhex(value))
    # Each half of a u64 may fit where the whole does not.
    for size in range(4, 13):
        vector("read_u64_le_at", 4, data=bytes(range(1, size + 1)))


def relative_pointers():
    for offset in (0, 1, -1, 2**31 - 1, -(2**31), 20, -20):
        for base in (0, 1, 2**31, TOP - 1, 2**63, 2**31 - 1, 0x1008):
            vector("relative_pointer", base, data=struct.pack("<i", offset))


def segment_lists():
    around = [0xFFF, 0x1000, 0x1001, 0x101E, 0x101F, 0x1020, 0x1021, 0x103F, 0x1040, 0x1041]
    offsets((), [0, 0x1000, TOP - 1])
    offsets(HALF, [0, TOP - 1] + around)
    offsets((0x1000, 64, 0x200, 32), around)
    # Lists with a last piece that is not a segment.
    for piece in ((0x1000,), (0x1000, 64), (0x1000, 64, 0)):
        offsets(piece, [0x1000])
    for piece in ((0x2000,), (0x2000, 64), (0x2000, 64, 0x100), (TOP - 1,), (TOP - 1, TOP - 1), (TOP - 1, TOP - 1, 0)):
        offsets(HALF + piece, [0x1000, 0x1020, 0x2000])
    # Ends at 2^64, and one below.
    offsets((TOP - 16, 15, 0, 15), [TOP - 17, TOP - 16, TOP - 2, TOP - 1])
    offsets((0, TOP - 1, 0, TOP - 1), [0, TOP - 2, TOP - 1])
    offsets((1, TOP - 1, 0, TOP - 1), [0, 1, TOP - 1])
    offsets((1, TOP - 2, 0, TOP - 1), [0, 1, TOP - 2, TOP - 1])
    offsets((TOP - 1, 0, 0, 1) + HALF, [TOP - 1, 0x1000])
    offsets((TOP - 1, 1, 0, 1) + HALF, [TOP - 1, 0x1000])
    offsets((TOP - 1, TOP - 1, 0, 1) + HALF, [TOP - 1, 0x1000])
    offsets((2**63, 2**63, 0, 1) + HALF, [2**63, 0x1000])
    offsets((2**63, 2**63 - 1, 0, 1) + HALF, [2**63, 0x1000])
    # One that wraps: after a segment that decides, between two, and with no bytes in the file.
    offsets(HALF + WRAPS, [0x1000, 0x101F, 0x1020, 0x1040, 0xFFF, TOP - 16])
    offsets(HALF + WRAPS + (0x2000, 64, 0x100, 64), [0x1000, 0x2000])
    offsets((TOP - 16, 16, 0, 0) + HALF, [0x1000, TOP - 16])
    # The first that covers the address decides; one with no bytes in the file is passed over.
    offsets((0x1000, 64, 0, 64, 0x1000, 64, 0x100, 64), [0x1000, 0x103F, 0x1040])
    offsets(HALF + (0x1010, 64, 0x100, 64), [0x100F, 0x1010, 0x101F, 0x1020, 0x103F, 0x1040, 0x104F, 0x1050])
    offsets((0x1010, 64, 0x100, 64) + HALF, [0x100F, 0x1010, 0x103F, 0x104F])
    offsets((0x1000, 64, 0, 0, 0x1000, 64, 0x300, 64), [0xFFF, 0x1000, 0x103F, 0x1040])
    offsets((0x1000, 64, 0, 0), [0x1000, 0x103F])
    offsets((0x1000, 64, TOP - 1, 0) + HALF, [0x1001])
    # More bytes in the file than addresses, one byte, and no address.
    offsets((0x1000, 16, 0, 64), [0xFFF, 0x1000, 0x100F, 0x1010, 0x103F])
    offsets((0x1000, 16, 0, TOP - 1), [0x100F, 0x1010])
    offsets((0x1000, 64, 0, 1), [0x1000, 0x1001])
    offsets((0x1000, 0, 0, 16), [0xFFF, 0x1000, 0x1001])
    offsets((0, 0, 0, 0), [0])
    offsets((0, 1, 7, 1), [0, 1])
    # Offsets near 2^64.
    offsets((0x1000, 64, TOP - 32, 64), [0x1000, 0x101F, 0x1020, 0x103F])
    offsets((0x1000, 64, TOP - 32, 64, 0x1000, 64, 0, 64), [0x101F, 0x1020])
    offsets((0x1000, 64, TOP - 1, 64), [0x1000, 0x1001])
    # Ends before the address, gaps, a page of zeros in front, and many.
    offsets((0x1000, 16, 0, 16, 0x2000, 16, 16, 16), [0x100F, 0x1010, 0x1FFF, 0x2000, 0x2004, 0x200F, 0x2010])
    offsets((0x2000, 16, 16, 16, 0x1000, 16, 0, 16), [0x1000, 0x2000])
    image = (0, 2**32, 0, 0, 2**32, 0x4000, 0, 0x4000, 2**32 + 0x4000, 0x8000, 0x4000, 0x1000)
    offsets(image, [0, 2**32 - 1, 2**32, 2**32 + 0x4FFF, 2**32 + 0x5000])
    many = [n for i in range(15) for n in (0x1000 * (i + 1), 0x1000, 0x100 * i, 0x100)]
    offsets(many, [0xF0FF, 0x80FF, 0x8100, 0x10000])


# Unicode Table 3-7: the limits of each byte, a row to a line.
TAIL = (0x80, 0xBF)
TABLE = [
    [(0x00, 0x7F)],
    [(0xC2, 0xDF), TAIL],
    [(0xE0, 0xE0), (0xA0, 0xBF), TAIL],
    [(0xE1, 0xEC), TAIL, TAIL],
    [(0xED, 0xED), (0x80, 0x9F), TAIL],
    [(0xEE, 0xEF), TAIL, TAIL],
    [(0xF0, 0xF0), (0x90, 0xBF), TAIL, TAIL],
    [(0xF1, 0xF3), TAIL, TAIL, TAIL],
    [(0xF4, 0xF4), (0x80, 0x8F), TAIL, TAIL],
]


def sequence(text):
    """A sequence alone, before a NUL, and between letters, from an offset after a byte that is not a text."""
    vector("read_cstr_at", 0, data=text)
    vector("read_cstr_at", 0, data=text + b"\0")
    vector("read_cstr_at", 1, data=b"\xffA" + text + b"B\0")


def table_rows():
    for row in TABLE:
        for ends in (bytes(low for low, high in row), bytes(high for low, high in row)):
            sequence(ends)
            for k, (low, high) in enumerate(row):
                for outside in (low - 1, high + 1):
                    if 0 <= outside <= 0xFF:
                        sequence(ends[:k] + bytes([outside]) + ends[k + 1 :])
            for size in range(1, len(row)):
                sequence(ends[:size])
                vector("read_cstr_at", 0, data=b"A" + ends[:size] + ends)
    for text in "80 bf c080 c1bf c27f e09fbf eda080 edbfbf f08fbfbf f4908080 f5808080 f8888080 fe ff".split():
        sequence(bytes.fromhex(text))


def leads():
    for lead in range(0x80, 0x100):
        size = 4 if lead >= 0xF0 else 3 if lead >= 0xE0 else 2
        vector("read_cstr_at", 0, data=bytes([lead, 0x90, 0x80, 0x80][:size]))


def texts():
    mixed = "Größe, 世界 🌍".encode()
    vector("read_cstr_at", 0, data=bytes(range(1, 128)))
    for off in range(len(mixed) + 2):
        vector("read_cstr_at", off, data=mixed)
    plain = [b"", b"\0", b"\0A", b"A", b"A\0", b"A\0B", b"AB\0\0"]
    broken = [b"\0\xff", b"A\0\xff", b"A\0\xc3", b"\xffA\0", b"A\xff\0B", b"A\xc3\0\xa9", b"\xc3\xa9\0\x80"]
    for text in plain + broken:
        for off in (0, 1, 2, len(text), len(text) + 1, TOP - 1):
            vector("read_cstr_at", off, data=text)
    vector("read_cstr_at", 0, data=mixed * 8 + b"\0" + b"\xff" * 8)
    vector("read_cstr_at", 0, data=mixed * 8 + b"\xff\0")
    # After a sequence: the next one, a NUL and a byte that starts none, at each place of two blocks of eight.
    for letters in range(18):
        for then in (b"\xe2\x82\xac", b"\0", b"\x80"):
            vector("read_cstr_at", 0, data=b"A\xc3\xa9" + b"B" * letters + then + b"C" * 9)
    # Many sequences of one length: a NUL, a byte that starts none, a surrogate and an overlong form among them, after the fifth to the thirteenth.
    for character in (b"\xc3\xa9", b"\xe7\x95\x8c", b"\xf0\x9f\x8c\xb3"):
        for count in range(5, 14):
            for then in (b"", b"\0", b"\x80", b"\xed\xbf\xbf", b"\xf0\x80\x80\x80"):
                vector("read_cstr_at", 0, data=character * count + then + character * 8)


def address_reads():
    image = bytes(range(0x40, 0x50))
    short = (0x1000, 8, 0, 8)
    whole = (0x1000, 64, 0, 64)
    for length in (0, 1, 2, 9, 10, TOP - 8, TOP - 7, TOP - 1):
        vector("read_bytes", 0x1007, length, image, numbers=short)
    vector("read_bytes", 0x1008, 0, image, numbers=short)
    vector("read_bytes", 0x1008, 1, image, numbers=short)
    for address, lengths in (
        (0xFFF, [0]),
        (0x1000, [0, 16, 17, TOP - 1]),
        (0x1001, [15, 16, TOP - 1]),
        (0x100F, [0, 1, 2]),
        (0x1010, [0, 1]),
        (0x1011, [0]),
        (0x103F, [0]),
    ):
        for length in lengths:
            vector("read_bytes", address, length, image, numbers=whole)
    for address in (0x1007, 0x1008):
        vector("read_bytes", address, 4, image, numbers=(0x1000, 16, 0, 8))
    for length in (0, 1):
        for fileoff in (16, 17, 0x100, TOP - 1):
            vector("read_bytes", 0x1000, length, image, numbers=(0x1000, 64, fileoff, 64))
        for numbers in ((), whole[:3]):
            vector("read_bytes", 0x1000, length, image, numbers=numbers)
    vector("read_bytes", 0, 4, image, numbers=(0, 64, 2, 64))
    for length in (0, 1):
        vector("read_bytes", 0x1000, length, numbers=whole)
    # Two segments that lie the other way round in the image.
    swapped = (0x1000, 8, 8, 8, 0x2000, 8, 0, 8)
    for address in (0x1000, 0x1007, 0x2000, 0x2006):
        vector("read_bytes", address, 4, image, numbers=swapped)


def address_texts():
    image = b"one\0two\xc3\xa9\0\xff\0last"
    whole = (0x1000, 64, 0, 64)
    for address in list(range(0xFFF, 0x1013)) + [0x103F, 0x1040]:
        vector("read_cstr", address, data=image, numbers=whole)
    low = (0, 64, 0, 64)
    for address in (0, 1, 2, 4):
        vector("read_cstr", address, data=image, numbers=low)
    # Past the segment's end, in its last byte, and where it has no bytes in the file.
    for address in (0x1000, 0x1001, 0x1002):
        vector("read_cstr", address, data=image, numbers=(0x1000, 8, 4, 2))
    for fileoff in (len(image) - 1, len(image), len(image) + 1, TOP - 1):
        vector("read_cstr", 0x1000, data=image, numbers=(0x1000, 64, fileoff, 64))
    for numbers in ((), whole[:3], (0x1000, 64, 0, 0), WRAPS + whole):
        vector("read_cstr", 0x1000, data=image, numbers=numbers)
    vector("read_cstr", 0x1000, numbers=whole)
    vector("read_cstr", 0x1001, numbers=whole)


def field_names():
    image = b"x\0name\0\xff\0\xc3"
    strings = b"first\0\xc3\xa9\0\xff\0end"
    covers = (0x1000, 16, 0, 16)
    # The image answers; its text is ill-formed, empty at its end or past it; no segment has the address.
    for section in (0x1000, 0x1001, 0xFFA, 0x2000, 0):
        for address in (0, 0x1000, 0x1001, 0x1002, 0x1007, 0x1009, 0x100A, 0x100B, 0x1010):
            vector("lookup_field_name", address, section, image, strings, covers)
    # Only the section: below it, its bytes, and past it.
    for address in [0x1FFF] + list(range(0x2000, 0x2000 + len(strings) + 2)):
        vector("lookup_field_name", address, 0x2000, image, strings, covers)
    for numbers in ((), covers[:3], WRAPS + covers, (0x2000, 64, 0, 0), (0x2000, 64, 0, 4)):
        for address in (0x2000, 0x2004, 0x2009, 0x200D):
            vector("lookup_field_name", address, 0x2000, image, strings, numbers)
    # No section, no image, and a section at address 0 or near 2^64.
    vector("lookup_field_name", 0x2000, 0x2000, image, b"", covers)
    vector("lookup_field_name", 0x1002, 0x2000, image, b"", covers)
    vector("lookup_field_name", 0x2000, 0x2000, b"", strings)
    vector("lookup_field_name", 0x1000, 0x1000, b"", strings, covers)
    vector("lookup_field_name", 0x1001, 0x1000, b"", strings, covers)
    vector("lookup_field_name", 0, 0, image, strings, (0, 64, 0, 64))
    for address in (0, 1, 5, 13, 14):
        vector("lookup_field_name", address, 0, b"", strings)
    for section in (TOP - 13, TOP - 4, TOP - 1):
        for address in (1, 9, section - 1, section, TOP - 4, TOP - 1):
            vector("lookup_field_name", address, section, image, strings, covers)


def bundle_parts():
    """The parts of bundles with every choice of the kinds besides the image, and of one without records."""
    records = {2: bytes(range(32)), 3: struct.pack("<Q4s", 0x2000, b"type"), 4: struct.pack("<Q6s", 0x3000, b"fields"), 5: struct.pack("<Q5s", TOP - 1, b"names")}
    for choice in range(16):
        kinds = {1: b"image"} | {kind: body for kind, body in records.items() if choice >> kind - 2 & 1}
        for function in PARTS:
            vector(function, 0, data=b"".join(struct.pack("<IH", len(body), kind) + body for kind, body in kinds.items()))
    # Empty bodies.
    for function in PARTS:
        vector(function, 0, data=b"".join(struct.pack("<IH", size, kind) + bytes(size) for kind, size in ((1, 0), (2, 0), (3, 8), (4, 8), (5, 8))))
        vector(function, 0, data=b"")


checked_lines()
number_reads()
relative_pointers()
segment_lists()
table_rows()
leads()
texts()
address_reads()
address_texts()
field_names()
bundle_parts()


def line(function, a, b, data, strings, numbers):
    return " ".join([function, f"{a:x}", f"{b:x}", digits(data), digits(strings)] + [f"{n:x}" for n in numbers])


def main():
    if sys.argv[1:] not in ([], ["--check"]):
        sys.exit(__doc__)
    files = {
        "stdin": "".join(line(*v) + "\n" for v in VECTORS),
        "stdout": "".join(answer(*v) + "\n" for v in VECTORS),
    }
    assert len(files["stdin"]) <= 131072, len(files["stdin"])
    for name, content in files.items():
        path = FOLDER / name
        if sys.argv[1:]:
            if not path.is_file() or path.read_text() != content:
                sys.exit(f"crates/test_vectors/{name} is not what tests/vectors.py writes")
        else:
            path.write_text(content)
    print(f"{len(VECTORS)} vectors")


if __name__ == "__main__":
    main()
