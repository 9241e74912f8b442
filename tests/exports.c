/* Calls every function that the archives export, on an image in which no two numbers are the same, and prints the name of each call that
   answers as it should. The declarations and the expected answers come from docs/SPECIFICATION.md and docs/CALLS.md, and from nothing in the
   crates: if two parameters of one type are exchanged in a crate's signature, the answers differ. tests/exports.py builds and runs it. */
#include <inttypes.h>
#include <stddef.h>
#include <stdio.h>
#include <string.h>

typedef uint64_t u64;
typedef uint32_t u32;
typedef uint16_t u16;

#define BYTES(name) const uint8_t *name, size_t name##_bytes
#define NUMBERS(name) const u64 *name, size_t name##_count
#define IMAGE BYTES(image), NUMBERS(segments)

u64 hodrupec_listing(IMAGE, BYTES(types), u64 vmaddr, size_t start, uint8_t *buffer, size_t bytes, u64 out[3]);
u64 hodrupec_file_offset(NUMBERS(segments), u64 vmaddr, u64 out[2]);
u64 hodrupec_text(BYTES(data), size_t off, u64 out[3]);
u64 hodrupec_field_name(IMAGE, BYTES(strings), u64 vmaddr, u64 target_va, u64 out[3]);
u64 hodrupec_next_row(IMAGE, BYTES(types), u64 vmaddr, size_t slot, u64 out[8]);
u64 hodrupec_next_context(IMAGE, u64 descriptor_va, size_t given, u64 out[8]);
u64 hodrupec_qualified_name(IMAGE, u64 parent, size_t name_place, size_t name_length, uint8_t *buffer, size_t bytes, u64 out[1]);
u64 hodrupec_next_field(BYTES(fields), u64 vmaddr, size_t at, u64 out[8]);
u64 hodrupec_next_field_record(IMAGE, u64 base_va, u32 count, u32 size, u32 next, u64 out[6]);
u64 hodrupec_named_records(IMAGE, BYTES(strings), u64 strings_va, u64 base_va, u32 count, u32 size, u32 next, u64 *buffer, size_t room, u64 out[2]);
u64 hodrupec_field_records(IMAGE, u64 base_va, u32 count, u32 size, u32 next, u64 *buffer, size_t room, u64 out[2]);
u64 hodrupec_descriptor_type_name(IMAGE, const u64 descriptor[6], u64 out[3]);
u64 hodrupec_descriptor_superclass_name(IMAGE, const u64 descriptor[6], u64 out[3]);
u64 hodrupec_record_type_name(IMAGE, const u64 record[4], u64 out[3]);
u64 hodrupec_record_field_name(IMAGE, BYTES(strings), u64 strings_va, const u64 record[4], u64 out[3]);
u64 hodrupec_field_offsets(IMAGE, u64 address, u32 flags, u64 metadata_va, u64 out[3]);
u64 hodrupec_static_field_offsets(IMAGE, u64 address, u32 flags, u64 out[3]);
u64 hodrupec_field_offset(BYTES(image), size_t place, u32 count, u32 number, u64 out[2]);
u64 hodrupec_row_certain(IMAGE, BYTES(types), u64 vmaddr, size_t slot, u64 out[1]);
u64 hodrupec_name_certain(IMAGE, BYTES(types), u64 vmaddr, size_t slot, u64 out[1]);
u64 hodrupec_first_block(IMAGE, u64 address, u32 flags, u64 out[4]);
u64 hodrupec_next_block(IMAGE, u32 flags, u32 is_class, u32 extra, u32 row, u64 address, u64 out[7]);
u64 hodrupec_block_of_kind(IMAGE, u64 address, u32 flags, u32 kind, u64 out[5]);
u64 hodrupec_text_at(IMAGE, u64 vmaddr, u64 out[3]);
u64 hodrupec_body(IMAGE, u64 address, u32 flags, u64 out[8]);
u64 hodrupec_next_method(IMAGE, u64 base_va, u32 count, u32 next, u64 out[5]);
u64 hodrupec_next_override(IMAGE, u64 base_va, u32 count, u32 next, u64 out[6]);
u64 hodrupec_next_default_override(IMAGE, u64 base_va, u32 count, u32 next, u64 out[5]);
u64 hodrupec_next_prespecialization(IMAGE, u64 base_va, u32 count, u32 next, u64 out[4]);
u64 hodrupec_methods(IMAGE, u64 base_va, u32 count, u32 next, u64 *buffer, size_t room, u64 out[2]);
u64 hodrupec_overrides(IMAGE, u64 base_va, u32 count, u32 next, u64 *buffer, size_t room, u64 out[2]);
u64 hodrupec_default_overrides(IMAGE, u64 base_va, u32 count, u32 next, u64 *buffer, size_t room, u64 out[2]);
u64 hodrupec_prespecializations(IMAGE, u64 base_va, u32 count, u32 next, u64 *buffer, size_t room, u64 out[2]);
u64 hodrupec_singleton_init(IMAGE, u64 address, u64 out[4]);
u64 hodrupec_singleton_pointer(IMAGE, u64 address, u64 out[2]);
u64 hodrupec_full_rows(IMAGE, BYTES(types), u64 vmaddr, size_t start, u64 *buffer, size_t room, u64 out[3]);
u64 hodrupec_context_flags(u32 word, u64 out[8]);
u64 hodrupec_type_flags(u16 word, u64 out[7]);
u64 hodrupec_class_flags(u16 word, u64 out[9]);
u64 hodrupec_conformance_flags(u32 word, u64 out[10]);
u64 hodrupec_field_kind(u16 raw, u64 out[2]);
u64 hodrupec_field_flags(u32 word, u64 out[4]);
u64 hodrupec_method_flags(u32 word, u64 out[7]);
u64 hodrupec_uleb128(BYTES(bytes), u64 out[3]);
u64 hodrupec_sleb128(BYTES(bytes), u64 out[3]);
u64 hodrupec_u32_be(BYTES(data), size_t off, u64 out[2]);
u64 hodrupec_u64_be(BYTES(data), size_t off, u64 out[2]);
u64 hodrupec_fixed_text(BYTES(bytes), u64 out[2]);
u64 hodrupec_vm_address(NUMBERS(segments), u64 offset, u64 out[2]);

/* The image: two segments, and what lies at which place of the file. */

enum { FIRST = 0x10000, FIRST_PLACE = 0x100, SECOND = 0x40000, SECOND_PLACE = 0x40, IMAGE_BYTES = 0x800 };
enum { TYPES = 0x20000, FIELDS = 0x30000, STRINGS = 0x50000 };
enum { MODULE = 0x100, OUTER = 0x120, INNER = 0x160, RECORDS = 0x300, METADATA = 0x400, TARGETS = 0x600 };
enum { OUTER_NAME = 0x7c8, INNER_NAME = 0x7d0, SUPER_NAME = 0x7d8, TYPE_NAME = 0x7e0, MODULE_NAME = 0x7f0, FAR_NAME = 0x50 };
enum { MODULE_FLAGS = 0x40 };
#define OUTER_FLAGS 0x00090051u /* a struct with a singleton initialization and a singleton pointer */
#define INNER_FLAGS 0xc0480070u /* a class with an invertible set and all four tables */
/* The blocks of both, each after the one before it. */
enum { OUTER_BODY = OUTER + 20, OUTER_INIT = OUTER + 28, OUTER_POINTER = OUTER_INIT + 12 };
enum { INNER_BODY = INNER + 20, VTABLE = INNER + 44, METHODS = VTABLE + 8, OVERRIDE_TABLE = METHODS + 2 * 8 };
enum { OVERRIDES = OVERRIDE_TABLE + 4, PRESPECIALIZED = OVERRIDES + 2 * 12, METADATAS = PRESPECIALIZED + 4 };
enum { INVERTIBLE = PRESPECIALIZED + 4 + 2 * 8, DEFAULT_TABLE = INVERTIBLE + 4, DEFAULTS = DEFAULT_TABLE + 4 };

static const u64 segments[12] = {FIRST, 0x1000, FIRST_PLACE, 0x700, SECOND, 0x90, SECOND_PLACE, 0x80, UINT64_MAX - 15, 16, 0, 0};
static uint8_t image[IMAGE_BYTES], types[12], fields[36];
static const uint8_t strings[] = "xxseed\0more";
static size_t segment_numbers = 8;

static u64 va(u64 place) { return FIRST + place - FIRST_PLACE; }
static u64 target(int n) { return va(TARGETS + 4 * n); }

static void put(uint8_t *at, u64 number, int bytes) {
    for (int i = 0; i < bytes; i++) at[i] = (uint8_t)(number >> 8 * i);
}
static void word(u64 place, u64 number) { put(image + place, number, 4); }
static void pointer(u64 place, u64 to) { word(place, to - va(place)); }
static void text(u64 place, const char *s) { strcpy((char *)image + place, s); }

static void descriptor(u64 place, u64 flags, u64 parent, u64 name) {
    word(place, flags);
    if (parent) pointer(place + 4, va(parent));
    pointer(place + 8, va(name));
}

static void make_image(void) {
    text(MODULE_NAME, "Mod"), text(OUTER_NAME, "Outer"), text(INNER_NAME, "Cls"), text(SUPER_NAME, "Super"), text(TYPE_NAME, "Si");
    text(FAR_NAME, "far away");
    descriptor(MODULE, MODULE_FLAGS, 0, MODULE_NAME);
    descriptor(OUTER, OUTER_FLAGS, MODULE, OUTER_NAME);
    word(OUTER_BODY, 3), word(OUTER_BODY + 4, 2);
    for (int i = 0; i < 3; i++) pointer(OUTER_INIT + 4 * i, target(40 + i));
    pointer(OUTER_POINTER, va(METADATA));
    for (int i = 0; i < 3; i++) word(METADATA + 8 * 2 + 4 * i, 11 * (i + 1));
    descriptor(INNER, INNER_FLAGS, OUTER, INNER_NAME);
    pointer(INNER_BODY, va(SUPER_NAME));
    for (int i = 1; i < 6; i++) word(INNER_BODY + 4 * i, 100 + i);
    word(VTABLE, 106), word(VTABLE + 4, 2);
    word(OVERRIDE_TABLE, 2), word(PRESPECIALIZED, 2), word(DEFAULT_TABLE, 2);
    put(image + INVERTIBLE, 0x15, 2);
    for (int i = 0; i < 2; i++) {
        word(METHODS + 8 * i, 0x12 + i), pointer(METHODS + 8 * i + 4, target(i));
        for (int j = 0; j < 3; j++) pointer(OVERRIDES + 12 * i + 4 * j, target(10 + 3 * i + j));
        pointer(METADATAS + 4 * i, target(20 + i));
        for (int j = 0; j < 2; j++) pointer(DEFAULTS + 8 * i + 4 * j, target(30 + 2 * i + j));
    }
    for (int i = 0; i < 3; i++) {
        u64 at = RECORDS + 16 * i;
        word(at, 4 + i), pointer(at + 4, va(TYPE_NAME)), pointer(at + 8, STRINGS + 2);
    }
    put(types + 4, va(OUTER) - (TYPES + 4), 4), put(types + 8, va(INNER) - (TYPES + 8), 4);
    put(fields + 8, va(TYPE_NAME) - (FIELDS + 8), 4), put(fields + 12, va(SUPER_NAME) - (FIELDS + 12), 4);
    put(fields + 16, 1, 2), put(fields + 18, 6, 2), put(fields + 20, 2, 4);
}

/* One call: its status, the numbers of `out` that it writes and those that it leaves unchanged, and the same for the caller's list. */

#define UNWRITTEN 0x5a5aa5a50ff01234u
enum { ROOM = 120 };
static u64 out[16], list[ROOM];
static uint8_t buffer[128];
static int failed;

static void fill(void) {
    for (int i = 0; i < 16; i++) out[i] = UNWRITTEN;
    for (int i = 0; i < ROOM; i++) list[i] = UNWRITTEN;
    memset(buffer, '-', sizeof buffer);
}

static int same(const char *name, const char *what, const u64 *got, size_t all, const u64 *want, size_t count) {
    for (size_t i = 0; i < all; i++) {
        u64 wanted = i < count ? want[i] : UNWRITTEN;
        if (got[i] != wanted) {
            printf("%s: %s[%zu] is %#" PRIx64 ", not %#" PRIx64 "\n", name, what, i, got[i], wanted);
            return 0;
        }
    }
    return 1;
}

static void told(const char *name, u64 status, const u64 *want, size_t count, const u64 *listed, size_t listed_count) {
    if (status != 0) printf("%s: status %" PRIu64 "\n", name, status);
    if (status != 0 || !same(name, "out", out, 16, want, count) || !same(name, "list", list, ROOM, listed, listed_count))
        failed = 1;
    else
        printf("called %s\n", name);
}

static void refused(const char *name, u64 status, u64 number) {
    int left = same(name, "out of a refused call", out, 16, NULL, 0) && same(name, "list of a refused call", list, ROOM, NULL, 0);
    for (size_t i = 0; i < sizeof buffer; i++) left &= buffer[i] == '-';
    if (status != number || !left) printf("%s: status %" PRIu64 ", not %" PRIu64 "%s\n", name, status, number, left ? "" : ", and something written"), failed = 1;
}

/* ANSWERS: the numbers of `out`. GUARDED: a call that takes segments; it refuses seven numbers with 1, and three segments of which the
   last one ends at 2^64 with 9; and then it answers with the first two. */
#define ANSWERS(name, arguments, ...) \
    do { \
        const u64 want[] = {__VA_ARGS__}; \
        fill(); \
        told(#name, name arguments, want, sizeof want / 8, NULL, 0); \
    } while (0)
#define GUARDED(name, arguments, listed, ...) \
    do { \
        const u64 want[] = {__VA_ARGS__}; \
        fill(), segment_numbers = 7; \
        refused(#name, name arguments, 1); \
        fill(), segment_numbers = 12; \
        refused(#name, name arguments, 9); \
        fill(), segment_numbers = 8; \
        told(#name, name arguments, want, sizeof want / 8, listed); \
    } while (0)
#define LIST(...) (const u64[]){__VA_ARGS__}, sizeof((const u64[]){__VA_ARGS__}) / 8
#define NONE NULL, 0
#define SEGMENTS segments, segment_numbers
#define ON image, sizeof image, SEGMENTS
#define TYPES_AT types, sizeof types, TYPES

static void check_bytes(const char *name, const char *want, size_t count) {
    for (size_t i = 0; i < sizeof buffer; i++)
        if (buffer[i] != (uint8_t)(i < count ? want[i] : '-')) {
            printf("%s: byte %zu of the buffer is %d\n", name, i, buffer[i]), failed = 1;
            return;
        }
}

int main(void) {
    const uint8_t uleb[] = {0xe5, 0x8e, 0x26, 0x01}, sleb[] = {0xc0, 0xbb, 0x78, 0x01};
    const uint8_t data[] = {1, 2, 3, 4, 5, 6, 7, 8, 9, 10, 'a', 'b', 0, 'c'};
    make_image();

    /* rows, contexts and names */
    GUARDED(hodrupec_next_row, (ON, TYPES_AT, 1, out), NONE, 1, 1, 2, va(OUTER), OUTER_FLAGS, va(MODULE), OUTER_NAME, 5);
    GUARDED(hodrupec_next_context, (ON, va(OUTER), 5, out), NONE, 1, va(OUTER), OUTER_FLAGS, va(MODULE), 6, 1, OUTER_NAME, 5);
    GUARDED(hodrupec_qualified_name, (ON, va(OUTER), INNER_NAME, 3, buffer, sizeof buffer, out), NONE, 13);
    check_bytes("hodrupec_qualified_name", "Mod.Outer.Cls", 13);
    GUARDED(hodrupec_listing, (ON, TYPES_AT, 1, buffer, sizeof buffer, out), NONE, 86, 3, 1);
    {
        char want[86];
        u64 numbers[2][4] = {{1, va(OUTER), OUTER_FLAGS, 9}, {2, va(INNER), INNER_FLAGS, 13}};
        for (int i = 0; i < 4; i++) put((uint8_t *)want + 8 * i, numbers[0][i], 8), put((uint8_t *)want + 41 + 8 * i, numbers[1][i], 8);
        memcpy(want + 32, "Mod.Outer", 9), memcpy(want + 41 + 32, "Mod.Outer.Cls", 13);
        check_bytes("hodrupec_listing", want, 86);
    }
    GUARDED(hodrupec_full_rows, (ON, TYPES_AT, 1, list, ROOM, out),
        LIST(1, va(OUTER), OUTER_FLAGS, va(MODULE), OUTER_NAME, 5,
            2, 3, 2, 0, 0, 0, 0, 0,
            0, 0, 0, 0, 0, 0, 0, 0, 0, 0, 0, 0, 1, va(OUTER_INIT), 0, 0, 0, 0, 0, 0, 0, 0, 0, 0,
            0, 0, 0, 0, 0, 0, 0, 0, 0, 0, 0, 0, 1, va(OUTER_POINTER), 0, 0, 0, 0, 0, 0,
            2, va(INNER), INNER_FLAGS, va(OUTER), INNER_NAME, 3,
            1, va(SUPER_NAME), 0, 101, 102, 103, 104, 105,
            0, 0, 0, 0, 0, 0, 0, 0, 0, 0, 0, 0, 0, 0, 0, 0, 1, 106, 2, va(METHODS), 1, 2, va(OVERRIDES), 0,
            0, 0, 0, 0, 1, 2, va(METADATAS), 0, 1, 0x15, 3, 0, 0, 0, 0, 0, 1, 2, va(DEFAULTS), 0),
        2, 3, 1);

    /* What is certain by the first bytes: by all bytes, row and name; by those up to the module's name, only the row; by those up to the
       middle of the descriptor, neither. */
    GUARDED(hodrupec_row_certain, (ON, TYPES_AT, 1, out), NONE, 1);
    GUARDED(hodrupec_name_certain, (ON, TYPES_AT, 1, out), NONE, 1);
    GUARDED(hodrupec_row_certain, (image, MODULE_NAME, SEGMENTS, TYPES_AT, 1, out), NONE, 1);
    GUARDED(hodrupec_name_certain, (image, MODULE_NAME, SEGMENTS, TYPES_AT, 1, out), NONE, 0);
    GUARDED(hodrupec_row_certain, (image, OUTER + 10, SEGMENTS, TYPES_AT, 1, out), NONE, 0);

    /* bodies, blocks and tables */
    GUARDED(hodrupec_body, (ON, va(INNER), INNER_FLAGS, out), NONE, 1, va(SUPER_NAME), 0, 101, 102, 103, 104, 105);
    GUARDED(hodrupec_first_block, (ON, va(INNER), INNER_FLAGS, out), NONE, 1, 1, 0, va(VTABLE));
    /* from row 4 on, of a class with a resilient superclass, a foreign initialization and bit 0 of the extra flags: the stub, row 6 */
    GUARDED(hodrupec_next_block, (ON, 0x20020050, 2, 3, 4, va(METADATA), out), NONE, 1, 6, va(METADATA), 0, 0, 7, va(METADATA) + 4);
    GUARDED(hodrupec_block_of_kind, (ON, va(INNER), INNER_FLAGS, 5, out), NONE, 1, 5, 2, va(OVERRIDES), 0);
    GUARDED(hodrupec_next_method, (ON, va(METHODS), 2, 1, out), NONE, 1, 2, va(METHODS + 8), 0x13, target(1));
    GUARDED(hodrupec_next_override, (ON, va(OVERRIDES), 2, 1, out), NONE, 1, 2, va(OVERRIDES + 12), target(13), target(14), target(15));
    GUARDED(hodrupec_next_default_override, (ON, va(DEFAULTS), 2, 1, out), NONE, 1, 2, va(DEFAULTS + 8), target(32), target(33));
    GUARDED(hodrupec_next_prespecialization, (ON, va(METADATAS), 2, 1, out), NONE, 1, 2, va(METADATAS + 4), target(21));
    GUARDED(hodrupec_methods, (ON, va(METHODS), 2, 1, list, ROOM, out), LIST(va(METHODS + 8), 0x13, target(1)), 1, 0);
    GUARDED(hodrupec_overrides, (ON, va(OVERRIDES), 2, 1, list, ROOM, out),
        LIST(va(OVERRIDES + 12), target(13), target(14), target(15)), 1, 0);
    GUARDED(hodrupec_default_overrides, (ON, va(DEFAULTS), 2, 1, list, ROOM, out),
        LIST(va(DEFAULTS + 8), target(32), target(33)), 1, 0);
    GUARDED(hodrupec_prespecializations, (ON, va(METADATAS), 2, 1, list, ROOM, out), LIST(va(METADATAS + 4), target(21)), 1, 0);
    GUARDED(hodrupec_singleton_init, (ON, va(OUTER_INIT), out), NONE, 1, target(40), target(41), target(42));
    GUARDED(hodrupec_singleton_pointer, (ON, va(OUTER_POINTER), out), NONE, 1, va(METADATA));

    /* fields, records and offsets */
    ANSWERS(hodrupec_next_field, (fields, sizeof fields, FIELDS, 8, out), 1, 36, FIELDS + 8, 1, 6, 2, va(TYPE_NAME), va(SUPER_NAME));
    GUARDED(hodrupec_next_field_record, (ON, va(RECORDS), 3, 16, 2, out), NONE, 1, 3, va(RECORDS + 32), 6, va(TYPE_NAME), STRINGS + 2);
    GUARDED(hodrupec_field_records, (ON, va(RECORDS), 3, 16, 2, list, ROOM, out),
        LIST(va(RECORDS + 32), 6, va(TYPE_NAME), STRINGS + 2), 1, 0);
    GUARDED(hodrupec_named_records, (ON, strings, sizeof strings, STRINGS, va(RECORDS), 3, 16, 2, list, ROOM, out),
        LIST(va(RECORDS + 32), 6, va(TYPE_NAME), STRINGS + 2, 1, TYPE_NAME, 2, 2, 2, 4), 1, 0);
    {
        const u64 descriptor[6] = {FIELDS + 8, 1, 6, 2, va(TYPE_NAME), va(SUPER_NAME)};
        const u64 record[4] = {va(RECORDS + 32), 6, va(TYPE_NAME), STRINGS + 2};
        GUARDED(hodrupec_descriptor_type_name, (ON, descriptor, out), NONE, 1, TYPE_NAME, 2);
        GUARDED(hodrupec_descriptor_superclass_name, (ON, descriptor, out), NONE, 1, SUPER_NAME, 5);
        GUARDED(hodrupec_record_type_name, (ON, record, out), NONE, 1, TYPE_NAME, 2);
        GUARDED(hodrupec_record_field_name, (ON, strings, sizeof strings, STRINGS, record, out), NONE, 2, 2, 4);
    }
    GUARDED(hodrupec_field_name, (ON, strings, sizeof strings, STRINGS, STRINGS + 2, out), NONE, 2, 2, 4);
    GUARDED(hodrupec_field_offsets, (ON, va(OUTER), OUTER_FLAGS, va(METADATA) + 4, out), NONE, 1, METADATA + 4 + 16, 3);
    GUARDED(hodrupec_static_field_offsets, (ON, va(OUTER), OUTER_FLAGS, out), NONE, 1, METADATA + 16, 3);
    ANSWERS(hodrupec_field_offset, (image, sizeof image, METADATA + 16, 3, 1, out), 1, 22);

    /* addresses, texts and numbers */
    GUARDED(hodrupec_file_offset, (SEGMENTS, SECOND + 5, out), NONE, 1, SECOND_PLACE + 5);
    GUARDED(hodrupec_vm_address, (SEGMENTS, SECOND_PLACE + 5, out), NONE, 1, SECOND + 5);
    GUARDED(hodrupec_text_at, (ON, SECOND + FAR_NAME - SECOND_PLACE, out), NONE, 1, FAR_NAME, 8);
    ANSWERS(hodrupec_text, (image, sizeof image, SUPER_NAME, out), 1, SUPER_NAME, 5);
    ANSWERS(hodrupec_fixed_text, (data + 10, 4, out), 1, 2);
    ANSWERS(hodrupec_u32_be, (data, sizeof data, 1, out), 1, 0x02030405);
    ANSWERS(hodrupec_u64_be, (data, sizeof data, 1, out), 1, 0x0203040506070809);
    ANSWERS(hodrupec_uleb128, (uleb, sizeof uleb, out), 1, 624485, 3);
    ANSWERS(hodrupec_sleb128, (sleb, sizeof sleb, out), 1, (u64)-123456, 3);

    /* flag words, bit by bit as the specification has them */
    ANSWERS(hodrupec_context_flags, (0x12340091, out), 1, 6, 1, 0, 0, 1, 0x1234, 0x1234);
    ANSWERS(hodrupec_type_flags, (0x0019, out), 1, 1, 0, 1, 0, 1, 1);
    ANSWERS(hodrupec_class_flags, (1 << 6 | 1 << 8 | 2 << 9 | 1 << 12 | 1 << 14, out), 1, 1, 0, 1, 2, 1, 0, 1, 0);
    ANSWERS(hodrupec_conformance_flags, (3 << 3 | 1 << 6 | 42 << 8 | 1 << 16 | 1 << 18 | 28 << 24, out), 1, 3, 1, 0, 42, 1, 0, 1, 0, 28);
    ANSWERS(hodrupec_field_kind, (5, out), 1, 5);
    ANSWERS(hodrupec_field_flags, (6, out), 1, 0, 1, 1);
    ANSWERS(hodrupec_method_flags, (3 | 1 << 4 | 1 << 6 | 0x1234 << 16, out), 1, 3, 1, 0, 1, 0, 0x1234);
    return failed;
}
