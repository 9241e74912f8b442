/* The exported calls that read a type's blocks and names, for tools/turns.py: what they answer, how deep their stack goes, and what they take.
   usage: turns answers SEED ROUNDS | turns answers-and-stacks SEED ROUNDS | turns JOB SECONDS | turns JOB -PASSES */
#include <inttypes.h>
#include <stddef.h>
#include <stdio.h>
#include <stdlib.h>
#include <string.h>
#include <time.h>

typedef uint64_t u64;
typedef uint32_t u32;
typedef uint8_t u8;

#define IMAGE const u8 *, size_t, const u64 *, size_t
#define SECTION const u8 *, size_t, u64
u64 hodrupec_full_rows(IMAGE, SECTION, size_t start, u64 *buffer, size_t room, u64 out[3]);
u64 hodrupec_body(IMAGE, u64 address, u32 flags, u64 out[8]);
u64 hodrupec_first_block(IMAGE, u64 address, u32 flags, u64 out[4]);
u64 hodrupec_next_block(IMAGE, u32 flags, u32 is_class, u32 extra, u32 row, u64 address, u64 out[7]);
u64 hodrupec_block_of_kind(IMAGE, u64 address, u32 flags, u32 kind, u64 out[5]);
u64 hodrupec_singleton_init(IMAGE, u64 address, u64 out[4]);
u64 hodrupec_singleton_pointer(IMAGE, u64 address, u64 out[2]);
u64 hodrupec_field_offsets(IMAGE, u64 address, u32 flags, u64 metadata_va, u64 out[3]);
u64 hodrupec_static_field_offsets(IMAGE, u64 address, u32 flags, u64 out[3]);
u64 hodrupec_descriptor_type_name(IMAGE, const u64 descriptor[6], u64 out[3]);
u64 hodrupec_descriptor_superclass_name(IMAGE, const u64 descriptor[6], u64 out[3]);
u64 hodrupec_record_type_name(IMAGE, const u64 record[4], u64 out[3]);
u64 hodrupec_record_field_name(IMAGE, SECTION, const u64 record[4], u64 out[3]);
u64 hodrupec_next_row(IMAGE, SECTION, size_t slot, u64 out[8]);
u64 hodrupec_row_certain(IMAGE, SECTION, size_t slot, u64 out[1]);
u64 hodrupec_name_certain(IMAGE, SECTION, size_t slot, u64 out[1]);

enum { BYTES = 8192, ROWS = 512, SIZE = 200, RECORD = 58, SLOTS = 60, MOST = 200 };
#define BASE 0x100000000u
#define TYPES (BASE + 0x40000000ull)
#define NOWHERE 0x777777000000u
static u8 image[(ROWS + MOST) * (SIZE + 9)], types[4 * ROWS];
static size_t image_bytes, types_bytes, segment_numbers, room;
static u64 segments[4 * (MOST + 4)], types_va, list[ROWS * RECORD];
static u64 descriptors[MOST], out[8];
static u32 flags_of[ROWS];
static int descriptors_count;

static void put(size_t at, u64 number, int bytes) {
    if (at + bytes <= sizeof image) memcpy(image + at, &number, bytes);
}

static void segment(u64 vmaddr, u64 vmsize, u64 fileoff, u64 filesize) {
    u64 *s = segments + segment_numbers;
    s[0] = vmaddr, s[1] = vmsize, s[2] = fileoff, s[3] = filesize;
    segment_numbers += 4;
}

static u64 state;
static u64 any(void) {
    state ^= state << 13, state ^= state >> 7, state ^= state << 17;
    return state * 2685821657736338717u;
}
static u32 below(u64 n) { return n ? (u32)((any() >> 33) % n) : 0; }

/* ---- what a job reads: `ROWS` rows, the image in the last segment, or in as many pieces, with neighbouring rows in different ones */

#define CLASS_WITH_ALL_BLOCKS 0xe04900b0u
static u32 flags_for(char rows) {
    switch (rows) {
    case 'a': return CLASS_WITH_ALL_BLOCKS;
    case 'c': return 0x50;
    case 's': return 0x51;
    case 'v': return 0x80000050;
    }
    u32 r = below(10);
    return (r < 5 ? 0x51 : r < 8 ? 0x80000050 | below(2) << 30 : 0x52) | below(4) / 3 << 7;
}

static void make_rows(char job, char rows, int count) {
    state = 88172645463325252u;
    int pieces = job == 'P' ? count : 1, each = (ROWS + pieces - 1) / pieces;
    u64 bytes = (u64)each * (SIZE + 9), apart = 0x100000;
    for (int i = 0; i < ROWS; i++) {
        u64 start = bytes * (i % pieces), at = start + i / pieces * SIZE, text = start + each * SIZE + i / pieces * 9;
        u32 flags = flags_of[i] = flags_for(rows);
        put(at, flags, 4), put(at + 8, text - (at + 8), 4);
        if (flags == CLASS_WITH_ALL_BLOCKS) put(at + 28, 1, 4);
        memset(image + text, 'a' + i % 26, 8);
        u64 address = job == 'W' ? BASE + 0x38000000 : BASE + apart * (i % pieces) + (at - start);
        u32 to = (u32)(address - (TYPES + 4 * i));
        memcpy(types + 4 * i, &to, 4);
    }
    if (pieces == 1) segment(0, BASE, 0, 0);
    for (int i = 2; pieces == 1 && i < count; i++) segment(BASE + 0x100000000ull * i, apart, 0, apart);
    for (int i = 0; i < pieces; i++) segment(BASE + apart * i, bytes, bytes * i, bytes);
    image_bytes = sizeof image, types_bytes = sizeof types, types_va = TYPES, room = ROWS * RECORD;
}

#define I image, image_bytes, segments, segment_numbers
#define T types, types_bytes, types_va

static long pass(const char *job) {
    long calls = ROWS;
    u64 name = job[1] == '-' ? NOWHERE : BASE + ROWS * SIZE, six[6] = {BASE, 0, name, name, name, name};
    switch (job[0]) {
    case 'W': hodrupec_next_row(I, T, 0, out); break;
    case 'P':
    case 'R': hodrupec_full_rows(I, T, 0, list, room, out); break;
    case 'K': for (int i = 0; i < ROWS; i++) hodrupec_block_of_kind(I, BASE + i * SIZE, flags_of[i], 10, out); break;
    case 'N':
        for (int i = calls = 0; i < ROWS; i++) {
            u64 start[4];
            hodrupec_first_block(I, BASE + i * SIZE, flags_of[i], start);
            for (out[5] = 0, out[6] = start[3], out[0] = 1; out[0]; calls++) hodrupec_next_block(I, flags_of[i], start[1], start[2], out[5], out[6], out);
        }
        break;
    case 'D': for (int i = 0; i < ROWS; i++) hodrupec_descriptor_type_name(I, six, out); break;
    case 'S': for (int i = 0; i < ROWS; i++) hodrupec_descriptor_superclass_name(I, six, out); break;
    case 'F': for (int i = 0; i < ROWS; i++) hodrupec_record_type_name(I, six, out); break;
    }
    return calls;
}

static double now(void) {
    struct timespec t;
    clock_gettime(CLOCK_PROCESS_CPUTIME_ID, &t);
    return t.tv_sec * 1e9 + t.tv_nsec;
}

static void time_job(const char *job, double wanted) {
    long calls = 0, passes = 0;
    double start = now(), end = start;
    while (wanted < 0 ? passes < -wanted : end - start < wanted * 1e9) {
        for (int i = wanted < 0 ? 1 : 20; i > 0; i--, passes++) calls += pass(job);
        end = now();
    }
    printf("%.3f\n", (end - start) / calls);
}

/* ---- answers: from damaged images in up to 63 segments, and how deep each call writes the stack */

static u64 start_of[4], at_of[4], bytes_of[4];
static u64 address_of(u64 at) {
    for (int i = 0; i < 4; i++) if (at_of[i] <= at && at < at_of[i] + bytes_of[i]) return start_of[i] + (at - at_of[i]);
    return 0x1234;
}

static u32 some_flags(void) {
    static const u8 kinds[] = {16, 17, 18, 16, 16, 0, 1, 2, 3, 31};
    if (below(3) == 0) return (u32)any();
    u32 low = kinds[below(10)] | below(2) << 7 | below(4) << 5, high = below(4) << 14 | below(2) << 13 | below(128);
    return low | (below(2) ? high : below(0x10000)) << 16;
}

static void make_any(void) {
    memset(image, 0, BYTES);
    image_bytes = below(8) == 0 ? below(64) : 256 + below(BYTES - 256);
    segment_numbers = 0;
    for (int i = below(3) == 0 ? below(60) : below(3); i > 0; i--) segment(0x700000000 + 0x1000000ull * i, below(0x10000), below(BYTES), below(4) ? below(0x10000) : 0);
    int pieces = 1 + below(4);
    u64 at = 0;
    for (int i = 0; i < 4; i++) {
        u64 bytes = i + 1 < pieces ? below(BYTES - at) : i < pieces ? BYTES - at : 0;
        at_of[i] = at, bytes_of[i] = bytes, at += bytes;
        start_of[i] = below(40) == 0 ? UINT64_MAX - below(9000) : BASE + 0x100000ull * i + (below(8) == 0 ? below(4096) : 0);
        if (i < pieces) segment(start_of[i], below(6) ? bytes : below(bytes + 1), below(60) ? at_of[i] : UINT64_MAX - below(5000), below(6) ? bytes : below(bytes + 1));
    }
    if (below(10) == 0) for (int n = 1 + below(3); n > 0; n--) segments[segment_numbers++] = any();
    if (below(80) == 0) segment_numbers = 0;
    if (below(60) == 0) segments[1] = UINT64_MAX;
    at = 0;
    for (descriptors_count = 0; descriptors_count < 40 && at + 256 < BYTES; descriptors_count++) {
        descriptors[descriptors_count] = address_of(at);
        u32 flags = flags_of[descriptors_count] = some_flags();
        put(at, flags, 4), put(at + 4, below(2) ? 0 : below(4096) - 2048, 4), put(at + 8, address_of(below(BYTES)) - (address_of(at) + 8), 4);
        for (int w = 3; w < 50; w++) {
            u32 r = below(10);
            put(at + 4 * w, r < 4 ? 0 : r < 7 ? below(4) : r < 9 ? below(300) : any(), 4);
        }
        at += 44 + 4 * below(40);
    }
    for (int i = 0; i < 40; i++) {
        size_t text = below(BYTES - 9);
        for (int k = 0; k < 8; k++) image[text + k] = 'a' + below(26);
        image[text + 8] = 0;
    }
    types_va = TYPES + 4 * below(3), types_bytes = below(5) ? 4 * (1 + below(SLOTS)) : below(4 * SLOTS + 1);
    for (int i = 0; i < SLOTS; i++) {
        u32 r = below(10);
        u64 to = r < 7 && descriptors_count ? descriptors[below(descriptors_count)] : r < 9 ? any() : address_of(below(BYTES));
        u32 word = r == 7 ? 0 : (u32)(to - (types_va + 4 * i));
        memcpy(types + 4 * i, &word, 4);
    }
}

#define PAINTED 16384
static __attribute__((noinline)) void paint(void) {
    volatile u8 below_here[PAINTED];
    for (int i = 0; i < PAINTED; i++) below_here[i] = 0xa5;
    __asm__ volatile("" : : "r"(below_here) : "memory");
}
static __attribute__((noinline)) int depth(void) {
    volatile u8 below_here[PAINTED];
    int i = 0;
    __asm__ volatile("" : : "r"(below_here) : "memory");
    while (i < PAINTED && below_here[i] == 0xa5) i++;
    return PAINTED - i;
}

typedef struct { const char *name; u64 calls, answers, there; int stack; } Told;
static Told told[16];
static int stacks;

/* A call's status, its numbers with those that it leaves, and the list, in one sum. */
static void tell(const char *name, u64 status, int deep) {
    Told *t = told;
    while (t->name && strcmp(t->name, name)) t++;
    t->name = name, t->calls++, t->there += status == 0 && out[0] != 0;
    if (t->stack < deep) t->stack = deep;
    t->answers = (t->answers ^ status) * 1099511628211u;
    for (int i = 0; i < 8; i++) t->answers = (t->answers ^ out[i]) * 1099511628211u + i;
    if (!strcmp(name, "full_rows")) for (size_t i = 0; i < 40 * RECORD; i++) t->answers = (t->answers ^ list[i]) * 1099511628211u + i;
}
#define CALL(name, ...) do { \
        for (int i = 0; i < 8; i++) out[i] = 0x5a5aa5a50ff01234u + i; \
        if (stacks) paint(); \
        u64 status = hodrupec_##name(__VA_ARGS__, out); \
        tell(#name, status, stacks ? depth() : 0); \
    } while (0)

static void answers(u64 seed, long rounds) {
    state = seed * 0x9e3779b97f4a7c15u + 1;
    for (; rounds > 0; rounds--) {
        make_any();
        for (size_t i = 0; i < 40 * RECORD; i++) list[i] = 0x0123456789abcdefu * (i + 1);
        room = below(3) ? 40 * RECORD : below(40 * RECORD);
        size_t start = below(4) ? 0 : below(50) ? below(70) : any();
        CALL(full_rows, I, T, start, list, room);
        for (int d = 0; d < descriptors_count; d++) {
            u64 address = below(20) ? descriptors[d] : any(), metadata = below(3) ? address_of(below(BYTES)) : any();
            u32 flags = below(10) ? flags_of[d] : (u32)any();
            CALL(body, I, address, flags);
            for (u32 kind = 0; kind < 13; kind++) CALL(block_of_kind, I, address, flags, kind);
            CALL(singleton_init, I, address);
            CALL(singleton_pointer, I, address);
            CALL(field_offsets, I, address, flags, metadata);
            CALL(static_field_offsets, I, address, flags);
            u64 six[6] = {address, metadata, metadata, metadata, address_of(below(BYTES)), address_of(below(BYTES))};
            CALL(descriptor_type_name, I, six);
            CALL(descriptor_superclass_name, I, six);
            CALL(record_type_name, I, six);
            CALL(record_field_name, I, image, image_bytes, six[3] - below(9), six);
            CALL(first_block, I, address, flags);
            u32 is_class = out[1], extra = out[2];
            out[5] = below(15) ? 0 : below(14), out[6] = out[3];
            for (int n = 0; n < 14; n++) {
                u32 row = out[5];
                u64 at = out[6];
                CALL(next_block, I, flags, is_class, extra, row, at);
                if (out[0] != 1) break;
            }
        }
        for (int n = 0; n < 4; n++) {
            size_t slot = below(70);
            CALL(row_certain, I, T, slot);
            CALL(name_certain, I, T, slot);
        }
    }
    for (Told *t = told; t->name; t++) printf("%s %" PRIu64 " %" PRIu64 " %016" PRIx64 " %d\n", t->name, t->calls, t->there, t->answers, t->stack);
}

/* A job: what is called (R rows with all blocks, P the same with the rows spread over all segments, K the block of the last kind, N each step over
   blocks, D S F names, W the next row where no slot leads anywhere), on which rows (a classes with all blocks, c and s classes and structs without one,
   v classes with a vtable, m a mixture; of a name + in the image, - nowhere), and in how many segments, as in Ra4. */
int main(int count, char **words) {
    if (count == 4) stacks = !strcmp(words[1], "answers-and-stacks"), answers(strtoull(words[2], 0, 10), atol(words[3]));
    else if (count == 3 && strlen(words[1]) > 2 && atoi(words[1] + 2) <= MOST) make_rows(words[1][0], words[1][1], atoi(words[1] + 2)), time_job(words[1], atof(words[2]));
    else return 2;
    return 0;
}
