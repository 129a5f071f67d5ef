/*
 * Checks of the archive through geirovund.h: its size, the bytes of every kind of call, every refusal, the bytes that
 * calls may not touch, and what the comments of the header say. Prints a line for each check that fails, and then how
 * many there were.
 */
#include <stdio.h>
#include <string.h>

#include "geirovund.h"

#define GUARD 64
#define FILL 0xa5

/* The writer and what it is lent, with guard bytes around each part. */
static struct desk {
    uint8_t guard0[GUARD];
    struct geirovund_writer writer;
    uint8_t guard1[GUARD];
    uint8_t blob[256];
    uint8_t guard2[GUARD];
    uint8_t strings[32];
    uint8_t guard3[GUARD];
    uint32_t phandles[4];
    uint8_t guard4[GUARD];
    size_t node;
    uint8_t guard5[GUARD];
} desk, kept;

/* The parts of the desk: a name, whether the part is guard bytes, and where it ends. */
#define END_OF(part) (offsetof(struct desk, part) + sizeof desk.part)
static const struct {
    const char *name;
    int guard;
    size_t end;
} parts[] = {
    {"what is before the writer", 1, END_OF(guard0)}, {"the writer", 0, END_OF(writer)},
    {"what is after the writer", 1, END_OF(guard1)},  {"the blob", 0, END_OF(blob)},
    {"what is after the blob", 1, END_OF(guard2)},    {"the strings buffer", 0, END_OF(strings)},
    {"what is after the strings", 1, END_OF(guard3)}, {"the table", 0, END_OF(phandles)},
    {"what is after the table", 1, END_OF(guard4)},   {"the node", 0, END_OF(node)},
    {"what is after the node", 1, END_OF(guard5)},
};

#define W &desk.writer
#define BLOB desk.blob, sizeof desk.blob
#define STRINGS desk.strings, sizeof desk.strings
#define TABLE desk.phandles, sizeof desk.phandles / sizeof desk.phandles[0]
#define NODE &desk.node
#define LITERAL(text) "" text, sizeof("" text) - 1

/* The bytes of a writer that are fields; those after them are padding. */
#define FIELDS (offsetof(struct geirovund_writer, finished) + 1)

static const struct geirovund_writer closed = GEIROVUND_WRITER_INIT;
static uint8_t zeros[GEIROVUND_BLOB_CEILING];
static unsigned checks, failures;

/* A check that two numbers are the same. */
static void same(const char *what, size_t expected, size_t found)
{
    checks++;
    if (expected == found)
        return;
    failures++;
    printf("%s: expected %lu, found %lu\n", what, (unsigned long)expected, (unsigned long)found);
}

/* A check that the guard bytes are those of a fresh desk and, if `all` is set, that the others are those kept. */
static void untouched(const char *what, int all)
{
    const uint8_t *found = (const uint8_t *)&desk, *before = (const uint8_t *)&kept;
    size_t at, part = 0;

    checks++;
    memcpy((uint8_t *)&kept.writer + FIELDS, (uint8_t *)&desk.writer + FIELDS, sizeof desk.writer - FIELDS);
    for (at = 0; at < sizeof desk; at++) {
        part += at == parts[part].end;
        if (parts[part].guard ? found[at] == FILL : !all || found[at] == before[at])
            continue;
        failures++;
        printf("%s: changed %s: byte %lu from its end is %#x\n", what, parts[part].name,
               (unsigned long)(parts[part].end - at), (unsigned)found[at]);
        return;
    }
}

/* A call that is accepted, and one that is refused with a number and changes nothing. */
#define TAKES(call) (same(#call, GEIROVUND_ACCEPTED, (call)), untouched(#call, 0))
#define REFUSES(number, call) (memcpy(&kept, &desk, sizeof desk), same(#call, (number), (call)), untouched(#call, 1))

/* A refused begin: sets the node to 0, and changes nothing else. */
#define REFUSES_BEGIN(number, call) \
    (desk.node = 99, memcpy(&kept, &desk, sizeof desk), kept.node = 0, same(#call, (number), (call)), \
     untouched(#call, 1))

/* A refused opening: closes the writer, and changes nothing else. */
#define REFUSES_OPENING(number, call) \
    (memcpy(&kept, &desk, sizeof desk), kept.writer = closed, same(#call, (number), (call)), untouched(#call, 1))

/* A fresh desk, with a writer that is not open. */
static void fresh(void)
{
    memset(&desk, FILL, sizeof desk);
    desk.writer = closed;
}

/* A fresh desk, with an open writer. */
static void opened(void)
{
    fresh();
    TAKES(geirovund_new(W, BLOB, STRINGS, TABLE));
}

/* The words of a finished blob, after which come as many bytes of strings as are left. */
static void words(const char *what, const uint32_t *expected, size_t count, size_t length)
{
    size_t i;

    same(what, length, geirovund_show(W, BLOB));
    for (i = 0; i < count; i++) {
        const uint8_t *b = desk.blob + 4 * i;
        same(what, expected[i], (uint32_t)b[0] << 24 | (uint32_t)b[1] << 16 | (uint32_t)b[2] << 8 | b[3]);
    }
}

/* Header and archive agree on the writer, and on what a writer is that was not opened. */
static void sizes(void)
{
    same("geirovund_writer_size", sizeof(struct geirovund_writer), geirovund_writer_size());
    same("geirovund_writer_fits", 1, (size_t)geirovund_writer_fits());
    fresh();
    REFUSES(GEIROVUND_FINISHED, geirovund_set_boot_cpuid_phys(W, 1));
    REFUSES_BEGIN(GEIROVUND_FINISHED, geirovund_begin_node(W, BLOB, LITERAL("1"), NODE));
    REFUSES(GEIROVUND_FINISHED, geirovund_property_null(W, BLOB, STRINGS, LITERAL("a@")));
    REFUSES(GEIROVUND_FINISHED, geirovund_finish(W, BLOB, STRINGS));
    REFUSES(0, geirovund_show(W, BLOB));
}

/* The blob of an empty run, and that of a node with reg = 1: document 01 has their words. */
static void blobs(void)
{
    static const uint32_t none[] = {0xd00dfeed, 0x3c, 0x38, 0x3c, 0x28, 0x11, 0x10, 0, 0, 4, 0, 0, 0, 0, 9};
    static const uint32_t reg[] = {0xd00dfeed, 0x5c, 0x38, 0x58, 0x28, 0x11, 0x10, 0, 4, 0x20, 0, 0, 0, 0,
                                   1, 0, 3, 4, 0, 1, 2, 9, 0x72656700};

    opened();
    TAKES(geirovund_finish(W, BLOB, STRINGS));
    words("the blob of 60 bytes", none, 15, 60);
    desk.writer.blob_used = sizeof desk.blob + 1;
    REFUSES(0, geirovund_show(W, BLOB));
    opened();
    TAKES(geirovund_set_boot_cpuid_phys(W, 3));
    TAKES(geirovund_finish(W, BLOB, STRINGS));
    same("the boot number, in the last byte of its word", 3, desk.blob[31]);
    opened();
    TAKES(geirovund_begin_node(W, BLOB, LITERAL(""), NODE));
    TAKES(geirovund_property_u32(W, BLOB, STRINGS, LITERAL("reg"), 1));
    TAKES(geirovund_end_node(W, BLOB, desk.node));
    REFUSES(0, geirovund_show(W, BLOB));
    TAKES(geirovund_finish(W, BLOB, STRINGS));
    words("the blob of 92 bytes", reg, 23, 92);
    REFUSES(0, geirovund_show(W, desk.blob, sizeof desk.blob - 1));
    REFUSES(GEIROVUND_FINISHED, geirovund_finish(W, BLOB, STRINGS));
    REFUSES(GEIROVUND_FINISHED, geirovund_end_node(W, BLOB, 1));
    REFUSES_BEGIN(GEIROVUND_FINISHED, geirovund_begin_node(W, BLOB, LITERAL(""), NODE));
    fresh();
    TAKES(geirovund_new(W, desk.blob, 59, STRINGS, TABLE));
    REFUSES(GEIROVUND_BLOB_ROOM, geirovund_finish(W, desk.blob, 59, STRINGS));
}

/* The bytes of wide numbers: a reservation, the boot number, and each kind of property with numbers. */
static void numbers(void)
{
    static const uint64_t reserved[] = {0x0123456789abcdef, 0x1032547698badcfe};
    static const uint32_t four[] = {0x01234567, 0xf0e1d2c3};
    static const uint64_t eight[] = {0x1122334455667788, 0x99aabbccddeeff01};
    static const uint32_t expected[] = {
        0xd00dfeed, 0xb4, 0x48, 0xac, 0x28, 0x11, 0x10, 0xfedcba98, 8, 0x64,
        0x01234567, 0x89abcdef, 0x10325476, 0x98badcfe, 0, 0, 0, 0,
        1, 0,
        3, 4, 0, 0x89abcdef,
        3, 8, 2, 0xfedcba98, 0x76543210,
        3, 8, 4, 0x01234567, 0xf0e1d2c3,
        3, 16, 6, 0x11223344, 0x55667788, 0x99aabbcc, 0xddeeff01,
        2, 9, 0x61006200, 0x63006400,
    };

    fresh();
    TAKES(geirovund_new_with_mem_reserv(W, BLOB, STRINGS, TABLE, reserved, 2));
    TAKES(geirovund_set_boot_cpuid_phys(W, 0xfedcba98));
    TAKES(geirovund_begin_node(W, BLOB, LITERAL(""), NODE));
    TAKES(geirovund_property_u32(W, BLOB, STRINGS, LITERAL("a"), 0x89abcdef));
    TAKES(geirovund_property_u64(W, BLOB, STRINGS, LITERAL("b"), 0xfedcba9876543210));
    TAKES(geirovund_property_array_u32(W, BLOB, STRINGS, LITERAL("c"), four, 2));
    TAKES(geirovund_property_array_u64(W, BLOB, STRINGS, LITERAL("d"), eight, 2));
    TAKES(geirovund_end_node(W, BLOB, desk.node));
    TAKES(geirovund_finish(W, BLOB, STRINGS));
    words("the blob of wide numbers", expected, sizeof expected / sizeof expected[0], 180);
}

/* The bytes of the other kinds of property: none, bytes, a string, a list of strings and a phandle. */
static void other_kinds(void)
{
    static const uint8_t bytes[] = {0xff, 0, 0x80, 0x7f, 1};
    static const size_t lengths[] = {3, 0, 1};
    static const uint32_t expected[] = {
        0xd00dfeed, 0xb0, 0x38, 0xa0, 0x28, 0x11, 0x10, 0, 16, 0x68, 0, 0, 0, 0,
        1, 0,
        3, 0, 0,
        3, 5, 2, 0xff00807f, 0x01000000,
        3, 5, 4, 0x67656972, 0,
        3, 7, 6, 0x78797a00, 0x00770000,
        3, 4, 8, 0xfedcba98,
        2, 9, 0x61006200, 0x63006400, 0x7068616e, 0x646c6500,
    };

    opened();
    TAKES(geirovund_begin_node(W, BLOB, LITERAL(""), NODE));
    TAKES(geirovund_property_null(W, BLOB, STRINGS, LITERAL("a")));
    TAKES(geirovund_property(W, BLOB, STRINGS, LITERAL("b"), bytes, sizeof bytes));
    TAKES(geirovund_property_string(W, BLOB, STRINGS, LITERAL("c"), LITERAL("geir")));
    TAKES(geirovund_property_string_list(W, BLOB, STRINGS, LITERAL("d"), LITERAL("xyzw"), lengths, 3));
    TAKES(geirovund_property_phandle(W, BLOB, STRINGS, TABLE, 0xfedcba98));
    same("the phandle in the table", 0xfedcba98, desk.phandles[0]);
    TAKES(geirovund_end_node(W, BLOB, desk.node));
    TAKES(geirovund_finish(W, BLOB, STRINGS));
    words("the blob of the other kinds", expected, sizeof expected / sizeof expected[0], 176);
}

/* Buffers that are local and not initialised: the compiler warns of none. */
static void local_buffers(void)
{
    uint8_t lent_blob[92], lent_strings[8];
    uint32_t lent_phandles[1];
    static const uint64_t reserved[] = {0, 1};
    struct geirovund_writer w = GEIROVUND_WRITER_INIT;

    same("an opening with a reservation, over local buffers", GEIROVUND_ACCEPTED,
         geirovund_new_with_mem_reserv(&w, lent_blob, 92, lent_strings, 8, lent_phandles, 1, reserved, 2));
    same("an opening, over local buffers", GEIROVUND_ACCEPTED,
         geirovund_new(&w, lent_blob, 92, lent_strings, 8, lent_phandles, 1));
}

/* Openings: each refusal, in the order of the tests. */
static void openings(void)
{
    static uint64_t pairs[130];
    static const uint64_t wrong[] = {0, 4097, 4096, 4096, 0, 0}, last[] = {UINT64_MAX - 1, 1};
    size_t i;

    for (i = 0; i < 65; i++)
        pairs[2 * i] = i, pairs[2 * i + 1] = 1;
    opened();
    REFUSES_OPENING(GEIROVUND_BLOB_ROOM, geirovund_new(W, desk.blob, 55, STRINGS, TABLE));
    REFUSES(GEIROVUND_FINISHED, geirovund_set_boot_cpuid_phys(W, 1));
    REFUSES_OPENING(GEIROVUND_MISFIT, geirovund_new_with_mem_reserv(W, desk.blob, 55, STRINGS, TABLE, pairs, 129));
    REFUSES_OPENING(GEIROVUND_TOO_MANY_RESERVATIONS,
                    geirovund_new_with_mem_reserv(W, desk.blob, 55, STRINGS, TABLE, pairs, 130));
    REFUSES_OPENING(GEIROVUND_INVALID_MEMORY_RESERVATION,
                    geirovund_new_with_mem_reserv(W, desk.blob, 55, STRINGS, TABLE, wrong, 6));
    REFUSES_OPENING(GEIROVUND_OVERLAPPING_MEMORY_RESERVATIONS,
                    geirovund_new_with_mem_reserv(W, desk.blob, 55, STRINGS, TABLE, wrong, 4));
    REFUSES_OPENING(GEIROVUND_BLOB_ROOM, geirovund_new_with_mem_reserv(W, desk.blob, 71, STRINGS, TABLE, last, 2));
    TAKES(geirovund_new_with_mem_reserv(W, desk.blob, 72, STRINGS, TABLE, last, 2));
    TAKES(geirovund_new_with_mem_reserv(W, BLOB, STRINGS, TABLE, pairs, 2 * 12));
}

/* Nodes: each refusal. */
static void nodes(void)
{
    unsigned i;

    opened();
    REFUSES(GEIROVUND_OUT_OF_ORDER_END_NODE, geirovund_end_node(W, BLOB, 0));
    REFUSES_BEGIN(GEIROVUND_INVALID_STRING, geirovund_begin_node(W, BLOB, LITERAL("1\0"), NODE));
    REFUSES_BEGIN(GEIROVUND_INVALID_NODE_NAME, geirovund_begin_node(W, BLOB, LITERAL("1a"), NODE));
    REFUSES_BEGIN(GEIROVUND_INVALID_NODE_NAME, geirovund_begin_node(W, BLOB, LITERAL("a@1@2"), NODE));
    TAKES(geirovund_begin_node(W, BLOB, LITERAL("abcdefghijklmnopqrstuvwxyzabcde@"), NODE));
    same("the handle of a first node", 1, desk.node);
    REFUSES(GEIROVUND_OUT_OF_ORDER_END_NODE, geirovund_end_node(W, BLOB, 2));
    REFUSES(GEIROVUND_UNCLOSED_NODE, geirovund_finish(W, BLOB, STRINGS));
    REFUSES_BEGIN(GEIROVUND_MISFIT, geirovund_begin_node(W, desk.blob, sizeof desk.blob - 1, LITERAL("1"), NODE));
    REFUSES(GEIROVUND_MISFIT, geirovund_end_node(W, desk.blob, sizeof desk.blob - 1, 2));
    TAKES(geirovund_end_node(W, BLOB, 1));
    for (i = 0; i < (256 - 56 - 40 - 4) / 8; i++)
        TAKES(geirovund_begin_node(W, BLOB, LITERAL("a"), NODE));
    REFUSES_BEGIN(GEIROVUND_BLOB_ROOM, geirovund_begin_node(W, BLOB, LITERAL("a"), NODE));
}

/* Properties: each refusal, with a later cause beside it where one is cheap. */
static void properties(void)
{
    static const size_t lengths[] = {1, 1};

    opened();
    REFUSES(GEIROVUND_PROPERTY_BEFORE_BEGIN_NODE, geirovund_property_u32(W, BLOB, STRINGS, LITERAL("a@\0"), 1));
    REFUSES(GEIROVUND_INVALID_STRING, geirovund_property_string(W, BLOB, STRINGS, LITERAL("a"), LITERAL("\0")));
    TAKES(geirovund_begin_node(W, BLOB, LITERAL(""), NODE));
    REFUSES(GEIROVUND_INVALID_STRING, geirovund_property(W, BLOB, STRINGS, LITERAL("a@\0"), zeros, 1));
    REFUSES(GEIROVUND_INVALID_PROPERTY_NAME, geirovund_property_u64(W, BLOB, STRINGS, LITERAL("a@"), 1));
    TAKES(geirovund_property_u32(W, BLOB, STRINGS, LITERAL("utc-offset"), 120));
    REFUSES(GEIROVUND_DUPLICATE_PROPERTY, geirovund_property_u32(W, BLOB, STRINGS, LITERAL("utc-offset"), 60));
    REFUSES(GEIROVUND_DUPLICATE_PROPERTY, geirovund_property(W, BLOB, STRINGS, LITERAL("utc-offset"), zeros, 999));
    REFUSES(GEIROVUND_MISFIT,
            geirovund_property_string_list(W, BLOB, STRINGS, LITERAL("a"), LITERAL("\0bc"), lengths, 2));
    REFUSES(GEIROVUND_INVALID_STRING,
            geirovund_property_string_list(W, BLOB, STRINGS, LITERAL("a"), LITERAL("\0b"), lengths, 2));
    TAKES(geirovund_property_string_list(W, BLOB, STRINGS, LITERAL("a"), LITERAL("bc"), lengths, 2));
    REFUSES(GEIROVUND_STRING_ROOM, geirovund_property(W, BLOB, STRINGS, LITERAL("twenty-bytes-and-one"), zeros, 999));
    REFUSES(GEIROVUND_BLOB_ROOM, geirovund_property(W, BLOB, STRINGS, LITERAL("b"), zeros, 999));
    REFUSES(GEIROVUND_MISFIT, geirovund_property_null(W, BLOB, desk.strings, 31, LITERAL("b")));
    REFUSES(GEIROVUND_MISFIT, geirovund_finish(W, BLOB, desk.strings, 31));
    TAKES(geirovund_end_node(W, BLOB, 1));
    REFUSES(GEIROVUND_PROPERTY_AFTER_END_NODE, geirovund_property_null(W, BLOB, STRINGS, LITERAL("a@")));
    desk.strings[12] = 1;
    REFUSES(GEIROVUND_MISFIT, geirovund_finish(W, BLOB, STRINGS));
}

/* Phandles: each refusal, and the value that a refused call records. */
static void phandles(void)
{
    opened();
    same("phandle 7 before any node", GEIROVUND_PROPERTY_BEFORE_BEGIN_NODE,
         geirovund_property_phandle(W, BLOB, STRINGS, TABLE, 7));
    same("its place in the table", 7, desk.phandles[0]);
    untouched("phandle 7 before any node", 0);
    TAKES(geirovund_begin_node(W, BLOB, LITERAL(""), NODE));
    REFUSES(GEIROVUND_DUPLICATE_PHANDLE, geirovund_property_phandle(W, BLOB, STRINGS, TABLE, 7));
    REFUSES(GEIROVUND_MISFIT, geirovund_property_phandle(W, BLOB, STRINGS, desk.phandles, 3, 7));
    TAKES(geirovund_property_phandle(W, BLOB, STRINGS, TABLE, 8));
    same("a second phandle in a node", GEIROVUND_DUPLICATE_PROPERTY,
         geirovund_property_phandle(W, BLOB, STRINGS, TABLE, 9));
    TAKES(geirovund_begin_node(W, BLOB, LITERAL("a"), NODE));
    REFUSES(GEIROVUND_DUPLICATE_PHANDLE, geirovund_property_phandle(W, BLOB, STRINGS, TABLE, 9));
    TAKES(geirovund_property_phandle(W, BLOB, STRINGS, TABLE, 10));
    REFUSES(GEIROVUND_PHANDLE_ROOM, geirovund_property_phandle(W, BLOB, STRINGS, TABLE, 11));
}

/* Buffers longer than the ceilings, each with some more bytes after the ceiling. */
#define MORE 64
static uint8_t blob[GEIROVUND_BLOB_CEILING + MORE], strings[GEIROVUND_STRINGS_CEILING + MORE];
static uint32_t table[GEIROVUND_PHANDLES_CEILING + MORE];
#define LONG_BLOB blob, sizeof blob
#define LONG_STRINGS strings, sizeof strings
#define LONG_TABLE table, sizeof table / sizeof table[0]

/* A writer over the long buffers, with a node. */
static void opened_long(void)
{
    fresh();
    memset(blob, FILL, sizeof blob);
    memset(strings, FILL, sizeof strings);
    memset(table, FILL, sizeof table);
    TAKES(geirovund_new(W, LONG_BLOB, LONG_STRINGS, LONG_TABLE));
    TAKES(geirovund_begin_node(W, LONG_BLOB, LITERAL(""), NODE));
}

/* Nothing past a ceiling was written. */
static void past_ceilings(void)
{
    size_t i;

    for (i = 0; i < MORE; i++) {
        same("a byte past the blob's ceiling", FILL, blob[GEIROVUND_BLOB_CEILING + i]);
        same("a byte past the strings' ceiling", FILL, strings[GEIROVUND_STRINGS_CEILING + i]);
        same("an entry past the table's ceiling", FILL * 0x1010101u, table[GEIROVUND_PHANDLES_CEILING + i]);
    }
}

/* The ceilings of the blob and of the strings: exactly what fits, and one more. */
static void long_buffers(void)
{
    const size_t rest = GEIROVUND_BLOB_CEILING - 56 - 8 - 12;
    char name[32];
    unsigned i;

    opened_long();
    REFUSES(GEIROVUND_BLOB_ROOM, geirovund_property(W, LONG_BLOB, LONG_STRINGS, LITERAL("a"), zeros, rest + 1));
    TAKES(geirovund_property(W, LONG_BLOB, LONG_STRINGS, LITERAL("a"), zeros, rest));
    REFUSES(GEIROVUND_BLOB_ROOM, geirovund_end_node(W, LONG_BLOB, 1));
    past_ceilings();
    opened_long();
    for (i = 0; i < GEIROVUND_STRINGS_CEILING / 32; i++) {
        snprintf(name, sizeof name, "n%030u", i);
        TAKES(geirovund_property_null(W, LONG_BLOB, LONG_STRINGS, name, 31));
    }
    REFUSES(GEIROVUND_STRING_ROOM, geirovund_property_null(W, LONG_BLOB, LONG_STRINGS, LITERAL("a")));
    past_ceilings();
}

/* The ceilings of the table and of the depth. */
static void long_table(void)
{
    unsigned i;

    opened_long();
    for (i = 0; i < GEIROVUND_PHANDLES_CEILING; i++) {
        TAKES(geirovund_begin_node(W, LONG_BLOB, LITERAL("a"), NODE));
        TAKES(geirovund_property_phandle(W, LONG_BLOB, LONG_STRINGS, LONG_TABLE, i));
        TAKES(geirovund_end_node(W, LONG_BLOB, desk.node));
    }
    REFUSES(GEIROVUND_PHANDLE_ROOM, geirovund_property_phandle(W, LONG_BLOB, LONG_STRINGS, LONG_TABLE, i));
    past_ceilings();
    opened_long();
    for (i = 1; i < GEIROVUND_MAX_NODE_DEPTH; i++)
        TAKES(geirovund_begin_node(W, LONG_BLOB, LITERAL("a"), NODE));
    same("the deepest handle", 64, desk.node);
    REFUSES_BEGIN(GEIROVUND_NODE_DEPTH_TOO_LARGE, geirovund_begin_node(W, LONG_BLOB, LITERAL("a\0"), NODE));
}

int main(void)
{
    sizes();
    blobs();
    numbers();
    other_kinds();
    local_buffers();
    openings();
    nodes();
    properties();
    phandles();
    long_buffers();
    long_table();
    printf("%u checks, %u failed\n", checks, failures);
    return failures != 0;
}
