/*
 * geirovund.h - writes a devicetree blob (DTB) into memory that the caller lends
 *
 * Link with libgeirovund.a. Its functions are proved: for every argument that keeps the promises below they return,
 * and their answer and every byte that they write is determined. They use no heap and no global memory, and need
 * nothing of the C library except memcpy, memmove, memset, memcmp and bcmp. The archive is for x86-64, as rt is, which
 * proves and compiles them.
 *
 *     static uint8_t blob[4096], strings[512];
 *     static uint32_t phandles[16];
 *     struct geirovund_writer w = GEIROVUND_WRITER_INIT;
 *     size_t root;
 *
 *     geirovund_new(&w, blob, sizeof blob, strings, sizeof strings, phandles, 16);
 *     geirovund_begin_node(&w, blob, sizeof blob, "", 0, &root);
 *     geirovund_property_u32(&w, blob, sizeof blob, strings, sizeof strings, "reg", 3, 1);
 *     geirovund_end_node(&w, blob, sizeof blob, root);
 *     geirovund_finish(&w, blob, sizeof blob, strings, sizeof strings);
 *
 * The blob is then the first geirovund_show(&w, blob, sizeof blob) bytes of the buffer. Each call returns a number:
 * check that it is 0. examples/pond-station.c is a whole program.
 *
 * What the caller promises, for every call. Nothing tests it, and nothing is proved of a call that breaks a promise:
 *
 *  - The writer is initialised with GEIROVUND_WRITER_INIT before its first call, also if that call opens it.
 *  - Its fields node_ended and finished, which are true or false, are 0 or 1. They are if the writer was initialised
 *    and only these functions write to it. Memory that was not initialised may have another value there.
 *  - No pointer is NULL, also where the length is 0.
 *  - Each pointer is valid for the whole length beside it, and aligned for its type.
 *  - What a call may write (a parameter that is not const) overlaps with nothing else that it is passed.
 *  - Nothing else uses the memory during the call: no other thread, no interrupt and no device.
 *
 * Lend every call of a writer the same buffers, with the same lengths, as at its opening, and leave their bytes alone
 * until the blob is finished. If you do not, the call may be refused (17), or the blob is not what the calls describe;
 * it never reads or writes outside what is lent. The buffers need not be initialised.
 *
 * For boot code: the archive is compiled for programs under Linux, for x86-64-v2, which has SSE4.2. It uses vector
 * registers and unaligned access: enable both before the first call. It also uses the red zone: an interrupt must leave
 * the 128 bytes below the stack pointer alone. A call takes less than 1,500 bytes of stack, and what memset and the like
 * take (measured in the code, not proved).
 */
#ifndef GEIROVUND_H
#define GEIROVUND_H

#include <stddef.h>
#include <stdint.h>

/*
 * Tells GCC that a function uses the length of a buffer alone, so that it does not warn of one that is not initialised.
 * The parameters are counted from 1.
 */
#if defined(__GNUC__) && __GNUC__ >= 11 && !defined(__clang__)
#define GEIROVUND_ONLY_LENGTH(buffer, length) __attribute__((access(none, buffer, length)))
#else
#define GEIROVUND_ONLY_LENGTH(buffer, length)
#endif

#ifdef __cplusplus
extern "C" {
#endif

/*
 * Ceilings. The usable length of a buffer is its length, or its ceiling if that is less. Nothing past it is read or
 * written.
 */
#define GEIROVUND_BLOB_CEILING 65536    /* bytes */
#define GEIROVUND_STRINGS_CEILING 8192  /* bytes: each property name once, with a 0 */
#define GEIROVUND_PHANDLES_CEILING 256  /* entries */
#define GEIROVUND_MAX_RESERVATIONS 64
#define GEIROVUND_MAX_NODE_DEPTH 64

/*
 * What a call returns: 0 if it is accepted, or why it is refused. A call is refused with the first number, in the
 * order that its comment lists them, whose cause holds, and it is accepted if none does.
 *
 * A refused call changes nothing, with these exceptions: a refused opening closes the writer, a refused begin sets the
 * node to 0, and a refused geirovund_property_phandle may have recorded its value.
 */
enum geirovund_answer {
    GEIROVUND_ACCEPTED = 0,
    /* no node is open, and none was ended last */
    GEIROVUND_PROPERTY_BEFORE_BEGIN_NODE = 1,
    /* a node was ended last: a node's properties come before its children */
    GEIROVUND_PROPERTY_AFTER_END_NODE = 2,
    /* never returned under these ceilings; the number is kept */
    GEIROVUND_PROPERTY_VALUE_TOO_LARGE = 3,
    /* never returned under these ceilings; the number is kept */
    GEIROVUND_TOTAL_SIZE_TOO_LARGE = 4,
    /* a byte 0 in a name, or in a string value */
    GEIROVUND_INVALID_STRING = 5,
    /* the handle differs from the number of open nodes, or none is open */
    GEIROVUND_OUT_OF_ORDER_END_NODE = 6,
    /* a node is still open */
    GEIROVUND_UNCLOSED_NODE = 7,
    /* a reservation of size 0, or one whose address + size is 2^64 or more */
    GEIROVUND_INVALID_MEMORY_RESERVATION = 8,
    /* some address lies in two reservations */
    GEIROVUND_OVERLAPPING_MEMORY_RESERVATIONS = 9,
    /*
     * Not a node name. A node name is empty, or a letter, at most 30 of A-Z a-z 0-9 , . _ + - and optionally one @ with
     * any number of these.
     */
    GEIROVUND_INVALID_NODE_NAME = 10,
    /* not a property name: 1 to 31 of A-Z a-z 0-9 , . _ + ? # - */
    GEIROVUND_INVALID_PROPERTY_NAME = 11,
    /* 64 nodes are open */
    GEIROVUND_NODE_DEPTH_TOO_LARGE = 12,
    /* the table of phandles already has the value */
    GEIROVUND_DUPLICATE_PHANDLE = 13,
    /* no room in the blob: lend a longer buffer, up to the ceiling */
    GEIROVUND_BLOB_ROOM = 14,
    /* no room for a new property name and its 0: lend a longer strings buffer, up to the ceiling */
    GEIROVUND_STRING_ROOM = 15,
    /* no room for another phandle: lend a longer table, up to the ceiling */
    GEIROVUND_PHANDLE_ROOM = 16,
    /*
     * The writer does not fit what is lent to the call: a usable length differs from that at opening; more is used than
     * there is; the end of the used blob, or the start of the open node's properties, is not a multiple of 4 or is
     * before the structure, or that start is past that end; the used strings do not end with a 0; or the writer counts
     * more than 64 open nodes or reservations. None of this happens if every call is lent the same buffers, and only
     * these functions write to them and to the writer.
     * Or numbers that are passed do not add up: an odd count of reservation numbers, or lengths of a string list that
     * do not sum to its bytes.
     */
    GEIROVUND_MISFIT = 17,
    /* the blob is finished, or the writer is closed: it was not opened, or its opening was refused */
    GEIROVUND_FINISHED = 18,
    /* more than 64 reservations */
    GEIROVUND_TOO_MANY_RESERVATIONS = 19,
    /* the open node already has a property of this name */
    GEIROVUND_DUPLICATE_PROPERTY = 20
};

/*
 * A writer. The fields are here so that you can allocate it. Do not read or set them: the next release may add one.
 * A copy of a writer is a writer of its own, but both write to the same buffers.
 */
struct geirovund_writer {
    size_t blob_room;
    size_t blob_used;
    size_t strings_room;
    size_t strings_used;
    size_t phandles_room;
    size_t phandles_used;
    size_t reservations;
    size_t node_depth;
    size_t node_start;
    uint32_t boot_cpuid_phys;
    uint8_t node_ended;
    uint8_t finished;
};

/* A closed writer: geirovund_show returns 0 for it, and every call that does not open it is refused 18. */
#define GEIROVUND_WRITER_INIT {0, 0, 0, 0, 0, 0, 0, 0, 0, 0, 0, 1}

/* The archive is for 64-bit processors, on which a writer has 80 bytes. */
#if defined(__cplusplus) && __cplusplus >= 201103L
static_assert(sizeof(struct geirovund_writer) == 80, "geirovund.h is for 64-bit processors");
#elif defined(__STDC_VERSION__) && __STDC_VERSION__ >= 201112L
_Static_assert(sizeof(struct geirovund_writer) == 80, "geirovund.h is for 64-bit processors");
#endif

/**
 * geirovund_writer_size - returns the size in bytes that a writer has in the archive
 *
 * If it is not sizeof(struct geirovund_writer), header and archive are not of the same release. If it is, they may
 * still not be: a field that fits into the padding keeps the size. Take both files from the same release.
 */
size_t geirovund_writer_size(void);

/**
 * geirovund_writer_fits - returns whether header and archive agree on the size of a writer (1 or 0)
 *
 * Ask once, before the first call. If it returns 0, make no other call: the files are not of the same release. Like
 * geirovund_writer_size, it does not notice a field that fits into the padding.
 */
static inline int geirovund_writer_fits(void)
{
    return geirovund_writer_size() == sizeof(struct geirovund_writer);
}

/**
 * geirovund_new - opens a writer, with no memory reservations
 * @w: the writer; it may be in use, and is then opened anew
 * @blob: buffer that the blob is built in
 * @blob_length: its bytes
 * @strings: buffer for the names of properties; only its length is used here
 * @strings_length: its bytes
 * @phandles: table for the values of geirovund_property_phandle; only its length is used here
 * @phandles_length: its entries
 *
 * Takes 56 bytes of the blob. A refused opening closes the writer and writes nothing else.
 *
 * returns: 0, or
 *     14, GEIROVUND_BLOB_ROOM, the blob has fewer than 56 bytes
 */
uint32_t geirovund_new(struct geirovund_writer *w, uint8_t *blob, size_t blob_length,
                       const uint8_t *strings, size_t strings_length,
                       const uint32_t *phandles, size_t phandles_length)
    GEIROVUND_ONLY_LENGTH(4, 5) GEIROVUND_ONLY_LENGTH(6, 7);

/**
 * geirovund_new_with_mem_reserv - opens a writer, with memory reservations
 * @w: the writer; it may be in use, and is then opened anew
 * @blob: buffer that the blob is built in
 * @blob_length: its bytes
 * @strings: buffer for the names of properties; only its length is used here
 * @strings_length: its bytes
 * @phandles: table for the values of geirovund_property_phandle; only its length is used here
 * @phandles_length: its entries
 * @mem_reservations: address, size, address, size and so on; they are written in this order
 * @mem_reservations_length: how many numbers these are, two for each reservation
 *
 * Takes 56 bytes of the blob, and 16 for each reservation. A refused opening closes the writer and writes nothing
 * else.
 *
 * returns: 0, or the first of
 *     17, GEIROVUND_MISFIT, the count of numbers is odd
 *     19, GEIROVUND_TOO_MANY_RESERVATIONS, there are more than 64 reservations
 *     8, GEIROVUND_INVALID_MEMORY_RESERVATION, a size is 0, or an address + size is 2^64 or more
 *     9, GEIROVUND_OVERLAPPING_MEMORY_RESERVATIONS, some address lies in two reservations
 *     14, GEIROVUND_BLOB_ROOM, the blob has no room
 */
uint32_t geirovund_new_with_mem_reserv(struct geirovund_writer *w, uint8_t *blob, size_t blob_length,
                                       const uint8_t *strings, size_t strings_length,
                                       const uint32_t *phandles, size_t phandles_length,
                                       const uint64_t *mem_reservations, size_t mem_reservations_length)
    GEIROVUND_ONLY_LENGTH(4, 5) GEIROVUND_ONLY_LENGTH(6, 7);

/**
 * geirovund_set_boot_cpuid_phys - sets the boot processor's number in the header
 * @w: the writer
 * @boot_cpuid_phys: the number; without this call it is 0
 *
 * returns: 0, or the first of
 *     18, GEIROVUND_FINISHED, the blob is finished, or the writer is closed
 *     17, GEIROVUND_MISFIT, the writer counts more than 64 open nodes or reservations
 */
uint32_t geirovund_set_boot_cpuid_phys(struct geirovund_writer *w, uint32_t boot_cpuid_phys);

/**
 * geirovund_begin_node - begins a node inside the open one, or a top node if none is open
 * @w: the writer
 * @blob: the blob of the opening
 * @blob_length: its bytes
 * @name: the node's name, such as serial@10000000; the name of a tree's root is empty
 * @name_length: its bytes, without a 0 at its end
 * @node: set to the node's handle for geirovund_end_node; set to 0, which is never a handle, if the call is refused
 *
 * Takes 4 bytes of the blob, and those of the name and a 0, rounded up to a multiple of 4.
 *
 * returns: 0, or the first of
 *     18, GEIROVUND_FINISHED, the blob is finished, or the writer is closed
 *     17, GEIROVUND_MISFIT, the writer does not fit the blob
 *     12, GEIROVUND_NODE_DEPTH_TOO_LARGE, 64 nodes are open
 *     5, GEIROVUND_INVALID_STRING, the name has a byte 0
 *     10, GEIROVUND_INVALID_NODE_NAME, it is not a node name
 *     14, GEIROVUND_BLOB_ROOM, the blob has no room
 */
uint32_t geirovund_begin_node(struct geirovund_writer *w, uint8_t *blob, size_t blob_length,
                              const char *name, size_t name_length, size_t *node);

/**
 * geirovund_end_node - ends the open node
 * @w: the writer
 * @blob: the blob of the opening
 * @blob_length: its bytes
 * @node: the handle that geirovund_begin_node gave for this node
 *
 * A handle is the number of open nodes just after its node began, and only this is tested. So it can be copied, and the
 * handle of an ended node is accepted for an open one at the same depth. Takes 4 bytes of the blob.
 *
 * returns: 0, or the first of
 *     18, GEIROVUND_FINISHED, the blob is finished, or the writer is closed
 *     17, GEIROVUND_MISFIT, the writer does not fit the blob
 *     6, GEIROVUND_OUT_OF_ORDER_END_NODE, the handle differs from the number of open nodes, or none is open
 *     14, GEIROVUND_BLOB_ROOM, the blob has no room
 */
uint32_t geirovund_end_node(struct geirovund_writer *w, uint8_t *blob, size_t blob_length, size_t node);

/**
 * geirovund_property - writes a property of the open node, with a value of any bytes
 * @w: the writer
 * @blob: the blob of the opening
 * @blob_length: its bytes
 * @strings: the strings of the opening
 * @strings_length: their bytes
 * @name: the property's name
 * @name_length: its bytes, without a 0 at its end
 * @val: the value
 * @val_length: its bytes
 *
 * Takes 12 bytes of the blob, and those of the value, rounded up to a multiple of 4. A new name also takes its bytes
 * and a 0 of the strings, and as many of the blob at finish. This holds for every kind of property.
 *
 * returns: 0, or the first of
 *     18, GEIROVUND_FINISHED, the blob is finished, or the writer is closed
 *     17, GEIROVUND_MISFIT, the writer does not fit the blob or the strings
 *     2, GEIROVUND_PROPERTY_AFTER_END_NODE, a node was ended last
 *     1, GEIROVUND_PROPERTY_BEFORE_BEGIN_NODE, no node is open
 *     5, GEIROVUND_INVALID_STRING, the name has a byte 0
 *     11, GEIROVUND_INVALID_PROPERTY_NAME, it is not a property name
 *     20, GEIROVUND_DUPLICATE_PROPERTY, the open node already has a property of this name
 *     15, GEIROVUND_STRING_ROOM, the name is new, and the strings have no room for it
 *     14, GEIROVUND_BLOB_ROOM, the blob has no room
 */
uint32_t geirovund_property(struct geirovund_writer *w, uint8_t *blob, size_t blob_length,
                            uint8_t *strings, size_t strings_length,
                            const char *name, size_t name_length, const void *val, size_t val_length);

/**
 * geirovund_property_null - writes a property with an empty value
 * @w: the writer
 * @blob: the blob of the opening
 * @blob_length: its bytes
 * @strings: the strings of the opening
 * @strings_length: their bytes
 * @name: the property's name
 * @name_length: its bytes, without a 0 at its end
 *
 * returns: 0, or the first of
 *     18, GEIROVUND_FINISHED, the blob is finished, or the writer is closed
 *     17, GEIROVUND_MISFIT, the writer does not fit the blob or the strings
 *     2, GEIROVUND_PROPERTY_AFTER_END_NODE, a node was ended last
 *     1, GEIROVUND_PROPERTY_BEFORE_BEGIN_NODE, no node is open
 *     5, GEIROVUND_INVALID_STRING, the name has a byte 0
 *     11, GEIROVUND_INVALID_PROPERTY_NAME, it is not a property name
 *     20, GEIROVUND_DUPLICATE_PROPERTY, the open node already has a property of this name
 *     15, GEIROVUND_STRING_ROOM, the name is new, and the strings have no room for it
 *     14, GEIROVUND_BLOB_ROOM, the blob has no room
 */
uint32_t geirovund_property_null(struct geirovund_writer *w, uint8_t *blob, size_t blob_length,
                                 uint8_t *strings, size_t strings_length, const char *name, size_t name_length);

/**
 * geirovund_property_string - writes a property whose value is one string and a 0
 * @w: the writer
 * @blob: the blob of the opening
 * @blob_length: its bytes
 * @strings: the strings of the opening
 * @strings_length: their bytes
 * @name: the property's name
 * @name_length: its bytes, without a 0 at its end
 * @val: the string
 * @val_length: its bytes, without a 0 at its end
 *
 * returns: 0, or the first of
 *     18, GEIROVUND_FINISHED, the blob is finished, or the writer is closed
 *     17, GEIROVUND_MISFIT, the writer does not fit the blob or the strings
 *     5, GEIROVUND_INVALID_STRING, the string has a byte 0
 *     2, GEIROVUND_PROPERTY_AFTER_END_NODE, a node was ended last
 *     1, GEIROVUND_PROPERTY_BEFORE_BEGIN_NODE, no node is open
 *     5, GEIROVUND_INVALID_STRING, the name has a byte 0
 *     11, GEIROVUND_INVALID_PROPERTY_NAME, it is not a property name
 *     20, GEIROVUND_DUPLICATE_PROPERTY, the open node already has a property of this name
 *     15, GEIROVUND_STRING_ROOM, the name is new, and the strings have no room for it
 *     14, GEIROVUND_BLOB_ROOM, the blob has no room
 */
uint32_t geirovund_property_string(struct geirovund_writer *w, uint8_t *blob, size_t blob_length,
                                   uint8_t *strings, size_t strings_length,
                                   const char *name, size_t name_length, const char *val, size_t val_length);

/**
 * geirovund_property_string_list - writes a property whose value is a list of strings, each with a 0
 * @w: the writer
 * @blob: the blob of the opening
 * @blob_length: its bytes
 * @strings: the strings of the opening
 * @strings_length: their bytes
 * @name: the property's name
 * @name_length: its bytes, without a 0 at its end
 * @values: the strings of the list, one right after the other, without a 0 between them
 * @values_length: their bytes together
 * @lengths: the bytes of each string, in the same order
 * @lengths_length: how many strings there are
 *
 * returns: 0, or the first of
 *     18, GEIROVUND_FINISHED, the blob is finished, or the writer is closed
 *     17, GEIROVUND_MISFIT, the writer does not fit the blob or the strings, or lengths do not sum to values_length
 *     5, GEIROVUND_INVALID_STRING, a string of the list has a byte 0
 *     2, GEIROVUND_PROPERTY_AFTER_END_NODE, a node was ended last
 *     1, GEIROVUND_PROPERTY_BEFORE_BEGIN_NODE, no node is open
 *     5, GEIROVUND_INVALID_STRING, the name has a byte 0
 *     11, GEIROVUND_INVALID_PROPERTY_NAME, it is not a property name
 *     20, GEIROVUND_DUPLICATE_PROPERTY, the open node already has a property of this name
 *     15, GEIROVUND_STRING_ROOM, the name is new, and the strings have no room for it
 *     14, GEIROVUND_BLOB_ROOM, the blob has no room
 */
uint32_t geirovund_property_string_list(struct geirovund_writer *w, uint8_t *blob, size_t blob_length,
                                        uint8_t *strings, size_t strings_length,
                                        const char *name, size_t name_length,
                                        const char *values, size_t values_length,
                                        const size_t *lengths, size_t lengths_length);

/**
 * geirovund_property_u32 - writes a property whose value is one number of 4 bytes
 * @w: the writer
 * @blob: the blob of the opening
 * @blob_length: its bytes
 * @strings: the strings of the opening
 * @strings_length: their bytes
 * @name: the property's name
 * @name_length: its bytes, without a 0 at its end
 * @val: the number; it is written big-endian
 *
 * returns: 0, or the first of
 *     18, GEIROVUND_FINISHED, the blob is finished, or the writer is closed
 *     17, GEIROVUND_MISFIT, the writer does not fit the blob or the strings
 *     2, GEIROVUND_PROPERTY_AFTER_END_NODE, a node was ended last
 *     1, GEIROVUND_PROPERTY_BEFORE_BEGIN_NODE, no node is open
 *     5, GEIROVUND_INVALID_STRING, the name has a byte 0
 *     11, GEIROVUND_INVALID_PROPERTY_NAME, it is not a property name
 *     20, GEIROVUND_DUPLICATE_PROPERTY, the open node already has a property of this name
 *     15, GEIROVUND_STRING_ROOM, the name is new, and the strings have no room for it
 *     14, GEIROVUND_BLOB_ROOM, the blob has no room
 */
uint32_t geirovund_property_u32(struct geirovund_writer *w, uint8_t *blob, size_t blob_length,
                                uint8_t *strings, size_t strings_length,
                                const char *name, size_t name_length, uint32_t val);

/**
 * geirovund_property_u64 - writes a property whose value is one number of 8 bytes
 * @w: the writer
 * @blob: the blob of the opening
 * @blob_length: its bytes
 * @strings: the strings of the opening
 * @strings_length: their bytes
 * @name: the property's name
 * @name_length: its bytes, without a 0 at its end
 * @val: the number; it is written big-endian
 *
 * returns: 0, or the first of
 *     18, GEIROVUND_FINISHED, the blob is finished, or the writer is closed
 *     17, GEIROVUND_MISFIT, the writer does not fit the blob or the strings
 *     2, GEIROVUND_PROPERTY_AFTER_END_NODE, a node was ended last
 *     1, GEIROVUND_PROPERTY_BEFORE_BEGIN_NODE, no node is open
 *     5, GEIROVUND_INVALID_STRING, the name has a byte 0
 *     11, GEIROVUND_INVALID_PROPERTY_NAME, it is not a property name
 *     20, GEIROVUND_DUPLICATE_PROPERTY, the open node already has a property of this name
 *     15, GEIROVUND_STRING_ROOM, the name is new, and the strings have no room for it
 *     14, GEIROVUND_BLOB_ROOM, the blob has no room
 */
uint32_t geirovund_property_u64(struct geirovund_writer *w, uint8_t *blob, size_t blob_length,
                                uint8_t *strings, size_t strings_length,
                                const char *name, size_t name_length, uint64_t val);

/**
 * geirovund_property_array_u32 - writes a property whose value is a list of numbers of 4 bytes each
 * @w: the writer
 * @blob: the blob of the opening
 * @blob_length: its bytes
 * @strings: the strings of the opening
 * @strings_length: their bytes
 * @name: the property's name
 * @name_length: its bytes, without a 0 at its end
 * @numbers: the numbers; they are written big-endian
 * @numbers_length: how many there are
 *
 * returns: 0, or the first of
 *     18, GEIROVUND_FINISHED, the blob is finished, or the writer is closed
 *     17, GEIROVUND_MISFIT, the writer does not fit the blob or the strings
 *     2, GEIROVUND_PROPERTY_AFTER_END_NODE, a node was ended last
 *     1, GEIROVUND_PROPERTY_BEFORE_BEGIN_NODE, no node is open
 *     5, GEIROVUND_INVALID_STRING, the name has a byte 0
 *     11, GEIROVUND_INVALID_PROPERTY_NAME, it is not a property name
 *     20, GEIROVUND_DUPLICATE_PROPERTY, the open node already has a property of this name
 *     15, GEIROVUND_STRING_ROOM, the name is new, and the strings have no room for it
 *     14, GEIROVUND_BLOB_ROOM, the blob has no room
 */
uint32_t geirovund_property_array_u32(struct geirovund_writer *w, uint8_t *blob, size_t blob_length,
                                      uint8_t *strings, size_t strings_length,
                                      const char *name, size_t name_length,
                                      const uint32_t *numbers, size_t numbers_length);

/**
 * geirovund_property_array_u64 - writes a property whose value is a list of numbers of 8 bytes each
 * @w: the writer
 * @blob: the blob of the opening
 * @blob_length: its bytes
 * @strings: the strings of the opening
 * @strings_length: their bytes
 * @name: the property's name
 * @name_length: its bytes, without a 0 at its end
 * @numbers: the numbers; they are written big-endian
 * @numbers_length: how many there are
 *
 * returns: 0, or the first of
 *     18, GEIROVUND_FINISHED, the blob is finished, or the writer is closed
 *     17, GEIROVUND_MISFIT, the writer does not fit the blob or the strings
 *     2, GEIROVUND_PROPERTY_AFTER_END_NODE, a node was ended last
 *     1, GEIROVUND_PROPERTY_BEFORE_BEGIN_NODE, no node is open
 *     5, GEIROVUND_INVALID_STRING, the name has a byte 0
 *     11, GEIROVUND_INVALID_PROPERTY_NAME, it is not a property name
 *     20, GEIROVUND_DUPLICATE_PROPERTY, the open node already has a property of this name
 *     15, GEIROVUND_STRING_ROOM, the name is new, and the strings have no room for it
 *     14, GEIROVUND_BLOB_ROOM, the blob has no room
 */
uint32_t geirovund_property_array_u64(struct geirovund_writer *w, uint8_t *blob, size_t blob_length,
                                      uint8_t *strings, size_t strings_length,
                                      const char *name, size_t name_length,
                                      const uint64_t *numbers, size_t numbers_length);

/**
 * geirovund_property_phandle - writes the phandle of the open node: a property named phandle, of one number of 4 bytes
 * @w: the writer
 * @blob: the blob of the opening
 * @blob_length: its bytes
 * @strings: the strings of the opening
 * @strings_length: their bytes
 * @phandles: the table of the opening
 * @phandles_length: its entries
 * @val: the number, which no other node may have
 *
 * The value is recorded after the tests 18, 17, 13 and 16, and before the other tests. If one of those refuses the
 * property, the writer and the table have changed: the value stays recorded, and to use it again is refused 13.
 *
 * returns: 0, or the first of
 *     18, GEIROVUND_FINISHED, the blob is finished, or the writer is closed
 *     17, GEIROVUND_MISFIT, the writer does not fit the blob, the strings or the table
 *     13, GEIROVUND_DUPLICATE_PHANDLE, the table already has the value
 *     16, GEIROVUND_PHANDLE_ROOM, the table is full
 *     2, GEIROVUND_PROPERTY_AFTER_END_NODE, a node was ended last
 *     1, GEIROVUND_PROPERTY_BEFORE_BEGIN_NODE, no node is open
 *     20, GEIROVUND_DUPLICATE_PROPERTY, the open node already has a phandle
 *     15, GEIROVUND_STRING_ROOM, the name phandle is new, and the strings have no room for it
 *     14, GEIROVUND_BLOB_ROOM, the blob has no room
 */
uint32_t geirovund_property_phandle(struct geirovund_writer *w, uint8_t *blob, size_t blob_length,
                                    uint8_t *strings, size_t strings_length,
                                    uint32_t *phandles, size_t phandles_length, uint32_t val);

/**
 * geirovund_finish - writes the end, the names of properties and the header: the blob is complete
 * @w: the writer
 * @blob: the blob of the opening
 * @blob_length: its bytes
 * @strings: the strings of the opening
 * @strings_length: their bytes
 *
 * Takes 4 bytes of the blob, and those of the used strings. After this only a call that opens the writer is accepted.
 *
 * returns: 0, or the first of
 *     18, GEIROVUND_FINISHED, the blob is finished, or the writer is closed
 *     17, GEIROVUND_MISFIT, the writer does not fit the blob or the strings
 *     7, GEIROVUND_UNCLOSED_NODE, a node is open
 *     14, GEIROVUND_BLOB_ROOM, the blob has no room
 */
uint32_t geirovund_finish(struct geirovund_writer *w, uint8_t *blob, size_t blob_length,
                          const uint8_t *strings, size_t strings_length);

/**
 * geirovund_show - returns the length of the finished blob, which is the front of the buffer
 * @w: the writer
 * @blob: the blob of the opening
 * @blob_length: its bytes
 *
 * It is never refused. It returns 0 if the blob is not finished, the usable length differs from that at opening, or
 * more is used than the usable length.
 */
size_t geirovund_show(const struct geirovund_writer *w, const uint8_t *blob, size_t blob_length);

#ifdef __cplusplus
}
#endif

#endif /* GEIROVUND_H */
