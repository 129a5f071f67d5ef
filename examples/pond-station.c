/*
 * Writes the blob of examples/pond-station.calls, through geirovund.h:
 *
 *     make archive
 *     cc -Ibuild -o build/pond-station examples/pond-station.c build/libgeirovund.a
 *     build/pond-station build/pond-station.dtb
 */
#include <errno.h>
#include <stdio.h>
#include <stdlib.h>
#include <string.h>

#include "geirovund.h"

/* The writer, and what it is lent. */
static struct geirovund_writer w = GEIROVUND_WRITER_INIT;
static uint8_t blob[4096], strings[512];
static uint32_t phandles[16];

/* Two arguments from one: a pointer and its length. */
#define ARRAY(array) (array), sizeof(array) / sizeof((array)[0])
#define TEXT(text) (text), strlen(text)
#define LIST(type, ...) (type[]){__VA_ARGS__}, sizeof((type[]){__VA_ARGS__}) / sizeof(type)

/* Ends the program with one line if a call is refused. */
static void check(const char *call, const char *name, uint32_t answer)
{
    if (answer == GEIROVUND_ACCEPTED)
        return;
    fprintf(stderr, "pond-station: %s \"%s\" refused %u: geirovund.h says why\n", call, name, (unsigned)answer);
    exit(1);
}

/* Begins a node. */
static size_t begin(const char *name)
{
    size_t node;

    check("node", name, geirovund_begin_node(&w, ARRAY(blob), TEXT(name), &node));
    return node;
}

/* Ends a node. */
static void end(size_t node)
{
    check("end of node", "", geirovund_end_node(&w, ARRAY(blob), node));
}

/* A property of one string. */
static void string(const char *name, const char *val)
{
    check("property", name, geirovund_property_string(&w, ARRAY(blob), ARRAY(strings), TEXT(name), TEXT(val)));
}

/* A property of two strings. The writer takes them joined, with their lengths. */
static void two_strings(const char *name, const char *first, const char *second)
{
    const size_t lengths[] = {strlen(first), strlen(second)};
    char joined[128];

    if (lengths[0] + lengths[1] >= sizeof joined) {
        fprintf(stderr, "pond-station: property \"%s\" is too long: make the array longer\n", name);
        exit(1);
    }
    strcat(strcpy(joined, first), second);
    check("property", name, geirovund_property_string_list(&w, ARRAY(blob), ARRAY(strings), TEXT(name), TEXT(joined),
                                                           ARRAY(lengths)));
}

/* A property of numbers of 4 bytes. */
static void u32(const char *name, const uint32_t *numbers, size_t count)
{
    check("property", name, geirovund_property_array_u32(&w, ARRAY(blob), ARRAY(strings), TEXT(name), numbers, count));
}

/* A property of one number of 8 bytes. */
static void u64(const char *name, uint64_t val)
{
    check("property", name, geirovund_property_u64(&w, ARRAY(blob), ARRAY(strings), TEXT(name), val));
}

/* A property of bytes. */
static void bytes(const char *name, const uint8_t *val, size_t count)
{
    check("property", name, geirovund_property(&w, ARRAY(blob), ARRAY(strings), TEXT(name), val, count));
}

/* An empty property. */
static void null(const char *name)
{
    check("property", name, geirovund_property_null(&w, ARRAY(blob), ARRAY(strings), TEXT(name)));
}

/* The node's phandle. */
static void phandle(uint32_t val)
{
    check("property", "phandle", geirovund_property_phandle(&w, ARRAY(blob), ARRAY(strings), ARRAY(phandles), val));
}

/* The clock. */
static void clock_node(void)
{
    size_t node = begin("clock@10001000");

    phandle(1);
    string("compatible", "geirovund,clock");
    u32("reg", LIST(uint32_t, 0x10001000, 0x100));
    u32("utc-offset", LIST(uint32_t, 60)); /* minutes that local time is ahead of UTC */
    end(node);
}

/* The console. */
static void serial(void)
{
    size_t node = begin("serial@10000000");

    two_strings("compatible", "ns16550a", "ns16550");
    u32("reg", LIST(uint32_t, 0x10000000, 0x100));
    u64("clock-frequency", 3686400);
    null("wakeup-source");
    end(node);
}

/* The evaporation pan. */
static void pan(void)
{
    size_t node = begin("evaporation-pan@20");

    string("compatible", "geirovund,evaporation-pan");
    u32("reg", LIST(uint32_t, 0x20));
    u32("clock", LIST(uint32_t, 1)); /* the phandle of the clock */
    bytes("serial-number", LIST(uint8_t, 0x47, 0x52, 0x56, 0x00, 0x14, 0x07));
    end(node);
}

/* The bus with the sensors. */
static void board_bus(void)
{
    size_t sensor, bus = begin("i2c@10002000");

    string("compatible", "geirovund,board-bus");
    u32("reg", LIST(uint32_t, 0x10002000, 0x100));
    u32("#address-cells", LIST(uint32_t, 1));
    u32("#size-cells", LIST(uint32_t, 0));
    pan();
    sensor = begin("water-level@21");
    string("compatible", "geirovund,water-level");
    u32("reg", LIST(uint32_t, 0x21));
    u32("range-mm", LIST(uint32_t, 0, 2500));
    end(sensor);
    sensor = begin("temperature@22");
    two_strings("compatible", "geirovund,temperature-2", "geirovund,temperature");
    u32("reg", LIST(uint32_t, 0x22));
    two_strings("places", "air", "water");
    end(sensor);
    end(bus);
}

/* The root, with all that is in it. */
static void root(void)
{
    size_t node, top = begin("");

    string("compatible", "geirovund,pond-station");
    string("model", "Pond station 14, north basin");
    u32("#address-cells", LIST(uint32_t, 1));
    u32("#size-cells", LIST(uint32_t, 1));
    node = begin("chosen");
    string("bootargs", "console=ttyS0,115200");
    string("stdout-path", "/serial@10000000");
    end(node);
    node = begin("memory@80000000");
    string("device_type", "memory");
    u32("reg", LIST(uint32_t, 0x80000000, 0x4000000));
    end(node);
    clock_node();
    serial();
    board_bus();
    end(top);
}

/* Builds the whole blob, and returns its length. */
static size_t build(void)
{
    /* Address and size: the watchdog's page, and the store of last season's readings. */
    static const uint64_t reserved[] = {0x80000000, 0x1000, 0x83f00000, 0x100000};

    if (!geirovund_writer_fits()) {
        fprintf(stderr, "pond-station: geirovund.h and libgeirovund.a are not of the same release\n");
        exit(1);
    }
    check("opening", "", geirovund_new_with_mem_reserv(&w, ARRAY(blob), ARRAY(strings), ARRAY(phandles),
                                                       ARRAY(reserved)));
    check("boot number", "0", geirovund_set_boot_cpuid_phys(&w, 0));
    root();
    check("finish", "", geirovund_finish(&w, ARRAY(blob), ARRAY(strings)));
    return geirovund_show(&w, ARRAY(blob));
}

/*
 * Writes the blob to NAME.new and renames that, so that the file is whole or as it was. Returns 0, or the errno of the
 * first failure.
 */
static int save(const char *name, size_t length)
{
    char beside[4096];
    FILE *file;
    int error = 0;

    if ((size_t)snprintf(beside, sizeof beside, "%s.new", name) >= sizeof beside)
        return ENAMETOOLONG;
    file = fopen(beside, "wb");
    if (file == NULL)
        return errno;
    if (fwrite(blob, 1, length, file) != length)
        error = errno;
    if (fclose(file) != 0 && error == 0)
        error = errno;
    if (error == 0 && rename(beside, name) != 0)
        error = errno;
    if (error != 0)
        remove(beside);
    return error;
}

int main(int argc, char **argv)
{
    static const char usage[] = "usage: pond-station FILE\n\nWrites the devicetree blob of a pond station to FILE.";
    int error;

    if (argc == 2 && (strcmp(argv[1], "-h") == 0 || strcmp(argv[1], "--help") == 0)) {
        puts(usage);
        return 0;
    }
    if (argc != 2 || argv[1][0] == '-' || argv[1][0] == '\0') {
        fprintf(stderr, "pond-station: %.*s\n", (int)strcspn(usage, "\n"), usage);
        return 2;
    }
    error = save(argv[1], build());
    if (error == 0)
        return 0;
    fprintf(stderr, "pond-station: %s cannot be written: %s\n", argv[1], strerror(error));
    return 1;
}
