/*
 * A device's driver copies bytes of its zone, wherever they lie. It asks once for each region that they go through, copies as many as
 * remain there, and asks again at the end: never a byte too many. It prints a line for each region, then the bytes:
 *
 *     ADDRESS: COUNT bytes from PHYSICAL
 *
 * usage: copy_stretch ADDRESS COUNT
 *
 * Its terminal has zone 5 with two regions, whose guest addresses adjoin and whose physical ones do not. At 0x40001ffc the zone left ten
 * bytes that lie in both.
 *
 * Exit status: 0 the bytes were copied, 1 some of them are not the zone's, 2 bad usage.
 */
#include <inttypes.h>
#include <stdio.h>
#include <stdlib.h>
#include <string.h>

#include "peatmitten.h"

enum { ZONE = 5, PAGE = 4096, MEMORY = 3 * PAGE, RIGHTS = PEATMITTEN_READ | PEATMITTEN_WRITE };

#define MEMORY_START UINT64_C(0x80000000)

/* The second region lies before the first, and the first ends where the memory does. */
static const uint64_t gic[] = {0x08000000, 0x08000000, 0x10000, RIGHTS};
static const uint64_t first[] = {0x40000000, MEMORY_START + PAGE, 2 * PAGE, RIGHTS};
static const uint64_t second[] = {0x40000000 + 2 * PAGE, MEMORY_START, PAGE, RIGHTS};

static peatmitten_state terminal;
static uint8_t memory[MEMORY];

static void ask(uint32_t kind, const uint64_t region[PEATMITTEN_REGION_WORDS])
{
    uint32_t number = peatmitten_request(terminal.config, terminal.table, kind, ZONE, region[0], region[1], region[2], region[3]);

    if (number != PEATMITTEN_ACCEPTED) {
        fprintf(stderr, "copy_stretch: request %" PRIu32 " is refused with %" PRIu32 "\n", kind, number);
        exit(1);
    }
}

static void set_up(void)
{
    static const uint64_t none[PEATMITTEN_REGION_WORDS];
    uint64_t *regions = terminal.config + PEATMITTEN_CONFIG_REGIONS;

    terminal.config[PEATMITTEN_CONFIG_COUNT] = 3;
    memcpy(regions, gic, sizeof gic);
    memcpy(regions + PEATMITTEN_REGION_WORDS, first, sizeof first);
    memcpy(regions + 2 * PEATMITTEN_REGION_WORDS, second, sizeof second);
    ask(PEATMITTEN_ADD_ZONE, none);
    ask(PEATMITTEN_IOMMU_INSERT, first);
    ask(PEATMITTEN_IOMMU_INSERT, second);
    memset(memory, '.', sizeof memory);
    memcpy(memory + MEMORY - 4, "Peat", 4);
    memcpy(memory, "mitten", 6);
}

/* Copies `count` bytes that the zone's devices have from `address` on. Answers 0, or the number by which some of them are refused. */
static uint32_t copy(uint8_t *to, uint64_t address, uint64_t count)
{
    while (count > 0) {
        peatmitten_translated found = peatmitten_translate(terminal.config, terminal.table, ZONE, PEATMITTEN_IOMMU, address);
        uint64_t here;

        if (found.number != PEATMITTEN_ACCEPTED)
            return found.number;
        here = count < found.remaining ? count : found.remaining;
        printf("0x%" PRIx64 ": %" PRIu64 " bytes from 0x%" PRIx64 "\n", address, here, found.physical);
        memcpy(to, memory + (found.physical - MEMORY_START), (size_t)here);
        to += here;
        address += here;
        count -= here;
    }
    return PEATMITTEN_ACCEPTED;
}

/* Whether the whole text is a number; its value is put there. */
static int is_number(const char *text, uint64_t *value)
{
    char *end;

    *value = strtoull(text, &end, 0);
    return *text >= '0' && *text <= '9' && *end == '\0';
}

int main(int argc, char **argv)
{
    uint8_t bytes[MEMORY];
    uint64_t address, count;
    uint32_t number;

    if (argc != 3 || !is_number(argv[1], &address) || !is_number(argv[2], &count) || count > sizeof bytes) {
        fprintf(stderr, "usage: copy_stretch ADDRESS COUNT\n");
        return 2;
    }
    set_up();
    number = copy(bytes, address, count);
    if (number != PEATMITTEN_ACCEPTED) {
        fprintf(stderr, "copy_stretch: refused with %" PRIu32 "\n", number);
        return 1;
    }
    fwrite(bytes, 1, (size_t)count, stdout);
    putchar('\n');
    return 0;
}
