/*
 * For a service desk: where the base of a plan differs from a terminal, after 26.
 *
 * usage: differ_plan STATE PLAN
 *
 * Prints `the zones are the same`, or the offset in the plan of the first byte that differs, its place among the plan's zones, and what terminal
 * and plan have there. Exit status: 0 where the zones are the same, 1 where they differ or one of the two has none, 2 where a file is not as
 * it should be. `./peatmitten differ` says in words which zone, side and region that is.
 */
#include <errno.h>
#include <stdio.h>
#include <string.h>

#include "peatmitten.h"

static peatmitten_state state;
static uint8_t plan[PEATMITTEN_LONGEST_PLAN + 1];
static uint8_t section[PEATMITTEN_LONGEST_PLAN];

/* How many bytes were read, at most so many; -1 where the file cannot be read. */
static long read_file(const char *path, void *bytes, size_t most)
{
    FILE *file = fopen(path, "rb");
    size_t got;

    if (file == NULL) {
        fprintf(stderr, "differ_plan: cannot open %s: %s\n", path, strerror(errno));
        return -1;
    }
    got = fread(bytes, 1, most, file);
    if (ferror(file)) {
        fprintf(stderr, "differ_plan: cannot read %s: %s\n", path, strerror(errno));
        fclose(file);
        return -1;
    }
    fclose(file);
    return (long)got;
}

int main(int argc, char **argv)
{
    peatmitten_outcome zones;
    peatmitten_difference found;
    long got;

    if (argc != 3) {
        fputs("usage: differ_plan STATE PLAN\n", stderr);
        return 2;
    }
    got = read_file(argv[1], &state, sizeof state);
    if (got >= 0 && got != (long)sizeof state) {
        fprintf(stderr, "differ_plan: %s is no state file: a state has %zu bytes\n", argv[1], sizeof state);
        got = -1;
    }
    if (got < 0)
        return 2;
    got = read_file(argv[2], plan, sizeof plan);
    if (got < 0)
        return 2;
    zones = peatmitten_zones(&state, section, sizeof section);
    if (zones.number != PEATMITTEN_ACCEPTED) {
        printf("the terminal has no zones to compare: %u\n", (unsigned)zones.number);
        return 1;
    }
    found = peatmitten_differ(plan, (size_t)got, section, zones.place);
    if (found.number != PEATMITTEN_ACCEPTED) {
        printf("no plan: %u at offset %zu\n", (unsigned)found.number, found.offset);
        return 1;
    }
    if (found.planned == PEATMITTEN_NO_BYTE) {
        puts("the zones are the same");
        return 0;
    }
    printf("offset %zu, byte %zu of the zones: the terminal has 0x%02x, the plan 0x%02x\n", found.offset, found.place,
           (unsigned)found.held, (unsigned)found.planned);
    return 1;
}
