/*
 * Which calls of a part the functions of peatmitten_store.h and peatmitten_bank_store.h make, and what they answer when one fails.
 *
 * usage: store_calls FIRST.PLAN OWN.PLAN
 *
 * The first plan is for a new terminal with the GIC's region only; the second is for a terminal with owners at edition 7 whose regions and zones
 * it has itself. Prints a line for each thing that is not as it should be; the exit status is then 1.
 */
#include <stdio.h>
#include <string.h>

#include "peatmitten_bank_store.h"
#include "peatmitten_store.h"

enum { NEVER = -1 };

typedef struct {
    char calls[64]; /* W0 or W1, M and the mark, and w, in turn */
    int fails;      /* which call fails, from 0; or NEVER */
    int made;
} recorder;

static int faults;
static uint64_t slots[2][PEATMITTEN_TABLE_WORDS];
static uint64_t config[PEATMITTEN_CONFIG_WORDS];
static uint32_t owners[PEATMITTEN_MOST_REGIONS];
static uint8_t plan[PEATMITTEN_BANK_LONGEST_PLAN];
static size_t length;

static void hold(int holds, const char *what)
{
    if (!holds) {
        printf("not so: %s\n", what);
        faults++;
    }
}

static int record(recorder *recorder, const char *call)
{
    strcat(recorder->calls, call);
    return recorder->made++ == recorder->fails;
}

static int write_words(void *context, uint32_t slot, const uint64_t words[PEATMITTEN_TABLE_WORDS])
{
    hold(words == slots[slot], "a slot is written from its own words");
    return record(context, slot == 0 ? "W0" : "W1");
}

static int write_mark(void *context, uint32_t mark)
{
    char call[16];

    snprintf(call, sizeof call, "M%u", (unsigned)mark);
    return record(context, call);
}

static int wait_for_all(void *context)
{
    return record(context, "w");
}

static peatmitten_store new_store(recorder *recorder, int fails, int is_mapped)
{
    peatmitten_store store = {config, {slots[0], slots[1]}, {recorder, is_mapped ? NULL : write_words, write_mark, wait_for_all}, 0, 0};

    memset(recorder, 0, sizeof *recorder);
    recorder->fails = fails;
    return store;
}

static void read_plan(const char *path)
{
    FILE *file = fopen(path, "rb");

    length = file == NULL ? 0 : fread(plan, 1, sizeof plan, file);
    if (file != NULL)
        fclose(file);
    hold(length > 0, path);
}

static void new_terminal(void)
{
    static const uint64_t gic[PEATMITTEN_REGION_WORDS] = {0x08000000, 0x08000000, 0x10000, PEATMITTEN_READ | PEATMITTEN_WRITE};

    memset(config, 0, sizeof config);
    config[PEATMITTEN_CONFIG_COUNT] = 1;
    memcpy(&config[PEATMITTEN_CONFIG_REGIONS], gic, sizeof gic);
    memset(slots[0], 0, sizeof slots[0]);
    memset(slots[1], 0xa5, sizeof slots[1]);
}

/* A delivery that comes through, and the same plan again, which is refused and programs nothing. */
static void check_order(int is_mapped)
{
    recorder recorder;
    peatmitten_store store = new_store(&recorder, NEVER, is_mapped);
    peatmitten_outcome outcome = {99, 99, 99};

    new_terminal();
    hold(peatmitten_store_deliver(&store, plan, length, &outcome) == PEATMITTEN_STORE_NOT_STARTED && outcome.number == 99 && recorder.made == 0,
         "a delivery before a start does nothing");
    hold(peatmitten_store_start(&store, 0) == PEATMITTEN_STORE_DONE && strcmp(recorder.calls, "M0w") == 0, "a start writes the mark and waits");
    hold(peatmitten_store_deliver(&store, plan, length, &outcome) == PEATMITTEN_STORE_DONE && outcome.number == 0 && outcome.place == 1 &&
             store.mark == 1 && peatmitten_store_table(&store) == slots[1] && slots[1][PEATMITTEN_TABLE_COUNT] == 1,
         "the plan brings edition 1, in slot 1");
    hold(strcmp(recorder.calls, is_mapped ? "M0wwM1w" : "M0wW1wM1w") == 0, "the slot, a wait, the mark, a wait");
    hold(peatmitten_store_deliver(&store, plan, length, &outcome) == PEATMITTEN_STORE_DONE && outcome.number == PEATMITTEN_OTHER_EDITION &&
             store.mark == 1 && recorder.made == (is_mapped ? 5 : 6),
         "a refusal programs nothing");
}

/* Each call fails in turn: 0 and 1 are those of the start, then slot, wait, mark and wait. */
static void check_faults(int is_mapped)
{
    const int calls = is_mapped ? 5 : 6;

    for (int fails = 0; fails < calls; fails++) {
        recorder recorder;
        peatmitten_store store = new_store(&recorder, fails, is_mapped);
        peatmitten_outcome outcome = {99, 99, 99};
        int started, delivered;

        new_terminal();
        started = peatmitten_store_start(&store, 0);
        delivered = peatmitten_store_deliver(&store, plan, length, &outcome);
        hold(started == (fails < 2 ? PEATMITTEN_STORE_PART_FAILED : PEATMITTEN_STORE_DONE), "a start tells a fault of the part");
        hold(delivered == (fails < 2 ? PEATMITTEN_STORE_NOT_STARTED : PEATMITTEN_STORE_PART_FAILED), "a delivery tells a fault of the part");
        hold(recorder.made == fails + 1 && outcome.number == 99 && store.mark == 0, "after a fault nothing is done or told");
        hold(peatmitten_store_deliver(&store, plan, length, &outcome) == PEATMITTEN_STORE_NOT_STARTED, "nothing is delivered after a fault");
        hold(peatmitten_store_start(&store, 0) == PEATMITTEN_STORE_DONE &&
                 peatmitten_store_deliver(&store, plan, length, &outcome) == PEATMITTEN_STORE_DONE && store.mark == 1,
             "a terminal that starts anew goes on");
    }
}

/* The plan in two pieces, at a terminal that is not started and at one that is; and again, which is refused. */
static void check_pieces(void)
{
    static uint8_t buffer[PEATMITTEN_LONGEST_PLAN];
    recorder recorder;
    peatmitten_store store = new_store(&recorder, NEVER, 0);
    peatmitten_receiver receiver = {0, 0};
    peatmitten_outcome outcome = {99, 99, 99};

    new_terminal();
    for (int time = 0; time < 2; time++) {
        peatmitten_take(&receiver, buffer, sizeof buffer, plan, 5);
        peatmitten_take(&receiver, buffer, sizeof buffer, plan + 5, length - 5);
        if (time == 0) {
            hold(peatmitten_store_end(&store, &receiver, buffer, sizeof buffer, &outcome) == PEATMITTEN_STORE_NOT_STARTED &&
                     receiver.stored == length,
                 "an end call before a start does nothing");
            peatmitten_store_start(&store, 0);
        }
        hold(peatmitten_store_end(&store, &receiver, buffer, sizeof buffer, &outcome) == PEATMITTEN_STORE_DONE && store.mark == 1 &&
                 outcome.number == (time == 0 ? 0 : PEATMITTEN_OTHER_EDITION) && receiver.stored == 0,
             "a plan in pieces is answered as the whole one");
        hold(strcmp(recorder.calls, "M0wW1wM1w") == 0, "in the same order, and a refusal programs nothing");
    }
}

static uint64_t number_at(size_t offset, size_t bytes)
{
    uint64_t number = 0;

    memcpy(&number, plan + offset, bytes);
    return number;
}

/* The terminal that the plan is for: its regions, its owners, and the zones of edition 7, one with a region for CPU and two for IOMMU. */
static void owned_terminal(void)
{
    enum { COUNT_AT = 16, REGIONS_AT = 20, REGION_BYTES = 32 };
    size_t count = (size_t)number_at(COUNT_AT, 4), at = REGIONS_AT + count * REGION_BYTES + 4 + count * 4;
    uint64_t *table = slots[1], *zone = &slots[1][PEATMITTEN_TABLE_ZONES];

    memset(config, 0, sizeof config);
    config[PEATMITTEN_CONFIG_COUNT] = count;
    config[PEATMITTEN_CONFIG_GIC] = number_at(4, 4);
    memcpy(&config[PEATMITTEN_CONFIG_REGIONS], plan + REGIONS_AT, count * REGION_BYTES);
    memcpy(owners, plan + REGIONS_AT + count * REGION_BYTES + 4, count * 4);
    memset(slots[0], 0xa5, sizeof slots[0]);
    memset(slots[1], 0, sizeof slots[1]);
    table[PEATMITTEN_TABLE_COUNT] = number_at(at, 4);
    hold(table[PEATMITTEN_TABLE_COUNT] == 1, "the plan with owners is for one zone");
    zone[PEATMITTEN_ZONE_ID] = number_at(at + 4, 4);
    at += 8;
    for (size_t set = PEATMITTEN_ZONE_CPU; set <= PEATMITTEN_ZONE_IOMMU; set += PEATMITTEN_SET_WORDS) {
        zone[set] = number_at(at, 4);
        memcpy(&zone[set + 1], plan + at + 4, (size_t)zone[set] * REGION_BYTES);
        at += 4 + (size_t)zone[set] * REGION_BYTES;
    }
}

static void check_owners(void)
{
    recorder recorder;
    peatmitten_store store = new_store(&recorder, NEVER, 0);
    peatmitten_outcome outcome = {99, 99, 99};

    owned_terminal();
    hold(peatmitten_bank_store_deliver(&store, owners, plan, length, &outcome) == PEATMITTEN_STORE_NOT_STARTED, "with owners too a start comes first");
    hold(peatmitten_store_start(&store, 7) == PEATMITTEN_STORE_DONE, "a start at edition 7");
    hold(peatmitten_bank_store_deliver(&store, owners, plan, length, &outcome) == PEATMITTEN_STORE_DONE && outcome.number == 0 && store.mark == 8 &&
             strcmp(recorder.calls, "M7wW0wM8w") == 0,
         "the plan with owners brings edition 8, in slot 0");
    hold(peatmitten_bank_store_deliver(&store, owners, plan, length, &outcome) == PEATMITTEN_STORE_DONE &&
             outcome.number == PEATMITTEN_OTHER_EDITION && recorder.made == 6,
         "with owners too a refusal programs nothing");
}

int main(int argc, char **argv)
{
    if (argc != 3) {
        fprintf(stderr, "usage: store_calls FIRST.PLAN OWN.PLAN\n");
        return 2;
    }
    read_plan(argv[1]);
    check_order(0);
    check_order(1);
    check_faults(0);
    check_faults(1);
    check_pieces();
    read_plan(argv[2]);
    check_owners();
    return faults != 0;
}
