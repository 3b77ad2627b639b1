/*
 * A terminal with owners that applies plans, over peatmitten_bank.h.
 *
 * usage: bank_plan PLAN...
 *
 * Its configuration and owners are built in: region A and C belong to zone 5, B to zone 6, the GIC to nobody. It is at edition 7, and zone 5 holds
 * A and the GIC. The plans are applied in turn; for each the number, the place, the inner number and the edition are printed, and what the number
 * means if it is not 0. The exit status is 0 if every plan was accepted, 1 if one was refused, 2 if something is not as it should be.
 */
#include <inttypes.h>
#include <stdio.h>
#include <stdlib.h>

#include "peatmitten_bank_words.h"

enum { A, B, C, GIC, REGIONS };

static const uint64_t regions[REGIONS][PEATMITTEN_REGION_WORDS] = {
    [A] = {0x40000000, 0x80000000, 0x200000, PEATMITTEN_READ | PEATMITTEN_WRITE},
    [B] = {0x40000000, 0x80200000, 0x200000, PEATMITTEN_READ | PEATMITTEN_WRITE},
    [C] = {0x40100000, 0x90000000, 0x200000, PEATMITTEN_READ | PEATMITTEN_WRITE},
    [GIC] = {0x08000000, 0x08000000, 0x10000, PEATMITTEN_READ | PEATMITTEN_WRITE},
};
static const uint32_t owners[REGIONS] = {[A] = 5, [B] = 6, [C] = 5, [GIC] = PEATMITTEN_BANK_GIC_OWNER};

static void fail(const char *what, const char *words)
{
    fprintf(stderr, "bank_plan: %s: %s\n", what, words);
    exit(2);
}

/* A request of zone 5 that must be accepted. */
static void ask(peatmitten_bank_state *state, uint32_t kind, const uint64_t region[PEATMITTEN_REGION_WORDS])
{
    uint32_t number = peatmitten_bank_request(state->config, state->owners, state->table, kind, 5, region);

    if (number != PEATMITTEN_ACCEPTED)
        fail("the terminal cannot be made", peatmitten_bank_words(number));
}

static void make_terminal(peatmitten_bank_state *state)
{
    static const uint64_t none[PEATMITTEN_REGION_WORDS];
    uint64_t places[2];
    uint32_t fault;

    state->config[PEATMITTEN_CONFIG_COUNT] = REGIONS;
    state->config[PEATMITTEN_CONFIG_GIC] = GIC;
    for (size_t at = 0; at < REGIONS; at++) {
        for (size_t word = 0; word < PEATMITTEN_REGION_WORDS; word++)
            state->config[PEATMITTEN_CONFIG_REGIONS + at * PEATMITTEN_REGION_WORDS + word] = regions[at][word];
        state->owners[at] = owners[at];
    }
    fault = peatmitten_bank_check_config(state->config, state->owners, places);
    if (fault != PEATMITTEN_CONFIG_SOUND)
        fail("the configuration is unsound", peatmitten_bank_config_words(fault));
    ask(state, PEATMITTEN_ADD_ZONE, none);
    ask(state, PEATMITTEN_CPU_INSERT, regions[A]);
    ask(state, PEATMITTEN_IOMMU_INSERT, regions[A]);
    ask(state, PEATMITTEN_IOMMU_INSERT, regions[GIC]);
    state->edition = 7;
}

/* One byte more than the longest plan has is enough for 22. */
static size_t read_plan(const char *path, uint8_t plan[PEATMITTEN_BANK_LONGEST_PLAN + 1])
{
    FILE *file = fopen(path, "rb");
    size_t length;

    if (file == NULL)
        fail(path, "it cannot be opened");
    length = fread(plan, 1, PEATMITTEN_BANK_LONGEST_PLAN + 1, file);
    if (ferror(file))
        fail(path, "it cannot be read");
    fclose(file);
    return length;
}

int main(int argc, char **argv)
{
    static peatmitten_bank_state state;
    static uint8_t plan[PEATMITTEN_BANK_LONGEST_PLAN + 1];
    int status = 0;

    if (argc < 2)
        fail("usage", "bank_plan PLAN...");
    make_terminal(&state);
    for (int at = 1; at < argc; at++) {
        size_t length = read_plan(argv[at], plan);
        peatmitten_outcome outcome = peatmitten_bank_apply(&state, plan, length);

        printf("%" PRIu32 " %zu %" PRIu32 ", edition %" PRIu32 "\n", outcome.number, outcome.place, outcome.inner, state.edition);
        if (outcome.number != PEATMITTEN_ACCEPTED) {
            printf("  %s\n", peatmitten_bank_words(outcome.number));
            status = 1;
        }
        if (outcome.inner != 0)
            printf("  %s\n", peatmitten_bank_words(outcome.inner));
    }
    return status;
}
