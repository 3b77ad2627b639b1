/*
 * Measures how much stack each function of the library for terminals with owners takes.
 *
 * usage: stack_bank PLAN...
 *
 * For each plan every function is called at the state that the plan is for, apply at last. Prints the most that each took, then the most of all;
 * fails if that is above PEATMITTEN_STACK.
 */
#define _GNU_SOURCE
#include "peatmitten_bank.h"
#include "stack_measured.h"

enum { CHECK_CONFIG, CHECK_TABLE, REQUEST, TRANSLATE, READ, APPLY, BESIDE, LAYOUT, FUNCTIONS };

static const char *const names[FUNCTIONS] = {"peatmitten_bank_check_config",    "peatmitten_bank_check_table", "peatmitten_bank_request",
                                             "peatmitten_bank_translate_words", "peatmitten_bank_read",        "peatmitten_bank_apply_words",
                                             "peatmitten_bank_beside_words",    TEXT_OF(peatmitten_bank_layout)};

static peatmitten_bank_state state;
static uint8_t plan[PEATMITTEN_BANK_LONGEST_PLAN + 1];
static size_t length;
static uint32_t kind;
static uint64_t answers[3];

static void check_config(void)
{
    peatmitten_bank_check_config(state.config, state.owners, answers);
}

static void check_table(void)
{
    peatmitten_bank_check_table(state.config, state.owners, state.table);
}

/* Each kind with the first configured region at the first zone. */
static void request(void)
{
    const uint64_t *region = &state.config[PEATMITTEN_CONFIG_REGIONS];
    const uint64_t none[PEATMITTEN_REGION_WORDS] = {0};

    if (kind == PEATMITTEN_ADD_ZONE || kind == PEATMITTEN_REMOVE_ZONE)
        region = none;
    peatmitten_bank_request(state.config, state.owners, state.table, kind, (uint32_t)state.table[PEATMITTEN_TABLE_ZONES], region);
}

static void translate(void)
{
    peatmitten_bank_translate_words(state.config, state.owners, state.table, (uint32_t)state.table[PEATMITTEN_TABLE_ZONES], kind % 2,
                                    state.config[PEATMITTEN_CONFIG_REGIONS], answers);
}

static void read_only(void)
{
    peatmitten_bank_read(plan, length, answers);
}

static void apply(void)
{
    peatmitten_bank_apply_words(state.config, state.owners, state.table, &state.edition, plan, length, answers);
}

static void beside(void)
{
    static uint64_t other[PEATMITTEN_TABLE_WORDS];

    peatmitten_bank_beside_words(state.config, state.owners, state.table, other, state.edition, plan, length, answers);
}

static void layout(void)
{
    answers[0] = peatmitten_bank_layout(kind);
}

/* Numbers of the plan one after another. */
static const uint8_t *at;

static uint64_t next(size_t bytes)
{
    uint64_t number = 0;

    memcpy(&number, at, bytes);
    at += bytes;
    return number;
}

/* A count, and as many regions. */
static void next_set(uint64_t *count, uint64_t *regions)
{
    *count = next(4);
    for (uint64_t word = 0; word < *count * PEATMITTEN_REGION_WORDS; word++)
        regions[word] = next(8);
}

/* The state that a plan is for, of one that reads whole. */
static void take_base(void)
{
    uint64_t *zone = &state.table[PEATMITTEN_TABLE_ZONES];

    memset(&state, 0, sizeof state);
    at = plan + 4;
    state.config[PEATMITTEN_CONFIG_GIC] = next(4);
    state.edition = (uint32_t)next(4);
    next(4);
    next_set(&state.config[PEATMITTEN_CONFIG_COUNT], &state.config[PEATMITTEN_CONFIG_REGIONS]);
    next(4);
    for (uint64_t owner = 0; owner < state.config[PEATMITTEN_CONFIG_COUNT]; owner++)
        state.owners[owner] = (uint32_t)next(4);
    state.table[PEATMITTEN_TABLE_COUNT] = next(4);
    for (uint64_t zones = state.table[PEATMITTEN_TABLE_COUNT]; zones > 0; zones--) {
        zone[PEATMITTEN_ZONE_ID] = next(4);
        next_set(&zone[PEATMITTEN_ZONE_CPU], &zone[PEATMITTEN_ZONE_CPU + 1]);
        next_set(&zone[PEATMITTEN_ZONE_IOMMU], &zone[PEATMITTEN_ZONE_IOMMU + 1]);
        zone += PEATMITTEN_ZONE_WORDS;
    }
}

static void measure(size_t most[FUNCTIONS], const char *path)
{
    length = read_file(path, plan, sizeof plan);
    keep_most(most, READ, read_only);
    if (peatmitten_bank_read(plan, length, answers) != PEATMITTEN_ACCEPTED)
        return;
    take_base();
    keep_most(most, CHECK_CONFIG, check_config);
    keep_most(most, CHECK_TABLE, check_table);
    for (kind = 0; kind <= PEATMITTEN_IOMMU_REMOVE; kind++) {
        keep_most(most, REQUEST, request);
        keep_most(most, TRANSLATE, translate);
        keep_most(most, LAYOUT, layout);
    }
    take_base();
    keep_most(most, BESIDE, beside);
    keep_most(most, APPLY, apply);
}

int main(int argc, char **argv)
{
    size_t most[FUNCTIONS] = {0};

    for (int file = 1; file < argc; file++)
        measure(most, argv[file]);
    return argc < 2 || print_most(names, most, FUNCTIONS) > PEATMITTEN_STACK;
}
