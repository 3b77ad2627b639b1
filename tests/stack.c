/*
 * Measures how much stack each function of the library takes.
 *
 * usage: stack STATE PLAN [STATE PLAN]...
 *
 * For each pair every function is called, apply at last. Prints the most that each took, then the most of all; fails if that is above
 * PEATMITTEN_STACK.
 */
#define _GNU_SOURCE
#include "peatmitten.h"
#include "stack_measured.h"

enum { CHECK_CONFIG, CHECK_TABLE, REQUEST, TRANSLATE, EDITION, READ, APPLY, BESIDE, TAKE, END, WRITE, LIST, ZONES, BASE, LACKING, LISTING, LOG, LAYOUT,
       FUNCTIONS };

static const char *const names[FUNCTIONS] = {
    "peatmitten_check_config", "peatmitten_check_table", "peatmitten_request",     "peatmitten_translate_words",
    "peatmitten_edition",      "peatmitten_read",        "peatmitten_apply_words", "peatmitten_beside_words",
    "peatmitten_take_piece",   "peatmitten_end_words",   "peatmitten_write_words", "peatmitten_wanted_words",
    "peatmitten_zones_words",  "peatmitten_base_zones",  "peatmitten_lacking",     "peatmitten_list",
    "peatmitten_check_log",    TEXT_OF(peatmitten_layout)};

static peatmitten_state state;
static uint8_t plan[PEATMITTEN_LONGEST_PLAN + 1];
static size_t length;
static uint32_t kind;
static uint64_t answers[3];
static uint64_t receiver[2];
static uint8_t buffer[PEATMITTEN_LONGEST_PLAN];
static const uint64_t no_zones[PEATMITTEN_TABLE_WORDS];
static uint8_t log_bytes[PEATMITTEN_LONGEST_LOG + 1];
static size_t log_length;

static void check_config(void)
{
    peatmitten_check_config(state.config, answers);
}

static void check_table(void)
{
    peatmitten_check_table(state.config, state.table);
}

/* Each kind with the first configured region at the first zone, so that some are accepted. */
static void request(void)
{
    const uint64_t *region = &state.config[PEATMITTEN_CONFIG_REGIONS];
    const uint64_t none[PEATMITTEN_REGION_WORDS] = {0};

    if (kind == PEATMITTEN_ADD_ZONE || kind == PEATMITTEN_REMOVE_ZONE)
        region = none;
    peatmitten_request(state.config, state.table, kind, (uint32_t)state.table[PEATMITTEN_TABLE_ZONES], region[0], region[1], region[2],
                       region[3]);
}

static void translate(void)
{
    peatmitten_translate_words(state.config, state.table, (uint32_t)state.table[PEATMITTEN_TABLE_ZONES], kind % 2,
                               state.config[PEATMITTEN_CONFIG_REGIONS], answers);
}

static void edition(void)
{
    peatmitten_edition(plan, length, answers);
}

static void read_only(void)
{
    peatmitten_read(plan, length, answers);
}

static void apply(void)
{
    peatmitten_apply_words(state.config, state.table, &state.edition, plan, length, answers);
}

static void beside(void)
{
    static uint64_t other[PEATMITTEN_TABLE_WORDS];

    peatmitten_beside_words(state.config, state.table, other, state.edition, plan, length, answers);
}

static void take_piece(void)
{
    peatmitten_take_piece(receiver, buffer, sizeof buffer, plan, length);
}

static void end_words(void)
{
    peatmitten_end_words(state.config, state.table, &state.edition, receiver, buffer, sizeof buffer, answers);
}

/* The plan's own requests, or the whole plan as if it were records where it does not read. */
static void write_words(void)
{
    const uint8_t *requests = plan;
    uint64_t first[1];

    if (peatmitten_read(plan, length, first) == PEATMITTEN_ACCEPTED)
        requests += first[0];
    peatmitten_write_words(state.config, state.table, state.edition, requests, length - (size_t)(requests - plan), buffer, sizeof buffer,
                           answers);
}

static void zones_words(void)
{
    peatmitten_zones_words(state.config, state.table, buffer, sizeof buffer, answers);
}

static void base_zones(void)
{
    peatmitten_base_zones(plan, length, answers);
}

/* The plan beside what the writer or the zones left in the buffer. */
static void lacking(void)
{
    peatmitten_lacking(plan, length, buffer, sizeof buffer, answers);
}

/* All that there is goes, and comes again. */
static void list_words(void)
{
    peatmitten_wanted_words(state.config, state.table, no_zones, buffer, sizeof buffer, answers);
    peatmitten_wanted_words(state.config, no_zones, state.table, buffer, sizeof buffer, answers);
}

static void map_listing(void)
{
    static uint8_t text[PEATMITTEN_LONGEST_LISTING];

    peatmitten_list(state.config, state.table, text, sizeof text, answers);
}

static void check_log(void)
{
    static peatmitten_state room;

    peatmitten_check_log(room.config, room.table, log_bytes, log_length, buffer, sizeof buffer, answers);
}

static void layout(void)
{
    answers[0] = peatmitten_layout(kind);
}

/*
 * The plan as the log of a terminal that claims to have accepted every request: its third mark is a log's, and as many zeros stand behind it as it
 * has requests. Bytes that are no plan are no log either.
 */
static void make_log(void)
{
    enum { THIRD_MARK = 12, LOG_FORMAT = 3 };
    uint64_t first[1];
    uint32_t number = peatmitten_read(plan, length, first);
    size_t claims;

    memcpy(log_bytes, plan, length);
    log_length = length;
    if (number != PEATMITTEN_ACCEPTED)
        return;
    claims = (length - (size_t)first[0]) / sizeof(peatmitten_record);
    log_bytes[THIRD_MARK] = LOG_FORMAT;
    memset(log_bytes + length, 0, 4 + 4 * claims);
    log_bytes[length] = claims & 0xff;
    log_bytes[length + 1] = (claims >> 8) & 0xff;
    log_length = length + 4 + 4 * claims;
}

static void measure(size_t most[FUNCTIONS], const char *state_path, const char *plan_path)
{
    peatmitten_state before;

    if (read_file(state_path, &state, sizeof state) != sizeof state) {
        fprintf(stderr, "stack: %s is no state file\n", state_path);
        exit(2);
    }
    length = read_file(plan_path, plan, sizeof plan);
    make_log();
    before = state;
    keep_most(most, CHECK_CONFIG, check_config);
    keep_most(most, CHECK_TABLE, check_table);
    keep_most(most, EDITION, edition);
    keep_most(most, READ, read_only);
    for (kind = 0; kind <= PEATMITTEN_IOMMU_REMOVE; kind++) {
        keep_most(most, REQUEST, request);
        keep_most(most, TRANSLATE, translate);
        keep_most(most, LISTING, map_listing);
        keep_most(most, LAYOUT, layout);
    }
    state = before;
    keep_most(most, WRITE, write_words);
    keep_most(most, LACKING, lacking);
    keep_most(most, ZONES, zones_words);
    keep_most(most, BASE, base_zones);
    keep_most(most, LIST, list_words);
    keep_most(most, LOG, check_log);
    keep_most(most, BESIDE, beside);
    keep_most(most, APPLY, apply);
    state = before;
    keep_most(most, TAKE, take_piece);
    keep_most(most, END, end_words);
    receiver[1] = 1;
    keep_most(most, END, end_words);
}

int main(int argc, char **argv)
{
    size_t most[FUNCTIONS] = {0};

    for (int at = 1; at + 1 < argc; at += 2)
        measure(most, argv[at], argv[at + 1]);
    return argc < 3 || print_most(names, most, FUNCTIONS) > PEATMITTEN_STACK;
}
