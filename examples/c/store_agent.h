/*
 * What the agents with a state in storage share: a small terminal, and its run from the start on. Each has a part of its own.
 *
 * The configuration is built in: the GIC's region only. After the start the line "edition EDITION" is printed, and one for each plan:
 *
 *     NUMBER PLACE INNER, edition EDITION
 *
 * Each is printed when what it says lasts, so that no cut takes it back.
 */
#ifndef STORE_AGENT_H
#define STORE_AGENT_H

#ifndef STORE_AGENT
#error "before this: #define STORE_AGENT with the program's name"
#endif

#include <errno.h>
#include <inttypes.h>
#include <stdio.h>
#include <stdlib.h>
#include <string.h>

#include "peatmitten_store.h"

static const uint64_t store_agent_config[PEATMITTEN_CONFIG_WORDS] = {
    [PEATMITTEN_CONFIG_COUNT] = 1,
    [PEATMITTEN_CONFIG_REGIONS] = 0x08000000, 0x08000000, 0x10000, PEATMITTEN_READ | PEATMITTEN_WRITE,
};

/* Ends the program. Nothing more is told, and the next run starts anew. */
static _Noreturn void store_agent_fail(const char *doing, const char *path)
{
    fprintf(stderr, STORE_AGENT ": cannot %s %s: %s\n", doing, path, strerror(errno));
    exit(2);
}

/* The same of a file that stands for no storage. */
static _Noreturn void store_agent_fail_size(const char *path, const char *what, size_t bytes)
{
    fprintf(stderr, STORE_AGENT ": %s is no %s: one has %zu bytes\n", path, what, bytes);
    exit(2);
}

static void store_agent_print(const char *line)
{
    if (printf("%s\n", line) < 0 || fflush(stdout) != 0)
        store_agent_fail("write", "standard output");
}

static size_t store_agent_read(const char *path, uint8_t *bytes, size_t most)
{
    FILE *file = fopen(path, "rb");
    size_t length;

    if (file == NULL)
        store_agent_fail("open", path);
    length = fread(bytes, 1, most, file);
    if (ferror(file))
        store_agent_fail("read", path);
    fclose(file);
    return length;
}

static void store_agent_start(peatmitten_store *store, uint32_t mark, const char *path)
{
    char line[64];

    if (peatmitten_store_start(store, mark) != PEATMITTEN_STORE_DONE)
        store_agent_fail("start with", path);
    snprintf(line, sizeof line, "edition %" PRIu32, store->mark);
    store_agent_print(line);
}

/* Delivers one plan and answers for it. Answers whether it was accepted. */
static int store_agent_deliver(peatmitten_store *store, const char *path, const char *plan_path)
{
    static uint8_t plan[PEATMITTEN_LONGEST_PLAN + 1]; /* one more than the longest plan, so that a longer file is seen to be longer */
    size_t length = store_agent_read(plan_path, plan, sizeof plan);
    peatmitten_outcome outcome;
    char line[128];

    if (peatmitten_store_deliver(store, plan, length, &outcome) != PEATMITTEN_STORE_DONE)
        store_agent_fail("keep a state in", path);
    snprintf(line, sizeof line, "%" PRIu32 " %zu %" PRIu32 ", edition %" PRIu32, outcome.number, outcome.place, outcome.inner, store->mark);
    store_agent_print(line);
    return outcome.number == PEATMITTEN_ACCEPTED;
}

#endif
