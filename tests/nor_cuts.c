/*
 * The log of examples/c/nor_mark.h with the power cut in any programming of a word: such a word reads blank, torn or as it was to be, and another way
 * after each later cut. A reading must be the number that was written and waited for, or one whose write was cut since.
 *
 * usage: nor_cuts right|claimless|first_blank|unfinished|unstarted
 *
 * The others are wrong in one thing each, and must fail: no claim; the first entry whose claim is blank; a value that is believed without finished;
 * a start that does not write the mark again. Prints how many cuts there were; the exit status is 1 if a reading is wrong.
 */
#include <stdio.h>
#include <string.h>

#include "nor_mark.h"

enum { ENTRIES = 64, WORDS = ENTRIES * NOR_MARK_ENTRY_WORDS, HISTORIES = 20000, SESSIONS = 100, MOST_EDITIONS = 64 };

typedef struct {
    uint64_t words[WORDS];  /* as they are read since the power came */
    uint64_t aimed[WORDS];  /* what a word that was cut was to be */
    uint8_t is_weak[WORDS]; /* it was cut */
    int programs;           /* that are left until the power is cut; below 0 it is not */
} part;

typedef struct {
    uint32_t (*read)(const nor_mark *log);
    int (*write)(const nor_mark *log, uint32_t mark);
    int writes_at_start;
} variant;

/* A small generator, so that each run is the same. */
static uint64_t drawn = 88172645463325252;

static uint64_t draw(void)
{
    drawn ^= drawn << 13;
    drawn ^= drawn >> 7;
    drawn ^= drawn << 17;
    return drawn;
}

static int program(void *context, size_t word, uint64_t value)
{
    part *part = context;

    if (part->programs == 0) {
        part->aimed[word] = value;
        part->is_weak[word] = 1;
        return 1;
    }
    part->programs--;
    part->words[word] = value;
    part->is_weak[word] = 0;
    return 0;
}

/* The power comes: each weak word is read in one of its ways. */
static void power_on(part *part)
{
    for (size_t word = 0; word < WORDS; word++) {
        if (!part->is_weak[word])
            continue;
        switch (draw() % 3) {
        case 0:
            part->words[word] = NOR_MARK_BLANK;
            break;
        case 1:
            part->words[word] = part->aimed[word];
            break;
        default:
            part->words[word] = part->aimed[word] | draw();
        }
    }
}

static int write_claimless(const nor_mark *log, uint32_t mark)
{
    size_t entry = nor_mark_count(log, NOR_MARK_FINISHED), first = entry * NOR_MARK_ENTRY_WORDS;

    return entry == log->entries || log->program(log->context, first + NOR_MARK_VALUE, mark) != 0 ||
           log->program(log->context, first + NOR_MARK_FINISHED, NOR_MARK_PROGRAMMED) != 0;
}

static int write_first_blank(const nor_mark *log, uint32_t mark)
{
    nor_mark rest = *log;

    rest.entries = 0;
    while (rest.entries < log->entries && !nor_mark_is_blank(log, rest.entries, NOR_MARK_CLAIM))
        rest.entries++;
    if (rest.entries == log->entries)
        return 1;
    rest.entries++;
    return nor_mark_write(&rest, mark);
}

static uint32_t read_unfinished(const nor_mark *log)
{
    size_t written = nor_mark_count(log, NOR_MARK_VALUE);

    return written == 0 ? 0 : (uint32_t)log->words[(written - 1) * NOR_MARK_ENTRY_WORDS + NOR_MARK_VALUE];
}

static const struct {
    const char *name;
    variant variant;
} variants[] = {
    {"right", {nor_mark_read, nor_mark_write, 1}},
    {"claimless", {nor_mark_read, write_claimless, 1}},
    {"first_blank", {nor_mark_read, write_first_blank, 1}},
    {"unfinished", {read_unfinished, nor_mark_write, 1}},
    {"unstarted", {nor_mark_read, nor_mark_write, 0}},
};

/* Which numbers a reading may give. */
typedef struct {
    uint8_t may_be[MOST_EDITIONS];
} readings;

static void only(readings *readings, uint32_t mark)
{
    memset(readings, 0, sizeof *readings);
    readings->may_be[mark] = 1;
}

/* Writes a mark, with the power cut in one of its words or not at all. Answers whether it was done. */
static int is_written(const variant *variant, const nor_mark *log, readings *readings, uint32_t mark, long *cuts)
{
    part *part = log->context;

    part->programs = draw() % 2 == 0 ? -1 : (int)(draw() % NOR_MARK_ENTRY_WORDS);
    readings->may_be[mark] = 1;
    if (variant->write(log, mark) != 0) {
        ++*cuts;
        return 0;
    }
    only(readings, mark);
    return 1;
}

/* One part from the factory on, over many cuts or until its log is full. Answers whether every reading was right. */
static int is_right(const variant *variant, long *cuts)
{
    static part part;
    readings readings;
    nor_mark log = {part.words, ENTRIES, &part, program};

    memset(&part, 0, sizeof part);
    memset(part.words, 0xff, sizeof part.words);
    only(&readings, 0);
    for (int session = 0; session < SESSIONS; session++) {
        uint32_t mark;

        power_on(&part);
        mark = variant->read(&log);
        if (mark >= MOST_EDITIONS || !readings.may_be[mark])
            return 0;
        if (nor_mark_count(&log, NOR_MARK_CLAIM) == ENTRIES || mark + 1 == MOST_EDITIONS)
            return 1;
        if (variant->writes_at_start ? !is_written(variant, &log, &readings, mark, cuts) : (only(&readings, mark), 0))
            continue;
        if (draw() % 2 == 0)
            is_written(variant, &log, &readings, mark + 1, cuts);
    }
    return 1;
}

int main(int argc, char **argv)
{
    const variant *chosen = NULL;
    long cuts = 0;

    for (size_t at = 0; argc == 2 && at < sizeof variants / sizeof *variants; at++)
        if (strcmp(argv[1], variants[at].name) == 0)
            chosen = &variants[at].variant;
    if (chosen == NULL) {
        fprintf(stderr, "usage: nor_cuts right|claimless|first_blank|unfinished|unstarted\n");
        return 2;
    }
    for (int history = 0; history < HISTORIES; history++) {
        if (!is_right(chosen, &cuts)) {
            printf("history %d has a wrong reading, after %ld cuts\n", history, cuts);
            return 1;
        }
    }
    printf("%ld\n", cuts);
    return 0;
}
