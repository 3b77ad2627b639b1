/*
 * An agent whose state is in NOR flash, which is simulated: a word is programmed by clearing bits, and only a whole block is erased. Each slot has
 * a block of its own, and the mark is a log in a third one (nor_mark.h). The flash can be read where it is mapped, so that one table in memory is
 * enough, to make the next one in. store_agent.h says what is printed.
 *
 * usage: nor_plan [-c N] FLASH PLAN...
 *
 * The file FLASH stands for the part; where there is none, it is made as the factory does: all erased, and a table without zones in slot 0.
 * With -c the power is cut in the N-th operation of the flash: of a word, every second bit that is to be cleared is; of a block, every second word is
 * erased. The exit status is then 3.
 *
 * Exit status: 0 all plans were accepted, 1 some plan was refused, 2 bad usage or something that cannot be read or written, 3 the power was cut.
 */
#define _XOPEN_SOURCE 700

#include <fcntl.h>
#include <sys/mman.h>
#include <sys/stat.h>
#include <unistd.h>

#include "nor_mark.h"
#define STORE_AGENT "nor_plan"
#include "store_agent.h"

enum { BLOCK_WORDS = 64 * 1024 / 8, MARK_BLOCK = 2, BLOCKS = 3, EVERY_SECOND = 2, STATUS_CUT = 3 };

#define EVERY_SECOND_BIT 0x5555555555555555

typedef struct {
    uint64_t *words;
    long operations; /* that are left until the power is cut; below 0 it is not */
} nor_flash;

/* Whether the power is cut in this operation. */
static int is_cut(nor_flash *flash)
{
    return flash->operations >= 0 && --flash->operations == 0;
}

/* Programs one word. It returns when the part is ready: the word lasts. */
static void program_word(nor_flash *flash, size_t word, uint64_t value)
{
    if (is_cut(flash)) {
        flash->words[word] &= value | EVERY_SECOND_BIT;
        exit(STATUS_CUT);
    }
    flash->words[word] &= value;
}

static void erase_block(nor_flash *flash, size_t block)
{
    uint64_t *words = flash->words + block * BLOCK_WORDS;
    size_t step = is_cut(flash) ? EVERY_SECOND : 1;

    for (size_t word = 0; word < BLOCK_WORDS; word += step)
        words[word] = NOR_MARK_BLANK;
    if (step == EVERY_SECOND)
        exit(STATUS_CUT);
}

static int program_log(void *context, size_t word, uint64_t value)
{
    program_word(context, MARK_BLOCK * BLOCK_WORDS + word, value);
    return 0;
}

static nor_mark log_of(nor_flash *flash)
{
    return (nor_mark){flash->words + MARK_BLOCK * BLOCK_WORDS, BLOCK_WORDS / NOR_MARK_ENTRY_WORDS, flash, program_log};
}

static int write_words(void *context, uint32_t slot, const uint64_t words[PEATMITTEN_TABLE_WORDS])
{
    erase_block(context, slot);
    for (size_t word = 0; word < PEATMITTEN_TABLE_WORDS; word++)
        program_word(context, slot * BLOCK_WORDS + word, words[word]);
    return 0;
}

static int write_mark(void *context, uint32_t mark)
{
    nor_mark log = log_of(context);

    return nor_mark_write(&log, mark);
}

/* Each operation has waited for the part. */
static int wait_for_all(void *context)
{
    (void)context;
    return 0;
}

/* The current table is read where it is, and the next one is made in memory. */
static void point(peatmitten_store *store, const nor_flash *flash)
{
    static uint64_t room[PEATMITTEN_TABLE_WORDS];

    store->slot[store->mark % 2] = flash->words + store->mark % 2 * BLOCK_WORDS;
    store->slot[1 - store->mark % 2] = room;
}

/* Maps the file that stands for the flash. One that is empty is made as the factory does. */
static void map_flash(nor_flash *flash, const char *path)
{
    enum { BYTES = BLOCKS * BLOCK_WORDS * 8 };
    int file = open(path, O_RDWR | O_CREAT | O_CLOEXEC, 0600);
    struct stat found;

    if (file < 0 || fstat(file, &found) != 0)
        store_agent_fail("open", path);
    if (found.st_size != 0 && found.st_size != BYTES)
        store_agent_fail_size(path, "flash", BYTES);
    if (ftruncate(file, BYTES) != 0)
        store_agent_fail("make", path);
    flash->words = mmap(NULL, BYTES, PROT_READ | PROT_WRITE, MAP_SHARED, file, 0);
    if (flash->words == MAP_FAILED)
        store_agent_fail("map", path);
    if (found.st_size == 0)
        memset(flash->words + PEATMITTEN_TABLE_WORDS, 0xff, BYTES - PEATMITTEN_TABLE_WORDS * 8);
}

int main(int argc, char **argv)
{
    nor_flash flash = {NULL, -1};
    peatmitten_store store = {.config = store_agent_config,
                              .part = {&flash, write_words, write_mark, wait_for_all}};
    nor_mark log;
    const char *path;
    int status = 0, option;

    opterr = 0;
    while ((option = getopt(argc, argv, "c:")) == 'c')
        flash.operations = atol(optarg);
    if (option != -1 || optind >= argc) {
        fprintf(stderr, "usage: nor_plan [-c N] FLASH PLAN...\n");
        return 2;
    }
    path = argv[optind];
    map_flash(&flash, path);
    log = log_of(&flash);
    store_agent_start(&store, nor_mark_read(&log), path);
    for (int at = optind + 1; at < argc; at++) {
        point(&store, &flash);
        if (!store_agent_deliver(&store, path, argv[at]))
            status = 1;
    }
    return status;
}
