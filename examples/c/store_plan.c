/*
 * An agent whose state is in a file that is mapped: two slots and a mark, each in a page of its own, with msync as the wait. store_agent.h says what
 * it prints.
 *
 * usage: store_plan STORE PLAN...
 *
 * Where there is no file STORE, the terminal is new: edition 0 and no zones, which is a file of zeros. One process at a time uses the file, by a
 * lock. docs/STORAGE.md says what is assumed of a file system and its disk. Where those have files, examples/c/apply_plan.c is simpler; this is the
 * pattern for memory that is mapped and keeps what is written: FRAM, MRAM, RAM with a battery. There a wait is a cache clean and a barrier.
 *
 * Exit status: 0 all plans were accepted, 1 some plan was refused, 2 bad usage or something that cannot be read or written.
 */
#define _XOPEN_SOURCE 700

#include <fcntl.h>
#include <libgen.h>
#include <sys/file.h>
#include <sys/mman.h>
#include <sys/stat.h>
#include <unistd.h>

#define STORE_AGENT "store_plan"
#include "store_agent.h"

enum { PAGE = 64 * 1024 /* the largest that Linux has on these processors */ };

typedef struct {
    union {
        volatile uint32_t mark;
        uint64_t page[PAGE / 8];
    };
    uint64_t slot[2][PAGE / 8];
} mapped_file;

_Static_assert(PEATMITTEN_TABLE_WORDS * 8 <= PAGE && sizeof(mapped_file) == 3 * PAGE, "each has a page of its own");

static int write_mark(void *context, uint32_t mark)
{
    mapped_file *mapped = context;

    mapped->mark = mark;
    return 0;
}

static int wait_for_all(void *context)
{
    return msync(context, sizeof(mapped_file), MS_SYNC);
}

/* Makes the name of the file last: a state that was told must be found again. */
static void sync_folder(const char *path)
{
    char copy[4096];
    int folder;

    if (snprintf(copy, sizeof copy, "%s", path) >= (int)sizeof copy) {
        errno = ENAMETOOLONG;
        store_agent_fail("open", path);
    }
    folder = open(dirname(copy), O_RDONLY | O_DIRECTORY | O_CLOEXEC);
    if (folder < 0 || fsync(folder) != 0 || close(folder) != 0)
        store_agent_fail("sync the folder of", path);
}

/* Opens, locks and maps the file. An empty one, as a cut may leave it, is made a new terminal's. */
static mapped_file *map_file(const char *path)
{
    int file = open(path, O_RDWR | O_CREAT | O_CLOEXEC, 0600);
    struct stat found;
    void *mapped;

    if (file < 0)
        store_agent_fail("open", path);
    if (flock(file, LOCK_EX) != 0)
        store_agent_fail("lock", path);
    if (fstat(file, &found) != 0)
        store_agent_fail("look at", path);
    if (found.st_size == 0 && (ftruncate(file, sizeof(mapped_file)) != 0 || fsync(file) != 0))
        store_agent_fail("make", path);
    if (found.st_size != 0 && found.st_size != sizeof(mapped_file))
        store_agent_fail_size(path, "store", sizeof(mapped_file));
    sync_folder(path);
    mapped = mmap(NULL, sizeof(mapped_file), PROT_READ | PROT_WRITE, MAP_SHARED, file, 0);
    if (mapped == MAP_FAILED)
        store_agent_fail("map", path);
    return mapped;
}

int main(int argc, char **argv)
{
    peatmitten_store store = {.config = store_agent_config, .part = {.write_mark = write_mark, .wait = wait_for_all}};
    mapped_file *mapped;
    int status = 0;

    if (argc < 2) {
        fprintf(stderr, "usage: store_plan STORE PLAN...\n");
        return 2;
    }
    mapped = map_file(argv[1]);
    store.slot[0] = mapped->slot[0];
    store.slot[1] = mapped->slot[1];
    store.part.context = mapped;
    store_agent_start(&store, mapped->mark, argv[1]);
    for (int at = 2; at < argc; at++)
        if (!store_agent_deliver(&store, argv[1], argv[at]))
            status = 1;
    return status;
}
