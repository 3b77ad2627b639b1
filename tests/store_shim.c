/*
 * Stands between a program and its mapped file (the linker's --wrap), and plays a cut in power. What was written since the last msync does not last.
 *
 *     STORE_CUT=N         the power goes before the N-th msync: the process ends with status 99
 *     STORE_LEAVES=..     what a cut leaves of each page that was written and does not last: `old`, `new`, `mixed` (both, in turn), `junk`
 *     STORE_MARK=..       the same of the first page, which has the mark: `old` or `new`
 *     STORE_FORGETS=..    which msync does nothing, so that a test can be seen to fail: `slot` or `mark`. The first one is that of the start, then
 *                         each plan that is accepted has one for its slot and one for the mark
 *     STORE_LOG=FILE      how many calls there were is written there, a dot for each
 */
#define _XOPEN_SOURCE 700

#include <stdio.h>
#include <stdlib.h>
#include <string.h>
#include <sys/mman.h>
#include <sys/types.h>
#include <unistd.h>

enum { PAGE = 4096 };

void *__real_mmap(void *address, size_t length, int protection, int flags, int file, off_t offset);
int __real_msync(void *address, size_t length, int flags);

static char *mapped, *lasting;
static size_t mapped_length;

static int is_set(const char *variable, const char *value)
{
    const char *set = getenv(variable);

    return set != NULL && strcmp(set, value) == 0;
}

/* The program maps one file. */
void *__wrap_mmap(void *address, size_t length, int protection, int flags, int file, off_t offset)
{
    mapped = __real_mmap(address, length, protection, flags, file, offset);
    mapped_length = length;
    lasting = malloc(length);
    memcpy(lasting, mapped, length);
    return mapped;
}

static void lose_page(size_t page)
{
    char *now = mapped + page * PAGE;
    const char *old = lasting + page * PAGE, *leaves = page == 0 ? "STORE_MARK" : "STORE_LEAVES";

    if (memcmp(now, old, PAGE) == 0)
        return;
    if (is_set(leaves, "old") || (is_set(leaves, "mixed") && page % 2 == 0))
        memcpy(now, old, PAGE);
    else if (is_set(leaves, "junk"))
        memset(now, 0xa5, PAGE);
}

static void lose_power(void)
{
    for (size_t page = 0; page < mapped_length / PAGE; page++)
        lose_page(page);
    _exit(99);
}

static void log_call(void)
{
    const char *log = getenv("STORE_LOG");
    FILE *file = log == NULL ? NULL : fopen(log, "a");

    if (file == NULL)
        return;
    fputc('.', file);
    fclose(file);
}

int __wrap_msync(void *address, size_t length, int flags)
{
    static int calls = 0;
    const char *cut = getenv("STORE_CUT");

    calls++;
    log_call();
    if (cut != NULL && atoi(cut) == calls)
        lose_power();
    if (is_set("STORE_FORGETS", calls % 2 == 0 ? "slot" : "mark"))
        return 0;
    memcpy(lasting, mapped, mapped_length);
    return __real_msync(address, length, flags);
}
