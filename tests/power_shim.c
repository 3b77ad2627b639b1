/*
 * Stands between a program and the system's file calls (the linker's --wrap), and plays a cut in power or a call that fails. What is
 * written to standard error is left alone.
 *
 *     POWER_LOG=FILE     each call is written there, one a line
 *     POWER_CUT=N        the power goes before the N-th call: the process ends with status 99
 *     POWER_FAIL=N       the N-th call does nothing and fails: "Input/output error"
 *     POWER_LOSES=..     what a cut takes with it, besides the process:
 *         nothing        all that was written is on the disk
 *         data           of a file that was written and not synced since, every byte
 *         names          a rename whose folder was not synced since; and data, as above
 *     POWER_FORGETS=..   which sync does nothing, so that a test can be seen to fail: `file` or `folder`
 *     POWER_WRITES=N     a write takes N bytes at most, as a system may
 *
 * It knows one file that is created and written at a time, which is all that these programs do.
 */
#define _POSIX_C_SOURCE 200809L

#include <errno.h>
#include <fcntl.h>
#include <stdio.h>
#include <stdlib.h>
#include <string.h>
#include <sys/stat.h>
#include <sys/types.h>
#include <unistd.h>

int __real_open(const char *path, int flags, ...);
int __real_close(int file);
int __real_fsync(int file);
int __real_rename(const char *from, const char *to);
ssize_t __real_read(int file, void *bytes, size_t length);
ssize_t __real_write(int file, const void *bytes, size_t length);

static char unsynced[4096]; /* the file whose bytes are not on the disk yet, by its present name; or none */
static char renamed[4096];  /* the name that a rename gave, while its folder is not synced; or none */
static char before[4096];   /* the file that had that name before, kept here; or none */
static int written = -1;    /* the descriptor of the file that is written */

static int is_set(const char *variable, const char *value)
{
    const char *set = getenv(variable);

    return set != NULL && strcmp(set, value) == 0;
}

static int is_now(const char *variable, int call)
{
    const char *set = getenv(variable);

    return set != NULL && atoi(set) == call;
}

static void log_call(const char *name, const char *path)
{
    const char *log = getenv("POWER_LOG");
    FILE *file;

    if (log == NULL)
        return;
    file = fopen(log, "a");
    fprintf(file, "%s%s%s\n", name, path[0] == '\0' ? "" : " ", path);
    fclose(file);
}

static void lose_power(void)
{
    if (!is_set("POWER_LOSES", "nothing") && unsynced[0] != '\0')
        truncate(unsynced, 0);
    if (is_set("POWER_LOSES", "names") && renamed[0] != '\0') {
        if (before[0] != '\0')
            __real_rename(before, renamed);
        else
            unlink(renamed);
    }
    _exit(99);
}

/* Counts a call. Answers whether it is to fail. */
static int is_failing(const char *name, const char *path)
{
    static int calls = 0;

    calls++;
    if (is_now("POWER_CUT", calls))
        lose_power();
    log_call(name, path);
    if (!is_now("POWER_FAIL", calls))
        return 0;
    errno = EIO;
    return 1;
}

static int open_counted(const char *path, int flags, int mode)
{
    int file;

    if (is_failing("open", path))
        return -1;
    file = __real_open(path, flags, mode);
    if (file >= 0 && flags & O_CREAT) {
        written = file;
        snprintf(unsynced, sizeof unsynced, "%s", path);
    }
    return file;
}

/* Programs in C call the first, programs in Rust the second. */
int __wrap_open(const char *path, int flags, int mode)
{
    return open_counted(path, flags, mode);
}

int __wrap_open64(const char *path, int flags, int mode)
{
    return open_counted(path, flags, mode);
}

ssize_t __wrap_read(int file, void *bytes, size_t length)
{
    return is_failing("read", "") ? -1 : __real_read(file, bytes, length);
}

/* How many of so many bytes a write takes. */
static size_t taken_of(size_t length)
{
    const char *most = getenv("POWER_WRITES");

    return most == NULL || length < (size_t)atoi(most) ? length : (size_t)atoi(most);
}

ssize_t __wrap_write(int file, const void *bytes, size_t length)
{
    if (file == STDERR_FILENO)
        return __real_write(file, bytes, length);
    return is_failing("write", file == STDOUT_FILENO ? "answer" : "") ? -1 : __real_write(file, bytes, taken_of(length));
}

int __wrap_fsync(int file)
{
    int is_folder = file != written;

    if (is_failing("fsync", is_folder ? "folder" : "file"))
        return -1;
    if (is_set("POWER_FORGETS", is_folder ? "folder" : "file"))
        return 0;
    if (is_folder) {
        unlink(before);
        renamed[0] = before[0] = '\0';
    } else {
        unsynced[0] = '\0';
    }
    return __real_fsync(file);
}

int __wrap_close(int file)
{
    if (is_failing("close", ""))
        return -1;
    if (file == written)
        written = -1;
    return __real_close(file);
}

int __wrap_rename(const char *from, const char *to)
{
    if (is_failing("rename", to))
        return -1;
    snprintf(renamed, sizeof renamed, "%s", to);
    snprintf(before, sizeof before, "%s.before", to);
    unlink(before);
    if (link(to, before) != 0)
        before[0] = '\0';
    if (strcmp(unsynced, from) == 0)
        snprintf(unsynced, sizeof unsynced, "%s", to);
    return __real_rename(from, to);
}
