/*
 * Applies plan files to a terminal's state, in the order given, and prints a line for each:
 *
 *     NUMBER PLACE INNER, edition EDITION
 *
 * usage: apply_plan [-s STATE] PLAN...
 *
 * Without -s the terminal starts with the GIC's region only, no zones and edition 0, and forgets what it did. With -s it starts
 * from the file STATE, if there is one, and keeps its state there: after every accepted plan the new state is on the disk before
 * the line is printed. A cut in power at any time leaves the old state or the new one, and never takes back what was printed.
 *
 * One process at a time may use a state file. STATE.new is written on the way; what is left of it may be removed or kept.
 *
 * Exit status: 0 all plans were accepted, 1 some plan was refused, 2 bad usage or a file that cannot be read or written.
 */
#define _POSIX_C_SOURCE 200809L

#include <errno.h>
#include <fcntl.h>
#include <inttypes.h>
#include <stdio.h>
#include <stdlib.h>
#include <string.h>
#include <unistd.h>

#include "peatmitten.h"

/* One byte more than the longest plan, so that a longer file is seen to be longer. */
#define PLAN_ROOM (PEATMITTEN_LONGEST_PLAN + 1)

#define PATH_ROOM 4096

/* What a state takes without the padding after it; in the file zeros stand there. */
#define STATE_USED (offsetof(peatmitten_state, edition) + sizeof(uint32_t))

/* Ends the program with the system's reason. The state file is as it was, or has the new state whole. */
static _Noreturn void fail(const char *doing, const char *path)
{
    int reason = errno;

    fprintf(stderr, "apply_plan: cannot %s %s: %s\n", doing, path, strerror(reason));
    exit(2);
}

static int open_file(const char *path, int flags)
{
    int file = open(path, flags | O_CLOEXEC, 0666);

    if (file < 0)
        fail("open", path);
    return file;
}

static void close_file(int file, const char *path)
{
    if (close(file) != 0)
        fail("close", path);
}

static void sync_file(int file, const char *path)
{
    if (fsync(file) != 0)
        fail("sync", path);
}

/* Reads up to `most` bytes, fewer only where the file ends. */
static size_t read_file(int file, void *bytes, size_t most, const char *path)
{
    size_t length = 0;
    ssize_t got;

    do {
        got = read(file, (char *)bytes + length, most - length);
        if (got < 0)
            fail("read", path);
        length += (size_t)got;
    } while (got > 0 && length < most);
    return length;
}

static void write_file(int file, const void *bytes, size_t length, const char *path)
{
    size_t done = 0;
    ssize_t put;

    while (done < length) {
        put = write(file, (const char *)bytes + done, length - done);
        if (put < 0)
            fail("write", path);
        done += (size_t)put;
    }
}

/* Makes what the folder says of the file last: that it is there, and which file has its name. */
static void sync_folder_of(const char *path)
{
    const char *slash = strrchr(path, '/');
    char folder[PATH_ROOM] = ".";
    int file;

    if (slash != NULL)
        snprintf(folder, sizeof folder, "%.*s", slash == path ? 1 : (int)(slash - path), path);
    file = open_file(folder, O_RDONLY | O_DIRECTORY);
    sync_file(file, folder);
    close_file(file, folder);
}

static void start_state(peatmitten_state *state)
{
    static const uint64_t gic[PEATMITTEN_REGION_WORDS] = {0x08000000, 0x08000000, 0x10000, PEATMITTEN_READ | PEATMITTEN_WRITE};

    memset(state, 0, sizeof *state);
    state->config[PEATMITTEN_CONFIG_COUNT] = 1;
    state->config[PEATMITTEN_CONFIG_GIC] = 0;
    memcpy(&state->config[PEATMITTEN_CONFIG_REGIONS], gic, sizeof gic);
}

/*
 * Reads the state file. Any file of the right size will do: the library itself says whether its numbers are sound. If the last run was
 * stopped before it had synced the folder, that is done now: what is answered from this state must not be taken back.
 */
static void load_state(peatmitten_state *state, const char *path)
{
    unsigned char bytes[sizeof *state + 1];
    int file = open(path, O_RDONLY | O_CLOEXEC);
    size_t length;

    if (file < 0 && errno == ENOENT) {
        start_state(state);
        return;
    }
    if (file < 0)
        fail("open", path);
    length = read_file(file, bytes, sizeof bytes, path);
    close_file(file, path);
    if (length != sizeof *state) {
        fprintf(stderr, "apply_plan: %s is no state file: a state has %zu bytes\n", path, sizeof *state);
        exit(2);
    }
    memcpy(state, bytes, sizeof *state);
    sync_folder_of(path);
}

/*
 * Writes the state to a file beside, makes it last, gives it the name, and makes that last: until the name changes, the old file is
 * whole; from then on the new one is. Where this returns, no cut in power can bring the old state back.
 */
static void save_state(const peatmitten_state *state, const char *path)
{
    unsigned char bytes[sizeof *state] = {0};
    char beside[PATH_ROOM];
    int file;

    if (snprintf(beside, sizeof beside, "%s.new", path) >= (int)sizeof beside) {
        errno = ENAMETOOLONG;
        fail("write", path);
    }
    memcpy(bytes, state, STATE_USED);
    file = open_file(beside, O_WRONLY | O_CREAT | O_TRUNC);
    write_file(file, bytes, sizeof bytes, beside);
    sync_file(file, beside);
    close_file(file, beside);
    if (rename(beside, path) != 0)
        fail("replace", path);
    sync_folder_of(path);
}

static size_t read_plan(uint8_t plan[PLAN_ROOM], const char *path)
{
    int file = open_file(path, O_RDONLY);
    size_t length = read_file(file, plan, PLAN_ROOM, path);

    close_file(file, path);
    return length;
}

/* Applies one plan, keeps the new state if there is one and a file for it, and only then prints the answer. */
static int is_accepted(peatmitten_state *state, const char *state_path, const char *plan_path)
{
    static uint8_t plan[PLAN_ROOM];
    size_t length = read_plan(plan, plan_path);
    peatmitten_outcome outcome = peatmitten_apply(state, plan, length);
    int accepted = outcome.number == PEATMITTEN_ACCEPTED;

    if (accepted && state_path != NULL)
        save_state(state, state_path);
    if (printf("%" PRIu32 " %zu %" PRIu32 ", edition %" PRIu32 "\n", outcome.number, outcome.place, outcome.inner, state->edition) < 0 ||
        fflush(stdout) != 0)
        fail("write", "standard output");
    return accepted;
}

int main(int argc, char **argv)
{
    static peatmitten_state state;
    const char *state_path = NULL;
    int status = 0;
    int at = 1;

    if (argc > 2 && strcmp(argv[1], "-s") == 0) {
        state_path = argv[2];
        at = 3;
    }
    if (at >= argc) {
        fprintf(stderr, "usage: apply_plan [-s STATE] PLAN...\n");
        return 2;
    }
    if (state_path != NULL)
        load_state(&state, state_path);
    else
        start_state(&state);
    for (; at < argc; at++) {
        if (!is_accepted(&state, state_path, argv[at]))
            status = 1;
    }
    return status;
}
