/*
 * How much stack a call takes: it is made on a stack that was filled with a pattern, and then the deepest word that differs from the pattern is
 * looked for. For the programs that measure a library's functions.
 */
#include <stdio.h>
#include <stdlib.h>
#include <string.h>
#include <ucontext.h>

#define STACK_ROOM (1 << 20)
#define STACK_WORDS (STACK_ROOM / sizeof(uint64_t))
#define PATTERN 0xa5
#define PATTERN_WORD (UINT64_MAX / 0xff * PATTERN)

#define NAME_OF(symbol) #symbol
#define TEXT_OF(symbol) NAME_OF(symbol)

static uint64_t stack[STACK_WORDS] __attribute__((aligned(64)));
static ucontext_t here, there;

static void nothing(void)
{
}

/* How much of the stack is no longer the pattern after a call, in bytes. */
static size_t taken_by(void (*call)(void))
{
    size_t untouched = 0;

    memset(stack, PATTERN, sizeof stack);
    getcontext(&there);
    there.uc_stack.ss_sp = stack;
    there.uc_stack.ss_size = sizeof stack;
    there.uc_link = &here;
    makecontext(&there, call, 0);
    swapcontext(&here, &there);
    while (untouched < STACK_WORDS && stack[untouched] == PATTERN_WORD)
        untouched++;
    return sizeof stack - untouched * sizeof *stack;
}

static void keep_most(size_t most[], int function, void (*call)(void))
{
    size_t taken = taken_by(call);

    if (taken > most[function])
        most[function] = taken;
}

/* Prints the most that each function took, then the most of all, which it answers. */
static size_t print_most(const char *const names[], const size_t most[], int functions)
{
    size_t all = 0;

    for (int function = 0; function < functions; function++) {
        printf("%s: %zu bytes\n", names[function], most[function]);
        if (most[function] > all)
            all = most[function];
    }
    printf("the most is %zu bytes, of which a call of nothing takes %zu; the header says %d\n", all, taken_by(nothing), PEATMITTEN_STACK);
    return all;
}

static size_t read_file(const char *path, void *bytes, size_t most)
{
    FILE *file = fopen(path, "rb");
    size_t got;

    if (file == NULL) {
        perror(path);
        exit(2);
    }
    got = fread(bytes, 1, most, file);
    fclose(file);
    return got;
}
