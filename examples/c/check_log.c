/*
 * Checks a log that a terminal sent back.
 *
 * usage: check_log <LOG
 *
 * Prints the number, the place, what the rules say and what was claimed, and in words what they mean. Exit status: 0 where all claims hold, 1 where
 * one is false or the bytes are no log, 2 where they cannot be read. `./peatmitten log` also says which request that was, and the zones at the end.
 */
#include <stdio.h>

#include "peatmitten.h"
#include "peatmitten_words.h"

/* Room to work in, which is no terminal's state; and a buffer that is never too short. */
static peatmitten_state room;
static uint8_t zones[PEATMITTEN_LONGEST_PLAN];

/* A byte more than a log can have is enough to see that there are too many. */
static uint8_t log_bytes[PEATMITTEN_LONGEST_LOG + 1];

int main(void)
{
    size_t length = fread(log_bytes, 1, sizeof log_bytes, stdin);
    peatmitten_audited found;

    if (ferror(stdin)) {
        perror("check_log: cannot read standard input");
        return 2;
    }
    found = peatmitten_audit(&room, log_bytes, length, zones, sizeof zones);
    printf("%u %zu %u %u: ", (unsigned)found.number, found.place, (unsigned)found.right, (unsigned)found.claimed);
    if (found.number == PEATMITTEN_ACCEPTED)
        puts("all claims hold");
    else
        puts(peatmitten_words(found.number));
    if (found.number == PEATMITTEN_FALSE_CLAIM)
        printf("claimed: %s\nright: %s\n", peatmitten_words(found.claimed), peatmitten_words(found.right));
    return found.number != PEATMITTEN_ACCEPTED;
}
