/*
 * Takes a plan from standard input in pieces, as a modem hands them over, and applies it when the input ends. It prints a line:
 *
 *     PIECES pieces, BYTES bytes: NUMBER PLACE INNER, edition EDITION
 *
 * usage: receive_plan MOST
 *
 * A piece is what one read gives, MOST bytes at most. The terminal starts with the GIC's region only, no zones and edition 0, and forgets
 * what it did; apply_plan.c has one that keeps its state.
 *
 * The buffer is as long as the longest plan and no longer. What comes behind that is not stored, and is answered all the same.
 *
 * Exit status: 0 the plan was accepted, 1 it was refused, 2 bad usage or an input that cannot be read.
 */
#define _POSIX_C_SOURCE 200809L

#include <errno.h>
#include <inttypes.h>
#include <stdio.h>
#include <stdlib.h>
#include <string.h>
#include <unistd.h>

#include "peatmitten.h"

static const uint64_t gic[] = {0x08000000, 0x08000000, 0x10000, PEATMITTEN_READ | PEATMITTEN_WRITE};

static peatmitten_state terminal;
static uint8_t buffer[PEATMITTEN_LONGEST_PLAN];
static uint8_t piece[4096];

static void set_up(void)
{
    terminal.config[PEATMITTEN_CONFIG_COUNT] = 1;
    memcpy(terminal.config + PEATMITTEN_CONFIG_REGIONS, gic, sizeof gic);
}

int main(int argc, char **argv)
{
    peatmitten_receiver receiver = {0, 0};
    peatmitten_outcome outcome;
    unsigned long most = argc == 2 ? strtoul(argv[1], NULL, 10) : 0;
    size_t pieces = 0, bytes = 0;
    ssize_t got;

    if (most < 1 || most > sizeof piece) {
        fprintf(stderr, "usage: receive_plan MOST\n");
        return 2;
    }
    set_up();
    while ((got = read(STDIN_FILENO, piece, most)) > 0) {
        /* The buffer is long enough, so the answer is 0. */
        peatmitten_take(&receiver, buffer, sizeof buffer, piece, (size_t)got);
        pieces++;
        bytes += (size_t)got;
    }
    if (got < 0) {
        fprintf(stderr, "receive_plan: cannot read: %s\n", strerror(errno));
        return 2;
    }
    outcome = peatmitten_end(&terminal, &receiver, buffer, sizeof buffer);
    printf("%zu pieces, %zu bytes: %" PRIu32 " %zu %" PRIu32 ", edition %" PRIu32 "\n", pieces, bytes, outcome.number, outcome.place,
           outcome.inner, terminal.edition);
    return outcome.number != PEATMITTEN_ACCEPTED;
}
