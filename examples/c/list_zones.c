/*
 * Prints the map listing of a small terminal: zone 5 has memory for its processor, and its devices the interrupt controller.
 *
 * usage: list_zones
 *
 * A buffer of PEATMITTEN_LONGEST_LISTING bytes is never too short, so the only refusals are 1 and 2, of a state that is unsound.
 */
#include <inttypes.h>
#include <stdio.h>
#include <string.h>

#include "peatmitten.h"
#include "peatmitten_words.h"

static const uint64_t memory[PEATMITTEN_REGION_WORDS] = {0x40000000, 0x80000000, 0x200000, PEATMITTEN_READ | PEATMITTEN_WRITE};
static const uint64_t gic[PEATMITTEN_REGION_WORDS] = {0x08000000, 0x08000000, 0x10000, PEATMITTEN_READ | PEATMITTEN_WRITE};
static const uint64_t none[PEATMITTEN_REGION_WORDS];

static uint32_t request(peatmitten_state *state, uint32_t kind, const uint64_t region[PEATMITTEN_REGION_WORDS])
{
    return peatmitten_request(state->config, state->table, kind, 5, region[0], region[1], region[2], region[3]);
}

static uint32_t make(peatmitten_state *state)
{
    uint32_t number;

    state->config[PEATMITTEN_CONFIG_COUNT] = 2;
    state->config[PEATMITTEN_CONFIG_GIC] = 1;
    memcpy(&state->config[PEATMITTEN_CONFIG_REGIONS], memory, sizeof memory);
    memcpy(&state->config[PEATMITTEN_CONFIG_REGIONS + PEATMITTEN_REGION_WORDS], gic, sizeof gic);
    if ((number = request(state, PEATMITTEN_ADD_ZONE, none)) != PEATMITTEN_ACCEPTED)
        return number;
    if ((number = request(state, PEATMITTEN_CPU_INSERT, memory)) != PEATMITTEN_ACCEPTED)
        return number;
    return request(state, PEATMITTEN_IOMMU_INSERT, gic);
}

int main(void)
{
    static peatmitten_state state;
    static uint8_t listing[PEATMITTEN_LONGEST_LISTING];
    uint64_t length[1];
    uint32_t number = make(&state);

    if (number == PEATMITTEN_ACCEPTED)
        number = peatmitten_list(state.config, state.table, listing, sizeof listing, length);
    if (number != PEATMITTEN_ACCEPTED) {
        fprintf(stderr, "list_zones: %" PRIu32 ": %s\n", number, peatmitten_words(number));
        return 1;
    }
    if (fwrite(listing, 1, (size_t)length[0], stdout) != length[0] || fflush(stdout) != 0) {
        perror("list_zones: cannot write standard output");
        return 2;
    }
    return 0;
}
