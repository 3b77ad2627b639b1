/*
 * Peatmitten for terminals with owners, the bank variant: each region but the GIC's belongs to one zone from the factory on, and no other zone
 * may hold it.
 *
 * The functions of libpeatmitten_bank.a, a second static library. It needs nothing of the first; a program that calls both includes peatmitten.h
 * too, and links both. (Where it was just built, it is libbank.a; `./peatmitten bank library` says where.) What peatmitten.h says of its functions holds of these too: they are total, and what it
 * asks of pointers and threads, its stack (PEATMITTEN_STACK; measured were 6,840 bytes on x86-64, for peatmitten_bank_apply_words), its imports and
 * its processors are the same. Limits, words of configurations and tables, kinds, sides and numbers are its own, but for what stands here.
 *
 * A plan for such a terminal has an owners section between its regions and its base zones. No mark of a plan tells which machine it is for: each
 * agent is for one of them.
 */
#ifndef PEATMITTEN_BANK_H
#define PEATMITTEN_BANK_H

#define PEATMITTEN_WITHOUT_LIBRARY
#include "peatmitten.h"
#undef PEATMITTEN_WITHOUT_LIBRARY

#ifdef __cplusplus
extern "C" {
#endif

enum { PEATMITTEN_BANK_LONGEST_PLAN = 62880 /* bytes; a longer file is no plan */ };

/* The owner of the GIC's region, and of it only. Every other region has the id of a zone, which need not be there. */
#define PEATMITTEN_BANK_GIC_OWNER UINT32_MAX

/* What peatmitten_bank_check_config answers beside a peatmitten_config_fault, after C3 and before C4: an owner is wrong. */
enum { PEATMITTEN_C7_OWNER = 7 };

/*
 * What a terminal keeps. Owners are one for each region that there can be, in the order of the regions and 0 past their count; the other three
 * are those of a peatmitten_state.
 */
typedef struct peatmitten_bank_state {
    uint64_t config[PEATMITTEN_CONFIG_WORDS];
    uint32_t owners[PEATMITTEN_MOST_REGIONS];
    uint64_t table[PEATMITTEN_TABLE_WORDS];
    uint32_t edition;
} peatmitten_bank_state;

PEATMITTEN_ASSERT(offsetof(peatmitten_bank_state, owners) == 8 * PEATMITTEN_CONFIG_WORDS, "the owners stand after the configuration");
PEATMITTEN_ASSERT(offsetof(peatmitten_bank_state, table) == offsetof(peatmitten_bank_state, owners) + 4 * PEATMITTEN_MOST_REGIONS,
                  "the table stands after the owners");
PEATMITTEN_ASSERT(offsetof(peatmitten_bank_state, edition) == offsetof(peatmitten_bank_state, table) + 8 * PEATMITTEN_TABLE_WORDS,
                  "the edition stands after the table");
PEATMITTEN_ASSERT(sizeof(peatmitten_bank_state) == offsetof(peatmitten_bank_state, edition) + 8, "the last 4 bytes of a state are padding");

/*
 * Header and library belong together, as peatmitten.h says of peatmitten_layout. It answers the numbers of peatmitten_layout_number up to the
 * longest plan, which is this library's own, and 0 for any other.
 */
#define peatmitten_bank_layout peatmitten_bank_layout_256_32_16_512_4
uint64_t peatmitten_bank_layout_256_32_16_512_4(uint32_t which);

static uint64_t (*const peatmitten_bank_layout_needed)(uint32_t) __attribute__((used)) = peatmitten_bank_layout;

/*
 * Checks a configuration with owners. Answers a peatmitten_config_fault or PEATMITTEN_C7_OWNER: the first in the order C1, C2, C3, C7, and then
 * C4 to C6 position by position. C3 is also an owner past the count that is not 0.
 * places[0] is the position at fault (C3 to C7), places[1] the lowest earlier position that it overlaps (C6); else 0.
 */
uint32_t peatmitten_bank_check_config(const uint64_t config[PEATMITTEN_CONFIG_WORDS], const uint32_t owners[PEATMITTEN_MOST_REGIONS],
                                      uint64_t places[2]);

/*
 * Answers 1 if the configuration is sound and the table is sound under it, with every zone holding regions that it owns alone, but for the GIC on
 * the IOMMU side; else 0.
 */
uint32_t peatmitten_bank_check_table(const uint64_t config[PEATMITTEN_CONFIG_WORDS], const uint32_t owners[PEATMITTEN_MOST_REGIONS],
                                     const uint64_t table[PEATMITTEN_TABLE_WORDS]);

/*
 * Makes one request of the table, as peatmitten_request does, whose region is lent here. Answers 0 to 11, 13, 15 to 17 or 19: an insert of a region
 * that the zone does not own is 11, the GIC on the IOMMU side excepted; 12 and 14 do not occur.
 */
uint32_t peatmitten_bank_request(const uint64_t config[PEATMITTEN_CONFIG_WORDS], const uint32_t owners[PEATMITTEN_MOST_REGIONS],
                                 uint64_t table[PEATMITTEN_TABLE_WORDS], uint32_t kind, uint32_t zone,
                                 const uint64_t region[PEATMITTEN_REGION_WORDS]);

/* Says where a guest address of a zone comes out, and how far that goes on, as peatmitten_translate_words does. */
uint32_t peatmitten_bank_translate_words(const uint64_t config[PEATMITTEN_CONFIG_WORDS], const uint32_t owners[PEATMITTEN_MOST_REGIONS],
                                         const uint64_t table[PEATMITTEN_TABLE_WORDS], uint32_t zone, uint32_t side, uint64_t address,
                                         uint64_t stretch[2]);

/* The same with the answer in one piece. */
static inline peatmitten_translated peatmitten_bank_translate(const peatmitten_bank_state *state, uint32_t zone, uint32_t side,
                                                              uint64_t address)
{
    uint64_t stretch[2];
    peatmitten_translated translated;

    translated.number = peatmitten_bank_translate_words(state->config, state->owners, state->table, zone, side, address, stretch);
    translated.physical = stretch[0];
    translated.remaining = stretch[1];
    return translated;
}

/* Reads a plan with owners, without a terminal, as peatmitten_read does. A count of owners other than that of the regions is 21. */
uint32_t peatmitten_bank_read(const uint8_t *plan, size_t length, uint64_t place[1]);

/*
 * Applies a plan with owners to a terminal's state, which is lent in four parts, as peatmitten_apply_words does. Owners that differ from the
 * terminal's are 23. Only table, edition and places are written.
 */
uint32_t peatmitten_bank_apply_words(const uint64_t config[PEATMITTEN_CONFIG_WORDS], const uint32_t owners[PEATMITTEN_MOST_REGIONS],
                                     uint64_t table[PEATMITTEN_TABLE_WORDS], uint32_t *edition, const uint8_t *plan, size_t length,
                                     uint64_t places[2]);

/* The same of a state in one piece. */
static inline peatmitten_outcome peatmitten_bank_apply(peatmitten_bank_state *state, const uint8_t *plan, size_t length)
{
    uint64_t places[2];
    peatmitten_outcome outcome;

    outcome.number = peatmitten_bank_apply_words(state->config, state->owners, state->table, &state->edition, plan, length, places);
    outcome.place = (size_t)places[0];
    outcome.inner = (uint32_t)places[1];
    return outcome;
}

/*
 * Applies a plan with owners beside a terminal's table, for a state in storage, as peatmitten_beside_words does. Only `other` and the answer are
 * written. peatmitten_bank_store.h is over it.
 */
uint32_t peatmitten_bank_beside_words(const uint64_t config[PEATMITTEN_CONFIG_WORDS], const uint32_t owners[PEATMITTEN_MOST_REGIONS],
                                      const uint64_t current[PEATMITTEN_TABLE_WORDS], uint64_t other[PEATMITTEN_TABLE_WORDS], uint32_t mark,
                                      const uint8_t *plan, size_t length, uint64_t answer[3]);

#ifdef __cplusplus
}
#endif

#endif
