/*
 * Peatmitten's numbers in words for terminals with owners: docs/NUMBERS.md, "Terminals with owners", and where that is silent the first machine's.
 */
#ifndef PEATMITTEN_BANK_WORDS_H
#define PEATMITTEN_BANK_WORDS_H

#include "peatmitten_bank.h"
#define PEATMITTEN_WITHOUT_LIBRARY
#include "peatmitten_words.h"
#undef PEATMITTEN_WITHOUT_LIBRARY

/* What a peatmitten_answer means there, an inner number too. Never null. */
static inline const char *peatmitten_bank_words(uint32_t number)
{
    switch (number) {
    case PEATMITTEN_UNSOUND_CONFIG:
        return "the configuration is unsound: its check finds one of C1 to C7";
    case PEATMITTEN_UNSOUND_TABLE:
        return "the table is unsound: a count or an id is too high, two ids are equal, something unused is not zero, a zone holds a "
               "region that it does not own or with too many rights, or two regions of a set overlap";
    case PEATMITTEN_NOT_CONFIGURED:
        return "the region is not equal to a configured one that the zone owns, or is the GIC for a CPU set";
    case PEATMITTEN_OVER_GIC:
        return "it does not occur: the GIC for a CPU set is 11";
    case PEATMITTEN_PHYSICAL_OVERLAP:
        return "it does not occur: what another zone owns is 11";
    case PEATMITTEN_COUNT:
        return "a count is out of range, the owners' count is not the regions', or the third mark is another format's";
    case PEATMITTEN_OTHER_CONFIG:
        return "the plan is for another configuration, for another position of the GIC, or for other owners";
    default:
        return peatmitten_words(number);
    }
}

/* What peatmitten_bank_check_config answers means. Never null. */
static inline const char *peatmitten_bank_config_words(uint32_t fault)
{
    switch (fault) {
    case PEATMITTEN_C3_NOT_ZERO:
        return "past the count a record is not all zero, or an owner is not 0";
    case PEATMITTEN_C7_OWNER:
        return "an owner is wrong: the GIC's is not 2^32 - 1, or another's is no zone id";
    default:
        return peatmitten_config_words(fault);
    }
}

#endif
