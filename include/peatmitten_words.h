/*
 * Peatmitten's numbers in words: the meanings of docs/NUMBERS.md. Nothing of this is in the archive.
 */
#ifndef PEATMITTEN_WORDS_H
#define PEATMITTEN_WORDS_H

#include "peatmitten.h"

/* What a peatmitten_answer means, an inner number too. Never null. */
static inline const char *peatmitten_words(uint32_t number)
{
    switch (number) {
    case PEATMITTEN_ACCEPTED:
        return "accepted";
    case PEATMITTEN_UNSOUND_CONFIG:
        return "the configuration is unsound: its check finds one of C1 to C6";
    case PEATMITTEN_UNSOUND_TABLE:
        return "the table is unsound: a count or an id is too high, two ids are equal, something unused is not "
               "zero, a region is not configured or has too many rights, or two regions overlap that must not";
    case PEATMITTEN_NO_REQUEST:
        return "no request: the kind is not 1 to 6, or a region came with adding or removing a zone";
    case PEATMITTEN_ZONE_ID_TOO_HIGH:
        return "the zone id is above 255";
    case PEATMITTEN_ZONE_THERE:
        return "the zone is already there";
    case PEATMITTEN_NO_ZONE:
        return "there is no such zone";
    case PEATMITTEN_ZONES_FULL:
        return "all zones of the table are in use";
    case PEATMITTEN_ZONE_IN_USE:
        return "the zone still holds a region, in its CPU set or in its IOMMU set";
    case PEATMITTEN_FORM:
        return "the region is not well formed: its size is 0, its v, p or size is no multiple of 4,096, or its "
               "rights are not 1 to 7";
    case PEATMITTEN_REACH:
        return "the region is out of reach: its guest end is above 2^40, or its physical end above 2^48";
    case PEATMITTEN_NOT_CONFIGURED:
        return "the region is not equal to a configured one";
    case PEATMITTEN_OVER_GIC:
        return "the region is for a CPU set and overlaps the GIC physically";
    case PEATMITTEN_REGION_THERE:
        return "the region is already in that set";
    case PEATMITTEN_PHYSICAL_OVERLAP:
        return "a forbidden physical overlap: with a region that another zone holds, or of a CPU region with one in "
               "the zone's own CPU set; only the GIC may be in the IOMMU sets of several zones";
    case PEATMITTEN_GUEST_OVERLAP:
        return "the region overlaps another one of that set in guest addresses";
    case PEATMITTEN_SET_FULL:
        return "that set has as many regions as it can";
    case PEATMITTEN_NO_REGION:
        return "the region is not in that set";
    case PEATMITTEN_NOT_COVERED:
        return "no region on that side of the zone covers the address";
    case PEATMITTEN_TOO_MANY_RIGHTS:
        return "the region has too many rights: a CPU region both writable and executable, or an IOMMU region "
               "executable";
    case PEATMITTEN_CUT:
        return "the plan or the log ends before a field is wholly there";
    case PEATMITTEN_COUNT:
        return "a count is out of range, or the third mark is another format's";
    case PEATMITTEN_TRAILING:
        return "the plan or the log goes on after its last section";
    case PEATMITTEN_OTHER_CONFIG:
        return "the plan is for another configuration, or for another position of the GIC";
    case PEATMITTEN_OTHER_EDITION:
        return "the plan is for another edition";
    case PEATMITTEN_NO_NEXT_EDITION:
        return "the edition is 2^32 - 1, which has no next";
    case PEATMITTEN_OTHER_ZONES:
        return "the plan is for other zones, or for these in another order";
    case PEATMITTEN_REQUEST_REFUSED:
        return "a request is refused, and the whole plan is undone";
    case PEATMITTEN_BUFFER_SHORT:
        return "the buffer that was lent is too short";
    case PEATMITTEN_TOO_MANY_REQUESTS:
        return "there are more requests than a plan can have";
    case PEATMITTEN_FALSE_CLAIM:
        return "a claim of the log is false: the rules answer that request otherwise";
    default:
        return "no number of the library";
    }
}

/* What a peatmitten_config_fault means. Never null. */
static inline const char *peatmitten_config_words(uint32_t fault)
{
    switch (fault) {
    case PEATMITTEN_CONFIG_SOUND:
        return "the configuration is sound";
    case PEATMITTEN_C1_COUNT:
        return "there is no region, or there are more than a configuration can have";
    case PEATMITTEN_C2_GIC:
        return "the GIC's position is not below the count of regions";
    case PEATMITTEN_C3_NOT_ZERO:
        return "a record past the count is not all zero";
    case PEATMITTEN_C4_FORM:
        return "a region is not well formed: its size is 0, its v, p or size is no multiple of 4,096, or its "
               "rights are not 1 to 7";
    case PEATMITTEN_C5_REACH:
        return "a region is out of reach: its guest end is above 2^40, or its physical end above 2^48";
    case PEATMITTEN_C6_OVERLAP:
        return "a region overlaps an earlier one physically";
    default:
        return "no fault of a configuration";
    }
}

#endif
