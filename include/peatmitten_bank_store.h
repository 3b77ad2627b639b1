/*
 * A terminal with owners whose state is in storage: peatmitten_store.h, with the second library. Stores, parts and starts are the same.
 */
#ifndef PEATMITTEN_BANK_STORE_H
#define PEATMITTEN_BANK_STORE_H

#include "peatmitten_bank.h"
#define PEATMITTEN_WITHOUT_LIBRARY
#include "peatmitten_store.h"
#undef PEATMITTEN_WITHOUT_LIBRARY

#ifdef __cplusplus
extern "C" {
#endif

/* Delivers a plan with owners, as peatmitten_store_deliver does. The owners are the factory's, as the configuration is. */
static inline int peatmitten_bank_store_deliver(peatmitten_store *store, const uint32_t owners[PEATMITTEN_MOST_REGIONS], const uint8_t *plan,
                                                size_t length, peatmitten_outcome *outcome)
{
    uint64_t answer[3];
    uint32_t number;

    if (!store->is_started)
        return PEATMITTEN_STORE_NOT_STARTED;
    number = peatmitten_bank_beside_words(store->config, owners, peatmitten_store_table(store), peatmitten_store_other(store), store->mark,
                                          plan, length, answer);
    return peatmitten_store_keep(store, number, answer, outcome);
}

#ifdef __cplusplus
}
#endif

#endif
