/*
 * A terminal's state in storage where the power may be cut at any time: FRAM, flash, eMMC, a mapped file. docs/STORAGE.md says what is proved
 * of a terminal that does as this header does, what is assumed of the part, and which parts will do.
 *
 * Storage is a mark, which is the edition e, and two slots for the words of a table; the table of e is in slot e mod 2, and the other slot may hold
 * anything at all. A new terminal has mark 0 and a slot 0 of zeros. The configuration is the factory's, and is never written.
 *
 * Nothing is believed for its looks, but for the order of writes. So everything goes through three calls of the part's driver, each of which
 * answers 0 if it was done:
 *
 *     write_words  writes a table's words into a slot of the part. It is a null pointer where the slots of the store are the part's own memory
 *     write_mark   writes the mark
 *     wait         returns when all that was written since the power came lasts, the words of a mapped slot among it
 *
 * A terminal reads the mark once after the power came, and starts; then it delivers each plan that arrives, and answers for it:
 *
 *     peatmitten_store store = {.config = config, .slot = {first, second}, .part = part};
 *     peatmitten_outcome outcome;
 *
 *     if (peatmitten_store_start(&store, read_mark()) != PEATMITTEN_STORE_DONE)
 *         restart();
 *     while (next_plan(&plan, &length)) {
 *         if (peatmitten_store_deliver(&store, plan, length, &outcome) != PEATMITTEN_STORE_DONE)
 *             restart();
 *         answer(outcome, store.mark);
 *     }
 *
 * After a fault nothing may be told, neither an answer nor an edition: nobody knows what a call that failed has left. The terminal starts anew, as
 * after a cut: it reads the mark again, once. Until then each delivery is a fault.
 *
 * Nothing is allocated, and there is no global state. One agent at a time works on a part.
 */
#ifndef PEATMITTEN_STORE_H
#define PEATMITTEN_STORE_H

#include "peatmitten.h"

#ifdef __cplusplus
extern "C" {
#endif

/* What the functions of a store answer. */
enum peatmitten_store_answer {
    PEATMITTEN_STORE_DONE = 0,
    PEATMITTEN_STORE_NOT_STARTED = 1, /* no start was done since the power came, or since a fault: nothing was done */
    PEATMITTEN_STORE_PART_FAILED = 2  /* a call of the part did not answer 0: nothing may be told, and the terminal starts anew */
};

/* The driver of a part. Each call gets the context, and answers 0 if it was done. */
typedef struct peatmitten_part {
    void *context;
    int (*write_words)(void *context, uint32_t slot, const uint64_t words[PEATMITTEN_TABLE_WORDS]); /* or null: the slots are mapped */
    int (*write_mark)(void *context, uint32_t mark);
    int (*wait)(void *context);
} peatmitten_part;

/*
 * A terminal's storage. `slot` points to the words of slot 0 and of slot 1, PEATMITTEN_TABLE_WORDS each. Where they are mapped, that is the part's
 * own memory. Else they are copies: before the start that of slot mark mod 2 is read from the part, and the other is room to work in.
 * Only the slot that is not that of the mark is written. So a part that is mapped for reading needs one such room: after a start, and after each
 * plan that was accepted, slot[mark % 2] is pointed to the part, and the other one to the room.
 */
typedef struct peatmitten_store {
    const uint64_t *config; /* PEATMITTEN_CONFIG_WORDS words */
    uint64_t *slot[2];
    peatmitten_part part;
    uint32_t mark;  /* the edition, which may be told while the store is started */
    int is_started; /* 0 until a start was done, and after a fault */
} peatmitten_store;

static inline int peatmitten_store_failed(peatmitten_store *store)
{
    store->is_started = 0;
    return PEATMITTEN_STORE_PART_FAILED;
}

/* Writes the mark and waits. Only then does the store have that edition. */
static inline int peatmitten_store_write_mark(peatmitten_store *store, uint32_t mark)
{
    const peatmitten_part *part = &store->part;

    if (part->write_mark(part->context, mark) != 0 || part->wait(part->context) != 0)
        return peatmitten_store_failed(store);
    store->mark = mark;
    return PEATMITTEN_STORE_DONE;
}

/*
 * Starts a terminal with the mark as it was read, once, since the power came. Writes it again and waits: a mark whose write was cut may read new now and
 * old after the next cut, and until it lasts nothing may be told or worked on.
 */
static inline int peatmitten_store_start(peatmitten_store *store, uint32_t mark)
{
    store->is_started = 0;
    if (peatmitten_store_write_mark(store, mark) != PEATMITTEN_STORE_DONE)
        return PEATMITTEN_STORE_PART_FAILED;
    store->is_started = 1;
    return PEATMITTEN_STORE_DONE;
}

/* The table of the store's edition, and the slot that a delivery works in. */
static inline const uint64_t *peatmitten_store_table(const peatmitten_store *store)
{
    return store->slot[store->mark % 2];
}

static inline uint64_t *peatmitten_store_other(const peatmitten_store *store)
{
    return store->slot[1 - store->mark % 2];
}

/*
 * The second half of a delivery, after the plan was applied beside the table: the slot is made to last, then the mark. A refusal programs nothing.
 * answer is as peatmitten_beside_words writes it.
 */
static inline int peatmitten_store_keep(peatmitten_store *store, uint32_t number, const uint64_t answer[3], peatmitten_outcome *outcome)
{
    const peatmitten_part *part = &store->part;

    if (number == PEATMITTEN_ACCEPTED) {
        if (part->write_words != NULL &&
            part->write_words(part->context, 1 - store->mark % 2, peatmitten_store_other(store)) != 0)
            return peatmitten_store_failed(store);
        if (part->wait(part->context) != 0)
            return peatmitten_store_failed(store);
        if (peatmitten_store_write_mark(store, (uint32_t)answer[0]) != PEATMITTEN_STORE_DONE)
            return PEATMITTEN_STORE_PART_FAILED;
    }
    outcome->number = number;
    outcome->place = (size_t)answer[1];
    outcome->inner = (uint32_t)answer[2];
    return PEATMITTEN_STORE_DONE;
}

/*
 * Delivers a plan: applies it beside the table, and after 0 makes the next state last. When this answers PEATMITTEN_STORE_DONE, *outcome is the answer
 * to give, as of peatmitten_apply, and the store has the edition that goes with it; no cut takes either back. Else *outcome is not written.
 */
static inline int peatmitten_store_deliver(peatmitten_store *store, const uint8_t *plan, size_t length, peatmitten_outcome *outcome)
{
    uint64_t answer[3];
    uint32_t number;

    if (!store->is_started)
        return PEATMITTEN_STORE_NOT_STARTED;
    number = peatmitten_beside_words(store->config, peatmitten_store_table(store), peatmitten_store_other(store), store->mark, plan, length,
                                     answer);
    return peatmitten_store_keep(store, number, answer, outcome);
}

/*
 * The same of a plan that came in pieces, which peatmitten_take took into the buffer. Number, place, inner number and receiver are those of
 * peatmitten_end.
 */
static inline int peatmitten_store_end(peatmitten_store *store, peatmitten_receiver *receiver, const uint8_t *buffer, size_t buffer_length,
                                       peatmitten_outcome *outcome)
{
    uint64_t words[2], answer[3];
    uint32_t edition = store->mark, number;

    if (!store->is_started)
        return PEATMITTEN_STORE_NOT_STARTED;
    for (size_t word = 0; word < PEATMITTEN_TABLE_WORDS; word++)
        peatmitten_store_other(store)[word] = peatmitten_store_table(store)[word];
    words[0] = receiver->stored;
    words[1] = receiver->more;
    number = peatmitten_end_words(store->config, peatmitten_store_other(store), &edition, words, buffer, buffer_length, answer + 1);
    receiver->stored = words[0];
    receiver->more = words[1];
    answer[0] = edition;
    return peatmitten_store_keep(store, number, answer, outcome);
}

#ifdef __cplusplus
}
#endif

#endif
