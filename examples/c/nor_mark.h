/*
 * A mark for flash whose words cannot be overwritten: a log of entries, in blocks that are erased in the factory and never again.
 *
 * An entry is three words: claim, value, finished. Each is programmed once, and waited for before the next. To write the mark, the entry after the
 * last one whose claim is not blank is taken. The mark is the value of the last entry whose finished is not blank, and 0 where there is none. Why so:
 *
 * - A cut leaves any bits in the word that was being programmed, and it may read blank now and not blank later. So a value is believed only when
 *   finished, which was programmed after the value lasted, is not blank; and of finished nothing but that is asked.
 * - The claim comes first. Where it lasts, later writes keep off the words after it, whatever these read as. Where it was cut, nobody has touched
 *   them, and the claim that is programmed once more is the same word.
 * - A finished that was cut may read either way for ever. The next entry outranks it: that is the mark which a start writes again.
 *
 * That such a log is a mark is proved (`IsAMark`: promises, MarkLog): a cut anywhere in a write leaves a log that is read as before or as what was
 * written, and one that is done is read as that. This code is written after it and is not proved itself; tests/store.sh tests it with words that
 * waver.
 *
 * A write takes an entry, for each start and for each plan that is accepted. 64 KiB are 2,730 entries. When all are used, a write fails: the state
 * stays, and the terminal starts no more. So there are blocks enough for its life, or somebody changes the part before.
 */
#ifndef NOR_MARK_H
#define NOR_MARK_H

#include <stddef.h>
#include <stdint.h>

enum { NOR_MARK_CLAIM, NOR_MARK_VALUE, NOR_MARK_FINISHED, NOR_MARK_ENTRY_WORDS };

#define NOR_MARK_BLANK UINT64_MAX
#define NOR_MARK_PROGRAMMED 0

typedef struct nor_mark {
    const volatile uint64_t *words; /* the log, where it can be read */
    size_t entries;
    void *context;
    int (*program)(void *context, size_t word, uint64_t value); /* answers 0 when that word of the log is programmed and lasts */
} nor_mark;

static inline int nor_mark_is_blank(const nor_mark *log, size_t entry, size_t which)
{
    return log->words[entry * NOR_MARK_ENTRY_WORDS + which] == NOR_MARK_BLANK;
}

/* How many entries there are up to the last one in which that word is not blank. */
static inline size_t nor_mark_count(const nor_mark *log, size_t which)
{
    size_t count = log->entries;

    while (count > 0 && nor_mark_is_blank(log, count - 1, which))
        count--;
    return count;
}

static inline uint32_t nor_mark_read(const nor_mark *log)
{
    size_t finished = nor_mark_count(log, NOR_MARK_FINISHED);

    return finished == 0 ? 0 : (uint32_t)log->words[(finished - 1) * NOR_MARK_ENTRY_WORDS + NOR_MARK_VALUE];
}

/* Answers 0 when the mark is written and lasts. */
static inline int nor_mark_write(const nor_mark *log, uint32_t mark)
{
    size_t entry = nor_mark_count(log, NOR_MARK_CLAIM), first = entry * NOR_MARK_ENTRY_WORDS;

    return entry == log->entries || log->program(log->context, first + NOR_MARK_CLAIM, NOR_MARK_PROGRAMMED) != 0 ||
           log->program(log->context, first + NOR_MARK_VALUE, mark) != 0 ||
           log->program(log->context, first + NOR_MARK_FINISHED, NOR_MARK_PROGRAMMED) != 0;
}

#endif
