/*
 * Peatmitten: a verified core for update agents of card terminals.
 *
 * The functions of libpeatmitten.a, a static library for Linux on x86-64 or on aarch64. Usable from C11 and from C++11. (Where it was
 * just built, it is libagent.a; `./peatmitten library` says where.)
 *
 * A terminal's hypervisor gives each zone regions of memory: one set for the processor (CPU), one for devices (IOMMU). A plan
 * is a file that changes them. An agent keeps one peatmitten_state and lends it, with each plan that arrives, to
 * peatmitten_apply; the other functions answer single questions.
 *
 * Every function is total: whatever numbers the memory holds, it ends and gives the answer that is written here.
 *
 * Pointers: each is valid for what its type says, or for the length that comes with it; it is aligned as its type, and not null. Memory
 * that a function writes (a state, a table, a place for an answer) overlaps no other argument. None is kept after the call.
 *
 * Threads: there is no global state, so any number of threads may call at once. Memory that one call writes must not be read or
 * written by another thread meanwhile: while a plan is applied, its table may hold what earlier requests of the plan made of it.
 *
 * Stack: PEATMITTEN_STACK bytes are enough. tests/stack.sh measures it: it calls every function on a stack filled with a pattern, over the
 * stored plans, looks how deep the pattern is gone, and prints it for each function. Measured were on x86-64 5,168 bytes for
 * peatmitten_write_words, 4,864 for peatmitten_end_words, 4,784 for peatmitten_apply_words, and less for the others; on aarch64, with the older
 * kit, 6,752 for peatmitten_end_words and 4,608 for peatmitten_apply_words: no function has a table, a
 * configuration or a plan on its stack, but a number for each configured region, two or three times at a time. Nothing is allocated.
 *
 * Imports: memset, and nothing else. The code is called as Linux does on its processor (System V on x86-64, AAPCS64 on aarch64, lowest byte
 * first); no other system is supported. Every function takes and gives pointers and whole numbers of 32 and 64 bits, so none is declared
 * differently on either; structs are made here, by inline functions.
 *
 * What is proved is the program that the toolchain writes as an LLVM module, from which the library for x86-64 is compiled. That for aarch64
 * is compiled from the same module, with the lines changed that name the target, its data layout and the processor. No proof covers
 * the writing of the module, LLVM's back end for either processor, or these lines; README, "For which processor", says why they do not
 * change what the module means, and how it is tested.
 */
#ifndef PEATMITTEN_H
#define PEATMITTEN_H

#include <stddef.h>
#include <stdint.h>

#ifdef __cplusplus
extern "C" {
#define PEATMITTEN_ASSERT(condition, text) static_assert(condition, text)
#else
#define PEATMITTEN_ASSERT(condition, text) _Static_assert(condition, text)
#endif

#define PEATMITTEN_VERSION "0.1.0"

/* Limits. */
enum {
    PEATMITTEN_MOST_REGIONS = 256,  /* regions of a configuration */
    PEATMITTEN_MOST_ZONES = 32,     /* zones of a table */
    PEATMITTEN_MOST_IN_SET = 16,    /* regions of one set of a zone */
    PEATMITTEN_MOST_REQUESTS = 512, /* requests of a plan */
    PEATMITTEN_HIGHEST_ID = 255,    /* the highest zone id */
    PEATMITTEN_LONGEST_PLAN = 61852, /* bytes; a longer file is no plan */
    PEATMITTEN_LONGEST_LISTING = 81920, /* bytes; no listing is longer */
    PEATMITTEN_LONGEST_LOG = 63904 /* bytes; a longer file is no log */
};

/* Bytes of stack that are enough for every function. */
enum { PEATMITTEN_STACK = 8192 };

/*
 * Where things stand among words.
 *
 * A region is four words: v, its guest (virtual) start; p, its physical start; its size in bytes; its rights. The first three are
 * multiples of 4,096, and the rights a sum of peatmitten_right, at least one.
 *
 * A configuration is how many regions it has, the position of the GIC's region among them (from 0), then PEATMITTEN_MOST_REGIONS regions.
 * A table is how many zones it has, then PEATMITTEN_MOST_ZONES zones: the id, how many CPU regions, PEATMITTEN_MOST_IN_SET regions, how
 * many IOMMU regions, as many regions again. Regions and zones past their count are all zero.
 */
enum {
    PEATMITTEN_REGION_WORDS = 4,
    PEATMITTEN_CONFIG_COUNT = 0,
    PEATMITTEN_CONFIG_GIC = 1,
    PEATMITTEN_CONFIG_REGIONS = 2,
    PEATMITTEN_CONFIG_WORDS = PEATMITTEN_CONFIG_REGIONS + PEATMITTEN_MOST_REGIONS * PEATMITTEN_REGION_WORDS,

    PEATMITTEN_SET_WORDS = 1 + PEATMITTEN_MOST_IN_SET * PEATMITTEN_REGION_WORDS,
    PEATMITTEN_ZONE_ID = 0,                           /* within a zone */
    PEATMITTEN_ZONE_CPU = 1,                          /* within a zone: the CPU set, a count and then regions */
    PEATMITTEN_ZONE_IOMMU = 1 + PEATMITTEN_SET_WORDS, /* within a zone: the IOMMU set */
    PEATMITTEN_ZONE_WORDS = 1 + 2 * PEATMITTEN_SET_WORDS,
    PEATMITTEN_TABLE_COUNT = 0,
    PEATMITTEN_TABLE_ZONES = 1,
    PEATMITTEN_TABLE_WORDS = PEATMITTEN_TABLE_ZONES + PEATMITTEN_MOST_ZONES * PEATMITTEN_ZONE_WORDS
};

/* What a terminal keeps: its configuration, its table, and its edition, which each accepted plan raises by one. */
typedef struct peatmitten_state {
    uint64_t config[PEATMITTEN_CONFIG_WORDS];
    uint64_t table[PEATMITTEN_TABLE_WORDS];
    uint32_t edition;
} peatmitten_state;

/* What peatmitten_apply answers, and peatmitten_apply_words in three numbers. */
typedef struct peatmitten_outcome {
    uint32_t number; /* a peatmitten_answer: 0, 1, 2 or 20 to 27; of peatmitten_end also 28; of peatmitten_write 0, 1, 2, 25, 27 to 29; of
                        peatmitten_zones 0, 1, 2, 28 */
    size_t place;    /* on 0 how many requests the plan had (of peatmitten_write and peatmitten_zones how many bytes were written), on 20 to 22 an offset, on 27 the
                        index of the refused request, else 0 */
    uint32_t inner;  /* on 27 why that request is refused, else 0 */
} peatmitten_outcome;

/* What takes a plan in pieces. Zeros are one that is empty. */
typedef struct peatmitten_receiver {
    uint64_t stored; /* how many bytes of the buffer are stored */
    uint64_t more;   /* 0 unless more came than the longest plan has */
} peatmitten_receiver;

/* A request as a plan holds it, whose bytes these are: numbers of any kind and zone, and a region, all zero where the kind takes none. */
typedef struct peatmitten_record {
    uint32_t kind; /* a peatmitten_kind */
    uint32_t zone;
    uint64_t region[PEATMITTEN_REGION_WORDS]; /* v, p, size, rights */
} peatmitten_record;

/* What peatmitten_translate answers, and peatmitten_translate_words in three numbers. */
typedef struct peatmitten_translated {
    uint32_t number;    /* a peatmitten_answer: 0, 1, 2, 4, 6 or 18 */
    uint64_t physical;  /* on 0 the physical address, else 0 */
    uint64_t remaining; /* on 0 how many bytes of the covering region there are from the address on, itself counted; else 0 */
} peatmitten_translated;

PEATMITTEN_ASSERT(offsetof(peatmitten_state, config) == 0, "the configuration stands first");
PEATMITTEN_ASSERT(offsetof(peatmitten_state, table) == 8 * PEATMITTEN_CONFIG_WORDS, "the table stands after the configuration");
PEATMITTEN_ASSERT(offsetof(peatmitten_state, edition) == 8 * (PEATMITTEN_CONFIG_WORDS + PEATMITTEN_TABLE_WORDS),
                  "the edition stands after the table");
PEATMITTEN_ASSERT(sizeof(peatmitten_state) == offsetof(peatmitten_state, edition) + 8, "the last 4 bytes of a state are padding");
PEATMITTEN_ASSERT(offsetof(peatmitten_record, kind) == 0 && offsetof(peatmitten_record, zone) == 4 &&
                      offsetof(peatmitten_record, region) == 8,
                  "a request is its kind, its zone and its region");
PEATMITTEN_ASSERT(sizeof(peatmitten_record) == 8 + 8 * PEATMITTEN_REGION_WORDS, "a request has no padding");
PEATMITTEN_ASSERT(sizeof(size_t) == 8, "the library is for a 64-bit machine");

/* What peatmitten_differ answers: where a plan's zones section has a byte that the terminal's lacks. */
typedef struct peatmitten_difference {
    uint32_t number;  /* a peatmitten_answer: 0, or 20, 21 or 22 where the bytes are no plan */
    size_t offset;    /* on 0 where in the plan that is, else the offset of the fault */
    size_t place;     /* on 0 where in the plan's zones section it is: the length of that, where the two are equal; else 0 */
    uint32_t planned; /* the plan's byte there, or PEATMITTEN_NO_BYTE: then nothing is lacking */
    uint32_t held;    /* the other section's byte there, or PEATMITTEN_NO_BYTE: then it ends before */
} peatmitten_difference;

/* What is said of a place that has no byte. */
enum { PEATMITTEN_NO_BYTE = 256 };

/* What peatmitten_audit answers, and peatmitten_check_log in four numbers. */
typedef struct peatmitten_audited {
    uint32_t number;  /* a peatmitten_answer: 0, 1, 2, 20, 21, 22, 28 or 30 */
    size_t place;     /* on 0 how many bytes the section of the end zones has, on 20 to 22 an offset, on 30 the index of the false claim, else 0 */
    uint32_t right;   /* on 30 what the rules answer to that request, else 0 */
    uint32_t claimed; /* on 30 what the log claims, which may be any number, else 0 */
} peatmitten_audited;

/*
 * Header and library belong together. The name of this function has the most regions, zones, regions of a set and requests, and the words
 * of a region; each file that includes this header refers to it, so that with the library of another layout a program does not link.
 * It answers these numbers, one for each peatmitten_layout_number, and 0 for any other.
 */
#define peatmitten_layout peatmitten_layout_256_32_16_512_4
uint64_t peatmitten_layout_256_32_16_512_4(uint32_t which);

enum peatmitten_layout_number {
    PEATMITTEN_LAYOUT_REGIONS = 0,
    PEATMITTEN_LAYOUT_ZONES = 1,
    PEATMITTEN_LAYOUT_IN_SET = 2,
    PEATMITTEN_LAYOUT_REQUESTS = 3,
    PEATMITTEN_LAYOUT_REGION_WORDS = 4,
    PEATMITTEN_LAYOUT_LONGEST_PLAN = 5,
    PEATMITTEN_LAYOUT_LONGEST_LISTING = 6,
    PEATMITTEN_LAYOUT_LONGEST_LOG = 7
};

/* What peatmitten_check_config answers: the first fault, C1 to C6. C4 to C6 are looked for position by position. */
enum peatmitten_config_fault {
    PEATMITTEN_CONFIG_SOUND = 0,
    PEATMITTEN_C1_COUNT = 1,    /* no region, or more than PEATMITTEN_MOST_REGIONS */
    PEATMITTEN_C2_GIC = 2,      /* the GIC's position is not below the count */
    PEATMITTEN_C3_NOT_ZERO = 3, /* a region past the count is not all zero */
    PEATMITTEN_C4_FORM = 4,     /* the size is 0; v, p or size is no multiple of 4,096; or the rights are not 1 to 7 */
    PEATMITTEN_C5_REACH = 5,    /* it ends above 2^40 in guest addresses, or above 2^48 in physical ones */
    PEATMITTEN_C6_OVERLAP = 6   /* it overlaps an earlier region physically */
};

/* Kinds of request. */
enum peatmitten_kind {
    PEATMITTEN_ADD_ZONE = 1,
    PEATMITTEN_REMOVE_ZONE = 2,
    PEATMITTEN_CPU_INSERT = 3,
    PEATMITTEN_CPU_REMOVE = 4,
    PEATMITTEN_IOMMU_INSERT = 5,
    PEATMITTEN_IOMMU_REMOVE = 6
};

/* What may be done with a region. */
enum peatmitten_right { PEATMITTEN_READ = 1, PEATMITTEN_WRITE = 2, PEATMITTEN_EXECUTE = 4 };

/* Sides of a zone. Any number but 0 is the IOMMU. */
enum peatmitten_side { PEATMITTEN_CPU = 0, PEATMITTEN_IOMMU = 1 };

/* What the other functions answer. */
enum peatmitten_answer {
    PEATMITTEN_ACCEPTED = 0,
    PEATMITTEN_UNSOUND_CONFIG = 1,    /* the configuration is unsound */
    PEATMITTEN_UNSOUND_TABLE = 2,     /* the table is unsound */
    PEATMITTEN_NO_REQUEST = 3,        /* the kind is not 1 to 6, or a nonzero region with kind 1 or 2 */
    PEATMITTEN_ZONE_ID_TOO_HIGH = 4,  /* the zone id is above 255 */
    PEATMITTEN_ZONE_THERE = 5,        /* the zone is already there */
    PEATMITTEN_NO_ZONE = 6,           /* there is no such zone */
    PEATMITTEN_ZONES_FULL = 7,        /* all zones of the table are in use */
    PEATMITTEN_ZONE_IN_USE = 8,       /* either set of the zone holds a region */
    PEATMITTEN_FORM = 9,              /* the region is not well formed */
    PEATMITTEN_REACH = 10,            /* the region ends above 2^40 in guest addresses, or above 2^48 in physical ones */
    PEATMITTEN_NOT_CONFIGURED = 11,   /* the region is not equal to a configured one */
    PEATMITTEN_OVER_GIC = 12,         /* a CPU region overlaps the GIC physically */
    PEATMITTEN_REGION_THERE = 13,     /* the region is already in that set */
    PEATMITTEN_PHYSICAL_OVERLAP = 14, /* a forbidden physical overlap */
    PEATMITTEN_GUEST_OVERLAP = 15,    /* an overlap in guest addresses within that set */
    PEATMITTEN_SET_FULL = 16,         /* that set has as many regions as it can */
    PEATMITTEN_NO_REGION = 17,        /* the region is not in that set */
    PEATMITTEN_NOT_COVERED = 18,      /* (translation) no region covers the address */
    PEATMITTEN_TOO_MANY_RIGHTS = 19,  /* a CPU region with write and execute, or an IOMMU region with execute */
    PEATMITTEN_CUT = 20,              /* (plan, log) a field is not wholly there; place: its offset */
    PEATMITTEN_COUNT = 21,            /* (plan, log) a count is out of range, or another format's third mark; place: its offset */
    PEATMITTEN_TRAILING = 22,         /* (plan, log) bytes after the last section; place: the first one's offset */
    PEATMITTEN_OTHER_CONFIG = 23,     /* (plan) configuration or GIC position differs from the terminal's */
    PEATMITTEN_OTHER_EDITION = 24,    /* (plan) the edition differs: most often a repeated or an overtaken plan */
    PEATMITTEN_NO_NEXT_EDITION = 25,  /* (plan) the edition is 2^32 - 1: there is no next one */
    PEATMITTEN_OTHER_ZONES = 26,      /* (plan) the base zones differ, order included */
    PEATMITTEN_REQUEST_REFUSED = 27,  /* (plan) a request is refused; place: its index from 0; inner: its number, 3 to 17 or 19 */
    PEATMITTEN_BUFFER_SHORT = 28,     /* (lent buffer) it is too short */
    PEATMITTEN_TOO_MANY_REQUESTS = 29, /* (writer, list) there are more than PEATMITTEN_MOST_REQUESTS requests */
    PEATMITTEN_FALSE_CLAIM = 30       /* (log) a claim is false; place: its index from 0 */
};

/*
 * Checks a configuration. Answers a peatmitten_config_fault.
 * places[0] is the position of the region at fault (C3 to C6), places[1] the lowest earlier position that it overlaps (C6); else 0.
 */
uint32_t peatmitten_check_config(const uint64_t config[PEATMITTEN_CONFIG_WORDS], uint64_t places[2]);

/* Answers 1 if the configuration is sound and the table is sound under it, else 0. */
uint32_t peatmitten_check_table(const uint64_t config[PEATMITTEN_CONFIG_WORDS], const uint64_t table[PEATMITTEN_TABLE_WORDS]);

/*
 * Makes one request of the table. Answers a peatmitten_answer, 0 to 17 or 19: the first that applies in the order of the request's kind.
 * On 0 the table is changed where it lies; else it is untouched. Kinds 1 and 2 take no region: v, p, size and rights are 0.
 */
uint32_t peatmitten_request(const uint64_t config[PEATMITTEN_CONFIG_WORDS], uint64_t table[PEATMITTEN_TABLE_WORDS], uint32_t kind,
                            uint32_t zone, uint64_t v, uint64_t p, uint64_t size, uint64_t rights);

/*
 * Says where a guest address of a zone comes out, and how far that goes on. Answers 0, 1, 2, 4, 6 or 18 (peatmitten_answer). stretch[0]
 * is the physical address and stretch[1] how many bytes remain, as in a peatmitten_translated.
 * For every i below what remains, address + i comes out at physical + i, with what remains less i; no such sum wraps. At address + what
 * remains another region of the zone may go on, elsewhere in physical addresses: who needs more asks again there.
 */
uint32_t peatmitten_translate_words(const uint64_t config[PEATMITTEN_CONFIG_WORDS], const uint64_t table[PEATMITTEN_TABLE_WORDS],
                                    uint32_t zone, uint32_t side, uint64_t address, uint64_t stretch[2]);

/* The same with the answer in one piece. */
static inline peatmitten_translated peatmitten_translate(const uint64_t config[PEATMITTEN_CONFIG_WORDS],
                                                         const uint64_t table[PEATMITTEN_TABLE_WORDS], uint32_t zone, uint32_t side,
                                                         uint64_t address)
{
    uint64_t stretch[2];
    peatmitten_translated translated;

    translated.number = peatmitten_translate_words(config, table, zone, side, address, stretch);
    translated.physical = stretch[0];
    translated.remaining = stretch[1];
    return translated;
}

/*
 * Says which base edition a plan is for, before anything else of it is looked at: a terminal at a lower edition has missed the plans
 * between. Answers 0, 20 or 21 (peatmitten_answer). answer[0] is the edition on 0, else the offset of the fault.
 * The plan's marks alone are read, its first 16 bytes; what follows them may still be no plan.
 * `plan` points to `length` bytes; it must not be null even where the length is 0.
 */
uint32_t peatmitten_edition(const uint8_t *plan, size_t length, uint64_t answer[1]);

/*
 * Reads a plan, without a terminal. Answers 0, 20, 21 or 22 (peatmitten_answer).
 * place[0] is the offset of the fault or, on 0, that of the first request record (the plan's length, where it has no request).
 * `plan` points to `length` bytes; it must not be null even where the length is 0.
 */
uint32_t peatmitten_read(const uint8_t *plan, size_t length, uint64_t place[1]);

/*
 * Applies a plan to a terminal's state, which is lent in three parts. Answers a peatmitten_answer: 0, 1, 2 or 20 to 27. places[0] is the
 * place and places[1] the inner number, as in a peatmitten_outcome.
 * On 0 table and edition are changed where they lie: every request is done and the edition is one higher. Else both are, when the call
 * returns, what they were. Nothing else is written but the places, not even what lies behind the edition in its word.
 * While the call runs, the table may hold what earlier requests of the plan made of it, also where a later one is then refused. So no
 * other thread may read it meanwhile, and memory that must be whole at every moment is not lent: an agent lends a copy that it has in
 * memory, and writes the state to its file after the call. Its file then never has such a table, whenever the power is cut.
 * For storage without files there is peatmitten_beside_words.
 * `plan` points to `length` bytes; it must not be null even where the length is 0.
 *
 * A plan that was damaged in its requests alone may still be accepted: an agent checks a signature before it comes here.
 */
uint32_t peatmitten_apply_words(const uint64_t config[PEATMITTEN_CONFIG_WORDS], uint64_t table[PEATMITTEN_TABLE_WORDS],
                                uint32_t *edition, const uint8_t *plan, size_t length, uint64_t places[2]);

/* The same of a state in one piece. Of the state nothing but table and edition is written: its padding keeps what it held. */
static inline peatmitten_outcome peatmitten_apply(peatmitten_state *state, const uint8_t *plan, size_t length)
{
    uint64_t places[2];
    peatmitten_outcome outcome;

    outcome.number = peatmitten_apply_words(state->config, state->table, &state->edition, plan, length, places);
    outcome.place = (size_t)places[0];
    outcome.inner = (uint32_t)places[1];
    return outcome;
}

/*
 * Applies a plan beside a terminal's table, for a state in storage where the power may be cut at any time. `current` is the table of the edition
 * `mark`, and is not written: it may be mapped for reading only. Answers as peatmitten_apply_words does. answer[0] is the mark to write, which
 * is one higher after 0 and else `mark`; answer[1] is the place and answer[2] the inner number.
 * After 0 the next table lies in `other`. After 20 to 26 `other` is as it was; after 1, 2 and 27 it holds a copy of the table, or what earlier
 * requests of the plan made of one, which nobody may rely on. While the call runs, `other` may hold anything. What it held before does not matter.
 * So `current` may be memory that must be whole at every moment, and `other` may not. The caller makes `other` last before it writes the mark, and
 * the mark before it answers: peatmitten_store.h does both, over calls of the part's driver, and docs/STORAGE.md says which parts will do.
 * `plan` points to `length` bytes; it must not be null even where the length is 0.
 */
uint32_t peatmitten_beside_words(const uint64_t config[PEATMITTEN_CONFIG_WORDS], const uint64_t current[PEATMITTEN_TABLE_WORDS],
                                 uint64_t other[PEATMITTEN_TABLE_WORDS], uint32_t mark, const uint8_t *plan, size_t length,
                                 uint64_t answer[3]);

/*
 * Takes a piece of a plan, of any length, into a buffer. Answers 0; or 28 where the buffer is shorter than PEATMITTEN_LONGEST_PLAN, and then
 * neither it nor the receiver changes. Pieces of one plan go to one receiver and one buffer, in their order, and peatmitten_end_words answers
 * for all of them: nothing is applied before.
 * receiver[0] is how many bytes are stored, and receiver[1] is 0 unless more came than the longest plan has. An empty receiver is two zeros.
 * Only the bytes that are added to the buffer are written; bytes past the longest plan are not stored. Between calls the buffer is the
 * caller's to keep as it is.
 * Words that no call left are taken too: where receiver[1] is not 0, or receiver[0] is above PEATMITTEN_LONGEST_PLAN, the receiver counts as
 * one to which more came than the longest plan has. It then stores nothing, and its end call accepts nothing.
 * `buffer` and `piece` point to as many bytes as their lengths say; neither is null even where its length is 0.
 */
uint32_t peatmitten_take_piece(uint64_t receiver[2], uint8_t *buffer, size_t buffer_length, const uint8_t *piece, size_t length);

/*
 * Ends a plan that came in pieces: applies it to a terminal's state, exactly as peatmitten_apply_words applies the whole plan, however it was
 * cut. Answers also 28, where the buffer is shorter than PEATMITTEN_LONGEST_PLAN: then neither state nor receiver changes. After every other
 * answer, refusals among them, the receiver is empty. The buffer is not written.
 */
uint32_t peatmitten_end_words(const uint64_t config[PEATMITTEN_CONFIG_WORDS], uint64_t table[PEATMITTEN_TABLE_WORDS], uint32_t *edition,
                              uint64_t receiver[2], const uint8_t *buffer, size_t buffer_length, uint64_t places[2]);

/* The same two with receiver, state and answer in one piece. */
static inline uint32_t peatmitten_take(peatmitten_receiver *receiver, uint8_t *buffer, size_t buffer_length, const uint8_t *piece,
                                       size_t length)
{
    uint64_t words[2];
    uint32_t number;

    words[0] = receiver->stored;
    words[1] = receiver->more;
    number = peatmitten_take_piece(words, buffer, buffer_length, piece, length);
    receiver->stored = words[0];
    receiver->more = words[1];
    return number;
}

static inline peatmitten_outcome peatmitten_end(peatmitten_state *state, peatmitten_receiver *receiver, const uint8_t *buffer,
                                                size_t buffer_length)
{
    uint64_t words[2], places[2];
    peatmitten_outcome outcome;

    words[0] = receiver->stored;
    words[1] = receiver->more;
    outcome.number = peatmitten_end_words(state->config, state->table, &state->edition, words, buffer, buffer_length, places);
    outcome.place = (size_t)places[0];
    outcome.inner = (uint32_t)places[1];
    receiver->stored = words[0];
    receiver->more = words[1];
    return outcome;
}

/*
 * Writes, into a buffer, the plan for a state's base that asks for these requests: what a planner sends to a terminal in that state. Answers
 * a peatmitten_answer: 0, 1, 2, 25, 27, 28 or 29, the first that applies in the order 1, 2, 25, 29, 27, 28. places[0] is on 0 how many bytes
 * the plan has, on 27 the index of the first refused request, else 0; places[1] is on 27 why that request is refused, else 0.
 * On 0 so many bytes from the buffer's start are the plan, and those behind them are what they were. Else no byte of the buffer is changed.
 * The plan carries the edition that is given, its base, and applying it at that state answers 0. A buffer of PEATMITTEN_LONGEST_PLAN bytes is
 * never too short.
 * `requests` points to `length` bytes: records as a plan holds them, one after another. Bytes after the last whole record are not looked at.
 * The table is lent so that the requests can be tried where it lies, and is, when the call returns, what it was; while the call runs, it may
 * hold what they made of it, so no other thread may read it meanwhile.
 * `requests` and `buffer` are not null even where their lengths are 0.
 */
uint32_t peatmitten_write_words(const uint64_t config[PEATMITTEN_CONFIG_WORDS], uint64_t table[PEATMITTEN_TABLE_WORDS], uint32_t edition,
                                const uint8_t *requests, size_t length, uint8_t *buffer, size_t buffer_length, uint64_t places[2]);

/* The same of a state in one piece and of `count` requests. The state is, when the call returns, what it was. */
static inline peatmitten_outcome peatmitten_write(peatmitten_state *state, const peatmitten_record *requests, size_t count, uint8_t *buffer,
                                                  size_t buffer_length)
{
    uint64_t places[2];
    peatmitten_outcome outcome;

    outcome.number = peatmitten_write_words(state->config, state->table, state->edition, (const uint8_t *)requests,
                                            count * sizeof(peatmitten_record), buffer, buffer_length, places);
    outcome.place = (size_t)places[0];
    outcome.inner = (uint32_t)places[1];
    return outcome;
}

/*
 * Writes, into a buffer, the zones of a terminal's table as a plan holds its base: the section with its count. Answers 0, 1, 2 or 28
 * (peatmitten_answer). place[0] is on 0 how many bytes the section has, else 0.
 * On 0 so many bytes from the buffer's start are the section, and those behind them are what they were. Else no byte of it is changed. A buffer
 * of PEATMITTEN_LONGEST_PLAN bytes is never too short.
 * `buffer` is not null even where its length is 0.
 */
uint32_t peatmitten_zones_words(const uint64_t config[PEATMITTEN_CONFIG_WORDS], const uint64_t table[PEATMITTEN_TABLE_WORDS],
                                uint8_t *buffer, size_t buffer_length, uint64_t place[1]);

/* The same of a state in one piece. The inner number is 0. */
static inline peatmitten_outcome peatmitten_zones(const peatmitten_state *state, uint8_t *buffer, size_t buffer_length)
{
    uint64_t place[1];
    peatmitten_outcome outcome;

    outcome.number = peatmitten_zones_words(state->config, state->table, buffer, buffer_length, place);
    outcome.place = (size_t)place[0];
    outcome.inner = 0;
    return outcome;
}

/*
 * Says where a plan's own zones section stands. Answers 0, 20, 21 or 22 (peatmitten_answer), as peatmitten_read does. On 0 stretch[0] is the
 * offset of the section's count and stretch[1] how many bytes the section has, its count with it; else the offset of the fault, and 0.
 * `plan` points to `length` bytes; it must not be null even where the length is 0.
 */
uint32_t peatmitten_base_zones(const uint8_t *plan, size_t length, uint64_t stretch[2]);

/*
 * Answers the first place where the second of two stretches of bytes lacks the first one's byte: there it has another, or has ended. Where it
 * begins with all of the first, the answer is the first one's length. bytes[0] and bytes[1] are the bytes that the first and the second have
 * at that place, PEATMITTEN_NO_BYTE where a stretch has ended.
 * So the first stretch from that place on is the part of it that differs. Of two unequal sections that a plan may have, each has a byte there.
 * `first` and `second` point to as many bytes as their lengths say; neither is null even where its length is 0. They may overlap.
 */
uint64_t peatmitten_lacking(const uint8_t *first, size_t first_length, const uint8_t *second, size_t second_length, uint64_t bytes[2]);

/*
 * Where a plan's base differs from a terminal's, after 26: its zones section beside that of the terminal, which peatmitten_zones wrote. Where the
 * bytes are no plan, number and offset are those of peatmitten_base_zones.
 */
static inline peatmitten_difference peatmitten_differ(const uint8_t *plan, size_t length, const uint8_t *section, size_t section_length)
{
    uint64_t stretch[2], bytes[2] = {PEATMITTEN_NO_BYTE, PEATMITTEN_NO_BYTE}, place = 0;
    peatmitten_difference difference;

    difference.number = peatmitten_base_zones(plan, length, stretch);
    if (difference.number == PEATMITTEN_ACCEPTED)
        place = peatmitten_lacking(plan + stretch[0], (size_t)stretch[1], section, section_length, bytes);
    difference.offset = (size_t)(stretch[0] + place);
    difference.place = (size_t)place;
    difference.planned = (uint32_t)bytes[0];
    difference.held = (uint32_t)bytes[1];
    return difference;
}

/*
 * Works out, into a buffer, the requests that lead from one table to another under one configuration: what peatmitten_write_words then makes a
 * plan of. Answers a peatmitten_answer: 0, 1, 2, 28 or 29, the first that applies in the order 1, 2 (of either table), 29, 28. count[0] is on 0
 * how many requests there are, else 0.
 * On 0 so many records from the buffer's start are the list, as a plan holds them (peatmitten_record), and the bytes behind them are what they
 * were. Else no byte of the buffer is changed.
 * The list has, in this order: removals of the regions that the second table has not in the same set of the same zone; removals of the zones
 * that it has not; additions of the zones that the first has not; inserts of the regions that it has not. Each request is accepted in turn,
 * and then the zones and sets are those of the second table, though perhaps in another order; two tables with the same zones and sets give
 * no request. A buffer of PEATMITTEN_MOST_REQUESTS records is never too short.
 * `buffer` is not null even where its length is 0. Neither table is changed, and the two may be the same.
 */
uint32_t peatmitten_wanted_words(const uint64_t config[PEATMITTEN_CONFIG_WORDS], const uint64_t from[PEATMITTEN_TABLE_WORDS],
                               const uint64_t to[PEATMITTEN_TABLE_WORDS], uint8_t *buffer, size_t buffer_length, uint64_t count[1]);

/* The same from a state's table, into an array of `room` requests; *count is how many there are. */
static inline uint32_t peatmitten_wanted(const peatmitten_state *state, const uint64_t to[PEATMITTEN_TABLE_WORDS], peatmitten_record *requests,
                                       size_t room, size_t *count)
{
    uint64_t listed[1];
    uint32_t number = peatmitten_wanted_words(state->config, state->table, to, (uint8_t *)requests, room * sizeof(peatmitten_record), listed);

    *count = (size_t)listed[0];
    return number;
}

/*
 * Writes the map listing of a table into a buffer: a line for each region, zones in table order, CPU then IOMMU, as text. Answers a
 * peatmitten_answer: 0, 1, 2 or 28. length[0] is on 0 how many bytes the listing has, else 0.
 * On 0 so many bytes from the buffer's start are the listing, and those behind them are what they were; no 0 byte ends it. Else no byte of
 * the buffer is changed. A buffer of PEATMITTEN_LONGEST_LISTING bytes is never too short.
 * A line is the zone's id, CPU or IOMMU, guest start, physical start, size, rights, and how many pages of 4,096 bytes the physical start lies
 * above the guest start: with one space between, and a line feed last. The three in the middle are 0x and 16 lower-case digits, the others
 * decimal, with a minus below 0. A zone without regions has no line. For example:
 *     5 CPU 0x0000000040000000 0x0000000080000000 0x0000000000200000 3 262144
 * `buffer` is not null even where its length is 0.
 */
uint32_t peatmitten_list(const uint64_t config[PEATMITTEN_CONFIG_WORDS], const uint64_t table[PEATMITTEN_TABLE_WORDS], uint8_t *buffer,
                         size_t buffer_length, uint64_t length[1]);

/*
 * Checks a log that a terminal sends back: a plan's four sections with 3 as third mark, then as many claimed answers as there are requests, after
 * their count. The requests are made in turn by the rules, from the log's own configuration and zones, and each claim is held against the
 * answer; a refused request leaves the table, and the log goes on. Answers a peatmitten_answer: 0, 1, 2, 20, 21, 22, 28 or 30, the first that
 * applies in the order 20 or 21, 22, 1, 2, 30, 28; 25 is not judged. places[0] is the place, places[1] what the rules say and places[2] what was
 * claimed, as in a peatmitten_audited.
 * On 0 all claims hold: so many bytes from the buffer's start are the zones after all requests, a section with its count, and those behind them
 * are what they were. Else no byte of the buffer is changed. A buffer of PEATMITTEN_LONGEST_PLAN bytes is never too short.
 * `config` and `table` are room to work in, whatever they hold. On 20 to 22 they are, when the call returns, what they were. Else they hold the
 * log's configuration and the table at which the check ended: on 0 and 28 that after all requests, on 30 that before the request whose claim is
 * false, on 1 and 2 the one that the log begins with. So whoever keeps a terminal's state lends other room.
 * `log` and `buffer` are not null even where their lengths are 0.
 */
uint32_t peatmitten_check_log(uint64_t config[PEATMITTEN_CONFIG_WORDS], uint64_t table[PEATMITTEN_TABLE_WORDS], const uint8_t *log,
                              size_t log_length, uint8_t *buffer, size_t buffer_length, uint64_t places[3]);

/* The same with a state as room to work in, of which the edition is left as it is, and the answer in one piece. */
static inline peatmitten_audited peatmitten_audit(peatmitten_state *room, const uint8_t *log, size_t log_length, uint8_t *buffer,
                                                  size_t buffer_length)
{
    uint64_t places[3];
    peatmitten_audited audited;

    audited.number = peatmitten_check_log(room->config, room->table, log, log_length, buffer, buffer_length, places);
    audited.place = (size_t)places[0];
    audited.right = (uint32_t)places[1];
    audited.claimed = (uint32_t)places[2];
    return audited;
}

#ifdef __cplusplus
}
#endif

#endif

/* Which library is needed. A header over this one that is for another library includes it without. */
#if !defined(PEATMITTEN_LAYOUT_NEEDED) && !defined(PEATMITTEN_WITHOUT_LIBRARY)
#define PEATMITTEN_LAYOUT_NEEDED
static uint64_t (*const peatmitten_layout_needed)(uint32_t) __attribute__((used)) = peatmitten_layout;
#endif
