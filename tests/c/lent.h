/* All that a call can be lent, in one value, so that it can be kept and compared part by part. */
#ifndef LENT_H
#define LENT_H

#include "hold.h"

enum { TABLE_LENGTH = 4, JOURNAL_LENGTH = 8 };

static struct {
    uint64_t table[TABLE_LENGTH], journal[JOURNAL_LENGTH], head[CECHNUOL_HEAD_WORDS], tally[CECHNUOL_TALLY_WORDS];
    uint64_t words[CECHNUOL_LIST_WORDS + 1], out[4], value, since;
    uint8_t bytes[64];
} lent, before;

/* The parts, as bits. */
enum { TABLE = 1, JOURNAL = 2, HEAD = 4, TALLY = 8, WORDS = 16, OUT = 32, BYTES = 64, VALUE = 128, SINCE = 256 };

#define TO_READ lent.table, TABLE_LENGTH, lent.journal, JOURNAL_LENGTH, lent.head
#define STORE TO_READ, lent.tally
/* The same with a table that has no word. */
#define NOTHING_TO_READ NULL, 0, lent.journal, JOURNAL_LENGTH, lent.head
#define NOTHING NOTHING_TO_READ, lent.tally

#define PART_CHANGED(part, bit) (memcmp(lent.part, before.part, sizeof lent.part) != 0 ? (bit) : 0)

/* The parts that are not as they were kept. */
static inline int changed(void)
{
    return PART_CHANGED(table, TABLE) | PART_CHANGED(journal, JOURNAL) | PART_CHANGED(head, HEAD) |
           PART_CHANGED(tally, TALLY) | PART_CHANGED(words, WORDS) | PART_CHANGED(out, OUT) |
           PART_CHANGED(bytes, BYTES) | (lent.value != before.value ? VALUE : 0) |
           (lent.since != before.since ? SINCE : 0);
}

/* A refused call, on what is lent now: it changes no part. */
#define REFUSED(call, want) \
    do { \
        before = lent; \
        ANSWERS(call, want); \
        hold((uint64_t)changed(), 0, "parts changed by " #call); \
    } while (0)

/* A store loaded as state 7 with offer 5 at 1200 and offer 6 at 900; state 8 has offer 9 at 700 too, state 9 offer 5 no
 * more. Slot 0 has a read of 5 and 9, which stands in the words, issued at 7. The image and the lists lie in memory
 * that cannot be written. */
static inline void begin(void)
{
    static const uint8_t image[22] = {0, 0, 0, 7, 0, 2, 0x80, 0, 0, 5, 0, 0, 0x04, 0xB0,
                                      0x80, 0, 0, 6, 0, 0, 0x03, 0x84};
    static const uint64_t add = 0x80000009000002BC, cut = 0x0000000500000000;
    memset(&lent, 0x5A, sizeof lent);
    ANSWERS(cechnuol_load(STORE, 0, image, sizeof image), OK);
    ANSWERS(cechnuol_commit(STORE, &add, 1), OK);
    ANSWERS(cechnuol_commit(STORE, &cut, 1), OK);
    lent.words[0] = cechnuol_ask(5);
    lent.words[1] = cechnuol_ask(9);
    ANSWERS(cechnuol_issue(STORE, CECHNUOL_DESK, 0, lent.words, 2), OK);
}

#endif
