/*
 * cechnuol.h: the price unit, for C (C99 and later) and C++ (C++17 and later) on x86-64 Linux.
 *
 * The unit keeps the prices of offers, state after state, in memory that its caller lends. A feed of changes is
 * committed list by list, and each list leads to the next state. The unit quotes any state from the checkpoint to the
 * tip, which is the newest, and says how fresh a quote is; it steps back from the tip when the feed is corrected, and
 * lets the checkpoint follow by a flush. A store may have a depth: so many steps back stay possible, whatever is flushed.
 * A read may start before the state that it serves exists: it is issued at the checkpoint and forwarded later. A batch of
 * orders is priced on such a read. An image holds the prices at one state as bytes, to be stored and loaded again, and a
 * sheet holds them by row, as box offices exchange them. Two callers share a store, the desk at the counter and a display
 * in the foyer, and each has slots of its own for its reads.
 *
 * The functions of the library are proved: for every length and every content of what they are lent they answer and
 * leave what is defined for them, stay within the memory lent, and end. They allocate nothing, keep nothing between
 * calls, and use memcpy and memset and nothing else of the C library. The inline functions of this header are tested.
 *
 * A program, built by  cc -std=c99 program.c $(pkg-config --cflags --libs cechnuol)
 *
 *     #include <cechnuol.h>
 *     #include <inttypes.h>
 *     #include <stdio.h>
 *
 *     static uint64_t table[CECHNUOL_TABLE_WORDS], journal[CECHNUOL_JOURNAL_WORDS];
 *     static struct cechnuol_store store = {table, CECHNUOL_TABLE_WORDS, journal, CECHNUOL_JOURNAL_WORDS, {0}, {0}};
 *
 *     int main(void)
 *     {
 *         const uint64_t changes[2] = {cechnuol_put(5, 1200), cechnuol_put(9, 700)};
 *         uint64_t price = 0, since = 0, answer = cechnuol_store_clear(&store, 0);
 *         if (answer == CECHNUOL_OK)
 *             answer = cechnuol_store_commit(&store, changes, 2);
 *         if (answer == CECHNUOL_OK)
 *             answer = cechnuol_store_look_up(&store, CECHNUOL_DESK, 5, cechnuol_store_tip(&store), &price, &since);
 *         if (answer != CECHNUOL_OK) {
 *             printf("%s: %s\n", cechnuol_name(answer), cechnuol_text(answer));
 *             return 1;
 *         }
 *         printf("offer 5 costs %" PRIu64 "\n", price);
 *         if (since != CECHNUOL_BY_TABLE)
 *             printf("since state %" PRIu64 "\n", since);
 *         return 0;
 *     }
 *
 * What a caller owes
 *
 *   Pointers and lengths. A pointer to words or bytes comes with their number, all of which are there, aligned as their
 *   type asks; where that is 0, the pointer may be null. Head, tally, price, since and count have no length and are
 *   never null. What a call may write overlaps nothing else that it is lent, else the outcome is undefined; what it
 *   only reads may overlap.
 *
 *   Threads. Calls on one store are made one at a time. Queries (cechnuol_look_up, and cechnuol_write_image,
 *   cechnuol_write_state_image, cechnuol_write_sheet and cechnuol_write_state_sheet) of one store may run side by side,
 *   each with an output of its own, while no other call on that store runs. Calls on different stores, and
 *   cechnuol_price_batch, need no such care: the library has no memory of its own.
 *
 *   Stack. A flush, and the writing of the image or the sheet of a state above the checkpoint, need up to 160 KiB of
 *   stack, and any other call less than 32 KiB. With few prices in table and journal these take less than 40 KiB, so a
 *   test with a small store does not show that a stack is too small. Beware of small ones, as the 128 KiB that musl
 *   gives a thread, or those that pthread_attr_setstacksize made smaller. A stack that is too small ends the program
 *   where a guard page lies below it; one in memory of the program's own (pthread_attr_setstack, coroutines) has none,
 *   and what lies below is overwritten. The library has no unwind tables: where a program ends within a call, a debugger
 *   shows the innermost function and none of its callers.
 *
 * What a call costs. Every call on a store but clear and the loads tests the whole of it, in one pass over table and
 * journal: some microseconds where they are as long as can be. A flush of 64 steps of 64 words into the longest table
 * takes about a hundred, the image of the state above them as many, and a forward of 64 words over as many steps some
 * tens. A sheet takes longer to write and to load than the image of the same state, and the longer the more rows it has.
 *
 * What a refusal leaves. A call that is refused leaves everything lent as it came: table, journal, head, tally, words,
 * bytes, price, since and count. CECHNUOL_NO_PRICE is no refusal: a lookup that answers it has written *since, and left
 * *price as it came.
 */
#ifndef CECHNUOL_H
#define CECHNUOL_H

#include <stddef.h>
#include <stdint.h>

#ifdef __cplusplus
extern "C" {
#endif

/* Version. */

/* The version of this header: major * 1000000 + minor * 1000 + patch, and as text. */
#define CECHNUOL_VERSION 6000000
#define CECHNUOL_VERSION_TEXT "6.0.0"

/* The version of the library that is linked, as a number. It differs from CECHNUOL_VERSION where header and library are
 * not of one release. */
uint64_t cechnuol_version(void);

/* Limits. */

enum {
    CECHNUOL_TABLE_WORDS = 8000,   /* a table has 1 to so many words: an offer with a price takes one */
    CECHNUOL_JOURNAL_WORDS = 4096, /* a journal has 1 to so many words: a change of a held step takes one */
    CECHNUOL_LIST_WORDS = 64,      /* a list or read set has 0 to so many words */
    CECHNUOL_FOYER_WORDS = 16,     /* one that the foyer issues or forwards has 0 to so many */
    CECHNUOL_BATCH_ORDERS = 64,    /* a batch has 0 to so many orders */
    CECHNUOL_SLOTS = 8,            /* slots are numbered from 0 to 7 */
    CECHNUOL_FOYER_SLOT = 6,       /* the foyer has the slots from this one on, the desk those below it */
    CECHNUOL_STEPS = 64,           /* so many steps are held at most: tip - oldest */
    CECHNUOL_MOST_DEPTH = 63,      /* the depth of a store is 0 to so many steps */
    CECHNUOL_IMAGE_BYTES = 96774,  /* the longest image, that of a state of 12,096 offers */
    CECHNUOL_SHEET_BYTES = 145160  /* the longest sheet, that of such a state with each offer in a row of its own */
};

/* The length in bytes of an image of so many offers. */
#define CECHNUOL_IMAGE_BYTES_OF(offers) (6 + 8 * (offers))

/* The most bytes that a sheet of so many offers has: where each is in a row of its own. */
#define CECHNUOL_SHEET_BYTES_OF(offers) (8 + 12 * (offers))

/* Callers. */

/* Every lookup, issue, forward and release says who calls: the desk, which has slots 0 to 5 and lists of up to 64
 * words, or the foyer, which has slots 6 and 7 and lists of up to 16. Any other number names the foyer, since that has
 * less. Lookups are open to both, and who calls makes no difference there. */
enum {
    CECHNUOL_DESK = 0,
    CECHNUOL_FOYER = 1
};

/* Whose a slot is, where the program itself has to close it. */
static inline uint32_t cechnuol_caller_of(size_t slot)
{
    return slot < CECHNUOL_FOYER_SLOT ? CECHNUOL_DESK : CECHNUOL_FOYER;
}

/* Entry words and lists. */

/* An offer is a number of 31 bits, and a price one of 32 bits in minor units; 0 is a true price. An entry word has 64
 * bits, most significant first: kind 1 bit, offer 31 bits, price 32 bits. Kind 1 puts a price, or shows one; kind 0
 * removes the price, or shows that there is none, and its price bits are 0.
 *
 * A list is 0 to 64 entry words whose offers rise strictly, so that no offer stands in it twice. Changes are committed
 * as a list. A read is issued with a list of words that ask (cechnuol_ask), and comes back as a read set: the same
 * offers, each with its price or none.
 *
 * An offer of 2^31 or more is not refused here: of it the builders take the lowest 31 bits, and that is another offer.
 * Test it before. */
#define CECHNUOL_OFFER_MASK UINT32_C(0x7FFFFFFF)

/* The word that removes an offer's price. */
static inline uint64_t cechnuol_remove(uint32_t offer)
{
    uint64_t cut = offer & CECHNUOL_OFFER_MASK;
    return cut << 32;
}

/* The word that puts an offer at a price. */
static inline uint64_t cechnuol_put(uint32_t offer, uint32_t price)
{
    return UINT64_C(1) << 63 | cechnuol_remove(offer) | price;
}

/* The word that asks for an offer's price, in the list of an issue. It is the word that removes it. */
static inline uint64_t cechnuol_ask(uint32_t offer)
{
    return cechnuol_remove(offer);
}

/* The lowest 32 bits of a word. */
static inline uint32_t cechnuol_low_bits(uint64_t word)
{
    return word & UINT32_MAX;
}

/* What an entry word says: whether there is a price (1 or 0), the offer, and the price, 0 where there is none. */
static inline int cechnuol_has_price(uint64_t word)
{
    return word >> 63 != 0;
}

static inline uint32_t cechnuol_offer(uint64_t word)
{
    return cechnuol_low_bits(word >> 32) & CECHNUOL_OFFER_MASK;
}

static inline uint32_t cechnuol_price(uint64_t word)
{
    return cechnuol_low_bits(word);
}

/* Order words. */

/* An order word has 64 bits, most significant first: kind 8 bits, amount 25 bits, offer 31 bits. So an amount is at
 * most 33,554,431. Kinds that are not named here are unknown. */
enum {
    CECHNUOL_LIST = 0,     /* the price becomes the amount */
    CECHNUOL_WITHDRAW = 1, /* the price is removed, if there is one; the amount is 0 */
    CECHNUOL_RAISE = 2,    /* the price rises by the amount */
    CECHNUOL_CUT = 3       /* the price falls by the amount */
};

/* The kind that keeps n sixteenths, n from 1 to 16: the price becomes (price * n + 8) / 16, worked out in 64 bits and
 * rounded down, which is to the nearest unit and a half upward, or the amount if that is more. Any other n gives 255, an
 * unknown kind. Where n is a constant, so is the kind; n is taken more than once. */
#define CECHNUOL_SIXTEENTHS(n) ((n) >= 1 && (n) <= 16 ? 15 + (n) : 255)

/* What cechnuol_order gives where a number does not fit its bits: a word of unknown kind. */
#define CECHNUOL_NO_ORDER UINT64_C(0xFF00000000000000)

#define CECHNUOL_AMOUNT_MASK UINT32_C(0x1FFFFFF)

/* The order word. Where the kind is above 255, the amount 2^25 or more, or the offer 2^31 or more, it is
 * CECHNUOL_NO_ORDER: a batch that has it is refused by CECHNUOL_BAD_ORDER, and never priced at a number cut short. */
static inline uint64_t cechnuol_order(uint32_t kind, uint32_t amount, uint32_t offer)
{
    uint64_t top = kind, middle = amount;
    if (kind > 255 || amount > CECHNUOL_AMOUNT_MASK || offer > CECHNUOL_OFFER_MASK)
        return CECHNUOL_NO_ORDER;
    return top << 56 | middle << 31 | offer;
}

/* What an order word says. */
static inline uint32_t cechnuol_order_kind(uint64_t order)
{
    return cechnuol_low_bits(order >> 56);
}

static inline uint32_t cechnuol_order_amount(uint64_t order)
{
    return cechnuol_low_bits(order >> 31) & CECHNUOL_AMOUNT_MASK;
}

static inline uint32_t cechnuol_order_offer(uint64_t order)
{
    return cechnuol_low_bits(order) & CECHNUOL_OFFER_MASK;
}

/* The memory of a store. */

/* A store is four memories that the caller owns and lends to each call:
 *
 *   table    1 to 8,000 words: the prices at the checkpoint as entry words, offers rising, then zeros
 *   journal  1 to 4,096 words: the lists of the held steps, oldest first, then zeros
 *   head     CECHNUOL_HEAD_WORDS words, laid out as below
 *   tally    CECHNUOL_TALLY_WORDS words: how many steps were committed, rolled back and flushed
 *
 * A step leads from a state to the next, by the list that was committed. Held are the steps from the oldest state to
 * the tip: those above the checkpoint, and those below it that an open slot still needs. Oldest is the least of the
 * checkpoint and the numbers of the open slots; the number of a slot is the checkpoint at its issue.
 *
 * A new store. What the memories hold before does not matter to cechnuol_clear, cechnuol_load and cechnuol_load_sheet.
 * From then on they belong to the calls: a program reads them between calls and changes nothing in them.
 *
 * The depth, a number from 0 to 63, is how many steps back from the tip a flush must leave possible: other than to the
 * checkpoint, which changes nothing, a flush goes no higher than tip - depth. So with fewer steps above the checkpoint
 * than the depth, or as many, there is nothing to flush yet. cechnuol_clear and the loads are told the depth, a restart
 * keeps it, and no other call changes it; an image or a sheet does not have it. It bars flushes alone: a rollback may go
 * to any state from the checkpoint on. Depth 0 bars nothing. The steps that must stay take up words of the journal. One
 * of 64 * (depth + 1) words has room for any list once all is flushed that may be, unless an open slot keeps older steps;
 * a shorter one may be full where no flush helps (cechnuol_commit, at JOURNAL_FULL).
 *
 * A damaged store. CECHNUOL_UNSOUND is answered where the form is broken: the order of offers, the zeros, numbers that
 * do not fit each other, or a depth above 63. A price, an offer, the end of a step, the checkpoint or the depth that was
 * changed within that form is taken as it is. A call that was cut off, by a kill or a loss of power, may leave such a
 * store: go on from an image. */
enum {
    CECHNUOL_USED = 0,       /* how many words of the table are used: the offers that have a price at the checkpoint */
    CECHNUOL_OLDEST = 1,     /* the state from which steps are held */
    CECHNUOL_CHECKPOINT = 2, /* the state that the table holds */
    CECHNUOL_TIP = 3,        /* the newest state */
    CECHNUOL_TAKEN = 4,      /* 8 words: 1 for a slot that is open, else 0 */
    CECHNUOL_ISSUED = 12,    /* 8 words: the number of each open slot, else 0 */
    CECHNUOL_ENDS = 20,      /* 64 words: where each held step ends in the journal; those not in use are 0 */
    CECHNUOL_DEPTH = 84,     /* how many steps back from the tip a flush must leave possible, 0 to 63 */
    CECHNUOL_HEAD_WORDS = 85
};

/* The counts stop at 2^64 - 1. Clear, load and restart set them to 0. */
enum {
    CECHNUOL_COMMITTED = 0,
    CECHNUOL_ROLLED_BACK = 1,
    CECHNUOL_FLUSHED = 2,
    CECHNUOL_TALLY_WORDS = 3
};

/* The open slot with the least number, or the first of several; CECHNUOL_SLOTS where none is open. While it is open, no
 * flush lets go a step from its number on. */
static inline size_t cechnuol_oldest_slot(const uint64_t head[CECHNUOL_HEAD_WORDS])
{
    size_t slot, oldest = CECHNUOL_SLOTS;
    for (slot = 0; slot < CECHNUOL_SLOTS; slot++)
        if (head[CECHNUOL_TAKEN + slot] != 0 &&
            (oldest == CECHNUOL_SLOTS || head[CECHNUOL_ISSUED + slot] < head[CECHNUOL_ISSUED + oldest]))
            oldest = slot;
    return oldest;
}

/* The highest state to which the depth lets a flush go: tip - depth or, where that is not above it, the checkpoint. A
 * flush to it is neither STATE_RANGE nor TOO_DEEP; TABLE_FULL it may be. Where it is the checkpoint, a flush frees
 * nothing. Of a head that no call leaves it is any number. */
static inline uint32_t cechnuol_highest_flush(const uint64_t head[CECHNUOL_HEAD_WORDS])
{
    uint64_t checkpoint = head[CECHNUOL_CHECKPOINT], tip = head[CECHNUOL_TIP], depth = head[CECHNUOL_DEPTH];
    return cechnuol_low_bits(checkpoint < tip && depth < tip - checkpoint ? tip - depth : checkpoint);
}

/* Images. */

/* An image is the prices at one state as bytes: the state number in 32 bits, the count of offers in 16 bits, and then
 * that many entry words of kind 1 with strictly rising offers, each number most significant byte first. Its length is
 * exactly 6 + 8 * count bytes. What one store writes loads into any store whose table has count words or more.
 *
 * An image is written of the tip, or of any state from the checkpoint to the tip that is named: to save the newest
 * prices, nothing is flushed first. A state above the checkpoint may have more prices than the table has words, up to
 * one for each word of table and journal. Its image is written too, and loads into a table that has a word for each
 * price; one of more than CECHNUOL_IMAGE_BYTES_OF(CECHNUOL_TABLE_WORDS) bytes, which has more than 8,000, loads into
 * none. */

/* How many bytes are enough for the image of any state from the checkpoint to the tip, and for a restart: as if each
 * change above the checkpoint were an offer of its own. It is room and not the length, which the call gives. Never above
 * CECHNUOL_IMAGE_BYTES, whatever the words are. */
static inline size_t cechnuol_image_bytes(const uint64_t head[CECHNUOL_HEAD_WORDS])
{
    const uint64_t *ends = head + CECHNUOL_ENDS;
    uint64_t held = head[CECHNUOL_TIP] - head[CECHNUOL_OLDEST];
    uint64_t below = head[CECHNUOL_CHECKPOINT] - head[CECHNUOL_OLDEST];
    uint64_t used = head[CECHNUOL_USED], words;
    if (held > CECHNUOL_STEPS || below > held || used > CECHNUOL_TABLE_WORDS)
        return CECHNUOL_IMAGE_BYTES;
    words = (held == 0 ? 0 : ends[held - 1]) - (below == 0 ? 0 : ends[below - 1]);
    if (words > CECHNUOL_JOURNAL_WORDS)
        return CECHNUOL_IMAGE_BYTES;
    return CECHNUOL_IMAGE_BYTES_OF(used + words);
}

/* Sheets. */

/* A sheet is the prices at one state by row, as box offices exchange them: 32 seats to a row, offer = row * 32 + seat,
 * so that rows are numbered from 0 to 2^26 - 1 and seats from 0 to 31. It is the state number in 32 bits and the count
 * of rows in 32 bits, and then for each row that has a price: the row's number in 26 bits, six bits that are zero, a mask
 * of 32 bits with seat 0 most significant, and one price in 32 bits for each set bit, in seat order; all of them most
 * significant byte first. Rows rise strictly and no mask is zero; a state without prices has no rows. The length is
 * exactly 8 bytes, 8 for each row and 4 for each price. The 20 bytes
 *
 *     00 00 00 07  00 00 00 01  00 00 00 00  04 00 00 00  00 00 04 B0
 *
 * are the sheet of state 7 with offer 5, seat 5 of row 0, at 1200. Each state has one sheet, and what is said above of
 * images holds of sheets: of which states they are written, and where they load. Neither is ever taken for the other. */

/* How many bytes are enough for the sheet of any state from the checkpoint to the tip: as if each change above the
 * checkpoint were an offer of its own, and each offer in a row of its own. It is room and not the length, which the call
 * gives. Never above CECHNUOL_SHEET_BYTES, whatever the words are. */
static inline size_t cechnuol_sheet_bytes(const uint64_t head[CECHNUOL_HEAD_WORDS])
{
    size_t offers = (cechnuol_image_bytes(head) - CECHNUOL_IMAGE_BYTES_OF(0)) / 8;
    return CECHNUOL_SHEET_BYTES_OF(offers);
}

/* Answers. */

/* Every call answers one of these. Each call below has the refusals that it can give in the order in which they are
 * tested, and the answer is the first that is met. *price and *count are given on CECHNUOL_OK alone, *since on
 * CECHNUOL_NO_PRICE too. */
enum {
    CECHNUOL_OK = 0,
    CECHNUOL_LENGTHS = 1,        /* the table is not 1 to 8,000 words long, or the journal not 1 to 4,096 */
    CECHNUOL_UNSOUND = 2,        /* table, journal and head are not a store: go on from an image */
    CECHNUOL_SLOT_RANGE = 3,     /* the slot is above 7 */
    CECHNUOL_SLOT_TAKEN = 4,     /* the slot named for an issue is open */
    CECHNUOL_SLOT_CLOSED = 5,    /* the slot named for a forward or release is closed */
    CECHNUOL_BAD_LIST = 6,       /* not a list, a put in an issue's list, over 64 orders, or an offer of 2^31 or more */
    CECHNUOL_BAD_ORDER = 7,      /* an order's kind is unknown, or a withdrawal has an amount */
    CECHNUOL_OFFER_NOT_READ = 8, /* an order's offer is not in the read set */
    CECHNUOL_ORDER_NO_PRICE = 9, /* a raise, cut or sixteenths on an offer without a price */
    CECHNUOL_PRICE_RANGE = 10,   /* an order takes a price below 0 or above 2^32 - 1 */
    CECHNUOL_STATE_RANGE = 11,   /* the state is below the checkpoint or above the tip */
    CECHNUOL_LAST_STATE = 12,    /* a commit where the tip is 2^32 - 1 */
    CECHNUOL_STEPS_FULL = 13,    /* a commit where 64 steps are held */
    CECHNUOL_JOURNAL_FULL = 14,  /* a commit of more words than the journal has unused */
    CECHNUOL_BAD_IMAGE = 15,     /* the length, the order or a bit of an image or a sheet is wrong */
    CECHNUOL_TABLE_FULL = 16,    /* the prices to be flushed or loaded are more than the table has words */
    CECHNUOL_OUTPUT_SHORT = 17,  /* the output is shorter than what is to be written */
    CECHNUOL_LONG_LIST = 18,     /* a list or read set of the foyer has over 16 words */
    CECHNUOL_OTHERS_SLOT = 19,   /* the slot is not the caller's: the desk has 0 to 5, the foyer 6 and 7 */
    CECHNUOL_TOO_DEEP = 20,      /* a depth above 63, or a flush above tip - depth, other than to the checkpoint */
    CECHNUOL_NO_PRICE = 100      /* no refusal: a lookup found that the offer has no price at that state */
};

/* What a lookup gives as *since where it names no state: the table answered. It is 2^32, a number that no state has. */
#define CECHNUOL_BY_TABLE (UINT64_C(1) << 32)

/* The name of an answer, without its prefix; "UNKNOWN" for a number that is no answer. */
static inline const char *cechnuol_name(uint64_t answer)
{
    switch (answer) {
    case CECHNUOL_OK: return "OK";
    case CECHNUOL_LENGTHS: return "LENGTHS";
    case CECHNUOL_UNSOUND: return "UNSOUND";
    case CECHNUOL_SLOT_RANGE: return "SLOT_RANGE";
    case CECHNUOL_SLOT_TAKEN: return "SLOT_TAKEN";
    case CECHNUOL_SLOT_CLOSED: return "SLOT_CLOSED";
    case CECHNUOL_BAD_LIST: return "BAD_LIST";
    case CECHNUOL_BAD_ORDER: return "BAD_ORDER";
    case CECHNUOL_OFFER_NOT_READ: return "OFFER_NOT_READ";
    case CECHNUOL_ORDER_NO_PRICE: return "ORDER_NO_PRICE";
    case CECHNUOL_PRICE_RANGE: return "PRICE_RANGE";
    case CECHNUOL_STATE_RANGE: return "STATE_RANGE";
    case CECHNUOL_LAST_STATE: return "LAST_STATE";
    case CECHNUOL_STEPS_FULL: return "STEPS_FULL";
    case CECHNUOL_JOURNAL_FULL: return "JOURNAL_FULL";
    case CECHNUOL_BAD_IMAGE: return "BAD_IMAGE";
    case CECHNUOL_TABLE_FULL: return "TABLE_FULL";
    case CECHNUOL_OUTPUT_SHORT: return "OUTPUT_SHORT";
    case CECHNUOL_LONG_LIST: return "LONG_LIST";
    case CECHNUOL_OTHERS_SLOT: return "OTHERS_SLOT";
    case CECHNUOL_TOO_DEEP: return "TOO_DEEP";
    case CECHNUOL_NO_PRICE: return "NO_PRICE";
    default: return "UNKNOWN";
    }
}

/* An answer as a sentence, without the full stop. */
static inline const char *cechnuol_text(uint64_t answer)
{
    switch (answer) {
    case CECHNUOL_OK: return "the call was accepted";
    case CECHNUOL_LENGTHS: return "the length of the table or of the journal is outside its range";
    case CECHNUOL_UNSOUND: return "the store is not sound";
    case CECHNUOL_SLOT_RANGE: return "the slot is above 7";
    case CECHNUOL_SLOT_TAKEN: return "the slot named for an issue is open";
    case CECHNUOL_SLOT_CLOSED: return "the slot named for a forward or release is closed";
    case CECHNUOL_BAD_LIST: return "a list breaks its rules, or there are over 64 orders, or an offer is 2^31 or more";
    case CECHNUOL_BAD_ORDER: return "the kind of an order is unknown, or a withdrawal has an amount";
    case CECHNUOL_OFFER_NOT_READ: return "the offer of an order is not in the read set";
    case CECHNUOL_ORDER_NO_PRICE: return "a raise, cut or sixteenths order is on an offer without a price";
    case CECHNUOL_PRICE_RANGE: return "an order takes a price below 0 or above 2^32 - 1";
    case CECHNUOL_STATE_RANGE: return "the state is below the checkpoint or above the tip";
    case CECHNUOL_LAST_STATE: return "the tip is the last state number, 2^32 - 1";
    case CECHNUOL_STEPS_FULL: return "64 steps are held";
    case CECHNUOL_JOURNAL_FULL: return "the list has more words than the journal has unused";
    case CECHNUOL_BAD_IMAGE: return "the length, the order or a bit of the image or sheet is wrong";
    case CECHNUOL_TABLE_FULL: return "the state has more prices than the table has words";
    case CECHNUOL_OUTPUT_SHORT: return "the output is shorter than what is to be written";
    case CECHNUOL_LONG_LIST: return "the foyer's list has over 16 words";
    case CECHNUOL_OTHERS_SLOT: return "the slot is not the caller's";
    case CECHNUOL_TOO_DEEP: return "the depth is above 63, or the flush goes higher than tip - depth";
    case CECHNUOL_NO_PRICE: return "the offer has no price at that state";
    default: return "the number is no answer";
    }
}

/* The calls. */

/* The parameters that every call begins with that may change a store. All four memories must be writable: what a call
 * does not change it may still write with the value that it has. */
#define CECHNUOL_STORE \
    uint64_t *table, size_t table_words, uint64_t *journal, size_t journal_words, uint64_t head[CECHNUOL_HEAD_WORDS], \
        uint64_t tally[CECHNUOL_TALLY_WORDS]

/* The parameters that every query begins with: a store to read only, without its tally. It may lie in memory that
 * cannot be written. */
#define CECHNUOL_STORE_TO_READ \
    const uint64_t *table, size_t table_words, const uint64_t *journal, size_t journal_words, \
        const uint64_t head[CECHNUOL_HEAD_WORDS]

/* Makes an empty store with a depth from 0 to 63: state 0, without any price. Oldest, checkpoint and tip are 0, all slots
 * are closed, and every word of the four memories but the depth is 0.
 * Changes: table, journal, head, tally.
 * Refusals: LENGTHS, TOO_DEEP.
 * TOO_DEEP is here a depth above 63. */
uint64_t cechnuol_clear(CECHNUOL_STORE, uint32_t depth);

/* Makes a store of an image, which the bytes are from the first to the last, with a depth from 0 to 63. Oldest,
 * checkpoint and tip are the image's state number, all slots are closed, and the tally is 0.
 * Changes: table, journal, head, tally.
 * Refusals: LENGTHS, TOO_DEEP, BAD_IMAGE, TABLE_FULL.
 * TOO_DEEP is here a depth above 63.
 * At TABLE_FULL lend a longer table; the image's count, its fifth and sixth byte, says how many words it takes. One of
 * more than 8,000 offers fits no table. */
uint64_t cechnuol_load(CECHNUOL_STORE, uint32_t depth, const uint8_t *bytes, size_t byte_count);

/* Makes a store of a sheet, which the bytes are from the first to the last, with a depth, as cechnuol_load does of an
 * image. The sheet and the image of a state load alike.
 * Changes: table, journal, head, tally.
 * Refusals: LENGTHS, TOO_DEEP, BAD_IMAGE, TABLE_FULL.
 * TOO_DEEP is here a depth above 63.
 * At TABLE_FULL lend a longer table, of a word for each price: there are (byte_count - 8 - 8 * rows) / 4 of them, where
 * rows is the sheet's count, its fifth to eighth byte. One of more than 8,000 prices fits no table. */
uint64_t cechnuol_load_sheet(CECHNUOL_STORE, uint32_t depth, const uint8_t *bytes, size_t byte_count);

/* A query. Writes the image of the tip to the start of the bytes and its length to *count; bytes past it stay. It has
 * the newest prices, whatever is flushed, and may have more of them than the table of this store has words: such a one
 * loads into a longer table alone.
 * Changes: bytes, *count.
 * Refusals: LENGTHS, UNSOUND, OUTPUT_SHORT.
 * At OUTPUT_SHORT lend cechnuol_image_bytes(head) bytes; CECHNUOL_IMAGE_BYTES are always enough. */
uint64_t cechnuol_write_image(CECHNUOL_STORE_TO_READ, uint8_t *bytes, size_t byte_count, uint64_t *count);

/* A query. Writes the image of a state from the checkpoint to the tip to the start of the bytes and its length to
 * *count; bytes past it stay. That of the checkpoint takes CECHNUOL_IMAGE_BYTES_OF(head[CECHNUOL_USED]) bytes.
 * Changes: bytes, *count.
 * Refusals: LENGTHS, UNSOUND, STATE_RANGE, OUTPUT_SHORT.
 * At OUTPUT_SHORT lend cechnuol_image_bytes(head) bytes; CECHNUOL_IMAGE_BYTES are always enough. */
uint64_t cechnuol_write_state_image(CECHNUOL_STORE_TO_READ, uint32_t state, uint8_t *bytes, size_t byte_count,
                                    uint64_t *count);

/* A query. Writes the sheet of the tip to the start of the bytes and its length to *count; bytes past it stay. It has
 * the newest prices, whatever is flushed, and may have more of them than the table of this store has words: such a one
 * loads into a longer table alone.
 * Changes: bytes, *count.
 * Refusals: LENGTHS, UNSOUND, OUTPUT_SHORT.
 * At OUTPUT_SHORT lend cechnuol_sheet_bytes(head) bytes; CECHNUOL_SHEET_BYTES are always enough. */
uint64_t cechnuol_write_sheet(CECHNUOL_STORE_TO_READ, uint8_t *bytes, size_t byte_count, uint64_t *count);

/* A query. Writes the sheet of a state from the checkpoint to the tip to the start of the bytes and its length to
 * *count; bytes past it stay. That of the checkpoint takes CECHNUOL_SHEET_BYTES_OF(head[CECHNUOL_USED]) bytes at most.
 * Changes: bytes, *count.
 * Refusals: LENGTHS, UNSOUND, STATE_RANGE, OUTPUT_SHORT.
 * At OUTPUT_SHORT lend cechnuol_sheet_bytes(head) bytes; CECHNUOL_SHEET_BYTES are always enough. */
uint64_t cechnuol_write_state_sheet(CECHNUOL_STORE_TO_READ, uint32_t state, uint8_t *bytes, size_t byte_count,
                                    uint64_t *count);

/* Writes the image of the checkpoint to the start of the bytes and loads it from there, as a program does that is
 * switched off and on again. The tip falls back to the checkpoint, so that all held steps are lost, all slots close, so
 * that no read that is under way can be forwarded, and the tally is 0. The depth stays. To keep the newest prices, write
 * the image of the tip and load that instead, or, where the depth is 0, flush to the tip first. The image takes
 * CECHNUOL_IMAGE_BYTES_OF(head[CECHNUOL_USED]) bytes.
 * Changes: journal, head, tally, bytes.
 * Refusals: LENGTHS, UNSOUND, OUTPUT_SHORT. */
uint64_t cechnuol_restart(CECHNUOL_STORE, uint8_t *bytes, size_t byte_count);

/* Commits a list, which the words are: it leads from the tip to state tip + 1, the new tip. A word puts or removes the
 * price of its offer, the removal of a price that is not there changes nothing, and an empty list makes a state too.
 * Changes: journal, head, tally.
 * Refusals: LENGTHS, UNSOUND, BAD_LIST, LAST_STATE, STEPS_FULL, JOURNAL_FULL.
 * At STEPS_FULL, which is met where tip - oldest is 64, flush to the highest state that the depth allows,
 * cechnuol_highest_flush(head), or to a lower one that no rollback will go below. To flush and try again is not enough:
 * while a slot is open, no flush lets go a step from its number on. If it is still full, or no state above the checkpoint
 * can be flushed to, and oldest is below the checkpoint, forward or release the slot whose number is the oldest,
 * cechnuol_oldest_slot(head), as its caller (cechnuol_caller_of), and then the next, until the commit passes. Where
 * oldest is the checkpoint, no slot holds a step back and to close one frees nothing. A depth alone never keeps the steps
 * full, since it is at most 63; where the flush is refused by TABLE_FULL, what helps is said at cechnuol_flush.
 * At JOURNAL_FULL do the same, but first test the list: one of more than journal_words words never fits, whatever is
 * given up. Commit it in parts, each a state of its own, or move to a store with a longer journal and a table that has a
 * word for each price of the tip (write the image, load it there; open reads, the states below the tip and the tally
 * stay behind). Where oldest is cechnuol_highest_flush(head), no flush and no slot makes room: the steps that the depth
 * keeps fill the journal. Then give up states to step back to: roll back, or restart, which falls back to the checkpoint,
 * or write the image of the tip and load it with the depth wanted, which drops the states below the tip. Or commit empty
 * lists, which take no words, until more steps than the depth lie above the checkpoint, and flush: empty steps count too.
 * At LAST_STATE there is no further number: write the image, set its first four bytes to 0, and load it. The same prices
 * are then state 0; open reads, the states below the tip and the tally are gone. Where the load is refused by
 * TABLE_FULL, lend a longer table, or roll back a state, commit removals and write again. */
uint64_t cechnuol_commit(CECHNUOL_STORE, const uint64_t *words, size_t word_count);

/* Makes a state the tip: the steps above it are gone, and later commits use their numbers again. A rollback to the tip
 * changes nothing. The depth does not bar it: fewer steps than the depth may be left above the checkpoint.
 * Changes: journal, head, tally.
 * Refusals: LENGTHS, UNSOUND, STATE_RANGE.
 * At STATE_RANGE, with a state below the checkpoint, there is no way back in the store: load an earlier image. */
uint64_t cechnuol_roll_back(CECHNUOL_STORE, uint32_t state);

/* Makes a state the checkpoint: the table then holds its prices, and states below it can no longer be quoted or rolled
 * back to; no number up to it is given as *since any more. The steps up to it are let go, but for those from the number
 * of the oldest open slot on; a flush to the checkpoint changes nothing, and no depth bars it.
 * Changes: table, journal, head, tally.
 * Refusals: LENGTHS, UNSOUND, STATE_RANGE, TOO_DEEP, TABLE_FULL.
 * At TOO_DEEP the state is not the checkpoint, and fewer steps than the depth lie above it: state + depth is above the
 * tip. Flush to a lower one, cechnuol_highest_flush(head) if that is above the checkpoint, or commit further steps first.
 * At TABLE_FULL the state named has more prices than the table has words; the states on the way to it do not count.
 * Flush to another one: a lower one that fits, or commit removals (where there is no room for them, roll back first)
 * and flush to the state that they lead to, with a depth once so many steps lie above it. Or move to a longer table,
 * unless this one has 8,000 words: write the image and load it into a store that has one, where the tip is then the
 * checkpoint. To keep the states below the tip too, write the checkpoint's image by cechnuol_write_state_image, load that
 * into a store in memory of its own, and commit there again what was committed above the checkpoint. Those lists stand in
 * the journal of the old one: held step k, counted from 0, ends before word head[CECHNUOL_ENDS + k] and begins where the
 * one before it ends, step 0 at word 0, and the first above the checkpoint is k = checkpoint - oldest. Open reads and the
 * tally stay behind. */
uint64_t cechnuol_flush(CECHNUOL_STORE, uint32_t state);

/* A query. Gives the price of an offer at a state, a number below 2^32, to *price, or answers CECHNUOL_NO_PRICE and
 * leaves *price as it came. With either answer it gives to *since how fresh that is: the state to which the last step
 * leads that names the offer, of the steps above the checkpoint and up to the state; or CECHNUOL_BY_TABLE, that the
 * table answered, where none of them names it. It is open to every caller, and answers all alike.
 * Changes: *price, *since.
 * Refusals: LENGTHS, UNSOUND, BAD_LIST, STATE_RANGE.
 * BAD_LIST is here an offer of 2^31 or more.
 * A step names the offers of its list, whatever it does with them: one that removes a price names its offer, so that a
 * state may stand beside no price, and so does one that puts the price that was there. For an offer that is nowhere the
 * table answers. A flush forgets the numbers up to the new checkpoint: the table answers then, even where an open slot
 * still holds their steps; and after a load or a restart it answers for every offer. So two stores that are flushed
 * differently may give different numbers beside the same price. */
uint64_t cechnuol_look_up(CECHNUOL_STORE_TO_READ, uint32_t caller, uint32_t offer, uint32_t state, uint64_t *price,
                          uint64_t *since);

/* Starts a read in a slot of the caller's: the words, a list of words that ask, become the read set with the prices at
 * the checkpoint, and the slot opens with the checkpoint as its number. Keep the read set as it is for the forward.
 * Changes: words, head.
 * Refusals: LENGTHS, UNSOUND, SLOT_RANGE, OTHERS_SLOT, SLOT_TAKEN, BAD_LIST, LONG_LIST.
 * At SLOT_TAKEN use another slot of the caller's, or forward or release this one. An open slot keeps steps held: close
 * it soon. At LONG_LIST, which only the foyer meets, ask for the offers in several reads. A list of over 64 words, or
 * with another fault, is BAD_LIST for the foyer too. */
uint64_t cechnuol_issue(CECHNUOL_STORE, uint32_t caller, size_t slot, uint64_t *words, size_t word_count);

/* Ends a read of the caller's: the read set that the slot's issue filled gets the prices of its offers at a state from
 * the checkpoint to the tip, and the slot closes. Steps below the checkpoint that no other open slot needs are let go.
 * Only the form of the words is tested: another read set, such as that of an earlier issue of the slot, is brought
 * forward from what it says, and its prices are then wrong.
 * Changes: words, journal, head.
 * Refusals: LENGTHS, UNSOUND, SLOT_RANGE, OTHERS_SLOT, SLOT_CLOSED, BAD_LIST, LONG_LIST, STATE_RANGE. */
uint64_t cechnuol_forward(CECHNUOL_STORE, uint32_t caller, size_t slot, uint32_t state, uint64_t *words,
                          size_t word_count);

/* Gives up a read of the caller's: the slot closes. Steps below the checkpoint that no other open slot needs are let
 * go. Tell the reader before the slot is issued again: the unit cannot know whose read set a forward is lent.
 * Changes: journal, head.
 * Refusals: LENGTHS, UNSOUND, SLOT_RANGE, OTHERS_SLOT, SLOT_CLOSED. */
uint64_t cechnuol_release(CECHNUOL_STORE, uint32_t caller, size_t slot);

/* Prices a batch of orders on a read set, without a store: the orders run in turn, each on what the earlier ones made
 * of the prices. The start of out becomes a list that can be committed, of one word for each offer named with its price
 * in the end or its removal, and *count how many they are; words past them stay.
 * Changes: out, *count.
 * Refusals: BAD_LIST, BAD_ORDER, OFFER_NOT_READ; then by the first order that fails ORDER_NO_PRICE or PRICE_RANGE; then
 * OUTPUT_SHORT.
 * At OUTPUT_SHORT lend as many words as the read set or the orders have, whichever is less. */
uint64_t cechnuol_price_batch(const uint64_t *reads, size_t read_count, const uint64_t *orders, size_t order_count,
                              uint64_t *out, size_t out_count, uint64_t *count);

/* A store in a struct. */

/* The four memories together. The program sets table and journal with their lengths, and makes a store of it by
 * cechnuol_store_clear, cechnuol_store_load or cechnuol_store_load_sheet. A copy of the struct is not a copy of the
 * store: table and journal are pointers. */
struct cechnuol_store {
    uint64_t *table;
    size_t table_words;
    uint64_t *journal;
    size_t journal_words;
    uint64_t head[CECHNUOL_HEAD_WORDS];
    uint64_t tally[CECHNUOL_TALLY_WORDS];
};

/* What the struct lends to a call, and to a query. */
#define CECHNUOL_LENT_TO_READ(store) \
    (store)->table, (store)->table_words, (store)->journal, (store)->journal_words, (store)->head
#define CECHNUOL_LENT(store) CECHNUOL_LENT_TO_READ(store), (store)->tally

/* cechnuol_store_NAME is cechnuol_NAME on the memory of the struct: what is said there holds here. */
static inline uint64_t cechnuol_store_clear(struct cechnuol_store *store, uint32_t depth)
{
    return cechnuol_clear(CECHNUOL_LENT(store), depth);
}

static inline uint64_t cechnuol_store_load(struct cechnuol_store *store, uint32_t depth, const uint8_t *bytes,
                                           size_t byte_count)
{
    return cechnuol_load(CECHNUOL_LENT(store), depth, bytes, byte_count);
}

static inline uint64_t cechnuol_store_load_sheet(struct cechnuol_store *store, uint32_t depth, const uint8_t *bytes,
                                                 size_t byte_count)
{
    return cechnuol_load_sheet(CECHNUOL_LENT(store), depth, bytes, byte_count);
}

static inline uint64_t cechnuol_store_write_image(const struct cechnuol_store *store, uint8_t *bytes, size_t byte_count,
                                                  uint64_t *count)
{
    return cechnuol_write_image(CECHNUOL_LENT_TO_READ(store), bytes, byte_count, count);
}

static inline uint64_t cechnuol_store_write_state_image(const struct cechnuol_store *store, uint32_t state,
                                                        uint8_t *bytes, size_t byte_count, uint64_t *count)
{
    return cechnuol_write_state_image(CECHNUOL_LENT_TO_READ(store), state, bytes, byte_count, count);
}

static inline uint64_t cechnuol_store_write_sheet(const struct cechnuol_store *store, uint8_t *bytes, size_t byte_count,
                                                  uint64_t *count)
{
    return cechnuol_write_sheet(CECHNUOL_LENT_TO_READ(store), bytes, byte_count, count);
}

static inline uint64_t cechnuol_store_write_state_sheet(const struct cechnuol_store *store, uint32_t state,
                                                        uint8_t *bytes, size_t byte_count, uint64_t *count)
{
    return cechnuol_write_state_sheet(CECHNUOL_LENT_TO_READ(store), state, bytes, byte_count, count);
}

static inline uint64_t cechnuol_store_restart(struct cechnuol_store *store, uint8_t *bytes, size_t byte_count)
{
    return cechnuol_restart(CECHNUOL_LENT(store), bytes, byte_count);
}

static inline uint64_t cechnuol_store_commit(struct cechnuol_store *store, const uint64_t *words, size_t word_count)
{
    return cechnuol_commit(CECHNUOL_LENT(store), words, word_count);
}

static inline uint64_t cechnuol_store_roll_back(struct cechnuol_store *store, uint32_t state)
{
    return cechnuol_roll_back(CECHNUOL_LENT(store), state);
}

static inline uint64_t cechnuol_store_flush(struct cechnuol_store *store, uint32_t state)
{
    return cechnuol_flush(CECHNUOL_LENT(store), state);
}

static inline uint64_t cechnuol_store_look_up(const struct cechnuol_store *store, uint32_t caller, uint32_t offer,
                                              uint32_t state, uint64_t *price, uint64_t *since)
{
    return cechnuol_look_up(CECHNUOL_LENT_TO_READ(store), caller, offer, state, price, since);
}

static inline uint64_t cechnuol_store_issue(struct cechnuol_store *store, uint32_t caller, size_t slot, uint64_t *words,
                                            size_t word_count)
{
    return cechnuol_issue(CECHNUOL_LENT(store), caller, slot, words, word_count);
}

static inline uint64_t cechnuol_store_forward(struct cechnuol_store *store, uint32_t caller, size_t slot,
                                              uint32_t state, uint64_t *words, size_t word_count)
{
    return cechnuol_forward(CECHNUOL_LENT(store), caller, slot, state, words, word_count);
}

static inline uint64_t cechnuol_store_release(struct cechnuol_store *store, uint32_t caller, size_t slot)
{
    return cechnuol_release(CECHNUOL_LENT(store), caller, slot);
}

/* What the head of a store says: the numbers of its oldest state, its checkpoint and its tip, its depth and the highest
 * state to which that lets a flush go, whether a slot is open (0 for one above 7), and how many bytes are enough for the
 * image, and for the sheet, of any state from the checkpoint to the tip. */
static inline uint32_t cechnuol_store_oldest(const struct cechnuol_store *store)
{
    return cechnuol_low_bits(store->head[CECHNUOL_OLDEST]);
}

static inline uint32_t cechnuol_store_checkpoint(const struct cechnuol_store *store)
{
    return cechnuol_low_bits(store->head[CECHNUOL_CHECKPOINT]);
}

static inline uint32_t cechnuol_store_tip(const struct cechnuol_store *store)
{
    return cechnuol_low_bits(store->head[CECHNUOL_TIP]);
}

static inline uint32_t cechnuol_store_depth(const struct cechnuol_store *store)
{
    return cechnuol_low_bits(store->head[CECHNUOL_DEPTH]);
}

static inline uint32_t cechnuol_store_highest_flush(const struct cechnuol_store *store)
{
    return cechnuol_highest_flush(store->head);
}

static inline int cechnuol_store_is_open(const struct cechnuol_store *store, size_t slot)
{
    return slot < CECHNUOL_SLOTS && store->head[CECHNUOL_TAKEN + slot] != 0;
}

static inline size_t cechnuol_store_image_bytes(const struct cechnuol_store *store)
{
    return cechnuol_image_bytes(store->head);
}

static inline size_t cechnuol_store_sheet_bytes(const struct cechnuol_store *store)
{
    return cechnuol_sheet_bytes(store->head);
}

#ifdef __cplusplus
}
#endif

#endif
