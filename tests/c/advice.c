/* What the header advises where a call is refused, carried out. Each test shows first that the call is refused, and for
 * how long what suggests itself does not help; then the advice, and that the call is accepted. */
#include "hold.h"

static uint64_t table[4], journal[128], longer[8];
static uint8_t image[CECHNUOL_IMAGE_BYTES_OF(8)], sheet[CECHNUOL_SHEET_BYTES_OF(8)];
static struct cechnuol_store store = {table, 4, journal, 128, {0}, {0}};

static uint64_t commit_put(uint32_t offer, uint32_t price)
{
    const uint64_t word = cechnuol_put(offer, price);
    return cechnuol_store_commit(&store, &word, 1);
}

static void hold_price(const struct cechnuol_store *of, uint32_t offer, uint32_t price)
{
    uint64_t quoted = 0, since = 0;
    ANSWERS(cechnuol_store_look_up(of, CECHNUOL_DESK, offer, cechnuol_store_tip(of), &quoted, &since), OK);
    IS(quoted, price);
}

/* An empty store of a depth, with so many steps above the checkpoint, each of which puts offer 1. */
static void begin_deep(uint32_t depth, size_t table_words, size_t journal_words, uint32_t steps)
{
    store.table_words = table_words;
    store.journal_words = journal_words;
    ANSWERS(cechnuol_store_clear(&store, depth), OK);
    while (steps-- > 0)
        ANSWERS(commit_put(1, steps), OK);
}

/* The same without a depth. */
static void begin(size_t table_words, size_t journal_words, uint32_t steps)
{
    begin_deep(0, table_words, journal_words, steps);
}

static uint64_t flush_highest(void)
{
    return cechnuol_store_flush(&store, cechnuol_store_highest_flush(&store));
}

/* 64 steps and no slot open: one flush helps, to the tip or below it. */
static void steps_full_and_no_slot(void)
{
    begin(4, 128, 64);
    ANSWERS(commit_put(2, 1), STEPS_FULL);
    IS(cechnuol_oldest_slot(store.head), CECHNUOL_SLOTS);
    ANSWERS(cechnuol_store_flush(&store, 1), OK);
    ANSWERS(commit_put(2, 1), OK);
    ANSWERS(commit_put(2, 2), STEPS_FULL);
    ANSWERS(cechnuol_store_flush(&store, cechnuol_store_tip(&store)), OK);
    ANSWERS(commit_put(2, 2), OK);
}

/* Gives up the read that keeps the most steps held, as its caller. */
static uint64_t release_oldest(void)
{
    size_t slot = cechnuol_oldest_slot(store.head);
    return cechnuol_store_release(&store, cechnuol_caller_of(slot), slot);
}

/* Slots 6 and 2 are open since state 0, slot 4 since state 1: to flush and try again does not end. Closing the oldest
 * one by one does; a forward then serves as well as a release. */
static void steps_full_and_slots(void)
{
    uint64_t asked[3] = {cechnuol_ask(1), cechnuol_ask(1), cechnuol_ask(1)};
    int i;
    begin(4, 128, 1);
    ANSWERS(cechnuol_store_issue(&store, CECHNUOL_FOYER, 6, asked, 1), OK);
    ANSWERS(cechnuol_store_issue(&store, CECHNUOL_DESK, 2, asked + 1, 1), OK);
    ANSWERS(cechnuol_store_flush(&store, 1), OK);
    ANSWERS(cechnuol_store_issue(&store, CECHNUOL_DESK, 4, asked + 2, 1), OK);
    for (i = 1; i < 64; i++)
        ANSWERS(commit_put(1, 5), OK);
    for (i = 0; i < 100; i++) {
        ANSWERS(commit_put(1, 6), STEPS_FULL);
        ANSWERS(cechnuol_store_flush(&store, cechnuol_store_tip(&store)), OK);
    }
    IS(cechnuol_oldest_slot(store.head), 2);
    ANSWERS(cechnuol_store_release(&store, CECHNUOL_DESK, 4), OK);
    ANSWERS(commit_put(1, 6), STEPS_FULL);
    ANSWERS(cechnuol_store_release(&store, CECHNUOL_DESK, 2), OK);
    ANSWERS(commit_put(1, 6), STEPS_FULL);
    IS(cechnuol_oldest_slot(store.head), 6);
    IS(cechnuol_caller_of(6), CECHNUOL_FOYER);
    ANSWERS(cechnuol_store_forward(&store, CECHNUOL_FOYER, 6, 64, asked, 1), OK);
    IS(asked[0], cechnuol_put(1, 5));
    ANSWERS(commit_put(1, 6), OK);
    IS(cechnuol_oldest_slot(store.head), CECHNUOL_SLOTS);
}

/* With the largest depth, and a slot open since state 0: the tip cannot be flushed to, and the highest state can. A depth
 * alone does not keep the steps full. */
static void steps_full_and_a_depth(void)
{
    begin_deep(63, 4, 128, 64);
    ANSWERS(commit_put(2, 1), STEPS_FULL);
    ANSWERS(cechnuol_store_flush(&store, cechnuol_store_tip(&store)), TOO_DEEP);
    IS(cechnuol_store_highest_flush(&store), 1);
    ANSWERS(flush_highest(), OK);
    ANSWERS(commit_put(2, 1), OK);
    begin_deep(60, 4, 128, 0);
    ANSWERS(cechnuol_store_issue(&store, CECHNUOL_DESK, 0, NULL, 0), OK);
    while (cechnuol_store_tip(&store) < 64)
        ANSWERS(commit_put(1, 5), OK);
    ANSWERS(commit_put(1, 6), STEPS_FULL);
    ANSWERS(flush_highest(), OK);
    IS(cechnuol_store_checkpoint(&store), 4);
    ANSWERS(commit_put(1, 6), STEPS_FULL);
    IS(cechnuol_store_highest_flush(&store), cechnuol_store_checkpoint(&store));
    IS(cechnuol_store_oldest(&store) < cechnuol_store_checkpoint(&store), 1);
    ANSWERS(release_oldest(), OK);
    ANSWERS(commit_put(1, 6), OK);
}

/* The same for the words of the journal. */
static void journal_full(void)
{
    uint64_t asked = cechnuol_ask(1);
    int i;
    begin(4, 8, 8);
    ANSWERS(commit_put(1, 9), JOURNAL_FULL);
    ANSWERS(cechnuol_store_flush(&store, 8), OK);
    ANSWERS(cechnuol_store_issue(&store, CECHNUOL_DESK, 0, &asked, 1), OK);
    for (i = 0; i < 8; i++)
        ANSWERS(commit_put(1, 9), OK);
    for (i = 0; i < 100; i++) {
        ANSWERS(commit_put(1, 10), JOURNAL_FULL);
        ANSWERS(cechnuol_store_flush(&store, cechnuol_store_tip(&store)), OK);
    }
    ANSWERS(release_oldest(), OK);
    ANSWERS(commit_put(1, 10), OK);
}

/* Three steps of a word each in a journal of three words, and depth 3: no flush makes room, and no slot is open. */
static void begin_with_depth_in_the_way(void)
{
    begin_deep(3, 4, 3, 3);
    ANSWERS(commit_put(1, 9), JOURNAL_FULL);
    ANSWERS(cechnuol_store_flush(&store, 3), TOO_DEEP);
    ANSWERS(cechnuol_store_flush(&store, 1), TOO_DEEP);
    IS(cechnuol_store_highest_flush(&store), cechnuol_store_oldest(&store));
    ANSWERS(flush_highest(), OK);
    ANSWERS(commit_put(1, 9), JOURNAL_FULL);
}

/* What helps then: a rollback, a restart, the image of the tip, or empty lists, after which a step can be flushed. */
static void journal_full_and_a_depth(void)
{
    uint64_t count = 0;
    begin_with_depth_in_the_way();
    ANSWERS(cechnuol_store_roll_back(&store, 2), OK);
    ANSWERS(commit_put(1, 9), OK);
    begin_with_depth_in_the_way();
    ANSWERS(cechnuol_store_restart(&store, image, sizeof image), OK);
    IS(cechnuol_store_tip(&store), 0);
    ANSWERS(commit_put(1, 9), OK);
    begin_with_depth_in_the_way();
    ANSWERS(cechnuol_store_write_image(&store, image, sizeof image, &count), OK);
    ANSWERS(cechnuol_store_load(&store, cechnuol_store_depth(&store), image, count), OK);
    IS(cechnuol_store_checkpoint(&store), 3);
    IS(cechnuol_store_depth(&store), 3);
    hold_price(&store, 1, 0);
    ANSWERS(commit_put(1, 9), OK);
    begin_with_depth_in_the_way();
    ANSWERS(cechnuol_store_commit(&store, NULL, 0), OK);
    ANSWERS(cechnuol_store_flush(&store, 2), TOO_DEEP);
    ANSWERS(flush_highest(), OK);
    IS(cechnuol_store_checkpoint(&store), 1);
    ANSWERS(commit_put(1, 9), OK);
}

/* A journal of 64 * (depth + 1) words has room for the longest list whenever all is flushed that may be; one of a word
 * less has not. The lists remove what is not there, so that the table takes any state. */
static void journal_for_a_depth(void)
{
    uint64_t words[CECHNUOL_LIST_WORDS];
    uint32_t i;
    for (i = 0; i < CECHNUOL_LIST_WORDS; i++)
        words[i] = cechnuol_remove(i);
    begin_deep(1, 4, 128, 0);
    for (i = 0; i < 100; i++) {
        ANSWERS(cechnuol_store_commit(&store, words, CECHNUOL_LIST_WORDS), OK);
        ANSWERS(flush_highest(), OK);
    }
    begin_deep(1, 4, 127, 0);
    ANSWERS(cechnuol_store_commit(&store, words, CECHNUOL_LIST_WORDS), OK);
    ANSWERS(flush_highest(), OK);
    ANSWERS(cechnuol_store_commit(&store, words, CECHNUOL_LIST_WORDS), JOURNAL_FULL);
    ANSWERS(cechnuol_store_commit(&store, words, CECHNUOL_LIST_WORDS - 1), OK);
}

/* A flush too high: a lower one is accepted, and that one once further steps are committed. */
static void flush_too_deep(void)
{
    begin_deep(2, 4, 8, 3);
    ANSWERS(cechnuol_store_flush(&store, 2), TOO_DEEP);
    ANSWERS(flush_highest(), OK);
    IS(cechnuol_store_checkpoint(&store), 1);
    ANSWERS(cechnuol_store_flush(&store, 2), TOO_DEEP);
    ANSWERS(commit_put(1, 9), OK);
    ANSWERS(cechnuol_store_flush(&store, 2), OK);
}

/* Nothing is held, and still the list does not fit: in parts it does, and in a store with a longer journal. */
static void list_longer_than_journal(void)
{
    struct cechnuol_store other = {longer, 8, journal + 64, 3, {0}, {0}};
    uint64_t words[3], count = 0;
    put_offers(words, 3, 1, 100);
    begin(4, 2, 1);
    ANSWERS(cechnuol_store_flush(&store, 1), OK);
    IS(cechnuol_store_oldest(&store), cechnuol_store_tip(&store));
    ANSWERS(cechnuol_store_commit(&store, words, 3), JOURNAL_FULL);
    ANSWERS(cechnuol_store_write_image(&store, image, sizeof image, &count), OK);
    ANSWERS(cechnuol_store_load(&other, 0, image, count), OK);
    ANSWERS(cechnuol_store_commit(&other, words, 3), OK);
    hold_price(&other, 3, 100);
    ANSWERS(cechnuol_store_commit(&store, words, 2), OK);
    ANSWERS(cechnuol_store_flush(&store, 2), OK);
    ANSWERS(cechnuol_store_commit(&store, words + 2, 1), OK);
    hold_price(&store, 1, 100);
    hold_price(&store, 3, 100);
}

/* Neither words nor a flush: the tip has more prices than the table. Closing the slot whose number is below the
 * checkpoint frees words all the same. */
static void journal_full_and_table_full(void)
{
    const uint64_t removal = cechnuol_remove(6);
    begin(1, 3, 0);
    ANSWERS(cechnuol_store_issue(&store, CECHNUOL_DESK, 0, NULL, 0), OK);
    ANSWERS(commit_put(5, 1), OK);
    ANSWERS(cechnuol_store_flush(&store, 1), OK);
    ANSWERS(commit_put(6, 1), OK);
    ANSWERS(commit_put(7, 1), OK);
    ANSWERS(cechnuol_store_commit(&store, &removal, 1), JOURNAL_FULL);
    ANSWERS(cechnuol_store_flush(&store, 3), TABLE_FULL);
    ANSWERS(release_oldest(), OK);
    ANSWERS(cechnuol_store_commit(&store, &removal, 1), OK);
}

/* All slots are open, and none is the cause: the oldest state is the checkpoint. To close them frees nothing; a flush to
 * a lower state, whose prices fit the table, does. */
static void steps_full_and_slots_at_the_checkpoint(void)
{
    uint64_t words[2];
    size_t slot;
    put_offers(words, 2, 1, 100);
    begin(1, 128, 1);
    for (slot = 0; slot < CECHNUOL_SLOTS; slot++)
        ANSWERS(cechnuol_store_issue(&store, cechnuol_caller_of(slot), slot, NULL, 0), OK);
    ANSWERS(cechnuol_store_commit(&store, words, 2), OK);
    while (cechnuol_store_tip(&store) < CECHNUOL_STEPS)
        ANSWERS(commit_put(1, 7), OK);
    ANSWERS(commit_put(1, 8), STEPS_FULL);
    ANSWERS(cechnuol_store_flush(&store, cechnuol_store_tip(&store)), TABLE_FULL);
    IS(cechnuol_store_oldest(&store), cechnuol_store_checkpoint(&store));
    ANSWERS(cechnuol_store_flush(&store, 1), OK);
    ANSWERS(commit_put(1, 8), STEPS_FULL);
    for (slot = 0; slot < CECHNUOL_SLOTS; slot++) {
        ANSWERS(commit_put(1, 8), STEPS_FULL);
        IS(cechnuol_store_oldest(&store) < cechnuol_store_checkpoint(&store), 1);
        ANSWERS(release_oldest(), OK);
    }
    ANSWERS(commit_put(1, 8), OK);
    /* full again, and now the slots lie at the checkpoint: each is closed in vain */
    for (slot = 0; slot < CECHNUOL_SLOTS; slot++)
        ANSWERS(cechnuol_store_issue(&store, cechnuol_caller_of(slot), slot, NULL, 0), OK);
    ANSWERS(commit_put(1, 9), STEPS_FULL);
    for (slot = 0; slot < CECHNUOL_SLOTS; slot++) {
        IS(cechnuol_store_oldest(&store), cechnuol_store_checkpoint(&store));
        ANSWERS(cechnuol_store_release(&store, cechnuol_caller_of(slot), slot), OK);
        ANSWERS(commit_put(1, 9), STEPS_FULL);
    }
}

/* What the header warns of: a slot that was given up and issued again brings the first reader's words forward from what
 * they say. */
static void another_read_set(void)
{
    uint64_t first[1] = {cechnuol_ask(5)}, second[1] = {cechnuol_ask(5)};
    begin(4, 128, 0);
    ANSWERS(cechnuol_store_issue(&store, CECHNUOL_DESK, 0, first, 1), OK);
    ANSWERS(commit_put(5, 1200), OK);
    ANSWERS(cechnuol_store_flush(&store, 1), OK);
    ANSWERS(cechnuol_store_release(&store, CECHNUOL_DESK, 0), OK);
    ANSWERS(cechnuol_store_issue(&store, CECHNUOL_DESK, 0, second, 1), OK);
    ANSWERS(cechnuol_store_forward(&store, CECHNUOL_DESK, 0, 1, first, 1), OK);
    IS(first[0], cechnuol_remove(5));
    IS(second[0], cechnuol_put(5, 1200));
}

/* A table of one word, offer 1 at the checkpoint, offer 2 besides at state 3; a slot open since state 0. */
static void begin_with_table_full(void)
{
    begin(1, 8, 0);
    ANSWERS(cechnuol_store_issue(&store, CECHNUOL_DESK, 0, NULL, 0), OK);
    ANSWERS(commit_put(1, 10), OK);
    ANSWERS(cechnuol_store_flush(&store, 1), OK);
    ANSWERS(commit_put(1, 11), OK);
    ANSWERS(commit_put(2, 20), OK);
    ANSWERS(cechnuol_store_flush(&store, 3), TABLE_FULL);
}

/* A flush to a lower state, one to a newer state after a removal, and a rollback where a removal has no room. */
static void table_full_at_a_flush(void)
{
    const uint64_t cut = cechnuol_remove(1);
    begin_with_table_full();
    ANSWERS(cechnuol_store_flush(&store, 2), OK);
    ANSWERS(cechnuol_store_flush(&store, 3), TABLE_FULL);
    ANSWERS(cechnuol_store_commit(&store, &cut, 1), OK);
    ANSWERS(cechnuol_store_flush(&store, 3), TABLE_FULL);
    ANSWERS(cechnuol_store_flush(&store, 4), OK);
    hold_price(&store, 2, 20);
    begin(1, 2, 0);
    ANSWERS(commit_put(1, 10), OK);
    ANSWERS(commit_put(2, 20), OK);
    ANSWERS(cechnuol_store_flush(&store, 2), TABLE_FULL);
    ANSWERS(cechnuol_store_commit(&store, &cut, 1), JOURNAL_FULL);
    ANSWERS(cechnuol_store_roll_back(&store, 1), OK);
    ANSWERS(cechnuol_store_commit(&store, &cut, 1), OK);
    ANSWERS(cechnuol_store_flush(&store, 2), OK);
}

/* With a depth the state that a removal leads to is flushed once so many steps lie above it. */
static void table_full_and_a_depth(void)
{
    const uint64_t cut = cechnuol_remove(1);
    begin_deep(2, 1, 8, 1);
    ANSWERS(commit_put(2, 20), OK);
    ANSWERS(cechnuol_store_commit(&store, &cut, 1), OK);
    ANSWERS(commit_put(2, 21), OK);
    ANSWERS(cechnuol_store_flush(&store, 2), TABLE_FULL);
    ANSWERS(cechnuol_store_flush(&store, 3), TOO_DEEP);
    ANSWERS(commit_put(2, 22), OK);
    ANSWERS(cechnuol_store_flush(&store, 3), OK);
    hold_price(&store, 2, 22);
}

/* Commits to another store the lists of this one that lie above its checkpoint, from where the header says that they
 * stand in the journal. */
static void commit_again(struct cechnuol_store *other)
{
    const uint64_t *ends = store.head + CECHNUOL_ENDS;
    size_t k = cechnuol_store_checkpoint(&store) - cechnuol_store_oldest(&store);
    size_t held = cechnuol_store_tip(&store) - cechnuol_store_oldest(&store);
    for (; k < held; k++) {
        size_t start = k == 0 ? 0 : ends[k - 1];
        ANSWERS(cechnuol_store_commit(other, store.journal + start, ends[k] - start), OK);
    }
}

/* To a longer table by the checkpoint's image; what was committed above the checkpoint is committed again. A slot that
 * is open since state 0 holds steps below the checkpoint, which are not. */
static void longer_table(void)
{
    struct cechnuol_store other = {longer, 2, journal + 64, 8, {0}, {0}};
    struct cechnuol_store shorter = {longer, 1, journal + 64, 8, {0}, {0}};
    uint64_t count = 0, price = 0, since = 0;
    begin_with_table_full();
    IS(cechnuol_store_checkpoint(&store) - cechnuol_store_oldest(&store), 1);
    ANSWERS(cechnuol_store_write_state_image(&store, cechnuol_store_checkpoint(&store), image, sizeof image, &count), OK);
    IS(count, CECHNUOL_IMAGE_BYTES_OF(store.head[CECHNUOL_USED]));
    ANSWERS(cechnuol_store_load(&other, 0, image, count), OK);
    hold_price(&other, 1, 10);
    ANSWERS(cechnuol_store_look_up(&other, CECHNUOL_DESK, 2, cechnuol_store_tip(&other), &price, &since), NO_PRICE);
    commit_again(&other);
    IS(cechnuol_store_tip(&other), cechnuol_store_tip(&store));
    ANSWERS(cechnuol_store_flush(&other, 3), OK);
    hold_price(&other, 1, 11);
    hold_price(&other, 2, 20);
    /* a load into a table that is too short: the fifth and sixth byte say how long it must be */
    ANSWERS(cechnuol_store_write_image(&store, image, sizeof image, &count), OK);
    ANSWERS(cechnuol_store_load(&shorter, 0, image, count), TABLE_FULL);
    IS((uint64_t)image[4] << 8 | image[5], 2);
    shorter.table_words = 2;
    ANSWERS(cechnuol_store_load(&shorter, 0, image, count), OK);
    IS(cechnuol_store_checkpoint(&shorter), cechnuol_store_tip(&store));
    hold_price(&shorter, 1, 11);
    hold_price(&shorter, 2, 20);
}

/* A sheet of three prices in two rows: its length and its count of rows say how long the table must be. */
static void table_full_at_a_sheet(void)
{
    struct cechnuol_store other = {longer, 2, journal + 64, 8, {0}, {0}};
    const uint64_t words[3] = {cechnuol_put(1, 10), cechnuol_put(2, 20), cechnuol_put(32, 30)};
    uint64_t count = 0, rows;
    begin(4, 8, 0);
    ANSWERS(cechnuol_store_commit(&store, words, 3), OK);
    ANSWERS(cechnuol_store_write_sheet(&store, sheet, sizeof sheet, &count), OK);
    ANSWERS(cechnuol_store_load_sheet(&other, 0, sheet, count), TABLE_FULL);
    rows = (uint64_t)sheet[4] << 24 | (uint64_t)sheet[5] << 16 | (uint64_t)sheet[6] << 8 | sheet[7];
    IS(rows, 2);
    other.table_words = (count - 8 - 8 * rows) / 4;
    IS(other.table_words, 3);
    ANSWERS(cechnuol_store_load_sheet(&other, 0, sheet, count), OK);
    hold_price(&other, 2, 20);
    hold_price(&other, 32, 30);
}

/* An image has the newest prices, or those of the state that is named. A restart has the checkpoint: what is above it is
 * lost, unless it is flushed before or loaded from the tip's image instead. */
static void images_and_restarts(void)
{
    struct cechnuol_store other = {longer, 4, journal + 64, 8, {0}, {0}};
    uint64_t asked = cechnuol_ask(1), count = 0;
    begin(4, 8, 0);
    ANSWERS(commit_put(1, 10), OK);
    ANSWERS(cechnuol_store_issue(&store, CECHNUOL_DESK, 3, &asked, 1), OK);
    ANSWERS(cechnuol_store_write_state_image(&store, 0, image, sizeof image, &count), OK);
    IS(count, 6);
    IS(cechnuol_store_image_bytes(&store), 14);
    ANSWERS(cechnuol_store_write_image(&store, image, cechnuol_store_image_bytes(&store), &count), OK);
    ANSWERS(cechnuol_store_load(&other, 0, image, count), OK);
    IS(cechnuol_store_tip(&other), 1);
    hold_price(&other, 1, 10);
    ANSWERS(cechnuol_store_flush(&store, 1), OK);
    ANSWERS(commit_put(1, 11), OK);
    ANSWERS(cechnuol_store_restart(&store, image, CECHNUOL_IMAGE_BYTES_OF(store.head[CECHNUOL_USED])), OK);
    IS(cechnuol_store_tip(&store), 1);
    IS(cechnuol_store_is_open(&store, 3) != 0, 0);
    hold_price(&store, 1, 10);
    ANSWERS(cechnuol_store_forward(&store, CECHNUOL_DESK, 3, 1, &asked, 1), SLOT_CLOSED);
    ANSWERS(commit_put(1, 11), OK);
    ANSWERS(cechnuol_store_flush(&store, 2), OK);
    ANSWERS(cechnuol_store_restart(&store, image, sizeof image), OK);
    hold_price(&store, 1, 11);
    /* with a depth nothing is flushed before: the image of the tip is loaded instead */
    begin_deep(1, 4, 8, 0);
    ANSWERS(commit_put(1, 10), OK);
    ANSWERS(cechnuol_store_flush(&store, 1), TOO_DEEP);
    ANSWERS(cechnuol_store_write_image(&store, image, sizeof image, &count), OK);
    ANSWERS(cechnuol_store_load(&store, cechnuol_store_depth(&store), image, count), OK);
    IS(cechnuol_store_tip(&store), 1);
    hold_price(&store, 1, 10);
}

/* At the last state number: the image with number 0 has the same prices. */
static void last_state(void)
{
    const uint8_t last_but_one[6] = {0xFF, 0xFF, 0xFF, 0xFE, 0, 0};
    uint64_t count = 0;
    begin(4, 8, 0);
    ANSWERS(cechnuol_store_load(&store, 0, last_but_one, 6), OK);
    ANSWERS(commit_put(1, 10), OK);
    ANSWERS(commit_put(1, 11), LAST_STATE);
    ANSWERS(cechnuol_store_write_image(&store, image, sizeof image, &count), OK);
    memset(image, 0, 4);
    ANSWERS(cechnuol_store_load(&store, 0, image, count), OK);
    IS(cechnuol_store_tip(&store), 0);
    hold_price(&store, 1, 10);
    ANSWERS(commit_put(1, 11), OK);
}

/* The bytes that the header names for a sheet: they are enough, and a byte less is not where each price is in a row of
 * its own. The checkpoint takes less. */
static void output_short_of_a_sheet(void)
{
    uint64_t count = 0;
    begin(4, 8, 1);
    ANSWERS(cechnuol_store_write_sheet(&store, sheet, cechnuol_store_sheet_bytes(&store) - 1, &count), OUTPUT_SHORT);
    ANSWERS(cechnuol_store_write_sheet(&store, sheet, cechnuol_store_sheet_bytes(&store), &count), OK);
    ANSWERS(cechnuol_store_flush(&store, 1), OK);
    ANSWERS(commit_put(33, 9), OK);
    IS(cechnuol_store_sheet_bytes(&store), CECHNUOL_SHEET_BYTES_OF(2));
    ANSWERS(cechnuol_store_write_sheet(&store, sheet, CECHNUOL_SHEET_BYTES_OF(2) - 1, &count), OUTPUT_SHORT);
    ANSWERS(cechnuol_store_write_sheet(&store, sheet, CECHNUOL_SHEET_BYTES_OF(2), &count), OK);
    IS(count, CECHNUOL_SHEET_BYTES_OF(2));
    ANSWERS(cechnuol_store_write_state_sheet(&store, 1, sheet, CECHNUOL_SHEET_BYTES_OF(store.head[CECHNUOL_USED]), &count),
            OK);
    /* seat 2 of row 1, behind seat 1: room for a row is named, and not taken */
    ANSWERS(commit_put(34, 9), OK);
    IS(cechnuol_store_sheet_bytes(&store), CECHNUOL_SHEET_BYTES_OF(3));
    ANSWERS(cechnuol_store_write_sheet(&store, sheet, cechnuol_store_sheet_bytes(&store), &count), OK);
    IS(count, CECHNUOL_SHEET_BYTES_OF(3) - 8);
}

/* Output of the lengths that the header names is enough, and a word or byte less is not. */
static void output_short(void)
{
    const uint64_t reads[2] = {cechnuol_put(1, 10), cechnuol_put(2, 20)};
    const uint64_t orders[3] = {cechnuol_order(CECHNUOL_RAISE, 1, 1), cechnuol_order(CECHNUOL_RAISE, 1, 2),
                                cechnuol_order(CECHNUOL_RAISE, 1, 1)};
    uint64_t out[2], count = 0;
    ANSWERS(cechnuol_price_batch(reads, 2, orders, 3, out, 1, &count), OUTPUT_SHORT);
    ANSWERS(cechnuol_price_batch(reads, 2, orders, 3, out, 2, &count), OK);
    ANSWERS(cechnuol_price_batch(reads, 2, orders, 1, out, 0, &count), OUTPUT_SHORT);
    ANSWERS(cechnuol_price_batch(reads, 2, orders, 1, out, 1, &count), OK);
    begin(4, 8, 1);
    ANSWERS(cechnuol_store_write_image(&store, image, cechnuol_store_image_bytes(&store) - 1, &count), OUTPUT_SHORT);
    ANSWERS(cechnuol_store_write_image(&store, image, cechnuol_store_image_bytes(&store), &count), OK);
    ANSWERS(commit_put(2, 9), OK);
    ANSWERS(cechnuol_store_write_image(&store, image, cechnuol_store_image_bytes(&store) - 1, &count), OUTPUT_SHORT);
    ANSWERS(cechnuol_store_write_image(&store, image, cechnuol_store_image_bytes(&store), &count), OK);
}

int main(void)
{
    steps_full_and_no_slot();
    steps_full_and_slots();
    steps_full_and_a_depth();
    journal_full();
    journal_full_and_a_depth();
    journal_for_a_depth();
    flush_too_deep();
    list_longer_than_journal();
    journal_full_and_table_full();
    steps_full_and_slots_at_the_checkpoint();
    another_read_set();
    table_full_at_a_flush();
    table_full_and_a_depth();
    longer_table();
    table_full_at_a_sheet();
    images_and_restarts();
    last_state();
    output_short();
    output_short_of_a_sheet();
    return differences != 0;
}
