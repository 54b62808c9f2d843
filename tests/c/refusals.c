/* Every refusal that the header names at a call, made by that call, in their order: the answer, its name, and that
 * everything lent is as it came. */
#include "lent.h"

/* A state number that does not fit its field: words that no head has. */
static void damage(void)
{
    lent.head[CECHNUOL_TIP] |= UINT64_C(1) << 32;
}

static void of_resets(void)
{
    const uint8_t falling[22] = {0, 0, 0, 7, 0, 2, 0x80, 0, 0, 6, 0, 0, 0x04, 0xB0, 0x80, 0, 0, 5, 0, 0, 0x03, 0x84};
    const uint8_t five[46] = {0, 0, 0, 0, 0, 5, 0x80, 0, 0, 1, 0, 0, 0, 1, 0x80, 0, 0, 2, 0, 0, 0, 1, 0x80, 0, 0, 3,
                              0, 0, 0, 1, 0x80, 0, 0, 4, 0, 0, 0, 1, 0x80, 0, 0, 5, 0, 0, 0, 1};
    const uint8_t falling_rows[32] = {0, 0, 0, 7, 0, 0, 0, 2, 0, 0, 0, 0x40, 0x80, 0, 0, 0, 0, 0, 0x04, 0xB0,
                                      0, 0, 0, 0, 0x80, 0, 0, 0, 0, 0, 0x03, 0x84};
    const uint8_t five_seats[36] = {0, 0, 0, 0, 0, 0, 0, 1, 0, 0, 0, 0, 0x7C, 0, 0, 0,
                                    0, 0, 0, 1, 0, 0, 0, 1, 0, 0, 0, 1, 0, 0, 0, 1, 0, 0, 0, 1};
    begin();
    REFUSED(cechnuol_clear(NOTHING, 64), LENGTHS);
    REFUSED(cechnuol_clear(STORE, 64), TOO_DEEP);
    REFUSED(cechnuol_load(NOTHING, 64, five, 46), LENGTHS);
    REFUSED(cechnuol_load(STORE, 64, falling, 22), TOO_DEEP);
    REFUSED(cechnuol_load(STORE, 0, falling, 22), BAD_IMAGE);
    REFUSED(cechnuol_load(STORE, 0, five, 45), BAD_IMAGE);
    REFUSED(cechnuol_load(STORE, 0, five, 46), TABLE_FULL);
    REFUSED(cechnuol_load_sheet(NOTHING, 64, five_seats, 36), LENGTHS);
    REFUSED(cechnuol_load_sheet(STORE, 64, falling_rows, 32), TOO_DEEP);
    REFUSED(cechnuol_load_sheet(STORE, 0, falling_rows, 32), BAD_IMAGE);
    REFUSED(cechnuol_load_sheet(STORE, 0, five_seats, 35), BAD_IMAGE);
    REFUSED(cechnuol_load_sheet(STORE, 0, five_seats, 36), TABLE_FULL);
    REFUSED(cechnuol_restart(NOTHING, lent.bytes, 22), LENGTHS);
    REFUSED(cechnuol_restart(STORE, lent.bytes, 21), OUTPUT_SHORT);
    damage();
    REFUSED(cechnuol_restart(STORE, lent.bytes, 21), UNSOUND);
}

static void of_queries(void)
{
    begin();
    REFUSED(cechnuol_write_image(NOTHING_TO_READ, lent.bytes, 22, &lent.value), LENGTHS);
    REFUSED(cechnuol_write_image(TO_READ, lent.bytes, 21, &lent.value), OUTPUT_SHORT);
    REFUSED(cechnuol_write_state_image(NOTHING_TO_READ, 6, lent.bytes, 0, &lent.value), LENGTHS);
    REFUSED(cechnuol_write_state_image(TO_READ, 6, lent.bytes, 0, &lent.value), STATE_RANGE);
    REFUSED(cechnuol_write_state_image(TO_READ, 10, lent.bytes, 64, &lent.value), STATE_RANGE);
    REFUSED(cechnuol_write_state_image(TO_READ, 7, lent.bytes, 21, &lent.value), OUTPUT_SHORT);
    REFUSED(cechnuol_write_state_image(TO_READ, 8, lent.bytes, 29, &lent.value), OUTPUT_SHORT);
    REFUSED(cechnuol_write_sheet(NOTHING_TO_READ, lent.bytes, 24, &lent.value), LENGTHS);
    REFUSED(cechnuol_write_sheet(TO_READ, lent.bytes, 23, &lent.value), OUTPUT_SHORT);
    REFUSED(cechnuol_write_state_sheet(NOTHING_TO_READ, 6, lent.bytes, 0, &lent.value), LENGTHS);
    REFUSED(cechnuol_write_state_sheet(TO_READ, 6, lent.bytes, 0, &lent.value), STATE_RANGE);
    REFUSED(cechnuol_write_state_sheet(TO_READ, 10, lent.bytes, 64, &lent.value), STATE_RANGE);
    REFUSED(cechnuol_write_state_sheet(TO_READ, 7, lent.bytes, 23, &lent.value), OUTPUT_SHORT);
    REFUSED(cechnuol_write_state_sheet(TO_READ, 8, lent.bytes, 27, &lent.value), OUTPUT_SHORT);
    REFUSED(cechnuol_look_up(NOTHING_TO_READ, CECHNUOL_DESK, 5, 7, &lent.value, &lent.since), LENGTHS);
    REFUSED(cechnuol_look_up(TO_READ, CECHNUOL_DESK, UINT32_C(1) << 31, 6, &lent.value, &lent.since), BAD_LIST);
    REFUSED(cechnuol_look_up(TO_READ, CECHNUOL_DESK, 5, 6, &lent.value, &lent.since), STATE_RANGE);
    REFUSED(cechnuol_look_up(TO_READ, CECHNUOL_DESK, 5, 10, &lent.value, &lent.since), STATE_RANGE);
    damage();
    REFUSED(cechnuol_write_image(TO_READ, lent.bytes, 21, &lent.value), UNSOUND);
    REFUSED(cechnuol_write_state_image(TO_READ, 6, lent.bytes, 21, &lent.value), UNSOUND);
    REFUSED(cechnuol_write_sheet(TO_READ, lent.bytes, 23, &lent.value), UNSOUND);
    REFUSED(cechnuol_write_state_sheet(TO_READ, 6, lent.bytes, 23, &lent.value), UNSOUND);
    REFUSED(cechnuol_look_up(TO_READ, CECHNUOL_DESK, UINT32_C(1) << 31, 6, &lent.value, &lent.since), UNSOUND);
}

/* Makes the store one at the last state number. */
static void begin_at_last(void)
{
    const uint8_t image[6] = {0xFF, 0xFF, 0xFF, 0xFF, 0, 0};
    memset(&lent, 0x5A, sizeof lent);
    ANSWERS(cechnuol_load(STORE, 0, image, 6), OK);
}

static void of_commit(void)
{
    int i;
    begin();
    put_offers(lent.words, 9, 20, 1);
    REFUSED(cechnuol_commit(NOTHING, lent.words, 1), LENGTHS);
    REFUSED(cechnuol_commit(STORE, lent.words, 7), JOURNAL_FULL);
    lent.words[1] = lent.words[0];
    REFUSED(cechnuol_commit(STORE, lent.words, 2), BAD_LIST);
    for (i = 0; i < 62; i++)
        ANSWERS(cechnuol_commit(STORE, NULL, 0), OK);
    REFUSED(cechnuol_commit(STORE, lent.words, 1), STEPS_FULL);
    REFUSED(cechnuol_commit(STORE, lent.words, 2), BAD_LIST);
    damage();
    REFUSED(cechnuol_commit(STORE, lent.words, 2), UNSOUND);
    begin_at_last();
    REFUSED(cechnuol_commit(STORE, NULL, 0), LAST_STATE);
}

static void of_other_steps(void)
{
    begin();
    REFUSED(cechnuol_roll_back(NOTHING, 7), LENGTHS);
    REFUSED(cechnuol_roll_back(STORE, 6), STATE_RANGE);
    REFUSED(cechnuol_roll_back(STORE, 10), STATE_RANGE);
    REFUSED(cechnuol_flush(NOTHING, 7), LENGTHS);
    REFUSED(cechnuol_flush(STORE, 6), STATE_RANGE);
    REFUSED(cechnuol_flush(STORE, 10), STATE_RANGE);
    put_offers(lent.words, 3, 20, 1);
    ANSWERS(cechnuol_commit(STORE, lent.words, 3), OK);
    REFUSED(cechnuol_flush(STORE, 10), TABLE_FULL);
    lent.head[CECHNUOL_DEPTH] = 1;
    REFUSED(cechnuol_flush(STORE, 11), STATE_RANGE);
    REFUSED(cechnuol_flush(STORE, 10), TOO_DEEP);
    damage();
    REFUSED(cechnuol_roll_back(STORE, 6), UNSOUND);
    REFUSED(cechnuol_flush(STORE, 6), UNSOUND);
}

static void of_reads(void)
{
    const uint32_t desk = CECHNUOL_DESK, foyer = CECHNUOL_FOYER;
    uint32_t i;
    begin();
    REFUSED(cechnuol_issue(NOTHING, desk, 8, lent.words, 2), LENGTHS);
    REFUSED(cechnuol_issue(STORE, desk, 8, lent.words, 2), SLOT_RANGE);
    REFUSED(cechnuol_issue(STORE, foyer, 0, lent.words, 2), OTHERS_SLOT);
    REFUSED(cechnuol_issue(STORE, desk, 0, lent.words, 2), SLOT_TAKEN);
    REFUSED(cechnuol_issue(STORE, foyer, 6, lent.words, 17), BAD_LIST);
    REFUSED(cechnuol_forward(NOTHING, desk, 8, 6, lent.words, 2), LENGTHS);
    REFUSED(cechnuol_forward(STORE, desk, 8, 6, lent.words, 2), SLOT_RANGE);
    REFUSED(cechnuol_forward(STORE, foyer, 1, 6, lent.words, 2), OTHERS_SLOT);
    REFUSED(cechnuol_forward(STORE, desk, 1, 6, lent.words, 2), SLOT_CLOSED);
    REFUSED(cechnuol_forward(STORE, desk, 0, 6, lent.words, 3), BAD_LIST);
    REFUSED(cechnuol_forward(STORE, desk, 0, 6, lent.words, 2), STATE_RANGE);
    REFUSED(cechnuol_release(NOTHING, desk, 8), LENGTHS);
    REFUSED(cechnuol_release(STORE, desk, 8), SLOT_RANGE);
    REFUSED(cechnuol_release(STORE, foyer, 1), OTHERS_SLOT);
    REFUSED(cechnuol_release(STORE, desk, 1), SLOT_CLOSED);
    ANSWERS(cechnuol_issue(STORE, foyer, 7, NULL, 0), OK);
    for (i = 0; i < 17; i++)
        lent.words[i] = cechnuol_ask(i);
    REFUSED(cechnuol_issue(STORE, foyer, 6, lent.words, 17), LONG_LIST);
    REFUSED(cechnuol_forward(STORE, foyer, 7, 6, lent.words, 17), LONG_LIST);
    damage();
    REFUSED(cechnuol_issue(STORE, desk, 8, lent.words, 2), UNSOUND);
    REFUSED(cechnuol_forward(STORE, desk, 8, 6, lent.words, 2), UNSOUND);
    REFUSED(cechnuol_release(STORE, desk, 8), UNSOUND);
}

/* A batch of two orders on the read set: 5 at 1200, and 9 without a price. */
static uint64_t price_batch(uint64_t first, uint64_t second, size_t read_count, size_t out_count)
{
    const uint64_t orders[2] = {first, second};
    return cechnuol_price_batch(lent.words, read_count, orders, 2, lent.out, out_count, &lent.value);
}

static void of_batches(void)
{
    const uint64_t good = cechnuol_order(CECHNUOL_LIST, 1, 5), lost = cechnuol_order(CECHNUOL_CUT, 1201, 5);
    const uint64_t bad = CECHNUOL_NO_ORDER, unread = cechnuol_order(CECHNUOL_LIST, 1, 6);
    const uint64_t unpriced = cechnuol_order(CECHNUOL_RAISE, 1, 9), other = cechnuol_order(CECHNUOL_LIST, 1, 9);
    begin();
    REFUSED(price_batch(bad, bad, 3, 0), BAD_LIST);
    REFUSED(price_batch(unread, bad, 2, 0), BAD_ORDER);
    REFUSED(price_batch(unpriced, unread, 2, 0), OFFER_NOT_READ);
    REFUSED(price_batch(unpriced, lost, 2, 0), ORDER_NO_PRICE);
    REFUSED(price_batch(lost, unpriced, 2, 0), PRICE_RANGE);
    REFUSED(price_batch(good, other, 2, 1), OUTPUT_SHORT);
}

int main(void)
{
    of_resets();
    of_queries();
    of_commit();
    of_other_steps();
    of_reads();
    of_batches();
    return differences != 0;
}
