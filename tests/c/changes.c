/* What the header says that a call changes: an accepted call changes these parts of what is lent, and no other. Each
 * line names all of them that the header has (tools/test_header.py compares the two). */
#include "lent.h"

/* A call that gives this answer, on the store that `begin` makes. */
#define CHANGES_AT(call, answer, parts) \
    do { \
        before = lent; \
        ANSWERS(call, answer); \
        hold((uint64_t)changed(), (parts), "parts changed by " #call); \
    } while (0)

/* An accepted call. */
#define CHANGES(call, parts) CHANGES_AT(call, OK, parts)

static void of_resets(void)
{
    const uint8_t empty[6] = {0, 0, 0, 3, 0, 0}, no_rows[8] = {0, 0, 0, 3, 0, 0, 0, 0};
    begin();
    CHANGES(cechnuol_clear(STORE, 0), TABLE | JOURNAL | HEAD | TALLY);
    begin();
    CHANGES(cechnuol_load(STORE, 0, empty, 6), TABLE | JOURNAL | HEAD | TALLY);
    begin();
    CHANGES(cechnuol_load_sheet(STORE, 0, no_rows, 8), TABLE | JOURNAL | HEAD | TALLY);
    begin();
    CHANGES(cechnuol_restart(STORE, lent.bytes, 64), JOURNAL | HEAD | TALLY | BYTES);
    IS(lent.bytes[3], 7);
    IS(lent.bytes[22], 0x5A);
}

static void of_writing(void)
{
    begin();
    CHANGES(cechnuol_write_image(TO_READ, lent.bytes, 64, &lent.value), BYTES | VALUE);
    IS(lent.value, 22);
    IS(lent.bytes[3], 9);
    IS(lent.bytes[22], 0x5A);
    begin();
    CHANGES(cechnuol_write_state_image(TO_READ, 8, lent.bytes, 64, &lent.value), BYTES | VALUE);
    IS(lent.value, 30);
    IS(lent.bytes[3], 8);
    IS(lent.bytes[30], 0x5A);
    begin();
    CHANGES(cechnuol_write_sheet(TO_READ, lent.bytes, 64, &lent.value), BYTES | VALUE);
    IS(lent.value, 24);
    IS(lent.bytes[3], 9);
    IS(lent.bytes[24], 0x5A);
    begin();
    CHANGES(cechnuol_write_state_sheet(TO_READ, 8, lent.bytes, 64, &lent.value), BYTES | VALUE);
    IS(lent.value, 28);
    IS(lent.bytes[3], 8);
    IS(lent.bytes[28], 0x5A);
}

static void of_steps(void)
{
    const uint64_t cut = cechnuol_remove(6);
    begin();
    CHANGES(cechnuol_commit(STORE, &cut, 1), JOURNAL | HEAD | TALLY);
    begin();
    CHANGES(cechnuol_roll_back(STORE, 8), JOURNAL | HEAD | TALLY);
    begin();
    ANSWERS(cechnuol_release(STORE, CECHNUOL_DESK, 0), OK);
    CHANGES(cechnuol_flush(STORE, 8), TABLE | JOURNAL | HEAD | TALLY);
}

static void of_reads(void)
{
    begin();
    CHANGES(cechnuol_look_up(TO_READ, CECHNUOL_DESK, 5, 7, &lent.value, &lent.since), VALUE | SINCE);
    IS(lent.value, 1200);
    IS(lent.since, CECHNUOL_BY_TABLE);
    begin();
    CHANGES(cechnuol_look_up(TO_READ, CECHNUOL_DESK, 9, 9, &lent.value, &lent.since), VALUE | SINCE);
    IS(lent.value, 700);
    IS(lent.since, 8);
    /* where there is no price, the word for it stays */
    begin();
    CHANGES_AT(cechnuol_look_up(TO_READ, CECHNUOL_DESK, 5, 9, &lent.value, &lent.since), NO_PRICE, SINCE);
    IS(lent.since, 9);
    begin();
    CHANGES_AT(cechnuol_look_up(TO_READ, CECHNUOL_DESK, 4, 9, &lent.value, &lent.since), NO_PRICE, SINCE);
    IS(lent.since, CECHNUOL_BY_TABLE);
    begin();
    lent.words[0] = cechnuol_ask(5);
    lent.words[1] = cechnuol_ask(6);
    CHANGES(cechnuol_issue(STORE, CECHNUOL_FOYER, 7, lent.words, 2), WORDS | HEAD);
    begin();
    ANSWERS(cechnuol_flush(STORE, 9), OK);
    CHANGES(cechnuol_forward(STORE, CECHNUOL_DESK, 0, 9, lent.words, 2), WORDS | JOURNAL | HEAD);
    begin();
    ANSWERS(cechnuol_flush(STORE, 9), OK);
    CHANGES(cechnuol_release(STORE, CECHNUOL_DESK, 0), JOURNAL | HEAD);
}

static void of_batches(void)
{
    const uint64_t order = cechnuol_order(CECHNUOL_RAISE, 50, 5);
    begin();
    CHANGES(cechnuol_price_batch(lent.words, 2, &order, 1, lent.out, 4, &lent.value), OUT | VALUE);
    IS(lent.out[0], cechnuol_put(5, 1250));
    IS(lent.out[1], UINT64_C(0x5A5A5A5A5A5A5A5A));
    IS(lent.value, 1);
}

int main(void)
{
    of_resets();
    of_writing();
    of_steps();
    of_reads();
    of_batches();
    return differences != 0;
}
