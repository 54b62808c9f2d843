/* How fresh a quote is: the state to which the last step leads that names the offer, of those above the checkpoint and
 * up to the state, or that the table answered. What must come out is worked out by hand. */
#include "hold.h"

static uint64_t table[4], journal[64], other_table[4], other_journal[64];
static struct cechnuol_store store = {table, 4, journal, 64, {0}, {0}};

enum { NONE = -1 };

/* What an offer costs at a state, NONE where it has no price, and since when. Both callers are told the same. */
static void hold_quote(uint32_t offer, uint32_t state, int64_t price, uint64_t since)
{
    const uint64_t answer = price == NONE ? CECHNUOL_NO_PRICE : CECHNUOL_OK;
    uint32_t caller;
    char what[80];
    snprintf(what, sizeof what, "offer %" PRIu32 " at state %" PRIu32, offer, state);
    for (caller = CECHNUOL_DESK; caller <= CECHNUOL_FOYER; caller++) {
        uint64_t quoted = 7, when = 7;
        uint64_t got = cechnuol_store_look_up(&store, caller, offer, state, &quoted, &when);
        hold_answer(got, answer, cechnuol_name(answer), what);
        hold(quoted, price == NONE ? 7 : (uint64_t)price, what);
        hold(when, since, what);
    }
}

/* A store whose table has offer 5 at 1200, as a state below 2^32. */
static void begin(uint32_t state)
{
    uint8_t image[14] = {0, 0, 0, 0, 0, 1, 0x80, 0, 0, 5, 0, 0, 0x04, 0xB0};
    int i;
    for (i = 0; i < 4; i++)
        image[i] = state >> (24 - 8 * i) & 0xFF;
    ANSWERS(cechnuol_store_load(&store, 0, image, sizeof image), OK);
}

static void commit(uint64_t word)
{
    ANSWERS(cechnuol_store_commit(&store, &word, 1), OK);
}

/* Three steps, the last of which removes offer 5; and what a flush makes of it. */
static void steps_and_a_flush(void)
{
    begin(0);
    commit(cechnuol_put(5, 1));
    commit(cechnuol_put(9, 2));
    commit(cechnuol_remove(5));
    hold_quote(5, 0, 1200, CECHNUOL_BY_TABLE);
    hold_quote(5, 1, 1, 1);
    hold_quote(5, 2, 1, 1);
    hold_quote(5, 3, NONE, 3);
    hold_quote(9, 1, NONE, CECHNUOL_BY_TABLE);
    hold_quote(9, 2, 2, 2);
    hold_quote(9, 3, 2, 2);
    hold_quote(8, 0, NONE, CECHNUOL_BY_TABLE);
    hold_quote(8, 3, NONE, CECHNUOL_BY_TABLE);
    ANSWERS(cechnuol_store_flush(&store, 2), OK);
    hold_quote(5, 2, 1, CECHNUOL_BY_TABLE);
    hold_quote(5, 3, NONE, 3);
    hold_quote(9, 2, 2, CECHNUOL_BY_TABLE);
    hold_quote(9, 3, 2, CECHNUOL_BY_TABLE);
    ANSWERS(cechnuol_store_flush(&store, 3), OK);
    hold_quote(5, 3, NONE, CECHNUOL_BY_TABLE);
}

/* A step without a word names no offer and takes a number. */
static void an_empty_step(void)
{
    begin(0);
    commit(cechnuol_put(5, 1));
    ANSWERS(cechnuol_store_commit(&store, NULL, 0), OK);
    commit(cechnuol_put(9, 2));
    commit(cechnuol_remove(5));
    hold_quote(5, 2, 1, 1);
    hold_quote(9, 2, NONE, CECHNUOL_BY_TABLE);
    hold_quote(9, 3, 2, 3);
    hold_quote(5, 4, NONE, 4);
}

/* A step that puts the price that was there names its offer, and so does one that removes what was not there. */
static void steps_that_change_nothing(void)
{
    begin(0);
    commit(cechnuol_put(5, 1200));
    commit(cechnuol_remove(9));
    hold_quote(5, 1, 1200, 1);
    hold_quote(5, 2, 1200, 1);
    hold_quote(9, 2, NONE, 2);
}

/* An open slot keeps the steps below the checkpoint held; they are not searched. */
static void steps_held_for_a_read(void)
{
    uint64_t asked = cechnuol_ask(5);
    begin(0);
    ANSWERS(cechnuol_store_issue(&store, CECHNUOL_DESK, 0, &asked, 1), OK);
    commit(cechnuol_put(5, 1));
    commit(cechnuol_put(9, 2));
    commit(cechnuol_put(9, 3));
    ANSWERS(cechnuol_store_flush(&store, 2), OK);
    IS(cechnuol_store_oldest(&store), 0);
    hold_quote(5, 2, 1, CECHNUOL_BY_TABLE);
    hold_quote(5, 3, 1, CECHNUOL_BY_TABLE);
    hold_quote(9, 2, 2, CECHNUOL_BY_TABLE);
    hold_quote(9, 3, 3, 3);
    ANSWERS(cechnuol_store_release(&store, CECHNUOL_DESK, 0), OK);
    hold_quote(5, 3, 1, CECHNUOL_BY_TABLE);
    hold_quote(9, 3, 3, 3);
}

/* A number that a rollback has made free is used again, and so stands for another step. */
static void a_rollback(void)
{
    begin(0);
    commit(cechnuol_put(5, 1));
    commit(cechnuol_put(5, 2));
    commit(cechnuol_put(5, 3));
    ANSWERS(cechnuol_store_roll_back(&store, 1), OK);
    hold_quote(5, 1, 1, 1);
    commit(cechnuol_put(9, 4));
    hold_quote(5, 2, 1, 1);
    hold_quote(9, 2, 4, 2);
    commit(cechnuol_put(5, 5));
    hold_quote(5, 3, 5, 3);
}

/* The last numbers that states have. */
static void high_numbers(void)
{
    uint32_t i;
    begin(4294967290);
    for (i = 1; i <= 5; i++)
        commit(cechnuol_put(5, i));
    hold_quote(5, 4294967290, 1200, CECHNUOL_BY_TABLE);
    hold_quote(5, 4294967291, 1, 4294967291);
    hold_quote(5, 4294967295, 5, 4294967295);
}

/* As many steps as are held: all of them name offer 5, or the first or the last alone. */
static void all_steps(void)
{
    uint32_t i;
    begin(0);
    for (i = 1; i <= CECHNUOL_STEPS; i++)
        commit(cechnuol_put(5, i));
    for (i = 1; i <= CECHNUOL_STEPS; i++)
        hold_quote(5, i, i, i);
    begin(0);
    commit(cechnuol_put(5, 1));
    for (i = 2; i < CECHNUOL_STEPS; i++)
        commit(cechnuol_put(9, i));
    commit(cechnuol_put(8, 3));
    hold_quote(5, 64, 1, 1);
    hold_quote(9, 64, 63, 63);
    hold_quote(8, 63, NONE, CECHNUOL_BY_TABLE);
    hold_quote(8, 64, 3, 64);
}

/* The same prices in a store of another's image: the numbers beside them differ. A flush and a restart, too, leave the
 * prices and change the numbers. */
static void two_stores(void)
{
    struct cechnuol_store other = {other_table, 4, other_journal, 64, {0}, {0}}, first;
    uint8_t image[CECHNUOL_IMAGE_BYTES_OF(4)];
    uint64_t count = 0;
    begin(0);
    commit(cechnuol_put(5, 1));
    commit(cechnuol_put(9, 2));
    ANSWERS(cechnuol_store_write_image(&store, image, sizeof image, &count), OK);
    ANSWERS(cechnuol_store_load(&other, 0, image, count), OK);
    hold_quote(5, 2, 1, 1);
    hold_quote(9, 2, 2, 2);
    first = store;
    store = other;
    hold_quote(5, 2, 1, CECHNUOL_BY_TABLE);
    hold_quote(9, 2, 2, CECHNUOL_BY_TABLE);
    store = first;
    ANSWERS(cechnuol_store_flush(&store, 1), OK);
    hold_quote(5, 2, 1, CECHNUOL_BY_TABLE);
    hold_quote(9, 2, 2, 2);
    ANSWERS(cechnuol_store_restart(&store, image, sizeof image), OK);
    hold_quote(5, 1, 1, CECHNUOL_BY_TABLE);
    hold_quote(9, 1, NONE, CECHNUOL_BY_TABLE);
}

int main(void)
{
    IS(CECHNUOL_BY_TABLE, 4294967296);
    steps_and_a_flush();
    an_empty_step();
    steps_that_change_nothing();
    steps_held_for_a_read();
    a_rollback();
    high_numbers();
    all_steps();
    two_stores();
    return differences != 0;
}
