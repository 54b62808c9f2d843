/* Null pointers with length 0 lend no memory, and none is touched; and heads and tallies of any words. */
#include "hold.h"

static uint64_t table[4], journal[16], head[CECHNUOL_HEAD_WORDS], tally[CECHNUOL_TALLY_WORDS];

#define STORE table, 4, journal, 16, head, tally
/* The same with no word of table and journal. */
#define NOTHING_TO_READ NULL, 0, NULL, 0, head
#define NOTHING NOTHING_TO_READ, tally

static void on_nothing(void)
{
    uint64_t value = 7, since = 8;
    ANSWERS(cechnuol_clear(NOTHING, UINT32_MAX), LENGTHS);
    ANSWERS(cechnuol_load(NOTHING, UINT32_MAX, NULL, 0), LENGTHS);
    ANSWERS(cechnuol_write_image(NOTHING_TO_READ, NULL, 0, &value), LENGTHS);
    ANSWERS(cechnuol_write_state_image(NOTHING_TO_READ, 0, NULL, 0, &value), LENGTHS);
    ANSWERS(cechnuol_load_sheet(NOTHING, UINT32_MAX, NULL, 0), LENGTHS);
    ANSWERS(cechnuol_write_sheet(NOTHING_TO_READ, NULL, 0, &value), LENGTHS);
    ANSWERS(cechnuol_write_state_sheet(NOTHING_TO_READ, 0, NULL, 0, &value), LENGTHS);
    ANSWERS(cechnuol_restart(NOTHING, NULL, 0), LENGTHS);
    ANSWERS(cechnuol_commit(NOTHING, NULL, 0), LENGTHS);
    ANSWERS(cechnuol_roll_back(NOTHING, 0), LENGTHS);
    ANSWERS(cechnuol_flush(NOTHING, 0), LENGTHS);
    ANSWERS(cechnuol_look_up(NOTHING_TO_READ, CECHNUOL_DESK, 0, 0, &value, &since), LENGTHS);
    ANSWERS(cechnuol_issue(NOTHING, CECHNUOL_DESK, 0, NULL, 0), LENGTHS);
    ANSWERS(cechnuol_forward(NOTHING, CECHNUOL_DESK, 0, 0, NULL, 0), LENGTHS);
    ANSWERS(cechnuol_release(NOTHING, CECHNUOL_DESK, 0), LENGTHS);
    IS(value, 7);
    IS(since, 8);
}

static void of_no_length(void)
{
    uint64_t value = 7;
    ANSWERS(cechnuol_price_batch(NULL, 0, NULL, 0, NULL, 0, &value), OK);
    IS(value, 0);
    ANSWERS(cechnuol_clear(STORE, 0), OK);
    ANSWERS(cechnuol_load(STORE, 64, NULL, 0), TOO_DEEP);
    ANSWERS(cechnuol_load(STORE, 63, NULL, 0), BAD_IMAGE);
    ANSWERS(cechnuol_load_sheet(STORE, 64, NULL, 0), TOO_DEEP);
    ANSWERS(cechnuol_load_sheet(STORE, 63, NULL, 0), BAD_IMAGE);
    ANSWERS(cechnuol_commit(STORE, NULL, 0), OK);
    ANSWERS(cechnuol_issue(STORE, CECHNUOL_DESK, 0, NULL, 0), OK);
    ANSWERS(cechnuol_forward(STORE, CECHNUOL_DESK, 0, 1, NULL, 0), OK);
    ANSWERS(cechnuol_write_image(table, 4, journal, 16, head, NULL, 0, &value), OUTPUT_SHORT);
    ANSWERS(cechnuol_write_state_image(table, 4, journal, 16, head, 1, NULL, 0, &value), OUTPUT_SHORT);
    ANSWERS(cechnuol_write_sheet(table, 4, journal, 16, head, NULL, 0, &value), OUTPUT_SHORT);
    ANSWERS(cechnuol_write_state_sheet(table, 4, journal, 16, head, 1, NULL, 0, &value), OUTPUT_SHORT);
    ANSWERS(cechnuol_restart(STORE, NULL, 0), OUTPUT_SHORT);
}

/* Clear and the loads take head and tally as they find them; to every other call, words that no head has are not
 * sound. */
static void on_any_words(void)
{
    memset(head, 0xFF, sizeof head);
    memset(tally, 0xFF, sizeof tally);
    ANSWERS(cechnuol_release(STORE, CECHNUOL_DESK, 0), UNSOUND);
    ANSWERS(cechnuol_load(STORE, 0, NULL, 0), BAD_IMAGE);
    ANSWERS(cechnuol_load_sheet(STORE, 0, NULL, 0), BAD_IMAGE);
    ANSWERS(cechnuol_clear(STORE, 64), TOO_DEEP);
    IS(head[CECHNUOL_TIP], UINT64_MAX);
    IS(head[CECHNUOL_DEPTH], UINT64_MAX);
    IS(tally[CECHNUOL_FLUSHED], UINT64_MAX);
    ANSWERS(cechnuol_clear(STORE, 9), OK);
    IS(head[CECHNUOL_TIP], 0);
    IS(head[CECHNUOL_DEPTH], 9);
    IS(tally[CECHNUOL_FLUSHED], 0);
}

/* Memory of random words, by a generator of 64 bits (Marsaglia's xorshift): no call but clear takes it. */
static void on_noise(void)
{
    const uint32_t desk = CECHNUOL_DESK;
    uint64_t x = 1, value = 7, since = 8;
    int round, i;
    for (round = 0; round < 1000; round++) {
        for (i = 0; i < CECHNUOL_HEAD_WORDS; i++) {
            x ^= x << 13, x ^= x >> 7, x ^= x << 17;
            head[i] = table[i % 4] = journal[i % 16] = x;
        }
        ANSWERS(cechnuol_flush(STORE, cechnuol_low_bits(x)), UNSOUND);
        ANSWERS(cechnuol_look_up(table, 4, journal, 16, head, desk, 5, cechnuol_low_bits(x), &value, &since), UNSOUND);
        IS(head[CECHNUOL_HEAD_WORDS - 1], x);
    }
    IS(value, 7);
    IS(since, 8);
    ANSWERS(cechnuol_clear(STORE, 0), OK);
    ANSWERS(cechnuol_flush(STORE, 0), OK);
}

int main(void)
{
    on_nothing();
    of_no_length();
    on_any_words();
    on_noise();
    return differences != 0;
}
