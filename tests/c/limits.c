/* Every limit of the header against the library: what is as long as the limit is taken, and one more is refused. */
#include "hold.h"

enum { GUARD = 0x5A };

/* Each memory with a word, or byte, more than its limit. */
static uint64_t table[CECHNUOL_TABLE_WORDS + 1], journal[CECHNUOL_JOURNAL_WORDS + 1];
static uint64_t words[CECHNUOL_LIST_WORDS + 1], orders[CECHNUOL_BATCH_ORDERS + 1], out[CECHNUOL_LIST_WORDS + 1];
static uint8_t image[CECHNUOL_IMAGE_BYTES + 1], sheet[CECHNUOL_SHEET_BYTES + 1], copy[CECHNUOL_SHEET_BYTES + 1];
static struct cechnuol_store store = {table, CECHNUOL_TABLE_WORDS, journal, CECHNUOL_JOURNAL_WORDS, {0}, {0}};

/* A store whose table or journal is as long as given. */
static struct cechnuol_store of(size_t table_words, size_t journal_words)
{
    struct cechnuol_store other = store;
    other.table_words = table_words;
    other.journal_words = journal_words;
    return other;
}

static void lengths(void)
{
    struct cechnuol_store none = of(0, 1), no_journal = of(1, 0), least = of(1, 1);
    struct cechnuol_store long_table = of(CECHNUOL_TABLE_WORDS + 1, 1);
    struct cechnuol_store long_journal = of(1, CECHNUOL_JOURNAL_WORDS + 1);
    table[CECHNUOL_TABLE_WORDS] = journal[CECHNUOL_JOURNAL_WORDS] = GUARD;
    table[CECHNUOL_TABLE_WORDS - 1] = journal[CECHNUOL_JOURNAL_WORDS - 1] = 7;
    ANSWERS(cechnuol_store_clear(&none, 0), LENGTHS);
    ANSWERS(cechnuol_store_clear(&no_journal, 0), LENGTHS);
    ANSWERS(cechnuol_store_clear(&long_table, 0), LENGTHS);
    ANSWERS(cechnuol_store_clear(&long_journal, 0), LENGTHS);
    ANSWERS(cechnuol_store_clear(&least, 0), OK);
    IS(table[CECHNUOL_TABLE_WORDS - 1] + journal[CECHNUOL_JOURNAL_WORDS - 1], 14);
    ANSWERS(cechnuol_store_clear(&store, 0), OK);
    IS(table[CECHNUOL_TABLE_WORDS - 1] + journal[CECHNUOL_JOURNAL_WORDS - 1], 0);
    IS(table[CECHNUOL_TABLE_WORDS], GUARD);
    IS(journal[CECHNUOL_JOURNAL_WORDS], GUARD);
}

/* An image of so many offers, all at price 1; its length. */
static size_t image_of(size_t offers)
{
    size_t i, j;
    memset(image, 0, sizeof image);
    image[4] = offers >> 8 & 0xFF;
    image[5] = offers & 0xFF;
    for (i = 0; i < offers; i++)
        for (j = 0; j < 8; j++)
            image[6 + 8 * i + j] = cechnuol_put(cechnuol_low_bits(i), 1) >> (56 - 8 * j) & 0xFF;
    return CECHNUOL_IMAGE_BYTES_OF(offers);
}

static void images(void)
{
    const size_t full = CECHNUOL_IMAGE_BYTES_OF(CECHNUOL_TABLE_WORDS);
    uint64_t count = 7;
    IS(image_of(CECHNUOL_TABLE_WORDS + 1), full + 8);
    ANSWERS(cechnuol_store_load(&store, 0, image, full + 8), TABLE_FULL);
    IS(image_of(CECHNUOL_TABLE_WORDS), full);
    ANSWERS(cechnuol_store_load(&store, 0, image, full + 1), BAD_IMAGE);
    ANSWERS(cechnuol_store_load(&store, 0, image, full - 1), BAD_IMAGE);
    ANSWERS(cechnuol_store_load(&store, 0, image, full), OK);
    IS(store.head[CECHNUOL_USED], CECHNUOL_TABLE_WORDS);
    IS(cechnuol_store_image_bytes(&store), full);
    memset(copy, GUARD, sizeof copy);
    ANSWERS(cechnuol_store_write_image(&store, copy, full - 1, &count), OUTPUT_SHORT);
    ANSWERS(cechnuol_store_write_image(&store, copy, sizeof copy, &count), OK);
    IS(count, full);
    IS(memcmp(copy, image, full) == 0, 1);
    IS(copy[full], GUARD);
    ANSWERS(cechnuol_store_load(&store, 0, image, image_of(0)), OK);
    IS(image_of(0), 6);
}

/* The longest image: of a full table and a journal full of new offers. No table takes it, and a restart needs less. */
static void longest_image(void)
{
    const size_t full = CECHNUOL_IMAGE_BYTES_OF(CECHNUOL_TABLE_WORDS);
    size_t step;
    uint64_t count = 7;
    ANSWERS(cechnuol_store_load(&store, 0, image, image_of(CECHNUOL_TABLE_WORDS)), OK);
    for (step = 0; step < CECHNUOL_STEPS; step++) {
        put_offers(words, CECHNUOL_LIST_WORDS, cechnuol_low_bits(CECHNUOL_TABLE_WORDS + CECHNUOL_LIST_WORDS * step), 1);
        ANSWERS(cechnuol_store_commit(&store, words, CECHNUOL_LIST_WORDS), OK);
    }
    IS(cechnuol_store_image_bytes(&store), CECHNUOL_IMAGE_BYTES);
    IS(image_of(CECHNUOL_TABLE_WORDS + CECHNUOL_JOURNAL_WORDS), CECHNUOL_IMAGE_BYTES);
    image[3] = CECHNUOL_STEPS;
    memset(copy, GUARD, sizeof copy);
    ANSWERS(cechnuol_store_write_image(&store, copy, CECHNUOL_IMAGE_BYTES - 1, &count), OUTPUT_SHORT);
    IS(copy[0], GUARD);
    ANSWERS(cechnuol_store_write_image(&store, copy, sizeof copy, &count), OK);
    IS(count, CECHNUOL_IMAGE_BYTES);
    IS(memcmp(copy, image, CECHNUOL_IMAGE_BYTES) == 0, 1);
    IS(copy[CECHNUOL_IMAGE_BYTES], GUARD);
    ANSWERS(cechnuol_store_load(&store, 0, copy, CECHNUOL_IMAGE_BYTES), TABLE_FULL);
    ANSWERS(cechnuol_store_write_state_image(&store, 0, copy, full, &count), OK);
    IS(count, full);
    ANSWERS(cechnuol_store_restart(&store, copy, full - 1), OUTPUT_SHORT);
    ANSWERS(cechnuol_store_restart(&store, copy, full), OK);
    IS(cechnuol_store_tip(&store), 0);
}

/* Puts a number of 32 bits at an index, the most significant byte first. */
static void put_number(size_t at, size_t number)
{
    size_t i;
    for (i = 0; i < 4; i++)
        sheet[at + i] = number >> (24 - 8 * i) & 0xFF;
}

/* A sheet of so many offers as state 0, each at seat 0 of a row of its own and at price 1; its length. */
static size_t sheet_of(size_t offers)
{
    size_t i;
    memset(sheet, 0, sizeof sheet);
    put_number(4, offers);
    for (i = 0; i < offers; i++) {
        put_number(8 + 12 * i, i << 6);
        sheet[12 + 12 * i] = 0x80;
        sheet[19 + 12 * i] = 1;
    }
    return CECHNUOL_SHEET_BYTES_OF(offers);
}

static void sheets(void)
{
    const size_t full = CECHNUOL_SHEET_BYTES_OF(CECHNUOL_TABLE_WORDS);
    uint64_t count = 7;
    IS(sheet_of(CECHNUOL_TABLE_WORDS + 1), full + 12);
    ANSWERS(cechnuol_store_load_sheet(&store, 0, sheet, full + 12), TABLE_FULL);
    IS(sheet_of(CECHNUOL_TABLE_WORDS), full);
    ANSWERS(cechnuol_store_load_sheet(&store, 0, sheet, full + 1), BAD_IMAGE);
    ANSWERS(cechnuol_store_load_sheet(&store, 0, sheet, full - 1), BAD_IMAGE);
    ANSWERS(cechnuol_store_load_sheet(&store, 0, sheet, full), OK);
    IS(store.head[CECHNUOL_USED], CECHNUOL_TABLE_WORDS);
    IS(cechnuol_store_sheet_bytes(&store), full);
    memset(copy, GUARD, sizeof copy);
    ANSWERS(cechnuol_store_write_sheet(&store, copy, full - 1, &count), OUTPUT_SHORT);
    ANSWERS(cechnuol_store_write_sheet(&store, copy, sizeof copy, &count), OK);
    IS(count, full);
    IS(memcmp(copy, sheet, full) == 0, 1);
    IS(copy[full], GUARD);
    IS(sheet_of(0), 8);
    ANSWERS(cechnuol_store_load_sheet(&store, 0, sheet, 8), OK);
}

/* The longest sheet: of a full table and a journal full of new offers, each in a row of its own. No table takes it. */
static void longest_sheet(void)
{
    const size_t full = CECHNUOL_SHEET_BYTES_OF(CECHNUOL_TABLE_WORDS);
    size_t step, i;
    uint64_t count = 7;
    ANSWERS(cechnuol_store_load_sheet(&store, 0, sheet, sheet_of(CECHNUOL_TABLE_WORDS)), OK);
    for (step = 0; step < CECHNUOL_STEPS; step++) {
        for (i = 0; i < CECHNUOL_LIST_WORDS; i++)
            words[i] = cechnuol_put(cechnuol_low_bits(32 * (CECHNUOL_TABLE_WORDS + CECHNUOL_LIST_WORDS * step + i)), 1);
        ANSWERS(cechnuol_store_commit(&store, words, CECHNUOL_LIST_WORDS), OK);
    }
    IS(cechnuol_store_sheet_bytes(&store), CECHNUOL_SHEET_BYTES);
    IS(sheet_of(CECHNUOL_TABLE_WORDS + CECHNUOL_JOURNAL_WORDS), CECHNUOL_SHEET_BYTES);
    sheet[3] = CECHNUOL_STEPS;
    memset(copy, GUARD, sizeof copy);
    ANSWERS(cechnuol_store_write_sheet(&store, copy, CECHNUOL_SHEET_BYTES - 1, &count), OUTPUT_SHORT);
    IS(copy[0], GUARD);
    ANSWERS(cechnuol_store_write_sheet(&store, copy, sizeof copy, &count), OK);
    IS(count, CECHNUOL_SHEET_BYTES);
    IS(memcmp(copy, sheet, CECHNUOL_SHEET_BYTES) == 0, 1);
    IS(copy[CECHNUOL_SHEET_BYTES], GUARD);
    ANSWERS(cechnuol_store_load_sheet(&store, 0, copy, CECHNUOL_SHEET_BYTES), TABLE_FULL);
    ANSWERS(cechnuol_store_write_state_sheet(&store, 0, copy, full - 1, &count), OUTPUT_SHORT);
    ANSWERS(cechnuol_store_write_state_sheet(&store, 0, copy, full, &count), OK);
    IS(count, full);
}

static void lists(void)
{
    size_t i;
    ANSWERS(cechnuol_store_clear(&store, 0), OK);
    put_offers(words, CECHNUOL_LIST_WORDS + 1, 0, 1);
    ANSWERS(cechnuol_store_commit(&store, words, CECHNUOL_LIST_WORDS), OK);
    ANSWERS(cechnuol_store_commit(&store, words, CECHNUOL_LIST_WORDS + 1), BAD_LIST);
    for (i = 0; i <= CECHNUOL_LIST_WORDS; i++)
        out[i] = cechnuol_ask(cechnuol_low_bits(i));
    ANSWERS(cechnuol_store_issue(&store, CECHNUOL_DESK, 0, out, CECHNUOL_LIST_WORDS + 1), BAD_LIST);
    ANSWERS(cechnuol_store_issue(&store, CECHNUOL_DESK, 0, out, CECHNUOL_LIST_WORDS), OK);
    ANSWERS(cechnuol_store_forward(&store, CECHNUOL_DESK, 0, 1, out, CECHNUOL_LIST_WORDS + 1), BAD_LIST);
    ANSWERS(cechnuol_store_forward(&store, CECHNUOL_DESK, 0, 1, out, CECHNUOL_LIST_WORDS), OK);
    IS(memcmp(out, words, sizeof *out * CECHNUOL_LIST_WORDS) == 0, 1);
}

/* So many orders on different offers of the read set, the first of them twice where there are more. */
static void batches(void)
{
    uint64_t count = 7;
    size_t i;
    put_offers(words, CECHNUOL_LIST_WORDS + 1, 0, 1);
    for (i = 0; i <= CECHNUOL_BATCH_ORDERS; i++)
        orders[i] = cechnuol_order(CECHNUOL_RAISE, 1, cechnuol_low_bits(i) % CECHNUOL_LIST_WORDS);
    memset(out, GUARD, sizeof out);
    ANSWERS(cechnuol_price_batch(words, CECHNUOL_LIST_WORDS + 1, orders, 1, out, 64, &count), BAD_LIST);
    ANSWERS(cechnuol_price_batch(words, 64, orders, CECHNUOL_BATCH_ORDERS + 1, out, 64, &count), BAD_LIST);
    ANSWERS(cechnuol_price_batch(words, 64, orders, CECHNUOL_BATCH_ORDERS, out, 63, &count), OUTPUT_SHORT);
    IS(count, 7);
    ANSWERS(cechnuol_price_batch(words, CECHNUOL_LIST_WORDS, orders, CECHNUOL_BATCH_ORDERS, out, 65, &count), OK);
    IS(count, CECHNUOL_BATCH_ORDERS);
    IS(out[CECHNUOL_BATCH_ORDERS - 1], cechnuol_put(CECHNUOL_BATCH_ORDERS - 1, 2));
    IS(out[CECHNUOL_BATCH_ORDERS], UINT64_C(0x5A5A5A5A5A5A5A5A));
}

static void slots(void)
{
    ANSWERS(cechnuol_store_clear(&store, 0), OK);
    ANSWERS(cechnuol_store_issue(&store, CECHNUOL_DESK, CECHNUOL_SLOTS, NULL, 0), SLOT_RANGE);
    ANSWERS(cechnuol_store_issue(&store, CECHNUOL_DESK, SIZE_MAX, NULL, 0), SLOT_RANGE);
    ANSWERS(cechnuol_store_issue(&store, CECHNUOL_FOYER, CECHNUOL_SLOTS - 1, NULL, 0), OK);
    IS(store.head[CECHNUOL_TAKEN + CECHNUOL_SLOTS - 1], 1);
    ANSWERS(cechnuol_store_forward(&store, CECHNUOL_DESK, CECHNUOL_SLOTS, 0, NULL, 0), SLOT_RANGE);
    ANSWERS(cechnuol_store_release(&store, CECHNUOL_DESK, CECHNUOL_SLOTS), SLOT_RANGE);
    ANSWERS(cechnuol_store_release(&store, CECHNUOL_FOYER, CECHNUOL_SLOTS - 1), OK);
}

/* Each slot by its caller and by the other; and the foyer's longest list. A number that is no caller's is the foyer. */
static void callers(void)
{
    const uint32_t foyer = CECHNUOL_FOYER, unknown = UINT32_MAX;
    const size_t first = CECHNUOL_FOYER_SLOT, most = CECHNUOL_FOYER_WORDS;
    size_t slot, i;
    ANSWERS(cechnuol_store_clear(&store, 0), OK);
    for (slot = 0; slot < CECHNUOL_SLOTS; slot++) {
        const uint32_t own = slot < 6 ? 0 : 1;
        IS(cechnuol_caller_of(slot), own);
        ANSWERS(cechnuol_store_issue(&store, !own, slot, NULL, 0), OTHERS_SLOT);
        ANSWERS(cechnuol_store_issue(&store, own, slot, NULL, 0), OK);
        ANSWERS(cechnuol_store_forward(&store, !own, slot, 0, NULL, 0), OTHERS_SLOT);
        ANSWERS(cechnuol_store_release(&store, !own, slot), OTHERS_SLOT);
        ANSWERS(cechnuol_store_release(&store, own, slot), OK);
    }
    for (i = 0; i <= CECHNUOL_LIST_WORDS; i++)
        out[i] = cechnuol_ask(cechnuol_low_bits(i));
    ANSWERS(cechnuol_store_issue(&store, foyer, first, out, CECHNUOL_LIST_WORDS + 1), BAD_LIST);
    ANSWERS(cechnuol_store_issue(&store, foyer, first, out, most + 1), LONG_LIST);
    ANSWERS(cechnuol_store_issue(&store, foyer, first, out, most), OK);
    ANSWERS(cechnuol_store_forward(&store, unknown, first, 0, out, most + 1), LONG_LIST);
    ANSWERS(cechnuol_store_forward(&store, unknown, first, 0, out, most), OK);
}

/* Full lists until the steps are full, which fills the longest journal too; one a word shorter is full before. */
static void steps(void)
{
    struct cechnuol_store shorter = of(1, CECHNUOL_JOURNAL_WORDS - 1);
    size_t i;
    put_offers(words, CECHNUOL_LIST_WORDS, 0, 1);
    ANSWERS(cechnuol_store_clear(&store, 0), OK);
    for (i = 0; i < CECHNUOL_STEPS; i++)
        ANSWERS(cechnuol_store_commit(&store, words, CECHNUOL_LIST_WORDS), OK);
    IS(store.head[CECHNUOL_ENDS + CECHNUOL_STEPS - 1], CECHNUOL_JOURNAL_WORDS);
    ANSWERS(cechnuol_store_commit(&store, NULL, 0), STEPS_FULL);
    IS(journal[CECHNUOL_JOURNAL_WORDS], GUARD);
    ANSWERS(cechnuol_store_clear(&shorter, 0), OK);
    for (i = 0; i < CECHNUOL_STEPS - 1; i++)
        ANSWERS(cechnuol_store_commit(&shorter, words, CECHNUOL_LIST_WORDS), OK);
    ANSWERS(cechnuol_store_commit(&shorter, words, CECHNUOL_LIST_WORDS), JOURNAL_FULL);
    ANSWERS(cechnuol_store_commit(&shorter, words, CECHNUOL_LIST_WORDS - 1), OK);
}

/* The deepest store that can be: of as many steps as are held one can be flushed. */
static void depths(void)
{
    const uint32_t most = CECHNUOL_MOST_DEPTH;
    size_t i;
    ANSWERS(cechnuol_store_clear(&store, most + 1), TOO_DEEP);
    ANSWERS(cechnuol_store_load(&store, most + 1, image, image_of(0)), TOO_DEEP);
    ANSWERS(cechnuol_store_load(&store, most, image, image_of(0)), OK);
    ANSWERS(cechnuol_store_load_sheet(&store, most + 1, sheet, sheet_of(0)), TOO_DEEP);
    ANSWERS(cechnuol_store_load_sheet(&store, most, sheet, sheet_of(0)), OK);
    ANSWERS(cechnuol_store_clear(&store, most), OK);
    IS(cechnuol_store_depth(&store), 63);
    for (i = 0; i < CECHNUOL_STEPS; i++)
        ANSWERS(cechnuol_store_commit(&store, NULL, 0), OK);
    ANSWERS(cechnuol_store_flush(&store, 2), TOO_DEEP);
    ANSWERS(cechnuol_store_flush(&store, 1), OK);
}

/* Head and tally lie between words that no call touches; of their own words clear writes the first and the last. */
static void head_and_tally(void)
{
    static uint64_t head[CECHNUOL_HEAD_WORDS + 2], tally[CECHNUOL_TALLY_WORDS + 2];
    memset(head, GUARD, sizeof head);
    memset(tally, GUARD, sizeof tally);
    ANSWERS(cechnuol_clear(table, 4, journal, 4, head + 1, tally + 1, 7), OK);
    IS(head[0], UINT64_C(0x5A5A5A5A5A5A5A5A));
    IS(head[1], 0);
    IS(head[CECHNUOL_HEAD_WORDS - 1], 0);
    IS(head[CECHNUOL_HEAD_WORDS], 7);
    IS(head[CECHNUOL_HEAD_WORDS + 1], UINT64_C(0x5A5A5A5A5A5A5A5A));
    IS(tally[0], UINT64_C(0x5A5A5A5A5A5A5A5A));
    IS(tally[1] + tally[CECHNUOL_TALLY_WORDS], 0);
    IS(tally[CECHNUOL_TALLY_WORDS + 1], UINT64_C(0x5A5A5A5A5A5A5A5A));
}

int main(void)
{
    lengths();
    images();
    longest_image();
    sheets();
    longest_sheet();
    lists();
    batches();
    slots();
    callers();
    steps();
    depths();
    head_and_tally();
    return differences != 0;
}
