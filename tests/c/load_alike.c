/* The sheet and the image of a state load alike: table, journal, head and tally are then the same, word for word, whatever
 * they were. The states are random, with rows from sparse to full, and so are the depths. */
#include "hold.h"

enum { TABLE_LENGTH = 1000, JOURNAL_LENGTH = 1000, STEPS = 12, GUARD = 0x5A };

static uint64_t table[TABLE_LENGTH], journal[JOURNAL_LENGTH];
static struct cechnuol_store store = {table, TABLE_LENGTH, journal, JOURNAL_LENGTH, {0}, {0}};

/* The memories of a store, to be loaded by one or the other. */
static struct memories {
    uint64_t table[TABLE_LENGTH], journal[JOURNAL_LENGTH], head[CECHNUOL_HEAD_WORDS], tally[CECHNUOL_TALLY_WORDS];
} by_image, by_sheet;

#define TO_READ(lent) (lent).table, TABLE_LENGTH, (lent).journal, JOURNAL_LENGTH, (lent).head
#define LENT(lent) TO_READ(lent), (lent).tally

static uint8_t image[CECHNUOL_IMAGE_BYTES], sheet[CECHNUOL_SHEET_BYTES];
static uint8_t image_again[CECHNUOL_IMAGE_BYTES], sheet_again[CECHNUOL_SHEET_BYTES];

#define BYTES_ALIKE(some, others, length) hold(memcmp(some, others, length) == 0, 1, #some " and " #others)

static void hold_words(const uint64_t *some, const uint64_t *others, size_t count, const char *what)
{
    size_t i;
    for (i = 0; i < count; i++)
        hold(others[i], some[i], what);
}

#define WORDS_ALIKE(some, others) hold_words(some, others, sizeof(some) / sizeof *(some), #some " and " #others)

/* A random number below a limit (Marsaglia's xorshift of 64 bits). */
static uint32_t below(uint32_t limit)
{
    static uint64_t x = 1;
    x ^= x << 13, x ^= x >> 7, x ^= x << 17;
    return cechnuol_low_bits(x >> 16) % limit;
}

/* Commits a random list: each offer is a random way above the one before, at most so far, and one in four is removed. */
static void commit_random(uint32_t way)
{
    uint64_t words[CECHNUOL_LIST_WORDS];
    uint32_t offer = below(64);
    size_t i, count = below(CECHNUOL_LIST_WORDS + 1);
    for (i = 0; i < count; i++) {
        words[i] = below(4) == 0 ? cechnuol_remove(offer) : cechnuol_put(offer, below(UINT32_MAX));
        offer += 1 + below(way);
    }
    ANSWERS(cechnuol_store_commit(&store, words, count), OK);
}

/* Image and sheet of a state, each loaded into memory of any words; and each written again of what the other loaded. */
static void hold_state(uint32_t state)
{
    const uint32_t depth = below(CECHNUOL_MOST_DEPTH + 1);
    uint64_t image_count = 0, sheet_count = 0, count = 0;
    size_t offers;
    memset(sheet, GUARD, sizeof sheet);
    ANSWERS(cechnuol_store_write_state_image(&store, state, image, sizeof image, &image_count), OK);
    ANSWERS(cechnuol_store_write_state_sheet(&store, state, sheet, cechnuol_store_sheet_bytes(&store), &sheet_count), OK);
    IS(sheet[sheet_count], GUARD);
    offers = (image_count - 6) / 8;
    IS(sheet_count <= CECHNUOL_SHEET_BYTES_OF(offers), 1);
    BYTES_ALIKE(sheet, image, 4);
    memset(&by_image, below(256) & 0xFF, sizeof by_image);
    memset(&by_sheet, below(256) & 0xFF, sizeof by_sheet);
    ANSWERS(cechnuol_load(LENT(by_image), depth, image, image_count), OK);
    ANSWERS(cechnuol_load_sheet(LENT(by_sheet), depth, sheet, sheet_count), OK);
    WORDS_ALIKE(by_image.table, by_sheet.table);
    WORDS_ALIKE(by_image.journal, by_sheet.journal);
    WORDS_ALIKE(by_image.head, by_sheet.head);
    WORDS_ALIKE(by_image.tally, by_sheet.tally);
    IS(by_sheet.head[CECHNUOL_TIP], state);
    IS(by_sheet.head[CECHNUOL_USED], offers);
    IS(by_sheet.head[CECHNUOL_DEPTH], depth);
    ANSWERS(cechnuol_write_sheet(TO_READ(by_image), sheet_again, sizeof sheet_again, &count), OK);
    IS(count, sheet_count);
    BYTES_ALIKE(sheet, sheet_again, sheet_count);
    ANSWERS(cechnuol_write_image(TO_READ(by_sheet), image_again, sizeof image_again, &count), OK);
    IS(count, image_count);
    BYTES_ALIKE(image, image_again, image_count);
}

/* Image and sheet of the tip in a table of one word less than it has offers. */
static void hold_refused(void)
{
    uint64_t image_count = 0, sheet_count = 0;
    size_t words;
    ANSWERS(cechnuol_store_write_image(&store, image, sizeof image, &image_count), OK);
    ANSWERS(cechnuol_store_write_sheet(&store, sheet, sizeof sheet, &sheet_count), OK);
    words = (image_count - 6) / 8;
    if (words < 2)
        return;
    words--;
    by_image = by_sheet;
    ANSWERS(cechnuol_load(by_image.table, words, by_image.journal, 1, by_image.head, by_image.tally, 0, image,
                          image_count),
            TABLE_FULL);
    ANSWERS(cechnuol_load_sheet(by_image.table, words, by_image.journal, 1, by_image.head, by_image.tally, 0, sheet,
                                sheet_count),
            TABLE_FULL);
    BYTES_ALIKE(&by_image, &by_sheet, sizeof by_image);
}

int main(void)
{
    static const uint32_t ways[4] = {1, 3, 70, UINT32_C(1) << 20};
    uint32_t state, states = 0;
    int round, i;
    for (round = 0; round < 40; round++) {
        ANSWERS(cechnuol_store_clear(&store, 0), OK);
        for (i = 0; i < STEPS; i++)
            commit_random(ways[round % 4]);
        ANSWERS(cechnuol_store_flush(&store, below(STEPS)), OK);
        for (state = cechnuol_store_checkpoint(&store); state <= STEPS; state++, states++)
            hold_state(state);
        hold_refused();
    }
    IS(states > 200, 1);
    return differences != 0;
}
