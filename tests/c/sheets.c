/* Row sheets, byte for byte: 32 seats to a row, offer = row * 32 + seat. What stands in the bytes and in the table is
 * worked out by hand from what the header says of a sheet. */
#include "lent.h"

/* Makes bytes of numbers of 32 bits, the most significant first; gives how many. */
static size_t put_numbers(uint8_t *bytes, const uint32_t *numbers, size_t count)
{
    size_t i;
    for (i = 0; i < 4 * count; i++)
        bytes[i] = numbers[i / 4] >> (24 - 8 * (i % 4)) & 0xFF;
    return 4 * count;
}

/* The bytes lent begin with these numbers, and what is behind them is as it was kept. */
static void hold_bytes(const uint32_t *numbers, size_t count, const char *what)
{
    uint8_t sheet[sizeof lent.bytes];
    const size_t length = put_numbers(sheet, numbers, count);
    hold(memcmp(lent.bytes, sheet, length) == 0, 1, what);
    hold(memcmp(lent.bytes + length, before.bytes + length, sizeof lent.bytes - length) == 0, 1, what);
}

/* Writes the sheet of a state into so many of the bytes, by its number or as the tip's. */
static uint64_t write_sheet(uint32_t state, int is_named, size_t length)
{
    return is_named ? cechnuol_write_state_sheet(TO_READ, state, lent.bytes, length, &lent.value)
                    : cechnuol_write_sheet(TO_READ, lent.bytes, length, &lent.value);
}

/* The sheet of a state is these numbers, named and, where it is the tip, not named: in more bytes than it has and in as
 * many. Nothing else is written, and nothing where there is a byte less. */
static void hold_sheet(uint32_t state, const uint32_t *numbers, size_t count)
{
    const size_t lengths[2] = {sizeof lent.bytes, 4 * count};
    int is_named, i;
    char what[40];
    snprintf(what, sizeof what, "the sheet of state %" PRIu32, state);
    for (is_named = lent.head[CECHNUOL_TIP] != state; is_named <= 1; is_named++) {
        for (i = 0; i < 2; i++) {
            memset(lent.bytes, 0x5A, sizeof lent.bytes);
            lent.value = 7;
            before = lent;
            ANSWERS(write_sheet(state, is_named, lengths[i]), OK);
            hold((uint64_t)changed(), BYTES | VALUE, what);
            hold(lent.value, 4 * count, what);
            hold_bytes(numbers, count, what);
        }
        REFUSED(write_sheet(state, is_named, 4 * count - 1), OUTPUT_SHORT);
    }
}

/* Loads numbers as a sheet into memory of any words. */
static void load_numbers(const uint32_t *numbers, size_t count)
{
    uint8_t sheet[sizeof lent.bytes];
    const size_t length = put_numbers(sheet, numbers, count);
    memset(&lent, 0x5A, sizeof lent);
    before = lent;
    ANSWERS(cechnuol_load_sheet(STORE, 0, sheet, length), OK);
    hold((uint64_t)changed(), TABLE | JOURNAL | HEAD | TALLY, "parts changed by a load");
}

/* The table is these words and then zeros, at this state and no other; nothing is held, open or counted. */
static void hold_loaded(uint32_t state, const uint64_t *words, size_t used)
{
    size_t i;
    for (i = 0; i < TABLE_LENGTH; i++)
        IS(lent.table[i], i < used ? words[i] : 0);
    for (i = 0; i < JOURNAL_LENGTH; i++)
        IS(lent.journal[i], 0);
    IS(lent.head[CECHNUOL_USED], used);
    for (i = CECHNUOL_OLDEST; i <= CECHNUOL_TIP; i++)
        IS(lent.head[i], state);
    for (i = CECHNUOL_TAKEN; i < CECHNUOL_HEAD_WORDS; i++)
        IS(lent.head[i], 0);
    for (i = 0; i < CECHNUOL_TALLY_WORDS; i++)
        IS(lent.tally[i], 0);
}

#define COUNT(array) (sizeof(array) / sizeof *(array))

/* Numbers that are the sheet of a state, and the words that they load to: both ways. */
#define BOTH_WAYS(state, numbers, words) \
    do { \
        load_numbers(numbers, COUNT(numbers)); \
        hold_loaded(state, words, COUNT(words)); \
        hold_sheet(state, numbers, COUNT(numbers)); \
    } while (0)

/* Offer 5 at 1200 as state 7, written out; and two more offers, the last seat of its row and the last one of all. */
static void two_states(void)
{
    const uint8_t sheet[20] = {0, 0, 0, 7, 0, 0, 0, 1, 0, 0, 0, 0, 0x04, 0, 0, 0, 0, 0, 0x04, 0xB0};
    const uint32_t seven[5] = {7, 1, 0, 0x04000000, 1200};
    const uint32_t eight[9] = {8, 2, 0, 0x04000001, 1200, 4, 0xFFFFFFC0, 0x00000001, 3};
    const uint64_t offer_5 = 0x80000005000004B0, added[2] = {0x8000001F00000004, 0xFFFFFFFF00000003};
    const uint64_t loaded[3] = {0x80000005000004B0, 0x8000001F00000004, 0xFFFFFFFF00000003};
    memset(&lent, 0x5A, sizeof lent);
    ANSWERS(cechnuol_load_sheet(STORE, 0, sheet, 20), OK);
    hold_loaded(7, &offer_5, 1);
    hold_sheet(7, seven, 5);
    IS(memcmp(lent.bytes, sheet, 20) == 0, 1);
    ANSWERS(cechnuol_commit(STORE, added, 2), OK);
    hold_sheet(8, eight, 9);
    hold_sheet(7, seven, 5);
    BOTH_WAYS(8, eight, loaded);
}

/* A state without a price has no rows: the first number that a state can have, and the last. */
static void no_rows(void)
{
    const uint32_t first[2] = {0, 0}, nine[2] = {9, 0}, last[2] = {0xFFFFFFFF, 0};
    load_numbers(first, 2);
    hold_loaded(0, NULL, 0);
    hold_sheet(0, first, 2);
    load_numbers(nine, 2);
    hold_loaded(9, NULL, 0);
    hold_sheet(9, nine, 2);
    load_numbers(last, 2);
    hold_sheet(0xFFFFFFFF, last, 2);
    ANSWERS(cechnuol_clear(STORE, 0), OK);
    hold_sheet(0, first, 2);
}

/* The price of a seat stands after as many prices as set bits precede it: seats 0, 2 and 3, and seats 28, 29 and 31 of
 * row 3. */
static void places_of_prices(void)
{
    const uint32_t front[7] = {1, 1, 0, 0xB0000000, 10, 20, 30}, back[7] = {1, 1, 0xC0, 0x0000000D, 10, 20, 30};
    const uint64_t in_front[3] = {0x800000000000000A, 0x8000000200000014, 0x800000030000001E};
    const uint64_t at_back[3] = {0x8000007C0000000A, 0x8000007D00000014, 0x8000007F0000001E};
    BOTH_WAYS(1, front, in_front);
    BOTH_WAYS(1, back, at_back);
}

/* Offers 31 and 32 are neighbours in two rows; the first seat of the last row; price 0 and the highest price. */
static void rows_and_prices(void)
{
    const uint32_t neighbours[8] = {2, 2, 0, 0x00000001, 10, 0x40, 0x80000000, 20};
    const uint64_t two[2] = {0x8000001F0000000A, 0x8000002000000014};
    const uint32_t last_row[6] = {3, 1, 0xFFFFFFC0, 0x80000001, 0, 0xFFFFFFFF};
    const uint64_t ends[2] = {0xFFFFFFE000000000, 0xFFFFFFFFFFFFFFFF};
    BOTH_WAYS(2, neighbours, two);
    BOTH_WAYS(3, last_row, ends);
}

/* All 32 seats of row 1, at prices 0 to 31: 8 bytes, 8 for the row and 128. */
static void all_seats(void)
{
    static uint64_t table[32], journal[1], head[CECHNUOL_HEAD_WORDS], tally[CECHNUOL_TALLY_WORDS];
    static uint8_t sheet[144], copy[145];
    uint32_t numbers[36] = {5, 1, 0x40, 0xFFFFFFFF}, i;
    uint64_t count = 0;
    for (i = 0; i < 32; i++)
        numbers[4 + i] = i;
    IS(put_numbers(sheet, numbers, 36), 144);
    ANSWERS(cechnuol_load_sheet(table, 31, journal, 1, head, tally, 0, sheet, 144), TABLE_FULL);
    ANSWERS(cechnuol_load_sheet(table, 32, journal, 1, head, tally, 0, sheet, 144), OK);
    for (i = 0; i < 32; i++)
        IS(table[i], cechnuol_put(32 + i, i));
    memset(copy, 0x5A, sizeof copy);
    ANSWERS(cechnuol_write_sheet(table, 32, journal, 1, head, copy, 145, &count), OK);
    IS(count, 144);
    IS(memcmp(copy, sheet, 144) == 0, 1);
    IS(copy[144], 0x5A);
}

/* A state above the checkpoint with more prices than the table has words is written, and loads where there is room.
 * State 10 has offers 5 to 10. */
static void more_than_the_table_holds(void)
{
    const uint32_t ten[10] = {10, 1, 0, 0x07E00000, 1, 900, 2, 3, 700, 4};
    const uint64_t added[4] = {cechnuol_put(5, 1), cechnuol_put(7, 2), cechnuol_put(8, 3), cechnuol_put(10, 4)};
    uint64_t table[6], journal[1], head[CECHNUOL_HEAD_WORDS], tally[CECHNUOL_TALLY_WORDS];
    begin();
    ANSWERS(cechnuol_commit(STORE, added, 4), OK);
    hold_sheet(10, ten, COUNT(ten));
    REFUSED(cechnuol_load_sheet(STORE, 0, lent.bytes, 40), TABLE_FULL);
    ANSWERS(cechnuol_load_sheet(table, 6, journal, 1, head, tally, 0, lent.bytes, 40), OK);
    IS(head[CECHNUOL_TIP], 10);
    IS(table[5], cechnuol_put(10, 4));
}

/* What is no sheet, in each way: the answer is 15, and everything lent stays. */
static void broken(void)
{
    static const struct {
        const char *what;
        size_t length;
        uint32_t numbers[9];
    } none[] = {
        {"no bytes", 0, {0}},
        {"seven bytes", 7, {7, 0}},
        {"one byte cut", 19, {7, 1, 0, 0x04000000, 1200}},
        {"one byte added", 21, {7, 1, 0, 0x04000000, 1200, 0}},
        {"four bytes added", 24, {7, 1, 0, 0x04000000, 1200, 0}},
        {"a row added", 32, {7, 1, 0, 0x04000000, 1200, 0x40, 0x04000000, 1200}},
        {"no rows and four bytes", 12, {7, 0, 0}},
        {"a mask of zero", 16, {7, 1, 0, 0}},
        {"a mask of zero and a price", 20, {7, 1, 0, 0, 1200}},
        {"the lowest bit behind a row's number", 20, {7, 1, 0x01, 0x04000000, 1200}},
        {"the highest bit behind a row's number", 20, {7, 1, 0x20, 0x04000000, 1200}},
        {"two rows counted and one there", 20, {7, 2, 0, 0x04000000, 1200}},
        {"two rows counted and half of one there", 24, {7, 2, 0, 0x04000000, 1200, 0x40}},
        {"the same row twice", 32, {7, 2, 0, 0x04000000, 1200, 0, 0x02000000, 1}},
        {"rows that fall", 32, {7, 2, 0x40, 0x04000000, 1200, 0, 0x04000000, 1}},
        {"more rows than bytes can hold", 20, {7, 0xFFFFFFFF, 0, 0x04000000, 1200}},
        {"the prices of a row cut", 20, {7, 1, 0, 0x06000000, 1200}},
        {"one price too many", 24, {7, 1, 0, 0x04000000, 1200, 1}},
        {"a count of offers for the count of rows", 24, {7, 2, 0, 0x06000000, 1200, 1}},
    };
    size_t i;
    uint8_t sheet[36];
    for (i = 0; i < COUNT(none); i++) {
        put_numbers(sheet, none[i].numbers, 9);
        begin();
        before = lent;
        hold_answer(cechnuol_load_sheet(STORE, 0, sheet, none[i].length), CECHNUOL_BAD_IMAGE, "BAD_IMAGE", none[i].what);
        hold((uint64_t)changed(), 0, none[i].what);
    }
}

/* Offers are counted and not rows, and what is broken is 15 however many there are. */
static void table_full(void)
{
    const uint32_t four[8] = {7, 1, 0, 0xF0000000, 1, 2, 3, 4}, five[9] = {7, 1, 0, 0xF8000000, 1, 2, 3, 4, 5};
    const uint64_t loaded[4] = {0x8000000000000001, 0x8000000100000002, 0x8000000200000003, 0x8000000300000004};
    uint8_t sheet[36];
    BOTH_WAYS(7, four, loaded);
    put_numbers(sheet, five, 9);
    REFUSED(cechnuol_load_sheet(STORE, 0, sheet, 35), BAD_IMAGE);
    REFUSED(cechnuol_load_sheet(STORE, 0, sheet, 36), TABLE_FULL);
    hold_loaded(7, loaded, 4);
}

/* An image is no sheet, and a sheet is no image. */
static void neither_for_the_other(void)
{
    begin();
    ANSWERS(cechnuol_write_image(TO_READ, lent.bytes, sizeof lent.bytes, &lent.value), OK);
    REFUSED(cechnuol_load_sheet(STORE, 0, lent.bytes, lent.value), BAD_IMAGE);
    ANSWERS(cechnuol_write_sheet(TO_READ, lent.bytes, sizeof lent.bytes, &lent.value), OK);
    REFUSED(cechnuol_load(STORE, 0, lent.bytes, lent.value), BAD_IMAGE);
}

int main(void)
{
    two_states();
    no_rows();
    places_of_prices();
    rows_and_prices();
    all_seats();
    more_than_the_table_holds();
    broken();
    table_full();
    neither_for_the_other();
    return differences != 0;
}
