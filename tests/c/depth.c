/* The depth that must stay. A flush to a state that is not the checkpoint is accepted where state + depth, as whole
 * numbers, is at most the tip; clear and the loads take depths from 0 to 63, and a sound head has such a one. What must
 * come out is worked out by hand. */
#include "lent.h"

static const uint8_t image[14] = {0, 0, 0, 0, 0, 1, 0x80, 0, 0, 5, 0, 0, 0x04, 0xB0};
static const uint8_t sheet[20] = {0, 0, 0, 0, 0, 0, 0, 1, 0, 0, 0, 0, 0x04, 0, 0, 0, 0, 0, 0x04, 0xB0};

/* Depths that are too deep: the least, some that are small or 0 in fewer bits, and the largest. */
static const uint32_t too_deep[] = {64, 65, 127, 128, 255, 256, 320, 65536, 0x7FFFFFFF, 0x80000000, 0xFFFFFFFF};

#define COUNT(array) (sizeof(array) / sizeof *(array))

/* A store of a depth: state 0, with offer 5 at 1200, and so many empty steps above it. */
static void begin_deep(uint32_t depth, uint32_t steps)
{
    memset(&lent, 0x5A, sizeof lent);
    ANSWERS(cechnuol_load(STORE, depth, image, sizeof image), OK);
    while (steps-- > 0)
        ANSWERS(cechnuol_commit(STORE, NULL, 0), OK);
}

/* The store has these numbers. Of all states from the checkpoint to the tip, each can be flushed to that is not above
 * the highest, and no other; what lies outside is refused for that. A flush to the checkpoint changes nothing. */
static void hold_flushes(uint64_t checkpoint, uint64_t highest, uint64_t tip)
{
    uint64_t state;
    IS(lent.head[CECHNUOL_CHECKPOINT], checkpoint);
    IS(lent.head[CECHNUOL_TIP], tip);
    IS(cechnuol_highest_flush(lent.head), highest);
    for (state = checkpoint; state <= tip; state++) {
        const uint32_t number = cechnuol_low_bits(state);
        if (state > highest) {
            REFUSED(cechnuol_flush(STORE, number), TOO_DEEP);
            continue;
        }
        before = lent;
        ANSWERS(cechnuol_flush(STORE, number), OK);
        IS(lent.head[CECHNUOL_CHECKPOINT], state);
        IS(lent.head[CECHNUOL_TIP], tip);
        IS(lent.head[CECHNUOL_DEPTH], before.head[CECHNUOL_DEPTH]);
        IS(lent.tally[CECHNUOL_FLUSHED], before.tally[CECHNUOL_FLUSHED] + (state - checkpoint));
        if (state == checkpoint)
            IS((uint64_t)changed(), 0);
        lent = before;
    }
    if (checkpoint > 0)
        REFUSED(cechnuol_flush(STORE, cechnuol_low_bits(checkpoint - 1)), STATE_RANGE);
    if (tip < UINT32_MAX)
        REFUSED(cechnuol_flush(STORE, cechnuol_low_bits(tip + 1)), STATE_RANGE);
}

/* The head of a store that was just made: the depth, how many words of the table are used, and else zeros. */
static void hold_new(uint32_t depth, uint64_t used)
{
    size_t i;
    IS(lent.head[CECHNUOL_USED], used);
    for (i = CECHNUOL_USED + 1; i < CECHNUOL_DEPTH; i++)
        IS(lent.head[i], 0);
    IS(lent.head[CECHNUOL_DEPTH], depth);
    for (i = 0; i < CECHNUOL_TALLY_WORDS; i++)
        IS(lent.tally[i], 0);
}

static void depths_that_are_taken(void)
{
    static const uint32_t depths[] = {0, 1, 2, 31, 32, 62, 63};
    size_t i;
    for (i = 0; i < COUNT(depths); i++) {
        memset(&lent, 0x5A, sizeof lent);
        ANSWERS(cechnuol_clear(STORE, depths[i]), OK);
        hold_new(depths[i], 0);
        memset(&lent, 0xFF, sizeof lent);
        ANSWERS(cechnuol_load(STORE, depths[i], image, sizeof image), OK);
        hold_new(depths[i], 1);
        memset(&lent, 0xFF, sizeof lent);
        ANSWERS(cechnuol_load_sheet(STORE, depths[i], sheet, sizeof sheet), OK);
        hold_new(depths[i], 1);
    }
}

/* A refused clear or load leaves the depth, as everything else. */
static void depths_that_are_not(void)
{
    size_t i;
    begin_deep(5, 7);
    for (i = 0; i < COUNT(too_deep); i++) {
        REFUSED(cechnuol_clear(STORE, too_deep[i]), TOO_DEEP);
        REFUSED(cechnuol_load(STORE, too_deep[i], image, sizeof image), TOO_DEEP);
        REFUSED(cechnuol_load_sheet(STORE, too_deep[i], sheet, sizeof sheet), TOO_DEEP);
    }
    REFUSED(cechnuol_load(STORE, 9, image, 13), BAD_IMAGE);
    REFUSED(cechnuol_load_sheet(STORE, 9, sheet, 19), BAD_IMAGE);
    hold_flushes(0, 2, 7);
}

/* Of the grounds of clear, of a load and of a flush the first is the answer. */
static void order_of_grounds(void)
{
    const uint8_t five[46] = {0, 0, 0, 0, 0, 5, 0x80, 0, 0, 1, 0, 0, 0, 1, 0x80, 0, 0, 2, 0, 0, 0, 1, 0x80, 0, 0, 3,
                              0, 0, 0, 1, 0x80, 0, 0, 4, 0, 0, 0, 1, 0x80, 0, 0, 5, 0, 0, 0, 1};
    const uint8_t seats[36] = {0, 0, 0, 0, 0, 0, 0, 1, 0, 0, 0, 0, 0x7C, 0, 0, 0,
                               0, 0, 0, 1, 0, 0, 0, 1, 0, 0, 0, 1, 0, 0, 0, 1, 0, 0, 0, 1};
    begin_deep(2, 0);
    REFUSED(cechnuol_clear(NOTHING, 64), LENGTHS);
    REFUSED(cechnuol_load(NOTHING, 64, NULL, 0), LENGTHS);
    REFUSED(cechnuol_load(STORE, 64, NULL, 0), TOO_DEEP);
    REFUSED(cechnuol_load(STORE, 63, NULL, 0), BAD_IMAGE);
    REFUSED(cechnuol_load(STORE, 64, five, 46), TOO_DEEP);
    REFUSED(cechnuol_load(STORE, 63, five, 46), TABLE_FULL);
    REFUSED(cechnuol_load_sheet(NOTHING, 64, NULL, 0), LENGTHS);
    REFUSED(cechnuol_load_sheet(STORE, 64, NULL, 0), TOO_DEEP);
    REFUSED(cechnuol_load_sheet(STORE, 63, NULL, 0), BAD_IMAGE);
    REFUSED(cechnuol_load_sheet(STORE, 64, seats, 36), TOO_DEEP);
    REFUSED(cechnuol_load_sheet(STORE, 63, seats, 36), TABLE_FULL);
    /* three states that the table has no room for: a flush to 1 is not barred, and one to 2 is */
    put_offers(lent.words, 4, 20, 1);
    ANSWERS(cechnuol_commit(STORE, lent.words, 4), OK);
    ANSWERS(cechnuol_commit(STORE, NULL, 0), OK);
    ANSWERS(cechnuol_commit(STORE, NULL, 0), OK);
    REFUSED(cechnuol_flush(NOTHING, 2), LENGTHS);
    REFUSED(cechnuol_flush(STORE, 4), STATE_RANGE);
    REFUSED(cechnuol_flush(STORE, UINT32_MAX), STATE_RANGE);
    REFUSED(cechnuol_flush(STORE, 3), TOO_DEEP);
    REFUSED(cechnuol_flush(STORE, 2), TOO_DEEP);
    REFUSED(cechnuol_flush(STORE, 1), TABLE_FULL);
    ANSWERS(cechnuol_flush(STORE, 0), OK);
    lent.head[CECHNUOL_TAKEN] = 2;
    REFUSED(cechnuol_flush(STORE, 2), UNSOUND);
}

/* The tip below the depth, at it and above it. */
static void tips(void)
{
    begin_deep(3, 0);
    hold_flushes(0, 0, 0);
    begin_deep(3, 1);
    hold_flushes(0, 0, 1);
    begin_deep(3, 2);
    hold_flushes(0, 0, 2);
    begin_deep(3, 3);
    hold_flushes(0, 0, 3);
    begin_deep(3, 4);
    hold_flushes(0, 1, 4);
    begin_deep(3, 10);
    hold_flushes(0, 7, 10);
    ANSWERS(cechnuol_flush(STORE, 7), OK);
    hold_flushes(7, 7, 10);
    begin_deep(0, 10);
    hold_flushes(0, 10, 10);
    begin_deep(1, 10);
    hold_flushes(0, 9, 10);
    begin_deep(63, 10);
    hold_flushes(0, 0, 10);
}

/* As many steps as can be held: with the largest depth one of them can be flushed, and then one more committed. */
static void all_steps(void)
{
    begin_deep(63, 63);
    hold_flushes(0, 0, 63);
    begin_deep(62, 64);
    hold_flushes(0, 2, 64);
    begin_deep(63, 64);
    hold_flushes(0, 1, 64);
    REFUSED(cechnuol_commit(STORE, NULL, 0), STEPS_FULL);
    ANSWERS(cechnuol_flush(STORE, 1), OK);
    hold_flushes(1, 1, 64);
    ANSWERS(cechnuol_commit(STORE, NULL, 0), OK);
    hold_flushes(1, 2, 65);
    REFUSED(cechnuol_commit(STORE, NULL, 0), STEPS_FULL);
}

/* No depth bars a rollback. One that leaves fewer steps above the checkpoint than the depth bars every flush but that to
 * the checkpoint, until there are enough again. */
static void rollbacks(void)
{
    begin_deep(2, 5);
    ANSWERS(cechnuol_flush(STORE, 3), OK);
    hold_flushes(3, 3, 5);
    ANSWERS(cechnuol_roll_back(STORE, 4), OK);
    hold_flushes(3, 3, 4);
    ANSWERS(cechnuol_roll_back(STORE, 3), OK);
    hold_flushes(3, 3, 3);
    REFUSED(cechnuol_roll_back(STORE, 2), STATE_RANGE);
    ANSWERS(cechnuol_commit(STORE, NULL, 0), OK);
    ANSWERS(cechnuol_commit(STORE, NULL, 0), OK);
    hold_flushes(3, 3, 5);
    ANSWERS(cechnuol_commit(STORE, NULL, 0), OK);
    hold_flushes(3, 4, 6);
    IS(lent.head[CECHNUOL_DEPTH], 2);
    begin_deep(63, 64);
    ANSWERS(cechnuol_roll_back(STORE, 0), OK);
    hold_flushes(0, 0, 0);
}

/* A restart keeps the depth; clear and the loads set another. */
static void restarts(void)
{
    begin_deep(2, 4);
    ANSWERS(cechnuol_flush(STORE, 1), OK);
    ANSWERS(cechnuol_restart(STORE, lent.bytes, sizeof lent.bytes), OK);
    IS(lent.head[CECHNUOL_DEPTH], 2);
    hold_flushes(1, 1, 1);
    ANSWERS(cechnuol_commit(STORE, NULL, 0), OK);
    ANSWERS(cechnuol_commit(STORE, NULL, 0), OK);
    hold_flushes(1, 1, 3);
    ANSWERS(cechnuol_load(STORE, 0, image, sizeof image), OK);
    ANSWERS(cechnuol_commit(STORE, NULL, 0), OK);
    hold_flushes(0, 1, 1);
    ANSWERS(cechnuol_load_sheet(STORE, 1, sheet, sizeof sheet), OK);
    ANSWERS(cechnuol_restart(STORE, lent.bytes, sizeof lent.bytes), OK);
    ANSWERS(cechnuol_commit(STORE, NULL, 0), OK);
    hold_flushes(0, 0, 1);
    ANSWERS(cechnuol_clear(STORE, 0), OK);
    ANSWERS(cechnuol_commit(STORE, NULL, 0), OK);
    hold_flushes(0, 1, 1);
}

/* The depth counts from the tip, and neither from the checkpoint nor from the oldest state, which an open slot keeps. */
static void beside_a_read(void)
{
    begin_deep(1, 0);
    ANSWERS(cechnuol_issue(STORE, CECHNUOL_DESK, 0, NULL, 0), OK);
    ANSWERS(cechnuol_commit(STORE, NULL, 0), OK);
    ANSWERS(cechnuol_commit(STORE, NULL, 0), OK);
    ANSWERS(cechnuol_commit(STORE, NULL, 0), OK);
    hold_flushes(0, 2, 3);
    ANSWERS(cechnuol_flush(STORE, 2), OK);
    IS(lent.head[CECHNUOL_OLDEST], 0);
    hold_flushes(2, 2, 3);
    ANSWERS(cechnuol_roll_back(STORE, 2), OK);
    hold_flushes(2, 2, 2);
    REFUSED(cechnuol_flush(STORE, 0), STATE_RANGE);
    ANSWERS(cechnuol_forward(STORE, CECHNUOL_DESK, 0, 2, NULL, 0), OK);
    IS(lent.head[CECHNUOL_DEPTH], 1);
    hold_flushes(2, 2, 2);
}

/* At the last state numbers: state + depth does not fit 32 bits. */
static void last_states(void)
{
    const uint8_t late[6] = {0xFF, 0xFF, 0xFF, 0xFA, 0, 0};
    static const struct {
        uint32_t depth, highest;
    } rows[] = {{0, 4294967295}, {1, 4294967294}, {4, 4294967291}, {5, 4294967290}, {6, 4294967290}, {63, 4294967290}};
    size_t i, step;
    for (i = 0; i < COUNT(rows); i++) {
        ANSWERS(cechnuol_load(STORE, rows[i].depth, late, 6), OK);
        for (step = 0; step < 5; step++)
            ANSWERS(cechnuol_commit(STORE, NULL, 0), OK);
        REFUSED(cechnuol_commit(STORE, NULL, 0), LAST_STATE);
        hold_flushes(4294967290, rows[i].highest, 4294967295);
    }
}

/* To every call but clear and the loads a head with such a depth is not sound. */
static void hold_unsound(uint64_t depth)
{
    const uint32_t desk = CECHNUOL_DESK;
    begin();
    lent.head[CECHNUOL_DEPTH] = depth;
    REFUSED(cechnuol_write_image(TO_READ, lent.bytes, 64, &lent.value), UNSOUND);
    REFUSED(cechnuol_write_state_image(TO_READ, 7, lent.bytes, 64, &lent.value), UNSOUND);
    REFUSED(cechnuol_write_sheet(TO_READ, lent.bytes, 64, &lent.value), UNSOUND);
    REFUSED(cechnuol_write_state_sheet(TO_READ, 7, lent.bytes, 64, &lent.value), UNSOUND);
    REFUSED(cechnuol_restart(STORE, lent.bytes, 64), UNSOUND);
    REFUSED(cechnuol_commit(STORE, NULL, 0), UNSOUND);
    REFUSED(cechnuol_roll_back(STORE, 9), UNSOUND);
    REFUSED(cechnuol_flush(STORE, 7), UNSOUND);
    REFUSED(cechnuol_flush(STORE, 9), UNSOUND);
    REFUSED(cechnuol_look_up(TO_READ, desk, 5, 7, &lent.value, &lent.since), UNSOUND);
    REFUSED(cechnuol_issue(STORE, desk, 1, NULL, 0), UNSOUND);
    REFUSED(cechnuol_forward(STORE, desk, 0, 9, lent.words, 2), UNSOUND);
    REFUSED(cechnuol_release(STORE, desk, 0), UNSOUND);
    REFUSED(cechnuol_clear(STORE, 64), TOO_DEEP);
    REFUSED(cechnuol_load(STORE, 0, image, 13), BAD_IMAGE);
}

static void heads(void)
{
    static const uint64_t depths[] = {64, 255, 256, 0xFFFFFFFF, 0x100000000, 0x100000001, 0x10000003F,
                                      0x8000000000000000, 0xFFFFFFFFFFFFFFFF};
    size_t i;
    for (i = 0; i < COUNT(depths); i++) {
        hold_unsound(depths[i]);
        ANSWERS(cechnuol_clear(STORE, 5), OK);
        hold_new(5, 0);
        hold_flushes(0, 0, 0);
        hold_unsound(depths[i]);
        ANSWERS(cechnuol_load(STORE, 6, image, sizeof image), OK);
        hold_new(6, 1);
        hold_unsound(depths[i]);
        ANSWERS(cechnuol_load_sheet(STORE, 7, sheet, sizeof sheet), OK);
        hold_new(7, 1);
    }
    /* any depth from 0 to 63 is taken as it is */
    for (i = 0; i <= 63; i++) {
        begin();
        lent.head[CECHNUOL_DEPTH] = i;
        hold_flushes(7, i == 0 ? 9 : i == 1 ? 8 : 7, 9);
    }
}

/* No call but clear and the loads changes the depth, and all others do with a depth what they do without: the same calls
 * on the store that `begin` makes leave the same but for its word. */
static void other_calls(uint32_t depth)
{
    const uint64_t cut = cechnuol_remove(6);
    begin();
    lent.head[CECHNUOL_DEPTH] = depth;
    ANSWERS(cechnuol_commit(STORE, &cut, 1), OK);
    ANSWERS(cechnuol_issue(STORE, CECHNUOL_FOYER, 6, NULL, 0), OK);
    ANSWERS(cechnuol_look_up(TO_READ, CECHNUOL_DESK, 6, 10, &lent.value, &lent.since), NO_PRICE);
    ANSWERS(cechnuol_forward(STORE, CECHNUOL_DESK, 0, 10, lent.words, 2), OK);
    ANSWERS(cechnuol_release(STORE, CECHNUOL_FOYER, 6), OK);
    ANSWERS(cechnuol_roll_back(STORE, 9), OK);
    ANSWERS(cechnuol_write_state_image(TO_READ, 8, lent.bytes, 64, &lent.value), OK);
    ANSWERS(cechnuol_write_sheet(TO_READ, lent.bytes + 32, 32, &lent.value), OK);
    ANSWERS(cechnuol_flush(STORE, 7), OK);
    IS(lent.head[CECHNUOL_DEPTH], depth);
    lent.head[CECHNUOL_DEPTH] = 0;
}

static void all_but_flushes(void)
{
    uint32_t depth;
    for (depth = 0; depth <= 63; depth++) {
        other_calls(0);
        before = lent;
        other_calls(depth);
        IS((uint64_t)changed(), 0);
    }
}

int main(void)
{
    depths_that_are_taken();
    depths_that_are_not();
    order_of_grounds();
    tips();
    all_steps();
    rollbacks();
    restarts();
    beside_a_read();
    last_states();
    heads();
    all_but_flushes();
    return differences != 0;
}
