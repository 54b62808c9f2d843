/* The words that the header builds are read by the library as they are meant: puts, removals and questions by a store,
 * and orders of every kind by a batch, at the corners of their fields. What must come out is worked out by hand. */
#include "hold.h"

static uint64_t table[8], journal[8];
static struct cechnuol_store store = {table, 8, journal, 8, {0}, {0}};

static const uint32_t corners[] = {0, 1, 5, 0x3FFFFFFF, 0x40000000, 0x7FFFFFFF};
static const uint32_t prices[] = {0, 1, 1200, 0x7FFFFFFF, 0x80000000, 0xFFFFFFFF};
enum { CORNERS = sizeof corners / sizeof *corners };

/* An offer is put, quoted, asked for, removed and not found any more. */
static void hold_entry(uint32_t offer, uint32_t price)
{
    const uint64_t put = cechnuol_put(offer, price), removal = cechnuol_remove(offer);
    uint64_t asked = cechnuol_ask(offer), quoted = 7, since = 7;
    ANSWERS(cechnuol_store_clear(&store, 0), OK);
    ANSWERS(cechnuol_store_look_up(&store, CECHNUOL_DESK, offer, 0, &quoted, &since), NO_PRICE);
    IS(quoted, 7);
    IS(since, CECHNUOL_BY_TABLE);
    ANSWERS(cechnuol_store_commit(&store, &put, 1), OK);
    ANSWERS(cechnuol_store_look_up(&store, CECHNUOL_DESK, offer, 1, &quoted, &since), OK);
    IS(quoted, price);
    IS(since, 1);
    ANSWERS(cechnuol_store_flush(&store, 1), OK);
    ANSWERS(cechnuol_store_issue(&store, CECHNUOL_DESK, 0, &asked, 1), OK);
    IS(cechnuol_has_price(asked) != 0, 1);
    IS(cechnuol_offer(asked), offer);
    IS(cechnuol_price(asked), price);
    ANSWERS(cechnuol_store_commit(&store, &removal, 1), OK);
    ANSWERS(cechnuol_store_look_up(&store, CECHNUOL_DESK, offer, 2, &quoted, &since), NO_PRICE);
    IS(since, 2);
    ANSWERS(cechnuol_store_forward(&store, CECHNUOL_DESK, 0, 2, &asked, 1), OK);
    IS(cechnuol_has_price(asked) != 0, 0);
    IS(cechnuol_offer(asked), offer);
    IS(cechnuol_price(asked), 0);
}

/* Offers at the corners stand in one list in their order. */
static void hold_list(void)
{
    uint64_t words[CORNERS], quoted, since;
    size_t i;
    for (i = 0; i < CORNERS; i++)
        words[i] = cechnuol_put(corners[i], prices[i]);
    ANSWERS(cechnuol_store_clear(&store, CECHNUOL_MOST_DEPTH), OK);
    ANSWERS(cechnuol_store_commit(&store, words, CORNERS), OK);
    for (i = 0; i < CORNERS; i++) {
        ANSWERS(cechnuol_store_look_up(&store, CECHNUOL_DESK, corners[i], 1, &quoted, &since), OK);
        IS(quoted, prices[i]);
        IS(since, 1);
    }
}

/* One order of each row on a read set of one offer; a price of -1 is none. */
static const struct {
    uint32_t kind, amount;
    int64_t price;
    uint64_t answer;
    int64_t becomes;
} effects[] = {
    {CECHNUOL_LIST, 0, 1200, CECHNUOL_OK, 0},
    {CECHNUOL_LIST, 0x1FFFFFF, -1, CECHNUOL_OK, 33554431},
    {CECHNUOL_WITHDRAW, 0, 1200, CECHNUOL_OK, -1},
    {CECHNUOL_WITHDRAW, 0, -1, CECHNUOL_OK, -1},
    {CECHNUOL_WITHDRAW, 1, 1200, CECHNUOL_BAD_ORDER, 0},
    {CECHNUOL_WITHDRAW, 0x1FFFFFF, 1200, CECHNUOL_BAD_ORDER, 0},
    {CECHNUOL_RAISE, 0, 1200, CECHNUOL_OK, 1200},
    {CECHNUOL_RAISE, 0x1FFFFFF, 1200, CECHNUOL_OK, 33555631},
    {CECHNUOL_RAISE, 0x1FFFFFF, 4261412864, CECHNUOL_OK, 4294967295},
    {CECHNUOL_RAISE, 0x1FFFFFF, 4261412865, CECHNUOL_PRICE_RANGE, 0},
    {CECHNUOL_RAISE, 0, -1, CECHNUOL_ORDER_NO_PRICE, 0},
    {CECHNUOL_CUT, 1200, 1200, CECHNUOL_OK, 0},
    {CECHNUOL_CUT, 1201, 1200, CECHNUOL_PRICE_RANGE, 0},
    {CECHNUOL_CUT, 0x1FFFFFF, 33554431, CECHNUOL_OK, 0},
    {CECHNUOL_CUT, 0x1FFFFFF, 33554430, CECHNUOL_PRICE_RANGE, 0},
    {CECHNUOL_CUT, 0, -1, CECHNUOL_ORDER_NO_PRICE, 0},
    {CECHNUOL_SIXTEENTHS(1), 0, 0, CECHNUOL_OK, 0},
    {CECHNUOL_SIXTEENTHS(1), 0, 7, CECHNUOL_OK, 0},
    {CECHNUOL_SIXTEENTHS(1), 0, 8, CECHNUOL_OK, 1},
    {CECHNUOL_SIXTEENTHS(1), 2, 8, CECHNUOL_OK, 2},
    {CECHNUOL_SIXTEENTHS(1), 0, 23, CECHNUOL_OK, 1},
    {CECHNUOL_SIXTEENTHS(1), 0, 24, CECHNUOL_OK, 2},
    {CECHNUOL_SIXTEENTHS(1), 0, 4294967295, CECHNUOL_OK, 268435456},
    {CECHNUOL_SIXTEENTHS(1), 0x1FFFFFF, 16, CECHNUOL_OK, 33554431},
    {CECHNUOL_SIXTEENTHS(7), 0, 1, CECHNUOL_OK, 0},
    {CECHNUOL_SIXTEENTHS(8), 0, 1, CECHNUOL_OK, 1},
    {CECHNUOL_SIXTEENTHS(12), 0, 1001, CECHNUOL_OK, 751},
    {CECHNUOL_SIXTEENTHS(12), 750, 1001, CECHNUOL_OK, 751},
    {CECHNUOL_SIXTEENTHS(12), 752, 1001, CECHNUOL_OK, 752},
    {CECHNUOL_SIXTEENTHS(12), 800, 1001, CECHNUOL_OK, 800},
    {CECHNUOL_SIXTEENTHS(15), 0, 4294967295, CECHNUOL_OK, 4026531839},
    {CECHNUOL_SIXTEENTHS(16), 0, 4294967295, CECHNUOL_OK, 4294967295},
    {CECHNUOL_SIXTEENTHS(16), 0, -1, CECHNUOL_ORDER_NO_PRICE, 0},
    {CECHNUOL_SIXTEENTHS(0), 0, 1200, CECHNUOL_BAD_ORDER, 0},
    {CECHNUOL_SIXTEENTHS(17), 0, 1200, CECHNUOL_BAD_ORDER, 0},
    {CECHNUOL_SIXTEENTHS(-15), 0, 1200, CECHNUOL_BAD_ORDER, 0},
    {4, 0, 1200, CECHNUOL_BAD_ORDER, 0},
    {15, 0, 1200, CECHNUOL_BAD_ORDER, 0},
    {32, 0, 1200, CECHNUOL_BAD_ORDER, 0},
    {255, 0, 1200, CECHNUOL_BAD_ORDER, 0},
    {256, 0, 1200, CECHNUOL_BAD_ORDER, 0},
    {CECHNUOL_LIST, 0x2000000, 1200, CECHNUOL_BAD_ORDER, 0},
    {UINT32_MAX, UINT32_MAX, 1200, CECHNUOL_BAD_ORDER, 0},
};

static uint64_t shown(uint32_t offer, int64_t price)
{
    return price < 0 ? cechnuol_remove(offer) : cechnuol_put(offer, cechnuol_low_bits((uint64_t)price));
}

static void hold_effects(uint32_t offer)
{
    size_t i;
    for (i = 0; i < sizeof effects / sizeof *effects; i++) {
        uint64_t order = cechnuol_order(effects[i].kind, effects[i].amount, offer), out = 7, count = 7;
        uint64_t read = shown(offer, effects[i].price), want = shown(offer, effects[i].becomes);
        uint64_t answer = cechnuol_price_batch(&read, 1, &order, 1, &out, 1, &count);
        hold_answer(answer, effects[i].answer, cechnuol_name(effects[i].answer), "an order");
        hold(out, effects[i].answer == CECHNUOL_OK ? want : 7, "what the order makes of the price");
        hold(count, effects[i].answer == CECHNUOL_OK ? 1 : 7, "the count");
    }
}

int main(void)
{
    size_t i, j;
    uint64_t order = cechnuol_order(CECHNUOL_LIST, 1, 0x80000000), read = cechnuol_ask(0), out = 7, count = 7, since;
    for (i = 0; i < CORNERS; i++) {
        hold_effects(corners[i]);
        for (j = 0; j < CORNERS; j++)
            hold_entry(corners[i], prices[j]);
    }
    hold_list();
    /* an offer that does not fit is no order on the offer that its lowest bits are */
    ANSWERS(cechnuol_price_batch(&read, 1, &order, 1, &out, 1, &count), BAD_ORDER);
    ANSWERS(cechnuol_store_look_up(&store, CECHNUOL_DESK, 0x80000000, 1, &count, &since), BAD_LIST);
    return differences != 0;
}
