/* The header's builder and readers of order words at the corners of their fields, held to words written out by hand
 * from "kind 8 bits, amount 25 bits, offer 31 bits". It prints what differs, and then its status is 1. */
#include "hold.h"

static const struct {
    uint32_t kind, amount, offer;
    uint64_t word;
} orders[] = {
    {0, 0, 0, 0x0000000000000000},
    {0, 0, 1, 0x0000000000000001},
    {0, 0, 0x7FFFFFFF, 0x000000007FFFFFFF},
    {0, 1, 0, 0x0000000080000000},
    {0, 0x1FFFFFF, 0, 0x00FFFFFF80000000},
    {1, 0, 5, 0x0100000000000005},
    {2, 0x1FFFFFF, 0x7FFFFFFF, 0x02FFFFFFFFFFFFFF},
    {3, 1200, 5, 0x0300025800000005},
    {16, 0, 0, 0x1000000000000000},
    {27, 800, 5, 0x1B00019000000005},
    {31, 1, 1, 0x1F00000080000001},
    {255, 0, 0, 0xFF00000000000000},
    {255, 0x1FFFFFF, 0x7FFFFFFF, 0xFFFFFFFFFFFFFFFF},
};

/* Numbers that do not fit: the word is then that of no order. */
static const struct {
    uint32_t kind, amount, offer;
} too_large[] = {
    {256, 0, 0},         {UINT32_MAX, 0, 0},          {0, 0x2000000, 0},  {2, 0x2000000 + 5, 7},
    {0, UINT32_MAX, 0},  {0, 0, 0x80000000},          {1, 0, 0x80000005}, {0, 0, UINT32_MAX},
    {256, 0x2000000, 5}, {UINT32_MAX, UINT32_MAX, 0}, {257, 0, 5},        {UINT32_MAX, UINT32_MAX, UINT32_MAX},
};

static void hold_words(void)
{
    size_t i;
    for (i = 0; i < sizeof orders / sizeof *orders; i++) {
        uint64_t word = orders[i].word;
        IS(cechnuol_order(orders[i].kind, orders[i].amount, orders[i].offer), word);
        IS(cechnuol_order_kind(word), orders[i].kind);
        IS(cechnuol_order_amount(word), orders[i].amount);
        IS(cechnuol_order_offer(word), orders[i].offer);
    }
}

static void hold_too_large(void)
{
    size_t i;
    for (i = 0; i < sizeof too_large / sizeof *too_large; i++)
        IS(cechnuol_order(too_large[i].kind, too_large[i].amount, too_large[i].offer), CECHNUOL_NO_ORDER);
}

/* The kinds of sixteenths, and an unknown kind for a number of sixteenths that there is not. */
static void hold_sixteenths(void)
{
    int n;
    for (n = 1; n <= 16; n++)
        IS(CECHNUOL_SIXTEENTHS(n) == 15 + n, 1);
    for (n = -300; n <= 300; n++)
        if (n < 1 || n > 16)
            IS(CECHNUOL_SIXTEENTHS(n) == 255, 1);
    IS(CECHNUOL_SIXTEENTHS(UINT32_C(0xFFFFFFF1)), 255);
    IS(CECHNUOL_SIXTEENTHS(5 + 6), 26);
}

/* Numbers at random, of all sizes (Marsaglia's xorshift): what fits is read back, and nothing else is an order. */
static void hold_random(void)
{
    uint64_t x = 1;
    int round;
    for (round = 0; round < 100000; round++) {
        uint32_t kind, amount, offer;
        x ^= x << 13, x ^= x >> 7, x ^= x << 17;
        kind = cechnuol_low_bits(x) >> (x >> 59), amount = cechnuol_low_bits(x * 3) >> (x >> 54 & 31);
        offer = cechnuol_low_bits(x * 5) >> (x >> 49 & 31);
        if (kind < 256 && amount < 33554432 && offer < 2147483648) {
            IS(cechnuol_order_kind(cechnuol_order(kind, amount, offer)), kind);
            IS(cechnuol_order_amount(cechnuol_order(kind, amount, offer)), amount);
            IS(cechnuol_order_offer(cechnuol_order(kind, amount, offer)), offer);
        } else {
            IS(cechnuol_order(kind, amount, offer), CECHNUOL_NO_ORDER);
        }
        IS(cechnuol_order(cechnuol_order_kind(x), cechnuol_order_amount(x), cechnuol_order_offer(x)), x);
    }
}

int main(void)
{
    hold_words();
    hold_random();
    hold_too_large();
    hold_sixteenths();
    IS(CECHNUOL_NO_ORDER, 0xFF00000000000000);
    IS(CECHNUOL_LIST, 0);
    IS(CECHNUOL_WITHDRAW, 1);
    IS(CECHNUOL_RAISE, 2);
    IS(CECHNUOL_CUT, 3);
    return differences != 0;
}
