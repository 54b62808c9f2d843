/* The header's builders and readers of entry words at the corners of their fields, held to words written out by hand
 * from "kind 1 bit, offer 31 bits, price 32 bits". It prints what differs, and then its status is 1. */
#include "cechnuol.h"

#include <inttypes.h>
#include <stdio.h>

/* An offer as a caller may give it, and what the entry word has: the lowest 31 bits. */
static const struct {
    uint32_t given, offer;
    uint64_t removed, put_at_0, put_at_1, put_at_most;
} offers[] = {
    {0, 0, 0x0000000000000000, 0x8000000000000000, 0x8000000000000001, 0x80000000FFFFFFFF},
    {5, 5, 0x0000000500000000, 0x8000000500000000, 0x8000000500000001, 0x80000005FFFFFFFF},
    {0x7FFFFFFF, 0x7FFFFFFF, 0x7FFFFFFF00000000, 0xFFFFFFFF00000000, 0xFFFFFFFF00000001, 0xFFFFFFFFFFFFFFFF},
    {0x80000000, 0, 0x0000000000000000, 0x8000000000000000, 0x8000000000000001, 0x80000000FFFFFFFF},
    {0x80000005, 5, 0x0000000500000000, 0x8000000500000000, 0x8000000500000001, 0x80000005FFFFFFFF},
    {0xFFFFFFFF, 0x7FFFFFFF, 0x7FFFFFFF00000000, 0xFFFFFFFF00000000, 0xFFFFFFFF00000001, 0xFFFFFFFFFFFFFFFF},
};

static int differences;

static void hold(uint64_t got, uint64_t want, const char *what, uint32_t offer)
{
    if (got == want)
        return;
    printf("%s of offer %08" PRIX32 ": %016" PRIX64 ", expected %016" PRIX64 "\n", what, offer, got, want);
    differences++;
}

/* What the readers say of a word. */
static void hold_read(uint64_t word, int has_price, uint32_t offer, uint32_t price)
{
    hold((uint64_t)cechnuol_has_price(word), (uint64_t)has_price, "whether there is a price", offer);
    hold(cechnuol_offer(word), offer, "the offer", offer);
    hold(cechnuol_price(word), price, "the price", offer);
}

/* Words drawn at random (Marsaglia's xorshift): built again from what the readers say they are the same. */
static void hold_random(void)
{
    uint64_t x = 1;
    int round;
    for (round = 0; round < 100000; round++) {
        x ^= x << 13, x ^= x >> 7, x ^= x << 17;
        if (cechnuol_has_price(x))
            hold(cechnuol_put(cechnuol_offer(x), cechnuol_price(x)), x, "the word built again", cechnuol_offer(x));
        else
            hold(cechnuol_remove(cechnuol_offer(x)) | cechnuol_price(x), x, "the word built again", cechnuol_offer(x));
    }
}

int main(void)
{
    size_t i;
    hold_random();
    for (i = 0; i < sizeof offers / sizeof *offers; i++) {
        uint32_t given = offers[i].given, offer = offers[i].offer;
        hold(cechnuol_remove(given), offers[i].removed, "the removal", given);
        hold(cechnuol_ask(given), offers[i].removed, "the question", given);
        hold(cechnuol_put(given, 0), offers[i].put_at_0, "price 0", given);
        hold(cechnuol_put(given, 1), offers[i].put_at_1, "price 1", given);
        hold(cechnuol_put(given, UINT32_MAX), offers[i].put_at_most, "price 2^32 - 1", given);
        hold_read(offers[i].removed, 0, offer, 0);
        hold_read(offers[i].put_at_0, 1, offer, 0);
        hold_read(offers[i].put_at_1, 1, offer, 1);
        hold_read(offers[i].put_at_most, 1, offer, UINT32_MAX);
    }
    hold(cechnuol_put(5, 1200), 0x80000005000004B0, "price 1200", 5);
    return differences != 0;
}
