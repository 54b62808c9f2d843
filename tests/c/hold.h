/* What the tests of this folder share: values are held to what they must be, and each difference is printed. */
#ifndef HOLD_H
#define HOLD_H

#include "cechnuol.h"

#include <inttypes.h>
#include <stdio.h>
#include <string.h>

static int differences;

static inline void hold(uint64_t got, uint64_t want, const char *what)
{
    if (got == want)
        return;
    printf("%s: %" PRIu64 " (%016" PRIX64 "), expected %" PRIu64 " (%016" PRIX64 ")\n", what, got, got, want, want);
    differences++;
}

/* An answer, and the name that the header has for it. */
static inline void hold_answer(uint64_t got, uint64_t want, const char *name, const char *what)
{
    if (got == want && strcmp(cechnuol_name(got), name) == 0)
        return;
    printf("%s: %" PRIu64 " (%s), expected %" PRIu64 " (%s)\n", what, got, cechnuol_name(got), want, name);
    differences++;
}

/* A call, written out, with the answer that it must give. */
#define ANSWERS(call, want) hold_answer(call, CECHNUOL_##want, #want, #call)

/* A value, written out. */
#define IS(value, want) hold(value, want, #value)

/* The first words of a list are so many puts of rising offers from one on, all at a price. */
static inline void put_offers(uint64_t *words, size_t count, uint32_t first, uint32_t price)
{
    size_t i;
    for (i = 0; i < count; i++)
        words[i] = cechnuol_put(first++, price);
}

#endif
