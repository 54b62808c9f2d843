/* A box office quotes the seats of one evening with the price unit: a program to read first, in C99 and C++17.
 *
 *     cc -std=c99 box_office.c $(pkg-config --cflags --libs cechnuol) -o box_office
 *
 * It says in words what happens, and checks it. Status 0: all is as it says; 1: something is not; 2: the output cannot
 * be written, or the arguments are wrong. Where the reader of a pipe leaves, SIGPIPE ends it. */
#include <cechnuol.h>

#include <inttypes.h>
#include <stdio.h>
#include <stdlib.h>
#include <string.h>

/* The seats on offer, by their offer numbers. */
enum { STALLS = 5, CIRCLE = 9, BOX = 12 };

/* Memory for the store, which must outlive it: room for 100 seats, and for 200 changes that are not flushed. */
static uint64_t table[100], journal[200];
static struct cechnuol_store store = {table, 100, journal, 200, {0}, {0}};

/* Stops the program where a call is not accepted. A server would look at the answer and do what the header advises. */
static void must(uint64_t answer, const char *what)
{
    if (answer == CECHNUOL_OK)
        return;
    fprintf(stderr, "box_office: %s is refused by %s: %s.\n", what, cechnuol_name(answer), cechnuol_text(answer));
    exit(1);
}

/* Stops the program where a number is not the one that was said. */
static void expect(uint64_t got, uint64_t want, const char *what)
{
    if (got == want)
        return;
    fprintf(stderr, "box_office: %s is %" PRIu64 ", and not %" PRIu64 ".\n", what, got, want);
    exit(1);
}

/* Quotes a seat at a state, and says so. How fresh the price is must be as given: the state that named the seat last,
 * or CECHNUOL_BY_TABLE. */
static uint64_t quote(uint32_t seat, uint32_t state, uint64_t fresh)
{
    uint64_t price = 0, since = 0;
    must(cechnuol_store_look_up(&store, CECHNUOL_DESK, seat, state, &price, &since), "the lookup");
    printf("  state %" PRIu32 ": seat %" PRIu32 " costs %" PRIu64, state, seat, price);
    if (since == CECHNUOL_BY_TABLE)
        puts(", by the table.");
    else
        printf(", since state %" PRIu64 ".\n", since);
    expect(since, fresh, "what the price is since");
    return price;
}

static int is_full(uint64_t answer)
{
    return answer == CECHNUOL_STEPS_FULL || answer == CECHNUOL_JOURNAL_FULL;
}

/* Makes room in a store that is full: flushes as high as the depth lets it or, where that is done already or refused,
 * gives up the oldest read, if it holds steps below the checkpoint. To give up any other would free nothing. A journal
 * of 64 words and 64 more for each step of the depth has room then. */
static uint64_t make_room(uint64_t full)
{
    uint32_t highest = cechnuol_store_highest_flush(&store);
    if (cechnuol_store_checkpoint(&store) < highest) {
        full = cechnuol_store_flush(&store, highest);
        if (full == CECHNUOL_OK)
            return full;
    }
    if (cechnuol_store_oldest(&store) < cechnuol_store_checkpoint(&store)) {
        size_t slot = cechnuol_oldest_slot(store.head);
        return cechnuol_store_release(&store, cechnuol_caller_of(slot), slot);
    }
    return full;
}

/* Commits changes, and makes room for them as often as it takes. A list longer than the journal never fits. */
static void commit(const uint64_t *changes, size_t count)
{
    uint64_t answer = cechnuol_store_commit(&store, changes, count);
    while (is_full(answer) && count <= store.journal_words) {
        must(make_room(answer), "making room");
        answer = cechnuol_store_commit(&store, changes, count);
    }
    must(answer, "the commit");
}

/* The feed: a list of changes leads to the next state, and earlier states can still be quoted. */
static void take_the_feed(void)
{
    const uint64_t opening[2] = {cechnuol_put(STALLS, 1200), cechnuol_put(CIRCLE, 700)};
    const uint64_t evening[2] = {cechnuol_put(STALLS, 1100), cechnuol_put(BOX, 4000)};
    puts("The store is empty: state 0. Two lists of changes make states 1 and 2. Quotes say which named a seat last.");
    must(cechnuol_store_clear(&store, 0), "the clearing");
    commit(opening, 2);
    commit(evening, 2);
    expect(quote(STALLS, 1, 1), 1200, "the price at state 1");
    expect(quote(STALLS, 2, 2), 1100, "the price at state 2");
    expect(quote(CIRCLE, 2, 1), 700, "the price that state 2 leaves");
}

/* A correction: the tip goes back, and the next commit makes state 2 again. */
static void correct_the_feed(void)
{
    const uint64_t correct[3] = {cechnuol_put(STALLS, 1150), cechnuol_remove(CIRCLE), cechnuol_put(BOX, 4000)};
    uint64_t price = 0, since = 0;
    puts("State 2 was wrong. A rollback to state 1 takes it away, and the corrected list makes state 2 anew.");
    must(cechnuol_store_roll_back(&store, 1), "the rollback");
    commit(correct, 3);
    expect(quote(STALLS, 2, 2), 1150, "the corrected price");
    expect(cechnuol_store_look_up(&store, CECHNUOL_DESK, CIRCLE, 2, &price, &since), CECHNUOL_NO_PRICE,
           "the answer for a seat withdrawn");
    expect(since, 2, "the state that withdrew the seat");
    printf("  state 2: seat %d has no price any more, since state %" PRIu64 ".\n", CIRCLE, since);
}

/* Says what a read of two seats shows, and checks the first price. */
static void show(const uint64_t reads[2], uint64_t first)
{
    printf("  the read: seat %" PRIu32 " costs %" PRIu32 ", seat %" PRIu32 " costs %" PRIu32 ".\n",
           cechnuol_offer(reads[0]), cechnuol_price(reads[0]), cechnuol_offer(reads[1]), cechnuol_price(reads[1]));
    expect(cechnuol_price(reads[0]), first, "the first price of the read");
    expect(cechnuol_price(reads[1]), 4000, "the second price of the read");
}

/* An early read: it is issued at the checkpoint, and forwarded to a state that did not exist then. */
static void read_early(uint64_t reads[2])
{
    const uint64_t late = cechnuol_put(STALLS, 1050);
    reads[0] = cechnuol_ask(STALLS);
    reads[1] = cechnuol_ask(BOX);
    puts("A flush makes state 2 the checkpoint. A read of two seats is issued there, in slot 0.");
    must(cechnuol_store_flush(&store, 2), "the flush");
    must(cechnuol_store_issue(&store, CECHNUOL_DESK, 0, reads, 2), "the issue");
    show(reads, 1150);
    puts("The feed goes on with state 3, which is flushed too. The read is forwarded to it.");
    commit(&late, 1);
    must(cechnuol_store_flush(&store, 3), "the flush");
    must(cechnuol_store_forward(&store, CECHNUOL_DESK, 0, 3, reads, 2), "the forward");
    show(reads, 1050);
}

/* The display in the foyer reads the same store, in slots of its own. */
static void show_in_the_foyer(void)
{
    uint64_t reads[2] = {cechnuol_ask(STALLS), cechnuol_ask(BOX)};
    puts("The display in the foyer reads the same seats. Slot 0 is the desk's, so it takes slot 6.");
    expect(cechnuol_store_issue(&store, CECHNUOL_FOYER, 0, reads, 2), CECHNUOL_OTHERS_SLOT,
           "the answer for the desk's slot");
    must(cechnuol_store_issue(&store, CECHNUOL_FOYER, CECHNUOL_FOYER_SLOT, reads, 2), "the foyer's issue");
    show(reads, 1050);
    must(cechnuol_store_release(&store, CECHNUOL_FOYER, CECHNUOL_FOYER_SLOT), "the foyer's release");
}

/* A batch of orders on that read; what it makes of the prices is a list, and is committed as state 4. */
static void price_orders(const uint64_t reads[2])
{
    const uint64_t orders[3] = {cechnuol_order(CECHNUOL_CUT, 50, STALLS),
                                cechnuol_order(CECHNUOL_SIXTEENTHS(12), 2500, BOX),
                                cechnuol_order(CECHNUOL_RAISE, 10, STALLS)};
    uint64_t changes[2], count = 0;
    puts("Three orders are priced on the read: seat 5 less 50, seat 12 at 12/16 but at least 2500, seat 5 plus 10.");
    must(cechnuol_price_batch(reads, 2, orders, 3, changes, 2, &count), "the batch");
    commit(changes, count);
    expect(quote(STALLS, 4, 4), 1010, "the price after the orders");
    expect(quote(BOX, 4, 4), 3000, "the marked-down price");
}

/* The night: the image of the newest prices is kept, and loaded the next morning, with a depth of 1. */
static void keep_overnight(void)
{
    uint8_t image[CECHNUOL_IMAGE_BYTES_OF(100 + 200)]; /* an offer for each word of table and journal */
    uint64_t count = 0;
    must(cechnuol_store_write_image(&store, image, sizeof image, &count), "the image");
    printf("State 4 is written as an image of %" PRIu64 " bytes, from which a store is loaded. Its table answers.\n",
           count);
    expect(count, CECHNUOL_IMAGE_BYTES_OF(2), "the length of the image");
    must(cechnuol_store_clear(&store, 0), "the clearing");
    must(cechnuol_store_load(&store, 1, image, count), "the load");
    expect(cechnuol_store_tip(&store), 4, "the state of the image");
    expect(quote(BOX, 4, CECHNUOL_BY_TABLE), 3000, "the price in the morning");
}

/* The depth: so many steps back from the tip stay possible, whatever is flushed. */
static void step_back_still(void)
{
    const uint64_t right = cechnuol_put(STALLS, 990), wrong = cechnuol_put(STALLS, 99);
    puts("It was loaded with depth 1: the newest list can always be taken back. So state 5 is not flushed at once.");
    commit(&right, 1);
    expect(cechnuol_store_flush(&store, 5), CECHNUOL_TOO_DEEP, "the answer to a flush of the newest list");
    puts("When state 6 is there, state 5 can be flushed. State 6 was wrong, and a rollback takes it away.");
    commit(&wrong, 1);
    expect(cechnuol_store_highest_flush(&store), 5, "the highest state to flush to");
    must(cechnuol_store_flush(&store, 5), "the flush");
    must(cechnuol_store_roll_back(&store, 5), "the rollback");
    expect(quote(STALLS, 5, CECHNUOL_BY_TABLE), 990, "the price that was right");
}

int main(int argument_count, char **arguments)
{
    uint64_t reads[2];
    int help = argument_count == 2 && strcmp(arguments[1], "--help") == 0;
    if (argument_count > 1) {
        fputs("usage: box_office [--help]\n", help ? stdout : stderr);
        return help && fflush(stdout) == 0 ? 0 : 2;
    }
    expect(cechnuol_version(), CECHNUOL_VERSION, "the version of the library");
    puts("The price unit " CECHNUOL_VERSION_TEXT " at a box office.");
    take_the_feed();
    correct_the_feed();
    read_early(reads);
    show_in_the_foyer();
    price_orders(reads);
    keep_overnight();
    step_back_still();
    puts("All is as it should be.");
    if (fflush(stdout) != 0 || ferror(stdout)) {
        fputs("box_office: the output cannot be written.\n", stderr);
        return 2;
    }
    return 0;
}
