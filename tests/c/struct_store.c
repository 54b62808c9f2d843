/* The functions over struct cechnuol_store beside the plain ones: the same calls on two stores, one by each, give the
 * same answers, values and memory. And the readers of the struct beside the words of its head. */
#include "hold.h"

/* Of different lengths, so that table and journal cannot be taken for each other. */
enum { TABLE_LENGTH = 4, JOURNAL_LENGTH = 4000 };

static struct {
    uint64_t table[TABLE_LENGTH], journal[JOURNAL_LENGTH], head[CECHNUOL_HEAD_WORDS], tally[CECHNUOL_TALLY_WORDS];
    uint64_t words[3], value, since;
    uint8_t bytes[64];
} plain, other;
static struct cechnuol_store store = {other.table, TABLE_LENGTH, other.journal, JOURNAL_LENGTH, {0}, {0}};

#define TO_READ plain.table, TABLE_LENGTH, plain.journal, JOURNAL_LENGTH, plain.head
#define STORE TO_READ, plain.tally

static void hold_alike(uint64_t by_plain, uint64_t by_struct, const char *what)
{
    memcpy(other.head, store.head, sizeof other.head);
    memcpy(other.tally, store.tally, sizeof other.tally);
    hold(by_struct, by_plain, what);
    hold(memcmp(&plain, &other, sizeof plain) == 0, 1, what);
    hold(cechnuol_store_oldest(&store), plain.head[1], "oldest");
    hold(cechnuol_store_checkpoint(&store), plain.head[2], "checkpoint");
    hold(cechnuol_store_tip(&store), plain.head[3], "tip");
    hold(cechnuol_store_depth(&store), plain.head[84], "depth");
    hold(cechnuol_store_highest_flush(&store), cechnuol_highest_flush(plain.head), "highest flush");
    hold(cechnuol_store_image_bytes(&store), cechnuol_image_bytes(plain.head), "bytes of an image");
    hold(cechnuol_store_sheet_bytes(&store), cechnuol_sheet_bytes(plain.head), "bytes of a sheet");
}

/* The same words for both. */
static void give(uint64_t first, uint64_t second, uint64_t third)
{
    plain.words[0] = other.words[0] = first;
    plain.words[1] = other.words[1] = second;
    plain.words[2] = other.words[2] = third;
}

#define ALIKE(name, ...) \
    hold_alike(cechnuol_##name(STORE, __VA_ARGS__), cechnuol_store_##name(&store, __VA_ARGS__), #name " " #__VA_ARGS__)

static void steps(void)
{
    ALIKE(clear, 63);
    IS(cechnuol_store_depth(&store), 63);
    ALIKE(clear, 64);
    ALIKE(clear, 0);
    IS(cechnuol_store_depth(&store), 0);
    give(cechnuol_put(1, 10), cechnuol_put(2, 20), cechnuol_put(3, 30));
    ALIKE(commit, other.words, 3);
    ALIKE(commit, other.words, 2);
    ALIKE(commit, other.words + 1, 1);
    ALIKE(roll_back, 2);
    ALIKE(roll_back, 3);
    ALIKE(flush, 1);
    ALIKE(flush, 0);
}

static void reads(void)
{
    const uint32_t desk = CECHNUOL_DESK, foyer = CECHNUOL_FOYER;
    give(cechnuol_ask(1), cechnuol_ask(2), cechnuol_ask(7));
    hold_alike(cechnuol_issue(STORE, desk, 5, plain.words, 3), cechnuol_store_issue(&store, desk, 5, other.words, 3),
               "issue");
    IS(cechnuol_store_is_open(&store, 5) != 0, 1);
    IS(cechnuol_store_is_open(&store, 4) != 0, 0);
    IS(cechnuol_store_is_open(&store, 8) != 0, 0);
    IS(cechnuol_store_is_open(&store, SIZE_MAX) != 0, 0);
    ALIKE(flush, 2);
    hold_alike(cechnuol_forward(STORE, desk, 5, 2, plain.words, 3),
               cechnuol_store_forward(&store, desk, 5, 2, other.words, 3), "forward");
    hold_alike(cechnuol_issue(STORE, foyer, 6, NULL, 0), cechnuol_store_issue(&store, foyer, 6, NULL, 0),
               "issue of nothing");
    hold_alike(cechnuol_release(STORE, desk, 6), cechnuol_store_release(&store, desk, 6), "release of another's slot");
    hold_alike(cechnuol_release(STORE, foyer, 6), cechnuol_store_release(&store, foyer, 6), "release");
    hold_alike(cechnuol_look_up(TO_READ, desk, 2, 2, &plain.value, &plain.since),
               cechnuol_store_look_up(&store, desk, 2, 2, &other.value, &other.since), "look_up of a price");
    IS(other.value, 20);
    IS(other.since, CECHNUOL_BY_TABLE);
    hold_alike(cechnuol_look_up(TO_READ, foyer, 7, 2, &plain.value, &plain.since),
               cechnuol_store_look_up(&store, foyer, 7, 2, &other.value, &other.since), "look_up of none");
    give(cechnuol_put(1, 11), cechnuol_remove(3), 0);
    ALIKE(commit, other.words, 2);
    hold_alike(cechnuol_look_up(TO_READ, desk, 1, 3, &plain.value, &plain.since),
               cechnuol_store_look_up(&store, desk, 1, 3, &other.value, &other.since), "look_up of a new price");
    IS(other.value, 11);
    IS(other.since, 3);
    hold_alike(cechnuol_look_up(TO_READ, foyer, 3, 3, &plain.value, &plain.since),
               cechnuol_store_look_up(&store, foyer, 3, 3, &other.value, &other.since), "look_up of a removed price");
    ALIKE(roll_back, 2);
}

static void images(void)
{
    const uint8_t image[14] = {0, 0, 0, 7, 0, 1, 0x80, 0, 0, 5, 0, 0, 0x04, 0xB0};
    hold_alike(cechnuol_write_image(TO_READ, plain.bytes, 64, &plain.value),
               cechnuol_store_write_image(&store, other.bytes, 64, &other.value), "write_image");
    hold_alike(cechnuol_write_state_image(TO_READ, 1, plain.bytes, 64, &plain.value),
               cechnuol_store_write_state_image(&store, 1, other.bytes, 64, &other.value), "write_state_image");
    hold_alike(cechnuol_restart(STORE, plain.bytes, 64), cechnuol_store_restart(&store, other.bytes, 64), "restart");
    ALIKE(load, 62, image, 14);
    IS(cechnuol_store_depth(&store), 62);
    ALIKE(load, 63, image, 13);
    ALIKE(load, 64, image, 14);
    hold_alike(cechnuol_write_image(TO_READ, plain.bytes, 13, &plain.value),
               cechnuol_store_write_image(&store, other.bytes, 13, &other.value), "write_image, short");
}

static void sheets(void)
{
    const uint8_t sheet[20] = {0, 0, 0, 7, 0, 0, 0, 1, 0, 0, 0, 0, 0x04, 0, 0, 0, 0, 0, 0x04, 0xB0};
    ALIKE(load_sheet, 61, sheet, 20);
    IS(cechnuol_store_tip(&store), 7);
    IS(cechnuol_store_depth(&store), 61);
    ALIKE(load_sheet, 63, sheet, 19);
    ALIKE(load_sheet, 64, sheet, 20);
    give(cechnuol_put(37, 10), 0, 0);
    ALIKE(commit, other.words, 1);
    hold_alike(cechnuol_write_sheet(TO_READ, plain.bytes, 64, &plain.value),
               cechnuol_store_write_sheet(&store, other.bytes, 64, &other.value), "write_sheet");
    IS(other.value, 32);
    hold_alike(cechnuol_write_state_sheet(TO_READ, 7, plain.bytes, 64, &plain.value),
               cechnuol_store_write_state_sheet(&store, 7, other.bytes, 64, &other.value), "write_state_sheet");
    IS(other.value, 20);
    hold_alike(cechnuol_write_sheet(TO_READ, plain.bytes, 31, &plain.value),
               cechnuol_store_write_sheet(&store, other.bytes, 31, &other.value), "write_sheet, short");
    hold_alike(cechnuol_write_state_sheet(TO_READ, 6, plain.bytes, 64, &plain.value),
               cechnuol_store_write_state_sheet(&store, 6, other.bytes, 64, &other.value), "write_state_sheet of none");
}

/* The bytes that are enough for an image and for a sheet are those of so many offers, each in a row of its own. */
static void hold_room(const uint64_t *head, size_t offers)
{
    hold(cechnuol_image_bytes(head), 6 + 8 * offers, "bytes of an image");
    hold(cechnuol_sheet_bytes(head), 8 + 12 * offers, "bytes of a sheet");
}

/* Heads, sound or not. */
static void room(void)
{
    const size_t most = 8000 + 4096;
    uint64_t head[CECHNUOL_HEAD_WORDS] = {0};
    hold_room(head, 0);
    head[0] = 2;
    hold_room(head, 2);
    head[1] = 4294967290, head[2] = 4294967291, head[3] = 4294967293;
    head[20] = 4, head[21] = 6, head[22] = 9;
    hold_room(head, 7);
    head[2] = 4294967290;
    hold_room(head, 11);
    head[2] = head[3];
    hold_room(head, 2);
    head[2]++;
    hold_room(head, most);
    head[2] = 4294967291, head[22] = 3;
    hold_room(head, most);
    head[22] = 4100;
    hold_room(head, 2 + 4096);
    head[22] = 4101;
    hold_room(head, most);
    head[22] = 4100, head[0] = 8000;
    hold_room(head, most);
    head[0] = 8001;
    hold_room(head, most);
    memset(head, 0xFF, sizeof head);
    hold_room(head, most);
}

/* Heads with slots open as given, and the slot that is the oldest of them. */
static void oldest_slots(void)
{
    uint64_t head[CECHNUOL_HEAD_WORDS] = {0};
    IS(cechnuol_oldest_slot(head), 8);
    head[4 + 7] = 1, head[12 + 7] = 4294967295;
    IS(cechnuol_oldest_slot(head), 7);
    head[4 + 5] = 1, head[12 + 5] = 9;
    IS(cechnuol_oldest_slot(head), 5);
    head[4 + 2] = 1, head[12 + 2] = 9;
    IS(cechnuol_oldest_slot(head), 2);
    head[4 + 3] = 1, head[12 + 3] = 0;
    IS(cechnuol_oldest_slot(head), 3);
    head[4 + 0] = 1, head[12 + 0] = 1;
    IS(cechnuol_oldest_slot(head), 3);
}

/* Heads with checkpoint, tip and depth as given, and the highest state to flush to. */
static void highest_flushes(void)
{
    static const uint32_t numbers[][4] = {
        {0, 0, 0, 0}, {0, 0, 63, 0}, {0, 1, 0, 1}, {0, 1, 1, 0}, {0, 1, 2, 0}, {0, 64, 63, 1}, {3, 5, 0, 5},
        {3, 5, 1, 4}, {3, 5, 2, 3}, {3, 5, 3, 3}, {3, 5, 5, 3}, {3, 5, 6, 3}, {3, 67, 63, 4},
        {4294967290, 4294967295, 1, 4294967294}, {4294967290, 4294967295, 63, 4294967290},
        {4294967295, 4294967295, 63, 4294967295},
    };
    uint64_t head[CECHNUOL_HEAD_WORDS] = {0};
    size_t i;
    for (i = 0; i < sizeof numbers / sizeof *numbers; i++) {
        head[2] = numbers[i][0], head[3] = numbers[i][1], head[84] = numbers[i][2];
        hold(cechnuol_highest_flush(head), numbers[i][3], "highest flush");
    }
}

int main(void)
{
    steps();
    reads();
    images();
    sheets();
    oldest_slots();
    highest_flushes();
    room();
    IS(sizeof store.head / sizeof *store.head, 85);
    IS(sizeof store.tally / sizeof *store.tally, 3);
    return differences != 0;
}
