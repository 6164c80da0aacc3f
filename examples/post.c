/* Reads a block, steps over its records, and posts its statistics reports to the ledger of a page; then posts a feed,
 * which comes in two pieces, to a fresh one; then turns an old page into a new one.
 *
 *     ./libdoors
 *     cc -O2 -Iinclude -o post examples/post.c target/staticlib/libdoors.a
 */
#include <inttypes.h>
#include <stdio.h>
#include <stdlib.h>
#include <string.h>
#include "wear.h"

/* One report of station 1/2, service 0x12: 100 messages transmitted since midnight. */
static const uint8_t block[] = {0x17, 0x00, 0x13, 0xF1, 0x40, 0x01, 0x02, 0x03, 0x12, 0x00,
                                0x00, 0x80, 0x01, 0x04, 0x00, 0x00, 0x00, 0x00, 0x64};

/* Four such blocks, with counts 100, 150 and 30 since midnight and 5 since the last report; behind the first is one of
 * a category that is refused. The first piece ends within the third block. */
static const uint8_t feed[] = {
    0x17, 0x00, 0x13, 0xF1, 0x40, 0x01, 0x02, 0x03, 0x12, 0x00, 0x00, 0x80, 0x01, 0x04, 0x00, 0x00, 0x00, 0x00, 0x64,
    0x30, 0x00, 0x04, 0x00,
    0x17, 0x00, 0x13, 0xF1, 0x40, 0x01, 0x02, 0x03, 0x12, 0x00, 0x00, 0x80, 0x01, 0x04, 0x00, 0x00, 0x00, 0x00, 0x96,
    0x17, 0x00, 0x13, 0xF1, 0x40, 0x01, 0x02, 0x03, 0x12, 0x00, 0x00, 0x80, 0x01, 0x04, 0x00, 0x00, 0x00, 0x00, 0x1E,
    0x17, 0x00, 0x13, 0xF1, 0x40, 0x01, 0x02, 0x03, 0x12, 0x00, 0x00, 0x80, 0x01, 0x04, 0x80, 0x00, 0x00, 0x00, 0x05};
enum { FIRST_PIECE = 30 };

/* The page of this feed as the versions before 3 gave it, without times. */
static const uint8_t old_page[] = {0x00, 0x01, 0x00, 0x08, 0x00, 0x0C, 0x00, 0x18, 0x01, 0x02, 0x12, 0x04,
                                   0x00, 0x00, 0x00, 0x00, 0x00, 0x00, 0x00, 0xB9, 0x00, 0x00, 0x00, 0x1E};

static const uint8_t fresh[WEAR_FRESH_OCTETS] = WEAR_FRESH_PAGE;
static uint8_t page[WEAR_PAGE_MOST] = WEAR_FRESH_PAGE;
static size_t page_octets = WEAR_FRESH_OCTETS;

static void must(const char *what, uint32_t refusal)
{
    if (refusal != WEAR_ACCEPTED) {
        printf("%s: refused, %" PRIu32 ": %s\n", what, refusal, wear_sentence(refusal));
        exit(EXIT_FAILURE);
    }
}

static uint64_t number(const uint8_t *at, int octets)
{
    uint64_t n = 0;
    while (octets-- > 0)
        n = n << 8 | *at++;
    return n;
}

static void print_entries(uint64_t start, uint64_t entries)
{
    for (uint64_t i = 0; i < entries; i++) {
        uint64_t entry[4]; /* the offset of the faulty record, then TYPE, REF and count */
        must("entry", wear_entry(block, sizeof block, start, i, entry, 4));
        printf("  entry %" PRIu64 ": TYPE %" PRIu64 ", REF %" PRIu64 ", count %" PRIu64 "\n", i, entry[1], entry[2],
               entry[3]);
    }
}

/* The page before and the page after may not overlap. */
static uint8_t after[WEAR_PAGE_MOST];

static void keep_page(const uint8_t *octets, size_t n)
{
    memcpy(page, octets, n);
    page_octets = n;
}

static void post(uint64_t record)
{
    uint64_t octets;
    must("post", wear_post(page, page_octets, block, sizeof block, record, after, sizeof after, &octets, 1));
    keep_page(after, octets);
}

static void print_time(uint64_t time)
{
    if (time == UINT32_MAX)
        printf(", time unknown\n");
    else
        printf(", time %" PRIu64 "/128 s\n", time);
}

static void print_page(void)
{
    size_t rows = number(page, 2);
    const uint8_t *key = page + number(page + 2, 2), *counts = page + number(page + 4, 2);
    const uint8_t *time = page + number(page + 6, 2);
    printf("page of %zu octets\n", page_octets);
    for (; rows > 0; rows--, key += 4, counts += 12, time += 4) {
        printf("  row %08" PRIX64 ": life %" PRIu64 ", reading %" PRIu64, number(key, 4), number(counts, 8),
               number(counts + 8, 4));
        print_time(number(time, 4));
    }
}

static void post_block(void)
{
    uint64_t reading[3]; /* the offset of the faulty record, LEN, count of records */
    must("read", wear_read(block, sizeof block, reading, 3));
    printf("LEN %" PRIu64 ", records %" PRIu64 "\n", reading[1], reading[2]);

    uint64_t start = 3;
    for (uint64_t i = 0; i < reading[2]; i++) {
        uint64_t step[2 + WEAR_CELLS]; /* the offset of the faulty record, the next start, then the record */
        const uint64_t *record = step + 2;
        must("step", wear_step(block, sizeof block, start, step, 2 + WEAR_CELLS));
        printf("record %" PRIu64 ": SAC %" PRIu64 ", SIC %" PRIu64 ", type %" PRIu64 "\n", i, record[WEAR_SAC],
               record[WEAR_SIC], record[WEAR_TYPE]);
        print_entries(start, record[WEAR_ENTRIES]);
        if (record[WEAR_CATEGORY] == 23 && record[WEAR_TYPE] == 3)
            post(i);
        start = step[1];
    }
    print_page();
}

static void print_feed(size_t octets, const uint64_t *cells)
{
    static const char *const left_off[] = {
        [WEAR_ENDED] = "ended", [WEAR_STOPPED] = "stopped", [WEAR_MORE] = "more are needed"};
    printf("%zu octets at hand, %" PRIu64 " used, %s\n", octets, cells[WEAR_FEED_USED],
           left_off[cells[WEAR_FEED_LEFT_OFF]]);
    printf("  accepted %" PRIu64 ", refused %" PRIu64 ", posted %" PRIu64 ", unposted %" PRIu64 "\n",
           cells[WEAR_FEED_ACCEPTED], cells[WEAR_FEED_REFUSED], cells[WEAR_FEED_POSTED], cells[WEAR_FEED_UNPOSTED]);
}

/* Puts a piece behind the octets that were not used yet, and posts the blocks at hand. */
static void take(const uint8_t *piece, size_t n, uint32_t more)
{
    static uint8_t hand[sizeof feed];
    static size_t at_hand = 0;
    uint64_t cells[WEAR_FEED_CELLS];
    memcpy(hand + at_hand, piece, n);
    at_hand += n;
    must("feed", wear_feed(page, page_octets, hand, at_hand, more, after, sizeof after, cells, WEAR_FEED_CELLS));
    print_feed(at_hand, cells);
    keep_page(after, cells[WEAR_FEED_PAGE]);
    at_hand -= cells[WEAR_FEED_USED];
    memmove(hand, hand + cells[WEAR_FEED_USED], at_hand);
}

static void post_feed(void)
{
    keep_page(fresh, sizeof fresh);
    take(feed, FIRST_PIECE, 1);
    take(feed + FIRST_PIECE, sizeof feed - FIRST_PIECE, 0);
    print_page();
}

/* A page that was kept from such a version is turned once, when it is read. */
static void turn_old_page(void)
{
    uint64_t octets;
    must("turn", wear_page_to_new(old_page, sizeof old_page, page, sizeof page, &octets, 1));
    page_octets = octets;
    printf("an old page of %zu octets is now a ", sizeof old_page);
    print_page();
}

int main(void)
{
    if (wear_version() != WEAR_VERSION) {
        printf("the library is of version %" PRIu32 ", the header of %d\n", wear_version(), WEAR_VERSION);
        return EXIT_FAILURE;
    }
    post_block();
    post_feed();
    turn_old_page();
    return EXIT_SUCCESS;
}
