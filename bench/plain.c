/* The job of `wear` in plain C, to time it against: reads blocks of categories 23, 65 and 242 on standard input, posts
 * the statistics reports of accepted blocks to a ledger of 256 rows, and prints the ledger and the totals. Same rules,
 * same buffer, same answers.
 *
 *     cc -O2 -o plain plain.c && ./plain < feed
 */
#include <inttypes.h>
#include <stdbool.h>
#include <stdint.h>
#include <stdio.h>
#include <stdlib.h>
#include <string.h>
#include <unistd.h>

enum {
    BUFFER = 131072,        /* the longest block twice over */
    ROWS = 256,
    MOST_REPORTS = 4096,    /* a report has at least 16 octets, and a block at most 65,535 */
    ENTRY = 6,              /* octets of an entry of 23/120 */
    VERSION = 3,            /* octets of an entry of 242/550 */
    LATEST = 11059327       /* the last 1/128 s of a leap second */
};

enum refusal {
    ACCEPTED = 0,
    UNKNOWN_CATEGORY = 2,
    LONG_SPECIFICATION = 4,
    SPARE_MARKED = 5,
    NONE_MARKED = 6,
    PASSES_END = 7,
    NO_COUNT = 8,
    PAST_LAST = 9,
    PRESENCE_BROKEN = 10,
    OUT_OF_RANGE = 11,
    NO_ROOM = 14,
    LIFE_PASSES = 15
};

#define TRY(judged)                          \
    do {                                     \
        enum refusal refusal_ = (judged);    \
        if (refusal_ != ACCEPTED)            \
            return refusal_;                 \
    } while (0)

/* Field 1 is the high bit of 14, so that the marks are the specification's octets without FX, one behind the other. */
#define MARK(field) (1u << (14 - (field)))

/* Where the walk over a block's records and items stands, and the block's end. */
struct walk {
    const uint8_t *at, *end;
};

/* A statistics report of the block at hand: the key of its counter of TYPE 0, its time, and its entries. */
struct report {
    uint32_t key, time;
    unsigned count;
    const uint8_t *entries;
};

struct reports {
    size_t count;
    struct report report[MOST_REPORTS];
};

/* The time is that of the last entry from midnight; 0, than which none is earlier, until there is one. */
struct row {
    uint64_t life;
    uint32_t reading, time;
};

/* Rows rise by key; the keys stand apart, as they are what is searched. */
struct ledger {
    unsigned count;
    uint32_t key[ROWS];
    struct row row[ROWS];
};

struct totals {
    uint64_t accepted, refused, posted, unposted;
};

/* ---- items */

static inline uint32_t number(const uint8_t *at, unsigned octets)
{
    uint32_t n = 0;
    for (unsigned i = 0; i < octets; i++)
        n = n << 8 | at[i];
    return n;
}

/* So many octets more. */
static inline enum refusal pass(struct walk *walk, size_t octets)
{
    if ((size_t)(walk->end - walk->at) < octets)
        return PASSES_END;
    walk->at += octets;
    return ACCEPTED;
}

/* An octet with a range. */
static inline enum refusal ranged(struct walk *walk, unsigned low, unsigned high)
{
    TRY(pass(walk, 1));
    unsigned value = walk->at[-1];
    return value < low || high < value ? OUT_OF_RANGE : ACCEPTED;
}

static inline enum refusal time_of_day(struct walk *walk)
{
    TRY(pass(walk, 3));
    return number(walk->at - 3, 3) > LATEST ? OUT_OF_RANGE : ACCEPTED;
}

/* A part whose last octet has FX, and then a period of 1 to 127 s in bits 8/2 of one octet more, which has FX 0. */
static inline enum refusal extended(struct walk *walk, size_t octets)
{
    TRY(pass(walk, octets));
    if (!(walk->at[-1] & 1))
        return ACCEPTED;
    TRY(pass(walk, 1));
    unsigned extension = walk->at[-1];
    if (extension & 1)
        return PAST_LAST;
    return extension == 0 ? OUT_OF_RANGE : ACCEPTED;
}

/* 23/110: FX, and no extension. */
static inline enum refusal status(struct walk *walk)
{
    TRY(pass(walk, 1));
    return walk->at[-1] & 1 ? PAST_LAST : ACCEPTED;
}

/* REP, and so many entries. */
static inline enum refusal repeated(struct walk *walk, size_t octets, const uint8_t **entries, unsigned *count)
{
    TRY(pass(walk, 1));
    *count = walk->at[-1];
    *entries = walk->at;
    return *count == 0 ? NO_COUNT : pass(walk, *count * octets);
}

static enum refusal versions(struct walk *walk)
{
    const uint8_t *entry;
    unsigned count;
    TRY(repeated(walk, VERSION, &entry, &count));
    for (; count > 0; count--, entry += VERSION)
        if (entry[1] > 99 || entry[2] > 99)
            return OUT_OF_RANGE;
    return ACCEPTED;
}

/* RE or SP: a length that counts itself. */
static enum refusal opaque(struct walk *walk)
{
    TRY(pass(walk, 1));
    unsigned octets = walk->at[-1];
    return octets < 2 ? NO_COUNT : pass(walk, octets - 1);
}

/* ---- records */

static inline enum refusal specification(struct walk *walk, unsigned most, unsigned spare, unsigned *marks)
{
    unsigned first = *walk->at++;
    *marks = first >> 1 << 7;
    if (first & 1) {
        if (most == 1)
            return LONG_SPECIFICATION;
        TRY(pass(walk, 1));
        unsigned second = walk->at[-1];
        if (second & 1)
            return LONG_SPECIFICATION;
        *marks |= second >> 1;
    }
    if (*marks == 0)
        return NONE_MARKED;
    return *marks & spare ? SPARE_MARKED : ACCEPTED;
}

/* A record of category 23; a statistics report is noted for posting. */
static enum refusal record_23(struct walk *walk, struct reports *reports)
{
    const unsigned spare = MARK(10) | MARK(11) | MARK(12);
    const unsigned mandatory = MARK(2) | MARK(4);
    const unsigned counted = MARK(1) | MARK(3) | MARK(9);
    const uint8_t *source = NULL, *entries = NULL;
    unsigned marks, type = 0, service = 0, count = 0;
    uint32_t time = 0;

    TRY(specification(walk, 2, spare, &marks));
    if (marks & MARK(1)) {
        source = walk->at;
        TRY(pass(walk, 2));
    }
    if (marks & MARK(2)) {
        TRY(ranged(walk, 1, 3));
        type = walk->at[-1];
    }
    if (marks & MARK(3)) {
        TRY(pass(walk, 1));
        service = walk->at[-1];
    }
    if (marks & MARK(4)) {
        TRY(time_of_day(walk));
        time = number(walk->at - 3, 3);
    }
    if (marks & MARK(5))
        TRY(extended(walk, 1));
    if (marks & MARK(6))
        TRY(extended(walk, 2));
    if (marks & MARK(7))
        TRY(pass(walk, 1));
    if (marks & MARK(8))
        TRY(status(walk));
    if (marks & MARK(9))
        TRY(repeated(walk, ENTRY, &entries, &count));
    if (marks & MARK(13))
        TRY(opaque(walk));
    if (marks & MARK(14))
        TRY(opaque(walk));
    if ((marks & mandatory) != mandatory)
        return PRESENCE_BROKEN;
    if (type == 3 && (marks & counted) == counted)
        reports->report[reports->count++] =
            (struct report){number(source, 2) << 16 | service << 8, time, count, entries};
    return ACCEPTED;
}

/* Which of 020, 040 and 050 a record of category 65 has goes by its type. */
static enum refusal presence_65(unsigned marks, unsigned type)
{
    static const unsigned by_type[] = {0, MARK(6), MARK(5), MARK(7)};
    const unsigned always = MARK(1) | MARK(2) | MARK(3) | MARK(4);
    const unsigned sometimes = MARK(5) | MARK(6) | MARK(7);
    return (marks & (always | sometimes)) == (always | by_type[type]) ? ACCEPTED : PRESENCE_BROKEN;
}

static enum refusal record_65(struct walk *walk)
{
    const unsigned spare = MARK(8) | MARK(9) | MARK(10) | MARK(11) | MARK(12);
    unsigned marks, type = 0;

    TRY(specification(walk, 2, spare, &marks));
    if (marks & MARK(1))
        TRY(pass(walk, 2));
    if (marks & MARK(2)) {
        TRY(ranged(walk, 1, 3));
        type = walk->at[-1];
    }
    if (marks & MARK(3))
        TRY(pass(walk, 1));
    if (marks & MARK(4))
        TRY(time_of_day(walk));
    if (marks & MARK(5))
        TRY(pass(walk, 1));
    if (marks & MARK(6))
        TRY(pass(walk, 1));
    if (marks & MARK(7))
        TRY(ranged(walk, 1, 16));
    if (marks & MARK(13))
        TRY(opaque(walk));
    if (marks & MARK(14))
        TRY(opaque(walk));
    return presence_65(marks, type);
}

static enum refusal record_242(struct walk *walk)
{
    const unsigned spare = MARK(4) | MARK(5);
    const unsigned mandatory = MARK(1) | MARK(2) | MARK(3);
    unsigned marks;

    TRY(specification(walk, 1, spare, &marks));
    if (marks & MARK(1))
        TRY(pass(walk, 2));
    if (marks & MARK(2))
        TRY(time_of_day(walk));
    if (marks & MARK(3))
        TRY(versions(walk));
    if (marks & MARK(6))
        TRY(opaque(walk));
    if (marks & MARK(7))
        TRY(opaque(walk));
    return (marks & mandatory) == mandatory ? ACCEPTED : PRESENCE_BROKEN;
}

/* A whole block of LEN octets, and its statistics reports. */
static enum refusal judge(const uint8_t *block, size_t len, struct reports *reports)
{
    struct walk walk = {block + 3, block + len};
    reports->count = 0;
    switch (block[0]) {
    case 23:
        while (walk.at < walk.end)
            TRY(record_23(&walk, reports));
        return ACCEPTED;
    case 65:
        while (walk.at < walk.end)
            TRY(record_65(&walk));
        return ACCEPTED;
    case 242:
        while (walk.at < walk.end)
            TRY(record_242(&walk));
        return ACCEPTED;
    default:
        return UNKNOWN_CATEGORY;
    }
}

/* ---- ledger */

/* The first row whose key is at least `key`, or the row count. */
static unsigned find(const struct ledger *ledger, uint32_t key)
{
    unsigned low = 0, high = ledger->count;
    while (low < high) {
        unsigned middle = (low + high) / 2;
        if (ledger->key[middle] < key)
            low = middle + 1;
        else
            high = middle;
    }
    return low;
}

static void insert(struct ledger *ledger, uint32_t key, struct row row)
{
    unsigned at = find(ledger, key), behind = ledger->count - at;
    memmove(&ledger->key[at + 1], &ledger->key[at], behind * sizeof ledger->key[0]);
    memmove(&ledger->row[at + 1], &ledger->row[at], behind * sizeof ledger->row[0]);
    ledger->key[at] = key;
    ledger->row[at] = row;
    ledger->count++;
}

/* Adds up an entry of a record with this time, and tells whether the life count would pass 2^64 - 1. From midnight a
 * smaller count, or an earlier time, is another day's; both are asked without a branch, as neither is foreseen. */
static inline bool add_up(struct row *row, const uint8_t *entry, uint32_t time)
{
    bool from_midnight = !(entry[1] & 0x80);
    uint32_t count = number(entry + 2, 4), more = count;
    if (from_midnight) {
        if ((count >= row->reading) & (time >= row->time))
            more = count - row->reading;
        row->reading = count;
        row->time = time;
    }
    row->life += more;
    return row->life < more;
}

/* The counters of one report differ only in TYPE: they are worked out aside, by TYPE, so that a refusal leaves the
 * ledger as it stood. */
static enum refusal post(struct ledger *ledger, const struct report *report)
{
    struct {
        struct row row;
        unsigned at;
    } aside[256];
    uint8_t types[255];
    uint64_t seen[4] = {0};
    unsigned distinct = 0, new = 0;
    bool passes = false;

    const uint8_t *entry = report->entries;
    for (unsigned i = 0; i < report->count; i++, entry += ENTRY) {
        unsigned type = entry[0];
        if (!(seen[type / 64] >> type % 64 & 1)) {
            seen[type / 64] |= UINT64_C(1) << type % 64;
            types[distinct++] = type;
            unsigned at = find(ledger, report->key | type);
            bool is_held = at < ledger->count && ledger->key[at] == (report->key | type);
            aside[type].at = is_held ? at : ROWS;
            aside[type].row = is_held ? ledger->row[at] : (struct row){0, 0, 0};
            new += !is_held;
        }
        passes |= add_up(&aside[type].row, entry, report->time);
    }
    if (ledger->count + new > ROWS)
        return NO_ROOM;
    if (passes)
        return LIFE_PASSES;
    /* rows that are held first, as a new one moves those behind it */
    for (unsigned i = 0; i < distinct; i++)
        if (aside[types[i]].at < ROWS)
            ledger->row[aside[types[i]].at] = aside[types[i]].row;
    for (unsigned i = 0; new > 0 && i < distinct; i++)
        if (aside[types[i]].at == ROWS)
            insert(ledger, report->key | types[i], aside[types[i]].row);
    return ACCEPTED;
}

/* ---- the feed */

static void take_block(const uint8_t *block, size_t len, struct ledger *ledger, struct totals *totals)
{
    static struct reports reports;
    if (judge(block, len, &reports) != ACCEPTED) {
        totals->refused++;
        return;
    }
    totals->accepted++;
    for (size_t i = 0; i < reports.count; i++) {
        if (post(ledger, &reports.report[i]) == ACCEPTED)
            totals->posted++;
        else
            totals->unposted++;
    }
}

/* Takes the whole blocks at hand, and gives the octets used. A LEN below 4 stops the run, and so does, once the input
 * is over, a block that is not whole. */
static size_t take_blocks(const uint8_t *octets, size_t size, bool is_over, bool *stops, struct ledger *ledger,
                          struct totals *totals)
{
    size_t at = 0;
    while (size - at >= 3) {
        size_t len = number(octets + at + 1, 2);
        *stops = len < 4;
        if (*stops || size - at < len)
            break;
        take_block(octets + at, len, ledger, totals);
        at += len;
    }
    *stops = *stops || (is_over && at < size);
    totals->refused += *stops;
    return at;
}

/* Reads to the end of the input, or to where the run stops; false where a read fails. */
static bool take_feed(struct ledger *ledger, struct totals *totals)
{
    static uint8_t buffer[BUFFER];
    size_t held = 0;
    bool is_over = false, stops = false;
    while (!is_over && !stops) {
        ssize_t got = read(STDIN_FILENO, buffer + held, BUFFER - held);
        if (got < 0)
            return false;
        is_over = got == 0;
        held += (size_t)got;
        size_t used = take_blocks(buffer, held, is_over, &stops, ledger, totals);
        held -= used;
        memmove(buffer, buffer + used, held);
    }
    return true;
}

static void print(const struct ledger *ledger, const struct totals *totals)
{
    puts("counter life reading");
    for (unsigned i = 0; i < ledger->count; i++)
        printf("%08" PRIX32 " %" PRIu64 " %" PRIu32 "\n", ledger->key[i], ledger->row[i].life, ledger->row[i].reading);
    printf("accepted %" PRIu64 " refused %" PRIu64 " posted %" PRIu64 " unposted %" PRIu64 "\n", totals->accepted,
           totals->refused, totals->posted, totals->unposted);
}

int main(void)
{
    static struct ledger ledger;
    struct totals totals = {0, 0, 0, 0};
    if (!take_feed(&ledger, &totals)) {
        fputs("plain: standard input could not be read to its end; nothing is printed\n", stderr);
        return EXIT_FAILURE;
    }
    print(&ledger, &totals);
    return EXIT_SUCCESS;
}
