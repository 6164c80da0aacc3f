/* Documents 01 and 02 §1, §2, §4 and §5 in plain C: tables of items and categories, and the rules over them. "01" below is the first. */
#include "model.h"

#include <stdbool.h>
#include <string.h>

/* 01, "Refusal numbers" */
enum refusal {
    ACCEPTED,
    CUT_SHORT,          /* 1 */
    OTHER_CATEGORY,     /* 2 */
    LEN_BELOW_4,        /* 3 */
    SPECIFICATION_FX,   /* 4 */
    SPARE_MARKED,       /* 5 */
    NO_FIELD,           /* 6 */
    PASSES,             /* 7 */
    NONE_COUNTED,       /* 8 */
    EXTENSION_FX,       /* 9 */
    PRESENCE_BROKEN,    /* 10 */
    OUT_OF_RANGE,       /* 11 */
    OUTPUT_SHORT,       /* 12 */
    NO_STATISTICS,      /* 13 */
    NO_ROOM,            /* 14 */
    LIFE_PASSES,        /* 15 */
    RULES_BROKEN,       /* 16 */
    NO_SUCH             /* 17 */
};

/* ---- the tables ---- */

enum { NO_CELL = -1, MOST_PARTS = 8, FIELDS = 14 };

/* Some bits of an item, the cell of their value, and its range; spare bits have no cell. */
struct part {
    int cell;
    unsigned bits;
    uint64_t least, most;
};

enum shape { FIXED, EXTENSIBLE, REPEATED, OPAQUE };

struct item {
    enum shape shape;
    unsigned octets;                /* without an extension; of one entry where it is repeated */
    struct part parts[MOST_PARTS];  /* of these octets, from the high bit; bits behind the last are spare, or FX */
    int extended;                   /* EXTENSIBLE: the cell that says whether the extension is there */
    struct part extension;          /* bits 8/2 of the extension */
    int at, number;                 /* REPEATED and OPAQUE: the cells of the place and of the count */
    uint64_t most;                  /* the largest count */
};

/* 01, "Items" */
static const struct item source_identifier = {
    .shape = FIXED, .octets = 2, .parts = {{WEAR_SAC, 8, 0, 255}, {WEAR_SIC, 8, 0, 255}}};
static const struct item type = {.shape = FIXED, .octets = 1, .parts = {{WEAR_TYPE, 8, 1, 3}}};
static const struct item time_of_day = {.shape = FIXED, .octets = 3, .parts = {{WEAR_TIME, 24, 0, MODEL_LATEST}}};

static const struct item service_65_015 = {.shape = FIXED, .octets = 1, .parts = {{WEAR_SERVICE, 8, 0, 255}}};
static const struct item batch_65_020 = {.shape = FIXED, .octets = 1, .parts = {{WEAR_BATCH, 8, 0, 255}}};
/* 02 §2: document 001 decides; the last bit alone is spare. */
static const struct item status_65_040 = {
    .shape = FIXED, .octets = 1,
    .parts = {{WEAR_NOGO, 2, 0, 3}, {WEAR_OVL, 1, 0, 1}, {WEAR_TSV, 1, 0, 1}, {WEAR_PSS, 2, 0, 3}, {WEAR_STTN, 1, 0, 1}}};
static const struct item report_65_050 = {.shape = FIXED, .octets = 1, .parts = {{WEAR_REPORT, 8, 1, 16}}};

static const struct item service_23_015 = {
    .shape = FIXED, .octets = 1, .parts = {{WEAR_SID, 4, 0, 15}, {WEAR_STYP, 4, 0, 15}}};
static const struct item station_23_100 = {
    .shape = EXTENSIBLE, .octets = 1,
    .parts = {{WEAR_GS_NOGO, 1, 0, 1}, {WEAR_GS_ODP, 1, 0, 1}, {WEAR_GS_OXT, 1, 0, 1}, {WEAR_GS_MSC, 1, 0, 1},
              {WEAR_GS_TSV, 1, 0, 1}, {WEAR_GS_SPO, 1, 0, 1}, {WEAR_GS_RN, 1, 0, 1}},
    .extended = WEAR_GS_EXTENDED, .extension = {WEAR_GSSP, 7, 1, 127}};
/* Section 5.2.6 of document 003 gives SSRP the range of GSSP. */
static const struct item configuration_23_101 = {
    .shape = EXTENSIBLE, .octets = 2, .parts = {{WEAR_RP, 8, 0, 255}, {WEAR_SC, 3, 0, 7}},
    .extended = WEAR_SC_EXTENDED, .extension = {WEAR_SSRP, 7, 1, 127}};
static const struct item status_23_110 = {
    .shape = EXTENSIBLE, .octets = 1, .parts = {{NO_CELL, 4, 0, 0}, {WEAR_STAT, 3, 0, 7}}, .extended = NO_CELL};
static const struct item range_23_200 = {.shape = FIXED, .octets = 1, .parts = {{WEAR_RANGE, 8, 0, 255}}};

/* The values of an entry have cells of their own: the three that an entry's answer gives. */
static const struct item statistics_23_120 = {
    .shape = REPEATED, .octets = 6, .parts = {{0, 8, 0, 255}, {1, 1, 0, 1}, {NO_CELL, 7, 0, 0}, {2, 32, 0, UINT32_MAX}},
    .at = WEAR_ENTRIES_AT, .number = WEAR_ENTRIES, .most = 255};
static const struct item versions_242_550 = {
    .shape = REPEATED, .octets = 3, .parts = {{0, 8, 0, 255}, {1, 8, 0, 99}, {2, 8, 0, 99}},
    .at = WEAR_ENTRIES_AT, .number = WEAR_ENTRIES, .most = 255};
enum { ENTRY_CELLS = 3 };

static const struct item expansion = {.shape = OPAQUE, .at = WEAR_RE_AT, .number = WEAR_RE_OCTETS, .most = 254};
static const struct item purpose = {.shape = OPAQUE, .at = WEAR_SP_AT, .number = WEAR_SP_OCTETS, .most = 254};

#define MARK(field) (UINT64_C(1) << ((field) - 1))

/* 01, "Block and field specification" and "Presence"; a field without an item is spare. */
struct category {
    unsigned number;
    unsigned specification;         /* the most octets of a field specification */
    const struct item *fields[FIELDS];
    uint64_t mandatory;
};

static const struct category categories[] = {
    {23, 2,
     {&source_identifier, &type, &service_23_015, &time_of_day, &station_23_100, &configuration_23_101, &range_23_200,
      &status_23_110, &statistics_23_120, NULL, NULL, NULL, &expansion, &purpose},
     MARK(2) | MARK(4)},
    {65, 2,
     {&source_identifier, &type, &service_65_015, &time_of_day, &batch_65_020, &status_65_040, &report_65_050,
      NULL, NULL, NULL, NULL, NULL, &expansion, &purpose},
     MARK(1) | MARK(2) | MARK(3) | MARK(4)},
    {242, 1,
     {&source_identifier, &time_of_day, &versions_242_550, NULL, NULL, &purpose, &expansion},
     MARK(1) | MARK(2) | MARK(3)},
};

static const struct category *category_of(uint64_t number)
{
    for (size_t i = 0; i < sizeof categories / sizeof *categories; i++)
        if (categories[i].number == number)
            return &categories[i];
    return NULL;
}

static bool is_spare_marked(const struct category *category, uint64_t marks)
{
    for (unsigned field = 1; field <= 64; field++)
        if ((marks & MARK(field)) && (field > FIELDS || !category->fields[field - 1]))
            return true;
    return false;
}

/* 01, "Presence": in category 65 one of 020, 040 and 050, by the type. */
static bool is_presence_broken(const struct category *category, const uint64_t *cells)
{
    uint64_t marks = cells[WEAR_MARKS];
    if ((marks & category->mandatory) != category->mandatory)
        return true;
    if (category->number != 65)
        return false;
    uint64_t asked = cells[WEAR_TYPE] == 2 ? MARK(5) : cells[WEAR_TYPE] == 1 ? MARK(6) : MARK(7);
    return (marks & (MARK(5) | MARK(6) | MARK(7))) != asked;
}

/* ---- numbers and parts ---- */

static uint64_t number_at(const uint8_t *octets, unsigned count)
{
    uint64_t number = 0;
    for (unsigned i = 0; i < count; i++)
        number = number << 8 | octets[i];
    return number;
}

static void put_number(uint8_t *octets, unsigned count, uint64_t number)
{
    for (unsigned i = count; i > 0; i--) {
        octets[i - 1] = (uint8_t)number;
        number >>= 8;
    }
}

static void get_parts(const struct item *item, const uint8_t *octets, uint64_t *cells)
{
    uint64_t number = number_at(octets, item->octets);
    unsigned left = 8 * item->octets;
    for (size_t i = 0; i < MOST_PARTS && item->parts[i].bits; i++) {
        left -= item->parts[i].bits;
        if (item->parts[i].cell != NO_CELL)
            cells[item->parts[i].cell] = number >> left & ((UINT64_C(1) << item->parts[i].bits) - 1);
    }
}

/* Spare bits and FX become zero. */
static void put_parts(const struct item *item, const uint64_t *cells, uint8_t *octets)
{
    uint64_t number = 0;
    unsigned left = 8 * item->octets;
    for (size_t i = 0; i < MOST_PARTS && item->parts[i].bits; i++) {
        left -= item->parts[i].bits;
        if (item->parts[i].cell != NO_CELL)
            number |= cells[item->parts[i].cell] << left;
    }
    put_number(octets, item->octets, number);
}

static bool is_in_range(const struct part *part, const uint64_t *cells)
{
    return part->cell == NO_CELL || (cells[part->cell] >= part->least && cells[part->cell] <= part->most);
}

static bool are_parts_in_range(const struct item *item, const uint64_t *cells)
{
    for (size_t i = 0; i < MOST_PARTS && item->parts[i].bits; i++)
        if (!is_in_range(&item->parts[i], cells))
            return false;
    return true;
}

static bool are_entries_in_range(const struct item *item, const uint8_t *first, uint64_t number)
{
    uint64_t values[ENTRY_CELLS];
    for (uint64_t i = 0; i < number; i++) {
        get_parts(item, first + i * item->octets, values);
        if (!are_parts_in_range(item, values))
            return false;
    }
    return true;
}

/* ---- reading ---- */

/* 01, "Reading order": octet by octet, 7, 8 and 9 as met. The end of the item goes to *next. */
static enum refusal item_end(const struct item *item, const uint8_t *octets, size_t end, size_t at, size_t *next)
{
    switch (item->shape) {
    case FIXED:
        *next = at + item->octets;
        return *next > end ? PASSES : ACCEPTED;
    case EXTENSIBLE:
        *next = at + item->octets;
        if (*next > end)
            return PASSES;
        if (!(octets[*next - 1] & 1))
            return ACCEPTED;
        if (item->extended == NO_CELL)
            return EXTENSION_FX;
        *next += 1;
        if (*next > end)
            return PASSES;
        return octets[*next - 1] & 1 ? EXTENSION_FX : ACCEPTED;
    case REPEATED:
        if (at >= end)
            return PASSES;
        if (octets[at] == 0)
            return NONE_COUNTED;
        *next = at + 1 + (size_t)octets[at] * item->octets;
        return *next > end ? PASSES : ACCEPTED;
    default:
        if (at >= end)
            return PASSES;
        if (octets[at] < 2)
            return NONE_COUNTED;
        *next = at + octets[at];
        return *next > end ? PASSES : ACCEPTED;
    }
}

/* The values of an item that was found whole. */
static enum refusal item_values(const struct item *item, const uint8_t *octets, size_t at, size_t next, uint64_t *cells)
{
    if (item->shape == REPEATED || item->shape == OPAQUE) {
        cells[item->at] = at + 1;
        cells[item->number] = item->shape == OPAQUE ? next - at - 1 : octets[at];
        if (item->shape == REPEATED && !are_entries_in_range(item, octets + at + 1, octets[at]))
            return OUT_OF_RANGE;
        return ACCEPTED;
    }
    get_parts(item, octets + at, cells);
    if (!are_parts_in_range(item, cells))
        return OUT_OF_RANGE;
    if (next - at > item->octets) {
        cells[item->extended] = 1;
        cells[item->extension.cell] = octets[next - 1] >> 1;
        if (!is_in_range(&item->extension, cells))
            return OUT_OF_RANGE;
    }
    return ACCEPTED;
}

/* 01, "Reading order": specification octets (7, 4 at each), then 6 and 5. */
static enum refusal read_specification(const struct category *category, const uint8_t *octets, size_t end, size_t *at,
                                       uint64_t *marks)
{
    *marks = 0;
    for (unsigned i = 0; ; i++) {
        if (*at >= end)
            return PASSES;
        uint8_t octet = octets[(*at)++];
        for (unsigned bit = 0; bit < 7; bit++)
            if (octet & 0x80 >> bit)
                *marks |= MARK(7 * i + bit + 1);
        if (!(octet & 1))
            break;
        if (i + 1 == category->specification)
            return SPECIFICATION_FX;
    }
    if (*marks == 0)
        return NO_FIELD;
    return is_spare_marked(category, *marks) ? SPARE_MARKED : ACCEPTED;
}

/* The cells of the record that starts at `at`; on refusal they have no meaning. */
static enum refusal read_record(const struct category *category, const uint8_t *octets, size_t end, size_t at,
                                size_t *next, uint64_t *cells)
{
    memset(cells, 0, WEAR_CELLS * sizeof *cells);
    cells[WEAR_CATEGORY] = category->number;
    enum refusal refusal = read_specification(category, octets, end, &at, &cells[WEAR_MARKS]);
    for (unsigned field = 1; !refusal && field <= FIELDS; field++) {
        if (!(cells[WEAR_MARKS] & MARK(field)))
            continue;
        const struct item *item = category->fields[field - 1];
        size_t behind = at;
        refusal = item_end(item, octets, end, at, &behind);
        if (!refusal)
            refusal = item_values(item, octets, at, behind, cells);
        at = behind;
    }
    if (!refusal && is_presence_broken(category, cells))
        refusal = PRESENCE_BROKEN;
    *next = at;
    return refusal;
}

/* 01, "Reading order": under 3 octets; category; LEN below 4; LEN beyond. */
static enum refusal read_header(const uint8_t *octets, size_t n, const struct category **category, size_t *len)
{
    if (n < 3)
        return CUT_SHORT;
    *category = category_of(octets[0]);
    if (!*category)
        return OTHER_CATEGORY;
    *len = (size_t)number_at(octets + 1, 2);
    if (*len < 4)
        return LEN_BELOW_4;
    return *len > n ? CUT_SHORT : ACCEPTED;
}

struct block {
    const struct category *category;
    size_t len;
    uint64_t records;
    size_t faulty;                  /* the offset of the faulty record, 0 for the header */
};

static enum refusal read_block(const uint8_t *octets, size_t n, struct block *block)
{
    uint64_t cells[WEAR_CELLS];
    block->records = 0;
    block->faulty = 0;
    enum refusal refusal = read_header(octets, n, &block->category, &block->len);
    for (size_t at = 3; !refusal && at < block->len; block->records++) {
        size_t next;
        refusal = read_record(block->category, octets, block->len, at, &next, cells);
        if (refusal)
            block->faulty = at;
        at = next;
    }
    return refusal;
}

/* 01, "Reading order": a step judges the header first; a start below 3, or at or past LEN, gets 17. */
static enum refusal step(const uint8_t *octets, size_t n, uint64_t start, size_t *faulty, size_t *next, uint64_t *cells)
{
    const struct category *category;
    size_t len;
    *faulty = 0;
    enum refusal refusal = read_header(octets, n, &category, &len);
    if (refusal)
        return refusal;
    if (start < 3 || start >= len)
        return NO_SUCH;
    refusal = read_record(category, octets, len, (size_t)start, next, cells);
    if (refusal)
        *faulty = (size_t)start;
    return refusal;
}

/* The item of entries that a record has, or none. */
static const struct item *entries_of(const uint64_t *cells)
{
    const struct category *category = category_of(cells[WEAR_CATEGORY]);
    for (unsigned field = 1; field <= FIELDS; field++) {
        const struct item *item = category->fields[field - 1];
        if ((cells[WEAR_MARKS] & MARK(field)) && item->shape == REPEATED)
            return item;
    }
    return NULL;
}

uint32_t model_read(const uint8_t *octets, size_t n, uint64_t *cells, size_t k)
{
    if (k < 3)
        return OUTPUT_SHORT;
    struct block block;
    enum refusal refusal = read_block(octets, n, &block);
    cells[0] = block.faulty;
    cells[1] = refusal ? 0 : block.len;
    cells[2] = refusal ? 0 : block.records;
    return refusal;
}

uint32_t model_step(const uint8_t *octets, size_t n, uint64_t start, uint64_t *cells, size_t k)
{
    if (k < 2 + WEAR_CELLS)
        return OUTPUT_SHORT;
    size_t faulty, next = 0;
    enum refusal refusal = step(octets, n, start, &faulty, &next, cells + 2);
    cells[0] = faulty;
    cells[1] = refusal ? 0 : next;
    if (refusal)
        memset(cells + 2, 0, WEAR_CELLS * sizeof *cells);
    return refusal;
}

uint32_t model_entry(const uint8_t *octets, size_t n, uint64_t start, uint64_t number, uint64_t *cells, size_t k)
{
    if (k < 1 + ENTRY_CELLS)
        return OUTPUT_SHORT;
    uint64_t record[WEAR_CELLS];
    size_t faulty, next;
    memset(cells, 0, (1 + ENTRY_CELLS) * sizeof *cells);
    enum refusal refusal = step(octets, n, start, &faulty, &next, record);
    cells[0] = faulty;
    if (refusal)
        return refusal;
    const struct item *item = entries_of(record);
    if (!item || number >= record[item->number])
        return NO_SUCH;
    get_parts(item, octets + record[item->at] + number * item->octets, cells + 1);
    return ACCEPTED;
}

/* ---- writing ---- */

/* 01, "Writing one record as a block": for an item 7, 8, 11. A value too wide for its place in a typed record gets 11
 * here too, and no item that can get 7 or 8 comes before one that has such values. */
static enum refusal judge_item(const struct item *item, const uint64_t *cells, const uint8_t *source, size_t n)
{
    if (item->shape == REPEATED || item->shape == OPAQUE) {
        uint64_t at = cells[item->at], number = cells[item->number];
        unsigned octets = item->shape == REPEATED ? item->octets : 1;
        if (at > n || number > (n - at) / octets)
            return PASSES;
        if (number == 0)
            return NONE_COUNTED;
        if (number > item->most)
            return OUT_OF_RANGE;
        if (item->shape == REPEATED && !are_entries_in_range(item, source + at, number))
            return OUT_OF_RANGE;
        return ACCEPTED;
    }
    if (!are_parts_in_range(item, cells))
        return OUT_OF_RANGE;
    if (item->shape == FIXED || item->extended == NO_CELL || cells[item->extended] == 0)
        return ACCEPTED;
    return cells[item->extended] == 1 && is_in_range(&item->extension, cells) ? ACCEPTED : OUT_OF_RANGE;
}

static enum refusal judge_record(const uint64_t *cells, const uint8_t *source, size_t n)
{
    const struct category *category = category_of(cells[WEAR_CATEGORY]);
    if (!category)
        return OTHER_CATEGORY;
    if (cells[WEAR_MARKS] == 0)
        return NO_FIELD;
    if (is_spare_marked(category, cells[WEAR_MARKS]))
        return SPARE_MARKED;
    for (unsigned field = 1; field <= FIELDS; field++) {
        if (!(cells[WEAR_MARKS] & MARK(field)))
            continue;
        enum refusal refusal = judge_item(category->fields[field - 1], cells, source, n);
        if (refusal)
            return refusal;
    }
    return is_presence_broken(category, cells) ? PRESENCE_BROKEN : ACCEPTED;
}

static size_t item_octets(const struct item *item, const uint64_t *cells)
{
    switch (item->shape) {
    case FIXED:
        return item->octets;
    case EXTENSIBLE:
        return item->octets + (item->extended != NO_CELL && cells[item->extended] ? 1 : 0);
    case REPEATED:
        return 1 + (size_t)cells[item->number] * item->octets;
    default:
        return 1 + (size_t)cells[item->number];
    }
}

/* A second specification octet only where it marks something. */
static unsigned specification_octets(uint64_t marks)
{
    return marks >> 7 ? 2 : 1;
}

static size_t record_octets(const uint64_t *cells)
{
    const struct category *category = category_of(cells[WEAR_CATEGORY]);
    size_t octets = specification_octets(cells[WEAR_MARKS]);
    for (unsigned field = 1; field <= FIELDS; field++)
        if (cells[WEAR_MARKS] & MARK(field))
            octets += item_octets(category->fields[field - 1], cells);
    return octets;
}

static void put_item(const struct item *item, const uint64_t *cells, const uint8_t *source, uint8_t *out)
{
    switch (item->shape) {
    case FIXED:
        put_parts(item, cells, out);
        break;
    case EXTENSIBLE:
        put_parts(item, cells, out);
        if (item->extended != NO_CELL && cells[item->extended]) {
            out[item->octets - 1] |= 1;
            out[item->octets] = (uint8_t)(cells[item->extension.cell] << 1);
        }
        break;
    case REPEATED:
        *out++ = (uint8_t)cells[item->number];
        for (uint64_t i = 0; i < cells[item->number]; i++) {
            uint64_t values[ENTRY_CELLS];
            get_parts(item, source + cells[item->at] + i * item->octets, values);
            put_parts(item, values, out + i * item->octets);
        }
        break;
    case OPAQUE:
        *out = (uint8_t)(cells[item->number] + 1);
        memcpy(out + 1, source + cells[item->at], (size_t)cells[item->number]);
        break;
    }
}

static size_t put_record(const uint64_t *cells, const uint8_t *source, uint8_t *out)
{
    const struct category *category = category_of(cells[WEAR_CATEGORY]);
    unsigned specification = specification_octets(cells[WEAR_MARKS]);
    size_t at = specification;
    memset(out, 0, specification);
    if (specification == 2)
        out[0] |= 1;
    for (unsigned field = 1; field <= FIELDS; field++) {
        if (!(cells[WEAR_MARKS] & MARK(field)))
            continue;
        const struct item *item = category->fields[field - 1];
        out[(field - 1) / 7] |= (uint8_t)(0x80 >> (field - 1) % 7);
        put_item(item, cells, source, out + at);
        at += item_octets(item, cells);
    }
    return at;
}

static void put_header(uint8_t *out, uint64_t category, size_t len)
{
    out[0] = (uint8_t)category;
    put_number(out + 1, 2, len);
}

uint32_t model_write(const uint64_t *record, size_t k, const uint8_t *source, size_t n, uint8_t *out, size_t m,
                     uint64_t *length, size_t one)
{
    if (k < WEAR_CELLS || one < 1)
        return OUTPUT_SHORT;
    length[0] = 0;
    enum refusal refusal = judge_record(record, source, n);
    if (refusal)
        return refusal;
    size_t len = 3 + record_octets(record);
    if (len > m)
        return OUTPUT_SHORT;
    put_header(out, record[WEAR_CATEGORY], len);
    put_record(record, source, out + 3);
    length[0] = len;
    return ACCEPTED;
}

uint32_t model_rewrite(const uint8_t *octets, size_t n, uint8_t *out, size_t m, uint64_t *length, size_t one)
{
    if (one < 1)
        return OUTPUT_SHORT;
    length[0] = 0;
    struct block block;
    enum refusal refusal = read_block(octets, n, &block);
    if (refusal)
        return refusal;
    uint64_t cells[WEAR_CELLS];
    size_t len = 3, written = 3, next;
    for (size_t at = 3; at < block.len; at = next) {
        read_record(block.category, octets, block.len, at, &next, cells);
        len += record_octets(cells);
    }
    if (len > m)
        return OUTPUT_SHORT;
    put_header(out, block.category->number, len);
    for (size_t at = 3; at < block.len; at = next) {
        read_record(block.category, octets, block.len, at, &next, cells);
        written += put_record(cells, octets, out + written);
    }
    length[0] = len;
    return ACCEPTED;
}

/* ---- pages (01, "Ledger"; 02 §5) ---- */

enum { MOST_ROWS = 256, MOST_ENTRIES = 255 };
static const uint32_t no_time = UINT32_MAX;

struct row {
    uint32_t key;                   /* SAC, SIC, the octet of 015, TYPE */
    uint64_t life;
    uint32_t reading;
    uint32_t time;                  /* of its last entry from midnight, or no_time */
};

/* There is room for one report's new rows behind a full ledger, so that they can be counted. */
struct ledger {
    size_t rows;
    struct row row[MOST_ROWS + MOST_ENTRIES];
};

/* The tables of a page, each with so many octets for a row. The form of a page is how many of them it has. */
enum table { KEYS, READINGS, TIMES };
static const unsigned table_octets[] = {[KEYS] = 4, [READINGS] = 12, [TIMES] = 4};
enum form { OLD = TIMES, NEW = TIMES + 1 };

/* The row count, the offset of each table and the length, two octets each. */
static size_t header_octets(enum form form)
{
    return 2 * ((size_t)form + 2);
}

/* The offset of a table; of one more than there are, the length. */
static size_t table_at(enum form form, size_t rows, unsigned table)
{
    size_t at = header_octets(form);
    for (unsigned before = 0; before < table; before++)
        at += rows * table_octets[before];
    return at;
}

static size_t page_octets(enum form form, size_t rows)
{
    return table_at(form, rows, form);
}

static size_t cell_at(enum form form, size_t rows, enum table table, size_t row)
{
    return table_at(form, rows, table) + row * table_octets[table];
}

static bool is_header_right(enum form form, const uint8_t *page, size_t n)
{
    if (n < header_octets(form))
        return false;
    size_t rows = (size_t)number_at(page, 2);
    for (unsigned table = 0; table <= form; table++)
        if (number_at(page + 2 + 2 * table, 2) != table_at(form, rows, table))
            return false;
    return rows <= MOST_ROWS && n == page_octets(form, rows);
}

static struct row row_at(enum form form, const uint8_t *page, size_t rows, size_t i)
{
    const uint8_t *reading = page + cell_at(form, rows, READINGS, i);
    return (struct row){.key = (uint32_t)number_at(page + cell_at(form, rows, KEYS, i), 4),
                        .life = number_at(reading, 8),
                        .reading = (uint32_t)number_at(reading + 8, 4),
                        .time = form == OLD ? no_time : (uint32_t)number_at(page + cell_at(form, rows, TIMES, i), 4)};
}

static bool is_row_right(const struct row *row)
{
    return row->reading <= row->life && (row->time <= MODEL_LATEST || row->time == no_time);
}

static enum refusal load_page(enum form form, const uint8_t *page, size_t n, struct ledger *ledger)
{
    if (!is_header_right(form, page, n))
        return RULES_BROKEN;
    ledger->rows = (size_t)number_at(page, 2);
    for (size_t i = 0; i < ledger->rows; i++) {
        struct row *row = &ledger->row[i];
        *row = row_at(form, page, ledger->rows, i);
        if (!is_row_right(row) || (i > 0 && row[-1].key >= row->key))
            return RULES_BROKEN;
    }
    return ACCEPTED;
}

/* The octets of the page go to *length; where they pass the room, nothing is written. */
static enum refusal store_page(enum form form, const struct ledger *ledger, uint8_t *out, size_t room, uint64_t *length)
{
    size_t rows = ledger->rows;
    if (page_octets(form, rows) > room)
        return OUTPUT_SHORT;
    put_number(out, 2, rows);
    for (unsigned table = 0; table <= form; table++)
        put_number(out + 2 + 2 * table, 2, table_at(form, rows, table));
    for (size_t i = 0; i < rows; i++) {
        uint8_t *reading = out + cell_at(form, rows, READINGS, i);
        put_number(out + cell_at(form, rows, KEYS, i), 4, ledger->row[i].key);
        put_number(reading, 8, ledger->row[i].life);
        put_number(reading + 8, 4, ledger->row[i].reading);
        if (form == NEW)
            put_number(out + cell_at(form, rows, TIMES, i), 4, ledger->row[i].time);
    }
    *length = page_octets(form, rows);
    return ACCEPTED;
}

/* 02 §5: 16 for any fault of the page given, then 12. */
static enum refusal turn(enum form from, enum form to, const uint8_t *page, size_t n, uint8_t *out, size_t m,
                         uint64_t *length, size_t one)
{
    static struct ledger ledger;
    if (one < 1)
        return OUTPUT_SHORT;
    length[0] = 0;
    enum refusal refusal = load_page(from, page, n, &ledger);
    return refusal ? refusal : store_page(to, &ledger, out, m, length);
}

uint32_t model_page_to_new(const uint8_t *page, size_t n, uint8_t *out, size_t m, uint64_t *length, size_t one)
{
    return turn(OLD, NEW, page, n, out, m, length, one);
}

uint32_t model_page_to_old(const uint8_t *page, size_t n, uint8_t *out, size_t m, uint64_t *length, size_t one)
{
    return turn(NEW, OLD, page, n, out, m, length, one);
}

/* ---- the ledger (01, "Ledger"; 02 §4) ---- */

/* The row of a key; a new one starts at 0 and 0, with no known time. */
static struct row *row_of(struct ledger *ledger, uint32_t key)
{
    size_t place = 0;
    while (place < ledger->rows && ledger->row[place].key < key)
        place++;
    if (place == ledger->rows || ledger->row[place].key != key) {
        memmove(&ledger->row[place + 1], &ledger->row[place], (ledger->rows - place) * sizeof *ledger->row);
        ledger->row[place] = (struct row){.key = key, .time = no_time};
        ledger->rows++;
    }
    return &ledger->row[place];
}

/* How the time of an entry's record stands to its row's. */
static enum model_time standing(const struct row *row, uint32_t time)
{
    if (row->time == no_time)
        return MODEL_UNKNOWN;
    return time < row->time ? MODEL_EARLIER : time == row->time ? MODEL_EQUAL : MODEL_LATER;
}

/* Adding up one entry of a record with this time. From the last report the count is added, and no more. From midnight
 * what it grew by since the reading is; but all of it where it is smaller, or where the time is earlier than the row's,
 * since a midnight lies between. */
static enum refusal add_up(struct row *row, bool from_last_report, uint32_t count, uint32_t time,
                           struct model_tried *tried)
{
    enum model_time stands = standing(row, time);
    bool is_grown = !from_last_report && count >= row->reading;
    uint64_t added = is_grown && stands != MODEL_EARLIER ? count - row->reading : count;
    if (is_grown && row->reading > 0)
        tried->times[stands]++;
    if (added > UINT64_MAX - row->life)
        return LIFE_PASSES;
    row->life += added;
    if (!from_last_report) {
        row->reading = count;
        row->time = time;
    }
    return ACCEPTED;
}

static bool is_statistics(const uint64_t *cells)
{
    uint64_t asked = MARK(1) | MARK(3) | MARK(9);
    return cells[WEAR_CATEGORY] == 23 && cells[WEAR_TYPE] == 3 && (cells[WEAR_MARKS] & asked) == asked;
}

/* Posts a record that was read. Where it is refused the ledger is spoilt: the caller drops it. */
static enum refusal post_record(struct ledger *ledger, const uint8_t *octets, const uint64_t *cells,
                                struct model_tried *tried)
{
    if (!is_statistics(cells))
        return NO_STATISTICS;
    uint32_t service = (uint32_t)(cells[WEAR_SAC] << 24 | cells[WEAR_SIC] << 16 | cells[WEAR_SID] << 12 |
                                  cells[WEAR_STYP] << 8);
    const uint8_t *first = octets + cells[WEAR_ENTRIES_AT];
    uint64_t values[ENTRY_CELLS];
    for (uint64_t i = 0; i < cells[WEAR_ENTRIES]; i++) {
        get_parts(&statistics_23_120, first + 6 * i, values);
        row_of(ledger, service | (uint32_t)values[0]);
    }
    if (ledger->rows > MOST_ROWS)
        return NO_ROOM;
    for (uint64_t i = 0; i < cells[WEAR_ENTRIES]; i++) {
        get_parts(&statistics_23_120, first + 6 * i, values);
        struct row *row = row_of(ledger, service | (uint32_t)values[0]);
        enum refusal refusal = add_up(row, values[1] == 1, (uint32_t)values[2], (uint32_t)cells[WEAR_TIME], tried);
        if (refusal)
            return refusal;
    }
    return ACCEPTED;
}

/* 01, "Ledger": posting checks 16, reader's 1 to 11, 17, 13, 14, 15. */
static enum refusal post(struct ledger *ledger, const uint8_t *page, size_t n, const uint8_t *octets, size_t m,
                         uint64_t number)
{
    struct block block;
    enum refusal refusal = load_page(NEW, page, n, ledger);
    if (!refusal)
        refusal = read_block(octets, m, &block);
    if (refusal)
        return refusal;
    if (number >= block.records)
        return NO_SUCH;
    uint64_t cells[WEAR_CELLS];
    size_t next = 3;
    for (uint64_t i = 0; i <= number; i++)
        read_record(block.category, octets, block.len, next, &next, cells);
    struct model_tried tried = {0};
    return post_record(ledger, octets, cells, &tried);
}

uint32_t model_post(const uint8_t *page, size_t n, const uint8_t *octets, size_t m, uint64_t number, uint8_t *out,
                    size_t p, uint64_t *length, size_t one)
{
    if (one < 1)
        return OUTPUT_SHORT;
    length[0] = 0;
    static struct ledger ledger;
    enum refusal refusal = post(&ledger, page, n, octets, m, number);
    return refusal ? refusal : store_page(NEW, &ledger, out, p, length);
}

/* ---- a feed (01, the program `wear`) ---- */

static void copy_rows(struct ledger *to, const struct ledger *from)
{
    to->rows = from->rows;
    memcpy(to->row, from->row, from->rows * sizeof *from->row);
}

/* Posts each record of an accepted block. One that is refused leaves the ledger as it was. */
static void post_records(struct ledger *ledger, const uint8_t *octets, const struct block *block,
                         struct model_tried *tried)
{
    static struct ledger before;
    uint64_t cells[WEAR_CELLS];
    size_t next;
    for (size_t at = 3; at < block->len; at = next) {
        read_record(block->category, octets, block->len, at, &next, cells);
        copy_rows(&before, ledger);
        enum refusal refusal = post_record(ledger, octets, cells, tried);
        if (refusal)
            copy_rows(ledger, &before);
        tried->posts[refusal]++;
    }
}

/* LEN of the block at `at`, where all its octets are at hand. Otherwise 0, and how the run leaves off. A LEN below 4
 * stops it at once, since no octet that may come can change it. */
static size_t whole_len(const uint8_t *octets, size_t m, size_t at, bool more, uint64_t *left_off)
{
    size_t left = m - at, len = left < 3 ? 0 : (size_t)number_at(octets + at + 1, 2);
    if (left >= 3 && len >= 4 && len <= left)
        return len;
    if (left >= 3 && len < 4)
        *left_off = WEAR_STOPPED;
    else if (more)
        *left_off = WEAR_MORE;
    else
        *left_off = left == 0 ? WEAR_ENDED : WEAR_STOPPED;
    return 0;
}

/* Fills in all cells but the page's. */
static void run_feed(struct ledger *ledger, const uint8_t *octets, size_t m, bool more, uint64_t *cells,
                     struct model_tried *tried)
{
    size_t at = 0, len;
    while ((len = whole_len(octets, m, at, more, &cells[WEAR_FEED_LEFT_OFF])) > 0) {
        struct block block;
        if (read_block(octets + at, m - at, &block)) {
            cells[WEAR_FEED_REFUSED]++;
        } else {
            cells[WEAR_FEED_ACCEPTED]++;
            post_records(ledger, octets + at, &block, tried);
        }
        at += len;
    }
    if (cells[WEAR_FEED_LEFT_OFF] == WEAR_STOPPED)
        cells[WEAR_FEED_REFUSED]++;
    cells[WEAR_FEED_USED] = at;
    cells[WEAR_FEED_POSTED] = tried->posts[ACCEPTED];
    cells[WEAR_FEED_UNPOSTED] = tried->posts[NO_ROOM] + tried->posts[LIFE_PASSES];
}

static struct ledger fed;

uint32_t model_feed(const uint8_t *page, size_t n, const uint8_t *octets, size_t m, uint32_t more, uint8_t *out,
                    size_t p, uint64_t *cells, size_t k)
{
    if (k < WEAR_FEED_CELLS)
        return OUTPUT_SHORT;
    uint64_t counted[WEAR_FEED_CELLS] = {0};
    struct model_tried tried = {0};
    memset(cells, 0, sizeof counted);
    if (load_page(NEW, page, n, &fed))
        return RULES_BROKEN;
    run_feed(&fed, octets, m, more != 0, counted, &tried);
    if (store_page(NEW, &fed, out, p, &counted[WEAR_FEED_PAGE]))
        return OUTPUT_SHORT;
    memcpy(cells, counted, sizeof counted);
    return ACCEPTED;
}

void model_tries(const uint8_t *page, size_t n, const uint8_t *octets, size_t m, struct model_tried *tried)
{
    uint64_t cells[WEAR_FEED_CELLS] = {0};
    if (load_page(NEW, page, n, &fed) == ACCEPTED)
        run_feed(&fed, octets, m, false, cells, tried);
}
