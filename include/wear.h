/* The collector box for C and for what can call C: link with target/staticlib/libdoors.a (made by `./libdoors`).
 *
 * Every function of the library but wear_version answers a refusal number, 0 where it accepts. A slice is a pointer and a length; the pointer may be NULL
 * exactly where the length is 0. Nothing outside the slices is read or written, and nothing is kept. Results go into 64-bit cells that the
 * caller lends; where fewer cells are lent than a function needs, of a record too, the answer is 12 before all else, and nothing is
 * changed. Cells past those that are needed stay. On a refusal no octet of an output changes; octets past those written stay.
 *
 * No lent slice that is written may overlap another.
 */
#ifndef WEAR_H
#define WEAR_H

#include <stddef.h>
#include <stdint.h>

#ifdef __cplusplus
extern "C" {
#endif

/* The version of this header, and that of the library. They have to be equal. */
#define WEAR_VERSION 3
uint32_t wear_version(void);

/* The refusal numbers. */
enum {
    WEAR_ACCEPTED = 0,
    WEAR_TOO_SHORT = 1,
    WEAR_UNKNOWN_CATEGORY = 2,
    WEAR_LEN_TOO_SMALL = 3,
    WEAR_LONG_SPECIFICATION = 4,
    WEAR_SPARE_MARKED = 5,
    WEAR_NONE_MARKED = 6,
    WEAR_PASSES_END = 7,
    WEAR_NO_COUNT = 8,
    WEAR_PAST_LAST = 9,
    WEAR_PRESENCE_BROKEN = 10,
    WEAR_OUT_OF_RANGE = 11,
    WEAR_OUTPUT_TOO_SHORT = 12,
    WEAR_NOT_STATISTICS = 13,
    WEAR_NO_ROOM = 14,
    WEAR_LIFE_PASSES = 15,
    WEAR_RULES_BROKEN = 16,
    WEAR_NO_SUCH = 17
};

/* What a refusal says, as README.md has it. */
static inline const char *wear_sentence(uint32_t refusal)
{
    switch (refusal) {
    case WEAR_ACCEPTED: return "accepted";
    case WEAR_TOO_SHORT: return "fewer than 3 octets, or LEN beyond the octets";
    case WEAR_UNKNOWN_CATEGORY: return "a category other than 23, 65 and 242";
    case WEAR_LEN_TOO_SMALL: return "LEN below 4";
    case WEAR_LONG_SPECIFICATION: return "a field specification longer than the category allows";
    case WEAR_SPARE_MARKED: return "a spare field is marked";
    case WEAR_NONE_MARKED: return "no field is marked";
    case WEAR_PASSES_END: return "a specification or an item passes LEN; when writing, a place outside the source";
    case WEAR_NO_COUNT: return "a repetition of 0, or an opaque item shorter than its own length octet";
    case WEAR_PAST_LAST: return "an item is extended beyond its last extension";
    case WEAR_PRESENCE_BROKEN: return "an item is missing, or there where it must not be";
    case WEAR_OUT_OF_RANGE: return "a value is out of its range";
    case WEAR_OUTPUT_TOO_SHORT: return "the output is too short";
    case WEAR_NOT_STATISTICS: return "not a statistics report: not category 23 type 3, or without 010, 015 or 120";
    case WEAR_NO_ROOM: return "the ledger has no room for all new counters";
    case WEAR_LIFE_PASSES: return "a life count would pass 2^64 - 1";
    case WEAR_RULES_BROKEN: return "the ledger or the page breaks its rules";
    case WEAR_NO_SUCH: return "there is no record or entry of this number";
    default: return "no refusal has this number";
    }
}

/* The cells of a record. An item, or an extension, that is absent has zeros. */
enum {
    WEAR_CATEGORY,
    WEAR_MARKS,             /* bit f - 1 for field f */
    WEAR_SAC,               /* 010 */
    WEAR_SIC,
    WEAR_TYPE,              /* 000 */
    WEAR_SERVICE,           /* 65/015 */
    WEAR_SID,               /* 23/015 */
    WEAR_STYP,
    WEAR_TIME,              /* 23/070, 65/030, 242/140: 1/128 s since midnight, at most 11,059,327; from 11,059,200 on in a leap second */
    WEAR_BATCH,             /* 65/020 */
    WEAR_NOGO,              /* 65/040 */
    WEAR_OVL,
    WEAR_TSV,
    WEAR_PSS,
    WEAR_STTN,              /* the track re-numbering toggle: changes whenever the SDPS starts to re-number its tracks */
    WEAR_REPORT,            /* 65/050 */
    WEAR_GS_NOGO,           /* 23/100 */
    WEAR_GS_ODP,
    WEAR_GS_OXT,
    WEAR_GS_MSC,
    WEAR_GS_TSV,
    WEAR_GS_SPO,
    WEAR_GS_RN,
    WEAR_GS_EXTENDED,       /* 1 where GSSP is there */
    WEAR_GSSP,              /* s */
    WEAR_RP,                /* 23/101: 0.5 s */
    WEAR_SC,
    WEAR_SC_EXTENDED,       /* 1 where SSRP is there */
    WEAR_SSRP,              /* s */
    WEAR_RANGE,             /* 23/200: NM */
    WEAR_STAT,              /* 23/110 */
    WEAR_ENTRIES_AT,        /* 23/120 or 242/550: the offset of the first entry, and how many there are */
    WEAR_ENTRIES,
    WEAR_RE_AT,             /* the offset of the content, and its octets */
    WEAR_RE_OCTETS,
    WEAR_SP_AT,
    WEAR_SP_OCTETS,
    WEAR_CELLS              /* how many cells a record has */
};

/* Reads a block. Cells: the offset of the faulty record (0 on acceptance), LEN, the count of records (both 0 on refusal). */
uint32_t wear_read(const uint8_t *octets, size_t n, uint64_t *cells, size_t k);

/* Reads the record that starts at an offset. Cells: the offset of the faulty record, the next start, then the record's WEAR_CELLS
 * cells (all 0 on refusal). The first record starts at 3; a start below 3, or at or past LEN, gets 17. */
uint32_t wear_step(const uint8_t *octets, size_t n, uint64_t start, uint64_t *cells, size_t k);

/* Entry `number`, from 0, of the record that starts at an offset. Cells: the offset of the faulty record, then TYPE, REF and count of
 * 23/120, or category, main and sub version of 242/550 (all 0 on refusal). */
uint32_t wear_entry(const uint8_t *octets, size_t n, uint64_t start, uint64_t number, uint64_t *cells, size_t k);

/* Writes a record of WEAR_CELLS cells as a block; entries and content come from the source. length[0] becomes the octets written, 0 on
 * refusal. Cells of items that are not marked, and of extensions that are not there, are ignored; a cell of a marked item that is wider
 * than its place gets 11, after 2, 6 and 5. */
uint32_t wear_write(const uint64_t *record, size_t k, const uint8_t *source, size_t n, uint8_t *out, size_t m, uint64_t *length,
                    size_t one);

/* Rewrites a block in normal form. length[0] becomes the octets written, 0 on refusal. */
uint32_t wear_rewrite(const uint8_t *octets, size_t n, uint8_t *out, size_t m, uint64_t *length, size_t one);

/* A ledger's page, high octet first: the row count n, the offsets of the keys (10), of the readings (10 + 4n) and of the times (10 + 16n),
 * and the length (10 + 20n), two octets each; then the keys, four octets each and rising strictly: SAC, SIC, the octet of 23/015, TYPE; then
 * for each row the life count (8 octets) and the last reading since midnight (4), which never exceeds it; then for each row the time of that
 * reading (4 octets, 1/128 s, at most 11,059,327), all ones where it is not known. There are at most 256 rows. A page that is handed over has
 * exactly its length. */
#define WEAR_PAGE_MOST (10 + 20 * 256)

/* The page of a fresh ledger, as an initialiser, and its octets. */
#define WEAR_FRESH_PAGE {0, 0, 0, 10, 0, 10, 0, 10, 0, 10}
#define WEAR_FRESH_OCTETS 10

/* An old page, as the versions before 3 gave it, has no times and no offset of them: its header is n, 8, 8 + 4n and the length, 8 + 16n. A
 * page that was kept from one of them, a fresh one too, has to be turned with wear_page_to_new first: the other functions refuse it with 16.
 * No octets are a page of both forms: octets 2 and 3 are 0, 8 in an old page and 0, 10 in a new one. */
#define WEAR_OLD_PAGE_MOST (8 + 16 * 256)

/* Turns an old page into a new one, with all times unknown: of a midnight before a counter's next count since midnight only a smaller count
 * tells. length[0] becomes the octets of the page, 0 on refusal: 16 for any fault of the page given, then 12 where the output is shorter than
 * the new page, which WEAR_PAGE_MOST never is. The output may not be the page's own octets. */
uint32_t wear_page_to_new(const uint8_t *page, size_t n, uint8_t *out, size_t m, uint64_t *length, size_t one);

/* Turns a new page into an old one by leaving out the times. length[0] and the refusals are as above. Old to new to old gives the same
 * octets, new to old to new where every time was unknown. */
uint32_t wear_page_to_old(const uint8_t *page, size_t n, uint8_t *out, size_t m, uint64_t *length, size_t one);

/* Posts record `number`, from 0, of a block to the ledger of a page, and stores the ledger as a page. length[0] becomes the octets of the
 * page, 0 on refusal: the page's 16, then the block's and the post's, then 12. Each call reads the whole block and judges the ledger's 256
 * places, so that posting all records of a feed with it is quadratic in a block's records: use wear_feed for that. */
uint32_t wear_post(const uint8_t *page, size_t n, const uint8_t *octets, size_t m, uint64_t number, uint8_t *out, size_t p,
                   uint64_t *length, size_t one);

/* The cells of wear_feed, counted from 0 in each call. */
enum {
    WEAR_FEED_PAGE,         /* octets of the page */
    WEAR_FEED_USED,         /* octets of the blocks that were passed */
    WEAR_FEED_LEFT_OFF,     /* how it left off */
    WEAR_FEED_ACCEPTED,     /* blocks */
    WEAR_FEED_REFUSED,
    WEAR_FEED_POSTED,       /* records of accepted blocks */
    WEAR_FEED_UNPOSTED,     /* those answered 14 or 15; those answered 13 are in neither */
    WEAR_FEED_CELLS         /* how many cells it needs */
};

/* How wear_feed left off. */
enum {
    WEAR_ENDED,             /* the input ends between blocks */
    WEAR_STOPPED,           /* at a block whose LEN is below 4, or that is not whole where the input ends; it is counted as refused */
    WEAR_MORE               /* more octets are needed */
};

/* Posts the records of all blocks at hand to the ledger of a page, as the program `wear` does, and stores the ledger as a page. A refused
 * block is counted and skipped by LEN. `more` is 0 where the input ends with these octets; otherwise more may come. Where it leaves off
 * with WEAR_MORE, the octets that were not used (fewer than 65,535) are handed over again in the next call, with those that followed.
 * A count since midnight at an earlier time than the counter's last one is taken for one after a midnight, however large it is. The page
 * keeps these times, so that a feed in pieces, each posted to the page of the call before, gives what one call over the whole gives: the
 * same page, and blocks and records that add up. Cells: WEAR_FEED_PAGE and those after it, all 0 on refusal: the page's 16, then 12. */
uint32_t wear_feed(const uint8_t *page, size_t n, const uint8_t *octets, size_t m, uint32_t more, uint8_t *out, size_t p, uint64_t *cells,
                   size_t k);

#ifdef __cplusplus
}
#endif

#endif
