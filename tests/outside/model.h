/* The functions of wear.h once more, written from the documents alone, so that the library can be held to them. */
#ifndef MODEL_H
#define MODEL_H

#include "wear.h"

/* 02 §1: the latest time, in 1/128 s. */
enum { MODEL_LATEST = 11059327 };

uint32_t model_read(const uint8_t *octets, size_t n, uint64_t *cells, size_t k);
uint32_t model_step(const uint8_t *octets, size_t n, uint64_t start, uint64_t *cells, size_t k);
uint32_t model_entry(const uint8_t *octets, size_t n, uint64_t start, uint64_t number, uint64_t *cells, size_t k);
uint32_t model_write(const uint64_t *record, size_t k, const uint8_t *source, size_t n, uint8_t *out, size_t m,
                     uint64_t *length, size_t one);
uint32_t model_rewrite(const uint8_t *octets, size_t n, uint8_t *out, size_t m, uint64_t *length, size_t one);
uint32_t model_page_to_new(const uint8_t *page, size_t n, uint8_t *out, size_t m, uint64_t *length, size_t one);
uint32_t model_page_to_old(const uint8_t *page, size_t n, uint8_t *out, size_t m, uint64_t *length, size_t one);
uint32_t model_post(const uint8_t *page, size_t n, const uint8_t *octets, size_t m, uint64_t number, uint8_t *out,
                    size_t p, uint64_t *length, size_t one);
uint32_t model_feed(const uint8_t *page, size_t n, const uint8_t *octets, size_t m, uint32_t more, uint8_t *out,
                    size_t p, uint64_t *cells, size_t k);

/* What a feed tries, so that a test can tell: how often its posts get each number; and how the record's time stands to
 * the row's in entries from midnight at or above a reading that is not 0, where it decides what is added (02 §4). */
enum { MODEL_ANSWERS = 18 };
enum model_time { MODEL_UNKNOWN, MODEL_EARLIER, MODEL_EQUAL, MODEL_LATER, MODEL_TIMES };
struct model_tried {
    uint64_t posts[MODEL_ANSWERS];
    uint64_t times[MODEL_TIMES];
};

/* Adds to `tried` what a feed tries. */
void model_tries(const uint8_t *page, size_t n, const uint8_t *octets, size_t m, struct model_tried *tried);

#endif
