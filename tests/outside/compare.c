/* compare SEED COUNT <LINES: holds the library to the lines of vectors.py and to the model, on COUNT inputs made here,
 * and on as many turns of pages from one form into the other.
 *
 * Both sides get equal copies of what is lent, each copy at a page with no access; an empty slice now and then is NULL.
 * Compared are the answer, every lent cell and octet afterwards, and the octets beside a copy. What the library has
 * turned it has to turn back. A feed in pieces, where the library gets its own page back in each call, is held to one
 * run of the model over the whole. */
#define _DEFAULT_SOURCE
#include <inttypes.h>
#include <setjmp.h>
#include <signal.h>
#include <stdbool.h>
#include <stdio.h>
#include <stdlib.h>
#include <string.h>
#include <sys/mman.h>
#include <unistd.h>

#include "model.h"
#include "wear.h"

/* PIECES is FEED once more, call after call. */
enum function { READ, STEP, ENTRY, WRITE, REWRITE, TO_NEW, TO_OLD, POST, FEED, PIECES, FUNCTIONS };
static const char *const function_names[FUNCTIONS] = {"read", "step", "entry", "write", "rewrite", "to_new", "to_old",
                                                      "post", "feed", "pieces"};

enum { ANSWERS = MODEL_ANSWERS, REPORTED = 20 };

/* The numbers that each function can answer, as bits; 12 also where too few cells are lent. Pieces have room enough. */
static const uint32_t can_answer[FUNCTIONS] = {0x01FFF, 0x21FFF, 0x21FFF, 0x01DE5, 0x01FFF,
                                               0x11001, 0x11001, 0x3FFFF, 0x11001, 0x10001};

/* The numbers that the posts of a feed can get: 0, 13, 14, 15. */
static const uint32_t posts_get = 0x0E001;

enum { ENDINGS = 3 };
static const char *const ending_names[ENDINGS] = {
    [WEAR_ENDED] = "ended", [WEAR_STOPPED] = "stopped", [WEAR_MORE] = "more"};
static const char *const time_names[MODEL_TIMES] = {
    [MODEL_UNKNOWN] = "unknown", [MODEL_EARLIER] = "earlier", [MODEL_EQUAL] = "equal", [MODEL_LATER] = "later"};

struct side {
    const char *name;
    uint32_t (*read)(const uint8_t *, size_t, uint64_t *, size_t);
    uint32_t (*step)(const uint8_t *, size_t, uint64_t, uint64_t *, size_t);
    uint32_t (*entry)(const uint8_t *, size_t, uint64_t, uint64_t, uint64_t *, size_t);
    uint32_t (*write)(const uint64_t *, size_t, const uint8_t *, size_t, uint8_t *, size_t, uint64_t *, size_t);
    uint32_t (*rewrite)(const uint8_t *, size_t, uint8_t *, size_t, uint64_t *, size_t);
    uint32_t (*to_new)(const uint8_t *, size_t, uint8_t *, size_t, uint64_t *, size_t);
    uint32_t (*to_old)(const uint8_t *, size_t, uint8_t *, size_t, uint64_t *, size_t);
    uint32_t (*post)(const uint8_t *, size_t, const uint8_t *, size_t, uint64_t, uint8_t *, size_t, uint64_t *, size_t);
    uint32_t (*feed)(const uint8_t *, size_t, const uint8_t *, size_t, uint32_t, uint8_t *, size_t, uint64_t *, size_t);
};

enum { LIBRARY, MODEL, SIDES };
static const struct side sides[SIDES] = {
    {"library", wear_read, wear_step, wear_entry, wear_write, wear_rewrite, wear_page_to_new, wear_page_to_old,
     wear_post, wear_feed},
    {"model", model_read, model_step, model_entry, model_write, model_rewrite, model_page_to_new, model_page_to_old,
     model_post, model_feed},
};

/* ---- what is lent ---- */

/* OCTETS are a block or a feed, or the source of a written record; CELLS take the answer or the length. */
enum slice { OCTETS, PAGE, RECORD, OUT, CELLS, SLICES };
static const char *const slice_names[SLICES] = {"octets", "page", "record", "output", "cells"};

/* The slices that each function takes, as bits. PIECES has none of its own. */
#define SLICE(slice) (1u << (slice))
static const uint32_t takes[FUNCTIONS] = {
    [READ] = SLICE(OCTETS) | SLICE(CELLS),
    [STEP] = SLICE(OCTETS) | SLICE(CELLS),
    [ENTRY] = SLICE(OCTETS) | SLICE(CELLS),
    [WRITE] = SLICE(RECORD) | SLICE(OCTETS) | SLICE(OUT) | SLICE(CELLS),
    [REWRITE] = SLICE(OCTETS) | SLICE(OUT) | SLICE(CELLS),
    [TO_NEW] = SLICE(PAGE) | SLICE(OUT) | SLICE(CELLS),
    [TO_OLD] = SLICE(PAGE) | SLICE(OUT) | SLICE(CELLS),
    [POST] = SLICE(PAGE) | SLICE(OCTETS) | SLICE(OUT) | SLICE(CELLS),
    [FEED] = SLICE(PAGE) | SLICE(OCTETS) | SLICE(OUT) | SLICE(CELLS),
};

/* Whole pages whatever the page size is; MARGIN octets beside a copy have to stay. A feed may have two of the longest
 * blocks. */
enum { GUARD = 65536, ARENA = 3 * GUARD, MARGIN = 64, MOST_OCTETS = 140000, MOST_PAGE = 5200, MOST_CELLS = 48 };

static uint8_t given_octets[MOST_OCTETS], given_page[MOST_PAGE], given_out[MOST_OCTETS];
static uint64_t given_record[MOST_CELLS], given_cells[MOST_CELLS];

/* One case. What `function` does not use has length 0. */
static struct {
    enum function function;
    size_t octets, page, record, room, cells;
    uint64_t start, number;
    uint32_t more;
    bool at_end;                    /* each slice ends at a page with no access; otherwise it begins behind one */
    bool null;                      /* each slice that is empty is NULL */
    uint64_t index;
} given;

static uint8_t *arenas[SIDES][SLICES];
static uint8_t *lent[SIDES][SLICES];
static uint32_t answer[SIDES];
static volatile int calling = -1;

static uint8_t *given_slice(enum slice slice, size_t *size)
{
    switch (slice) {
    case OCTETS:
        *size = given.octets;
        return given_octets;
    case PAGE:
        *size = given.page;
        return given_page;
    case RECORD:
        *size = given.record * sizeof *given_record;
        return (uint8_t *)given_record;
    case OUT:
        *size = given.room;
        return given_out;
    default:
        *size = given.cells * sizeof *given_cells;
        return (uint8_t *)given_cells;
    }
}

static uint8_t *margin_of(int side, enum slice slice, size_t size)
{
    return given.at_end ? lent[side][slice] - MARGIN : lent[side][slice] + size;
}

static const uint8_t margin[MARGIN] = {0xC3, 0x5A, 0x96, [MARGIN - 3] = 0x69, 0xA5, 0x3C};

static void lend(int side)
{
    for (enum slice slice = 0; slice < SLICES; slice++) {
        size_t size;
        const uint8_t *octets = given_slice(slice, &size);
        lent[side][slice] = arenas[side][slice] + (given.at_end ? ARENA - size : 0);
        memcpy(lent[side][slice], octets, size);
        memcpy(margin_of(side, slice, size), margin, MARGIN);
    }
}

static bool is_null(enum slice slice)
{
    size_t size;
    given_slice(slice, &size);
    return given.null && size == 0;
}

static uint8_t *handed(int side, enum slice slice)
{
    return is_null(slice) ? NULL : lent[side][slice];
}

static uint32_t call(int which)
{
    const struct side *side = &sides[which];
    const uint8_t *octets = handed(which, OCTETS), *page = handed(which, PAGE);
    const uint64_t *record = (const uint64_t *)(void *)handed(which, RECORD);
    uint64_t *cells = (uint64_t *)(void *)handed(which, CELLS);
    uint8_t *out = handed(which, OUT);
    switch (given.function) {
    case READ:
        return side->read(octets, given.octets, cells, given.cells);
    case STEP:
        return side->step(octets, given.octets, given.start, cells, given.cells);
    case ENTRY:
        return side->entry(octets, given.octets, given.start, given.number, cells, given.cells);
    case WRITE:
        return side->write(record, given.record, octets, given.octets, out, given.room, cells, given.cells);
    case REWRITE:
        return side->rewrite(octets, given.octets, out, given.room, cells, given.cells);
    case TO_NEW:
        return side->to_new(page, given.page, out, given.room, cells, given.cells);
    case TO_OLD:
        return side->to_old(page, given.page, out, given.room, cells, given.cells);
    case POST:
        return side->post(page, given.page, octets, given.octets, given.number, out, given.room, cells, given.cells);
    default:
        return side->feed(page, given.page, octets, given.octets, given.more, out, given.room, cells, given.cells);
    }
}

/* ---- the comparison ---- */

/* A stored answer: the number, and the cells and octets that are known. Cells and octets behind them have to stay. */
static struct {
    bool known;
    uint32_t number;
    size_t cells, out;
    uint64_t cell[MOST_CELLS];
    uint8_t octets[MOST_OCTETS], any[MOST_OCTETS];  /* where `any` is not 0 the octet is not known */
} stored;

static uint64_t seed, reported, cases[FUNCTIONS], differing[FUNCTIONS], answers[FUNCTIONS][ANSWERS];
static uint64_t endings[FUNCTIONS][ENDINGS], nulls[FUNCTIONS][SLICES];

/* Of every eighth feed what it tries, and how many have a midnight that the time alone tells; of feeds in pieces how
 * many have one that only the times of a page between two calls tell. Of turns, how many pages come back as given, and
 * how many without their times. */
static struct model_tried tried;
static uint64_t told_by_time, told_by_page, whole_back[FUNCTIONS], untimed_back[FUNCTIONS];

static const char *lent_difference(enum slice slice)
{
    size_t size;
    const uint8_t *before = given_slice(slice, &size);
    for (int side = 0; side < SIDES; side++)
        if (memcmp(margin_of(side, slice, size), margin, MARGIN))
            return "octets beside what was lent changed";
    if (slice == OUT || slice == CELLS)
        return memcmp(lent[LIBRARY][slice], lent[MODEL][slice], size) ? "what was lent for writing differs" : NULL;
    for (int side = 0; side < SIDES; side++)
        if (memcmp(lent[side][slice], before, size))
            return "what was lent for reading changed";
    return NULL;
}

static bool is_output_stored(const uint8_t *out)
{
    for (size_t i = 0; i < stored.out; i++)
        if (!stored.any[i] && out[i] != stored.octets[i])
            return false;
    return !memcmp(out + stored.out, given_out + stored.out, given.room - stored.out);
}

/* Both sides agree when this is asked, so that the model's side stands for both. */
static const char *stored_difference(void)
{
    if (!stored.known)
        return NULL;
    if (answer[MODEL] != stored.number)
        return "the answer is not the stored one";
    size_t known = stored.cells * sizeof *stored.cell;
    if (memcmp(lent[MODEL][CELLS], stored.cell, known) ||
        memcmp(lent[MODEL][CELLS] + known, (uint8_t *)given_cells + known, given.cells * sizeof *given_cells - known))
        return "the cells are not the stored ones";
    if (stored.out > given.room || !is_output_stored(lent[MODEL][OUT]))
        return "the output is not the stored one";
    return NULL;
}

/* The offset of the times in a new page. */
static size_t times_at(const uint8_t *page)
{
    return 10 + 16 * (page[0] * 256u + page[1]);
}

/* A new page from which the times are left out, and so unknown. */
static void forget_times(uint8_t *page, size_t n)
{
    memset(page + times_at(page), 0xFF, n - times_at(page));
}

/* 02 §5, both ways: what the library has turned it turns back into the page given, a new one without its times. */
static const char *back_difference(void)
{
    static uint8_t asked[MOST_PAGE], back[MOST_PAGE];
    enum function turn = given.function;
    if ((turn != TO_NEW && turn != TO_OLD) || answer[LIBRARY] != WEAR_ACCEPTED)
        return NULL;
    uint64_t turned, length = 0;
    memcpy(&turned, lent[LIBRARY][CELLS], sizeof turned);
    memset(back, 0, given.page);
    memcpy(asked, given_page, given.page);
    if (turn == TO_OLD)
        forget_times(asked, given.page);
    calling = LIBRARY;
    uint32_t number = (turn == TO_NEW ? sides[LIBRARY].to_old : sides[LIBRARY].to_new)(
        lent[LIBRARY][OUT], (size_t)turned, back, given.page, &length, 1);
    calling = -1;
    if (number != WEAR_ACCEPTED || length != given.page || memcmp(back, asked, given.page))
        return "turned back it is not the page given";
    (memcmp(back, given_page, given.page) ? untimed_back : whole_back)[turn]++;
    return NULL;
}

static const char *difference(void)
{
    if (answer[LIBRARY] != answer[MODEL])
        return "the answers differ";
    for (enum slice slice = 0; slice < SLICES; slice++) {
        const char *what = lent_difference(slice);
        if (what)
            return what;
    }
    const char *what = stored_difference();
    return what ? what : back_difference();
}

static void print_octets(const char *name, const uint8_t *octets, size_t size)
{
    printf("  %s (%zu):", name, size);
    for (size_t i = 0; i < size; i++)
        printf("%s%02X", i % 32 ? "" : " ", octets[i]);
    printf("\n");
}

static void print_cells(const char *name, const uint8_t *octets, size_t size)
{
    printf("  %s (%zu):", name, size / 8);
    for (size_t i = 0; i < size / 8; i++) {
        uint64_t cell;
        memcpy(&cell, octets + 8 * i, 8);
        printf(" %" PRIu64, cell);
    }
    printf("\n");
}

static void print_slice(enum slice slice, const uint8_t *octets, size_t size)
{
    (slice == RECORD || slice == CELLS ? print_cells : print_octets)(slice_names[slice], octets, size);
}

static void print_case(const char *what)
{
    printf("%s: %s, %s %" PRIu64 " of seed %" PRIu64 "; each slice %s a page with no access\n", what,
           function_names[given.function], stored.known ? "line" : "input", given.index, seed,
           given.at_end ? "ends at" : "begins behind");
    printf("  start %" PRIu64 ", number %" PRIu64 ", more %" PRIu32 "%s\n", given.start, given.number, given.more,
           given.null ? "; empty slices are NULL" : "");
    for (enum slice slice = 0; slice < SLICES; slice++) {
        size_t size;
        const uint8_t *octets = given_slice(slice, &size);
        if (size)
            print_slice(slice, octets, size);
    }
}

static void print_answers(void)
{
    for (int side = 0; side < SIDES; side++) {
        printf(" %s: %" PRIu32 "\n", sides[side].name, answer[side]);
        for (enum slice slice = OUT; slice < SLICES; slice++) {
            size_t size;
            given_slice(slice, &size);
            print_slice(slice, lent[side][slice], size);
        }
    }
    if (stored.known) {
        printf(" stored: %" PRIu32 "\n", stored.number);
        print_octets("output", stored.octets, stored.out);
        print_cells("cells", (const uint8_t *)stored.cell, 8 * stored.cells);
    }
}

/* How a feed left off, and of every eighth what it tries. */
static void note_feed(void)
{
    uint64_t cells[WEAR_FEED_CELLS], before = tried.times[MODEL_EARLIER];
    memcpy(cells, lent[MODEL][CELLS], sizeof cells);
    endings[FEED][cells[WEAR_FEED_LEFT_OFF]]++;
    if (cases[FEED] % 8 == 0)
        model_tries(given_page, given.page, given_octets, given.octets, &tried);
    told_by_time += tried.times[MODEL_EARLIER] > before;
}

/* What a case has tried, as the model sees it. */
static void note_case(void)
{
    cases[given.function]++;
    answers[given.function][answer[MODEL]]++;
    for (enum slice slice = 0; slice < SLICES; slice++)
        nulls[given.function][slice] += is_null(slice) && (takes[given.function] & SLICE(slice));
    if (given.function == FEED && answer[MODEL] == WEAR_ACCEPTED)
        note_feed();
}

static void run_case(void)
{
    for (int side = 0; side < SIDES; side++)
        lend(side);
    for (int side = 0; side < SIDES; side++) {
        calling = side;
        answer[side] = call(side);
    }
    calling = -1;
    note_case();
    const char *what = difference();
    if (!what)
        return;
    differing[given.function]++;
    if (reported++ < REPORTED) {
        print_case(what);
        print_answers();
    }
}

/* ---- guards ---- */

static sigjmp_buf trial;

static void on_trial(int signal)
{
    siglongjmp(trial, signal);
}

/* An access outside what is lent, or a stack that is used up, ends the run and tells of the case. */
static void on_fault(int signal)
{
    printf("fault, signal %d, in the %s\n", signal, calling < 0 ? "comparison" : sides[calling].name);
    print_case("fault");
    fflush(stdout);
    _exit(1);
}

static void handle_faults(void (*handler)(int))
{
    static uint8_t stack[65536];
    stack_t other = {.ss_sp = stack, .ss_size = sizeof stack};
    struct sigaction action = {.sa_handler = handler, .sa_flags = SA_ONSTACK | SA_NODEFER};
    sigaltstack(&other, NULL);
    sigaction(SIGSEGV, &action, NULL);
    sigaction(SIGBUS, &action, NULL);
}

static bool is_guarded(const volatile uint8_t *octet)
{
    if (sigsetjmp(trial, 1))
        return true;
    (void)*octet;
    return false;
}

static void make_arenas(void)
{
    handle_faults(on_trial);
    for (int side = 0; side < SIDES; side++)
        for (enum slice slice = 0; slice < SLICES; slice++) {
            uint8_t *all = mmap(NULL, ARENA + 2 * GUARD, PROT_NONE, MAP_PRIVATE | MAP_ANONYMOUS, -1, 0);
            if (all == MAP_FAILED || mprotect(all + GUARD, ARENA, PROT_READ | PROT_WRITE)) {
                perror("compare");
                exit(1);
            }
            arenas[side][slice] = all + GUARD;
            if (!is_guarded(all + GUARD - 1) || !is_guarded(all + GUARD + ARENA)) {
                printf("an access outside what is lent goes unnoticed\n");
                exit(1);
            }
        }
    handle_faults(on_fault);
}

/* ---- the lines of vectors.py ---- */

static char *word(void)
{
    char *next = strtok(NULL, " \n");
    if (!next) {
        printf("line %" PRIu64 ": too few words\n", given.index);
        exit(1);
    }
    return next;
}

static uint64_t number_word(void)
{
    return strtoull(word(), NULL, 10);
}

/* Of an answer's octets some may not be known: `any` tells which. Those of an argument all are, and it is NULL. */
static size_t octets_word(uint8_t *octets, uint8_t *any, size_t most)
{
    const char *hex = word();
    size_t size = strcmp(hex, "-") ? strlen(hex) / 2 : 0;
    if (size > most || (!any && strchr(hex, '?'))) {
        printf("line %" PRIu64 ": too many octets, or one that is not known\n", given.index);
        exit(1);
    }
    for (size_t i = 0; i < size; i++) {
        char pair[3] = {hex[2 * i], hex[2 * i + 1], 0};
        octets[i] = (uint8_t)strtoul(pair, NULL, 16);
        if (any)
            any[i] = pair[0] == '?';
    }
    return size;
}

static void cell_words(uint64_t *cells, size_t count)
{
    for (size_t i = 0; i < count; i++)
        cells[i] = number_word();
}

static void fill_cells(uint64_t *cells, size_t count)
{
    for (size_t i = 0; i < count; i++)
        cells[i] = UINT64_C(0xA5A5A5A500000000) + i;
}

static void begin_case(enum function function, uint64_t index)
{
    memset(&given, 0, sizeof given);
    given.function = function;
    given.index = index;
    given.at_end = index % 2;
    fill_cells(given_cells, MOST_CELLS);
}

static enum function function_word(const char *name)
{
    for (enum function function = 0; function < FUNCTIONS; function++)
        if (name && !strcmp(name, function_names[function]))
            return function;
    printf("no function %s\n", name ? name : "");
    exit(1);
}

static bool has_output(enum function function)
{
    return takes[function] & SLICE(OUT);
}

static size_t cells_needed(enum function function)
{
    switch (function) {
    case READ: return 3;
    case STEP: return 2 + WEAR_CELLS;
    case ENTRY: return 4;
    case FEED: return WEAR_FEED_CELLS;
    default: return 1;
    }
}

static void parse_arguments(void)
{
    if (given.function == WRITE)
        cell_words(given_record, given.record = WEAR_CELLS);
    if (takes[given.function] & SLICE(PAGE))
        given.page = octets_word(given_page, NULL, MOST_PAGE);
    if (takes[given.function] & SLICE(OCTETS))
        given.octets = octets_word(given_octets, NULL, MOST_OCTETS);
    if (given.function == STEP || given.function == ENTRY)
        given.start = number_word();
    if (given.function == ENTRY || given.function == POST)
        given.number = number_word();
    if (given.function == FEED)
        given.more = (uint32_t)number_word();
    if (has_output(given.function))
        given.room = (size_t)number_word();
}

/* Where the only cell is the length of the output, the line does not say it. */
static void parse_answer(void)
{
    stored.known = true;
    stored.number = (uint32_t)number_word();
    stored.out = has_output(given.function) ? octets_word(stored.octets, stored.any, MOST_OCTETS) : 0;
    stored.cells = cells_needed(given.function);
    if (stored.cells == 1)
        stored.cell[0] = stored.out;
    else
        cell_words(stored.cell, stored.cells);
}

/* The arguments, then the stored answer, in the order that vectors.py gives. */
static void parse_line(char *line, uint64_t index)
{
    begin_case(function_word(strtok(line, " \n")), index);
    parse_arguments();
    parse_answer();
    given.cells = stored.cells + 2;
    memset(given_out, 0xEE, given.room);
}

static uint64_t run_lines(void)
{
    static char line[1 << 20];
    uint64_t index = 0;
    while (fgets(line, sizeof line, stdin)) {
        parse_line(line, ++index);
        run_case();
        given.at_end = !given.at_end;
        run_case();
    }
    stored.known = false;
    return index;
}

/* ---- chance ---- */

static uint64_t state;

/* splitmix64 */
static uint64_t chance(void)
{
    uint64_t z = state += UINT64_C(0x9E3779B97F4A7C15);
    z = (z ^ z >> 30) * UINT64_C(0xBF58476D1CE4E5B9);
    z = (z ^ z >> 27) * UINT64_C(0x94D049BB133111EB);
    return z ^ z >> 31;
}

static uint64_t below(uint64_t n)
{
    return chance() % n;
}

static bool one_in(uint64_t n)
{
    return below(n) == 0;
}

static uint64_t one_of(const uint64_t *values, size_t count)
{
    return values[below(count)];
}

#define ONE_OF(...) one_of((const uint64_t[]){__VA_ARGS__}, sizeof(const uint64_t[]){__VA_ARGS__} / sizeof(uint64_t))

static void random_octets(uint8_t *octets, size_t size)
{
    for (size_t i = 0; i < size; i++)
        octets[i] = (uint8_t)chance();
}

/* ---- blocks ---- */

/* One fault of a record, made where its item is written. */
enum fault {
    NO_FAULT, MARK_SPARE, MARK_NONE, LAST_FX, BAD_PRESENCE, BAD_TYPE, BAD_TIME, BAD_REPORT, BAD_PERIOD, ITEM_FX, REP_0,
    SHORT_LENGTH, BAD_VERSION, FAULTS
};

#define FIELD(field) (1u << ((field) - 1))

static uint8_t piece[8192];         /* the record that is being made */
static size_t pieces;
static size_t starts[MOST_OCTETS / 4], records;
static unsigned category;
static enum fault fault;
static bool crowded;                /* each report has many counters, so that a few fill a ledger */
enum { FEW_TIMES = 4 };
static bool busy;                   /* all reports have few counters and few times, so that a row meets many entries */
static uint64_t busy_times[FEW_TIMES];

static void put(uint64_t octet)
{
    piece[pieces++] = (uint8_t)octet;
}

/* Any of a day; or one at an edge, or in a leap second. */
static uint64_t some_time(void)
{
    return one_in(2) ? below(MODEL_LATEST + 1)
                     : ONE_OF(0, 1, 127, 128, 65535, 65536, 11059199, 11059200, 11059200 + below(128), MODEL_LATEST - 1,
                              MODEL_LATEST);
}

static void put_time(void)
{
    uint64_t time = busy ? one_of(busy_times, FEW_TIMES) : some_time();
    if (fault == BAD_TIME)
        time = ONE_OF(MODEL_LATEST + 1, MODEL_LATEST + 2, MODEL_LATEST + 256, 0xA9BFFF, 0xFFFFFF, 0xB00000);
    put(time >> 16);
    put(time >> 8);
    put(time);
}

/* The octet before it has its FX for the extension. */
static void put_period(void)
{
    uint64_t period = one_in(2) ? 1 + below(127) : ONE_OF(1, 2, 64, 126, 127);
    if (fault == BAD_PERIOD)
        period = 0;
    put(period << 1 | (fault == ITEM_FX));
}

/* Spare bits come as they may; FX is 0 or 1. */
static void put_extensible(uint64_t bits)
{
    bool extended = fault == BAD_PERIOD || fault == ITEM_FX || one_in(3);
    put(bits << 1 | extended);
    if (extended)
        put_period();
}

static uint64_t counted(void)
{
    return one_in(2) ? below(200)
                     : ONE_OF(0, 1, 2, 30, 100, 150, 0x7FFFFFFF, 0x80000000, 0xFFFFFFFE, 0xFFFFFFFF, chance() >> 32);
}

/* Mostly a few; sometimes as many as REP can say. */
static uint64_t few_or_many(void)
{
    return one_in(60) ? ONE_OF(255, 254, 128, 1 + below(255)) : 1 + below(4);
}

static void put_statistics(void)
{
    uint64_t count = fault == REP_0 ? 0 : crowded ? 60 + below(196) : few_or_many();
    bool few_types = !crowded && !one_in(4);
    put(count);
    for (uint64_t i = 0; i < count; i++) {
        uint64_t number = counted();
        put(busy ? ONE_OF(3, 4) : few_types ? ONE_OF(0, 1, 3, 4, 20, 255) : chance());
        put(ONE_OF(0, 0, 0x80, 0x80, 0x7F, 0xFF, chance()));
        for (int shift = 24; shift >= 0; shift -= 8)
            put(number >> shift);
    }
}

static void put_versions(void)
{
    uint64_t count = fault == REP_0 ? 0 : few_or_many();
    uint64_t bad = fault == BAD_VERSION ? below(2 * count) : 2 * count;
    put(count);
    for (uint64_t i = 0; i < count; i++) {
        put(chance());
        for (uint64_t part = 0; part < 2; part++)
            put(2 * i + part == bad ? ONE_OF(100, 101, 127, 128, 255) : one_in(4) ? 99 : below(100));
    }
}

static void put_content(void)
{
    uint64_t length = one_in(30) ? ONE_OF(255, 254, 2 + below(254)) : 2 + below(7);
    if (fault == SHORT_LENGTH) {
        put(below(2));
        return;
    }
    put(length);
    for (uint64_t i = 1; i < length; i++)
        put(chance());
}

/* 010 and the octet of 015 have few values, so that reports meet rows of a page. */
static void put_source(void)
{
    put(busy ? 1 : one_in(8) ? chance() : ONE_OF(1, 1, 2, 255));
    put(busy ? 2 : one_in(8) ? chance() : ONE_OF(0, 2));
}

static uint64_t service(void)
{
    return busy ? 0x12 : one_in(8) ? chance() : ONE_OF(0x12, 0x13, 0xFF);
}

static void put_item_23(unsigned field, uint64_t type)
{
    switch (field) {
    case 1: put_source(); break;
    case 2: put(type); break;
    case 3: put(service()); break;
    case 4: put_time(); break;
    case 5: put_extensible(below(128)); break;
    case 6: put(ONE_OF(0, 1, 255, chance())); put_extensible(below(128)); break;
    case 7: put(chance()); break;
    case 8: put(below(128) << 1 | (fault == ITEM_FX)); break;
    case 9: put_statistics(); break;
    default: put_content();
    }
}

static void put_item_65(unsigned field, uint64_t type)
{
    switch (field) {
    case 1: put_source(); break;
    case 2: put(type); break;
    case 3: put(chance()); break;
    case 4: put_time(); break;
    case 5: put(chance()); break;
    case 6: put(chance()); break;
    case 7: put(fault == BAD_REPORT ? ONE_OF(0, 17, 18, 128, 255) : 1 + below(16)); break;
    default: put_content();
    }
}

static void put_item_242(unsigned field)
{
    switch (field) {
    case 1: put_source(); break;
    case 2: put_time(); break;
    case 3: put_versions(); break;
    default: put_content();
    }
}

static unsigned some_of(unsigned marks, uint64_t one)
{
    for (unsigned field = 1; field <= 14; field++)
        if ((marks & FIELD(field)) && !one_in(one))
            marks &= ~FIELD(field);
    return marks;
}

/* Marks that keep the presence rules of a type. */
static unsigned good_marks(uint64_t type, bool statistics)
{
    if (category == 242)
        return FIELD(1) | FIELD(2) | FIELD(3) | some_of(FIELD(6) | FIELD(7), 5);
    unsigned marks = FIELD(2) | FIELD(4) | some_of(FIELD(13) | FIELD(14), 6);
    if (category == 65)
        return marks | FIELD(1) | FIELD(3) | (type == 2 ? FIELD(5) : type == 1 ? FIELD(6) : FIELD(7));
    marks |= some_of(FIELD(1) | FIELD(3) | FIELD(5) | FIELD(6) | FIELD(7) | FIELD(8) | FIELD(9), 2);
    return statistics ? marks | FIELD(1) | FIELD(3) | FIELD(9) : marks;
}

/* The marks that a fault needs: the item that it spoils, or a spare field, or none. */
static unsigned faulty_marks(unsigned marks)
{
    unsigned last = category == 242 ? 7 : 14;
    unsigned spare = category == 23 ? 0x0E00 : category == 65 ? 0x0F80 : 0x0018;
    switch (fault) {
    case MARK_SPARE: {
        unsigned field;
        do
            field = 1 + (unsigned)below(last);
        while (!(spare & FIELD(field)));
        return marks | FIELD(field);
    }
    case MARK_NONE:
        return 0;
    case BAD_PRESENCE:
        if (category == 23)
            return marks & ~(one_in(2) ? FIELD(2) : FIELD(4));
        return marks ^ FIELD(1 + below(category == 65 ? 7 : 3));
    case BAD_PERIOD:
        return category == 23 ? marks | (one_in(2) ? FIELD(5) : FIELD(6)) : marks;
    case ITEM_FX:
        return category == 23 ? marks | FIELD(ONE_OF(5, 6, 8)) : marks;
    case REP_0:
        return category == 23 ? marks | FIELD(9) : marks;
    case SHORT_LENGTH:
        return marks | (category == 242 ? FIELD(6 + below(2)) : FIELD(13 + below(2)));
    default:
        return marks;
    }
}

/* A second octet of zero is in order in categories 23 and 65. */
static void put_specification(unsigned marks)
{
    bool two = marks >> 7 || (category != 242 && (fault == LAST_FX || one_in(12)));
    uint64_t first = 0, second = 0;
    for (unsigned field = 1; field <= 14; field++)
        if (marks & FIELD(field))
            *(field <= 7 ? &first : &second) |= 0x80u >> (field - 1) % 7;
    put(first | (two || (category == 242 && fault == LAST_FX)));
    if (two)
        put(second | (fault == LAST_FX));
}

static void make_record(bool statistics)
{
    uint64_t type = statistics && !one_in(12) ? 3 : 1 + below(3);
    unsigned marks = faulty_marks(good_marks(type, statistics));
    if (fault == BAD_TYPE)
        type = ONE_OF(0, 4, 5, 128, 255);
    pieces = 0;
    put_specification(marks);
    for (unsigned field = 1; field <= 14; field++) {
        if (!(marks & FIELD(field)))
            continue;
        if (category == 23)
            put_item_23(field, type);
        else if (category == 65)
            put_item_65(field, type);
        else
            put_item_242(field);
    }
}

static void set_len(size_t len)
{
    given_octets[0] = (uint8_t)category;
    given_octets[1] = (uint8_t)(len >> 8);
    given_octets[2] = (uint8_t)len;
}

static bool append_record(size_t most)
{
    if (given.octets + pieces > most)
        return false;
    starts[records++] = given.octets;
    memcpy(given_octets + given.octets, piece, pieces);
    given.octets += pieces;
    return true;
}

/* Fills what is left of the longest block: a record of category 23 with content of the right length. */
static void fill_up(size_t most)
{
    size_t left = most - given.octets;
    if (category != 23 || left < 8 || left > 261)
        return;
    pieces = 0;
    put(0x51);
    put(one_in(2) ? 0x04 : 0x02);
    put(1 + below(3));
    put_time();
    put(left - 6);
    while (pieces < left)
        put(chance());
    append_record(most);
}

enum { LONGEST = 65535 };

/* A block of `count` records at most; one of them has the fault `spoilt`. */
static void make_block(size_t count, size_t most, bool statistics, enum fault spoilt)
{
    size_t bad = one_in(2) ? count - 1 : below(count);
    category = statistics && !one_in(16) ? 23 : (unsigned)ONE_OF(23, 65, 242);
    given.octets = 3;
    records = 0;
    do {
        fault = records == bad ? spoilt : NO_FAULT;
        make_record(statistics);
    } while (append_record(most) && records < count);
    fault = NO_FAULT;
    if (records < count)
        fill_up(most);
    set_len(given.octets);
}

static size_t record_count(void)
{
    return one_in(2) ? 1 : one_in(10) ? 1 + below(40) : 1 + below(5);
}

static void add_octets(size_t count)
{
    if (given.octets + count > MOST_OCTETS)
        count = MOST_OCTETS - given.octets;
    random_octets(given_octets + given.octets, count);
    given.octets += count;
}

/* LEN as it stands in the block, as far as it is there. */
static size_t len_of(void)
{
    return given.octets < 3 ? 0 : (size_t)given_octets[1] << 8 | given_octets[2];
}

static void cut_or_insert(void)
{
    size_t at = 3 + below(given.octets - 3);
    if (one_in(2)) {
        memmove(given_octets + at, given_octets + at + 1, given.octets - at - 1);
        given.octets--;
    } else if (given.octets < LONGEST) {
        memmove(given_octets + at + 1, given_octets + at, given.octets - at);
        given_octets[at] = (uint8_t)chance();
        given.octets++;
    }
    set_len(given.octets);
}

/* A fault of the whole block. */
static void spoil_block(void)
{
    size_t len = given.octets;
    switch (below(11)) {
    case 0:
    case 1:
        for (uint64_t i = 1 + below(3); i > 0; i--)
            given_octets[below(len)] = (uint8_t)chance();
        break;
    case 2:
        given_octets[below(len)] ^= (uint8_t)(1u << below(8));
        break;
    case 3:
        given.octets = one_in(2) ? below(len) : len - 1;
        break;
    case 4:
        set_len(len + 1 + below(one_in(2) ? 2 : 300));
        if (one_in(2))
            add_octets(1 + below(300));
        break;
    case 5:
        set_len(one_in(2) ? len - 1 : 3 + below(len - 3));
        break;
    case 6:
        set_len(one_in(2) ? below(5) : below(65536));
        break;
    case 7:
        given_octets[0] = (uint8_t)ONE_OF(0, 22, 24, 64, 66, 23, 65, 242, 241, 243, 0x30, 255, chance());
        break;
    case 8:
        given.octets -= 1 + below(len - 3);
        set_len(given.octets);
        break;
    case 9:
        cut_or_insert();
        break;
    default:
        given_octets[3] |= 1;
    }
}

/* Octets that are no block but by chance. */
static void make_noise(void)
{
    given.octets = one_in(3) ? below(4) : below(60);
    records = 0;
    random_octets(given_octets, given.octets);
    if (given.octets && !one_in(3))
        given_octets[0] = (uint8_t)ONE_OF(23, 65, 242);
    if (given.octets >= 3 && !one_in(3)) {
        given_octets[1] = 0;
        given_octets[2] = (uint8_t)(one_in(3) ? below(70) : given.octets);
    }
}

/* What is read: good blocks, some with octets of the next behind them; spoilt ones; noise; now and then the longest. */
static void make_octets(bool statistics)
{
    if (given.index % 3001 == 0) {
        size_t most = one_in(2) ? LONGEST : 20000 + below(LONGEST - 20000);
        make_block(one_in(4) ? LONGEST : 500 + below(13000), most, statistics, one_in(3) ? below(FAULTS) : NO_FAULT);
        if (one_in(4))
            spoil_block();
    } else if (one_in(20)) {
        make_noise();
    } else {
        uint64_t kind = below(5);
        make_block(record_count(), LONGEST, statistics, kind == 0 ? 1 + below(FAULTS - 1) : NO_FAULT);
        if (kind == 1)
            spoil_block();
    }
    if (one_in(5))
        add_octets(1 + below(40));
}

static const uint64_t edges[] = {
    0, 1, 2, 3, 4, 7, 8, 15, 16, 17, 23, 65, 99, 100, 127, 128, 242, 254, 255, 256, 257, 0x110, 0x8000, 0xFFFF, 0x10000,
    0xFFFFFF, 0x1000000, MODEL_LATEST, MODEL_LATEST + 1, 0xFFFFFFFF, 0x100000000, 0x100000001,
    0x100000000 + MODEL_LATEST, 0x2AAAAAAAAAAAAAAB, 0x5555555555555556, 0x7FFFFFFFFFFFFFFF, 0x8000000000000000,
    0xFFFFFFFFFFFFFFFE, 0xFFFFFFFFFFFFFFFF};

static uint64_t edge(void)
{
    return one_of(edges, sizeof edges / sizeof *edges);
}

static uint64_t start_of_case(void)
{
    switch (below(10)) {
    case 0: return below(4);
    case 1: return below(given.octets + 5);
    case 2: return ONE_OF(len_of(), len_of() - 1, len_of() + 1, given.octets, given.octets - 1);
    case 3: return one_in(4) ? edge() : 3;
    default: return records ? starts[one_in(3) ? records - 1 : below(records)] : 3;
    }
}

/* Mostly as many as are needed, or a few more; sometimes too few. */
static size_t lent_cells(size_t needed)
{
    return one_in(40) ? below(needed) : needed + (one_in(3) ? below(5) : 0);
}

/* ---- cases of each function ---- */

static uint8_t scratch[MOST_OCTETS];
static uint64_t cells_of_step[2 + WEAR_CELLS];

static void make_read(void)
{
    make_octets(false);
    given.cells = lent_cells(cells_needed(READ));
}

static void make_step(void)
{
    make_octets(false);
    given.start = start_of_case();
    given.cells = lent_cells(cells_needed(STEP));
}

static void make_entry(void)
{
    make_octets(!one_in(4));
    given.start = start_of_case();
    model_step(given_octets, given.octets, given.start, cells_of_step, 2 + WEAR_CELLS);
    uint64_t entries = cells_of_step[2 + WEAR_ENTRIES];
    given.number = one_in(6) ? ONE_OF(entries, entries + 1, entries - 1, edge()) : below(entries + 1);
    given.cells = lent_cells(cells_needed(ENTRY));
}

/* A room about what is needed; where nothing would be written, any. */
static void lend_room(uint64_t needed)
{
    uint64_t room = needed;
    switch (below(8)) {
    case 0: room = needed ? needed - 1 : 0; break;
    case 1: room = one_in(4) ? 0 : below(needed + 1); break;
    case 2: room = needed + below(20); break;
    case 3: room = needed + below(one_in(8) ? 500 : 100); break;
    default: break;
    }
    given.room = (size_t)(room > MOST_OCTETS ? MOST_OCTETS : room);
    memset(given_out, (int)below(256), given.room);
    given.cells = one_in(40) ? 0 : 1 + (one_in(4) ? below(3) : 0);
}

static void make_rewrite(void)
{
    uint64_t length;
    make_octets(false);
    uint32_t number = model_rewrite(given_octets, given.octets, scratch, sizeof scratch, &length, 1);
    lend_room(number ? below(60) : length);
}

/* A source that is no block: long enough for the largest counts, often with all versions in range. */
static void make_source(void)
{
    bool small = one_in(2);
    given.octets = one_in(2) ? below(100) : below(2000);
    for (size_t i = 0; i < given.octets; i++)
        given_octets[i] = (uint8_t)(small ? below(100) : chance());
}

static void make_place(uint64_t *at, uint64_t *count, uint64_t size)
{
    *count = one_in(2) ? 1 + below(5) : ONE_OF(0, 1, 254, 255, 256, edge());
    uint64_t octets = *count * size, n = given.octets;
    *at = one_in(2) && octets <= n ? below(n - octets + 1)
                                   : ONE_OF(0, n - octets, n - octets + 1, n, n - 1, n + 1, 0 - octets, edge());
}

static void spoil_marks(void)
{
    uint64_t *marks = &given_record[WEAR_MARKS];
    switch (below(6)) {
    case 0: *marks = 0; break;
    case 1: *marks |= UINT64_C(1) << below(64); break;
    case 2: *marks |= UINT64_C(1) << ONE_OF(14, 15, 31, 32, 33, 46, 62, 63); break;
    case 3: *marks = chance() & 0x3FFF; break;
    default: *marks ^= UINT64_C(1) << below(14);
    }
}

/* A value of about the width of its bits, or of its place in a record, or any. */
static void spoil_value(void)
{
    size_t cell = WEAR_SAC + below(WEAR_CELLS - WEAR_SAC);
    if (one_in(2))
        cell = (size_t)ONE_OF(WEAR_TYPE, WEAR_SID, WEAR_STYP, WEAR_TIME, WEAR_NOGO, WEAR_PSS, WEAR_STTN, WEAR_OVL,
                              WEAR_REPORT, WEAR_GS_RN, WEAR_GS_EXTENDED, WEAR_GSSP, WEAR_SC, WEAR_SC_EXTENDED, WEAR_SSRP, WEAR_STAT);
    given_record[cell] = one_in(3) ? given_record[cell] + (UINT64_C(1) << ONE_OF(1, 2, 3, 4, 7, 8, 16, 24, 32, 63))
                         : one_in(3) ? below(256) : edge();
}

static void spoil_record(void)
{
    uint64_t n = given.octets, octets = given_record[WEAR_CATEGORY] == 23 ? 6 : 3;
    switch (below(10)) {
    case 0:
        given_record[WEAR_CATEGORY] = ONE_OF(0, 22, 24, 64, 66, 241, 243, 255, 256, 256 + 23, 256 + 65, 256 + 242,
                                             UINT64_C(1) << 63 | 23, UINT64_C(1) << 32 | 65, UINT64_MAX, 23, 65, 242);
        break;
    case 1:
    case 2:
        spoil_marks();
        break;
    case 3:
        make_place(&given_record[WEAR_ENTRIES_AT], &given_record[WEAR_ENTRIES], octets);
        break;
    case 4:
        make_place(&given_record[WEAR_RE_AT], &given_record[WEAR_RE_OCTETS], 1);
        break;
    case 5:
        make_place(&given_record[WEAR_SP_AT], &given_record[WEAR_SP_OCTETS], 1);
        break;
    case 6:
        given.octets = n ? below(n) : 0;
        break;
    default:
        spoil_value();
    }
}

/* A record as a step gives it, or one with places in a source of its own; then perhaps spoilt. */
static void make_write(void)
{
    make_block(1 + below(3), LONGEST, one_in(3), NO_FAULT);
    model_step(given_octets, given.octets, starts[below(records)], cells_of_step, 2 + WEAR_CELLS);
    fill_cells(given_record, MOST_CELLS);
    memcpy(given_record, cells_of_step + 2, WEAR_CELLS * sizeof *given_record);
    if (one_in(4)) {
        make_source();
        make_place(&given_record[WEAR_ENTRIES_AT], &given_record[WEAR_ENTRIES], category == 23 ? 6 : 3);
        make_place(&given_record[WEAR_RE_AT], &given_record[WEAR_RE_OCTETS], 1);
        make_place(&given_record[WEAR_SP_AT], &given_record[WEAR_SP_OCTETS], 1);
    }
    for (uint64_t i = below(4); i > 0; i--)
        spoil_record();
    uint64_t length;
    uint32_t number = model_write(given_record, WEAR_CELLS, given_octets, given.octets, scratch, sizeof scratch,
                                  &length, 1);
    lend_room(number ? below(60) : length);
    given.record = lent_cells(WEAR_CELLS);
}

/* ---- pages ---- */

enum { MOST_ROWS = 256 };

static uint32_t keys[MOST_ROWS];
static uint32_t reported_keys[255];     /* of the report that is to be posted */
static size_t reported_count;

static void note_reported_keys(void)
{
    const uint64_t *cells = cells_of_step + 2;
    reported_count = 0;
    if (given.number >= records)
        return;
    model_step(given_octets, given.octets, starts[given.number], cells_of_step, 2 + WEAR_CELLS);
    if (cells[WEAR_CATEGORY] != 23)
        return;
    uint64_t key = cells[WEAR_SAC] << 24 | cells[WEAR_SIC] << 16 | cells[WEAR_SID] << 12 | cells[WEAR_STYP] << 8;
    for (size_t i = 0; i < cells[WEAR_ENTRIES]; i++)
        reported_keys[reported_count++] = (uint32_t)(key | given_octets[cells[WEAR_ENTRIES_AT] + 6 * i]);
}

static uint64_t key_of_page(bool many)
{
    if (reported_count && one_in(many ? 300 : 2))
        return reported_keys[below(reported_count)];
    if (one_in(16))
        return chance() >> 32;
    uint64_t type = many ? below(256) : ONE_OF(0, 1, 3, 4, 20, 255);
    uint64_t sic = many ? below(4) : ONE_OF(0, 2);
    return ONE_OF(1, 1, 2, 255) << 24 | sic << 16 | ONE_OF(0x12, 0x13, 0xFF) << 8 | type;
}

static int compare_keys(const void *a, const void *b)
{
    uint32_t x = *(const uint32_t *)a, y = *(const uint32_t *)b;
    return (x > y) - (x < y);
}

static size_t distinct_keys(size_t wanted)
{
    size_t rows = 0;
    for (size_t i = 0; i < wanted; i++)
        keys[i] = (uint32_t)key_of_page(wanted > 20);
    qsort(keys, wanted, sizeof *keys, compare_keys);
    for (size_t i = 0; i < wanted; i++)
        if (rows == 0 || keys[rows - 1] != keys[i])
            keys[rows++] = keys[i];
    return rows;
}

static size_t page_rows(void)
{
    if (!one_in(6))
        return distinct_keys(below(9));
    if (one_in(3))
        return distinct_keys(below(257));
    /* full, or nearly: distinct keys come short of what was wanted, so that some more are put behind them */
    size_t rows = distinct_keys(MOST_ROWS), wanted = MOST_ROWS - (one_in(2) ? 0 : below(6));
    while (rows < wanted && keys[rows - 1] < UINT32_MAX) {
        keys[rows] = keys[rows - 1] + 1;
        rows++;
    }
    return rows < wanted ? rows : wanted;
}

/* An old page, or a new one, which has one offset more, and a time for each row. */
enum form { OLD, NEW };

static size_t header_octets(enum form form)
{
    return form == OLD ? 8 : 10;
}

static size_t row_octets(enum form form)
{
    return form == OLD ? 16 : 20;
}

static void put_page_number(size_t at, unsigned count, uint64_t number)
{
    for (unsigned i = count; i > 0; i--, number >>= 8)
        given_page[at + i - 1] = (uint8_t)number;
}

/* Where a new page has the offset of the times, an old one has its length: it ends there. */
static void put_page_header(enum form form, size_t rows)
{
    size_t keys_at = header_octets(form);
    given.page = keys_at + row_octets(form) * rows;
    put_page_number(0, 2, rows);
    put_page_number(2, 2, keys_at);
    put_page_number(4, 2, keys_at + 4 * rows);
    put_page_number(6, 2, keys_at + 16 * rows);
    put_page_number(keys_at - 2, 2, given.page);
}

/* A page with so many of the keys. */
static void make_page(enum form form, size_t rows)
{
    size_t keys_at = header_octets(form);
    bool near = one_in(3), untimed = one_in(4);
    put_page_header(form, rows);
    for (size_t i = 0; i < rows; i++) {
        size_t at = keys_at + 4 * rows + 12 * i;
        uint64_t reading = counted();
        uint64_t life = near && one_in(2) ? UINT64_MAX - (one_in(2) ? below(200) : counted())
                        : reading + (one_in(2) ? 0 : one_in(2) ? below(1000) : chance() >> 2);
        put_page_number(keys_at + 4 * i, 4, keys[i]);
        put_page_number(at, 8, life);
        put_page_number(at + 8, 4, reading);
        if (form == NEW)
            put_page_number(keys_at + 16 * rows + 4 * i, 4, untimed || one_in(4) ? UINT32_MAX : some_time());
    }
}

static void spoil_keys(enum form form, size_t rows)
{
    size_t i = one_in(2) ? rows - 1 : 1 + below(rows - 1), j = i - 1, keys_at = header_octets(form);
    if (one_in(2)) {
        memcpy(given_page + keys_at + 4 * i, given_page + keys_at + 4 * j, 4);
        return;
    }
    uint32_t higher = keys[i], lower = keys[j];
    put_page_number(keys_at + 4 * j, 4, higher);
    put_page_number(keys_at + 4 * i, 4, lower);
}

/* A fault of one row: a reading one above its life count, or a time past the latest. */
static void spoil_row(enum form form, size_t rows)
{
    size_t i = one_in(2) ? rows - 1 : below(rows), keys_at = header_octets(form), at = keys_at + 4 * rows + 12 * i;
    if (form == NEW && one_in(2)) {
        put_page_number(keys_at + 16 * rows + 4 * i, 4,
                        ONE_OF(MODEL_LATEST + 1, MODEL_LATEST + 2, 0xFFFFFF, 0x1000000, 0x80000000, UINT32_MAX - 1));
        return;
    }
    uint64_t life = counted() >> 1;
    put_page_number(at, 8, life);
    put_page_number(at + 8, 4, life + 1);
}

/* Octets too many, or missing. */
static void stretch_page(void)
{
    if (one_in(2)) {
        random_octets(given_page + given.page, 40);
        given.page += one_in(2) ? 1 : below(40);
    } else {
        given.page = one_in(2) ? given.page - 1 : below(given.page);
    }
}

/* A page that says 257 rows, and has them. */
static void make_long_page(enum form form)
{
    memset(given_page, 0, MOST_PAGE);
    put_page_header(form, MOST_ROWS + 1);
    for (size_t i = 0; i <= MOST_ROWS; i++)
        put_page_number(header_octets(form) + 4 * i, 4, i);
}

static void spoil_page(enum form form, size_t rows)
{
    size_t word = 2 * below(header_octets(form) / 2);
    switch (below(10)) {
    case 0:
        put_page_number(0, 2, ONE_OF(rows + 1, rows - 1, 0, 256, 257, 4095, 4096, 65535));
        break;
    case 1:
        put_page_number(word, 2, given_page[word] * 256u + given_page[word + 1] + ONE_OF(1, 0xFFFF, 256, 4, 16, 20));
        break;
    case 2:
        stretch_page();
        break;
    case 3:                             /* the length says what was taken away or added */
        stretch_page();
        put_page_number(header_octets(form) - 2, 2, given.page);
        break;
    case 4:
        if (rows > 1)
            spoil_keys(form, rows);
        break;
    case 5:
    case 6:
        if (rows > 0)
            spoil_row(form, rows);
        break;
    case 7:
        make_long_page(form);
        break;
    case 8:
        make_page(form == OLD ? NEW : OLD, rows);
        break;
    default:
        given_page[below(given.page)] = (uint8_t)chance();
    }
}

/* Keys that rise by one or by more; some begin with the least, or end with the greatest. */
static void make_keys(size_t rows)
{
    uint64_t most = UINT32_MAX / (MOST_ROWS + 1), key = below(most);
    for (size_t i = 0; i < rows; i++, key += 1 + (one_in(2) ? 0 : below(most)))
        keys[i] = (uint32_t)key;
    if (rows > 0 && one_in(4))
        keys[0] = 0;
    if (rows > 0 && one_in(4))
        keys[rows - 1] = UINT32_MAX;
}

/* Mostly few rows: a turn costs by the row. */
static void make_turn(enum form form)
{
    size_t rows = (size_t)(one_in(24) ? ONE_OF(255, 256, below(257)) : ONE_OF(0, 1, 2, 3 + below(8)));
    make_keys(rows);
    make_page(form, rows);
    if (one_in(3))
        spoil_page(form, rows);
    uint64_t length;
    uint32_t number = (form == OLD ? model_page_to_new : model_page_to_old)(given_page, given.page, scratch,
                                                                            sizeof scratch, &length, 1);
    lend_room(number ? below(60) : length);
}

/* What is posted to: a page with rows that reports meet; one of `spoilt` is spoilt. */
static void make_ledger_page(uint64_t spoilt)
{
    size_t rows = page_rows();
    make_page(NEW, rows);
    if (one_in(spoilt))
        spoil_page(NEW, rows);
}

static void make_post(void)
{
    make_octets(!one_in(8));
    given.number = records == 0 || one_in(12) ? ONE_OF(0, 1, records, records + 1, edge()) : below(records);
    note_reported_keys();
    make_ledger_page(6);
    uint64_t length;
    uint32_t number = model_post(given_page, given.page, given_octets, given.octets, given.number, scratch,
                                 sizeof scratch, &length, 1);
    lend_room(number ? below(60) : length);
}

/* ---- feeds ---- */

static uint8_t gathered[MOST_OCTETS];
static size_t gathered_octets;

/* Puts what was made behind what was gathered, as far as there is room. */
static void gather(void)
{
    size_t left = MOST_OCTETS - gathered_octets, size = given.octets < left ? given.octets : left;
    memcpy(gathered + gathered_octets, given_octets, size);
    gathered_octets += size;
}

/* Mostly good; or refused and skipped; or spoilt in any way, so that LEN may lead astray; or with a LEN below 4. */
static void make_feed_block(size_t count)
{
    uint64_t kind = below(24);
    make_block(count, LONGEST, busy || !one_in(4), kind < 3 ? 1 + below(FAULTS - 1) : NO_FAULT);
    if (kind == 3)
        given_octets[0] = (uint8_t)ONE_OF(0, 22, 24, 48, 64, 66, 241, 243, 255);
    else if (kind == 4)
        spoil_block();
    else if (kind == 5 && one_in(4))
        set_len(below(4));
}

/* What the input ends with: mostly a whole block; or one that is cut short; or octets that are no block. */
static void end_feed(void)
{
    switch (below(8)) {
    case 0:
        gathered_octets = below(gathered_octets + 1);
        break;
    case 1:
        gathered_octets -= gathered_octets > 20 ? 1 + below(20) : 0;
        break;
    case 2:
        make_noise();
        gather();
        break;
    default:
        break;
    }
}

static uint64_t feed_blocks(void)
{
    return one_in(20) ? 0 : busy ? 2 + below(8) : one_in(12) ? 1 + below(20) : 1 + below(4);
}

/* Some blocks, or none; now and then some of the longest. The keys of one report are noted for the page. */
static void make_feed_octets(void)
{
    bool longest = given.index % 1009 == 0;
    crowded = one_in(50);
    busy = !crowded && one_in(2);
    for (size_t i = 0; i < FEW_TIMES; i++)
        busy_times[i] = some_time();
    gathered_octets = 0;
    reported_count = 0;
    for (uint64_t blocks = longest ? 2 + below(2) : feed_blocks(); blocks > 0; blocks--) {
        make_feed_block(longest && !one_in(4) ? 500 + below(13000) : record_count());
        given.number = below(records);
        if (one_in(2) || reported_count == 0)
            note_reported_keys();
        gather();
    }
    crowded = busy = false;
    end_feed();
    memcpy(given_octets, gathered, gathered_octets);
    given.octets = gathered_octets;
    given.number = 0;
}

static void make_pieces(void)
{
    make_feed_octets();
    make_ledger_page(8);
    given.more = (uint32_t)(one_in(2) ? 0 : ONE_OF(1, 2, UINT32_MAX));
}

static void make_feed(void)
{
    uint64_t cells[WEAR_FEED_CELLS];
    make_pieces();
    uint32_t number = model_feed(given_page, given.page, given_octets, given.octets, given.more, scratch,
                                 sizeof scratch, cells, WEAR_FEED_CELLS);
    lend_room(number ? below(60) : cells[WEAR_FEED_PAGE]);
    given.cells = lent_cells(cells_needed(FEED));
}

/* ---- feeds in pieces ---- */

enum { MOST_CUTS = 3 };

/* What one call for a feed gave, or more than one. */
struct fed {
    uint32_t answer;
    uint8_t page[WEAR_PAGE_MOST];
    uint64_t cells[WEAR_FEED_CELLS];
};

static struct fed whole;                /* the model's, in one call */
static struct fed in_pieces;            /* the library's */
static struct fed forgetting;           /* the model's in pieces, where each page between two calls forgets its times */
static size_t ends[MOST_CUTS + 1];      /* of the pieces */

static size_t cut_feed(void)
{
    size_t cuts = 1 + below(MOST_CUTS), at = 0;
    for (size_t i = 0; i < cuts; i++)
        ends[i] = at += below(given.octets - at + 1);
    ends[cuts] = given.octets;
    return cuts + 1;
}

/* The octets from `at` to `end` stand at a page with no access. */
static void feed_piece(int side, const uint8_t *page, size_t n, size_t at, size_t end, uint32_t more, struct fed *fed)
{
    size_t size = end - at;
    uint8_t *octets = arenas[side][OCTETS] + (given.at_end ? ARENA - size : 0);
    memcpy(octets, given_octets + at, size);
    calling = side;
    fed->answer = sides[side].feed(page, n, size || !given.null ? octets : NULL, size, more, fed->page,
                                   sizeof fed->page, fed->cells, WEAR_FEED_CELLS);
    calling = -1;
}

/* The page and how it left off are the last call's. */
static void add_cells(uint64_t *sums, const uint64_t *cells)
{
    for (size_t i = 0; i < WEAR_FEED_CELLS; i++)
        sums[i] += cells[i];
    sums[WEAR_FEED_PAGE] = cells[WEAR_FEED_PAGE];
    sums[WEAR_FEED_LEFT_OFF] = cells[WEAR_FEED_LEFT_OFF];
}

/* Whether the next piece is to be handed over; not where the cells cannot be true. */
static bool goes_on(const struct fed *fed, size_t octets)
{
    return fed->answer == WEAR_ACCEPTED && fed->cells[WEAR_FEED_LEFT_OFF] == WEAR_MORE &&
           fed->cells[WEAR_FEED_USED] <= octets && fed->cells[WEAR_FEED_PAGE] <= WEAR_PAGE_MOST;
}

/* Octets that a call has not used are handed over again, with the next piece. */
static void feed_in_pieces(int side, size_t count, bool forgets, struct fed *fed)
{
    static uint8_t before[WEAR_PAGE_MOST];
    const uint8_t *page = given_page;
    size_t n = given.page, at = 0;
    uint64_t sums[WEAR_FEED_CELLS] = {0};
    memset(fed, 0, sizeof *fed);
    for (size_t i = 0; i < count; i++) {
        feed_piece(side, page, n, at, ends[i], i + 1 < count ? 1 : given.more, fed);
        add_cells(sums, fed->cells);
        if (!goes_on(fed, ends[i] - at))
            break;
        at = sums[WEAR_FEED_USED];
        n = sums[WEAR_FEED_PAGE];
        page = memcpy(before, fed->page, n);
        if (forgets)
            forget_times(before, n);
    }
    memcpy(fed->cells, sums, sizeof sums);
}

static void print_fed(const char *name, const struct fed *fed)
{
    printf(" %s: %" PRIu32 "\n", name, fed->answer);
    print_cells("cells", (const uint8_t *)fed->cells, sizeof fed->cells);
    print_octets("page", fed->page, sizeof fed->page);
}

static void print_pieces(size_t count)
{
    print_case("a feed in pieces gives otherwise than the model over the whole");
    printf("  pieces end at:");
    for (size_t i = 0; i < count; i++)
        printf(" %zu", ends[i]);
    printf("\n");
    print_fed("model", &whole);
    print_fed("library", &in_pieces);
}

static void feed_whole(void)
{
    memset(&whole, 0, sizeof whole);
    whole.answer = model_feed(given_page, given.page, given_octets, given.octets, given.more, whole.page,
                              sizeof whole.page, whole.cells, WEAR_FEED_CELLS);
}

static bool is_same(const struct fed *a, const struct fed *b)
{
    return a->answer == b->answer && !memcmp(a->cells, b->cells, sizeof a->cells) &&
           !memcmp(a->page, b->page, a->cells[WEAR_FEED_PAGE]);
}

/* Whether a midnight is told by nothing but a time that a page between two calls keeps: without it a life count is
 * another one. */
static bool is_told_by_page(size_t count)
{
    feed_in_pieces(MODEL, count, true, &forgetting);
    return whole.answer == WEAR_ACCEPTED && memcmp(whole.page, forgetting.page, times_at(whole.page));
}

static void run_pieces(void)
{
    size_t count = cut_feed();
    feed_whole();
    feed_in_pieces(LIBRARY, count, false, &in_pieces);
    cases[PIECES]++;
    answers[PIECES][whole.answer]++;
    if (whole.answer == WEAR_ACCEPTED)
        endings[PIECES][whole.cells[WEAR_FEED_LEFT_OFF]]++;
    told_by_page += is_told_by_page(count);
    if (is_same(&whole, &in_pieces))
        return;
    differing[PIECES]++;
    if (reported++ < REPORTED)
        print_pieces(count);
}

/* ---- the run ---- */

/* Leaves one slice empty. */
static void empty_slice(void)
{
    switch (below(SLICES)) {
    case OCTETS: given.octets = 0; break;
    case PAGE: given.page = 0; break;
    case RECORD: given.record = 0; break;
    case OUT: given.room = 0; break;
    default: given.cells = 0;
    }
}

static void make_case(enum function function, uint64_t index)
{
    begin_case(function, index);
    given.null = one_in(8);
    switch (function) {
    case READ: make_read(); break;
    case STEP: make_step(); break;
    case ENTRY: make_entry(); break;
    case WRITE: make_write(); break;
    case REWRITE: make_rewrite(); break;
    case TO_NEW: make_turn(OLD); break;
    case TO_OLD: make_turn(NEW); break;
    case POST: make_post(); break;
    case FEED: make_feed(); break;
    default: make_pieces();
    }
    if (given.null && one_in(4))
        empty_slice();
}

/* An input, and a turn of a page. */
static void run_made(uint64_t index)
{
    static const enum function shares[] = {
        READ, READ, READ, STEP, STEP, STEP, ENTRY, ENTRY, ENTRY, WRITE, WRITE, WRITE, WRITE, REWRITE, REWRITE, REWRITE,
        POST, POST, POST, POST, FEED, FEED, PIECES};
    state = seed * UINT64_C(0xD1342543DE82EF95) + index;
    state = chance();
    make_case(shares[below(sizeof shares / sizeof *shares)], index);
    if (given.function == PIECES)
        run_pieces();
    else
        run_case();
    make_case(one_in(2) ? TO_NEW : TO_OLD, index);
    run_case();
}

/* How often something was met; false where it has to be and never was. */
static bool told_count(const char *name, uint64_t count, bool has_to_be)
{
    if (count)
        printf(" %s:%" PRIu64, name, count);
    else if (has_to_be)
        printf(" NEVER %s", name);
    return count || !has_to_be;
}

static bool told_numbers(const uint64_t *counts, uint32_t have_to_be)
{
    bool good = true;
    for (unsigned number = 0; number < ANSWERS; number++) {
        char name[12];
        snprintf(name, sizeof name, "%u", number);
        good = told_count(name, counts[number], have_to_be >> number & 1) && good;
    }
    return good;
}

/* What feeds try: what their posts get, and how times stand where they decide. */
static bool told_tries(bool all)
{
    bool good = true;
    printf("; posts");
    good = told_numbers(tried.posts, all ? posts_get : 0) && good;
    printf("; times");
    for (enum model_time time = 0; time < MODEL_TIMES; time++)
        good = told_count(time_names[time], tried.times[time], all) && good;
    return told_count("feeds with an earlier one", told_by_time, all) && good;
}

/* How a feed left off, and what else is noted. */
static bool told_feed(enum function function, bool all)
{
    bool good = true;
    printf("; left off");
    for (size_t ending = 0; ending < ENDINGS; ending++)
        good = told_count(ending_names[ending], endings[function][ending], all) && good;
    if (function == FEED)
        return told_tries(all) && good;
    printf(";");
    return told_count("a midnight told by a page between calls", told_by_page, all) && good;
}

/* How pages came back from a turn; an old one has no times to lose. */
static bool told_turn(enum function function, bool all)
{
    printf("; back");
    bool good = told_count("as given", whole_back[function], all);
    return told_count("without times", untimed_back[function], all && function == TO_OLD) && good;
}

static bool told_nulls(enum function function)
{
    bool good = true;
    printf("; NULL for");
    for (enum slice slice = 0; slice < SLICES; slice++)
        good = told_count(slice_names[slice], nulls[function][slice], takes[function] & SLICE(slice)) && good;
    return good;
}

/* A line for each function, and for all of them whether anything differs, or was never met where all has to be. */
static bool told(const char *title, bool all)
{
    bool good = true;
    for (enum function function = 0; function < FUNCTIONS; function++) {
        if (!all && cases[function] == 0)
            continue;
        printf("%s %-7s %7" PRIu64 " cases, %" PRIu64 " differences;", title, function_names[function], cases[function],
               differing[function]);
        good = told_numbers(answers[function], all ? can_answer[function] : 0) && good;
        if (function == FEED || function == PIECES)
            good = told_feed(function, all) && good;
        if (function == TO_NEW || function == TO_OLD)
            good = told_turn(function, all) && good;
        if (all && takes[function])
            good = told_nulls(function) && good;
        printf("\n");
        good = good && differing[function] == 0;
    }
    memset(cases, 0, sizeof cases);
    memset(differing, 0, sizeof differing);
    memset(answers, 0, sizeof answers);
    memset(endings, 0, sizeof endings);
    memset(nulls, 0, sizeof nulls);
    memset(whole_back, 0, sizeof whole_back);
    memset(untimed_back, 0, sizeof untimed_back);
    memset(&tried, 0, sizeof tried);
    told_by_time = told_by_page = 0;
    return good;
}

static bool is_version_right(void)
{
    uint32_t version = wear_version();
    printf("version %" PRIu32 " of the library, %d of wear.h\n", version, WEAR_VERSION);
    return version == WEAR_VERSION;
}

int main(int argc, char **argv)
{
    if (argc != 3) {
        fprintf(stderr, "compare SEED COUNT <LINES\n");
        return 2;
    }
    seed = strtoull(argv[1], NULL, 10);
    uint64_t count = strtoull(argv[2], NULL, 10);
    setvbuf(stdout, NULL, _IOLBF, 0);
    make_arenas();
    bool good = is_version_right();
    uint64_t lines = run_lines();
    printf("%" PRIu64 " lines, each at both ends; function, answers and how often\n", lines);
    good = told("stored", false) && good;
    if (lines == 0) {
        printf("no lines\n");
        good = false;
    }
    printf("%" PRIu64 " inputs of seed %" PRIu64 ", and as many turns of pages\n", count, seed);
    for (uint64_t index = 0; index < count; index++)
        run_made(index);
    if (!told("made", true))
        good = false;
    return good ? 0 : 1;
}
