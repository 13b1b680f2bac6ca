/* Counts the allocations of calls. A session has its memory for searches from the start, so that no find, count or cost allocates
 * any; only a reply that is longer than each before it does. It is linked with malloc, calloc and realloc of its own, which count
 * and call those of glibc. */
#include "expect.h"

extern void *__libc_malloc(size_t len);
extern void *__libc_calloc(size_t n, size_t len);
extern void *__libc_realloc(void *at, size_t len);

static size_t allocations;

void *malloc(size_t len)
{
    allocations++;
    return __libc_malloc(len);
}

void *calloc(size_t n, size_t len)
{
    allocations++;
    return __libc_calloc(n, len);
}

void *realloc(void *at, size_t len)
{
    allocations++;
    return __libc_realloc(at, len);
}

enum { BOXES_LEN = 20000, PLACES = 30000 };

static int64_t ids[PLACES];
static rtfilter_score scores[PLACES];

/* Many boxes in a square, on four layers. */
static void open_many(rtfilter_session *out)
{
    static int32_t min_x[BOXES_LEN], max_x[BOXES_LEN], min_y[BOXES_LEN], max_y[BOXES_LEN];
    static uint8_t layers[BOXES_LEN];
    for (int i = 0; i < BOXES_LEN; i++) {
        ids[i] = i;
        max_x[i] = (min_x[i] = i * 7919 % 10007) + 9;
        max_y[i] = (min_y[i] = i * 104729 % 10009) + 9;
        layers[i] = (uint8_t)(i % 4);
    }
    EXPECT(rtfilter_open_arrays(out, BOXES_LEN, ids, min_x, max_x, min_y, max_y, layers, NULL, NULL) == RTFILTER_OK);
}

/* Finds the answers to a query, with an array of this length. */
static void find(rtfilter_session *session, const rtfilter_queries *queries, size_t places)
{
    size_t end;
    rtfilter_answers answers = {ids, scores, places, &end, 9, 9};
    const size_t before = allocations;
    const int code = rtfilter_find(session, queries, 0, &answers);
    EXPECT(code == RTFILTER_OK || code == RTFILTER_FULL);
    EXPECT(answers.found > 0);
    EXPECT(allocations == before);
}

static void measure(rtfilter_session *session, const rtfilter_queries *queries)
{
    static int (*const calls[])(rtfilter_session *, const rtfilter_queries *, uint64_t *, size_t *) = {
        rtfilter_count, rtfilter_cost_of_find, rtfilter_cost_of_count};
    for (size_t i = 0; i < sizeof calls / sizeof *calls; i++) {
        uint64_t measured = 0;
        size_t done = 0;
        const size_t before = allocations;
        EXPECT(calls[i](session, queries, &measured, &done) == RTFILTER_OK && done == 1 && measured > 0);
        EXPECT(allocations == before);
    }
}

/* Each region in each order, on all layers and on some, up to a limit and without one, into few places and into enough. */
static void try_queries(rtfilter_session *session)
{
    static const rtfilter_point corners[] = {{0, 0}, {9000, 100}, {100, 9000}};
    rtfilter_query regions[] = {rtfilter_all(), rtfilter_window(0, 5000, 0, 5000), rtfilter_inside(0, 5000, 0, 5000),
                                rtfilter_covers(5, 5, 5, 5), rtfilter_circle(5000, 5000, 3000), rtfilter_polygon(0, 3)};
    static const uint64_t layers[] = {RTFILTER_ALL_LAYERS, 5}, limits[] = {RTFILTER_NO_LIMIT, 3, 1000};
    for (size_t region = 0; region < sizeof regions / sizeof *regions; region++)
        for (uint32_t order = RTFILTER_BY_ID; order <= RTFILTER_SMALLEST; order++)
            for (size_t layer = 0; layer < 2; layer++)
                for (size_t limit = 0; limit < 3; limit++) {
                    rtfilter_query query = regions[region];
                    query.order = order;
                    query.layers = layers[layer];
                    query.limit = limits[limit];
                    const rtfilter_queries queries = {&query, 1, corners, 3};
                    find(session, &queries, 10);
                    find(session, &queries, PLACES);
                    measure(session, &queries);
                }
}

/* A reply longer than all before it allocates; a later one of that length doesn't. */
static void ask(rtfilter_session *session)
{
    static const char lines[] = "find all\ncount all\nnearest 9 1 1\n";
    char buffer[16];
    size_t len;
    for (int round = 0; round < 3; round++) {
        const size_t before = allocations;
        EXPECT(rtfilter_ask(session, lines, sizeof lines - 1, buffer, sizeof buffer, &len) == RTFILTER_OK);
        EXPECT(round == 0 ? allocations > before : allocations == before);
    }
}

int main(void)
{
    rtfilter_session first = RTFILTER_CLOSED, second = RTFILTER_CLOSED;
    const size_t before = allocations;
    open_many(&first);
    EXPECT(allocations > before);
    EXPECT(rtfilter_share(&first, &second) == RTFILTER_OK);
    try_queries(&first);
    ask(&first);
    ask(&second);
    try_queries(&second);
    rtfilter_close(&first);
    rtfilter_close(&second);
    return 0;
}
