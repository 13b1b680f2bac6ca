/* Finds the answers to queries of one kind, over many boxes in a square, so that their instructions can be counted.
 * queries KIND NUMBER PLACES */
#include "expect.h"

enum { BOXES_LEN = 20000, MOST_PLACES = 1 << 16, SIDE = 1000000, SMALL = 3 * SIDE / 141, CORNERS = 16 };

static uint32_t state = 1;

/* A number from 0 to below `most`. */
static int32_t some(int32_t most)
{
    state = state * 1664525 + 1013904223;
    return (int32_t)(((uint64_t)state * (uint32_t)most) >> 32);
}

static void open_many(rtfilter_session *out)
{
    static int64_t ids[BOXES_LEN];
    static int32_t min_x[BOXES_LEN], max_x[BOXES_LEN], min_y[BOXES_LEN], max_y[BOXES_LEN];
    for (int i = 0; i < BOXES_LEN; i++) {
        ids[i] = i;
        max_x[i] = (min_x[i] = some(SIDE)) + some(SIDE / 500);
        max_y[i] = (min_y[i] = some(SIDE)) + some(SIDE / 500);
    }
    EXPECT(rtfilter_open_arrays(out, BOXES_LEN, ids, min_x, max_x, min_y, max_y, NULL, NULL, NULL) == RTFILTER_OK);
}

static rtfilter_query window(int32_t x, int32_t y, int32_t side)
{
    return rtfilter_window(x, x + side, y, y + side);
}

/* A query of a kind at a point. The corners of a polygon are written around the point. */
static rtfilter_query query_at(const char *kind, int32_t x, int32_t y, rtfilter_point *corners)
{
    static const int32_t around[CORNERS][2] = {{100, 0},  {92, 38},   {71, 71},   {38, 92},   {0, 100},  {-38, 92},  {-71, 71}, {-92, 38},
                                               {-100, 0}, {-92, -38}, {-71, -71}, {-38, -92}, {0, -100}, {38, -92},  {71, -71}, {92, -38}};
    rtfilter_query query = window(x, y, SMALL);
    for (int i = 0; i < CORNERS; i++)
        corners[i] = (rtfilter_point){x + around[i][0] * SMALL / 100, y + around[i][1] * SMALL / 100};
    if (strcmp(kind, "window") == 0)
        return query;
    if (strcmp(kind, "window on") == 0) {
        query.layers = 1;
        return query;
    }
    if (strcmp(kind, "large window") == 0)
        return window(x, y, SIDE / 2);
    if (strcmp(kind, "covers") == 0)
        return rtfilter_covers(x, x, y, y);
    if (strcmp(kind, "circle") == 0)
        return rtfilter_circle(x, y, SMALL);
    if (strcmp(kind, "nearest") == 0)
        return rtfilter_nearest(x, y, 10);
    if (strcmp(kind, "all near") == 0)
        return rtfilter_nearest(x, y, RTFILTER_NO_LIMIT);
    EXPECT(strcmp(kind, "polygon") == 0);
    return rtfilter_polygon(0, CORNERS);
}

int main(int words, char **word)
{
    static int64_t ids[MOST_PLACES];
    rtfilter_session session = RTFILTER_CLOSED;
    size_t found = 0;
    EXPECT(words == 4 && atol(word[3]) <= MOST_PLACES);
    open_many(&session);
    for (long at = 0; at < atol(word[2]); at++) {
        rtfilter_point corners[CORNERS];
        const int32_t x = some(SIDE), y = some(SIDE);
        const rtfilter_query query = query_at(word[1], x, y, corners);
        const rtfilter_queries queries = {&query, 1, corners, CORNERS};
        rtfilter_answers answers = {ids, NULL, (size_t)atol(word[3]), NULL, 9, 9};
        const int code = rtfilter_find(&session, &queries, 0, &answers);
        EXPECT(code == RTFILTER_OK || code == RTFILTER_FULL);
        found += answers.found;
    }
    printf("%zu\n", found);
    rtfilter_close(&session);
    return 0;
}
