/* What the tests of librtfilter have in common. */
#ifndef EXPECT_H
#define EXPECT_H

#include "rtfilter.h"

#include <stdio.h>
#include <stdlib.h>
#include <string.h>

/* Ends the test if something isn't as expected. */
#define EXPECT(it) ((it) ? (void)0 : (fprintf(stderr, "%s, line %d: not %s\n", __FILE__, __LINE__, #it), exit(1)))

/* Five boxes, on layers 3, 0, 3, 0 and 63. */
#define BOXES "1,0,10,0,10,3\n2,5,15,5,15\n3,20,30,0,10,3\n4,-5,-1,-5,-1,0\n5,12,12,12,12,63\n"

static inline int open_text(rtfilter_session *out, const char *table, const rtfilter_settings *settings, rtfilter_fault *fault)
{
    return rtfilter_open_bytes(out, table, strlen(table), settings, fault);
}

/* Whether the reply to lines is this text. */
static inline int replies(rtfilter_session *session, const char *lines, int code, const char *reply)
{
    char buffer[512];
    size_t len = 0;
    const int returned = rtfilter_ask(session, lines, strlen(lines), buffer, sizeof buffer, &len);
    return returned == code && len == strlen(reply) && len <= sizeof buffer && memcmp(buffer, reply, len) == 0;
}

/* Whether a query is answered by these ids. */
static inline int finds(rtfilter_session *session, rtfilter_query query, const rtfilter_point *vertices, size_t vertex_len,
                        size_t len, const int64_t *ids)
{
    int64_t found[16];
    const rtfilter_queries queries = {&query, 1, vertices, vertex_len};
    rtfilter_answers answers = {found, NULL, 16, NULL, 9, 9};
    return rtfilter_find(session, &queries, 0, &answers) == RTFILTER_OK && answers.done == 1 && answers.found == len &&
           (len == 0 || memcmp(found, ids, len * sizeof *ids) == 0);
}
#define FINDS(session, query, ...) \
    finds(session, query, NULL, 0, sizeof((int64_t[]){__VA_ARGS__}) / sizeof(int64_t), (int64_t[]){__VA_ARGS__})

#endif
