/* librtfilter: exact spatial search over a table of boxes, in the process of its caller.
 *
 * Boxes
 *   A box has a signed 64-bit id, a layer from 0 to 63, and four sides, signed 32-bit integers without a unit. Sides are always
 *   in the order min_x, max_x, min_y, max_y. Beware: shapely, GeoJSON and PostGIS have min_x, min_y, max_x, max_y. Boxes and
 *   regions are closed: two that only touch overlap. All numbers are exact: nothing is rounded, nothing overflows.
 *
 * Sessions
 *   A session is a handle on a loaded table, with working memory of its own. Sessions made by rtfilter_share() have one table
 *   in common, which no call changes.
 *
 * Threads
 *   A session may be in one call at a time. Different sessions may be in calls at the same time, in different threads, also
 *   if they share a table. To hand a session to another thread, order the two threads by a lock, a start or a join. No
 *   function may be called from a signal handler. In the child of a fork of a process with several threads, no function may be
 *   called. One exception: if the C library is glibc, whose malloc such a child may call, sessions that were in no call may be
 *   used. A call needs 64 KiB of stack.
 *
 * Pointers
 *   A pointer must be aligned, and valid for the number of items that is given with it; it may be null if that number
 *   is 0. What a call writes to must not overlap anything else that it is given. No call keeps a pointer after it returns,
 *   and none frees memory of its caller.
 *
 * Results
 *   A function that returns int returns one of the codes below. Unless its description says otherwise, it writes to its output
 *   parameters only if it returns RTFILTER_OK. If several codes apply, RTFILTER_MISUSE comes first, then RTFILTER_BAD_PROCESSOR,
 *   RTFILTER_BAD_SETTING, RTFILTER_BAD_FILE, and then the others.
 *
 * Reserved members
 *   Set them to 0: a value other than 0 is refused, as an invalid setting or query. The helpers and RTFILTER_DEFAULTS do so. A
 *   later library of the same soname may give them a meaning. */
#ifndef RTFILTER_H
#define RTFILTER_H

#include <stdbool.h>
#include <stddef.h>
#include <stdint.h>

#ifdef __cplusplus
extern "C" {
#endif

/* Functions that are defined here, to be compiled into their callers. The library exports each of them too. */
#ifdef __GNUC_GNU_INLINE__
#define RTFILTER_INLINE extern inline
#else
#define RTFILTER_INLINE inline
#endif

/* The version of this header. Programs that were built with a header of 0.3.0 or later run with a newer library of the same soname. */
#define RTFILTER_VERSION_MAJOR 0
#define RTFILTER_VERSION_MINOR 4
#define RTFILTER_VERSION_PATCH 0

/* The version of the library that is loaded, such as "0.4.0". The string is static. */
const char *rtfilter_version(void);

/* ---- Codes */

enum {
    RTFILTER_OK = 0,
    RTFILTER_FAULTY_LINE = 1,  /* at least one query line is faulty; the reply is complete, and names the fault */
    RTFILTER_BAD_SETTING = 2,  /* a setting is out of range; see rtfilter_settings */
    RTFILTER_BAD_TABLE = 3,    /* the table is faulty; see rtfilter_fault */
    RTFILTER_BAD_FILE = 4,     /* the file can't be opened or read; errno has the cause */
    RTFILTER_FULL = 5,         /* the arrays are full, and there are more answers */
    RTFILTER_NO_MEMORY = 6,    /* out of memory; the sessions can still be used */
    RTFILTER_BAD_QUERY = 7,    /* a query is invalid; see rtfilter_query */
    RTFILTER_MISUSE = 8,       /* a null pointer, a closed session, or an `out` that is open; nothing was done */
    RTFILTER_BAD_PROCESSOR = 9 /* the processor isn't an x86-64-v2 */
};

/* A short English description of a code. The string is static. Of a number that is no code it is "unknown code". */
const char *rtfilter_message(int code);

/* ---- Tables and sessions */

/* A session. Initialise it with RTFILTER_CLOSED before it is opened, and don't copy it while it is open. Its member is
 * private, and null while the session is closed. */
typedef struct rtfilter_session {
    void *at;
} rtfilter_session;
#define RTFILTER_CLOSED {NULL}

/* How a table is read and packed. Null instead of a pointer to settings means RTFILTER_DEFAULTS. */
typedef struct rtfilter_settings {
    bool header;          /* skip the first record of a CSV table */
    uint8_t fanout;       /* the maximum number of children of a node of the tree, 2 to 64 */
    uint32_t max_entries; /* the maximum number of boxes, 1 to 16777216 */
    uint32_t reserved[6]; /* 0 */
} rtfilter_settings;
#define RTFILTER_DEFAULTS {false, 16, 16777216, {0, 0, 0, 0, 0, 0}}

/* The first fault of a table. Records and fields are counted from 1, a header included; the fields of a record are id, min_x,
 * max_x, min_y, max_y and layer. */
typedef struct rtfilter_fault {
    uint32_t kind;   /* one of the kinds below */
    uint32_t record; /* the faulty record */
    uint64_t field;  /* see the kinds; 0 if none is named */
} rtfilter_fault;

enum {
    RTFILTER_TOO_MANY = 1,      /* there are max_entries boxes before this record; field is 0 */
    RTFILTER_FIELD_COUNT = 2,   /* neither five nor six fields; field is how many there are */
    RTFILTER_NOT_NUMBER = 3,    /* the field isn't a whole number */
    RTFILTER_OUT_OF_RANGE = 4,  /* the field is out of its range */
    RTFILTER_MIN_ABOVE_MAX = 5, /* a minimum is above its maximum; field is that of the minimum, 2 or 4 */
    RTFILTER_REPEATED = 6       /* an earlier record has the same id; field is 1 */
};

/* Describes a fault as the program does, as "table record 3: minimum above maximum in x". The text and a null byte are stored in
 * `buffer`, as far as they fit into `size` bytes. Returns the length of the whole text, which is at most 80; 0 if `fault` is null or
 * its kind is none of those above. `buffer` may be null if `size` is 0. */
size_t rtfilter_fault_message(const rtfilter_fault *fault, char *buffer, size_t size);

/* Opens a session on a CSV table in memory. The bytes aren't used after the call. An empty table is valid.
 *
 * `out` must be closed; it is open if and only if the call returns RTFILTER_OK. `fault` may be null; it is written if the call
 * returns RTFILTER_BAD_TABLE. Further codes: RTFILTER_BAD_SETTING, RTFILTER_NO_MEMORY, RTFILTER_MISUSE,
 * RTFILTER_BAD_PROCESSOR. The session must be closed by rtfilter_close(). */
int rtfilter_open_bytes(rtfilter_session *out, const void *table, size_t len, const rtfilter_settings *settings,
                        rtfilter_fault *fault);

/* Opens a session on a CSV file, which may be a pipe, and is read to its end. As rtfilter_open_bytes(), but may return
 * RTFILTER_BAD_FILE too, which leaves the cause in errno. */
int rtfilter_open_file(rtfilter_session *out, const char *name, const rtfilter_settings *settings, rtfilter_fault *fault);

/* Opens a session on n boxes in arrays of n items each. `layers` may be null: all boxes are then on layer 0. The box at index
 * i counts as record i + 1; settings->header is ignored. Faults are looked for in this order: too many boxes; each box alone,
 * its layer first; repeated ids. Codes and ownership are those of rtfilter_open_bytes(). */
int rtfilter_open_arrays(rtfilter_session *out, size_t n, const int64_t *ids, const int32_t *min_x, const int32_t *max_x,
                         const int32_t *min_y, const int32_t *max_y, const uint8_t *layers,
                         const rtfilter_settings *settings, rtfilter_fault *fault);

/* A box, as an item of an array of boxes. */
typedef struct rtfilter_box {
    int64_t id;
    int32_t min_x, max_x, min_y, max_y;
    uint8_t layer; /* 0 to 63 */
} rtfilter_box;

/* Opens a session on an array of n boxes. As rtfilter_open_arrays(). */
int rtfilter_open_boxes(rtfilter_session *out, size_t n, const rtfilter_box *boxes, const rtfilter_settings *settings,
                        rtfilter_fault *fault);

/* Opens a session on n rows of four sides in the order of GEOS, shapely and GeoJSON: min_x, min_y, max_x, max_y. `ids` may be null:
 * a box's id is then its index. `layers` may be null: all boxes are then on layer 0. As rtfilter_open_arrays(). */
int rtfilter_open_bounds(rtfilter_session *out, size_t n, const int64_t *ids, const int32_t (*bounds)[4], const uint8_t *layers,
                         const rtfilter_settings *settings, rtfilter_fault *fault);

/* Opens one more session on the table of an open one, for use by another thread. The table isn't copied, and lives as long as
 * one of its sessions. `of` is in a call meanwhile. Codes: RTFILTER_OK, RTFILTER_NO_MEMORY, RTFILTER_MISUSE. */
int rtfilter_share(rtfilter_session *of, rtfilter_session *out);

/* Closes a session and frees its memory, that of the table with its last session. A null pointer and a closed session are
 * ignored. */
void rtfilter_close(rtfilter_session *session);

/* What a session's table holds. */
typedef struct rtfilter_info {
    uint32_t boxes;
    uint32_t levels;                    /* the number of levels of the tree, 1 to 25; level 0 is that of the boxes */
    uint32_t level_sizes[25];           /* the number of boxes or nodes of each level, from level 0; the rest is 0 */
    int32_t min_x, max_x, min_y, max_y; /* the smallest box around all boxes; all 0 if there are none */
    uint32_t reserved[9];               /* 0 */
} rtfilter_info;

/* Describes a session's table. Codes: RTFILTER_OK, RTFILTER_MISUSE. */
int rtfilter_info_of(rtfilter_session *session, rtfilter_info *info);

/* ---- Query lines */

/* Answers query lines exactly as the program rtfilter does, byte for byte. `lines` has `len` bytes of lines, each ended by a
 * line feed, which the last may lack. Lines are numbered from 1 in each call.
 *
 * The session keeps the reply, instead of the previous one. The call stores the length of the reply in *reply_len, and its
 * first bytes in `buffer`, as many as fit into `size` bytes; no null byte is added. If the reply is longer, the rest
 * is read by rtfilter_reply(), without another search. Calls other than rtfilter_ask() leave the reply as it is.
 *
 * Returns RTFILTER_OK, or RTFILTER_FAULTY_LINE if some line is faulty, with a complete reply in either case.
 * RTFILTER_NO_MEMORY leaves an empty reply, and 0 in *reply_len. Further code: RTFILTER_MISUSE. */
int rtfilter_ask(rtfilter_session *session, const char *lines, size_t len, char *buffer, size_t size, size_t *reply_len);

/* Copies bytes of the kept reply, from offset `from` on, as many as fit into `size` bytes, and stores their number in *copied:
 * 0 at or after the end of the reply, or if there is none. Codes: RTFILTER_OK, RTFILTER_MISUSE. */
int rtfilter_reply(rtfilter_session *session, size_t from, char *buffer, size_t size, size_t *copied);

/* Frees the kept reply, which is then empty. Otherwise its memory is kept for the next one. Codes: RTFILTER_OK,
 * RTFILTER_MISUSE. */
int rtfilter_forget(rtfilter_session *session);

/* ---- Queries in numbers */

enum { /* regions: a box is accepted if .. */
    RTFILTER_ALL = 0,     /* always */
    RTFILTER_WINDOW = 1,  /* it overlaps the box of the query */
    RTFILTER_INSIDE = 2,  /* it lies within the box of the query */
    RTFILTER_COVERS = 3,  /* the box of the query lies within it */
    RTFILTER_CIRCLE = 4,  /* its distance from (x, y) is at most radius */
    RTFILTER_POLYGON = 5  /* it overlaps the convex polygon */
};

enum { /* orders: answers come by score, the lowest first, and at equal scores by id */
    RTFILTER_BY_ID = 0,   /* all scores are 0 */
    RTFILTER_NEAR = 1,    /* the squared distance from (near_x, near_y) */
    RTFILTER_SMALLEST = 2 /* the area */
};

#define RTFILTER_ALL_LAYERS UINT64_MAX
#define RTFILTER_NO_LIMIT UINT64_MAX

/* A query. Members that neither its region nor its order uses are ignored. Begin with a helper below: a query of zeros has no
 * layer, and is invalid.
 *
 * A query is invalid if its region or its order is none of those above, if a minimum of its box is above the maximum, if it has
 * no layer, or if its reserved member isn't 0. A polygon is invalid if it has fewer than 3 or more than 16 vertices, if they
 * aren't all among those of the call, or if they aren't the vertices of a strictly convex polygon, in order around it, in either
 * direction. */
typedef struct rtfilter_query {
    uint32_t region;
    uint32_t order;
    int32_t min_x, max_x, min_y, max_y; /* the box of a window, inside or covers */
    int32_t x, y;                       /* the centre of a circle */
    uint32_t radius;
    int32_t near_x, near_y;             /* the point of the order RTFILTER_NEAR */
    uint32_t first_vertex, vertices;    /* a polygon: the index of its first vertex in the call, and how many it has */
    uint32_t reserved;                  /* 0 */
    uint64_t layers;                    /* bit k accepts the boxes on layer k */
    uint64_t limit;                     /* the maximum number of answers */
} rtfilter_query;

typedef struct rtfilter_point {
    int32_t x, y;
} rtfilter_point;

/* A score: high * 2^64 + low. The greatest score has 65 bits, so high is 0 or 1. */
typedef struct rtfilter_score {
    uint64_t low, high;
} rtfilter_score;

/* The queries of a call, and the vertices of their polygons. */
typedef struct rtfilter_queries {
    const rtfilter_query *queries;
    size_t len;
    const rtfilter_point *vertices;
    size_t vertex_len;
} rtfilter_queries;

/* Why a query of a call is invalid, as "minimum above maximum". The string is static. Of a valid query it is "valid query"; if
 * `queries` is null or has no item at `index`, it is "no query". */
const char *rtfilter_query_message(const rtfilter_queries *queries, size_t index);

/* Where rtfilter_find() stores answers: those of the first query, then those of the second, and so on, in arrays of `capacity`
 * items. */
typedef struct rtfilter_answers {
    int64_t *ids;
    rtfilter_score *scores; /* null if scores aren't needed */
    size_t capacity;
    size_t *ends;           /* an item for each query: the index after its last answer; null is allowed for one query */
    size_t done;            /* out: how many queries are answered completely */
    size_t found;           /* out: how many answers are in the arrays */
} rtfilter_answers;

/* Finds the answers of each query. Of all answers of the call, the first `skip` are left out.
 *
 * RTFILTER_OK: all queries are answered.
 * RTFILTER_FULL: the arrays are full. The first `done` queries are answered completely, and the answers after theirs are the
 *   first ones of the next query, which has more. rtfilter_continue() sets up the next call.
 * RTFILTER_BAD_QUERY: the query at index `done` is invalid, and those before it are answered. To go on after it, call again with
 *   the queries from index done + 1 on, and a `skip` of 0.
 *
 * The capacity bounds the work: a query opens no more nodes than one that is limited to `skip`, plus the capacity that is left,
 * plus one.
 *
 * In these three cases `done`, `found`, the first `done` items of `ends`, and the first `found` items of `ids` and `scores` are
 * set; further items are unspecified. RTFILTER_NO_MEMORY sets `done` and `found` to 0. Further code:
 * RTFILTER_MISUSE. */
int rtfilter_find(rtfilter_session *session, const rtfilter_queries *queries, size_t skip, rtfilter_answers *answers);

/* Counts the boxes that the region and layers of each query accept, whatever its limit. counts[i] is the count of query i.
 *
 * RTFILTER_OK sets *done to the number of queries. RTFILTER_BAD_QUERY says that the query at index *done is invalid, and those
 * before it are counted. `done` may be null. RTFILTER_NO_MEMORY sets it to 0. Further code: RTFILTER_MISUSE. */
int rtfilter_count(rtfilter_session *session, const rtfilter_queries *queries, uint64_t *counts, size_t *done);

/* How many nodes of the tree a find of each query opens, or a count. As rtfilter_count(). */
int rtfilter_cost_of_find(rtfilter_session *session, const rtfilter_queries *queries, uint64_t *opened, size_t *done);
int rtfilter_cost_of_count(rtfilter_session *session, const rtfilter_queries *queries, uint64_t *opened, size_t *done);

/* ---- Helpers. Each makes a query on all layers; all but rtfilter_nearest() make one without a limit. */

/* All boxes, by id. */
RTFILTER_INLINE rtfilter_query rtfilter_all(void)
{
    const rtfilter_query query = {RTFILTER_ALL, RTFILTER_BY_ID, 0, 0, 0, 0, 0, 0, 0, 0, 0, 0, 0, 0, RTFILTER_ALL_LAYERS,
                                  RTFILTER_NO_LIMIT};
    return query;
}

/* The boxes that overlap a window, by id. */
RTFILTER_INLINE rtfilter_query rtfilter_window(int32_t min_x, int32_t max_x, int32_t min_y, int32_t max_y)
{
    rtfilter_query query = rtfilter_all();
    query.region = RTFILTER_WINDOW;
    query.min_x = min_x;
    query.max_x = max_x;
    query.min_y = min_y;
    query.max_y = max_y;
    return query;
}

/* The boxes that lie within a window, by id. */
RTFILTER_INLINE rtfilter_query rtfilter_inside(int32_t min_x, int32_t max_x, int32_t min_y, int32_t max_y)
{
    rtfilter_query query = rtfilter_window(min_x, max_x, min_y, max_y);
    query.region = RTFILTER_INSIDE;
    return query;
}

/* The boxes within which a window lies, by id. */
RTFILTER_INLINE rtfilter_query rtfilter_covers(int32_t min_x, int32_t max_x, int32_t min_y, int32_t max_y)
{
    rtfilter_query query = rtfilter_window(min_x, max_x, min_y, max_y);
    query.region = RTFILTER_COVERS;
    return query;
}

/* The boxes at most `radius` from (x, y), the nearest first. */
RTFILTER_INLINE rtfilter_query rtfilter_circle(int32_t x, int32_t y, uint32_t radius)
{
    rtfilter_query query = rtfilter_all();
    query.region = RTFILTER_CIRCLE;
    query.order = RTFILTER_NEAR;
    query.x = query.near_x = x;
    query.y = query.near_y = y;
    query.radius = radius;
    return query;
}

/* The boxes that overlap a convex polygon, by id. Its vertices are those of the call from index `first_vertex` on. */
RTFILTER_INLINE rtfilter_query rtfilter_polygon(uint32_t first_vertex, uint32_t vertices)
{
    rtfilter_query query = rtfilter_all();
    query.region = RTFILTER_POLYGON;
    query.first_vertex = first_vertex;
    query.vertices = vertices;
    return query;
}

/* The k boxes nearest to (x, y), the nearest first. */
RTFILTER_INLINE rtfilter_query rtfilter_nearest(int32_t x, int32_t y, uint64_t k)
{
    rtfilter_query query = rtfilter_all();
    query.order = RTFILTER_NEAR;
    query.near_x = x;
    query.near_y = y;
    query.limit = k;
    return query;
}

/* Sets `queries` and *skip up for the next call of rtfilter_find(), after one that returned RTFILTER_FULL. Use the answers in the
 * arrays before the next call. `queries`, *skip and `answers` are those of the last call. If it returned RTFILTER_OK, no queries
 * are left. */
RTFILTER_INLINE void rtfilter_continue(rtfilter_queries *queries, size_t *skip, const rtfilter_answers *answers)
{
    const size_t end = answers->done && answers->ends ? answers->ends[answers->done - 1] : 0;
    if (answers->done < queries->len && end == 0 && *skip > 0) {
        /* All that is complete was skipped, and perhaps a part of the next query's answers. */
        *skip += answers->found;
        return;
    }
    *skip = answers->done < queries->len ? answers->found - end : 0;
    if (answers->done > 0) { /* (there may be no queries, and then no array) */
        queries->queries += answers->done;
        queries->len -= answers->done;
    }
}

#ifdef __cplusplus
}
#endif

#endif
