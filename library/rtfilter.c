/* The public calls of librtfilter: checks of their arguments, and files. All else is the engine's. Nothing is allocated here. */
#define _GNU_SOURCE /* mremap */
#include "engine.h"
#include <cpuid.h>
#include <errno.h>
#include <fcntl.h>
#include <stdint.h>
#include <string.h>
#include <sys/mman.h>
#include <sys/stat.h>
#include <unistd.h>

#define TEXT_OF(number) #number
#define DOTTED(major, minor, patch) TEXT_OF(major) "." TEXT_OF(minor) "." TEXT_OF(patch)

/* What a slice without items points to. */
static uint64_t nothing;

/* A pointer that isn't null, for a slice of the engine. */
#define SLICE(pointer) ((pointer) ? (pointer) : (void *)&nothing)

static bool is_open(const rtfilter_session *session)
{
    return session && session->at;
}

static bool is_closed(const rtfilter_session *session)
{
    return session && !session->at;
}

/* Whether there is an array, unless it has no items. */
static bool has(const void *array, size_t len)
{
    return array || len == 0;
}

/* Whether the processor is an x86-64-v2, for which the engine is compiled. */
static bool has_processor(void)
{
    const unsigned basic = bit_SSE3 | bit_SSSE3 | bit_CMPXCHG16B | bit_SSE4_1 | bit_SSE4_2 | bit_POPCNT;
    unsigned a, b, c, d;
    return __get_cpuid(1, &a, &b, &c, &d) && (c & basic) == basic && __get_cpuid(0x80000001, &a, &b, &c, &d) &&
           (c & bit_LAHF_LM);
}

const char *rtfilter_version(void)
{
    return DOTTED(RTFILTER_VERSION_MAJOR, RTFILTER_VERSION_MINOR, RTFILTER_VERSION_PATCH);
}

const char *rtfilter_message(int code)
{
    switch (code) {
    case RTFILTER_OK: return "no error";
    case RTFILTER_FAULTY_LINE: return "faulty query line";
    case RTFILTER_BAD_SETTING: return "setting out of range";
    case RTFILTER_BAD_TABLE: return "faulty table";
    case RTFILTER_BAD_FILE: return "cannot read file";
    case RTFILTER_FULL: return "arrays full";
    case RTFILTER_NO_MEMORY: return "out of memory";
    case RTFILTER_BAD_QUERY: return "invalid query";
    case RTFILTER_MISUSE: return "library misused";
    case RTFILTER_BAD_PROCESSOR: return "processor is not an x86-64-v2";
    default: return "unknown code";
    }
}

/* The helpers of the header, for callers that can't compile it. */
extern inline rtfilter_query rtfilter_all(void);
extern inline rtfilter_query rtfilter_window(int32_t min_x, int32_t max_x, int32_t min_y, int32_t max_y);
extern inline rtfilter_query rtfilter_inside(int32_t min_x, int32_t max_x, int32_t min_y, int32_t max_y);
extern inline rtfilter_query rtfilter_covers(int32_t min_x, int32_t max_x, int32_t min_y, int32_t max_y);
extern inline rtfilter_query rtfilter_circle(int32_t x, int32_t y, uint32_t radius);
extern inline rtfilter_query rtfilter_polygon(uint32_t first_vertex, uint32_t vertices);
extern inline rtfilter_query rtfilter_nearest(int32_t x, int32_t y, uint64_t k);
extern inline void rtfilter_continue(rtfilter_queries *queries, size_t *skip, const rtfilter_answers *answers);

/* ---- Tables and sessions */

static const rtfilter_settings defaults = RTFILTER_DEFAULTS;

/* The code of what has to hold before a table is read. */
static int may_open(const rtfilter_session *out, bool has_table, const rtfilter_settings *settings)
{
    if (!is_closed(out) || !has_table)
        return RTFILTER_MISUSE;
    if (!has_processor())
        return RTFILTER_BAD_PROCESSOR;
    for (size_t i = 0; i < sizeof settings->reserved / sizeof settings->reserved[0]; i++)
        if (settings->reserved[i] != 0)
            return RTFILTER_BAD_SETTING;
    if (settings->fanout < 2 || settings->fanout > 64 || settings->max_entries < 1 || settings->max_entries > 16777216)
        return RTFILTER_BAD_SETTING;
    return RTFILTER_OK;
}

int rtfilter_open_bytes(rtfilter_session *out, const void *table, size_t len, const rtfilter_settings *settings,
                        rtfilter_fault *fault)
{
    rtfilter_fault ignored;
    if (!settings)
        settings = &defaults;
    const int code = may_open(out, has(table, len), settings);
    if (code != RTFILTER_OK)
        return code;
    return rtfilter_engine_open_bytes(out, SLICE(table), len, settings->header, settings->fanout, settings->max_entries,
                                      fault ? fault : &ignored);
}

int rtfilter_open_arrays(rtfilter_session *out, size_t n, const int64_t *ids, const int32_t *min_x, const int32_t *max_x,
                         const int32_t *min_y, const int32_t *max_y, const uint8_t *layers,
                         const rtfilter_settings *settings, rtfilter_fault *fault)
{
    rtfilter_fault ignored;
    if (!settings)
        settings = &defaults;
    const bool has_sides = has(min_x, n) && has(max_x, n) && has(min_y, n) && has(max_y, n);
    const int code = may_open(out, has(ids, n) && has_sides, settings);
    if (code != RTFILTER_OK)
        return code;
    return rtfilter_engine_open_arrays(out, SLICE(ids), n, SLICE(min_x), n, SLICE(max_x), n, SLICE(min_y), n, SLICE(max_y), n,
                                       SLICE(layers), layers ? n : 0, settings->fanout, settings->max_entries,
                                       fault ? fault : &ignored);
}

int rtfilter_open_boxes(rtfilter_session *out, size_t n, const rtfilter_box *boxes, const rtfilter_settings *settings,
                        rtfilter_fault *fault)
{
    rtfilter_fault ignored;
    if (!settings)
        settings = &defaults;
    const int code = may_open(out, has(boxes, n), settings);
    if (code != RTFILTER_OK)
        return code;
    return rtfilter_engine_open_boxes(out, SLICE(boxes), n, settings->fanout, settings->max_entries, fault ? fault : &ignored);
}

int rtfilter_open_bounds(rtfilter_session *out, size_t n, const int64_t *ids, const int32_t (*bounds)[4], const uint8_t *layers,
                         const rtfilter_settings *settings, rtfilter_fault *fault)
{
    rtfilter_fault ignored;
    if (!settings)
        settings = &defaults;
    const int code = may_open(out, has(bounds, n), settings);
    if (code != RTFILTER_OK)
        return code;
    return rtfilter_engine_open_rows(out, bounds ? bounds : (const int32_t(*)[4])&nothing, n, SLICE(ids), ids ? n : 0, SLICE(layers), layers ? n : 0,
                                     settings->fanout, settings->max_entries, fault ? fault : &ignored);
}

size_t rtfilter_fault_message(const rtfilter_fault *fault, char *buffer, size_t size)
{
    static const char program[] = "rtfilter: "; /* what the program's line begins with */
    uint8_t line[128];
    const size_t begin = sizeof program - 1, end = fault ? rtfilter_engine_fault_message(fault, line, sizeof line) : 0;
    const size_t len = end > begin ? end - begin : 0;
    if (buffer && size > 0) {
        const size_t copied = len < size ? len : size - 1;
        memcpy(buffer, line + begin, copied);
        buffer[copied] = '\0';
    }
    return len;
}

/* Bytes of a file, in a map of their own: a map of the file itself would end the process if the file were cut off meanwhile. */
struct contents {
    uint8_t *bytes;
    size_t len, capacity;
};

/* Doubles the capacity, or makes a first map of it. */
static bool grow(struct contents *it, size_t first)
{
    const size_t capacity = it->bytes ? 2 * it->capacity : first;
    void *bytes = it->bytes ? mremap(it->bytes, it->capacity, capacity, MREMAP_MAYMOVE)
                            : mmap(NULL, capacity, PROT_READ | PROT_WRITE, MAP_PRIVATE | MAP_ANONYMOUS, -1, 0);
    if (bytes == MAP_FAILED)
        return false;
    it->bytes = bytes;
    it->capacity = capacity;
    return true;
}

/* Reads a file to its end. After a failure, too, the map has to be given back. */
static int read_all(int file, struct contents *it)
{
    struct stat about;
    if (fstat(file, &about) < 0)
        return RTFILTER_BAD_FILE;
    /* (more than the file has, so that its end is met without a larger map) */
    const size_t expected = (size_t)about.st_size + 65536;
    for (;;) {
        if (it->len == it->capacity && !grow(it, expected))
            return RTFILTER_NO_MEMORY;
        const ssize_t count = read(file, it->bytes + it->len, it->capacity - it->len);
        if (count == 0)
            return RTFILTER_OK;
        if (count > 0)
            it->len += (size_t)count;
        else if (errno != EINTR)
            return RTFILTER_BAD_FILE;
    }
}

static int open_to_read(const char *name)
{
    int file;
    do
        file = open(name, O_RDONLY | O_CLOEXEC);
    while (file < 0 && errno == EINTR);
    return file;
}

int rtfilter_open_file(rtfilter_session *out, const char *name, const rtfilter_settings *settings, rtfilter_fault *fault)
{
    struct contents table = {NULL, 0, 0};
    int code = may_open(out, name, settings ? settings : &defaults);
    if (code != RTFILTER_OK)
        return code;
    const int file = open_to_read(name);
    if (file < 0)
        return RTFILTER_BAD_FILE;
    code = read_all(file, &table);
    const int cause = errno;
    close(file);
    if (code == RTFILTER_OK)
        code = rtfilter_open_bytes(out, table.bytes, table.len, settings, fault);
    if (table.bytes)
        munmap(table.bytes, table.capacity);
    errno = cause;
    return code;
}

int rtfilter_share(rtfilter_session *of, rtfilter_session *out)
{
    if (!is_open(of) || !is_closed(out))
        return RTFILTER_MISUSE;
    return rtfilter_engine_share(of, out);
}

void rtfilter_close(rtfilter_session *session)
{
    if (is_open(session))
        rtfilter_engine_close(session);
}

int rtfilter_info_of(rtfilter_session *session, rtfilter_info *info)
{
    struct rtfilter_engine_about about = {0};
    if (!is_open(session) || !info)
        return RTFILTER_MISUSE;
    *info = (rtfilter_info){0};
    rtfilter_engine_info(session, &about, info->level_sizes, sizeof info->level_sizes / sizeof info->level_sizes[0]);
    info->boxes = about.boxes;
    info->levels = about.levels;
    info->min_x = about.min_x;
    info->max_x = about.max_x;
    info->min_y = about.min_y;
    info->max_y = about.max_y;
    return RTFILTER_OK;
}

/* ---- Query lines */

int rtfilter_ask(rtfilter_session *session, const char *lines, size_t len, char *buffer, size_t size, size_t *reply_len)
{
    if (!is_open(session) || !has(lines, len) || !has(buffer, size) || !reply_len)
        return RTFILTER_MISUSE;
    *reply_len = 0;
    return rtfilter_engine_ask(session, SLICE((const uint8_t *)lines), len, SLICE((uint8_t *)buffer), size, reply_len);
}

int rtfilter_reply(rtfilter_session *session, size_t from, char *buffer, size_t size, size_t *copied)
{
    if (!is_open(session) || !has(buffer, size) || !copied)
        return RTFILTER_MISUSE;
    *copied = rtfilter_engine_reply(session, from, SLICE((uint8_t *)buffer), size);
    return RTFILTER_OK;
}

int rtfilter_forget(rtfilter_session *session)
{
    if (!is_open(session))
        return RTFILTER_MISUSE;
    rtfilter_engine_forget(session);
    return RTFILTER_OK;
}

/* ---- Queries in numbers */

static bool are_there(const rtfilter_queries *queries)
{
    return queries && has(queries->queries, queries->len) && has(queries->vertices, queries->vertex_len);
}

const char *rtfilter_query_message(const rtfilter_queries *queries, size_t index)
{
    static const char *const messages[] = {
        "valid query",
        "unknown region",
        "unknown order",
        "minimum above maximum",
        "a polygon has 3 to 16 vertices",
        "vertices beyond those of the call",
        "polygon not strictly convex",
        "no layer",
        "reserved member isn't 0",
    };
    if (!are_there(queries) || index >= queries->len)
        return "no query";
    return messages[rtfilter_engine_invalid(&queries->queries[index], SLICE(queries->vertices), queries->vertex_len)];
}

int rtfilter_find(rtfilter_session *session, const rtfilter_queries *queries, size_t skip, rtfilter_answers *answers)
{
    struct rtfilter_engine_progress progress = {0};
    size_t end;
    if (!is_open(session) || !are_there(queries) || !answers || !has(answers->ids, answers->capacity) ||
        (!answers->ends && queries->len > 1))
        return RTFILTER_MISUSE;
    const int code = rtfilter_engine_find(session, SLICE(queries->queries), queries->len, SLICE(queries->vertices),
                                          queries->vertex_len, skip, answers->ends ? answers->ends : &end, queries->len,
                                          SLICE(answers->ids), answers->capacity, SLICE(answers->scores),
                                          answers->scores ? answers->capacity : 0, &progress);
    answers->done = progress.done;
    answers->found = progress.found;
    return code;
}

/* One of the engine's measures of each query. */
static int measure(rtfilter_session *session, rtfilter_engine_measure *engine_measure, const rtfilter_queries *queries,
                   uint64_t *measured, size_t *done)
{
    size_t ignored;
    if (!is_open(session) || !are_there(queries) || !has(measured, queries->len))
        return RTFILTER_MISUSE;
    if (!done)
        done = &ignored;
    *done = 0;
    return engine_measure(session, SLICE(queries->queries), queries->len, SLICE(queries->vertices), queries->vertex_len,
                          SLICE(measured), queries->len, done);
}

int rtfilter_count(rtfilter_session *session, const rtfilter_queries *queries, uint64_t *counts, size_t *done)
{
    return measure(session, rtfilter_engine_count, queries, counts, done);
}

int rtfilter_cost_of_find(rtfilter_session *session, const rtfilter_queries *queries, uint64_t *opened, size_t *done)
{
    return measure(session, rtfilter_engine_cost_of_find, queries, opened, done);
}

int rtfilter_cost_of_count(rtfilter_session *session, const rtfilter_queries *queries, uint64_t *opened, size_t *done)
{
    return measure(session, rtfilter_engine_cost_of_count, queries, opened, done);
}
