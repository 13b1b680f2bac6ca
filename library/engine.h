/* The engine of librtfilter: the exports of the proved archive. Their contracts are in crates/rtfilter_c.
 *
 * A slice is a pointer and a number of items, and its pointer is never null, not even for no items. A session that is passed as
 * `by` or `of` is open, one that is passed as `out` is closed. */
#ifndef RTFILTER_ENGINE_H
#define RTFILTER_ENGINE_H

#include "rtfilter.h"

struct rtfilter_engine_about {
    uint32_t boxes, levels;
    int32_t min_x, max_x, min_y, max_y;
};

struct rtfilter_engine_progress {
    size_t done, found;
};

uint8_t rtfilter_engine_open_bytes(rtfilter_session *out, const uint8_t *table, size_t len, bool header, uint8_t fanout,
                                   uint32_t max_entries, rtfilter_fault *fault);

/* `layers` has as many items as the others, or none. */
uint8_t rtfilter_engine_open_arrays(rtfilter_session *out, const int64_t *ids, size_t ids_len, const int32_t *min_x,
                                    size_t min_x_len, const int32_t *max_x, size_t max_x_len, const int32_t *min_y,
                                    size_t min_y_len, const int32_t *max_y, size_t max_y_len, const uint8_t *layers,
                                    size_t layers_len, uint8_t fanout, uint32_t max_entries, rtfilter_fault *fault);

uint8_t rtfilter_engine_open_boxes(rtfilter_session *out, const rtfilter_box *boxes, size_t len, uint8_t fanout,
                                   uint32_t max_entries, rtfilter_fault *fault);

/* `ids` and `layers` have as many items as there are rows, or none. */
uint8_t rtfilter_engine_open_rows(rtfilter_session *out, const int32_t (*rows)[4], size_t len, const int64_t *ids, size_t ids_len,
                                  const uint8_t *layers, size_t layers_len, uint8_t fanout, uint32_t max_entries,
                                  rtfilter_fault *fault);

/* The program's line on a fault, without its line feed: as much as fits. Returns its length, 0 if the numbers are those of no
 * fault. */
size_t rtfilter_engine_fault_message(const rtfilter_fault *fault, uint8_t *buffer, size_t buffer_len);

uint8_t rtfilter_engine_share(rtfilter_session *of, rtfilter_session *out);

void rtfilter_engine_close(rtfilter_session *it);

uint8_t rtfilter_engine_ask(rtfilter_session *by, const uint8_t *lines, size_t len, uint8_t *buffer, size_t buffer_len,
                            size_t *reply_len);

size_t rtfilter_engine_reply(rtfilter_session *by, size_t from, uint8_t *buffer, size_t buffer_len);

void rtfilter_engine_forget(rtfilter_session *by);

void rtfilter_engine_info(rtfilter_session *by, struct rtfilter_engine_about *about, uint32_t *level_sizes,
                          size_t level_sizes_len);

uint8_t rtfilter_engine_find(rtfilter_session *by, const rtfilter_query *queries, size_t len, const rtfilter_point *vertices,
                             size_t vertices_len, size_t skip, size_t *ends, size_t ends_len, int64_t *ids, size_t ids_len,
                             rtfilter_score *scores, size_t scores_len, struct rtfilter_engine_progress *progress);

/* Why a query is invalid, as a number: those of crates/rtfilter_c/src/invalid.rt. */
uint32_t rtfilter_engine_invalid(const rtfilter_query *query, const rtfilter_point *vertices, size_t vertices_len);

/* A measure of queries, one number for each. */
typedef uint8_t rtfilter_engine_measure(rtfilter_session *by, const rtfilter_query *queries, size_t len,
                                        const rtfilter_point *vertices, size_t vertices_len, uint64_t *measured,
                                        size_t measured_len, size_t *done);

rtfilter_engine_measure rtfilter_engine_count, rtfilter_engine_cost_of_find, rtfilter_engine_cost_of_count;

#endif
