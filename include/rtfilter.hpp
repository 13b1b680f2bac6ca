// librtfilter for C++17: sessions that close themselves, and errors as exceptions. rtfilter.h has the meaning of each call.
#ifndef RTFILTER_HPP
#define RTFILTER_HPP

#include "rtfilter.h"

#include <algorithm>
#include <cerrno>
#include <cstddef>
#include <cstdint>
#include <cstring>
#include <stdexcept>
#include <string>
#include <string_view>
#include <utility>
#include <vector>

namespace rtfilter {

// What every failed call throws. what() says what is wrong: of a table the record and the field, of queries the index and the reason.
class Error : public std::runtime_error {
public:
    Error(const std::string &text, int code_of_call) : std::runtime_error(text), code(code_of_call) {}

    int code;                  // RTFILTER_BAD_SETTING or another
    rtfilter_fault fault = {}; // of RTFILTER_BAD_TABLE: what is wrong with the table
    std::size_t query = 0;     // of RTFILTER_BAD_QUERY: the index of the invalid query
    int cause = 0;             // of RTFILTER_BAD_FILE: errno
};

// A box of a table.
struct Box {
    std::int64_t id;
    std::int32_t min_x, max_x, min_y, max_y;
    std::uint8_t layer = 0;
};

// Boxes in arrays of `len` items each. Without layers all boxes are on layer 0.
struct Columns {
    std::size_t len;
    const std::int64_t *ids;
    const std::int32_t *min_x, *max_x, *min_y, *max_y;
    const std::uint8_t *layers = nullptr;
};

// The answers of several queries: those of query i are the items of `ids` and `scores` from ends[i - 1], or 0, to ends[i].
struct Answers {
    std::vector<std::int64_t> ids;
    std::vector<rtfilter_score> scores; // empty unless they were asked for
    std::vector<std::size_t> ends;
};

struct Reply {
    std::string text;
    bool is_faulty; // whether a line is faulty
};

using Queries = std::vector<rtfilter_query>;
using Vertices = std::vector<rtfilter_point>;

// An open session, for one thread at a time: share() makes one for another thread. No call changes the table; none is const, since
// each uses the session's working memory, so that two threads may not make them at once.
class Session {
public:
    static Session of_bytes(std::string_view table, const rtfilter_settings &settings = RTFILTER_DEFAULTS)
    {
        return opened([&](rtfilter_session *out, rtfilter_fault *fault) {
            return rtfilter_open_bytes(out, table.data(), table.size(), &settings, fault);
        });
    }

    static Session of_file(const std::string &name, const rtfilter_settings &settings = RTFILTER_DEFAULTS)
    {
        if (name.find('\0') != std::string::npos)
            throw of_file_error(EINVAL);
        return opened([&](rtfilter_session *out, rtfilter_fault *fault) {
            return rtfilter_open_file(out, name.c_str(), &settings, fault);
        });
    }

    static Session of_columns(const Columns &boxes, const rtfilter_settings &settings = RTFILTER_DEFAULTS)
    {
        return opened([&](rtfilter_session *out, rtfilter_fault *fault) {
            return rtfilter_open_arrays(out, boxes.len, boxes.ids, boxes.min_x, boxes.max_x, boxes.min_y, boxes.max_y,
                                        boxes.layers, &settings, fault);
        });
    }

    static Session of_boxes(const std::vector<Box> &boxes, const rtfilter_settings &settings = RTFILTER_DEFAULTS)
    {
        std::vector<rtfilter_box> in_c;
        in_c.reserve(boxes.size());
        for (const Box &it : boxes)
            in_c.push_back({it.id, it.min_x, it.max_x, it.min_y, it.max_y, it.layer});
        return opened([&](rtfilter_session *out, rtfilter_fault *fault) {
            return rtfilter_open_boxes(out, in_c.size(), in_c.data(), &settings, fault);
        });
    }

    Session(Session &&other) noexcept : session{std::exchange(other.session.at, nullptr)} {}
    Session &operator=(Session &&other) noexcept
    {
        std::swap(session.at, other.session.at);
        return *this;
    }
    ~Session() { rtfilter_close(&session); }

    // One more session of the same table.
    Session share()
    {
        return opened([&](rtfilter_session *out, rtfilter_fault *) { return rtfilter_share(&session, out); });
    }

    rtfilter_info info()
    {
        rtfilter_info it;
        check(rtfilter_info_of(&session, &it));
        return it;
    }

    // Answers query lines. A faulty one is no error.
    Reply ask(std::string_view lines)
    {
        char first[4096];
        std::size_t len = 0, copied = 0;
        const int code = rtfilter_ask(&session, lines.data(), lines.size(), first, sizeof first, &len);
        if (code != RTFILTER_FAULTY_LINE)
            check(code);
        Reply reply{std::string(first, std::min(len, sizeof first)), code == RTFILTER_FAULTY_LINE};
        if (len > sizeof first) {
            reply.text.resize(len);
            check(rtfilter_reply(&session, sizeof first, &reply.text[sizeof first], len - sizeof first, &copied));
        }
        return reply;
    }

    void forget() { check(rtfilter_forget(&session)); }

    // The answers of several queries.
    Answers find_each(const Queries &queries, const Vertices &vertices = {}, bool scores = false)
    {
        Answers all;
        all.ends.resize(queries.size());
        const rtfilter_queries every = {queries.data(), queries.size(), vertices.data(), vertices.size()};
        rtfilter_queries rest = every;
        std::size_t skip = 0, found = 0, first = 0, capacity = std::max<std::size_t>(256, 32 * queries.size());
        for (;;) {
            all.ids.resize(found + capacity);
            all.scores.resize(scores ? found + capacity : 0);
            rtfilter_answers part = {all.ids.data() + found, scores ? all.scores.data() + found : nullptr, capacity,
                                     all.ends.data() + first, 0, 0};
            const int code = rtfilter_find(&session, &rest, skip, &part);
            if (code != RTFILTER_FULL)
                check(code, every, first + part.done);
            rtfilter_continue(&rest, &skip, &part);
            for (std::size_t i = 0; i < part.done; i++)
                all.ends[first + i] += found;
            found += part.found;
            first += part.done;
            if (code == RTFILTER_OK)
                break;
            capacity = left(rest, every, first) - skip;
        }
        all.ids.resize(found);
        all.scores.resize(scores ? found : 0);
        return all;
    }

    // The ids of one query's answers.
    std::vector<std::int64_t> find(const rtfilter_query &query, const Vertices &vertices = {})
    {
        return find_each({query}, vertices).ids;
    }

    // How many boxes each query accepts, whatever its limit.
    std::vector<std::uint64_t> count_each(const Queries &queries, const Vertices &vertices = {})
    {
        return measure(rtfilter_count, queries, vertices);
    }

    // How many nodes of the tree a find of each query opens, or a count.
    std::vector<std::uint64_t> cost_of_find(const Queries &queries, const Vertices &vertices = {})
    {
        return measure(rtfilter_cost_of_find, queries, vertices);
    }
    std::vector<std::uint64_t> cost_of_count(const Queries &queries, const Vertices &vertices = {})
    {
        return measure(rtfilter_cost_of_count, queries, vertices);
    }

    std::uint64_t count(const rtfilter_query &query, const Vertices &vertices = {})
    {
        return count_each({query}, vertices)[0];
    }

private:
    using Measure = int (*)(rtfilter_session *, const rtfilter_queries *, std::uint64_t *, std::size_t *);

    Session() = default;

    template <class Call> static Session opened(Call call)
    {
        Session it;
        rtfilter_fault fault = {};
        const int code = call(&it.session, &fault);
        if (code == RTFILTER_BAD_TABLE) {
            char text[128];
            rtfilter_fault_message(&fault, text, sizeof text);
            Error error(text, code);
            error.fault = fault;
            throw error;
        }
        if (code == RTFILTER_BAD_FILE)
            throw of_file_error(errno);
        check(code);
        return it;
    }

    static Error of_file_error(int cause)
    {
        const std::string text = rtfilter_message(RTFILTER_BAD_FILE);
        Error error(text + ": " + std::strerror(cause), RTFILTER_BAD_FILE);
        error.cause = cause;
        return error;
    }

    static void check(int code)
    {
        if (code != RTFILTER_OK)
            throw Error(rtfilter_message(code), code);
    }

    // Throws what a call about queries returned at the one at an index.
    static void check(int code, const rtfilter_queries &queries, std::size_t index)
    {
        if (code != RTFILTER_BAD_QUERY)
            return check(code);
        const std::string text = rtfilter_message(code);
        Error error(text + " " + std::to_string(index) + ": " + rtfilter_query_message(&queries, index), code);
        error.query = index;
        throw error;
    }

    // How many answers the rest of queries have in all; it begins at an index.
    std::size_t left(const rtfilter_queries &rest, const rtfilter_queries &every, std::size_t first)
    {
        std::vector<std::uint64_t> counts(rest.len);
        std::size_t done = 0, sum = 0;
        const int code = rtfilter_count(&session, &rest, counts.data(), &done);
        check(code, every, first + done);
        for (std::size_t i = 0; i < rest.len; i++)
            sum += std::min(counts[i], rest.queries[i].limit);
        return sum;
    }

    std::vector<std::uint64_t> measure(Measure call, const Queries &queries, const Vertices &vertices)
    {
        const rtfilter_queries all = {queries.data(), queries.size(), vertices.data(), vertices.size()};
        std::vector<std::uint64_t> measured(queries.size());
        std::size_t done = 0;
        const int code = call(&session, &all, measured.data(), &done);
        check(code, all, done);
        return measured;
    }

    rtfilter_session session = RTFILTER_CLOSED;
};

} // namespace rtfilter

#endif
