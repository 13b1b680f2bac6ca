// librtfilter, by queries in numbers and by query lines, one or many in a call.
#include "index.hpp"
#include "../../include/rtfilter.h"

constexpr size_t MANY = 1000;

static void must(int code) {
    if (code != RTFILTER_OK) fail(rtfilter_message(code));
}

// A session, which closes itself.
class Session {
    rtfilter_session session = RTFILTER_CLOSED;

public:
    explicit Session(const Table &table) {
        const Columns &sides = columns_of(table);
        must(rtfilter_open_arrays(&session, table.ids.size(), table.ids.data(), sides.min_x.data(), sides.max_x.data(),
                                  sides.min_y.data(), sides.max_y.data(), table.layers.data(), nullptr, nullptr));
    }
    explicit Session(Session *of) { must(rtfilter_share(of->at(), &session)); }
    Session(const Session &) = delete;
    ~Session() { rtfilter_close(&session); }
    rtfilter_session *at() { return &session; }
};

// Queries in numbers, many in a call.
template <size_t EACH> class Numbers : public Index {
    static constexpr size_t CAPACITY = 4096 + 256 * EACH;  // answers of a call

    Session session;
    std::vector<rtfilter_query> queries;
    std::vector<rtfilter_point> vertices;
    std::vector<size_t> first_vertex;  // of each query
    bool counts = false, scored = false;
    std::vector<int64_t> ids;
    std::vector<rtfilter_score> scores;
    std::vector<uint64_t> counted;
    std::vector<size_t> ends;

    // One call. `answered` has the number of answers, or of boxes that are counted.
    void call(size_t from, size_t upto, size_t &answered) {
        rtfilter_queries some{&queries[from], upto - from, vertices.data() + first_vertex[from],
                              first_vertex[upto] - first_vertex[from]};
        if (counts) {
            must(rtfilter_count(session.at(), &some, counted.data(), nullptr));
            for (size_t at = 0; at < upto - from; at++) answered += counted[at];
        } else {
            rtfilter_answers answers{};
            answers.ids = ids.data();
            answers.scores = scored ? scores.data() : nullptr;
            answers.capacity = ids.size();
            answers.ends = EACH == 1 ? nullptr : ends.data();
            must(rtfilter_find(session.at(), &some, 0, &answers));
            answered += answers.found;
            if (EACH == 1) ends[0] = answers.found;
        }
    }

public:
    explicit Numbers(const Table &table) : session(table) {}
    explicit Numbers(Session *of) : session(of) {}

    static std::unique_ptr<Index> open(const Table &table) { return std::make_unique<Numbers>(table); }

    void prepare(const Workload &work) override {
        queries.clear(), vertices.clear(), first_vertex.clear();
        ids.resize(CAPACITY), scores.resize(CAPACITY), counted.resize(EACH), ends.resize(EACH);
        counts = work.queries.front().counts;
        scored = work.queries.front().order != Query::ById;
        for (const Query &q : work.queries) {
            if (queries.size() % EACH == 0) call_starts = vertices.size();
            first_vertex.push_back(vertices.size());
            queries.push_back(in_numbers(q));
            for (Point p : q.vertices) vertices.push_back({static_cast<int32_t>(p.x), static_cast<int32_t>(p.y)});
        }
        first_vertex.push_back(vertices.size());
    }
    size_t run(size_t from, size_t upto) override {
        size_t found = 0;
        for (size_t at = from; at < upto; at += EACH) call(at, std::min(upto, at + EACH), found);
        return found;
    }
    void reply(size_t from, size_t upto, std::string &out) override {
        for (size_t first = from; first < upto; first += EACH) {
            size_t last = std::min(upto, first + EACH), all = 0, at = 0;
            call(first, last, all);
            for (size_t query = 0; query < last - first; query++) {
                size_t begin = at;
                for (; !counts && at < ends[query]; at++) {
                    u128 score = scored ? u128{scores[at].high} << 64 | scores[at].low : 0;
                    print(out, ids[at]), out += ' ', print(out, score), out += '\n';
                }
                end_reply(out, counts ? counted[query] : at - begin);
            }
        }
    }
    std::unique_ptr<Index> shared() override { return std::make_unique<Numbers>(&session); }

private:
    size_t call_starts = 0;  // the first vertex of the call

    rtfilter_query in_numbers(const Query &q) const {
        rtfilter_query it = rtfilter_window(q.around.min_x, q.around.max_x, q.around.min_y, q.around.max_y);
        it.region = q.region;  // (numbered alike)
        it.order = q.order;
        it.x = static_cast<int32_t>(q.centre.x);
        it.y = static_cast<int32_t>(q.centre.y);
        it.radius = static_cast<uint32_t>(q.radius);
        it.near_x = static_cast<int32_t>(q.place.x);
        it.near_y = static_cast<int32_t>(q.place.y);
        it.first_vertex = static_cast<uint32_t>(vertices.size() - call_starts);
        it.vertices = static_cast<uint32_t>(q.vertices.size());
        it.layers = q.layers;
        it.limit = q.limit;
        return it;
    }
};

// Query lines, many in a call.
template <size_t EACH> class Lines : public Index {
    Session session;
    std::string text;
    std::vector<size_t> starts;  // of each line, and the end
    std::string buffer;

    size_t call(size_t from, size_t upto) {
        size_t length;
        must(rtfilter_ask(session.at(), &text[starts[from]], starts[upto] - starts[from], &buffer[0], buffer.size(), &length));
        if (length > buffer.size()) fail("a reply is too long");
        return length;
    }

public:
    explicit Lines(const Table &table) : session(table) {}
    explicit Lines(Session *of) : session(of) {}

    static std::unique_ptr<Index> open(const Table &table) { return std::make_unique<Lines>(table); }

    void prepare(const Workload &work) override {
        text.clear(), starts.clear();
        buffer.resize(65536 + 4096 * EACH);
        for (const std::string &line : work.lines) {
            starts.push_back(text.size());
            text += line, text += '\n';
        }
        starts.push_back(text.size());
    }
    size_t run(size_t from, size_t upto) override {
        size_t bytes = 0;
        for (size_t at = from; at < upto; at += EACH) bytes += call(at, std::min(upto, at + EACH));
        return bytes;
    }
    void reply(size_t from, size_t upto, std::string &out) override {
        for (size_t at = from; at < upto; at += EACH) {
            std::string_view left(buffer.data(), call(at, std::min(upto, at + EACH)));
            for (size_t end; (end = left.find('\n')) != left.npos; left.remove_prefix(end + 1)) {
                std::string_view line = left.substr(0, end + 1);
                if (line.substr(0, 3) != "ok ") out += line;
                else out += "ok", out += line.substr(line.find(' ', 3));  // (without the number of the line)
            }
        }
    }
    std::unique_ptr<Index> shared() override { return std::make_unique<Lines>(&session); }
};

static const Registered one_query({"rtfilter", Numbers<1>::open, false});
static const Registered many_queries({"rtfilter, many queries a call", Numbers<MANY>::open, true});
static const Registered one_line({"rtfilter, a line a call", Lines<1>::open, true});
static const Registered many_lines({"rtfilter, many lines a call", Lines<MANY>::open, true});
