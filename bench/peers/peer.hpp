// What the peers share: the table and the query lines, exact predicates, the answers as text, and the main loop.
//
// A peer is an index library behind the same text as rtfilter, for bench/bench.py: `peer TABLE` answers the query lines of
// standard input, those that are complete after each read. It has a class with a constructor over the table, `search`, which
// calls a function with the place of each box that the region of a query may accept, and `nearest`, which finds the boxes
// nearest to a point, as many as are wanted or more. Text at fault ends it: the workloads hold none. Neither `cost` nor
// `levels` is known, which are about rtfilter's own tree. `PEER` makes a program of the class, or one of the indexes of
// bench/library, all of which are in one process.
#pragma once
#include <algorithm>
#include <charconv>
#include <cstdint>
#include <cstdio>
#include <cstdlib>
#include <cstring>
#include <fcntl.h>
#include <functional>
#include <iterator>
#include <string>
#include <string_view>
#include <unistd.h>
#include <vector>

using u128 = unsigned __int128;
using i128 = __int128;

struct Point { int64_t x, y; };
struct Box { int32_t min_x, max_x, min_y, max_y; };
struct Hit { u128 score; int64_t id; };

[[noreturn]] inline void fail(const char *why) {
    std::fprintf(stderr, "peer: %s\n", why);
    std::exit(3);
}

// Takes the lines of a file one by one, and calls `pause` before each read but the first.
template <class Take, class Pause> void read_lines(int file, Take take, Pause pause) {
    std::string text, piece(1 << 18, 0);
    for (ssize_t got; (got = read(file, piece.data(), piece.size())) > 0; pause()) {
        text.append(piece, 0, static_cast<size_t>(got));
        size_t start = 0;
        for (size_t end; (end = text.find('\n', start)) != std::string::npos; start = end + 1)
            take(std::string_view(text).substr(start, end - start));
        text.erase(0, start);
    }
    if (!text.empty()) fail("a last line without an end");
}

// A text that is read from its front.
struct Reader {
    const char *at, *end;

    explicit Reader(std::string_view text) : at(text.data()), end(at + text.size()) {}

    int64_t number() {
        int64_t value;
        auto [rest, error] = std::from_chars(at, end, value);
        if (error != std::errc()) fail("not a number");
        at = rest;
        return value;
    }
    bool next(char c) {
        if (at == end || *at != c) return false;
        at++;
        return true;
    }
    void pass(char c) {
        if (!next(c)) fail("another byte is wanted");
    }
    int64_t next_number() { pass(' '); return number(); }
    bool word(std::string_view word) {
        std::string_view left(at, end - at);
        bool fits = left.substr(0, word.size()) == word && (left.size() == word.size() || left[word.size()] == ' ');
        if (fits) at += word.size();
        return fits;
    }
    bool next_word(std::string_view name) {
        if (!next(' ')) return false;
        bool fits = word(name);
        if (!fits) at--;
        return fits;
    }
};

struct Table {
    std::vector<int64_t> ids;
    std::vector<Box> boxes;
    std::vector<uint8_t> layers;
};

inline Table table_of(const char *path) {
    int file = open(path, O_RDONLY);
    if (file < 0) fail("cannot open the table");
    Table table;
    read_lines(file, [&](std::string_view line) {
        Reader row(line);
        table.ids.push_back(row.number());
        int32_t sides[4];
        for (int32_t &side : sides) row.pass(','), side = static_cast<int32_t>(row.number());
        table.boxes.push_back({sides[0], sides[1], sides[2], sides[3]});
        table.layers.push_back(row.next(',') ? static_cast<uint8_t>(row.number()) : 0);
    }, [] {});
    close(file);
    std::vector<int64_t> sorted = table.ids;
    std::sort(sorted.begin(), sorted.end());
    if (std::adjacent_find(sorted.begin(), sorted.end()) != sorted.end()) fail("a repeated id");
    return table;
}

// ---- queries

constexpr Box plane{INT32_MIN, INT32_MAX, INT32_MIN, INT32_MAX};
constexpr uint64_t endless = UINT64_MAX;

struct Query {
    enum { All, Window, Inside, Covers, Circle, Polygon } region = All;
    enum { ById, Near, Smallest } order = ById;
    Box around = plane;           // each box that is accepted meets it
    Point centre{};               // of a circle
    int64_t radius = 0;
    std::vector<Point> vertices;  // counterclockwise
    uint64_t layers = endless;    // a bit for each
    Point place{};                // to which boxes are near
    uint64_t limit = endless;
    bool counts = false;

    bool is_nearest() const { return region == All && order == Near && limit != endless; }
};

inline int32_t coordinate(int64_t value) {
    return static_cast<int32_t>(std::clamp<int64_t>(value, INT32_MIN, INT32_MAX));
}
inline Box box_around(Point p, int64_t reach) {
    return {coordinate(p.x - reach), coordinate(p.x + reach), coordinate(p.y - reach), coordinate(p.y + reach)};
}

inline Point next_point(Reader &line) {
    int64_t x = line.next_number();
    return {x, line.next_number()};
}
inline Box next_box(Reader &line) {
    int32_t sides[4];
    for (int32_t &side : sides) side = static_cast<int32_t>(line.next_number());
    return {sides[0], sides[1], sides[2], sides[3]};
}

inline void read_polygon(Reader &line, Query &q) {
    q.region = Query::Polygon;
    q.vertices.resize(static_cast<size_t>(line.next_number()));
    for (Point &vertex : q.vertices) vertex = next_point(line);
    auto by_x = [](Point a, Point b) { return a.x < b.x; };
    auto by_y = [](Point a, Point b) { return a.y < b.y; };
    auto [west, east] = std::minmax_element(q.vertices.begin(), q.vertices.end(), by_x);
    auto [south, north] = std::minmax_element(q.vertices.begin(), q.vertices.end(), by_y);
    q.around = {coordinate(west->x), coordinate(east->x), coordinate(south->y), coordinate(north->y)};
}

inline void read_circle(Reader &line, Query &q) {
    q.region = Query::Circle;
    q.centre = q.place = next_point(line);
    q.radius = line.next_number();
    q.order = Query::Near;
    q.around = box_around(q.centre, q.radius);
}

inline void read_region(Reader &line, Query &q) {
    if (line.next_word("window")) q.region = Query::Window, q.around = next_box(line);
    else if (line.next_word("inside")) q.region = Query::Inside, q.around = next_box(line);
    else if (line.next_word("covers")) q.region = Query::Covers, q.around = next_box(line);
    else if (line.next_word("circle")) read_circle(line, q);
    else if (line.next_word("polygon")) read_polygon(line, q);
    else if (!line.next_word("all")) fail("an unknown region");
    if (line.next_word("on")) {
        q.layers = 0;
        line.pass(' ');
        do q.layers |= uint64_t{1} << line.number();
        while (line.next(','));
    }
}

inline Query query_of(std::string_view text) {
    Query q;
    Reader line(text);
    if (line.word("nearest")) {
        q.limit = static_cast<uint64_t>(line.next_number());
        q.order = Query::Near;
        q.place = next_point(line);
    } else {
        q.counts = line.word("count");
        if (!q.counts && !line.word("find")) fail("an unknown verb");
        read_region(line, q);
        if (line.next_word("near")) q.order = Query::Near, q.place = next_point(line);
        else if (line.next_word("smallest")) q.order = Query::Smallest;
        if (line.next_word("first")) q.limit = static_cast<uint64_t>(line.next_number());
    }
    if (line.at != line.end) fail("a stray word");
    return q;
}

inline uint64_t gap(int64_t value, int64_t low, int64_t high) {
    return static_cast<uint64_t>(std::max({low - value, int64_t{0}, value - high}));
}
inline u128 near2(Point p, const Box &b) {
    uint64_t x = gap(p.x, b.min_x, b.max_x), y = gap(p.y, b.min_y, b.max_y);
    return u128{x} * x + u128{y} * y;
}
inline bool overlaps(const Box &a, const Box &b) {
    return a.min_x <= b.max_x && b.min_x <= a.max_x && a.min_y <= b.max_y && b.min_y <= a.max_y;
}
inline bool is_inside(const Box &a, const Box &b) {
    return b.min_x <= a.min_x && a.max_x <= b.max_x && b.min_y <= a.min_y && a.max_y <= b.max_y;
}
inline u128 score_of(const Query &q, const Box &b) {
    if (q.order == Query::Near) return near2(q.place, b);
    return static_cast<u128>(int64_t{b.max_x} - b.min_x) * static_cast<u128>(int64_t{b.max_y} - b.min_y);
}

// Whether a box that meets the polygon's bounding box meets the polygon.
inline bool meets_polygon(const std::vector<Point> &vertices, const Box &b) {
    Point from = vertices.back();
    for (Point to : vertices) {
        // the corner that lies farthest to the left of the edge
        int64_t x = to.y >= from.y ? b.min_x : b.max_x, y = to.x >= from.x ? b.max_y : b.min_y;
        if (static_cast<i128>(to.x - from.x) * (y - from.y) < static_cast<i128>(to.y - from.y) * (x - from.x)) return false;
        from = to;
    }
    return true;
}

// Whether a box that meets `around` is accepted.
inline bool accepts(const Query &q, const Table &table, size_t at) {
    const Box &b = table.boxes[at];
    if (q.layers != endless && !(q.layers >> table.layers[at] & 1)) return false;
    if (q.region == Query::Inside) return is_inside(b, q.around);
    if (q.region == Query::Covers) return is_inside(q.around, b);
    if (q.region == Query::Circle) return near2(q.centre, b) <= static_cast<u128>(q.radius) * static_cast<u128>(q.radius);
    return q.region != Query::Polygon || meets_polygon(q.vertices, b);
}

// ---- answers

inline void print(std::string &out, u128 number) {
    char digits[40], *at = std::end(digits);
    for (; number > UINT64_MAX; number /= 10) *--at = static_cast<char>('0' + static_cast<int>(number % 10));
    char front[20];
    auto end = std::to_chars(front, std::end(front), static_cast<uint64_t>(number)).ptr;
    out.append(front, end).append(at, std::end(digits));
}
inline void print(std::string &out, int64_t number) {
    char digits[20];
    out.append(digits, std::to_chars(digits, std::end(digits), number).ptr);
}

template <class Item, class Less> void sort_first(std::vector<Item> &items, size_t count, Less less) {
    auto end = items.begin() + static_cast<std::ptrdiff_t>(count);
    if (end != items.end()) std::nth_element(items.begin(), end, items.end(), less);
    std::sort(items.begin(), end, less);
}

// The answers of a query, in order. Where they come by id, ids alone are sorted.
template <class Index> class Finder {
    const Table &table;
    const Index &index;

public:
    std::vector<int64_t> ids;  // of the last `by_id`
    std::vector<Hit> hits;     // of the last `by_score`

    Finder(const Table &table, const Index &index) : table(table), index(index) {}

    size_t count(const Query &q) const {
        size_t found = 0;
        index.search(q, [&](size_t at) { found += accepts(q, table, at); });
        return found;
    }
    size_t by_id(const Query &q) {
        ids.clear();
        index.search(q, [&](size_t at) { if (accepts(q, table, at)) ids.push_back(table.ids[at]); });
        size_t found = std::min<uint64_t>(ids.size(), q.limit);
        sort_first(ids, found, std::less<>());
        return found;
    }
    size_t by_score(const Query &q) {
        hits.clear();
        if (q.is_nearest()) index.nearest(q, hits);
        else index.search(q, [&](size_t at) {
            if (accepts(q, table, at)) hits.push_back({score_of(q, table.boxes[at]), table.ids[at]});
        });
        size_t found = std::min<uint64_t>(hits.size(), q.limit);
        sort_first(hits, found, [](const Hit &a, const Hit &b) {
            return a.score < b.score || (a.score == b.score && a.id < b.id);
        });
        return found;
    }
    size_t found(const Query &q) { return q.counts ? count(q) : q.order == Query::ById ? by_id(q) : by_score(q); }

    // Finds the answers, prints them, and returns their number.
    size_t print_found(std::string &out, const Query &q) {
        size_t many = found(q);
        if (q.counts) return many;
        for (size_t at = 0; at < many; at++)
            if (q.order == Query::ById) print(out, ids[at]), out += " 0\n";
            else print(out, hits[at].id), out += ' ', print(out, hits[at].score), out += '\n';
        return many;
    }
};

// The reply to a line.
template <class Index> class Answers {
    Finder<Index> finder;
    int64_t number = 0;
    std::string out;

public:
    Answers(const Table &table, const Index &index) : finder(table, index) {}

    void add(std::string_view line) {
        size_t found = finder.print_found(out, query_of(line));
        out += "ok ", print(out, ++number), out += ' ', print(out, static_cast<int64_t>(found)), out += '\n';
        if (out.size() > 65536) flush();
    }
    void flush() {
        for (size_t at = 0; at < out.size();) {
            ssize_t written = write(1, out.data() + at, out.size() - at);
            if (written < 0) fail("cannot write");
            at += static_cast<size_t>(written);
        }
        out.clear();
    }
};

template <class Index> int answer(int argc, char **argv) {
    if (argc != 2) fail("usage: peer TABLE < QUERIES");
    Table table = table_of(argv[1]);
    Index index(table);
    Answers<Index> answers(table, index);
    read_lines(0, [&](std::string_view line) { answers.add(line); }, [&] { answers.flush(); });
    return 0;
}

#ifdef IN_PROCESS  // its name there
#include "../library/index.hpp"
#define PEER(Library) static const Registered registered({IN_PROCESS, Peer<Library>::open, false});
#else
#define PEER(Library) int main(int argc, char **argv) { return answer<Library>(argc, argv); }
#endif
