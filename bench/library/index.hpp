// What is measured in one process: an index behind calls, and the list of all of them. bench/peers/peer.hpp includes it.
#pragma once
#include "../peers/peer.hpp"
#include <memory>

// The sides of a table's boxes in arrays of their own.
struct Columns {
    std::vector<int32_t> min_x, max_x, min_y, max_y;

    explicit Columns(const Table &table) {
        for (const Box &b : table.boxes)
            min_x.push_back(b.min_x), max_x.push_back(b.max_x), min_y.push_back(b.min_y), max_y.push_back(b.max_y);
    }
};
// They are made once, since a process has one table.
inline const Columns &columns_of(const Table &table) {
    static const Columns columns(table);
    return columns;
}

// Queries of one kind, and the same as lines.
struct Workload {
    std::vector<std::string> lines;
    std::vector<Query> queries;
};

class Index {
public:
    virtual ~Index() = default;
    // Takes the queries of the calls that follow, in the form in which the library has them.
    virtual void prepare(const Workload &) = 0;
    // Answers the queries from one place up to another. What it returns depends on all answers.
    virtual size_t run(size_t from, size_t upto) = 0;
    // The same answers as text: a line `id score` for each and `ok number` after those of a query.
    virtual void reply(size_t from, size_t upto, std::string &out) = 0;
    // The same index for another thread, or null if the library has no such thing.
    virtual std::unique_ptr<Index> shared() = 0;
};

struct Entry {
    const char *name;
    std::unique_ptr<Index> (*open)(const Table &);
    bool is_form;  // another form of calls of an index that is there already
};

inline std::vector<Entry> &entries() {
    static std::vector<Entry> all;
    return all;
}
struct Registered {
    explicit Registered(Entry it) { entries().push_back(it); }
};

inline void end_reply(std::string &out, size_t found) {
    out += "ok ", print(out, static_cast<int64_t>(found)), out += '\n';
}

// A peer, by the same search and the same exact tests as in its program. Its answers stay where it finds them.
template <class Library> class Peer : public Index {
    const Table &table;
    std::shared_ptr<Library> library;
    Finder<Library> finder;
    const Query *queries = nullptr;

    Peer(const Table &table, std::shared_ptr<Library> it) : table(table), library(it), finder(table, *library) {}

public:
    explicit Peer(const Table &table) : Peer(table, std::make_shared<Library>(table)) {}

    static std::unique_ptr<Index> open(const Table &table) { return std::make_unique<Peer>(table); }

    void prepare(const Workload &work) override { queries = work.queries.data(); }
    size_t run(size_t from, size_t upto) override {
        size_t found = 0;
        for (size_t at = from; at < upto; at++) found += finder.found(queries[at]);
        return found;
    }
    void reply(size_t from, size_t upto, std::string &out) override {
        for (size_t at = from; at < upto; at++) end_reply(out, finder.print_found(out, queries[at]));
    }
    std::unique_ptr<Index> shared() override {
        auto it = Library::shared(library);
        return it ? std::unique_ptr<Index>(new Peer(table, it)) : nullptr;
    }
};
