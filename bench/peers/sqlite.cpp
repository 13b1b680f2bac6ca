// SQLite's R*Tree of 32-bit coordinates, in memory, filled in one transaction and asked by prepared statements.
#include "peer.hpp"
#include <memory>
#include <sqlite3.h>

class Sqlite {
    const Table &table;
    sqlite3 *database;
    sqlite3_stmt *meets, *inside, *covers, *near;
    std::string copy;  // the file of `shared`, once there is one

    void must(int code) const {
        if (code != SQLITE_OK && code != SQLITE_DONE) fail(sqlite3_errmsg(database));
    }
    sqlite3_stmt *prepared(const char *text) const {
        sqlite3_stmt *statement;
        must(sqlite3_prepare_v3(database, text, -1, SQLITE_PREPARE_PERSISTENT, &statement, nullptr));
        return statement;
    }

    // The query function of a search for the nearest: the least score is taken out first.
    static int distance(sqlite3_rtree_query_info *info) {
        int32_t sides[4];
        for (int side = 0; side < 4; side++) sides[side] = static_cast<int32_t>(info->aCoord[side]);
        Point place{static_cast<int64_t>(info->aParam[0]), static_cast<int64_t>(info->aParam[1])};
        info->rScore = static_cast<double>(near2(place, {sides[0], sides[1], sides[2], sides[3]}));
        info->eWithin = PARTLY_WITHIN;
        return SQLITE_OK;
    }

    void open(const char *name, int flags) {
        must(sqlite3_open_v2(name, &database, flags | SQLITE_OPEN_NOMUTEX, nullptr));
    }
    void run(const char *text) const { must(sqlite3_exec(database, text, nullptr, nullptr, nullptr)); }

    void fill() const {
        run("CREATE VIRTUAL TABLE boxes USING rtree_i32(place, minX, maxX, minY, maxY); BEGIN");
        sqlite3_stmt *insert = prepared("INSERT INTO boxes VALUES (?, ?, ?, ?, ?)");
        for (size_t at = 0; at < table.boxes.size(); at++) {
            const Box &b = table.boxes[at];
            sqlite3_bind_int64(insert, 1, static_cast<int64_t>(at));
            const int32_t sides[] = {b.min_x, b.max_x, b.min_y, b.max_y};
            for (int side = 0; side < 4; side++) sqlite3_bind_int(insert, 2 + side, sides[side]);
            must(sqlite3_step(insert));
            must(sqlite3_reset(insert));
        }
        must(sqlite3_finalize(insert));
        run("COMMIT");
    }
    void prepare() {
        must(sqlite3_rtree_query_callback(database, "near", distance, nullptr, nullptr));
        meets = prepared("SELECT place FROM boxes WHERE minX <= ?2 AND maxX >= ?1 AND minY <= ?4 AND maxY >= ?3");
        inside = prepared("SELECT place FROM boxes WHERE minX >= ?1 AND maxX <= ?2 AND minY >= ?3 AND maxY <= ?4");
        covers = prepared("SELECT place FROM boxes WHERE minX <= ?1 AND maxX >= ?2 AND minY <= ?3 AND maxY >= ?4");
        near = prepared("SELECT place FROM boxes WHERE place MATCH near(?, ?)");
    }

    // A connection to a file that nothing changes, so that no search locks it.
    Sqlite(const Table &table, const std::string &file) : table(table) {
        open(("file:" + file + "?immutable=1").c_str(), SQLITE_OPEN_READONLY | SQLITE_OPEN_URI);
        run("PRAGMA cache_size = -262144; PRAGMA mmap_size = 1073741824");
        prepare();
    }

public:
    explicit Sqlite(const Table &table) : table(table) {
        sqlite3_config(SQLITE_CONFIG_MEMSTATUS, 0);  // what is counted there is counted under a lock
        open(":memory:", SQLITE_OPEN_READWRITE);
        fill();
        prepare();
    }
    ~Sqlite() {
        for (sqlite3_stmt *it : {meets, inside, covers, near}) sqlite3_finalize(it);
        sqlite3_close(database);
        if (!copy.empty()) unlink(copy.c_str());
    }

    // For another thread: a connection of its own, to a copy in a file.
    static std::shared_ptr<Sqlite> shared(const std::shared_ptr<Sqlite> &it) {
        if (it->copy.empty()) {
            it->copy = "/tmp/rtfilter-bench-" + std::to_string(getpid()) + ".db";
            it->run(("VACUUM INTO '" + it->copy + "'").c_str());
        }
        return std::shared_ptr<Sqlite>(new Sqlite(it->table, it->copy));
    }

    template <class Visit> void search(const Query &q, Visit visit) const {
        sqlite3_stmt *select = q.region == Query::Inside ? inside : q.region == Query::Covers ? covers : meets;
        const int32_t sides[] = {q.around.min_x, q.around.max_x, q.around.min_y, q.around.max_y};
        for (int side = 0; side < 4; side++) sqlite3_bind_int(select, 1 + side, sides[side]);
        while (sqlite3_step(select) == SQLITE_ROW) visit(static_cast<size_t>(sqlite3_column_int64(select, 0)));
        must(sqlite3_reset(select));
    }

    // Scores are floating point there, which keeps the order but not ties: rows are read until one is surely farther.
    void nearest(const Query &q, std::vector<Hit> &hits) const {
        sqlite3_bind_int64(near, 1, q.place.x);
        sqlite3_bind_int64(near, 2, q.place.y);
        double last = 0;
        while (q.limit > 0 && sqlite3_step(near) == SQLITE_ROW) {
            auto at = static_cast<size_t>(sqlite3_column_int64(near, 0));
            if (!accepts(q, table, at)) continue;
            u128 score = near2(q.place, table.boxes[at]);
            if (hits.size() >= q.limit && static_cast<double>(score) > last) break;
            last = static_cast<double>(score);
            hits.push_back({score, table.ids[at]});
        }
        must(sqlite3_reset(near));
    }
};

PEER(Sqlite)
