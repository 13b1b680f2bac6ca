// Measures indexes in one process, over one table and the same queries, for bench/in_process.py.
//
//     library TABLE LINES..
//
// TABLE is CSV, and each file has query lines of one kind, the first those that threads answer too. Each line of standard
// output has a figure, an index, a number and a value, with tabs between them:
//
// - `differs`, with the number of a file: its replies aren't those of the first index
// - `query`, with the number of a file: the seconds of a query
// - `open`: the seconds until the index can be asked
// - `memory`: the bytes that an index has written to once it is open
// - `threads`, with the number of threads: the seconds of all of them for a query of one
//
// Seconds are those of the processor, but for threads those of the wall. The indexes take turns, as often each, but for those
// that are slow. Queries are parted, and the least time of each part counts: so a noisy moment spoils one part of one turn.
#include "index.hpp"
#include <atomic>
#include <cmath>
#include <limits>
#include <malloc.h>
#include <sys/wait.h>
#include <thread>
#include <time.h>

constexpr double ALL_SECONDS = 120;     // of all passes; the last one may take longer
constexpr int ROUNDS = 6;               // of a pass; if they are slow, one in every third pass
constexpr size_t PART = 1000;           // queries that are timed at once
constexpr double PART_SECONDS = 0.01;   // of a part, which has fewer queries if they are slow
constexpr double ROUND_SECONDS = 0.1;   // what is longer is slow
constexpr size_t THREADS[] = {1, 2, 4};
constexpr size_t PARTS = 10, TURNS = 5 * PARTS;  // of threads
constexpr double TURN_SECONDS = 0.002;

static double seconds(clockid_t clock) {
    timespec now;
    clock_gettime(clock, &now);
    return static_cast<double>(now.tv_sec) + 1e-9 * static_cast<double>(now.tv_nsec);
}
static double used() { return seconds(CLOCK_THREAD_CPUTIME_ID); }
static double wall() { return seconds(CLOCK_MONOTONIC); }

static void found(const char *figure, const Entry &entry, size_t number, double value) {
    std::printf("%s\t%s\t%zu\t%.9g\n", figure, entry.name, number, value);
    std::fflush(stdout);
}

static Workload workload_of(const char *path) {
    int file = open(path, O_RDONLY);
    if (file < 0) fail("cannot open the lines");
    Workload work;
    read_lines(file, [&](std::string_view line) {
        work.lines.emplace_back(line);
        work.queries.push_back(query_of(line));
    }, [] {});
    close(file);
    return work;
}

static volatile size_t sink;  // so that nothing is left out

// ---- memory

static double private_bytes() {
    malloc_trim(0);
    std::FILE *file = std::fopen("/proc/self/smaps_rollup", "r");
    if (!file) fail("cannot read /proc/self/smaps_rollup");
    char line[256];
    long kilobytes = 0;
    while (std::fgets(line, sizeof line, file))
        if (std::sscanf(line, "Private_Dirty: %ld", &kilobytes) == 1) break;
    std::fclose(file);
    return 1024.0 * static_cast<double>(kilobytes);
}

// In a child, which has no memory of its own before.
static void memory(const Entry &entry, const Table &table) {
    pid_t child = fork();
    if (child < 0) fail("cannot fork");
    if (child == 0) {
        double before = private_bytes();
        auto index = entry.open(table);
        found("memory", entry, 0, private_bytes() - before);
        _exit(0);
    }
    int status;
    if (waitpid(child, &status, 0) < 0 || status != 0) fail("a child has failed");
}

// ---- one thread

using Indexes = std::vector<std::pair<const Entry *, std::unique_ptr<Index>>>;

constexpr double ENDLESS = std::numeric_limits<double>::infinity();

// What it takes to open an index.
struct Opening {
    const Entry *entry;
    double least = ENDLESS;

    void pass(const Table &table, bool with_slow) {
        for (int round = 0; round < ROUNDS && (least < ROUND_SECONDS || (round == 0 && with_slow)); round++) {
            double begun = used();
            auto index = entry->open(table);
            least = std::min(least, used() - begun);
        }
    }
};

// How many queries are timed at once: this many, or a half of them, and so on, if they are slow.
static size_t part_of(Index &index, size_t count) {
    size_t few = std::min<size_t>(count, 20);
    double begun = used();
    sink = index.run(0, few);
    double each = (used() - begun) / static_cast<double>(few);
    size_t part = count;
    while (part > 20 && each * static_cast<double>(part) > PART_SECONDS) part /= 2;
    return part;
}

// What the queries of a kind take an index, by parts.
struct Turns {
    size_t part;
    std::vector<double> least;

    double sum() const {
        double all = 0;
        for (double it : least) all += it;
        return all;
    }
    void round(Index &index, size_t count) {
        for (size_t at = 0; at < least.size(); at++) {
            double begun = used();
            sink = index.run(at * part, std::min(count, (at + 1) * part));
            least[at] = std::min(least[at], used() - begun);
        }
    }
};

// The queries of a kind.
struct Kind {
    size_t number;
    const Workload *work;
    std::vector<Turns> turns;  // of each index

    size_t count() const { return work->queries.size(); }

    void prepare(const Indexes &indexes) const {
        for (const auto &[_, index] : indexes) index->prepare(*work);
    }
    void compare(const Indexes &indexes) const {
        std::string first, other;
        for (const auto &[entry, index] : indexes) {
            std::string &out = entry == indexes.front().first ? first : other;
            out.clear();
            index->reply(0, std::min(count(), PART), out);
            if (&out == &other && other != first) found("differs", *entry, number, 1);
        }
    }
    void begin(const Indexes &indexes) {
        prepare(indexes);
        compare(indexes);
        for (const auto &[_, index] : indexes) {
            size_t part = part_of(*index, std::min(PART, count()));
            turns.push_back({part, std::vector<double>((count() + part - 1) / part, ENDLESS)});
        }
    }
    void pass(const Indexes &indexes, bool with_slow) {
        prepare(indexes);
        for (int round = 0; round < ROUNDS; round++)
            for (size_t at = 0; at < indexes.size(); at++)
                if (turns[at].sum() < ROUND_SECONDS || (round == 0 && with_slow))
                    turns[at].round(*indexes[at].second, count());
    }
    void end(const Indexes &indexes) const {
        for (size_t at = 0; at < indexes.size(); at++)
            found("query", *indexes[at].first, number, turns[at].sum() / static_cast<double>(count()));
    }
};

// ---- threads

static void sleep_until(double time) {
    timespec at{static_cast<time_t>(time), static_cast<long>(1e9 * (time - std::floor(time)))};
    clock_nanosleep(CLOCK_MONOTONIC, TIMER_ABSTIME, &at, nullptr);
}

// An index of each of some threads, and what they took.
struct Team {
    const Entry *entry;
    size_t part;
    std::vector<std::unique_ptr<Index>> threads;
    std::vector<double> least = std::vector<double>(PARTS, ENDLESS);

    // All threads begin each turn at once, each with another part of the queries, and a turn takes as long as the last of
    // them. Before it they sleep, since who has slept isn't soon sent off the processor, and answer another part.
    void race() {
        std::atomic<size_t> ready{0};
        std::vector<std::vector<double>> begins(threads.size()), ends(threads.size());
        double begun = wall();
        auto all_ready = [&](size_t times) {
            ready++;
            while (ready < times * threads.size()) {}
        };
        auto answer = [&](size_t at, size_t turn) {
            size_t from = (turn + at) % PARTS * part;
            volatile size_t kept = threads[at]->run(from, from + part);
            (void)kept;
        };
        std::vector<std::thread> running;
        for (size_t at = 0; at < threads.size(); at++)
            running.emplace_back([&, at] {
                for (size_t turn = 0; turn < TURNS; turn++) {
                    sleep_until(begun + TURN_SECONDS * static_cast<double>(turn + 1));
                    all_ready(2 * turn + 1);
                    answer(at, turn + PARTS - 1);
                    all_ready(2 * turn + 2);
                    begins[at].push_back(wall());
                    answer(at, turn);
                    ends[at].push_back(wall());
                }
            });
        for (std::thread &it : running) it.join();
        for (size_t turn = 0; turn < TURNS; turn++) {
            double begin = begins[0][turn], end = ends[0][turn];
            for (size_t at = 1; at < threads.size(); at++)
                begin = std::min(begin, begins[at][turn]), end = std::max(end, ends[at][turn]);
            least[turn % PARTS] = std::min(least[turn % PARTS], end - begin);
        }
    }
    double seconds_of_query() const {
        double sum = 0;
        for (double it : least) sum += it;
        return sum / static_cast<double>(PARTS * part * threads.size());
    }
};

static std::vector<Team> teams_of(const Indexes &indexes, const Workload &work) {
    std::vector<Team> teams;
    for (const auto &[entry, index] : indexes)
        for (size_t many : THREADS) {
            if (entry->is_form) continue;
            Team team{entry, 0, {}};
            for (size_t at = 0; at < many; at++)
                if (auto one = index->shared()) one->prepare(work), team.threads.push_back(std::move(one));
            if (team.threads.empty()) continue;
            // (parts are short, so that no thread loses its processor in some of them)
            team.part = part_of(*team.threads.front(), std::min(PART, work.queries.size() / PARTS)) / 4;
            teams.push_back(std::move(team));
        }
    return teams;
}

int main(int argc, char **argv) {
    if (argc < 3) fail("usage: library TABLE LINES..");
    Table table = table_of(argv[1]);
    columns_of(table);
    std::vector<Workload> works;
    for (int at = 2; at < argc; at++) works.push_back(workload_of(argv[at]));
    std::vector<Opening> openings;
    for (const Entry &entry : entries())
        if (!entry.is_form) memory(entry, table), openings.push_back({&entry});
    Indexes indexes;
    for (const Entry &entry : entries()) indexes.emplace_back(&entry, entry.open(table));
    std::vector<Kind> kinds;
    for (const Workload &work : works) kinds.push_back({kinds.size(), &work, {}}), kinds.back().begin(indexes);
    std::vector<Team> teams = teams_of(indexes, works.front());

    // All is measured in each pass, so that what slows the machine for a while meets all figures in some passes alone.
    double begun = wall();
    for (int pass = 0; wall() - begun < ALL_SECONDS; pass++) {
        for (Opening &it : openings) it.pass(table, pass % 3 == 0);
        for (Kind &it : kinds) it.pass(indexes, pass % 3 == 0);
        for (int round = 0; round < ROUNDS; round++)
            for (Team &it : teams) it.race();
    }
    for (const Opening &it : openings) found("open", *it.entry, 0, it.least);
    for (const Kind &it : kinds) it.end(indexes);
    for (const Team &it : teams) found("threads", *it.entry, it.threads.size(), it.seconds_of_query());
    return 0;
}
