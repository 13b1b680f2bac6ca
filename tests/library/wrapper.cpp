// The C++ wrapper: what it answers, and what it throws. wrapper TABLE, which has the five boxes of examples/data.
#include "rtfilter.hpp"

#include <cstdio>
#include <cstdlib>
#include <thread>

#define EXPECT(it) ((it) ? (void)0 : (std::fprintf(stderr, "line %d: %s\n", __LINE__, #it), std::exit(1)))

template <class Call> static rtfilter::Error error_of(Call call)
{
    try {
        call();
    } catch (const rtfilter::Error &error) {
        return error;
    }
    EXPECT(!"nothing was thrown");
    std::abort();
}

static void answer(rtfilter::Session &session)
{
    const rtfilter_query window = rtfilter_window(0, 10, 0, 10), nearest = rtfilter_nearest(18, 4, 2);
    EXPECT((session.find(window) == std::vector<std::int64_t>{1, 2}));
    const rtfilter::Answers both = session.find_each({window, nearest}, {}, true);
    EXPECT((both.ids == std::vector<std::int64_t>{1, 2, 3, 2} && both.ends == std::vector<std::size_t>{2, 4}));
    EXPECT(both.scores.size() == 4 && both.scores[2].low == 4 && both.scores[3].low == 10 && both.scores[3].high == 0);
    EXPECT(session.count(window) == 2);
    rtfilter_query layers = rtfilter_all(), smallest = rtfilter_all();
    layers.layers = 1ull << 7;
    smallest.order = RTFILTER_SMALLEST;
    EXPECT(session.find(layers).empty());
    EXPECT((session.find(smallest) == std::vector<std::int64_t>{5, 4, 1, 2, 3}));
    EXPECT((session.find(rtfilter_inside(0, 15, 0, 15)) == std::vector<std::int64_t>{1, 2, 5}));
    EXPECT((session.find(rtfilter_covers(12, 12, 12, 12)) == std::vector<std::int64_t>{2, 5}));
    EXPECT((session.find(rtfilter_circle(0, 0, 2)) == std::vector<std::int64_t>{1, 4}));
    EXPECT(session.count(rtfilter_polygon(1, 3), {{9, 9}, {0, 0}, {30, 0}, {0, 30}}) == 4);
    EXPECT(session.info().boxes == 5 && session.info().levels == 2 && session.info().max_x == 30);
    const rtfilter::Reply reply = session.ask("find window 0 10 0 10\nbad\n");
    EXPECT(reply.is_faulty && reply.text == "1 0\n2 0\nok 1 2\nerror 2 Q2 unknown verb\n");
    EXPECT(!session.ask("count all").is_faulty);
    session.forget();
}

int main(int, char **words)
{
    rtfilter::Session session = rtfilter::Session::of_file(words[1]);
    answer(session);
    rtfilter::Session other = session.share();
    session = rtfilter::Session::of_boxes({{7, 0, 1, 0, 1}, {9, 5, 6, 5, 6, 3}});
    EXPECT((session.find(rtfilter_all()) == std::vector<std::int64_t>{7, 9}));
    rtfilter_query third = rtfilter_all();
    third.layers = 1 << 3;
    EXPECT((session.find(third) == std::vector<std::int64_t>{9}));
    const std::int64_t ids[] = {7, 9};
    const std::int32_t min_x[] = {0, 5}, max_x[] = {1, 6}, min_y[] = {10, 15}, max_y[] = {11, 16};
    const std::uint8_t layers[] = {0, 3};
    session = rtfilter::Session::of_columns({2, ids, min_x, max_x, min_y, max_y, layers});
    EXPECT((session.find(third) == std::vector<std::int64_t>{9}));
    EXPECT((session.find(rtfilter_inside(5, 6, 15, 16)) == std::vector<std::int64_t>{9}));
    session = rtfilter::Session::of_columns({2, ids, min_x, max_x, min_y, max_y});
    EXPECT(session.find(third).empty() && session.info().boxes == 2);

    /* Settings, and costs of finds and of counts, which differ. */
    const rtfilter_settings two = {true, 2, 5, {}};
    const std::string records = "1,0,10,0,10\n2,5,15,5,15\n3,20,30,0,10\n4,-5,-1,-5,-1\n5,12,12,12,12\n";
    session = rtfilter::Session::of_bytes("id,min_x,max_x,min_y,max_y\n" + records, two);
    EXPECT((session.cost_of_find({rtfilter_all(), rtfilter_nearest(12, 12, 2)}) == std::vector<std::uint64_t>{6, 3}));
    EXPECT((session.cost_of_count({rtfilter_all(), rtfilter_nearest(12, 12, 2)}) == std::vector<std::uint64_t>{1, 1}));
    EXPECT(error_of([&] { rtfilter::Session::of_bytes("header\n" + records + "6,0,0,0,0\n", two); }).fault.record == 7);
    EXPECT(error_of([&] { rtfilter::Session::of_file(words[1], {false, 16, 4, {}}); }).fault.kind == RTFILTER_TOO_MANY);
    std::thread(answer, std::ref(other)).join();

    // Lists longer than the first arrays, and a reply longer than the first buffer.
    std::vector<rtfilter::Box> boxes;
    for (int i = 0; i < 1000; i++)
        boxes.push_back({i, i, i, 0, 0});
    rtfilter::Session many = rtfilter::Session::of_boxes(boxes);
    const rtfilter::Answers all = many.find_each({rtfilter_all(), rtfilter_window(0, 9, 0, 0), rtfilter_all()});
    EXPECT((all.ends == std::vector<std::size_t>{1000, 1010, 2010}));
    for (std::size_t i = 0; i < all.ids.size(); i++)
        EXPECT(all.ids[i] == (std::int64_t)(i < 1000 ? i : i < 1010 ? i - 1000 : i - 1010));
    const rtfilter::Reply reply = many.ask("find all\n");
    EXPECT(reply.text.size() > 4096 && reply.text.substr(reply.text.size() - 16) == "999 0\nok 1 1000\n");

    rtfilter_query some = rtfilter_all();
    some.limit = 500;
    EXPECT(many.find(some).size() == 500 && many.find_each({some, rtfilter_all()}, {}, true).scores.size() == 1500);
    EXPECT(error_of([&] { many.find_each({rtfilter_all(), rtfilter_window(1, 0, 0, 0)}); }).query == 1);

    const auto table = error_of([] { rtfilter::Session::of_bytes("1,0,10,0,10\n2,9,0,0,0\n"); });
    EXPECT(table.code == RTFILTER_BAD_TABLE && table.fault.kind == RTFILTER_MIN_ABOVE_MAX && table.fault.record == 2);
    EXPECT(table.what() == std::string("table record 2: minimum above maximum in x"));
    const auto query = error_of([&] { other.find_each({rtfilter_all(), rtfilter_window(1, 0, 0, 0)}); });
    EXPECT(query.code == RTFILTER_BAD_QUERY && query.query == 1);
    EXPECT(query.what() == std::string("invalid query 1: minimum above maximum"));
    EXPECT(error_of([&] { other.count_each({rtfilter_all(), rtfilter_all(), rtfilter_window(1, 0, 0, 0)}); }).query == 2);
    const auto file = error_of([] { rtfilter::Session::of_file("/nowhere"); });
    EXPECT(file.cause == ENOENT && file.what() == std::string("cannot read file: No such file or directory"));
    EXPECT(error_of([] { rtfilter::Session::of_file(std::string("/dev/null\0more", 14)); }).code == RTFILTER_BAD_FILE);
    EXPECT(error_of([] { rtfilter::Session::of_bytes("", {false, 1, 1, {}}); }).code == RTFILTER_BAD_SETTING);
    const rtfilter::Session moved = std::move(many);
    EXPECT(error_of([&] { many.info(); }).code == RTFILTER_MISUSE);
    return 0;
}
