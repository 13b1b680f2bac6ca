/* Calls some of whose allocations are refused (tests/refuse.c): each is answered right, or says that memory is out. Then it is made
 * once more. Where it is refused again, all memory may be gone, and the test ends with status 6. refused FOLDER, with boxes.csv. */
#include "expect.h"

static rtfilter_session first = RTFILTER_CLOSED, second = RTFILTER_CLOSED, third = RTFILTER_CLOSED;
static const char *table;

static int open_file(void)
{
    return rtfilter_open_file(&first, table, NULL, NULL);
}

static int share(void)
{
    return rtfilter_share(&first, &second);
}

static int open_arrays(void)
{
    static const int64_t ids[] = {4, 2, 3};
    static const int32_t sides[] = {0, 5, 6};
    return rtfilter_open_arrays(&third, 3, ids, sides, sides, sides, sides, NULL, NULL, NULL);
}

static int open_bytes(void)
{
    return open_text(&third, BOXES, NULL, NULL);
}

static int ask(void)
{
    static const char lines[] = "find all\nbad\nnearest 2 18 4\n";
    static const char reply[] = "1 0\n2 0\n3 0\n4 0\n5 0\nok 1 5\nerror 2 Q2 unknown verb\n3 4\n2 10\nok 3 2\n";
    char buffer[sizeof reply];
    size_t len = 99, copied = 99;
    const int code = rtfilter_ask(&second, lines, sizeof lines - 1, buffer, sizeof buffer, &len);
    if (code == RTFILTER_FAULTY_LINE) {
        EXPECT(len == sizeof reply - 1 && memcmp(buffer, reply, len) == 0);
        return RTFILTER_OK;
    }
    EXPECT(len == 0 && rtfilter_reply(&second, 0, buffer, sizeof buffer, &copied) == RTFILTER_OK && copied == 0);
    return code;
}

static int find(void)
{
    const rtfilter_query two[] = {rtfilter_all(), rtfilter_nearest(18, 4, 2)};
    const rtfilter_queries queries = {two, 2, NULL, 0};
    int64_t ids[8];
    size_t ends[2];
    rtfilter_answers answers = {ids, NULL, 8, ends, 9, 9};
    const int code = rtfilter_find(&first, &queries, 0, &answers);
    if (code == RTFILTER_OK)
        EXPECT(answers.done == 2 && answers.found == 7 && ids[4] == 5 && ids[5] == 3 && ids[6] == 2 && ends[0] == 5);
    else
        EXPECT(answers.done == 0 && answers.found == 0);
    return code;
}

static int find_in_arrays(void)
{
    const rtfilter_query query = rtfilter_all();
    int64_t ids[4];
    rtfilter_answers answers = {ids, NULL, 4, NULL, 9, 9};
    const int code = rtfilter_find(&third, &(rtfilter_queries){&query, 1, NULL, 0}, 0, &answers);
    EXPECT(code != RTFILTER_OK || (answers.found == 3 && ids[0] == 2 && ids[1] == 3 && ids[2] == 4));
    return code;
}

static int measure(int (*call)(rtfilter_session *, const rtfilter_queries *, uint64_t *, size_t *), uint64_t expected)
{
    const rtfilter_query query = rtfilter_all();
    const rtfilter_queries queries = {&query, 1, NULL, 0};
    uint64_t measured = 99;
    size_t done = 99;
    const int code = call(&first, &queries, &measured, &done);
    EXPECT(code == RTFILTER_OK ? measured == expected && done == 1 : done == 0);
    return code;
}

static int count(void)
{
    return measure(rtfilter_count, 5);
}

static int cost_of_find(void)
{
    return measure(rtfilter_cost_of_find, 1);
}

static int cost_of_count(void)
{
    return measure(rtfilter_cost_of_count, 1);
}

static void make(const char *name, int (*call)(void))
{
    int code = call();
    if (code == RTFILTER_NO_MEMORY)
        code = call();
    if (code != RTFILTER_OK && code != RTFILTER_NO_MEMORY)
        fprintf(stderr, "%s: %s\n", name, rtfilter_message(code));
    if (code == RTFILTER_OK)
        return;
    rtfilter_close(&first);
    rtfilter_close(&second);
    rtfilter_close(&third);
    exit(code);
}
#define MAKE(call) make(#call, call)

int main(int words, char **word)
{
    EXPECT(words == 2);
    table = word[1];
    MAKE(open_file);
    MAKE(share);
    for (int round = 0; round < 2; round++) {
        MAKE(ask);
        MAKE(find);
        MAKE(count);
        MAKE(cost_of_find);
        MAKE(cost_of_count);
        EXPECT(rtfilter_forget(&second) == RTFILTER_OK);
    }
    MAKE(open_bytes);
    rtfilter_close(&third);
    MAKE(open_arrays);
    MAKE(find_in_arrays);
    rtfilter_close(&first);
    MAKE(ask);
    rtfilter_close(&second);
    rtfilter_close(&third);
    return 0;
}
