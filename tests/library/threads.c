/* Eight threads, each with a session of its own on one table, and one session that they hand to each other under a lock. What
 * each is answered is, byte for byte, what the main thread was answered before. */
#include "expect.h"

#include <pthread.h>

enum { THREADS = 8, COUNT = 2000, WINDOWS = 50, ROUNDS = 40, TEXTS = 4, CAPACITY = 1 << 16 };

/* What a session is answered. */
struct answered {
    int64_t ids[CAPACITY];
    rtfilter_score scores[CAPACITY];
    size_t ends[2 * WINDOWS];
    uint64_t counts[2 * WINDOWS];
    size_t found, len;
    char text[CAPACITY];
};

static rtfilter_query queries[2 * WINDOWS];
static char lines[CAPACITY];
static struct answered expected;
static rtfilter_session common = RTFILTER_CLOSED;
static pthread_mutex_t lock = PTHREAD_MUTEX_INITIALIZER;

static void ask_numbers(rtfilter_session *session, struct answered *it)
{
    const rtfilter_queries all = {queries, 2 * WINDOWS, NULL, 0};
    rtfilter_answers answers = {it->ids, it->scores, CAPACITY, it->ends, 0, 0};
    size_t done = 0;
    EXPECT(rtfilter_find(session, &all, 0, &answers) == RTFILTER_OK && answers.done == 2 * WINDOWS);
    EXPECT(rtfilter_count(session, &all, it->counts, &done) == RTFILTER_OK && done == 2 * WINDOWS);
    it->found = answers.found;
}

static void ask_lines(rtfilter_session *session, struct answered *it)
{
    EXPECT(rtfilter_ask(session, lines, strlen(lines), it->text, CAPACITY, &it->len) == RTFILTER_OK && it->len <= CAPACITY);
}

static void expect_the_same(const struct answered *it, int with_text)
{
    EXPECT(it->found == expected.found && memcmp(it->ends, expected.ends, sizeof it->ends) == 0);
    EXPECT(memcmp(it->ids, expected.ids, it->found * sizeof *it->ids) == 0);
    EXPECT(memcmp(it->scores, expected.scores, it->found * sizeof *it->scores) == 0);
    EXPECT(memcmp(it->counts, expected.counts, sizeof it->counts) == 0);
    EXPECT(!with_text || (it->len == expected.len && memcmp(it->text, expected.text, it->len) == 0));
}

static void *ask_much(void *own)
{
    rtfilter_session *session = own, another = RTFILTER_CLOSED;
    struct answered *it = calloc(1, sizeof *it);
    EXPECT(it);
    for (int round = 0; round < ROUNDS; round++) {
        const int with_text = round % (ROUNDS / TEXTS) == 0;
        ask_numbers(session, it);
        if (with_text)
            ask_lines(session, it);
        expect_the_same(it, with_text);
        pthread_mutex_lock(&lock);
        EXPECT(rtfilter_share(&common, &another) == RTFILTER_OK);
        ask_numbers(&common, it);
        pthread_mutex_unlock(&lock);
        expect_the_same(it, 0);
        rtfilter_close(session);
        *session = another;
        another = (rtfilter_session)RTFILTER_CLOSED;
    }
    free(it);
    return NULL;
}

int main(void)
{
    static int64_t ids[COUNT];
    static int32_t min_x[COUNT], max_x[COUNT], min_y[COUNT], max_y[COUNT];
    static uint8_t layers[COUNT];
    rtfilter_session sessions[THREADS] = {RTFILTER_CLOSED};
    pthread_t threads[THREADS];
    unsigned chance = 1;
    for (int i = 0; i < COUNT; i++) {
        chance = chance * 1103515245u + 12345u;
        min_x[i] = (int32_t)(chance >> 16 & 1023);
        min_y[i] = (int32_t)(chance >> 6 & 1023);
        ids[i] = i * 7919 % COUNT;
        max_x[i] = min_x[i] + i % 9;
        max_y[i] = min_y[i] + i % 7;
        layers[i] = (uint8_t)(i % 64);
    }
    char *end = lines;
    for (int i = 0; i < WINDOWS; i++) {
        const int x = i * 20, y = i * 13;
        queries[2 * i] = rtfilter_window(x, x + 100, y, y + 100);
        queries[2 * i + 1] = rtfilter_nearest(x, y, 20);
        end += sprintf(end, "find window %d %d %d %d\nnearest 20 %d %d\n", x, x + 100, y, y + 100, x, y);
    }
    EXPECT(rtfilter_open_arrays(&common, COUNT, ids, min_x, max_x, min_y, max_y, layers, NULL, NULL) == RTFILTER_OK);
    ask_numbers(&common, &expected);
    ask_lines(&common, &expected);
    EXPECT(expected.found > 10 * 2 * WINDOWS);
    for (int i = 0; i < THREADS; i++)
        EXPECT(rtfilter_share(&common, &sessions[i]) == RTFILTER_OK);
    for (int i = 0; i < THREADS; i++)
        EXPECT(pthread_create(&threads[i], NULL, ask_much, &sessions[i]) == 0);
    for (int i = 0; i < THREADS; i++)
        EXPECT(pthread_join(threads[i], NULL) == 0);
    rtfilter_close(&common);
    for (int i = 0; i < THREADS; i++)
        rtfilter_close(&sessions[i]);
    puts("all as expected");
    return 0;
}
