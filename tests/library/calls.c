/* Each public call, each code, and misuse. calls FOLDER, in which there is a file boxes.csv, and room for others. */
#define _GNU_SOURCE
#include "expect.h"

#include <errno.h>
#include <fcntl.h>
#include <sys/wait.h>
#include <unistd.h>

#define LEN(array) (sizeof(array) / sizeof *(array))

static const char *folder;

static const char *path(const char *name)
{
    static char whole[4096];
    snprintf(whole, sizeof whole, "%s/%s", folder, name);
    return whole;
}

static void about_the_library(void)
{
    char version[32];
    snprintf(version, sizeof version, "%d.%d.%d", RTFILTER_VERSION_MAJOR, RTFILTER_VERSION_MINOR, RTFILTER_VERSION_PATCH);
    EXPECT(strcmp(rtfilter_version(), version) == 0);
    for (int code = RTFILTER_OK; code <= RTFILTER_BAD_PROCESSOR; code++) {
        EXPECT(strcmp(rtfilter_message(code), "unknown code") != 0);
        for (int other = RTFILTER_OK; other < code; other++)
            EXPECT(strcmp(rtfilter_message(code), rtfilter_message(other)) != 0);
    }
    EXPECT(strcmp(rtfilter_message(-1), "unknown code") == 0);
    EXPECT(strcmp(rtfilter_message(RTFILTER_BAD_PROCESSOR + 1), "unknown code") == 0);
}

/* ---- Tables */

static void tables_in_bytes(void)
{
    rtfilter_session session = RTFILTER_CLOSED;
    rtfilter_info info;
    memset(&info, 0xff, sizeof info);
    EXPECT(open_text(&session, BOXES, NULL, NULL) == RTFILTER_OK && session.at);
    EXPECT(open_text(&session, BOXES, NULL, NULL) == RTFILTER_MISUSE && session.at);
    EXPECT(rtfilter_info_of(&session, &info) == RTFILTER_OK);
    EXPECT(info.boxes == 5 && info.levels == 2 && info.level_sizes[0] == 5 && info.level_sizes[1] == 1);
    EXPECT(info.min_x == -5 && info.max_x == 30 && info.min_y == -5 && info.max_y == 15);
    for (size_t level = info.levels; level < LEN(info.level_sizes); level++)
        EXPECT(info.level_sizes[level] == 0);
    rtfilter_close(&session);
    EXPECT(!session.at);
    rtfilter_close(&session);
    rtfilter_close(NULL);

    /* No boxes. */
    EXPECT(rtfilter_open_bytes(&session, NULL, 0, NULL, NULL) == RTFILTER_OK);
    EXPECT(rtfilter_info_of(&session, &info) == RTFILTER_OK);
    EXPECT(info.boxes == 0 && info.levels == 1 && info.level_sizes[0] == 0 && info.min_x == 0 && info.max_y == 0);
    EXPECT(replies(&session, "find all", RTFILTER_OK, "ok 1 0\n"));
    rtfilter_close(&session);

    /* All settings. */
    const rtfilter_settings settings = {.header = true, .fanout = 2, .max_entries = 5};
    EXPECT(open_text(&session, "id,min_x,max_x,min_y,max_y\n" BOXES, &settings, NULL) == RTFILTER_OK);
    EXPECT(rtfilter_info_of(&session, &info) == RTFILTER_OK);
    EXPECT(info.boxes == 5 && info.levels == 4 && info.level_sizes[1] == 3 && info.level_sizes[2] == 2 &&
           info.level_sizes[3] == 1);
    rtfilter_close(&session);
}

static void faulty_tables(void)
{
    static const struct {
        const char *table;
        uint32_t kind, record;
        uint64_t field;
    } faults[] = {
        {"1,0,1,0,1\n2,0,1,0,1\n3,0,1,0,1\n4,0,1,0,1\n", RTFILTER_TOO_MANY, 4, 0},
        {"1,0,1,0,1\n\n1,2,3,4\n", RTFILTER_FIELD_COUNT, 2, 4},
        {"1,2,3,4,5,6,7\n", RTFILTER_FIELD_COUNT, 1, 7},
        {"1,0,x,0,1\n", RTFILTER_NOT_NUMBER, 1, 3},
        {"9223372036854775808,0,1,0,1\n", RTFILTER_OUT_OF_RANGE, 1, 1},
        {"1,0,1,0,1,64\n", RTFILTER_OUT_OF_RANGE, 1, 6},
        {"1,1,0,1,0\n", RTFILTER_MIN_ABOVE_MAX, 1, 2},
        {"1,0,1,1,0\n", RTFILTER_MIN_ABOVE_MAX, 1, 4},
        {"1,0,1,0,1\n2,0,1,0,1\n1,0,0,0,0\n", RTFILTER_REPEATED, 3, 1},
    };
    const rtfilter_settings three = {.fanout = 16, .max_entries = 3};
    rtfilter_session session = RTFILTER_CLOSED;
    for (size_t i = 0; i < LEN(faults); i++) {
        rtfilter_fault fault = {99, 99, 99};
        EXPECT(open_text(&session, faults[i].table, &three, &fault) == RTFILTER_BAD_TABLE && !session.at);
        EXPECT(fault.kind == faults[i].kind && fault.record == faults[i].record && fault.field == faults[i].field);
        EXPECT(open_text(&session, faults[i].table, &three, NULL) == RTFILTER_BAD_TABLE && !session.at);
    }
    static const rtfilter_settings wrong[] = {
        {.fanout = 1, .max_entries = 5},
        {.fanout = 65, .max_entries = 5},
        {.fanout = 16, .max_entries = 0},
        {.fanout = 16, .max_entries = 16777217},
        {.fanout = 16, .max_entries = 5, .reserved = {1}},
        {.fanout = 16, .max_entries = 5, .reserved = {0, 0, 0, 0, 0, 1}},
    };
    for (size_t i = 0; i < LEN(wrong); i++) {
        EXPECT(open_text(&session, BOXES, &wrong[i], NULL) == RTFILTER_BAD_SETTING && !session.at);
        EXPECT(rtfilter_open_arrays(&session, 0, NULL, NULL, NULL, NULL, NULL, NULL, &wrong[i], NULL) == RTFILTER_BAD_SETTING);
    }
    static const rtfilter_settings fine[] = {{.fanout = 2, .max_entries = 5}, {.fanout = 64, .max_entries = 16777216}};
    for (size_t i = 0; i < LEN(fine); i++) {
        EXPECT(open_text(&session, BOXES, &fine[i], NULL) == RTFILTER_OK);
        rtfilter_close(&session);
    }
}

/* A fault's text is the program's, as far as there is room. */
static void faults_in_words(void)
{
    static const struct {
        rtfilter_fault fault;
        const char *text;
    } faults[] = {
        {{RTFILTER_TOO_MANY, 4, 0}, "table record 4: too many entries"},
        {{RTFILTER_FIELD_COUNT, 2, UINT64_MAX}, "table record 2: wrong number of fields (18446744073709551615)"},
        {{RTFILTER_NOT_NUMBER, UINT32_MAX, 3}, "table record 4294967295: field 3 is not a number"},
        {{RTFILTER_OUT_OF_RANGE, 1, 6}, "table record 1: field 6 is out of range"},
        {{RTFILTER_MIN_ABOVE_MAX, 1, 2}, "table record 1: minimum above maximum in x"},
        {{RTFILTER_MIN_ABOVE_MAX, 1, 4}, "table record 1: minimum above maximum in y"},
        {{RTFILTER_REPEATED, 3, 1}, "table record 3: repeated id"},
    };
    char text[128];
    for (size_t i = 0; i < LEN(faults); i++) {
        const size_t len = strlen(faults[i].text);
        EXPECT(len <= 80);
        for (size_t size = 0; size <= sizeof text; size++) {
            memset(text, 'x', sizeof text);
            EXPECT(rtfilter_fault_message(&faults[i].fault, text, size) == len);
            const size_t copied = size == 0 ? 0 : len < size ? len : size - 1;
            EXPECT(memcmp(text, faults[i].text, copied) == 0 && (size == 0 || text[copied] == '\0'));
            EXPECT(size == sizeof text || text[size] == 'x');
        }
        EXPECT(rtfilter_fault_message(&faults[i].fault, NULL, 0) == len);
    }
    const rtfilter_fault none = {0, 1, 1}, unknown = {7, 1, 1};
    EXPECT(rtfilter_fault_message(&none, text, sizeof text) == 0 && text[0] == '\0');
    EXPECT(rtfilter_fault_message(&unknown, text, sizeof text) == 0 && text[0] == '\0');
    EXPECT(rtfilter_fault_message(NULL, text, sizeof text) == 0 && text[0] == '\0');
}

static void tables_in_arrays(void)
{
    int64_t ids[] = {1, INT64_MIN, INT64_MAX};
    int32_t min_x[] = {0, INT32_MIN, 5}, max_x[] = {10, INT32_MAX, 5}, min_y[] = {0, INT32_MIN, 5}, max_y[] = {0, INT32_MAX, 5};
    uint8_t layers[] = {0, 63, 7};
    const rtfilter_settings all = RTFILTER_DEFAULTS, two = {.header = true, .fanout = 16, .max_entries = 2};
    rtfilter_session session = RTFILTER_CLOSED;
    rtfilter_fault fault = {99, 99, 99};
    rtfilter_info info;

    EXPECT(rtfilter_open_arrays(&session, 3, ids, min_x, max_x, min_y, max_y, layers, &all, &fault) == RTFILTER_OK);
    EXPECT(rtfilter_info_of(&session, &info) == RTFILTER_OK && info.boxes == 3 && info.min_x == INT32_MIN &&
           info.max_y == INT32_MAX);
    EXPECT(replies(&session, "find all on 63,7", RTFILTER_OK,
                   "-9223372036854775808 0\n9223372036854775807 0\nok 1 2\n"));
    EXPECT(rtfilter_open_arrays(&session, 3, ids, min_x, max_x, min_y, max_y, layers, NULL, NULL) == RTFILTER_MISUSE);
    rtfilter_close(&session);
    EXPECT(rtfilter_open_arrays(&session, 3, ids, min_x, max_x, min_y, max_y, NULL, NULL, NULL) == RTFILTER_OK);
    EXPECT(replies(&session, "count all on 0", RTFILTER_OK, "ok 1 3\n"));
    EXPECT(rtfilter_info_of(&session, &info) == RTFILTER_OK && info.levels == 2);
    rtfilter_close(&session);
    EXPECT(rtfilter_open_arrays(&session, 0, NULL, NULL, NULL, NULL, NULL, NULL, NULL, NULL) == RTFILTER_OK);
    rtfilter_close(&session);

    EXPECT(rtfilter_open_arrays(&session, 3, ids, min_x, max_x, min_y, max_y, layers, &two, &fault) == RTFILTER_BAD_TABLE);
    EXPECT(fault.kind == RTFILTER_TOO_MANY && fault.record == 3 && fault.field == 0 && !session.at);
    layers[2] = 64;
    EXPECT(rtfilter_open_arrays(&session, 3, ids, min_x, max_x, min_y, max_y, layers, NULL, &fault) == RTFILTER_BAD_TABLE);
    EXPECT(fault.kind == RTFILTER_OUT_OF_RANGE && fault.record == 3 && fault.field == 6);
    layers[2] = 7;
    min_x[0] = 11;
    EXPECT(rtfilter_open_arrays(&session, 3, ids, min_x, max_x, min_y, max_y, layers, NULL, &fault) == RTFILTER_BAD_TABLE);
    EXPECT(fault.kind == RTFILTER_MIN_ABOVE_MAX && fault.record == 1 && fault.field == 2);
    min_x[0] = 10;
    max_y[2] = 4;
    EXPECT(rtfilter_open_arrays(&session, 3, ids, min_x, max_x, min_y, max_y, layers, NULL, &fault) == RTFILTER_BAD_TABLE);
    EXPECT(fault.kind == RTFILTER_MIN_ABOVE_MAX && fault.record == 3 && fault.field == 4);
    max_y[2] = 5;
    ids[2] = 1;
    EXPECT(rtfilter_open_arrays(&session, 3, ids, min_x, max_x, min_y, max_y, layers, NULL, &fault) == RTFILTER_BAD_TABLE);
    EXPECT(fault.kind == RTFILTER_REPEATED && fault.record == 3 && fault.field == 1 && !session.at);

    EXPECT(rtfilter_open_arrays(NULL, 1, ids, min_x, max_x, min_y, max_y, NULL, NULL, NULL) == RTFILTER_MISUSE);
    EXPECT(rtfilter_open_arrays(&session, 1, NULL, min_x, max_x, min_y, max_y, NULL, NULL, NULL) == RTFILTER_MISUSE);
    EXPECT(rtfilter_open_arrays(&session, 1, ids, NULL, max_x, min_y, max_y, NULL, NULL, NULL) == RTFILTER_MISUSE);
    EXPECT(rtfilter_open_arrays(&session, 1, ids, min_x, NULL, min_y, max_y, NULL, NULL, NULL) == RTFILTER_MISUSE);
    EXPECT(rtfilter_open_arrays(&session, 1, ids, min_x, max_x, NULL, max_y, NULL, NULL, NULL) == RTFILTER_MISUSE);
    EXPECT(rtfilter_open_arrays(&session, 1, ids, min_x, max_x, min_y, NULL, NULL, NULL, NULL) == RTFILTER_MISUSE);
    EXPECT(!session.at);
}

/* The same boxes as structs, and as rows in the order of other libraries. */
static void tables_in_rows(void)
{
    rtfilter_box boxes[] = {{7, 0, 10, 1, 11, 3}, {-9, 5, 15, 6, 16, 0}, {INT64_MAX, 20, 30, 21, 31, 63}};
    const int32_t bounds[][4] = {{0, 1, 10, 11}, {5, 6, 15, 16}, {20, 21, 30, 31}};
    int64_t ids[] = {7, -9, INT64_MAX};
    uint8_t layers[] = {3, 0, 63};
    const rtfilter_settings two = {.fanout = 16, .max_entries = 2};
    rtfilter_session session = RTFILTER_CLOSED;
    rtfilter_fault fault = {99, 99, 99};
    rtfilter_query third = rtfilter_all();
    third.layers = (uint64_t)1 << 3;

    for (int form = 0; form < 2; form++) {
        EXPECT((form ? rtfilter_open_boxes(&session, 3, boxes, NULL, &fault)
                     : rtfilter_open_bounds(&session, 3, ids, bounds, layers, NULL, &fault)) == RTFILTER_OK);
        EXPECT(FINDS(&session, rtfilter_all(), -9, 7, INT64_MAX));
        EXPECT(FINDS(&session, rtfilter_inside(0, 10, 1, 11), 7));
        EXPECT(FINDS(&session, rtfilter_covers(15, 15, 16, 16), -9));
        EXPECT(FINDS(&session, third, 7));
        rtfilter_close(&session);
    }
    /* Without ids and layers. */
    EXPECT(rtfilter_open_bounds(&session, 3, NULL, bounds, NULL, NULL, NULL) == RTFILTER_OK);
    EXPECT(FINDS(&session, rtfilter_all(), 0, 1, 2));
    EXPECT(FINDS(&session, rtfilter_covers(20, 30, 21, 31), 2));
    EXPECT(finds(&session, third, NULL, 0, 0, NULL));
    rtfilter_close(&session);
    EXPECT(rtfilter_open_boxes(&session, 0, NULL, NULL, NULL) == RTFILTER_OK);
    rtfilter_close(&session);
    EXPECT(rtfilter_open_bounds(&session, 0, NULL, NULL, NULL, NULL, NULL) == RTFILTER_OK);
    rtfilter_close(&session);

    EXPECT(rtfilter_open_boxes(&session, 3, boxes, &two, &fault) == RTFILTER_BAD_TABLE);
    EXPECT(fault.kind == RTFILTER_TOO_MANY && fault.record == 3 && fault.field == 0 && !session.at);
    EXPECT(rtfilter_open_bounds(&session, 3, ids, bounds, layers, &two, &fault) == RTFILTER_BAD_TABLE);
    EXPECT(fault.kind == RTFILTER_TOO_MANY && fault.record == 3 && fault.field == 0 && !session.at);
    const int32_t swapped[][4] = {{0, 1, 10, 11}, {5, 6, 15, 5}};
    EXPECT(rtfilter_open_bounds(&session, 2, ids, swapped, layers, NULL, &fault) == RTFILTER_BAD_TABLE);
    EXPECT(fault.kind == RTFILTER_MIN_ABOVE_MAX && fault.record == 2 && fault.field == 4);
    boxes[1].min_x = 16;
    EXPECT(rtfilter_open_boxes(&session, 3, boxes, NULL, &fault) == RTFILTER_BAD_TABLE);
    EXPECT(fault.kind == RTFILTER_MIN_ABOVE_MAX && fault.record == 2 && fault.field == 2);
    boxes[1].min_x = 5;
    boxes[2].layer = layers[2] = 64;
    EXPECT(rtfilter_open_boxes(&session, 3, boxes, NULL, &fault) == RTFILTER_BAD_TABLE);
    EXPECT(fault.kind == RTFILTER_OUT_OF_RANGE && fault.record == 3 && fault.field == 6);
    EXPECT(rtfilter_open_bounds(&session, 3, ids, bounds, layers, NULL, &fault) == RTFILTER_BAD_TABLE);
    EXPECT(fault.kind == RTFILTER_OUT_OF_RANGE && fault.record == 3 && fault.field == 6);
    boxes[2].layer = layers[2] = 63;
    boxes[2].id = ids[2] = 7;
    EXPECT(rtfilter_open_boxes(&session, 3, boxes, NULL, &fault) == RTFILTER_BAD_TABLE);
    EXPECT(fault.kind == RTFILTER_REPEATED && fault.record == 3 && fault.field == 1);
    EXPECT(rtfilter_open_bounds(&session, 3, ids, bounds, layers, NULL, &fault) == RTFILTER_BAD_TABLE);
    EXPECT(fault.kind == RTFILTER_REPEATED && fault.record == 3 && fault.field == 1);

    EXPECT(rtfilter_open_boxes(NULL, 1, boxes, NULL, NULL) == RTFILTER_MISUSE);
    EXPECT(rtfilter_open_boxes(&session, 1, NULL, NULL, NULL) == RTFILTER_MISUSE);
    EXPECT(rtfilter_open_bounds(NULL, 1, ids, bounds, layers, NULL, NULL) == RTFILTER_MISUSE);
    EXPECT(rtfilter_open_bounds(&session, 1, ids, NULL, layers, NULL, NULL) == RTFILTER_MISUSE);
    const rtfilter_settings wrong = {.fanout = 16, .max_entries = 2, .reserved = {1}};
    EXPECT(rtfilter_open_boxes(&session, 1, boxes, &wrong, NULL) == RTFILTER_BAD_SETTING);
    EXPECT(rtfilter_open_bounds(&session, 1, ids, bounds, layers, &wrong, NULL) == RTFILTER_BAD_SETTING);
    EXPECT(!session.at);
}

static void tables_in_files(void)
{
    rtfilter_session session = RTFILTER_CLOSED;
    rtfilter_fault fault;
    rtfilter_info info;
    EXPECT(rtfilter_open_file(&session, path("boxes.csv"), NULL, NULL) == RTFILTER_OK);
    EXPECT(FINDS(&session, rtfilter_window(0, 10, 0, 10), 1, 2));
    EXPECT(rtfilter_open_file(&session, path("boxes.csv"), NULL, NULL) == RTFILTER_MISUSE);
    rtfilter_close(&session);
    EXPECT(rtfilter_open_file(NULL, path("boxes.csv"), NULL, NULL) == RTFILTER_MISUSE);
    EXPECT(rtfilter_open_file(&session, NULL, NULL, NULL) == RTFILTER_MISUSE);
    errno = 0;
    EXPECT(rtfilter_open_file(&session, path("none"), NULL, NULL) == RTFILTER_BAD_FILE && errno == ENOENT && !session.at);
    EXPECT(rtfilter_open_file(&session, folder, NULL, NULL) == RTFILTER_BAD_FILE && errno == EISDIR && !session.at);
    const rtfilter_settings wrong = {.fanout = 1, .max_entries = 1};
    EXPECT(rtfilter_open_file(&session, path("boxes.csv"), &wrong, NULL) == RTFILTER_BAD_SETTING);
    EXPECT(rtfilter_open_file(&session, path("none"), &wrong, NULL) == RTFILTER_BAD_SETTING);
    EXPECT(rtfilter_open_file(&session, "/dev/null", NULL, NULL) == RTFILTER_OK);
    EXPECT(rtfilter_info_of(&session, &info) == RTFILTER_OK && info.boxes == 0);
    rtfilter_close(&session);
    const int bad = open(path("bad.csv"), O_WRONLY | O_CREAT | O_TRUNC, 0600);
    EXPECT(write(bad, "1,2\n", 4) == 4 && close(bad) == 0);
    EXPECT(rtfilter_open_file(&session, path("bad.csv"), NULL, &fault) == RTFILTER_BAD_TABLE);
    EXPECT(fault.kind == RTFILTER_FIELD_COUNT && fault.record == 1 && fault.field == 2);

    /* A pipe, which has no length, and from which much comes. */
    int ends[2];
    EXPECT(pipe(ends) == 0);
    const pid_t child = fork();
    if (child == 0) {
        FILE *table = fdopen(ends[1], "w");
        for (int i = 0; i < 20000; i++)
            fprintf(table, "%d,%d,%d,0,0\n", i, i, i);
        _exit(fclose(table));
    }
    close(ends[1]);
    char name[32];
    snprintf(name, sizeof name, "/dev/fd/%d", ends[0]);
    EXPECT(rtfilter_open_file(&session, name, NULL, NULL) == RTFILTER_OK);
    close(ends[0]);
    EXPECT(waitpid(child, NULL, 0) == child);
    EXPECT(rtfilter_info_of(&session, &info) == RTFILTER_OK && info.boxes == 20000 && info.max_x == 19999);
    rtfilter_close(&session);
}

/* The pages of memory that the process has mapped. */
static long pages(void)
{
    long count = 0;
    FILE *file = fopen("/proc/self/statm", "r");
    EXPECT(file && fscanf(file, "%ld", &count) == 1);
    fclose(file);
    return count;
}

/* A file that is opened again and again, or refused, leaves no descriptor and no map. */
static void nothing_is_left_of_files(void)
{
    enum { TIMES = 500 };
    rtfilter_session session = RTFILTER_CLOSED;
    const int before = dup(0);
    close(before);
    long mapped = 0, added;
    for (int i = 0; i < TIMES; i++) {
        EXPECT(rtfilter_open_file(&session, path("boxes.csv"), NULL, NULL) == RTFILTER_OK);
        rtfilter_close(&session);
        EXPECT(rtfilter_open_file(&session, path("bad.csv"), NULL, NULL) == RTFILTER_BAD_TABLE);
        EXPECT(rtfilter_open_file(&session, folder, NULL, NULL) == RTFILTER_BAD_FILE);
        if (i == TIMES / 10)
            mapped = pages();
    }
    added = pages() - mapped;
#ifdef VALGRIND /* keeps what is freed */
    added = 0;
#endif
    EXPECT(added < TIMES * 4);
    const int after = dup(0);
    close(after);
    EXPECT(before == after);
}

/* ---- Query lines */

static void lines_and_replies(void)
{
    static const char lines[] = "find window 0 10 0 10\n# nothing\n\nnearest 2 18 4\r\nlevels\nbad\ncount all";
    static const char reply[] = "1 0\n2 0\nok 1 2\n3 4\n2 10\nok 4 2\n1 1\n0 5\nok 5 2\nerror 6 Q2 unknown verb\nok 7 5\n";
    const size_t whole = sizeof reply - 1;
    rtfilter_session session = RTFILTER_CLOSED;
    char buffer[sizeof reply + 8];
    size_t len = 99, copied = 99;
    EXPECT(open_text(&session, BOXES, NULL, NULL) == RTFILTER_OK);
    EXPECT(rtfilter_reply(&session, 0, buffer, sizeof buffer, &copied) == RTFILTER_OK && copied == 0);
    for (size_t size = 0; size <= sizeof buffer; size++) {
        memset(buffer, '?', sizeof buffer);
        EXPECT(rtfilter_ask(&session, lines, sizeof lines - 1, size ? buffer : NULL, size, &len) == RTFILTER_FAULTY_LINE);
        const size_t front = size < whole ? size : whole;
        EXPECT(len == whole && memcmp(buffer, reply, front) == 0 && (front == sizeof buffer || buffer[front] == '?'));
        EXPECT(rtfilter_reply(&session, front, buffer + front, whole - front, &copied) == RTFILTER_OK);
        EXPECT(copied == whole - front && memcmp(buffer, reply, whole) == 0 && buffer[whole] == '?');
        EXPECT(rtfilter_reply(&session, size, buffer, 3, &copied) == RTFILTER_OK);
        EXPECT(copied == (size >= whole ? 0 : whole - size < 3 ? whole - size : 3) && !memcmp(buffer, reply + front, copied));
    }
    EXPECT(rtfilter_reply(&session, SIZE_MAX, buffer, 3, &copied) == RTFILTER_OK && copied == 0);

    /* Other calls leave the reply as it is. */
    rtfilter_session other = RTFILTER_CLOSED;
    const rtfilter_query query = rtfilter_all();
    rtfilter_info info;
    uint64_t counted;
    EXPECT(FINDS(&session, query, 1, 2, 3, 4, 5) && rtfilter_info_of(&session, &info) == RTFILTER_OK);
    EXPECT(rtfilter_count(&session, &(rtfilter_queries){&query, 1, NULL, 0}, &counted, NULL) == RTFILTER_OK && counted == 5);
    EXPECT(rtfilter_share(&session, &other) == RTFILTER_OK && replies(&other, "count all", RTFILTER_OK, "ok 1 5\n"));
    rtfilter_close(&other);
    EXPECT(rtfilter_reply(&session, 0, buffer, sizeof buffer, &copied) == RTFILTER_OK && copied == whole);
    EXPECT(memcmp(buffer, reply, whole) == 0);

    EXPECT(rtfilter_reply(&session, 0, NULL, 0, &copied) == RTFILTER_OK && copied == 0);
    EXPECT(rtfilter_forget(&session) == RTFILTER_OK);
    EXPECT(rtfilter_reply(&session, 0, buffer, sizeof buffer, &copied) == RTFILTER_OK && copied == 0);
    EXPECT(rtfilter_forget(&session) == RTFILTER_OK);
    EXPECT(rtfilter_ask(&session, NULL, 0, NULL, 0, &len) == RTFILTER_OK && len == 0);
    EXPECT(replies(&session, "count all", RTFILTER_OK, "ok 1 5\n"));
    rtfilter_close(&session);
}

/* ---- Queries in numbers */

static void helpers(rtfilter_session *session)
{
    static const rtfilter_point vertices[] = {{9, 9}, {0, 0}, {30, 0}, {0, 30}};
    EXPECT(FINDS(session, rtfilter_all(), 1, 2, 3, 4, 5));
    EXPECT(FINDS(session, rtfilter_window(10, 20, 10, 20), 1, 2, 3, 5));
    EXPECT(FINDS(session, rtfilter_inside(0, 15, 0, 15), 1, 2, 5));
    EXPECT(FINDS(session, rtfilter_covers(5, 5, 5, 5), 1, 2));
    EXPECT(FINDS(session, rtfilter_circle(0, 0, 2), 1, 4));
    EXPECT(FINDS(session, rtfilter_circle(0, 0, 1), 1));
    EXPECT(FINDS(session, rtfilter_nearest(12, 12, 3), 2, 5, 1));
    EXPECT(finds(session, rtfilter_polygon(1, 3), vertices, 4, 4, (const int64_t[]){1, 2, 3, 5}));
    rtfilter_query query = rtfilter_all();
    query.order = RTFILTER_SMALLEST;
    query.layers = (uint64_t)1 << 63 | 1;
    query.limit = 2;
    EXPECT(FINDS(session, query, 5, 4));
    query = rtfilter_circle(0, 0, 200);
    EXPECT(FINDS(session, query, 1, 4, 2, 5, 3));
    query.order = RTFILTER_BY_ID;
    EXPECT(FINDS(session, query, 1, 2, 3, 4, 5));
    query = rtfilter_nearest(0, 0, 0);
    EXPECT(finds(session, query, NULL, 0, 0, NULL));
}

/* The answers of three queries in arrays of any size, once a piece at a time and once by one query. */
static void pieces(rtfilter_session *session)
{
    static const int64_t whole[] = {1, 2, 3, 4, 5, 1, 2, 3, 2};
    static const size_t lists[] = {5, 7, 9};
    const rtfilter_query three[] = {rtfilter_all(), rtfilter_window(0, 10, 0, 10), rtfilter_nearest(18, 4, 2)};
    for (size_t capacity = 1; capacity <= LEN(whole) + 1; capacity++) {
        int64_t ids[LEN(whole) + 1];
        rtfilter_score scores[LEN(whole) + 1];
        size_t ends[3], skip = 0, taken = 0, first = 0;
        rtfilter_queries rest = {three, 3, NULL, 0};
        for (int code = RTFILTER_FULL; code == RTFILTER_FULL;) {
            rtfilter_answers answers = {ids, scores, capacity, ends, 9, 9};
            code = rtfilter_find(session, &rest, skip, &answers);
            EXPECT(code == RTFILTER_OK || (code == RTFILTER_FULL && answers.found == capacity));
            EXPECT(memcmp(ids, whole + taken, answers.found * sizeof *ids) == 0);
            for (size_t i = 0; i < answers.done; i++)
                EXPECT(taken + ends[i] == lists[first + i]);
            for (size_t i = 0; i < answers.found; i++)
                EXPECT(scores[i].high == 0 && scores[i].low == (taken + i == 7 ? 4 : taken + i == 8 ? 10 : 0));
            taken += answers.found;
            first += answers.done;
            rtfilter_continue(&rest, &skip, &answers);
        }
        EXPECT(taken == LEN(whole) && first == 3 && rest.len == 0);
    }

    /* The same if the first call leaves some out. */
    for (size_t left_out = 0; left_out <= LEN(whole) + 1; left_out++)
        for (size_t capacity = 1; capacity <= LEN(whole) + 1; capacity++) {
            int64_t ids[LEN(whole) + 1];
            size_t ends[3], skip = left_out, taken = left_out < LEN(whole) ? left_out : LEN(whole);
            rtfilter_queries rest = {three, 3, NULL, 0};
            for (int code = RTFILTER_FULL; code == RTFILTER_FULL;) {
                rtfilter_answers answers = {ids, NULL, capacity, ends, 9, 9};
                code = rtfilter_find(session, &rest, skip, &answers);
                EXPECT(code == RTFILTER_OK || (code == RTFILTER_FULL && answers.found == capacity));
                EXPECT(memcmp(ids, whole + taken, answers.found * sizeof *ids) == 0);
                taken += answers.found;
                rtfilter_continue(&rest, &skip, &answers);
            }
            EXPECT(taken == LEN(whole) && rest.len == 0);
        }

    /* Some are left out, and one query needs no ends. */
    for (size_t skip = 0; skip <= LEN(whole) + 1; skip++) {
        int64_t ids[LEN(whole)];
        size_t ends[3];
        const rtfilter_queries all = {three, 3, NULL, 0}, last = {three + 2, 1, NULL, 0};
        rtfilter_answers answers = {ids, NULL, LEN(whole), ends, 9, 9};
        EXPECT(rtfilter_find(session, &all, skip, &answers) == RTFILTER_OK && answers.done == 3);
        const size_t left = skip < LEN(whole) ? LEN(whole) - skip : 0;
        EXPECT(answers.found == left && memcmp(ids, whole + LEN(whole) - left, left * sizeof *ids) == 0);
        for (size_t i = 0; i < 3; i++)
            EXPECT(ends[i] == (lists[i] > skip ? lists[i] - skip : 0));
        answers = (rtfilter_answers){ids, NULL, 1, NULL, 9, 9};
        const int code = rtfilter_find(session, &last, skip, &answers);
        EXPECT(code == (skip ? RTFILTER_OK : RTFILTER_FULL) && answers.done == (skip > 0) && answers.found == (skip < 2));
        EXPECT(skip > 1 || ids[0] == whole[7 + skip]);
    }
    rtfilter_answers none = {NULL, NULL, 0, NULL, 9, 9};
    const rtfilter_queries one = {three, 1, NULL, 0}, no = {NULL, 0, NULL, 0};
    rtfilter_queries rest = no;
    size_t skip = 0;
    EXPECT(rtfilter_find(session, &one, 0, &none) == RTFILTER_FULL && none.done == 0 && none.found == 0);
    EXPECT(rtfilter_find(session, &no, 0, &none) == RTFILTER_OK && none.done == 0 && none.found == 0);
    rtfilter_continue(&rest, &skip, &none);
    EXPECT(rest.queries == NULL && rest.len == 0 && skip == 0);
}

static void measures(rtfilter_session *session)
{
    const rtfilter_query three[] = {rtfilter_all(), rtfilter_window(100, 200, 0, 0), rtfilter_nearest(0, 0, 0)};
    const rtfilter_queries queries = {three, 3, NULL, 0}, no = {NULL, 0, NULL, 0};
    uint64_t found[3] = {9, 9, 9};
    size_t done = 99;
    EXPECT(rtfilter_count(session, &queries, found, &done) == RTFILTER_OK && done == 3);
    EXPECT(found[0] == 5 && found[1] == 0 && found[2] == 5);
    EXPECT(rtfilter_cost_of_find(session, &queries, found, &done) == RTFILTER_OK && done == 3);
    EXPECT(found[0] == 1 && found[1] == 1 && found[2] == 0);
    EXPECT(rtfilter_cost_of_count(session, &queries, found, NULL) == RTFILTER_OK && done == 3);
    EXPECT(found[0] == 1 && found[1] == 1 && found[2] == 1);
    EXPECT(rtfilter_count(session, &no, NULL, &done) == RTFILTER_OK && done == 0);
}

static void invalid_queries(rtfilter_session *session)
{
    static const rtfilter_point points[20] = {{0, 0}, {10, 0}, {0, 10}, {5, 5}, {20, 20}};
    static const char *const why[] = {
        "unknown region", "unknown region", "unknown order", "minimum above maximum", "minimum above maximum",
        "minimum above maximum", "a polygon has 3 to 16 vertices", "vertices beyond those of the call",
        "vertices beyond those of the call", "vertices beyond those of the call", "polygon not strictly convex",
        "polygon not strictly convex", "no layer", "reserved member isn't 0", "unknown region", "a polygon has 3 to 16 vertices",
    };
    rtfilter_query wrong[LEN(why)];
    for (size_t i = 0; i < LEN(wrong); i++)
        wrong[i] = rtfilter_all();
    wrong[0].region = 6;
    wrong[1].region = UINT32_MAX;
    wrong[2].order = 3;
    wrong[3] = rtfilter_window(1, 0, 0, 0);
    wrong[4] = rtfilter_inside(0, 0, 1, 0);
    wrong[5] = rtfilter_covers(0, -1, 0, 0);
    wrong[6] = rtfilter_polygon(0, 2);
    wrong[7] = rtfilter_polygon(0, 17);
    wrong[8] = rtfilter_polygon(3, 3);
    wrong[9] = rtfilter_polygon(UINT32_MAX, UINT32_MAX);
    wrong[10] = rtfilter_polygon(0, 4);
    wrong[11] = rtfilter_polygon(1, 3);
    wrong[12].layers = 0;
    wrong[13].reserved = 1;
    wrong[14] = (rtfilter_query){.region = 6, .order = 3}; /* the first cause */
    wrong[15] = rtfilter_polygon(0, 17);
    for (size_t i = 0; i < LEN(wrong); i++) {
        const rtfilter_query two[] = {rtfilter_all(), wrong[i]};
        const rtfilter_queries queries = {two, 2, points, i == 15 ? LEN(points) : 5};
        EXPECT(strcmp(rtfilter_query_message(&queries, 0), "valid query") == 0);
        EXPECT(strcmp(rtfilter_query_message(&queries, 1), why[i]) == 0);
        EXPECT(strcmp(rtfilter_query_message(&queries, 2), "no query") == 0);
        int64_t ids[16];
        size_t ends[2] = {9, 9}, done = 9;
        uint64_t measured[2] = {9, 9};
        rtfilter_answers answers = {ids, NULL, 16, ends, 9, 9};
        EXPECT(rtfilter_find(session, &queries, 0, &answers) == RTFILTER_BAD_QUERY);
        EXPECT(answers.done == 1 && answers.found == 5 && ends[0] == 5 && ids[4] == 5);
        EXPECT(rtfilter_count(session, &queries, measured, &done) == RTFILTER_BAD_QUERY && done == 1 && measured[0] == 5);
        EXPECT(rtfilter_cost_of_find(session, &queries, measured, &done) == RTFILTER_BAD_QUERY && done == 1);
        EXPECT(rtfilter_cost_of_count(session, &queries, measured, NULL) == RTFILTER_BAD_QUERY);
    }
    EXPECT(strcmp(rtfilter_query_message(NULL, 0), "no query") == 0);
    /* A struct of zeros has no layer. */
    const rtfilter_query zeros = {0};
    const rtfilter_queries alone = {&zeros, 1, NULL, 0};
    EXPECT(strcmp(rtfilter_query_message(&alone, 0), "no layer") == 0);
    /* What isn't used is ignored. */
    rtfilter_query query = rtfilter_window(5, 4, 3, 2);
    query.region = RTFILTER_ALL;
    query.vertices = 99;
    EXPECT(FINDS(session, query, 1, 2, 3, 4, 5));
}

static void greatest_scores(void)
{
    rtfilter_session session = RTFILTER_CLOSED;
    const rtfilter_query two[] = {rtfilter_nearest(INT32_MIN, INT32_MIN, 1), rtfilter_all()};
    const rtfilter_queries far = {two, 1, NULL, 0}, large = {two + 1, 1, NULL, 0};
    int64_t id;
    rtfilter_score score;
    rtfilter_answers answers = {&id, &score, 1, NULL, 9, 9};
    EXPECT(open_text(&session, "-1,2147483647,2147483647,2147483647,2147483647\n", NULL, NULL) == RTFILTER_OK);
    EXPECT(rtfilter_find(&session, &far, 0, &answers) == RTFILTER_OK && id == -1);
    EXPECT(score.high == 1 && score.low == 18446744056529682434u); /* 36893488130239234050 */
    rtfilter_close(&session);
    rtfilter_query smallest = rtfilter_all();
    smallest.order = RTFILTER_SMALLEST;
    EXPECT(open_text(&session, "-1,-2147483648,2147483647,-2147483648,2147483647\n", NULL, NULL) == RTFILTER_OK);
    EXPECT(rtfilter_find(&session, &large, 0, &answers) == RTFILTER_OK && score.low == 0 && score.high == 0);
    EXPECT(rtfilter_find(&session, &(rtfilter_queries){&smallest, 1, NULL, 0}, 0, &answers) == RTFILTER_OK);
    EXPECT(score.high == 0 && score.low == 4294967295u * (uint64_t)4294967295u);
    rtfilter_close(&session);
}

/* ---- Misuse */

static void misuse(rtfilter_session *open)
{
    const rtfilter_query two[] = {rtfilter_all(), rtfilter_all()};
    const rtfilter_queries queries = {two, 2, NULL, 0}, no_queries = {NULL, 1, NULL, 0}, no_vertices = {two, 2, NULL, 1};
    rtfilter_session closed = RTFILTER_CLOSED, other = RTFILTER_CLOSED, *sessions[] = {NULL, &closed};
    int64_t ids[16];
    size_t ends[2], len = 9;
    uint64_t measured[2];
    char buffer[8];
    rtfilter_info info;
    rtfilter_answers answers = {ids, NULL, 16, ends, 9, 9}, no_ids = {NULL, NULL, 1, ends, 9, 9},
                     no_ends = {ids, NULL, 16, NULL, 9, 9};
    for (size_t i = 0; i < LEN(sessions); i++) {
        EXPECT(rtfilter_share(sessions[i], &other) == RTFILTER_MISUSE && !other.at);
        EXPECT(rtfilter_info_of(sessions[i], &info) == RTFILTER_MISUSE);
        EXPECT(rtfilter_ask(sessions[i], "", 0, buffer, 8, &len) == RTFILTER_MISUSE);
        EXPECT(rtfilter_reply(sessions[i], 0, buffer, 8, &len) == RTFILTER_MISUSE);
        EXPECT(rtfilter_forget(sessions[i]) == RTFILTER_MISUSE);
        EXPECT(rtfilter_find(sessions[i], &queries, 0, &answers) == RTFILTER_MISUSE);
        EXPECT(rtfilter_count(sessions[i], &queries, measured, &len) == RTFILTER_MISUSE);
        EXPECT(rtfilter_cost_of_find(sessions[i], &queries, measured, &len) == RTFILTER_MISUSE);
        EXPECT(rtfilter_cost_of_count(sessions[i], &queries, measured, &len) == RTFILTER_MISUSE);
    }
    EXPECT(open_text(NULL, BOXES, NULL, NULL) == RTFILTER_MISUSE);
    EXPECT(rtfilter_open_bytes(&closed, NULL, 1, NULL, NULL) == RTFILTER_MISUSE && !closed.at);
    EXPECT(rtfilter_share(open, NULL) == RTFILTER_MISUSE);
    EXPECT(rtfilter_share(open, open) == RTFILTER_MISUSE && open->at);
    EXPECT(rtfilter_info_of(open, NULL) == RTFILTER_MISUSE);
    EXPECT(rtfilter_ask(open, NULL, 1, buffer, 8, &len) == RTFILTER_MISUSE);
    EXPECT(rtfilter_ask(open, "", 0, NULL, 1, &len) == RTFILTER_MISUSE);
    EXPECT(rtfilter_ask(open, "", 0, buffer, 8, NULL) == RTFILTER_MISUSE);
    EXPECT(rtfilter_reply(open, 0, NULL, 1, &len) == RTFILTER_MISUSE);
    EXPECT(rtfilter_reply(open, 0, buffer, 8, NULL) == RTFILTER_MISUSE);
    EXPECT(rtfilter_find(open, NULL, 0, &answers) == RTFILTER_MISUSE);
    EXPECT(rtfilter_find(open, &no_queries, 0, &answers) == RTFILTER_MISUSE);
    EXPECT(rtfilter_find(open, &no_vertices, 0, &answers) == RTFILTER_MISUSE);
    EXPECT(rtfilter_find(open, &queries, 0, NULL) == RTFILTER_MISUSE);
    EXPECT(rtfilter_find(open, &queries, 0, &no_ids) == RTFILTER_MISUSE);
    EXPECT(rtfilter_find(open, &queries, 0, &no_ends) == RTFILTER_MISUSE);
    EXPECT(rtfilter_count(open, NULL, measured, &len) == RTFILTER_MISUSE);
    EXPECT(rtfilter_count(open, &no_queries, measured, &len) == RTFILTER_MISUSE);
    EXPECT(rtfilter_count(open, &queries, NULL, &len) == RTFILTER_MISUSE);
    EXPECT(answers.done == 9 && answers.found == 9 && no_ids.done == 9 && no_ends.found == 9 && len == 9);
    helpers(open);
}

int main(int count, char **words)
{
    EXPECT(count == 2);
    folder = words[1];
    rtfilter_session session = RTFILTER_CLOSED, other = RTFILTER_CLOSED;
    about_the_library();
    tables_in_bytes();
    faulty_tables();
    faults_in_words();
    tables_in_arrays();
    tables_in_rows();
    tables_in_files();
    nothing_is_left_of_files();
    lines_and_replies();
    EXPECT(open_text(&session, BOXES, NULL, NULL) == RTFILTER_OK);
    helpers(&session);
    pieces(&session);
    measures(&session);
    invalid_queries(&session);
    misuse(&session);
    EXPECT(rtfilter_share(&session, &other) == RTFILTER_OK && other.at != session.at);
    rtfilter_close(&session);
    helpers(&other);
    pieces(&other);
    rtfilter_close(&other);
    greatest_scores();
    puts("all as expected");
    return 0;
}
