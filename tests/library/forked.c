/* A process forks after the load: its children are answered over the table that they share with it. forked FOLDER, with
 * boxes.csv. */
#include "expect.h"

#include <sys/wait.h>
#include <unistd.h>

static void answer(rtfilter_session *session)
{
    rtfilter_session other = RTFILTER_CLOSED;
    for (int round = 0; round < 100; round++) {
        EXPECT(FINDS(session, rtfilter_window(0, 10, 0, 10), 1, 2));
        EXPECT(FINDS(session, rtfilter_nearest(18, 4, 2), 3, 2));
    }
    EXPECT(replies(session, "find window 0 10 0 10\nx\n", RTFILTER_FAULTY_LINE, "1 0\n2 0\nok 1 2\nerror 2 Q2 unknown verb\n"));
    EXPECT(rtfilter_share(session, &other) == RTFILTER_OK && FINDS(&other, rtfilter_all(), 1, 2, 3, 4, 5));
    rtfilter_close(&other);
}

int main(int count, char **words)
{
    enum { CHILDREN = 8 };
    rtfilter_session session = RTFILTER_CLOSED;
    pid_t children[CHILDREN];
    EXPECT(count == 2 && rtfilter_open_file(&session, words[1], NULL, NULL) == RTFILTER_OK);
    for (int i = 0; i < CHILDREN; i++) {
        children[i] = fork();
        if (children[i] == 0) {
            answer(&session);
            rtfilter_close(&session);
            _exit(0);
        }
    }
    answer(&session);
    for (int i = 0; i < CHILDREN; i++) {
        int status = 1;
        EXPECT(waitpid(children[i], &status, 0) == children[i] && status == 0);
    }
    answer(&session);
    rtfilter_close(&session);
    puts("all as expected");
    return 0;
}
