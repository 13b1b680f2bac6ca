/* Opens a file, and prints what came of it. reads FILE, which is boxes.csv. */
#include "expect.h"

#include <errno.h>

int main(int count, char **words)
{
    rtfilter_session session = RTFILTER_CLOSED;
    EXPECT(count == 2);
    errno = 0;
    const int code = rtfilter_open_file(&session, words[1], NULL, NULL);
    const int cause = errno;
    EXPECT(code == RTFILTER_OK ? FINDS(&session, rtfilter_all(), 1, 2, 3, 4, 5) : !session.at);
    printf("%s %d\n", rtfilter_message(code), code == RTFILTER_OK ? 0 : cause);
    rtfilter_close(&session);
    return code;
}
