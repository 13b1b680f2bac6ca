/* Which boxes overlap a window? */
#include <rtfilter.h>
#include <stdio.h>

int main(void)
{
    const int64_t ids[] = {1, 2, 3};
    const int32_t min_x[] = {0, 5, 20}, max_x[] = {10, 15, 30}, min_y[] = {0, 5, 0}, max_y[] = {10, 15, 10};
    rtfilter_session session = RTFILTER_CLOSED;
    rtfilter_query window = rtfilter_window(0, 10, 0, 10); /* min_x, max_x, min_y, max_y */
    int64_t found[3];
    rtfilter_answers answers = {.ids = found, .capacity = 3};
    int code = rtfilter_open_arrays(&session, 3, ids, min_x, max_x, min_y, max_y, NULL, NULL, NULL);
    if (code == RTFILTER_OK)
        code = rtfilter_find(&session, &(rtfilter_queries){.queries = &window, .len = 1}, 0, &answers);
    for (size_t i = 0; code == RTFILTER_OK && i < answers.found; i++)
        printf("box %lld\n", (long long)found[i]);
    rtfilter_close(&session);
    return code;
}
