/* The library on a processor that isn't an x86-64-v2, or doesn't say what it is. */
#define _GNU_SOURCE
#include <cpuid.h>

static unsigned greatest, lacking_at, lacking;

/* What stands for the processor: it knows no leaf above a number, and lacks a feature of some leaf. */
static int some_cpuid(unsigned leaf, unsigned *a, unsigned *b, unsigned *c, unsigned *d)
{
    if (leaf > greatest || !__get_cpuid(leaf, a, b, c, d))
        return 0;
    if (leaf == lacking_at)
        *c &= ~lacking;
    return 1;
}
#define __get_cpuid some_cpuid
#include "../../library/rtfilter.c"
#include "expect.h"

int main(int count, char **words)
{
    static const struct {
        unsigned greatest, lacking_at, lacking;
    } old[] = {
        {UINT32_MAX, 1, bit_SSE3},   {UINT32_MAX, 1, bit_SSSE3},  {UINT32_MAX, 1, bit_CMPXCHG16B},
        {UINT32_MAX, 1, bit_SSE4_1}, {UINT32_MAX, 1, bit_SSE4_2}, {UINT32_MAX, 1, bit_POPCNT},
        {0, 0, 0},                   {0x80000000, 0, 0},          {UINT32_MAX, 0x80000001, bit_LAHF_LM},
    };
    rtfilter_session session = RTFILTER_CLOSED;
    EXPECT(count == 2);
    for (size_t i = 0; i < sizeof old / sizeof *old; i++) {
        greatest = old[i].greatest;
        lacking_at = old[i].lacking_at;
        lacking = old[i].lacking;
        EXPECT(open_text(&session, BOXES, NULL, NULL) == RTFILTER_BAD_PROCESSOR);
        EXPECT(rtfilter_open_file(&session, words[1], NULL, NULL) == RTFILTER_BAD_PROCESSOR);
        EXPECT(rtfilter_open_arrays(&session, 0, 0, 0, 0, 0, 0, 0, 0, 0) == RTFILTER_BAD_PROCESSOR && !session.at);
    }
    lacking = 0;
    greatest = UINT32_MAX;
    EXPECT(open_text(&session, BOXES, NULL, NULL) == RTFILTER_OK);
    rtfilter_close(&session);
    puts("all as expected");
    return 0;
}
