/* The cases of times. */
#include "replay.h"

/* Week, time of week; number, nanoseconds. */
bool same_time(struct stored *s)
{
    uint64_t nanos[1 + MARGIN / 8];
    uint32_t week = next_word(s);
    double tow = next_float(s);
    uint8_t number;
    lend(nanos, sizeof *nanos);
    number = zaqnuti_time(week, tow, nanos);
    return given(number, nanos, sizeof *nanos) && is_number(s, number) && is_number(s, *nanos);
}

/* The later time, the earlier one; number, nanoseconds, seconds. */
bool same_since(struct stored *s)
{
    int64_t nanos[1 + MARGIN / 8];
    double seconds[1 + MARGIN / 8];
    uint64_t later = next_number(s);
    uint64_t earlier = next_number(s);
    uint8_t number;
    lend(nanos, sizeof *nanos);
    lend(seconds, sizeof *seconds);
    number = zaqnuti_nanos_since(later, earlier, nanos);
    return zaqnuti_seconds_since(later, earlier, seconds) == number &&
        given(number, nanos, sizeof *nanos) && given(number, seconds, sizeof *seconds) &&
        is_number(s, number) && is_number(s, (uint64_t)*nanos) && is_float(s, *seconds);
}
