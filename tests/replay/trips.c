/* The cases of a trip. */
#include <string.h>

#include "replay.h"

/*
 * Trip 6, displacement 3, pulses, millilitres; number of the addition and the
 * trip 6 after it, number of that one's report and the report 4, number of its
 * fuel and the fuel.
 */
bool same_trip(struct stored *s)
{
    uint64_t trip[6];
    uint64_t after[6 + MARGIN / 8];
    uint64_t report[4 + MARGIN / 8];
    uint64_t fuel[1 + MARGIN / 8];
    double delta[3];
    uint16_t pulses;
    uint32_t millilitres;
    uint8_t number;
    zaqnuti_size k;
    bool same;
    for (k = 0; k < 6; k++) {
        trip[k] = next_number(s);
    }
    next_floats(s, delta, 3);
    pulses = next_short(s);
    millilitres = next_word(s);
    lend(after, 6 * sizeof *after);
    memcpy(after, trip, sizeof trip);
    number = zaqnuti_trip_add(after, delta, pulses);
    same = is_number(s, number) && kept(after + 6, MARGIN) && (number == 0 || memcmp(after, trip, sizeof trip) == 0);
    for (k = 0; k < 6; k++) {
        same = is_number(s, number == 0 ? after[k] : 0) && same;
    }
    lend(report, 4 * sizeof *report);
    number = zaqnuti_trip_report(after, report);
    same = given(number, report, 4 * sizeof *report) && is_number(s, number) && same;
    for (k = 0; k < 4; k++) {
        same = is_number(s, report[k]) && same;
    }
    lend(fuel, sizeof *fuel);
    number = zaqnuti_trip_fuel(after, millilitres, fuel);
    return given(number, fuel, sizeof *fuel) && is_number(s, number) && is_number(s, *fuel) && same;
}
