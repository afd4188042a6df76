/* The cases of a mileage. */
#include <string.h>

#include "replay.h"

/*
 * Mileage 10, refused by, displacement 3, quality 2, pulses, millilitres;
 * number of the addition and the words 10 after it, number of the report of
 * those and the report 7, number of the distance and the distance, number of
 * the fuel and the fuel.
 */
bool same_mileage(struct stored *s)
{
    uint64_t mileage[10];
    uint64_t after[10 + MARGIN / 8];
    uint64_t report[7 + MARGIN / 8];
    uint64_t figure[1 + MARGIN / 8];
    double delta[3];
    double quality[2];
    uint8_t refused_by;
    uint16_t pulses;
    uint32_t millilitres;
    uint8_t number;
    zaqnuti_size k;
    bool same;
    for (k = 0; k < 10; k++) {
        mileage[k] = next_number(s);
    }
    refused_by = (uint8_t)next_number(s);
    next_floats(s, delta, 3);
    next_floats(s, quality, 2);
    pulses = next_short(s);
    millilitres = next_word(s);
    lend(after, 10 * sizeof *after);
    memcpy(after, mileage, sizeof mileage);
    number = zaqnuti_mileage_add(after, refused_by, delta, quality, pulses);
    same = is_number(s, number) && kept(after + 10, MARGIN) && (number == 0 || memcmp(after, mileage, sizeof mileage) == 0);
    for (k = 0; k < 10; k++) {
        same = is_number(s, number == 0 ? after[k] : 0) && same;
    }
    lend(report, 7 * sizeof *report);
    number = zaqnuti_mileage_report(after, report);
    same = given(number, report, 7 * sizeof *report) && is_number(s, number) && same;
    for (k = 0; k < 7; k++) {
        same = is_number(s, report[k]) && same;
    }
    lend(figure, sizeof *figure);
    number = zaqnuti_mileage_distance(after, figure);
    same = given(number, figure, sizeof *figure) && is_number(s, number) && is_number(s, *figure) && same;
    lend(figure, sizeof *figure);
    number = zaqnuti_mileage_fuel(after, millilitres, figure);
    return given(number, figure, sizeof *figure) && is_number(s, number) && is_number(s, *figure) && same;
}
