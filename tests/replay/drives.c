/* The cases of a trip with settings. */
#include <string.h>

#include "carriers.h"

/* Whether the lent settings are as the number allows, and the next numbers are their floats and rounds. */
static bool is_force(struct stored *s, uint8_t number, double *floats, zaqnuti_size *rounds)
{
    return given(number, floats, 5 * sizeof *floats) && given(number, rounds, sizeof *rounds) && is_floats(s, floats, 5) && is_number(s, *rounds);
}

/*
 * Settings 5, rounds, pulses per kilometre, trip 6; number of beginning, its
 * trip 6, settings 5 and rounds, number of changing, settings 5 and rounds.
 */
bool same_settings(struct stored *s)
{
    double settings[5];
    uint64_t trip[6];
    uint64_t begun[6 + MARGIN / 8];
    double floats[5 + MARGIN / 8];
    zaqnuti_size force[1 + MARGIN / sizeof(zaqnuti_size)];
    zaqnuti_size rounds;
    uint16_t per_km;
    uint8_t number;
    zaqnuti_size k;
    bool same;
    next_floats(s, settings, 5);
    rounds = next_size(s);
    per_km = next_short(s);
    for (k = 0; k < 6; k++) {
        trip[k] = next_number(s);
    }
    lend(begun, 6 * sizeof *begun);
    lend(floats, 5 * sizeof *floats);
    lend(force, sizeof *force);
    number = zaqnuti_trip_begin(settings, rounds, per_km, begun, floats, force);
    same = is_number(s, number) && given(number, begun, 6 * sizeof *begun);
    for (k = 0; k < 6; k++) {
        same = is_number(s, begun[k]) && same;
    }
    same = is_force(s, number, floats, force) && same;
    lend(floats, 5 * sizeof *floats);
    lend(force, sizeof *force);
    number = zaqnuti_trip_settings(trip, settings, rounds, floats, force);
    same = is_number(s, number) && same;
    return is_force(s, number, floats, force) && same;
}

/* Trip 6, pulses, dt and a drive; number, trip 6, used, screened, displacement 3. */
bool same_drive(struct stored *s)
{
    struct drive d;
    uint64_t before[6];
    uint64_t trip[6 + MARGIN / 8];
    double delta[3 + MARGIN / 8];
    zaqnuti_size counts[2 + MARGIN / sizeof(zaqnuti_size)];
    uint16_t pulses;
    double dt;
    uint8_t number;
    zaqnuti_size k, n, m;
    bool same;
    for (k = 0; k < 6; k++) {
        before[k] = next_number(s);
    }
    pulses = next_short(s);
    dt = next_float(s);
    next_drive(s, &d);
    n = least(d.counts[0], ROOM);
    m = least(d.counts[1], ROOM);
    lend(trip, 6 * sizeof *trip);
    memcpy(trip, before, sizeof before);
    lend(delta, 3 * sizeof *delta);
    lend(counts, 2 * sizeof *counts);
    number = zaqnuti_trip_displacement(
        trip, d.settings, d.rounds,
        d.before.constellation, n, d.before.svid, n, d.before.band, n, d.before.state, n, d.before.floats, 6 * n, d.counts[0],
        d.now.constellation, m, d.now.svid, m, d.now.band, m, d.now.state, m, d.now.floats, 6 * m, d.counts[1],
        dt, d.receiver, pulses, delta, counts);
    same = is_number(s, number) && kept(trip + 6, MARGIN) && (number == 0 || memcmp(trip, before, sizeof before) == 0) &&
        given(number, delta, 3 * sizeof *delta) && given(number, counts, 2 * sizeof *counts);
    for (k = 0; k < 6; k++) {
        same = is_number(s, number == 0 ? trip[k] : 0) && same;
    }
    same = is_number(s, counts[0]) && is_number(s, counts[1]) && same;
    return is_floats(s, delta, 3) && same;
}
