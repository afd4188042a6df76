/* The cases of the pieces: numbers, factor, clocks, centre, sight and round. */
#include "replay.h"

/* More than the 64 that are allowed. */
#define ROOM 65

/* A float and its root. */
bool same_root(struct stored *s)
{
    return is_float(s, zaqnuti_sqrt(next_float(s)));
}

/* Two patterns, and 1 where the first comes before the second or is equal. */
bool same_order(struct stored *s)
{
    uint64_t a = next_number(s);
    uint64_t b = next_number(s);
    return is_number(s, zaqnuti_before(a, b));
}

/* The number of the stand-in, two operands and the answer. */
bool same_standin(struct stored *s)
{
    uint64_t which = next_number(s);
    double a = next_float(s);
    double b = next_float(s);
    switch (which) {
    case 0:
        return is_float(s, zaqnuti_square(a));
    case 1:
        return is_float(s, zaqnuti_hypot(a, b));
    case 2:
        return is_float(s, zaqnuti_travel_sine(a));
    case 3:
        return is_float(s, zaqnuti_travel_cosine(a));
    case 4:
        return is_float(s, zaqnuti_radians(a));
    case 5:
        return is_float(s, zaqnuti_elevation_sine(a));
    case 6:
        return is_float(s, zaqnuti_abs(a));
    case 7:
        return is_float(s, zaqnuti_max(a, b));
    default:
        return false;
    }
}

/* A matrix, 81 floats; number, factor. */
bool same_factor(struct stored *s)
{
    double a[81];
    double l[81 + MARGIN / 8];
    uint8_t number;
    next_floats(s, a, 81);
    lend(l, 81 * sizeof *l);
    number = zaqnuti_factor(a, l);
    return given(number, l, 81 * sizeof *l) && is_number(s, number) && is_floats(s, l, 81);
}

/* A factor, 81 floats, a right side, 9; the solution. */
bool same_solve(struct stored *s)
{
    double l[81];
    double b[9];
    double x[9 + MARGIN / 8];
    next_floats(s, l, 81);
    next_floats(s, b, 9);
    lend(x, 9 * sizeof *x);
    zaqnuti_solve(l, b, x);
    return given(0, x, 9 * sizeof *x) && is_floats(s, x, 9);
}

/* Whether the next numbers are the state of clocks. */
static bool is_state(struct stored *s, const zaqnuti_size slot[8], zaqnuti_size count)
{
    zaqnuti_size i;
    for (i = 0; i < 8; i++) {
        if (!is_number(s, slot[i])) {
            return false;
        }
    }
    return is_number(s, count);
}

/*
 * 1 where the state is that of none given, else 0; the state, 8 slots and a
 * count; how many constellations and each of them; one that is asked for; the
 * state afterwards, the slot that is asked for, the unknowns.
 */
bool same_clocks(struct stored *s)
{
    zaqnuti_size slot[8 + MARGIN / 8];
    zaqnuti_size count;
    zaqnuti_size more;
    zaqnuti_size i;
    uint8_t asked;
    lend(slot, 8 * sizeof *slot);
    if (next_number(s) == 1) {
        zaqnuti_clocks_new(slot, &count);
        if (!is_state(s, slot, count)) {
            return false;
        }
    } else {
        for (i = 0; i < 8; i++) {
            slot[i] = next_size(s);
        }
        count = next_size(s);
    }
    more = next_size(s);
    for (i = 0; i < more && !s->beyond; i++) {
        zaqnuti_clocks_given(slot, &count, next_byte(s));
    }
    asked = next_byte(s);
    return given(0, slot, 8 * sizeof *slot) && is_state(s, slot, count) &&
        is_number(s, zaqnuti_clocks_slot(slot, asked)) &&
        is_number(s, zaqnuti_clocks_unknowns(slot, count));
}

/* How many residuals, their patterns; number, centre and scale. */
bool same_centre(struct stored *s)
{
    uint64_t residuals[ROOM];
    double out[2 + MARGIN / 8];
    zaqnuti_size n = least(next_size(s), ROOM);
    zaqnuti_size i;
    uint8_t number;
    for (i = 0; i < n; i++) {
        residuals[i] = next_number(s);
    }
    lend(out, 2 * sizeof *out);
    number = zaqnuti_centre(residuals, n, out);
    return given(number, out, 2 * sizeof *out) && is_number(s, number) && is_floats(s, out, 2);
}

/* Elevation, a, b and the one-sigma. */
bool same_sigma(struct stored *s)
{
    double elevation = next_float(s);
    double a = next_float(s);
    double b = next_float(s);
    return is_float(s, zaqnuti_elevation_sigma(elevation, a, b));
}

/* Satellite, receiver; number, unit vector and range. */
bool same_sight(struct stored *s)
{
    double satellite[3];
    double receiver[3];
    double out[4 + MARGIN / 8];
    uint8_t number;
    next_floats(s, satellite, 3);
    next_floats(s, receiver, 3);
    lend(out, 4 * sizeof *out);
    number = zaqnuti_geometry(satellite, receiver, out);
    return given(number, out, 4 * sizeof *out) && is_number(s, number) && is_floats(s, out, 4);
}

/*
 * How many rows, unknowns, huber; of each row, of 64 at most, unit vector,
 * clock, residual, sigma; number, step.
 */
bool same_round(struct stored *s)
{
    double units[3 * ROOM] = {0.0};
    zaqnuti_size clocks[ROOM] = {0};
    uint64_t residuals[ROOM] = {0};
    double sigmas[ROOM] = {0.0};
    double dx[9 + MARGIN / 8];
    zaqnuti_size rows = next_size(s);
    zaqnuti_size unknowns = next_size(s);
    double huber = next_float(s);
    zaqnuti_size n = least(rows, ROOM);
    zaqnuti_size i;
    uint8_t number;
    for (i = 0; i < least(rows, 64); i++) {
        next_floats(s, units + 3 * i, 3);
        clocks[i] = next_size(s);
        residuals[i] = next_number(s);
        sigmas[i] = next_float(s);
    }
    lend(dx, 9 * sizeof *dx);
    number = zaqnuti_round(units, 3 * n, clocks, n, residuals, n, sigmas, n, rows, unknowns, huber, dx);
    return given(number, dx, 9 * sizeof *dx) && is_number(s, number) && is_floats(s, dx, 9);
}
