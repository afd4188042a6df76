/* The cases of the displacement, by its interval, between two times and with its quality, the line form and the fix. */
#include <string.h>

#include "carriers.h"

/* Of each carrier constellation, svid, band, state and six floats. */
static void next_carriers(struct stored *s, struct carriers *e, zaqnuti_size count)
{
    zaqnuti_size i;
    memset(e, 0, sizeof *e);
    for (i = 0; i < least(count, 64); i++) {
        e->constellation[i] = next_byte(s);
        e->svid[i] = next_short(s);
        e->band[i] = next_word(s);
        e->state[i] = next_int(s);
        next_floats(s, e->floats + 6 * i, 6);
    }
}

void next_drive(struct stored *s, struct drive *d)
{
    next_floats(s, d->receiver, 3);
    next_floats(s, d->settings, 5);
    d->rounds = next_size(s);
    d->counts[0] = next_size(s);
    d->counts[1] = next_size(s);
    next_carriers(s, &d->before, d->counts[0]);
    next_carriers(s, &d->now, d->counts[1]);
}

/* Whether the next numbers are number, used, screened and displacement 3. */
static bool is_moved(struct stored *s, uint8_t number, double *delta, zaqnuti_size *counts)
{
    return given(number, delta, 3 * sizeof *delta) && given(number, counts, 2 * sizeof *counts) &&
        is_number(s, number) && is_number(s, counts[0]) && is_number(s, counts[1]) && is_floats(s, delta, 3);
}

/* dt and a drive; number, used, screened, displacement 3. */
bool same_displacement(struct stored *s)
{
    struct drive d;
    double delta[3 + MARGIN / 8];
    zaqnuti_size counts[2 + MARGIN / sizeof(zaqnuti_size)];
    double dt = next_float(s);
    zaqnuti_size n, m;
    uint8_t number;
    next_drive(s, &d);
    n = least(d.counts[0], ROOM);
    m = least(d.counts[1], ROOM);
    lend(delta, 3 * sizeof *delta);
    lend(counts, 2 * sizeof *counts);
    number = zaqnuti_displacement(
        d.before.constellation, n, d.before.svid, n, d.before.band, n, d.before.state, n, d.before.floats, 6 * n, d.counts[0],
        d.now.constellation, m, d.now.svid, m, d.now.band, m, d.now.state, m, d.now.floats, 6 * m, d.counts[1],
        dt, d.receiver, d.settings, d.rounds, delta, counts);
    return is_moved(s, number, delta, counts);
}

/* The times of the two epochs and a drive; number, used, screened, displacement 3. */
bool same_between(struct stored *s)
{
    struct drive d;
    double delta[3 + MARGIN / 8];
    zaqnuti_size counts[2 + MARGIN / sizeof(zaqnuti_size)];
    uint64_t before = next_number(s);
    uint64_t now = next_number(s);
    zaqnuti_size n, m;
    uint8_t number;
    next_drive(s, &d);
    n = least(d.counts[0], ROOM);
    m = least(d.counts[1], ROOM);
    lend(delta, 3 * sizeof *delta);
    lend(counts, 2 * sizeof *counts);
    number = zaqnuti_displacement_between(
        d.before.constellation, n, d.before.svid, n, d.before.band, n, d.before.state, n, d.before.floats, 6 * n, d.counts[0],
        d.now.constellation, m, d.now.svid, m, d.now.band, m, d.now.state, m, d.now.floats, 6 * m, d.counts[1],
        before, now, d.receiver, d.settings, d.rounds, delta, counts);
    return is_moved(s, number, delta, counts);
}

/* dt, the band and a drive; number, used, screened, displacement 3. */
bool same_city(struct stored *s)
{
    struct drive d;
    double delta[3 + MARGIN / 8];
    zaqnuti_size counts[2 + MARGIN / sizeof(zaqnuti_size)];
    double dt = next_float(s);
    uint32_t band = (uint32_t)next_number(s);
    zaqnuti_size n, m;
    uint8_t number;
    next_drive(s, &d);
    n = least(d.counts[0], ROOM);
    m = least(d.counts[1], ROOM);
    lend(delta, 3 * sizeof *delta);
    lend(counts, 2 * sizeof *counts);
    number = zaqnuti_city_displacement(
        d.before.constellation, n, d.before.svid, n, d.before.band, n, d.before.state, n, d.before.floats, 6 * n, d.counts[0],
        d.now.constellation, m, d.now.svid, m, d.now.band, m, d.now.state, m, d.now.floats, 6 * m, d.counts[1],
        dt, band, d.receiver, d.settings, d.rounds, delta, counts);
    return is_moved(s, number, delta, counts);
}

/* Whether the next numbers are number, used, screened, displacement 3, chi and pdop. */
static bool is_rated(struct stored *s, uint8_t number, double *delta, double *quality, zaqnuti_size *counts)
{
    return given(number, quality, 2 * sizeof *quality) && is_moved(s, number, delta, counts) && is_floats(s, quality, 2);
}

/* dt, whether in the city profile, the band and a drive; number, used, screened, displacement 3, chi, pdop. */
bool same_rated(struct stored *s)
{
    struct drive d;
    double delta[3 + MARGIN / 8];
    double quality[2 + MARGIN / 8];
    zaqnuti_size counts[2 + MARGIN / sizeof(zaqnuti_size)];
    double dt = next_float(s);
    bool city = next_number(s) != 0;
    uint32_t band = (uint32_t)next_number(s);
    zaqnuti_size n, m;
    uint8_t number;
    next_drive(s, &d);
    n = least(d.counts[0], ROOM);
    m = least(d.counts[1], ROOM);
    lend(delta, 3 * sizeof *delta);
    lend(quality, 2 * sizeof *quality);
    lend(counts, 2 * sizeof *counts);
    if (city) {
        number = zaqnuti_city_displacement_rated(
            d.before.constellation, n, d.before.svid, n, d.before.band, n, d.before.state, n, d.before.floats, 6 * n, d.counts[0],
            d.now.constellation, m, d.now.svid, m, d.now.band, m, d.now.state, m, d.now.floats, 6 * m, d.counts[1],
            dt, band, d.receiver, d.settings, d.rounds, delta, quality, counts);
    } else {
        number = zaqnuti_displacement_rated(
            d.before.constellation, n, d.before.svid, n, d.before.band, n, d.before.state, n, d.before.floats, 6 * n, d.counts[0],
            d.now.constellation, m, d.now.svid, m, d.now.band, m, d.now.state, m, d.now.floats, 6 * m, d.counts[1],
            dt, d.receiver, d.settings, d.rounds, delta, quality, counts);
    }
    return is_rated(s, number, delta, quality, counts);
}

/* What is handed to a fix. */
struct sky {
    uint8_t constellation[ROOM];
    double floats[5 * ROOM];
    zaqnuti_size count;
    double guess[3];
    double settings[4];
    zaqnuti_size rounds;
};

/* Guess 3, settings 4, rounds, how many observations; of each constellation and five floats. */
static void next_sky(struct stored *s, struct sky *k)
{
    zaqnuti_size i;
    memset(k, 0, sizeof *k);
    next_floats(s, k->guess, 3);
    next_floats(s, k->settings, 4);
    k->rounds = next_size(s);
    k->count = next_size(s);
    for (i = 0; i < least(k->count, 64); i++) {
        k->constellation[i] = next_byte(s);
        next_floats(s, k->floats + 5 * i, 5);
    }
}

/* Whether the call for the position alone gives the number and the position of the whole fix. */
static bool is_position(const struct sky *k, zaqnuti_size n, uint8_t whole, const double solution[3])
{
    double position[3 + MARGIN / 8];
    uint8_t number;
    lend(position, 3 * sizeof *position);
    number = zaqnuti_position(
        k->constellation, n, k->floats, 5 * n, k->count, k->guess, k->settings, k->rounds, position);
    return given(number, position, 3 * sizeof *position) && number == whole &&
        memcmp(position, solution, 3 * sizeof *position) == 0;
}

/* A sky; number, used, position 3, chi, pdop. */
bool same_fix(struct stored *s)
{
    struct sky k;
    double solution[5 + MARGIN / 8];
    zaqnuti_size used[1 + MARGIN / sizeof(zaqnuti_size)];
    zaqnuti_size n;
    uint8_t number;
    next_sky(s, &k);
    n = least(k.count, ROOM);
    lend(solution, 5 * sizeof *solution);
    lend(used, sizeof *used);
    number = zaqnuti_fix(
        k.constellation, n, k.floats, 5 * n, k.count, k.guess, k.settings, k.rounds, solution, used);
    return given(number, solution, 5 * sizeof *solution) && given(number, used, sizeof *used) &&
        is_position(&k, n, number, solution) &&
        is_number(s, number) && is_number(s, used[0]) && is_floats(s, solution, 5);
}

/* Whether a text is answered by the line in a buffer of so many bytes; or by 2, with nothing written, where that is too short. */
static bool answers(const uint8_t *text, zaqnuti_size size, const uint8_t *line, zaqnuti_size length, zaqnuti_size room)
{
    uint8_t buffer[ZAQNUTI_LINE + 1 + MARGIN];
    const zaqnuti_size before = 77;
    const bool fits = length <= room;
    const zaqnuti_size expected = fits ? length : 0;
    zaqnuti_size written = before;
    lend(buffer, room);
    return zaqnuti_line(text, size, buffer, room, &written) == (fits ? 0 : ZAQNUTI_TOO_MANY) &&
        written == (fits ? length : before) &&
        memcmp(buffer, line, (size_t)expected) == 0 &&
        kept(buffer + expected, room - expected + MARGIN);
}

/* A text's length and bytes; the length and the bytes of its answer's line. */
bool same_line(struct stored *s)
{
    static uint8_t text[ZAQNUTI_TEXT + 1];
    uint8_t line[ZAQNUTI_LINE + 1];
    zaqnuti_size size = least(next_size(s), sizeof text);
    zaqnuti_size length;
    next_bytes(s, text, size);
    length = least(next_size(s), sizeof line);
    next_bytes(s, line, length);
    return length > 0 && answers(text, size, line, length, ZAQNUTI_LINE) &&
        answers(text, size, line, length, length) && answers(text, size, line, length, length - 1);
}
