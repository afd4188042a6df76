/*
 * One of each service as firmware would call it: a fix, times, a displacement,
 * its compass directions, the same of epochs that are kept and sent as bytes,
 * a text in the line form, a day's trip, new settings during another, two
 * epochs of corrections with a query, a day of them with a drop an hour, and a
 * track.
 * The sky is made up, so the answers are known: the program prints them and
 * exits with 1 where one is not as expected.
 *
 *     packaging/box library
 *     cc -std=c99 -Iinclude examples/firmware.c target/staticlib/libzaqnuti.a -o firmware
 */
#include <math.h>
#include <stdio.h>
#include <string.h>

#include "zaqnuti.h"

#define SATELLITES 10

struct satellite {
    uint8_t constellation;
    uint16_t svid;
    double place[3];   /* m */
    double elevation;  /* degrees */
};

/* Ten satellites above the receiver: five of GPS, five of Galileo. */
static const struct satellite sky[SATELLITES] = {
    {1, 2, {-8130939.0, -15201828.0, 22139305.0}, 71.0},
    {1, 5, {5471280.0, -21319229.0, 17055354.0}, 44.0},
    {1, 12, {-1251790.0, -27153999.0, -2012650.0}, 28.0},
    {1, 25, {-20783761.0, -17887361.0, 5740534.0}, 52.0},
    {1, 29, {-19313127.0, 1355625.0, 19493087.0}, 33.0},
    {6, 3, {-12511062.0, -10340786.0, 22944196.0}, 63.0},
    {6, 8, {3218266.0, -9424175.0, 25806354.0}, 38.0},
    {6, 15, {894310.0, -26094985.0, 9885325.0}, 47.0},
    {6, 24, {-17037785.0, -19966550.0, -6798282.0}, 25.0},
    {6, 31, {-21733507.0, -12228783.0, 12902198.0}, 57.0},
};

static const double receiver[3] = {-2694045.0, -4266427.0, 3888311.0};

static int failures = 0;

/* Prints what was got, and counts it as a failure where it lies further than `within` from what is wanted. */
static void expect(const char *what, double got, double wanted, double within)
{
    double off = zaqnuti_abs(got - wanted);
    bool as_wanted = off <= within;
    printf("  %-24s %18.6f%s\n", what, got, as_wanted ? "" : "  NOT AS EXPECTED");
    if (!as_wanted) {
        failures += 1;
    }
}

static void expect_number(const char *what, unsigned got, unsigned wanted)
{
    printf("  %-24s %18u%s\n", what, got, got == wanted ? "" : "  NOT AS EXPECTED");
    if (got != wanted) {
        failures += 1;
    }
}

/* The range from a satellite to a place, as the estimators have it. */
static double range_to(const double satellite[3], const double place[3])
{
    double sight[4];
    return zaqnuti_geometry(satellite, place, sight) == 0 ? sight[3] : 0.0;
}

/* A fix from ranges to the receiver, with a clock offset for each constellation. */
static void fix(void)
{
    const double guess[3] = {-2700000.0, -4260000.0, 3880000.0};
    const double settings[4] = {0.3, 16.0, 1.0, 10.0};
    uint8_t constellation[SATELLITES];
    double floats[5 * SATELLITES];
    double solution[5] = {0.0, 0.0, 0.0, 0.0, 0.0};
    double position[3] = {0.0, 0.0, 0.0};
    zaqnuti_size used = 0;
    uint8_t number;
    zaqnuti_size i;

    for (i = 0; i < SATELLITES; i++) {
        const struct satellite *s = &sky[i];
        double clock = s->constellation == 1 ? 120.0 : -75.0;
        constellation[i] = s->constellation;
        floats[5 * i] = range_to(s->place, receiver) + clock;
        memcpy(&floats[5 * i + 1], s->place, sizeof s->place);
        floats[5 * i + 4] = s->elevation;
    }
    printf("fix\n");
    number = zaqnuti_fix(constellation, SATELLITES, floats, 5 * SATELLITES, SATELLITES,
                         guess, settings, 25, solution, &used);
    expect_number("answer", number, 0);
    expect("x, m", solution[0], receiver[0], 1e-3);
    expect("y, m", solution[1], receiver[1], 1e-3);
    expect("z, m", solution[2], receiver[2], 1e-3);
    expect("chi", solution[3], 0.0, 1e-3);
    expect("pdop", solution[4], 2.0, 1.0);
    expect_number("used", (unsigned)used, SATELLITES);
    number = zaqnuti_position(constellation, SATELLITES, floats, 5 * SATELLITES, SATELLITES,
                              guess, settings, 25, position);
    expect_number("position alone", number, 0);
    expect_number("the same", memcmp(position, solution, sizeof position) == 0, 1);
    /* A column that is one float short is refused, and the results keep their bytes. */
    number = zaqnuti_fix(constellation, SATELLITES, floats, 5 * SATELLITES - 1, SATELLITES,
                         guess, settings, 25, solution, &used);
    expect_number("one float short", number, ZAQNUTI_TOO_MANY);
    expect_number("results kept", memcmp(position, solution, sizeof position) == 0, 1);
}

/* The last half second of a week and the first of the next: times across the end of Saturday. */
static uint64_t before_midnight;
static uint64_t after_midnight;

static void times(void)
{
    int64_t nanos = 0;
    double seconds = 0.0;
    uint64_t kept = 7;

    printf("times\n");
    expect_number("before midnight", zaqnuti_time(1316, 604799.5, &before_midnight), 0);
    expect_number("after midnight", zaqnuti_time(1317, 0.5, &after_midnight), 0);
    expect_number("nanoseconds between", zaqnuti_nanos_since(after_midnight, before_midnight, &nanos), 0);
    expect_number("are a second's", nanos == 1000000000, 1);
    expect_number("the other way", zaqnuti_nanos_since(before_midnight, after_midnight, &nanos), 0);
    expect_number("are below 0", nanos == -1000000000, 1);
    expect_number("seconds between", zaqnuti_seconds_since(after_midnight, before_midnight, &seconds), 0);
    expect("s", seconds, 1.0, 0.0);
    /* A time of week that is a whole week is not one. */
    expect_number("604,800 s of the week", zaqnuti_time(1316, 604800.0, &kept), ZAQNUTI_BAD_TIME);
    expect_number("result kept", (unsigned)kept, 7);
}

/* The columns of an epoch of carriers. */
struct epoch {
    uint8_t constellation[SATELLITES];
    uint16_t svid[SATELLITES];
    uint32_t band[SATELLITES];
    int32_t state[SATELLITES];
    double floats[6 * SATELLITES];
};

/* What a receiver at `place` measures `drift` metres of clock later, with the range rate of each satellite. */
static void measure(struct epoch *e, const double place[3], double drift, const double rate[SATELLITES])
{
    zaqnuti_size i;
    for (i = 0; i < SATELLITES; i++) {
        const struct satellite *s = &sky[i];
        e->constellation[i] = s->constellation;
        e->svid[i] = s->svid;
        e->band[i] = 1575;
        e->state[i] = 1;
        e->floats[6 * i] = range_to(s->place, place) + drift;
        memcpy(&e->floats[6 * i + 1], s->place, sizeof s->place);
        e->floats[6 * i + 4] = s->elevation;
        e->floats[6 * i + 5] = rate[i];
    }
}

static uint8_t displace(const struct epoch *p, const struct epoch *c, zaqnuti_size count, double delta[3], zaqnuti_size counts[2])
{
    const double settings[5] = {0.5, 0.008, 0.002, 1.5, 10.0};
    return zaqnuti_displacement(
        p->constellation, SATELLITES, p->svid, SATELLITES, p->band, SATELLITES,
        p->state, SATELLITES, p->floats, 6 * SATELLITES, count,
        c->constellation, SATELLITES, c->svid, SATELLITES, c->band, SATELLITES,
        c->state, SATELLITES, c->floats, 6 * SATELLITES, count,
        1.0, receiver, settings, 4, delta, counts);
}

/* The same by the times of the two epochs. */
static uint8_t displace_between(const struct epoch *p, const struct epoch *c, uint64_t before, uint64_t now, double delta[3], zaqnuti_size counts[2])
{
    const double settings[5] = {0.5, 0.008, 0.002, 1.5, 10.0};
    return zaqnuti_displacement_between(
        p->constellation, SATELLITES, p->svid, SATELLITES, p->band, SATELLITES,
        p->state, SATELLITES, p->floats, 6 * SATELLITES, SATELLITES,
        c->constellation, SATELLITES, c->svid, SATELLITES, c->band, SATELLITES,
        c->state, SATELLITES, c->floats, 6 * SATELLITES, SATELLITES,
        before, now, receiver, settings, 4, delta, counts);
}

/* The same by GPS and Galileo on one band alone. */
static uint8_t displace_city(const struct epoch *p, const struct epoch *c, uint32_t band, double delta[3], zaqnuti_size counts[2])
{
    const double settings[5] = {0.5, 0.008, 0.002, 1.5, 10.0};
    return zaqnuti_city_displacement(
        p->constellation, SATELLITES, p->svid, SATELLITES, p->band, SATELLITES,
        p->state, SATELLITES, p->floats, 6 * SATELLITES, SATELLITES,
        c->constellation, SATELLITES, c->svid, SATELLITES, c->band, SATELLITES,
        c->state, SATELLITES, c->floats, 6 * SATELLITES, SATELLITES,
        1.0, band, receiver, settings, 4, delta, counts);
}

/* Two epochs a second and a few metres apart; one carrier slips. */
static const double moved[3] = {4.0, -2.5, 1.5};
static struct epoch previous;
static struct epoch current;

/* Measures them. */
static void drive(void)
{
    double place[3];
    double rate[SATELLITES];
    zaqnuti_size i;

    for (i = 0; i < 3; i++) {
        place[i] = receiver[i] + moved[i];
    }
    for (i = 0; i < SATELLITES; i++) {
        rate[i] = range_to(sky[i].place, place) - range_to(sky[i].place, receiver);
    }
    measure(&previous, receiver, 0.0, rate);
    measure(&current, place, 30.0, rate);
    current.floats[6 * 4] += 9.0;
}

/* The displacement between them: the carrier that slips is screened out. */
static void displacement(void)
{
    double delta[3] = {0.0, 0.0, 0.0};
    double across[3] = {0.0, 0.0, 0.0};
    zaqnuti_size counts[2] = {0, 0};
    uint8_t number;

    printf("displacement\n");
    number = displace(&previous, &current, SATELLITES, delta, counts);
    expect_number("answer", number, 0);
    expect("dx, m", delta[0], moved[0], 1e-3);
    expect("dy, m", delta[1], moved[1], 1e-3);
    expect("dz, m", delta[2], moved[2], 1e-3);
    expect_number("used", (unsigned)counts[0], SATELLITES - 1);
    expect_number("screened", (unsigned)counts[1], 1);
    number = displace(&previous, &current, 5, delta, counts);
    expect_number("five carriers", number, ZAQNUTI_TOO_FEW_PAIRS);
    expect_number("results kept", (unsigned)counts[0], SATELLITES - 1);
    /* By the times of the two epochs, a second apart across the end of a week. */
    number = displace_between(&previous, &current, before_midnight, after_midnight, across, counts);
    expect_number("across midnight", number, 0);
    expect_number("the same", memcmp(across, delta, sizeof delta) == 0, 1);
    number = displace_between(&previous, &current, after_midnight, before_midnight, across, counts);
    expect_number("the later time first", number, ZAQNUTI_BAD_INTERVAL);
    number = displace_between(&previous, &current, before_midnight, UINT64_MAX, across, counts);
    expect_number("no such time", number, ZAQNUTI_BAD_TIME);
    number = displace_city(&previous, &current, 1575, across, counts);
    expect_number("displacement of the city", number, 0);
    number = displace_city(&previous, &current, 1176, across, counts);
    expect_number("nothing on the band", number, ZAQNUTI_TOO_FEW_PAIRS);
}

#define EPOCH_BYTES (SATELLITES * ZAQNUTI_RECORD)

/* An epoch as bytes, to be kept between calls or sent. */
static uint8_t pack(const struct epoch *e, uint8_t bytes[EPOCH_BYTES])
{
    uint64_t floats[6 * SATELLITES];

    memcpy(floats, e->floats, sizeof floats);
    return zaqnuti_write_records(
        e->constellation, SATELLITES, e->svid, SATELLITES, e->band, SATELLITES, e->state, SATELLITES,
        floats, 6 * SATELLITES, SATELLITES, bytes, EPOCH_BYTES);
}

/* The epoch of such bytes; 21 where some of them were lost. */
static uint8_t unpack(const uint8_t *bytes, zaqnuti_size length, struct epoch *e, zaqnuti_size *count)
{
    uint64_t floats[6 * SATELLITES];
    uint8_t number = zaqnuti_read_records(
        bytes, length, e->constellation, SATELLITES, e->svid, SATELLITES, e->band, SATELLITES, e->state, SATELLITES,
        floats, 6 * SATELLITES, count);

    if (number == 0) {
        memcpy(e->floats, floats, (size_t)(*count * 6 * sizeof *floats));
    }
    return number;
}

/* The number of eight bytes, the least significant first. */
static uint64_t word(const uint8_t *bytes)
{
    uint64_t n = 0;
    zaqnuti_size i;

    for (i = 8; i > 0; i--) {
        n = n << 8 | bytes[i - 1];
    }
    return n;
}

/* The epochs of the displacement kept as bytes: written, sent, read, and handed over as they are. */
static void records(void)
{
    uint8_t kept[EPOCH_BYTES];
    uint8_t now[EPOCH_BYTES];
    uint8_t radio[EPOCH_BYTES];
    uint8_t result[ZAQNUTI_RESULT] = {0};
    struct epoch received;
    double delta[3] = {0.0, 0.0, 0.0};
    double same[3] = {0.0, 0.0, 0.0};
    zaqnuti_size counts[2] = {0, 0};
    zaqnuti_size count = 0;
    uint64_t bits;
    uint8_t number;
    zaqnuti_size i;

    printf("records\n");
    expect_number("written", pack(&previous, kept), 0);
    expect_number("written", pack(&current, now), 0);
    memcpy(radio, now, sizeof radio);
    memset(&received, 0, sizeof received);
    expect_number("read", unpack(radio, sizeof radio, &received, &count), 0);
    expect_number("records", (unsigned)count, SATELLITES);
    expect_number("as they were sent", memcmp(received.floats, current.floats, sizeof current.floats) == 0, 1);
    expect_number("one byte lost", unpack(radio, sizeof radio - 1, &received, &count), ZAQNUTI_BROKEN_RECORDS);
    /* The displacement by the bytes is that by the columns. */
    number = zaqnuti_displacement_records(
        kept, sizeof kept, radio, sizeof radio, 1.0, receiver[0], receiver[1], receiver[2],
        0.5, 0.008, 0.002, 1.5, 10.0, 4, result, sizeof result);
    expect_number("answer", number, 0);
    expect_number("used", (unsigned)word(result), SATELLITES - 1);
    expect_number("screened", (unsigned)word(result + 8), 1);
    for (i = 0; i < 3; i++) {
        bits = word(result + 16 + 8 * i);
        memcpy(&delta[i], &bits, sizeof bits);
    }
    expect("dx, m", delta[0], moved[0], 1e-3);
    number = displace(&previous, &current, SATELLITES, same, counts);
    expect_number("the same", number == 0 && memcmp(same, delta, sizeof delta) == 0, 1);
    number = zaqnuti_displacement_records(
        kept, sizeof kept - 1, radio, sizeof radio, 1.0, receiver[0], receiver[1], receiver[2],
        0.5, 0.008, 0.002, 1.5, 10.0, 4, result, sizeof result);
    expect_number("one byte lost", number, ZAQNUTI_BROKEN_RECORDS);
    number = zaqnuti_displacement_records(
        kept, sizeof kept, radio, sizeof radio, 1.0, receiver[0], receiver[1], receiver[2],
        0.5, 0.008, 0.002, 1.5, 10.0, 4, result, sizeof result - 1);
    expect_number("39 bytes for the result", number, ZAQNUTI_TOO_MANY);
    expect_number("result kept", (unsigned)word(result), SATELLITES - 1);
}

/* A text in the line form without a carrier, which is refused by its line. */
static void line_form(void)
{
    static const char text[] =
        "S,3FF0000000000000,0000000000000000,0000000000000000,0000000000000000,"
        "3FE0000000000000,3FF0000000000000,0000000000000000,3FF8000000000000,"
        "4024000000000000,4\n";
    static const char wanted[] = "R,7\n";
    const zaqnuti_size text_length = sizeof text - 1;
    const zaqnuti_size wanted_length = sizeof wanted - 1;
    uint8_t line[ZAQNUTI_LINE];
    zaqnuti_size length = 0;

    printf("line form\n");
    expect_number("a line", zaqnuti_line((const uint8_t *)text, text_length, line, sizeof line, &length), 0);
    expect_number("bytes of the line", (unsigned)length, (unsigned)wanted_length);
    expect_number("it is R,7", length == wanted_length && memcmp(line, wanted, (size_t)wanted_length) == 0, 1);
    /* A buffer that is one byte short is refused, and so nothing is written. */
    memset(line, 0, sizeof line);
    expect_number("one byte short", zaqnuti_line((const uint8_t *)text, text_length, line, wanted_length - 1, &length), ZAQNUTI_TOO_MANY);
    expect_number("buffer kept", line[0], 0);
    expect_number("length kept", (unsigned)length, (unsigned)wanted_length);
}

/* The table of corrections that the firmware keeps between calls. */
struct table {
    uint8_t constellation[ZAQNUTI_SAMPLES];
    uint16_t svid[ZAQNUTI_SAMPLES];
    uint32_t band[ZAQNUTI_SAMPLES];
    zaqnuti_size first[ZAQNUTI_SAMPLES];
    zaqnuti_size samples[ZAQNUTI_SAMPLES];
    zaqnuti_size blocks;
    double time[ZAQNUTI_SAMPLES];
    double metres[ZAQNUTI_SAMPLES];
    zaqnuti_size count;
};

/* Adds the epoch of a base station whose range to the first satellite is `error` metres too long. */
static uint8_t add(struct table *t, double time, double error)
{
    static const bool on[8] = {false, true, false, false, false, false, true, false};
    uint8_t constellation[SATELLITES];
    uint16_t svid[SATELLITES];
    uint32_t band[SATELLITES];
    double range[SATELLITES];
    double states[8 * SATELLITES];
    zaqnuti_size i;

    memset(states, 0, sizeof states);
    for (i = 0; i < SATELLITES; i++) {
        const struct satellite *s = &sky[i];
        constellation[i] = s->constellation;
        svid[i] = s->svid;
        band[i] = 1;
        range[i] = range_to(s->place, receiver) + 250.0 + (i == 0 ? error : 0.0);
        memcpy(&states[8 * i], s->place, sizeof s->place);
    }
    return zaqnuti_add_epoch(
        t->constellation, ZAQNUTI_SAMPLES, t->svid, ZAQNUTI_SAMPLES, t->band, ZAQNUTI_SAMPLES,
        t->first, ZAQNUTI_SAMPLES, t->samples, ZAQNUTI_SAMPLES, &t->blocks,
        t->time, ZAQNUTI_SAMPLES, t->metres, ZAQNUTI_SAMPLES, &t->count,
        time, SATELLITES, constellation, SATELLITES, svid, SATELLITES, band, SATELLITES, range, SATELLITES,
        true, SATELLITES, constellation, SATELLITES, svid, SATELLITES, band, SATELLITES, states, 8 * SATELLITES,
        receiver, receiver, 90.0, 100.0, on);
}

static uint8_t query(const struct table *t, double time, double *metres)
{
    return zaqnuti_query(
        t->constellation, ZAQNUTI_SAMPLES, t->svid, ZAQNUTI_SAMPLES, t->band, ZAQNUTI_SAMPLES,
        t->first, ZAQNUTI_SAMPLES, t->samples, ZAQNUTI_SAMPLES, t->blocks,
        t->time, ZAQNUTI_SAMPLES, t->metres, ZAQNUTI_SAMPLES, t->count,
        90.0, 1, 2, 1, time, metres);
}

/* The same signal at several times: the table is tested once. */
static uint8_t queries(const struct table *t, const double *times, zaqnuti_size count, uint8_t *numbers, double *metres)
{
    static const uint8_t constellation[3] = {1, 1, 1};
    static const uint16_t svid[3] = {2, 2, 2};
    static const uint32_t band[3] = {1, 1, 1};

    return zaqnuti_queries(
        t->constellation, ZAQNUTI_SAMPLES, t->svid, ZAQNUTI_SAMPLES, t->band, ZAQNUTI_SAMPLES,
        t->first, ZAQNUTI_SAMPLES, t->samples, ZAQNUTI_SAMPLES, t->blocks,
        t->time, ZAQNUTI_SAMPLES, t->metres, ZAQNUTI_SAMPLES, t->count,
        90.0, constellation, 3, svid, 3, band, 3, times, count, count, numbers, count, metres, count);
}

static void corrections(void)
{
    static struct table table;
    const double times[3] = {15.0, 60.0, 30.0};
    uint8_t numbers[3] = {9, 9, 9};
    double each[3] = {0.0, 7.0, 0.0};
    double metres = 0.0;

    printf("corrections\n");
    expect_number("first epoch", add(&table, 0.0, 2.0), 0);
    expect_number("second epoch", add(&table, 30.0, 4.0), 0);
    expect_number("samples", (unsigned)table.count, 2 * SATELLITES);
    expect_number("query at 15 s", query(&table, 15.0, &metres), 0);
    expect("correction, m", metres, 3.0, 1e-6);
    expect_number("query at 60 s", query(&table, 60.0, &metres), ZAQNUTI_NO_CORRECTION);
    expect("kept, m", metres, 3.0, 1e-6);
    expect_number("three queries in one call", queries(&table, times, 3, numbers, each), 0);
    expect_number("of them at 15 s", numbers[0], 0);
    expect_number("of them at 60 s", numbers[1], ZAQNUTI_NO_CORRECTION);
    expect("at 15 s, m", each[0], 3.0, 1e-6);
    expect("kept at 60 s, m", each[1], 7.0, 0.0);
    expect("at 30 s, m", each[2], 4.0, 1e-6);
}

/* Twelve signals of a base station that reports every 30 s, and a day of it. */
#define SIGNALS 12
#define INTERVAL 30
#define DAY 86400

/* What the base station's range to its first signal is too long by, m: a metre more every half a day. */
static double drift(double time)
{
    return 2.0 + time / 43200.0;
}

static uint8_t report_base(struct table *t, double time)
{
    static const bool on[8] = {false, true, false, false, false, false, true, false};
    uint8_t constellation[SIGNALS];
    uint16_t svid[SIGNALS];
    uint32_t band[SIGNALS];
    double range[SIGNALS];
    double states[8 * SIGNALS];
    zaqnuti_size i;

    memset(states, 0, sizeof states);
    for (i = 0; i < SIGNALS; i++) {
        const struct satellite *s = &sky[i % SATELLITES];
        constellation[i] = 1;
        svid[i] = (uint16_t)(1 + i);
        band[i] = 1;
        range[i] = range_to(s->place, receiver) + 250.0 + (i == 0 ? drift(time) : 0.0);
        memcpy(&states[8 * i], s->place, sizeof s->place);
    }
    return zaqnuti_add_epoch(
        t->constellation, ZAQNUTI_SAMPLES, t->svid, ZAQNUTI_SAMPLES, t->band, ZAQNUTI_SAMPLES,
        t->first, ZAQNUTI_SAMPLES, t->samples, ZAQNUTI_SAMPLES, &t->blocks,
        t->time, ZAQNUTI_SAMPLES, t->metres, ZAQNUTI_SAMPLES, &t->count,
        time, SIGNALS, constellation, SIGNALS, svid, SIGNALS, band, SIGNALS, range, SIGNALS,
        true, SIGNALS, constellation, SIGNALS, svid, SIGNALS, band, SIGNALS, states, 8 * SIGNALS,
        receiver, receiver, 90.0, 100.0, on);
}

static uint8_t ask_first(const struct table *t, double time, double *metres)
{
    return zaqnuti_query(
        t->constellation, ZAQNUTI_SAMPLES, t->svid, ZAQNUTI_SAMPLES, t->band, ZAQNUTI_SAMPLES,
        t->first, ZAQNUTI_SAMPLES, t->samples, ZAQNUTI_SAMPLES, t->blocks,
        t->time, ZAQNUTI_SAMPLES, t->metres, ZAQNUTI_SAMPLES, t->count,
        90.0, 1, 1, 1, time, metres);
}

static uint8_t forget_before(struct table *t, double time)
{
    return zaqnuti_forget(
        t->constellation, ZAQNUTI_SAMPLES, t->svid, ZAQNUTI_SAMPLES, t->band, ZAQNUTI_SAMPLES,
        t->first, ZAQNUTI_SAMPLES, t->samples, ZAQNUTI_SAMPLES, t->blocks,
        t->time, ZAQNUTI_SAMPLES, t->metres, ZAQNUTI_SAMPLES, &t->count, time);
}

/* Alone, a table of 2,048 samples is full before noon; with a drop an hour, of what is older than a minute, it lasts the day. */
static void morning(void)
{
    static struct table alone, kept;
    double before = 0.0;
    double after = 0.0;
    double metres = 0.0;
    zaqnuti_size most = 0;
    unsigned refused = 0;
    unsigned changed = 0;
    unsigned full_at = 0;
    unsigned at;

    printf("forgetting the morning\n");
    while (report_base(&alone, full_at) == 0) {
        full_at += INTERVAL;
    }
    expect_number("full before noon", full_at < DAY / 2, 1);
    expect_number("full", report_base(&alone, full_at), ZAQNUTI_TABLE_FULL);
    for (at = 0; at < DAY; at += INTERVAL) {
        refused += report_base(&kept, at) != 0;
        if (at % 3600 == 0 && at > 0) {
            /* A query after the drop's time answers as before the drop. */
            refused += ask_first(&kept, at - 45.0, &before) != 0;
            refused += forget_before(&kept, at - 60.0) != 0;
            refused += ask_first(&kept, at - 45.0, &after) != 0;
            changed += memcmp(&before, &after, sizeof before) != 0;
        }
        most = kept.count > most ? kept.count : most;
    }
    expect_number("refused in the day", refused, 0);
    expect_number("answers changed by a drop", changed, 0);
    expect_number("query at the day's end", ask_first(&kept, DAY - INTERVAL - 15.0, &metres), 0);
    expect("correction, m", metres, drift(DAY - INTERVAL - 15.0), 1e-6);
    expect_number("no finite time", forget_before(&kept, HUGE_VAL), ZAQNUTI_BAD_DROP_TIME);
    printf("  Alone the table is full after %u s; with a drop an hour it never holds more than %lu samples.\n", full_at, (unsigned long)most);
}

/* Three epochs, the first and the last anchored, with a link of a metre between neighbours. */
static void track(void)
{
    const zaqnuti_size anchor_at[2] = {0, 2};
    const double anchors[6] = {0.0, 0.0, 0.0, 2.0, 0.0, 0.0};
    const double anchor_sigma[6] = {5.0, 5.0, 8.0, 5.0, 5.0, 8.0};
    const zaqnuti_size link_at[2] = {0, 1};
    const double links[6] = {1.0, 0.0, 0.0, 1.0, 0.0, 0.0};
    const double link_sigma[6] = {0.01, 0.01, 0.02, 0.01, 0.01, 0.02};
    double result[9] = {0.0};
    double work[9 * 3 + 2 + 2] = {0.0};

    printf("track\n");
    expect_number("answer",
                  zaqnuti_smooth(3, 2, 2, anchor_at, 2, anchors, 6, anchor_sigma, 6,
                                 link_at, 2, links, 6, link_sigma, 6,
                                 2.0, 6, result, 9, work, sizeof work / sizeof work[0]),
                  0);
    expect("x of epoch 0, m", result[0], 0.0, 1e-9);
    expect("x of epoch 1, m", result[3], 1.0, 1e-9);
    expect("x of epoch 2, m", result[6], 2.0, 1e-9);
    expect_number("no anchor",
                  zaqnuti_smooth(3, 0, 2, NULL, 0, NULL, 0, NULL, 0,
                                 link_at, 2, links, 6, link_sigma, 6,
                                 2.0, 6, result, 9, work, sizeof work / sizeof work[0]),
                  ZAQNUTI_BAD_TRACK);
}

/* Whole metres of so many millimetres, for a sentence. */
static unsigned long metres(uint64_t millimetres)
{
    return (unsigned long)(millimetres / 1000);
}

/*
 * A day of 65,535 epochs, a second each: the van goes 12 m, 9 m or nothing in a
 * second, the odometer has 4,000 pulses to the kilometre, and its wheels slip
 * for ten seconds after five hours.
 */
static void trip(void)
{
    static const double step[3][3] = {{12.0, 0.0, 0.0}, {0.0, -9.0, 0.0}, {0.0, 0.0, 0.0}};
    static const uint16_t pulses[3] = {48, 36, 0};
    const double too_far[3] = {1000.0, 0.0, 0.001};
    uint64_t day[6] = {0, 0, 0, 0, 0, 0};
    uint64_t report[4] = {0, 0, 0, 0};
    uint64_t per_km = 7;
    unsigned refused = 0;
    uint32_t i;

    printf("trip\n");
    expect_number("a rate of 0", zaqnuti_trip_start(0, day), ZAQNUTI_BAD_TRIP);
    expect_number("start", zaqnuti_trip_start(4000, day), 0);
    expect_number("fuel at no distance", zaqnuti_trip_fuel(day, 1, &per_km), ZAQNUTI_NO_DISTANCE);
    expect_number("result kept", (unsigned)per_km, 7);
    for (i = 0; i < 65535; i++) {
        const uint16_t slipped = i / 10 == 1800 ? 100 : 0;
        refused += zaqnuti_trip_add(day, step[i % 3], (uint16_t)(pulses[i % 3] + slipped)) != 0;
        /* An epoch that is refused leaves the trip as it was, its pulses too. */
        refused += i % 1000 == 0 && zaqnuti_trip_add(day, too_far, 65535) != ZAQNUTI_BAD_TRIP;
    }
    expect_number("other answers", refused, 0);
    expect_number("one epoch more", zaqnuti_trip_add(day, step[2], 0), ZAQNUTI_BAD_TRIP);
    expect_number("report", zaqnuti_trip_report(day, report), 0);
    expect_number("carrier as driven", report[0] == 21845u * 21000u, 1);
    expect_number("odometer with its slip", report[1] == 21845u * 21000u + 250000u, 1);
    expect_number("greatest difference, mm", (unsigned)report[2], 250000);
    expect_number("after epoch", (unsigned)report[3], 18010);
    expect_number("fuel", zaqnuti_trip_fuel(day, 41288, &per_km), 0);
    expect_number("ml a kilometre", (unsigned)per_km, 90);
    printf("  In %lu epochs the van went %lu m by its carriers and %lu m by its odometer. The two were furthest\n"
           "  apart, by %lu m, after epoch %lu; the day took %lu ml of fuel for a kilometre.\n",
           (unsigned long)day[1], metres(report[0]), metres(report[1]), metres(report[2]), (unsigned long)report[3], (unsigned long)per_km);
}

/* A displacement by compass: on the equator at longitude 0 z is north, y is east and x is up. */
static void directions(void)
{
    const double equator[3] = {6378137.0, 0.0, 0.0};
    const double far[3] = {6378137.0, 0.0, 1000000001.0};
    const double by[3] = {1.0, 2.0, 3.0};
    double ned[3] = {0.0, 0.0, 0.0};

    printf("directions\n");
    expect_number("number", zaqnuti_north_east_down(equator, by, ned), 0);
    expect("north, m", ned[0], 3.0, 0.0);
    expect("east, m", ned[1], 2.0, 0.0);
    expect("down, m", ned[2], -1.0, 0.0);
    expect_number("beyond 1e9 m", zaqnuti_north_east_down(far, by, ned), ZAQNUTI_NOT_TURNED);
    expect("result kept, m", ned[0], 3.0, 0.0);
}

/* The trip's next epoch: one second under the settings in force. */
static uint8_t travel(uint64_t day[6], const double in_force[5], zaqnuti_size rounds, const struct epoch *p, const struct epoch *c, zaqnuti_size count, double delta[3], zaqnuti_size counts[2])
{
    return zaqnuti_trip_displacement(
        day, in_force, rounds,
        p->constellation, SATELLITES, p->svid, SATELLITES, p->band, SATELLITES,
        p->state, SATELLITES, p->floats, 6 * SATELLITES, count,
        c->constellation, SATELLITES, c->svid, SATELLITES, c->band, SATELLITES,
        c->state, SATELLITES, c->floats, 6 * SATELLITES, count,
        1.0, receiver, 10, delta, counts);
}

/* A day of 2,000 seconds, of which head office raises the mask at noon; the van moves 2.5 m in each. */
static void new_settings(void)
{
    const double morning[5] = {0.5, 0.008, 0.002, 1.5, 10.0};
    const double noon[5] = {0.5, 0.008, 0.002, 1.5, 30.0};
    const double no_mask[5] = {0.5, 0.008, 0.002, 1.5, 2e9};
    const double moved[3] = {receiver[0] + 1.5, receiver[1] - 2.0, receiver[2]};
    double rate[SATELLITES];
    struct epoch previous;
    struct epoch current;
    uint64_t day[6] = {0, 0, 0, 0, 0, 0};
    uint64_t report[4] = {0, 0, 0, 0};
    double in_force[5] = {0.0, 0.0, 0.0, 0.0, 0.0};
    double delta[3] = {0.0, 0.0, 0.0};
    zaqnuti_size counts[2] = {0, 0};
    zaqnuti_size rounds = 0;
    zaqnuti_size used[2] = {0, 0};
    unsigned refused = 0;
    unsigned i;

    printf("new settings at noon\n");
    for (i = 0; i < SATELLITES; i++) {
        rate[i] = range_to(sky[i].place, moved) - range_to(sky[i].place, receiver);
    }
    measure(&previous, receiver, 0.0, rate);
    measure(&current, moved, 30.0, rate);
    expect_number("begin", zaqnuti_trip_begin(morning, 4, 4000, day, in_force, &rounds), 0);
    for (i = 0; i < 2000; i++) {
        if (i == 1000) {
            /* A mask that is none is refused, and the morning's settings stay; the noon's are taken. */
            expect_number("a mask of 2e9", zaqnuti_trip_settings(day, no_mask, 4, in_force, &rounds), ZAQNUTI_SETTING_OUT_OF_RANGE);
            expect("mask in force", in_force[4], 10.0, 0.0);
            expect_number("a mask of 30", zaqnuti_trip_settings(day, noon, 4, in_force, &rounds), 0);
        }
        refused += travel(day, in_force, rounds, &previous, &current, SATELLITES, delta, counts) != 0;
        used[i / 1000] = counts[0];
        /* Five carriers are too few: the epoch and its pulses are not counted. */
        refused += travel(day, in_force, rounds, &previous, &current, 5, delta, counts) != ZAQNUTI_TOO_FEW_PAIRS;
    }
    expect_number("other answers", refused, 0);
    expect_number("carriers in the morning", (unsigned)used[0], 10);
    expect_number("and after noon", (unsigned)used[1], 8);
    expect_number("report", zaqnuti_trip_report(day, report), 0);
    expect_number("epochs", (unsigned)day[1], 2000);
    expect("carrier distance, m", (double)report[0] / 1000.0, 5000.0, 2.1);
    expect_number("odometer, mm", (unsigned)report[1], 5000000);
    printf("  In %lu epochs the van went %lu m by its carriers, with %lu satellites before noon and %lu after it,\n"
           "  and %lu m by its odometer.\n",
           (unsigned long)day[1], metres(report[0]), (unsigned long)used[0], (unsigned long)used[1], metres(report[1]));
}

int main(void)
{
    fix();
    times();
    drive();
    displacement();
    records();
    directions();
    line_form();
    trip();
    new_settings();
    corrections();
    morning();
    track();
    printf("%d not as expected\n", failures);
    return failures == 0 ? 0 : 1;
}
