/*
 * Holds zaqnuti_easy.h to zaqnuti.h: every call of the one gives the number
 * and the bytes of the other, on the drive, on the two real receivers, and on
 * altered copies of both that reach every refusal. Where a call refuses, the
 * result keeps its bytes.
 *
 *     tests/easy_test DRIVE_FOLDER GEONET_FOLDER
 *
 * C99 and C++.
 */
#include <math.h>

#include "../examples/geonet/read.h"

#define MOST 66

static unsigned long compared;
static unsigned long different;
static unsigned long met[256];

static void same(bool as_wanted, const char *what)
{
    compared += 1;
    if (!as_wanted) {
        different += 1;
        printf("differs: %s\n", what);
    }
}

/* ---- chance, with a fixed seed */

static uint64_t chance_state = 88172645463325252u;

static uint64_t chance(uint64_t below)
{
    chance_state ^= chance_state << 13;
    chance_state ^= chance_state >> 7;
    chance_state ^= chance_state << 17;
    return chance_state % below;
}

/* A float that the rules look at. */
static double odd(void)
{
    static const double few[8] = {0.0, -0.0, 1e9, 1.0000000001e9, -2e9, 90.0, 91.0, 1e-300};
    const uint64_t k = chance(11);
    if (k < 8) {
        return few[k];
    }
    return k == 8 ? (double)NAN : k == 9 ? (double)INFINITY : -(double)INFINITY;
}

/* Now and then another float. */
static void alter(double *x, uint64_t one_in)
{
    if (chance(one_in) == 0) {
        *x = odd();
    }
}

/* ---- the fix */

static void fix_both(const zaqnuti_observation *record, zaqnuti_size count, zaqnuti_vector guess, const zaqnuti_fix_settings *set)
{
    uint8_t constellation[MOST] = {0};
    double floats[5 * MOST] = {0.0};
    const double from[3] = {guess.x, guess.y, guess.z};
    const double settings[4] = {set->sigma_a, set->sigma_b, set->huber, set->mask};
    double solution[5];
    double position[3];
    zaqnuti_size used = 77;
    zaqnuti_observations epoch;
    zaqnuti_observations before;
    zaqnuti_solution easy;
    zaqnuti_solution marked;
    uint8_t plain_number;
    uint8_t easy_number = 0;
    zaqnuti_size i;

    memset(&epoch, 0xA5, sizeof epoch);
    memset(&easy, 0xA5, sizeof easy);
    marked = easy;
    zaqnuti_observations_clear(&epoch);
    for (i = 0; i < count; i++) {
        const double f[5] = {record[i].pseudorange, record[i].satellite.x, record[i].satellite.y, record[i].satellite.z, record[i].elevation};
        constellation[i] = record[i].constellation;
        memcpy(&floats[5 * i], f, sizeof f);
        if (easy_number == 0) {
            before = epoch;
            easy_number = zaqnuti_observations_add(&epoch, &record[i]);
            same((easy_number == 0) == (i < 64) && (i < 64 || memcmp(&before, &epoch, sizeof epoch) == 0), "fix, the 65th observation");
        }
    }
    plain_number = zaqnuti_fix(constellation, count, floats, 5 * count, count, from, settings, set->rounds, solution, &used);
    if (easy_number == 0) {
        easy_number = zaqnuti_easy_fix(&epoch, guess, set, &easy);
    }
    met[plain_number] += 1;
    same(plain_number == easy_number, "fix, its number");
    if (plain_number != 0) {
        same(memcmp(&easy, &marked, sizeof easy) == 0, "fix, the result of a refusal");
        return;
    }
    same(memcmp(&easy.position, solution, sizeof easy.position) == 0, "fix, its position");
    same(memcmp(&easy.chi, &solution[3], sizeof easy.chi) == 0 || (isnan(easy.chi) && isnan(solution[3])), "fix, chi");
    same(memcmp(&easy.pdop, &solution[4], sizeof easy.pdop) == 0 || (isnan(easy.pdop) && isnan(solution[4])), "fix, pdop");
    same(easy.used == used, "fix, used");
    plain_number = zaqnuti_position(constellation, count, floats, 5 * count, count, from, settings, set->rounds, position);
    same(plain_number == 0 && memcmp(&easy.position, position, sizeof position) == 0, "position alone");
}

/* ---- the displacement */

struct columns {
    uint8_t constellation[MOST];
    uint16_t svid[MOST];
    uint32_t band[MOST];
    int32_t state[MOST];
    double floats[6 * MOST];
    zaqnuti_size count;
};

static void columns_of(struct columns *to, const zaqnuti_carrier *record, zaqnuti_size count)
{
    zaqnuti_size i;
    to->count = count;
    for (i = 0; i < count; i++) {
        const zaqnuti_carrier *c = &record[i];
        const double f[6] = {c->adr, c->satellite.x, c->satellite.y, c->satellite.z, c->elevation, c->rate};
        to->constellation[i] = c->constellation;
        to->svid[i] = c->svid;
        to->band[i] = c->band;
        to->state[i] = c->state;
        memcpy(&to->floats[6 * i], f, sizeof f);
    }
}

static uint8_t epoch_of(zaqnuti_epoch *to, const zaqnuti_carrier *record, zaqnuti_size count)
{
    zaqnuti_epoch before;
    uint8_t number = 0;
    zaqnuti_size i;
    memset(to, 0xA5, sizeof *to);
    zaqnuti_epoch_clear(to);
    for (i = 0; i < count && number == 0; i++) {
        before = *to;
        number = zaqnuti_epoch_add(to, &record[i]);
        same((number == 0) == (i < 64) && (i < 64 || memcmp(&before, to, sizeof before) == 0), "displacement, the 65th carrier");
    }
    return number;
}

/* The plain call on columns: by the interval, or between the two times where there are any. */
static uint8_t plain_displacement(
    const struct columns *p, const struct columns *c, double dt, const zaqnuti_gps_time *time,
    const double from[3], const double settings[5], zaqnuti_size rounds, double delta[3], zaqnuti_size counts[2])
{
    if (time == NULL) {
        return zaqnuti_displacement(
            p->constellation, p->count, p->svid, p->count, p->band, p->count, p->state, p->count, p->floats, 6 * p->count, p->count,
            c->constellation, c->count, c->svid, c->count, c->band, c->count, c->state, c->count, c->floats, 6 * c->count, c->count,
            dt, from, settings, rounds, delta, counts);
    }
    return zaqnuti_displacement_between(
        p->constellation, p->count, p->svid, p->count, p->band, p->count, p->state, p->count, p->floats, 6 * p->count, p->count,
        c->constellation, c->count, c->svid, c->count, c->band, c->count, c->state, c->count, c->floats, 6 * c->count, c->count,
        time[0].nanos, time[1].nanos, from, settings, rounds, delta, counts);
}

/* The same in the city profile, on the band of the first carrier. */
static void city_both(
    const struct columns *p, const struct columns *c, const zaqnuti_epoch *previous, const zaqnuti_epoch *current,
    double dt, zaqnuti_vector receiver, const zaqnuti_displacement_settings *set)
{
    const double from[3] = {receiver.x, receiver.y, receiver.z};
    const double settings[5] = {set->screen, set->sigma_a, set->sigma_b, set->huber, set->mask};
    const uint32_t band = c->count > 0 ? c->band[0] : 1575;
    double delta[3] = {0.25, 0.25, 0.25};
    zaqnuti_size counts[2] = {7, 7};
    zaqnuti_moved moved = {{0.25, 0.25, 0.25}, 7, 7};
    uint8_t number = zaqnuti_city_displacement(
        p->constellation, p->count, p->svid, p->count, p->band, p->count, p->state, p->count, p->floats, 6 * p->count, p->count,
        c->constellation, c->count, c->svid, c->count, c->band, c->count, c->state, c->count, c->floats, 6 * c->count, c->count,
        dt, band, from, settings, set->rounds, delta, counts);

    met[number] += 1;
    same(zaqnuti_easy_city_displacement(previous, current, dt, band, receiver, set, &moved) == number, "city displacement, its number");
    same(memcmp(&moved.delta, delta, sizeof delta) == 0, "city displacement, its vector");
    same(moved.used == counts[0] && moved.screened == counts[1], "city displacement, its counts");
}

/* The displacement with its quality by both calls, and in the city profile where there is a band. */
static void rated_both(
    const struct columns *p, const struct columns *c, const zaqnuti_epoch *previous, const zaqnuti_epoch *current,
    double dt, const uint32_t *band, zaqnuti_vector receiver, const zaqnuti_displacement_settings *set)
{
    const double from[3] = {receiver.x, receiver.y, receiver.z};
    const double settings[5] = {set->screen, set->sigma_a, set->sigma_b, set->huber, set->mask};
    double delta[3] = {0.25, 0.25, 0.25};
    double quality[2] = {0.5, 0.5};
    zaqnuti_size counts[2] = {7, 7};
    zaqnuti_rated rated = {{0.25, 0.25, 0.25}, 0.5, 0.5, 7, 7};
    uint8_t number;
    uint8_t easy;

    if (band == NULL) {
        number = zaqnuti_displacement_rated(
            p->constellation, p->count, p->svid, p->count, p->band, p->count, p->state, p->count, p->floats, 6 * p->count, p->count,
            c->constellation, c->count, c->svid, c->count, c->band, c->count, c->state, c->count, c->floats, 6 * c->count, c->count,
            dt, from, settings, set->rounds, delta, quality, counts);
        easy = zaqnuti_easy_displacement_rated(previous, current, dt, receiver, set, &rated);
    } else {
        number = zaqnuti_city_displacement_rated(
            p->constellation, p->count, p->svid, p->count, p->band, p->count, p->state, p->count, p->floats, 6 * p->count, p->count,
            c->constellation, c->count, c->svid, c->count, c->band, c->count, c->state, c->count, c->floats, 6 * c->count, c->count,
            dt, *band, from, settings, set->rounds, delta, quality, counts);
        easy = zaqnuti_easy_city_displacement_rated(previous, current, dt, *band, receiver, set, &rated);
    }
    met[number] += 1;
    same(easy == number, "rated displacement, its number");
    same(memcmp(&rated.delta, delta, sizeof delta) == 0, "rated displacement, its vector");
    same(memcmp(&rated.chi, &quality[0], sizeof(double)) == 0, "rated displacement, chi");
    same(memcmp(&rated.pdop, &quality[1], sizeof(double)) == 0, "rated displacement, pdop");
    same(rated.used == counts[0] && rated.screened == counts[1], "rated displacement, its counts");
}

/* Gives the number, and the displacement in `easy`; between two times where there are any, else by the interval. */
static uint8_t displacement_both(
    const zaqnuti_carrier *before, zaqnuti_size before_count, const zaqnuti_carrier *after, zaqnuti_size after_count,
    double dt, const zaqnuti_gps_time *time, zaqnuti_vector receiver, const zaqnuti_displacement_settings *set, zaqnuti_moved *easy)
{
    static struct columns p;
    static struct columns c;
    const double from[3] = {receiver.x, receiver.y, receiver.z};
    const double settings[5] = {set->screen, set->sigma_a, set->sigma_b, set->huber, set->mask};
    double delta[3];
    zaqnuti_size counts[2];
    zaqnuti_epoch previous;
    zaqnuti_epoch current;
    zaqnuti_moved marked;
    uint8_t plain_number;
    uint8_t easy_number;

    memset(easy, 0xA5, sizeof *easy);
    marked = *easy;
    columns_of(&p, before, before_count);
    columns_of(&c, after, after_count);
    plain_number = plain_displacement(&p, &c, dt, time, from, settings, set->rounds, delta, counts);
    easy_number = epoch_of(&previous, before, before_count);
    if (easy_number == 0) {
        easy_number = epoch_of(&current, after, after_count);
    }
    if (easy_number == 0 && time == NULL) {
        easy_number = zaqnuti_easy_displacement(&previous, &current, dt, receiver, set, easy);
    } else if (easy_number == 0) {
        easy_number = zaqnuti_easy_displacement_between(&previous, &current, time[0], time[1], receiver, set, easy);
    }
    if (easy_number == 0 && time == NULL) {
        const uint32_t band = c.count > 0 ? c.band[0] : 1575;
        city_both(&p, &c, &previous, &current, dt, receiver, set);
        rated_both(&p, &c, &previous, &current, dt, NULL, receiver, set);
        rated_both(&p, &c, &previous, &current, dt, &band, receiver, set);
    }
    met[plain_number] += 1;
    same(plain_number == easy_number, "displacement, its number");
    if (plain_number != 0) {
        same(memcmp(easy, &marked, sizeof marked) == 0, "displacement, the result of a refusal");
    } else {
        same(memcmp(&easy->delta, delta, sizeof delta) == 0, "displacement, its vector");
        same(easy->used == counts[0] && easy->screened == counts[1], "displacement, its counts");
    }
    return plain_number;
}

/* ---- a trip with settings */

/* New settings and a displacement under those in force, by both calls on the same trip; at first it is begun. */
static void drive_both(
    const zaqnuti_carrier *before, zaqnuti_size before_count, const zaqnuti_carrier *after, zaqnuti_size after_count,
    double dt, zaqnuti_vector receiver, const zaqnuti_displacement_settings *set)
{
    static zaqnuti_drive easy;
    static struct columns p;
    static struct columns c;
    const double from[3] = {receiver.x, receiver.y, receiver.z};
    const double settings[5] = {set->screen, set->sigma_a, set->sigma_b, set->huber, set->mask};
    const uint16_t pulses = (uint16_t)chance(65536);
    double in_force[5] = {easy.in_force.screen, easy.in_force.sigma_a, easy.in_force.sigma_b, easy.in_force.huber, easy.in_force.mask};
    zaqnuti_size rounds = easy.in_force.rounds;
    uint64_t word[6];
    double delta[3] = {1.0, 2.0, 3.0};
    zaqnuti_size counts[2] = {4, 5};
    zaqnuti_moved moved = {{1.0, 2.0, 3.0}, 4, 5};
    zaqnuti_epoch previous;
    zaqnuti_epoch current;
    uint8_t number;

    memcpy(word, easy.trip.word, sizeof word);
    if (word[0] == 0 || chance(40) == 0) {
        const uint16_t per_km = (uint16_t)chance(3);
        number = zaqnuti_trip_begin(settings, set->rounds, per_km, word, in_force, &rounds);
        same(zaqnuti_easy_drive_begin(set, per_km, &easy) == number, "a trip begun with settings, its number");
    } else {
        number = zaqnuti_trip_settings(word, settings, set->rounds, in_force, &rounds);
        same(zaqnuti_easy_drive_settings(&easy, set) == number, "new settings of a trip, their number");
    }
    met[number] += 1;
    same(memcmp(easy.trip.word, word, sizeof word) == 0 && memcmp(&easy.in_force, in_force, sizeof in_force) == 0 && easy.in_force.rounds == rounds,
         "a trip and its settings in force");
    if (epoch_of(&previous, before, before_count) != 0 || epoch_of(&current, after, after_count) != 0) {
        return;
    }
    columns_of(&p, before, before_count);
    columns_of(&c, after, after_count);
    number = zaqnuti_trip_displacement(
        word, in_force, rounds,
        p.constellation, MOST, p.svid, MOST, p.band, MOST, p.state, MOST, p.floats, 6 * MOST, before_count,
        c.constellation, MOST, c.svid, MOST, c.band, MOST, c.state, MOST, c.floats, 6 * MOST, after_count,
        dt, from, pulses, delta, counts);
    met[number] += 1;
    same(zaqnuti_easy_drive_displacement(&easy, &previous, &current, dt, receiver, pulses, &moved) == number, "a displacement of a trip, its number");
    same(memcmp(easy.trip.word, word, sizeof word) == 0, "a displacement of a trip, the trip");
    same(memcmp(&moved.delta, delta, sizeof delta) == 0 && moved.used == counts[0] && moved.screened == counts[1], "a displacement of a trip");
}

/* ---- the trip */

/* A trip by both calls: the words, the numbers and the results are the same. */
static void trips(void)
{
    zaqnuti_size round;
    for (round = 0; round < 200; round++) {
        const uint16_t per_km = (uint16_t)(round % 9 == 0 ? 0 : chance(65536));
        zaqnuti_trip easy = {{round, 1, 2, 3, 4, 5}};
        uint64_t word[6] = {round, 1, 2, 3, 4, 5};
        zaqnuti_size k;
        same(zaqnuti_easy_trip_start(per_km, &easy) == zaqnuti_trip_start(per_km, word), "the start of a trip, its number");
        same(memcmp(easy.word, word, sizeof word) == 0, "the start of a trip");
        for (k = 0; k < 40; k++) {
            zaqnuti_vector delta = {(double)chance(1000) / 7.0, 3.0, -0.25};
            zaqnuti_report report = {11, 12, 13, 14};
            uint64_t plain_report[4] = {11, 12, 13, 14};
            uint64_t fuel = 15;
            uint64_t plain_fuel = 15;
            const uint16_t pulses = (uint16_t)chance(65536);
            const uint32_t millilitres = (uint32_t)chance(100000);
            double d[3];
            uint8_t number;
            alter(&delta.y, 9);
            if (chance(20) == 0) {
                word[chance(6)] = chance(100000);
                memcpy(easy.word, word, sizeof word);
            }
            d[0] = delta.x;
            d[1] = delta.y;
            d[2] = delta.z;
            number = zaqnuti_trip_add(word, d, pulses);
            met[number] += 1;
            same(zaqnuti_easy_trip_add(&easy, delta, pulses) == number, "an epoch of a trip, its number");
            same(memcmp(easy.word, word, sizeof word) == 0, "an epoch of a trip");
            number = zaqnuti_trip_report(word, plain_report);
            same(zaqnuti_easy_trip_report(&easy, &report) == number, "the report of a trip, its number");
            same(report.carrier == plain_report[0] && report.odometer == plain_report[1] && report.greatest == plain_report[2] &&
                     report.reached == plain_report[3], "the report of a trip");
            number = zaqnuti_trip_fuel(word, millilitres, &plain_fuel);
            met[number] += 1;
            same(zaqnuti_easy_trip_fuel(&easy, millilitres, &fuel) == number && fuel == plain_fuel, "the fuel of a trip");
        }
    }
}
/* ---- the mileage */

#include "easy_mileage.h"

/* ---- carrier records as bytes */

#include "easy_records.h"

/* ---- times */

/* The same of a week and a time of week, and of two times. */
static void times_both(uint32_t week, double tow, zaqnuti_gps_time earlier, zaqnuti_gps_time *easy)
{
    uint64_t nanos = 77;
    int64_t since = 77;
    int64_t easy_since = 77;
    double seconds = 7.5;
    double easy_seconds = 7.5;
    uint8_t number = zaqnuti_time(week, tow, &nanos);

    easy->nanos = 77;
    met[number] += 1;
    same(zaqnuti_easy_time(week, tow, easy) == number && easy->nanos == nanos, "a time");
    same(number == 0 || nanos == 77, "a time, the result of a refusal");
    if (chance(8) == 0) {
        /* Next to the last time that is one, or any at all. */
        easy->nanos = chance(2) == 0 ? 9072604800000000000u + chance(3) - 1 : UINT64_MAX - chance(9);
    }
    number = zaqnuti_nanos_since(easy->nanos, earlier.nanos, &since);
    met[number] += 1;
    same(zaqnuti_easy_nanos_since(*easy, earlier, &easy_since) == number && easy_since == since, "nanoseconds between two times");
    same(number == 0 || since == 77, "nanoseconds, the result of a refusal");
    same(zaqnuti_seconds_since(easy->nanos, earlier.nanos, &seconds) == number, "seconds between two times, their number");
    same(zaqnuti_easy_seconds_since(*easy, earlier, &easy_seconds) == number, "seconds, their number by structs");
    same(memcmp(&seconds, &easy_seconds, sizeof seconds) == 0, "seconds between two times");
    same(number == 0 ? seconds == (double)since / 1e9 : seconds == 7.5, "seconds, as of the nanoseconds");
}

static void times(void)
{
    static const double edges[6] = {604799.9999999999, 604799.5, 0.5, 5e-10, 604800.0, 3600.25};
    zaqnuti_gps_time before = {0};
    zaqnuti_gps_time now = {0};
    zaqnuti_size k;

    for (k = 0; k < 20000; k++) {
        const uint32_t week = chance(9) == 0 ? (uint32_t)(14999 + chance(4)) : (uint32_t)chance(2500);
        double tow = chance(2) == 0 ? edges[chance(6)] : 1e-3 * (double)chance(604800000);
        alter(&tow, 8);
        times_both(week, tow, before, &now);
        before = now;
    }
}

/* ---- directions */

/* The same of a displacement at a place. */
static void directions(void)
{
    zaqnuti_size k;

    for (k = 0; k < 20000; k++) {
        const double earth = chance(9) == 0 ? 1e-9 : 6378137.0;
        zaqnuti_vector place;
        zaqnuti_vector by;
        zaqnuti_ned easy = {7.5, 7.5, 7.5};
        double at[3];
        double along[3];
        double ned[3] = {7.5, 7.5, 7.5};
        uint8_t number;
        zaqnuti_size i;
        for (i = 0; i < 3; i++) {
            at[i] = earth * (1e-3 * (double)chance(2001) - 1.0);
            along[i] = 1e-3 * (double)chance(200001) - 100.0;
            alter(&at[i], 30);
            alter(&along[i], 30);
        }
        place.x = at[0];
        place.y = at[1];
        place.z = at[2];
        by.x = along[0];
        by.y = along[1];
        by.z = along[2];
        number = zaqnuti_north_east_down(at, along, ned);
        met[number] += 1;
        same(zaqnuti_easy_north_east_down(place, by, &easy) == number, "north, east, down, its number");
        same(memcmp(&easy, ned, sizeof ned) == 0, "north, east, down");
        same(number == 0 || (ned[0] == 7.5 && ned[1] == 7.5 && ned[2] == 7.5), "north, east, down, the result of a refusal");
    }
}

/* ---- the corrections: a table of each side, to which the same epochs are added */

static zaqnuti_table easy_table;
static struct {
    zaqnuti_size count;
    uint8_t constellation[ZAQNUTI_SAMPLES];
    uint16_t svid[ZAQNUTI_SAMPLES];
    uint32_t band[ZAQNUTI_SAMPLES];
    zaqnuti_size first[ZAQNUTI_SAMPLES];
    zaqnuti_size samples[ZAQNUTI_SAMPLES];
    zaqnuti_size blocks;
    double time[ZAQNUTI_SAMPLES];
    double metres[ZAQNUTI_SAMPLES];
} plain_table;

static void tables_same(const char *what)
{
    same(easy_table.count == plain_table.count, what);
    same(easy_table.blocks == plain_table.blocks, what);
    same(memcmp(easy_table.first, plain_table.first, sizeof plain_table.first) == 0, what);
    same(memcmp(easy_table.samples, plain_table.samples, sizeof plain_table.samples) == 0, what);
    same(memcmp(easy_table.constellation, plain_table.constellation, sizeof plain_table.constellation) == 0, what);
    same(memcmp(easy_table.svid, plain_table.svid, sizeof plain_table.svid) == 0, what);
    same(memcmp(easy_table.band, plain_table.band, sizeof plain_table.band) == 0, what);
    same(memcmp(easy_table.time, plain_table.time, sizeof plain_table.time) == 0, what);
    same(memcmp(easy_table.metres, plain_table.metres, sizeof plain_table.metres) == 0, what);
}

static void tables_clear(void)
{
    memset(&easy_table, 0xA5, sizeof easy_table);
    zaqnuti_table_clear(&easy_table);
    memset(&plain_table, 0xA5, sizeof plain_table);
    plain_table.count = 0;
    plain_table.blocks = 0;
}

/* An epoch of the base as records. */
struct base_records {
    double time;
    zaqnuti_size ranges;
    zaqnuti_base_range range[MOST];
    bool present;
    zaqnuti_size states;
    zaqnuti_base_state state[MOST];
};

static uint8_t easy_add(const struct base_records *e, zaqnuti_vector base, zaqnuti_vector rover, const zaqnuti_correction_settings *set)
{
    static zaqnuti_base_epoch epoch;
    static zaqnuti_base_epoch before;
    uint8_t number = 0;
    zaqnuti_size i;

    memset(&epoch, 0xA5, sizeof epoch);
    zaqnuti_base_epoch_clear(&epoch, e->time);
    epoch.states_present = e->present;
    for (i = 0; i < e->ranges && number == 0; i++) {
        before = epoch;
        number = zaqnuti_base_epoch_add_range(&epoch, &e->range[i]);
        same((number == 0) == (i < 64) && (i < 64 || memcmp(&before, &epoch, sizeof epoch) == 0), "base epoch, a range too many");
    }
    for (i = 0; i < e->states && number == 0; i++) {
        before = epoch;
        number = zaqnuti_base_epoch_add_state(&epoch, &e->state[i]);
        same((number == 0) == (i < 64) && (i < 64 || memcmp(&before, &epoch, sizeof epoch) == 0), "base epoch, a state too many");
        if (number != 0 && !e->present) {
            /* States beside the mark that there are none are not looked at. */
            number = 0;
            break;
        }
    }
    return number != 0 ? number : zaqnuti_easy_add_epoch(&easy_table, &epoch, base, rover, set);
}

static uint8_t plain_add(const struct base_records *e, zaqnuti_vector base, zaqnuti_vector rover, const zaqnuti_correction_settings *set)
{
    uint8_t rc[MOST] = {0};
    uint16_t rv[MOST] = {0};
    uint32_t rb[MOST] = {0};
    double rp[MOST] = {0.0};
    uint8_t sc[MOST] = {0};
    uint16_t sv[MOST] = {0};
    uint32_t sb[MOST] = {0};
    double sf[8 * MOST] = {0.0};
    const double at_base[3] = {base.x, base.y, base.z};
    const double at_rover[3] = {rover.x, rover.y, rover.z};
    zaqnuti_size i;

    for (i = 0; i < e->ranges; i++) {
        rc[i] = e->range[i].signal.constellation;
        rv[i] = e->range[i].signal.svid;
        rb[i] = e->range[i].signal.band;
        rp[i] = e->range[i].pseudorange;
    }
    for (i = 0; i < e->states; i++) {
        const zaqnuti_base_state *s = &e->state[i];
        const double f[8] = {s->satellite.x, s->satellite.y, s->satellite.z, s->velocity.x, s->velocity.y, s->velocity.z, s->clock, s->modelled};
        sc[i] = s->signal.constellation;
        sv[i] = s->signal.svid;
        sb[i] = s->signal.band;
        memcpy(&sf[8 * i], f, sizeof f);
    }
    return zaqnuti_add_epoch(
        plain_table.constellation, ZAQNUTI_SAMPLES, plain_table.svid, ZAQNUTI_SAMPLES, plain_table.band, ZAQNUTI_SAMPLES,
        plain_table.first, ZAQNUTI_SAMPLES, plain_table.samples, ZAQNUTI_SAMPLES, &plain_table.blocks,
        plain_table.time, ZAQNUTI_SAMPLES, plain_table.metres, ZAQNUTI_SAMPLES, &plain_table.count,
        e->time, e->ranges, rc, e->ranges, rv, e->ranges, rb, e->ranges, rp, e->ranges,
        e->present, e->states, sc, e->states, sv, e->states, sb, e->states, sf, 8 * e->states,
        at_base, at_rover, set->max_gap, set->max_correction, set->corrected);
}

static void add_both(const struct base_records *e, zaqnuti_vector base, zaqnuti_vector rover, const zaqnuti_correction_settings *set)
{
    const uint8_t easy_number = easy_add(e, base, rover, set);
    const uint8_t plain_number = plain_add(e, base, rover, set);

    met[plain_number] += 1;
    same(plain_number == easy_number, "base epoch, its number");
    tables_same("base epoch, the table after it");
}

static void query_both(const zaqnuti_signal *signals, zaqnuti_size count, double time, const zaqnuti_correction_settings *set)
{
    uint8_t numbers[MOST];
    uint8_t easy_numbers[MOST];
    double metres[MOST];
    double easy_metres[MOST];
    double one;
    double easy_one;
    uint8_t number;
    uint8_t easy_number;
    zaqnuti_size i;

    memset(easy_numbers, 0xA5, sizeof easy_numbers);
    memset(easy_metres, 0xA5, sizeof easy_metres);
    memset(numbers, 0xA5, sizeof numbers);
    memset(metres, 0xA5, sizeof metres);
    easy_number = zaqnuti_easy_queries(&easy_table, signals, count, time, set, easy_numbers, easy_metres);
    if (count > ZAQNUTI_RECORDS) {
        same(easy_number == ZAQNUTI_TOO_MANY, "queries, more than 64");
        same(easy_numbers[0] == 0xA5, "queries, the result of a refusal");
        return;
    }
    for (i = 0; i < count; i++) {
        memset(&one, 0xA5, sizeof one);
        easy_one = one;
        number = zaqnuti_query(
            plain_table.constellation, ZAQNUTI_SAMPLES, plain_table.svid, ZAQNUTI_SAMPLES, plain_table.band, ZAQNUTI_SAMPLES,
            plain_table.first, ZAQNUTI_SAMPLES, plain_table.samples, ZAQNUTI_SAMPLES, plain_table.blocks,
            plain_table.time, ZAQNUTI_SAMPLES, plain_table.metres, ZAQNUTI_SAMPLES, plain_table.count,
            set->max_gap, signals[i].constellation, signals[i].svid, signals[i].band, time, &one);
        met[number] += 1;
        same(number == zaqnuti_easy_query(&easy_table, signals[i], time, set, &easy_one), "query, its number");
        same(memcmp(&one, &easy_one, sizeof one) == 0, "query, its metres");
        if (easy_number == 0) {
            numbers[i] = number;
            memcpy(&metres[i], &one, sizeof one);
        } else {
            same(number == easy_number, "queries, the number of the call");
        }
    }
    same(memcmp(numbers, easy_numbers, sizeof numbers) == 0, "queries, the numbers");
    same(memcmp(metres, easy_metres, sizeof metres) == 0, "queries, the metres");
}

static void forget_both(double time)
{
    const uint8_t easy_number = zaqnuti_easy_forget(&easy_table, time);
    const uint8_t number = zaqnuti_forget(
        plain_table.constellation, ZAQNUTI_SAMPLES, plain_table.svid, ZAQNUTI_SAMPLES, plain_table.band, ZAQNUTI_SAMPLES,
        plain_table.first, ZAQNUTI_SAMPLES, plain_table.samples, ZAQNUTI_SAMPLES, plain_table.blocks,
        plain_table.time, ZAQNUTI_SAMPLES, plain_table.metres, ZAQNUTI_SAMPLES, &plain_table.count, time);

    same(easy_number == number, "forgetting, its number");
    tables_same("forgetting, the table after it");
}

/* The bands of a table of 8 bits each, in columns that may be too short. */
static void widen_both(zaqnuti_size count, zaqnuti_size length)
{
    static uint8_t narrow[ZAQNUTI_SAMPLES + 1];
    uint8_t number;
    zaqnuti_size i;

    tables_clear();
    for (i = 0; i < length; i++) {
        narrow[i] = (uint8_t)chance(256);
    }
    easy_table.count = plain_table.count = count;
    number = zaqnuti_widen_bands(narrow, length, count, plain_table.band, ZAQNUTI_SAMPLES);
    met[number] += 1;
    same(number == (count > length || count > ZAQNUTI_SAMPLES ? ZAQNUTI_TOO_MANY : 0), "bands, the number");
    for (i = 0; i < ZAQNUTI_SAMPLES; i++) {
        same(plain_table.band[i] == (number == 0 && i < count ? narrow[i] : 0xA5A5A5A5u), "bands, each of them");
    }
}

/* The signals of the easy table, and its directory made of them again: by both calls, and the table as it was. */
static void forms_both(zaqnuti_size length)
{
    static uint8_t constellation[2][ZAQNUTI_SAMPLES];
    static uint16_t svid[2][ZAQNUTI_SAMPLES];
    static uint32_t band[2][ZAQNUTI_SAMPLES];
    static zaqnuti_table again;
    uint8_t number;

    memset(constellation, 0xA5, sizeof constellation);
    memset(svid, 0xA5, sizeof svid);
    memset(band, 0xA5, sizeof band);
    number = zaqnuti_signals_of(
        easy_table.constellation, ZAQNUTI_EASY_SAMPLES, easy_table.svid, ZAQNUTI_EASY_SAMPLES, easy_table.band, ZAQNUTI_EASY_SAMPLES,
        easy_table.first, ZAQNUTI_EASY_SAMPLES, easy_table.samples, ZAQNUTI_EASY_SAMPLES, easy_table.blocks,
        easy_table.time, ZAQNUTI_EASY_SAMPLES, easy_table.metres, ZAQNUTI_EASY_SAMPLES, easy_table.count,
        constellation[0], length, svid[0], length, band[0], length);
    met[number] += 1;
    same(number == (easy_table.count > length ? ZAQNUTI_TOO_MANY : 0), "signals, the number");
    same(zaqnuti_easy_signals_of(&easy_table, constellation[1], svid[1], band[1], length) == number, "signals, the number of the easy call");
    same(memcmp(constellation[0], constellation[1], sizeof *constellation) == 0 && memcmp(svid[0], svid[1], sizeof *svid) == 0 &&
             memcmp(band[0], band[1], sizeof *band) == 0, "signals, each of them");
    if (number == 0) {
        again = easy_table;
        again.blocks = 0;
        memset(again.first, 0, sizeof again.first);
        same(zaqnuti_easy_directory_of(&again, constellation[1], svid[1], band[1], length) == 0, "directory, the number");
        same(again.blocks == easy_table.blocks && memcmp(again.first, easy_table.first, (size_t)(again.blocks * sizeof *again.first)) == 0 &&
                 memcmp(again.samples, easy_table.samples, (size_t)(again.blocks * sizeof *again.samples)) == 0 &&
                 memcmp(again.band, easy_table.band, (size_t)(again.blocks * sizeof *again.band)) == 0, "directory, as it was");
    }
}

/* ---- the track */

static zaqnuti_track easy_track;

/* The anchors and links that were handed over, as columns of this test's own. */
static struct {
    zaqnuti_size anchors;
    zaqnuti_size links;
    zaqnuti_size anchor_epoch[ZAQNUTI_EPOCHS];
    double anchor_position[3 * ZAQNUTI_EPOCHS];
    double anchor_sigma[3 * ZAQNUTI_EPOCHS];
    zaqnuti_size link_epoch[ZAQNUTI_EPOCHS];
    double link_change[3 * ZAQNUTI_EPOCHS];
    double link_sigma[3 * ZAQNUTI_EPOCHS];
} given;

static void begin_track(zaqnuti_size epochs)
{
    zaqnuti_track_clear(&easy_track, epochs);
    given.anchors = 0;
    given.links = 0;
}

static void three(double *to, zaqnuti_size i, zaqnuti_vector v)
{
    const double f[3] = {v.x, v.y, v.z};
    memcpy(&to[3 * i], f, sizeof f);
}

static uint8_t give_anchor(zaqnuti_size epoch, zaqnuti_vector position, zaqnuti_vector sigma)
{
    const uint8_t number = zaqnuti_track_anchor(&easy_track, epoch, position, sigma);
    if (number == 0) {
        given.anchor_epoch[given.anchors] = epoch;
        three(given.anchor_position, given.anchors, position);
        three(given.anchor_sigma, given.anchors, sigma);
        given.anchors += 1;
    }
    return number;
}

static uint8_t give_link(zaqnuti_size epoch, zaqnuti_vector change, zaqnuti_vector sigma)
{
    const uint8_t number = zaqnuti_track_link(&easy_track, epoch, change, sigma);
    if (number == 0) {
        given.link_epoch[given.links] = epoch;
        three(given.link_change, given.links, change);
        three(given.link_sigma, given.links, sigma);
        given.links += 1;
    }
    return number;
}

static void smooth_both(const zaqnuti_track_settings *set)
{
    static double result[3 * ZAQNUTI_EPOCHS];
    static double work[11 * ZAQNUTI_EPOCHS];
    const zaqnuti_size a = given.anchors;
    const zaqnuti_size l = given.links;
    uint8_t plain_number;
    uint8_t easy_number;
    zaqnuti_size k;

    memcpy(result, easy_track.place, sizeof result);
    memcpy(work, easy_track.work, sizeof work);
    plain_number = zaqnuti_smooth(
        easy_track.epochs, a, l,
        given.anchor_epoch, a, given.anchor_position, 3 * a, given.anchor_sigma, 3 * a,
        given.link_epoch, l, given.link_change, 3 * l, given.link_sigma, 3 * l,
        set->huber, set->iterations, result, 3 * ZAQNUTI_EPOCHS, work, 11 * ZAQNUTI_EPOCHS);
    easy_number = zaqnuti_easy_smooth(&easy_track, set);
    met[plain_number] += 1;
    same(plain_number == easy_number, "track, its number");
    same(memcmp(result, easy_track.place, sizeof result) == 0, "track, its places");
    same(memcmp(work, easy_track.work, sizeof work) == 0, "track, its work space");
    for (k = 0; k < easy_track.epochs && k < ZAQNUTI_EPOCHS; k++) {
        const zaqnuti_vector place = zaqnuti_track_place(&easy_track, k);
        same(memcmp(&place, &result[3 * k], sizeof place) == 0, "track, a place");
    }
}

/* ---- the drive: the texts by zaqnuti_line, and their records by the structs */

static double float_of(const char *digits)
{
    const uint64_t bits = strtoull(digits, NULL, 16);
    double x;
    memcpy(&x, &bits, sizeof x);
    return x;
}

struct text {
    double dt;
    zaqnuti_vector receiver;
    zaqnuti_displacement_settings settings;
    zaqnuti_carrier carrier[2][MOST];
    zaqnuti_size count[2];
};

static void read_line(struct text *t, char *line)
{
    char *field[11];
    zaqnuti_size n = 0;
    char *at;

    for (at = strtok(line, ",\n"); at != NULL && n < 11; at = strtok(NULL, ",\n")) {
        field[n++] = at;
    }
    if (n < 11) {
        return;
    }
    if (field[0][0] == 'S') {
        t->dt = float_of(field[1]);
        t->receiver.x = float_of(field[2]);
        t->receiver.y = float_of(field[3]);
        t->receiver.z = float_of(field[4]);
        t->settings.screen = float_of(field[5]);
        t->settings.sigma_a = float_of(field[6]);
        t->settings.sigma_b = float_of(field[7]);
        t->settings.huber = float_of(field[8]);
        t->settings.mask = float_of(field[9]);
        t->settings.rounds = strtoul(field[10], NULL, 10);
    } else {
        const zaqnuti_size which = field[0][0] == 'P' ? 0 : 1;
        zaqnuti_carrier *c = &t->carrier[which][t->count[which]++];
        c->constellation = (uint8_t)strtoul(field[1], NULL, 10);
        c->svid = (uint16_t)strtoul(field[2], NULL, 10);
        c->band = (uint32_t)strtoul(field[3], NULL, 10);
        c->adr = float_of(field[4]);
        c->state = (int32_t)strtol(field[5], NULL, 10);
        c->satellite.x = float_of(field[6]);
        c->satellite.y = float_of(field[7]);
        c->satellite.z = float_of(field[8]);
        c->elevation = float_of(field[9]);
        c->rate = float_of(field[10]);
    }
}

/* The answer line of a displacement, as zaqnuti_line writes it. */
static void line_of(char *line, zaqnuti_size size, uint8_t number, const zaqnuti_moved *moved)
{
    uint64_t bits[3];
    memcpy(bits, &moved->delta, sizeof bits);
    if (number != 0) {
        snprintf(line, (size_t)size, "R,%u\n", (unsigned)number);
    } else {
        snprintf(line, (size_t)size, "A,%lu,%lu,%016llX,%016llX,%016llX\n", (unsigned long)moved->used, (unsigned long)moved->screened,
                 (unsigned long long)bits[0], (unsigned long long)bits[1], (unsigned long long)bits[2]);
    }
}

/* Two times so many seconds apart, across the end of a week; now and then another time. */
static void times_of(zaqnuti_gps_time time[2], double dt)
{
    const uint64_t end = 1317u * UINT64_C(604800000000000);
    const bool plain = dt > 0.0 && dt < 700000.0;
    const uint64_t apart = plain ? (uint64_t)(dt * 1e9 + 0.5) : chance(2);

    time[0].nanos = end - apart / 2;
    time[1].nanos = time[0].nanos + apart;
    /* A statement asks chance once, so that every compiler has the same run. */
    if (chance(12) == 0) {
        const zaqnuti_size k = (zaqnuti_size)chance(2);
        time[k].nanos = 9072604800000000000u + chance(3) - 1;
    }
    if (chance(12) == 0) {
        const zaqnuti_size k = (zaqnuti_size)chance(2);
        time[k].nanos = end + chance(3) - 1;
    }
}

/* Altered copies of two epochs. */
static void alter_displacements(const struct text *t, zaqnuti_size times)
{
    static struct text a;
    zaqnuti_gps_time time[2];
    zaqnuti_moved moved;
    zaqnuti_moved between;
    double dt;
    uint8_t number;
    zaqnuti_size which;
    zaqnuti_size i;

    while (times-- > 0) {
        double *s[5] = {&a.settings.screen, &a.settings.sigma_a, &a.settings.sigma_b, &a.settings.huber, &a.settings.mask};
        a = *t;
        alter(&a.dt, 20);
        alter(&a.receiver.x, 40);
        alter(s[chance(5)], 10);
        a.settings.rounds = chance(10) == 0 ? (zaqnuti_size)chance(53) : a.settings.rounds;
        for (which = 0; which < 2; which++) {
            if (chance(12) == 0) {
                a.count[which] = (zaqnuti_size)chance(a.count[which] + 1);
            }
            for (i = 0; i < a.count[which]; i++) {
                zaqnuti_carrier *c = &a.carrier[which][i];
                double *f[6] = {&c->adr, &c->satellite.x, &c->satellite.y, &c->satellite.z, &c->elevation, &c->rate};
                alter(f[chance(6)], 400);
                c->state = chance(30) == 0 ? (int32_t)chance(8) : c->state;
                c->constellation = chance(60) == 0 ? (uint8_t)chance(10) : c->constellation;
            }
        }
        if (chance(30) == 0) {
            for (i = 0; i < a.count[0] && i < a.count[1]; i++) {
                a.carrier[0][i].constellation = a.carrier[1][i].constellation = (uint8_t)(i % 8);
                a.carrier[0][i].svid = a.carrier[1][i].svid = (uint16_t)i;
            }
        }
        if (chance(30) == 0) {
            for (i = a.count[1]; i < 65; i++) {
                a.carrier[1][i] = a.carrier[1][0];
            }
            a.count[1] = 65;
        }
        number = displacement_both(a.carrier[0], a.count[0], a.carrier[1], a.count[1], a.dt, NULL, a.receiver, &a.settings, &moved);
        records_both(a.carrier[0], a.count[0], a.carrier[1], a.count[1], a.dt, a.receiver, &a.settings, number, &moved);
        drive_both(a.carrier[0], a.count[0], a.carrier[1], a.count[1], a.dt, a.receiver, &a.settings);
        /* Between two times: the number and the bytes of the call with their interval. */
        times_of(time, a.dt);
        number = displacement_both(a.carrier[0], a.count[0], a.carrier[1], a.count[1], 0.0, time, a.receiver, &a.settings, &between);
        if (zaqnuti_easy_seconds_since(time[1], time[0], &dt) == 0) {
            same(displacement_both(a.carrier[0], a.count[0], a.carrier[1], a.count[1], dt, NULL, a.receiver, &a.settings, &moved) == number &&
                 memcmp(&moved, &between, sizeof moved) == 0, "displacement, between two times and by their interval");
        } else {
            same((number >= 2 && number <= 4) || number == ZAQNUTI_BAD_TIME, "displacement, between times of which one is none");
        }
    }
}

static void drive(const char *folder)
{
    static struct text t;
    static char whole[ZAQNUTI_TEXT];
    char name[512];
    char wanted[64];
    uint8_t line[ZAQNUTI_LINE];
    zaqnuti_moved moved;
    unsigned k;

    for (k = 1; k <= 10; k++) {
        char one[256];
        zaqnuti_size length = 0;
        zaqnuti_size answered = 0;
        uint8_t number;
        FILE *in;
        memset(&t, 0, sizeof t);
        snprintf(name, sizeof name, "%s/%02u.txt", folder, k);
        in = fopen(name, "r");
        same(in != NULL, name);
        if (in == NULL) {
            return;
        }
        while (fgets(one, sizeof one, in) != NULL && length + strlen(one) <= sizeof whole) {
            memcpy(&whole[length], one, (size_t)(strlen(one)));
            length += strlen(one);
            read_line(&t, one);
        }
        fclose(in);
        number = displacement_both(t.carrier[0], t.count[0], t.carrier[1], t.count[1], t.dt, NULL, t.receiver, &t.settings, &moved);
        same(zaqnuti_line((const uint8_t *)whole, length, line, sizeof line, &answered) == 0, "the line fits");
        line_of(wanted, sizeof wanted, number, &moved);
        same(answered == strlen(wanted) && memcmp(line, wanted, (size_t)answered) == 0, "the line of a drive's text");
        alter_displacements(&t, 1500);
    }
}

/* ---- the two real receivers */

static const zaqnuti_vector rover_place = {-3976219.5082, 3382372.5671, 3652512.9849};
static const zaqnuti_vector base_place = {-3978242.4348, 3382841.1715, 3649902.7667};

static struct geonet_file rover;
static struct geonet_file base;

static void fixes(const struct geonet_epoch *e)
{
    static zaqnuti_observation record[MOST];
    const zaqnuti_fix_settings plain = ZAQNUTI_EASY_FIX_GEODETIC;
    zaqnuti_size i;
    zaqnuti_size times;

    for (i = 0; i < e->count; i++) {
        record[i] = geonet_observation(&e->line[i]);
    }
    fix_both(record, e->count, base_place, &plain);
    for (times = 0; times < 60; times++) {
        zaqnuti_observation a[MOST];
        zaqnuti_fix_settings set = plain;
        zaqnuti_vector guess = base_place;
        zaqnuti_size count = chance(8) == 0 ? (zaqnuti_size)chance(e->count + 1) : e->count;
        double *s[4] = {&set.sigma_a, &set.sigma_b, &set.huber, &set.mask};
        memcpy(a, record, sizeof a);
        alter(s[chance(4)], 10);
        alter(&guess.y, 30);
        set.rounds = chance(10) == 0 ? (zaqnuti_size)chance(53) : set.rounds;
        for (i = 0; i < count; i++) {
            double *f[5] = {&a[i].pseudorange, &a[i].satellite.x, &a[i].satellite.y, &a[i].satellite.z, &a[i].elevation};
            alter(f[chance(5)], 200);
            a[i].constellation = chance(60) == 0 ? (uint8_t)chance(10) : a[i].constellation;
        }
        if (chance(20) == 0) {
            const zaqnuti_size full = (zaqnuti_size)(63 + chance(3));
            for (i = count; i < full; i++) {
                a[i] = record[i % e->count];
                a[i].constellation = (uint8_t)(i % (1 + chance(9)));
            }
            count = full;
        }
        if (chance(20) == 0) {
            for (i = 0; i < count; i++) {
                a[i].satellite = record[0].satellite;
            }
        }
        fix_both(a, count, guess, &set);
    }
}

static void displacements(zaqnuti_size k)
{
    static struct text t;
    const zaqnuti_displacement_settings set = ZAQNUTI_EASY_DISPLACEMENT_GEODETIC;
    zaqnuti_size which;
    zaqnuti_size i;
    zaqnuti_moved moved;

    t.dt = rover.epoch[k + 1].tow - rover.epoch[k].tow;
    t.receiver = rover_place;
    t.settings = set;
    for (which = 0; which < 2; which++) {
        t.count[which] = rover.epoch[k + which].count;
        for (i = 0; i < t.count[which]; i++) {
            t.carrier[which][i] = geonet_carrier(&rover.epoch[k + which].line[i]);
        }
    }
    if (displacement_both(t.carrier[0], t.count[0], t.carrier[1], t.count[1], t.dt, NULL, t.receiver, &t.settings, &moved) == 0) {
        const zaqnuti_vector sigma = {0.05, 0.05, 0.05};
        give_link(k, moved.delta, sigma);
    }
    alter_displacements(&t, 60);
}

/* The records of an epoch of the base. */
static void base_records_of(const struct geonet_epoch *from, struct base_records *e)
{
    zaqnuti_size i;

    memset(e, 0, sizeof *e);
    e->time = from->tow;
    e->present = true;
    e->ranges = e->states = from->count;
    for (i = 0; i < from->count; i++) {
        const struct geonet_line *line = &from->line[i];
        e->range[i].signal = e->state[i].signal = line->signal;
        e->range[i].pseudorange = line->pseudorange;
        e->state[i].satellite = line->satellite;
        e->state[i].velocity = line->velocity;
        e->state[i].clock = line->clock;
        e->state[i].modelled = line->modelled;
    }
}

/* A refused or empty epoch of each kind. */
static void alter_epoch(struct base_records *e)
{
    const zaqnuti_size i = (zaqnuti_size)chance(e->ranges);
    zaqnuti_base_state *s = &e->state[i];
    double *f[8] = {&s->satellite.x, &s->satellite.y, &s->satellite.z, &s->velocity.x, &s->velocity.y, &s->velocity.z, &s->clock, &s->modelled};
    zaqnuti_size k;

    alter(&e->time, 8);
    alter(&e->range[i].pseudorange, 8);
    alter(f[chance(8)], 4);
    /* 257 has the low byte of the band 1. */
    s->signal.band = chance(8) == 0 ? (chance(2) == 0 ? 2 : 257) : s->signal.band;
    e->range[i].signal.constellation = chance(8) == 0 ? (uint8_t)chance(10) : e->range[i].signal.constellation;
    e->present = chance(8) != 0;
    if (chance(8) == 0) {
        for (k = e->ranges; k < 65; k++) {
            e->range[k] = e->range[0];
        }
        e->ranges = 65;
    } else if (chance(4) == 0) {
        e->ranges = (zaqnuti_size)chance(4);
    }
    if (chance(8) == 0) {
        for (k = e->states; k < 65; k++) {
            e->state[k] = e->state[0];
        }
        e->states = 65;
    }
}

static void corrections(void)
{
    static struct base_records e;
    const zaqnuti_correction_settings plain = ZAQNUTI_EASY_CORRECTIONS;
    zaqnuti_signal signals[MOST];
    zaqnuti_size k;
    zaqnuti_size i;
    zaqnuti_size times;

    tables_clear();
    for (k = 0; k < base.count; k++) {
        if (k % 2 == 0) {
            base_records_of(&base.epoch[k], &e);
            add_both(&e, base_place, base_place, &plain);
        }
        for (times = 0; times < 4; times++) {
            zaqnuti_correction_settings set = plain;
            zaqnuti_vector at = base_place;
            base_records_of(&base.epoch[k], &e);
            alter(&set.max_gap, 16);
            alter(&set.max_correction, 16);
            alter(&at.z, 16);
            set.corrected[1] = chance(4) != 0;
            alter_epoch(&e);
            add_both(&e, at, rover_place, &set);
        }
    }
    for (k = 0; k < rover.count; k++) {
        zaqnuti_correction_settings set = plain;
        const zaqnuti_size count = k % 40 == 39 ? 65 : rover.epoch[k].count;
        double time = rover.epoch[k].tow + (double)chance(40) - 10.0;
        for (i = 0; i < count; i++) {
            signals[i] = rover.epoch[k].line[i % rover.epoch[k].count].signal;
            signals[i].svid = (uint16_t)(signals[i].svid + (chance(9) == 0 ? 1 : 0));
        }
        alter(&time, 8);
        alter(&set.max_gap, 8);
        query_both(signals, count, time, &set);
    }
    forms_both(ZAQNUTI_SAMPLES);
    forms_both(easy_table.count);
    forms_both(easy_table.count - 1);
    for (k = 0; k < 8; k++) {
        double time = rover.epoch[k].tow - (double)chance(60);
        alter(&time, 4);
        forget_both(time);
        query_both(signals, 3, rover.epoch[k].tow, &plain);
    }
    /* A table that is not sorted, one that is full, and the bands of old ones. */
    easy_table.time[1] = plain_table.time[1] = -easy_table.time[1];
    query_both(signals, 3, 0.0, &plain);
    base_records_of(&base.epoch[0], &e);
    add_both(&e, base_place, rover_place, &plain);
    tables_clear();
    for (k = 0; k < 400; k++) {
        base_records_of(&base.epoch[k % base.count], &e);
        add_both(&e, base_place, rover_place, &plain);
    }
    for (k = 0; k < 40; k++) {
        const zaqnuti_size samples = (zaqnuti_size)chance(50);
        widen_both(samples, (zaqnuti_size)chance(60));
    }
    widen_both(ZAQNUTI_SAMPLES, ZAQNUTI_SAMPLES);
    widen_both(ZAQNUTI_SAMPLES + 1, ZAQNUTI_SAMPLES + 1);
}

static void tracks(void)
{
    const zaqnuti_track_settings plain = ZAQNUTI_EASY_TRACK;
    const zaqnuti_vector sigma = {1.0, 1.0, 1.0};
    zaqnuti_size times;
    zaqnuti_size k;

    smooth_both(&plain);
    for (times = 0; times < 400; times++) {
        zaqnuti_track_settings set = plain;
        const zaqnuti_size epochs = chance(20) == 0 ? (zaqnuti_size)(1022 + chance(4)) : (zaqnuti_size)chance(40);
        begin_track(epochs);
        memset(easy_track.place, 0xA5, sizeof easy_track.place);
        memset(easy_track.work, 0xA5, sizeof easy_track.work);
        for (k = 0; k < epochs; k++) {
            zaqnuti_vector place = rover_place;
            zaqnuti_vector some = {1.0, 2.0, 3.0};
            place.x += (double)chance(100);
            alter(&place.y, 4000);
            alter(&some.z, 4000);
            if (chance(3) != 0) {
                give_anchor(chance(2000) == 0 ? epochs : k, place, some);
            }
            if (k + 1 < epochs && chance(20) != 0) {
                const zaqnuti_vector change = {(double)chance(9), 0.5, -0.25};
                const zaqnuti_vector other = {0.5, 0.25, 1.5};
                give_link(k, change, other);
            }
        }
        alter(&set.huber, 10);
        set.iterations = (zaqnuti_size)chance(53);
        smooth_both(&set);
    }
    /* No room for another anchor or link. */
    begin_track(5);
    for (k = 0; k < ZAQNUTI_EASY_EPOCHS; k++) {
        same(give_anchor(k % 5, rover_place, sigma) == 0, "track, room for an anchor");
        same(give_link(k % 4, sigma, sigma) == 0, "track, room for a link");
    }
    same(zaqnuti_track_anchor(&easy_track, 0, rover_place, sigma) == ZAQNUTI_TOO_MANY, "track, an anchor too many");
    same(zaqnuti_track_link(&easy_track, 0, sigma, sigma) == ZAQNUTI_TOO_MANY, "track, a link too many");
    same(easy_track.anchors == ZAQNUTI_EASY_EPOCHS && easy_track.links == ZAQNUTI_EASY_EPOCHS, "track, as many as there were");
    smooth_both(&plain);
}

/* Every number has a text of its own. */
static void texts(void)
{
    const char *none = zaqnuti_refusal_text(255);
    unsigned a;
    unsigned b;
    for (a = 0; a <= 21; a++) {
        for (b = 0; b < a; b++) {
            const char *text = zaqnuti_refusal_text((uint8_t)a);
            same(strcmp(text, none) == 0 || strcmp(text, zaqnuti_refusal_text((uint8_t)b)) != 0, "texts of two numbers");
        }
    }
    for (a = 22; a < 256; a++) {
        same(strcmp(zaqnuti_refusal_text((uint8_t)a), "no such number") == 0, "the text of no number");
    }
}

/* The settings of the two headers are the same. */
static void settings(void)
{
    const double fix[2][4] = {ZAQNUTI_FIX_PHONE, ZAQNUTI_FIX_GEODETIC};
    const zaqnuti_fix_settings easy_fix[2] = {ZAQNUTI_EASY_FIX_PHONE, ZAQNUTI_EASY_FIX_GEODETIC};
    const double moved[2][5] = {ZAQNUTI_DISPLACEMENT_PHONE, ZAQNUTI_DISPLACEMENT_GEODETIC};
    const zaqnuti_displacement_settings easy_moved[2] = {ZAQNUTI_EASY_DISPLACEMENT_PHONE, ZAQNUTI_EASY_DISPLACEMENT_GEODETIC};
    zaqnuti_size i;
    for (i = 0; i < 2; i++) {
        same(memcmp(fix[i], &easy_fix[i], sizeof fix[i]) == 0, "settings of a fix");
        same(memcmp(moved[i], &easy_moved[i], sizeof moved[i]) == 0, "settings of a displacement");
    }
}

int main(int count, char **word)
{
    const zaqnuti_vector sigma = {1.0, 1.0, 1.0};
    zaqnuti_size k;

    if (count != 3 || !geonet_read(word[2], "rover.csv", &rover) || !geonet_read(word[2], "base.csv", &base)) {
        fprintf(stderr, "usage: easy_test DRIVE_FOLDER GEONET_FOLDER\n");
        return 2;
    }
    memset(&easy_track, 0, sizeof easy_track);
    begin_track(rover.count);
    drive(word[1]);
    for (k = 0; k < rover.count; k++) {
        fixes(&rover.epoch[k]);
        give_anchor(k, rover_place, sigma);
        if (k + 1 < rover.count) {
            displacements(k);
        }
    }
    times();
    trips();
    mileages();
    directions();
    tracks();
    corrections();
    texts();
    settings();
    printf("calls by number:");
    for (k = 0; k < 256; k++) {
        if (met[k] != 0) {
            printf(" %lu:%lu", (unsigned long)k, met[k]);
        }
    }
    for (k = 2; k <= 13; k++) {
        same(met[k] != 0, "a number that was never met");
    }
    same(met[ZAQNUTI_BAD_TRIP] != 0 && met[ZAQNUTI_NO_DISTANCE] != 0, "a number of a trip that was never met");
    same(met[ZAQNUTI_BROKEN_RECORDS] != 0, "21 was never met");
    same(met[ZAQNUTI_NOT_TURNED] != 0, "19 that was never met");
    printf("\n%lu compared, %lu differ\n", compared, different);
    return different == 0 ? 0 : 1;
}
