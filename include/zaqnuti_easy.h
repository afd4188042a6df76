/*
 * The calls of zaqnuti.h on structs: a record is a struct, a call takes a few
 * pointers, and settings have initializers. Each call passes its structs'
 * columns to the call of zaqnuti.h and does nothing else; what that header
 * says about answers, refusals, units, threads and floats holds here too.
 * tests/easy_test.c compares the answers of both.
 *
 * C99 and C++. Nothing is allocated: structs live where the caller puts them.
 * An epoch keeps its records as columns, which the library reads in place.
 *
 *     zaqnuti_epoch now;
 *     zaqnuti_epoch_clear(&now);
 *     zaqnuti_epoch_add(&now, &carrier);          for each carrier
 *     number = zaqnuti_easy_displacement(&before, &now, 1.0, place, &settings, &moved);
 *     if (number != 0) puts(zaqnuti_refusal_text(number));
 *
 * If each epoch has a week and a time of week, use zaqnuti_easy_time and
 * zaqnuti_easy_displacement_between instead of the interval.
 *
 * Each call returns 0, or the number of its refusal (enum zaqnuti_refusal),
 * and then leaves its result unchanged. examples/easy.c makes each call once.
 *
 * Stack: that of the call of zaqnuti.h, and at most 256 bytes more;
 * zaqnuti_easy_queries 1,024 more (by gcc's -fstack-usage at -O0 and -O2).
 */
#ifndef ZAQNUTI_EASY_H
#define ZAQNUTI_EASY_H

#include <string.h>

#include "zaqnuti.h"

/*
 * Room of a table and of a track. If less is enough, define these smaller
 * before every inclusion in a program: a table of 2,048 samples takes 79,888
 * bytes, a track of 1,024 epochs 229,400.
 */
#ifndef ZAQNUTI_EASY_SAMPLES
#define ZAQNUTI_EASY_SAMPLES ZAQNUTI_SAMPLES
#endif
#ifndef ZAQNUTI_EASY_EPOCHS
#define ZAQNUTI_EASY_EPOCHS ZAQNUTI_EPOCHS
#endif

/* x, y, z in metres, earth-centred and earth-fixed; or metres per second. */
typedef struct zaqnuti_vector {
    double x;
    double y;
    double z;
} zaqnuti_vector;

/* Returns a sentence for a number; "answered" for 0. */
static inline const char *zaqnuti_refusal_text(uint8_t number)
{
    switch (number) {
    case 0: return "answered";
    case ZAQNUTI_BROKEN_FORM: return "the text is longer than 32,768 bytes, or a line breaks the form";
    case ZAQNUTI_TOO_MANY: return "there are too many records, or a buffer is too short";
    case ZAQNUTI_SETTING_OUT_OF_RANGE: return "a setting is not finite or above 1e9 in magnitude, or the rounds are not allowed";
    case ZAQNUTI_RECORD_OUT_OF_RANGE: return "a number in a record, a coordinate or a time is out of range, or a table is not sorted";
    case ZAQNUTI_BAD_INTERVAL: return "the interval is not above 0 and at most 604,800 s";
    case ZAQNUTI_BAD_TRACK: return "the track has no epochs or no anchor, a sigma not above 0, or an index beyond its epochs";
    case ZAQNUTI_TOO_FEW_PAIRS: return "there are fewer than six carrier pairs";
    case ZAQNUTI_TOO_FEW_ROWS: return "there are fewer rows than 4 plus the clock slots";
    case ZAQNUTI_TOO_MANY_SLOTS: return "there are more than six clock slots";
    case ZAQNUTI_FIT_FAILED: return "the fit fails";
    case ZAQNUTI_TABLE_FULL: return "the epoch's corrections do not all fit in the table";
    case ZAQNUTI_NO_CORRECTION: return "the table gives no correction for the signal and time";
    case ZAQNUTI_BAD_TIME: return "a week is above 15,000, a time of week is not in 0 to below 604,800 s, or a time is past the start of week 15,001";
    case ZAQNUTI_QUALITY_NOT_FINITE: return "chi or pdop is not finite";
    case ZAQNUTI_ON_RECEIVER: return "the range of a satellite is zero or not finite";
    case ZAQNUTI_BAD_TRIP: return "a displacement is not finite or longer than 1,000 m, the trip is full, its pulse rate is 0, or it is out of its limits";
    case ZAQNUTI_NO_DISTANCE: return "no distance was measured";
    case ZAQNUTI_BAD_DROP_TIME: return "the time to drop samples before is not finite";
    case ZAQNUTI_NOT_CERTIFIED: return "the kept pairs lack GPS or Galileo";
    case ZAQNUTI_BROKEN_RECORDS: return "the length of the carrier records is not a multiple of 59";
    case ZAQNUTI_NOT_TURNED: return "a coordinate or the result is not finite, or a coordinate is above 1e9 in magnitude";
    default: return "no such number";
    }
}

/* ---- times */

/* Nanoseconds since the start of GPS week 0. */
typedef struct zaqnuti_gps_time {
    uint64_t nanos;
} zaqnuti_gps_time;

/* Writes the time of a week and a time of week in seconds, as a receiver reports them. */
static inline uint8_t zaqnuti_easy_time(uint32_t week, double tow, zaqnuti_gps_time *time)
{
    return zaqnuti_time(week, tow, &time->nanos);
}

/* Writes the number of nanoseconds from `earlier` to `later`, negative if `later` is before it. */
static inline uint8_t zaqnuti_easy_nanos_since(zaqnuti_gps_time later, zaqnuti_gps_time earlier, int64_t *nanos)
{
    return zaqnuti_nanos_since(later.nanos, earlier.nanos, nanos);
}

/* Writes the same in seconds. */
static inline uint8_t zaqnuti_easy_seconds_since(zaqnuti_gps_time later, zaqnuti_gps_time earlier, double *seconds)
{
    return zaqnuti_seconds_since(later.nanos, earlier.nanos, seconds);
}

/* ---- the fix */

/* A pseudorange, corrected for satellite clock, ionosphere, troposphere and bias. */
typedef struct zaqnuti_observation {
    uint8_t constellation;
    double pseudorange;        /* m */
    zaqnuti_vector satellite;  /* at transmission */
    double elevation;          /* degrees, -90 to 90 */
} zaqnuti_observation;

/* The observations of an epoch, as columns. */
typedef struct zaqnuti_observations {
    zaqnuti_size count;
    uint8_t constellation[ZAQNUTI_RECORDS];
    double floats[5 * ZAQNUTI_RECORDS];
} zaqnuti_observations;

typedef struct zaqnuti_fix_settings {
    double sigma_a;  /* m, of sigma = a + b / sin(elevation) */
    double sigma_b;  /* m */
    double huber;    /* in robust sigmas */
    double mask;     /* degrees */
    zaqnuti_size rounds;   /* 1 to 50 */
} zaqnuti_fix_settings;

#define ZAQNUTI_EASY_FIX_PHONE {0.3, 16.0, 1.0, 10.0, ZAQNUTI_FIX_ROUNDS}
#define ZAQNUTI_EASY_FIX_GEODETIC {0.3, 0.3, 1.5, 10.0, ZAQNUTI_FIX_ROUNDS}

typedef struct zaqnuti_solution {
    zaqnuti_vector position;
    double chi;   /* the root of the reduced chi-squared at this position, finite */
    double pdop;  /* finite */
    zaqnuti_size used;  /* observations at or above the mask */
} zaqnuti_solution;

static inline void zaqnuti_observations_clear(zaqnuti_observations *epoch)
{
    epoch->count = 0;
}

/* Adds an observation. The 65th is refused by 2 and leaves the epoch unchanged. */
static inline uint8_t zaqnuti_observations_add(zaqnuti_observations *epoch, const zaqnuti_observation *one)
{
    double *floats;

    if (epoch->count >= ZAQNUTI_RECORDS) {
        return ZAQNUTI_TOO_MANY;
    }
    epoch->constellation[epoch->count] = one->constellation;
    floats = &epoch->floats[5 * epoch->count];
    floats[0] = one->pseudorange;
    floats[1] = one->satellite.x;
    floats[2] = one->satellite.y;
    floats[3] = one->satellite.z;
    floats[4] = one->elevation;
    epoch->count += 1;
    return 0;
}

/* Writes the receiver's position; `guess` is where the first round starts. */
static inline uint8_t zaqnuti_easy_fix(
    const zaqnuti_observations *epoch,
    zaqnuti_vector guess,
    const zaqnuti_fix_settings *settings,
    zaqnuti_solution *solution)
{
    const double from[3] = {guess.x, guess.y, guess.z};
    const double set[4] = {settings->sigma_a, settings->sigma_b, settings->huber, settings->mask};
    double found[5] = {0.0, 0.0, 0.0, 0.0, 0.0};
    zaqnuti_size used = 0;
    uint8_t number = zaqnuti_fix(
        epoch->constellation, ZAQNUTI_RECORDS, epoch->floats, 5 * ZAQNUTI_RECORDS, epoch->count,
        from, set, settings->rounds, found, &used);

    if (number == 0) {
        solution->position.x = found[0];
        solution->position.y = found[1];
        solution->position.z = found[2];
        solution->chi = found[3];
        solution->pdop = found[4];
        solution->used = used;
    }
    return number;
}

/* ---- the displacement */

/* Bits of a carrier's state: usable with VALID set and the others clear. */
#define ZAQNUTI_VALID 1
#define ZAQNUTI_SLIP 2
#define ZAQNUTI_RESET 4

/* A carrier phase. */
typedef struct zaqnuti_carrier {
    uint8_t constellation;
    uint16_t svid;
    uint32_t band;             /* MHz */
    int32_t state;
    double adr;                /* accumulated delta range, m */
    zaqnuti_vector satellite;  /* at transmission */
    double elevation;          /* degrees, -90 to 90 */
    double rate;               /* range rate, m/s, positive when receding */
} zaqnuti_carrier;

/* The carriers of an epoch, as columns. */
typedef struct zaqnuti_epoch {
    zaqnuti_size count;
    uint8_t constellation[ZAQNUTI_RECORDS];
    uint16_t svid[ZAQNUTI_RECORDS];
    uint32_t band[ZAQNUTI_RECORDS];
    int32_t state[ZAQNUTI_RECORDS];
    double floats[6 * ZAQNUTI_RECORDS];
} zaqnuti_epoch;

typedef struct zaqnuti_displacement_settings {
    double screen;   /* m */
    double sigma_a;  /* m, of sigma = a + b / sin(elevation) */
    double sigma_b;  /* m */
    double huber;    /* in robust sigmas */
    double mask;     /* degrees */
    zaqnuti_size rounds;   /* 0 to 50; with 0 the displacement is zero */
} zaqnuti_displacement_settings;

#define ZAQNUTI_EASY_DISPLACEMENT_PHONE {0.5, 0.008, 0.002, 1.5, 10.0, ZAQNUTI_DISPLACEMENT_ROUNDS}
#define ZAQNUTI_EASY_DISPLACEMENT_GEODETIC {2.0, 0.008, 0.002, 1.5, 10.0, ZAQNUTI_DISPLACEMENT_ROUNDS}

typedef struct zaqnuti_moved {
    zaqnuti_vector delta;  /* m */
    zaqnuti_size used;           /* carrier pairs */
    zaqnuti_size screened;       /* pairs that the screen dropped */
} zaqnuti_moved;

static inline void zaqnuti_epoch_clear(zaqnuti_epoch *epoch)
{
    epoch->count = 0;
}

/* Adds a carrier. The 65th is refused by 2 and leaves the epoch unchanged. */
static inline uint8_t zaqnuti_epoch_add(zaqnuti_epoch *epoch, const zaqnuti_carrier *one)
{
    const zaqnuti_size i = epoch->count;
    double *floats;

    if (i >= ZAQNUTI_RECORDS) {
        return ZAQNUTI_TOO_MANY;
    }
    epoch->constellation[i] = one->constellation;
    epoch->svid[i] = one->svid;
    epoch->band[i] = one->band;
    epoch->state[i] = one->state;
    floats = &epoch->floats[6 * i];
    floats[0] = one->adr;
    floats[1] = one->satellite.x;
    floats[2] = one->satellite.y;
    floats[3] = one->satellite.z;
    floats[4] = one->elevation;
    floats[5] = one->rate;
    epoch->count = i + 1;
    return 0;
}

/* Writes how the receiver moved in `dt` seconds; `receiver` is where it was at the previous epoch. */
static inline uint8_t zaqnuti_easy_displacement(
    const zaqnuti_epoch *previous,
    const zaqnuti_epoch *current,
    double dt,
    zaqnuti_vector receiver,
    const zaqnuti_displacement_settings *settings,
    zaqnuti_moved *moved)
{
    const double from[3] = {receiver.x, receiver.y, receiver.z};
    const double set[5] = {settings->screen, settings->sigma_a, settings->sigma_b, settings->huber, settings->mask};
    double delta[3] = {0.0, 0.0, 0.0};
    zaqnuti_size counts[2] = {0, 0};
    uint8_t number = zaqnuti_displacement(
        previous->constellation, ZAQNUTI_RECORDS, previous->svid, ZAQNUTI_RECORDS, previous->band, ZAQNUTI_RECORDS,
        previous->state, ZAQNUTI_RECORDS, previous->floats, 6 * ZAQNUTI_RECORDS, previous->count,
        current->constellation, ZAQNUTI_RECORDS, current->svid, ZAQNUTI_RECORDS, current->band, ZAQNUTI_RECORDS,
        current->state, ZAQNUTI_RECORDS, current->floats, 6 * ZAQNUTI_RECORDS, current->count,
        dt, from, set, settings->rounds, delta, counts);

    if (number == 0) {
        moved->delta.x = delta[0];
        moved->delta.y = delta[1];
        moved->delta.z = delta[2];
        moved->used = counts[0];
        moved->screened = counts[1];
    }
    return number;
}

/* Writes how the receiver moved from one time to another; `receiver` is where it was at the first. */
static inline uint8_t zaqnuti_easy_displacement_between(
    const zaqnuti_epoch *previous,
    const zaqnuti_epoch *current,
    zaqnuti_gps_time previous_time,
    zaqnuti_gps_time current_time,
    zaqnuti_vector receiver,
    const zaqnuti_displacement_settings *settings,
    zaqnuti_moved *moved)
{
    const double from[3] = {receiver.x, receiver.y, receiver.z};
    const double set[5] = {settings->screen, settings->sigma_a, settings->sigma_b, settings->huber, settings->mask};
    double delta[3] = {0.0, 0.0, 0.0};
    zaqnuti_size counts[2] = {0, 0};
    uint8_t number = zaqnuti_displacement_between(
        previous->constellation, ZAQNUTI_RECORDS, previous->svid, ZAQNUTI_RECORDS, previous->band, ZAQNUTI_RECORDS,
        previous->state, ZAQNUTI_RECORDS, previous->floats, 6 * ZAQNUTI_RECORDS, previous->count,
        current->constellation, ZAQNUTI_RECORDS, current->svid, ZAQNUTI_RECORDS, current->band, ZAQNUTI_RECORDS,
        current->state, ZAQNUTI_RECORDS, current->floats, 6 * ZAQNUTI_RECORDS, current->count,
        previous_time.nanos, current_time.nanos, from, set, settings->rounds, delta, counts);

    if (number == 0) {
        moved->delta.x = delta[0];
        moved->delta.y = delta[1];
        moved->delta.z = delta[2];
        moved->used = counts[0];
        moved->screened = counts[1];
    }
    return number;
}

/* Writes how the receiver moved in `dt` seconds by GPS and Galileo on one band (MHz) alone; `receiver` is where it was at the previous epoch. */
static inline uint8_t zaqnuti_easy_city_displacement(
    const zaqnuti_epoch *previous,
    const zaqnuti_epoch *current,
    double dt,
    uint32_t band,
    zaqnuti_vector receiver,
    const zaqnuti_displacement_settings *settings,
    zaqnuti_moved *moved)
{
    const double from[3] = {receiver.x, receiver.y, receiver.z};
    const double set[5] = {settings->screen, settings->sigma_a, settings->sigma_b, settings->huber, settings->mask};
    double delta[3] = {0.0, 0.0, 0.0};
    zaqnuti_size counts[2] = {0, 0};
    uint8_t number = zaqnuti_city_displacement(
        previous->constellation, ZAQNUTI_RECORDS, previous->svid, ZAQNUTI_RECORDS, previous->band, ZAQNUTI_RECORDS,
        previous->state, ZAQNUTI_RECORDS, previous->floats, 6 * ZAQNUTI_RECORDS, previous->count,
        current->constellation, ZAQNUTI_RECORDS, current->svid, ZAQNUTI_RECORDS, current->band, ZAQNUTI_RECORDS,
        current->state, ZAQNUTI_RECORDS, current->floats, 6 * ZAQNUTI_RECORDS, current->count,
        dt, band, from, set, settings->rounds, delta, counts);

    if (number == 0) {
        moved->delta.x = delta[0];
        moved->delta.y = delta[1];
        moved->delta.z = delta[2];
        moved->used = counts[0];
        moved->screened = counts[1];
    }
    return number;
}

/*
 * A displacement with its quality: zaqnuti_easy_predicted_error(chi, pdop) is the error in metres to expect. A mileage sets bad ones aside and
 * scales by what was covered: zaqnuti_easy_mileage_add(&mileage, rated.delta, rated.chi, rated.pdop, pulses).
 */
typedef struct zaqnuti_rated {
    zaqnuti_vector delta;   /* m */
    double chi;             /* root of the reduced chi-squared */
    double pdop;            /* dilution of precision */
    zaqnuti_size used;      /* carrier pairs */
    zaqnuti_size screened;  /* pairs that the screen dropped */
} zaqnuti_rated;

/* Writes how the receiver moved in `dt` seconds, with the quality of the fit; `receiver` is where it was at the previous epoch. */
static inline uint8_t zaqnuti_easy_displacement_rated(
    const zaqnuti_epoch *previous,
    const zaqnuti_epoch *current,
    double dt,
    zaqnuti_vector receiver,
    const zaqnuti_displacement_settings *settings,
    zaqnuti_rated *rated)
{
    const double from[3] = {receiver.x, receiver.y, receiver.z};
    const double set[5] = {settings->screen, settings->sigma_a, settings->sigma_b, settings->huber, settings->mask};
    double delta[3] = {0.0, 0.0, 0.0};
    double quality[2] = {0.0, 0.0};
    zaqnuti_size counts[2] = {0, 0};
    uint8_t number = zaqnuti_displacement_rated(
        previous->constellation, ZAQNUTI_RECORDS, previous->svid, ZAQNUTI_RECORDS, previous->band, ZAQNUTI_RECORDS,
        previous->state, ZAQNUTI_RECORDS, previous->floats, 6 * ZAQNUTI_RECORDS, previous->count,
        current->constellation, ZAQNUTI_RECORDS, current->svid, ZAQNUTI_RECORDS, current->band, ZAQNUTI_RECORDS,
        current->state, ZAQNUTI_RECORDS, current->floats, 6 * ZAQNUTI_RECORDS, current->count,
        dt, from, set, settings->rounds, delta, quality, counts);

    if (number == 0) {
        rated->delta.x = delta[0];
        rated->delta.y = delta[1];
        rated->delta.z = delta[2];
        rated->chi = quality[0];
        rated->pdop = quality[1];
        rated->used = counts[0];
        rated->screened = counts[1];
    }
    return number;
}

/* Writes how the receiver moved in `dt` seconds by GPS and Galileo on one band (MHz) alone, with the quality of the fit. */
static inline uint8_t zaqnuti_easy_city_displacement_rated(
    const zaqnuti_epoch *previous,
    const zaqnuti_epoch *current,
    double dt,
    uint32_t band,
    zaqnuti_vector receiver,
    const zaqnuti_displacement_settings *settings,
    zaqnuti_rated *rated)
{
    const double from[3] = {receiver.x, receiver.y, receiver.z};
    const double set[5] = {settings->screen, settings->sigma_a, settings->sigma_b, settings->huber, settings->mask};
    double delta[3] = {0.0, 0.0, 0.0};
    double quality[2] = {0.0, 0.0};
    zaqnuti_size counts[2] = {0, 0};
    uint8_t number = zaqnuti_city_displacement_rated(
        previous->constellation, ZAQNUTI_RECORDS, previous->svid, ZAQNUTI_RECORDS, previous->band, ZAQNUTI_RECORDS,
        previous->state, ZAQNUTI_RECORDS, previous->floats, 6 * ZAQNUTI_RECORDS, previous->count,
        current->constellation, ZAQNUTI_RECORDS, current->svid, ZAQNUTI_RECORDS, current->band, ZAQNUTI_RECORDS,
        current->state, ZAQNUTI_RECORDS, current->floats, 6 * ZAQNUTI_RECORDS, current->count,
        dt, band, from, set, settings->rounds, delta, quality, counts);

    if (number == 0) {
        rated->delta.x = delta[0];
        rated->delta.y = delta[1];
        rated->delta.z = delta[2];
        rated->chi = quality[0];
        rated->pdop = quality[1];
        rated->used = counts[0];
        rated->screened = counts[1];
    }
    return number;
}

/* ---- the trip */

/* A trip. Only its calls write it. */
typedef struct zaqnuti_trip {
    uint64_t word[6];
} zaqnuti_trip;

typedef struct zaqnuti_report {
    uint64_t carrier;   /* mm */
    uint64_t odometer;  /* mm */
    uint64_t greatest;  /* the greatest difference of the two after an epoch, mm */
    uint64_t reached;   /* the first epoch that reached it, counted from 1 */
} zaqnuti_report;

/* Starts a trip, with so many pulses per kilometre. */
static inline uint8_t zaqnuti_easy_trip_start(uint16_t per_km, zaqnuti_trip *trip)
{
    return zaqnuti_trip_start(per_km, trip->word);
}

/* Adds an epoch: how the van moved, and the odometer's pulses. A refusal leaves the trip unchanged. */
static inline uint8_t zaqnuti_easy_trip_add(zaqnuti_trip *trip, zaqnuti_vector delta, uint16_t pulses)
{
    const double d[3] = {delta.x, delta.y, delta.z};
    return zaqnuti_trip_add(trip->word, d, pulses);
}

static inline uint8_t zaqnuti_easy_trip_report(const zaqnuti_trip *trip, zaqnuti_report *report)
{
    uint64_t r[4] = {0, 0, 0, 0};
    const uint8_t number = zaqnuti_trip_report(trip->word, r);
    if (number == 0) {
        report->carrier = r[0];
        report->odometer = r[1];
        report->greatest = r[2];
        report->reached = r[3];
    }
    return number;
}

/* ---- directions */

/* A displacement in compass directions (m); south, west and up are negative. */
typedef struct zaqnuti_ned {
    double north;
    double east;
    double down;
} zaqnuti_ned;

/* Writes a displacement at a place along north, east and down. */
static inline uint8_t zaqnuti_easy_north_east_down(zaqnuti_vector place, zaqnuti_vector displacement, zaqnuti_ned *ned)
{
    const double at[3] = {place.x, place.y, place.z};
    const double by[3] = {displacement.x, displacement.y, displacement.z};
    double along[3] = {0.0, 0.0, 0.0};
    uint8_t number = zaqnuti_north_east_down(at, by, along);

    if (number == 0) {
        ned->north = along[0];
        ned->east = along[1];
        ned->down = along[2];
    }
    return number;
}

/* ---- carrier records as bytes */

/* Bytes that always suffice for an epoch. */
#define ZAQNUTI_EASY_EPOCH_BYTES (ZAQNUTI_RECORDS * ZAQNUTI_RECORD)

/* Writes the epoch's carriers, ZAQNUTI_RECORD bytes each. */
static inline uint8_t zaqnuti_easy_write_records(const zaqnuti_epoch *epoch, uint8_t *bytes, zaqnuti_size bytes_length)
{
    return zaqnuti_write_records(
        epoch->constellation, ZAQNUTI_RECORDS, epoch->svid, ZAQNUTI_RECORDS, epoch->band, ZAQNUTI_RECORDS,
        epoch->state, ZAQNUTI_RECORDS, (const uint64_t *)(const void *)epoch->floats, 6 * ZAQNUTI_RECORDS, epoch->count,
        bytes, bytes_length);
}

/* Reads an epoch from such bytes. */
static inline uint8_t zaqnuti_easy_read_records(const uint8_t *bytes, zaqnuti_size bytes_length, zaqnuti_epoch *epoch)
{
    return zaqnuti_read_records(
        bytes, bytes_length,
        epoch->constellation, ZAQNUTI_RECORDS, epoch->svid, ZAQNUTI_RECORDS, epoch->band, ZAQNUTI_RECORDS,
        epoch->state, ZAQNUTI_RECORDS, (uint64_t *)(void *)epoch->floats, 6 * ZAQNUTI_RECORDS, &epoch->count);
}

/* Returns the number of eight bytes, little-endian. */
static inline uint64_t zaqnuti_easy_word(const uint8_t *bytes)
{
    uint64_t word = 0;
    zaqnuti_size i;

    for (i = 8; i > 0; i--) {
        word = word << 8 | bytes[i - 1];
    }
    return word;
}

/* Returns the float with these bits. */
static inline double zaqnuti_easy_float(uint64_t bits)
{
    double x;

    memcpy(&x, &bits, sizeof x);
    return x;
}

/* Writes how the receiver moved in `dt` seconds between two epochs given as bytes; `receiver` is where it was at the previous one. */
static inline uint8_t zaqnuti_easy_displacement_records(
    const uint8_t *previous, zaqnuti_size previous_length,
    const uint8_t *current, zaqnuti_size current_length,
    double dt,
    zaqnuti_vector receiver,
    const zaqnuti_displacement_settings *settings,
    zaqnuti_moved *moved)
{
    uint8_t result[ZAQNUTI_RESULT] = {0};
    /* Every count above 50 gets the same refusal. */
    const uint32_t rounds = settings->rounds > 50 ? 51 : (uint32_t)settings->rounds;
    uint8_t number = zaqnuti_displacement_records(
        previous, previous_length, current, current_length,
        dt, receiver.x, receiver.y, receiver.z,
        settings->screen, settings->sigma_a, settings->sigma_b, settings->huber, settings->mask, rounds,
        result, sizeof result);

    if (number == 0) {
        moved->used = (zaqnuti_size)zaqnuti_easy_word(result);
        moved->screened = (zaqnuti_size)zaqnuti_easy_word(result + 8);
        moved->delta.x = zaqnuti_easy_float(zaqnuti_easy_word(result + 16));
        moved->delta.y = zaqnuti_easy_float(zaqnuti_easy_word(result + 24));
        moved->delta.z = zaqnuti_easy_float(zaqnuti_easy_word(result + 32));
    }
    return number;
}

/* Writes millilitres per kilometre of carrier distance. */
static inline uint8_t zaqnuti_easy_trip_fuel(const zaqnuti_trip *trip, uint32_t millilitres, uint64_t *per_km)
{
    return zaqnuti_trip_fuel(trip->word, millilitres, per_km);
}

/* ---- the mileage */

/* A mileage. Only its calls write it. */
typedef struct zaqnuti_mileage {
    uint64_t word[10];
} zaqnuti_mileage;

typedef struct zaqnuti_mileage_totals {
    uint64_t epochs;
    uint64_t refused;
    uint64_t aside;
    uint64_t counted;   /* mm of counted epochs */
    uint64_t covered;   /* pulses of counted epochs */
    uint64_t standing;  /* mm of standing epochs */
    uint64_t pulses;    /* of all epochs */
} zaqnuti_mileage_totals;

/*
 * Returns the predicted error of a displacement in metres, (pdop * max(chi, 1)) * 0.01; NaN if chi or pdop is NaN or below 0.
 * A mileage counts a displacement if this is below its limit and both are finite. In a study of 300 simulated van-days, setting aside
 * displacements at or above 0.5, 0.2 and 0.1 m lost 0.3, 1.6 and 4.0 % of the moving ones and removed 84, 96 and 99 % of the errors above
 * a metre. Setting them aside without scaling by what was covered makes a distance worse: a mileage scales.
 */
static inline double zaqnuti_easy_predicted_error(double chi, double pdop)
{
    if (!(chi >= 0.0) || !(pdop >= 0.0)) return zaqnuti_easy_float(0x7FF8000000000000u);
    return pdop * (chi > 1.0 ? chi : 1.0) * 0.01;
}

/* Starts a mileage that counts displacements whose predicted error is below `limit` metres. */
static inline uint8_t zaqnuti_easy_mileage_start(double limit, zaqnuti_mileage *mileage)
{
    return zaqnuti_mileage_start(limit, mileage->word);
}

/* Adds an epoch: how the van moved, with what quality, and the odometer's pulses. */
static inline uint8_t zaqnuti_easy_mileage_add(zaqnuti_mileage *mileage, zaqnuti_vector delta, double chi, double pdop, uint16_t pulses)
{
    const double d[3] = {delta.x, delta.y, delta.z};
    const double q[2] = {chi, pdop};
    return zaqnuti_mileage_add(mileage->word, 0, d, q, pulses);
}

/* Adds an epoch whose displacement was refused by `number`, which is not 0: its pulses still count. */
static inline uint8_t zaqnuti_easy_mileage_refused(zaqnuti_mileage *mileage, uint8_t number, uint16_t pulses)
{
    const double d[3] = {0.0, 0.0, 0.0};
    const double q[2] = {0.0, 0.0};
    return zaqnuti_mileage_add(mileage->word, number, d, q, pulses);
}

static inline uint8_t zaqnuti_easy_mileage_report(const zaqnuti_mileage *mileage, zaqnuti_mileage_totals *totals)
{
    uint64_t r[7] = {0, 0, 0, 0, 0, 0, 0};
    const uint8_t number = zaqnuti_mileage_report(mileage->word, r);
    if (number == 0) {
        totals->epochs = r[0];
        totals->refused = r[1];
        totals->aside = r[2];
        totals->counted = r[3];
        totals->covered = r[4];
        totals->standing = r[5];
        totals->pulses = r[6];
    }
    return number;
}

/* Writes the distance in millimetres. */
static inline uint8_t zaqnuti_easy_mileage_distance(const zaqnuti_mileage *mileage, uint64_t *millimetres)
{
    return zaqnuti_mileage_distance(mileage->word, millimetres);
}

/* Writes millilitres per kilometre of that distance. */
static inline uint8_t zaqnuti_easy_mileage_fuel(const zaqnuti_mileage *mileage, uint32_t millilitres, uint64_t *per_km)
{
    return zaqnuti_mileage_fuel(mileage->word, millilitres, per_km);
}

/* A trip whose displacements are computed under the settings in force, which may change between two epochs. */
typedef struct zaqnuti_drive {
    zaqnuti_trip trip;
    zaqnuti_displacement_settings in_force;
} zaqnuti_drive;

/* Sets the settings in force from five floats and the rounds. */
static inline void zaqnuti_drive_settings(zaqnuti_drive *drive, const double set[5], zaqnuti_size rounds)
{
    drive->in_force.screen = set[0];
    drive->in_force.sigma_a = set[1];
    drive->in_force.sigma_b = set[2];
    drive->in_force.huber = set[3];
    drive->in_force.mask = set[4];
    drive->in_force.rounds = rounds;
}

/* Starts a trip with these settings in force. A refusal leaves the drive unchanged. */
static inline uint8_t zaqnuti_easy_drive_begin(const zaqnuti_displacement_settings *settings, uint16_t per_km, zaqnuti_drive *drive)
{
    const double set[5] = {settings->screen, settings->sigma_a, settings->sigma_b, settings->huber, settings->mask};
    double in_force[5] = {0.0, 0.0, 0.0, 0.0, 0.0};
    zaqnuti_size rounds = 0;
    const uint8_t number = zaqnuti_trip_begin(set, settings->rounds, per_km, drive->trip.word, in_force, &rounds);
    if (number == 0) {
        zaqnuti_drive_settings(drive, in_force, rounds);
    }
    return number;
}

/* Changes the settings between two epochs. A refusal leaves those in force. */
static inline uint8_t zaqnuti_easy_drive_settings(zaqnuti_drive *drive, const zaqnuti_displacement_settings *settings)
{
    const double set[5] = {settings->screen, settings->sigma_a, settings->sigma_b, settings->huber, settings->mask};
    double in_force[5] = {0.0, 0.0, 0.0, 0.0, 0.0};
    zaqnuti_size rounds = 0;
    const uint8_t number = zaqnuti_trip_settings(drive->trip.word, set, settings->rounds, in_force, &rounds);
    if (number == 0) {
        zaqnuti_drive_settings(drive, in_force, rounds);
    }
    return number;
}

/* Writes how the receiver moved in `dt` seconds under the settings in force, and adds it to the trip with its pulses. A refusal leaves the trip unchanged. */
static inline uint8_t zaqnuti_easy_drive_displacement(
    zaqnuti_drive *drive,
    const zaqnuti_epoch *previous,
    const zaqnuti_epoch *current,
    double dt,
    zaqnuti_vector receiver,
    uint16_t pulses,
    zaqnuti_moved *moved)
{
    const zaqnuti_displacement_settings *settings = &drive->in_force;
    const double from[3] = {receiver.x, receiver.y, receiver.z};
    const double set[5] = {settings->screen, settings->sigma_a, settings->sigma_b, settings->huber, settings->mask};
    double delta[3] = {0.0, 0.0, 0.0};
    zaqnuti_size counts[2] = {0, 0};
    uint8_t number = zaqnuti_trip_displacement(
        drive->trip.word, set, settings->rounds,
        previous->constellation, ZAQNUTI_RECORDS, previous->svid, ZAQNUTI_RECORDS, previous->band, ZAQNUTI_RECORDS,
        previous->state, ZAQNUTI_RECORDS, previous->floats, 6 * ZAQNUTI_RECORDS, previous->count,
        current->constellation, ZAQNUTI_RECORDS, current->svid, ZAQNUTI_RECORDS, current->band, ZAQNUTI_RECORDS,
        current->state, ZAQNUTI_RECORDS, current->floats, 6 * ZAQNUTI_RECORDS, current->count,
        dt, from, pulses, delta, counts);

    if (number == 0) {
        moved->delta.x = delta[0];
        moved->delta.y = delta[1];
        moved->delta.z = delta[2];
        moved->used = counts[0];
        moved->screened = counts[1];
    }
    return number;
}

/* ---- the corrections */

/* A signal of a satellite. */
typedef struct zaqnuti_signal {
    uint8_t constellation;
    uint16_t svid;
    uint32_t band;  /* any numbering, the same at the base and in queries */
} zaqnuti_signal;

/* What a base station measured of a signal. */
typedef struct zaqnuti_base_range {
    zaqnuti_signal signal;
    double pseudorange;  /* m */
} zaqnuti_base_range;

/* A satellite at the epoch, as the rover knows it. */
typedef struct zaqnuti_base_state {
    zaqnuti_signal signal;
    zaqnuti_vector satellite;  /* at the rover's transmission time, m */
    zaqnuti_vector velocity;   /* m/s */
    double clock;              /* m */
    double modelled;           /* delay, m */
} zaqnuti_base_state;

/* An epoch of a base station: its ranges and the satellites' states, as columns. */
typedef struct zaqnuti_base_epoch {
    double time;  /* s of the week */
    zaqnuti_size ranges;
    uint8_t range_constellation[ZAQNUTI_RECORDS];
    uint16_t range_svid[ZAQNUTI_RECORDS];
    uint32_t range_band[ZAQNUTI_RECORDS];
    double range_pseudorange[ZAQNUTI_RECORDS];
    bool states_present;  /* false: no states are known, and the epoch adds nothing */
    zaqnuti_size states;
    uint8_t state_constellation[ZAQNUTI_RECORDS];
    uint16_t state_svid[ZAQNUTI_RECORDS];
    uint32_t state_band[ZAQNUTI_RECORDS];
    double state_floats[8 * ZAQNUTI_RECORDS];
} zaqnuti_base_epoch;

typedef struct zaqnuti_correction_settings {
    double max_gap;         /* s that a query may bridge */
    double max_correction;  /* m; larger ones are dropped */
    bool corrected[8];      /* by constellation 0 to 7 */
} zaqnuti_correction_settings;

/* GPS and Galileo; GLONASS has a bias for each satellite and receiver. */
#define ZAQNUTI_EASY_CORRECTIONS {ZAQNUTI_MAX_GAP, ZAQNUTI_MAX_CORRECTION, ZAQNUTI_CORRECTED}

/*
 * A table of corrections, for one base, one rover and one choice of settings:
 * a block of samples for each signal, and the directory of the blocks.
 */
typedef struct zaqnuti_table {
    zaqnuti_size blocks;
    zaqnuti_size count;
    uint8_t constellation[ZAQNUTI_EASY_SAMPLES];
    uint16_t svid[ZAQNUTI_EASY_SAMPLES];
    uint32_t band[ZAQNUTI_EASY_SAMPLES];
    zaqnuti_size first[ZAQNUTI_EASY_SAMPLES];
    zaqnuti_size samples[ZAQNUTI_EASY_SAMPLES];
    double time[ZAQNUTI_EASY_SAMPLES];
    double metres[ZAQNUTI_EASY_SAMPLES];
} zaqnuti_table;

static inline void zaqnuti_table_clear(zaqnuti_table *table)
{
    table->blocks = 0;
    table->count = 0;
}

/*
 * Writes the directory of a table that was stored with a signal for each
 * sample, as before 0.5.0. Time, metres and count are the table's own; the
 * signals are columns of `length` places. Bands of 8 bits go through
 * zaqnuti_widen_bands first.
 */
static inline uint8_t zaqnuti_easy_directory_of(
    zaqnuti_table *table, const uint8_t *constellation, const uint16_t *svid, const uint32_t *band, zaqnuti_size length)
{
    return zaqnuti_directory_of(
        constellation, length, svid, length, band, length,
        table->time, ZAQNUTI_EASY_SAMPLES, table->metres, ZAQNUTI_EASY_SAMPLES, table->count,
        table->constellation, ZAQNUTI_EASY_SAMPLES, table->svid, ZAQNUTI_EASY_SAMPLES, table->band, ZAQNUTI_EASY_SAMPLES,
        table->first, ZAQNUTI_EASY_SAMPLES, table->samples, ZAQNUTI_EASY_SAMPLES, &table->blocks);
}

/* Writes the signal of each sample to columns of `length` places. */
static inline uint8_t zaqnuti_easy_signals_of(
    const zaqnuti_table *table, uint8_t *constellation, uint16_t *svid, uint32_t *band, zaqnuti_size length)
{
    return zaqnuti_signals_of(
        table->constellation, ZAQNUTI_EASY_SAMPLES, table->svid, ZAQNUTI_EASY_SAMPLES, table->band, ZAQNUTI_EASY_SAMPLES,
        table->first, ZAQNUTI_EASY_SAMPLES, table->samples, ZAQNUTI_EASY_SAMPLES, table->blocks,
        table->time, ZAQNUTI_EASY_SAMPLES, table->metres, ZAQNUTI_EASY_SAMPLES, table->count,
        constellation, length, svid, length, band, length);
}

/* Clears an epoch: no ranges and no states. */
static inline void zaqnuti_base_epoch_clear(zaqnuti_base_epoch *epoch, double time)
{
    epoch->time = time;
    epoch->ranges = 0;
    epoch->states_present = true;
    epoch->states = 0;
}

/* Adds a range. The 65th is refused by 2 and leaves the epoch unchanged. */
static inline uint8_t zaqnuti_base_epoch_add_range(zaqnuti_base_epoch *epoch, const zaqnuti_base_range *one)
{
    const zaqnuti_size i = epoch->ranges;

    if (i >= ZAQNUTI_RECORDS) {
        return ZAQNUTI_TOO_MANY;
    }
    epoch->range_constellation[i] = one->signal.constellation;
    epoch->range_svid[i] = one->signal.svid;
    epoch->range_band[i] = one->signal.band;
    epoch->range_pseudorange[i] = one->pseudorange;
    epoch->ranges = i + 1;
    return 0;
}

/* Adds a state. The 65th is refused by 2 and leaves the epoch unchanged. */
static inline uint8_t zaqnuti_base_epoch_add_state(zaqnuti_base_epoch *epoch, const zaqnuti_base_state *one)
{
    const zaqnuti_size i = epoch->states;
    double *floats;

    if (i >= ZAQNUTI_RECORDS) {
        return ZAQNUTI_TOO_MANY;
    }
    epoch->state_constellation[i] = one->signal.constellation;
    epoch->state_svid[i] = one->signal.svid;
    epoch->state_band[i] = one->signal.band;
    floats = &epoch->state_floats[8 * i];
    floats[0] = one->satellite.x;
    floats[1] = one->satellite.y;
    floats[2] = one->satellite.z;
    floats[3] = one->velocity.x;
    floats[4] = one->velocity.y;
    floats[5] = one->velocity.z;
    floats[6] = one->clock;
    floats[7] = one->modelled;
    epoch->states = i + 1;
    return 0;
}

/* Adds the epoch's corrections to the table. */
static inline uint8_t zaqnuti_easy_add_epoch(
    zaqnuti_table *table,
    const zaqnuti_base_epoch *epoch,
    zaqnuti_vector base,
    zaqnuti_vector rover,
    const zaqnuti_correction_settings *settings)
{
    const double at_base[3] = {base.x, base.y, base.z};
    const double at_rover[3] = {rover.x, rover.y, rover.z};

    return zaqnuti_add_epoch(
        table->constellation, ZAQNUTI_EASY_SAMPLES, table->svid, ZAQNUTI_EASY_SAMPLES,
        table->band, ZAQNUTI_EASY_SAMPLES, table->first, ZAQNUTI_EASY_SAMPLES,
        table->samples, ZAQNUTI_EASY_SAMPLES, &table->blocks,
        table->time, ZAQNUTI_EASY_SAMPLES, table->metres, ZAQNUTI_EASY_SAMPLES, &table->count,
        epoch->time, epoch->ranges,
        epoch->range_constellation, ZAQNUTI_RECORDS, epoch->range_svid, ZAQNUTI_RECORDS,
        epoch->range_band, ZAQNUTI_RECORDS, epoch->range_pseudorange, ZAQNUTI_RECORDS,
        epoch->states_present, epoch->states,
        epoch->state_constellation, ZAQNUTI_RECORDS, epoch->state_svid, ZAQNUTI_RECORDS,
        epoch->state_band, ZAQNUTI_RECORDS, epoch->state_floats, 8 * ZAQNUTI_RECORDS,
        at_base, at_rover, settings->max_gap, settings->max_correction, settings->corrected);
}

/* Writes the correction of a signal at a time (s of the week), to be subtracted from the rover's pseudorange. */
static inline uint8_t zaqnuti_easy_query(
    const zaqnuti_table *table,
    zaqnuti_signal signal,
    double time,
    const zaqnuti_correction_settings *settings,
    double *metres)
{
    return zaqnuti_query(
        table->constellation, ZAQNUTI_EASY_SAMPLES, table->svid, ZAQNUTI_EASY_SAMPLES,
        table->band, ZAQNUTI_EASY_SAMPLES, table->first, ZAQNUTI_EASY_SAMPLES,
        table->samples, ZAQNUTI_EASY_SAMPLES, table->blocks,
        table->time, ZAQNUTI_EASY_SAMPLES, table->metres, ZAQNUTI_EASY_SAMPLES, table->count,
        settings->max_gap, signal.constellation, signal.svid, signal.band, time, metres);
}

/*
 * Writes the corrections of an epoch's signals, at most 64, at one time. Each
 * signal has its number, 0, 4 or 12, and its metres, which are unchanged if it
 * is refused. The call itself refuses by 2, 3 and 4; then everything is
 * unchanged.
 */
static inline uint8_t zaqnuti_easy_queries(
    const zaqnuti_table *table,
    const zaqnuti_signal *signals,
    zaqnuti_size count,
    double time,
    const zaqnuti_correction_settings *settings,
    uint8_t *numbers,
    double *metres)
{
    uint8_t constellation[ZAQNUTI_RECORDS] = {0};
    uint16_t svid[ZAQNUTI_RECORDS] = {0};
    uint32_t band[ZAQNUTI_RECORDS] = {0};
    double times[ZAQNUTI_RECORDS] = {0.0};
    zaqnuti_size i;

    if (count > ZAQNUTI_RECORDS) {
        return ZAQNUTI_TOO_MANY;
    }
    for (i = 0; i < count; i++) {
        constellation[i] = signals[i].constellation;
        svid[i] = signals[i].svid;
        band[i] = signals[i].band;
        times[i] = time;
    }
    return zaqnuti_queries(
        table->constellation, ZAQNUTI_EASY_SAMPLES, table->svid, ZAQNUTI_EASY_SAMPLES,
        table->band, ZAQNUTI_EASY_SAMPLES, table->first, ZAQNUTI_EASY_SAMPLES,
        table->samples, ZAQNUTI_EASY_SAMPLES, table->blocks,
        table->time, ZAQNUTI_EASY_SAMPLES, table->metres, ZAQNUTI_EASY_SAMPLES, table->count,
        settings->max_gap,
        constellation, count, svid, count, band, count, times, count, count,
        numbers, count, metres, count);
}

/* Drops samples before a time (s of the week), keeping the last of them for each signal, so that the table lasts the day. */
static inline uint8_t zaqnuti_easy_forget(zaqnuti_table *table, double time)
{
    return zaqnuti_forget(
        table->constellation, ZAQNUTI_EASY_SAMPLES, table->svid, ZAQNUTI_EASY_SAMPLES,
        table->band, ZAQNUTI_EASY_SAMPLES, table->first, ZAQNUTI_EASY_SAMPLES,
        table->samples, ZAQNUTI_EASY_SAMPLES, table->blocks,
        table->time, ZAQNUTI_EASY_SAMPLES, table->metres, ZAQNUTI_EASY_SAMPLES, &table->count, time);
}

/* ---- the track */

typedef struct zaqnuti_track_settings {
    double huber;       /* in sigmas */
    zaqnuti_size iterations;  /* at most 50; 0 runs one, as 1 does */
} zaqnuti_track_settings;

#define ZAQNUTI_EASY_TRACK {ZAQNUTI_TRACK_HUBER, ZAQNUTI_TRACK_ITERATIONS}

/* A track: its anchors, its links, its places once it is smoothed, and work space. */
typedef struct zaqnuti_track {
    zaqnuti_size epochs;
    zaqnuti_size anchors;
    zaqnuti_size links;
    zaqnuti_size anchor_epoch[ZAQNUTI_EASY_EPOCHS];
    double anchor_position[3 * ZAQNUTI_EASY_EPOCHS];
    double anchor_sigma[3 * ZAQNUTI_EASY_EPOCHS];
    zaqnuti_size link_epoch[ZAQNUTI_EASY_EPOCHS];
    double link_change[3 * ZAQNUTI_EASY_EPOCHS];
    double link_sigma[3 * ZAQNUTI_EASY_EPOCHS];
    double place[3 * ZAQNUTI_EASY_EPOCHS];
    double work[11 * ZAQNUTI_EASY_EPOCHS];
} zaqnuti_track;

/* Clears a track: so many epochs, no anchor and no link. */
static inline void zaqnuti_track_clear(zaqnuti_track *track, zaqnuti_size epochs)
{
    track->epochs = epochs;
    track->anchors = 0;
    track->links = 0;
}

/* Adds an anchor: where the receiver was at an epoch, with one-sigma by axis. Refuses by 2 if there is no room. */
static inline uint8_t zaqnuti_track_anchor(zaqnuti_track *track, zaqnuti_size epoch, zaqnuti_vector position, zaqnuti_vector sigma)
{
    const zaqnuti_size i = track->anchors;

    if (i >= ZAQNUTI_EASY_EPOCHS) {
        return ZAQNUTI_TOO_MANY;
    }
    track->anchor_epoch[i] = epoch;
    track->anchor_position[3 * i] = position.x;
    track->anchor_position[3 * i + 1] = position.y;
    track->anchor_position[3 * i + 2] = position.z;
    track->anchor_sigma[3 * i] = sigma.x;
    track->anchor_sigma[3 * i + 1] = sigma.y;
    track->anchor_sigma[3 * i + 2] = sigma.z;
    track->anchors = i + 1;
    return 0;
}

/* Adds a link: how it moved from an epoch to the next, with one-sigma by axis. Refuses by 2 if there is no room. */
static inline uint8_t zaqnuti_track_link(zaqnuti_track *track, zaqnuti_size epoch, zaqnuti_vector change, zaqnuti_vector sigma)
{
    const zaqnuti_size i = track->links;

    if (i >= ZAQNUTI_EASY_EPOCHS) {
        return ZAQNUTI_TOO_MANY;
    }
    track->link_epoch[i] = epoch;
    track->link_change[3 * i] = change.x;
    track->link_change[3 * i + 1] = change.y;
    track->link_change[3 * i + 2] = change.z;
    track->link_sigma[3 * i] = sigma.x;
    track->link_sigma[3 * i + 1] = sigma.y;
    track->link_sigma[3 * i + 2] = sigma.z;
    track->links = i + 1;
    return 0;
}

/* Computes the track that fits anchors and links; zaqnuti_track_place reads it. */
static inline uint8_t zaqnuti_easy_smooth(zaqnuti_track *track, const zaqnuti_track_settings *settings)
{
    return zaqnuti_smooth(
        track->epochs, track->anchors, track->links,
        track->anchor_epoch, ZAQNUTI_EASY_EPOCHS, track->anchor_position, 3 * ZAQNUTI_EASY_EPOCHS,
        track->anchor_sigma, 3 * ZAQNUTI_EASY_EPOCHS,
        track->link_epoch, ZAQNUTI_EASY_EPOCHS, track->link_change, 3 * ZAQNUTI_EASY_EPOCHS,
        track->link_sigma, 3 * ZAQNUTI_EASY_EPOCHS,
        settings->huber, settings->iterations,
        track->place, 3 * ZAQNUTI_EASY_EPOCHS, track->work, 11 * ZAQNUTI_EASY_EPOCHS);
}

/* Returns the place at an epoch of a smoothed track; the origin if there is no such epoch. */
static inline zaqnuti_vector zaqnuti_track_place(const zaqnuti_track *track, zaqnuti_size epoch)
{
    zaqnuti_vector place = {0.0, 0.0, 0.0};

    if (epoch < track->epochs && epoch < ZAQNUTI_EASY_EPOCHS) {
        place.x = track->place[3 * epoch];
        place.y = track->place[3 * epoch + 1];
        place.z = track->place[3 * epoch + 2];
    }
    return place;
}

#endif
