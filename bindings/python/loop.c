/*
 * The epochs of a drive in one call, for Python: a call from Python for each
 * epoch is too slow. It gathers the columns of two epochs, calls the library,
 * and keeps what the library answers. The library's functions are handed over
 * as pointers, so that this file is linked against nothing.
 *
 * A drive's columns have one element for each carrier; `starts` has one for
 * each epoch and one more, so that epoch i has the carriers from starts[i] to
 * below starts[i + 1].
 */
#include <math.h>
#include <stddef.h>
#include <stdint.h>
#include <string.h>

#define RECORDS 64
#define TOO_MANY 2

typedef uint8_t (*time_call)(uint32_t, double, uint64_t *);
typedef uint8_t (*seconds_call)(uint64_t, uint64_t, double *);
typedef uint8_t (*rated_call)(
    const uint8_t *, uint64_t, const uint16_t *, uint64_t, const uint32_t *, uint64_t, const int32_t *, uint64_t,
    const double *, uint64_t, uint64_t,
    const uint8_t *, uint64_t, const uint16_t *, uint64_t, const uint32_t *, uint64_t, const int32_t *, uint64_t,
    const double *, uint64_t, uint64_t,
    double, const double *, const double *, uint64_t, double *, double *, uint64_t *);
typedef uint8_t (*displacement_call)(
    const uint8_t *, uint64_t, const uint16_t *, uint64_t, const uint32_t *, uint64_t, const int32_t *, uint64_t,
    const double *, uint64_t, uint64_t,
    const uint8_t *, uint64_t, const uint16_t *, uint64_t, const uint32_t *, uint64_t, const int32_t *, uint64_t,
    const double *, uint64_t, uint64_t,
    double, const double *, const double *, uint64_t, double *, uint64_t *);
typedef uint8_t (*city_rated_call)(
    const uint8_t *, uint64_t, const uint16_t *, uint64_t, const uint32_t *, uint64_t, const int32_t *, uint64_t,
    const double *, uint64_t, uint64_t,
    const uint8_t *, uint64_t, const uint16_t *, uint64_t, const uint32_t *, uint64_t, const int32_t *, uint64_t,
    const double *, uint64_t, uint64_t,
    double, uint32_t, const double *, const double *, uint64_t, double *, double *, uint64_t *);
typedef uint8_t (*city_call)(
    const uint8_t *, uint64_t, const uint16_t *, uint64_t, const uint32_t *, uint64_t, const int32_t *, uint64_t,
    const double *, uint64_t, uint64_t,
    const uint8_t *, uint64_t, const uint16_t *, uint64_t, const uint32_t *, uint64_t, const int32_t *, uint64_t,
    const double *, uint64_t, uint64_t,
    double, uint32_t, const double *, const double *, uint64_t, double *, uint64_t *);
typedef uint8_t (*fix_call)(
    const uint8_t *, uint64_t, const double *, uint64_t, uint64_t, const double *, const double *, uint64_t,
    double *, uint64_t *);
typedef uint8_t (*trip_add_call)(uint64_t *, const double *, uint16_t);
typedef uint8_t (*mileage_add_call)(uint64_t *, uint8_t, const double *, const double *, uint16_t);

/* Functions of the library. */
struct calls {
    time_call time;
    seconds_call seconds_since;
    displacement_call displacement;
    rated_call rated;
    city_call city;
    city_rated_call city_rated;
    trip_add_call trip_add;
    mileage_add_call mileage_add;
    fix_call fix;
};

/* The columns of a drive; `week` is NULL where it has none. */
struct drive {
    uint64_t epochs;
    const uint64_t *starts;
    const uint8_t *constellation;
    const uint16_t *svid;
    const uint32_t *band;
    const int32_t *state;
    const double *floats[6];
    const uint32_t *week;
    const double *tow;
    const double *places;
};

/* The six floats of each carrier of an epoch, as the library takes them. */
static void gather(const struct drive *drive, uint64_t start, uint64_t count, double *floats)
{
    for (uint64_t i = 0; i < count; i++) {
        for (int j = 0; j < 6; j++) {
            floats[6 * i + (uint64_t)j] = drive->floats[j][start + i];
        }
    }
}

/* The seconds from an epoch to the next, exact to the nanosecond where the drive has weeks. */
static uint8_t interval(const struct calls *calls, const struct drive *drive, uint64_t i, double *dt)
{
    uint64_t before = 0, now = 0;
    uint8_t number;

    if (drive->week == NULL) {
        *dt = drive->tow[i + 1] - drive->tow[i];
        return 0;
    }
    number = calls->time(drive->week[i], drive->tow[i], &before);
    if (number == 0) {
        number = calls->time(drive->week[i + 1], drive->tow[i + 1], &now);
    }
    return number != 0 ? number : calls->seconds_since(now, before, dt);
}

/* Two epochs' carriers with the floats gathered, and how the displacement is worked out. */
struct pair {
    uint64_t i;
    const double *previous, *current;
    double dt;
    const double *settings;
    uint64_t rounds;
    const uint32_t *band;
};

/* The columns of an epoch as arguments of the library. */
#define EPOCH(d, s, n, floats) \
    (d)->constellation + (s), (n), (d)->svid + (s), (n), (d)->band + (s), (n), (d)->state + (s), (n), (floats), 6 * (n), (n)

/* One displacement, of the city form where a band is given, with chi and pdop where `q` is not NULL. */
static uint8_t displace(const struct calls *calls, const struct drive *drive, const struct pair *pair, double *d, double *q)
{
    const uint64_t p = drive->starts[pair->i], c = drive->starts[pair->i + 1], e = drive->starts[pair->i + 2];
    const double *place = drive->places + 3 * pair->i, *settings = pair->settings;
    const uint64_t rounds = pair->rounds;
    uint64_t counts[2] = {0, 0};

    if (pair->band != NULL && q != NULL) {
        return calls->city_rated(
            EPOCH(drive, p, c - p, pair->previous), EPOCH(drive, c, e - c, pair->current),
            pair->dt, *pair->band, place, settings, rounds, d, q, counts);
    }
    if (pair->band != NULL) {
        return calls->city(
            EPOCH(drive, p, c - p, pair->previous), EPOCH(drive, c, e - c, pair->current),
            pair->dt, *pair->band, place, settings, rounds, d, counts);
    }
    if (q != NULL) {
        return calls->rated(
            EPOCH(drive, p, c - p, pair->previous), EPOCH(drive, c, e - c, pair->current),
            pair->dt, place, settings, rounds, d, q, counts);
    }
    return calls->displacement(
        EPOCH(drive, p, c - p, pair->previous), EPOCH(drive, c, e - c, pair->current),
        pair->dt, place, settings, rounds, d, counts);
}

/*
 * The displacement from each epoch to the next, of the epochs from `first` to
 * below `end`: three floats in `delta`, the refusal or 0 in `numbers`, and chi
 * and pdop in `quality` where that is not NULL. Floats of a refused one are
 * NaNs. It is of the city form where `band` is not NULL.
 */
void zaqnuti_loop_displacements(
    const struct calls *calls, const struct drive *drive, uint64_t first, uint64_t end,
    const double settings[5], uint64_t rounds, const uint32_t *band,
    double *delta, double *quality, uint8_t *numbers)
{
    double floats[2][6 * RECORDS];
    uint64_t gathered = UINT64_MAX;

    for (uint64_t i = first; i < end; i++) {
        const uint64_t p = drive->starts[i], c = drive->starts[i + 1], e = drive->starts[i + 2];
        const uint64_t before = c - p, now = e - c;
        double *previous = floats[i % 2], *current = floats[(i + 1) % 2];
        double dt = 0.0, d[3] = {0.0, 0.0, 0.0}, q[2] = {0.0, 0.0};
        uint8_t number = interval(calls, drive, i, &dt);

        if (number == 0 && (before > RECORDS || now > RECORDS)) {
            number = TOO_MANY;
        }
        if (number == 0) {
            if (gathered != i) {
                gather(drive, p, before, previous);
            }
            gather(drive, c, now, current);
            gathered = i + 1;
            {
                const struct pair pair = {i, previous, current, dt, settings, rounds, band};

                number = displace(calls, drive, &pair, d, quality != NULL ? q : NULL);
            }
        }
        numbers[i] = number;
        for (int j = 0; j < 3; j++) {
            delta[3 * i + (uint64_t)j] = number == 0 ? d[j] : (double)NAN;
        }
        if (quality != NULL) {
            quality[2 * i] = number == 0 ? q[0] : (double)NAN;
            quality[2 * i + 1] = number == 0 ? q[1] : (double)NAN;
        }
    }
}

/*
 * The fix of each epoch from its corrected pseudoranges: x, y and z in
 * `position`, NaNs where it is refused, and the refusal or 0 in `numbers`.
 * Pseudoranges with a 1 in `unused` are left out, where that is not NULL.
 */
void zaqnuti_loop_fixes(
    const struct calls *calls, const struct drive *drive, const double *ranges, const uint8_t *unused,
    const double guess[3], const double settings[4], uint64_t rounds, double *position, uint8_t *numbers)
{
    for (uint64_t i = 0; i < drive->epochs; i++) {
        uint8_t constellation[RECORDS], number = 0;
        double floats[5 * RECORDS], solution[5] = {0.0, 0.0, 0.0, 0.0, 0.0};
        uint64_t count = 0, used = 0;

        for (uint64_t k = drive->starts[i]; k < drive->starts[i + 1] && number == 0; k++) {
            if (unused != NULL && unused[k] != 0) {
                continue;
            }
            if (count == RECORDS) {
                number = TOO_MANY;
                continue;
            }
            constellation[count] = drive->constellation[k];
            floats[5 * count] = ranges[k];
            for (int j = 1; j < 5; j++) {
                floats[5 * count + (uint64_t)j] = drive->floats[j][k];
            }
            count++;
        }
        if (number == 0) {
            number = calls->fix(
                constellation, count, floats, 5 * count, count, guess, settings, rounds, solution, &used);
        }
        numbers[i] = number;
        for (int j = 0; j < 3; j++) {
            position[3 * i + (uint64_t)j] = number == 0 ? solution[j] : (double)NAN;
        }
    }
}

/*
 * Adds `count` displacements with their pulses to a trip and a mileage. A
 * displacement that the trip refuses gets that number, and counts as refused
 * in the mileage. `after` gets the trip's carrier millimetres and pulses after
 * each, where it is not NULL. Returns 0, or what the mileage refused by.
 */
uint8_t zaqnuti_loop_add(
    const struct calls *calls, uint64_t count, const double *delta, const double *quality, const uint16_t *pulses,
    uint8_t *numbers, uint64_t trip[6], uint64_t mileage[10], uint64_t *after)
{
    for (uint64_t i = 0; i < count; i++) {
        uint8_t number;

        if (numbers[i] == 0) {
            numbers[i] = calls->trip_add(trip, delta + 3 * i, pulses[i]);
        }
        number = calls->mileage_add(mileage, numbers[i], delta + 3 * i, quality + 2 * i, pulses[i]);
        if (number != 0) {
            return number;
        }
        if (after != NULL) {
            after[2 * i] = trip[2];
            after[2 * i + 1] = trip[3];
        }
    }
    return 0;
}
