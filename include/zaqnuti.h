/*
 * Zaqnuti: positions from pseudoranges, displacements between two carrier
 * epochs (as columns, as bytes or as text), times in whole nanoseconds, trips
 * and mileages, base-station corrections and smoothed tracks.
 *
 * Link libzaqnuti.a (`./run` writes it to target/staticlib) or libzaqnuti.so:
 * Linux on x86-64, System V calling convention. `packaging/box TARGET archive`
 * writes the library for another target to target/TARGET: aarch64, armv7 and
 * riscv64 on Linux, a bare Cortex-M4, and WebAssembly (docs/BOXES.md). The
 * interface and every bit of an answer are the same there. The library needs
 * memcpy, memmove and memset, which every C library has and a program without
 * one supplies. It allocates nothing, reads no clock or file, and prints
 * nothing.
 *
 * This header declares what the library exports. zaqnuti_easy.h has the same
 * calls on structs.
 *
 * The following holds for every function.
 *
 * Total. A caller may pass every float, count and setting. The call returns,
 * with an answer or a refusal. It never aborts, unwinds or runs forever.
 *
 * Answer. A function of type uint8_t returns 0 if it answers, otherwise the
 * number of its refusal, 1 to 21: the first that applies (enum
 * zaqnuti_refusal; docs/REFUSALS.md). A refusal changes nothing: every result
 * and every table keeps its bytes. Functions of another type never refuse.
 *
 * Buffers. A column is a pointer followed by its length, in elements. A column
 * may be longer than its count needs: the rest is neither read nor written. A
 * shorter one is refused by 2. A pointer declared as an array points to that
 * many elements. An empty column may have any pointer, NULL too. Every other
 * pointer is valid and aligned for its type (double, zaqnuti_size, uint64_t
 * and int64_t by 8 bytes, uint32_t and int32_t by 4, uint16_t by 2). Memory
 * that a call writes overlaps nothing else that is passed to it; memory that
 * it only reads may overlap. A bool is 0 or 1, as C's own conversion makes it.
 *
 * Threads. The library has no state and takes no locks. Calls may run in
 * parallel, in threads or signal handlers, as long as none writes memory that
 * another one uses.
 *
 * Floats. IEEE 754 binary64 in the default environment: rounding to nearest,
 * subnormal numbers not flushed (MXCSR, and FPCR on ARM, as a process starts
 * with it). A call may raise exception flags. Results are equal to the last
 * bit on every machine, except for the bits of a NaN.
 *
 * Units. Metres, seconds, metres per second and degrees. Positions are
 * earth-centred, earth-fixed: x, y, z. Constellations have Android's numbers
 * (1 GPS, 3 GLONASS, 5 BeiDou, 6 Galileo); those from 7 up share one clock.
 *
 * Stack. The most bytes that a call uses below the caller's frame, arguments
 * on the stack included, rounded up to 256. They were measured with full
 * epochs, all rounds and refusals (bindings/rust/tests/stack.rs). No call
 * recurses. Pages are touched in order, so a stack that is too small ends at
 * its guard page. These figures are for x86-64; docs/BOXES.md has the others.
 *
 *     fix             20,224
 *     position        20,224
 *     displacement    18,688
 *     between         18,688
 *     city            18,688
 *     rated           18,688
 *     line            25,088
 *     records         24,576
 *     read_records       256
 *     write_records      256
 *     add_epoch       16,896
 *     query            1,024
 *     queries          1,024
 *     forget             512
 *     forms              512
 *     widen_bands        256
 *     smooth             768
 *     times              256
 *     trip               256
 *     mileage            256
 *     north_east_down    256
 *     trip_displacement 18,688
 *     round            8,960
 *     centre             768
 *     geometry           256
 *     factor           1,536
 *     solve              512
 *     clocks             256
 *     numbers            256
 */
#ifndef ZAQNUTI_H
#define ZAQNUTI_H

#include <stdbool.h>
#include <stddef.h>
#include <stdint.h>

/* A length or a count: 64 bits on every target, size_t if that has 64 bits. */
#if SIZE_MAX > 0xFFFFFFFFu
typedef size_t zaqnuti_size;
#else
typedef uint64_t zaqnuti_size;
#endif

#ifdef __cplusplus
extern "C" {
#endif

/* The version of this header and its library; the number is 10000 major + 100 minor + patch. */
#define ZAQNUTI_VERSION "0.7.1"
#define ZAQNUTI_VERSION_MAJOR 0
#define ZAQNUTI_VERSION_MINOR 7
#define ZAQNUTI_VERSION_PATCH 1
#define ZAQNUTI_VERSION_NUMBER 701

/*
 * Returns the version of the library as a number like ZAQNUTI_VERSION_NUMBER.
 * Compare the two if the library is loaded at run time.
 */
uint32_t zaqnuti_version(void);

/* Limits. */
#define ZAQNUTI_RECORDS 64       /* records of an epoch, states beside it, rows, residuals */
#define ZAQNUTI_SAMPLES 2048     /* samples of a table of corrections */
#define ZAQNUTI_EPOCHS 1024      /* epochs, anchors or links of a track */
#define ZAQNUTI_WEEKS 15000      /* the last week of a time */
#define ZAQNUTI_TRIP_EPOCHS 65535 /* epochs of a trip */
#define ZAQNUTI_MILEAGE_EPOCHS 65535 /* epochs of a mileage */
#define ZAQNUTI_ROUNDS 50        /* rounds of an estimate, iterations of a track */
#define ZAQNUTI_TEXT 32768       /* bytes of a text in the line form */
#define ZAQNUTI_LINE 59          /* bytes that always suffice for its answer */
#define ZAQNUTI_RECORD 59        /* bytes of a carrier record */
#define ZAQNUTI_RESULT 40        /* bytes of the result of their displacement */

/*
 * Refusals. Rules are checked in this order, except that 13 is between 4 and
 * 5, 15 before 7 and before 10, 19 in place of 4, 20 between 9 and 10, and 21
 * before 2. docs/REFUSALS.md has the order of each call and what to do.
 */
enum zaqnuti_refusal {
    ZAQNUTI_BROKEN_FORM = 1,           /* the text is too long or breaks the line form */
    ZAQNUTI_TOO_MANY = 2,              /* there are too many records, or a buffer is too short */
    ZAQNUTI_SETTING_OUT_OF_RANGE = 3,  /* a setting is not finite or above 1e9 in magnitude, or the rounds are not allowed */
    ZAQNUTI_RECORD_OUT_OF_RANGE = 4,   /* a float of a record, a coordinate or a time is not finite or above 1e9; a table is at fault */
    ZAQNUTI_BAD_INTERVAL = 5,          /* dt is not above 0 and at most 604,800 s */
    ZAQNUTI_BAD_TRACK = 6,             /* no epochs, no anchor, a sigma not above 0, an index beyond the epochs */
    ZAQNUTI_TOO_FEW_PAIRS = 7,         /* fewer than six carrier pairs before screening */
    ZAQNUTI_TOO_FEW_ROWS = 8,          /* fewer rows than 4 plus the clock slots */
    ZAQNUTI_TOO_MANY_SLOTS = 9,        /* more than six clock slots */
    ZAQNUTI_FIT_FAILED = 10,           /* the fit fails */
    ZAQNUTI_TABLE_FULL = 11,           /* the epoch's corrections do not all fit in the table */
    ZAQNUTI_NO_CORRECTION = 12,        /* the table gives no correction for the query */
    ZAQNUTI_BAD_TIME = 13,             /* a week, a time of week or a time in nanoseconds is out of range */
    ZAQNUTI_QUALITY_NOT_FINITE = 14,   /* chi or pdop is not finite */
    ZAQNUTI_ON_RECEIVER = 15,          /* the range of a satellite is zero or not finite */
    ZAQNUTI_BAD_TRIP = 16,             /* a trip, its pulse rate or a displacement for it is out of its limits */
    ZAQNUTI_NO_DISTANCE = 17,          /* there is no distance to divide by */
    ZAQNUTI_BAD_DROP_TIME = 18,        /* the time to drop before is not finite */
    ZAQNUTI_NOT_TURNED = 19,           /* a coordinate is not finite or above 1e9, or the result is not finite */
    ZAQNUTI_NOT_CERTIFIED = 20,        /* GPS or Galileo is absent among the kept pairs of a city displacement */
    ZAQNUTI_BROKEN_RECORDS = 21        /* the length of the carrier records is not a multiple of 59 */
};

/*
 * Settings to start with, as initializers. PHONE has the defaults of the Rust
 * that this library follows, found on drives with phones. GEODETIC suited two
 * receivers of a geodetic network with an epoch every 30 s (examples/geonet):
 * their pseudoranges are better, and the mean of two range rates predicts less
 * over 30 s than over one.
 *
 *     const double settings[4] = ZAQNUTI_FIX_PHONE;
 */

/* zaqnuti_fix: sigma_a, sigma_b (m), huber, mask (degrees); and the rounds. */
#define ZAQNUTI_FIX_PHONE {0.3, 16.0, 1.0, 10.0}
#define ZAQNUTI_FIX_GEODETIC {0.3, 0.3, 1.5, 10.0}
#define ZAQNUTI_FIX_ROUNDS 25

/* zaqnuti_displacement: screen, sigma_a, sigma_b (m), huber, mask (degrees); and the rounds. */
#define ZAQNUTI_DISPLACEMENT_PHONE {0.5, 0.008, 0.002, 1.5, 10.0}
#define ZAQNUTI_DISPLACEMENT_GEODETIC {2.0, 0.008, 0.002, 1.5, 10.0}
#define ZAQNUTI_DISPLACEMENT_ROUNDS 4

/* zaqnuti_add_epoch, zaqnuti_query, zaqnuti_queries: s, m, and GPS with Galileo. */
#define ZAQNUTI_MAX_GAP 90.0
#define ZAQNUTI_MAX_CORRECTION 100.0
#define ZAQNUTI_CORRECTED {false, true, false, false, false, false, true, false}

/* zaqnuti_smooth: in sigmas, and the iterations. */
#define ZAQNUTI_TRACK_HUBER 2.0
#define ZAQNUTI_TRACK_ITERATIONS 6

/* ---- times */

/*
 * A time is the number of nanoseconds since the start of GPS week 0, as a
 * uint64_t. Receivers report a week and a time of week, which returns to 0 at
 * the end of Saturday: subtracting 604,799.5 s from 0.5 s gives -604,799 s. As
 * times the two are a second apart:
 *
 *     uint64_t before, now;
 *     double dt;
 *     zaqnuti_time(1316, 604799.5, &before);
 *     zaqnuti_time(1317, 0.5, &now);
 *     zaqnuti_seconds_since(now, before, &dt);       dt is 1.0
 *
 * zaqnuti_displacement_between takes the two times instead of dt.
 */

/*
 * Returns 0 and writes the time of a week and a time of week.
 *
 * week           0 to 15,000, counted from GPS week 0 without rollover
 * tow            time of week, from 0 to below 604,800 s; -0 is 0
 * nanos          the nanoseconds of the weeks plus the whole part of
 *                tow * 1e9 + 0.5, product and sum each rounded once; a tow just
 *                below 604,800 s may give the start of the next week
 *
 * Refuses by 13.
 */
uint8_t zaqnuti_time(uint32_t week, double tow, uint64_t *nanos);

/*
 * Returns 0 and writes the exact number of nanoseconds from `earlier` to
 * `later`, negative if `later` is the earlier one. Refuses by 13 (a time past
 * the start of week 15,001, 9,072,604,800,000,000,000 ns).
 */
uint8_t zaqnuti_nanos_since(uint64_t later, uint64_t earlier, int64_t *nanos);

/*
 * Returns 0 and writes the same in seconds: the number of nanoseconds as a
 * double, divided by 1e9, each rounded once. Refuses by 13.
 */
uint8_t zaqnuti_seconds_since(uint64_t later, uint64_t earlier, double *seconds);

/* ---- the fix */

/*
 * Returns 0 and writes the receiver's position from the pseudoranges of one
 * epoch.
 *
 * constellation  one number for each observation
 * floats         five for each observation: pseudorange (m, corrected for
 *                satellite clock, ionosphere, troposphere and bias), x, y, z of
 *                the satellite at transmission (m), elevation (degrees, -90 to
 *                90)
 * count          the number of observations, at most 64
 * guess          where the first round starts, x, y, z (m)
 * settings       sigma_a, sigma_b (m) of sigma = a + b / sin(elevation),
 *                huber (in robust sigmas), mask (degrees)
 * rounds         the most rounds, 1 to 50
 * solution       x, y, z (m), chi (the root of the reduced chi-squared, with
 *                the residuals at this position) and pdop (from the last
 *                round's rows); all five are finite
 * used           the number of observations at or above the mask
 *
 * Refuses by 2 (more than 64, or a column shorter than count needs), 3, 4, 8,
 * 9; in each round by 15 (the range of an observation at or above the mask is
 * zero or not finite), then 10; at the end by 10, 15 at the returned position,
 * and 14 (chi or pdop is not finite).
 */
uint8_t zaqnuti_fix(
    const uint8_t *constellation, zaqnuti_size constellation_length,
    const double *floats, zaqnuti_size floats_length,
    zaqnuti_size count,
    const double guess[3],
    const double settings[4],
    zaqnuti_size rounds,
    double solution[5],
    zaqnuti_size *used);

/* Returns 0 and writes the position alone, x, y, z (m). Refuses as zaqnuti_fix does. */
uint8_t zaqnuti_position(
    const uint8_t *constellation, zaqnuti_size constellation_length,
    const double *floats, zaqnuti_size floats_length,
    zaqnuti_size count,
    const double guess[3],
    const double settings[4],
    zaqnuti_size rounds,
    double position[3]);

/* ---- the displacement */

/*
 * Returns 0 and writes the displacement of the receiver between two epochs of
 * carrier phases.
 *
 * .._constellation, .._svid, .._band (MHz), .._state
 *                one number for each carrier; of the state's bits 1 is valid,
 *                2 a cycle slip, 4 a reset
 * .._floats      six for each carrier: accumulated delta range (m; if it is not
 *                finite, the carrier is unusable), x, y, z of the satellite at
 *                transmission (m), elevation (degrees, -90 to 90), range rate
 *                (m/s, positive when receding)
 * .._count       the number of carriers, at most 64
 * dt             the interval between the epochs, above 0 and at most
 *                604,800 s
 * receiver       the receiver at the earlier epoch, x, y, z (m)
 * settings       screen (m), sigma_a, sigma_b (m) of
 *                sigma = a + b / sin(elevation), huber (in robust sigmas),
 *                mask (degrees)
 * rounds         the most rounds, 0 to 50; with 0 the displacement is zero
 * delta          dx, dy, dz (m), finite
 * counts         the number of carrier pairs used, and of those that the
 *                screen dropped
 *
 * Refuses by 2 (more than 64 carriers, or a column shorter than its count
 * needs), 3, 4, 5, 15 (a range of a carrier pair, kept or screened out, is
 * zero or not finite), 7, 8, 9 and 10, in this order.
 */
uint8_t zaqnuti_displacement(
    const uint8_t *previous_constellation, zaqnuti_size previous_constellation_length,
    const uint16_t *previous_svid, zaqnuti_size previous_svid_length,
    const uint32_t *previous_band, zaqnuti_size previous_band_length,
    const int32_t *previous_state, zaqnuti_size previous_state_length,
    const double *previous_floats, zaqnuti_size previous_floats_length,
    zaqnuti_size previous_count,
    const uint8_t *current_constellation, zaqnuti_size current_constellation_length,
    const uint16_t *current_svid, zaqnuti_size current_svid_length,
    const uint32_t *current_band, zaqnuti_size current_band_length,
    const int32_t *current_state, zaqnuti_size current_state_length,
    const double *current_floats, zaqnuti_size current_floats_length,
    zaqnuti_size current_count,
    double dt,
    const double receiver[3],
    const double settings[5],
    zaqnuti_size rounds,
    double delta[3],
    zaqnuti_size counts[2]);

/*
 * Returns 0 and writes the displacement between two epochs given by their
 * times.
 *
 * previous_time, current_time
 *                the times of the epochs, as zaqnuti_time writes them; dt is
 *                zaqnuti_seconds_since(current_time, previous_time)
 *
 * The answer is that of zaqnuti_displacement with this dt. Refuses by 2, 3, 4,
 * 13 (a time past the start of week 15,001), 5, 15, 7, 8, 9 and 10, in this
 * order.
 */
uint8_t zaqnuti_displacement_between(
    const uint8_t *previous_constellation, zaqnuti_size previous_constellation_length,
    const uint16_t *previous_svid, zaqnuti_size previous_svid_length,
    const uint32_t *previous_band, zaqnuti_size previous_band_length,
    const int32_t *previous_state, zaqnuti_size previous_state_length,
    const double *previous_floats, zaqnuti_size previous_floats_length,
    zaqnuti_size previous_count,
    const uint8_t *current_constellation, zaqnuti_size current_constellation_length,
    const uint16_t *current_svid, zaqnuti_size current_svid_length,
    const uint32_t *current_band, zaqnuti_size current_band_length,
    const int32_t *current_state, zaqnuti_size current_state_length,
    const double *current_floats, zaqnuti_size current_floats_length,
    zaqnuti_size current_count,
    uint64_t previous_time,
    uint64_t current_time,
    const double receiver[3],
    const double settings[5],
    zaqnuti_size rounds,
    double delta[3],
    zaqnuti_size counts[2]);

/*
 * Returns 0 and writes the displacement in the city profile: by GPS (1) and
 * Galileo (6) on one band.
 *
 * band           the band (MHz) whose carriers count; 2 and 4 check every
 *                carrier given
 *
 * The answer is that of zaqnuti_displacement with all other carriers removed
 * from both epochs. Refuses by 2, 3, 4, 5, 15, 7, 8, 9, 20 (GPS or Galileo is
 * absent among the kept pairs) and 10, in this order.
 */
uint8_t zaqnuti_city_displacement(
    const uint8_t *previous_constellation, zaqnuti_size previous_constellation_length,
    const uint16_t *previous_svid, zaqnuti_size previous_svid_length,
    const uint32_t *previous_band, zaqnuti_size previous_band_length,
    const int32_t *previous_state, zaqnuti_size previous_state_length,
    const double *previous_floats, zaqnuti_size previous_floats_length,
    zaqnuti_size previous_count,
    const uint8_t *current_constellation, zaqnuti_size current_constellation_length,
    const uint16_t *current_svid, zaqnuti_size current_svid_length,
    const uint32_t *current_band, zaqnuti_size current_band_length,
    const int32_t *current_state, zaqnuti_size current_state_length,
    const double *current_floats, zaqnuti_size current_floats_length,
    zaqnuti_size current_count,
    double dt,
    uint32_t band,
    const double receiver[3],
    const double settings[5],
    zaqnuti_size rounds,
    double delta[3],
    zaqnuti_size counts[2]);

/*
 * Returns 0 and writes the displacement with two figures of its quality. A
 * displacement from few or badly placed satellites is accepted like any other;
 * these figures identify it.
 *
 * quality        chi, the root of the reduced chi-squared of the kept pairs:
 *                about 1 if the carriers agree as well as sigma says, more if
 *                one slips; and pdop, the dilution of precision: how much the
 *                geometry of the satellites magnifies errors of the carriers,
 *                about 1 to 3 under an open sky
 *
 * The predicted error is (pdop * max(chi, 1)) * 0.01 m. In a study of 300
 * simulated van-days, setting aside displacements at or above 0.2 m lost 1.6 %
 * of the moving ones and removed 96 % of the errors above a metre. This call
 * refuses nothing by it: the limit is the caller's. Leaving displacements out
 * makes a distance worse unless it is scaled by what was covered.
 * zaqnuti_mileage_add takes number, delta and quality, and scales.
 *
 * delta and counts are those of zaqnuti_displacement. Refuses by 2, 3, 4, 5,
 * 15, 7, 8, 9 and 10 as that call does, then by 10 (a pivot of the unweighted
 * matrix is refused, as with six equal pairs and 0 rounds) and 14 (chi or pdop
 * is not finite).
 */
uint8_t zaqnuti_displacement_rated(
    const uint8_t *previous_constellation, zaqnuti_size previous_constellation_length,
    const uint16_t *previous_svid, zaqnuti_size previous_svid_length,
    const uint32_t *previous_band, zaqnuti_size previous_band_length,
    const int32_t *previous_state, zaqnuti_size previous_state_length,
    const double *previous_floats, zaqnuti_size previous_floats_length,
    zaqnuti_size previous_count,
    const uint8_t *current_constellation, zaqnuti_size current_constellation_length,
    const uint16_t *current_svid, zaqnuti_size current_svid_length,
    const uint32_t *current_band, zaqnuti_size current_band_length,
    const int32_t *current_state, zaqnuti_size current_state_length,
    const double *current_floats, zaqnuti_size current_floats_length,
    zaqnuti_size current_count,
    double dt,
    const double receiver[3],
    const double settings[5],
    zaqnuti_size rounds,
    double delta[3],
    double quality[2],
    zaqnuti_size counts[2]);

/*
 * Returns 0 and writes the displacement in the city profile with its quality.
 * Refuses by 2, 3, 4, 5, 15, 7, 8, 9, 20 and 10 as zaqnuti_city_displacement
 * does, then by 10 and 14 as above.
 */
uint8_t zaqnuti_city_displacement_rated(
    const uint8_t *previous_constellation, zaqnuti_size previous_constellation_length,
    const uint16_t *previous_svid, zaqnuti_size previous_svid_length,
    const uint32_t *previous_band, zaqnuti_size previous_band_length,
    const int32_t *previous_state, zaqnuti_size previous_state_length,
    const double *previous_floats, zaqnuti_size previous_floats_length,
    zaqnuti_size previous_count,
    const uint8_t *current_constellation, zaqnuti_size current_constellation_length,
    const uint16_t *current_svid, zaqnuti_size current_svid_length,
    const uint32_t *current_band, zaqnuti_size current_band_length,
    const int32_t *current_state, zaqnuti_size current_state_length,
    const double *current_floats, zaqnuti_size current_floats_length,
    zaqnuti_size current_count,
    double dt,
    uint32_t band,
    const double receiver[3],
    const double settings[5],
    zaqnuti_size rounds,
    double delta[3],
    double quality[2],
    zaqnuti_size counts[2]);

/*
 * The displacement of a text in the line form, `S`, `P` and `C` lines. Returns
 * 0 and writes the answer line with its LF, `A,used,screened,dx,dy,dz` or
 * `R,number`, to `line` and its length to `written`. Returns 2 and changes
 * nothing where the buffer is shorter than the line; ZAQNUTI_LINE bytes are
 * always enough. A text above 32,768 bytes, or one that breaks the form, is
 * answered by `R,1`.
 */
uint8_t zaqnuti_line(
    const uint8_t *text, zaqnuti_size text_length,
    uint8_t *line, zaqnuti_size line_length,
    zaqnuti_size *written);

/* ---- the trip */

/*
 * A trip has two recordings of the same epochs: displacements and odometer
 * pulses. The caller keeps it as six words, which these calls read and write:
 *
 *     0  pulses per kilometre, 1 to 65,535, one rate for the whole trip
 *     1  epochs so far, at most 65,535
 *     2  carrier distance in millimetres
 *     3  pulses
 *     4  the greatest difference of the two distances after an epoch, mm
 *     5  the first epoch that reached it, counted from 1
 *
 *     uint64_t trip[6], report[4], ml;
 *     zaqnuti_trip_start(4000, trip);
 *     zaqnuti_trip_add(trip, delta, 53);             for each epoch
 *     zaqnuti_trip_report(trip, report);
 *     zaqnuti_trip_fuel(trip, 850, &ml);
 *
 * Each call refuses by 16 a trip that no calls can have left: a rate of 0 or
 * above 65,535, more than 65,535 epochs, or more than 1,000,000 mm or 65,535
 * pulses times its epochs. Words 4 and 5 decide no refusal. A refusal leaves
 * the trip unchanged.
 */

/* Returns 0 and writes a new trip: its rate, then zeros. Refuses by 16 (a rate of 0). */
uint8_t zaqnuti_trip_start(uint16_t per_km, uint64_t trip[6]);

/*
 * Returns 0 and adds an epoch to the trip.
 *
 * delta          a displacement in metres, as zaqnuti_displacement writes it:
 *                its length is the root of the sum of its squares, each
 *                operation rounded once; the exact value of that root times
 *                1,000, rounded down, is added in millimetres
 * pulses         the odometer's pulses in this epoch
 *
 * Refuses by 16: a displacement that is not finite or longer than 1,000 m, an
 * epoch beyond the 65,535th, or a trip as above.
 */
uint8_t zaqnuti_trip_add(uint64_t trip[6], const double delta[3], uint16_t pulses);

/*
 * Returns 0 and writes the report: carrier distance and odometer distance in
 * millimetres, their greatest absolute difference after an epoch, and the
 * first epoch that reached it, counted from 1. A new trip reports zeros. The
 * odometer distance is pulses times 1,000,000 divided by the rate, rounded
 * down. Refuses by 16.
 */
uint8_t zaqnuti_trip_report(const uint64_t trip[6], uint64_t report[4]);

/*
 * Returns 0 and writes millilitres per kilometre: millilitres times 1,000,000
 * divided by the carrier distance in millimetres, rounded down. Refuses by 16,
 * and by 17 at zero carrier distance.
 */
uint8_t zaqnuti_trip_fuel(const uint64_t trip[6], uint32_t millilitres, uint64_t *per_km);

/* ---- the mileage */

/*
 * A trip leaves out refused epochs and their pulses, so its fuel figure
 * depends on how much sky a van loses. A mileage keeps all pulses, adds the
 * lengths of well rated epochs, and multiplies by all pulses over the pulses
 * of the counted epochs. The caller keeps it as ten words:
 *
 *     0  the limit of the predicted error in metres, as the bits of a double
 *     1  epochs so far, at most 65,535
 *     2  refused epochs
 *     3  epochs set aside
 *     4  millimetres of counted epochs
 *     5  pulses of counted epochs
 *     6  millimetres of standing epochs, without those of word 9
 *     7  all pulses
 *     8  whether the last epoch had a pulse, 0 or 1
 *     9  millimetres of the last epoch if it stands so far, otherwise 0
 *
 * The first of these classes that applies is the epoch's:
 *   refused     its displacement was refused
 *   set aside   chi or pdop is not finite or below 0, or the predicted error
 *               (pdop * max(chi, 1)) * 0.01 is not below the limit
 *   standing    neither it nor the epoch before nor the one after has a
 *               pulse; a missing neighbour counts as having none
 *   counted     otherwise
 *
 *     uint64_t mileage[10], mm, ml;
 *     zaqnuti_mileage_start(0.2, mileage);
 *     zaqnuti_mileage_add(mileage, number, delta, quality, 53);   for each epoch
 *     zaqnuti_mileage_distance(mileage, &mm);
 *     zaqnuti_mileage_fuel(mileage, 850, &ml);
 *
 * Each call refuses by 16 words that no calls can have left: a limit not
 * finite or above 1e9 in magnitude, more than 65,535 epochs, words 2 and 3
 * together above the epochs, words 4, 6 and 9 together above 1,000,000 times
 * the epochs, word 7 above 65,535 times the epochs, word 5 above word 7, or
 * word 8 above 1. A refusal changes nothing.
 */

/*
 * Returns 0 and starts a mileage. Refuses by 3: a limit that is not finite or
 * above 1e9 in magnitude. A limit of 0.2 m suited simulated vans.
 */
uint8_t zaqnuti_mileage_start(double limit, uint64_t mileage[10]);

/*
 * Returns 0 and adds an epoch.
 *
 * refused_by     the number that refused its displacement, 0 if it was
 *                accepted; otherwise delta and quality must still point to
 *                doubles, of any value
 * delta          the displacement in metres, measured in millimetres as by
 *                zaqnuti_trip_add
 * quality        chi and pdop of the displacement
 * pulses         the odometer's pulses in this epoch, added in any case
 *
 * Refuses by 16: an accepted displacement that is not finite or longer than
 * 1,000 m, an epoch beyond the 65,535th, or words as above.
 */
uint8_t zaqnuti_mileage_add(uint64_t mileage[10], uint8_t refused_by, const double delta[3], const double quality[2], uint16_t pulses);

/*
 * Returns 0 and writes the report: epochs, refused, set aside, counted
 * millimetres, counted pulses, standing millimetres and all pulses. Refuses by
 * 16.
 */
uint8_t zaqnuti_mileage_report(const uint64_t mileage[10], uint64_t report[7]);

/*
 * Returns 0 and writes the distance: counted millimetres times all pulses
 * divided by counted pulses, rounded down. Refuses by 16, also if that is
 * above 2^63 - 1, and by 17 if no pulse was counted.
 */
uint8_t zaqnuti_mileage_distance(const uint64_t mileage[10], uint64_t *millimetres);

/*
 * Returns 0 and writes millilitres per kilometre: millilitres times 1,000,000
 * divided by the distance in millimetres, rounded down. Refuses as the
 * distance does, and by 17 if that is 0.
 */
uint8_t zaqnuti_mileage_fuel(const uint64_t mileage[10], uint32_t millilitres, uint64_t *per_km);

/* ---- carrier records as bytes */

/*
 * An epoch may be stored or sent as bytes: its carrier records in sequence. A
 * record is 59 bytes, little-endian on every machine:
 *
 *     at  bytes
 *      0      1  constellation
 *      1      2  svid
 *      3      4  band (MHz)
 *      7      8  accumulated delta range
 *     15      4  state, two's complement
 *     19     24  x, y, z of the satellite
 *     43      8  elevation
 *     51      8  range rate
 *
 * A float is its 64 bits. An epoch without records has no bytes. Pointers to
 * bytes need no alignment.
 *
 * Reading a written epoch yields its count and its records, and writing a read
 * one its bytes, for any floats: a NaN keeps its sign and its payload. Only
 * the displacement checks whether a float is in range.
 */

/*
 * Returns 0 and writes the first `count` records of the columns to bytes, 59
 * each. The bytes after them are unchanged.
 *
 * constellation, svid, band, state
 *                one number for each carrier
 * floats         the bits of six floats for each carrier: accumulated delta
 *                range, x, y, z, elevation, range rate
 * count          the number of carriers, at most 64
 *
 * Refuses by 2 (more than 64, a column or bytes shorter than count needs).
 */
uint8_t zaqnuti_write_records(
    const uint8_t *constellation, zaqnuti_size constellation_length,
    const uint16_t *svid, zaqnuti_size svid_length,
    const uint32_t *band, zaqnuti_size band_length,
    const int32_t *state, zaqnuti_size state_length,
    const uint64_t *floats, zaqnuti_size floats_length,
    zaqnuti_size count,
    uint8_t *bytes, zaqnuti_size bytes_length);

/*
 * Returns 0, reads the records into the columns, from their start, and writes
 * their number to count. The rest of each column is unchanged.
 *
 * Refuses by 21 (bytes_length is not a multiple of 59) and 2 (more than 64
 * records, or a column shorter than they need); columns and count are then
 * unchanged.
 */
uint8_t zaqnuti_read_records(
    const uint8_t *bytes, zaqnuti_size bytes_length,
    uint8_t *constellation, zaqnuti_size constellation_length,
    uint16_t *svid, zaqnuti_size svid_length,
    uint32_t *band, zaqnuti_size band_length,
    int32_t *state, zaqnuti_size state_length,
    uint64_t *floats, zaqnuti_size floats_length,
    zaqnuti_size *count);

/*
 * Returns 0 and writes the displacement between two epochs given as bytes:
 * that of zaqnuti_displacement on the columns that zaqnuti_read_records reads,
 * with the numbers in the order of the line form's line S.
 *
 * previous, current
 *                the records of the two epochs
 * dt .. rounds   as there; x, y, z are the receiver at the earlier epoch
 * result         40 bytes, little-endian: used and screened as 8 each, then
 *                dx, dy, dz; nothing after them is written
 *
 * Refuses by 21 (a length is not a multiple of 59), 2 (more than 64 records in
 * one, or result_length below 40), 3, 4, 5, 15, 7, 8, 9 and 10, in this order.
 */
uint8_t zaqnuti_displacement_records(
    const uint8_t *previous, zaqnuti_size previous_length,
    const uint8_t *current, zaqnuti_size current_length,
    double dt,
    double x,
    double y,
    double z,
    double screen,
    double sigma_a,
    double sigma_b,
    double huber,
    double mask,
    uint32_t rounds,
    uint8_t *result, zaqnuti_size result_length);
/* ---- directions */

/*
 * Returns 0 and writes a displacement in compass directions at a position.
 *
 * position       earth-centred, earth-fixed (m)
 * displacement   along x, y and z (m)
 * ned            north, east and down (m), finite; south, west and up are
 *                negative
 *
 * It is computed without angles. Within 1e-9 m of the earth's axis the
 * longitude is 0.
 * Refuses by 19 (a coordinate of either is not finite or above 1e9 in
 * magnitude, or a component of the result is not finite, as 42,698 m from the
 * earth's centre in the plane of the equator).
 */
uint8_t zaqnuti_north_east_down(const double position[3], const double displacement[3], double ned[3]);

/*
 * A trip whose displacements are computed here, under settings that may change
 * between two epochs. The caller keeps the settings in force beside the trip:
 * five doubles and the rounds, as zaqnuti_displacement takes them.
 *
 *     uint64_t trip[6];
 *     double in_force[5];
 *     zaqnuti_size rounds;
 *     zaqnuti_trip_begin(morning, 4, 4000, trip, in_force, &rounds);
 *     zaqnuti_trip_displacement(trip, in_force, rounds, ..);   for each epoch
 *     zaqnuti_trip_settings(trip, afternoon, 4, in_force, &rounds);
 *     zaqnuti_trip_displacement(trip, in_force, rounds, ..);   for each epoch
 *     zaqnuti_trip_report(trip, report);
 *
 * The report is that of the displacements computed under the old settings up
 * to the change and under the new ones after it.
 */

/*
 * Returns 0 and writes a new trip and its settings in force. Refuses by 3 (the
 * settings), then 16 (a rate of 0); trip and settings are then unchanged.
 */
uint8_t zaqnuti_trip_begin(
    const double settings[5],
    zaqnuti_size rounds,
    uint16_t per_km,
    uint64_t trip[6],
    double in_force[5],
    zaqnuti_size *in_force_rounds);

/*
 * Returns 0 and writes new settings in force, between two epochs. Refuses by 3
 * (the new settings; those in force are not checked), then 16 (the trip); the
 * settings in force are then unchanged.
 */
uint8_t zaqnuti_trip_settings(
    const uint64_t trip[6],
    const double settings[5],
    zaqnuti_size rounds,
    double in_force[5],
    zaqnuti_size *in_force_rounds);

/*
 * Returns 0, writes the displacement between two epochs under the settings in
 * force, and adds it to the trip with its pulses. Columns, dt, receiver, delta
 * and counts are those of zaqnuti_displacement.
 *
 * Refuses by 2, 3, 4, 5, 15, 7, 8, 9, 10 as that call does, then by 16 as
 * zaqnuti_trip_add does. A refusal leaves trip, delta and counts unchanged,
 * with that epoch and its pulses uncounted.
 */
uint8_t zaqnuti_trip_displacement(
    uint64_t trip[6],
    const double in_force[5],
    zaqnuti_size in_force_rounds,
    const uint8_t *previous_constellation, zaqnuti_size previous_constellation_length,
    const uint16_t *previous_svid, zaqnuti_size previous_svid_length,
    const uint32_t *previous_band, zaqnuti_size previous_band_length,
    const int32_t *previous_state, zaqnuti_size previous_state_length,
    const double *previous_floats, zaqnuti_size previous_floats_length,
    zaqnuti_size previous_count,
    const uint8_t *current_constellation, zaqnuti_size current_constellation_length,
    const uint16_t *current_svid, zaqnuti_size current_svid_length,
    const uint32_t *current_band, zaqnuti_size current_band_length,
    const int32_t *current_state, zaqnuti_size current_state_length,
    const double *current_floats, zaqnuti_size current_floats_length,
    zaqnuti_size current_count,
    double dt,
    const double receiver[3],
    uint16_t pulses,
    double delta[3],
    zaqnuti_size counts[2]);

/* ---- the corrections */

/*
 * Returns 0 and adds one epoch of a base station to a table of corrections.
 *
 * table_..       the table's samples: time (s of the week) and correction (m,
 *                to be subtracted from a rover's pseudorange), block by block,
 *                each in order of time
 * table_count    the number of samples; 0 is an empty table
 * block_..       the directory: constellation, svid and band of each block's
 *                signal, the place of its first sample and its number of
 *                samples, sorted by constellation, svid and band
 * blocks         the number of blocks in the directory
 *
 * The table's capacity is the shortest of its seven columns, at most 2,048. A
 * directory as long as the columns always suffices.
 *
 * time           the epoch's time, s of the week
 * ranges         the number of ranges, at most 64
 * range_..       constellation, svid and band of each range, and its
 *                pseudorange (m)
 * states_present whether states are passed; false adds nothing, and the
 *                states' columns are then ignored
 * states         the number of states, at most 64
 * state_..       constellation, svid and band of each state
 * state_floats   eight for each state: x, y, z of the satellite at the
 *                rover's transmission time (m), its velocity (m/s), clock
 *                (m), modelled delay (m)
 * base, rover    their positions, x, y, z (m)
 * max_gap        the longest gap that a query may bridge (s); checked here too
 * max_correction corrections above it in magnitude are dropped (m)
 * corrected      whether each constellation 0 to 7 is corrected; those from 8
 *                up yield nothing
 *
 * An answer leaves the epoch's samples in their places in the columns, and
 * both counts updated; a refusal changes no byte of them. Refuses by 2 (more
 * than 64 ranges or states, a column shorter than its count needs, table_count
 * or blocks above the capacity), 3 (max_gap, max_correction), 4 (also a
 * directory that is not sorted, names a signal twice, holds an empty block or
 * does not lay its blocks one after the other from the first sample to the
 * last, and times out of order in a block) and 11.
 */
uint8_t zaqnuti_add_epoch(
    uint8_t *block_constellation, zaqnuti_size block_constellation_length,
    uint16_t *block_svid, zaqnuti_size block_svid_length,
    uint32_t *block_band, zaqnuti_size block_band_length,
    zaqnuti_size *block_first, zaqnuti_size block_first_length,
    zaqnuti_size *block_samples, zaqnuti_size block_samples_length,
    zaqnuti_size *blocks,
    double *table_time, zaqnuti_size table_time_length,
    double *table_metres, zaqnuti_size table_metres_length,
    zaqnuti_size *table_count,
    double time,
    zaqnuti_size ranges,
    const uint8_t *range_constellation, zaqnuti_size range_constellation_length,
    const uint16_t *range_svid, zaqnuti_size range_svid_length,
    const uint32_t *range_band, zaqnuti_size range_band_length,
    const double *range_pseudorange, zaqnuti_size range_pseudorange_length,
    bool states_present,
    zaqnuti_size states,
    const uint8_t *state_constellation, zaqnuti_size state_constellation_length,
    const uint16_t *state_svid, zaqnuti_size state_svid_length,
    const uint32_t *state_band, zaqnuti_size state_band_length,
    const double *state_floats, zaqnuti_size state_floats_length,
    const double base[3],
    const double rover[3],
    double max_gap,
    double max_correction,
    const bool corrected[8]);

/*
 * Returns 0 and writes the correction in metres of a signal (constellation,
 * svid, band) at a time (s of the week), from a table that zaqnuti_add_epoch
 * made. A sample less than 1e-6 s away answers by itself, also just past the
 * last one. A gap between two samples is bridged if it is at most max_gap
 * seconds.
 *
 * Refuses by 2 (table_count or blocks above the capacity), 3 (max_gap), 4 (a
 * float of the table, or its directory, as above; a finite time above 1e9) and
 * 12 (no sample, the time outside the samples or in too long a gap, or not
 * finite).
 */
uint8_t zaqnuti_query(
    const uint8_t *block_constellation, zaqnuti_size block_constellation_length,
    const uint16_t *block_svid, zaqnuti_size block_svid_length,
    const uint32_t *block_band, zaqnuti_size block_band_length,
    const zaqnuti_size *block_first, zaqnuti_size block_first_length,
    const zaqnuti_size *block_samples, zaqnuti_size block_samples_length,
    zaqnuti_size blocks,
    const double *table_time, zaqnuti_size table_time_length,
    const double *table_metres, zaqnuti_size table_metres_length,
    zaqnuti_size table_count,
    double max_gap,
    uint8_t constellation,
    uint16_t svid,
    uint32_t band,
    double time,
    double *metres);

/*
 * Returns 0 and writes the corrections of `count` signals at as many times.
 * The table is checked once for all of them, which costs about a hundred times
 * as much as finding a correction: ask for an epoch's signals in one call.
 *
 * numbers        for each query 0, or the number of its refusal: 4 or 12
 * metres         for each query its correction; unchanged if it is refused
 *
 * Each query is answered as by zaqnuti_query. The call itself refuses by 2
 * (table_count or blocks above the capacity, or one of the last six columns
 * shorter than count), 3 (max_gap) and 4 (the table); numbers and metres are
 * then unchanged.
 */
uint8_t zaqnuti_queries(
    const uint8_t *block_constellation, zaqnuti_size block_constellation_length,
    const uint16_t *block_svid, zaqnuti_size block_svid_length,
    const uint32_t *block_band, zaqnuti_size block_band_length,
    const zaqnuti_size *block_first, zaqnuti_size block_first_length,
    const zaqnuti_size *block_samples, zaqnuti_size block_samples_length,
    zaqnuti_size blocks,
    const double *table_time, zaqnuti_size table_time_length,
    const double *table_metres, zaqnuti_size table_metres_length,
    zaqnuti_size table_count,
    double max_gap,
    const uint8_t *constellation, zaqnuti_size constellation_length,
    const uint16_t *svid, zaqnuti_size svid_length,
    const uint32_t *band, zaqnuti_size band_length,
    const double *time, zaqnuti_size time_length,
    zaqnuti_size count,
    uint8_t *numbers, zaqnuti_size numbers_length,
    double *metres, zaqnuti_size metres_length);

/*
 * Returns 0 and drops samples earlier than a time (s of the week), keeping the
 * last of them for each signal, so that a table lasts the day. Every query at
 * or after that time answers as if nothing had been dropped, also after later
 * additions that are not earlier than it. Earlier queries have the answer of
 * the samples kept.
 *
 * The directory keeps its blocks: a block never becomes empty. block_first,
 * block_samples, the two columns of samples and table_count hold the table
 * with what is kept. Places from the new count on keep their bytes and are
 * used again by zaqnuti_add_epoch. A refusal changes no byte. Refuses by 2
 * (table_count or blocks above the capacity), 4 (a float of the table, or its
 * directory, as above) and 18.
 */
uint8_t zaqnuti_forget(
    const uint8_t *block_constellation, zaqnuti_size block_constellation_length,
    const uint16_t *block_svid, zaqnuti_size block_svid_length,
    const uint32_t *block_band, zaqnuti_size block_band_length,
    zaqnuti_size *block_first, zaqnuti_size block_first_length,
    zaqnuti_size *block_samples, zaqnuti_size block_samples_length,
    zaqnuti_size blocks,
    double *table_time, zaqnuti_size table_time_length,
    double *table_metres, zaqnuti_size table_metres_length,
    zaqnuti_size *table_count,
    double time);

/*
 * Returns 0 and widens the bands of a table that was written before 0.3.0,
 * from 8 bits to the 32 bits that the calls above take. The other columns need
 * no change.
 *
 * narrow         the old column
 * count          the number of samples, at most 2,048
 * wide           the new column: the bands go to its first count places, and
 *                the rest is unchanged
 *
 * The table has the same samples in the same order. Queries answer as before,
 * and so do additions if the new column is as long as the old one.
 * Refuses by 2 (count above 2,048, a column shorter than count).
 */
uint8_t zaqnuti_widen_bands(
    const uint8_t *narrow, zaqnuti_size narrow_length,
    zaqnuti_size count,
    uint32_t *wide, zaqnuti_size wide_length);

/*
 * Returns 0 and writes the directory of a table that was stored before 0.5.0,
 * with a constellation, svid and band for each sample and no directory. Times
 * and corrections need no change; samples and their order stay the same.
 *
 * constellation, svid, band, table_time, table_metres
 *                the old columns, sorted by constellation, svid, band and time
 * table_count    the number of samples
 * block_..       the directory's columns; unchanged past the entries written
 * blocks         the number of entries written
 *
 * With a directory as long as the columns every query, every added epoch and
 * every refusal is what the old form gave.
 * Refuses by 2 (table_count above 2,048 or a column shorter than it) and 4 (a
 * float of the table out of range, or samples out of order); directory and
 * count are then unchanged.
 */
uint8_t zaqnuti_directory_of(
    const uint8_t *constellation, zaqnuti_size constellation_length,
    const uint16_t *svid, zaqnuti_size svid_length,
    const uint32_t *band, zaqnuti_size band_length,
    const double *table_time, zaqnuti_size table_time_length,
    const double *table_metres, zaqnuti_size table_metres_length,
    zaqnuti_size table_count,
    uint8_t *block_constellation, zaqnuti_size block_constellation_length,
    uint16_t *block_svid, zaqnuti_size block_svid_length,
    uint32_t *block_band, zaqnuti_size block_band_length,
    zaqnuti_size *block_first, zaqnuti_size block_first_length,
    zaqnuti_size *block_samples, zaqnuti_size block_samples_length,
    zaqnuti_size *blocks);

/*
 * Returns 0 and writes the constellation, svid and band of each sample of a
 * table with a directory. The three columns are unchanged past table_count.
 *
 * Refuses by 2 (table_count or blocks above the capacity, or one of the three
 * columns shorter than table_count) and 4 (a float of the table, or its
 * directory, as in zaqnuti_add_epoch); the three columns are then unchanged.
 */
uint8_t zaqnuti_signals_of(
    const uint8_t *block_constellation, zaqnuti_size block_constellation_length,
    const uint16_t *block_svid, zaqnuti_size block_svid_length,
    const uint32_t *block_band, zaqnuti_size block_band_length,
    const zaqnuti_size *block_first, zaqnuti_size block_first_length,
    const zaqnuti_size *block_samples, zaqnuti_size block_samples_length,
    zaqnuti_size blocks,
    const double *table_time, zaqnuti_size table_time_length,
    const double *table_metres, zaqnuti_size table_metres_length,
    zaqnuti_size table_count,
    uint8_t *constellation, zaqnuti_size constellation_length,
    uint16_t *svid, zaqnuti_size svid_length,
    uint32_t *band, zaqnuti_size band_length);

/* ---- the track */

/*
 * Returns 0 and writes the track that fits anchors (where the receiver was)
 * and links (how it moved from one epoch to the next).
 *
 * epochs         the number of epochs, 1 to 1,024
 * anchors, links the number of each, at most 1,024; at least one anchor
 * .._epoch       the epoch of each anchor, below epochs, and the epoch at
 *                which each link starts, below epochs - 1; in any order
 * anchor_position, link_change
 *                three floats for each: position, or change in position (m)
 * .._sigma       three floats for each: one-sigma by axis (m), above 0
 * huber          in sigmas
 * iterations     reweighting passes, at most 50; 0 runs one, as 1 does
 * result         x, y, z of the first epoch, then of the next, and so on:
 *                3 epochs floats, finite
 * work           9 epochs + anchors + links floats
 *
 * The needed part of work is all zero bits after an answer and after 10, and
 * unchanged under 2 to 6; result is unchanged under every refusal. Nothing
 * beyond the needed part of result and work is written.
 * Refuses by 2 (too many, or a column, result or work shorter than the counts
 * need), 3, 4, 6 and 10 (the first pass fails; a later one that fails ends the
 * work and keeps the last good track).
 * docs/SCOPE.md, "Track", states how far a track may miss its equations, row
 * by row; this is proved for every call.
 */
uint8_t zaqnuti_smooth(
    zaqnuti_size epochs,
    zaqnuti_size anchors,
    zaqnuti_size links,
    const zaqnuti_size *anchor_epoch, zaqnuti_size anchor_epoch_length,
    const double *anchor_position, zaqnuti_size anchor_position_length,
    const double *anchor_sigma, zaqnuti_size anchor_sigma_length,
    const zaqnuti_size *link_epoch, zaqnuti_size link_epoch_length,
    const double *link_change, zaqnuti_size link_change_length,
    const double *link_sigma, zaqnuti_size link_sigma_length,
    double huber,
    zaqnuti_size iterations,
    double *result, zaqnuti_size result_length,
    double *work, zaqnuti_size work_length);

/* ---- the pieces; they take every float and test no setting */

/*
 * Returns 0 and writes one round of robust least squares over the first `rows`
 * rows.
 *
 * units          three floats for each row: the line of sight
 * clocks         the clock index of each row, at most 8
 * residuals      the bits of each row's residual (m), since NaNs of either
 *                sign have their places in the order
 * sigmas         one-sigma of each row (m)
 * rows           at most 64
 * unknowns       at most 9
 * huber          in robust sigmas
 * dx             the step, zeros beyond the unknowns; it may not be finite
 *
 * Refuses by 2 (more than 64 rows, or a column shorter than they need), 4
 * (unknowns, a clock index) and 10 (a pivot).
 */
uint8_t zaqnuti_round(
    const double *units, zaqnuti_size units_length,
    const zaqnuti_size *clocks, zaqnuti_size clocks_length,
    const uint64_t *residuals, zaqnuti_size residuals_length,
    const double *sigmas, zaqnuti_size sigmas_length,
    zaqnuti_size rows,
    zaqnuti_size unknowns,
    double huber,
    double dx[9]);

/*
 * Returns 0 and writes centre and scale of residuals, given by their bits: the
 * element at place length / 2 in totalOrder, and 1.4826 times that of the
 * absolute deviations plus 1e-6; 0 and 1 if there are none. Refuses by 2 (more
 * than 64).
 */
uint8_t zaqnuti_centre(
    const uint64_t *residuals, zaqnuti_size residuals_length,
    double out[2]);

/* Returns the one-sigma of an elevation in degrees: a + b / sin(elevation), the elevation at least 3 degrees. */
double zaqnuti_elevation_sigma(double elevation, double a, double b);

/*
 * Returns 0 and writes the unit vector from the satellite to the receiver and
 * the range (m), with the earth's rotation during the signal's travel removed:
 * out is x, y, z, range. Refuses by 15 (the range is zero or not finite).
 */
uint8_t zaqnuti_geometry(
    const double satellite[3],
    const double receiver[3],
    double out[4]);

/*
 * Returns 0 and writes the Cholesky factor of a matrix of nine rows of nine,
 * row by row. Only the lower triangle of a is read, and l is 0 above its
 * diagonal. Refuses by 10 (a pivot that is not finite or not above 0).
 */
uint8_t zaqnuti_factor(const double a[81], double l[81]);

/* Writes the solution x of l l' x = b; only the lower triangle of l is read. */
void zaqnuti_solve(const double l[81], const double b[9], double x[9]);

/*
 * The receiver clocks. The caller keeps their state: the slot of each
 * constellation, and how many have been given. Slots count from 3;
 * constellations from 7 up share one. A constellation not yet given has the
 * slot SIZE_MAX.
 */

/* Writes the state with no constellation given. */
void zaqnuti_clocks_new(zaqnuti_size slot[8], zaqnuti_size *count);

/* Adds a constellation; a state with a count above 7 is unchanged. */
void zaqnuti_clocks_given(zaqnuti_size slot[8], zaqnuti_size *count, uint8_t constellation);

/* Returns the slot of a constellation. */
zaqnuti_size zaqnuti_clocks_slot(const zaqnuti_size slot[8], uint8_t constellation);

/* Returns the number of unknowns, three coordinates and the clocks: 3 + count, which wraps. */
zaqnuti_size zaqnuti_clocks_unknowns(const zaqnuti_size slot[8], zaqnuti_size count);

/* Returns the square root, correctly rounded; -0 for -0, a NaN for a negative number. */
double zaqnuti_sqrt(double x);

/* Checks whether the pattern a is before b, or is b, in IEEE 754's totalOrder. */
bool zaqnuti_before(uint64_t a, uint64_t b);

/* Returns the bits of x, 7FF8000000000000 for every NaN. */
uint64_t zaqnuti_pattern(double x);

/* Returns x times x. */
double zaqnuti_square(double x);

/* Returns the root of a a + b b. */
double zaqnuti_hypot(double a, double b);

/* Return sine and cosine of a travel angle in radians; NaN above 2^-10. */
double zaqnuti_travel_sine(double t);
double zaqnuti_travel_cosine(double t);

/* Converts degrees to radians. */
double zaqnuti_radians(double x);

/* Returns the sine of an elevation in radians. */
double zaqnuti_elevation_sine(double t);

/* Returns x with its sign bit cleared. */
double zaqnuti_abs(double x);

/* Returns the larger of a and b; if one is a NaN, the other. */
double zaqnuti_max(double a, double b);

#ifdef __cplusplus
}
#endif

#endif
