/*
 * The calls of zaqnuti_easy.h as firmware would have them: a receiver hands
 * over its epochs, and gets a fix, how it moved, a corrected fix and a track.
 * The sky is made up, so that the program runs anywhere; take out `sky` and
 * `range_to`, and put your receiver's measurements in their place.
 *
 *     ./run
 *     cc -std=c99 -Iinclude examples/easy.c target/staticlib/libzaqnuti.a -o target/easy
 *     target/easy
 */
#include <stdio.h>

#include "zaqnuti_easy.h"

#define SATELLITES 10
#define GPS 1
#define GALILEO 6

/* Ten satellites: constellation, svid, band, position (m), elevation (degrees). */
static const struct {
    zaqnuti_signal signal;
    zaqnuti_vector place;
    double elevation;
} sky[SATELLITES] = {
    {{GPS, 2, 1}, {-8130939.0, -15201828.0, 22139305.0}, 71.0},
    {{GPS, 5, 1}, {5471280.0, -21319229.0, 17055354.0}, 44.0},
    {{GPS, 12, 1}, {-1251790.0, -27153999.0, -2012650.0}, 28.0},
    {{GPS, 25, 1}, {-20783761.0, -17887361.0, 5740534.0}, 52.0},
    {{GPS, 29, 1}, {-19313127.0, 1355625.0, 19493087.0}, 33.0},
    {{GALILEO, 3, 1}, {-12511062.0, -10340786.0, 22944196.0}, 63.0},
    {{GALILEO, 8, 1}, {3218266.0, -9424175.0, 25806354.0}, 38.0},
    {{GALILEO, 15, 1}, {894310.0, -26094985.0, 9885325.0}, 47.0},
    {{GALILEO, 24, 1}, {-17037785.0, -19966550.0, -6798282.0}, 25.0},
    {{GALILEO, 31, 1}, {-21733507.0, -12228783.0, 12902198.0}, 57.0},
};

static const zaqnuti_vector start = {-2694045.0, -4266427.0, 3888311.0};
static const zaqnuti_vector velocity = {4.0, -2.5, 1.5};

/* Tables and tracks are large: keep them off the stack. */
static zaqnuti_table table;
static zaqnuti_track track;

/* Returns the van's position so many seconds after the start. */
static zaqnuti_vector place_at(double seconds)
{
    zaqnuti_vector p = start;
    p.x += seconds * velocity.x;
    p.y += seconds * velocity.y;
    p.z += seconds * velocity.z;
    return p;
}

/* Returns the range from a satellite to a place, with the earth's rotation. */
static double range_to(zaqnuti_vector satellite, zaqnuti_vector place)
{
    const double from[3] = {satellite.x, satellite.y, satellite.z};
    const double to[3] = {place.x, place.y, place.z};
    double sight[4];

    return zaqnuti_geometry(from, to, sight) == 0 ? sight[3] : 0.0;
}

/* Simulates pseudoranges with a clock error, and 3 m of delay for the first satellite. */
static void observe(double seconds, zaqnuti_observations *epoch)
{
    zaqnuti_size i;

    zaqnuti_observations_clear(epoch);
    for (i = 0; i < SATELLITES; i++) {
        zaqnuti_observation one;
        one.constellation = sky[i].signal.constellation;
        one.pseudorange = range_to(sky[i].place, place_at(seconds)) + 120.0 + (i == 0 ? 3.0 : 0.0);
        one.satellite = sky[i].place;
        one.elevation = sky[i].elevation;
        zaqnuti_observations_add(epoch, &one);
    }
}

/* Simulates carrier phases and their rates. */
static void track_carriers(double seconds, zaqnuti_epoch *epoch)
{
    zaqnuti_size i;

    zaqnuti_epoch_clear(epoch);
    for (i = 0; i < SATELLITES; i++) {
        zaqnuti_carrier one;
        one.constellation = sky[i].signal.constellation;
        one.svid = sky[i].signal.svid;
        one.band = 1575;
        one.state = ZAQNUTI_VALID;
        one.adr = range_to(sky[i].place, place_at(seconds)) - 2e7 + 30.0 * seconds;
        one.satellite = sky[i].place;
        one.elevation = sky[i].elevation;
        one.rate = range_to(sky[i].place, place_at(seconds + 0.5)) - range_to(sky[i].place, place_at(seconds - 0.5)) + 30.0;
        zaqnuti_epoch_add(epoch, &one);
    }
}

/* Prints why a call was refused. A refusal is ordinary: continue with the next epoch. */
static int refused(const char *what, uint8_t number)
{
    if (number != 0) {
        printf("%s: refused by %u, %s\n", what, (unsigned)number, zaqnuti_refusal_text(number));
    }
    return number != 0;
}

static void tell(const char *what, zaqnuti_vector v)
{
    printf("%-15s %15.3f %15.3f %15.3f m\n", what, v.x, v.y, v.z);
}

/* Computes one fix from one epoch. */
static int fix(zaqnuti_solution *solution)
{
    const zaqnuti_fix_settings settings = ZAQNUTI_EASY_FIX_PHONE;
    const zaqnuti_vector guess = {-2700000.0, -4260000.0, 3880000.0};
    zaqnuti_observations epoch;

    observe(0.0, &epoch);
    if (refused("fix", zaqnuti_easy_fix(&epoch, guess, &settings, solution))) {
        return 1;
    }
    tell("fix", solution->position);
    return 0;
}

/* Returns week and time of week at so many seconds: the van starts a second and a half before the end of Saturday. */
static uint8_t time_at(double seconds, zaqnuti_gps_time *time)
{
    const double tow = 604798.5 + seconds;

    return tow < 604800.0 ? zaqnuti_easy_time(1316, tow, time) : zaqnuti_easy_time(1317, tow - 604800.0, time);
}

/* Computes how the van moves in each of three seconds, and the track through fix and displacements. */
static int drive(const zaqnuti_solution *solution)
{
    const zaqnuti_displacement_settings settings = ZAQNUTI_EASY_DISPLACEMENT_PHONE;
    const zaqnuti_track_settings track_settings = ZAQNUTI_EASY_TRACK;
    const zaqnuti_vector anchor_sigma = {5.0, 5.0, 8.0};
    const zaqnuti_vector link_sigma = {0.01, 0.01, 0.02};
    zaqnuti_epoch epoch[2];
    zaqnuti_gps_time time[2];
    zaqnuti_moved moved = {{0.0, 0.0, 0.0}, 0, 0};
    zaqnuti_rated rated = {{0.0, 0.0, 0.0}, 0.0, 0.0, 0, 0};
    zaqnuti_size k;

    zaqnuti_track_clear(&track, 4);
    zaqnuti_track_anchor(&track, 0, solution->position, anchor_sigma);
    track_carriers(0.0, &epoch[0]);
    if (refused("time", time_at(0.0, &time[0]))) {
        return 1;
    }
    for (k = 0; k < 3; k++) {
        /* The previous and the current epoch take turns. */
        const zaqnuti_size before = k % 2;
        const zaqnuti_size now = (k + 1) % 2;
        track_carriers((double)(k + 1), &epoch[now]);
        if (refused("time", time_at((double)(k + 1), &time[now])) ||
            refused("displacement", zaqnuti_easy_displacement_between(
                &epoch[before], &epoch[now], time[before], time[now], solution->position, &settings, &moved))) {
            return 1;
        }
        tell("displacement", moved.delta);
        zaqnuti_track_link(&track, k, moved.delta, link_sigma);
    }
    /* The quality of the last one. Setting aside displacements of 0.2 m or more loses few and removes most large errors. */
    if (refused("rated", zaqnuti_easy_displacement_rated(&epoch[0], &epoch[1], 1.0, solution->position, &settings, &rated))) {
        return 1;
    }
    printf("%-15s %15.3f m\n", "expected error", zaqnuti_easy_predicted_error(rated.chi, rated.pdop));
    if (refused("track", zaqnuti_easy_smooth(&track, &track_settings))) {
        return 1;
    }
    tell("end of track", zaqnuti_track_place(&track, 3));
    return 0;
}

/* A base station at the van's start measures the same delay; its corrections remove it. */
static int corrected(void)
{
    const zaqnuti_correction_settings settings = ZAQNUTI_EASY_CORRECTIONS;
    const zaqnuti_fix_settings fix_settings = ZAQNUTI_EASY_FIX_PHONE;
    zaqnuti_base_epoch base;
    zaqnuti_observations epoch;
    zaqnuti_solution solution;
    double time;
    zaqnuti_size i;

    zaqnuti_table_clear(&table);
    for (time = 0.0; time <= 30.0; time += 30.0) {
        zaqnuti_base_epoch_clear(&base, time);
        for (i = 0; i < SATELLITES; i++) {
            const zaqnuti_base_range range = {sky[i].signal, range_to(sky[i].place, start) + 250.0 + (i == 0 ? 3.0 : 0.0)};
            const zaqnuti_base_state state = {sky[i].signal, sky[i].place, {0.0, 0.0, 0.0}, 0.0, 0.0};
            zaqnuti_base_epoch_add_range(&base, &range);
            zaqnuti_base_epoch_add_state(&base, &state);
        }
        if (refused("corrections", zaqnuti_easy_add_epoch(&table, &base, start, start, &settings))) {
            return 1;
        }
    }
    observe(0.0, &epoch);
    for (i = 0; i < SATELLITES; i++) {
        double metres = 0.0;
        if (!refused("query", zaqnuti_easy_query(&table, sky[i].signal, 15.0, &settings, &metres))) {
            epoch.floats[5 * i] -= metres;
        }
    }
    if (refused("corrected fix", zaqnuti_easy_fix(&epoch, start, &fix_settings, &solution))) {
        return 1;
    }
    tell("corrected fix", solution.position);
    return 0;
}

int main(void)
{
    zaqnuti_solution solution;

    printf("Zaqnuti %s\n", ZAQNUTI_VERSION);
    tell("true start", start);
    return fix(&solution) || drive(&solution) || corrected();
}
