/*
 * The three levels on an hour of two real receivers that stand still at known
 * places (README.md beside this file): the error of each against the truth,
 * as the root of the mean square in three dimensions, in metres.
 *
 *     fix              each epoch by itself
 *     rtklib           RTKLIB's single-point solution of the same epochs
 *     displacement     from each epoch to the next, 30 s later: the truth is 0
 *     fix_corrected    with corrections from every other epoch of the base
 *     track            through the fixes and the displacements
 *     track_corrected  through the corrected fixes and the displacements
 *
 *     cc -std=c99 -O2 -Iinclude examples/geonet/geonet.c target/staticlib/libzaqnuti.a -o target/geonet
 *     target/geonet examples/geonet
 */
#include "read.h"

static const zaqnuti_vector rover_place = {-3976219.5082, 3382372.5671, 3652512.9849};
static const zaqnuti_vector base_place = {-3978242.4348, 3382841.1715, 3649902.7667};

static const zaqnuti_fix_settings fix_settings = ZAQNUTI_EASY_FIX_GEODETIC;
static const zaqnuti_displacement_settings displacement_settings = ZAQNUTI_EASY_DISPLACEMENT_GEODETIC;
static const zaqnuti_correction_settings correction_settings = ZAQNUTI_EASY_CORRECTIONS;
static const zaqnuti_track_settings track_settings = ZAQNUTI_EASY_TRACK;

/* One-sigma of a fix and of a displacement, as the track weighs them (m). */
static const zaqnuti_vector anchor_sigma = {1.0, 1.0, 1.0};
static const zaqnuti_vector link_sigma = {0.05, 0.05, 0.05};

static struct geonet_file rover;
static struct geonet_file base;
static zaqnuti_table table;
static zaqnuti_track track;
static zaqnuti_track corrected_track;
static zaqnuti_vector fixed[GEONET_EPOCHS];
static bool has_fix[GEONET_EPOCHS];

/* A sum of squared errors, and of how many. */
struct errors {
    double squares;
    zaqnuti_size count;
};

static void note(struct errors *e, zaqnuti_vector got, zaqnuti_vector truth)
{
    const double x = got.x - truth.x;
    const double y = got.y - truth.y;
    const double z = got.z - truth.z;

    e->squares += x * x + y * y + z * z;
    e->count += 1;
}

static void tell(const char *name, const struct errors *e)
{
    if (e->count == 0) {
        printf("%-14s none\n", name);
    } else {
        printf("%-14s %.3f\n", name, zaqnuti_sqrt(e->squares / (double)e->count));
    }
}

/* Each epoch by itself; the first round begins at the base. */
static struct errors fixes(void)
{
    struct errors e = {0.0, 0};
    zaqnuti_observations sky;
    zaqnuti_solution solution;
    zaqnuti_size k;
    zaqnuti_size i;

    for (k = 0; k < rover.count; k++) {
        zaqnuti_observations_clear(&sky);
        for (i = 0; i < rover.epoch[k].count; i++) {
            const zaqnuti_observation one = geonet_observation(&rover.epoch[k].line[i]);
            zaqnuti_observations_add(&sky, &one);
        }
        has_fix[k] = zaqnuti_easy_fix(&sky, base_place, &fix_settings, &solution) == 0;
        if (has_fix[k]) {
            fixed[k] = solution.position;
            note(&e, solution.position, rover_place);
            zaqnuti_track_anchor(&track, k, solution.position, anchor_sigma);
        }
    }
    return e;
}

static void carriers(zaqnuti_size k, zaqnuti_epoch *epoch)
{
    zaqnuti_size i;

    zaqnuti_epoch_clear(epoch);
    for (i = 0; i < rover.epoch[k].count; i++) {
        const zaqnuti_carrier one = geonet_carrier(&rover.epoch[k].line[i]);
        zaqnuti_epoch_add(epoch, &one);
    }
}

/* From each epoch with a fix to the next. */
static struct errors displacements(void)
{
    const zaqnuti_vector none = {0.0, 0.0, 0.0};
    struct errors e = {0.0, 0};
    zaqnuti_epoch previous;
    zaqnuti_epoch current;
    zaqnuti_moved moved;
    zaqnuti_size k;

    for (k = 0; k + 1 < rover.count; k++) {
        const double dt = rover.epoch[k + 1].tow - rover.epoch[k].tow;
        if (!has_fix[k]) {
            continue;
        }
        carriers(k, &previous);
        carriers(k + 1, &current);
        if (zaqnuti_easy_displacement(&previous, &current, dt, fixed[k], &displacement_settings, &moved) == 0) {
            note(&e, moved.delta, none);
            zaqnuti_track_link(&track, k, moved.delta, link_sigma);
            zaqnuti_track_link(&corrected_track, k, moved.delta, link_sigma);
        }
    }
    return e;
}

/*
 * The table of every other epoch of the base. The states are those at the
 * base's own time of transmission, so the base stands in the rover's place:
 * then they are not moved to it.
 */
static void corrections(void)
{
    zaqnuti_base_epoch epoch;
    zaqnuti_size k;

    zaqnuti_table_clear(&table);
    for (k = 0; k < base.count; k += 2) {
        geonet_base(&base.epoch[k], &epoch);
        zaqnuti_easy_add_epoch(&table, &epoch, base_place, base_place, &correction_settings);
    }
}

/* Each epoch with its corrections; a satellite without one is left out. */
static struct errors corrected_fixes(void)
{
    struct errors e = {0.0, 0};
    zaqnuti_signal signals[GEONET_SATELLITES];
    uint8_t numbers[GEONET_SATELLITES];
    double metres[GEONET_SATELLITES];
    zaqnuti_observations sky;
    zaqnuti_solution solution;
    zaqnuti_size k;
    zaqnuti_size i;

    for (k = 0; k < rover.count; k++) {
        const struct geonet_epoch *epoch = &rover.epoch[k];
        for (i = 0; i < epoch->count; i++) {
            signals[i] = epoch->line[i].signal;
        }
        if (zaqnuti_easy_queries(&table, signals, epoch->count, epoch->tow, &correction_settings, numbers, metres) != 0) {
            continue;
        }
        zaqnuti_observations_clear(&sky);
        for (i = 0; i < epoch->count; i++) {
            zaqnuti_observation one = geonet_observation(&epoch->line[i]);
            if (numbers[i] == 0) {
                one.pseudorange -= metres[i];
                zaqnuti_observations_add(&sky, &one);
            }
        }
        if (zaqnuti_easy_fix(&sky, base_place, &fix_settings, &solution) == 0) {
            note(&e, solution.position, rover_place);
            zaqnuti_track_anchor(&corrected_track, k, solution.position, anchor_sigma);
        }
    }
    return e;
}

/* A track, once fixes and displacements are its anchors and links. */
static struct errors smoothed(zaqnuti_track *one)
{
    struct errors e = {0.0, 0};
    zaqnuti_size k;

    if (zaqnuti_easy_smooth(one, &track_settings) == 0) {
        for (k = 0; k < rover.count; k++) {
            note(&e, zaqnuti_track_place(one, k), rover_place);
        }
    }
    return e;
}

/* RTKLIB's own solutions: week, tow, x, y, z, satellites. */
static struct errors rtklib(const char *folder)
{
    struct errors e = {0.0, 0};
    char text[512];
    double n[6];
    FILE *in;

    snprintf(text, sizeof text, "%s/rtklib.csv", folder);
    in = fopen(text, "r");
    if (in == NULL) {
        return e;
    }
    while (fgets(text, sizeof text, in) != NULL) {
        if (geonet_numbers(text, n, 6) == 6) {
            const zaqnuti_vector place = {n[2], n[3], n[4]};
            note(&e, place, rover_place);
        }
    }
    fclose(in);
    return e;
}

int main(int count, char **word)
{
    const char *folder = count > 1 ? word[1] : "examples/geonet";
    struct errors e;

    if (!geonet_read(folder, "rover.csv", &rover) || !geonet_read(folder, "base.csv", &base)) {
        return 2;
    }
    zaqnuti_track_clear(&track, rover.count);
    zaqnuti_track_clear(&corrected_track, rover.count);
    e = fixes();
    tell("fix", &e);
    e = rtklib(folder);
    tell("rtklib", &e);
    e = displacements();
    tell("displacement", &e);
    corrections();
    e = corrected_fixes();
    tell("fix_corrected", &e);
    e = smoothed(&track);
    tell("track", &e);
    e = smoothed(&corrected_track);
    tell("track_corrected", &e);
    return 0;
}
