/*
 * Reads the comma-separated files of this folder: a header line, then a line
 * of numbers for each satellite and epoch.
 */
#ifndef GEONET_READ_H
#define GEONET_READ_H

#include <stdio.h>
#include <stdlib.h>
#include <string.h>

#include "zaqnuti_easy.h"

#define GEONET_EPOCHS 128
#define GEONET_SATELLITES 16
#define GEONET_COLUMNS 17

/* A satellite at an epoch, as a line has it. */
struct geonet_line {
    double tow;
    zaqnuti_signal signal;
    double pseudorange;
    double carrier;
    zaqnuti_vector satellite;
    zaqnuti_vector velocity;
    double clock;
    double modelled;
    double ionosphere;
    double elevation;
    double rate;
};

struct geonet_epoch {
    double tow;
    size_t count;
    struct geonet_line line[GEONET_SATELLITES];
};

struct geonet_file {
    size_t count;
    struct geonet_epoch epoch[GEONET_EPOCHS];
};

/* The numbers of a line, and how many there are. */
static inline size_t geonet_numbers(const char *text, double *number, size_t most)
{
    size_t count = 0;
    char *end;

    while (count < most) {
        number[count] = strtod(text, &end);
        if (end == text) {
            break;
        }
        count += 1;
        if (*end != ',') {
            break;
        }
        text = end + 1;
    }
    return count;
}

static inline struct geonet_line geonet_line_of(const double *n)
{
    struct geonet_line line;

    memset(&line, 0, sizeof line);
    line.tow = n[1];
    line.signal.constellation = (uint8_t)n[2];
    line.signal.svid = (uint16_t)n[3];
    line.signal.band = 1;
    line.pseudorange = n[4];
    line.carrier = n[5];
    line.satellite.x = n[6];
    line.satellite.y = n[7];
    line.satellite.z = n[8];
    line.velocity.x = n[9];
    line.velocity.y = n[10];
    line.velocity.z = n[11];
    line.clock = n[12];
    line.modelled = n[13];
    line.ionosphere = n[14];
    line.elevation = n[15];
    line.rate = n[16];
    return line;
}

/* Reads FOLDER/NAME; says what is wrong and gives false where it cannot. */
static inline bool geonet_read(const char *folder, const char *name, struct geonet_file *file)
{
    char text[512];
    double number[GEONET_COLUMNS];
    unsigned long at = 1;
    FILE *in;

    file->count = 0;
    snprintf(text, sizeof text, "%s/%s", folder, name);
    in = fopen(text, "r");
    if (in == NULL || fgets(text, sizeof text, in) == NULL) {
        fprintf(stderr, "%s/%s: cannot be read\n", folder, name);
        if (in != NULL) {
            fclose(in);
        }
        return false;
    }
    while (fgets(text, sizeof text, in) != NULL) {
        struct geonet_epoch *epoch;
        at += 1;
        if (geonet_numbers(text, number, GEONET_COLUMNS) != GEONET_COLUMNS) {
            fprintf(stderr, "%s/%s, line %lu: not %d numbers\n", folder, name, at, GEONET_COLUMNS);
            fclose(in);
            return false;
        }
        if (file->count == 0 || file->epoch[file->count - 1].tow < number[1]) {
            if (file->count == GEONET_EPOCHS) {
                break;
            }
            file->epoch[file->count].tow = number[1];
            file->epoch[file->count].count = 0;
            file->count += 1;
        }
        epoch = &file->epoch[file->count - 1];
        if (epoch->count < GEONET_SATELLITES) {
            epoch->line[epoch->count] = geonet_line_of(number);
            epoch->count += 1;
        }
    }
    fclose(in);
    return true;
}

/* The pseudorange as a fix wants it: satellite clock and delays removed. */
static inline zaqnuti_observation geonet_observation(const struct geonet_line *line)
{
    zaqnuti_observation one;

    one.constellation = line->signal.constellation;
    one.pseudorange = line->pseudorange + line->clock - line->modelled;
    one.satellite = line->satellite;
    one.elevation = line->elevation;
    return one;
}

/* The carrier as a displacement wants it; the ionosphere has the other sign there. */
static inline zaqnuti_carrier geonet_carrier(const struct geonet_line *line)
{
    zaqnuti_carrier one;

    one.constellation = line->signal.constellation;
    one.svid = line->signal.svid;
    one.band = 1575;
    one.state = ZAQNUTI_VALID;
    one.adr = line->carrier + line->clock - (line->modelled - 2.0 * line->ionosphere);
    one.satellite = line->satellite;
    one.elevation = line->elevation;
    one.rate = line->rate;
    return one;
}

/* The ranges of a base's epoch, with the satellites' states at its own time of transmission. */
static inline void geonet_base(const struct geonet_epoch *base, zaqnuti_base_epoch *epoch)
{
    size_t i;

    zaqnuti_base_epoch_clear(epoch, base->tow);
    for (i = 0; i < base->count; i++) {
        const struct geonet_line *line = &base->line[i];
        zaqnuti_base_range range;
        zaqnuti_base_state state;
        range.signal = line->signal;
        range.pseudorange = line->pseudorange;
        state.signal = line->signal;
        state.satellite = line->satellite;
        state.velocity = line->velocity;
        state.clock = line->clock;
        state.modelled = line->modelled;
        zaqnuti_base_epoch_add_range(epoch, &range);
        zaqnuti_base_epoch_add_state(epoch, &state);
    }
}

#endif
