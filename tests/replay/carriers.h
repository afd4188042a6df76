/* Epochs of carriers, as the cases of a displacement and of a trip have them. */
#ifndef CARRIERS_H
#define CARRIERS_H

#include "replay.h"

/* More than the 64 that are allowed; of these, 64 are stored. */
#define ROOM 65

/* The columns of one epoch's carriers. */
struct carriers {
    uint8_t constellation[ROOM];
    uint16_t svid[ROOM];
    uint32_t band[ROOM];
    int32_t state[ROOM];
    double floats[6 * ROOM];
};

/* What is handed to a displacement beside the interval or the times. */
struct drive {
    struct carriers before;
    struct carriers now;
    zaqnuti_size counts[2];
    double receiver[3];
    double settings[5];
    zaqnuti_size rounds;
};

/* Receiver 3, settings 5, rounds, how many carriers before and how many now; each of them. */
void next_drive(struct stored *s, struct drive *d);

#endif
