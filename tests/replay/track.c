/* The cases of the track. */
#include "replay.h"

/* How many anchors or links there are at the most, and how long the lent buffers are. */
#define ROOM 8
#define RESULT (3 * ROOM)
#define WORK (11 * ROOM)
#define BEYOND 4

/* The columns of anchors or links. */
struct measured {
    zaqnuti_size index[ROOM];
    double value[3 * ROOM];
    double sigma[3 * ROOM];
};

/* Of each the epoch's index, three floats of value and three sigmas. */
static void next_measured(struct stored *s, struct measured *m, zaqnuti_size count)
{
    zaqnuti_size i;
    for (i = 0; i < least(count, ROOM); i++) {
        m->index[i] = next_size(s);
        next_floats(s, m->value + 3 * i, 3);
        next_floats(s, m->sigma + 3 * i, 3);
    }
}

/* Whether all of the floats are x. */
static bool all(const double *floats, zaqnuti_size count, double x)
{
    zaqnuti_size i;
    for (i = 0; i < count; i++) {
        if (floats[i] != x) {
            return false;
        }
    }
    return true;
}

/* Ones, which a call that refuses leaves as they are. */
static void ones(double *floats, zaqnuti_size count)
{
    zaqnuti_size i;
    for (i = 0; i < count; i++) {
        floats[i] = 1.0;
    }
}

/*
 * How many epochs, anchors, links; huber, iterations; each anchor, each link;
 * number, the result's 24 floats and how many of the work's are zeros
 * afterwards, where all of both were 1 before.
 */
bool same_track(struct stored *s)
{
    struct measured a, l;
    double result[RESULT + BEYOND];
    double work[WORK + BEYOND];
    zaqnuti_size n = next_size(s);
    zaqnuti_size anchors = next_size(s);
    zaqnuti_size links = next_size(s);
    double huber = next_float(s);
    zaqnuti_size iterations = next_size(s);
    zaqnuti_size p = least(anchors, ROOM);
    zaqnuti_size q = least(links, ROOM);
    zaqnuti_size zeros;
    uint8_t number;
    next_measured(s, &a, anchors);
    next_measured(s, &l, links);
    ones(result, RESULT + BEYOND);
    ones(work, WORK + BEYOND);
    number = zaqnuti_smooth(
        n, anchors, links, a.index, p, a.value, 3 * p, a.sigma, 3 * p,
        l.index, q, l.value, 3 * q, l.sigma, 3 * q, huber, iterations, result, RESULT, work, WORK);
    if (!is_number(s, number) || !is_floats(s, result, RESULT) || !all(result + RESULT, BEYOND, 1.0)) {
        return false;
    }
    zeros = least(next_size(s), WORK);
    return all(work, zeros, 0.0) && all(work + zeros, WORK - zeros + BEYOND, 1.0);
}
