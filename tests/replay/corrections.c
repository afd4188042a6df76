/*
 * The cases of the corrections: an epoch added to a table, a query, many queries of one call, forgetting, the two forms of a table, and the bands of
 * an old one.
 */
#include <string.h>

#include "replay.h"

/* How long the columns of a table are, and how much more of them is lent. */
#define TABLE 32
#define BEYOND 4
/* More ranges or states than the 64 that are allowed; of these, 64 are stored. */
#define ROOM 65
/* The most queries of one call. */
#define QUERIES 8
/* The most bands of a case of widening. */
#define BANDS 8

/* A table, filled past its blocks and samples. */
struct table {
    uint8_t dc[TABLE + BEYOND];
    uint16_t dv[TABLE + BEYOND];
    uint32_t db[TABLE + BEYOND];
    zaqnuti_size df[TABLE + BEYOND];
    zaqnuti_size dn[TABLE + BEYOND];
    zaqnuti_size m;
    double ts[TABLE + BEYOND];
    double xs[TABLE + BEYOND];
    zaqnuti_size n;
    uint8_t margin[MARGIN];
};

/* How many blocks; of each, of 32 at most, constellation, svid, band, first sample, how many. */
static void next_blocks(struct stored *s, struct table *t)
{
    zaqnuti_size i;
    t->m = next_size(s);
    for (i = 0; i < least(t->m, TABLE); i++) {
        t->dc[i] = next_byte(s);
        t->dv[i] = next_short(s);
        t->db[i] = next_word(s);
        t->df[i] = next_size(s);
        t->dn[i] = next_size(s);
    }
}

/* The blocks; how many samples; of each, of 32 at most, time, correction. */
static void next_samples(struct stored *s, struct table *t)
{
    zaqnuti_size i;
    next_blocks(s, t);
    t->n = next_size(s);
    for (i = 0; i < least(t->n, TABLE); i++) {
        t->ts[i] = next_float(s);
        t->xs[i] = next_float(s);
    }
}

static void next_table(struct stored *s, struct table *t)
{
    lend(t, sizeof *t - MARGIN);
    next_samples(s, t);
}

/* Whether the table is what it was with the next samples in their places, to the last byte. */
static bool is_table(struct stored *s, const struct table *t, const struct table *before)
{
    struct table expected;
    memcpy(&expected, before, sizeof expected);
    next_samples(s, &expected);
    return memcmp(t, &expected, sizeof expected) == 0;
}

/* The columns of an epoch's ranges and states. */
struct epoch {
    uint8_t rc[ROOM];
    uint16_t rv[ROOM];
    uint32_t rb[ROOM];
    double rp[ROOM];
    uint8_t sc[ROOM];
    uint16_t sv[ROOM];
    uint32_t sb[ROOM];
    double sf[8 * ROOM];
};

/* Of each range constellation, svid, band, pseudorange; of each state constellation, svid, band and eight floats. */
static void next_epoch(struct stored *s, struct epoch *e, zaqnuti_size ranges, zaqnuti_size states)
{
    zaqnuti_size i;
    memset(e, 0, sizeof *e);
    for (i = 0; i < least(ranges, 64); i++) {
        e->rc[i] = next_byte(s);
        e->rv[i] = next_short(s);
        e->rb[i] = next_word(s);
        e->rp[i] = next_float(s);
    }
    for (i = 0; i < least(states, 64); i++) {
        e->sc[i] = next_byte(s);
        e->sv[i] = next_short(s);
        e->sb[i] = next_word(s);
        next_floats(s, e->sf + 8 * i, 8);
    }
}

/* What an epoch is added by beside its records. */
struct terms {
    double time;
    zaqnuti_size ranges;
    bool present;
    zaqnuti_size states;
    double base[3];
    double rover[3];
    double gap;
    double max;
    bool on[8];
};

/* Time, ranges, whether there are states, states, base, rover, gap, maximum, the enabled constellations as bits. */
static void next_terms(struct stored *s, struct terms *w)
{
    uint64_t on;
    zaqnuti_size i;
    w->time = next_float(s);
    w->ranges = next_size(s);
    w->present = next_number(s) == 1;
    w->states = next_size(s);
    next_floats(s, w->base, 3);
    next_floats(s, w->rover, 3);
    w->gap = next_float(s);
    w->max = next_float(s);
    on = next_number(s);
    for (i = 0; i < 8; i++) {
        w->on[i] = (on >> i & 1) == 1;
    }
}

/* A table, the terms, the records; number, the table afterwards. */
bool same_epoch(struct stored *s)
{
    struct table t;
    struct table before;
    struct terms w;
    struct epoch e;
    zaqnuti_size k, m;
    uint8_t number;
    next_table(s, &t);
    memcpy(&before, &t, sizeof before);
    next_terms(s, &w);
    next_epoch(s, &e, w.ranges, w.states);
    k = least(w.ranges, ROOM);
    m = least(w.states, ROOM);
    number = zaqnuti_add_epoch(
        t.dc, TABLE, t.dv, TABLE, t.db, TABLE, t.df, TABLE, t.dn, TABLE, &t.m, t.ts, TABLE, t.xs, TABLE, &t.n, w.time,
        w.ranges, e.rc, k, e.rv, k, e.rb, k, e.rp, k,
        w.present, w.states, e.sc, m, e.sv, m, e.sb, m, e.sf, 8 * m,
        w.base, w.rover, w.gap, w.max, w.on);
    if (number != 0 && memcmp(&t, &before, sizeof t) != 0) {
        return false;
    }
    return is_number(s, number) && is_table(s, &t, &before);
}

/* A table, gap, constellation, svid, band, time; number, metres. */
bool same_query(struct stored *s)
{
    struct table t;
    double metres[1 + MARGIN / 8];
    double gap, at;
    uint8_t c, number;
    uint16_t v;
    uint32_t b;
    next_table(s, &t);
    gap = next_float(s);
    c = next_byte(s);
    v = next_short(s);
    b = next_word(s);
    at = next_float(s);
    lend(metres, sizeof *metres);
    number = zaqnuti_query(
        t.dc, TABLE, t.dv, TABLE, t.db, TABLE, t.df, TABLE, t.dn, TABLE, t.m, t.ts, TABLE, t.xs, TABLE, t.n,
        gap, c, v, b, at, metres);
    return given(number, metres, sizeof *metres) && is_number(s, number) && is_float(s, metres[0]);
}

/* A table, the time; number, the table afterwards. */
bool same_forget(struct stored *s)
{
    struct table t;
    struct table before;
    double time;
    uint8_t number;
    next_table(s, &t);
    memcpy(&before, &t, sizeof before);
    time = next_float(s);
    number = zaqnuti_forget(
        t.dc, TABLE, t.dv, TABLE, t.db, TABLE, t.df, TABLE, t.dn, TABLE, t.m, t.ts, TABLE, t.xs, TABLE, &t.n, time);
    if (number != 0 && memcmp(&t, &before, sizeof t) != 0) {
        return false;
    }
    return is_number(s, number) && is_table(s, &t, &before);
}

/* The columns of the signals of a table without a directory, filled past its samples. */
struct signals {
    uint8_t c[TABLE + BEYOND];
    uint16_t v[TABLE + BEYOND];
    uint32_t b[TABLE + BEYOND];
    uint8_t margin[MARGIN];
};

/* The lengths of so many columns. */
static void next_lengths(struct stored *s, zaqnuti_size *lengths, zaqnuti_size count)
{
    zaqnuti_size i;
    for (i = 0; i < count; i++) {
        lengths[i] = least(next_size(s), TABLE + BEYOND);
    }
}

static void next_signal(struct stored *s, struct signals *g, zaqnuti_size i)
{
    g->c[i] = next_byte(s);
    g->v[i] = next_short(s);
    g->b[i] = next_word(s);
}

/* How many samples, the lengths of the old columns and of the directory's, each sample; number, and where it is 0 the directory. */
bool same_directory(struct stored *s)
{
    struct table t;
    struct table before;
    struct signals g;
    zaqnuti_size n, i, k[10];
    uint8_t number;
    lend(&t, sizeof t - MARGIN);
    lend(&g, sizeof g - MARGIN);
    n = next_size(s);
    next_lengths(s, k, 10);
    for (i = 0; i < least(n, TABLE); i++) {
        next_signal(s, &g, i);
        t.ts[i] = next_float(s);
        t.xs[i] = next_float(s);
    }
    memcpy(&before, &t, sizeof before);
    number = zaqnuti_directory_of(
        g.c, k[0], g.v, k[1], g.b, k[2], t.ts, k[3], t.xs, k[4], n,
        t.dc, k[5], t.dv, k[6], t.db, k[7], t.df, k[8], t.dn, k[9], &t.m);
    if (!is_number(s, number)) {
        return false;
    }
    if (number == 0) {
        next_blocks(s, &before);
    }
    return memcmp(&t, &before, sizeof t) == 0;
}

/* A table, the lengths of the columns of signals; number, and where it is 0 the signals. */
bool same_signals(struct stored *s)
{
    struct table t;
    struct signals g;
    struct signals expected;
    zaqnuti_size i, k[3];
    uint8_t number;
    next_table(s, &t);
    next_lengths(s, k, 3);
    lend(&g, sizeof g - MARGIN);
    memcpy(&expected, &g, sizeof g);
    number = zaqnuti_signals_of(
        t.dc, TABLE, t.dv, TABLE, t.db, TABLE, t.df, TABLE, t.dn, TABLE, t.m, t.ts, TABLE, t.xs, TABLE, t.n,
        g.c, k[0], g.v, k[1], g.b, k[2]);
    if (!is_number(s, number)) {
        return false;
    }
    for (i = 0; number == 0 && i < t.n; i++) {
        next_signal(s, &expected, i);
    }
    return memcmp(&g, &expected, sizeof g) == 0;
}

/* The columns of the queries and of their answers. */
struct queries {
    uint8_t c[QUERIES];
    uint16_t v[QUERIES];
    uint32_t b[QUERIES];
    double t[QUERIES];
    uint8_t numbers[QUERIES + MARGIN];
    double metres[QUERIES + MARGIN / 8];
};

/* Of each query constellation, svid, band, time. */
static void next_queries(struct stored *s, struct queries *q, zaqnuti_size count)
{
    zaqnuti_size i;
    for (i = 0; i < count; i++) {
        q->c[i] = next_byte(s);
        q->v[i] = next_short(s);
        q->b[i] = next_word(s);
        q->t[i] = next_float(s);
    }
    lend(q->numbers, count);
    lend(q->metres, count * sizeof *q->metres);
}

/* Whether the next numbers are those of each query with its metres, which a refused one leaves as they were. */
static bool is_each(struct stored *s, struct queries *q, zaqnuti_size count)
{
    zaqnuti_size i;
    for (i = 0; i < count; i++) {
        if (q->numbers[i] != 0) {
            if (!kept(q->metres + i, sizeof *q->metres)) {
                return false;
            }
            q->metres[i] = 0.0;
        }
        if (!is_number(s, q->numbers[i]) || !is_float(s, q->metres[i])) {
            return false;
        }
    }
    return true;
}

/* A table, gap, how many queries, each of them; number, and of each query its number and metres. */
bool same_queries(struct stored *s)
{
    struct table t;
    struct queries q;
    double gap;
    zaqnuti_size count;
    uint8_t number;
    next_table(s, &t);
    gap = next_float(s);
    count = least(next_size(s), QUERIES);
    next_queries(s, &q, count);
    number = zaqnuti_queries(
        t.dc, TABLE, t.dv, TABLE, t.db, TABLE, t.df, TABLE, t.dn, TABLE, t.m, t.ts, TABLE, t.xs, TABLE, t.n, gap,
        q.c, count, q.v, count, q.b, count, q.t, count, count, q.numbers, count, q.metres, count);
    if (!given(number, q.numbers, count)) {
        return false;
    }
    if (number != 0 && !given(number, q.metres, count * sizeof *q.metres)) {
        return false;
    }
    if (number == 0 && !kept(q.metres + count, MARGIN)) {
        return false;
    }
    return is_number(s, number) && is_each(s, &q, count);
}

/* How many bands, the length of either column, the old one; number, eight places of the new one, 0 where nothing is written. */
bool same_widen(struct stored *s)
{
    uint8_t narrow[BANDS] = {0};
    uint32_t wide[BANDS + MARGIN / 4];
    zaqnuti_size n, from, to, i;
    uint8_t number;
    n = next_size(s);
    from = least(next_size(s), BANDS);
    to = least(next_size(s), BANDS);
    for (i = 0; i < from; i++) {
        narrow[i] = next_byte(s);
    }
    lend(wide, to * sizeof *wide);
    number = zaqnuti_widen_bands(narrow, from, n, wide, to);
    i = number == 0 ? n : 0;
    if (!kept(wide + i, (to - i) * sizeof *wide + MARGIN)) {
        return false;
    }
    memset(wide + i, 0, (size_t)((BANDS - i) * sizeof *wide));
    if (!is_number(s, number)) {
        return false;
    }
    for (i = 0; i < BANDS; i++) {
        if (!is_number(s, wide[i])) {
            return false;
        }
    }
    return true;
}
