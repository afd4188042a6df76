/*
 * What the cases of the replay share: reading a stored case, and comparing
 * with it what the library gives.
 */
#ifndef REPLAY_H
#define REPLAY_H

#include "zaqnuti.h"

/* The numbers of one case, and how far they are read. */
struct stored {
    const uint64_t *numbers;
    zaqnuti_size count;
    zaqnuti_size next;
    bool beyond;  /* more was read than there is */
};

/* The next number, 0 past the end, and as the types of the header. */
uint64_t next_number(struct stored *s);
uint8_t next_byte(struct stored *s);
uint16_t next_short(struct stored *s);
uint32_t next_word(struct stored *s);
int32_t next_int(struct stored *s);
zaqnuti_size next_size(struct stored *s);
double next_float(struct stored *s);
void next_floats(struct stored *s, double *floats, zaqnuti_size count);

/* So many bytes, packed into numbers, the first one lowest. */
void next_bytes(struct stored *s, uint8_t *bytes, zaqnuti_size count);

/* Whether the next number is n, and the next floats those given, all NaNs as one. */
bool is_number(struct stored *s, uint64_t n);
bool is_float(struct stored *s, double x);
bool is_floats(struct stored *s, const double *floats, zaqnuti_size count);

/* The lesser of two. */
zaqnuti_size least(zaqnuti_size a, zaqnuti_size b);

/*
 * A result is lent with room for MARGIN bytes beyond it, all of it filled.
 * After the call `given` tells whether it was written as the number allows:
 * nothing beyond the result, and no byte of it where the call refused; a
 * refused result is then cleared, since zeros are stored in its place.
 */
#define MARGIN 32
void lend(void *result, zaqnuti_size size);
bool given(uint8_t number, void *result, zaqnuti_size size);

/* Whether all of the bytes are as `lend` left them. */
bool kept(const void *bytes, zaqnuti_size size);

/* One for each kind: whether the library gives what the case says. */
bool same_root(struct stored *s);
bool same_order(struct stored *s);
bool same_standin(struct stored *s);
bool same_factor(struct stored *s);
bool same_solve(struct stored *s);
bool same_clocks(struct stored *s);
bool same_centre(struct stored *s);
bool same_sigma(struct stored *s);
bool same_sight(struct stored *s);
bool same_round(struct stored *s);
bool same_displacement(struct stored *s);
bool same_fix(struct stored *s);
bool same_track(struct stored *s);
bool same_epoch(struct stored *s);
bool same_line(struct stored *s);
bool same_query(struct stored *s);
bool same_queries(struct stored *s);
bool same_time(struct stored *s);
bool same_since(struct stored *s);
bool same_between(struct stored *s);
bool same_city(struct stored *s);
bool same_rated(struct stored *s);
bool same_widen(struct stored *s);
bool same_forget(struct stored *s);
bool same_directory(struct stored *s);
bool same_signals(struct stored *s);
bool same_trip(struct stored *s);
bool same_mileage(struct stored *s);
bool same_read(struct stored *s);
bool same_write(struct stored *s);
bool same_records(struct stored *s);
bool same_directions(struct stored *s);
bool same_drive(struct stored *s);
bool same_settings(struct stored *s);

#endif
