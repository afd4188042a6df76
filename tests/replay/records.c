/* The cases of carrier records as bytes: reading, writing, and the displacement of two slices. */
#include <string.h>

#include "replay.h"

/* More than the 64 records that are allowed. */
#define ROOM 66
/* Of so many records the answer is stored. */
#define SHOWN 3

/* The columns of an epoch, each with room for a margin. */
struct columns {
    uint8_t constellation[ROOM + MARGIN];
    uint16_t svid[ROOM + MARGIN / 2];
    uint32_t band[ROOM + MARGIN / 4];
    int32_t state[ROOM + MARGIN / 4];
    uint64_t floats[6 * ROOM + MARGIN / 8];
    zaqnuti_size lengths[5];
};

/* How long each of the five columns is, in the order of the header. */
static void next_lengths(struct stored *s, struct columns *c)
{
    zaqnuti_size i;
    for (i = 0; i < 5; i++) {
        c->lengths[i] = least(next_size(s), i < 4 ? ROOM : 6 * ROOM);
    }
}

/* How many bytes, and these. */
static zaqnuti_size next_slice(struct stored *s, uint8_t bytes[ROOM * ZAQNUTI_RECORD])
{
    zaqnuti_size length = least(next_size(s), ROOM * ZAQNUTI_RECORD);
    next_bytes(s, bytes, length);
    return length;
}

/* The bytes, the lengths of the columns; number, count, of the first three records ten numbers each. */
bool same_read(struct stored *s)
{
    uint8_t bytes[ROOM * ZAQNUTI_RECORD];
    struct columns c;
    zaqnuti_size count[1 + MARGIN / sizeof(zaqnuti_size)];
    zaqnuti_size length = next_slice(s, bytes);
    zaqnuti_size n, i;
    bool same;
    uint8_t number;
    next_lengths(s, &c);
    lend(c.constellation, ROOM);
    lend(c.svid, 2 * ROOM);
    lend(c.band, 4 * ROOM);
    lend(c.state, 4 * ROOM);
    lend(c.floats, 48 * ROOM);
    lend(count, sizeof *count);
    number = zaqnuti_read_records(
        bytes, length, c.constellation, c.lengths[0], c.svid, c.lengths[1], c.band, c.lengths[2], c.state, c.lengths[3],
        c.floats, c.lengths[4], count);
    same = given(number, count, sizeof *count);
    n = number == 0 ? least(*count, ROOM) : 0;
    /* Behind the records, and everywhere after a refusal, each column is as it was. */
    same = same && kept(c.constellation + n, ROOM - n + MARGIN) && kept(c.svid + n, 2 * (ROOM - n) + MARGIN) &&
        kept(c.band + n, 4 * (ROOM - n) + MARGIN) && kept(c.state + n, 4 * (ROOM - n) + MARGIN) &&
        kept(c.floats + 6 * n, 48 * (ROOM - n) + MARGIN);
    same = same && is_number(s, number) && is_number(s, *count);
    for (i = 0; i < SHOWN && same; i++) {
        const bool is = i < n;
        const uint64_t *f = c.floats + 6 * i;
        zaqnuti_size k;
        same = is_number(s, is ? c.constellation[i] : 0) && is_number(s, is ? c.svid[i] : 0) &&
            is_number(s, is ? c.band[i] : 0) && is_number(s, is ? (uint64_t)(int64_t)c.state[i] : 0);
        for (k = 0; k < 6 && same; k++) {
            same = is_number(s, is ? f[k] : 0);
        }
    }
    return same;
}

/* How many records, the lengths of the columns, how many bytes are lent; of the first three records ten numbers each; number, 24 numbers of eight bytes. */
bool same_write(struct stored *s)
{
    struct columns c;
    uint8_t bytes[ROOM * ZAQNUTI_RECORD + MARGIN];
    zaqnuti_size count = next_size(s);
    zaqnuti_size room, written, i, k;
    bool same;
    uint8_t number;
    memset(&c, 0, sizeof c);
    next_lengths(s, &c);
    room = least(next_size(s), ROOM * ZAQNUTI_RECORD);
    for (i = 0; i < SHOWN; i++) {
        c.constellation[i] = next_byte(s);
        c.svid[i] = next_short(s);
        c.band[i] = next_word(s);
        c.state[i] = next_int(s);
        for (k = 0; k < 6; k++) {
            c.floats[6 * i + k] = next_number(s);
        }
    }
    lend(bytes, ROOM * ZAQNUTI_RECORD);
    number = zaqnuti_write_records(
        c.constellation, c.lengths[0], c.svid, c.lengths[1], c.band, c.lengths[2], c.state, c.lengths[3], c.floats, c.lengths[4],
        count, bytes, room);
    written = number == 0 ? ZAQNUTI_RECORD * least(count, ROOM) : 0;
    same = kept(bytes + written, ROOM * ZAQNUTI_RECORD - written + MARGIN) && is_number(s, number);
    memset(bytes + written, 0, (size_t)(sizeof bytes - written));
    for (i = 0; i < 24 && same; i++) {
        uint64_t eight = 0;
        for (k = 8; k > 0; k--) {
            eight = eight << 8 | bytes[8 * i + k - 1];
        }
        same = is_number(s, eight);
    }
    return same;
}

/* The previous bytes, the current ones, dt, receiver 3, settings 5, rounds, how long the result is; number, used, screened, displacement 3. */
bool same_records(struct stored *s)
{
    uint8_t p[ROOM * ZAQNUTI_RECORD];
    uint8_t c[ROOM * ZAQNUTI_RECORD];
    uint8_t result[ZAQNUTI_RESULT + 8 + MARGIN];
    double f[9];
    zaqnuti_size m = next_slice(s, p);
    zaqnuti_size n = next_slice(s, c);
    uint32_t rounds;
    zaqnuti_size room, i, k;
    bool same;
    uint8_t number;
    next_floats(s, f, 9);
    rounds = next_word(s);
    room = least(next_size(s), ZAQNUTI_RESULT + 8);
    lend(result, ZAQNUTI_RESULT + 8);
    number = zaqnuti_displacement_records(p, m, c, n, f[0], f[1], f[2], f[3], f[4], f[5], f[6], f[7], f[8], rounds, result, room);
    same = number == 0 ? kept(result + ZAQNUTI_RESULT, 8 + MARGIN) : kept(result, sizeof result);
    same = same && is_number(s, number);
    for (i = 0; i < 5 && same; i++) {
        uint64_t eight = 0;
        for (k = 8; k > 0 && number == 0; k--) {
            eight = eight << 8 | result[8 * i + k - 1];
        }
        same = is_number(s, eight);
    }
    return same;
}
