/*
 * Holds the byte records of zaqnuti_easy.h to a plain model of the 59 bytes and
 * to the displacement of the same epochs as columns. Part of easy_test.c.
 */
#ifndef EASY_RECORDS_H
#define EASY_RECORDS_H

/* The bytes of n, the least significant first. */
static uint8_t *put_number(uint8_t *to, uint64_t n, zaqnuti_size width)
{
    zaqnuti_size i;
    for (i = 0; i < width; i++) {
        to[i] = (uint8_t)(n % 256);
        n /= 256;
    }
    return to + width;
}

static uint8_t *put_float(uint8_t *to, double x)
{
    uint64_t bits;
    memcpy(&bits, &x, sizeof bits);
    return put_number(to, bits, 8);
}

/* A record as request (xiii) lists its fields. */
static uint8_t *put_record(uint8_t *to, const zaqnuti_carrier *c)
{
    to = put_number(to, c->constellation, 1);
    to = put_number(to, c->svid, 2);
    to = put_number(to, c->band, 4);
    to = put_float(to, c->adr);
    to = put_number(to, (uint32_t)c->state, 4);
    to = put_float(to, c->satellite.x);
    to = put_float(to, c->satellite.y);
    to = put_float(to, c->satellite.z);
    to = put_float(to, c->elevation);
    return put_float(to, c->rate);
}

/* The bytes of an epoch, at most MOST records. */
static zaqnuti_size put_epoch(uint8_t *to, const zaqnuti_carrier *record, zaqnuti_size count)
{
    uint8_t *end = to;
    zaqnuti_size i;
    for (i = 0; i < count; i++) {
        end = put_record(end, &record[i]);
    }
    return (zaqnuti_size)(end - to);
}

/* An epoch of at most 64 written and read by structs. */
static void records_there_and_back(const zaqnuti_carrier *record, zaqnuti_size count, const uint8_t *wanted, zaqnuti_size length)
{
    static uint8_t bytes[MOST * ZAQNUTI_RECORD];
    static uint8_t before[MOST * ZAQNUTI_RECORD];
    zaqnuti_epoch epoch;
    zaqnuti_epoch back;
    zaqnuti_epoch marked;

    epoch_of(&epoch, record, count);
    memset(bytes, 0x5A, sizeof bytes);
    memcpy(before, bytes, sizeof before);
    if (length > 0) {
        same(zaqnuti_easy_write_records(&epoch, bytes, length - 1) == ZAQNUTI_TOO_MANY, "records, one byte too few");
        same(memcmp(bytes, before, sizeof before) == 0, "records, the bytes of a refusal");
    }
    same(zaqnuti_easy_write_records(&epoch, bytes, sizeof bytes) == 0 && memcmp(bytes, wanted, (size_t)length) == 0, "records, written");
    same(memcmp(bytes + length, before + length, (size_t)(sizeof before - length)) == 0, "records, bytes behind them");
    /* The places behind the count are alike, since `epoch_of` and this mark them alike. */
    memset(&back, 0xA5, sizeof back);
    marked = back;
    same(zaqnuti_easy_read_records(bytes, length + 1, &back) == ZAQNUTI_BROKEN_RECORDS, "records, one byte too many");
    same(memcmp(&back, &marked, sizeof back) == 0, "records, the epoch of a refusal");
    same(zaqnuti_easy_read_records(bytes, length, &back) == 0 && back.count == count && memcmp(&back, &epoch, sizeof back) == 0, "records, read");
}

/* Two epochs as bytes: what the displacement of the same epochs as columns gave, now and then with a byte lost. */
static void records_both(
    const zaqnuti_carrier *before, zaqnuti_size before_count, const zaqnuti_carrier *after, zaqnuti_size after_count,
    double dt, zaqnuti_vector receiver, const zaqnuti_displacement_settings *set, uint8_t wanted, const zaqnuti_moved *columns)
{
    static uint8_t p[MOST * ZAQNUTI_RECORD];
    static uint8_t c[MOST * ZAQNUTI_RECORD];
    zaqnuti_size lost = (zaqnuti_size)chance(16);
    zaqnuti_size m = put_epoch(p, before, before_count);
    zaqnuti_size n = put_epoch(c, after, after_count);
    zaqnuti_moved moved;
    uint8_t number;

    if (before_count <= 64) {
        records_there_and_back(before, before_count, p, m);
    }
    if (after_count <= 64) {
        records_there_and_back(after, after_count, c, n);
    }
    m -= lost == 1 && m > 0 ? 1 : 0;
    n -= lost == 2 && n > 0 ? 1 : 0;
    memset(&moved, 0xA5, sizeof moved);
    number = zaqnuti_easy_displacement_records(p, m, c, n, dt, receiver, set, &moved);
    met[number] += 1;
    if (m % ZAQNUTI_RECORD != 0 || n % ZAQNUTI_RECORD != 0) {
        same(number == ZAQNUTI_BROKEN_RECORDS, "records, a byte lost");
    } else {
        same(number == wanted && memcmp(&moved, columns, sizeof moved) == 0, "records, the displacement of columns");
    }
}

#endif
