/* Reading a stored case, and comparing with it. */
#include <string.h>

#include "replay.h"

#define FILL 0xA5

uint64_t next_number(struct stored *s)
{
    if (s->next == s->count) {
        s->beyond = true;
        return 0;
    }
    return s->numbers[s->next++];
}

uint8_t next_byte(struct stored *s)
{
    return (uint8_t)next_number(s);
}

uint16_t next_short(struct stored *s)
{
    return (uint16_t)next_number(s);
}

uint32_t next_word(struct stored *s)
{
    return (uint32_t)next_number(s);
}

/* The low half as it stands, since C leaves open what a cast makes of a negative number. */
int32_t next_int(struct stored *s)
{
    uint32_t low = next_word(s);
    int32_t n;
    memcpy(&n, &low, sizeof n);
    return n;
}

zaqnuti_size next_size(struct stored *s)
{
    return (zaqnuti_size)next_number(s);
}

double next_float(struct stored *s)
{
    uint64_t bits = next_number(s);
    double x;
    memcpy(&x, &bits, sizeof x);
    return x;
}

void next_floats(struct stored *s, double *floats, zaqnuti_size count)
{
    zaqnuti_size i;
    for (i = 0; i < count; i++) {
        floats[i] = next_float(s);
    }
}

void next_bytes(struct stored *s, uint8_t *bytes, zaqnuti_size count)
{
    uint64_t packed = 0;
    zaqnuti_size i;
    for (i = 0; i < count; i++) {
        packed = i % 8 == 0 ? next_number(s) : packed >> 8;
        bytes[i] = (uint8_t)packed;
    }
}

bool is_number(struct stored *s, uint64_t n)
{
    return next_number(s) == n;
}

/* Every NaN is stored as this one. */
bool is_float(struct stored *s, double x)
{
    uint64_t bits = UINT64_C(0x7FF8000000000000);
    if (x == x) {
        memcpy(&bits, &x, sizeof bits);
    }
    return is_number(s, bits);
}

bool is_floats(struct stored *s, const double *floats, zaqnuti_size count)
{
    zaqnuti_size i;
    for (i = 0; i < count; i++) {
        if (!is_float(s, floats[i])) {
            return false;
        }
    }
    return true;
}

zaqnuti_size least(zaqnuti_size a, zaqnuti_size b)
{
    return a < b ? a : b;
}

void lend(void *result, zaqnuti_size size)
{
    memset(result, FILL, (size_t)(size + MARGIN));
}

bool kept(const void *bytes, zaqnuti_size size)
{
    const uint8_t *b = bytes;
    zaqnuti_size i;
    for (i = 0; i < size; i++) {
        if (b[i] != FILL) {
            return false;
        }
    }
    return true;
}

bool given(uint8_t number, void *result, zaqnuti_size size)
{
    bool unchanged;
    if (number == 0) {
        return kept((uint8_t *)result + size, MARGIN);
    }
    unchanged = kept(result, size + MARGIN);
    memset(result, 0, (size_t)size);
    return unchanged;
}
