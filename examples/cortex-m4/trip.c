/*
 * A drive on a small box: epochs come as carrier records of 59 bytes, one a second, with the odometer's pulses. Each displacement is
 * worked out and rated, and goes into a trip and a mileage with its pulses; those of a refused epoch count too.
 *
 *     packaging/box cortex-m4 test       builds and runs it on a bare Cortex-M4 under qemu-system-arm, and on this machine
 *     cc -std=c99 -Iinclude examples/cortex-m4/trip.c target/staticlib/libzaqnuti.a -o target/trip && target/trip
 *
 * The box keeps two epochs in columns, 16 words for the sums, and no heap. The last line is a check sum over the bits of all answers.
 */
#include <stdio.h>
#include <string.h>

#include "zaqnuti.h"

#include "records.h"

#define LIMIT 0.2 /* predicted errors of this size or more are set aside, m */
#define FUEL 9    /* millilitres over the drive */

/* The columns of an epoch. */
struct epoch {
    uint8_t constellation[MOST_RECORDS];
    uint16_t svid[MOST_RECORDS];
    uint32_t band[MOST_RECORDS];
    int32_t state[MOST_RECORDS];
    double floats[6 * MOST_RECORDS];
    zaqnuti_size count;
};

/* A displacement with its quality, or the number that refused it. */
struct moved {
    uint8_t number;
    double delta[3];
    double quality[2];
    zaqnuti_size counts[2];
};

static unsigned digit(char c)
{
    return c <= '9' ? (unsigned)(c - '0') : (unsigned)(c - 'A') + 10;
}

/* Takes the next epoch's bytes off the link, here the array of records. Returns how many there are. */
static zaqnuti_size receive(int epoch, uint8_t *bytes)
{
    static int next = 0;
    zaqnuti_size length = 0;
    int end = next + counts[epoch];
    for (; next < end; next++) {
        const char *c;
        for (c = records[next]; *c != '\0'; c += 2) {
            bytes[length++] = (uint8_t)(digit(c[0]) * 16 + digit(c[1]));
        }
    }
    return length;
}

/* Reads an epoch's bytes into its columns. Returns 0 or the number of a refusal. */
static uint8_t read_epoch(int which, struct epoch *epoch)
{
    static uint8_t bytes[MOST_RECORDS * ZAQNUTI_RECORD];
    uint64_t floats[6 * MOST_RECORDS];
    uint8_t number = zaqnuti_read_records(bytes, receive(which, bytes), epoch->constellation, MOST_RECORDS, epoch->svid, MOST_RECORDS, epoch->band,
                                          MOST_RECORDS, epoch->state, MOST_RECORDS, floats, 6 * MOST_RECORDS, &epoch->count);
    memcpy(epoch->floats, floats, sizeof floats);
    return number;
}

/* Computes how far the receiver moved between two epochs a second apart. */
static struct moved displacement(const struct epoch *p, const struct epoch *c, const double place[3])
{
    static const double settings[5] = ZAQNUTI_DISPLACEMENT_PHONE;
    struct moved moved = {0, {0.0, 0.0, 0.0}, {0.0, 0.0}, {0, 0}};
    moved.number = zaqnuti_displacement_rated(p->constellation, MOST_RECORDS, p->svid, MOST_RECORDS, p->band, MOST_RECORDS, p->state, MOST_RECORDS, p->floats,
                                              6 * MOST_RECORDS, p->count, c->constellation, MOST_RECORDS, c->svid, MOST_RECORDS, c->band, MOST_RECORDS, c->state,
                                              MOST_RECORDS, c->floats, 6 * MOST_RECORDS, c->count, 1.0, place, settings, ZAQNUTI_DISPLACEMENT_ROUNDS,
                                              moved.delta, moved.quality, moved.counts);
    return moved;
}

/* Adds the bits of doubles to a check sum (FNV-1a). */
static uint64_t checked(uint64_t sum, const double *x, int count)
{
    int i;
    int k;
    for (i = 0; i < count; i++) {
        uint64_t bits = zaqnuti_pattern(x[i]);
        for (k = 0; k < 8; k++) {
            sum = (sum ^ ((bits >> (8 * k)) & 0xFF)) * 0x100000001B3u;
        }
    }
    return sum;
}

/* Adds an epoch to both sums. The trip takes only accepted displacements, the mileage every epoch. */
static uint8_t add(uint64_t trip[6], uint64_t mileage[10], struct moved *moved, uint16_t ticks)
{
    if (moved->number == 0) {
        moved->number = zaqnuti_trip_add(trip, moved->delta, ticks);
    }
    return zaqnuti_mileage_add(mileage, moved->number, moved->delta, moved->quality, ticks);
}

static void print_epoch(int which, const struct moved *moved, uint64_t millimetres, uint16_t ticks)
{
    if (moved->number != 0) {
        printf("%2d: refused by %u, %u pulses\n", which, (unsigned)moved->number, (unsigned)ticks);
    } else {
        printf("%2d: %5lu mm, %u pulses; %lu used, %lu screened\n", which, (unsigned long)millimetres, (unsigned)ticks, (unsigned long)moved->counts[0],
               (unsigned long)moved->counts[1]);
    }
}

/* Prints the totals of the drive. Returns 0 or the number of a refusal. */
static uint8_t print_sums(const uint64_t trip[6], const uint64_t mileage[10])
{
    uint64_t report[4];
    uint64_t totals[7];
    uint64_t distance;
    uint64_t fuel;
    uint8_t number = zaqnuti_trip_report(trip, report);
    if (number == 0) number = zaqnuti_mileage_report(mileage, totals);
    if (number == 0) number = zaqnuti_mileage_distance(mileage, &distance);
    if (number == 0) number = zaqnuti_mileage_fuel(mileage, FUEL, &fuel);
    if (number != 0) return number;
    printf("trip: carrier %lu mm, odometer %lu mm, at most %lu mm apart, after epoch %lu\n", (unsigned long)report[0], (unsigned long)report[1],
           (unsigned long)report[2], (unsigned long)report[3]);
    printf("mileage: %lu epochs, %lu refused, %lu set aside; %lu mm counted with %lu of %lu pulses\n", (unsigned long)totals[0], (unsigned long)totals[1],
           (unsigned long)totals[2], (unsigned long)totals[3], (unsigned long)totals[4], (unsigned long)totals[6]);
    printf("distance %lu mm, %lu ml a kilometre\n", (unsigned long)distance, (unsigned long)fuel);
    return 0;
}

int main(void)
{
    static struct epoch epochs[2];
    uint64_t trip[6];
    uint64_t mileage[10];
    uint64_t sum = 0xCBF29CE484222325u;
    int i;
    uint8_t number = zaqnuti_trip_start(PULSES_PER_KM, trip);
    if (number == 0) number = zaqnuti_mileage_start(LIMIT, mileage);
    if (number == 0) number = read_epoch(0, &epochs[0]);
    for (i = 1; i < EPOCHS && number == 0; i++) {
        struct moved moved;
        uint64_t before = trip[2];
        number = read_epoch(i, &epochs[i % 2]);
        if (number != 0) break;
        moved = displacement(&epochs[(i - 1) % 2], &epochs[i % 2], places[i - 1]);
        number = add(trip, mileage, &moved, pulses[i]);
        print_epoch(i, &moved, trip[2] - before, pulses[i]);
        sum = checked(checked(sum, moved.delta, 3), moved.quality, 2);
    }
    if (number == 0) number = print_sums(trip, mileage);
    if (number != 0) {
        printf("the drive is refused by %u\n", (unsigned)number);
        return 1;
    }
    printf("bits of all answers %08lX%08lX\n", (unsigned long)(sum >> 32), (unsigned long)(sum & 0xFFFFFFFFu));
    return 0;
}
