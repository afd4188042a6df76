/*
 * A drive under a bridge, as a trip and as a mileage side by side.
 *
 *     cc -std=c99 -Iinclude examples/bridge.c target/staticlib/libzaqnuti.a -o target/bridge && target/bridge
 *
 * A van goes 10 m a second with 40 pulses in each. From second 21 to 40 it is under a bridge: the sky hides, no displacement is found
 * (refusal 7), and the odometer goes on. In second 41 the carriers are back with a bad geometry, and the displacement is wrong by 3 m.
 * Then the van waits 10 s at a light, where the carriers still move by 5 mm in a second, and goes on.
 *
 * Prints both figures; the trip's fuel is for the kilometres that the sky showed, the mileage's for those of the drive.
 */
#include <stdio.h>

#include "zaqnuti_easy.h"

#define SECONDS 120
#define FUEL 110 /* millilitres over the whole drive */

/* Prints why a call was refused. Returns whether it was. */
static int refused(const char *call, uint8_t number)
{
    if (number != 0) fprintf(stderr, "%s: %s\n", call, zaqnuti_refusal_text(number));
    return number != 0;
}

/* Adds one second of the drive to both. */
static uint8_t second(int at, zaqnuti_trip *trip, zaqnuti_mileage *mileage)
{
    const int under = at > 20 && at <= 40;
    const int waits = at > 60 && at <= 70;
    const uint16_t pulses = waits ? 0 : 40;
    zaqnuti_vector delta = {10.0, 0.0, 0.0};
    double pdop = 2.0;
    uint8_t number;
    if (under) return zaqnuti_easy_mileage_refused(mileage, ZAQNUTI_TOO_FEW_PAIRS, pulses);
    if (waits) delta.x = 0.005;
    if (at == 41) {
        delta.x = 13.0;
        pdop = 45.0;
    }
    number = zaqnuti_easy_trip_add(trip, delta, pulses);
    return number != 0 ? number : zaqnuti_easy_mileage_add(mileage, delta, 1.2, pdop, pulses);
}

int main(void)
{
    zaqnuti_trip trip;
    zaqnuti_mileage mileage;
    zaqnuti_report report;
    zaqnuti_mileage_totals totals;
    uint64_t distance = 0;
    uint64_t trip_fuel = 0;
    uint64_t fuel = 0;
    int at;
    if (refused("start", zaqnuti_easy_trip_start(4000, &trip)) || refused("start", zaqnuti_easy_mileage_start(0.2, &mileage))) return 1;
    for (at = 1; at <= SECONDS; at++) {
        if (refused("add", second(at, &trip, &mileage))) return 1;
    }
    if (refused("report", zaqnuti_easy_trip_report(&trip, &report)) || refused("report", zaqnuti_easy_mileage_report(&mileage, &totals)) ||
        refused("distance", zaqnuti_easy_mileage_distance(&mileage, &distance)) || refused("fuel", zaqnuti_easy_trip_fuel(&trip, FUEL, &trip_fuel)) ||
        refused("fuel", zaqnuti_easy_mileage_fuel(&mileage, FUEL, &fuel))) {
        return 1;
    }
    printf("predicted error under an open sky %.3f m, after the bridge %.3f m\n", zaqnuti_easy_predicted_error(1.2, 2.0), zaqnuti_easy_predicted_error(1.2, 45.0));
    printf("%u epochs: %u refused, %u set aside; %u mm counted with %u of %u pulses, %u mm standing\n", (unsigned)totals.epochs, (unsigned)totals.refused,
           (unsigned)totals.aside, (unsigned)totals.counted, (unsigned)totals.covered, (unsigned)totals.pulses, (unsigned)totals.standing);
    printf("trip     %7u mm, %u ml a kilometre\n", (unsigned)report.carrier, (unsigned)trip_fuel);
    printf("mileage  %7u mm, %u ml a kilometre\n", (unsigned)distance, (unsigned)fuel);
    return 0;
}
