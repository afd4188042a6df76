/* The cases of north, east, down. */
#include "replay.h"

/* Place 3, displacement 3; number, north, east, down. */
bool same_directions(struct stored *s)
{
    double position[3];
    double displacement[3];
    double ned[3 + MARGIN / 8];
    uint8_t number;
    next_floats(s, position, 3);
    next_floats(s, displacement, 3);
    lend(ned, 3 * sizeof *ned);
    number = zaqnuti_north_east_down(position, displacement, ned);
    return given(number, ned, 3 * sizeof *ned) && is_number(s, number) && is_floats(s, ned, 3);
}
