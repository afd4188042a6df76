/*
 * A displacement in compass directions: reads a text of the line form
 * (docs/LINE_FORM.md) from standard input and writes how far the receiver
 * moved north or south, east or west, and up or down.
 *
 *     cc -std=c99 -Iinclude examples/compass.c target/staticlib/libzaqnuti.a -o target/compass
 *     target/compass <examples/drive/01.txt
 */
#include <stdio.h>
#include <string.h>

#include "zaqnuti.h"

/* What follows the k-th comma of a line; its end where there are fewer. */
static const char *field(const char *line, zaqnuti_size k)
{
    for (; k > 0 && *line != '\0'; line++) {
        if (*line == ',') {
            k -= 1;
        }
    }
    return line;
}

static const char hexadecimal[] = "0123456789ABCDEF";

/* The float of sixteen hexadecimal digits in upper case, which the form has. */
static double float_at(const char *digits)
{
    uint64_t bits = 0;
    double x;
    zaqnuti_size k;

    for (k = 0; k < 16; k++) {
        const char *found = strchr(hexadecimal, digits[k]);
        bits = bits * 16 + (uint64_t)(found - hexadecimal);
    }
    memcpy(&x, &bits, sizeof x);
    return x;
}

/* Metres in one of two directions. */
static void tell(double metres, const char *above, const char *below, const char *end)
{
    printf("%.3f m %s%s", metres < 0.0 ? -metres : metres, metres < 0.0 ? below : above, end);
}

int main(void)
{
    static char text[ZAQNUTI_TEXT + 2];
    char line[ZAQNUTI_LINE + 1] = "";
    zaqnuti_size length = fread(text, 1, ZAQNUTI_TEXT + 1, stdin);
    zaqnuti_size written = 0;
    double position[3];
    double delta[3];
    double ned[3];
    uint8_t number;
    zaqnuti_size k;

    /* ZAQNUTI_LINE bytes are always enough, and the byte after the line is 0. */
    number = zaqnuti_line((const uint8_t *)text, length, (uint8_t *)line, ZAQNUTI_LINE, &written);
    if (number != 0 || line[0] != 'A') {
        printf("no displacement: %s", line);
        return 0;
    }
    /* S,dt,x,y,z and A,used,screened,dx,dy,dz; an answered text has the form. */
    for (k = 0; k < 3; k++) {
        position[k] = float_at(field(text, 2 + k));
        delta[k] = float_at(field(line, 3 + k));
    }
    number = zaqnuti_north_east_down(position, delta, ned);
    if (number != 0) {
        printf("refused by %u\n", (unsigned)number);
        return 0;
    }
    tell(ned[0], "north", "south", ", ");
    tell(ned[1], "east", "west", ", ");
    tell(ned[2], "down", "up", "\n");
    return 0;
}
