/*
 * Replays the stored answers of the published Rust through the entry points
 * of include/zaqnuti.h.
 *
 *     packaging/box library
 *     cc -std=c99 -Iinclude tests/replay/[a-z]*.c target/staticlib/libzaqnuti.a -o target/replay
 *     target/replay tests/answers.bin
 *
 * The file is a stream of 64-bit numbers, the least byte first, as `oracle
 * vectors` writes it. A case is
 *
 *     kind     as in the table below
 *     altered  0, or 1 where a bit of the answer is turned
 *     length   how many numbers follow
 *     numbers  what is given, then the answer; each kind's function says which
 *
 * A float is its bits, every NaN of an answer is 7FF8000000000000, and zeros
 * stand for what a refusal does not give. An altered case shows that answers
 * are compared: it has to differ.
 *
 * Prints a line for each kind, and exits with 1 where a stored case differs,
 * an altered one does not, a kind lacks either, or the stream is broken.
 *
 * A kind more is a function, its line in replay.h and its line in the table
 * here and in the oracle's (oracle/src/services/mod.rs). A number is never given
 * to another kind; 6 and 14 are free.
 */
#include <stdio.h>
#include <stdlib.h>

#include "replay.h"

struct kind {
    uint64_t number;
    const char *name;
    bool (*same)(struct stored *s);
};

static const struct kind kinds[] = {
    {1, "root", same_root},
    {2, "order", same_order},
    {3, "standins", same_standin},
    {4, "factor", same_factor},
    {5, "solve", same_solve},
    {7, "clocks", same_clocks},
    {8, "centre", same_centre},
    {9, "sigma", same_sigma},
    {10, "sight", same_sight},
    {11, "round", same_round},
    {12, "displacement", same_displacement},
    {13, "fix", same_fix},
    {15, "track", same_track},
    {16, "epoch", same_epoch},
    {17, "line", same_line},
    {18, "query", same_query},
    {19, "queries", same_queries},
    {20, "time", same_time},
    {21, "since", same_since},
    {22, "between", same_between},
    {30, "city", same_city},
    {44, "rated", same_rated},
    {23, "widen", same_widen},
    {27, "trip", same_trip},
    {45, "mileage", same_mileage},
    {33, "directory", same_directory},
    {34, "signals", same_signals},
    {35, "forget", same_forget},
    {40, "read", same_read},
    {41, "write", same_write},
    {42, "records", same_records},
    {31, "directions", same_directions},
    {28, "drive", same_drive},
    {38, "settings", same_settings},
};

#define KINDS (sizeof kinds / sizeof *kinds)

/* How many cases of a kind there were and how many differ, as they were stored and altered. */
struct tally {
    size_t cases[2];
    size_t differ[2];
};

/* A message, and the end. */
static void broken(const char *why, size_t place)
{
    fprintf(stderr, "replay: case %lu: %s\n", (unsigned long)place, why);
    exit(1);
}

/* The place of a kind in the table. */
static size_t place_of(uint64_t number, size_t place)
{
    size_t k;
    for (k = 0; k < KINDS; k++) {
        if (kinds[k].number == number) {
            return k;
        }
    }
    broken("there is no such kind", place);
    return 0;
}

/* Every byte of a file. */
static uint8_t *bytes_of(const char *path, size_t *size)
{
    FILE *file = fopen(path, "rb");
    uint8_t *bytes = NULL;
    size_t room = 0;
    size_t read = 1;
    *size = 0;
    while (file != NULL && read > 0) {
        if (*size == room) {
            room = 2 * room + 65536;
            bytes = realloc(bytes, room);
        }
        read = bytes == NULL ? 0 : fread(bytes + *size, 1, room - *size, file);
        *size += read;
    }
    if (file == NULL || bytes == NULL || ferror(file)) {
        fprintf(stderr, "replay: %s cannot be read\n", path);
        exit(1);
    }
    fclose(file);
    return bytes;
}

/* The bytes as numbers. */
static uint64_t *numbers_of(const uint8_t *bytes, size_t count)
{
    uint64_t *numbers = malloc((count + 1) * sizeof *numbers);
    size_t i;
    if (numbers == NULL) {
        fprintf(stderr, "replay: no memory\n");
        exit(1);
    }
    for (i = 0; i < 8 * count; i++) {
        numbers[i / 8] = (i % 8 == 0 ? 0 : numbers[i / 8]) | (uint64_t)bytes[i] << 8 * (i % 8);
    }
    return numbers;
}

/* One case: whether the library gives its answer, with no number missing and none too many. */
static bool replay(const struct kind *kind, struct stored *s, bool altered, size_t place)
{
    bool same = kind->same(s);
    bool whole = !s->beyond && s->next == s->count;
    if (!altered && (s->beyond || (same && !whole))) {
        broken(s->beyond ? "it has too few numbers" : "it has too many numbers", place);
    }
    return same && whole;
}

/* All cases of the stream; says which ones are not as they have to be. */
static void replay_all(struct stored *stream, struct tally *tallies)
{
    size_t place;
    for (place = 1; stream->next < stream->count; place++) {
        size_t k = place_of(next_number(stream), place);
        uint64_t altered = next_number(stream);
        uint64_t length = next_number(stream);
        struct stored one = {stream->numbers + stream->next, 0, 0, false};
        bool same;
        if (stream->beyond || altered > 1 || length > stream->count - stream->next) {
            broken("the stream is broken", place);
        }
        one.count = (size_t)length;
        stream->next += one.count;
        same = replay(&kinds[k], &one, altered == 1, place);
        tallies[k].cases[altered] += 1;
        tallies[k].differ[altered] += same ? 0 : 1;
        if (same == (altered == 1)) {
            printf("%s: case %lu, %s\n", kinds[k].name, (unsigned long)place, same ? "altered, is taken as the answer" : "differs");
        }
    }
}

/* A kind's line; whether there are cases of it and all are as they have to be. */
static bool report(const struct kind *kind, const struct tally *t)
{
    printf("%s: %lu replayed, %lu differ; %lu altered, %lu differ\n", kind->name,
        (unsigned long)t->cases[0], (unsigned long)t->differ[0], (unsigned long)t->cases[1], (unsigned long)t->differ[1]);
    if (t->cases[0] == 0 || t->cases[1] == 0) {
        printf("%s: there is no stored case, or no altered one\n", kind->name);
        return false;
    }
    return t->differ[0] == 0 && t->differ[1] == t->cases[1];
}

int main(int count, char **words)
{
    static struct tally tallies[KINDS];
    const char *path = count > 1 ? words[1] : "tests/answers.bin";
    size_t size;
    uint8_t *bytes = bytes_of(path, &size);
    struct stored stream = {NULL, 0, 0, false};
    uint64_t *numbers;
    bool good = size % 8 == 0;
    size_t k;
    numbers = numbers_of(bytes, size / 8);
    stream.numbers = numbers;
    stream.count = size / 8;
    replay_all(&stream, tallies);
    for (k = 0; k < KINDS; k++) {
        good &= report(&kinds[k], &tallies[k]);
    }
    if (size % 8 != 0) {
        fprintf(stderr, "replay: the stream ends within a number\n");
    }
    free(numbers);
    free(bytes);
    return good ? 0 : 1;
}
