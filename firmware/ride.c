/* One ride through the door: a request is encoded, the door answers, and its reply is decoded. The helpers are to be copied into
 * firmware. Prints the version, the answer and the points.
 *
 *   cc -std=c99 ride.c $(pkg-config --cflags --libs lean) -o ride
 */
#include "lean_door.h"

#include <limits.h>
#include <stdio.h>

/* A request: the control values and the path numbers that its degrees ask for. */
struct ride {
    uint8_t form;
    uint8_t first;
    uint8_t second;
    uint8_t n;
    uint16_t age;
    const int16_t *values;
    size_t value_count;
    const int16_t *path;
    size_t path_count;
};

/* A reply: `count` points in 0.01 mm, or the refusal's number and place. */
struct curve {
    uint8_t number;
    uint8_t place;
    uint8_t count;
    int16_t points[LEAN_MOST_POINTS];
};

/* ---- numbers of two bytes, the low byte first */

static void put_word(uint8_t *at, uint16_t word)
{
    at[0] = (uint8_t)(word & UINT8_MAX);
    at[1] = (uint8_t)(word >> CHAR_BIT);
}

static uint16_t word_at(const uint8_t *at)
{
    return (uint16_t)(at[0] | at[1] << CHAR_BIT);
}

/* A signed number is the word that has its lowest 16 bits, and back without a step that C leaves open. */
static void put_number(uint8_t *at, int16_t number)
{
    put_word(at, (uint16_t)number);
}

static int16_t number_at(const uint8_t *at)
{
    const int32_t word = word_at(at);
    return (int16_t)(word > INT16_MAX ? word - UINT16_MAX - 1 : word);
}

/* ---- a request as a record, with the age of its tilt sample */

/* Writes the record to `record` and returns its length, or 0 where it has no room. */
static size_t encode(const struct ride *ride, uint8_t *record, size_t room)
{
    const size_t length = LEAN_AGED_HEAD + 2 * (ride->value_count + ride->path_count);
    uint8_t *at = record + LEAN_AGED_HEAD;
    size_t k;

    if (room < length || length > LEAN_MOST_REQUEST) {
        return 0;
    }
    put_word(record + LEAN_AT_LENGTH, (uint16_t)length);
    put_word(record + LEAN_AT_KIND, LEAN_AGED_REQUEST);
    record[LEAN_AT_FORM] = ride->form;
    record[LEAN_AT_FIRST] = ride->first;
    record[LEAN_AT_SECOND] = ride->second;
    record[LEAN_AT_N] = ride->n;
    put_word(record + LEAN_AT_AGE, ride->age);
    for (k = 0; k < ride->value_count; k++, at += 2) {
        put_number(at, ride->values[k]);
    }
    for (k = 0; k < ride->path_count; k++, at += 2) {
        put_number(at, ride->path[k]);
    }
    return length;
}

/* ---- a reply, read back */

/* Reads `length` bytes of a reply; 0 where they are no reply. */
static int decode(const uint8_t *reply, size_t length, struct curve *curve)
{
    size_t k;

    if (length < LEAN_HEAD || word_at(reply + LEAN_AT_LENGTH) != length || word_at(reply + LEAN_AT_KIND) != LEAN_REPLY) {
        return 0;
    }
    curve->number = reply[LEAN_AT_NUMBER];
    curve->place = reply[LEAN_AT_PLACE];
    curve->count = reply[LEAN_AT_COUNT];
    if (curve->count > LEAN_MOST_POINTS || length != LEAN_HEAD + (size_t)2 * curve->count) {
        return 0;
    }
    for (k = 0; k < curve->count; k++) {
        curve->points[k] = number_at(reply + LEAN_HEAD + 2 * k);
    }
    return 1;
}

int main(void)
{
    /* a curve of degree 2 through 2, 3, -2 (0.02, 0.03 and -0.02 mm), ridden to its middle: a straight path from 0 to 512/1024 */
    static const int16_t values[] = {2, 3, -2};
    static const int16_t path[] = {0, 512};
    struct ride ride = {1, 2, 0, 1, 20, values, sizeof values / sizeof *values, path, sizeof path / sizeof *path};
    uint8_t record[LEAN_MOST_REQUEST];
    uint8_t reply[LEAN_REPLY_ROOM];
    struct curve curve;
    size_t length;
    size_t k;

    if (lean_version() / 65536 != LEAN_VERSION / 65536 || lean_version() < LEAN_VERSION) {
        printf("the archive is not for these headers\n");
        return 1;
    }
    printf("version %u.%u\n", (unsigned)(lean_version() / 65536), (unsigned)(lean_version() % 65536));
    for (;;) {
        length = encode(&ride, record, sizeof record);
        length = door_reply(record, length, reply, sizeof reply);
        if (!decode(reply, length, &curve)) {
            printf("no reply\n");
            return 1;
        }
        printf("number %u place %u points", curve.number, curve.place);
        for (k = 0; k < curve.count; k++) {
            printf(" %d", curve.points[k]);
        }
        printf("\n");
        if (curve.number != LEAN_ACCEPTED) {
            return curve.number != LEAN_STALE;
        }
        /* the same on a sample that is too old */
        ride.age = LEAN_MOST_AGE + 1;
    }
}
