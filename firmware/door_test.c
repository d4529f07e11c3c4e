/* Calls the door as the drive's firmware does, with records of both kinds: a good ride, each refusal, ages at both sides of
 * their bound, exact and short room, with guard bytes around the reply. Prints a line for each case and fails
 * where one is not as the header says. */
#include "lean_door.h"

#include <stdio.h>
#include <string.h>

enum { GUARD = 16, ROOM = 64, FILL = 0xa5 };

static int cases;

/* One call on a reply of `room` bytes between guards; the reply must be exactly `want` and every other byte as it was. */
static int check(const char *name, const uint8_t *request, size_t length, size_t room, const uint8_t *want, size_t count)
{
    uint8_t memory[GUARD + ROOM + GUARD];
    size_t k;
    size_t answered;

    memset(memory, FILL, sizeof memory);
    answered = door_reply(request, length, memory + GUARD, room);
    if (answered != count) {
        printf("%s: %zu bytes answered, not %zu\n", name, answered, count);
        return 1;
    }
    for (k = 0; k < sizeof memory; k++) {
        uint8_t right = FILL;
        if (k >= GUARD && k < GUARD + count) {
            right = want[k - GUARD];
        }
        if (memory[k] != right) {
            printf("%s: byte %ld is %02x, not %02x\n", name, (long)k - GUARD, memory[k], right);
            return 1;
        }
    }
    cases++;
    printf("%s: as it should be\n", name);
    return 0;
}

/* A refusal's reply. */
static int refused(const char *name, const uint8_t *request, size_t length, uint8_t number, uint8_t place)
{
    uint8_t want[LEAN_HEAD] = {8, 0, 0x01, 0x80, 0, 0, 0, 0};
    want[4] = number;
    want[5] = place;
    return check(name, request, length, LEAN_REPLY_ROOM, want, sizeof want);
}

int main(void)
{
    /* P1 of 01 (rule Worked rides): a straight surface from 0 to 100, ridden from end to end, on a tilt sample of this very moment */
    static const uint8_t ride[] = {18, 0, 2, 0, 1, 1, 0, 1, 0, 0, 0, 0, 100, 0, 0, 0, 0, 4};
    static const uint8_t points[] = {12, 0, 1, 0x80, 0, 0, 2, 0, 0, 0, 100, 0};
    /* P2: 2, 3, -2 */
    static const uint8_t below[] = {20, 0, 2, 0, 1, 2, 0, 1, 0, 0, 2, 0, 3, 0, 0xfe, 0xff, 0, 0, 0, 4};
    static const uint8_t below_points[] = {14, 0, 1, 0x80, 0, 0, 3, 0, 2, 0, 3, 0, 0xfe, 0xff};
    /* the longest ride: 4096 all along, r = 4, N = 6; and one path point more */
    static const uint8_t longest[] = {34, 0, 2, 0, 1, 4, 0, 6, 0, 0, 0, 16, 0, 16, 0, 16, 0, 16, 0, 16, 0, 0, 1, 0, 5,
                                      0, 0xe8, 3, 7, 0, 44, 1, 0, 4};
    static const uint8_t longest_points[LEAN_REPLY_ROOM] = {
        58, 0, 1, 0x80, 0, 0, 25, 0,  0, 16, 0, 16, 0, 16, 0, 16, 0, 16, 0, 16, 0, 16, 0, 16, 0, 16, 0, 16, 0,
        16, 0, 16, 0, 16, 0, 16, 0,   16, 0, 16, 0, 16, 0, 16, 0, 16, 0, 16, 0, 16, 0, 16, 0, 16, 0, 16, 0, 16};
    static const uint8_t too_long[] = {36, 0, 2, 0, 1, 4, 0, 7, 0, 0, 0, 16, 0, 16, 0, 16, 0, 16, 0, 16, 0, 0, 1, 0,
                                       5, 0, 0xe8, 3, 7, 0, 44, 1, 0, 4, 0, 0};
    static const uint8_t none[] = {0};
    static const uint8_t length[] = {17, 0, 2, 0, 1, 1, 0, 1, 0, 0, 0, 0, 100, 0, 0, 0, 0, 4};
    static const uint8_t other[] = {16, 0, 1, 1, 1, 1, 0, 1, 0, 0, 100, 0, 0, 0, 0, 4};
    static const uint8_t form[] = {8, 0, 1, 0, 4, 9, 9, 9};
    static const uint8_t degree[] = {8, 0, 1, 0, 2, 2, 3, 0};
    static const uint8_t body[] = {16, 0, 2, 0, 1, 1, 0, 1, 0, 0, 0, 0, 100, 0, 0, 0};
    static const uint8_t value[] = {18, 0, 2, 0, 1, 1, 0, 1, 0, 0, 0, 0, 1, 16, 0, 0, 1, 4};
    static const uint8_t parameter[] = {18, 0, 2, 0, 1, 1, 0, 1, 0, 0, 0, 0, 100, 0, 0, 0, 1, 4};
    static const uint8_t balance[] = {22, 0, 2, 0, 3, 1, 0, 0, 0, 0, 10, 0, 20, 0, 30, 0, 0, 2, 0, 1, 0xff, 0};
    /* P1 again with an age of 0 ms, and all that can be wrong with such a record */
    static const uint8_t aged[] = {18, 0, 2, 0, 1, 1, 0, 1, 0, 0, 0, 0, 100, 0, 0, 0, 0, 4};
    static const uint8_t aged_length[] = {17, 0, 2, 0, 1, 1, 0, 1, 0xfb, 0, 0, 0, 100, 0, 0, 0, 0, 4};
    static const uint8_t other_aged[] = {18, 0, 2, 1, 1, 1, 0, 1, 0xfb, 0, 0, 0, 100, 0, 0, 0, 0, 4};
    static const uint8_t reply_kind[] = {18, 0, 1, 0x80, 1, 1, 0, 1, 0, 0, 0, 0, 100, 0, 0, 0, 0, 4};
    static const uint8_t eight[] = {8, 0, 2, 0, 1, 1, 0, 1};
    static const uint8_t eight_form[] = {8, 0, 2, 0, 4, 9, 9, 9};
    static const uint8_t nine[] = {9, 0, 2, 0, 1, 1, 0, 1, 0};
    static const uint8_t nine_form[] = {9, 0, 2, 0, 4, 9, 9, 9, 0xff};
    static const uint8_t aged_form[] = {10, 0, 2, 0, 4, 9, 9, 9, 0xff, 0xff};
    static const uint8_t aged_degree[] = {10, 0, 2, 0, 2, 2, 3, 0, 0xff, 0xff};
    static const uint8_t stale_body[] = {10, 0, 2, 0, 1, 1, 0, 1, 0xfb, 0};
    static const uint8_t aged_body[] = {16, 0, 2, 0, 1, 1, 0, 1, 0xfa, 0, 0, 0, 100, 0, 0, 0};
    static const uint8_t stale_value[] = {18, 0, 2, 0, 1, 1, 0, 1, 0xfb, 0, 0, 0, 1, 16, 0, 0, 1, 4};
    static const uint8_t aged_value[] = {18, 0, 2, 0, 1, 1, 0, 1, 0xfa, 0, 0, 0, 1, 16, 0, 0, 1, 4};
    static const uint8_t aged_parameter[] = {18, 0, 2, 0, 1, 1, 0, 1, 0xfa, 0, 0, 0, 100, 0, 0, 0, 1, 4};
    static const uint8_t stale_balance[] = {22, 0, 2, 0, 3, 1, 0, 0, 0xfb, 0, 10, 0, 20, 0, 30, 0, 0, 2, 0, 1, 0xff, 0};
    static const uint8_t aged_balance[] = {22, 0, 2, 0, 3, 1, 0, 0, 0xfa, 0, 10, 0, 20, 0, 30, 0, 0, 2, 0, 1, 0xff, 0};
    /* no age means old, before all that can be wrong with a body; a form, a degree or a length that is wrong comes first */
    static const uint8_t no_age[] = {16, 0, 1, 0, 1, 1, 0, 1, 0, 0, 100, 0, 0, 0, 0, 4};
    static const uint8_t no_age_length[] = {15, 0, 1, 0, 1, 1, 0, 1, 0, 0, 100, 0, 0, 0, 0, 4};
    static const uint8_t no_age_body[] = {14, 0, 1, 0, 1, 1, 0, 1, 0, 0, 100, 0, 0, 0};
    static const uint8_t no_age_value[] = {16, 0, 1, 0, 1, 1, 0, 1, 1, 16, 100, 0, 0, 0, 0, 4};
    static const uint8_t no_age_balance[] = {20, 0, 1, 0, 3, 1, 0, 0, 10, 0, 20, 0, 30, 0, 0, 2, 0, 1, 0xff, 0};
    static const struct {
        const char *name;
        uint8_t low;
        uint8_t high;
        int stale;
    } ages[] = {
        {"age 0", 0, 0, 0},
        {"age 1, low byte first", 1, 0, 0},
        {"age 249", 249, 0, 0},
        {"age 250", 250, 0, 0},
        {"age 251", 251, 0, 1},
        {"age 252", 252, 0, 1},
        {"age 255", 255, 0, 1},
        {"age 256, low byte first", 0, 1, 1},
        {"age 506, 250 in its low byte", 250, 1, 1},
        {"age 32768", 0, 128, 1},
        {"age 64000, 250 in its high byte", 0, 250, 1},
        {"age 65535", 255, 255, 1},
    };
    size_t k;
    int bad = 0;

    bad += check("a good ride", ride, sizeof ride, ROOM, points, sizeof points);
    bad += check("a good ride in 58 bytes", ride, sizeof ride, LEAN_REPLY_ROOM, points, sizeof points);
    bad += check("57 bytes are too few", ride, sizeof ride, LEAN_REPLY_ROOM - 1, points, 0);
    bad += check("no room", ride, sizeof ride, 0, points, 0);
    bad += check("points below 0", below, sizeof below, ROOM, below_points, sizeof below_points);
    bad += check("the longest ride in 58 bytes", longest, sizeof longest, LEAN_REPLY_ROOM, longest_points, sizeof longest_points);
    bad += refused("N = 7", too_long, sizeof too_long, LEAN_DEGREE, 0);
    bad += refused("no bytes", none, 0, LEAN_FRAME, 0);
    bad += refused("seven bytes", ride, 7, LEAN_FRAME, 0);
    bad += refused("another length", length, sizeof length, LEAN_FRAME, 0);
    bad += refused("another kind", other, sizeof other, LEAN_FRAME, 0);
    bad += refused("form 4", form, sizeof form, LEAN_KIND, 0);
    bad += refused("degrees (2, 3)", degree, sizeof degree, LEAN_DEGREE, 0);
    bad += refused("a short body", body, sizeof body, LEAN_FRAME, 0);
    bad += refused("4097 at index 1, and 1025", value, sizeof value, LEAN_VALUE, 1);
    bad += refused("1025 at index 1", parameter, sizeof parameter, LEAN_PARAMETER, 1);
    bad += refused("512, 256, 255", balance, sizeof balance, LEAN_BALANCE, 0);

    for (k = 0; k < sizeof ages / sizeof ages[0]; k++) {
        uint8_t record[sizeof aged];
        memcpy(record, aged, sizeof record);
        record[8] = ages[k].low;
        record[9] = ages[k].high;
        if (ages[k].stale) {
            bad += refused(ages[k].name, record, sizeof record, LEAN_STALE, 0);
        } else {
            bad += check(ages[k].name, record, sizeof record, LEAN_REPLY_ROOM, points, sizeof points);
        }
    }
    bad += check("57 bytes are too few for a stale ride", stale_value, sizeof stale_value, LEAN_REPLY_ROOM - 1, points, 0);
    bad += refused("another length, stale", aged_length, sizeof aged_length, LEAN_FRAME, 0);
    bad += refused("kind 0x0102, stale", other_aged, sizeof other_aged, LEAN_FRAME, 0);
    bad += refused("the kind of a reply", reply_kind, sizeof reply_kind, LEAN_FRAME, 0);
    bad += refused("eight bytes of kind 0x0002", eight, sizeof eight, LEAN_FRAME, 0);
    bad += refused("eight bytes of kind 0x0002, form 4", eight_form, sizeof eight_form, LEAN_FRAME, 0);
    bad += refused("nine bytes of kind 0x0002", nine, sizeof nine, LEAN_FRAME, 0);
    bad += refused("nine bytes of kind 0x0002, form 4", nine_form, sizeof nine_form, LEAN_FRAME, 0);
    bad += refused("form 4, stale, no body", aged_form, sizeof aged_form, LEAN_KIND, 0);
    bad += refused("degrees (2, 3), stale, no body", aged_degree, sizeof aged_degree, LEAN_DEGREE, 0);
    bad += refused("stale, no body", stale_body, sizeof stale_body, LEAN_STALE, 0);
    bad += refused("a short body at age 250", aged_body, sizeof aged_body, LEAN_FRAME, 0);
    bad += refused("stale, and 4097", stale_value, sizeof stale_value, LEAN_STALE, 0);
    bad += refused("4097 at index 1, and 1025, at age 250", aged_value, sizeof aged_value, LEAN_VALUE, 1);
    bad += refused("1025 at index 1 at age 250", aged_parameter, sizeof aged_parameter, LEAN_PARAMETER, 1);
    bad += refused("stale, and 512, 256, 255", stale_balance, sizeof stale_balance, LEAN_STALE, 0);
    bad += refused("512, 256, 255 at age 250", aged_balance, sizeof aged_balance, LEAN_BALANCE, 0);
    bad += refused("no age", no_age, sizeof no_age, LEAN_STALE, 0);
    bad += check("57 bytes are too few without an age", no_age, sizeof no_age, LEAN_REPLY_ROOM - 1, points, 0);
    bad += refused("no age, another length", no_age_length, sizeof no_age_length, LEAN_FRAME, 0);
    bad += refused("no age, a short body", no_age_body, sizeof no_age_body, LEAN_STALE, 0);
    bad += refused("no age, 4097 at index 0", no_age_value, sizeof no_age_value, LEAN_STALE, 0);
    bad += refused("no age, and 512, 256, 255", no_age_balance, sizeof no_age_balance, LEAN_STALE, 0);

    printf("%d cases, %d wrong\n", cases + bad, bad);
    return bad != 0;
}
