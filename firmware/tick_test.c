/* Reads curves at ticks as a drive does: worked readings, both ends of a ride and both bounds of a point, each refusal also where
 * the next one holds, exact and short room, with guard words behind the answer. Prints a line for each case and fails where one
 * is not as the header says. */
#include "lean.h"

#include <inttypes.h>
#include <stdio.h>

enum { ROOM = 8, FILL = -77 };

static int cases;

/* One call on `room` words; the first three must be exactly these, or none where there is no room, and every other word as it was. */
static int check(const char *name, const int32_t *points, size_t length, uint32_t k, size_t room, int64_t number, int64_t place, int64_t reading)
{
    const int64_t want[LEAN_TICK_WORDS] = {number, place, reading};
    const int fits = room >= LEAN_TICK_WORDS;
    int64_t words[ROOM];
    uint32_t code;
    size_t i;

    for (i = 0; i < ROOM; i++) {
        words[i] = FILL;
    }
    code = lean_tick(points, length, k, words, room);
    if (code != (fits ? 0u : 1u)) {
        printf("%s: %" PRIu32 " returned\n", name, code);
        return 1;
    }
    for (i = 0; i < ROOM; i++) {
        int64_t right = fits && i < LEAN_TICK_WORDS ? want[i] : FILL;
        if (words[i] != right) {
            printf("%s: word %zu is %" PRId64 ", not %" PRId64 "\n", name, i, words[i], right);
            return 1;
        }
    }
    cases++;
    printf("%s: as it should be\n", name);
    return 0;
}

int main(void)
{
    static const int32_t four[] = {-6, 9, -2, -9};
    static const int32_t six[] = {-3, -6, -2, 5, 2, 7};
    static const int32_t seven[] = {7, -1, 5, -6, 9, 2, 0};
    static const int32_t half[] = {0, 0, 2};
    static const int32_t half_below[] = {0, 0, -2};
    static const int32_t bounds[] = {-4096, 17, 4096};
    static const int32_t longest[] = {3334, 3901, 1109, 3752, 393,  672,   3605,  2519, -1696, -2252, 2080, -1157, 4084,
                                      1449, -1145, -2636, 3962, 365, 1823, -3063, 1731, -3534, 912,   1858, 505,   0};
    static const int32_t beyond[] = {0, 4096, -4097, 5000};
    static const int32_t least[] = {INT32_MIN};
    static const int32_t greatest[] = {4096, INT32_MAX};
    static const int32_t one[] = {7};
    int bad = 0;

    bad += check("four points", four, 4, 749, 3, 0, 0, -201586);
    bad += check("six points", six, 6, 364, 3, 0, 0, -116333);
    bad += check("seven points", seven, 7, 38, 3, 0, 0, 359026);
    bad += check("25 points", longest, 25, 512, 3, 0, 0, 41143572);
    bad += check("25 points at 1", longest, 25, 1, 3, 0, 0, 219311067);
    bad += check("a half", half, 3, 2, 3, 0, 0, 1);
    bad += check("a half below 0", half_below, 3, 2, 3, 0, 0, -1);
    bad += check("the beginning, at -4096", bounds, 3, 0, 3, 0, 0, -268435456);
    bad += check("the end, at 4096", bounds, 3, LEAN_TICK_END, 3, 0, 0, 268435456);
    bad += check("one point", one, 1, 333, 3, 0, 0, 7 * LEAN_TICK_PARTS);
    bad += check("eight words", four, 4, 749, ROOM, 0, 0, -201586);
    bad += check("two words are too few", four, 4, 749, 2, 0, 0, 0);
    bad += check("no words", four, 4, 749, 0, 0, 0, 0);
    bad += check("no point", one, 0, 0, 3, LEAN_TICK_SURFACE, 0, 0);
    bad += check("no point, and k 1025", one, 0, 1025, 3, LEAN_TICK_SURFACE, 0, 0);
    bad += check("26 points", longest, LEAN_TICK_POINTS + 1, 512, 3, LEAN_TICK_SURFACE, 0, 0);
    bad += check("-4097 at index 2", beyond, 4, 5, 3, LEAN_TICK_VALUE, 2, 0);
    bad += check("-4097 at index 2, and k 1025", beyond, 4, 1025, 3, LEAN_TICK_VALUE, 2, 0);
    bad += check("the least number", least, 1, 5, 3, LEAN_TICK_VALUE, 0, 0);
    bad += check("the greatest number", greatest, 2, 5, 3, LEAN_TICK_VALUE, 1, 0);
    bad += check("k 1025", bounds, 3, 1025, 3, LEAN_TICK_MOMENT, 0, 0);
    bad += check("k 4294967295", bounds, 3, UINT32_MAX, 3, LEAN_TICK_MOMENT, 0, 0);

    printf("%d cases, %d wrong\n", cases + bad, bad);
    return bad != 0;
}
